"""How a caster stands, by its lines: what the page shows and `state.json` has.

Times are seconds since 1970, and spans are seconds. Where the lines do not tell a value it is none. A line without a
time counts as of when it is read.
"""
import time
from collections import Counter, deque

from lines import reader
from lines.who import host_of, is_refused

SECOND = 1_000_000
HOUR = 3600 * SECOND

# So many connections that ended, and that were refused, are remembered.
MOST_ROWS = 50

# Places of a curve are so far from each other at least.
APART = 30 * SECOND


class Mount:
    """A mountpoint, by the answers to `status`. `holder` is the claim that the last one named; `quiet` is the time of
    the first answer from which on all had the same number of frames."""

    def __init__(self, name):
        self.name, self.holder, self.quiet, self.published = name, None, None, None
        # The last two answers, and those of the last hour, each with its run: a time and how many frames there were.
        self.answers, self.curve = deque(maxlen=2), deque()

    def begin_anew(self):
        self.answers.clear()
        self.holder = self.quiet = self.published = None

    def take(self, at, count, run):
        if count != self.published:
            self.quiet, self.published = at, count
        last = self.answers[-1] if self.answers else None
        # Two answers of one second, as times of whole seconds have them, are one.
        if last is None or at - last[0] >= SECOND:
            self.answers.append((at, count))
        curve, point = self.curve, (at, count, run)
        if len(curve) > 1 and curve[-2][2] == run and curve[-1][0] - curve[-2][0] < APART:
            curve[-1] = point
        else:
            curve.append(point)
        while len(curve) > 1 and curve[1][0] <= at - HOUR:
            curve.popleft()

    def rate(self):
        """Frames a second between the last two answers."""
        if len(self.answers) < 2:
            return None
        (start, before), (end, behind) = self.answers
        return (behind - before) * SECOND / (end - start) if end > start else None

    def silence(self):
        """The seconds up to the last answer for which no frame more was there."""
        return max(0, self.answers[-1][0] - self.quiet) // SECOND if self.answers else None

    def rates(self):
        """The frames a second of the last hour, each with the times between which they are so."""
        points = list(self.curve)
        return [(start[0], end[0], (end[1] - start[1]) * SECOND / (end[0] - start[0]))
                for start, end in zip(points, points[1:])
                if start[2] == end[2] and end[0] > start[0] and end[1] >= start[1]]


class State(reader.Listener):
    """What the lines said so far."""

    def __init__(self, clock=time.time):
        self.clock, self.reader, self.run = clock, reader.Reader(self), 0
        self.mounts, self.told, self.workers, self.answered = {}, set(), None, None
        self.relays, self.ended_rows, self.refused_rows = {}, deque(maxlen=MOST_ROWS), deque(maxlen=MOST_ROWS)
        # Refusals of this run by ending, and of the last hour by minutes.
        self.refusals, self.minutes = Counter(), deque()

    def time_of(self, front):
        """The time of a line with this front, as far as it has one."""
        moment = self.reader.moment(front)
        return moment.at if moment else None

    def now(self):
        """The time of the line that is read."""
        at = self.time_of(self.reader.front)
        return int(self.clock() * SECOND) if at is None else at

    def mount(self, name):
        if name not in self.mounts:
            self.mounts[name] = Mount(name)
        return self.mounts[name]

    # ---- what the lines say

    def entered(self, link):
        link.entered = self.now()
        if link.claim is not None:
            self.mount(link.mount).holder = None
            self.relays.pop(link.mount, None)

    def ended(self, link, who, sent, overrun, ending):
        kind, _, name = who.partition(b':')
        text = ending.decode()
        if kind == b'-' and is_refused(text.partition(' ')[0]):
            self.refuse(link, text)
        elif kind in (b'rover', b'anonymous'):
            self.remember(link, 'rover', name, link.base or link.wanted, sent, overrun, text)
        elif kind in (b'source', b'relay'):
            self.mount(name).holder = None
            if kind == b'relay':
                at, tries = self.now(), self.relays.get(name, (0, 0, ''))[1] + (link.kind == '-')
                self.relays[name] = at, tries, text
            if kind == b'source' or link.kind != '-':
                self.remember(link, kind.decode(), b'', name, None, None, text)

    def remember(self, link, kind, user, mount, sent, overrun, ending, at=None):
        row = {'at': self.now() if at is None else at, 'kind': kind, 'user': user, 'address': link.address,
               'mount': mount, 'since': link.entered, 'sent': sent, 'lost': overrun, 'ending': ending}
        self.ended_rows.appendleft(row)

    def refuse(self, link, ending):
        at = self.now()
        # A million of them a day may come: what is shown is made of the last ones alone.
        self.refused_rows.appendleft((at, link.address, link.asker, link.wanted, ending))
        self.refusals[ending.partition(' ')[0]] += 1
        minute = at // (60 * SECOND)
        if not self.minutes or self.minutes[-1][0] != minute:
            self.minutes.append([minute, 0])
            while len(self.minutes) > 60:
                self.minutes.popleft()
        self.minutes[-1][1] += 1

    def cut(self, links):
        """Their run is over, and they have no receipt: a kill, or the lines that told of their ends are lost."""
        for link in links:
            if link.kind == 'rover':
                sent = link.sent if link.base else None
                self.remember(link, 'rover', link.user, link.base or link.wanted,
                              sent, sent and link.overrun, '', self.time_of(link.until))
            elif link.kind != '-':
                self.remember(link, link.kind, b'', link.mount, None, None, '', self.time_of(link.until))

    def begins_anew(self):
        self.run += 1
        self.workers, self.answered = None, None
        self.told, self.relays = set(), {}
        self.refusals.clear()
        for mount in self.mounts.values():
            mount.begin_anew()

    def stands(self, form, words):
        at = self.now()
        if form == 'now end':
            self.answered = at
            # What an answer does not name is no mountpoint of this run.
            self.mounts = {name: mount for name, mount in self.mounts.items() if name in self.told}
            self.told = set()
        elif form.startswith('now workers '):
            self.workers = int(words[0]), int(words[1])
        else:
            mount = self.mount(words[0])
            self.told.add(words[0])
            mount.holder = None if words[2] == b'-' else int(words[2])
            if words[1] != b'-':
                mount.take(at, int(words[1]), self.run)

    # ---- what it comes to

    def holders(self):
        """Who holds a mountpoint, as far as lines told of a claim: the one that was told the last one."""
        return {link.mount: link for link in self.reader.links.values()
                if link.claim is not None and link.claim == self.reader.claims.get(link.mount)}

    def refused_within(self, at):
        """How many were refused in the hour before this time."""
        return sum(count for minute, count in self.minutes if minute > at // (60 * SECOND) - 60)

    def told_now(self):
        """All of it, as it goes into `state.json`."""
        at = self.now()
        holders = self.holders()
        for name in holders:
            self.mount(name)
        rovers = Counter(link.wanted for link in self.reader.links.values() if link.kind == 'rover')
        is_whole = self.answered is not None
        mounts = [self.mount_row(mount, holders.get(name), rovers[name], at) for name, mount in self.mounts.items()]
        near = [{'name': text_of(name), 'is_near': True, 'rovers': count} for name, count in sorted(rovers.items())
                if name not in self.mounts and is_whole]
        return {'at': seconds(at), 'written': int(self.clock()), 'caster': self.caster_row(at), 'mounts': mounts + near,
                'connections': [self.link_row(link, at) for link in self.reader.links.values()],
                'ended': [told_row(row) for row in self.ended_rows],
                'refused': [{'at': seconds(at), 'address': text_of(host_of(address)), 'user': text_of(user),
                             'mount': text_of(mount), 'ending': ending}
                            for at, address, user, mount, ending in self.refused_rows]}

    def caster_row(self, at):
        busy, workers = self.workers or (None, None)
        return {'is_serving': not self.reader.is_over, 'since': seconds(self.time_of(self.reader.first)),
                'is_first_run': self.run < 2, 'workers': workers, 'busy': None if self.reader.is_over else busy,
                'answered': seconds(self.answered), 'refused': sum(self.refusals.values()),
                'refused_in_an_hour': self.refused_within(at), 'refusals': dict(self.refusals),
                'passed_over': self.reader.strange}

    def mount_row(self, mount, link, rovers, at):
        row = {'name': text_of(mount.name), 'is_near': False, 'is_held': False, 'holder': None, 'claim': None,
               'address': None, 'since': None, 'published': mount.published,
               'rate': mount.rate(), 'silent': mount.silence(), 'rovers': rovers, 'relay': None,
               'curve': [[seconds(start), seconds(end), round(rate, 3)] for start, end, rate in mount.rates()
                         if end > at - HOUR]}
        if link is not None:
            row.update(is_held=True, holder=link.kind, claim=link.claim, address=text_of(link.address),
                       since=seconds(link.entered))
        elif mount.holder is not None and mount.name not in self.reader.claims:
            # Its line stands before those that are read.
            row.update(is_held=True, claim=mount.holder)
        if mount.name in self.relays:
            last, tries, ending = self.relays[mount.name]
            row['relay'] = {'at': seconds(last), 'tries': tries, 'ending': ending}
        return row

    def link_row(self, link, at):
        first = self.time_of(link.front) if link.entered is None else link.entered
        # What it was sent its segments tell, and only they.
        is_told = link.kind == 'rover' and link.base is not None
        return {'number': text_of(link.name), 'kind': None if link.kind == '-' else link.kind,
                'user': text_of(link.user), 'address': text_of(link.address), 'mount': text_of(link.wanted if link.claim is None else link.mount),
                'base': is_told and text_of(link.base) or None, 'since': seconds(first),
                'sent': link.sent if is_told else None, 'lost': link.overrun if is_told else None}


def seconds(at):
    return None if at is None else at // SECOND


def text_of(word):
    """A word of a line; none where it is `-`."""
    return None if word in (b'-', b'') else word.decode('utf-8', 'replace')


def told_row(row):
    """A remembered row, with times in seconds and words as texts."""
    return {name: seconds(value) if name in ('at', 'since') else text_of(value) if isinstance(value, bytes) else value
            for name, value in row.items()}
