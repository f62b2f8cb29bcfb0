"""Reads the lines of `caster keep`, whatever stands before them, and follows its connections from run to run.

A run is over behind its totals, and where another one begins. That is told by the process of the journal's lines or
by a start of the machine, and else by a connection that its worker has had already, or a claim that was given
already: so of a run that was killed, connections can be kept until each of its workers has had another one.
"""
import functools
import os
import select
import sys
import time

from lines.fronts import NONE, Calendar
from lines.grammar import LINK_FORMS, other_line

# A line that is longer is none; those of a caster have less than 1,000 bytes.
LONGEST = 65536
CHUNK = 1 << 18
BOOT = (b'-- Boot ', b'-- Reboot ')

# No front ends with this.
NOBODY = b'\n'

# The first parts of a connection's number: there are 256 workers and 16 relays at most.
CALLERS = frozenset(b'%d' % caller for caller in range(256 + 16))
ZERO = ord('0')


class Link:
    """A connection of which the lines tell. `kind` is what it was let in as, and `-` before; `front` is that of its
    first line, `entered` that of its being let in, `last` that of its last line so far. `wanted` is what its head asks
    for and `asker` whose credentials it has. `base` is the mountpoint of its last segment; `sent` and `overrun` are
    the sums of these."""

    kind, user, mount, wanted, asker = '-', b'-', b'-', b'-', b'-'
    entered, claim, base, sent, overrun = None, None, None, 0, 0
    # The front of the last line of its run, where it was cut.
    until = None

    def __init__(self, name, count, address, number, front):
        self.name, self.count, self.address, self.number, self.front = name, count, address, number, front
        self.last = front


@functools.lru_cache(1024)
def end_words(rest):
    """The words of a line `end` as of a match, with numbers read: many are alike where many are refused."""
    found = LINK_FORMS[b'end'].fullmatch(rest)
    return found and (rest, found[1], int(found[2]), int(found[3]), found[5])


@functools.lru_cache(8)
def number_of(name):
    """The worker or relay of a connection, and how many it had; none where this is no connection's number."""
    caller, _, count = name.partition(b'.')
    if caller in CALLERS and count.isdigit() and count[0] != ZERO and len(count) < 20:
        return caller, int(count)
    return None


class Listener:
    """What a word does with what the lines say. Each of these calls may be left as it is."""

    def entered(self, link):
        """It was let in."""

    def ended(self, link, who, sent, overrun, ending):
        """Its line `end` came."""

    def cut(self, links):
        """The run of these is over, or the lines are, and they have no line `end`."""

    def published(self, mount, count):
        """So many frames at least were published in this run."""

    def stands(self, form, words):
        """A line of how things stand."""

    def begins_anew(self):
        """What comes is of another run."""


class Reader:
    def __init__(self, listener, calendar=None):
        self.listener, self.calendar = listener, calendar or Calendar()
        self.number, self.strange, self.skipped = 0, 0, 0
        # The connections that are open, the last one of each worker and relay, the last claim of each mountpoint.
        self.links, self.last, self.claims, self.is_over = {}, {}, {}, False
        # Of each worker and relay the connection that the run before left open, or this one had already.
        self.doubtful = {}
        # The fronts of the first line of this run, of the line before and of this one.
        self.process, self.first, self.before, self.front = NOBODY, None, NONE, NONE
        takes = {b'from': self.take_first, b'to': self.take_first, b'asks': self.take_asks, b'rover': self.take_rover,
                 b'source': self.take_source, b'relay': self.take_relay, b'segment': self.take_segment,
                 b'lap': self.take_lap, b'end': self.take_end}
        self.takes = {kind: (form.fullmatch, takes[kind]) for kind, form in LINK_FORMS.items()}
        self.takes[b'end'] = end_words, self.take_end

    # ---- a line

    def take_all(self, lines):
        for self.number, line in enumerate(lines, self.number + 1):
            head, mark, body = line.partition(b']: ')
            if not mark:
                self.take_bare(line)
            elif not head.endswith(self.process):
                self.take_fronted(line, head, body)
            elif not self.take_known(body, head):
                self.strange += 1

    def take_fronted(self, line, head, body):
        """A line of another process than the one before."""
        front = self.calendar.front_of(head)
        if front is None:
            self.take_bare(line)
        elif front.is_other:
            self.skipped += 1
        elif not self.take_known(body, head, b' ' + head.rpartition(b' ')[2]):
            self.strange += 1

    def take_bare(self, line):
        """A line without a process in brackets before it."""
        if line.startswith(b'-- '):
            self.skipped += 1
            if line.startswith(BOOT):
                self.before = self.front
                self.begin_anew()
            return
        entry = self.calendar.of_json(line) if line.startswith(b'{') else None
        if entry is None and self.take_known(line, NONE):
            return
        front, body = entry or self.calendar.split(line)
        process = front.process and (' ' + front.process).encode('utf-8', 'replace')
        if front.is_other:
            self.skipped += 1
        elif not self.take_known(body, front, process):
            self.strange += 1
        elif self.first is None:
            self.first = front

    def take_known(self, body, front, process=None):
        """Takes a line without its front, and says whether it is one of `caster keep`. `process` is told where it may
        be another one than before."""
        words = body.split(b' ', 2)
        if len(words) == 3 and words[1] in self.takes:
            name, kind, rest = words
            words_of, take = self.takes[kind]
            found = words_of(rest)
            if found and (name in self.links or number_of(name)):
                self.before, self.front = self.front, front
                if process is not None:
                    self.see(process)
                take(name, found)
                return True
        found = other_line(body)
        if found is None or found[0] == 'report':
            return False
        self.before, self.front = self.front, front
        self.see(process)
        self.take_other(*found)
        return True

    def see(self, process):
        """A line that is known is of this process."""
        if process is not None and process != self.process:
            if self.process != NOBODY:
                self.begin_anew()
            self.process = process
        if self.first is None:
            self.first = self.front

    def known(self):
        """How many lines were known."""
        return self.number - self.strange - self.skipped

    def moment(self, front):
        """The moment of a front, where it is known."""
        if isinstance(front, bytes):
            front = self.calendar.front_of(front)
        return front.moment if front else None

    # ---- what it says

    # What is found of the words of a line begins with 1, as the groups of a match do.

    def link_of(self, name):
        """The connection of this number. Its first line may be lost, or stand before the lines, or before the one that
        told of another run."""
        link = self.links.get(name)
        if link is None:
            caller, _ = number_of(name)
            doubtful = self.doubtful.get(caller)
            if doubtful is not None and doubtful.name == name:
                self.links[name] = self.last[caller] = link = self.doubtful.pop(caller)
                link.until = None
            else:
                link = self.begin(name, b'-')
        link.last = self.front
        return link

    def begin(self, name, address):
        caller, count = number_of(name)
        before = self.last.get(caller)
        if before is not None and count <= before.count or self.is_over:
            self.begin_anew(is_sure=self.is_over)
        elif before is not None and before.name in self.links:
            self.cut([self.links.pop(before.name)])
        if caller in self.doubtful:
            self.cut([self.doubtful.pop(caller)])
        link = self.last[caller] = self.links[name] = Link(name, count, address, self.number, self.front)
        return link

    def take_first(self, name, found):
        self.begin(name, found[1])

    def take_asks(self, name, found):
        link = self.link_of(name)
        link.wanted, link.asker = found[3], found[4]

    def take_rover(self, name, found):
        link = self.link_of(name)
        self.enter(link, 'rover', found[1], link.wanted)

    def take_source(self, name, found):
        self.take_claim(self.link_of(name), 'source', found[1], int(found[2]))

    def take_relay(self, name, found):
        self.take_claim(self.link_of(name), 'relay', found[1], int(found[2]))

    def take_claim(self, link, kind, mount, claim):
        """The claims of a run are told in order, so one that is no greater than the last one is of another run."""
        if claim <= self.claims.get(mount, 0):
            self.begin_anew(link)
        self.claims[mount] = link.claim = claim
        self.enter(link, kind, b'-', mount)

    def enter(self, link, kind, user, mount):
        link.kind, link.user, link.mount, link.entered = kind, user, mount, self.front
        self.listener.entered(link)

    def take_segment(self, name, found):
        link = self.link_of(name)
        if link.kind == '-':
            link.kind = 'rover'
        link.base, link.sent, link.overrun = found[1], link.sent + int(found[4]), link.overrun + int(found[5])
        self.listener.published(found[1], int(found[3]))

    def take_lap(self, name, found):
        link = self.link_of(name)
        if link.base is not None:
            self.listener.published(link.base, int(found[3]))

    def take_end(self, name, found):
        link = self.link_of(name)
        del self.links[name]
        self.listener.ended(link, found[1], found[2], found[3], found[4])

    def take_other(self, section, form, words):
        if section == 'now':
            self.listener.stands(form, words)
        elif form.startswith('mount '):
            self.listener.published(words[0], int(words[1]))
        elif form.startswith('total '):
            self.cut_all()
            self.is_over = True

    # ---- the ends of runs

    def cut(self, links):
        for link in links:
            link.until = link.until or self.before
        if links:
            self.listener.cut(links)

    def cut_all(self):
        links = [*self.doubtful.values(), *self.links.values()]
        self.doubtful, self.links = {}, {}
        self.cut(links)

    def begin_anew(self, link=None, is_sure=True):
        """Another run began with this connection, or begins with this line: who came before is gone. Where only a number
        of a connection tells it, some of them may have come in the new run already."""
        kept = [one for one in self.links.values() if link is not None and one.number >= link.number]
        for one in kept:
            del self.links[one.name]
        left = {} if is_sure else {one.name.partition(b'.')[0]: one for one in self.links.values()}
        self.links = {} if left else self.links
        self.cut_all()
        for one in left.values():
            one.until, one.claim = self.before, None
        self.links, self.doubtful = {one.name: one for one in kept}, left
        self.last = {one.name.partition(b'.')[0]: one for one in kept}
        self.claims = {one.mount: one.claim for one in kept if one.claim is not None}
        self.is_over = False
        self.first = self.front if link is None else link.front
        self.listener.begins_anew()

    def end(self):
        """The lines are over, and perhaps the run is not."""
        self.before = self.front
        self.cut_all()


# ---- where the lines come from

class Splitter:
    """Cuts bytes into lines. One that is too long, or that has no end, comes as a line that nobody knows."""

    UNKNOWN = b'?'

    def __init__(self):
        self.left, self.is_long = b'', False

    def lines(self, data):
        lines = (self.left + data).split(b'\n')
        self.left = lines.pop()
        if lines and self.is_long:
            lines[0], self.is_long = self.UNKNOWN, False
        if len(self.left) > LONGEST:
            self.left, self.is_long = b'', True
        return lines

    def rest(self):
        return [self.UNKNOWN] if self.left or self.is_long else []


def chunks(file):
    """The bytes of a file or pipe, as they come."""
    while True:
        data = os.read(file, CHUNK)
        if not data:
            return
        yield data


def read_all(reader, paths):
    """Takes all lines of these files, or of standard input."""
    for path in paths or [None]:
        file, splitter = 0 if path is None else os.open(path, os.O_RDONLY), Splitter()
        for data in chunks(file):
            reader.take_all(splitter.lines(data))
        reader.take_all(splitter.rest())
        if path is not None:
            os.close(file)


def follow(reader, write):
    """Takes the lines of standard input, and writes a second behind one at the latest, and at the end."""
    splitter, due = Splitter(), None
    while True:
        wait = None if due is None else max(0, due - time.monotonic())
        if select.select([0], [], [], wait)[0]:
            data = os.read(0, CHUNK)
            if not data:
                break
            lines = splitter.lines(data)
            reader.take_all(lines)
            if lines and due is None:
                due = time.monotonic() + 1
        if due is not None and time.monotonic() >= due:
            write()
            due = None
    reader.take_all(splitter.rest())
    write()


def put(path, text):
    """Writes a file by another name first, so that nobody reads half of it."""
    with open(path + '.new', 'w') as file:
        file.write(text)
    os.chmod(path + '.new', 0o644)
    os.rename(path + '.new', path)


# ---- what is said of the lines

def fault_of(reader, name):
    """What is to be said where lines came and none was known."""
    if reader.strange and not reader.known():
        return '%s: none of %d line%s is one of caster keep: try journalctl -o short-iso' % (
            name, reader.strange, '' if reader.strange == 1 else 's')
    return None


def say(text):
    print(text, file=sys.stderr, flush=True)


def usage(name, about):
    say('usage of %s:\n\n%s' % (name, about.strip()))
    return 2


def write(data):
    """To standard output, whatever bytes they are."""
    sys.stdout.buffer.write(data)


def finish(reader, name):
    """Says what was passed over; the status of the word."""
    fault = fault_of(reader, name)
    if fault:
        say(fault)
        return 1
    if reader.strange:
        say('%s: passed over %d of %d lines, which are none of caster keep'
            % (name, reader.strange, reader.strange + reader.known()))
    return 0


def keep(reader, name, write):
    """Takes the lines of standard input as they come and has what they say written; the status of the word. Where none
    of them is known it says so once, as soon as that is so."""
    said = []

    def written():
        write()
        fault = fault_of(reader, name)
        if fault and not said:
            say(fault)
            said.append(fault)
    follow(reader, written)
    if said:
        return 1 if fault_of(reader, name) else 0
    return finish(reader, name)
