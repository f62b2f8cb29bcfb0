"""A checker of the books of `caster keep`. It takes the lines that the program wrote, and what each client
did, saw and sent; it knows docs/FORMATS.md, and nothing of the program.

    read(text)                     the books: each line is one of those of FORMATS, in an order that may be
    agree(books, house)            sums: of the laps, the segments, the `end` lines and the closing lines
    compare(books, house, guests)  the same with what the clients counted: a link for each client, and a
                                   client for each link

Each raises `Wrong` where something does not hold. `check` is all three.
"""
import collections
import re

NAME = '[!-.0-9<=>@-~]{1,100}'
NUMBER = '(?:0|[1-9][0-9]*)'
ADDRESS = '[^\\x00-\\x20\\x7f]{1,100}'

# The words of an ending, and how many numbers stand behind each.
ENDINGS = {'source-end': 1, 'rover-end': 0, 'table-sent': 0, 'no-head': 0, 'bad-head': 0, 'long-head': 0,
           'method': 0, 'coding': 0, 'no-mount': 0, 'no-account': 0, 'password': 1, 'source-password': 0,
           'denied': 1, 'taken': 2, 'full': 2, 'bad-chunk': 1, 'upstream-table': 0, 'upstream': 1,
           'read-fault': 0, 'write-fault': 0, 'worn': 1, 'memory': 0}

FORMS = [
    ('from', ADDRESS), ('to', ADDRESS),
    ('asks', '[12]', 'rover|source', NAME, NAME), ('asks', '[12]', 'table', '-', NAME),
    ('rover', NAME), ('source', NAME, NUMBER), ('relay', NAME, NUMBER),
    ('segment', NAME, NUMBER, NUMBER, NUMBER, NUMBER), ('lap', NUMBER, NUMBER, NUMBER, NUMBER),
    ('end', '-|anonymous|(?:rover|source|relay):' + NAME, NUMBER, NUMBER, NUMBER, '[a-z0-9 -]+')]
NOW = [('now', 'mount', NAME, NUMBER, '-|' + NUMBER), ('now', 'workers', NUMBER, NUMBER), ('now', 'end')]
CLOSING = [('mount', NAME, NUMBER, NUMBER), ('account', NAME, NUMBER, NUMBER, NUMBER),
           ('total', NUMBER, NUMBER, NUMBER)]


def pattern(forms):
    return re.compile('|'.join(' '.join('(?:%s)' % word for word in form) for form in forms))


LINK_LINE = re.compile('(%s)\\.([1-9][0-9]*) (%s)' % (NUMBER, pattern(FORMS).pattern))
NOW_LINE = pattern(NOW)
LAST_LINE = pattern(CLOSING)


class Wrong(Exception):
    """Something does not hold."""


def wants(what, got, wanted):
    if got != wanted:
        raise Wrong('%s: wanted %s and got %s' % (what, wanted, got))


def holds(what, good):
    if not good:
        raise Wrong(what)


# ---- what the lines say

Segment = collections.namedtuple('Segment', 'mount start end sent overrun laps')
Lap = collections.namedtuple('Lap', 'start end published overrun')
End = collections.namedtuple('End', 'who sent overrun junk ending')

# What may stand before a line of each kind; None is the start of the link.
BEFORE = {'from': [None], 'to': [None], 'asks': ['from'], 'rover': ['asks'], 'source': ['asks'],
          'relay': ['to'], 'segment': ['rover', 'segment', 'lap'], 'lap': ['segment', 'lap'],
          'end': ['from', 'to', 'asks', 'rover', 'source', 'relay', 'segment', 'lap']}


class Link:
    """The lines of a link, as they came."""

    def __init__(self, name):
        self.name, self.kind = name, None
        self.peer, self.asks, self.entered, self.end = None, None, None, None
        self.segments = []

    def take(self, kind, *words):
        holds('%s: %s behind %s' % (self.name, kind, self.kind), self.kind in BEFORE[kind])
        self.kind = kind
        if kind in ('from', 'to'):
            self.peer = (kind, *words)
        elif kind == 'asks':
            self.asks = words
        elif kind in ('rover', 'source', 'relay'):
            self.entered = (kind, *words)
        elif kind == 'segment':
            self.segments.append(Segment(words[0], *map(int, words[1:]), []))
        elif kind == 'lap':
            self.segments[-1].laps.append(Lap(*map(int, words)))
        else:
            who, sent, overrun, junk, *ending = words
            self.end = End(who, int(sent), int(overrun), int(junk), ' '.join(ending))


class Books:
    """The links by their numbers, how things stood each time that it was asked, the closing lines, and the part of
    a last line that is not whole."""

    def __init__(self):
        self.links, self.closing, self.torn = {}, [], ''
        self.last = {}
        # The answers that were ended, and the words of the one that was not.
        self.stood, self.standing = [], []

    def take(self, line):
        link = LINK_LINE.fullmatch(line)
        if link:
            holds('a line of a link behind the closing lines: %s' % line, not self.closing)
            self.take_of(int(link[1]), int(link[2]), link[3].split(' '))
        elif NOW_LINE.fullmatch(line):
            holds('a line of how things stand behind the closing lines: %s' % line, not self.closing)
            self.take_now(line.split(' ')[1:])
        else:
            holds('no line of the books: %r' % line[:200], LAST_LINE.fullmatch(line))
            self.closing.append(line.split(' '))

    def take_now(self, words):
        """An answer ends with its line `end`."""
        if words == ['end']:
            self.stood.append(self.standing)
            self.standing = []
        else:
            self.standing.append(words)

    def take_of(self, caller, count, words):
        """A caller has one link at a time, and counts them."""
        last = self.last.get(caller, 0)
        if count == last + 1:
            before = self.links.get((caller, last))
            holds('%d.%d begins before the one before it ends' % (caller, count), before is None or before.end)
            self.links[caller, count] = Link('%d.%d' % (caller, count))
            self.last[caller] = count
        else:
            wants('a line of a link of the caller %d: the count' % caller, count, last)
        self.links[caller, count].take(*words)

    def ends(self):
        return [link.end for link in self.links.values() if link.end]


def is_ending(text):
    word, *numbers = text.split(' ')
    if numbers[-1:] == ['unsettled']:
        numbers.pop()
    return ENDINGS.get(word) == len(numbers) and all(re.fullmatch(NUMBER, one) for one in numbers)


def read(text, cut=False):
    """The books of this text, which is whole, or was cut anywhere."""
    books = Books()
    *lines, books.torn = text.split('\n')
    for line in lines:
        books.take(line)
    holds('the last line is cut: %r' % books.torn[:200], cut or not books.torn)
    holds('an answer has no end: %s' % books.standing, cut or not books.standing)
    for link in books.links.values():
        if link.end:
            holds('%s: no ending: %s' % (link.name, link.end.ending), is_ending(link.end.ending))
        else:
            holds('%s has no end' % link.name, cut)
    return books


# ---- what they come to

class House:
    """What the configuration says: how many workers, and in their order the mountpoints, the users of the
    accounts, and the mountpoints of the relays; and which messages a user may hear, None for all of them."""

    def __init__(self, workers, mounts, users, relays=(), hears=None):
        self.workers, self.mounts, self.users, self.relays = workers, mounts, users, relays
        self.hears = hears or {}


def who_of(entered):
    """The word of a receipt for one who was let in so."""
    if entered is None:
        return '-'
    if entered[0] == 'rover':
        return 'anonymous' if entered[1] == '-' else 'rover:' + entered[1]
    return '%s:%s' % entered[:2]


def agree_lap(link, segment, lap, low):
    """It lies in its segment, behind the one before it, and its frames were published by then."""
    holds('%s: %s lies in no place of %s' % (link.name, lap, segment[:5]),
          low <= lap.start < lap.end <= min(segment.end, lap.published))
    holds('%s: %s has more frames than places' % (link.name, lap), lap.overrun <= lap.end - lap.start)


def agree_segment(link, segment):
    low = segment.start
    for lap in segment.laps:
        agree_lap(link, segment, lap, low)
        low = lap.end
    lost = sum(lap.overrun for lap in segment.laps)
    wants('%s: frames lost in the laps of %s' % (link.name, segment.mount), lost, segment.overrun)
    places = segment.end - segment.start - sum(lap.end - lap.start for lap in segment.laps)
    holds('%s: %s has more frames sent than places' % (link.name, segment[:5]), 0 <= segment.sent <= places)


def agree_link(link, house, caller):
    """Its numbers are sums, and it is of the kind that its caller serves."""
    dialled = caller >= house.workers
    holds('%s: no such caller' % link.name, caller < house.workers + len(house.relays))
    wants('%s: its first line' % link.name, link.peer[0], 'to' if dialled else 'from')
    for segment in link.segments:
        agree_segment(link, segment)
    if link.end is None:
        return
    # A link that a relay dialled is the relay's, also where it was not let in.
    who = ('relay', house.relays[caller - house.workers]) if dialled else link.entered
    wants('%s: who ended' % link.name, link.end.who, who_of(who))
    wants('%s: frames sent' % link.name, link.end.sent, sum(one.sent for one in link.segments))
    wants('%s: frames lost' % link.name, link.end.overrun, sum(one.overrun for one in link.segments))
    if link.entered and link.entered[0] == 'relay':
        wants('%s: the mountpoint of its relay' % link.name, link.entered[1], house.relays[caller - house.workers])
    ending = link.end.ending.split(' ')
    if ending[0] == 'source-end':
        wants('%s: the claim that ended' % link.name, ending[1:], list(link.entered[2:3]))
    holds('%s: junk of one that was no source' % link.name,
          link.end.junk == 0 or link.entered and link.entered[0] != 'rover')


def claims_at(books, mount):
    return [int(link.entered[2]) for link in books.links.values()
            if link.entered and link.entered[0] != 'rover' and link.entered[1] == mount]


def closing_lines(books, house, published):
    """The closing lines that these ends make, with so many frames published."""
    lines = [['mount', mount, published[mount], len(claims_at(books, mount))] for mount in house.mounts]
    sums = collections.defaultdict(lambda: [0, 0, 0])
    for end in books.ends():
        if end.who == 'anonymous' or end.who.startswith('rover:'):
            for name in (end.who, 'total'):
                for at, more in enumerate((1, end.sent, end.overrun)):
                    sums[name][at] += more
    lines += [['account', user, *sums['rover:' + user]] for user in house.users]
    return [[str(word) for word in line] for line in lines + [['total', *sums['total']]]]


def agree_stood(books, house):
    """Each answer is of every mountpoint in its order, and of all workers; what was published never falls, and a
    mountpoint is held under one of its claims."""
    before = dict.fromkeys(house.mounts, 0)
    for stood in books.stood:
        wants('the lines of an answer', [words[:2] if words[0] == 'mount' else words[:1] for words in stood],
              [['mount', mount] for mount in house.mounts] + [['workers']])
        for _, mount, published, holder in stood[:-1]:
            holds('%s fell to %s' % (mount, published), int(published) >= before[mount])
            before[mount] = int(published)
            holds('%s is held under %s' % (mount, holder), holder == '-' or int(holder) in claims_at(books, mount))
        holds('busy workers: %s' % stood[-1], int(stood[-1][1]) <= house.workers)
        wants('all workers', stood[-1][2], str(house.workers))
    for line in books.closing[:len(house.mounts)]:
        holds('%s had fewer at the end' % line[1], before[line[1]] <= int(line[2]))


def agree(books, house):
    for (caller, _), link in books.links.items():
        agree_link(link, house, caller)
    for mount in house.mounts:
        claims = sorted(claims_at(books, mount))
        wants('the claims of ' + mount, claims, list(range(1, len(claims) + 1)))
    agree_stood(books, house)
    if not books.closing:
        return
    wants('the kinds of the closing lines', [line[0] for line in books.closing],
          ['mount'] * len(house.mounts) + ['account'] * len(house.users) + ['total'])
    published = {line[1]: int(line[2]) for line in books.closing[:len(house.mounts)]}
    wants('the mountpoints of the closing lines', list(published), list(house.mounts))
    wants('the closing lines', books.closing, closing_lines(books, house, published))
    for link in books.links.values():
        for segment in link.segments:
            holds('%s: more than was published: %s' % (link.name, segment[:5]),
                  segment.end <= published.get(segment.mount, -1))


# ---- what the clients counted

class Guest:
    """What one client did, saw and sent.

    peer     its own address, as it tells it itself
    asks     version, kind, target and user as it asked for them, or None where its head was none
    entered  None, ('rover', USER), ('source', MOUNT) or ('relay', MOUNT), by the reply that it had
    endings  each ending that may be; CLAIM in it is the number of its claim
    sent     how many frames it sent, as a source, and all of them were taken
    junk     how many bytes of it were no frame
    heard    the frames that came to a rover: a list for each base in order, (MOUNT, [(PLACE, MESSAGE)..])
    is_open  it did not read to its end: more may have been sent to it
    spans    where it is known, from which place up to which each of its segments is
    claim    where it is known, the number of its claim
    """

    def __init__(self, peer, way='from'):
        self.peer = (way, peer)
        self.asks, self.entered, self.claim, self.endings = None, None, None, ()
        self.sent, self.junk, self.heard, self.spans = 0, 0, [], None
        self.is_open = False


def compare_segment(link, guest, segment, heard, may_hear, messages):
    """Each place of the segment came, or was lost in a lap, or may not be heard."""
    places = [place for place, _ in heard]
    holds('%s: frames came in another order, or twice: %s' % (link.name, places[:50]),
          all(one < next for one, next in zip(places, places[1:])))
    lapped = {place for lap in segment.laps for place in range(lap.start, lap.end)}
    came = set(places)
    for place, message in heard:
        holds('%s: the place %d of %s came and stands in a lap, or behind or before %s'
              % (link.name, place, segment.mount, segment[:5]),
              segment.start <= place < segment.end and place not in lapped)
        wants('%s: the message of the place %d' % (link.name, place), message, messages(place))
        holds('%s: it may not hear the place %d' % (link.name, place), may_hear(message))
    for lap in segment.laps:
        lost = sum(may_hear(messages(place)) for place in range(lap.start, lap.end))
        wants('%s: frames lost in the lap from %d' % (link.name, lap.start), lap.overrun, lost)
    wanted = [place for place in range(segment.start, segment.end)
              if place not in lapped and may_hear(messages(place))]
    if guest.is_open:
        wants('%s: frames sent to it' % link.name, segment.sent, len(wanted))
        holds('%s: what came is no first part' % link.name, wanted[:len(places)] == places)
    else:
        wants('%s: frames that came of %s' % (link.name, segment.mount), places, wanted)
        wants('%s: frames sent to it' % link.name, segment.sent, len(came))


def compare_link(link, guest, house, messages):
    name = link.name
    wants('%s: what it asks for' % name, link.asks, guest.asks and tuple(map(str, guest.asks)))
    wants('%s: as what it was let in' % name, link.entered and link.entered[:2], guest.entered)
    claim = link.entered[2] if guest.entered and guest.entered[0] != 'rover' else ''
    if guest.claim is not None:
        wants('%s: its claim' % name, claim, str(guest.claim))
    wants('%s: segments' % name, [one.mount for one in link.segments], [mount for mount, _ in guest.heard])
    if guest.spans is not None:
        wants('%s: places' % name, [(one.start, one.end) for one in link.segments], guest.spans)
    user = guest.entered and guest.entered[1]
    hears = house.hears.get(user)
    for segment, (mount, heard) in zip(link.segments, guest.heard):
        compare_segment(link, guest, segment, heard, lambda message: hears is None or message in hears,
                        lambda place: messages(mount, place))
    if link.end is None:
        return
    endings = [ending.replace('CLAIM', claim) for ending in guest.endings]
    holds('%s: it ended as %s, wanted one of %s' % (name, link.end.ending, endings), link.end.ending in endings)
    if guest.junk is not None:
        wants('%s: junk' % name, link.end.junk, guest.junk)


def by_peer(books):
    links = {}
    for link in books.links.values():
        links.setdefault(link.peer, []).append(link)
    return links


def compare(books, house, guests, messages, must_end=None, strangers=False):
    """A link for each client and, but for strangers, a client for each link, and what they say of it.
    `messages` gives the message of a place of a mountpoint. Where the books were cut, `must_end` are the
    clients whose receipt is to be there."""
    links = by_peer(books)
    for guest in guests:
        found = links.get(guest.peer, [])
        ended = must_end is None or guest in must_end
        if found:
            link = found.pop(0)
            holds('%s of %s has no end' % (link.name, guest.peer), link.end or not ended)
            if link.end:
                compare_link(link, guest, house, messages)
        else:
            holds('no link of %s' % ' '.join(guest.peer), not ended)
    left = [link.name for found in links.values() for link in found]
    holds('links of nobody: %s' % left[:20], strangers or not left)
    if books.closing and not strangers:
        compare_sums(books, house, guests)


def compare_sums(books, house, guests):
    """The closing lines have what the clients counted."""
    for mount, line in zip(house.mounts, books.closing):
        sources = [one for one in guests if one.entered and one.entered[0] != 'rover' and one.entered[1] == mount]
        wanted = [str(sum(one.sent for one in sources)), str(len(sources))]
        wants('published at %s, and claims' % mount, line[2:], wanted)
    rovers = [one for one in guests if one.entered and one.entered[0] == 'rover']
    for user, line in zip([*house.users, None], books.closing[len(house.mounts):]):
        own = [one for one in rovers if user in (None, one.entered[1])]
        came = sum(len(heard) for one in own for _, heard in one.heard)
        what = 'sessions, and frames sent, of ' + (user or 'all')
        if any(one.is_open for one in own):
            wants(what, line[-3], str(len(own)))
            holds('%s: %s, and %d came' % (what, line[-2], came), came <= int(line[-2]))
        else:
            wants(what, line[-3:-1], [str(len(own)), str(came)])


def check(text, house, guests, messages):
    books = read(text)
    holds('there are no closing lines', books.closing)
    agree(books, house)
    compare(books, house, guests, messages)
    return books
