"""The receipts of `caster keep` against what each of very many clients knows: not each frame that came to it, but
the places of them, as runs. The frames themselves were compared when they came. It knows docs/FORMATS.md, and
nothing of the program.

    compare(books, visits)   a receipt for each visit, and a visit for each receipt; raises `Wrong`
"""
from books import by_peer, holds, wants


class Visit:
    """What one client did and saw.

    peer     its own address, as it tells it itself
    asks     version, kind, target and user as it asked for them
    entered  ('rover', USER) or ('source', MOUNT), by the reply that it had; None where it was refused
    endings  each ending that may be; CLAIM in it is the number of its claim; one word, where it was refused
    claim    of a source, the number of its claim; where it was refused, of the claim that stood in its way
    runs     of a rover, the places that came: pairs of a first place and the one behind the last
    low      no segment begins before this place: the frames before it had been read by others when it asked
    high     no segment begins behind this place: no frame from there on was sent when it had its reply
    most     no segment ends behind this place: no frame from there on was sent when it left
    is_open  it did not read to its end: more may have been sent to it
    """

    def __init__(self, peer):
        self.peer, self.asks, self.entered, self.claim = ('from', peer), None, None, None
        self.endings, self.runs, self.low, self.high, self.most, self.is_open = (), [], 0, 0, 0, False

    def saw(self, place):
        if self.runs and self.runs[-1][1] == place:
            self.runs[-1][1] = place + 1
        else:
            self.runs.append([place, place + 1])


def places_of(segment):
    """The places of a segment that lie in no lap, as runs."""
    runs, at = [], segment.start
    for start, end in [lap[:2] for lap in segment.laps] + [(segment.end, segment.end)]:
        if at < start:
            runs.append([at, start])
        at = end
    return runs


def first_of(runs, count):
    """So many places, the first ones of these runs."""
    some = []
    for start, end in runs:
        if count > 0:
            some.append([start, min(end, start + count)])
        count -= end - start
    return some


def length(runs):
    return sum(end - start for start, end in runs)


def compare_rover(link, visit):
    """One segment, in which each place came or lies in a lap; its user may hear all messages."""
    wants('%s: segments' % link.name, [one.mount for one in link.segments], [visit.asks[2]])
    segment = link.segments[0]
    for lap in segment.laps:
        wants('%s: frames lost in the lap from %d' % (link.name, lap.start), lap.overrun, lap.end - lap.start)
    wanted = places_of(segment)
    wants('%s: frames sent to it' % link.name, segment.sent, length(wanted))
    came = first_of(wanted, length(visit.runs)) if visit.is_open else wanted
    wants('%s: the places that came' % link.name, visit.runs, came)
    holds('%s: it begins at %d, and not from %d to %d' % (link.name, segment.start, visit.low, visit.high),
          visit.low <= segment.start <= visit.high)
    holds('%s: it ends at %d, and %d were sent' % (link.name, segment.end, visit.most), segment.end <= visit.most)


def compare_one(link, visit):
    wants('%s: what it asks for' % link.name, link.asks, tuple(map(str, visit.asks)))
    wants('%s: as what it was let in' % link.name, link.entered and link.entered[:2], visit.entered)
    if visit.entered is None:
        # The connection that held the mountpoint is told, too; which one that was no client knows.
        told = link.end.ending.split()
        wants('%s: how it was refused, and the claim' % link.name, [told[0], told[-1]],
              [visit.endings[0], str(visit.claim)])
        return wants('%s: junk' % link.name, link.end.junk, 0)
    if visit.entered[0] == 'rover':
        compare_rover(link, visit)
    else:
        wants('%s: its claim' % link.name, link.entered[2], str(visit.claim))
    endings = [ending.replace('CLAIM', str(visit.claim)) for ending in visit.endings]
    holds('%s: it ended as %s, wanted one of %s' % (link.name, link.end.ending, endings), link.end.ending in endings)
    wants('%s: junk' % link.name, link.end.junk, 0)


def compare(books, visits):
    links = by_peer(books)
    for visit in visits:
        found = links.get(visit.peer)
        holds('no link of %s' % visit.peer[1], found)
        compare_one(found.pop(0), visit)
    left = [link.name for found in links.values() for link in found]
    holds('links of nobody: %s' % left[:20], not left)
