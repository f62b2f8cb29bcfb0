"""Cases of `caster serve`, `fetch` and `record` with real sockets. Each is a function whose text says what
it tries; it is wrong where it raises something.

A caster that serves: each worker serves one connection at a time, and so many as LIMIT says. With LIMIT 1
and a worker for each connection of the case all connections are served at the same time, and the program
ends when the last of them has. One worker with a larger LIMIT serves them one after the other.

A caster that records serves as many connections as LIMIT says, all at the same time, and gives them numbers
in the order in which they come. It ends when all of them have ended, and only then closes their sockets.
"""
import os
import select
import socket
import struct
import subprocess
import sys
import tempfile
import threading
import time
import traceback

from wire import *

# The longest that all cases may take, in seconds.
LONGEST = 110

EXAMPLE = open('examples/caster.toml').read()

# The account of the example, and two positions: at ALPHA, and at BRAVO.
ROVER1 = basic('rover1', 'secret')
AT_ALPHA = report('4807.038,N', '01131.000,E')
AT_BRAVO = report('4812.000,N', '01131.000,E')

TABLE = (b'NET;FIELD;Example Surveys;B;N;http://www.example.org;none;none;none\r\n'
         b'STR;ALPHA;Munich;RTCM 3.3;1005(10),1077(1),1087(1);2;GPS+GLO;FIELD;DEU;48.11;11.51;0;0;;none;N;N;0;\r\n'
         b'STR;BRAVO;BRAVO;RTCM 3.3;;2;GPS;;;48.20;11.51;0;0;;none;B;N;0;\r\n'
         b'STR;NEAR;NEAR;RTCM 3.3;1005(10),1077(1),1087(1);2;GPS+GLO;FIELD;DEU;48.11;11.51;1;1;;none;B;N;0;\r\n'
         b'ENDSOURCETABLE\r\n')

RELAY = '''[[relay]]
mount = "%s"
address = "%s"
upstream = "%s"
protocol = %d
user = "rover1"
password = "secret"
'''

casters = []


def example(workers, relays='', ring=256):
    """The example's configuration with so many workers, with these relays in place of its own, and with
    rings of so many frames."""
    front, behind = EXAMPLE.split('# The frames of BRAVO are pulled')
    text = front + relays + behind[behind.index('# Rovers without credentials'):]
    for old, new in [('workers = 4', 'workers = %d' % workers), ('ring = 256', 'ring = %d' % ring)]:
        if old not in text:
            raise Wrong('no %s in the example' % old)
        text = text.replace(old, new)
    return text


def serve(config, limit=1, addr=None, descriptors=None):
    caster = Caster(config, limit, addr, descriptors=descriptors)
    casters.append(caster)
    return caster


# ---- sessions

def sessions_of_version_1():
    """A source and two rovers of version 1. The frames come in pieces, with bytes between them that are
    none; the rover without credentials is given those of two messages alone."""
    caster = serve(example(3))
    source = caster.client().send(source_1('ALPHA', 'sesame')).expect(ICY)
    named = caster.client().send(rover_1('ALPHA', ROVER1)).expect(ICY)
    unnamed = caster.client().send(rover_1('ALPHA')).expect(ICY)
    stream = A + b'no frame' + Z + B
    for at in range(0, len(stream), 5):
        source.send(stream[at:at + 5])
    named.expect(A + Z + B)
    unnamed.expect(A + B)
    source.close()
    named.close()
    unnamed.close()
    caster.ends_with(['mount ALPHA 3 1', 'mount BRAVO 0 0', 'account rover1 1 3 0', 'total 2 5 0'])


def sessions_of_version_2():
    """A source of version 2 whose body is as it is, and one whose body comes in chunks and ends by
    itself; rovers of both versions, those of version 2 served in chunks."""
    caster = serve(example(5))
    plain = caster.client().send(source_2('BRAVO', 'open')).expect(SOURCE_2_OK)
    chunked = caster.client().send(source_2('ALPHA', 'sesame', 'Transfer-Encoding: chunked'))
    chunked.expect(SOURCE_2_OK)
    second = caster.client().send(rover_2('ALPHA', ROVER1)).expect(ROVER_2_OK)
    first = caster.client().send(rover_1('ALPHA')).expect(ICY)
    other = caster.client().send(rover_2('BRAVO', ROVER1)).expect(ROVER_2_OK)
    plain.send(A + B + A)
    long = frame(1005, 7, 1000)
    chunked.send(b'3;name=value\r\n' + A[:3] + b'\r\n' + b'05\r\n' + A[3:] + b'\r\n')
    chunked.send(b'%X\r\n' % len(Z + long) + Z + long + b'\r\n0\r\nTrailer: x\r\n\r\n')
    chunked.expect_end()
    second.expect(chunk(A) + chunk(Z) + chunk(long))
    first.expect(A + long)
    other.expect(chunk(A) + chunk(A))
    for one in (plain, second, first, other):
        one.close()
    caster.ends_with(['mount ALPHA 3 1', 'mount BRAVO 3 1', 'account rover1 2 5 0', 'total 3 7 0'])


def near_rover():
    """A rover of NEAR reports that it is at ALPHA and is given the frames of ALPHA; then it reports that
    it is at BRAVO, and is given those of BRAVO, of which its group may hear message 1005 alone."""
    caster = serve(example(3))
    alpha = caster.client().send(source_1('ALPHA', 'sesame')).expect(ICY)
    bravo = caster.client().send(source_1('BRAVO', 'open')).expect(ICY)
    rover = caster.client().send(rover_1('NEAR', ROVER1) + AT_ALPHA.encode() + b'\r\n').expect(ICY)
    alpha.send(A + B)
    rover.expect(A + B)
    rover.send(AT_BRAVO.encode() + b'\r\n')
    # Nothing says when the report has come. From then on each second one of these is sent to the rover.
    published = []
    rover.socket.settimeout(0.05)
    while not rover.came:
        published += [frame(1005, len(published)), frame(1077, len(published) + 1)]
        bravo.send(b''.join(published[-2:]))
        try:
            rover.came += rover.socket.recv(65536)
        except socket.timeout:
            pass
        if len(published) > 2 * PATIENCE / 0.05:
            raise Wrong('nothing comes from BRAVO')
    rover.socket.settimeout(PATIENCE)
    body = rover.receive_until(published[-2])
    places = places_in(body)
    if places != list(range(places[0], len(published), 2)):
        raise Wrong('the rover was given the frames %s of %d' % (places, len(published)))
    for one in (alpha, bravo, rover):
        one.close()
    caster.ends_with(['mount ALPHA 2 1', 'mount BRAVO %d 1' % len(published),
                      'account rover1 1 %d 0' % (2 + len(places)), 'total 1 %d 0' % (2 + len(places))])


def near_rover_of_version_2():
    """The head of a rover says where it is, so it is given its base with the first frame."""
    caster = serve(example(2))
    bravo = caster.client().send(source_1('BRAVO', 'open')).expect(ICY)
    rover = caster.client().send(rover_2('NEAR', ROVER1, 'Ntrip-GGA: ' + AT_BRAVO)).expect(ROVER_2_OK)
    bravo.send(B + A + B + A)
    rover.expect(chunk(A) + chunk(A))
    rover.close()
    bravo.close()
    caster.ends_with(['mount ALPHA 0 0', 'mount BRAVO 4 1', 'account rover1 1 2 0', 'total 1 2 0'])


def sourcetables():
    """The sourcetable in both versions, and as the answer to a rover of version 1 that asks for a
    mountpoint that there is not. One worker serves them one after the other."""
    caster = serve(example(1), 3)
    for head, reply in [(rover_1(''), table_1(TABLE)), (rover_2(''), table_2(TABLE)),
                        (rover_1('NONE'), table_1(TABLE))]:
        caster.client().send(head).expect(reply).expect_end()
    caster.ends_with(['mount ALPHA 0 0', 'mount BRAVO 0 0', 'account rover1 0 0 0', 'total 0 0 0'])


def publish_while(source, running):
    """The source publishes one frame after the other, numbered from 0, while this is so; how many."""
    count = 0
    until = time.monotonic() + PATIENCE
    while running():
        if time.monotonic() > until:
            raise Wrong('no end after %d frames' % count)
        source.send(frame(1005, count))
        count += 1
        time.sleep(0.005)
    return count


def fetches():
    """`caster fetch` from this caster in both versions: as many frames as were asked for, byte by byte as
    the source sent them, one after the other. The first of two targets does not answer, and the second
    gives the frames."""
    caster = serve(example(4))
    source = caster.client().send(source_1('ALPHA', 'sesame')).expect(ICY)
    nobody = '127.0.0.1:%d' % free_port()
    target = [caster.addr, 'ALPHA', 'rover1', 'secret']
    running = [Fetch(20, [1] + target), Fetch(30, [2] + target),
               Fetch(3, [1, nobody, 'ALPHA', '-', '-'], [1, caster.addr, 'ALPHA', '-', '-'])]
    count = publish_while(source, lambda: any(one.runs() for one in running))
    for one, wanted in zip(running, (20, 30, 3)):
        places = places_in(one.ends(0))
        if places != list(range(places[0], places[0] + wanted)) or places[-1] >= count:
            raise Wrong('%d frames wanted, and fetched were %s' % (wanted, places))
    source.close()
    lines = caster.ends().splitlines()
    if lines[0] != 'mount ALPHA %d 1' % count or not lines[2].startswith('account rover1 2 '):
        raise Wrong('totals: %s' % lines)


def fetches_that_get_nothing():
    """`caster fetch` with a wrong password, for a mountpoint that there is not, and where nobody listens:
    nothing is written, and the status is 9. A source is there from the start: so the caster listens before
    the first fetch asks, which would else find nobody and end with 9 as well."""
    caster = serve(example(5))
    source = caster.client().send(source_1('ALPHA', 'sesame')).expect(ICY)
    for protocol in (1, 2):
        if Fetch(1, [protocol, caster.addr, 'ALPHA', 'rover1', 'wrong']).ends(9):
            raise Wrong('something was fetched with a wrong password')
    if Fetch(1, [1, caster.addr, 'NONE', 'rover1', 'secret']).ends(9):
        raise Wrong('something was fetched from no mountpoint')
    if Fetch(1, [2, '127.0.0.1:%d' % free_port(), 'ALPHA', '-', '-']).ends(9):
        raise Wrong('something was fetched from nobody')
    if Fetch(1, [2, caster.addr, 'NONE', '-', '-']).ends(9):
        raise Wrong('something was fetched from no mountpoint')
    source.close()
    caster.ends_with(['mount ALPHA 0 1', 'mount BRAVO 0 0', 'account rover1 0 0 0', 'total 0 0 0'])


# ---- refusals

def refusals():
    """Each refusal that one connection alone can come to, in both versions; the connection has ended
    behind the reply. One worker serves them one after the other."""
    wrong, nobody = basic('rover1', 'wrong'), basic('nobody', 'secret')
    cases = [
        (b'NONSENSE\r\n\r\n', BAD_HEAD),
        (b'GET /ALPHA;x HTTP/1.0\r\n\r\n', BAD_HEAD),
        (b'a' * 8192, BAD_HEAD),
        (b'PUT /ALPHA HTTP/1.1\r\n\r\n', NOT_DONE),
        (source_2('ALPHA', 'sesame', 'Transfer-Encoding: gzip'), NOT_DONE),
        (rover_2('NONE', ROVER1), NO_MOUNT_2),
        (source_1('NONE', 'sesame'), TAKEN_1),
        (source_2('NONE', 'sesame'), NO_MOUNT_2),
        (rover_1('ALPHA', nobody), UNAUTHORIZED_1),
        (rover_2('ALPHA', nobody), UNAUTHORIZED_2),
        (rover_1('ALPHA', wrong), UNAUTHORIZED_1),
        (rover_2('ALPHA', wrong), UNAUTHORIZED_2),
        (rover_1('BRAVO'), DENIED_1),
        (rover_2('BRAVO'), DENIED_2),
        (source_1('ALPHA', 'open'), BAD_PASSWORD_1),
        (source_1('NEAR', 'sesame'), TAKEN_1),
        (source_2('ALPHA', 'open'), UNAUTHORIZED_2),
    ]
    caster = serve(example(1), len(cases))
    for head, reply in cases:
        client = caster.client().send(head)
        try:
            client.expect(reply).expect_end()
        except Wrong as wrong:
            raise Wrong('%s: %s' % (show(head), wrong)) from None
    caster.ends_with(['mount ALPHA 0 0', 'mount BRAVO 0 0', 'account rover1 0 0 0', 'total 0 0 0'])


def refused_source_that_goes_on_sending():
    """A source with a wrong password sends frames before it reads: its reply comes whole, and then the end
    of the connection, which is not reset."""
    caster = serve(example(1), 2)
    stream = b''.join(frames(1077, 0, 3000))
    for head, reply in [(source_1('ALPHA', 'open'), BAD_PASSWORD_1),
                        (source_2('ALPHA', 'open'), UNAUTHORIZED_2)]:
        client = caster.client().send(head + stream)
        time.sleep(0.2)
        client.expect(reply).expect_end()
    caster.ends_with(['mount ALPHA 0 0', 'mount BRAVO 0 0', 'account rover1 0 0 0', 'total 0 0 0'])


def descriptors_that_run_out():
    """Sixteen workers with descriptors for eight connections, or for ten where they ran out before the bell
    of the mountpoint was made: the others wait at the listener, and no worker is lost. Each is served as
    soon as another has ended. Three descriptors are those of /dev/null, which the program holds."""
    caster = serve(example(16), 1, descriptors=17)
    first = caster.client().send(rover_1('ALPHA')).expect(ICY)
    caster.wait_for_threads(16)
    rovers = [first] + [caster.client().send(rover_1('ALPHA')) for _ in range(14)]
    for rover in rovers[1:8]:
        rover.expect(ICY)
    # The other workers find each time that no descriptor is left.
    time.sleep(0.3)
    if caster.threads() != 16:
        raise Wrong('of 16 workers there are %d' % caster.threads())
    for rover in rovers[10:]:
        if rover.came or select.select([rover.socket], [], [], 0)[0]:
            raise Wrong('there are descriptors for more connections than ten')
    for number, rover in enumerate(rovers):
        rover.close()
        if number + 8 < len(rovers):
            rovers[number + 8].expect(ICY)
    caster.client().send(source_1('ALPHA', 'sesame')).expect(ICY).send(A).close()
    caster.ends_with(['mount ALPHA 1 1', 'mount BRAVO 0 0', 'account rover1 0 0 0', 'total 15 0 0'])


def taken():
    """Sources of both versions ask for a mountpoint that a source holds, and one more when it is free
    again."""
    caster = serve(example(2), 2)
    holder = caster.client().send(source_1('ALPHA', 'sesame')).expect(ICY)
    caster.client().send(source_1('ALPHA', 'sesame')).expect(TAKEN_1).expect_end()
    caster.client().send(source_2('ALPHA', 'sesame')).expect(TAKEN_2).expect_end()
    # One worker has served its two now: the other one serves the last, when the first source is gone.
    holder.send(A).close()
    last = caster.client().send(source_1('ALPHA', 'sesame')).expect(ICY)
    last.send(B).close()
    caster.ends_with(['mount ALPHA 2 2', 'mount BRAVO 0 0', 'account rover1 0 0 0', 'total 0 0 0'])


def full_account():
    """Two rovers of an account that may have two at a time; one more of each version is refused, and the
    next is let in when one has left."""
    caster = serve(example(3), 2)
    first = caster.client().send(rover_1('ALPHA', ROVER1)).expect(ICY)
    second = caster.client().send(rover_2('BRAVO', ROVER1)).expect(ROVER_2_OK)
    caster.client().send(rover_1('ALPHA', ROVER1)).expect(FULL_1).expect_end()
    caster.client().send(rover_2('ALPHA', ROVER1)).expect(FULL_2).expect_end()
    # The third worker has served its two now.
    first.close()
    third = caster.client().send(rover_1('BRAVO', ROVER1)).expect(ICY)
    third.close()
    second.close()
    last = caster.client().send(source_1('ALPHA', 'sesame')).expect(ICY)
    last.close()
    caster.ends_with(['mount ALPHA 0 1', 'mount BRAVO 0 0', 'account rover1 3 0 0', 'total 3 0 0'])


# ---- laps, resets, and rovers that are slow

# By so many frames of 1 KB a slow rover may be behind: those of its ring (16), those that the system keeps for it, and
# those of its own buffer.
BEHIND = 120


def sums_of(caster):
    """What the program has printed when it has ended, as the numbers of each line by its words."""
    sums = {}
    for line in caster.ends().splitlines():
        words = line.split(' ')
        text = 2 if words[0] != 'total' else 1
        sums[' '.join(words[:text])] = [int(word) for word in words[text:]]
    return sums


def wants(what, got, wanted):
    if got != wanted:
        raise Wrong('%s: wanted %s and got %s' % (what, wanted, got))


def lapped_rover():
    """A source sends bursts over a ring of four frames. The rover is given frames in order, each once,
    the last one too; those that it was not given are told as overrun, and there are some."""
    caster = serve(example(2, ring=4))
    source = caster.client().send(source_1('ALPHA', 'sesame')).expect(ICY)
    rover = caster.client().send(rover_1('ALPHA', ROVER1)).expect(ICY)
    count = 0
    for burst in range(10):
        sent = frames(1005, count, 300)
        count += len(sent)
        source.send(b''.join(sent))
        time.sleep(0.03)
    places = places_in(rover.receive_until(sent[-1]))
    if places != sorted(set(places)):
        raise Wrong('not in order, or twice: %s' % places)
    rover.close()
    source.close()
    sums = sums_of(caster)
    wants('mount', sums['mount ALPHA'], [count, 1])
    wants('account', sums['account rover1'], [1, len(places), count - len(places)])
    wants('total', sums['total'], [1, len(places), count - len(places)])
    if len(places) == count:
        raise Wrong('nothing was overrun')


def many():
    """How many frames of 1,000 bytes are more than the system keeps for one that does not read."""
    return 2000 + most_kept() * 3 // 2000


def rover_that_reads_late():
    """A rover reads nothing for a while in which more comes than the system keeps for it. When it reads
    again it is given frames in order, each once, up to the last one."""
    caster = serve(example(2))
    source = caster.client().send(source_1('ALPHA', 'sesame')).expect(ICY)
    rover = caster.client(room=4096).send(rover_1('ALPHA', ROVER1)).expect(ICY)
    some = frames(1005, 0, many(), 1000)
    for at in range(0, len(some), 100):
        source.send(b''.join(some[at:at + 100]))
    time.sleep(1)
    places = places_in(rover.receive_until(some[-1]), 1000)
    if places != sorted(set(places)):
        raise Wrong('not in order, or twice')
    rover.close()
    source.close()
    sums = sums_of(caster)
    wants('mount', sums['mount ALPHA'], [len(some), 1])
    wants('account', sums['account rover1'], [1, len(places), len(some) - len(places)])


def slow_rover():
    """A rover of a small window reads half of what its source sends. It is lapped: it is given frames in order, each
    once, up to the last one, its newest frame stays near the source's, and what it was not given is told as overrun.
    Another rover, which reads as they come, loses nothing. The source sends when its rovers have read."""
    caster = serve(example(3, ring=16))
    source = caster.client().send(source_1('ALPHA', 'sesame')).expect(ICY)
    slow = caster.client(room=4096).send(rover_1('ALPHA', ROVER1)).expect(ICY)
    quick = caster.client().send(rover_1('ALPHA', ROVER1)).expect(ICY)
    count, whole, until = 0, 1006, time.monotonic() + 60
    while count < 500 or count - 1 - newest_in(slow.came, whole) > BEHIND:
        if time.monotonic() > until:
            raise Wrong('of %d frames its newest is %d' % (count, newest_in(slow.came, whole)))
        some = b''.join(frames(1005, count, 2, whole - 6))
        count += 2
        source.send(some)
        quick.expect(some)
        if select.select([slow.socket], [], [], 0)[0]:
            slow.came += slow.socket.recv(1000)
        time.sleep(0.04)
    places = places_in(slow.receive_until(some[-whole:]), whole - 6)
    if places != sorted(set(places)):
        raise Wrong('not in order, or twice')
    for one in (slow, quick, source):
        one.close()
    sums, lost = sums_of(caster), count - len(places)
    wants('mount', sums['mount ALPHA'], [count, 1])
    wants('account', sums['account rover1'], [2, count + len(places), lost])
    if lost == 0:
        raise Wrong('nothing was overrun')


def newest_in(body, whole):
    """The place of the last frame of so many bytes that is there whole, or -1."""
    last = len(body) // whole * whole - whole
    return struct.unpack('>I', body[last + 5:last + 9])[0] if last >= 0 else -1


def rover_that_never_reads():
    """A rover reads nothing at all, and the system has no room for it any more: what comes behind is not handed to the
    system. Twelve seconds later it still has its connection; another one is given all frames meanwhile."""
    caster = serve(example(3))
    source = caster.client().send(source_1('ALPHA', 'sesame')).expect(ICY)
    deaf = caster.client(room=4096).send(rover_1('ALPHA', ROVER1)).expect(ICY)
    rover = caster.client().send(rover_1('ALPHA', ROVER1)).expect(ICY)
    count = 600
    some = frames(1005, 0, count, 1000)
    for at in range(0, count, 100):
        source.send(b''.join(some[at:at + 100]))
        rover.expect(b''.join(some[at:at + 100]))
    time.sleep(12)
    wants('connections that stand', standing_at(caster.port), 3)
    for one in (rover, source, deaf):
        one.close()
    sums = sums_of(caster)
    wants('mount', sums['mount ALPHA'], [count, 1])
    sessions, sent, lost = sums['account rover1']
    wants('sessions', sessions, 2)
    # What the system held for the one that read nothing: its buffer and some 40 KB.
    if not (count < sent < count + 60 and lost == 0):
        raise Wrong('%d frames were sent, %d were overrun' % (sent, lost))


def resets():
    """Clients that reset their connection: in the head, in the body of a source with a frame begun, and
    in one that came in chunks. Each is the end of its connection alone: the mountpoint is free again."""
    caster = serve(example(1), 5)
    caster.client().send(b'SOURCE sesame AL').reset()
    one = caster.client().send(source_1('ALPHA', 'sesame')).expect(ICY)
    one.send(A[:5]).reset()
    two = caster.client().send(source_2('ALPHA', 'sesame', 'Transfer-Encoding: chunked'))
    two.expect(SOURCE_2_OK).send(b'8\r\n' + A[:5]).reset()
    caster.client().reset()
    three = caster.client().send(source_1('ALPHA', 'sesame')).expect(ICY)
    three.send(A + B).close()
    caster.ends_with(['mount ALPHA 2 3', 'mount BRAVO 0 0', 'account rover1 0 0 0', 'total 0 0 0'])


def reset_while_written_to():
    """A rover resets its connection while frames are sent to it. Nothing else ends: another rover is
    given all frames, and the program gets no signal."""
    caster = serve(example(3))
    source = caster.client().send(source_1('ALPHA', 'sesame')).expect(ICY)
    gone = caster.client().send(rover_1('ALPHA', ROVER1)).expect(ICY)
    stays = caster.client().send(rover_1('ALPHA', ROVER1)).expect(ICY)
    count = 4000
    some = frames(1005, 0, count, 100)
    for at in range(0, count, 50):
        source.send(b''.join(some[at:at + 50]))
        stays.expect(b''.join(some[at:at + 50]))
        if at == 1000:
            gone.expect(some[0])
            gone.reset()
    stays.close()
    source.close()
    sums = sums_of(caster)
    wants('mount', sums['mount ALPHA'], [count, 1])
    wants('sessions', sums['account rover1'][0], 2)
    sent = sums['account rover1'][1] + sums['account rover1'][2]
    if not count < sent < 2 * count:
        raise Wrong('%d frames were sent or overrun' % sent)


# ---- two programs

def relays():
    """Two casters: the second pulls both mountpoints from the first, one in each version of NTRIP, through
    a wire that is cut at the end. Its rovers are given the frames that the sources send to the first."""
    first = serve(example(4))
    wires = [Wire(first.port), Wire(first.port)]
    second = serve(example(2, RELAY % ('ALPHA', 'localhost:%d' % wires[0].port, 'ALPHA', 1)
                           + RELAY % ('BRAVO', '127.0.0.1:%d' % wires[1].port, 'BRAVO', 2)))
    wires[0].wait_for(1, ICY)
    wires[1].wait_for(1, ROVER_2_OK)
    alpha = second.client().send(rover_1('ALPHA')).expect(ICY)
    bravo = second.client().send(rover_2('BRAVO', ROVER1)).expect(ROVER_2_OK)
    sources = [first.client().send(source_1('ALPHA', 'sesame')).expect(ICY),
               first.client().send(source_2('BRAVO', 'open')).expect(SOURCE_2_OK)]
    sources[0].send(A + Z + B)
    sources[1].send(B + A + Z + A)
    alpha.expect(A + B)
    bravo.expect(chunk(A) + chunk(A))
    for wire in wires:
        wire.cut()
    for one in sources + [alpha, bravo]:
        one.close()
    # The group of the relays' account may hear message 1005 alone of BRAVO.
    first.ends_with(['mount ALPHA 3 1', 'mount BRAVO 4 1', 'account rover1 2 5 0', 'total 2 5 0'])
    second.ends_with(['mount ALPHA 3 1', 'mount BRAVO 2 1', 'account rover1 1 2 0', 'total 2 4 0'])


def relay_that_is_refused():
    """A relay asks for a mountpoint that the other caster does not have: its connection has ended, and
    nothing is published."""
    first = serve(example(2))
    place = '127.0.0.1:%d' % Wire(first.port).port
    second = serve(example(1, RELAY % ('ALPHA', place, 'NONE', 1) + RELAY % ('BRAVO', place, 'NONE', 2)))
    second.client().send(rover_1('')).expect(table_1(TABLE)).expect_end()
    for caster in (first, second):
        caster.ends_with(['mount ALPHA 0 0', 'mount BRAVO 0 0', 'account rover1 0 0 0', 'total 0 0 0'])


def relay_that_does_not_answer():
    """A relay whose caster takes no connections any more: the dial ends after five seconds."""
    with socket.socket() as silent, socket.socket() as one, socket.socket() as other:
        silent.bind(('127.0.0.1', 0))
        silent.listen(0)
        # One connection waits to be accepted; then the queue is full, and nobody is answered.
        for client in (one, other):
            client.setblocking(False)
            client.connect_ex(silent.getsockname())
        time.sleep(0.2)
        begun = time.monotonic()
        relay = RELAY % ('ALPHA', '127.0.0.1:%d' % silent.getsockname()[1], 'ALPHA', 1)
        serve(example(2, relay)).ends_with(['network fault'], 6)
        took = time.monotonic() - begun
        if not 4.5 < took < 8:
            raise Wrong('the dial took %.1f seconds' % took)


# ---- recorded sessions

def record(config, limit, addr=None, output=subprocess.PIPE):
    caster = Recorder(config, limit, addr, output)
    casters.append(caster)
    return caster


def recorded(caster, clients, gone=()):
    """The caster has recorded the session of these clients, in the order in which they came, and ended by
    itself. By its script each sent what it did send, and by the replay each was sent exactly the bytes that
    came, or of those that were reset a beginning came. What the session came to: the script's events, the
    report's lines of each connection without its bytes, and the report's last lines."""
    script = caster.ends()
    events = events_of(script)
    numbers = range(1, len(clients) + 1)
    wants('opened', [words[1:] for words in events if words[0] == 'open'], [[str(n)] for n in numbers])
    connections, last = parts_of(replay(caster.path, script))
    wants('connections', list(connections), list(numbers))
    for number, client in zip(numbers, clients):
        told = sent_by(connections[number])
        came = bytes(client.got) if client in gone else client.drain()
        if told[:len(came)] != came or len(told) > len(came) and client not in gone:
            raise Wrong('connection %d was sent %s, and %s came' % (number, show(told), show(came)))
        if brought(events, number) != client.sent:
            raise Wrong('connection %d brought in %s, and sent was %s'
                        % (number, show(brought(events, number)), show(client.sent)))
    return events, {number: connections[number][:-1] for number in numbers}, last


def closings(events):
    """The events that close a connection."""
    return sorted(' '.join(words) for words in events if words[0] in ('end', 'break'))


def recorded_session():
    """A source and two rovers, one of each version, over a configuration with a relay, which is not dialled.
    The frames come in pieces, with bytes between them that are none."""
    caster = record(EXAMPLE, 3)
    source = caster.client().send(source_1('ALPHA', 'sesame')).expect(ICY)
    first = caster.client().send(rover_1('ALPHA', ROVER1)).expect(ICY)
    second = caster.client().send(rover_2('ALPHA', ROVER1)).expect(ROVER_2_OK)
    stream = A + b'no frame' + Z + B
    for at in range(0, len(stream), 5):
        source.send(stream[at:at + 5])
    first.expect(A + Z + B)
    second.expect(chunk(A) + chunk(Z) + chunk(B))
    if select.select([caster.process.stdout], [], [], 0)[0]:
        raise Wrong('something was written before the session had ended')
    for one in (source, first, second):
        one.finish()
    events, lines, last = recorded(caster, [source, first, second])
    wants('closed', closings(events), ['end 1', 'end 2', 'end 3'])
    wants('source', lines[1], ['connection 1 source-end 1', 'junk 8'])
    wants('first', lines[2], ['connection 2 rover-end', 'junk 0', 'segment ALPHA 0 3 3 0'])
    wants('second', lines[3], ['connection 3 rover-end', 'junk 0', 'segment ALPHA 0 3 3 0'])
    wants('last', last, ['mount ALPHA 3 1', 'mount BRAVO 0 0', 'account rover1 2 6 0', 'total 2 6 0'])
    wants('first', bytes(first.got), ICY + A + Z + B)
    wants('second', bytes(second.got), ROVER_2_OK + chunk(A) + chunk(Z) + chunk(B))


def recorded_rovers_that_are_lapped():
    """A source sends bursts over a ring of four frames. Both rovers are given frames in order, each once, the
    last one too; by the replay so many were sent as came, and all others were overrun, and lie in laps."""
    caster = record(example(1, ring=4), 3)
    source = caster.client().send(source_1('ALPHA', 'sesame')).expect(ICY)
    first = caster.client().send(rover_1('ALPHA', ROVER1)).expect(ICY)
    second = caster.client().send(rover_2('ALPHA', ROVER1)).expect(ROVER_2_OK)
    count = 0
    for burst in range(10):
        sent = frames(1005, count, 300)
        count += len(sent)
        source.send(b''.join(sent))
        time.sleep(0.03)
    bodies = [first.receive_until(sent[-1]), out_of_chunks(second.receive_until(chunk(sent[-1])))]
    for one in (first, second, source):
        one.finish()
    _, lines, last = recorded(caster, [source, first, second])
    total = 0
    for number, body in zip((2, 3), bodies):
        places = places_in(body)
        if places != sorted(set(places)):
            raise Wrong('not in order, or twice: %s' % places)
        overrun = count - len(places)
        if not overrun:
            raise Wrong('nothing was overrun')
        total += len(places)
        wants('rover', lines[number][:3], ['connection %d rover-end' % number, 'junk 0',
                                           'segment ALPHA 0 %d %d %d' % (count, len(places), overrun)])
        laps = [line.split(' ') for line in lines[number][3:]]
        wants('laps', {lap[0] for lap in laps}, {'lap'})
        wants('overrun in laps', sum(int(lap[4]) for lap in laps), overrun)
        for lap in laps:
            if any(int(lap[1]) <= place < int(lap[2]) for place in places):
                raise Wrong('sent from a lap: %s, %s' % (lap, places))
    sums = '2 %d %d' % (total, 2 * count - total)
    wants('last', last, ['mount ALPHA %d 1' % count, 'mount BRAVO 0 0',
                         'account rover1 ' + sums, 'total ' + sums])


def recorded_rovers_that_go_away():
    """While frames are sent to them, a rover resets its connection, and another one closes it. Nothing else
    ends: a third one is given all frames, the session ends with the others, and it is replayed."""
    caster = record(example(1), 4)
    source = caster.client().send(source_1('ALPHA', 'sesame')).expect(ICY)
    resets = caster.client().send(rover_1('ALPHA', ROVER1)).expect(ICY)
    closes = caster.client().send(rover_1('ALPHA')).expect(ICY)
    stays = caster.client().send(rover_2('ALPHA', ROVER1)).expect(ROVER_2_OK)
    some = frames(1005, 0, 400, 100)
    for at in range(0, 400, 50):
        source.send(b''.join(some[at:at + 50]))
        stays.expect(b''.join(chunk(one) for one in some[at:at + 50]))
        if at == 100:
            resets.expect(some[0]).reset()
        if at == 200:
            closes.expect(some[0]).close()
    source.finish()
    stays.finish()
    events, lines, last = recorded(caster, [source, resets, closes, stays], [resets, closes])
    # One that closes with bytes that it has not read resets its connection too.
    third = {'break 3': 'read-fault', 'end 3': 'rover-end'}
    if closings(events) not in [sorted(['break 2', 'end 1', 'end 4', one]) for one in third]:
        raise Wrong('closed: %s' % closings(events))
    ending = [third[one] for one in closings(events) if one in third]
    sent = [int(lines[number][2].split(' ')[4]) for number in (2, 3)]
    if not all(0 < one < 400 for one in sent):
        raise Wrong('%s frames were sent to those that went away' % sent)
    wants('source', lines[1], ['connection 1 source-end 1', 'junk 0'])
    wants('resets', lines[2], ['connection 2 read-fault', 'junk 0',
                               'segment ALPHA 0 %d %d 0' % (sent[0], sent[0])])
    wants('closes', lines[3], ['connection 3 ' + ending[0], 'junk 0',
                               'segment ALPHA 0 %d %d 0' % (sent[1], sent[1])])
    wants('stays', lines[4], ['connection 4 rover-end', 'junk 0', 'segment ALPHA 0 400 400 0'])
    wants('last', last, ['mount ALPHA 400 1', 'mount BRAVO 0 0', 'account rover1 2 %d 0' % (400 + sent[0]),
                         'total 3 %d 0' % (400 + sum(sent))])


def recorded_near_rover():
    """A source whose body comes in chunks and ends by itself, one of version 1, and a rover of NEAR that
    reports a position at the second one's base, of which its group may hear message 1005 alone."""
    caster = record(example(1), 3)
    bravo = caster.client().send(source_1('BRAVO', 'open')).expect(ICY)
    rover = caster.client().send(rover_2('NEAR', ROVER1, 'Ntrip-GGA: ' + AT_BRAVO)).expect(ROVER_2_OK)
    bravo.send(B + A + B + A)
    rover.expect(chunk(A) + chunk(A))
    alpha = caster.client().send(source_2('ALPHA', 'sesame', 'Transfer-Encoding: chunked')).expect(SOURCE_2_OK)
    alpha.send(b'3;name=value\r\n' + A[:3] + b'\r\n05\r\n' + A[3:] + b'\r\n0\r\nTrailer: x\r\n\r\n')
    rover.finish()
    bravo.finish()
    events, lines, last = recorded(caster, [bravo, rover, alpha])
    wants('closed', closings(events), ['end 1', 'end 2'])
    wants('bravo', lines[1], ['connection 1 source-end 1', 'junk 0'])
    wants('rover', lines[2], ['connection 2 rover-end', 'junk 0', 'segment BRAVO 0 4 2 0'])
    wants('alpha', lines[3], ['connection 3 source-end 1', 'junk 0'])
    wants('last', last, ['mount ALPHA 1 1', 'mount BRAVO 4 1', 'account rover1 1 2 0', 'total 1 2 0'])


def recorded_near_rover_that_moves():
    """A rover of NEAR reports that it is at ALPHA, and then that it is at BRAVO; it has a segment at each."""
    caster = record(example(1), 3)
    alpha = caster.client().send(source_1('ALPHA', 'sesame')).expect(ICY)
    bravo = caster.client().send(source_1('BRAVO', 'open')).expect(ICY)
    rover = caster.client().send(rover_1('NEAR', ROVER1) + AT_ALPHA.encode() + b'\r\n').expect(ICY)
    alpha.send(A + B)
    rover.expect(A + B)
    rover.send(AT_BRAVO.encode() + b'\r\n')
    # Nothing says when the report has come. From then on each second one of these is sent to the rover.
    published = []
    while not select.select([rover.socket], [], [], 0.05)[0]:
        published += [frame(1005, len(published)), frame(1077, len(published) + 1)]
        bravo.send(b''.join(published[-2:]))
        if len(published) > 2 * PATIENCE / 0.05:
            raise Wrong('nothing comes from BRAVO')
    places = places_in(rover.receive_until(published[-2]))
    if places != list(range(places[0], len(published), 2)):
        raise Wrong('the rover was given the frames %s of %d' % (places, len(published)))
    for one in (rover, alpha, bravo):
        one.finish()
    events, lines, last = recorded(caster, [alpha, bravo, rover])
    wants('closed', closings(events), ['end 1', 'end 2', 'end 3'])
    wants('rover', lines[3][:3], ['connection 3 rover-end', 'junk 0', 'segment ALPHA 0 2 2 0'])
    segment, name, joined, to, *counts = lines[3][3].split(' ')
    wants('lines', len(lines[3]), 4)
    wants('second segment', [segment, name, *counts], ['segment', 'BRAVO', str(len(places)), '0'])
    if not int(joined) <= places[0] <= places[-1] < int(to):
        raise Wrong('it was given %s in %s' % (places, lines[3][3]))
    sums = '1 %d 0' % (2 + len(places))
    wants('last', last, ['mount ALPHA 2 1', 'mount BRAVO %d 1' % len(published),
                         'account rover1 ' + sums, 'total ' + sums])


def recorded_sessions_that_end_by_themselves():
    """Connections that end by their heads, and one that closes before it has sent one. No client but that
    one closes its connection before the session has ended."""
    cases = [
        (rover_1(''), table_1(TABLE), 'table-sent'),
        (rover_2(''), table_2(TABLE), 'table-sent'),
        (b'NONSENSE\r\n\r\n', BAD_HEAD, 'bad-head'),
        (b'a' * 8192, BAD_HEAD, 'long-head'),
        (source_1('ALPHA', 'open'), BAD_PASSWORD_1, 'source-password'),
        (rover_2('ALPHA', basic('rover1', 'wrong')), UNAUTHORIZED_2, 'password 1'),
        (rover_2('NONE', ROVER1), NO_MOUNT_2, 'no-mount'),
        (rover_1('BRAVO'), DENIED_1, 'denied 1'),
    ]
    caster = record(example(1), len(cases) + 1)
    clients = [caster.client().send(head).expect(reply) for head, reply, _ in cases]
    clients.append(caster.client())
    clients[-1].finish()
    events, lines, last = recorded(caster, clients)
    endings = [ending for _, _, ending in cases] + ['no-head']
    wants('closed', closings(events), ['end %d' % len(clients)])
    for number, ending in enumerate(endings, 1):
        wants('ending', lines[number], ['connection %d %s' % (number, ending), 'junk 0'])
    wants('last', last, ['mount ALPHA 0 0', 'mount BRAVO 0 0', 'account rover1 0 0 0', 'total 0 0 0'])


def recorded_session_of_256_connections():
    """As many connections as a session may have: a source, a rover, and others that ask for the table."""
    caster = record(example(1), 256)
    source = caster.client().send(source_1('ALPHA', 'sesame')).expect(ICY)
    rover = caster.client().send(rover_2('ALPHA', ROVER1)).expect(ROVER_2_OK)
    others = [caster.client().send(rover_2('')) for _ in range(254)]
    for one in others:
        one.expect(table_2(TABLE))
    source.send(A + Z + B)
    rover.expect(chunk(A) + chunk(Z) + chunk(B))
    source.finish()
    rover.finish()
    events, lines, last = recorded(caster, [source, rover, *others])
    wants('closed', closings(events), ['end 1', 'end 2'])
    wants('rover', lines[2], ['connection 2 rover-end', 'junk 0', 'segment ALPHA 0 3 3 0'])
    for number in range(3, 257):
        wants('other', lines[number], ['connection %d table-sent' % number, 'junk 0'])
    wants('last', last, ['mount ALPHA 3 1', 'mount BRAVO 0 0', 'account rover1 1 3 0', 'total 1 3 0'])


def recorded_session_that_comes_to_its_limit():
    """A source sends more than a script has room for, so the session ends while it and a rover are there. By
    then the rover was given all frames, but for some of the last piece that came."""
    caster = record(example(1), 2)
    head = source_1('ALPHA', 'sesame')
    source = caster.client().send(head).expect(ICY)
    rover = caster.client().send(rover_1('ALPHA', ROVER1)).expect(ICY)
    stream = b''.join(frames(1005, 0, 5000, 1000))

    def send():
        try:
            source.send(stream)
        except OSError:
            pass

    beside = [threading.Thread(target=one, daemon=True) for one in (send, rover.drain)]
    for thread in beside:
        thread.start()
    script = caster.ends()
    for thread in beside:
        thread.join(PATIENCE)
    size = len(script) - len('stop\n')
    if not 8370000 < size <= 8370000 + 8380:
        raise Wrong('the lines of the events have %d bytes' % size)
    events = events_of(script)
    wants('closed', closings(events), [])
    came = brought(events, 1)
    if not (head + stream).startswith(came):
        raise Wrong('brought in: %s' % show(came))
    connections, last = parts_of(replay(caster.path, script))
    told = sent_by(connections[2])
    if rover.got != told:
        raise Wrong('the rover was sent %s, and %s came' % (show(told), show(rover.got)))
    published = (len(came) - len(head)) // len(frame(1005, 0, 1000))
    places = places_in(told[len(ICY):], 1000)
    count = len(places)
    if places != list(range(count)) or not published - 5 <= count <= published:
        raise Wrong('of %d frames the rover was given %s' % (published, places))
    wants('source', connections[1][:-1], ['connection 1 source-end 1', 'junk 0'])
    wants('rover', connections[2][:-1], ['connection 2 rover-end', 'junk 0',
                                         'segment ALPHA 0 %d %d 0' % (count, count)])
    wants('last', last, ['mount ALPHA %d 1' % published, 'mount BRAVO 0 0', 'account rover1 1 %d 0' % count,
                         'total 1 %d 0' % count])


def recorded_clients_that_stay():
    """Eight refused clients that never end: when the last one is refused the session is over, and the
    program waits for them for two seconds in all."""
    caster = record(example(1), 8)
    clients = [caster.client().send(source_1('ALPHA', 'open')).expect(BAD_PASSWORD_1) for _ in range(8)]
    begun = time.monotonic()
    caster.ends()
    took = time.monotonic() - begun
    for client in clients:
        client.close()
    if not 1.5 < took < 4:
        raise Wrong('the program ended after %.1f seconds' % took)


def recorded_session_that_is_not_written():
    """A session of one connection, whose script goes to a device that is full: status 5."""
    with open('/dev/full', 'wb') as full:
        caster = record(example(1), 1, output=full)
    caster.client().send(rover_1('')).expect(table_1(TABLE))
    caster.ends_with([], 5)


def network_faults_of_a_recorder():
    """An address that is taken, one that is none, and one that is not this machine's."""
    with socket.create_server(('127.0.0.1', 0)) as other:
        place = '127.0.0.1:%d' % other.getsockname()[1]
        for addr in (place, 'nonsense', '127.0.0.1', '192.0.2.1:2101', '127.0.0.1:65536'):
            record(example(1), 1, addr).ends_with(['network fault'], 6)


# ---- addresses and faults

def other_addresses():
    """An address of IPv6, and all of IPv4; what is bound is free again when the program has ended."""
    hosts = [('127.0.0.1', '0.0.0.0'), ('127.0.0.1', '127.0.0.1')]
    try:
        free_port(socket.AF_INET6, '::1')
        hosts.append(('::1', '[::1]'))
    except OSError:
        pass
    port = free_port()
    for host, words in hosts:
        caster = serve(example(1), 1, '%s:%d' % (words, port))
        source = Client(port, host=host).send(source_1('ALPHA', 'sesame')).expect(ICY)
        source.send(A).close()
        caster.ends_with(['mount ALPHA 1 1', 'mount BRAVO 0 0', 'account rover1 0 0 0', 'total 0 0 0'])


def network_faults():
    """An address that is taken, one that is none, one that is not this machine's, and a relay whose
    caster does not listen."""
    with socket.create_server(('127.0.0.1', 0)) as other:
        place = '127.0.0.1:%d' % other.getsockname()[1]
        for addr in (place, 'nonsense', '127.0.0.1', '192.0.2.1:2101', '127.0.0.1:65536'):
            serve(example(2), 1, addr).ends_with(['network fault'], 6)
    relay = RELAY % ('ALPHA', '127.0.0.1:%d' % free_port(), 'ALPHA', 1)
    serve(example(2, relay)).ends_with(['network fault'], 6)


def listener_that_is_gone():
    """The listener is shut from outside while connections are still to come: a source and a rover are served to
    their ends, and then `serve` and `record` tell the fault of the network, with status 6, and nothing else."""
    for begin in (lambda: serve(example(3), 2), lambda: serve(example(2), 2), lambda: record(example(1), 3)):
        caster = begin()
        source = caster.client().send(source_1('ALPHA', 'sesame')).expect(ICY)
        rover = caster.client().send(rover_1('ALPHA', ROVER1)).expect(ICY)
        shut_listeners(caster.process)
        if caster.command == 'serve':
            source.send(A + B)
            rover.expect(A + B)
        for one in (source, rover):
            one.close()
        caster.ends_with(['network fault'], 6)


def output_in_large_pieces():
    """A sourcetable of 60 mountpoints goes out in pieces of 65,536 bytes. A pipe that keeps what was written at once
    apart gives 4,096 bytes of it at most at a time (pipe(2), O_DIRECT): so as many pieces come as it has of these."""
    text = 'version = 2\nworkers = 1\n' + ''.join(
        '[[mount]]\nname = "M%d"\npassword = "p"\nring = 1\nlatitude = 0\nlongitude = 0\ndetails = "%s"\n'
        % (at, 'x' * 100) for at in range(60)) + '[[group]]\nname = "all"\nmounts = ["M0"]\ntypes = "all"\n'
    with tempfile.NamedTemporaryFile('w', suffix='.toml') as file:
        file.write(text)
        file.flush()
        ear, mouth = os.pipe2(os.O_DIRECT | os.O_CLOEXEC)
        process = subprocess.Popen([PROGRAM, 'table', file.name], stdin=subprocess.DEVNULL, stdout=mouth)
        os.close(mouth)
        pieces = []
        while True:
            one = os.read(ear, 65536)
            if not one:
                break
            pieces.append(one)
        os.close(ear)
        wants('status', process.wait(PATIENCE), 0)
    whole = b''.join(pieces)
    wants('its end', whole[-16:], b'ENDSOURCETABLE\r\n')
    wants('records', whole.count(b'\nSTR;') + whole.startswith(b'STR;'), 60)
    if not len(whole) > 8192:
        raise Wrong('the table has %d bytes' % len(whole))
    wants('pieces of a table of %d bytes' % len(whole), [len(one) for one in pieces[:-1]], [4096] * (len(whole) // 4096))


def workers_side_by_side():
    """Forty workers that serve three connections each, from forty clients at a time, all of which but the
    source ask for the sourcetable or take what is published."""
    caster = serve(example(40), 3)
    source = caster.client().send(source_1('ALPHA', 'sesame')).expect(ICY)
    wrong = []

    def client():
        try:
            rover = caster.client().send(rover_1('ALPHA')).expect(ICY)
            ready.wait(PATIENCE)
            rover.expect(A + B)
            rover.close()
        except Exception as fault:
            wrong.append(fault)

    ready = threading.Barrier(21)
    rovers = [threading.Thread(target=client) for _ in range(20)]
    for rover in rovers:
        rover.start()
    ready.wait(PATIENCE)
    source.send(A + Z + B)
    for rover in rovers:
        rover.join()
    if wrong:
        raise wrong[0]
    for number in range(120 - 21):
        caster.client().send(rover_2('')).expect(table_2(TABLE)).expect_end()
        if number == 50:
            source.close()
    caster.ends_with(['mount ALPHA 3 1', 'mount BRAVO 0 0', 'account rover1 0 0 0', 'total 20 40 0'])


def silent_source(caster):
    """A source of ALPHA that sends nothing, and a rover there that has its reply."""
    return (caster.client().send(source_1('ALPHA', 'sesame')).expect(ICY),
            caster.client().send(rover_2('ALPHA', ROVER1)).expect(ROVER_2_OK))


def those_who_wait_rest():
    """For three seconds nothing comes to a caster that serves a source and a rover while two workers wait for somebody,
    to one that serves and has one worker, to one that records, and to a fetch: none of their threads has work for
    a third of that time."""
    several, lone, recorder = serve(example(4)), serve(example(1)), record(example(1), 3)
    clients = [*silent_source(several), *silent_source(recorder)]
    fetch = Fetch(1, [1, several.addr, 'ALPHA', '-', '-'])
    lone.wait_for_threads(1)
    time.sleep(0.5)
    waiting = [('serve', several), ('serve with one worker', lone), ('record', recorder), ('fetch', fetch)]
    used = [None] * len(waiting)

    def measure(at):
        used[at] = busiest(waiting[at][1].process)

    threads = [threading.Thread(target=measure, args=(at,)) for at in range(len(waiting))]
    for thread in threads:
        thread.start()
    for thread in threads:
        thread.join()
    told = ['%s: %.0f %%' % (what, 100 * part) for (what, _), part in zip(waiting, used)]
    if max(used) >= 0.33:
        raise Wrong('the busiest had work for this part of the time: %s' % ', '.join(told))
    fetch.process.kill()
    fetch.process.communicate()
    for one in clients:
        one.close()


CASES = [sessions_of_version_1, sessions_of_version_2, near_rover, near_rover_of_version_2, sourcetables,
         fetches, fetches_that_get_nothing,
         refusals, refused_source_that_goes_on_sending, descriptors_that_run_out, taken, full_account, lapped_rover,
         slow_rover, rover_that_reads_late, rover_that_never_reads,
         resets, reset_while_written_to, relays, relay_that_is_refused, relay_that_does_not_answer,
         recorded_session, recorded_rovers_that_are_lapped, recorded_rovers_that_go_away,
         recorded_near_rover, recorded_near_rover_that_moves, recorded_sessions_that_end_by_themselves,
         recorded_session_of_256_connections, recorded_session_that_comes_to_its_limit,
         recorded_clients_that_stay, recorded_session_that_is_not_written,
         network_faults_of_a_recorder, other_addresses, network_faults, workers_side_by_side,
         output_in_large_pieces, listener_that_is_gone, those_who_wait_rest]


def run(case, failed):
    begun = time.monotonic()
    try:
        case()
    except Wrong as wrong:
        failed.append((case.__name__, str(wrong)))
    except Exception:
        failed.append((case.__name__, traceback.format_exc()))
    if os.environ.get('TIMES'):
        print('%6.2f s  %s' % (time.monotonic() - begun, case.__name__))


def give_up():
    for caster in casters:
        caster.stop()
    print('FAILED the cases took more than %d seconds' % LONGEST)
    sys.stdout.flush()
    os._exit(1)


def main(names):
    watch = threading.Timer(LONGEST, give_up)
    watch.daemon = True
    watch.start()
    cases = [case for case in CASES if not names or case.__name__ in names]
    failed = []
    # Those that wait for seconds run beside the others.
    slow = [slow_rover, rover_that_never_reads, relay_that_does_not_answer, recorded_clients_that_stay,
            those_who_wait_rest]
    beside = [threading.Thread(target=run, args=(case, failed)) for case in cases if case in slow]
    for thread in beside:
        thread.start()
    for case in cases:
        if case not in slow:
            run(case, failed)
    for thread in beside:
        thread.join()
    for caster in casters:
        caster.stop()
    for name, said in failed:
        print('FAILED %s\n%s' % (name, said.rstrip('\n')))
    print('%d passed, %d failed' % (len(cases) - len(failed), len(failed)))
    return 0 if cases and not failed else 1


if __name__ == '__main__':
    sys.exit(main(sys.argv[1:]))
