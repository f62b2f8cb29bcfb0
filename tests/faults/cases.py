"""Faults under `caster keep`, each in namespaces of its own. Each case is a function whose text
says what it tries; it is wrong where it raises something. Behind each fault the books are exact
(tests/keep/books.py), the claims can be had again, and each worker has a rover at the same time.
"""
import os
import re
import select
import signal
import socket
import subprocess
import sys
import tempfile
import threading
import time
import traceback

sys.path[:0] = ['tests/keep', 'tests/serve', 'tests/faults']

import guests
import net
import wire
from books import Wrong, agree, compare, holds, read, wants
from guests import Base, Keeper, Rover, Visitor, frame_at, message_of, until
from net import Road, Side
from slow import reads
from wire import ICY, PATIENCE

# The longest that a case may take, in seconds.
LONGEST = 180

# The status of one who is not permitted to try anything.
SKIPPED = 77

keepers = []


# ---- clients at a side

class There(wire.Kept):
    """A client that finds the caster where the side says on which it is made."""

    def __init__(self, port, room=None, host=None):
        super().__init__(port, room, net.here.caster)


class FarBase(Base, There):
    pass


class FarRover(Rover, There):
    pass


class FarVisitor(Visitor, There):
    pass


def base_at(side, *words, **named):
    return side.call(lambda: FarBase(*words, **named))


def rover_at(side, *words, **named):
    return side.call(lambda: FarRover(*words, **named))


# ---- the caster, and what is to hold behind each fault

def keep(workers, **named):
    """A caster that all sides can reach."""
    port = wire.free_port()
    keeper = Keeper(workers, addr='0.0.0.0:%d' % port, **named)
    keeper.port = port
    keepers.append(keeper)
    return keeper


def link_of(keeper, visitor):
    """The number of the caller and that of its link which this client has."""
    address = visitor.guest.peer[1]
    line = '^([0-9]+)\\.([0-9]+) from %s$' % re.escape(address)
    found = until(lambda: re.search(line, keeper.text(), re.M), 'the link of ' + address)
    return int(found[1]), int(found[2])


def has_ended(keeper, visitor):
    return re.search(r'^%d\.%d end ' % link_of(keeper, visitor), keeper.text(), re.M)


def wait_for_end(keeper, visitor, patience=PATIENCE):
    """The last line of its receipt comes. Its ending, and after how many seconds it came."""
    begun = time.monotonic()
    line = r'^%d\.%d end \S+ [0-9]+ [0-9]+ [0-9]+ (.*)$' % link_of(keeper, visitor)
    found = until(lambda: re.search(line, keeper.text(), re.M),
                  lambda: 'the end of %s; there are\n%s' % (visitor.guest.peer[1], keeper.text()),
                  patience)
    return found[1], time.monotonic() - begun


def those_with_bytes(visitors):
    """Those to which bytes came that they have not read yet."""
    return select.select([one.socket for one in visitors], [], [], 0)[0]


def leave(*visitors):
    for one in visitors:
        one.finish()
    for one in visitors:
        one.until_end()


def serves_on(keeper, claim):
    """A base is given the next claim, its frames come to rovers of both versions, and then each
    worker has a rover at the same time."""
    workers, place = keeper.house.workers, keeper.published['ALPHA']
    base = Base(keeper, 'ALPHA', claim=claim)
    rovers = [Rover(keeper, 'ALPHA', 'rover1', 1 + at % 2) for at in range(workers - 1)]
    base.publish(4)
    for one in rovers:
        one.wait_for('ALPHA', place + 3).guest.spans = [(place, place + 4)]
    leave(base, *rovers)
    rovers = [Rover(keeper, 'ALPHA', 'rover1', 1 + at % 2) for at in range(workers)]
    callers = sorted(link_of(keeper, one)[0] for one in rovers)
    wants('the workers that have a rover', callers, list(range(workers)))
    leave(*rovers)


def closes(keeper, claim):
    """It serves on, and stops at the word; the books of all its clients hold."""
    serves_on(keeper, claim)
    return keeper.checked(keeper.stops(5))


def is_cut(keeper, visitor, least, most, patience=PATIENCE, fault='read-fault'):
    """Its link fails, between so many seconds from now. It is told nothing."""
    visitor.ended(fault).guest.is_open = True
    ending, took = wait_for_end(keeper, visitor, patience)
    wants('how the link of %s ended' % visitor.guest.peer[1], ending, fault)
    holds('it was cut after %.1f seconds' % took, least < took < most)
    if isinstance(visitor, Rover):
        visitor.take()
    return took


# ---- roads

def by_a_road(road):
    """Bases and rovers of both versions on a bad road, and one rover that is near: all get all."""
    keeper = keep(7)
    base = base_at(road, keeper, 'CHARLIE', 2, chunked=True, claim=1)
    other = base_at(road, keeper, 'ALPHA', claim=1)
    rovers = [rover_at(road, keeper, *words) for words in
              [('CHARLIE', 'rover1', 1), ('CHARLIE', 'rover2', 2), ('ALPHA', '-', 2)]]
    rovers.append(Rover(keeper, 'CHARLIE', 'rover1', 2))
    for _ in range(40):
        base.publish(5, 3)
        other.publish(2)
        time.sleep(0.02)
    for one in rovers:
        last = keeper.published[one.target]
        one.wait_for(one.target, last - 1 if one.guest.entered[1] == 'rover1' else last - 2)
        one.guest.spans = [(0, last)]
    leave(base, other, *rovers)
    closes(keeper, 2)
    return '%d packets, %d lost, %d overtaken' % (road.sent, road.lost, road.overtaken)


def packets_are_lost():
    """Of all packets of two bases and three rovers, both ways, 5 % are lost."""
    road = Road('road', 1, seed=1, loss=0.05)
    said = by_a_road(road)
    holds('too few were lost: ' + said, road.lost > 20)
    return said


def packets_come_late():
    """Each packet comes 100 ms later, give or take 50 ms, so that many overtake others."""
    road = Road('road', 1, seed=2, delay=0.1, spread=0.05)
    said = by_a_road(road)
    holds('too few were overtaken: ' + said, road.overtaken > 20)
    return said


# ---- cables

def cables_are_put_back():
    """QUIET 10: the cables of a base and of a rover are pulled for two seconds and put back. The
    base goes on sending meanwhile. Nothing is lost, and nobody is cut."""
    one, other = Side('base', 1), Side('rover', 2)
    keeper = keep(4, quiet=10)
    base = base_at(one, keeper, 'ALPHA', claim=1)
    rovers = [rover_at(other, keeper, 'ALPHA', 'rover1', 2), Rover(keeper, 'ALPHA', 'rover1')]
    base.publish(10)
    for rover in rovers:
        rover.wait_for('ALPHA', 9)
    for side in (one, other):
        side.pull()
    for _ in range(20):
        base.publish(1)
        time.sleep(0.1)
    wants('rovers to which something came meanwhile', those_with_bytes(rovers), [])
    for side in (one, other):
        side.plug()
    base.publish(2)
    for rover in rovers:
        rover.wait_for('ALPHA', 31).guest.spans = [(0, 32)]
    leave(base, *rovers)
    closes(keeper, 2)


def cable_of_a_base():
    """QUIET 5: the cable of a base is pulled. It is cut after five seconds, and another base is
    given its claim; a base elsewhere and its rover stay. What it sent meanwhile is published by
    nobody: where the cable is put back, it hears that its connection is gone."""
    side, keeper = Side('base', 1), keep(5, quiet=5)
    steady, rover = Base(keeper, 'BRAVO', claim=1), Rover(keeper, 'BRAVO', 'rover1', 2)
    base, listener = base_at(side, keeper, 'ALPHA', claim=1), Rover(keeper, 'ALPHA', 'rover1')
    base.publish(5)
    listener.wait_for('ALPHA', 4).guest.spans = [(0, 5)]
    over = threading.Event()

    def go_on():
        while not over.wait(0.5):
            steady.publish(2)

    going = threading.Thread(target=go_on)
    going.start()
    side.pull()
    base.send(frame_at('ALPHA', 5))
    is_cut(keeper, base, 2, 12)
    # So is a rover to which nothing came for so long.
    listener.ended('read-fault').until_end()
    second = Base(keeper, 'ALPHA', claim=2)
    second.publish(3)
    side.plug()
    base.until_end()
    wants('what a base is told when its cable is back',
          (bytes(base.got), base.guest.is_open), (ICY, True))
    over.set()
    going.join()
    last = keeper.published['BRAVO']
    rover.wait_for('BRAVO', last - 1).guest.spans = [(0, last)]
    leave(second, steady, rover)
    closes(keeper, 3)


def cable_of_a_rover():
    """QUIET 30: the cable of a rover is pulled while its base goes on. Its link takes frames until
    the system has no room for more, and is cut 30 seconds after it took the last byte; a rover that
    stays has all frames."""
    side, keeper = Side('rover', 1), keep(4, quiet=30)
    base = Base(keeper, 'CHARLIE', 2, claim=1)
    gone, near = rover_at(side, keeper, 'CHARLIE', 'rover1'), Rover(keeper, 'CHARLIE', 'rover1', 2)
    base.publish(20)
    for one in (gone, near):
        one.wait_for('CHARLIE', 19)
    side.pull()
    begun = time.monotonic()
    while not has_ended(keeper, gone):
        holds('it is not cut', time.monotonic() - begun < 80)
        base.publish(20)
        near.wait_for('CHARLIE', keeper.published['CHARLIE'] - 1)
    took = time.monotonic() - begun
    holds('it was cut after %.1f s' % took, took > 29)
    is_cut(keeper, gone, -1, 1)
    near.guest.spans = [(0, keeper.published['CHARLIE'])]
    leave(base, near)
    closes(keeper, 1)
    return 'cut after %.1f s, behind %d frames of 1 kB' % (took, keeper.published['CHARLIE'])


def keep_alive():
    """QUIET 0: the cables of a base and of a rover are pulled where nothing is sent. The system
    asks after them after 60 seconds, three times, 10 seconds apart; then both have failed."""
    side, keeper = Side('both', 1), keep(3)
    base = base_at(side, keeper, 'ALPHA', claim=1)
    rover = rover_at(side, keeper, 'ALPHA', 'rover1', 2)
    base.publish(3)
    rover.wait_for('ALPHA', 2).guest.spans = [(0, 3)]
    side.pull()
    began = time.monotonic()
    is_cut(keeper, base, 80, 100, 105)
    is_cut(keeper, rover, -1, 100 - (time.monotonic() - began), 10)
    took = time.monotonic() - began
    closes(keeper, 2)
    return 'both failed within %.1f s' % took


def nobody_acknowledges():
    """QUIET 300: the cable of a rover is pulled while its base sends two small frames a second. The
    system takes them for it, and nobody acknowledges them: after 90 seconds its link has failed, and its
    account has room again."""
    side, keeper = Side('rover', 1), keep(3, quiet=300)
    base = Base(keeper, 'ALPHA', claim=1)
    gone = rover_at(side, keeper, 'ALPHA', 'rover1')
    base.publish(3)
    gone.wait_for('ALPHA', 2)
    side.pull()
    begun = time.monotonic()
    while not has_ended(keeper, gone):
        holds('it has not failed', time.monotonic() - begun < 110)
        base.publish(1)
        time.sleep(0.5)
    took = time.monotonic() - begun
    holds('it failed after %.1f s' % took, took > 85)
    ending = wait_for_end(keeper, gone)[0]
    holds('it ended as ' + ending, ending in ('read-fault', 'write-fault'))
    is_cut(keeper, gone, -1, 1, fault=ending)
    leave(base)
    closes(keeper, 2)
    return 'it failed after %.1f s' % took


def nothing_is_read():
    """QUIET 300: a rover reads nothing. Of 30 frames of 1 kB its system takes some, and says that it has
    no room; the caster's system has room for the others, and for one more each five seconds. After 90
    seconds the link has failed."""
    keeper = keep(3, quiet=300)
    base, idle = Base(keeper, 'CHARLIE', 2, claim=1), Rover(keeper, 'CHARLIE', 'rover1', room=4096)
    base.publish(30)
    begun = time.monotonic()
    later = begun + 5
    while not has_ended(keeper, idle):
        holds('it has not failed', time.monotonic() - begun < 130)
        if time.monotonic() > later:
            later += 5
            base.publish(1)
        time.sleep(0.2)
    took = time.monotonic() - begun
    holds('it failed after %.1f s' % took, took > 85)
    ending = wait_for_end(keeper, idle)[0]
    holds('it ended as ' + ending, ending in ('read-fault', 'write-fault'))
    is_cut(keeper, idle, -1, 1, fault=ending)
    leave(base)
    closes(keeper, 1)
    return 'it failed after %.1f s' % took


def nothing_is_read_of_much():
    """QUIET 300: a rover reads nothing, and its base sends 20 frames of 1 kB a second. The system is handed few of them,
    and the rover is given up when the system had no room for it for 90 seconds; one beside it has all frames."""
    keeper = keep(4, quiet=300, ring=16)
    base, near = Base(keeper, 'CHARLIE', 2, claim=1), Rover(keeper, 'CHARLIE', 'rover1', 2)
    idle = Rover(keeper, 'CHARLIE', 'rover1', room=4096)
    begun = time.monotonic()
    while not has_ended(keeper, idle):
        holds('it is not given up', time.monotonic() - begun < 130)
        base.publish(1)
        near.wait_for('CHARLIE', keeper.published['CHARLIE'] - 1)
        time.sleep(0.05)
    took = time.monotonic() - begun
    holds('it was given up after %.1f s' % took, took > 85)
    ending = wait_for_end(keeper, idle)[0]
    holds('it ended as ' + ending, ending in ('read-fault', 'write-fault'))
    is_cut(keeper, idle, -1, 1, fault=ending)
    near.guest.spans = [(0, keeper.published['CHARLIE'])]
    leave(base, near)
    books = closes(keeper, 1)
    end = next(link.end for link in books.links.values() if link.peer == idle.guest.peer)
    holds('%d frames were handed to the system' % end.sent, end.sent < 60)
    return 'given up after %.1f s, %d frames handed to the system' % (took, end.sent)


def a_small_window_stays():
    """QUIET 300: a rover whose window is small reads all the time, and half of what its base sends. Its window never has
    room for all that the system keeps for it. For 130 seconds it is not cut, and its newest frame is not seven seconds
    old; then it reads what is left, and each place came or stands in a lap."""
    keeper = keep(4, quiet=300, ring=16)
    base, near = Base(keeper, 'CHARLIE', 2, claim=1), Rover(keeper, 'CHARLIE', 'rover1', 2)
    slow, sent, late = Rover(keeper, 'CHARLIE', 'rover1', room=16384), [], 0
    begun = time.monotonic()
    while time.monotonic() - begun < 130:
        sent.append(time.monotonic())
        base.publish(1)
        near.wait_for('CHARLIE', len(sent) - 1)
        reads(slow, 500)
        newest = slow.heard_last()[1]
        if time.monotonic() - begun > 30:
            late = max(late, time.monotonic() - sent[newest])
        time.sleep(max(0, begun + 0.05 * len(sent) - time.monotonic()))
    holds('its newest frame was %.1f s old' % late, late < 7)
    for one in (near, slow):
        one.wait_for('CHARLIE', len(sent) - 1).guest.spans = [(0, len(sent))]
    leave(base, near, slow)
    closes(keeper, 1)
    return 'its newest frame was %.1f s old at most' % late


# ---- peers that vanish

def a_side_vanishes():
    """QUIET 5: a base, a rover and one that has sent half a head are gone with their namespace, and
    nobody was told. Each is cut after five seconds."""
    side, keeper = Side('gone', 1), keep(4, quiet=5)
    base = base_at(side, keeper, 'ALPHA', 2, claim=1)
    rover = rover_at(side, keeper, 'ALPHA', 'rover1')
    half = side.call(lambda: FarVisitor(keeper)).send(b'GET /ALPHA HT')
    base.publish(7)
    rover.wait_for('ALPHA', 6).guest.spans = [(0, 7)]
    link_of(keeper, half)
    side.vanish([base, rover, half])
    time.sleep(1)
    for one in (base, rover, half):
        holds('it was cut before its time', not has_ended(keeper, one))
    for one in (base, rover, half):
        is_cut(keeper, one, -1, 12)
    closes(keeper, 2)


def a_rovers_side_comes_back():
    """QUIET 0: a rover's machine is gone and another one has its address, which knows nothing of
    the connection. With the next frames the caster is told so, and the link has failed."""
    side, keeper = Side('old', 1), keep(3)
    base = Base(keeper, 'ALPHA', claim=1)
    rover = rover_at(side, keeper, 'ALPHA', 'rover1', 2)
    base.publish(4)
    rover.wait_for('ALPHA', 3)
    side.vanish([rover])
    Side('new', 1)
    time.sleep(1)
    holds('it has an end before anything is sent', not has_ended(keeper, rover))
    base.publish(2)
    took = is_cut(keeper, rover, -1, 10)
    leave(base)
    closes(keeper, 2)
    return 'failed after %.1f s' % took


def a_bases_side_comes_back():
    """QUIET 6: a base's machine is gone and comes back with its address. The base finds its claim
    taken by its own old connection until that is cut; then it is let in."""
    side, keeper = Side('old', 1), keep(3, quiet=6)
    old = base_at(side, keeper, 'ALPHA', 2, chunked=True, claim=1)
    link_of(keeper, old)
    old.publish(4)
    side.vanish([old])
    side = Side('new', 1)
    early = side.call(lambda: FarVisitor(keeper)).asks(2, 'source', 'ALPHA')
    early.send(wire.source_2('ALPHA', guests.PASSWORDS['ALPHA'])).expect(wire.TAKEN_2).expect_end()
    early.ended('taken %d 1' % link_of(keeper, old)[0])
    took = is_cut(keeper, old, -1, 12)
    base = base_at(side, keeper, 'ALPHA', 2, chunked=True, claim=2)
    base.publish(4)
    leave(base)
    closes(keeper, 3)
    return 'cut after %.1f s' % took


# ---- outputs

def full_disk():
    """Standard output is a file on a disk of 64 KiB. Where it is full, all connections end in
    order, with status 5, and what is there is a first part of the books. With room again the next
    start serves."""
    folder = tempfile.mkdtemp()
    subprocess.run(['mount', '-t', 'tmpfs', '-o', 'size=64k', 'tmpfs', folder], check=True)
    try:
        return on_a_full_disk(os.path.join(folder, 'lines'))
    finally:
        subprocess.run(['umount', '--lazy', folder], check=True)
        os.rmdir(folder)


def on_a_full_disk(path):
    with open(path, 'ab') as lines:
        keeper = keep(4, output=lines)
    base, rover = Base(keeper, 'ALPHA', claim=1), Rover(keeper, 'ALPHA', 'rover1', 2)
    base.publish(6)
    rover.wait_for('ALPHA', 5)
    left = fill(keeper)
    for one in (base, rover):
        one.until_end(is_open=True)
    keeper.ends(5)
    text = text_at(path)
    wants('the size of the lines on a full disk', len(text), 65536)
    books = read(text, cut=True)
    agree(books, keeper.house)
    # Two workers are free for these links: of each the last one may have no receipt, and the one
    # behind them was served by nobody.
    compare(books, keeper.house, left, message_of, left[:-3], strangers=True)
    os.truncate(path, 0)
    with open(path, 'ab') as lines:
        second = keep(4, output=lines)
    second.text = lambda: text_at(path)
    closes(second, 1)
    return '%d links until it was full' % len(left)


def text_at(path):
    with open(path, 'rb') as file:
        return file.read().decode('ascii')


def fill(keeper):
    """Short links until one is not served. The accounts of all of them."""
    left = []
    for _ in range(5000):
        try:
            one = Visitor(keeper)
            one.asks(1, 'source', 'ALPHA').ended('source-password')
            left.append(one.guest)
            one.send(wire.source_1('ALPHA', 'wrong')).expect(wire.BAD_PASSWORD_1).expect_end()
        except (OSError, wire.Wrong):
            return left
        if keeper.process.poll() is not None:
            return left
    raise Wrong('the disk is not full')


def full_device():
    """Standard output is /dev/full: status 5 with the first line, and its client is sent nothing
    of it. The next start, with an output that takes lines, serves."""
    with open('/dev/full', 'wb') as full:
        keeper = keep(2, output=full)
    one = wire.Kept(keeper.port)
    try:
        one.send(wire.rover_1('ALPHA'))
        one.drain()
    except OSError:
        pass
    holds('a client was sent %s' % wire.show(one.got), ICY.startswith(bytes(one.got)))
    keeper.ends(5)
    closes(keep(2), 1)


# ---- the system

def let_in(one):
    """This rover of ALPHA is let in, before anything is published that it hears."""
    one.expect(ICY)
    one.guest.entered, one.guest.heard = ('rover', 'rover1'), [('ALPHA', [])]
    one.guest.spans = [(0, 0)]
    one.ended('rover-end')


def limit_descriptors(keeper, number):
    subprocess.run(['prlimit', '--pid', str(keeper.process.pid), '--nofile=%d:4096' % number],
                   check=True)


def descriptors_run_out():
    """A caster of eight workers, with two descriptors more than it has with a base. Rovers come
    until one is not served: it waits and hears nothing, without work for the processor. When
    another one leaves it is served. With more descriptors all workers serve."""
    keeper = keep(8)
    base = Base(keeper, 'ALPHA', claim=1)
    time.sleep(1)
    limit_descriptors(keeper, len(os.listdir('/proc/%d/fd' % keeper.process.pid)) + 2)
    # An accept that waits already has a descriptor of its own; each waits for a second at most.
    time.sleep(2)
    rovers = []
    while True:
        waits = Visitor(keeper).asks(1, 'rover', 'ALPHA', 'rover1')
        waits.send(wire.rover_1('ALPHA', wire.basic('rover1', 'secret')))
        if not select.select([waits.socket], [], [], 3)[0]:
            break
        let_in(waits)
        rovers.append(waits)
    served = len(rovers)
    holds('%d rovers were served' % served, 1 <= served < 7)
    used = wire.busiest(keeper.process, 2)
    holds('the busiest had work for %.0f %% of the time while one waits' % (100 * used), used < 0.5)
    leave(rovers.pop())
    let_in(waits)
    leave(waits, *rovers)
    late = Rover(keeper, 'ALPHA', 'rover1', 2)
    base.publish(5)
    late.wait_for('ALPHA', 4).guest.spans = [(0, 5)]
    leave(base, late)
    limit_descriptors(keeper, 1024)
    closes(keeper, 2)
    return ('%d rovers and a base were served, the busiest had work for %.0f %% of the time while one waited'
            % (served, 100 * used))


class Elsewhere(guests.Upstream):
    """Another caster at this address of loopback, whose name has several."""

    def __init__(self, mount, host, name):
        super().__init__(mount)
        self.listener.close()
        self.listener = socket.create_server((host, 0))
        self.listener.settimeout(PATIENCE)
        self.address = '%s:%d' % (name, self.listener.getsockname()[1])
        self.relay = (mount, self.address, self.version)


def names_with_two_addresses():
    """The peers of two relays have one name, with two addresses; each listens at one of them alone, the other
    refuses. Both are reached at the first dial, and their frames come to a rover."""
    with tempfile.NamedTemporaryFile('w') as hosts:
        hosts.write('127.0.0.1 localhost\n127.0.0.2 twice.test\n127.0.0.3 twice.test\n')
        hosts.flush()
        subprocess.run(['mount', '--bind', hosts.name, '/etc/hosts'], check=True)
        others = [Elsewhere(mount, host, 'twice.test')
                  for mount, host in (('BRAVO', '127.0.0.2'), ('CHARLIE', '127.0.0.3'))]
        begun = time.monotonic()
        keeper = keep(4, relays=[one.relay for one in others])
        far = [one.accept(keeper) for one in others]
        took = time.monotonic() - begun
        holds('both were reached after %.1f seconds' % took, took < 4)
        rovers = [Rover(keeper, one.mount, 'rover1') for one in others]
        for one, rover in zip(far, rovers):
            one.guest.claim = 1
            one.publish(3)
            rover.wait_for(one.mount, 2).guest.spans = [(0, 3)]
            one.close()
        leave(*rovers)
        for one in others:
            one.close()
        closes(keeper, 1)


def stopped_and_continued():
    """The program is stopped for five seconds (SIGSTOP) while a base sends and a rover comes;
    then it goes on. Nothing is lost, and who came is served."""
    keeper = keep(5, quiet=300)
    base = Base(keeper, 'ALPHA', 2, chunked=True, claim=1)
    rovers = [Rover(keeper, 'ALPHA', *words) for words in (('rover1', 1), ('rover2', 2))]
    base.publish(10)
    for one, last in zip(rovers, (9, 8)):
        one.wait_for('ALPHA', last)
    keeper.process.send_signal(signal.SIGSTOP)
    late = Visitor(keeper).asks(1, 'rover', 'ALPHA', '-').send(wire.rover_1('ALPHA'))
    for _ in range(50):
        base.publish(2)
        time.sleep(0.1)
    wants('rovers to which something came meanwhile', those_with_bytes([*rovers, late]), [])
    keeper.process.send_signal(signal.SIGCONT)
    late.expect(ICY)
    leave(late)
    late.guest.entered, late.guest.is_open = ('rover', '-'), True
    late.guest.heard = [('ALPHA', heard_by(late))]
    late.ended('rover-end')
    for one, last in zip(rovers, (109, 108)):
        one.wait_for('ALPHA', last).guest.spans = [(0, 110)]
    leave(base, *rovers)
    closes(keeper, 2)


def heard_by(one):
    """The places and messages of the frames that came to one who was let in by hand."""
    heard, at = [], len(ICY)
    while True:
        frame, size = guests.next_frame(one.got, at, False)
        if frame is None:
            return heard
        at += size
        heard.append(guests.told_by(frame)[1:])


SLOW = [keep_alive, nobody_acknowledges, nothing_is_read, nothing_is_read_of_much, a_small_window_stays]
CASES = [packets_are_lost, packets_come_late, cables_are_put_back, cable_of_a_base,
         cable_of_a_rover, a_side_vanishes, a_rovers_side_comes_back, a_bases_side_comes_back,
         full_disk, full_device, descriptors_run_out, names_with_two_addresses,
         stopped_and_continued] + SLOW


# ---- all of them, each in a process with namespaces of its own

UNSHARE = ['unshare', '--net', '--mount', '--propagation', 'private']


def inside(name):
    """One case, where the namespaces are its own."""
    case = next(case for case in CASES if case.__name__ == name)
    begun = time.monotonic()
    try:
        net.prepare()
        said = case()
    except (Wrong, wire.Wrong) as wrong:
        said = 'FAILED %s' % wrong
    except Exception:
        said = 'FAILED ' + traceback.format_exc()
    for keeper in keepers:
        keeper.stop()
    print('%s%s; %.1f s' % (name, ': ' + said if said else '', time.monotonic() - begun))
    sys.stdout.flush()
    os._exit(1 if said and said.startswith('FAILED') else 0)


def why_not():
    """Why no case can be tried here, or nothing."""
    words = [*UNSHARE, sys.executable, '-B', '-c',
             "import sys; sys.path.insert(0, 'tests/faults')\n"
             "import net; net.prepare(); net.Side('try', 1); net.Road('road', 2, 1)"]
    try:
        done = subprocess.run(words, capture_output=True, timeout=PATIENCE)
    except FileNotFoundError as lacking:
        return str(lacking)
    return done.stderr.decode().strip().rpartition('\n')[2] if done.returncode else ''


def main(words):
    if words[:1] == ['--inside']:
        inside(words[1])
    lacking = why_not()
    if lacking:
        print('skipped: no namespaces, cables or roads can be made here: %s' % lacking)
        return SKIPPED
    names = [word for word in words if word != '--fast']
    cases = [case for case in CASES if not names or case.__name__ in names]
    cases = [case for case in cases if case not in SLOW or '--fast' not in words]
    failed = []

    def run(case):
        words = [*UNSHARE, sys.executable, '-B', sys.argv[0], '--inside', case.__name__]
        with subprocess.Popen(words, stdout=subprocess.PIPE, stderr=subprocess.STDOUT,
                              start_new_session=True) as process:
            try:
                said = process.communicate(timeout=LONGEST)[0].decode()
            except subprocess.TimeoutExpired:
                os.killpg(process.pid, signal.SIGKILL)
                said = 'FAILED %s took more than %d seconds\n' % (case.__name__, LONGEST)
        if process.returncode:
            failed.append(case.__name__)
        print(said[:6000], end='', flush=True)

    # The slow ones wait beside the others.
    beside = [threading.Thread(target=run, args=(case,)) for case in cases if case in SLOW]
    for one in beside:
        one.start()
    for case in cases:
        if case not in SLOW:
            run(case)
    for one in beside:
        one.join()
    print('%d passed, %d failed' % (len(cases) - len(failed), len(failed)))
    return 0 if cases and not failed else 1


if __name__ == '__main__':
    sys.exit(main(sys.argv[1:]))
