"""Cases of `caster keep` at the edge of the system, of which no contract speaks: how its sockets are set, when a
frame comes, that those who wait take no processor, when a peer that refuses is dialled again, how long a dial takes
where nobody answers, a listener that is gone, and descriptors that run out. Figures come from docs/OPERATING.md and
docs/FORMATS.md.
"""
import os
import random
import resource
import select
import socket
import statistics
import time

from guests import *

# An option of TCP for which Python has no name: how long bytes may stay unacknowledged, in milliseconds.
USER_TIMEOUT = 18


# ---- the program's own sockets

def peer_of(one):
    try:
        return one.getpeername()
    except OSError:
        return None


def options_of_links():
    """Each link, accepted or dialled: the system asks after a silent peer after 60 seconds, three times, 10 seconds
    apart; bytes that nobody acknowledges for 90 seconds end it; small pieces go at once; and no call of it waits."""
    upstream = Upstream('CHARLIE')
    keeper = keep(3, [upstream.relay])
    far = upstream.accept(keeper)
    base, rover = Base(keeper, 'ALPHA', claim=1), Rover(keeper, 'ALPHA', 'rover1')
    base.publish(1)
    rover.wait_for('ALPHA', 0).guest.spans = [(0, 1)]
    links = {peer_of(one): one for one in wire.sockets_of(keeper.process)}
    for visitor in (base, rover, far):
        link = links.get(visitor.socket.getsockname())
        holds('no socket of the program has the peer %s' % (visitor.socket.getsockname(),), link)
        wanted = [('asks after a silent peer', socket.SOL_SOCKET, socket.SO_KEEPALIVE, 1),
                  ('after so many seconds', socket.IPPROTO_TCP, socket.TCP_KEEPIDLE, 60),
                  ('and again after so many', socket.IPPROTO_TCP, socket.TCP_KEEPINTVL, 10),
                  ('so often', socket.IPPROTO_TCP, socket.TCP_KEEPCNT, 3),
                  ('may stay unacknowledged', socket.IPPROTO_TCP, USER_TIMEOUT, 90000),
                  ('small pieces at once', socket.IPPROTO_TCP, socket.TCP_NODELAY, 1)]
        for what, level, option, value in wanted:
            wants('%s, %s' % (visitor.guest.peer, what), link.getsockopt(level, option), value)
        wants('%s, calls that wait' % (visitor.guest.peer,), os.get_blocking(link.fileno()), False)
    for one in links.values():
        one.close()
    checked_at_a_stop(keeper, [far, base, rover])
    upstream.close()


def listener_that_is_gone():
    """The listener is shut from outside: no accept can succeed any more. A base and its rover are served on to the
    stop; behind the lines and totals of all that was served the fault of the network is told, with status 6."""
    keeper = keep(4)
    base, rover = Base(keeper, 'ALPHA', claim=1), Rover(keeper, 'ALPHA', 'rover1')
    wire.shut_listeners(keeper.process)
    time.sleep(0.5)
    base.publish(2)
    rover.wait_for('ALPHA', 1).guest.spans = [(0, 2)]
    keeper.ask()
    for one in (base, rover):
        one.until_end()
    lines, last = keeper.ends(6).rsplit('\n', 2)[:2]
    wants('the last line', last, 'network fault')
    keeper.checked(lines + '\n')


# ---- when, and how often

def frames_come_at_once():
    """A base sends one frame now and then: it comes to rovers of both versions when it was published, and not behind
    a rest of up to 250 milliseconds. Half of them come within 50, in one of three rounds, since a machine may be
    busy."""
    keeper, dice = keep(4), random.Random(5)
    base = Base(keeper, 'ALPHA', claim=1)
    rovers = [Rover(keeper, 'ALPHA', 'rover1', version) for version in (1, 2)]
    for _ in range(3):
        took = []
        for _ in range(20):
            time.sleep(dice.uniform(0.05, 0.3))
            place, begun = keeper.published['ALPHA'], time.monotonic()
            base.publish(1)
            for one in rovers:
                one.wait_for('ALPHA', place)
                took.append(time.monotonic() - begun)
        if statistics.median(took) < 0.05:
            break
    for one in rovers:
        one.guest.spans = [(0, keeper.published['ALPHA'])]
    holds('half of the frames came after %.0f milliseconds or more' % (1000 * statistics.median(took)),
          statistics.median(took) < 0.05)
    checked_at_a_stop(keeper, [base, *rovers])


def those_who_wait_rest():
    """A silent base, rovers at a mountpoint, one that has sent no head, a relay, a worker that waits for somebody and
    one that reads the input: for three seconds nothing comes to any of them. Each has work for less than a third of
    that time, and looks two dozen times a second at most, as rests are of 250 milliseconds."""
    upstream = Upstream('CHARLIE')
    keeper = keep(6, [upstream.relay])
    far = upstream.accept(keeper)
    base, silent = Base(keeper, 'ALPHA', claim=1), Visitor(keeper)
    rovers = [Rover(keeper, mount, 'rover1', version) for mount, version in (('ALPHA', 1), ('BRAVO', 2))]
    base.publish(4)
    rovers[0].wait_for('ALPHA', 3).guest.spans = [(0, 4)]
    time.sleep(0.5)
    before, begun = wire.wakes(keeper.process), time.monotonic()
    used = wire.busiest(keeper.process)
    took = time.monotonic() - begun
    most = max(count - before[thread] for thread, count in wire.wakes(keeper.process).items()) / took
    holds('the busiest had work for %.0f %% of the time' % (100 * used), used < 0.33)
    holds('one of them was woken %.0f times a second' % most, most < 24)
    rovers[1].guest.spans = [(0, 0)]
    checked_at_a_stop(keeper, [far, base, silent, *rovers])
    upstream.close()


def peer_that_refuses():
    """Nobody listens at the address of a relay when it is first dialled. A second later somebody does: he is dialled
    5 seconds after the first time, and not before."""
    upstream = Upstream('CHARLIE')
    address = upstream.listener.getsockname()
    upstream.listener.close()
    refusing = socket.socket()
    refusing.setsockopt(socket.SOL_SOCKET, socket.SO_REUSEADDR, 1)
    refusing.bind(address)
    begun = time.monotonic()
    keeper = keep(2, [upstream.relay])
    time.sleep(1)
    refusing.listen()
    refusing.settimeout(PATIENCE)
    upstream.listener = refusing
    far = upstream.accept(keeper)
    took = far.begun - begun
    holds('dialled after %.2f seconds, wanted 5' % took, 4.9 < took < 7.5)
    rover = Rover(keeper, 'CHARLIE', 'rover1')
    far.guest.claim = 1
    far.publish(2)
    rover.wait_for('CHARLIE', 1).guest.spans = [(0, 2)]
    checked_at_a_stop(keeper, [far, rover])
    upstream.close()


def dials_to(port, besides):
    """The local ports from which a connection to this port is being made (proc(5)), but these."""
    with open('/proc/net/tcp') as file:
        rows = [line.split() for line in file][1:]
    return {int(row[1].split(':')[1], 16) for row in rows
            if row[3] == '02' and row[2].endswith(':%04X' % port)} - besides


def peer_that_does_not_answer():
    """The peer of a relay takes no connections any more: its queue is full, and nobody is answered. The dial is given
    up after five seconds, and a base and a rover are served beside it. A stop does not wait for the next dial."""
    with socket.socket() as silent, socket.socket() as one, socket.socket() as other:
        silent.bind(('127.0.0.1', 0))
        silent.listen(0)
        for client in (one, other):
            client.setblocking(False)
            client.connect_ex(silent.getsockname())
        time.sleep(0.2)
        port, own = silent.getsockname()[1], {client.getsockname()[1] for client in (one, other)}
        keeper = keep(3, [('CHARLIE', address_of(silent), 1)])
        until(lambda: dials_to(port, own), 'the first dial')
        begun = time.monotonic()
        base, rover = Base(keeper, 'ALPHA', claim=1), Rover(keeper, 'ALPHA', 'rover1')
        base.publish(2)
        rover.wait_for('ALPHA', 1).guest.spans = [(0, 2)]
        until(lambda: not dials_to(port, own), 'the end of the first dial')
        took = time.monotonic() - begun
        holds('the dial took %.1f seconds' % took, 4.5 < took < 8)
        until(lambda: dials_to(port, own), 'the second dial')
        begun = time.monotonic()
        checked_at_a_stop(keeper, [base, rover])
        took = time.monotonic() - begun
        holds('the stop took %.1f seconds beside a dial' % took, took < 4)


def descriptors_that_run_out():
    """A caster of eight workers has descriptors for a base and some rovers more. Who comes then waits and hears
    nothing; when another one leaves he is let in. With more descriptors all workers serve: none was lost."""
    keeper = keep(8)
    base = Base(keeper, 'ALPHA', claim=1)
    time.sleep(1)
    held = len(os.listdir('/proc/%d/fd' % keeper.process.pid))
    resource.prlimit(keeper.process.pid, resource.RLIMIT_NOFILE, (held + 2, 4096))
    # An accept that waits has a descriptor of its own already; each waits for less than a second.
    time.sleep(2)
    rovers, waits = [], None
    while len(rovers) < 7:
        waits = Visitor(keeper).asks(1, 'rover', 'ALPHA', 'rover1')
        waits.send(wire.rover_1('ALPHA', basic('rover1', USERS['rover1'][0])))
        if not select.select([waits.socket], [], [], 3)[0]:
            break
        rovers.append(waits)
    holds('%d rovers were let in' % len(rovers), 1 <= len(rovers) < 7)
    rovers.pop(0).finish()
    waits.expect(ICY)
    resource.prlimit(keeper.process.pid, resource.RLIMIT_NOFILE, (1024, 4096))
    more = [Visitor(keeper).asks(1, 'rover', 'ALPHA', 'rover1') for _ in range(7 - len(rovers) - 1)]
    for one in more:
        one.send(wire.rover_1('ALPHA', basic('rover1', USERS['rover1'][0]))).expect(ICY)
    for one in keeper.guests:
        if one is not base:
            one.guest.entered, one.guest.heard = ('rover', 'rover1'), [('ALPHA', [])]
            one.guest.spans = [(0, 0)]
            one.ended('rover-end')
    checked_at_a_stop(keeper, list(keeper.guests))


def status_with_a_relay():
    """A relay is no worker: with one that is open no worker is busy, and with a rover beside it one is."""
    upstream = Upstream('CHARLIE')
    keeper = keep(2, [upstream.relay])
    far = upstream.accept(keeper)
    far.guest.claim = 1
    keeper.wait_for_lines(r'[0-9]+\.1 relay CHARLIE 1')
    keeper.ask('status\n')
    until(lambda: keeper.text().count('now end\n') == 1, 'the first answer')
    rover = Rover(keeper, 'CHARLIE', 'rover1')
    far.publish(3)
    rover.wait_for('CHARLIE', 2).guest.spans = [(0, 3)]
    keeper.ask('status\n')
    until(lambda: keeper.text().count('now end\n') == 2, 'the second answer')
    books = checked_at_a_stop(keeper, [far, rover])
    wants('busy workers, of how many', [answer[-1] for answer in books.stood],
          [['workers', '0', '2'], ['workers', '1', '2']])
