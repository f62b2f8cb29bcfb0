"""Cases of rovers that take less than their base sends: each is lapped by its ring, is told so in its receipt frame by
frame, goes on with what is new, and stays. The base sends when its rovers have read, so nothing here depends on how
busy the machine is. Figures come from docs/OPERATING.md.
"""
import select
import socket
import time

from guests import *
from sockets import USER_TIMEOUT, peer_of

# In each step the base sends two frames, and a rover reads so many bytes where they came; and how long a step takes at
# least, which bounds its rate from above: the system keeps about a second of it.
STEP = 0.04

# By so many frames a slow rover may be behind: those of its ring (16), those that the system keeps for it, at most a
# turn of 16 more than its buffer of some 40 KB, and those of its own buffer.
BEHIND = 120


def reads(rover, most):
    """Reads at most so many bytes, where some came."""
    if select.select([rover.socket], [], [], 0)[0]:
        some = rover.socket.recv(most)
        holds('%s: its end came' % rover.guest.peer[1], some)
        rover.came += some
        rover.got += some


def goes_on(base, quick, slow):
    """A step: two frames, which come to the quick rover, and what the slow ones read of theirs."""
    base.publish(2)
    quick.wait_for(base.mount, base.keeper.published[base.mount] - 1)
    for rover, most in slow:
        reads(rover, most)
    time.sleep(STEP)


def wait_for_no_room(keeper, visitor):
    """Until what the system keeps for this client has not grown for two seconds."""
    ports = ':%04X' % keeper.port, ':%04X' % int(visitor.guest.peer[1].split(':')[1])
    kept, since = None, time.monotonic()
    while time.monotonic() - since < 2:
        with open('/proc/net/tcp') as file:
            rows = [line.split() for line in file]
        now = [row[4] for row in rows if row[1].endswith(ports[0]) and row[2].endswith(ports[1])]
        if now != kept:
            kept, since = now, time.monotonic()
        time.sleep(0.05)


def option_of(keeper, rover, level, option):
    """An option of the socket at which the program serves this rover."""
    mine, value = rover.socket.getsockname(), None
    for one in wire.sockets_of(keeper.process):
        if peer_of(one) == mine:
            value = one.getsockopt(level, option)
        one.close()
    return value


def slow_rovers_are_lapped():
    """Two rovers of small windows read half of what their base sends. They are lapped, and each place came or stands in
    a lap. Their newest frames stay near the base's. From when they are behind the system is not to cut them, also
    when they have read all: it counts from the first time that their window was too small."""
    keeper = keep(4, ring=16)
    base, quick = Base(keeper, 'CHARLIE', claim=1), Rover(keeper, 'CHARLIE', 'rover1')
    slow = [(Rover(keeper, 'CHARLIE', 'rover1', room=4096), 1000), (Rover(keeper, 'CHARLIE', 'rover2', 2, 4096), 500)]
    for _ in range(250):
        goes_on(base, quick, slow)

    def behind():
        """By how many frames the slow ones are behind; one that has read none of late reads on."""
        goes_on(base, quick, slow)
        return [keeper.published['CHARLIE'] - 1 - rover.heard_last()[1] for rover, _ in slow]

    until(lambda: max(behind()) <= BEHIND, lambda: 'their newest frames: they are %s behind' % behind(), 60)
    for rover, _ in slow:
        until(lambda: option_of(keeper, rover, socket.IPPROTO_TCP, USER_TIMEOUT) == 0, 'a link that is not cut', 60)
        kept = option_of(keeper, rover, socket.SOL_SOCKET, socket.SO_SNDBUF)
        holds('its buffer has %d bytes' % kept, 2 * 4096 <= kept <= 2 * 32768)
    last = keeper.published['CHARLIE']
    for rover, place in [(quick, last - 1), (slow[0][0], last - 1), (slow[1][0], last - 2)]:
        rover.wait_for('CHARLIE', place).guest.spans = [(0, last)]
    # Some rests behind that.
    time.sleep(2)
    for rover, _ in slow:
        wants('its time without an acknowledgement', option_of(keeper, rover, socket.IPPROTO_TCP, USER_TIMEOUT), 0)
    books = checked_at_a_stop(keeper, [base, quick, *(rover for rover, _ in slow)])
    ends = {link.peer: link.end for link in books.links.values()}
    wants('frames that the quick one lost', ends[quick.guest.peer].overrun, 0)
    for rover, _ in slow:
        holds('it lost no frame', ends[rover.guest.peer].overrun > 0)


def idle_rover_has_its_buffer():
    """A rover has all, and nothing comes for two seconds. For each try if there is room at the least size its buffer is
    small for a moment, and then 16 KB again, which the system counts twice. So a burst finds room."""
    keeper = keep(2)
    base, rover = Base(keeper, 'CHARLIE', claim=1), Rover(keeper, 'CHARLIE', 'rover1')
    base.publish(1)
    rover.wait_for('CHARLIE', 0)
    kept = []
    for _ in range(40):
        time.sleep(0.05)
        kept.append(option_of(keeper, rover, socket.SOL_SOCKET, socket.SO_SNDBUF))
    holds('its buffer had %s bytes' % sorted(set(kept)), kept.count(2 * 16384) >= 38)
    checked_at_a_stop(keeper, [base, rover])


def stop_while_a_write_waits():
    """One that asks for a table of 64 KB reads none of it, and the system takes no more of it: at the stop all others
    see their end at once, and the program ends when that write was given up, ten seconds behind. Of a table no receipt
    says that it did not arrive."""
    keeper = keep(3, records=64)
    base, rover = Base(keeper, 'CHARLIE', claim=1), Rover(keeper, 'CHARLIE', 'rover1', 2)
    deaf = Visitor(keeper, room=4096).asks(1, 'table', '-').send(wire.rover_1('')).ended('table-sent')
    base.publish(5)
    rover.wait_for('CHARLIE', 4).guest.spans = [(0, 5)]
    wait_for_no_room(keeper, deaf)
    keeper.ask()
    begun = time.monotonic()
    all_at_once(2, lambda at: (base, rover)[at].until_end())
    ended_within(1.5, begun, (base, rover))
    text = keeper.ends()
    took = time.monotonic() - begun
    holds('it ended after %.1f seconds' % took, 9 < took < 25)
    deaf.until_end(is_open=True)
    keeper.checked(text)


def stop_while_a_link_has_no_room():
    """A rover reads nothing, and the system has no more room for it: what comes behind is not handed to the system. At
    the stop all see their end, and the program ends, without a wait for that room."""
    keeper = keep(3)
    base, quick = Base(keeper, 'ALPHA', claim=1), Rover(keeper, 'ALPHA', 'rover1')
    deaf = Rover(keeper, 'ALPHA', 'rover1', room=4096)
    for _ in range(100):
        base.publish(200)
        quick.wait_for('ALPHA', keeper.published['ALPHA'] - 1)
    wait_for_no_room(keeper, deaf)
    quick.guest.spans = [(0, keeper.published['ALPHA'])]
    keeper.ask()
    begun = time.monotonic()
    all_at_once(2, lambda at: (base, quick)[at].until_end())
    text = keeper.ends()
    took = time.monotonic() - begun
    holds('it ended after %.1f seconds' % took, took < 8)
    deaf.until_end(is_open=True)
    books = keeper.checked(text)
    sent = next(link.end.sent for link in books.links.values() if link.peer == deaf.guest.peer)
    holds('%d frames were handed to the system' % sent, 12 * sent < 60000)


def end_of_a_link_without_room():
    """A rover that reads nothing ends its sending side while the system has no room for it. That is seen once it reads:
    all that was handed to the system comes to it, and then its end."""
    keeper = keep(3)
    base, quick = Base(keeper, 'ALPHA', claim=1), Rover(keeper, 'ALPHA', 'rover1')
    late = Rover(keeper, 'ALPHA', 'rover1', room=4096)
    for _ in range(40):
        base.publish(200)
        quick.wait_for('ALPHA', keeper.published['ALPHA'] - 1)
    wait_for_no_room(keeper, late)
    late.finish()
    time.sleep(1)
    holds('it has ended', ' end ' not in keeper.text())
    late.until_end()
    quick.guest.spans = [(0, keeper.published['ALPHA'])]
    checked_at_a_stop(keeper, [base, quick])
