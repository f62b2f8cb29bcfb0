"""Bases and rovers at a pace of their own, for bench/serve/slow: the program that they are at, the roads on which
rovers reach it, and what each of them noted. Times are those of time.monotonic(), in seconds; rates are bytes a
second."""
import collections
import os
import select
import socket
import struct
import subprocess
import sys
import tempfile
import threading
import time

ROOT = os.path.dirname(os.path.dirname(os.path.dirname(os.path.abspath(__file__))))
sys.path[:0] = [ROOT + '/tests/faults', ROOT + '/tests/keep', ROOT + '/tests/serve']

import books  # noqa: E402
import net  # noqa: E402
import wire  # noqa: E402
from books import Guest, House, Wrong  # noqa: E402

# A mountpoint, and its base: so many frames of `size` bytes at once, `hertz` times a second.
Mount = collections.namedtuple('Mount', 'name ring size hertz at_once')

# How often a rover reads that has a rate, in a second; and how long it waits for bytes before it looks about.
READS, LOOK = 4, 0.5

# How long a rover may take to read what is left for it, and to its end.
PATIENCE = 120

MOUNT = '''[[mount]]
name = "%s"
password = "pw"
ring = %d
latitude = 481173000
longitude = 115166666
'''

CONFIG = '''version = 2
workers = %d
%s[[group]]
name = "all"
mounts = [%s]
types = "all"
[anonymous]
group = "all"
cap = 1000
'''


class Keeper(wire.Caster):
    """A build of the caster that keeps these mountpoints at a port of every address, and writes its lines to a file."""

    command = 'keep'
    input = subprocess.PIPE

    def __init__(self, program, mounts, workers):
        self.program, self.mounts, self.workers = program, mounts, workers
        self.guests = []
        self.written = tempfile.NamedTemporaryFile('w+b', suffix='.lines')
        text = ''.join(MOUNT % (mount.name, mount.ring) for mount in mounts)
        names = ', '.join('"%s"' % mount.name for mount in mounts)
        super().__init__(CONFIG % (workers, text, names), 0, None, self.written)

    def words(self, limit):
        return [self.program, self.command, self.path, '0.0.0.0:%d' % self.port, limit]

    def books(self):
        """It stops, and its lines are books that agree with what its guests did, saw and sent."""
        self.process.stdin.write(b'stop\n')
        self.process.stdin.flush()
        super().ends()
        with open(self.written.name) as file:
            text = file.read()
        house = House(self.workers, [mount.name for mount in self.mounts], [])
        return books.check(text, house, self.guests, lambda mount, place: 1005)

    def cubic(self, rover):
        """Of the socket that this rover is at, the congestion control is cubic, which fills a queue."""
        for one in wire.sockets_of(self.process):
            try:
                if one.getpeername()[:2] == rover.address:
                    one.setsockopt(socket.IPPROTO_TCP, socket.TCP_CONGESTION, b'cubic')
            except OSError:
                pass
            one.close()


class Road(net.Side):
    """A namespace that is reached by a road: packets of 1,500 bytes come so many milliseconds later each way, those to
    it with a rate and a queue where they are given."""

    def __init__(self, name, number, program, *words):
        self.words = [program, *map(str, words)]
        super().__init__(name, number)

    def connect(self):
        ends = net.device(self.near), self.call(lambda: net.device(self.far))
        words = [self.words[0], *map(str, ends), *self.words[1:]]
        self.process = subprocess.Popen(words, pass_fds=ends, stdin=subprocess.DEVNULL)
        for one in ends:
            os.close(one)

    def end(self):
        """No packet goes by it any more, and its name is free."""
        self.process.kill()
        self.process.wait()
        net.ip('netns', 'del', self.name)


# ---- bases

class Base:
    """The source of a mountpoint. `sent` has when each of its frames was sent, by its place."""

    def __init__(self, keeper, mount):
        self.mount, self.sent = mount, []
        self.client = wire.Client(keeper.port).send(wire.source_1(mount.name, 'pw')).expect(wire.ICY)
        self.guest = Guest('%s:%d' % self.client.socket.getsockname())
        self.guest.asks, self.guest.entered = (1, 'source', mount.name, '-'), ('source', mount.name)
        self.guest.endings, self.guest.claim = ['source-end CLAIM'], 1
        keeper.guests.append(self.guest)

    def frame(self, place):
        return wire.frame(1005, place, self.mount.size - 6)

    def run(self, over):
        """Sends until this event, at even times whatever a write took."""
        begun, ticks = time.monotonic(), 0
        while not over.wait(max(0, begun + ticks / self.mount.hertz - time.monotonic())):
            place = len(self.sent)
            data = b''.join(self.frame(place + one) for one in range(self.mount.at_once))
            self.sent += [time.monotonic()] * self.mount.at_once
            self.client.send(data)
            ticks += 1
        self.guest.sent = len(self.sent)

    def leave(self):
        self.client.socket.shutdown(socket.SHUT_WR)
        while self.client.receive():
            pass
        self.client.close()


# ---- rovers

class Rover:
    """A rover of NTRIP 1.0 at the mountpoint of a base, which it joins before the base's first frame.

    rate      how many bytes a second it reads, READS times a second; None: as they come
    room      its receive buffer (SO_RCVBUF), or None for the system's own
    stop      None, or when it stops to read, and for how long; then it resets its connection
    ages      how old the newest whole frame that it had was, each second from the base's first one on
    oldest    the largest age at any time from `since` seconds behind the first frame on, up to the base's last one
    lates     by place, how long each frame was on its way
    cut       after how many seconds its connection ended, which it did not ask for, or None
    """

    def __init__(self, keeper, base, rate=None, room=None, host='127.0.0.1', stop=None):
        self.base, self.rate, self.stop = base, rate, stop
        self.client = wire.Client(keeper.port, room, host).send(wire.rover_1(base.mount.name)).expect(wire.ICY)
        self.address = self.client.socket.getsockname()
        self.guest = Guest('%s:%d' % self.address)
        self.guest.asks, self.guest.entered = (1, 'rover', base.mount.name, '-'), ('rover', '-')
        # So it is until it has read to the end of its connection.
        self.guest.endings, self.guest.is_open = ['read-fault', 'write-fault', 'rover-end'], True
        self.guest.heard = [(base.mount.name, [])]
        keeper.guests.append(self.guest)
        # How many bytes came, in the first ten seconds, and behind these at its pace.
        self.part, self.bytes, self.early, self.paced = bytearray(), 0, 0, 0
        self.ages, self.oldest, self.lates = [], 0.0, []
        self.cut, self.ended, self.wrong = None, None, None

    def run(self, begun, since, over):
        """Reads until this event, and then what is left; then it leaves."""
        self.begun, self.since, self.due, self.is_over = begun, since, begun, over.is_set
        try:
            while not over.is_set() and self.read() and not self.stops():
                pass
            self.note_age(time.monotonic())
            self.paced = self.bytes - self.early
            if self.ended is not None:
                self.cut = time.monotonic() - begun
            elif not self.stop:
                self.drain()
        except Wrong as wrong:
            self.wrong = str(wrong)
        finally:
            self.client.close()

    def read(self):
        """Some bytes more, by its rate; whether the connection goes on."""
        if not select.select([self.client.socket], [], [], LOOK)[0]:
            return True
        try:
            some = self.client.socket.recv(int(self.rate / READS) if self.rate else 65536)
        except OSError as fault:
            self.ended = fault.strerror
            return False
        if not some:
            self.ended = 'the end'
            return False
        now = time.monotonic()
        self.take(some, now)
        if self.rate:
            self.due = max(self.due, now - 1 / READS) + len(some) / self.rate
            time.sleep(max(0, self.due - time.monotonic()))
        return True

    def take(self, some, now):
        self.part += some
        self.bytes += len(some)
        if now - self.begun < 10:
            self.early = self.bytes
        size, heard = self.base.mount.size, self.guest.heard[0][1]
        whole = len(self.part) // size
        if whole:
            self.note_age(now)
        for at in range(0, whole * size, size):
            place = struct.unpack('>I', self.part[at + 5:at + 9])[0]
            if place >= len(self.base.sent) or self.part[at:at + size] != self.base.frame(place):
                raise Wrong('no frame of its base: %s' % self.part[at:at + 12].hex())
            heard.append((place, 1005))
            self.lates.append(now - self.base.sent[place])
        del self.part[:whole * size]

    def note_age(self, now):
        """How old the newest frame has become by now, and was at each second before. It does not age behind the last
        frame of its base."""
        if self.is_over():
            now = min(now, self.base.sent[-1])
        heard = self.guest.heard[0][1]
        newest = self.base.sent[heard[-1][0]] if heard else self.begun
        while self.begun + len(self.ages) + 1 <= now:
            self.ages.append(self.begun + len(self.ages) + 1 - newest)
        if now - self.begun >= self.since:
            self.oldest = max(self.oldest, now - newest)

    def stops(self):
        """Where its time to stop has come, it reads nothing for as long as it is to, and resets its connection."""
        if not self.stop or time.monotonic() - self.begun < self.stop[0]:
            return False
        time.sleep(self.stop[1])
        self.client.reset()
        return True

    def drain(self):
        """Reads as fast as it can to the last frame, leaves, and reads to the end of its connection."""
        self.rate, end = None, time.monotonic() + PATIENCE
        heard, last = self.guest.heard[0][1], len(self.base.sent) - 1
        while heard[-1:] != [(last, 1005)] and self.read() and time.monotonic() < end:
            pass
        if heard[-1:] != [(last, 1005)]:
            raise Wrong('the last frame %d does not come behind %s: %s' % (last, heard[-1:], self.ended))
        self.client.socket.shutdown(socket.SHUT_WR)
        while self.read() and time.monotonic() < end:
            pass
        if self.ended != 'the end' or self.part:
            raise Wrong('behind the last frame came %s' % (self.ended or bytes(self.part[:20])))
        self.guest.spans, self.guest.endings, self.guest.is_open = [(0, last + 1)], ['rover-end'], False
