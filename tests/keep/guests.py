"""What the cases of tests/keep speak with: the program, its configuration, and clients that keep account of
what they did, saw and sent, as tests/keep/books.py wants it."""
import os
import re
import socket
import struct
import subprocess
import sys
import tempfile
import threading
import time

sys.path.insert(0, 'tests/serve')

import wire
from books import Guest, House, Wrong, check, holds, wants
from wire import ICY, PATIENCE, PROGRAM, ROVER_2_OK, SOURCE_2_OK, basic, chunk, frame, show

# The mountpoints. A frame says by its size whose it is, and by its place which message it has.
MOUNTS = ['ALPHA', 'BRAVO', 'CHARLIE']
SIZES = {'ALPHA': 6, 'BRAVO': 7, 'CHARLIE': 1000}
PASSWORDS = {'ALPHA': 'sesame', 'BRAVO': 'open', 'CHARLIE': 'tree'}

# The users and their passwords, how many sessions each may have, and the messages that it may hear.
USERS = {'rover1': ('secret', 300), 'rover2': ('hidden', 300), 'lone': ('only', 1)}
HEARS = {'rover2': {1005}, '-': {1005}}

AT_ALPHA = wire.report('4807.038,N', '01131.000,E')
AT_BRAVO = wire.report('4812.000,N', '01131.000,E')


def message_of(mount, place):
    return 1077 if place % 2 else 1005


def frame_at(mount, place):
    return frame(message_of(mount, place), place, SIZES[mount])


def house(workers, relays=()):
    return House(workers, MOUNTS, list(USERS), [mount for mount, *_ in relays], HEARS)


def config(workers, relays=(), ring=256, records=0):
    """The configuration of the house; each relay is a mountpoint, an address and a version. The sourcetable has so many
    records more, of 1,000 bytes each."""
    text = 'version = 2\nworkers = %d\n' % workers
    if records:
        text += 'records = [%s]\n' % ', '.join(['"NET;%s;x;N;N;x;x;x;"' % ('x' * 980)] * records)
    for at, mount in enumerate(MOUNTS):
        text += ('[[mount]]\nname = "%s"\npassword = "%s"\nring = %d\nlatitude = %d\nlongitude = 115166666\n'
                 % (mount, PASSWORDS[mount], ring, 481173000 + 827000 * at))
    text += '[[near]]\nname = "NEAR"\nbases = ["ALPHA", "BRAVO"]\n'
    text += '[[group]]\nname = "all"\nmounts = ["ALPHA", "BRAVO", "CHARLIE", "NEAR"]\ntypes = "all"\n'
    text += '[[group]]\nname = "some"\nmounts = ["ALPHA", "BRAVO", "CHARLIE"]\ntypes = [1005]\n'
    text += '[[group]]\nname = "few"\nmounts = ["ALPHA", "BRAVO"]\ntypes = [1005]\n'
    for user, (password, cap) in USERS.items():
        text += ('[[account]]\nuser = "%s"\npassword = "%s"\ngroup = "%s"\ncap = %d\n'
                 % (user, password, 'some' if user in HEARS else 'all', cap))
    for mount, address, version in relays:
        text += ('[[relay]]\nmount = "%s"\naddress = "%s"\nupstream = "FAR"\nprotocol = %d\n'
                 'user = "chain"\npassword = "link"\n' % (mount, address, version))
    return text + '[anonymous]\ngroup = "few"\ncap = 300\n'


# ---- the program

class Keeper(wire.Caster):
    """The program, keeping a caster over the configuration of so many workers and these relays. Its lines go
    to a file, or to this output. What is its front stands before its words."""

    command = 'keep'
    input = subprocess.PIPE
    may_say = b''

    def __init__(self, workers, relays=(), quiet=0, ring=256, addr=None, output=None, front=(), records=0):
        self.house, self.published, self.lock = house(workers, relays), dict.fromkeys(MOUNTS, 0), threading.Lock()
        self.guests, self.front = [], list(front)
        self.written = tempfile.NamedTemporaryFile('w+b', suffix='.lines')
        super().__init__(config(workers, relays, ring, records), quiet, addr, self.written if output is None else output)

    def words(self, limit):
        return self.front + super().words(limit)

    def note(self, guest):
        with self.lock:
            self.guests.append(guest)

    def frames_to_publish(self, mount, count):
        """The next frames of a mountpoint."""
        with self.lock:
            first = self.published[mount]
            self.published[mount] += count
        return b''.join(frame_at(mount, place) for place in range(first, first + count))

    def ask(self, text='stop\n'):
        self.process.stdin.write(text.encode())
        self.process.stdin.flush()

    def text(self):
        with open(self.written.name, 'rb') as file:
            return file.read().decode('ascii')

    def wait_for_lines(self, pattern, count=1):
        """Waits until so many lines match the whole pattern."""
        until(lambda: len(re.findall('^%s$' % pattern, self.text(), re.M)) >= count,
              lambda: '%d lines %r; there are\n%s' % (count, pattern, self.text()))

    def ends(self, status=0):
        """The lines, where it ends by itself with this status."""
        try:
            self.process.wait(PATIENCE)
        except subprocess.TimeoutExpired:
            self.stop()
            raise Wrong('the program does not end') from None
        said = self.process.stderr.read()
        wants('the status', self.process.returncode, status)
        holds('standard error: %r' % said, not said or self.may_say and self.may_say in said)
        return self.text()

    def stops(self, within=2):
        """The lines, where it ends on the word in this time, and each client sees its end."""
        begun = time.monotonic()
        self.ask()
        text = self.ends()
        took = time.monotonic() - begun
        holds('it stopped after %.2f seconds' % took, took < within)
        return text

    def checked(self, text):
        """The books of all its guests, which hold."""
        return check(text, self.house, [one.guest for one in self.guests], message_of)

    def stop(self):
        if self.process.poll() is None:
            self.process.kill()
            self.process.wait()
        for pipe in (self.process.stdin, self.process.stderr):
            try:
                if pipe:
                    pipe.close()
            except OSError:
                pass
        if os.path.exists(self.path):
            os.unlink(self.path)


def until(wanted, what, patience=PATIENCE):
    """Waits until this gives something that counts as true, and gives it."""
    end = time.monotonic() + patience
    while True:
        got = wanted()
        if got:
            return got
        if time.monotonic() > end:
            raise Wrong('waited in vain for %s' % (what() if callable(what) else what))
        time.sleep(0.02)


# ---- clients

def address_of(one):
    return '%s:%d' % one.getsockname()[:2]


class Visitor(wire.Kept):
    """A client at the program, with its account."""

    def __init__(self, keeper, room=None):
        super().__init__(keeper.port, room)
        self.keeper, self.guest = keeper, Guest(address_of(self.socket))
        self.guest.endings = ['no-head']
        keeper.note(self)

    def asks(self, version, kind, target, user='-'):
        self.guest.asks = (version, kind, target, user)
        return self

    def ended(self, *endings):
        """It ended in one of these ways."""
        self.guest.endings = endings
        return self

    def until_end(self, is_open=False):
        """Reads to the end, which it notes the time of. Where the connection is reset, or what came is
        not to be read to its end, more may have been sent than came."""
        self.guest.is_open = self.guest.is_open or is_open
        try:
            while self.receive():
                pass
        except ConnectionResetError:
            self.guest.is_open = True
        self.over = time.monotonic()
        self.socket.close()
        return self


class Base(Visitor):
    """A source of a mountpoint, which is let in."""

    def __init__(self, keeper, mount, version=1, chunked=False, claim=None):
        super().__init__(keeper)
        self.mount, self.chunked = mount, chunked
        more = ['Transfer-Encoding: chunked'] if chunked else []
        head = wire.source_1 if version == 1 else wire.source_2
        self.asks(version, 'source', mount).send(head(mount, PASSWORDS[mount], *more))
        self.expect(ICY if version == 1 else SOURCE_2_OK)
        self.guest.entered, self.guest.claim = ('source', mount), claim
        self.ended('source-end CLAIM')

    def publish(self, count=1, pieces=1):
        """So many frames more, in so many sends."""
        data = self.keeper.frames_to_publish(self.mount, count)
        data = chunk(data) if self.chunked else data
        step = -(-len(data) // pieces)
        for at in range(0, len(data), step):
            self.send(data[at:at + step])
        self.guest.sent += count
        return self

    def babble(self, data):
        """Bytes of which none is a frame's first."""
        self.send(chunk(data) if self.chunked else data)
        self.guest.junk += len(data)
        return self


class Rover(Visitor):
    """A rover of a mountpoint, which is let in. What is known of its place when it comes is kept: it was let
    in before anything was published, or nothing is known."""

    def __init__(self, keeper, target, user='-', version=1, room=None, more=()):
        super().__init__(keeper, room)
        words = [basic(user, USERS[user][0])] if user != '-' else []
        head = wire.rover_1 if version == 1 else wire.rover_2
        self.target, self.version, self.front = target, version, ICY if version == 1 else ROVER_2_OK
        self.asks(version, 'rover', target, user).send(head(target, *words, *more))
        self.expect(self.front)
        self.guest.entered = ('rover', user)
        self.guest.heard = [] if target == 'NEAR' else [(target, [])]
        self.ended('rover-end')
        self.taken = len(self.front)

    def take(self):
        """The frames that came whole, by their bases."""
        while True:
            one, size = next_frame(self.got, self.taken, self.version == 2)
            if one is None:
                return self.guest.heard
            self.taken += size
            mount, place, message = told_by(one)
            if not self.guest.heard or self.guest.heard[-1][0] != mount:
                self.guest.heard.append((mount, []))
            self.guest.heard[-1][1].append((place, message))

    def heard_last(self):
        heard = self.take()
        return (heard[-1][0], heard[-1][1][-1][0]) if heard and heard[-1][1] else (None, -1)

    def wait_for(self, mount, place):
        """Until this frame came, or one behind it."""
        while True:
            base, last = self.heard_last()
            if base == mount and last >= place:
                return self
            holds('the end came before the place %d of %s, behind %s %d' % (place, mount, base, last), self.receive())

    def until_end(self, is_open=False):
        super().until_end(is_open)
        self.take()
        left = bytes(self.got[self.taken:])
        if not self.guest.is_open:
            wants('behind the frames', left, b'')
        return self

    def leaves(self):
        """Ends its side, and reads what still comes."""
        self.finish()
        return self.until_end()


def next_frame(data, at, is_chunked):
    """The frame that begins here, and how many bytes it takes with its chunk; none where it is not whole."""
    front = at
    if is_chunked:
        front = data.find(b'\r\n', at, at + 10) + 2
        if front < 2:
            return None, 0
    if len(data) < front + 3:
        return None, 0
    size = 6 + struct.unpack('>H', data[front + 1:front + 3])[0]
    behind = front + size + (2 if is_chunked else 0)
    if len(data) < behind:
        return None, 0
    one = bytes(data[front:front + size])
    if is_chunked:
        wants('a chunk', bytes(data[at:behind]), chunk(one))
    return one, behind - at


def told_by(one):
    """The mountpoint, the place and the message of a frame, all bytes of which are as they should be."""
    size = len(one) - 6
    mount = next((mount for mount in MOUNTS if SIZES[mount] == size), None)
    holds('no frame of a mountpoint: %s' % one.hex(), mount)
    place = struct.unpack('>I', one[5:9])[0]
    wants('a frame of ' + mount, one, frame_at(mount, place))
    return mount, place, message_of(mount, place)


class Refused(Visitor):
    """One that sends this head and is sent this reply, and no more, up to the end."""

    def __init__(self, keeper, head, reply, ending, *asks):
        super().__init__(keeper)
        if asks:
            self.asks(*asks)
        self.send(head).expect(reply).ended(ending).expect_end()


# ---- another caster

ASKED = {
    1: b'GET /FAR HTTP/1.0\r\nUser-Agent: NTRIP lapcast/1.0\r\nAuthorization: Basic Y2hhaW46bGluaw==\r\n\r\n',
    2: b'GET /FAR HTTP/1.1\r\nHost: %s\r\nNtrip-Version: Ntrip/2.0\r\nUser-Agent: NTRIP lapcast/1.0\r\n'
       b'Authorization: Basic Y2hhaW46bGluaw==\r\nConnection: close\r\n\r\n'}


class Upstream:
    """A caster that a relay dials. It waits for each of its connections in turn, which is a source of this
    mountpoint then."""

    def __init__(self, mount, version=1):
        self.mount, self.version = mount, version
        self.listener = socket.create_server(('127.0.0.1', 0))
        self.listener.settimeout(PATIENCE)
        self.address = address_of(self.listener)
        self.relay = (mount, self.address, version)

    def accept(self, keeper):
        """The next connection: it is asked as FORMATS says, and answered."""
        return Dialled(self, keeper)

    def close(self):
        self.listener.close()


class Dialled:
    """A connection that was dialled by a relay, seen from the other caster."""

    def __init__(self, upstream, keeper, reply=None, status=None):
        self.socket, _ = upstream.listener.accept()
        self.begun = time.monotonic()
        self.socket.settimeout(PATIENCE)
        self.socket.setsockopt(socket.IPPROTO_TCP, socket.TCP_NODELAY, 1)
        self.keeper, self.mount, self.guest = keeper, upstream.mount, Guest(upstream.address, 'to')
        keeper.note(self)
        wanted = ASKED[upstream.version]
        if upstream.version == 2:
            wanted %= upstream.address.encode()
        asked = b''
        while len(asked) < len(wanted) and wanted.startswith(asked):
            asked += self.socket.recv(len(wanted) - len(asked)) or b'the end'
        wants('what a relay asks', asked, wanted)
        self.socket.sendall(b'ICY 200 OK\r\n')
        self.guest.entered, self.guest.endings = ('relay', self.mount), ['source-end CLAIM']

    def publish(self, count=1):
        self.socket.sendall(self.keeper.frames_to_publish(self.mount, count))
        self.guest.sent += count
        return self

    def close(self):
        self.socket.close()

    def until_end(self):
        wants('what a relay sends behind its head', self.socket.recv(4096), b'')
        self.over = time.monotonic()
        self.socket.close()
        return self


# ---- what cases do

keepers, children = [], []


def keep(workers, *more, **named):
    keeper = Keeper(workers, *more, **named)
    keepers.append(keeper)
    return keeper


def all_at_once(count, call):
    """The call with each number below this one, each in a thread of its own, and what they give."""
    given, wrong = [None] * count, []

    def one(at):
        try:
            given[at] = call(at)
        except Exception as fault:
            wrong.append(fault)

    threads = [threading.Thread(target=one, args=(at,)) for at in range(count)]
    for thread in threads:
        thread.start()
    for thread in threads:
        thread.join()
    if wrong:
        raise wrong[0]
    return given


def ended_within(seconds, begun, visitors):
    for one in visitors:
        holds('%s saw its end after %.2f s' % (one.guest.peer[1], one.over - begun), one.over - begun < seconds)


def checked_at_a_stop(keeper, visitors):
    """The program is told to stop, and all of them read to their ends; the books hold."""
    keeper.ask()
    all_at_once(len(visitors), lambda at: visitors[at].until_end())
    return keeper.checked(keeper.ends())
