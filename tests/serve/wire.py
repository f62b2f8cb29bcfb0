"""What the cases of tests/serve speak with: frames, heads, replies, clients, the program, and a wire
between two programs that can be cut. All texts are written by hand from docs/FORMATS.md."""
import base64
import ctypes
import os
import re
import socket
import struct
import subprocess
import tempfile
import threading
import time

PROGRAM = os.environ.get('CASTER', './caster')

# Calls of Linux for which Python 3.8 has no names.
PIDFD_OPEN, PIDFD_GETFD = 434, 438

# How long a client waits for bytes, and for the program to end, in seconds.
PATIENCE = 30


class Wrong(Exception):
    """Something was not as wanted."""


# ---- frames

A = bytes.fromhex('d300023ed0a4e000')       # message 1005
Z = bytes.fromhex('d3000047ea4b')           # no message number
B = bytes.fromhex('d30002435006a27e')       # message 1077


def crc(data):
    """The checksum of a frame: CRC-24Q."""
    value = 0
    for byte in data:
        value ^= byte << 16
        for _ in range(8):
            value <<= 1
            if value & 0x1000000:
                value ^= 0x1864CFB
    return value


# For a message and a size, the checksum for each bit of the place, and that of place 0.
checksums = {}


def frame(message, place, size=6):
    """A frame of this message whose payload has `size` bytes, of which four say its place. The checksum
    of a sum of bits is the sum of their checksums."""
    front = b'\xd3' + struct.pack('>HH', size, message << 4)
    behind = bytes(size - 6)
    if (message, size) not in checksums:
        none = crc(front + bytes(4) + behind)
        bits = [crc(bytes(5) + struct.pack('>I', 1 << bit) + behind) for bit in range(32)]
        checksums[message, size] = none, bits
    value, bits = checksums[message, size]
    for bit in range(place.bit_length()):
        if place >> bit & 1:
            value ^= bits[bit]
    return front + struct.pack('>I', place) + behind + value.to_bytes(3, 'big')


def frames(message, first, count, size=6):
    return [frame(message, place, size) for place in range(first, first + count)]


def chunk(data):
    """One chunk as the caster writes it."""
    return b'%x\r\n' % len(data) + data + b'\r\n'


def out_of_chunks(body, size=6):
    """What chunks hold of which each is a frame of this size."""
    front = len(b'%x\r\n' % (size + 6))
    whole = front + size + 6 + 2
    held = bytearray()
    for at in range(0, len(body), whole):
        one = body[at:at + whole]
        if one != chunk(one[front:-2]):
            raise Wrong('no chunk of %d bytes at %d: %s' % (size + 6, at, show(one)))
        held += one[front:-2]
    return bytes(held)


def places_in(body, size=6):
    """The places of the frames that a body of version 1 consists of, which are all of this size."""
    whole = size + 6
    if len(body) % whole:
        raise Wrong('%d bytes are no frames of %d bytes' % (len(body), whole))
    places = []
    for at in range(0, len(body), whole):
        one = body[at:at + whole]
        place = struct.unpack('>I', one[5:9])[0]
        if one != frame(struct.unpack('>H', one[3:5])[0] >> 4, place, size):
            raise Wrong('no frame at %d: %s' % (at, one[:12].hex()))
        places.append(place)
    return places


# ---- heads

def lines(*parts):
    return ''.join(part + '\r\n' for part in parts).encode() + b'\r\n'


def basic(user, password):
    text = base64.b64encode(('%s:%s' % (user, password)).encode()).decode()
    return 'Authorization: Basic ' + text


def source_1(mount, password):
    return lines('SOURCE %s %s' % (password, mount), 'Source-Agent: NTRIP test')


def source_2(mount, password, *more):
    return lines('POST /%s HTTP/1.1' % mount, 'Host: caster', 'Ntrip-Version: Ntrip/2.0',
                 'User-Agent: NTRIP test', basic('source', password), *more)


def rover_1(mount, *more):
    return lines('GET /%s HTTP/1.0' % mount, 'User-Agent: NTRIP test', *more)


def rover_2(mount, *more):
    return lines('GET /%s HTTP/1.1' % mount, 'Host: caster', 'Ntrip-Version: Ntrip/2.0',
                 'User-Agent: NTRIP test', *more)


def report(latitude, longitude):
    """A report of a position: a GGA sentence of NMEA 0183, as `4807.038,N` and `01131.000,E`."""
    text = 'GPGGA,123519,%s,%s,1,08,0.9,545.4,M,46.9,M,,' % (latitude, longitude)
    total = 0
    for byte in text.encode():
        total ^= byte
    return '$%s*%02X' % (text, total)


# ---- replies

ICY = b'ICY 200 OK\r\n\r\n'
SERVER = b'Server: NTRIP lapcast/1.0\r\n'
CLOSED = b'Content-Length: 0\r\nConnection: close\r\n\r\n'
REALM = b'WWW-Authenticate: Basic realm="caster"\r\n'
VERSION_2 = b'Ntrip-Version: Ntrip/2.0\r\n'

BAD_HEAD = b'HTTP/1.1 400 Bad Request\r\n' + SERVER + CLOSED
NOT_DONE = b'HTTP/1.1 501 Not Implemented\r\n' + SERVER + CLOSED

UNAUTHORIZED_1 = b'HTTP/1.0 401 Unauthorized\r\n' + SERVER + REALM + CLOSED
DENIED_1 = b'HTTP/1.0 403 Forbidden\r\n' + SERVER + CLOSED
FULL_1 = b'HTTP/1.0 503 Service Unavailable\r\n' + SERVER + CLOSED
BAD_PASSWORD_1 = b'ERROR - Bad Password\r\n'
TAKEN_1 = b'ERROR - Mount Point Taken or Invalid\r\n'

ROVER_2_OK = (b'HTTP/1.1 200 OK\r\n' + VERSION_2 + SERVER + b'Content-Type: gnss/data\r\n'
              b'Transfer-Encoding: chunked\r\nConnection: close\r\n\r\n')
SOURCE_2_OK = b'HTTP/1.1 200 OK\r\n' + VERSION_2 + SERVER + b'Connection: close\r\n\r\n'
NO_MOUNT_2 = b'HTTP/1.1 404 Not Found\r\n' + VERSION_2 + SERVER + CLOSED
UNAUTHORIZED_2 = b'HTTP/1.1 401 Unauthorized\r\n' + VERSION_2 + SERVER + REALM + CLOSED
DENIED_2 = b'HTTP/1.1 403 Forbidden\r\n' + VERSION_2 + SERVER + CLOSED
FULL_2 = b'HTTP/1.1 503 Service Unavailable\r\n' + VERSION_2 + SERVER + CLOSED
TAKEN_2 = b'HTTP/1.1 409 Conflict\r\n' + VERSION_2 + SERVER + CLOSED


def table_1(table):
    return (b'SOURCETABLE 200 OK\r\n' + SERVER + b'Content-Type: text/plain\r\nContent-Length: %d\r\n'
            b'Connection: close\r\n\r\n' % len(table) + table)


def table_2(table):
    return (b'HTTP/1.1 200 OK\r\n' + VERSION_2 + SERVER + b'Content-Type: gnss/sourcetable\r\n'
            b'Content-Length: %d\r\nConnection: close\r\n\r\n' % len(table) + table)


# ---- clients

def free_port(family=socket.AF_INET, host='127.0.0.1'):
    with socket.socket(family) as one:
        one.bind((host, 0))
        return one.getsockname()[1]


class Client:
    """A connection to a port of loopback, which waits until somebody listens there, but not for ever."""

    patience = PATIENCE

    def __init__(self, port, room=None, host='127.0.0.1'):
        family = socket.AF_INET6 if ':' in host else socket.AF_INET
        until = time.monotonic() + self.patience
        while True:
            self.socket = socket.socket(family)
            if room:
                self.socket.setsockopt(socket.SOL_SOCKET, socket.SO_RCVBUF, room)
            self.socket.settimeout(PATIENCE)
            try:
                self.socket.connect((host, port))
                break
            except ConnectionRefusedError:
                self.socket.close()
                if time.monotonic() > until:
                    raise Wrong('nobody listens') from None
                time.sleep(0.01)
        self.socket.setsockopt(socket.IPPROTO_TCP, socket.TCP_NODELAY, 1)
        self.came = bytearray()

    def send(self, data):
        self.socket.sendall(data)
        return self

    def receive(self):
        """Some bytes more; none where the connection has ended."""
        try:
            some = self.socket.recv(65536)
        except socket.timeout:
            raise Wrong('nothing came behind %s' % show(self.came)) from None
        self.came += some
        return some

    def expect(self, wanted):
        """These bytes come next."""
        while len(self.came) < len(wanted) and self.receive():
            pass
        got = bytes(self.came[:len(wanted)])
        if got != wanted:
            raise Wrong('wanted %s and got %s' % (show(wanted), show(got)))
        del self.came[:len(wanted)]
        return self

    def expect_end(self):
        """Nothing more comes, and the connection has ended."""
        if self.came or self.receive():
            raise Wrong('wanted the end and got %s' % show(self.came))
        self.socket.close()

    def receive_until(self, end):
        """All bytes up to these ones, with which they are to end."""
        while not self.came.endswith(end):
            if not self.receive():
                raise Wrong('the end came before %s' % show(end))
        got = bytes(self.came)
        self.came.clear()
        return got

    def close(self):
        self.socket.close()

    def reset(self):
        """Ends the connection so that the other side is told of a fault."""
        self.socket.setsockopt(socket.SOL_SOCKET, socket.SO_LINGER, struct.pack('ii', 1, 0))
        self.socket.close()


class Kept(Client):
    """A client that keeps all bytes that it sent, and all that came."""

    def __init__(self, port, room=None, host='127.0.0.1'):
        super().__init__(port, room, host)
        self.sent = bytearray()
        self.got = bytearray()

    def send(self, data):
        super().send(data)
        self.sent += data
        return self

    def receive(self):
        some = super().receive()
        self.got += some
        return some

    def finish(self):
        """It sends nothing more, and can still be read from."""
        self.socket.shutdown(socket.SHUT_WR)

    def drain(self):
        """All bytes that came, up to the end of the connection."""
        while self.receive():
            pass
        self.socket.close()
        return bytes(self.got)


def most_kept():
    """How many bytes the system keeps at most for a connection whose other side does not read."""
    with open('/proc/sys/net/ipv4/tcp_wmem') as file:
        return int(file.read().split()[2])


def show(data):
    data = bytes(data)
    return '%r%s (%d bytes)' % (data[:300], '..' if len(data) > 300 else '', len(data))


# ---- the program

class Caster:
    """The program, serving over this configuration at a free port, or at this address. What it writes goes
    to this output, or is kept."""

    command = 'serve'
    input = subprocess.DEVNULL
    more = {}

    def __init__(self, config, limit, addr=None, output=subprocess.PIPE, descriptors=None):
        self.port = free_port()
        self.addr = addr or '127.0.0.1:%d' % self.port
        with tempfile.NamedTemporaryFile('w', suffix='.toml', delete=False) as file:
            file.write(config)
        self.path = file.name
        # With so many descriptors at most, where a number is given.
        front = ['sh', '-c', 'ulimit -n %d && exec "$@"' % descriptors, 'sh'] if descriptors else []
        self.process = subprocess.Popen(front + self.words(str(limit)), stdin=self.input, stdout=output,
                                        stderr=subprocess.PIPE, **self.more)

    def words(self, limit):
        return [PROGRAM, self.command, self.path, self.addr, limit]

    def client(self, room=None):
        return Client(self.port, room)

    def threads(self):
        """How many threads the program has."""
        with open('/proc/%d/status' % self.process.pid) as file:
            return next(int(line.split()[1]) for line in file if line.startswith('Threads:'))

    def wait_for_threads(self, count):
        """All its workers have started."""
        until = time.monotonic() + PATIENCE
        while self.threads() != count:
            if time.monotonic() > until:
                raise Wrong('%d threads, wanted %d' % (self.threads(), count))
            time.sleep(0.01)

    def ends_with(self, wanted, status=0):
        """It ends by itself, with this status, and has written these lines and nothing else."""
        got = self.ends(status)
        wanted = ''.join(line + '\n' for line in wanted)
        if got != wanted:
            raise Wrong('wanted the lines\n%sand got\n%s' % (wanted, got))

    def ends(self, status=0):
        """What it has written where it ends by itself with this status."""
        try:
            out, err = self.process.communicate(timeout=PATIENCE)
        except subprocess.TimeoutExpired:
            self.stop()
            raise Wrong('the program does not end') from None
        if err:
            raise Wrong('wrote to standard error: %s' % show(err))
        if self.process.returncode != status:
            raise Wrong('status %d, wanted %d; %s' % (self.process.returncode, status, show(out)))
        return (out or b'').decode()

    def stop(self):
        """Ends the program where it has not ended, and takes its configuration away."""
        if self.process.poll() is None:
            self.process.kill()
            self.process.communicate()
        if os.path.exists(self.path):
            os.unlink(self.path)


def sockets_of(process):
    """Copies of the sockets of the program, to look at and to shut."""
    system = ctypes.CDLL(None, use_errno=True)
    handle = system.syscall(PIDFD_OPEN, process.pid, 0)
    found = []
    for name in os.listdir('/proc/%d/fd' % process.pid) if handle >= 0 else []:
        try:
            is_socket = os.readlink('/proc/%d/fd/%s' % (process.pid, name)).startswith('socket:')
        except OSError:
            continue
        copied = system.syscall(PIDFD_GETFD, handle, int(name), 0) if is_socket else -1
        if copied >= 0:
            found.append(socket.socket(fileno=copied))
    if not found:
        raise Wrong('it has no sockets, or they cannot be copied: %s' % os.strerror(ctypes.get_errno()))
    os.close(handle)
    return found


def shut_listeners(process):
    """Its listener is none any more: no accept of it can succeed."""
    for one in sockets_of(process):
        if one.getsockopt(socket.SOL_SOCKET, socket.SO_ACCEPTCONN):
            one.shutdown(socket.SHUT_RDWR)
        one.close()


def busiest(process, seconds=3):
    """Which part of so many seconds from now on the busiest of its threads has work, whether it is given a processor
    for it or not: so another program's load changes little of it."""
    folder, counts, looks = '/proc/%d/task' % process.pid, {}, int(seconds / 0.02)
    for _ in range(looks):
        for thread in os.listdir(folder):
            try:
                with open('%s/%s/stat' % (folder, thread)) as file:
                    counts[thread] = counts.get(thread, 0) + (file.read().rpartition(') ')[2][0] == 'R')
            except OSError:
                pass
        time.sleep(0.02)
    return max(counts.values()) / looks


def wakes(process):
    """How often each of its threads has gone to rest so far, and so was woken."""
    folder, found = '/proc/%d/task' % process.pid, {}
    for thread in os.listdir(folder):
        with open('%s/%s/status' % (folder, thread)) as file:
            found[thread] = next(int(line.split()[1]) for line in file if line.startswith('voluntary_ctxt_switches:'))
    return found


def connections_at(port):
    """How many connections this port of loopback has, which are not over at its own side."""
    with open('/proc/net/tcp') as file:
        rows = [line.split() for line in file.readlines()[1:]]
    # Neither LISTEN nor TIME_WAIT.
    return sum(int(row[1].split(':')[1], 16) == port and row[3] not in ('0A', '06') for row in rows)


def standing_at(port):
    """How many connections of this port of loopback neither side has ended."""
    with open('/proc/net/tcp') as file:
        rows = [line.split() for line in file.readlines()[1:]]
    return sum(int(row[1].split(':')[1], 16) == port and row[3] == '01' for row in rows)


class Keeping(Caster):
    """The program, keeping a caster over this configuration, for a case of one that serves. It goes on until
    it is awaited: once all connections have ended it is told to stop. What it has written is then its closing
    lines, or the one line of a fault; `lines` has all."""

    command = 'keep'
    input = subprocess.PIPE

    def __init__(self, config, limit, addr=None, descriptors=None, quiet=0):
        self.written = tempfile.NamedTemporaryFile('w+b', suffix='.lines')
        super().__init__(config, quiet, addr, self.written, descriptors)

    def lines(self):
        with open(self.written.name) as file:
            return file.read().splitlines()

    def is_left(self):
        """All connections have ended, and have their receipts; or it has ended by itself."""
        seconds = [line.split(' ')[1] for line in self.lines()]
        begun, ended = seconds.count('from') + seconds.count('to'), seconds.count('end')
        return self.process.poll() is not None or begun == ended and connections_at(self.port) == 0

    def ends(self, status=0):
        until = time.monotonic() + PATIENCE
        while not self.is_left():
            if time.monotonic() > until:
                self.stop()
                raise Wrong('connections are open: %s' % self.lines()[-20:])
            time.sleep(0.02)
        if self.process.poll() is None:
            self.process.stdin.write(b'stop\n')
        super().ends(status)
        return ''.join(line + '\n' for line in self.lines() if not re.match(r'[0-9]+\.[0-9]+ ', line))


class Recorder(Caster):
    """The program, recording a session of so many connections over this configuration. It serves all of
    them at the same time, and keeps each connection until the session has ended."""

    command = 'record'

    def client(self, room=None):
        return Kept(self.port, room)


def replay(config, script):
    """The report of this script over the configuration in the file of this path."""
    with tempfile.NamedTemporaryFile('w', suffix='.session') as file:
        file.write(script)
        file.flush()
        done = subprocess.run([PROGRAM, 'replay', config, file.name], stdin=subprocess.DEVNULL,
                              capture_output=True, timeout=PATIENCE)
    if done.stderr or done.returncode:
        raise Wrong('replay ended with %d; %s %s' % (done.returncode, show(done.stdout), show(done.stderr)))
    return done.stdout.decode()


# An event's line in a recorded script.
EVENT = re.compile(r'(open|end|break) [1-9][0-9]*|turn [1-9][0-9]* 16|in [1-9][0-9]* ([0-9a-f]{2}){1,4096}')


def events_of(script):
    """The words of each event of a recorded script, which is written as `record` writes it: one event a
    line, then `stop`, and nothing else."""
    lines = script.split('\n')
    if lines[-2:] != ['stop', '']:
        raise Wrong('the script ends with %r' % script[-100:])
    for line in lines[:-2]:
        if not EVENT.fullmatch(line):
            raise Wrong('no event of a recorded session: %r' % line[:100])
    return [line.split(' ') for line in lines[:-2]]


def brought(events, number):
    """All bytes that came in on the connection of this number."""
    return b''.join(bytes.fromhex(words[2]) for words in events if words[:2] == ['in', str(number)])


def parts_of(report):
    """The lines of a report: those of each connection, by its number, and the last ones."""
    connections, last = {}, []
    for line in report.splitlines():
        words = line.split(' ')
        if words[0] == 'connection':
            lines = connections[int(words[1])] = []
        elif words[0] == 'mount':
            lines = last
        lines.append(line)
    return connections, last


def sent_by(lines):
    """The bytes that the lines of a connection say it was sent."""
    word, digits = lines[-1].split(' ')
    if word != 'bytes':
        raise Wrong('no bytes: %s' % lines[-1][:100])
    return b'' if digits == '-' else bytes.fromhex(digits)


class Fetch:
    """The program, fetching so many frames from these targets: each a protocol, an address, a mountpoint,
    a user and a password."""

    def __init__(self, frames, *targets):
        words = [str(word) for target in targets for word in target]
        self.process = subprocess.Popen([PROGRAM, 'fetch', str(frames), *words],
                                        stdin=subprocess.DEVNULL, stdout=subprocess.PIPE,
                                        stderr=subprocess.PIPE)

    def runs(self):
        return self.process.poll() is None

    def ends(self, status):
        """What it has written where it ends by itself with this status."""
        try:
            out, err = self.process.communicate(timeout=PATIENCE)
        except subprocess.TimeoutExpired:
            self.process.kill()
            self.process.communicate()
            raise Wrong('the fetch does not end') from None
        if err or self.process.returncode != status:
            raise Wrong('the fetch ended with %d, wanted %d; %s %s'
                        % (self.process.returncode, status, show(out), show(err)))
        return out


class Wire:
    """Listens at a free port, and passes what comes there on to another port and back, until it is
    cut. What came back is kept, a list for each connection in the order in which they came."""

    def __init__(self, to):
        self.to = to
        self.listener = socket.create_server(('127.0.0.1', 0))
        self.port = self.listener.getsockname()[1]
        self.pairs = []
        self.back = []
        threading.Thread(target=self.run, daemon=True).start()

    def run(self):
        while True:
            try:
                near, _ = self.listener.accept()
            except OSError:
                return
            far = Client(self.to).socket
            back = bytearray()
            self.pairs.append((near, far))
            self.back.append(back)
            threading.Thread(target=self.pass_on, args=(near, far, None), daemon=True).start()
            threading.Thread(target=self.pass_on, args=(far, near, back), daemon=True).start()

    def pass_on(self, here, there, back):
        here.settimeout(None)
        while True:
            try:
                some = here.recv(65536)
                if not some:
                    return
                there.sendall(some)
            except OSError:
                return
            if back is not None:
                back += some

    def wait_for(self, count, beginning):
        """So many connections stand, on each of which these bytes came back first."""
        until = time.monotonic() + PATIENCE
        while sum(bytes(back).startswith(beginning) for back in self.back) < count:
            if time.monotonic() > until:
                raise Wrong('came back: %s' % [show(back) for back in self.back])
            time.sleep(0.01)

    def cut(self):
        """Ends all connections on both sides, as their end."""
        self.listener.close()
        for pair in self.pairs:
            for one in pair:
                one.shutdown(socket.SHUT_RDWR)
