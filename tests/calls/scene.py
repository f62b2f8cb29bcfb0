"""The program under strace, and the clients of one run: two bases, a relay, four rovers and one that asks for the
table. A client goes on where it gets nothing, and says afterwards what it got.
"""
import os
import select
import socket
import subprocess
import sys
import tempfile
import threading
import time

sys.path[:0] = ['tests/serve', 'tests/keep']

import books
import wire
from wire import ICY, ROVER_2_OK, SOURCE_2_OK, basic, chunk, frame

# How long a client waits for bytes, how long a relay may take to be dialled again, and how long the program may take to
# end, in seconds.
PATIENCE, AGAIN, LONGEST = 8, 14, 40

WORKERS = 9
MOUNTS = ['ALPHA', 'BRAVO', 'CHARLIE']
CONFIG = '''version = 2
workers = %d
%s[[group]]
name = "all"
mounts = ["ALPHA", "BRAVO", "CHARLIE"]
types = "all"
[[account]]
user = "rover1"
password = "secret"
group = "all"
cap = 10
[[relay]]
mount = "CHARLIE"
address = "%s"
upstream = "FAR"
protocol = 1
'''
MOUNT = '''[[mount]]
name = "%s"
password = "pw"
ring = 64
latitude = 0
longitude = 0
'''


class Part:
    """A client. `came` is all that it got, `ended` whether it saw its end, `late` whether it waited in vain."""

    def __init__(self, scene, kind, mount, head, front, is_chunked=False):
        self.kind, self.mount, self.front, self.is_chunked = kind, mount, front, is_chunked
        self.came, self.ended, self.late, self.wanted, self.peer = b'', False, False, front, None
        self.sent, self.head = [], head
        self.socket = scene.dial()
        if self.socket:
            self.peer = '%s:%d' % self.socket.getsockname()
            self.socket.settimeout(PATIENCE)
            self.send(head)
            self.takes()

    def send(self, data):
        try:
            self.socket.sendall(data)
        except (OSError, AttributeError):
            pass

    def receive(self):
        """Whether more came."""
        try:
            some = self.socket.recv(4096)
        except socket.timeout:
            self.late = True
            return False
        except (OSError, AttributeError):
            self.ended = True
            return False
        self.came += some
        self.ended = not some
        return bool(some)

    def takes(self, more=b'', base=None):
        """Reads until all that is wanted of it so far has come, or to the end, or until the base is gone from which it
        is to come."""
        self.wanted += more
        while not self.ended and not self.late and len(self.came) < len(self.wanted):
            if base and not self.has_some(0.2) and is_gone(base.now()) and not self.has_some(0.5):
                break
            self.receive()
        return self.came == self.wanted

    def has_some(self, seconds):
        """Whether something comes in this time; one that has no connection is told so by its next read."""
        return self.socket is None or bool(select.select([self.socket], [], [], seconds)[0])

    def now(self):
        return self.socket

    def leave(self, waits=True):
        try:
            self.socket.shutdown(socket.SHUT_WR)
        except (OSError, AttributeError):
            pass
        while waits and not self.ended and not self.late and self.receive():
            pass

    def is_whole(self):
        return self.came == self.wanted and self.ended


class Far:
    """The other caster, which a relay dials: it takes each connection, and answers it. As a client it is a base."""

    def __init__(self):
        self.kind, self.mount, self.is_lost, self.process = 'relay', 'CHARLIE', False, None
        self.patience, self.until = AGAIN, None
        self.listener = socket.create_server(('127.0.0.1', 0))
        self.address = '127.0.0.1:%d' % self.listener.getsockname()[1]
        self.open, self.is_there = [], threading.Event()
        threading.Thread(target=self.run, daemon=True).start()

    def run(self):
        while True:
            try:
                one, _ = self.listener.accept()
            except OSError:
                return
            try:
                one.settimeout(PATIENCE)
                asked = b''
                while not asked.endswith(b'\r\n\r\n'):
                    some = one.recv(4096)
                    if not some:
                        raise OSError
                    asked += some
                one.sendall(b'ICY 200 OK\r\n')
                self.open.append(one)
                self.is_there.set()
            except OSError:
                one.close()

    def now(self):
        """The connection that came last. The first one is waited for, and not for ever."""
        self.until = self.until or time.monotonic() + self.patience
        while self.process.poll() is None and time.monotonic() < self.until and not self.is_there.wait(0.1):
            pass
        return self.open[-1] if self.open else None

    def send(self, data):
        try:
            self.now().sendall(data)
        except (OSError, AttributeError):
            pass
        self.is_lost = self.is_lost or is_gone(self.now())

    def close(self):
        self.listener.close()
        for one in self.open:
            one.close()


def is_gone(one):
    """A connection that there is not, or that has ended."""
    try:
        return one is None or one.recv(1, socket.MSG_PEEK | socket.MSG_DONTWAIT) == b''
    except BlockingIOError:
        return False
    except OSError:
        return True


class Scene:
    """One run of the program under strace, with one call that fails."""

    def __init__(self, program, command, inject, longest=LONGEST):
        self.tracer, self.longest, self.command = None, longest, command
        self.parts, self.published = [], dict.fromkeys(MOUNTS, 0)
        self.far, self.port = Far(), wire.free_port()
        self.folder = tempfile.TemporaryDirectory()
        self.log, self.output = self.folder.name + '/strace', self.folder.name + '/lines'
        config = self.folder.name + '/caster.toml'
        with open(config, 'w') as file:
            mounts = ''.join(MOUNT % name for name in MOUNTS)
            file.write(CONFIG % (WORKERS, mounts, self.far.address))
        last = {'keep': '0', 'serve': '1', 'record': '7'}[command]
        call, fault, number = inject
        name, _, of = call.partition(' ')
        # The loader's last call before the program begins is the one for a limit.
        front = ['strace', '-f', '-qq', '-o', self.log, '-e', 'trace=%s,prlimit64' % name, '-e',
                 'inject=%s:error=%s:when=%d' % (name, fault, number)]
        # Standard input is a FIFO, as that of dist/caster-run, so that strace can tell it by its path.
        self.fifo = self.folder.name + '/stop'
        os.mkfifo(self.fifo)
        front += {'': [], 'late': [], 'config': ['-P', config], 'input': ['-P', self.fifo]}[of]
        self.input = open(self.fifo, 'r+b', buffering=0)
        words = [program, command, config, '127.0.0.1:%d' % self.port, last]
        with open(self.output, 'w') as output:
            self.process = subprocess.Popen(words if of == 'late' else front + words, stdin=self.input, stdout=output,
                                            stderr=subprocess.PIPE)
        if of == 'late':
            self.trace(front)
        # Of calls that are told by a path none is the loader's.
        self.far.process, self.is_of_loader, self.has_path = self.process, False, bool(of)
        self.far.patience = AGAIN if command == 'keep' else 2

    def trace(self, front):
        """Has strace come to a program that serves by now: its first calls are behind it."""
        until = time.monotonic() + PATIENCE
        while not self.listens() and time.monotonic() < until:
            time.sleep(0.01)
        self.tracer = subprocess.Popen(front + ['-p', str(self.process.pid)], stderr=subprocess.DEVNULL)
        place = '/proc/%d/task/' % self.process.pid
        while time.monotonic() < until:
            with open('/proc/%d/status' % self.process.pid) as file:
                threads = next(int(line.split()[1]) for line in file if line.startswith('Threads:'))
            traced = [name for name in os.listdir(place) if 'TracerPid:\t0' not in open(place + name + '/status').read()]
            if len(traced) == threads and threads >= (WORKERS if self.command != 'record' else 1):
                break
            time.sleep(0.01)

    def listens(self):
        with open('/proc/net/tcp') as file:
            rows = [line.split() for line in file.readlines()[1:]]
        return any(int(row[1].split(':')[1], 16) == self.port and row[3] == '0A' for row in rows)

    def dial(self):
        """A connection, once somebody listens; none where the program has ended."""
        until = time.monotonic() + PATIENCE + 4
        while self.process.poll() is None and time.monotonic() < until:
            try:
                return socket.create_connection(('127.0.0.1', self.port), PATIENCE)
            except OSError:
                time.sleep(0.01)
        return None

    # ---- what the clients do

    def enters(self, *words):
        part = Part(self, *words)
        self.parts.append(part)
        return part

    def publish(self, base, rovers, count):
        """So many frames, each of which the rovers take before the next is sent. Nobody waits for a base that is
        not there."""
        for _ in range(count):
            place = self.published[base.mount]
            one = frame(1005 if place % 2 else 1077, place, 20)
            base.send(chunk(one) if getattr(base, 'is_chunked', False) else one)
            self.published[base.mount] += 1
            for rover in rovers:
                rover.sent = rover.sent + [one]
                rover.takes(chunk(one) if rover.front == ROVER_2_OK else one, base)

    def rover(self, mount, version):
        head, front = [(wire.rover_1, ICY), (wire.rover_2, ROVER_2_OK)][version - 1]
        return self.enters('rover', mount, head(mount, basic('rover1', 'secret')), front)

    def play(self):
        alpha = self.enters('source', 'ALPHA', wire.source_2('ALPHA', 'pw', 'Transfer-Encoding: chunked'), SOURCE_2_OK,
                            True)
        rovers = [self.rover('ALPHA', 1), self.rover('ALPHA', 2)]
        self.publish(alpha, rovers, 3)
        # The table is not compared here: it is read to the end that its head tells.
        table = self.enters('table', None, wire.rover_2(''), b'HTTP/1.1 200 OK\r\n')
        bravo = self.enters('source', 'BRAVO', wire.source_1('BRAVO', 'pw'), ICY)
        other = self.rover('BRAVO', 2)
        self.publish(bravo, [other], 2)
        far = []
        last = self.rover('CHARLIE', 1)
        if self.command != 'record':
            far = [self.far]
            self.publish(self.far, [last], 2)
        alpha.send(b'0\r\n\r\n')
        alpha.takes()
        waits = self.command != 'record'
        for part in [*rovers, other, last, bravo, alpha, table]:
            part.leave(waits)
        for part in far:
            part.close()

    def fill(self):
        """Asks for nothing until the program has served as many connections as it was to."""
        until = time.monotonic() + self.longest
        while self.process.poll() is None and time.monotonic() < until:
            try:
                with socket.create_connection(('127.0.0.1', self.port), 1) as one:
                    one.shutdown(socket.SHUT_WR)
                    one.settimeout(1)
                    one.recv(10)
            except OSError:
                time.sleep(0.02)

    def end(self):
        """It is told to stop, or has its last connections. Its status, or `hangs`."""
        if self.command == 'keep':
            self.input.write(b'stop\n')
        else:
            self.fill()
        try:
            self.error = self.process.communicate(timeout=self.longest)[1]
            status = self.process.returncode
        except subprocess.TimeoutExpired:
            status = 'hangs'
            self.kill()
            self.error = b''
        if self.tracer:
            self.tracer.wait(10)
        for part in self.parts:
            part.leave()
        return status

    def kill(self):
        """Ends the program, which strace then leaves."""
        if self.tracer:
            self.process.kill()
            self.process.wait()
            return
        with open('/proc/%d/task/%d/children' % (self.process.pid, self.process.pid)) as file:
            for child in file.read().split():
                os.kill(int(child), 9)
        self.process.wait()

    def text(self):
        with open(self.output) as file:
            return file.read()

    def failed(self):
        """The calls that were made to fail. One that another thread's line came into is put together again."""
        begun, failed, is_loaded = {}, [], self.has_path
        with open(self.log, errors='replace') as file:
            for line in file:
                thread, _, call = line.strip().partition(' ')
                call = call.strip()
                if call.endswith('<unfinished ...>'):
                    begun[thread] = call[:-len('<unfinished ...>')]
                elif call.startswith('<...'):
                    call = begun.pop(thread, '') + call.partition('resumed>')[2]
                is_loaded = is_loaded or call.startswith('prlimit64')
                if '(INJECTED)' in call:
                    self.is_of_loader = self.is_of_loader or not is_loaded
                    failed.append(call)
        return failed

    def close(self):
        self.far.close()
        for part in self.parts:
            if part.socket:
                part.socket.close()
        self.input.close()
        self.process.stderr.close()
        self.folder.cleanup()


HOUSE = books.House(WORKERS, MOUNTS, ['rover1'], ['CHARLIE'])
