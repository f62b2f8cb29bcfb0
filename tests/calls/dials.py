"""A dial that is not answered: a relay whose caster takes no further connection, so that the system lets it wait.

    serve   gives up after five seconds, with status 6
    keep    gives up after five seconds, dials again after five more, and holds up nobody: meanwhile a client is served,
            and a stop while it dials ends it in order
"""
import os
import socket
import subprocess
import sys
import tempfile
import time

sys.path[:0] = ['tests/serve', 'tests/keep']

import books
import wire

CONFIG = '''version = 2
workers = 2
[[mount]]
name = "ALPHA"
password = "pw"
ring = 64
latitude = 0
longitude = 0
[[group]]
name = "all"
mounts = ["ALPHA"]
types = "all"
[[relay]]
mount = "ALPHA"
address = "%s"
upstream = "FAR"
protocol = 1
'''

# Between how many seconds a dial is given up that may take five, on a machine that has other work.
LEAST, MOST = 4.5, 9


class Full:
    """A listener whose queue is full. The system answers no further dial."""

    def __init__(self):
        self.listener = socket.socket()
        self.listener.bind(('127.0.0.1', 0))
        self.listener.listen(0)
        self.port, self.held = self.listener.getsockname()[1], []
        while True:
            one = socket.socket()
            one.settimeout(0.5)
            try:
                one.connect(('127.0.0.1', self.port))
                self.held.append(one)
            except socket.timeout:
                one.close()
                break

    def is_dialled(self):
        """A connection to it waits for its answer (the state SYN_SENT)."""
        with open('/proc/net/tcp') as file:
            rows = [line.split() for line in file.readlines()[1:]]
        return any(int(row[2].split(':')[1], 16) == self.port and row[3] == '02' for row in rows)

    def wait_until(self, dialled, most):
        """In how many seconds it is dialled, or is not any more; None where it takes more than these."""
        begun = time.monotonic()
        while self.is_dialled() != dialled:
            if time.monotonic() > begun + most:
                return None
            time.sleep(0.02)
        return time.monotonic() - begun

    def close(self):
        for one in [*self.held, self.listener]:
            one.close()


def seconds(took):
    return 'no time' if took is None else '%.1f s' % took


def started(command, last, config, port, output):
    words = [os.environ['CASTER'], command, config, '127.0.0.1:%d' % port, last]
    return subprocess.Popen(words, stdin=subprocess.PIPE, stdout=output, stderr=subprocess.DEVNULL)


def serve(config, output):
    begun = time.monotonic()
    process = started('serve', '1', config, wire.free_port(), output)
    status, took = process.wait(30), time.monotonic() - begun
    yield 'status %s' % status, status == 6
    yield 'the line of it', open(output.name).read() == 'network fault\n'
    yield 'gave up after %.1f s' % took, LEAST < took < MOST


def keep(config, output, full):
    port = wire.free_port()
    process = started('keep', '0', config, port, output)
    try:
        yield 'it dials', full.wait_until(True, 5) is not None
        begun = time.monotonic()
        client = wire.Client(port).send(wire.rover_2(''))
        client.receive()
        yield 'a client is served meanwhile', client.came.startswith(b'HTTP/1.1 200 OK') and full.is_dialled()
        client.close()
        gone = full.wait_until(False, 12)
        yield 'gave up after %s' % seconds(gone), gone is not None and LEAST - 1 < time.monotonic() - begun < MOST
        again = full.wait_until(True, 12)
        yield 'dialled again after %s' % seconds(again), again is not None and 4 < again < MOST
        begun = time.monotonic()
        process.stdin.write(b'stop\n')
        process.stdin.flush()
        status, took = process.wait(20), time.monotonic() - begun
        yield 'status %s' % status, status == 0
        yield 'stopped while it dialled, after %.2f s' % took, took < 3
        read = books.read(open(output.name).read())
        books.agree(read, books.House(2, ['ALPHA'], [], ['ALPHA']))
        yield 'the books, with one link', len(read.links) == 1 and bool(read.closing)
    finally:
        process.kill()


def try_both():
    """How many of what is wanted was so, and how many was not."""
    passed = failed = 0
    for command in ('serve', 'keep'):
        full = Full()
        with tempfile.NamedTemporaryFile('w', suffix='.toml') as config, tempfile.NamedTemporaryFile() as output:
            config.write(CONFIG % ('127.0.0.1:%d' % full.port))
            config.flush()
            parts = serve(config.name, output) if command == 'serve' else keep(config.name, output, full)
            for what, good in parts:
                print('%-7s connect is not answered: %s%s' % (command, what, '' if good else '  FAILED'), flush=True)
                passed, failed = passed + good, failed + (not good)
        full.close()
    return passed, failed
