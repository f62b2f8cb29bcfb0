"""Real captures of RTCM 3 through `bare`, `serve` and `keep`, in pieces that are drawn, by
sources of both versions, plain and chunked, to rovers of both versions that may hear all.

What a rover got is compared byte by byte with the test's own cut of the capture
(tests/real/cut.py), and what `gpsdecode` reads of it with what it reads of the capture. Each
command's own numbers, of frames, junk and sessions, are compared with that cut, too.
"""
import fnmatch
import functools
import glob
import os
import random
import shutil
import subprocess
import sys
import tarfile
import tempfile
import threading
import time
import traceback

sys.path[:0] = ['tests/serve', 'tests/keep']

import books
import wire
from cut import cut, message
from wire import ICY, ROVER_2_OK, SOURCE_2_OK, Caster, chunk

# The longest that all may take, in seconds.
LONGEST = 540

# How long a client waits for bytes: a build without optimization takes a minute for a capture.
wire.PATIENCE = 120

# In which source package, and which files of it. What lies beside a capture and is none is skipped.
CAPTURES = [('gpsd', 'test/rtcm3-*.log'), ('gpsd', 'test/daemon/*rtcm3*'),
            ('rtklib', 'test/data/rcvraw/*.rtcm3')]

# What every ring here keeps: no capture has more frames, so no rover can be lapped.
RING = 4096

MOUNT, PASSWORD = 'ALPHA', 'sesame'
CONFIG = '''version = 2
workers = 3
[[mount]]
name = "%s"
password = "%s"
ring = %d
latitude = 0
longitude = 0
[[group]]
name = "open"
mounts = ["%s"]
types = "all"
[anonymous]
group = "open"
cap = 10
''' % (MOUNT, PASSWORD, RING, MOUNT)

# A source: its version, and whether its body comes in chunks.
SOURCES = [(1, False), (2, False), (2, True)]

casters = []


class Wrong(Exception):
    """Something was not as wanted."""


def wants(what, got, wanted):
    if got == wanted:
        return
    if isinstance(got, bytes):
        at = len(os.path.commonprefix([got, wanted]))
        raise Wrong('%s: wanted %d bytes and got %d; those at %d differ: wanted %s and got %s'
                    % (what, len(wanted), len(got), at, wanted[at:at + 20].hex(),
                       got[at:at + 20].hex()))
    raise Wrong('%s: wanted %s and got %s' % (what, str(wanted)[:500], str(got)[:500]))


# ---- the captures

def tarball_of(package):
    """The source of this package, as it was fetched last."""
    found = glob.glob(os.path.join(os.environ['CAPTURES'], package + '_*.orig.tar.*'))
    return max(found, key=os.path.getmtime) if found else None


def unpacked(package, path):
    """The folder with the files of this source, which are taken out of it once."""
    folder = path.partition('.orig.')[0]
    if os.path.isdir(folder):
        return folder
    place = os.environ['CAPTURES']
    with tempfile.TemporaryDirectory(dir=place) as fresh, tarfile.open(path) as tar:
        for member in tar:
            name = member.name.partition('/')[2]
            if member.isfile() and is_wanted(package, name):
                to = os.path.join(fresh, package, name)
                os.makedirs(os.path.dirname(to), exist_ok=True)
                with open(to, 'wb') as file:
                    file.write(tar.extractfile(member).read())
        os.rename(os.path.join(fresh, package), folder)
    return folder


def is_wanted(package, name):
    return any(of == package and fnmatch.fnmatchcase(name, pattern) for of, pattern in CAPTURES)


def captures():
    """Name and bytes of each file, in order; and the packages that were not fetched."""
    found, missing = {}, []
    for package in dict.fromkeys(package for package, _ in CAPTURES):
        path = tarball_of(package)
        if path is None:
            missing.append(package)
            continue
        folder = unpacked(package, path)
        for pattern in (pattern for of, pattern in CAPTURES if of == package):
            for name in glob.glob(pattern, root_dir=folder):
                with open(os.path.join(folder, name), 'rb') as file:
                    found['%s %s' % (package, name)] = file.read()
    return dict(sorted(found.items())), missing


# ---- gpsdecode

@functools.lru_cache(maxsize=None)
def decoded(data):
    """The records of RTCM 3 that gpsdecode reads of these bytes, and how many others."""
    done = subprocess.run(['gpsdecode'], input=data, capture_output=True, timeout=wire.PATIENCE)
    wants('the status of gpsdecode', (done.returncode, done.stderr), (0, b''))
    records = done.stdout.splitlines()
    # They begin with their class. Not each of them is JSON: some have a comma too many.
    ours = [one for one in records if one.startswith(b'{"class":"RTCM3",')]
    return ours, len(records) - len(ours)


class Capture:
    """The bytes of a file, and what they come to by the test's own cut."""

    def __init__(self, data, dice):
        self.data, self.dice = data, dice
        self.frames, self.junk, self.waiting = cut(data)
        self.rovers = 0

    def pieces(self, data, most=4096):
        """These bytes in pieces of one byte, of a few, or of many."""
        at = 0
        while at < len(data):
            step = self.dice.randint(1, self.dice.choice([1, 10, 300, most]))
            yield data[at:at + step]
            at += step

    def sent_to_a_rover(self, version):
        """What a rover of this version is sent behind its reply."""
        return b''.join(map(chunk, self.frames) if version == 2 else self.frames)

    def compare(self, what, version, body):
        """The body of a rover is all frames, and they decode to what the capture does."""
        wants('%s, a rover of version %d' % (what, version),
              bytes(body), self.sent_to_a_rover(version))
        if shutil.which('gpsdecode'):
            got = bytes(body) if version == 1 else out_of_chunks(body)
            wants('%s: gpsdecode' % what, decoded(got), (decoded(self.data)[0], 0))
        self.rovers += 1


def out_of_chunks(body):
    """What chunks hold, one after the other."""
    held, at = bytearray(), 0
    while at < len(body):
        front = body.index(b'\r\n', at) + 2
        behind = front + int(body[at:front - 2], 16)
        wants('the end of a chunk', bytes(body[behind:behind + 2]), b'\r\n')
        held += body[front:behind]
        at = behind + 2
    return bytes(held)


# ---- bare

def through_bare(capture):
    """A script of its pieces, with turns of the rover in between and as many behind as it takes."""
    lines = ['source 1 A', 'rover 2 A']
    for piece in capture.pieces(capture.data):
        lines.append('in 1 ' + piece.hex())
        if capture.dice.random() < 0.3:
            lines.append('turn 2 %d' % capture.dice.randint(1, 16))
    lines += ['turn 2 16'] * (len(capture.frames) // 16 + 1) + ['end 1', 'end 2', 'stop', '']
    done = subprocess.run([wire.PROGRAM, 'bare', str(RING)], input='\n'.join(lines).encode(),
                          capture_output=True, timeout=wire.PATIENCE)
    wants('bare: status and errors', (done.returncode, done.stderr), (0, b''))
    report = done.stdout.decode().splitlines()
    bodies = [line for line in report if line.startswith('bytes ')]
    count = len(capture.frames)
    wants('bare: the report but for the bytes', [line for line in report if line not in bodies],
          ['connection 1 source-end 1', 'junk %d' % capture.junk,
           'connection 2 rover-end', 'junk 0', 'segment A 0 %d %d 0' % (count, count),
           'mount A %d 1' % count, 'total 1 %d 0' % count])
    wants('bare: what the source was sent', bodies[0], 'bytes -')
    capture.compare('bare', 1, bytes.fromhex(bodies[1].split(' ')[1]))


# ---- serve and keep

class Rover(wire.Kept):
    """A rover of the mountpoint, which has joined it."""

    def __init__(self, port, version):
        super().__init__(port)
        self.version, self.front = version, ICY if version == 1 else ROVER_2_OK
        head = wire.rover_1 if version == 1 else wire.rover_2
        self.address = '%s:%d' % self.socket.getsockname()
        self.send(head(MOUNT)).expect(self.front)

    def take(self, capture, what):
        """Waits for as many bytes as are wanted, leaves, reads to the end and compares."""
        wanted = len(self.front) + len(capture.sent_to_a_rover(self.version))
        while len(self.got) < wanted and self.receive():
            pass
        self.finish()
        capture.compare(what, self.version, self.drain()[len(self.front):])


def send_all(port, capture, version, chunked):
    """A source of this version sends the capture, and is read to its end."""
    source = wire.Kept(port)
    source.address = '%s:%d' % source.socket.getsockname()
    more = ['Transfer-Encoding: chunked'] if chunked else []
    head = wire.source_1 if version == 1 else wire.source_2
    source.send(head(MOUNT, PASSWORD, *more)).expect(ICY if version == 1 else SOURCE_2_OK)
    data = capture.data
    if chunked:
        data = b''.join(map(chunk, capture.pieces(data))) + b'0\r\n\r\n'
    for piece in capture.pieces(data):
        source.send(piece)
        # Now and then the program reads before more has come.
        if capture.dice.random() < 0.05:
            time.sleep(0.001)
    if not chunked:
        source.finish()
    wants('what a source is sent', source.drain(), ICY if version == 1 else SOURCE_2_OK)
    return source


def through(caster, capture, what, version, chunked):
    """A rover of each version joins, and a source sends all. The three clients."""
    rovers = [Rover(caster.port, of) for of in (1, 2)]
    source = send_all(caster.port, capture, version, chunked)
    for one in rovers:
        one.take(capture, what)
    return source, rovers


def named(command, version, chunked):
    return '%s, a source of version %d%s' % (command, version, ' in chunks' if chunked else '')


def opened(kind, limit):
    caster = kind(CONFIG, limit)
    casters.append(caster)
    return caster


def through_serve(capture):
    """A caster for each kind of source, each of whose workers serves one connection."""
    count = len(capture.frames)
    for version, chunked in SOURCES:
        caster = opened(Caster, 1)
        through(caster, capture, named('serve', version, chunked), version, chunked)
        caster.ends_with(['mount %s %d 1' % (MOUNT, count), 'total 2 %d 0' % (2 * count)])
        caster.stop()


def through_keep(capture):
    """One caster for all kinds of source, one after the other; its lines are those of the
    clients."""
    count, guests = len(capture.frames), []

    def message_at(mount, place):
        return message(capture.frames[place % count])

    caster = opened(wire.Keeping, 0)
    for turn, (version, chunked) in enumerate(SOURCES):
        source, rovers = through(caster, capture, named('keep', version, chunked), version, chunked)
        guest = guest_of(source, version, 'source', 'source-end CLAIM')
        guest.entered, guest.claim = ('source', MOUNT), turn + 1
        guest.sent, guest.junk = count, capture.junk
        guests.append(guest)
        places = range(turn * count, (turn + 1) * count)
        for one in rovers:
            guest = guest_of(one, one.version, 'rover', 'rover-end')
            guest.entered, guest.spans = ('rover', '-'), [(places.start, places.stop)]
            guest.heard = [(MOUNT, [(place, message_at('', place)) for place in places])]
            guests.append(guest)
    caster.ends()
    text = ''.join(line + '\n' for line in caster.lines())
    books.check(text, books.House(3, [MOUNT], []), guests, message_at)
    caster.stop()


def guest_of(client, version, kind, ending):
    guest = books.Guest(client.address)
    guest.asks, guest.endings = (version, kind, MOUNT, '-'), [ending]
    return guest


# ---- all of them

def run(name, data, seed):
    """The line of a capture, and whether it was compared, differs, or is none."""
    begun = time.monotonic()
    capture = Capture(data, random.Random('%d/%s' % (seed, name)))
    if not capture.frames:
        return 'skipped', '%d bytes without a frame of RTCM 3' % len(data)
    if len(capture.frames) > RING:
        return 'skipped', '%d frames, and a ring keeps %d' % (len(capture.frames), RING)
    said = '%d frames, %d bytes of junk, %d left over' % (
        len(capture.frames), capture.junk, capture.waiting)
    try:
        for case in (through_bare, through_serve, through_keep):
            case(capture)
    except (Wrong, wire.Wrong, books.Wrong) as wrong:
        return 'DIFFERS', '%s; %s' % (said, wrong)
    except Exception:
        return 'DIFFERS', '%s; %s' % (said, traceback.format_exc())
    said += '; %d rovers by bare, serve and keep got these frames' % capture.rovers
    if shutil.which('gpsdecode'):
        ours, others = decoded(data)
        said += '; gpsdecode reads the same %d records of each' % len(ours)
        said += ' (and in the file %d of other kinds)' % others if others else ''
    return 'compared', '%s; %.1f s' % (said, time.monotonic() - begun)


def sees_a_changed_bit(found, seed):
    """What compares is tried, too: a capture of which one bit is another on the way must differ."""
    name, data = next((name, data) for name, data in found.items() if cut(data).frames)
    capture = Capture(data, random.Random(seed))
    at = data.index(capture.frames[-1]) + 5
    capture.data = data[:at] + bytes([data[at] ^ 1]) + data[at + 1:]
    try:
        through_bare(capture)
    except Wrong:
        return
    raise SystemExit('FAILED a changed bit of %s was not seen' % name)


def give_up():
    for one in casters:
        one.stop()
    print('FAILED it took more than %d seconds' % LONGEST)
    sys.stdout.flush()
    os._exit(1)


def main(words):
    seed = int(words[0]) if words else 1
    found, missing = captures()
    for package in missing:
        print('the source package %s was not fetched: tests/real/run --install' % package)
    if not found:
        return 77
    watch = threading.Timer(LONGEST, give_up)
    watch.daemon = True
    watch.start()
    sees_a_changed_bit(found, seed)
    counts = dict.fromkeys(['compared', 'skipped', 'DIFFERS'], 0)
    for name, data in found.items():
        outcome, said = run(name, data, seed)
        counts[outcome] += 1
        print('%s %s: %s' % (outcome, name, said), flush=True)
    for one in casters:
        one.stop()
    if not shutil.which('gpsdecode'):
        print('nothing was decoded: there is no gpsdecode (--install)')
    print('seed %d: %d captures compared, of which %d differ; %d files skipped'
          % (seed, counts['compared'] + counts['DIFFERS'], counts['DIFFERS'], counts['skipped']))
    return 1 if counts['DIFFERS'] else 0


if __name__ == '__main__':
    sys.exit(main(sys.argv[1:]))
