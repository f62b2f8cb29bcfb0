"""A leaf is restarted with a new configuration and another program, while bases send to the trunk and 200 rovers
listen at the leaf."""
import select
import selectors
import shutil
import signal
import threading

from common import *

MOUNTS = ['ALPHA', 'BRAVO']
ROVERS = 200
FRAMES_A_SECOND = 10

# A rover that was cut off, or finds nobody, dials again so much later.
PAUSE = 0.1


def trunk_config():
    """Of dist/leaf.toml's front: an account `leaf` with as many sessions as it has relays, and a worker for each of
    them and for each base."""
    text = replaced(config(len(MOUNTS) * 2 + 1, MOUNTS), [('cap = 20\n', 'cap = %d\n' % len(MOUNTS))])
    return text.split('[anonymous]')[0]


def leaf_config(trunk, *accounts):
    text = replaced(text_of('dist/leaf.toml'), [('192.0.2.1:2101', '127.0.0.1:%d' % trunk)])
    for user in accounts:
        text += '[[account]]\nuser = "%s"\npassword = "new"\ngroup = "open"\ncap = 1\n' % user
    return text


class Served:
    """A caster by dist/caster-run, at this port, whose lines go to a file."""

    def __init__(self, name, port, program):
        self.log = os.path.join(WORK, name + '.lines')
        folder = os.path.join(WORK, name + '.run')
        os.makedirs(folder, exist_ok=True)
        with open(self.log, 'ab') as log:
            self.process = subprocess.Popen(
                ['dist/caster-run', os.path.join(WORK, name + '.toml'), '127.0.0.1:%d' % port, '300'],
                stdin=subprocess.DEVNULL, stdout=log, stderr=subprocess.STDOUT,
                env=dict(os.environ, CASTER=program, RUNTIME_DIRECTORY=folder))
        processes.append(self.process)

    def lines(self):
        return text_of(self.log).splitlines()

    def stop(self):
        self.process.send_signal(signal.SIGTERM)
        if self.process.wait(timeout=PATIENCE):
            raise Wrong('status %d: %s' % (self.process.returncode, self.lines()[-5:]))


class Base(threading.Thread):
    """A base that sends so many frames a second until it is told to stop; it has one connection, and says where that
    one ended."""

    def __init__(self, port, mount, message):
        super().__init__(daemon=True)
        self.client = Client(port).send(source_1(mount, 'sesame')).expect(ICY)
        self.message, self.sent, self.over, self.fault = message, 0, False, None

    def run(self):
        try:
            due = time.monotonic()
            while not self.over:
                self.client.send(frame(self.message, self.sent))
                self.sent += 1
                due += 1 / FRAMES_A_SECOND
                time.sleep(max(0, due - time.monotonic()))
                if select.select([self.client.socket], [], [], 0)[0]:
                    raise Wrong('a base was told something, or cut off')
        except (OSError, Wrong) as fault:
            self.fault = fault


class Rover:
    """A rover that dials again whenever its connection ends. It notes the longest time between two frames."""

    def __init__(self, port, mount):
        self.port, self.mount = port, mount
        self.socket, self.came, self.due = None, 0, 0
        self.last, self.longest = None, 0

    def dial(self):
        self.socket, self.came = socket.socket(), 0
        self.socket.settimeout(5)
        self.socket.connect(('127.0.0.1', self.port))
        self.socket.sendall(rover_1(self.mount))

    def hear(self):
        """Takes what has come; the first bytes of a connection are its reply."""
        some = self.socket.recv(65536)
        if not some:
            raise ConnectionResetError
        self.came += len(some)
        if self.came > len(ICY):
            now = time.monotonic()
            if self.last is not None:
                self.longest = max(self.longest, now - self.last)
            self.last = now

    def hang_up(self):
        self.socket.close()
        self.socket, self.due = None, time.monotonic() + PAUSE


class Crowd(threading.Thread):
    """All rovers, in one thread that waits for any of them."""

    def __init__(self, rovers):
        super().__init__(daemon=True)
        self.rovers, self.over = rovers, False

    def run(self):
        with selectors.DefaultSelector() as waiting:
            while not self.over:
                for rover in self.rovers:
                    if rover.socket is None and time.monotonic() >= rover.due:
                        try:
                            rover.dial()
                            waiting.register(rover.socket, selectors.EVENT_READ, rover)
                        except OSError:
                            rover.hang_up()
                for key, _ in waiting.select(0.02):
                    try:
                        key.data.hear()
                    except OSError:
                        waiting.unregister(key.data.socket)
                        key.data.hang_up()
        for rover in self.rovers:
            if rover.socket:
                rover.socket.close()


def wait_for(is_so, what):
    until = time.monotonic() + PATIENCE
    while not is_so():
        if time.monotonic() > until:
            raise Wrong(what)
        time.sleep(0.05)


def part(values, share):
    return sorted(values)[min(len(values) - 1, int(len(values) * share))]


def frame_is_heard_by(port, user):
    """Whether this account is let in and hears a frame; 401 is no."""
    one = Client(port).send(rover_1('ALPHA', basic(user, 'new')))
    while len(one.came) <= len(ICY) and one.receive():
        pass
    heard = one.came.startswith(ICY)
    one.close()
    return heard


def restart_of_a_leaf():
    """docs/OPERATING.md, "A new customer": a leaf is stopped, and started again with an account more and by another
    file of the program, while 200 rovers listen at it. Each hears frames again, the new account too; no base notices:
    each has its first connection and its first claim. It prints for how long the rovers were without frames."""
    trunk_port, leaf_port = free_port(), free_port()
    first, second = os.path.join(WORK, 'first-caster'), os.path.join(WORK, 'second-caster')
    for program in (first, second):
        shutil.copy(PROGRAM, program)
    for name in ('trunk', 'leaf'):
        write(name + '.lines', '')
    write('trunk.toml', trunk_config())
    write('leaf.toml', leaf_config(trunk_port))
    trunk = Served('trunk', trunk_port, first)
    bases = [Base(trunk_port, mount, 1005 + at) for at, mount in enumerate(MOUNTS)]
    leaf = Served('leaf', leaf_port, first)
    rovers = [Rover(leaf_port, MOUNTS[at % 2]) for at in range(ROVERS)]
    crowd = Crowd(rovers)
    for one in bases + [crowd]:
        one.start()
    wait_for(lambda: all(rover.last for rover in rovers), 'not every rover hears frames')
    if frame_is_heard_by(leaf_port, 'customer'):
        raise Wrong('the account is there already')
    # What they hear before: two frames are a tenth of a second apart.
    for rover in rovers:
        rover.longest = 0
    time.sleep(2)
    before = [rover.longest for rover in rovers]
    write('leaf.toml', leaf_config(trunk_port, 'customer'))
    passes(first, 'check', os.path.join(WORK, 'leaf.toml'))
    for rover in rovers:
        rover.longest = 0
    begun = time.monotonic()
    leaf.stop()
    stopped = time.monotonic() - begun
    leaf = Served('leaf', leaf_port, second)
    wait_for(lambda: all(rover.last > begun + stopped + PAUSE for rover in rovers),
             'not every rover hears frames again')
    time.sleep(1)
    gaps = [rover.longest for rover in rovers]
    if not frame_is_heard_by(leaf_port, 'customer'):
        raise Wrong('the new account is not let in')
    for one in bases + [crowd]:
        one.over = True
    for one in bases + [crowd]:
        one.join(PATIENCE)
    faults = [base.fault for base in bases if base.fault]
    if faults:
        raise Wrong('a base noticed: %s' % faults)
    leaf.stop()
    trunk.stop()
    totals = [line for line in trunk.lines() if line.startswith('mount ')]
    if totals != ['mount %s %d 1' % (mount, base.sent) for mount, base in zip(MOUNTS, bases)]:
        raise Wrong('the totals of the trunk are %s' % totals)
    sources = [line for line in trunk.lines() if ' source ' in line]
    if len([line for line in sources if ' asks ' not in line]) != len(MOUNTS):
        raise Wrong('claims: %s' % sources)
    print('    rovers without frames: p50 %.2f s, p99 %.2f s, longest %.2f s of %d; before p50 %.2f s, p99 %.2f s; '
          'the leaf took %.2f s to stop; load of the machine %.1f' %
          (part(gaps, 0.5), part(gaps, 0.99), max(gaps), len(gaps), part(before, 0.5), part(before, 0.99), stopped,
           os.getloadavg()[0]))


CASES = [restart_of_a_leaf]
