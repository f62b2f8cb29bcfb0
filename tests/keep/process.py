"""Cases of `caster keep` as a process: where its lines go, how it is killed, and how dist/caster-run runs it."""
import fcntl
import os
import random
import select
import shutil
import signal
import subprocess
import tempfile
import threading
import time

from books import agree, compare, read
from guests import *
from wire import BAD_PASSWORD_1, Client, rover_1, source_1

# How many times the program is killed, and in how many lanes.
KILLS, LANES = 20, 5


# ---- standard output

def pipe_of(size):
    """A pipe that takes this much."""
    ear, mouth = os.pipe()
    fcntl.fcntl(mouth, fcntl.F_SETPIPE_SZ, size)
    return ear, mouth


def drain_into(ear, kept):
    def run():
        while True:
            some = os.read(ear, 65536)
            if not some:
                break
            kept.append(some)
        os.close(ear)
    thread = threading.Thread(target=run, daemon=True)
    thread.start()
    return thread


def full_pipe():
    """Nobody reads the lines, and the pipe is full: a mountpoint and its open rovers go on, those that leave
    and come wait, but that one who leaves sees its end at once. Once it is read all is there."""
    ear, mouth = pipe_of(4096)
    keeper = keep(8, output=mouth)
    os.close(mouth)
    base = Base(keeper, 'ALPHA', claim=1)
    rovers = [Rover(keeper, 'ALPHA', 'rover1', version) for version in (1, 2)]
    # Short links fill the pipe; one of them finds it full, and its worker waits, as do those behind it.
    leavers, over = [], threading.Event()

    def come_and_go():
        while not over.is_set() and len(leavers) < 200:
            one = Visitor(keeper)
            one.socket.settimeout(1)
            leavers.append(one.asks(1, 'source', 'ALPHA').ended('source-password'))
            try:
                one.send(source_1('ALPHA', 'wrong')).expect(BAD_PASSWORD_1).expect_end()
            except wire.Wrong:
                return

    coming = threading.Thread(target=come_and_go)
    coming.start()
    coming.join(PATIENCE)
    holds('the pipe did not fill with %d links' % len(leavers), 10 < len(leavers) < 200)
    for place in range(0, 50, 2):
        base.publish(2)
        for one in rovers:
            one.wait_for('ALPHA', place + 1)
    leaving = rovers[0]
    leaving.guest.spans = [(0, 50)]
    leaving.leaves()
    late = Visitor(keeper).send(rover_1('ALPHA')).asks(1, 'rover', 'ALPHA')
    for place in range(50, 60, 2):
        base.publish(2)
        rovers[1].wait_for('ALPHA', place + 1)
    wants('what came to one that came late', select.select([late.socket], [], [], 0.5)[0], [])
    kept = []
    reader = drain_into(ear, kept)
    leavers[-1].socket.settimeout(PATIENCE)
    leavers[-1].until_end()
    wants('what came to the one that found the pipe full', bytes(leavers[-1].got), BAD_PASSWORD_1)
    late.expect(ICY)
    late.guest.entered, late.guest.heard, late.guest.spans = ('rover', '-'), [('ALPHA', [])], [(60, 60)]
    late.ended('rover-end')
    rovers[1].guest.spans = [(0, 60)]
    keeper.ask()
    for one in (base, rovers[1], late):
        one.until_end()
    keeper.ends()
    reader.join(PATIENCE)
    keeper.checked(b''.join(kept).decode())


def closed_output():
    """The pipe of the lines is closed while a base and rovers are there: the next line that cannot be written
    ends all connections in order, with status 5, and what was written is whole lines."""
    ear, mouth = os.pipe()
    keeper = keep(6, output=mouth)
    os.close(mouth)
    base = Base(keeper, 'ALPHA', claim=1)
    rovers = [Rover(keeper, 'ALPHA', 'rover1', version) for version in (1, 2)]
    base.publish(10)
    for one in rovers:
        one.wait_for('ALPHA', 9)
    early = os.read(ear, 65536)
    os.close(ear)
    rovers[0].finish()
    begun = time.monotonic()
    for one in (base, *rovers):
        one.until_end()
    ended_within(2, begun, (base, *rovers))
    keeper.ends(5)
    books = read(early.decode(), cut=True)
    wants('links', sorted(link.entered for link in books.links.values()),
          [('rover', 'rover1'), ('rover', 'rover1'), ('source', 'ALPHA', '1')])


def outputs_that_take_nothing():
    """A device that is full, and no standard output at all: status 5 with the first client, who sees its end;
    nothing that is for the lines comes to a client."""
    for front in (['sh', '-c', 'exec "$@" >/dev/full', 'sh'], ['sh', '-c', 'exec "$@" >&-', 'sh']):
        keeper = keep(2, front=front)
        one = Visitor(keeper)
        try:
            one.send(rover_1('ALPHA', basic('rover1', 'secret')))
            one.until_end()
        except (OSError, wire.Wrong):
            pass
        holds('a client was sent %s' % show(one.got), not one.got or ICY.startswith(bytes(one.got)))
        keeper.ends(5)


# ---- threads

class Alone(Keeper):
    """The program itself, in a process that may have no further thread. It is not root there, as no such limit
    binds root. ./caster is a script, which could not run so."""

    def __init__(self, workers):
        self.folder = tempfile.mkdtemp()
        os.chmod(self.folder, 0o755)
        self.program = shutil.copy(path_of_the_program(), self.folder)
        super().__init__(workers)
        keepers.append(self)

    def words(self, limit):
        os.chmod(self.path, 0o644)
        nobody = ['setpriv', '--reuid=65534', '--regid=65534', '--clear-groups'] if os.getuid() == 0 else []
        return nobody + ['prlimit', '--nproc=1', self.program, self.command, self.path, self.addr, limit]

    def stop(self):
        super().stop()
        shutil.rmtree(self.folder, ignore_errors=True)


def path_of_the_program():
    """That of the file which runs where ./caster was started."""
    keeper = keep(1)
    Visitor(keeper).ended('no-head')
    path = os.readlink('/proc/%d/exe' % keeper.process.pid)
    keeper.stops()
    return path


def no_further_thread():
    """No thread can be started: the porter gives its own up after three seconds, and then one caller serves all links,
    one behind the other, until the stop, and the books hold."""
    keeper = Alone(3)
    base = Base(keeper, 'ALPHA', claim=1).publish(4)
    base.finish()
    base.until_end()
    for version in (1, 2):
        one = Rover(keeper, 'ALPHA', 'rover1', version)
        one.guest.spans = [(4, 4)]
        one.leaves()
    wants('threads', keeper.threads(), 1)
    last = Rover(keeper, 'ALPHA', 'rover2')
    last.guest.spans = [(4, 4)]
    text = keeper.stops()
    last.until_end()
    wants('callers that served', len({line.split('.')[0] for line in text.splitlines() if ' from ' in line}), 1)
    keeper.checked(text)


# ---- kills

class Brief(Rover):
    """One that does not wait for somebody to listen."""

    patience = 0


def visit_until_killed(keeper, dice, left):
    """Rovers come and go; when each has left is noted."""
    while True:
        try:
            one = Brief(keeper, 'ALPHA', dice.choice(['rover1', 'rover2', '-']), dice.choice([1, 2]))
            while one.heard_last()[1] < 0:
                holds('the end came', one.receive())
            time.sleep(dice.uniform(0, 0.1))
            one.leaves()
        except (OSError, Wrong, wire.Wrong):
            return
        if one.guest.is_open:
            return
        left.append((time.monotonic(), one.guest))


def kill_once(number):
    """The program is killed at a moment between one and two seconds after it began. All lines but the last
    are whole, and each client that left a second before has its receipt, with what it got."""
    dice = random.Random(number)
    keeper = keep(8)
    base = Base(keeper, 'ALPHA', claim=1)
    over, left = threading.Event(), []

    def publish():
        try:
            while not over.wait(0.01):
                base.publish(2)
        except OSError:
            pass

    threads = [threading.Thread(target=publish)]
    threads += [threading.Thread(target=visit_until_killed, args=(keeper, random.Random(dice.random()), left))
                for _ in range(3)]
    for thread in threads:
        thread.start()
    time.sleep(dice.uniform(1.2, 2))
    killed = time.monotonic()
    keeper.process.kill()
    over.set()
    for thread in threads:
        thread.join()
    keeper.process.wait(PATIENCE)
    books = read(keeper.text(), cut=True)
    agree(books, keeper.house)
    must = [guest for when, guest in left if when < killed - 1]
    # Of those that were there when it was killed any part of the lines may be there.
    compare(books, keeper.house, [guest for _, guest in left], message_of, must, strangers=True)
    return len(must)


def killed_at_any_time():
    """Twenty times, five at a time."""
    counts = []

    def lane(at):
        for number in range(at, KILLS, LANES):
            counts.append(kill_once(number))

    all_at_once(LANES, lane)
    holds('clients that left a second before: %s' % counts, len(counts) == KILLS and sum(counts) > 3 * KILLS)


# ---- caster-run

class Run(Keeper):
    """The program by dist/caster-run, with its FIFO in a folder for that, in which one that was killed may have left
    its own."""

    input = subprocess.DEVNULL

    def __init__(self, workers, left=False, **named):
        self.folder = tempfile.mkdtemp()
        if left:
            os.mkfifo(os.path.join(self.folder, 'stop'), 0o600)
        self.more = {'env': dict(os.environ, CASTER=PROGRAM, RUNTIME_DIRECTORY=self.folder), 'start_new_session': True}
        super().__init__(workers, **named)
        keepers.append(self)

    def words(self, limit):
        return self.front + ['dist/caster-run', self.path, self.addr, limit]

    def program(self):
        """The process id of the program below it."""
        def found():
            with open('/proc/%d/task/%d/children' % (self.process.pid, self.process.pid)) as file:
                return file.read().split()
        return int(until(found, 'the program')[0])

    def ends(self, status=0):
        text = super().ends(status)
        wants('what is left in its folder', os.listdir(self.folder), [])
        return text

    def stop(self):
        super().stop()
        shutil.rmtree(self.folder, ignore_errors=True)


def caster_run_by_signals():
    """TERM, INT and QUIT to caster-run, and TERM and INT to all processes of its group: each client sees its end,
    the status is 0, and the books are whole. So it is where `stop` is written into the FIFO."""
    def by_signal(run, sent):
        run.process.send_signal(sent)

    def to_the_group(run, sent):
        os.killpg(run.process.pid, sent)

    def by_the_fifo(run, sent):
        with open(os.path.join(run.folder, 'stop'), 'w') as file:
            file.write('stop\n')

    ways = [(by_signal, sent) for sent in (signal.SIGTERM, signal.SIGINT, signal.SIGQUIT)]
    ways += [(to_the_group, sent) for sent in (signal.SIGTERM, signal.SIGINT)]

    def one_way(at):
        way, sent = (ways + [(by_the_fifo, None)])[at]
        run = Run(3)
        base, rover = Base(run, 'ALPHA', claim=1), Rover(run, 'ALPHA', 'rover1')
        base.publish(5)
        rover.wait_for('ALPHA', 4).guest.spans = [(0, 5)]
        way(run, sent)
        for one in (base, rover):
            one.until_end()
        run.checked(run.ends())

    all_at_once(len(ways) + 1, one_way)


def caster_run_at_a_hangup():
    """HUP to caster-run, to the program and to all processes of the group, as of a terminal that is closed: base and
    rover go on, and the books are whole at the stop."""
    def by_hangup(at):
        run = Run(3)
        base, rover = Base(run, 'ALPHA', claim=1), Rover(run, 'ALPHA', 'rover1')
        base.publish(5)
        rover.wait_for('ALPHA', 4)
        if at == 0:
            run.process.send_signal(signal.SIGHUP)
        elif at == 1:
            os.kill(run.program(), signal.SIGHUP)
        else:
            os.killpg(run.process.pid, signal.SIGHUP)
        time.sleep(1)
        base.publish(5)
        rover.wait_for('ALPHA', 9).guest.spans = [(0, 10)]
        run.process.send_signal(signal.SIGTERM)
        for one in (base, rover):
            one.until_end()
        run.checked(run.ends())

    all_at_once(3, by_hangup)


def caster_run_beside_another():
    """A second caster-run in the folder of one that serves ends with 73, and the FIFO stays the first one's. The FIFO
    of one that was killed is taken."""
    run = Run(3)
    base, rover = Base(run, 'ALPHA', claim=1), Rover(run, 'ALPHA', 'rover1')
    done = subprocess.run(['dist/caster-run', run.path, '127.0.0.1:0', '0'], stdin=subprocess.DEVNULL,
                          stdout=subprocess.PIPE, stderr=subprocess.PIPE, timeout=PATIENCE, env=run.more['env'])
    said = ('caster-run: another one has %s/stop\n' % run.folder).encode()
    wants('status and output', (done.returncode, done.stdout, done.stderr), (73, b'', said))
    base.publish(3)
    rover.wait_for('ALPHA', 2).guest.spans = [(0, 3)]
    with open(os.path.join(run.folder, 'stop'), 'w') as file:
        file.write('stop\n')
    for one in (base, rover):
        one.until_end()
    run.checked(run.ends())
    run = Run(2, left=True)
    base = Base(run, 'ALPHA', claim=1)
    run.process.send_signal(signal.SIGTERM)
    base.until_end()
    run.checked(run.ends())


def caster_run_to_a_file_at_its_limit():
    """The lines go to a file that may not grow (`ulimit -f`): a write that failed, with status 5."""
    with tempfile.NamedTemporaryFile() as file:
        run = Run(2, front=['sh', '-c', 'ulimit -f 0; file=$1; shift; exec "$@" >>"$file"', 'sh', file.name])
        Client(run.port).close()
        wants('a line that cannot be written', run.ends(5), '')
        wants('what was written', file.read(), b'')


def caster_run_early_and_often():
    """A signal while it starts, soon behind its FIFO or behind the start of the program, and many of them: status
    0, with the closing lines and nothing else."""
    def early(at):
        run = Run(2)
        until(lambda: os.listdir(run.folder), 'the FIFO')
        time.sleep(0.01 * at)
        for _ in range(1 + at % 3 * 5):
            run.process.send_signal(signal.SIGTERM)
            time.sleep(0.01)
        run.checked(run.ends())

    all_at_once(8, early)


def caster_run_gives_the_status():
    """The program ends by itself: an address that is taken, a line that cannot be written, no configuration, and
    a program that there is not. It is killed. Its status comes back, and no FIFO is left. There is no place for
    a FIFO."""
    other = Upstream('ALPHA')
    wants('an address that is taken', Run(2, addr=other.address).ends(6), 'network fault\n')
    other.close()
    run = Run(2, front=['sh', '-c', 'exec "$@" >/dev/full', 'sh'])
    Client(run.port).close()
    wants('a line that cannot be written', run.ends(5), '')
    with tempfile.TemporaryDirectory() as folder, open(os.path.join(folder, 'nothing'), 'wb') as nothing:
        for program, place, status, said in [(PROGRAM, '', 4, b'read fault\n'), ('/nowhere', '', 127, b''),
                                             (PROGRAM, '/nowhere', 73, b'')]:
            words = ['dist/caster-run', '/nowhere', '127.0.0.1:1', '0']
            done = subprocess.run(words, stdout=subprocess.PIPE, stderr=nothing, stdin=subprocess.DEVNULL,
                                  timeout=PATIENCE, env=dict(
                                      os.environ, CASTER=program, TMPDIR=folder, RUNTIME_DIRECTORY=place))
            wants('status and output', (done.returncode, done.stdout), (status, said))
        wants('what is left', os.listdir(folder), ['nothing'])
    run = Run(2)
    base = Base(run, 'ALPHA', claim=1)
    os.kill(run.program(), signal.SIGKILL)
    base.until_end()
    # The shell says of it what it will.
    run.may_say = b'Killed'
    books = read(run.ends(137), cut=True)
    wants('the link', [link.entered for link in books.links.values()], [('source', 'ALPHA', '1')])
