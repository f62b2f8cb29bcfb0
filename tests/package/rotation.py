"""Lines of a caster that go through a pipe to a program that turns its files over, while clients come and go."""
import glob
import re
import signal
import socket
import subprocess
import threading
import time
from collections import Counter

from common import *

TURNS = 10


def recipe(reader):
    """The line of docs/OPERATING.md that pipes a caster's lines to this reader."""
    line, = re.findall(r'^    (caster-run .*\| .*\b%s\b.*) &$' % reader, text_of('docs/OPERATING.md'), re.M)
    return line


class Guests(threading.Thread):
    """Clients with a wrong password, one after the other, until told to stop; each reads its reply."""

    def __init__(self, port):
        super().__init__(daemon=True)
        self.port, self.refused, self.over, self.fault = port, 0, False, None

    def run(self):
        try:
            while not self.over:
                one = Client(self.port).send(source_1('ALPHA', 'no')).expect(BAD_PASSWORD_1)
                one.expect_end()
                self.refused += 1
        except (OSError, Wrong) as fault:
            self.fault = fault


class Piped:
    """The recipe as it stands on the page, with other places, and a second copy of all lines beside its reader."""

    def __init__(self, reader, name, changes, copied=True):
        self.port, self.folder = free_port(), os.path.join(WORK, name)
        os.makedirs(self.folder + '/run')
        self.whole = self.folder + '/whole'
        line = replaced(recipe(reader), changes(self.folder) + [
            ('/etc/caster/caster.toml', write(name + '.toml', config(4))),
            ('0.0.0.0:2101', '127.0.0.1:%d' % self.port)])
        # What goes through the pipe is written down on its way, and the caster's status too.
        caster, behind = line.split(' | ', 1)
        beside = "(trap '' HUP INT QUIT TERM; exec tee %s) | " % self.whole if copied else ''
        script = '{ trap : INT; %s; echo $? >%s/status; } | %s%s' % (caster, self.folder, beside, behind)
        path = os.path.join(WORK, 'bin')
        os.makedirs(path, exist_ok=True)
        for target, link in [('dist/caster-run', 'caster-run'), (PROGRAM, 'caster')]:
            if not os.path.exists(path + '/' + link):
                os.symlink(os.path.abspath(target), path + '/' + link)
        self.process = subprocess.Popen(
            ['sh', '-c', script], stdin=subprocess.DEVNULL, stderr=subprocess.DEVNULL, start_new_session=True,
            env=dict(os.environ, RUNTIME_DIRECTORY=self.folder + '/run', PATH=path + ':' + os.environ['PATH']))
        processes.append(self.process)

    def reader(self, name):
        """The process of this name in the session of the recipe."""
        until = time.monotonic() + PATIENCE
        while True:
            for one in os.listdir('/proc'):
                try:
                    with open('/proc/%s/stat' % one) as file:
                        front, _, rest = file.read().rpartition(')')
                except (OSError, NotADirectoryError):
                    continue
                if front.endswith('(' + name) and int(rest.split()[3]) == self.process.pid:
                    return int(one)
            if time.monotonic() > until:
                raise Wrong('no %s' % name)
            time.sleep(0.05)

    def stop(self):
        """A signal to all processes of the recipe, as by Ctrl-C at a terminal."""
        os.killpg(self.process.pid, signal.SIGINT)
        self.process.wait(timeout=PATIENCE)
        return self.status()

    def status(self):
        until = time.monotonic() + PATIENCE
        path = self.folder + '/status'
        while not os.path.exists(path) or not text_of(path):
            if time.monotonic() > until:
                raise Wrong('the caster does not end')
            time.sleep(0.05)
        return int(text_of(path))


def while_guests_come(piped, turned):
    """Four clients at a time come and go while `turned` says that the files were not turned over often enough."""
    guests = [Guests(piped.port) for _ in range(4)]
    for one in guests:
        one.start()
    until = time.monotonic() + 90
    while not turned():
        if time.monotonic() > until or any(one.fault for one in guests):
            raise Wrong('not turned over: %s' % [one.fault for one in guests])
        time.sleep(0.1)
    for one in guests:
        one.over = True
    for one in guests:
        one.join(PATIENCE)
    if any(one.fault for one in guests):
        raise Wrong('a client: %s' % [one.fault for one in guests])
    return sum(one.refused for one in guests)


def every_line_once(piped, names, refused):
    """The files, one behind the other, are what went through the pipe, byte for byte. Each connection of each worker
    has its first line and its last once, in order, as many as there were clients; and the totals are the end."""
    text = ''.join(text_of(name) for name in names)
    if text != text_of(piped.whole):
        raise Wrong('%d bytes went through the pipe, and the files have %d' % (len(text_of(piped.whole)), len(text)))
    for word in ('from', 'end'):
        seen = Counter()
        for worker, number in re.findall(r'^([0-9]+)\.([0-9]+) %s ' % word, text, re.M):
            seen[worker] += 1
            if int(number) != seen[worker]:
                raise Wrong('%s.%s %s stands %d times before' % (worker, number, word, seen[worker] - 1))
        if sum(seen.values()) != refused:
            raise Wrong('%d lines `%s` of %d clients' % (sum(seen.values()), word, refused))
    if not text.endswith('total 0 0 0\n'):
        raise Wrong('the end is %r' % text[-100:])
    return len(text.splitlines())


def rotatelogs():
    """The recipe of docs/OPERATING.md by rotatelogs, with a second in place of a day: the files are turned over ten
    times under load, and no line is lost."""
    need('rotatelogs')
    piped = Piped('rotatelogs', 'rotatelogs', lambda folder: [
        ('/var/log/caster/%Y-%m-%d.lines', folder + '/%H:%M:%S.lines'), (' 86400', ' 1')])
    files = lambda: sorted(glob.glob(piped.folder + '/*.lines'), key=os.path.getmtime)
    refused = while_guests_come(piped, lambda: len(files()) > TURNS)
    if piped.stop():
        raise Wrong('status %d' % piped.status())
    said = every_line_once(piped, files(), refused)
    print('    rotatelogs: %d lines of %d connections in %d files' % (said, refused, len(files())))


def multilog():
    """The recipe by multilog, which is told to turn over by ALRM, ten times."""
    need('multilog')
    piped = Piped('multilog', 'multilog', lambda folder: [('/var/log/caster', folder + '/lines')])
    files = lambda: sorted(glob.glob(piped.folder + '/lines/@*')) + [piped.folder + '/lines/current']

    def turned():
        # It heeds ALRM by the time that its file is there, and would end by it before.
        if os.path.exists(piped.folder + '/lines/current'):
            os.kill(piped.reader('multilog'), signal.SIGALRM)
        time.sleep(0.5)
        return len(files()) > TURNS

    refused = while_guests_come(piped, turned)
    if piped.stop():
        raise Wrong('status %d' % piped.status())
    said = every_line_once(piped, files(), refused)
    print('    multilog: %d lines of %d connections in %d files' % (said, refused, len(files())))


def reader_that_dies():
    """The reader of the lines is killed: the caster ends by itself with 5 at its next line, which no file has."""
    need('rotatelogs')
    piped = Piped('rotatelogs', 'dies', lambda folder: [
        ('/var/log/caster/%Y-%m-%d.lines', folder + '/%H:%M:%S.lines'), (' 86400', ' 100')], copied=False)
    Client(piped.port).send(source_1('ALPHA', 'no')).expect(BAD_PASSWORD_1).expect_end()
    until = time.monotonic() + PATIENCE
    while not glob.glob(piped.folder + '/*.lines') or ' end ' not in text_of(glob.glob(piped.folder + '/*.lines')[0]):
        if time.monotonic() > until:
            raise Wrong('no lines')
        time.sleep(0.05)
    os.kill(piped.reader('rotatelogs'), signal.SIGKILL)
    time.sleep(0.5)
    if os.path.exists(piped.folder + '/status'):
        raise Wrong('it ended before it had a line to write')
    with socket.create_connection(('127.0.0.1', piped.port), PATIENCE) as one:
        one.settimeout(PATIENCE)
        try:
            one.sendall(source_1('ALPHA', 'no'))
            one.recv(100)
        except OSError:
            pass
    if piped.status() != 5:
        raise Wrong('status %d' % piped.status())
    name, = glob.glob(piped.folder + '/*.lines')
    words = [line.split(' ')[1] for line in text_of(name).splitlines()]
    if words[:1] != ['from'] or words[-1:] != ['end'] or words.count('from') != 1:
        raise Wrong('the lines are %s' % text_of(name))


CASES = [rotatelogs, multilog, reader_that_dies]
