"""A root of Debian 12 of its own, in which a systemd of its own runs, in namespaces of its own: with its own loopback,
processes, mounts and groups of processes. Nothing of the machine is changed by what runs in it.

The root is made once by debootstrap, from Debian's mirror (MIRROR names another one), and kept in out/package-root.
What a case changes of it stands in memory, and is gone with the case.
"""
import contextlib
import ctypes
import os
import shutil
import subprocess
import tempfile
import time

from common import *

BASE = os.path.abspath('out/package-root')
MIRROR = os.environ.get('MIRROR', 'http://deb.debian.org/debian')

# What is there before the package: a service manager, a proxy, and what its tools and its tests use.
THERE = ['systemd', 'systemd-sysv', 'haproxy', 'openssl', 'python3', 'man-db', 'ca-certificates']

CLONE_NEWNET = 0x40000000
PATH = '/usr/local/sbin:/usr/local/bin:/usr/sbin:/usr/bin:/sbin:/bin'


def made():
    """Makes the root where it is not there yet; what debootstrap mounts for it is seen by nobody else."""
    if os.path.exists(BASE + '/.made') and text_of(BASE + '/.made') == ' '.join(THERE):
        return
    need('debootstrap', 'unshare')
    shutil.rmtree(BASE, ignore_errors=True)
    os.makedirs(BASE)
    done = subprocess.run(['unshare', '--mount', '--fork', '--kill-child', 'debootstrap', '--variant=minbase',
                           '--include=' + ','.join(THERE), 'bookworm', BASE, MIRROR], stdin=subprocess.DEVNULL,
                          stdout=subprocess.PIPE, stderr=subprocess.STDOUT, timeout=1800)
    if done.returncode:
        shutil.rmtree(BASE, ignore_errors=True)
        raise Missing('a root by debootstrap: ' + show(done.stdout[-200:]))
    with open(BASE + '/.made', 'w') as file:
        file.write(' '.join(THERE))


def own_groups():
    """The folders of the groups of processes that this process is in, below which others may be made."""
    with open('/proc/mounts') as file:
        mounts = [line.split() for line in file]
    found = []
    with open('/proc/self/cgroup') as file:
        for line in file:
            _, names, path = line.strip().split(':', 2)
            if names == 'cpuset':
                continue
            for _, at, kind, options, *_ in mounts:
                if kind == 'cgroup' and names in options.split(',') or kind == 'cgroup2' and not names:
                    found.append(at + path.rstrip('/'))
                    break
    return found


class Root:
    """The root while its systemd runs."""

    def __init__(self):
        need('unshare', 'nsenter', 'ip')
        if os.geteuid() or run('unshare', '--mount', '--net', '--pid', '--cgroup', '--fork', 'true').returncode:
            raise Missing('root and namespaces of its own')
        made()
        self.folder = tempfile.mkdtemp()
        self.groups = [folder + '/viewlemon-%d' % os.getpid() for folder in own_groups()]
        for folder in self.groups:
            os.mkdir(folder)
        enter = ''.join('echo 0 >%s/cgroup.procs; ' % folder for folder in self.groups)
        self.process = subprocess.Popen(
            ['sh', '-euc', enter + 'exec "$@"', 'sh', 'unshare', '--mount', '--net', '--pid', '--ipc', '--uts',
             '--cgroup', '--fork', '--kill-child', os.path.abspath('tests/package/boot'), BASE, self.folder],
            stdin=subprocess.DEVNULL, stdout=subprocess.PIPE, stderr=subprocess.STDOUT)
        try:
            self.wait_until_it_runs()
        except BaseException:
            self.close()
            raise

    def __enter__(self):
        return self

    def __exit__(self, *_):
        self.close()

    def wait_until_it_runs(self):
        until = time.monotonic() + PATIENCE
        state = ''
        while state not in ('running', 'degraded'):
            if self.process.poll() is not None:
                raise Missing('a systemd of its own: ' + show(self.process.stdout.read()[-200:]))
            if time.monotonic() > until:
                raise Missing('a systemd of its own: %s' % state)
            time.sleep(0.2)
            if self.first():
                state = self.call('systemctl', 'is-system-running').stdout.decode().strip()

    def first(self):
        """The process that is the first one in there, once it is systemd."""
        with open('/proc/%d/task/%d/children' % (self.process.pid, self.process.pid)) as file:
            children = file.read().split()
        for one in children:
            with open('/proc/%s/comm' % one) as file:
                if file.read() == 'systemd\n':
                    return int(one)
        return None

    def call(self, *words, input=None, timeout=120):
        """Runs a command in there."""
        return subprocess.run(['nsenter', '--target', str(self.first()), '--all', '--root', 'env', '-i',
                               '--chdir=/root', 'HOME=/root', 'PATH=' + PATH, 'TERM=dumb', 'LC_ALL=C.UTF-8', *words],
                              input=input if input is not None else b'', stdout=subprocess.PIPE,
                              stderr=subprocess.PIPE, timeout=timeout)

    def does(self, *words, status=0, **more):
        """What a command in there writes, where it ends with this status."""
        done = self.call(*words, **more)
        if done.returncode != status:
            raise Wrong('%s: status %d: %s %s' % (' '.join(words), done.returncode, show(done.stdout[-600:]),
                                                  show(done.stderr[-600:])))
        return done.stdout.decode()

    def path(self, name):
        """A path of the root as this process sees it."""
        return '/proc/%d/root%s' % (self.first(), name)

    def has(self, name):
        return os.path.lexists(self.path(name))

    def text(self, name):
        return text_of(self.path(name))

    def put(self, name, text, mode=0o644):
        os.makedirs(os.path.dirname(self.path(name)), exist_ok=True)
        with open(self.path(name), 'w') as file:
            file.write(text)
        os.chmod(self.path(name), mode)

    def property(self, unit, name):
        return self.does('systemctl', 'show', '--value', '-p', name, unit).strip()

    def lines(self, unit='caster'):
        """The lines of the unit in the journal, as it wrote them."""
        return self.does('journalctl', '-o', 'cat', '-t', unit, '--no-pager').splitlines()

    def wait_for_line(self, end, count=1):
        """Waits until so many lines of the journal have this end."""
        until = time.monotonic() + PATIENCE
        while True:
            lines = self.lines()
            if sum(line.endswith(end) for line in lines) >= count:
                return lines
            if time.monotonic() > until:
                raise Wrong('the lines are %s' % lines[-20:])
            time.sleep(0.1)

    @contextlib.contextmanager
    def network(self):
        """This process is at the network of the root."""
        system = ctypes.CDLL(None, use_errno=True)
        here, there = (os.open('/proc/%s/ns/net' % one, os.O_RDONLY) for one in ('self', self.first()))
        try:
            if system.setns(there, CLONE_NEWNET):
                raise Wrong(os.strerror(ctypes.get_errno()))
            yield
        finally:
            system.setns(here, CLONE_NEWNET)
            os.close(here)
            os.close(there)

    def close(self):
        if self.process.poll() is None:
            self.process.kill()
        self.process.communicate()
        until = time.monotonic() + PATIENCE
        for folder in self.groups:
            for at, _, _ in os.walk(folder, topdown=False):
                while True:
                    try:
                        os.rmdir(at)
                        break
                    except OSError:
                        if time.monotonic() > until:
                            raise
                        time.sleep(0.05)
        os.rmdir(self.folder)
