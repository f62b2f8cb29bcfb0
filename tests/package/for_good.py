"""The block of README.md, "Run it for good", as it stands there, in a root of its own: see root.py."""
import os
import re
import subprocess

from root import *

# What fills in dist/caster.toml: for each `false` that is not behind a `#`, in order, what takes its place.
FILLED = ['"ALPHA"', '"of its base"', '481173000', '115166666', '["ALPHA"]', '"rover1"', '"of a rover"']

# The keys of these, as `check` names them.
KEYS = ['mount 1 name', 'mount 1 password', 'mount 1 latitude', 'mount 1 longitude', 'group 1 mounts',
        'account 1 user', 'account 1 password']

ROVER = basic('rover1', 'of a rover')

# What of the clone the package is made of.
CLONE = ['README.md', 'VERSION', 'CHANGELOG.md', 'SECURITY.md', 'dist', 'docs', 'examples']


def take_clone(root, version=None):
    """The clone, without its crates, in /root/viewlemon of the root, where a new shell begins."""
    subprocess.run(['cp', '-r', *CLONE, root.path('/root')], check=True)
    if version:
        root.put('/root/VERSION', version + '\n')
    root.does('sh', '-c', 'rm -f /root/viewlemon_*.deb')


def block():
    """The indented lines of the section."""
    section = text_of('README.md').split('## Run it for good\n')[1].split('\n## ')[0]
    return ''.join(line + '\n' for line in re.findall(r'^    (.*)$', section, re.M))


def run_block(root, front=''):
    """The block from its line with this front on, which ends at the first line that fails; apt's question is answered
    by Enter."""
    text = block()
    return root.call('sh', '-eu', '-c', text[text.index('\n' + front) if front else 0:], input=b'\n')


def succeeds(root, front=''):
    done = run_block(root, front)
    if done.returncode or b'ok' not in done.stdout.split(b'\n'):
        raise Wrong('status %d: %s %s' % (done.returncode, show(done.stdout[-600:]), show(done.stderr[-600:])))


def fill_in(root, values):
    """An editor that puts these values in the place of the first ones that are to be filled in."""
    script = ''.join('0,/^[^#]* = false/s/^\\([^#]* = \\)false/\\1%s/\n' % value for value in values)
    root.put('/run/script', script)
    root.put('/usr/local/bin/editor', '#!/bin/sh\nexec sed -i -f /run/script "$1"\n', 0o755)


def refused_until_filled_in(root):
    """With each `false` that is left the block ends at `check`, which names it; nothing is served then. It runs once
    from its first line on, and then goes on at the editor."""
    if re.search(r'^\s*#?\s*password = (?!false)', text_of('dist/caster.toml'), re.M):
        raise Wrong('a password stands in dist/caster.toml')
    for count, key in enumerate(KEYS):
        # The file stays: the editor fills in the next one that is left.
        fill_in(root, FILLED[count - 1:count] if count else [])
        done = run_block(root, 'editor ' if count else '')
        said = ('configuration: wrong %s\n' % key).encode()
        if done.returncode != 2 or not done.stdout.endswith(said):
            raise Wrong('%d filled in: status %d: %s %s' % (count, done.returncode, show(done.stdout[-300:]),
                                                            show(done.stderr[-300:])))
        if root.property('caster', 'ActiveState') != 'inactive' or root.has('/etc/systemd/system/caster.service.d'):
            raise Wrong('a caster was started')
    fill_in(root, FILLED[-1:])


def listening():
    """The addresses at which somebody listens, as /proc has them."""
    found = set()
    for name in ('tcp', 'tcp6'):
        rows = [line.split() for line in text_of('/proc/thread-self/net/' + name).splitlines()[1:]]
        found |= {(row[1].split(':')[0].lstrip('0'), int(row[1].split(':')[1], 16)) for row in rows if row[3] == '0A'}
    return found


def frames_by_tls(root):
    """A base by `openssl s_client` and a rover by `curl`, both by TLS with the certificate that the block made, and
    a rover in the clear: each is sent the base's frames. Nobody enters by a published password, or without one."""
    name, certificate = 'caster-root', root.path('/etc/haproxy/caster.pem')
    Client(2102).close()
    base = subprocess.Popen(['openssl', 's_client', '-connect', '127.0.0.1:2102', '-CAfile', certificate,
                             '-verify_return_error', '-verify_hostname', name, '-quiet', '-no_ign_eof'],
                            stdin=subprocess.PIPE, stdout=subprocess.PIPE, stderr=subprocess.DEVNULL)
    base.stdin.write(source_2('ALPHA', 'sesame').replace(basic('source', 'sesame').encode(),
                                                         basic('source', 'of its base').encode()))
    base.stdin.flush()
    answer = base.stdout.read(len(SOURCE_2_OK))
    if answer != SOURCE_2_OK:
        raise Wrong('the base was answered %s' % show(answer))
    rover = subprocess.Popen(['curl', '-sN', '--max-time', '60', '--cacert', certificate, '--resolve',
                              name + ':2102:127.0.0.1', '-u', 'rover1:of a rover', '-H', 'Ntrip-Version: Ntrip/2.0',
                              'https://%s:2102/ALPHA' % name], stdout=subprocess.PIPE)
    plain = Client(2101).send(rover_1('ALPHA', ROVER)).expect(ICY)
    root.wait_for_line(' rover rover1', 2)
    base.stdin.write(A + B)
    base.stdin.flush()
    plain.expect(A + B)
    got = rover.stdout.read(len(A + B))
    if got != A + B:
        raise Wrong('the rover by TLS was sent %s' % show(got))
    Client(2101).send(source_1('ALPHA', 'sesame')).expect(BAD_PASSWORD_1)
    Client(2101).send(rover_1('ALPHA')).expect(UNAUTHORIZED_1)
    Client(2101).send(rover_1('ALPHA', basic('rover1', 'secret'))).expect(UNAUTHORIZED_1)
    for one in (rover, base):
        one.terminate()
        one.wait(timeout=PATIENCE)
    plain.close()


def program_of(root):
    """The process of the caster, which caster-run starts, and the file that it is."""
    shell = root.property('caster', 'MainPID')
    until = time.monotonic() + PATIENCE
    while time.monotonic() < until:
        try:
            for one in root.text('/proc/%s/task/%s/children' % (shell, shell)).split():
                name = os.readlink(root.path('/proc/%s/exe' % one))
                if name.split(' ')[0].endswith('/caster'):
                    return one, name
        except OSError:
            pass
        time.sleep(0.1)
    raise Wrong('no caster runs: %s' % root.lines()[-5:])


def its_unit(root):
    """Under systemd the program has the limits of its unit, a user of its own, and the variables of caster-run."""
    program, path = program_of(root)
    status = root.text('/proc/%s/status' % program)
    user = int(re.search(r'^Uid:\t(\d+)', status, re.M)[1])
    if not 61184 <= user <= 65519:
        raise Wrong('its user is %d' % user)
    if path != '/usr/bin/caster':
        raise Wrong('the program is %s' % path)
    variables = root.text('/proc/%s/environ' % program).split('\0')
    if 'RES_OPTIONS=timeout:2 attempts:1' not in variables:
        raise Wrong('its variables are %s' % variables)
    if not re.search(r'^Max open files +2048 +2048 ', root.text('/proc/%s/limits' % program), re.M):
        raise Wrong('its limits are %s' % root.text('/proc/%s/limits' % program))
    group = root.property('caster', 'ControlGroup')
    limits = [path for path in ('/sys/fs/cgroup/memory%s/memory.limit_in_bytes' % group,
                                '/sys/fs/cgroup%s/memory.max' % group) if root.has(path)]
    if limits and root.text(limits[0]) != '%d\n' % (512 << 20):
        raise Wrong('its memory is %s' % root.text(limits[0]))
    if not limits:
        print('    left out: MemoryMax, for want of groups of processes with a limit of memory')


def for_good():
    """The block of README.md, as it stands there, in a root with a systemd of its own. It is refused until the
    configuration is filled in, and serves by TLS then. Once more, from its first line on, it changes nothing of what
    was filled in."""
    need('curl', 'openssl')
    with Root() as root:
        take_clone(root)
        refused_until_filled_in(root)
        succeeds(root, 'editor ')
        filled_in = root.text('/etc/caster/caster.toml')
        if 'of its base' not in filled_in or os.stat(root.path('/etc/caster/caster.toml')).st_mode & 0o777 != 0o600:
            raise Wrong('not filled in, or for all to read')
        if os.stat(root.path('/etc/haproxy/caster.pem')).st_mode & 0o077:
            raise Wrong('the key is for all to read')
        fill_in(root, [])
        succeeds(root)
        if root.text('/etc/caster/caster.toml') != filled_in:
            raise Wrong('what was filled in is gone')
        its_unit(root)
        with root.network():
            frames_by_tls(root)
            if ('100007F', 2110) not in listening() or {('', 2101), ('', 2102)} - listening():
                raise Wrong('they listen at %s' % listening())
        root.does('systemctl', 'stop', 'caster')
        lines = root.wait_for_line('total 2 4 0')
        if 'account rover1 2 4 0' not in lines or 'mount ALPHA 2 1' not in lines:
            raise Wrong('the totals are %s' % lines[-5:])


CASES = [for_good]
