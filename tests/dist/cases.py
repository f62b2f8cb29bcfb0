"""Cases of what stands in dist/. Each is a function whose text says what it tries; it is wrong where it
raises something, and left out where it raises Missing."""
import glob
import os
import re
import shutil
import socket
import ssl
import subprocess
import sys
import tempfile
import time
import traceback

sys.path.insert(0, 'tests/serve')
import alarms
import bills
import forms
import healthy
import linting
import packed
import pages
import positions
import tools
import webpage
from common import *

# ---- manual page, unit, installing

def manual():
    """Each manual page is taken without a warning; that of caster-lines has each of its words."""
    need('groff')
    for path in sorted(glob.glob('dist/*.[15]')):
        passes('groff', '-man', '-ww', '-Tutf8', path)
    page, usage = text_of('dist/caster-lines.1'), run('dist/caster-lines').stderr.decode()
    words = set(re.findall(r'^    caster-lines (\w+) ', usage, re.M))
    if len(words) < 7 or words != set(re.findall(r'\.SY caster\\-lines\n\.B (\w+)\n', page)):
        raise Wrong('the words are %s' % sorted(words))


def unit():
    """systemd takes each unit, with the programs at another place, since it wants ones that are there."""
    need('systemd-analyze')
    os.makedirs(WORK + '/bin')
    for program in ('caster', 'caster-run', 'caster-lines'):
        shutil.copy('dist/caster-run', WORK + '/bin/' + program)
    names = sorted(name for name in os.listdir('dist') if name.endswith(('.service', '.socket', '.timer')))
    if len(names) < 7:
        raise Wrong('the units are %s' % names)
    for name in names:
        write(name, text_of('dist/' + name).replace('/usr/local/bin/', WORK + '/bin/'))
    for name in names:
        passes('systemd-analyze', 'verify', '--man=no', os.path.join(WORK, name))


def installed():
    """The line of docs/OPERATING.md installs these files, and the programs run from there."""
    line, = re.findall(r'^    (install -D .*DESTDIR.*)$', text_of('docs/OPERATING.md'), re.M)
    folder = os.path.join(WORK, 'root')
    built = 'dist/caster-x86_64-linux'
    if not os.path.exists(built):
        line = replaced(line, [(built, os.environ['CASTER'])])
    passes('sh', '-euc', line, env=dict(os.environ, DESTDIR=folder))
    found = sorted(os.path.relpath(os.path.join(at, name), folder)
                   for at, _, names in os.walk(folder) for name in names)
    wanted = sorted('etc/systemd/system/' + name for name in os.listdir('dist')
                    if name.endswith(('.service', '.socket', '.timer')))
    wanted += ['usr/local/bin/caster' + name for name in ('', '-bill', '-keep-metrics', '-lines', '-run', '-who')]
    wanted += ['usr/local/bin/draw-report']
    wanted += sorted('usr/local/lib/caster/' + os.path.relpath(name, 'dist') for name in glob.glob('dist/lines/*.py'))
    wanted += ['usr/local/share/doc/caster/' + name
               for name in ('caster-rules.yml', 'caster.conf', 'caster.toml', 'nginx-page.conf', 'two-workers.toml')]
    wanted += ['usr/local/share/man/man1/caster.1']
    if found != wanted:
        raise Wrong('installed: %s' % found)
    said = passes(folder + '/usr/local/bin/caster', 'check', 'examples/caster.toml')
    if said != b'ok\n':
        raise Wrong('check: %s' % show(said))
    for name in ('caster-who', 'caster-bill', 'caster-keep-metrics', 'draw-report'):
        for link in (name, 'caster-lines ' + name.replace('keep-', '').replace('draw-report', 'caster-draw')[7:]):
            done = run(*(folder + '/usr/local/bin/' + link).split(' '), input=b'hello\n')
            if done.returncode != 1 or not done.stderr.startswith(name.encode() + b': none of 1 line'):
                raise Wrong('%s: status %d, %s' % (link, done.returncode, show(done.stderr)))


def symbols():
    """The program in dist/ takes no symbol of a glibc later than README names."""
    need('objdump')
    if not os.path.exists('dist/caster-x86_64-linux'):
        raise Missing('dist/caster-x86_64-linux')
    table = passes('objdump', '-T', 'dist/caster-x86_64-linux').decode()
    versions = [tuple(map(int, one.split('.'))) for one in re.findall(r'GLIBC_([0-9.]+)', table)]
    named, = re.findall(r'glibc ([0-9.]+) or later', text_of('README.md'))
    if not versions or max(versions) != tuple(map(int, named.split('.'))):
        raise Wrong('README names %s, and the program takes %s' % (named, sorted(set(versions))))


# ---- recipes

def secret_client(port):
    """A client that speaks TLS."""
    client = Client(port)
    context = ssl.create_default_context()
    context.check_hostname, context.verify_mode = False, ssl.CERT_NONE
    client.socket = context.wrap_socket(client.socket)
    return client


def base_again(port, mount):
    """A base that tries until the claim before it has ended."""
    until = time.monotonic() + PATIENCE
    while True:
        base = Client(port).send(source_2(mount, 'sesame'))
        while len(base.came) < len(SOURCE_2_OK) and base.receive():
            pass
        if base.came == SOURCE_2_OK:
            return base
        if time.monotonic() > until:
            raise Wrong('the claim is kept: %s' % show(base.came))
        time.sleep(0.05)


def vanished_base(sources, rovers):
    """A rover goes on over TLS while a base falls silent, is cut off, and comes back."""
    rover = secret_client(rovers).send(rover_1('ALPHA')).expect(ICY)
    base = Client(sources).send(source_1('ALPHA', 'sesame')).expect(ICY)
    base.send(A)
    rover.expect(A)
    Client(sources).send(source_1('ALPHA', 'sesame')).expect(TAKEN_1)
    base.expect_end()
    base = base_again(sources, 'ALPHA').send(B)
    rover.expect(B)
    base.close()
    rover.close()


def stranger(port, data=b''):
    """A connection of another address, 127.0.0.2, that sends this and no more; none where it is cut off by then."""
    try:
        one = socket.create_connection(('127.0.0.1', port), PATIENCE, ('127.0.0.2', 0))
        one.sendall(data)
        return one
    except (ConnectionResetError, BrokenPipeError):
        return None


def has_ended(one):
    try:
        return one.recv(100) == b''
    except ConnectionResetError:
        return True


def is_still_there(one):
    if one is None:
        return False
    one.setblocking(False)
    try:
        return one.recv(100, socket.MSG_PEEK) != b''
    except BlockingIOError:
        return True
    except ConnectionResetError:
        return False
    finally:
        one.settimeout(PATIENCE)


def all_but_one(some):
    """Waits until one of these is cut off, and gives the others. Which one it is nobody says: a proxy of several threads
    may accept them in another order."""
    until = time.monotonic() + PATIENCE
    while all(is_still_there(one) for one in some):
        if time.monotonic() > until:
            raise Wrong('an address has more connections than it may')
        time.sleep(0.02)
    left = [one for one in some if is_still_there(one)]
    if len(left) != len(some) - 1:
        raise Wrong('%d of %d are left' % (len(left), len(some)))
    return left


def strangers(port, caster):
    """Twelve of one address, as many as it may have, that send nothing, half a head, or the hello of TLS, take no
    worker. One more is cut off, and an honest base and rover are served, while all twelve are still waited for."""
    halves = [b'', b'GET /AL', b'SOURCE ', b'GET /ALPHA HTTP/1.0\r\nUser-Agent: x\r\n', b'SOURCE sesame ALPHA\r\n',
              b'\x16\x03\x01\x02\x00\x01\x00\x01\xfc\x03\x03']
    some = all_but_one([stranger(port, half) for half in halves * 2 + [b'']])
    rover = Client(port).send(rover_1('ALPHA')).expect(ICY)
    base = Client(port).send(source_1('ALPHA', 'sesame')).expect(ICY).send(A)
    rover.expect(A)
    if not all(is_still_there(one) for one in some):
        raise Wrong('who sends no head was cut off before others were served')
    if connections_at(caster.port) != 2:
        raise Wrong('%d workers are taken' % connections_at(caster.port))
    for one in some:
        if not has_ended(one):
            raise Wrong('half a head was answered')
    for one in (base, rover):
        one.close()


def haproxy_one():
    """dist/haproxy-one.cfg with 3 seconds in place of a minute for bases, 2 for those who wait for a worker, 12
    connections of an address, and two workers for rovers. Bases find a worker when there is none for rovers, and
    strangers without a head take none."""
    need('haproxy', 'openssl')
    caster, plain, secret = serve(config(8, ['ALPHA', 'BRAVO']), 50), free_port(), free_port()
    start('haproxy', '-db', '-f', write('one.cfg', replaced(text_of('dist/haproxy-one.cfg'), [
        ('/etc/haproxy/caster.pem', certificate()), ('timeout tunnel 60s', 'timeout tunnel 3s'),
        ('timeout queue 10s', 'timeout queue 2s'),
        ('maxconn 56', 'maxconn 2'), ('gt 32', 'gt 12'),
        ('bind :2101', 'bind 127.0.0.1:%d' % plain), ('bind :2102', 'bind 127.0.0.1:%d' % secret),
        ('127.0.0.1:2110', '127.0.0.1:%d' % caster.port)])))
    silent = Client(plain)
    vanished_base(plain, secret)
    silent.expect_end()
    rovers = [Client(plain).send(rover_1('ALPHA')).expect(ICY) for _ in range(2)]
    Client(plain).send(rover_1('ALPHA')).expect_end()
    base = base_again(plain, 'ALPHA').send(A)
    secret_client(secret).send(source_1('BRAVO', 'sesame')).expect(ICY).close()
    waiting = Client(plain).send(rover_1('ALPHA'))
    rovers.pop().expect(A).close()
    waiting.expect(ICY)
    base.send(B)
    waiting.expect(B)
    for one in (base, waiting, *rovers):
        one.close()
    until = time.monotonic() + PATIENCE
    while connections_at(caster.port):
        if time.monotonic() > until:
            raise Wrong('connections are left')
        time.sleep(0.05)
    strangers(plain, caster)


def haproxy_two():
    """dist/haproxy-two.cfg: sources and rovers of both versions reach the caster that has their
    mountpoint; the sourcetable is the first caster's."""
    need('haproxy')
    front = free_port()
    first, second = serve(config(8, ['ALPHA', 'BRAVO']), 50), serve(config(8, ['CHARLIE', 'DELTA']), 50)
    start('haproxy', '-db', '-f', write('two.cfg', replaced(text_of('dist/haproxy-two.cfg'), [
        ('bind :2101', 'bind 127.0.0.1:%d' % front), ('127.0.0.1:2110', '127.0.0.1:%d' % first.port),
        ('127.0.0.1:2111', '127.0.0.1:%d' % second.port)])))
    for mount, direct in [('ALPHA', first), ('BRAVO', first), ('CHARLIE', second), ('DELTA', second)]:
        rover = Client(front).send(rover_1(mount)).expect(ICY)
        beside = direct.client().send(rover_2(mount)).expect(ROVER_2_OK)
        base = Client(front).send(source_1(mount, 'sesame')).expect(ICY).send(A)
        rover.expect(A)
        base.close()
        beside.expect(chunk(A))
        base = base_again(front, mount).send(B)
        rover.expect(B)
        base.close()
    table = Client(front).send(lines('GET / HTTP/1.0')).receive_until(b'ENDSOURCETABLE\r\n')
    if b'STR;ALPHA' not in table or b'STR;CHARLIE' in table:
        raise Wrong(show(table))


def connections_at(port):
    """How many connections of this port of loopback stand."""
    with open('/proc/net/tcp') as file:
        rows = [line.split() for line in file.readlines()[1:]]
    return sum(int(row[1].split(':')[1], 16) == port and row[3] == '01' for row in rows)


def haproxy_many():
    """dist/haproxy-many.cfg and dist/leaf.toml: a trunk and two leaves, the third is not there. What a base
    sends through the front comes to rovers at both leaves."""
    need('haproxy')
    mounts, front = ['ALPHA', 'BRAVO'], free_port()
    trunk = serve(config(12, mounts), 50)
    trunk.client().close()
    leaf = replaced(text_of('dist/leaf.toml'), [
        ('address = "192.0.2.1:2101"', 'address = "127.0.0.1:%d"' % trunk.port), ('workers = 256', 'workers = 8')])
    leaves = [serve(leaf, 50), serve(leaf, 50)]
    start('haproxy', '-db', '-f', write('many.cfg', replaced(text_of('dist/haproxy-many.cfg'), [
        ('bind :2101', 'bind 127.0.0.1:%d' % front), ('192.0.2.1:2101', '127.0.0.1:%d' % trunk.port),
        ('192.0.2.11:2101', '127.0.0.1:%d' % leaves[0].port),
        ('192.0.2.12:2101', '127.0.0.1:%d' % leaves[1].port),
        ('192.0.2.13:2101', '127.0.0.1:%d' % free_port())])))
    for leaf in leaves:
        leaf.client().send(lines('GET / HTTP/1.0')).receive_until(b'ENDSOURCETABLE\r\n')
    rovers = [Client(front).send(rover_1('ALPHA')).expect(ICY) for _ in range(6)]
    if not all(connections_at(leaf.port) for leaf in leaves):
        raise Wrong('a leaf has no rover')
    base = Client(front).send(source_1('ALPHA', 'sesame')).expect(ICY).send(A + B)
    for rover in rovers:
        rover.expect(A + B)
    base.close()


def haproxy_log():
    """The line of docs/OPERATING.md for haproxy's log: with it each line has the client's address, and that by
    which the caster knows the connection."""
    need('haproxy')
    form, = re.findall(r'^    (log-format .*)$', text_of('docs/OPERATING.md'), re.M)
    caster, front = Keeping(config(4), 0), free_port()
    processes.append(caster.process)
    with socket.socket(socket.AF_INET, socket.SOCK_DGRAM) as log:
        log.bind(('127.0.0.1', 0))
        log.settimeout(PATIENCE)
        start('haproxy', '-db', '-f', write('log.cfg', 'global\n    log 127.0.0.1:%d daemon\n'
              'defaults\n    mode tcp\n    log global\n    option tcplog\n    %s\n    timeout connect 5s\n'
              '    timeout client 1m\n    timeout server 1m\nlisten caster\n    bind 127.0.0.1:%d\n'
              '    server caster 127.0.0.1:%d\n' % (log.getsockname()[1], form, front, caster.port)))
        known = {}
        for mount in ('ALPHA', 'NONE'):
            one = Client(front).send(rover_2(mount)).expect(ROVER_2_OK if mount == 'ALPHA' else NO_MOUNT_2)
            known['%s:%d' % one.socket.getsockname()] = mount
            one.close()
        for _ in list(known):
            client, dialled = re.search(r': (\S+) (\S+) caster ', log.recv(2000).decode()).groups()
            link = next(line.split(' ')[0] for line in caster.lines() if line.endswith(' from ' + dialled))
            asked = next(line.split(' ')[4] for line in caster.lines() if line.startswith(link + ' asks '))
            if asked != known.pop(client):
                raise Wrong('%s asked for %s' % (client, asked))
    caster.ends()


def nginx():
    """dist/nginx-tls.conf with 3 seconds in place of a minute, and 3 connections of an address at each server."""
    need('nginx', 'openssl')
    caster, ports = serve(config(8), 50), [free_port() for _ in range(3)]
    path = write('nginx.conf', replaced(text_of('dist/nginx-tls.conf'), [
        ('/etc/nginx/caster.pem', certificate()), ('proxy_timeout 60s', 'proxy_timeout 3s'),
        ('127.0.0.1:2110', '127.0.0.1:%d' % caster.port), ('limit_conn addresses 32', 'limit_conn addresses 3')]
        + [('listen %d' % (2101 + at), 'listen 127.0.0.1:%d' % port) for at, port in enumerate(ports)]))
    tested = run('nginx', '-t', '-c', path)
    if tested.returncode and b'unknown directive "stream"' in tested.stderr:
        raise Missing('libnginx-mod-stream')
    start('nginx', '-c', path, '-g', 'daemon off; pid %s/nginx.pid; error_log stderr;' % WORK)
    vanished_base(ports[2], ports[1])
    rover = Client(ports[0]).send(rover_1('ALPHA')).expect(ICY)
    # Of another address: as many as it may have at this server, and one more.
    some = all_but_one([stranger(ports[0]) for _ in range(4)])
    for one in (rover, *some):
        one.close()


def redial():
    """dist/redial: a relay whose upstream has ended is dialled again once the caster is started again, and
    a caster that cannot dial ends with 6."""
    need('curl')
    trunk, port = serve(config(4), 50), free_port()
    trunk.client().close()
    relay = '[[relay]]\nmount = "ALPHA"\naddress = "127.0.0.1:%d"\nupstream = "ALPHA"\nprotocol = 1\n'
    path = write('relay.toml', config(4) + relay % trunk.port)
    words = ['dist/redial', 'http://127.0.0.1:%d/ALPHA' % port, '4', PROGRAM, 'serve', path,
             '127.0.0.1:%d' % port, '50']
    base = trunk.client().send(source_1('ALPHA', 'sesame')).expect(ICY)
    for _ in range(2):
        watched = start(*words)
        rover = Client(port).send(rover_1('ALPHA')).expect(ICY)
        time.sleep(0.5)
        for _ in range(8):
            base.send(A)
            rover.expect(A)
            time.sleep(0.4)
        if watched.poll() is not None:
            raise Wrong('it ended while frames came')
        if watched.wait(timeout=PATIENCE) != 75:
            raise Wrong('status %d' % watched.returncode)
        rover.expect_end()
    trunk.stop()
    if start(*words).wait(timeout=PATIENCE) != 6:
        raise Wrong('it dialled nobody')


def in_namespaces(script, name):
    """Runs this script of tests/dist in namespaces of its own; it prints nothing and ends with 0."""
    need('unshare', 'ip')
    front = ['unshare', '--mount', '--net', '--pid', '--fork', '--kill-child', '--mount-proc']
    if os.geteuid() or run(*front, 'true').returncode:
        raise Missing('namespaces')
    folder = os.path.join(WORK, name)
    os.mkdir(folder)
    done = subprocess.run(front + [sys.executable, '-B', 'tests/dist/' + script, folder], stdin=subprocess.DEVNULL,
                          stdout=subprocess.PIPE, stderr=subprocess.STDOUT, timeout=120)
    if done.returncode or done.stdout:
        raise Wrong('status %d: %s' % (done.returncode, done.stdout.decode(errors='replace')))


def silent_names():
    """A name server that never answers holds up no stop of caster-run: see silent_names.py."""
    in_namespaces('silent_names.py', 'silent-names')


# Those that take longest begin first.
CASES = packed.CASES + forms.CASES + webpage.CASES + [
    redial, haproxy_one, haproxy_two, haproxy_many, haproxy_log, nginx, silent_names]
for module in (linting, bills, tools, healthy, pages, positions, alarms):
    CASES += module.CASES
CASES += [manual, unit, installed, symbols]

# So many cases run side by side: most of them wait most of the time.
SIDE_BY_SIDE = 6
PASSED, FAILED, LACKING = 0, 1, 3


def tried(case):
    """Runs a case, and gives what came of it; what it wanted and is not there stands in the last line."""
    try:
        case()
        print('passed: %s' % case.__name__)
        return PASSED
    except Missing as program:
        print('left out: %s, for want of %s' % (case.__name__, program))
        return LACKING
    except Exception:
        print('FAILED %s' % case.__name__)
        traceback.print_exc(file=sys.stdout)
        return FAILED
    finally:
        for process in processes:
            if process.poll() is None:
                process.terminate()
                process.wait(timeout=PATIENCE)
        shutil.rmtree(WORK)


# What gives a command a network of its own, where that can be had: no case takes another one's port then.
OWN_NETWORK = ['unshare', '--net', 'sh', '-c', 'ip link set lo up && exec "$@"', 'sh']


class Trial:
    """A case in a process of its own."""

    def __init__(self, case, front):
        self.name, self.begun, self.output = case.__name__, time.monotonic(), tempfile.TemporaryFile('w+')
        self.process = subprocess.Popen([*front, sys.executable, '-B', __file__, self.name], stdin=subprocess.DEVNULL,
                                        stdout=self.output, stderr=subprocess.STDOUT)

    def said(self):
        self.output.seek(0)
        return self.output.read()


def side_by_side(cases):
    """Runs each case in a process of its own, some at a time; gives the trials."""
    waiting, running, done = list(cases), [], []
    has_own = shutil.which('unshare') and shutil.which('ip') and run(*OWN_NETWORK, 'true').returncode == 0
    front = OWN_NETWORK if has_own else []
    while waiting or running:
        while waiting and len(running) < SIDE_BY_SIDE:
            running.append(Trial(waiting.pop(0), front))
        for trial in [trial for trial in running if trial.process.poll() is not None]:
            running.remove(trial)
            done.append(trial)
            if '--times' in sys.argv:
                print('%5.1f s %s' % (time.monotonic() - trial.begun, trial.name), flush=True)
            if trial.process.returncode:
                print(trial.said().rstrip(), flush=True)
        time.sleep(0.02)
    return done


def lacking(trials):
    """What is not there, and whether that is a failure: where CASES_MAY_LACK is set, what it does not name."""
    names = sorted({name for trial in trials if trial.process.returncode == LACKING
                    for name in trial.said().rsplit('for want of ', 1)[1].split()})
    if names:
        print('dist: not there: %s' % ' '.join(names))
    allowed = os.environ.get('CASES_MAY_LACK')
    wrong = [] if allowed is None else [name for name in names if name not in allowed.split()]
    if wrong:
        print('FAILED dist: CASES_MAY_LACK does not name %s' % ' '.join(wrong))
    return wrong


def main():
    os.environ['PATH'] += ':/usr/sbin:/sbin'
    named = [word for word in sys.argv[1:] if word != '--times']
    cases = [case for case in CASES if not named or case.__name__ in named]
    if set(named) - {case.__name__ for case in cases}:
        print('no such case: %s' % ' '.join(set(named) - {case.__name__ for case in cases}))
        return 1
    if len(named) == 1:
        return tried(cases[0])
    trials = side_by_side(cases)
    counts = [sum(trial.process.returncode == status for trial in trials) for status in (PASSED, LACKING)]
    wrong = lacking(trials)
    print('dist: %d passed, %d failed, %d left out' % (counts[0], len(trials) - sum(counts), counts[1]))
    return 1 if wrong or sum(counts) < len(trials) else 0


if __name__ == '__main__':
    sys.exit(main())
