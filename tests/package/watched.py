"""What looks at a caster under a systemd of its own: the page, the question each minute, and the answer to haproxy."""
import json
import os
import socket
import stat

import healthy
from life import *

# The timer asks once a minute, and a busy machine takes its time.
A_MINUTE_AND_MORE = 150

WATCHING = ['caster-page.service', 'caster-status.timer', 'caster-health.socket']


def waits_for_state(root, is_so):
    """The page's state, once it is so."""
    until, state = time.monotonic() + A_MINUTE_AND_MORE, None
    while time.monotonic() < until:
        if root.has('/run/caster-page/state.json'):
            state = json.loads(root.text('/run/caster-page/state.json'))
            if is_so(state):
                return state
        time.sleep(0.2)
    raise Wrong('the state is %s; %s' % (state, root.call('journalctl', '--no-pager', '-n', '40').stdout.decode()))


def health():
    """What the socket of the unit answers."""
    with socket.create_connection(('127.0.0.1', 2112), PATIENCE) as one:
        return b''.join(iter(lambda: one.recv(100), b'')).decode()


def haproxy_asks(root):
    """haproxy by dist/haproxy-many.cfg, where this caster is the only leaf."""
    root.put('/etc/haproxy/haproxy.cfg', replaced(text_of('dist/haproxy-many.cfg'), [
        ('global\n', 'global\n    stats socket /run/h.sock\n'), ('192.0.2.1:2101', '127.0.0.1:2199'),
        ('bind :2101', 'bind :2100'), ('192.0.2.11:2101', '127.0.0.1:2101'), ('192.0.2.12:2101', '127.0.0.1:2198 disabled'),
        ('192.0.2.13:2101', '127.0.0.1:2198 disabled')]))
    root.does('systemctl', 'restart', 'haproxy')


def rights(root):
    """Who serves the page may read it, and nobody else; its program has a user of its own."""
    about, file = os.stat(root.path('/run/caster-page')), os.stat(root.path('/run/caster-page/index.html'))
    server = int(re.search('^www-data:x:([0-9]+):', root.text('/etc/group'), re.M)[1])
    if stat.S_IMODE(about.st_mode) != 0o750 or about.st_gid != server or stat.S_IMODE(file.st_mode) != 0o644:
        raise Wrong('the folder has %o of %d, the page %o' % (about.st_mode, about.st_gid, file.st_mode))
    if not 61184 <= about.st_uid <= 65519:
        raise Wrong('its user is %d' % about.st_uid)


def page_and_health():
    """docs/OPERATING.md, "A page": the units as they are installed. Within a minute the page has what the timer asked
    and who is on, before and behind a restart of the caster. The socket says up, and down behind a stop, to us and to
    haproxy. None of them says anything to the journal by itself."""
    with Root() as root:
        install(root)
        fill_in(root, [value.replace('of its base', 'of-its-base') for value in FILLED])
        root.does('editor', '/etc/caster/caster.toml')
        root.does('systemctl', 'enable', '--now', 'caster')
        root.does('sh', '-ec', block_of('### A page'))
        haproxy_asks(root)
        with root.network():
            for run in range(2):
                base = Client(2101).send(source_1('ALPHA', 'of-its-base')).expect(ICY).send(A)
                rover = Client(2101).send(rover_1('ALPHA', ROVER)).expect(ICY)
                wanted = sorted('127.0.0.1:%d' % one.socket.getsockname()[1] for one in (base, rover))
                state = waits_for_state(root, lambda state: state['caster']['answered'] and wanted == sorted(
                    row['address'] for row in state['connections']) and state['mounts'][0]['published'])
                if state['mounts'][0]['published'] != 1 or state['caster']['busy'] != 2:
                    raise Wrong('the state is %s' % state)
                if health() != 'up\n':
                    raise Wrong('the socket says %r' % health())
                healthy.waits_until(root.path('/run/h.sock'), [True])
                if run == 0:
                    rights(root)
                    root.does('systemctl', 'restart', 'caster')
                    base.expect_end()
            root.does('systemctl', 'stop', 'caster')
            waits_for_state(root, lambda state: not state['caster']['is_serving'])
            if health() != 'down #stopped\n':
                raise Wrong('the socket says %r' % health())
            healthy.waits_until(root.path('/run/h.sock'), [False])
        active = [root.property(unit, 'ActiveState') for unit in WATCHING]
        if active != ['active', 'inactive', 'active']:
            raise Wrong('they are %s' % active)
        said = root.does('journalctl', '--no-pager', '-o', 'cat', '-u', 'caster-status', '-u', 'caster-health@*')
        if said.strip() not in ('', '-- No entries --'):
            raise Wrong('they say: %s' % said)


CASES = [page_and_health]
