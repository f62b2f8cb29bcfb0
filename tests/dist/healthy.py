"""Cases of what haproxy is told of a caster's health, without a worker of it."""
import os
import re
import socket
import time

from common import *


def tells(folder, age, *more):
    """The page of a caster whose last answer to `status` came so many seconds ago, and these lines behind it."""
    front = time.strftime('%Y-%m-%dT%H:%M:%S+0000', time.gmtime(time.time() - age)) + ' field caster[7]: '
    lines = ['now mount ALPHA 0 -', 'now workers 0 8', 'now end', *more]
    os.makedirs(folder, exist_ok=True)
    passes('dist/caster-lines', 'page', folder, write('health.lines', ''.join(front + line + '\n' for line in lines)))


def answers():
    """`health` says up while the last line is younger than two minutes, and else down, and why; so it does of a caster
    that stopped, of no state, and of one that is none. The age that it takes may be another."""
    folder = os.path.join(WORK, 'health')
    stopped = ['mount ALPHA 0 0', 'total 0 0 0']
    for age, more, words, wanted in [(0, [], [], 'up'), (100, [], [], 'up'),
                                     (121, [], [], 'down #no line for 1[2-9][0-9] s'), (100, [], ['60'], 'down #no line for 1[0-9]{2} s'), (500, [], ['900'], 'up'),
                                     (0, stopped, [], 'down #stopped')]:
        tells(folder, age, *more)
        said = passes('dist/caster-lines', 'health', folder, *words).decode()
        if not re.fullmatch(wanted + '\n', said):
            raise Wrong('%d s, %s: %r' % (age, more, said))
    for text in ('', '{', '[]', '{"at": "x"}', '{"at": 1}', '{"at": 1, "caster": 2}'):
        with open(folder + '/state.json', 'w') as file:
            file.write(text)
        if passes('dist/caster-lines', 'health', folder) != b'down #no state\n':
            raise Wrong('it says something else of %r' % text)
    if passes('dist/caster-lines', 'health', WORK + '/no-folder') != b'down #no state\n':
        raise Wrong('it says something else of nothing')
    for words in ([], [folder, '0'], [folder, 'x'], [folder, '1', '2']):
        if run('dist/caster-lines', 'health', *words).returncode != 2:
            raise Wrong('it takes %s' % words)


class Leaf:
    """A caster, the folder of its page, and what answers for it: the program of the unit, as its socket starts it."""

    def __init__(self, name):
        self.caster, self.agent, self.folder = Keeping(config(8), 0), free_port(), os.path.join(WORK, name)
        processes.append(self.caster.process)
        program, words = re.search(r'^ExecStart=/usr/local/bin/(\S+) (.*)$', text_of('dist/caster-health@.service'),
                                   re.M).groups()
        tells(self.folder, 0)
        start('systemd-socket-activate', '--accept', '--inetd', '-l', '127.0.0.1:%d' % self.agent,
              os.path.abspath('dist/' + program), *words.replace('/run/caster-page', self.folder).split(' '))

    def came(self):
        """How many connections came to it."""
        return sum(' from ' in line for line in self.caster.lines())


def statistics(path):
    """The rows of haproxy's own statistics, by names; none while it does not answer yet."""
    try:
        with socket.socket(socket.AF_UNIX) as one:
            one.connect(path)
            one.sendall(b'show stat\n')
            text = b''.join(iter(lambda: one.recv(65536), b'')).decode()
    except OSError:
        return []
    names, *rows = [line.split(',') for line in text.splitlines() if line]
    return [dict(zip(names, row)) for row in rows]


def waits_until(path, wanted):
    """haproxy counts the leaves so, from the first one on, by its own statistics and the answers of agents."""
    until = time.monotonic() + 2 * PATIENCE
    while True:
        leaves = [row for row in statistics(path) if row['# pxname'] == 'leaves' and row['svname'].startswith('leaf')]
        got = [None if row['agent_status'] not in ('L7OK', 'L7STS') else not row['status'].startswith('DOWN')
               for row in leaves[:len(wanted)]]
        if got == wanted:
            return
        if time.monotonic() > until:
            raise Wrong('haproxy has %s, wanted %s' % (got, wanted))
        time.sleep(0.05)


def rovers_come(front, leaves, wanted):
    """Four rovers come through the front, one behind the other: so many to each leaf."""
    before, rovers = [leaf.came() for leaf in leaves], []
    for _ in range(4):
        rovers.append(Client(front).send(rover_1('ALPHA')).expect(ICY))
    got = [leaf.came() - count for leaf, count in zip(leaves, before)]
    if got != wanted:
        raise Wrong('%s came to the leaves, wanted %s' % (got, wanted))
    for rover in rovers:
        rover.close()
    until = time.monotonic() + PATIENCE
    while not all(leaf.caster.is_left() for leaf in leaves) and time.monotonic() < until:
        time.sleep(0.02)


def haproxy_health():
    """dist/haproxy-many.cfg asks each leaf for its health, by the program of caster-health@.service: a leaf whose last
    line is older than two minutes, or that stopped, is passed over until it is well again. No question comes to a
    caster."""
    need('haproxy', 'systemd-socket-activate')
    leaves, front, admin = [Leaf('leaf1'), Leaf('leaf2')], free_port(), os.path.join(WORK, 'admin')
    changes = [('bind :2101', 'bind 127.0.0.1:%d' % front), ('global\n', 'global\n    stats socket %s\n' % admin),
               ('agent-inter 5s', 'agent-inter 3s'), ('192.0.2.1:2101', '127.0.0.1:%d' % free_port()),
               ('192.0.2.13:2101', '127.0.0.1:%d disabled' % free_port())]
    changes += [('192.0.2.1%d:2101 maxconn 256' % number, '127.0.0.1:%d maxconn 256 agent-port %d'
                 % (leaf.caster.port, leaf.agent)) for number, leaf in enumerate(leaves, 1)]
    start('haproxy', '-db', '-f', write('health.cfg', replaced(text_of('dist/haproxy-many.cfg'), changes)))
    Client(front).close()
    waits_until(admin, [True, True])
    rovers_come(front, leaves, [2, 2])
    tells(leaves[1].folder, 130)
    waits_until(admin, [True, False])
    rovers_come(front, leaves, [4, 0])
    tells(leaves[1].folder, 60)
    waits_until(admin, [True, True])
    rovers_come(front, leaves, [2, 2])
    tells(leaves[0].folder, 0, 'mount ALPHA 0 0', 'total 0 0 0')
    waits_until(admin, [False, True])
    rovers_come(front, leaves, [0, 4])
    os.unlink(leaves[1].folder + '/state.json')
    waits_until(admin, [False, False])
    Client(front).send(rover_1('ALPHA')).expect_end()
    if [leaf.came() for leaf in leaves] != [8, 8]:
        raise Wrong('somebody else came: %s' % [leaf.came() for leaf in leaves])


CASES = [answers, haproxy_health]
