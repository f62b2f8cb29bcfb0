"""The life of the package in a root with a systemd of its own: installed, upgraded under a caster that runs, removed,
installed again, purged."""
import os
import re

from for_good import *
from root import *

UNITS = ['caster.service', 'caster-limit.service', 'caster-page.service', 'caster-status.timer', 'caster-health.socket']
LINK = '/etc/systemd/system/multi-user.target.wants/caster.service'


def install(root, version=None):
    take_clone(root, version)
    root.does('dist/package', '.')
    root.does('apt-get', 'install', '-y', './viewlemon_%s_amd64.deb' % (version or text_of('VERSION').strip()))


def nothing_begins(root, users):
    """Nothing was enabled or started, and there is no user more. What dpkg installed is as it was packed."""
    for unit in UNITS:
        if root.property(unit, 'ActiveState') != 'inactive':
            raise Wrong('%s was started' % unit)
        if root.call('systemctl', 'is-enabled', unit).stdout != b'disabled\n':
            raise Wrong('%s is enabled' % unit)
    if root.text('/etc/passwd') != users:
        raise Wrong('there are other users')
    if root.does('dpkg', '--verify', 'viewlemon'):
        raise Wrong('dpkg --verify: %s' % root.does('dpkg', '--verify', 'viewlemon'))
    about = os.stat(root.path('/etc/caster/caster.toml'))
    if about.st_mode & 0o777 != 0o600 or about.st_uid or about.st_gid:
        raise Wrong('the configuration has mode %o' % about.st_mode)
    for page in ('caster', 'caster-run', 'caster.toml'):
        if 'viewlemon' not in root.does('dpkg', '-S', root.does('man', '-w', page).strip()):
            raise Wrong('no page %s' % page)


def stays_down_until_filled_in(root):
    """The service over the configuration as it was installed ends with 2, and is not started again."""
    root.call('systemctl', 'start', 'caster')
    root.wait_for_line('configuration: wrong mount 1 name')
    time.sleep(7)
    state = [root.property('caster', name) for name in ('ActiveState', 'ExecMainStatus', 'NRestarts')]
    if state != ['failed', '2', '0']:
        raise Wrong('the service is %s' % state)
    root.does('systemctl', 'reset-failed', 'caster')


def upgraded_under_way(root, clients):
    """Another version is installed while a base sends to a rover: they go on by the same process, and after a restart
    by the new file. What was filled in is as it was."""
    base, rover = clients
    filled_in, before = root.text('/etc/caster/caster.toml'), program_of(root)
    install(root, '1.0.1')
    if root.does('dpkg-query', '-W', '-f', '${Version}', 'viewlemon') != '1.0.1':
        raise Wrong('the version is the old one')
    if program_of(root) != (before[0], before[1] + ' (deleted)') or root.property('caster', 'NRestarts') != '0':
        raise Wrong('another process: %s' % (program_of(root),))
    if root.property('caster', 'NeedDaemonReload') != 'no' or root.text('/etc/caster/caster.toml') != filled_in:
        raise Wrong('another unit or configuration')
    base.send(B)
    rover.expect(B)
    root.does('systemctl', 'restart', 'caster')
    base.expect_end()
    rover.expect_end()
    root.wait_for_line('total 1 2 0')
    if program_of(root)[1] != '/usr/bin/caster':
        raise Wrong('the program is %s' % program_of(root)[1])


def life_of_the_package():
    """Installed: nothing begins. Upgraded: who is connected notices nothing until the restart. Removed: it stops with
    its totals, and what was filled in stays. Installed again: it is enabled as it was. Purged: nothing of it is left,
    but for what the operator made."""
    with Root() as root:
        users = root.text('/etc/passwd')
        install(root)
        nothing_begins(root, users)
        stays_down_until_filled_in(root)
        fill_in(root, FILLED)
        root.does('editor', '/etc/caster/caster.toml')
        root.put('/etc/systemd/system/caster.service.d/local.conf', '[Service]\nEnvironment=QUIET=60\n')
        root.does('systemctl', 'enable', '--now', 'caster')
        with root.network():
            rover = Client(2101).send(rover_1('ALPHA', ROVER)).expect(ICY)
            base = Client(2101).send(lines('POST /ALPHA HTTP/1.1', 'Host: caster', 'Ntrip-Version: Ntrip/2.0',
                                           'User-Agent: NTRIP test', basic('x', 'of its base'))).expect(SOURCE_2_OK)
            base.send(A)
            rover.expect(A)
            upgraded_under_way(root, (base, rover))
            rover = Client(2101).send(rover_1('ALPHA', ROVER)).expect(ICY)
            root.does('apt-get', 'remove', '-y', 'viewlemon')
            rover.expect_end()
        root.wait_for_line('total 1 0 0')
        if root.has('/usr/bin/caster') or 'of its base' not in root.text('/etc/caster/caster.toml'):
            raise Wrong('not removed, or without the configuration')
        root.does('apt-get', 'install', '-y', './viewlemon_1.0.1_amd64.deb')
        if root.call('systemctl', 'is-enabled', 'caster').stdout != b'enabled\n' \
                or root.property('caster', 'ActiveState') != 'inactive':
            raise Wrong('it is not enabled as it was, or was started')
        listed = root.does('dpkg', '-L', 'viewlemon').split()
        root.does('apt-get', 'purge', '-y', 'viewlemon')
        left = [name for name in listed + [LINK] if root.has(name) and not os.path.isdir(root.path(name))]
        if left or root.has('/etc/caster') or root.has('/usr/share/doc/viewlemon'):
            raise Wrong('left: %s' % left)
        if not root.has('/etc/systemd/system/caster.service.d/local.conf'):
            raise Wrong('what the operator made is gone')


def block_of(front, page='docs/OPERATING.md'):
    """The indented lines behind this text of the page, up to the first one that is not indented."""
    behind = text_of(page).split(front)[1]
    return re.search(r'\n\n((?: +\S.*\n)+)\n', behind)[1]


def from_by_hand_to_the_package():
    """docs/OPERATING.md, "Installing", word for word: installed by hand and served, then by the package, at whose
    question Enter keeps what was filled in; the units and programs of before are taken away, and the service is the
    package's."""
    with Root() as root:
        take_clone(root)
        root.does('sh', '-ec', block_of('**By hand**, on other systems, as root in the repository:'))
        root.does('sh', '-ec', block_of('empty, or a folder in which to look at it first. Then'))
        fill_in(root, FILLED)
        root.does('sh', '-ec', block_of('## First configuration'))
        root.does('sh', '-ec', block_of('## The service').replace('journalctl', 'journalctl --no-pager'))
        if program_of(root)[1] != '/usr/local/bin/caster':
            raise Wrong('the program is %s' % program_of(root)[1])
        filled_in = root.text('/etc/caster/caster.toml')
        # Enter is the answer to each question: to go on, and to keep the file that is there.
        said = root.does('sh', '-ec', block_of('**On Debian 12** there is a package. As root, in the repository:'),
                         input=b'\n\n')
        if 'caster.toml' not in said or root.text('/etc/caster/caster.toml') != filled_in:
            raise Wrong('the configuration is another: %s' % said[-500:])
        root.does('sh', '-ec', block_of('**Who installed by hand before**'))
        if program_of(root)[1] != '/usr/bin/caster' \
                or root.property('caster', 'FragmentPath') != '/lib/systemd/system/caster.service':
            raise Wrong('the program is %s' % program_of(root)[1])
        if root.call('systemctl', 'is-enabled', 'caster').stdout != b'enabled\n':
            raise Wrong('it is not enabled')
        with root.network():
            Client(2101).send(rover_1('ALPHA', ROVER)).expect(ICY).close()


CASES = [life_of_the_package, from_by_hand_to_the_package]
