"""Cases of `caster-lines lint`: the keys that it knows are those of docs/FORMATS.md and of `caster check`, and what it
names of a configuration."""
import re
import sys

from common import *

sys.path[:0] = ['dist']
from lines.lint import KEYS

WHOLE = '''version = 2
workers = 4
hysteresis = 10
records = []
[[mount]]
name = "ALPHA"
password = "sesame"
ring = 64
latitude = 481173000
longitude = 115166666
identifier = "a"
details = ""
carrier = "2"
navigation = "GPS"
network = ""
country = ""
generator = ""
bitrate = 0
misc = ""
[[near]]
name = "NEAR"
bases = ["ALPHA"]
[[group]]
name = "open"
mounts = ["ALPHA"]
types = "all"
[[group.filter]]
mount = "ALPHA"
types = [1005]
[[account]]
user = "rover1"
password = "secret"
group = "open"
cap = 2
[[relay]]
mount = "ALPHA"
address = "127.0.0.1:2111"
upstream = "ALPHA"
protocol = 2
user = "leaf"
password = "secret"
[anonymous]
group = "open"
cap = 5
'''


def lint(*words):
    """What it says of these files, a line each, and its status."""
    need_toml()
    done = run('dist/caster-lines', 'lint', *words)
    if done.stderr:
        raise Wrong('%s: %s' % (words, show(done.stderr)))
    return done.stdout.decode().splitlines(), done.returncode


def need_toml():
    if sys.version_info < (3, 11):
        raise Missing('Python 3.11')


def names(text, *wanted, words=()):
    """Of this file it says exactly these, in their order: the line and a part of what is said."""
    path = write('lint.toml', text)
    said, status = lint(path, *words)
    want = ['%s:%s ' % (path, '' if line is None else '%d:' % line) for line, _ in wanted]
    if len(said) != len(wanted) or status != bool(wanted) or any(
            not got.startswith(front) or part not in got for got, front, (_, part) in zip(said, want, wanted)):
        raise Wrong('status %d, it says\n%s\nand is to say\n%s' % (status, '\n'.join(said), wanted))


def checked(text):
    return run(PROGRAM, 'check', write('check.toml', text)).stdout.decode().strip()


def keys_of_formats():
    """The keys that are known are those of the tables of docs/FORMATS.md."""
    section = text_of('docs/FORMATS.md').split('\n## Configuration\n')[1].split('\n## ')[0]
    parts = re.split(r'\n\*\*`\[+([a-z]+)\]+`\*\*', section)
    found = {'': parts[0]}
    found.update(zip(parts[1::2], parts[2::2]))
    for table, text in found.items():
        keys = [key for row in re.findall(r'^\| [0-9][0-9 to]* \| (.*?) \|', text, re.M)
                for key in re.findall('`([a-z]+)`', row)]
        if table == 'anonymous':
            keys = re.findall(r'`(\w+)` \([0-9]\)', text)
        if tuple(keys) != KEYS[table]:
            raise Wrong('%s: FORMATS has %s' % (table, keys))
    if KEYS['group.filter'] != tuple(re.findall(r'`(\w+)` names|`(\w+)` is as above', section)[at][at] for at in (0, 1)):
        raise Wrong('a filter')


def keys_of_check():
    """`caster check` looks at exactly the keys that are known: at one of a wrong type, and at a table of a wrong type, it
    is not ok; a key beside them is ok, and is named here with its line."""
    if checked(WHOLE) != 'ok':
        raise Wrong(checked(WHOLE))
    names(WHOLE)
    heads = {'': '', 'mount': '[[mount]]\n', 'near': '[[near]]\n', 'group': '[[group]]\n', 'anonymous': '[anonymous]\n',
             'group.filter': '[[group.filter]]\n', 'account': '[[account]]\n', 'relay': '[[relay]]\n'}
    for table, head in heads.items():
        at = WHOLE.index(head) + len(head)
        front, behind = WHOLE[:at], WHOLE[at:]
        for key in KEYS[table]:
            if key in KEYS and table == '':
                wrong = re.sub(r'(?ms)^\[+%s[\].].*?(?=^\[(?!\[?%s\.)|\Z)' % (key, key), '', WHOLE)
                wrong = '%s = 1979-05-27\n' % key + wrong
            elif table == 'group' and key == 'filter':
                wrong = replaced(WHOLE, [('[[group.filter]]\nmount = "ALPHA"\ntypes = [1005]\n', 'filter = 1979-05-27\n')])
            else:
                part = behind.split('\n[')[0] + '\n'
                line = re.search('(?m)^%s = .*$' % key, part)
                wrong = front + part.replace(line[0], '%s = 1979-05-27' % key) + behind[len(part):]
            said = checked(wrong)
            if not said.startswith('configuration: wrong') or key not in said and table != 'group.filter':
                raise Wrong('%s %s: %s' % (table, key, said))
        beside = front + 'zzz = 1\n' + behind
        if checked(beside) != 'ok':
            raise Wrong('%s: %s' % (table, checked(beside)))
        names(beside, (front.count('\n') + 1, '`zzz` is passed over'))


def passed_over():
    """What `caster check` passes over is named, with its line and the nearest right key."""
    for old, new, line, said in [
            ('[[group.filter]]', '[[group.filters]]', 27, 'group 1: `filters` is passed over: no such key, the nearest is '
             '`filter`'),
            ('[anonymous]', '[anonymus]', 42, '`anonymus` is passed over: no such key, the nearest is `anonymous`'),
            ('workers = 4', 'worker = 4', 2, 'the nearest is `workers`'),
            ('bitrate = 0', 'bit-rate = 0', 18, 'mount 1: `bit-rate` is passed over: no such key, the nearest is `bitrate`'),
            ('user = "leaf"', 'username = "leaf"', 40, 'relay 1: `username`')]:
        text = replaced(WHOLE, [(old, new)])
        if checked(text) != 'ok':
            raise Wrong('%s: %s' % (new, checked(text)))
        names(text, (line, said))
    # Twice: no line.
    names(WHOLE.replace('cap = ', 'cap = 1\ncaps = '), (None, 'account 1: `caps`'), (None, 'anonymous: `caps`'))


def version_1():
    text = replaced(WHOLE, [('version = 2', 'version = 1')])
    names(text, (27, '`filter` is of version 2'))
    more = ''.join('[[group]]\nname = "g%d"\nmounts = []\ntypes = "all"\n' % at for at in range(16))
    names(replaced(text, [('[[group.filter]]\nmount = "ALPHA"\ntypes = [1005]\n', more)]), (None, '17 groups'))


def values():
    """Relays without a port, passwords of sources with a space, positions in degrees, more mountpoints than a leaf can
    relay; `caster check` says ok to each."""
    alone = replaced(WHOLE, [(WHOLE[WHOLE.index('[[relay]]'):WHOLE.index('[anonymous]')], '')])
    for text, *wanted in [
            (WHOLE.replace('127.0.0.1:2111', 'caster.example.org'), (37, 'relay 1: `caster.example.org` has no port')),
            (WHOLE.replace('127.0.0.1:2111', '[::1]:2111'),), (WHOLE.replace('127.0.0.1:2111', '::1'), (37, 'no port')),
            (alone.replace('"sesame"', '"open sesame"'), (7, 'mount 1: no base of NTRIP 1.0')),
            (WHOLE.replace('"sesame"', '"open sesame"'),),
            (WHOLE.replace('481173000', '48').replace('115166666', '-11'), (9, '`latitude = 48` looks like degrees'),
             (10, '`longitude = -11` looks like degrees, and is in units of 10^-7 degree: -110000000')),
            (WHOLE.replace('481173000', '0').replace('115166666', '181'),),
            (WHOLE.replace('[[near]]', ''.join('[[mount]]\nname = "M%d"\npassword = "x"\nring = 1\nlatitude = 0\n'
             'longitude = 0\n' % at for at in range(16)) + '[[near]]'), (None, '17 mountpoints'))]:
        if checked(text) != 'ok':
            raise Wrong('%s: %s' % (wanted, checked(text)))
        names(text, *wanted)
    said, _ = lint('dist/leaf.toml', 'examples/caster.toml', 'examples/two-workers.toml')
    if said:
        raise Wrong('of our own files it says %s' % said)


def faults():
    """The line of what is no TOML; a file that is to be filled in, and one that is not there."""
    names(WHOLE.replace('ring = 64', 'ring = = 64'), (8, 'no TOML'))
    names(WHOLE.replace('ring = 64', 'ring = 64\nring = 65'), (9, 'no TOML'))
    names(WHOLE + 'text = "', (45, 'no TOML'))
    with open(WORK + '/bytes.toml', 'wb') as file:
        file.write(WHOLE.replace('sesame', '\xe4').encode('latin-1'))
    said, status = lint(WORK + '/bytes.toml')
    if status != 1 or not said[0].startswith(WORK + '/bytes.toml:7: no TOML'):
        raise Wrong(said)
    if lint('dist/caster.toml') != ([], 0):
        raise Wrong('the file to be filled in')
    for words in ([WORK + '/not-there.toml'], [], ['--listen', 'a:1'], [WORK + '/bytes.toml', '--listen', 'a']):
        if run('dist/caster-lines', 'lint', *words).returncode != 2:
            raise Wrong('%s' % words)


def rings():
    """A relay to the caster's own address, and relays of two and of three casters that go round."""
    own = (37, 'relay 1: at `127.0.0.1:2111` listens this caster itself')
    for listen in ('127.0.0.1:2111', '0.0.0.0:2111', '[::]:2111'):
        names(WHOLE, own, words=('--listen', listen))
    for listen in ('127.0.0.1:2110', '127.0.0.2:2111'):
        names(WHOLE, words=('--listen', listen))
    names(WHOLE.replace('127.0.0.1:2111', '192.0.2.1:2111'), words=('--listen', '0.0.0.0:2111'))
    paths = [write('ring-%d.toml' % at, WHOLE.replace('127.0.0.1:2111', '127.0.0.1:%d' % (2201 + (at + 1) % 3)))
             for at in range(3)]
    listens = ['127.0.0.1:%d' % (2201 + at) for at in range(3)]
    words = [word for pair in zip(paths, ['--listen'] * 3, listens) for word in pair]
    said, status = lint(*words)
    if status != 1 or len(said) != 3 or not all('a ring: `ALPHA` comes from `ALPHA` of ' in one for one in said):
        raise Wrong('\n'.join(said))
    if lint(*words[:6]) != ([], 0):
        raise Wrong('no ring of two')
    back = write('back.toml', WHOLE.replace('127.0.0.1:2111', '127.0.0.1:2201'))
    said, _ = lint(paths[0], '--listen', listens[0], back, '--listen', listens[1])
    if len(said) != 2 or not said[0].startswith('%s: relay 1: a ring: `ALPHA` comes from `ALPHA` of %s' % (paths[0], back)):
        raise Wrong('\n'.join(said))


CASES = [keys_of_formats, keys_of_check, passed_over, version_1, values, faults, rings]
