"""Cases of the package. Each is a function whose text says what it tries; it is wrong where it raises something, and
left out where it raises Missing."""
import hashlib
import os
import re
import shutil
import subprocess
import sys
import traceback

sys.path[:0] = ['tests/serve', 'tests/dist']
import container
import for_good
import leaves
import life
import rotation
import watched
from common import *
from packed import lintian, package

PAGES = ['caster.1', 'caster-run.1', 'caster-who.1', 'caster-bill.1', 'caster-keep-metrics.1', 'draw-report.1',
         'caster-redial.1', 'caster-lines.1', 'caster.toml.5']


def unpacked(deb):
    folder = os.path.join(WORK, 'unpacked')
    shutil.rmtree(folder, ignore_errors=True)
    passes('dpkg-deb', '-R', deb, folder)
    return folder


def same_bytes():
    """Two packages of the same files are the same bytes: the second one is made by another umask, in another zone and
    language, on one processor, of a copy of the files with other times and rights."""
    need('dpkg-deb', 'taskset')
    first = package('first')
    copy = os.path.join(WORK, 'copy')
    os.mkdir(copy)
    subprocess.run(['cp', '-r', *for_good.CLONE, copy], check=True)
    subprocess.run('find . -exec touch -d 2001-02-03 {} + && chmod -R go-rwx .', shell=True, cwd=copy, check=True)
    second = package('second', 'taskset', '-c', '0', 'sh', '-c', 'umask 077 && cd %s && exec "$@"' % copy, 'sh',
                     env=dict(os.environ, TZ='Asia/Tokyo', LC_ALL='C.UTF-8'))
    sums = [hashlib.sha256(open(path, 'rb').read()).hexdigest() for path in (first, second)]
    if sums[0] != sums[1]:
        raise Wrong('the sums are %s' % sums)
    # SOURCE_DATE_EPOCH is what the times are.
    third = package('third', env=dict(os.environ, SOURCE_DATE_EPOCH='1000000000'))
    times = set(re.findall(r' (\d{4}-\d\d-\d\d \d\d:\d\d) \.', passes('dpkg-deb', '-c', third, env=dict(
        os.environ, TZ='UTC')).decode()))
    if times != {'2001-09-09 01:46'}:
        raise Wrong('the times are %s' % times)
    print('    the package is %s' % sums[0])


def rights_of(kind, name):
    """What the package's file of this kind and name is to have."""
    if kind in 'dl':
        return {'d': 'drwxr-xr-x', 'l': 'lrwxrwxrwx'}[kind]
    if name == './etc/caster/caster.toml':
        return '-rw-------'
    return '-rwxr-xr-x' if '/bin/' in name else '-rw-r--r--'


def contents():
    """Each file has the owner and rights that it needs; the program is that of dist/, whose sum CHANGELOG names; each
    program has a page; links of tools stay links; the units call what is there."""
    need('dpkg-deb')
    deb = package('contents')
    for line in passes('dpkg-deb', '-c', deb).decode().splitlines():
        rights, owner, _, _, _, name = line.split(None, 5)
        if owner != 'root/root' or rights != rights_of(rights[0], name):
            raise Wrong(line)
    root = unpacked(deb)
    program = open(root + '/usr/bin/caster', 'rb').read()
    own = hashlib.sha256(program).hexdigest()
    if 'sha256 %s\n' % own not in text_of('dist/caster-x86_64-linux.sum') or own not in text_of('CHANGELOG.md'):
        raise Wrong('another program: %s' % own)
    if text_of(root + '/DEBIAN/conffiles') != '/etc/caster/caster.toml\n' \
            or text_of(root + '/etc/caster/caster.toml') != text_of('dist/caster.toml'):
        raise Wrong('another configuration')
    for name in os.listdir(root + '/usr/bin'):
        if not os.path.exists('%s/usr/share/man/man1/%s.1.gz' % (root, name)):
            raise Wrong('%s has no page' % name)
    for unit in life.UNITS:
        for path in re.findall(r'/usr/\S*bin/[\w-]+', text_of(root + '/lib/systemd/system/' + unit)):
            if not os.path.exists(root + path):
                raise Wrong('%s calls %s' % (unit, path))
    for name in ('FORMATS.md', 'OPERATING.md', 'CLIENTS.md', 'examples/haproxy-one.cfg'):
        if not os.path.getsize('%s/usr/share/doc/viewlemon/%s' % (root, name)):
            raise Wrong('%s is empty' % name)


def links_of_tools():
    """A tool that is a link in dist/ is a link in the package, and one that is not there is left out."""
    need('dpkg-deb')
    copy = os.path.join(WORK, 'links')
    os.mkdir(copy)
    subprocess.run(['cp', '-r', *for_good.CLONE, copy], check=True)
    for name in ('who', 'bill'):
        os.unlink(copy + '/dist/' + name)
    write('links/dist/caster-lines', '#!/usr/bin/env python3\nprint("lines")\n')
    os.makedirs(copy + '/dist/lines', exist_ok=True)
    write('links/dist/lines/words.py', 'pass\n')
    os.symlink('caster-lines', copy + '/dist/who')
    passes('sh', '-c', 'cd %s && dist/package made' % copy)
    root = unpacked(copy + '/made/viewlemon_%s_amd64.deb' % text_of('VERSION').strip())
    if os.readlink(root + '/usr/bin/caster-who') != 'caster-lines' or os.path.exists(root + '/usr/bin/caster-bill'):
        raise Wrong('the tools are %s' % os.listdir(root + '/usr/bin'))
    if text_of(root + '/usr/lib/caster/lines/words.py') != 'pass\n':
        raise Wrong('what the tools are made of is not there')
    if passes(root + '/usr/bin/caster-who') != b'lines\n':
        raise Wrong('it says something else')


def manual_pages():
    """Each page is taken by man and by mandoc without a word."""
    need('man', 'mandoc')
    pages = sorted(name for name in os.listdir('dist') if re.fullmatch(r'.*\.[15]', name))
    if set(PAGES) - set(pages):
        raise Wrong('there is no %s' % (set(PAGES) - set(pages)))
    for page in pages:
        shown = passes('man', '--warnings', '-l', 'dist/' + page, env=dict(os.environ, MANWIDTH='80', LC_ALL='C.UTF-8'))
        if len(shown) < 500:
            raise Wrong('%s: %s' % (page, show(shown)))
        said = run('mandoc', '-Tlint', 'dist/' + page)
        if said.stdout or said.stderr:
            raise Wrong('%s: %s' % (page, show(said.stdout + said.stderr)))


def changelog():
    """docs/changelog-check: it fails where the program is another one, where the first part names none or is of another
    version, and puts the program's sum there when it is told to."""
    copy = os.path.join(WORK, 'changelog')
    for name in ('docs', 'dist'):
        os.makedirs(copy + '/' + name)
    for name in ('VERSION', 'CHANGELOG.md', 'docs/changelog-check', 'dist/caster-x86_64-linux'):
        shutil.copy(name, copy + '/' + name)
    check = copy + '/docs/changelog-check'
    passes(check)
    whole = text_of(copy + '/CHANGELOG.md')
    own, = set(re.findall(r'\b[0-9a-f]{64}\b', whole))
    newer = '# Changes\n\n## 1.0.0\n\nNothing.\n\n' + whole.split('\n', 2)[2]
    for text in (whole.replace(own, '0' * 64), newer, whole.replace('## 1.0.0', '## 1.0.1')):
        write('changelog/CHANGELOG.md', text)
        done = run(check)
        if done.returncode != 1 or not done.stdout.startswith(b'FAILED CHANGELOG: ') or done.stderr:
            raise Wrong('status %d: %s of %s' % (done.returncode, show(done.stdout), text[:200]))
    write('changelog/CHANGELOG.md', whole)
    with open(copy + '/dist/caster-x86_64-linux', 'ab') as file:
        file.write(b'\0')
    if run(check).returncode != 1:
        raise Wrong('another program is taken')
    passes(check, '--renew')
    passes(check)


CASES = [same_bytes, contents, links_of_tools, lintian, manual_pages, changelog] + for_good.CASES + life.CASES \
    + watched.CASES + rotation.CASES + leaves.CASES + container.CASES


def main():
    named = sys.argv[1:]
    failed, passed, missing = 0, 0, 0
    for case in CASES:
        if named and case.__name__ not in named:
            continue
        try:
            case()
            passed += 1
        except Missing as program:
            missing += 1
            print('left out: %s, for want of %s' % (case.__name__, program))
        except Exception:
            failed += 1
            print('FAILED %s' % case.__name__)
            traceback.print_exc(file=sys.stdout)
        finally:
            for process in processes:
                if process.poll() is None:
                    process.terminate()
                    process.wait(timeout=PATIENCE)
            processes.clear()
        sys.stdout.flush()
    shutil.rmtree(WORK)
    print('package: %d passed, %d failed, %d left out' % (passed, failed, missing))
    return 1 if failed else 0


if __name__ == '__main__':
    os.environ['PATH'] += ':/usr/sbin:/sbin'
    sys.exit(main())
