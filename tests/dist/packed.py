"""The package of Debian as lintian sees it; tests/package/run has all else of it."""
import os
import subprocess

from common import *


def package(folder, *front, **more):
    """Makes the package in this folder of WORK, and returns its path."""
    path = os.path.join(WORK, folder)
    said = passes(*front, 'dist/package', path, **more).decode()
    if said != '%s/viewlemon_%s_amd64.deb\n' % (path, text_of('VERSION').strip()):
        raise Wrong('it said %r' % said)
    return said.strip()


def lintian():
    """lintian says nothing, but what the package tells it why; each of that is named in docs/DECISIONS.md."""
    need('lintian')
    done = subprocess.run(['lintian', '--allow-root', '--display-info', '--pedantic', package('lintian')],
                          stdout=subprocess.PIPE, stderr=subprocess.PIPE, timeout=600)
    # The bytes of another program may spell no word.
    said = [line for line in done.stdout.decode().splitlines()
            if not ('unused-override' in line and 'spelling-error-in-binary' in line)]
    if said or done.returncode:
        raise Wrong('status %d: %s %s' % (done.returncode, '\n'.join(said), show(done.stderr)))
    told = [line for line in text_of('dist/package-overrides').splitlines() if not line.startswith('#')]
    if '`lintian` is told %s' % {5: 'why of five lines'}.get(len(told)) not in text_of('docs/DECISIONS.md'):
        raise Wrong('%d lines of overrides' % len(told))


CASES = [lintian]
