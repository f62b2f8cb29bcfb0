"""The image that dist/Containerfile makes, by buildah, and its first process, by runc."""
import json
import os
import re
import signal
import subprocess
import time

import root
from common import *

ADDRESS = '127.0.0.1:21011'


def first_process():
    """The caster-run that listens at this address and is the first process of a space of process ids."""
    until = time.monotonic() + 120
    while time.monotonic() < until:
        for one in os.listdir('/proc'):
            try:
                words = text_of('/proc/%s/cmdline' % one).split('\0') if one.isdigit() else []
                if words[1:2] == ['/usr/bin/caster-run'] and ADDRESS in words:
                    ids = re.search(r'^NSpid:(.*)$', text_of('/proc/%s/status' % one), re.M)[1]
                    if ids.split()[-1] == '1':
                        return int(one)
            except OSError:
                pass
        time.sleep(0.2)
    raise Wrong('there is no first process')


def container():
    """dist/Containerfile over a root of Debian 12 by debootstrap: an image is made, and its first process is
    caster-run, which ends with the totals at TERM."""
    need('buildah', 'runc', 'dpkg-deb')
    if os.geteuid():
        raise Missing('root')
    root.made()
    storage = os.path.join(WORK, 'storage')
    buildah = ['buildah', '--root', storage, '--runroot', storage + '-run', '--storage-driver', 'overlay']

    def does(*words):
        done = subprocess.run(buildah + list(words), stdin=subprocess.DEVNULL, stdout=subprocess.PIPE,
                              stderr=subprocess.PIPE, timeout=900)
        if done.returncode:
            raise Wrong('%s: %s' % (' '.join(words), show(done.stderr[-300:])))
        return done.stdout.decode().strip()

    try:
        base = does('from', 'scratch')
        does('add', '-q', base, root.BASE, '/')
        does('commit', '-q', base, 'localhost/debian:12')
        passes('dist/package', os.path.join(WORK, 'image'))
        does('build', '--isolation', 'chroot', '--build-arg', 'BASE=localhost/debian:12', '-f', 'dist/Containerfile',
             '-t', 'viewlemon', os.path.join(WORK, 'image'))
        about = json.loads(does('inspect', 'localhost/viewlemon'))['OCIv1']['config']
        if about['StopSignal'] != 'SIGTERM' or about['Cmd'] != ['/etc/caster/caster.toml', '0.0.0.0:2101', '300']:
            raise Wrong('the image is %s' % about)
        words = about['Entrypoint'] + replaced(' '.join(about['Cmd']), [('0.0.0.0:2101', ADDRESS)]).split()
        one = does('from', 'localhost/viewlemon')
        process = subprocess.Popen(
            buildah + ['run', '--isolation', 'oci', '--runtime', '/usr/sbin/runc', '--network', 'none', '-v',
                       write('container.toml', config(4)) + ':/etc/caster/caster.toml:ro', one, '--'] + words,
            stdin=subprocess.DEVNULL, stdout=subprocess.PIPE, stderr=subprocess.PIPE)
        processes.append(process)
        first = first_process()
        time.sleep(2)
        os.kill(first, signal.SIGTERM)
        out, err = process.communicate(timeout=60)
        if process.returncode or out != b'mount ALPHA 0 0\naccount leaf 0 0 0\ntotal 0 0 0\n':
            raise Wrong('status %d: %s %s' % (process.returncode, show(out), show(err)))
    finally:
        subprocess.run(buildah + ['rm', '--all'], stdout=subprocess.DEVNULL, stderr=subprocess.DEVNULL)
        subprocess.run(['umount', storage + '/overlay'], stderr=subprocess.DEVNULL)


CASES = [container]
