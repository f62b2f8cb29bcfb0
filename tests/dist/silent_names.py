"""A relay whose name is looked up at a server that never answers, in namespaces of its own (`unshare --mount --net
--pid`): a stop by dist/caster-run ends within four seconds, and without its RES_OPTIONS it takes longer. It prints
nothing and ends with 0, or says what was wrong.

    silent_names.py FOLDER    an empty folder to work in
"""
import os
import signal
import socket
import subprocess
import sys
import time

PROGRAM = os.environ.get('CASTER', './caster')

CONFIG = '''version = 2
workers = 2
[[mount]]
name = "ALPHA"
password = "sesame"
ring = 4
latitude = 0
longitude = 0
[[group]]
name = "open"
mounts = ["ALPHA"]
types = "all"
[[relay]]
mount = "ALPHA"
address = "nowhere.example:2101"
upstream = "ALPHA"
protocol = 1
'''


def seconds_to_stop(folder, server, variables):
    """How long caster-run takes from its signal on, which comes once the name was asked for."""
    runs = os.path.join(folder, 'run')
    os.makedirs(runs, exist_ok=True)
    server.settimeout(30)
    process = subprocess.Popen(['dist/caster-run', folder + '/relay.toml', '127.0.0.1:2101', '0'],
                               stdin=subprocess.DEVNULL, stdout=subprocess.PIPE,
                               env=dict(os.environ, CASTER=PROGRAM, RUNTIME_DIRECTORY=runs, **variables))
    server.recv(512)
    begun = time.monotonic()
    process.send_signal(signal.SIGTERM)
    lines = process.communicate(timeout=60)[0]
    if process.returncode or not lines.endswith(b'total 0 0 0\n'):
        sys.exit('silent_names: status %d, %r' % (process.returncode, lines))
    # What was asked meanwhile.
    server.settimeout(0.1)
    try:
        while server.recv(512):
            pass
    except TimeoutError:
        pass
    return time.monotonic() - begun


def main():
    folder = sys.argv[1]
    subprocess.run(['ip', 'link', 'set', 'lo', 'up'], check=True)
    for name, text, place in [('resolv.conf', 'nameserver 127.0.0.9\n', '/etc/resolv.conf'),
                              ('nsswitch.conf', 'hosts: files dns\n', '/etc/nsswitch.conf'), ('relay.toml', CONFIG, None)]:
        with open(os.path.join(folder, name), 'w') as file:
            file.write(text)
        if place:
            subprocess.run(['mount', '--bind', os.path.join(folder, name), place], check=True)
    server = socket.socket(socket.AF_INET, socket.SOCK_DGRAM)
    server.bind(('127.0.0.9', 53))
    short, long = seconds_to_stop(folder, server, {}), seconds_to_stop(folder, server, {'RES_OPTIONS': ''})
    if short > 4 or long < short + 3:
        sys.exit('silent_names: %.1f s, and %.1f s without RES_OPTIONS' % (short, long))


main()
