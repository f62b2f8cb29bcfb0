"""What the cases of tests/dist share: a folder to work in, programs that are started, and the caster."""
import importlib
import os
import shutil
import subprocess
import sys
import tempfile
import time
import traceback

from wire import *

sys.dont_write_bytecode = True
sys.path.insert(0, 'dist')
from lines import words as tool_words

for each in tool_words.WORDS:
    importlib.import_module('lines.' + each)

WORK = tempfile.mkdtemp()
processes = []

# The tools that are words of caster-lines.
TOOLS = {'dist/who': 'who', 'dist/bill': 'bill', 'dist/keep-metrics': 'keep-metrics', 'dist/draw-report': 'draw-report',
         'dist/caster-lines': 'caster-lines'}


class Missing(Exception):
    """A program that a case needs is not installed."""


def need(*programs):
    path = os.environ['PATH'] + ':/usr/sbin:/sbin'
    missing = [program for program in programs if not shutil.which(program, path=path)]
    if missing:
        raise Missing(' '.join(missing))


def text_of(path):
    with open(path) as file:
        return file.read()


def write(name, text):
    path = os.path.join(WORK, name)
    with open(path, 'w') as file:
        file.write(text)
    return path


def run(*words, **more):
    """Runs a command to its end. A word of caster-lines runs in a child of this process, which has read its modules:
    that takes a tenth of the time. The case `installed` runs the files themselves."""
    if words[0] in TOOLS and len(words) + (words[0] != 'dist/caster-lines') > 1 and set(more) <= {'input'}:
        return in_a_child(TOOLS[words[0]], list(words[1:]), more.get('input', b''))
    return subprocess.run(words, stdout=subprocess.PIPE, stderr=subprocess.PIPE, timeout=60, **more)


def in_a_child(name, words, data):
    files = [tempfile.TemporaryFile(dir=WORK) for _ in range(3)]
    files[0].write(data)
    files[0].seek(0)
    child = os.fork()
    if child == 0:
        status = 70
        try:
            for number, file in enumerate(files):
                os.dup2(file.fileno(), number)
            sys.stdout, sys.stderr = open(1, 'w', closefd=False), open(2, 'w', closefd=False)
            status = tool_words.main(name, words, '')
            sys.stdout.flush()
        except BaseException:
            traceback.print_exc()
        finally:
            sys.stderr.flush()
            os._exit(status)
    until = time.monotonic() + 60
    while True:
        ended, status = os.waitpid(child, os.WNOHANG)
        if ended:
            break
        if time.monotonic() > until:
            os.kill(child, 9)
            os.waitpid(child, 0)
            raise Wrong('%s %s does not end' % (name, words))
        time.sleep(0.002)
    for file in files:
        file.seek(0)
    return subprocess.CompletedProcess([name, *words], os.waitstatus_to_exitcode(status), files[1].read(),
                                       files[2].read())


def passes(*words, **more):
    """The command ends with 0 and says nothing to standard error."""
    done = run(*words, **more)
    if done.returncode or done.stderr:
        raise Wrong('%s: status %d, %s' % (' '.join(words), done.returncode, show(done.stderr)))
    return done.stdout


def start(*words):
    process = subprocess.Popen(words, stdin=subprocess.DEVNULL, stdout=subprocess.DEVNULL,
                               stderr=subprocess.PIPE)
    processes.append(process)
    return process


def serve(config, limit, port=None):
    caster = Caster(config, limit, port and '127.0.0.1:%d' % port)
    caster.port = port or caster.port
    processes.append(caster.process)
    # A front may dial it at once, and gives up where nobody listens yet.
    Client(caster.port).close()
    return caster


def replaced(text, changes):
    """The text with these changes, each of which is to be made somewhere."""
    for old, new in changes:
        if old not in text:
            raise Wrong('no %r' % old)
        text = text.replace(old, new)
    return text


def certificate():
    path = os.path.join(WORK, 'caster.pem')
    if not os.path.exists(path):
        done = run('openssl', 'req', '-x509', '-newkey', 'rsa:2048', '-nodes', '-keyout', path + '.key',
                   '-out', path, '-days', '2', '-subj', '/CN=localhost')
        if done.returncode:
            raise Wrong(show(done.stderr))
        with open(path, 'a') as file:
            file.write(text_of(path + '.key'))
    return path


def config(workers, mounts=('ALPHA',)):
    """A configuration without credentials of rovers."""
    text = 'version = 2\nworkers = %d\n' % workers
    for name in mounts:
        text += ('[[mount]]\nname = "%s"\npassword = "sesame"\nring = 64\nlatitude = 0\nlongitude = 0\n'
                 % name)
    listed = ', '.join('"%s"' % name for name in mounts)
    return text + ('[[group]]\nname = "open"\nmounts = [%s]\ntypes = "all"\n'
                   '[[account]]\nuser = "leaf"\npassword = "secret"\ngroup = "open"\ncap = 20\n'
                   '[anonymous]\ngroup = "open"\ncap = 99\n' % listed)
