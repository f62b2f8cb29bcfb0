"""Each system call fails once: by `strace -f -e inject`, at each of its first times in turn, until a run meets no
fault. With more than one thread it is the N-th of each thread, so more than one may fail in a run.

What came of a run is put into a word (tests/calls/answers.py) and compared with the answers that may be. Nothing is
counted as harmless that was not looked at: each client's bytes, each link's lines and their sums, and the status.
"""
import collections
import concurrent.futures
import os
import re
import subprocess
import sys
import tempfile
import time
import traceback

sys.path[:0] = ['tests/serve', 'tests/keep', 'tests/calls']

import answers
import books
import dials
from scene import HOUSE, MOUNTS, Scene
from wire import ROVER_2_OK, brought, events_of, parts_of, replay, sent_by

# So many runs at a time: they wait most of their time.
LANES = 4
COMMANDS = ['keep', 'serve', 'record']
LINES = {4: 'read fault\n', 6: 'network fault\n', 7: 'memory\n'}
FAULTY = ('read-fault', 'write-fault', 'memory')


class Wrong(Exception):
    """It was not as documented."""


# ---- what came of a run

def harmed(scene):
    """The clients that did not get all, but for rovers of a base that did not."""
    bases = [part.mount for part in scene.parts if part.kind == 'source' and not part.is_whole()]
    bases += ['CHARLIE'] if scene.far.is_lost else []
    hurt = []
    for part in scene.parts:
        whole = part.came.startswith(part.wanted) and part.ended if part.kind == 'table' else part.is_whole()
        if not whole and not (part.kind == 'rover' and part.mount in bases and is_first_part(part)):
            hurt.append(part)
    return hurt


def is_first_part(rover):
    """It got its reply and a first part of the frames, or nothing was said of any of them, and its end."""
    return rover.ended and rover.wanted.startswith(rover.came) and rover.came.startswith(rover.front)


def late_ones(scene):
    """The clients that waited in vain. Each of them must have heard nothing at all: it waits for a worker."""
    late = [part for part in scene.parts if part.late]
    if any(part.came for part in late):
        raise Wrong('clients waited in vain: %s' % [(part.kind, part.mount, part.came[-40:]) for part in late])
    return late


def frames_of(rover):
    """How many whole frames came to it, each as it was sent."""
    body, count = rover.came[len(rover.front):], 0
    for one in rover.sent:
        one = b'%x\r\n%s\r\n' % (len(one), one) if rover.front == ROVER_2_OK else one
        if not body.startswith(one):
            break
        body, count = body[len(one):], count + 1
    return count


def named_though_not_let_in(read):
    """The links whose receipt names as what they were let in, which they were not. That is a fault, but of those that
    a relay dialled; they are then taken as not named, so that the rest can be looked at."""
    odd = []
    for link in read.links.values():
        is_dialled = link.peer and link.peer[0] == 'to'
        if link.end and link.entered is None and link.end.who != '-' and not is_dialled:
            odd.append('%s was not let in, and its receipt has %s' % (link.name, ' '.join(map(str, link.end))))
            link.end = link.end._replace(who='-')
    return odd


def check_books(scene, text, is_cut):
    """The lines are books that add up; each receipt says what its client got. How many links ended by a fault."""
    read = books.read(text, cut=is_cut)
    scene.odd += named_though_not_let_in(read)
    books.agree(read, HOUSE)
    if not is_cut and not read.closing:
        raise Wrong('there are no closing lines')
    by_peer, faults = books.by_peer(read), 0
    for link in read.links.values():
        faults += link.end is not None and link.end.ending.split(' ')[0] in FAULTY
    for part in scene.parts:
        links = by_peer.get(('from', part.peer), [])
        link = links[0] if links else None
        if part.kind == 'rover' and link and link.end and link.end.ending == 'rover-end':
            if link.end.sent != frames_of(part):
                raise Wrong('%s: %d frames came: %s' % (link.name, frames_of(part), link.end))
        if part.is_whole() and (link is None or not is_cut and link.end is None):
            raise Wrong('a client got all and has no receipt: %s' % part.kind)
    return faults


def check_totals(scene, text, is_whole):
    """The closing lines of `serve`: sums of themselves, no more than was sent, and all of it where nothing failed."""
    rows = [line.split(' ') for line in text.splitlines()]
    if [row[:2] for row in rows[:3]] != [['mount', name] for name in MOUNTS] or len(rows) != 5:
        raise Wrong('no closing lines: %r' % text)
    published = [[int(word) for word in row[2:]] for row in rows[:3]]
    account, total = [int(word) for word in rows[3][2:]], [int(word) for word in rows[4][1:]]
    rovers = [part for part in scene.parts if part.kind == 'rover']
    sent = sum(frames_of(part) for part in rovers)
    wanted = [[scene.published[name], 1] for name in MOUNTS]
    if account != total or any(got > most for rows in zip(published, wanted) for got, most in zip(*rows)):
        raise Wrong('totals that are no sums, or too many: %r' % text)
    if is_whole and (published != wanted or total != [len(rovers), sent, 0]):
        raise Wrong('all clients got all, and the totals are %r' % text)
    if total[0] > len(rovers) or total[1] < sum(frames_of(part) for part in rovers if part.is_whole()):
        raise Wrong('the totals are %r, and %d frames came' % (text, sent))


def check_script(scene, text):
    """The script of `record`: its replay has what each client got. The clients whose connections broke."""
    events = events_of(text)
    with tempfile.NamedTemporaryFile('w', suffix='.toml') as file:
        with open(scene.folder.name + '/caster.toml') as config:
            file.write(config.read())
        file.flush()
        connections, _ = parts_of(replay(file.name, text))
    # A connection that was not taken has no number; those that were are in order.
    told = [sent_by(lines) for lines in connections.values()]
    for part in scene.parts:
        if part.came and not any(one.startswith(part.came) for one in told):
            raise Wrong('%s got what is not in the replay: %r' % (part.kind, part.came[:200]))
    return broken_in(scene, events)


def broken_in(scene, events):
    """The clients whose connections broke by the script, or are not in it. They came one behind the other, and are
    numbered so; one that was not taken has no number."""
    numbers = [int(words[1]) for words in events if words[0] == 'open']
    broken, lost = {int(words[1]) for words in events if words[0] == 'break'}, []
    for part in scene.parts:
        came = brought(events, numbers[0]) if numbers else b''
        if numbers and (came and part.head.startswith(came[:len(part.head)]) or not came and numbers[0] in broken):
            lost += [part] if numbers.pop(0) in broken else []
        else:
            lost.append(part)
    return lost


def word_of(scene, status, count):
    """What came, in a word; wrong where it is no answer at all."""
    text = scene.text()
    if scene.error:
        raise Wrong('standard error: %r' % scene.error[:300])
    if status in (4, 7) or status == 6 and text == LINES[6]:
        if text != LINES[status]:
            raise Wrong('status %s with %r' % (status, text[-300:]))
        return str(status)
    if status == 6 and scene.command == 'keep' and text.endswith(LINES[6]):
        check_books(scene, text[:-len(LINES[6])], False)
        return '6'
    if status == 5:
        return word_of_a_cut_text(scene, text)
    if status != 0:
        raise Wrong('status %s, %r' % (status, text[-300:]))
    return word_of_a_whole_run(scene, text, count)


def word_of_a_cut_text(scene, text):
    if scene.command == 'keep':
        check_books(scene, text, True)
    elif text:
        raise Wrong('the one write failed, and %r was written' % text[:300])
    return '5'


def word_of_a_recorded_run(scene, text, count):
    """A connection that broke stays open until the session ends, so its client waits, and so do rovers of a base."""
    broken = check_script(scene, text)
    mounts = [part.mount for part in broken if part.kind == 'source']
    left = [part for part in harmed(scene) if part not in broken and not (part.kind == 'rover' and part.mount in mounts)]
    if left or len(broken) > count:
        raise Wrong('%d calls failed, and %d connections broke; cut off are %s' % (
            count, len(broken), [(part.kind, part.mount, part.came[-60:]) for part in left]))
    return 'link' if broken else 'whole'


def word_of_a_whole_run(scene, text, count):
    if scene.command == 'record':
        return word_of_a_recorded_run(scene, text, count)
    late = late_ones(scene)
    hurt, faults = [part for part in harmed(scene) if not part.late], 0
    if scene.command == 'keep':
        faults = check_books(scene, text, False)
    else:
        check_totals(scene, text, not hurt and not late)
    if len(hurt) > count or faults > count:
        raise Wrong('%d calls failed, %d clients were cut off and %d links: %s' % (
            count, len(hurt), faults, [(part.kind, part.mount, part.came[-60:]) for part in hurt]))
    if late:
        return 'fewer'
    return 'link' if hurt or faults else 'whole'


# ---- the runs

Run = collections.namedtuple('Run', 'command call fault number failed word wanted said')


def once(command, call, fault, number):
    """One run in which the call fails at this of its times. None where it did not come to it."""
    scene = Scene(os.environ['CASTER'], command, (call, fault, number), *([12] if call == 'futex' else []))
    scene.odd = []
    try:
        scene.play()
        status = scene.end()
        failed = scene.failed()
        if not failed:
            return None
        wanted = answers.wanted(command, call, fault, failed)
        if scene.is_of_loader or any('FUTEX_WAKE' in line for line in failed):
            word = 'loader' if scene.is_of_loader else 'left out'
            return Run(command, call, fault, number, failed, word, wanted, '')
        try:
            word, said = word_of(scene, status, len(failed)), '; '.join(scene.odd)
        except (Wrong, books.Wrong) as wrong:
            word, said = 'status %s' % status, str(wrong)
        except Exception:
            word, said = 'status %s' % status, traceback.format_exc()
        return Run(command, call, fault, number, failed, word, wanted, said)
    finally:
        scene.close()


def all_times(command, call, fault):
    """The runs of a call's fault, until one meets it no more."""
    runs = []
    for number in answers.times(call):
        run = once(command, call, fault, number)
        if run is None:
            break
        runs.append(run)
    return runs


def is_good(run):
    """A loader's call before the program began is not the program's. Where the documents say nothing of the call
    that failed, what came must still be an answer that there is."""
    if run.said:
        return False
    return run.word in ('loader', 'left out') or run.wanted is None or run.word in run.wanted


def tell(command, call, fault, runs, tells):
    words = collections.Counter(run.word for run in runs)
    print('%-7s %-15s %-12s %s' % (command, call, fault, ', '.join(
        '%d %s' % (words[word], word) for word in sorted(words)) or 'is not made'))
    for run in runs:
        if tells or not is_good(run):
            more = ''.join('\n        ' + line[:220] for line in [*run.failed[:3], *run.said.splitlines()])
            print('    %s time %d: %s%s; wanted %s%s' % (
                '' if is_good(run) else 'FAILED', run.number, run.word,
                ' (said nothing of)' if run.wanted is None else '', run.wanted, more))
    sys.stdout.flush()


# ---- dist/caster-run

# What fails of it, by which the system's own programs are met, too, and its status.
FRONT = [('mknodat', 'ENOSPC', 73), ('mknodat', 'EACCES', 73), ('mkdir', 'ENOSPC', 73), ('mkdir', 'EACCES', 73),
         ('openat', 'ENXIO', 73), ('openat', 'EMFILE', 73), ('execve', 'ENOENT', 127)]


def front_once(call, fault, wanted):
    """caster-run, of which this call fails: the one for its FIFO, or the start of the program. What came, and whether
    it is as wanted: the status, no FIFO that stays, and no process."""
    with tempfile.TemporaryDirectory() as folder:
        log, config = folder + '/strace', folder + '/none.toml'
        os.mkdir(folder + '/tmp')
        paths = {'openat': [], 'execve': ['-P', os.environ['CASTER']], 'mknodat': [], 'mkdir': []}[call]
        times = ':when=1' if call != 'openat' else ''
        if call == 'openat':
            # The FIFO has a folder of its own name here, so that it can be told by its path.
            os.mkdir(folder + '/run')
            paths = ['-P', folder + '/run/stop']
        environment = dict(os.environ, TMPDIR=folder + '/tmp', PATH='/usr/sbin:/usr/bin:/sbin:/bin')
        if call == 'openat':
            environment['RUNTIME_DIRECTORY'] = folder + '/run'
        words = ['strace', '-f', '-qq', '-o', log, *paths, '-e', 'trace=' + call, '-e',
                 'inject=%s:error=%s%s' % (call, fault, times), 'dist/caster-run', config, '127.0.0.1:0', '0']
        begun = time.monotonic()
        ran = subprocess.run(words, env=environment, stdin=subprocess.DEVNULL, capture_output=True, timeout=60,
                             check=False)
        with open(log, errors='replace') as file:
            failed = [line for line in file if '(INJECTED)' in line]
        left = [name for place, _, names in os.walk(folder) for name in names if name not in ('strace',)]
        good = bool(failed) and ran.returncode == wanted and not left
        print('caster-run %-12s %-12s status %d, wanted %d; %d calls failed; left: %s; %.1f s%s' % (
            call, fault, ran.returncode, wanted, len(failed), left or 'nothing', time.monotonic() - begun,
            '' if good else '  FAILED %r' % (ran.stdout + ran.stderr)[-300:]), flush=True)
        return good


# ---- the whole

def main(words):
    tells = '--tell' in words
    names = [word for word in words if word != '--tell']
    known = COMMANDS + ['caster-run'] + sorted({call.split(' ')[0] for call, _ in answers.calls()})
    if not all(name in known for name in names):
        sys.exit('usage: tests/calls/run [--tell] [COMMAND..] [CALL..]; calls: ' + ' '.join(known[4:]))
    commands = [name for name in names if name in COMMANDS + ['caster-run']] or COMMANDS + ['caster-run']
    only = [name for name in names if name not in COMMANDS + ['caster-run']]
    jobs = [(command, call, fault) for command in commands if command in COMMANDS
            for call, fault in answers.calls() if not only or call.split(' ')[0] in only]
    begun, passed, failed, unsaid = time.monotonic(), 0, 0, 0
    with concurrent.futures.ThreadPoolExecutor(LANES) as pool:
        for job, runs in zip(jobs, pool.map(lambda job: all_times(*job), jobs)):
            tell(*job, runs, tells)
            good = sum(is_good(run) for run in runs)
            passed, failed = passed + good, failed + len(runs) - good
            unsaid += sum(run.wanted is None for run in runs)
    if 'connect' in only or not names:
        good, bad = dials.try_both()
        passed, failed = passed + good, failed + bad
    if 'caster-run' in commands and not only:
        fine = [front_once(*one) for one in FRONT]
        passed, failed = passed + sum(fine), failed + len(fine) - sum(fine)
    print('%d passed, %d failed; of %d the documents say nothing; %.0f s' % (
        passed, failed, unsaid, time.monotonic() - begun))
    return 0 if passed and not failed else 1


if __name__ == '__main__':
    sys.exit(main(sys.argv[1:]))
