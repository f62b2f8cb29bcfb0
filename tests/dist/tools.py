"""Cases of the tools in dist/ that read reports and lines: pictures, who is on, metrics."""
import os
import re
import subprocess
import tempfile
import time
import xml.dom.minidom
from html import unescape

from common import *

# ---- pictures

def drawn(report):
    return run('dist/draw-report', input=report)


def the_example_picture():
    """docs/example.svg is the picture of the example's report."""
    report = passes(PROGRAM, 'replay', 'examples/caster.toml', 'examples/field.session')
    if drawn(report).stdout != open('docs/example.svg', 'rb').read():
        raise Wrong('docs/example.svg is another picture')


def large_session():
    """256 connections: two bases, near rovers that change between them, and rovers that are lapped."""
    def came(connection, data):
        return 'in %d %s' % (connection, data.hex())
    near, plain = range(3, 60), range(60, 257)
    lines = ['open 1', came(1, source_1('ALPHA', 'sesame')), 'open 2', came(2, source_1('BRAVO', 'open'))]
    at = [report('4807.038,N', '01131.000,E'), report('4812.000,N', '01131.000,E')]
    for one in near:
        lines += ['open %d' % one, came(one, rover_1('NEAR', basic('rover1', 'secret'))),
                  came(one, at[0].encode() + b'\r\n')]
    for one in plain:
        lines += ['open %d' % one, came(one, rover_1('ALPHA'))]
    for place in range(300):
        lines += [came(1, frame(1005, place)), came(2, frame(1005, place))]
        lines += ['turn %d 16' % (3 + (place * 7 + step) % 254) for step in range(5)]
        lines += [came(near[place % 57], at[place % 2].encode() + b'\r\n')]
    return '\n'.join(lines + ['stop', ''])


def large_picture():
    """No line of a report of 256 connections is lost."""
    large = replaced(text_of('examples/caster.toml'), [
        ('cap = 2 ', 'cap = 300 '), ('cap = 20', 'cap = 300'), ('ring = 256', 'ring = 20')])
    report = passes(PROGRAM, 'replay', write('large.toml', large), write('large.session', large_session()))
    picture = drawn(report).stdout.decode()
    xml.dom.minidom.parseString(picture)
    titles = '\n'.join(re.findall(r'<title>(.*?)</title>', picture, re.S))
    found = sorted(unescape(titles).split('\n'))
    wanted = sorted(re.sub('^bytes (.*)', lambda hexed: 'bytes: %d' % (len(hexed[1]) // 2), line)
                    for line in report.decode().splitlines())
    for kind in ('connection ', 'segment ALPHA', 'segment BRAVO', 'lap ', 'account ', 'total '):
        if not any(line.startswith(kind) for line in wanted):
            raise Wrong('the report has no %s' % kind)
    if found != wanted or picture.count('>lapped') != sum(line.startswith('lap ') for line in wanted):
        raise Wrong('lines are lost')


def cut_pictures():
    """A report that is cut short anywhere, or is none, gets one line and status 1."""
    report = passes(PROGRAM, 'replay', 'examples/caster.toml', 'examples/field.session')
    cuts = [report[:at] for at in range(0, len(report), 23)] + [report[:-1]]
    for wrong in cuts + [b'usage\n', b'\xff\n', report + report, report.replace(b'junk 0\n', b'')]:
        done = drawn(wrong)
        if done.returncode != 1 or done.stdout or done.stderr.count(b'\n') != 1:
            raise Wrong('%s: status %d, %s' % (show(wrong), done.returncode, show(done.stderr)))
        if wrong in cuts and b'cut short' not in done.stderr:
            raise Wrong('%s: %s' % (show(wrong), show(done.stderr)))


def picture_of_links():
    """The lines of `caster keep` as a picture: of each link its receipt, each line of which is a title."""
    second = plain(journal('keep.journal', 'keep.totals')).split('3.1 from', 1)
    lines = ('3.1 from' + second[1]).splitlines()
    picture = drawn('\n'.join(lines + ['']).encode())
    if picture.returncode:
        raise Wrong(show(picture.stderr))
    text = picture.stdout.decode()
    xml.dom.minidom.parseString(text)
    titles = '\n'.join(re.findall(r'<title>(.*?)</title>', text, re.S))
    before = ('from', 'to', 'asks', 'rover', 'source', 'relay')
    wanted = [line for line in lines if line.split(' ')[1] not in before]
    if sorted(unescape(titles).split('\n')) != sorted(wanted):
        raise Wrong('the titles are\n%s' % titles)
    wrong = ['0.1 what 5\n', '0.1 end rover:a 1 2\n', 'now\n', 'now mount ALPHA 5\n', 'now what\n']
    for cut in ['\n'.join(lines[:-1]), '\n'.join(lines)] + wrong:
        if drawn(cut.encode()).returncode != 1:
            raise Wrong('it drew %r' % cut[-50:])


# ---- the lines of a caster that keeps serving

def journal(*names):
    """These parts of a journal, written by hand: a run that is killed, and one that goes on, or is stopped."""
    return ''.join(text_of('tests/dist/' + name) for name in names)


def plain(text):
    """The same lines without their times, as they stand in a file."""
    return ''.join(line + '\n' for line in re.findall(r'^\S+ field caster\[[0-9]+\]: (.*)$', text, re.M))


def prints(tool, text, wanted, *words):
    """The tool prints this and ends with 0; what it says of lines that it passed over is not looked at."""
    done = run('dist/' + tool, *words, input=text.encode())
    if done.returncode or done.stdout.decode() != wanted:
        raise Wrong('%s: status %d, wanted\n%sand got\n%s%s'
                    % (tool, done.returncode, wanted, done.stdout.decode(), show(done.stderr)))


def who_is_on():
    """In a run that goes on, behind a run that was killed; when only the first one had begun; and behind totals.
    The same without times, where the lines of a run that was killed count until their workers have others."""
    prints('who', journal('keep.journal'),
           '0.1 source - ALPHA 203.0.113.1:50022 31 2026-11-29T00:01:06+0000\n'
           '3.2 rover rover"2\\ ALPHA 203.0.113.7:50025 42 2026-11-29T00:02:01+0000\n')
    killed = journal('keep.journal').split('2026-11-29T00:01:05')[0]
    on = [('4.1 relay - CHARLIE 198.51.100.9:2101', 3, 1, '2026-11-28T23:58:01+0000'),
          ('0.1 source - ALPHA 203.0.113.1:50001', 5, 3, '2026-11-28T23:58:02+0000'),
          ('1.2 rover rover1 BRAVO 203.0.113.2:50010', 21, 19, '2026-11-29T00:00:01+0000'),
          ('2.3 - - - -', 26, 24, '2026-11-29T00:00:09+0000')]
    prints('who', killed, ''.join('%s %d %s\n' % (link, line, when) for link, line, _, when in on))
    prints('who', plain(killed), ''.join('%s %d -\n' % (link, line) for link, _, line, _ in on))
    # As `ts` puts the time before a line.
    stamped = ''.join('2026-11-29T12:00:00 %s\n' % line for line in plain(killed).splitlines())
    prints('who', stamped, ''.join('%s %d 2026-11-29T12:00:00\n' % (link, line) for link, _, line, _ in on))
    second = plain(journal('keep.journal'))
    prints('who', second, '0.1 source - ALPHA 203.0.113.1:50022 28 -\n3.2 rover rover"2\\ ALPHA 203.0.113.7:50025 39 -\n')
    prints('who', journal('keep.journal', 'keep.totals'), '')
    prints('who', plain(journal('keep.journal', 'keep.totals')), '')
    prints('who', '', '')


STANDS = ['now mount ALPHA 77 9', 'now mount CHARLIE 5 -', 'now workers 4 5', 'now end']


def asked(text):
    """The same lines, and behind each an answer to `status` that says what no other line does."""
    lines, front = [], ''
    for line in text.splitlines():
        front = re.match(r'(\S+ field caster\[[0-9]+\]: )?', line)[0] or front
        lines += [line] + [front + said for said in STANDS]
    return ''.join(line + '\n' for line in lines)


# What the answers alone tell.
OF_STATUS = re.compile('^caster_(workers|workers_busy|status_answers_total|mount_published)[ {].*\n', re.M)


def told_alike(tool, text):
    """The tool prints the same of both, but for what the answers tell; a line's number, if it prints any, is that of
    the line."""
    here, there = (run('dist/' + tool, input=one.encode()).stdout.decode() for one in (text, asked(text)))
    if tool == 'who':
        here = re.sub(r'(?<= )([0-9]+)(?= \S+$)', lambda at: str(int(at[1]) * 5 - 4), here, flags=re.M)
    here, there = OF_STATUS.sub('', here), OF_STATUS.sub('', there)
    if here != there:
        raise Wrong('%s: wanted\n%sand got\n%s' % (tool, here, there))


def how_things_stand_between():
    """Answers to `status` between all other lines change nothing of what the tools tell of these. A line of an answer
    that was cut, with another line behind it, is passed over."""
    whole = journal('keep.journal', 'keep.totals')
    for text in (journal('keep.journal'), whole, plain(journal('keep.journal')), plain(whole)):
        for tool in ('who', 'bill', 'keep-metrics'):
            told_alike(tool, text)
    last = '3.1 from' + plain(whole).split('3.1 from', 1)[1]
    answers, totals = asked(last.split('mount ')[0]), 'mount ' + last.split('mount ', 1)[1]
    if drawn((answers + totals).encode()).stdout != drawn(last.encode()).stdout:
        raise Wrong('another picture')
    cut = ''.join('%s%s\n' % (STANDS[0][:at], '0.9 end rover:a 5 0 0 rover-end') for at in range(1, 20))
    for tool in ('who', 'bill', 'keep-metrics'):
        done = run('dist/' + tool, input=cut.encode())
        if done.returncode != 1 or done.stdout:
            raise Wrong('%s: %s' % (tool, show(done.stdout)))


def status_by_the_fifo():
    """A line `status` that is written to the FIFO of caster-run, by one who closes it again, is answered, and then
    the line `stop` is heard."""
    folder = os.path.join(WORK, 'run')
    os.makedirs(folder)
    with open(os.path.join(WORK, 'run.log'), 'w+b') as log:
        more = dict(os.environ, CASTER=PROGRAM, RUNTIME_DIRECTORY=folder)
        address = '127.0.0.1:%d' % free_port()
        process = subprocess.Popen(['dist/caster-run', write('run.toml', config(3, ['ALPHA', 'BRAVO'])), address, '0'],
                                   stdin=subprocess.DEVNULL, stdout=log, env=more)
        processes.append(process)
        answer = 'now mount ALPHA 0 -\nnow mount BRAVO 0 -\nnow workers 0 3\nnow end\n'
        for word, wanted in [('status', answer), ('status', answer * 2)]:
            until = time.monotonic() + PATIENCE
            while not os.path.exists(folder + '/stop') and time.monotonic() < until:
                time.sleep(0.05)
            passes('sh', '-c', 'echo %s >%s/stop' % (word, folder))
            while text_of(log.name) != wanted:
                if time.monotonic() > until:
                    raise Wrong('the lines are\n%s' % text_of(log.name))
                time.sleep(0.05)
        passes('sh', '-c', 'echo stop >%s/stop' % folder)
        if process.wait(timeout=PATIENCE) or not text_of(log.name).startswith(answer * 2 + 'mount ALPHA 0 0\n'):
            raise Wrong('status %d, and the lines are\n%s' % (process.returncode, text_of(log.name)))


METRICS = '''# HELP caster_mount_held Whether a source or relay holds the mountpoint.
# TYPE caster_mount_held gauge
caster_mount_held{mount="ALPHA"} %d
caster_mount_held{mount="CHARLIE"} 0
# HELP caster_mount_claims_total Claims that were given.
# TYPE caster_mount_claims_total counter
caster_mount_claims_total{mount="ALPHA"} 2
caster_mount_claims_total{mount="CHARLIE"} 1
# HELP caster_mount_published Frames published in this run, as far as the lines tell.
# TYPE caster_mount_published gauge
caster_mount_published{mount="ALPHA"} %d
caster_mount_published{mount="BRAVO"} 0
%s# HELP caster_rovers Rovers that are open, by what they asked for.
# TYPE caster_rovers gauge
%s# HELP caster_relay_up Whether the relay of the mountpoint holds it.
# TYPE caster_relay_up gauge
caster_relay_up{mount="CHARLIE"} 0
# HELP caster_links Links that are open.
# TYPE caster_links gauge
caster_links{kind="other"} 0
caster_links{kind="relay"} 0
caster_links{kind="rover"} %d
caster_links{kind="source"} %d
# HELP caster_sessions_total Sessions of rovers that ended.
# TYPE caster_sessions_total counter
caster_sessions_total{account=""} 1
%scaster_sessions_total{account="rover1"} 3
# HELP caster_sent_total Frames sent in these.
# TYPE caster_sent_total counter
caster_sent_total{account=""} 3
%scaster_sent_total{account="rover1"} 129
# HELP caster_overrun_total Frames lost in these.
# TYPE caster_overrun_total counter
caster_overrun_total{account=""} 0
%scaster_overrun_total{account="rover1"} 10
# HELP caster_refusals_total Links that were refused.
# TYPE caster_refusals_total counter
caster_refusals_total{ending="password"} 1
caster_refusals_total{ending="taken"} 1
# HELP caster_workers Workers, as the last answer to status says.
# TYPE caster_workers gauge
# HELP caster_workers_busy Workers with a connection, as the last answer to status says.
# TYPE caster_workers_busy gauge
# HELP caster_status_answers_total Answers to status.
# TYPE caster_status_answers_total counter
caster_status_answers_total 0
# HELP caster_lines_passed_over_total Lines that were none of a caster.
# TYPE caster_lines_passed_over_total counter
caster_lines_passed_over_total %d
'''


def metrics():
    """The text for the node exporter while the caster goes on, and behind its totals; in a file, which is there
    soon behind a line, and without one."""
    other = 'caster_%s_total{account="rover\\"2\\\\"} %d\n'
    open_run, whole_run = plain(journal('keep.journal')), plain(journal('keep.journal', 'keep.totals'))
    rovers = 'caster_rovers{mount="ALPHA"} %d\ncaster_rovers{mount="BRAVO"} 0\ncaster_rovers{mount="NEAR"} 0\n'
    wanted = METRICS % (1, 52, '', rovers % 1, 1, 1, '', '', '', 0)
    prints('keep-metrics', open_run, wanted)
    end = (0, 61, 'caster_mount_published{mount="CHARLIE"} 0\n', rovers % 0, 0, 0,
           other % ('sessions', 1), other % ('sent', 19), other % ('overrun', 0))
    behind = METRICS % (*end, 0)
    prints('keep-metrics', whole_run, behind)
    prints('keep-metrics', journal('keep.journal'), wanted)
    prints('keep-metrics', journal('keep.journal', 'keep.totals'), behind)
    cuts = ['0.1 end rover:a 5 0 0 rover-end'[:cut] + '0.1 from 127.0.0.1:9' for cut in range(18, 31)]
    prints('keep-metrics', whole_run + '0.1 lap x\n4.1 segment ALPHA\nmount ALPHA\n' + '\n'.join(cuts + ['']),
           METRICS % (*end, 3 + len(cuts)))
    path = os.path.join(WORK, 'caster.prom')
    process = subprocess.Popen(['dist/keep-metrics', path], stdin=subprocess.PIPE)
    processes.append(process)
    half = len(open_run) // 2
    for text, says in [(open_run[:half], None), (open_run[half:], wanted), (whole_run[len(open_run):], behind)]:
        process.stdin.write(text.encode())
        process.stdin.flush()
        until = time.monotonic() + PATIENCE
        while not os.path.exists(path) or says and text_of(path) != says:
            if time.monotonic() > until:
                raise Wrong('the file has\n%s' % (text_of(path) if os.path.exists(path) else 'nothing'))
            time.sleep(0.05)
    process.stdin.close()
    if process.wait(timeout=PATIENCE) or text_of(path) != behind or os.path.exists(path + '.new'):
        raise Wrong('at the end: status %d' % process.returncode)


def short(text):
    """The same lines as journalctl prints them in its default form: a time without a year."""
    months = {'11': 'Nov', '12': 'Dec'}
    return re.sub(r'^[0-9]{4}-([0-9]{2})-([0-9]{2})T([0-9:]{8})\S+',
                  lambda at: '%s %s %s' % (months[at[1]], at[2], at[3]), text, flags=re.M)


def default_form():
    """Lines of `journalctl -u caster` in its default form are understood, and who is on has the time as it stands
    there."""
    whole, open_run = journal('keep.journal', 'keep.totals'), journal('keep.journal')
    if 'Nov 29 00:02:01 field caster[733]: 3.2 from' not in short(open_run):
        raise Wrong('no default form: %s' % short(open_run)[:300])
    prints('who', short(open_run), '0.1 source - ALPHA 203.0.113.1:50022 31 Nov_29_00:01:06\n'
           '3.2 rover rover"2\\ ALPHA 203.0.113.7:50025 42 Nov_29_00:02:01\n')
    padded = short(whole).replace('Nov 29 ', 'Nov  9 ')
    for text in (whole, open_run):
        prints('keep-metrics', short(text), passes('dist/keep-metrics', input=text.encode()).decode())
    prints('keep-metrics', padded, passes('dist/keep-metrics', input=whole.encode()).decode())


def none_known():
    """Where lines came and none is one of `caster keep`, each tool says so and ends with 1. What the journal and
    systemd say themselves are no such lines; a line that is known is enough, whatever it says."""
    said = '2026-11-29T00:01:05+0000 field systemd[1]: Started caster.service - NTRIP caster.\n'
    for tool in ('who', 'bill', 'keep-metrics'):
        for text in ('hello\n', '{"MESSAGE": "hello"}\n{"MESSAGE": 0}\n', 'hello\n' + said):
            done = run('dist/' + tool, input=text.encode())
            name = ('caster-%s: none of %d line' % (tool, text.count('\n') - text.count('systemd'))).encode()
            if done.returncode != 1 or done.stdout or not done.stderr.startswith(name) or done.stderr.count(b'\n') != 1:
                raise Wrong('%s of %r: status %d, %s %s'
                            % (tool, text, done.returncode, show(done.stdout), show(done.stderr)))
        nothing = passes('dist/' + tool, input=b'').decode()
        for text in ('-- No entries --\n', said, short(said), 'network fault\n', '0.1 end - 0 0 0 no-head\n',
                     'account rover1 0 0 0\n'):
            prints(tool, text, nothing)
    done = run('dist/who', input=b'hello\nnow end\n')
    if done.returncode or done.stderr != b'caster-who: passed over 1 of 2 lines, which are none of caster keep\n':
        raise Wrong('status %d, %s' % (done.returncode, show(done.stderr)))
    # As the lines come: said once, while it goes on.
    path = os.path.join(WORK, 'none.prom')
    process = subprocess.Popen(['dist/keep-metrics', path], stdin=subprocess.PIPE, stderr=subprocess.PIPE)
    processes.append(process)
    process.stdin.write(b'hello\n')
    process.stdin.flush()
    if not process.stderr.readline().startswith(b'caster-keep-metrics: none of 1 line'):
        raise Wrong('another word')
    if process.communicate(b'hello\n', timeout=PATIENCE)[1] or process.returncode != 1:
        raise Wrong('status %d at the end' % process.returncode)


# Two links at one mountpoint and a relay's, by hand from FORMATS: each line, and which mountpoints are held behind it.
HELD = [('0.1 from 203.0.113.1:1', ''), ('0.1 asks 1 source ALPHA -', ''), ('0.1 source ALPHA 1', 'ALPHA'),
        ('4.1 to 198.51.100.9:2101', 'ALPHA'), ('4.1 end relay:CHARLIE 0 0 0 upstream 404', 'ALPHA'),
        ('4.2 to 198.51.100.9:2101', 'ALPHA'), ('4.2 relay CHARLIE 1', 'ALPHA CHARLIE'),
        # The second base has the claim before the first one's last line is there.
        ('1.1 from 203.0.113.2:1', 'ALPHA CHARLIE'), ('1.1 source ALPHA 2', 'ALPHA CHARLIE'),
        ('0.1 end source:ALPHA 0 0 0 read-fault', 'ALPHA CHARLIE'),
        # One that is turned away, or comes to its end before it has a head, sets nothing free.
        ('2.1 from 203.0.113.3:1', 'ALPHA CHARLIE'), ('2.1 end - 0 0 0 taken 1 2', 'ALPHA CHARLIE'),
        ('0.2 from 203.0.113.1:2', 'ALPHA CHARLIE'), ('1.1 end source:ALPHA 0 0 0 source-end 2', 'CHARLIE'),
        ('0.2 source ALPHA 3', 'ALPHA CHARLIE'), ('0.2 end source:ALPHA 0 0 0 source-end 3', 'CHARLIE'),
        ('4.2 end relay:CHARLIE 0 0 0 source-end 1', ''),
        # Dialled again in vain while a source of its own holds the mountpoint.
        ('0.3 from 203.0.113.1:3', ''), ('0.3 source CHARLIE 2', 'CHARLIE'), ('4.3 to 198.51.100.9:2101', 'CHARLIE'),
        ('4.3 end relay:CHARLIE 0 0 0 taken 0 2', 'CHARLIE'),
        # Another run, killed before it told of its ends, and a third one whose claim shows it.
        ('0.1 from 203.0.113.1:4', ''), ('0.1 source ALPHA 1', 'ALPHA'), ('1.1 from 203.0.113.1:5', 'ALPHA'),
        ('3.1 from 203.0.113.1:6', 'ALPHA'), ('3.1 source ALPHA 1', 'ALPHA'),
        ('3.1 end source:ALPHA 0 0 0 source-end 1', '')]


def held_mounts():
    """Behind each line a mountpoint is held exactly where it is: by the link that was told its last claim."""
    for count in range(1, len(HELD) + 1):
        text = ''.join(line + '\n' for line, _ in HELD[:count])
        got = re.findall(r'^caster_mount_held\{mount="(\w+)"\} 1$',
                         passes('dist/keep-metrics', input=text.encode()).decode(), re.M)
        if ' '.join(got) != HELD[count - 1][1]:
            raise Wrong('behind %r: %s' % (HELD[count - 1][0], got))
    # The lines begin in the midst of a run.
    prints_held = passes('dist/keep-metrics', input=b'0.9 end source:ALPHA 0 0 0 source-end 7\n').decode()
    if 'caster_mount_held{mount="ALPHA"} 0\n' not in prints_held:
        raise Wrong(prints_held)


CASES = [the_example_picture, large_picture, cut_pictures, picture_of_links, who_is_on, metrics, default_form,
         none_known, held_mounts, how_things_stand_between, status_by_the_fifo]
