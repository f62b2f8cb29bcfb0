"""Cases of what reads the lines of a caster: its grammar, the forms in which lines come, lines of any bytes, and who was
refused."""
import ast
import collections
import functools
import glob
import json
import random
import re
import sys

from common import *
from tools import asked, journal, plain, prints

sys.path[:0] = ['dist', 'tests/keep']
sys.dont_write_bytecode = True
import books
from lines import grammar

WHOLE = ['keep.journal', 'keep.totals']


# ---- the grammar

def section_of(title):
    return text_of('docs/FORMATS.md').split('\n## %s\n' % title)[1].split('\n## ')[0]


def first_column(text):
    """What stands in the first column of each row of the tables, between backticks."""
    return [form for row in re.findall(r'^\| (`.*?) \|(?! ---)', text, re.M) for form in re.findall('`([^`]+)`', row)]


def indented(text, beginning):
    """The indented block whose first line begins so."""
    block = re.search(r'^    %s.*(?:\n    .*)*' % beginning, text, re.M)
    return [line.strip() for line in block[0].split('\n')]


def same(what, got, wanted):
    if list(got) != list(wanted):
        raise Wrong('%s: the table has\n%s\nand FORMATS\n%s' % (what, '\n'.join(got), '\n'.join(wanted)))


def grammar_of_formats():
    """The table of the lines is that of docs/FORMATS.md, line by line: those of a connection, of how things stand, of a
    report, of a status, and the endings."""
    links = section_of('Lines of a connection')
    same('a connection', grammar.LINK, [form.replace('\\|', '|') for form in first_column(links)])
    same('how things stand', grammar.NOW, first_column(section_of('Lines of how things stand')))
    report = section_of('The report')
    same('a report', grammar.REPORT, indented(report, 'connection K'))
    same('the last lines', grammar.LAST, indented(report, 'mount NAME'))
    more = re.search(r'or one of three more: (.*?)\. ', links, re.S)[1]
    endings = first_column(report) + [word for word in re.findall('`([^`]+)`', more)]
    same('endings', sorted(grammar.ENDINGS), sorted(endings))
    faults = [one for row in re.findall(r'^\| [0-9, ]+ \| (.*?) \|', section_of('Exit statuses'), re.M)
              for one in re.findall('(?<!of )(?<!for )`([^`]+)`', row)]
    faults = [form.replace('configuration:', 'configuration: TEST KEY') if form == 'configuration:' else form
              for form in faults]
    same('faults', sorted(set(grammar.FAULTS)), sorted(set(faults)))
    tests = re.findall(r'^\| \*(\w+)\* \|', section_of('Configuration'), re.M)
    same('tests of a configuration', grammar.WORDS['TEST'].split('|'), tests)


def python_39():
    """Its sources are Python 3.9, and import nothing but what Python has."""
    for path in ['dist/caster-lines', *glob.glob('dist/lines/*.py')]:
        tree = ast.parse(text_of(path), path, feature_version=(3, 9))
        for node in ast.walk(tree):
            names = [one.name for one in node.names] if isinstance(node, ast.Import) else [
                node.module] if isinstance(node, ast.ImportFrom) else []
            for name in names:
                if name.split('.')[0] not in {*getattr(sys, 'stdlib_module_names', [name]), 'lines', 'tomllib'}:
                    raise Wrong('%s imports %s' % (path, name))
        if len(text_of(path).splitlines()) > 800:
            raise Wrong('%s is too long' % path)


# ---- the forms in which lines come

FRONT = re.compile(r'^([0-9]{4})-([0-9]{2})-([0-9]{2})T([0-9:]{8})\+0000 field (\w+)\[([0-9]+)\]: ', re.M)
MONTHS = ['', 'Jan', 'Feb', 'Mar', 'Apr', 'May', 'Jun', 'Jul', 'Aug', 'Sep', 'Oct', 'Nov', 'Dec']


def entry_of(line):
    front = FRONT.match(line)
    if not front:
        return None
    year, month, day, clock, process, number = front.groups()
    hours, minutes, seconds = map(int, clock.split(':'))
    # 2026-11-28 is the day 20785 of 1970.
    at = ((20785 + int(day) - 28) * 24 + hours) * 3600 + minutes * 60 + seconds
    return dict(year=year, month=MONTHS[int(month)], day=day, clock=clock, process=process, number=number, at=at,
                text=line[front.end():])


def as_json(entry):
    text = entry['text']
    message = list(text.encode()) if '"' in text else text
    return json.dumps({'_HOSTNAME': 'field', '__REALTIME_TIMESTAMP': '%d000000' % entry['at'], 'PRIORITY': '6',
                       'SYSLOG_IDENTIFIER': entry['process'], '_PID': entry['number'], 'MESSAGE': message})


FORMS = {
    'short': '{month} {day} {clock} field {process}[{number}]: {text}',
    'short-precise': '{month} {day} {clock}.000123 field {process}[{number}]: {text}',
    'short-iso': '{year}-11-{day}T{clock}+00:00 field {process}[{number}]: {text}',
    'short-iso-precise': '{year}-11-{day}T{clock}.000123+0000 field {process}[{number}]: {text}',
    'short-full': 'Sat {year}-11-{day} {clock} UTC field {process}[{number}]: {text}',
    'with-unit': 'Sat {year}-11-{day} {clock} UTC field {process}.service[{number}]: {text}',
    'short-unix': '{at}.000123 field {process}[{number}]: {text}',
    'no-hostname': '{year}-11-{day}T{clock}+0000 {process}[{number}]: {text}'}


def in_form(form, text):
    """The same lines in another form of the journal; what the journal says itself stays."""
    lines = []
    for line in text.splitlines():
        entry = entry_of(line)
        if not entry:
            lines.append(line)
        elif form == 'json':
            lines.append(as_json(entry))
        else:
            unit = dict(entry, process='init.scope') if form == 'with-unit' and entry['process'] == 'systemd' else entry
            lines.append(FORMS[form].format(**unit).replace('init.scope.service', 'init.scope'))
    return ''.join(line + '\n' for line in lines)


def forms_of_the_journal():
    """In each form of journalctl the tools tell the same; only the times of who is on are those of the form."""
    whole, open_run = journal(*WHOLE), journal('keep.journal')
    for text in (whole, open_run):
        wanted = {tool: passes('dist/' + tool, input=text.encode()).decode() for tool in ('who', 'bill', 'keep-metrics')}
        for form in [*FORMS, 'json']:
            formed = in_form(form, text)
            if FRONT.search(formed):
                raise Wrong('%s is no other form' % form)
            prints('keep-metrics', formed, wanted['keep-metrics'])
            prints('bill', formed, wanted['bill'], '--year', '2026')
            got = passes('dist/who', input=formed.encode()).decode()
            if [line.split(' ')[:6] for line in got.splitlines()] != [
                    line.split(' ')[:6] for line in wanted['who'].splitlines()]:
                raise Wrong('%s: %s' % (form, got))
    last = journal(*WHOLE).split('3.1 from', 1)[1]
    last = '2026-11-29T00:01:05+0000 field caster[733]: 3.1 from' + last
    picture = run('dist/draw-report', input=plain(last).encode()).stdout
    for form in [*FORMS, 'json']:
        if run('dist/draw-report', input=in_form(form, last).encode()).stdout != picture or b'<svg' not in picture:
            raise Wrong('%s: another picture' % form)


REMOTE = '/lib/systemd/systemd-journal-remote'


def exported(text):
    """The lines as the journal exports its entries."""
    entries = []
    for at, line in enumerate(text.splitlines(), 1):
        entry = entry_of(line)
        if entry:
            entry['unit'] = 'init.scope' if entry['process'] == 'systemd' else entry['process'] + '.service'
            entries.append('__REALTIME_TIMESTAMP=%d%06d\n__MONOTONIC_TIMESTAMP=%d\n_BOOT_ID=%s\n_HOSTNAME=field\n'
                           'SYSLOG_IDENTIFIER=%s\n_PID=%s\n_SYSTEMD_UNIT=%s\nMESSAGE=%s\n\n'
                           % (entry['at'], at, at, 'ab' * 16, entry['process'], entry['number'], entry['unit'],
                              entry['text']))
    return ''.join(entries)


def forms_of_journalctl():
    """The same of what journalctl itself prints of a journal that has these lines, in each of its forms."""
    need('journalctl')
    if not os.path.exists(REMOTE):
        raise Missing('systemd-journal-remote')
    text, path = journal('keep.journal'), os.path.join(WORK, 'keep-test.journal')
    done = run(REMOTE, '-o', path, '-', input=exported(text).encode())
    if done.returncode:
        raise Wrong(show(done.stderr))
    wanted = {tool: passes('dist/' + tool, input=text.encode()).decode() for tool in ('who', 'bill', 'keep-metrics')}
    # It has no line of the start, so a line's number is one less.
    on = [line.split(' ')[:5] + [str(int(line.split(' ')[5]) - 1)] for line in wanted['who'].splitlines()]
    for form in [*(set(FORMS) - {'no-hostname'}), 'json', 'short-monotonic']:
        shown = passes('journalctl', '--file', path, '-o', form, env=dict(os.environ, TZ='UTC', LC_ALL='C')).decode()
        prints('keep-metrics', shown, wanted['keep-metrics'])
        got = passes('dist/who', input=shown.encode()).decode()
        if [line.split(' ')[:6] for line in got.splitlines()] != on:
            raise Wrong('%s: %s' % (form, got))
        if form != 'short-monotonic':
            prints('bill', shown, wanted['bill'], '--year', '2026')
    shown = passes('journalctl', '--file', path, '-o', 'cat').decode()
    prints('who', shown, ''.join(' '.join(words) + ' -\n' for words in on))


def files_and_boots():
    """Lines of several files are those of one. A start of the machine ends a run, also where the process has the same
    number as before."""
    text = journal('keep.journal')
    lines = text.splitlines(True)
    paths = [write('part-%d' % at, ''.join(part)) for at, part in enumerate([lines[:20], lines[20:]])]
    for tool in ('who', 'bill'):
        if passes('dist/' + tool, *paths) != passes('dist/' + tool, input=text.encode()):
            raise Wrong(tool)
    if run('dist/who', WORK + '/nothing-there').returncode != 2:
        raise Wrong('a file that is not there')
    front = '2026-11-29T00:01:06+0000 field caster[70]: '
    run_1, run_2 = front + '0.1 from 127.0.0.1:1\n', front + '1.1 from 127.0.0.1:2\n'
    on = '%s - - - 127.0.0.1:%d %d 2026-11-29T00:01:06+0000\n'
    prints('who', run_1 + run_2, on % ('0.1', 1, 1) + on % ('1.1', 2, 2))
    prints('who', run_1 + '-- Boot 5d2f0c7d9a0b4d3e8a2f19c1b7e0a6d4 --\n' + run_2, on % ('1.1', 2, 3))


# ---- lines of any bytes

def is_known(text):
    """Whether this is a line of FORMATS, by another reader of it."""
    if books.NOW_LINE.fullmatch(text) or books.LAST_LINE.fullmatch(text):
        return True
    return books.LINK_LINE.fullmatch(text) is not None


def mutated(draw, line):
    """The line with a change or two of bytes, of words, or of its length."""
    for _ in range(draw.choice([1, 1, 2, 3])):
        at = draw.randrange(len(line) + 1)
        change = draw.randrange(6)
        if change == 0:
            line = line[:at] + bytes([draw.randrange(256)]) + line[at + 1:]
        elif change == 1:
            line = line[:at] + line[at + draw.randrange(1, 9):]
        elif change == 2:
            line = line[:at] + bytes(draw.randrange(256) for _ in range(draw.randrange(1, 9))) + line[at:]
        elif change == 3:
            line = line[:at] + line
        elif change == 4:
            words = line.split(b' ')
            line = b' '.join(words + [draw.choice(words)] if draw.randrange(2) else draw.sample(words, len(words)))
        else:
            line = line[:at] + draw.choice([b'9' * 5000, b'\0', b' ', b'  ', b'\r', b'{', b'[' * 3000, b'"', b'-- ', b']: '])
    return line.replace(b'\n', b'')


def is_harmless(line):
    """Whether no part of it is a line of its own, and the journal does not say it."""
    text = line.decode('latin-1')
    starts = [0] + [at.end() for at in re.finditer(' ', text)]
    return not text.startswith('-- ') and 'systemd[' not in text and not any(is_known(text[start:]) for start in starts)


@functools.lru_cache(None)
def with_mutated(text, count, seed):
    """The text with so many mutated lines of it between its lines, none of which is known."""
    draw, lines = random.Random(seed), text.encode().splitlines()
    strange = []
    while len(strange) < count:
        line = mutated(draw, draw.choice(lines))
        if is_harmless(line):
            strange.append(line)
    places = sorted(draw.randrange(len(lines) + 1) for _ in strange)
    mixed = []
    for at, line in enumerate(lines + [b'']):
        while places and places[0] <= at:
            places.pop(0)
            mixed.append(strange.pop())
        mixed.append(line)
    return b'\n'.join(mixed)


def told_by(tool, lines):
    """What a word says of these lines, without the numbers of lines and how many were passed over; of the page its
    state, without when it was written."""
    if tool != 'page':
        done = run('dist/' + tool, input=lines)
        numbered = rb'(?m)( [0-9]+)(?= \S+$)|^caster_lines_passed_over_total .*'
        return done, re.sub(numbered, b'', done.stdout) if tool in ('who', 'keep-metrics') else done.stdout
    folder = os.path.join(WORK, 'mutated')
    os.makedirs(folder, exist_ok=True)
    done = run('dist/caster-lines', 'page', folder, input=lines)
    return done, re.sub('"(written|passed_over)": [0-9]+', '', text_of(folder + '/state.json')).encode()


def mutated_lines():
    """20,000 mutated lines between those of a run neither stop a word nor change what it tells of the others; how many
    were passed over it says."""
    whole, open_run = journal(*WHOLE), journal('keep.journal')
    last = '3.1 from' + plain(whole).split('3.1 from', 1)[1]
    texts = {'who': [open_run, plain(open_run)], 'bill': [whole, plain(open_run)], 'draw-report': [last],
             'keep-metrics': [whole, plain(open_run)], 'page': [whole, asked(open_run)]}
    for tool, some in texts.items():
        for seed, text in enumerate(some):
            count = 20000 // len(some)
            mixed, got = told_by(tool, with_mutated(text, count, seed))
            alone, wanted = told_by(tool, text.encode())
            if mixed.returncode or alone.returncode or b'passed over %d of ' % count not in mixed.stderr:
                raise Wrong('%s: status %d, %s' % (tool, mixed.returncode, show(mixed.stderr)))
            if got != wanted or not wanted:
                raise Wrong('%s: wanted\n%s\nand got\n%s' % (tool, wanted.decode(), got.decode()))


def mutated_configurations():
    """2,000 configurations with some 20,000 mutated lines do not break `lint`."""
    draw, text = random.Random(5), text_of('examples/caster.toml').encode()
    for _ in range(20):
        paths = []
        for number in range(100):
            path = os.path.join(WORK, 'mutated-%d.toml' % number)
            with open(path, 'wb') as file:
                file.write(b'\n'.join(mutated(draw, line) if draw.randrange(7) == 0 else line for line in text.split(b'\n')))
            paths.append(path)
        done = run('dist/caster-lines', 'lint', *paths)
        if done.returncode not in (0, 1) or done.stderr:
            raise Wrong('status %d, %s' % (done.returncode, show(done.stderr)))


def endless_lines():
    """A line of 50 MB and one that never ends are each one line that is not known, and take no memory."""
    line = b'0.1 end rover:a 5 0 0 rover-end\n'
    endless = b'x' * 50_000_000
    done = run('sh', '-c', 'ulimit -v 200000; exec dist/bill', input=line + endless + b'\n' + line + endless)
    if done.stdout != b'- rover:a 2 10 0 - 0 -\n' or b'passed over 2 of 4 lines' not in done.stderr:
        raise Wrong('status %d, %s %s' % (done.returncode, show(done.stdout), show(done.stderr)))


# ---- who was refused

def visits(front=''):
    """Lines of connections from some addresses, most of them refused, and how often each was refused and why."""
    wanted, lines, number = collections.Counter(), [], 0
    for address, ending, count in [('203.0.113.3', 'password 1', 7), ('203.0.113.3', 'no-account', 2),
                                   ('[::ffff:203.0.113.4]', 'no-account', 5), ('[2001:db8::7]', 'source-password', 3),
                                   ('203.0.113.5', 'no-mount', 4), ('203.0.113.6', 'table-sent', 9),
                                   ('203.0.113.6', 'no-head', 9), ('203.0.113.8', 'password 2 unsettled', 1)]:
        host = address.strip('[]').replace('::ffff:', '')
        for _ in range(count):
            number += 1
            name = '%d.%d' % (number % 7, number // 7 + 1)
            lines += ['%s%s from %s:%d' % (front, name, address, 40000 + number),
                      '%s%s asks 1 rover ALPHA rover1' % (front, name), '%s%s end - 0 0 0 %s' % (front, name, ending)]
            wanted[host, ending.split(' ')[0]] += 1
    lines += [front + '0.90 from 203.0.113.9:5', front + '0.90 rover rover1', front + '0.90 end rover:rover1 0 0 0 rover-end']
    return ''.join(line + '\n' for line in lines), wanted


def refused_addresses():
    """`who --refused` lists addresses by their refusals, without those that were let in or asked for the table."""
    wanted = ('203.0.113.3 9 password 7 no-account 2\n203.0.113.4 5 no-account 5\n203.0.113.5 4 no-mount 4\n'
              '2001:db8::7 3 source-password 3\n203.0.113.8 1 password 1\n')
    for front in ('', '2026-11-29T00:01:06+0000 field caster[70]: '):
        prints('who', visits(front)[0], wanted, '--refused')
    many = ''.join('0.%d from 10.%d.%d.%d:9\n0.%d end - 0 0 0 no-head\n0.%d from 10.9.9.9:1\n0.%d end - 0 0 0 no-account\n'
                   '1.%d from 11.%d.%d.%d:9\n1.%d end - 0 0 0 no-account\n'
                   % (2 * at + 1, at >> 16, at >> 8 & 255, at & 255, 2 * at + 1, 2 * at + 2, 2 * at + 2, at + 1,
                      at >> 16, at >> 8 & 255, at & 255, at + 1) for at in range(30000))
    done = run('dist/caster-lines', 'who', '--refused', input=many.encode())
    first, *rest = done.stdout.decode().splitlines()
    if first != '10.9.9.9 30000 no-account 30000' or len(rest) > 20000 or b'forgotten' not in done.stderr:
        raise Wrong('%s and %d more, %s' % (first, len(rest), show(done.stderr)))


def fail2ban():
    """dist/fail2ban/caster.conf finds each refusal for a wrong user or password, by its address, in lines of the journal
    and of a file; a run that begins anew takes no address of the one before."""
    need('fail2ban-regex')
    text, wanted = visits('2026-11-29T00:01:06+0000 field caster[70]: ')
    text += '2026-11-29T00:01:16+0000 field caster[71]: 0.1 from 203.0.113.77:1\n'
    text += '2026-11-29T00:01:16+0000 field caster[71]: 0.1 end - 0 0 0 no-account\n'
    wanted['203.0.113.77', 'no-account'] += 1
    # What a client can have in its lines: a target and a user that look like others.
    text += ('2026-11-29T00:01:16+0000 field caster[71]: 1.1 from 203.0.113.78:1\n'
             '2026-11-29T00:01:16+0000 field caster[71]: 1.1 asks 1 rover from 203.0.113.99\n'
             '2026-11-29T00:01:16+0000 field caster[71]: 1.1 end - 0 0 0 no-mount\n')
    found = sorted(host for (host, ending), count in wanted.items() for _ in range(count)
                   if ending in ('password', 'no-account', 'source-password'))
    for form in ('short', 'short-iso', 'short-precise', 'with-unit', None):
        path = write('fail2ban.%s' % form, in_form(form, text) if form else plain(text))
        done = run('fail2ban-regex', '-o', '<ip>', path, 'dist/fail2ban/caster.conf')
        if done.returncode or sorted(done.stdout.decode().split()) != found:
            raise Wrong('%s: status %d, %s %s' % (form, done.returncode, done.stdout.decode(), show(done.stderr)))


CASES = [mutated_lines, mutated_configurations, grammar_of_formats, python_39, forms_of_the_journal,
         forms_of_journalctl, files_and_boots, endless_lines, refused_addresses, fail2ban]
