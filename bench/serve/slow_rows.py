"""The rows of bench/serve/slow: what each is, what is allowed, and how what was seen compares with it."""
import collections
import statistics

# kind   paced, load or memory
# mount  paced: the mountpoint; rate: bytes a second, or None as they come; room: its receive buffer
# road   none on loopback, else milliseconds each way, and where the road has a rate bytes a second and those of its queue
# stop   when it stops to read, and for how long; then it is reset
# load   the words of bench/serve/run: sources, rovers, frames a second, seconds, bytes of a frame, ring
# checks what is allowed
Row = collections.namedtuple('Row', 'name text kind mount rate room road stop load checks')

UNITS = {'age': ' s', 'unread': ' KB', 'rate': ' KB/s', 'lost': '', 'p99': ' ms', 'processor': ' s', 'memory': ' MB'}

WORDS = {'age': 'age', 'unread': 'handed less read', 'rate': 'out', 'lost': 'overrun', 'p99': 'p99',
         'processor': 'processor', 'memory': "the system's memory", 'cut': 'cut', 'wrong': 'books'}


class AtMost:
    """In each run this measure is at most so much."""

    def __init__(self, measure, most):
        self.measure, self.most = measure, most

    def allowed(self, before):
        return 'at most %s%s' % (number(self.most), UNITS[self.measure]) if self.most else 'none'

    def holds(self, now, before):
        return all(one is not None and one <= self.most for one in now)


class Never:
    """In no run it comes to this: that the rover is cut, or something does not agree with the books."""

    def __init__(self, measure):
        self.measure = measure

    def allowed(self, before):
        return {'cut': 'never', 'wrong': 'as counted'}[self.measure]

    def holds(self, now, before):
        return all(one is None for one in now)


class Compared:
    """The median of the runs is at most, or where the factor is below 1 at least, so many times that of the program
    before."""

    def __init__(self, measure, factor):
        self.measure, self.factor = measure, factor

    def allowed(self, before):
        if not before:
            return 'compared'
        word = 'at most' if self.factor > 1 else 'at least'
        return '%s %s%s' % (word, number(self.factor * middle(before)), UNITS[self.measure])

    def holds(self, now, before):
        if not before:
            return True
        limit, seen = self.factor * middle(before), middle(now)
        return seen <= limit if self.factor > 1 else seen >= limit


def middle(values):
    return statistics.median(value for value in values if value is not None)


def number(value):
    if not isinstance(value, float):
        return str(value)
    return '%.0f' % value if value >= 1000 else '%.1f' % value if value >= 10 else '%.2f' % value


# ---- the rows

HOLDS = [Never('cut'), Never('wrong')]


def aged(name, text, mount, rate, room, most):
    """A rover that is slower than its base, on loopback and on a road of 40 ms there and back."""
    checks = [AtMost('age', most), *HOLDS]
    return [Row(name, text + ', loopback', 'paced', mount, rate, room, (), None, None, checks),
            Row(name + '-road', text + ', 40 ms', 'paced', mount, rate, room, (20,), None, None, checks)]


def away(name, text, mount, road, checks):
    """A rover that reads as it comes, far away."""
    return Row(name, text, 'paced', mount, None, None, road, None, None, checks + HOLDS)


def load(name, text, *words, most=()):
    checks = [*most, AtMost('lost', 0), Compared('p99', 1.1), Compared('processor', 1.2), Never('wrong')]
    return Row(name, text, 'load', None, None, None, None, None, words, checks)


ROWS = [
    *aged('20-10-4', '20 KB/s; 10 KB/s, 4 KB; 16 frames at 20 Hz', 'A', 10000, 4096, 4),
    *aged('20-10-16', '20 KB/s; 10 KB/s, 16 KB; 16 frames at 20 Hz', 'A', 10000, 16384, 7),
    *aged('4-2.5-8', '4 KB/s; 2.5 KB/s, 8 KB; 16 frames at 10 Hz', 'B', 2500, 8192, 12),
    *aged('2-1-4', '2 KB/s; 1 KB/s, 4 KB; 4 frames at 2 Hz', 'C', 1000, 4096, 16),
    *aged('0.7-0.5-8', '0.7 KB/s; 0.5 KB/s, 8 KB; 4 frames at 1 Hz', 'D', 500, 8192, 34),
    away('link', '20 KB/s; a link of 10 KB/s, queue of 100 KB, 40 ms, cubic, default buffers; 16 frames', 'A',
         (20, 10000, 100000), [AtMost('age', 3)]),
    Row('stop', '20 KB/s; stops for 30 s (4 KB), then is reset; 16 frames', 'paced', 'A', None, 4096, (), (5, 30), None,
        [AtMost('unread', 40), Never('wrong')]),
    Row('memory', '200 rovers that read nothing, 300 frames a second, loopback, 4 KB', 'memory', None, None, None, None,
        None, None, [AtMost('memory', 10)]),
    away('far', '400 KB/s over 200 ms; 256 frames', 'FAR', (100,), [Compared('rate', 0.9), Compared('lost', 1.1)]),
    away('farther', '20 KB/s over 600 ms; 16 frames', 'A', (300,), [Compared('rate', 0.9), AtMost('lost', 0)]),
    away('burst', '10 KB at once each second over 200 ms; 64 frames', 'BURST', (100,),
         [Compared('p99', 1.1), AtMost('lost', 0)]),
    load('480', '16 MB/s in, 480 MB/s out to 30 rovers, loopback; 4,096 frames', 1, 30, 16000, 10, 1000, 4096,
         most=[Compared('rate', 0.9)]),
    load('30', '1 frame of 1,000 bytes a second, 30 rovers, loopback', 1, 30, 1, 40, 1000, 256),
    load('250', '1 frame of 250 bytes a second, 250 rovers, loopback', 1, 250, 1, 26, 250, 256)]


# ---- what was seen

Line = collections.namedtuple('Line', 'row check now before holds')


def judge(runs, names):
    """A line for each row and check: what was seen in these runs of both programs."""
    lines = []
    for row in (row for row in ROWS if row.name in names):
        for check in row.checks:
            now, before = ([run[name][row.name].get(check.measure) for run in runs if name in run]
                           for name in ('now', 'before'))
            lines.append(Line(row, check, now, before, check.holds(now, before)))
    return lines


def values(check, some):
    return ', '.join('-' if one is None else number(one) for one in some) or '-'


def told(line):
    """A line in words for those who watch."""
    return '%-5s %-14s %-20s allowed %-22s seen %-24s before %s' % (
        'ok' if line.holds else 'ABOVE', line.row.name, WORDS[line.check.measure], line.check.allowed(line.before),
        values(line.check, line.now), values(line.check, line.before))


Line.text = told


def cell(check, some):
    """What was seen in these runs of one measure."""
    if not some:
        return '-'
    if check.measure == 'cut':
        return 'cut after %s s' % values(check, some) if any(some) else 'not cut'
    return '%s %s%s' % (WORDS[check.measure], values(check, some), UNITS[check.measure])


def table(runs, names):
    """In Markdown a line for each row, the runs one behind the other. That all was as counted is not repeated."""
    lines = judge(runs, names)
    text = '| Base; rover, its receive buffer; ring | Before | Now | Allowed |\n|---|---|---|---|\n'
    for row in (row for row in ROWS if row.name in names):
        told = [line for line in lines if line.row is row and line.check.measure != 'wrong']
        allowed = ['%s %s' % (WORDS[line.check.measure], line.check.allowed(line.before)) for line in told]
        text += '| %s | %s | %s | %s |\n' % (
            row.text, '; '.join(cell(line.check, line.before) for line in told),
            '; '.join(cell(line.check, line.now) for line in told), '; '.join(allowed))
    above = ['%s, %s' % (line.row.name, WORDS[line.check.measure]) for line in lines if not line.holds]
    return text + '\nAbove what is allowed: %s.\n' % ('; '.join(above) or 'nothing')
