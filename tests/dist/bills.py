"""Cases of the bill: by hand, and by what clients of the program counted themselves."""
import datetime
import re
import subprocess
import threading
import time

from common import *
from tools import journal, plain, prints, short

FIELD = '%s+0000 field caster[%d]: '


def by_days():
    """Sessions, frames and seconds by the day of their lines; the closing lines, which are sums of the same, count
    nothing. What the kill cut, and what is still open, counts up to its last line and is marked."""
    prints('bill', journal('keep.journal', 'keep.totals'),
           '2026-11-28 rover:rover1 1 87 10 116 0 0\n'
           '2026-11-29 anonymous 1 3 0 5 0 0\n'
           '2026-11-29 rover:rover"2\\ 1 19 0 59 0 0\n'
           '2026-11-29 rover:rover1 3 42 0 56 1 3\n')
    prints('bill', journal('keep.journal'),
           '2026-11-28 rover:rover1 1 87 10 116 0 0\n'
           '2026-11-29 anonymous 1 3 0 5 0 0\n'
           '2026-11-29 rover:rover"2\\ 1 0 0 0 1 11\n'
           '2026-11-29 rover:rover1 3 42 0 56 1 3\n')
    prints('bill', journal('keep.journal', 'keep.totals'),
           'period,who,sessions,sent,overrun,seconds,open,open_seconds\r\n'
           '2026-11,anonymous,1,3,0,5,0,0\r\n'
           '2026-11,"rover:rover""2\\",1,19,0,59,0,0\r\n'
           '2026-11,rover:rover1,4,129,10,172,1,3\r\n', '--csv', '--month')
    prints('bill', '', '')


def without_times():
    """Lines without times have no seconds and one period, and standard error says so."""
    text = plain(journal('keep.journal', 'keep.totals'))
    done = run('dist/bill', input=text.encode())
    wanted = ('- anonymous 1 3 0 - 0 -\n- rover:rover"2\\ 1 19 0 - 0 -\n- rover:rover1 4 129 10 - 1 -\n')
    if done.stdout.decode() != wanted or b'without times' not in done.stderr or done.returncode:
        raise Wrong('status %d, %s %s' % (done.returncode, show(done.stdout), show(done.stderr)))
    # Sums above 2^31.
    prints('bill', '0.%d end rover:a 4000000000 3000000000 0 rover-end\n' * 3 % (1, 2, 3),
           '- rover:a 3 12000000000 9000000000 - 0 -\n')
    # A line that was cut, with the first line of the next run behind it.
    cuts = ['0.1 end rover:a 5 0 0 rover-end'[:cut] + '0.1 from 127.0.0.1:9' for cut in range(18, 32)]
    prints('bill', '\n'.join(cuts + ['0.1 end rover:a 5 0 0 rover-end unsettled', '0.2 end rover:b 7', '']),
           '- rover:a 1 5 0 - 0 -\n')


def without_years():
    """Times without a year are of the one that is given, until a January follows a December; or of this year, and of the
    last one where the month is still to come. So it is with February 29, too."""
    text = short(journal('keep.journal', 'keep.totals'))
    prints('bill', text, passes('dist/bill', '--month', input=journal('keep.journal', 'keep.totals').encode()).decode(),
           '--month', '--year', '2026')
    months = 'Jan Feb Mar Apr May Jun Jul Aug Sep Oct Nov Dec'.split()
    today = datetime.date.today()
    session = '{0} 10:00:00 field caster[7]: 0.1 from 127.0.0.1:1\n{0} 10:00:00 field caster[7]: 0.1 rover a\n' \
              '{1} field caster[7]: 0.1 end rover:a 1 0 0 rover-end\n'
    for number, month in enumerate(months, 1):
        year = today.year - (number > today.month)
        prints('bill', session.format(month + '  5', month + '  5 10:00:09'),
               '%d-%02d-05 rover:a 1 1 0 9 0 0\n' % (year, number))
        prints('bill', session.format(month + '  5', month + '  5 10:00:09'),
               '1999-%02d-05 rover:a 1 1 0 9 0 0\n' % number, '--year', '1999')
    prints('bill', session.format('Dec 31', 'Jan  1 00:00:09'),
           '2025-12-31 rover:a 0 0 0 50400 0 0\n2026-01-01 rover:a 1 1 0 9 0 0\n', '--year', '2025')
    prints('bill', session.format('Feb 29', 'Feb 29 10:00:09'), '2024-02-29 rover:a 1 1 0 9 0 0\n', '--year', '2024')
    prints('bill', session.format('Feb 29', 'Feb 29 10:00:09'), '- rover:a 1 1 0 - 0 -\n', '--year', '2025')


def over_days():
    """A session that spans days has its seconds on each of them, also where the clock was put back an hour in between,
    and its frames on the day of its line `end`. What began before the lines do, and was cut between two lines of its
    receipt, has the rest as open."""
    lines = ['2026-10-24T22:00:00+0200 field caster[7]: 0.1 from 127.0.0.1:1',
             '2026-10-24T22:00:01+0200 field caster[7]: 0.1 rover a',
             '2026-10-26T01:00:00+0100 field caster[7]: 0.1 segment ALPHA 0 9 8 1',
             '2026-10-26T01:00:01+0100 field caster[7]: 0.1 end rover:a 8 1 0 rover-end']
    whole = ''.join(line + '\n' for line in lines)
    days = '2026-10-24 rover:a 0 0 0 7199 0 0\n2026-10-25 rover:a 0 0 0 90000 0 0\n'
    prints('bill', whole, days + '2026-10-26 rover:a 1 8 1 3601 0 0\n')
    prints('bill', whole, '2026-10 rover:a 1 8 1 100800 0 0\n', '--month')
    # Cut behind its segment, and the run goes on for an hour.
    more = '2026-10-26T02:00:00+0100 field caster[7]: now end\n'
    prints('bill', ''.join(line + '\n' for line in lines[:3]) + more, days + '2026-10-26 rover:a 1 8 1 3600 1 3600\n')
    # The lines begin an hour before its last ones.
    first = '2026-10-26T00:00:01+0100 field caster[7]: now end\n'
    prints('bill', first + ''.join(line + '\n' for line in lines[2:]), '2026-10-26 rover:a 1 8 1 1 0 3599\n')
    # A time of the year 9026 is none.
    prints('bill', whole.replace('2026-10-26T01:00:01', '9026-10-26T01:00:01'), '9026-10-26 rover:a 1 8 1 0 0 0\n')


# ---- what clients counted

class Stamped:
    """`caster keep`, each of whose lines gets the time at which it came, as the journal gives it, by a clock of ours."""

    lines, clock = [], None

    def __init__(self, number, path):
        self.port, self.number = free_port(), number
        self.process = subprocess.Popen([PROGRAM, 'keep', path, '127.0.0.1:%d' % self.port, '0'],
                                        stdin=subprocess.PIPE, stdout=subprocess.PIPE)
        processes.append(self.process)
        self.reader = threading.Thread(target=self.read, daemon=True)
        self.reader.start()

    def read(self):
        for line in self.process.stdout:
            self.lines.append(FIELD % (now().isoformat(timespec='microseconds'), self.number) + line.decode())

    def say(self, word):
        self.process.stdin.write(word.encode() + b'\n')
        self.process.stdin.flush()

    def waits_for(self, wanted, count=1):
        until = time.monotonic() + PATIENCE
        while sum('[%d]: ' % self.number in line and wanted in line for line in list(self.lines)) < count:
            if time.monotonic() > until:
                raise Wrong('%d lines with %r did not come' % (count, wanted))
            time.sleep(0.01)

    def kill(self):
        self.say('status')
        self.waits_for('now end')
        self.process.kill()
        self.reader.join(PATIENCE)


def now():
    return Stamped.clock + datetime.timedelta(seconds=time.monotonic() - Stamped.began)


class Rover:
    """A rover that keeps its own account: the frames that came, and two times between which it came on, and two between
    which it left."""

    def __init__(self, caster, user, earlier):
        head = rover_1('ALPHA', basic('leaf', 'secret')) if user == 'rover:leaf' else rover_1('ALPHA')
        self.begin = [now()]
        self.client, self.user, self.frames = Client(caster.port).send(head).expect(ICY), user, 0
        self.is_cut = False
        caster.waits_for(' rover ' + user.split(':')[-1].replace('anonymous', '-'), earlier + 1)
        self.begin.append(now())

    def hears(self, data, count):
        self.client.expect(data)
        self.frames += count

    def leaves(self, caster, earlier):
        self.end = [now()]
        self.client.close()
        caster.waits_for(' end ' + self.user, earlier + 1)
        self.end.append(now())

    def is_killed(self, before):
        self.end, self.is_cut = [before, now()], True
        self.client.expect_end()


def a_run(number, path, is_killed, ahead):
    """A base and three rovers, of which one leaves early; then the clock is put ahead, and all leave, or the caster is
    killed."""
    caster = Stamped(number, path)
    base = Client(caster.port).send(source_1('ALPHA', 'sesame')).expect(ICY)
    rovers = [Rover(caster, 'rover:leaf', 0), Rover(caster, 'anonymous', 0), Rover(caster, 'rover:leaf', 1)]
    base.send(A * 3)
    for rover in rovers:
        rover.hears(A * 3, 3)
    rovers[2].leaves(caster, 0)
    Stamped.clock += ahead
    base.send(A * 2)
    for rover in rovers[:2]:
        rover.hears(A * 2, 2)
    if is_killed:
        before = now()
        caster.kill()
        for rover in rovers[:2]:
            rover.is_killed(before)
        return rovers
    rovers[0].leaves(caster, 1)
    rovers[1].leaves(caster, 0)
    caster.say('stop')
    if caster.process.wait(timeout=PATIENCE):
        raise Wrong('status %d' % caster.process.returncode)
    caster.reader.join(PATIENCE)
    return rovers


def overlap(begin, end, day):
    """The seconds of this day that are between the two times."""
    begin = max(begin, datetime.datetime.combine(day, datetime.time()))
    end = min(end, datetime.datetime.combine(day + datetime.timedelta(1), datetime.time()))
    return max(0, (end - begin).total_seconds())


def spans(rovers, day):
    """The least and the most seconds of this day for which these rovers were on; a bill has whole seconds of each."""
    least = sum(overlap(rover.begin[1], rover.end[0], day) for rover in rovers)
    most = sum(overlap(rover.begin[0], rover.end[1], day) for rover in rovers)
    return least - len(rovers), most + len(rovers)


def counted(rovers):
    """What the clients counted: by day and user sessions, frames, sessions that were cut, and seconds of both."""
    days = sorted({rover.begin[0].date() for rover in rovers} | {rover.end[1].date() for rover in rovers})
    for day in days:
        for user in ('anonymous', 'rover:leaf'):
            own = [rover for rover in rovers if rover.user == user]
            ended = [rover for rover in own if rover.end[1].date() == day and not rover.is_cut]
            # A kill leaves no receipt: what a client was sent, its own count alone has.
            cut = [rover for rover in own if rover.begin[1].date() == day and rover.is_cut]
            yield ('%s %s' % (day, user), len(ended) + len(cut), sum(rover.frames for rover in ended), len(cut),
                   spans([rover for rover in own if not rover.is_cut], day),
                   spans([rover for rover in own if rover.is_cut], day))


def bill_of_clients():
    """Three runs of the program over midnight and the turn of a month, two of which are killed: the bill has what the
    clients counted. The clock is put ahead where nobody comes or goes, so no line is near midnight."""
    path = write('bill.toml', config(8))
    Stamped.lines, Stamped.began = [], time.monotonic()
    Stamped.clock = datetime.datetime(2026, 3, 31, 21)
    minute, hours = datetime.timedelta(minutes=1), datetime.timedelta(hours=6)
    rovers = [rover for number, is_killed, ahead in ((71, True, minute), (72, True, hours), (73, False, minute))
              for rover in a_run(number, path, is_killed, ahead)]
    text = ''.join(Stamped.lines)
    got = {}
    for line in passes('dist/bill', input=text.encode()).decode().splitlines():
        day, user, *numbers = line.split(' ')
        got['%s %s' % (day, user)] = list(map(int, numbers))
    if len({key[:10] for key in got}) != 2:
        raise Wrong('one day alone: %s' % got)
    for key, sessions, frames, cut, seconds, open_seconds in counted(rovers):
        row = got.pop(key, [0] * 6)
        if row[:3] != [sessions, frames, 0] or row[4] != cut:
            raise Wrong('%s: %s, and the clients counted %s' % (key, row, (sessions, frames, cut)))
        if not (seconds[0] <= row[3] <= seconds[1] and open_seconds[0] <= row[5] <= open_seconds[1]):
            raise Wrong('%s: %s, and the clients counted %s and %s seconds' % (key, row, seconds, open_seconds))
    if got:
        raise Wrong('rows of nobody: %s' % got)


CASES = [by_days, without_times, without_years, over_days, bill_of_clients]
