"""What can stand before a line: its time, and behind that the machine and the process that wrote it.

These are the forms of `journalctl -o short`, `short-precise`, `short-iso`, `short-iso-precise`, `short-full`,
`with-unit`, `short-unix`, `short-monotonic` and `json`, the times of syslog, and a time alone, as of `ts`.
"""
import datetime
import json
import re

MONTHS = ('Jan', 'Feb', 'Mar', 'Apr', 'May', 'Jun', 'Jul', 'Aug', 'Sep', 'Oct', 'Nov', 'Dec')
DAY = 86_400_000_000
EPOCH = datetime.date(1970, 1, 1).toordinal()

CLOCK = r'(?P<clock>[0-9]{2}:[0-9]{2}:[0-9]{2})(?:[.](?P<part>[0-9]{1,9}))?'
DATE = '(?P<date>[0-9]{4}-[0-9]{2}-[0-9]{2})'
TIMES = [re.compile(form) for form in (
    DATE + 'T' + CLOCK + '(?P<zone>Z|[+-][0-9]{2}:?[0-9]{2})?',
    '(?P<month>[^ ]{3,5}) +(?P<day>[0-9]{1,2}) ' + CLOCK,
    '[^ ]{2,5} ' + DATE + ' ' + CLOCK + ' (?P<name>[^ ]+)',
    r'(?P<epoch>[0-9]{9,11})[.](?P<part>[0-9]{6})',
    r'\[ *[0-9]+[.][0-9]+(?: <[^>]*>)?\]')]
PROCESS = re.compile(r' (?:[^ ]+ )?(?P<process>[^ \[]+(?:\[[0-9]+\])?):')

# Who else writes to the journal of a unit.
OTHERS = ('systemd[', 'init.scope[')
FORGET_ABOVE = 4096


class Moment:
    """A time of a line: its day as it stands there, and microseconds since 1970. `ahead` is how many of them its
    clock is ahead of UTC, and 0 where nobody says so."""

    __slots__ = ('day', 'at', 'ahead')

    def __init__(self, year, month, day, clock, part, ahead=0):
        date = datetime.date(year, month, day)
        hours, minutes, seconds = map(int, clock.split(':'))
        self.day, self.ahead = date.isoformat(), ahead
        self.at = (date.toordinal() - EPOCH) * DAY + ((hours * 60 + minutes) * 60 + seconds) * 1_000_000
        self.at += int((part or '0').ljust(6, '0')[:6]) - ahead


class Front:
    """The front of a line: its time as it stands there in one word, the process, and the moment where it is known."""

    __slots__ = ('text', 'process', 'moment', 'is_other')

    def __init__(self, text='-', process=None, moment=None):
        self.text, self.process, self.moment = text, process, moment
        self.is_other = process is not None and process.startswith(OTHERS)


NONE = Front()


def ahead_of(zone):
    """How many microseconds a zone as `+0130` is ahead of UTC."""
    if not zone or zone == 'Z':
        return 0
    minutes = int(zone[1:3]) * 60 + int(zone[-2:])
    return minutes * 60_000_000 * (-1 if zone[0] == '-' else 1)


class Calendar:
    """Reads fronts. Where a time has no year, it is the year that was given, until a January follows a December; or
    else that of today, and the one before where its month is still to come."""

    def __init__(self, year=None, today=None):
        self.year, self.today, self.month = year, today or datetime.date.today(), None
        self.fronts = {}

    def year_of(self, month):
        if self.year is None:
            return self.today.year - (month > self.today.month)
        if self.month and abs(month - self.month) > 6:
            self.year += 1 if month < self.month else -1
        self.month = month
        return self.year

    def moment_of(self, time):
        """The moment of these parts of a time, or none."""
        try:
            if time.get('epoch'):
                when = datetime.datetime.fromtimestamp(int(time['epoch']), datetime.timezone.utc)
                return Moment(when.year, when.month, when.day, when.strftime('%H:%M:%S'), time['part'])
            if time.get('month'):
                month = MONTHS.index(time['month']) + 1
                return Moment(self.year_of(month), month, int(time['day']), time['clock'], time['part'])
            if time.get('date'):
                year, month, day = map(int, time['date'].split('-'))
                return Moment(year, month, day, time['clock'], time['part'], ahead_of(time.get('zone')))
        except (ValueError, OverflowError, OSError):
            pass
        return None

    def parse(self, head):
        """The front of these bytes with nothing behind, or none where they are no front."""
        text = head.decode('utf-8', 'replace')
        for form in TIMES:
            time = form.match(text)
            if time:
                process = PROCESS.fullmatch(text, time.end())
                if process or time.end() == len(text):
                    return Front('_'.join(time[0].split()), process and process['process'],
                                 self.moment_of(time.groupdict()))
        return None

    def front_of(self, head):
        """The front of these bytes, which go up to the bracket behind a process, or none; it is often that of the line
        before."""
        front = self.fronts.get(head, NONE)
        if front is NONE:
            if len(self.fronts) >= FORGET_ABOVE:
                self.fronts.clear()
            front = self.fronts[head] = self.parse(head + b']:')
        return front

    def split(self, line):
        """The front of a line that has no process in brackets, and what is behind it."""
        found = NONE, line
        for at in ends_of_words(line):
            front = self.parse(line[:at])
            if front:
                found = front, line[at + 1:]
        return found

    def cut(self, line):
        """The front of any line, and what is behind it."""
        head, mark, body = line.partition(b']: ')
        front = self.front_of(head) if mark else None
        if front:
            return front, body
        return (self.of_json(line) if line.startswith(b'{') else None) or self.split(line)

    def of_json(self, line):
        """The same of a line of `journalctl -o json`, or none."""
        try:
            entry = json.loads(line)
            text = entry.get('MESSAGE')
            text = bytes(text) if isinstance(text, list) else text.encode('utf-8', 'surrogatepass')
            process = '%s[%s]' % (entry.get('SYSLOG_IDENTIFIER'), entry.get('_PID'))
            stamp = str(entry.get('__REALTIME_TIMESTAMP'))
            time = {'epoch': stamp[:-6], 'part': stamp[-6:]} if stamp.isascii() and stamp.isdigit() else {}
        except (ValueError, TypeError, AttributeError, RecursionError):
            return None
        moment = self.moment_of(time)
        name = '-' if moment is None else '%sT%s' % (moment.day, clock_of(moment))
        return Front(name, process, moment), text


def clock_of(moment):
    seconds = moment.at % DAY // 1_000_000
    return '%02d:%02d:%02dZ' % (seconds // 3600, seconds // 60 % 60, seconds % 60)


def ends_of_words(line, most=7):
    """Where the first words of a line end."""
    at = -1
    for _ in range(most):
        at = line.find(b' ', at + 1)
        if at < 0:
            return
        yield at
