"""The bill: what each user had, by days or months.

    bill [--month] [--csv] [--year YEAR] [FILE..]

It prints a line for each period and each WHO of a rover, `rover:USER` or `anonymous`, in order of both:

    PERIOD WHO SESSIONS SENT OVERRUN SECONDS OPEN OPEN_SECONDS

A session counts once, with its frames, in the period of its line `end`, by the time of the line as it stands there.
SECONDS are those from its being let in to its end, each in its own period.

A session without a line `end` is still open, or was cut by a kill. It is one of OPEN. It counts in the period of its
last line, with the frames of its segments and the seconds up to that line. From there up to the last line of its run
nothing says that it ended: these seconds are OPEN_SECONDS, and no part of SECONDS. So are those of a session that
began before the lines do, from the first line of its run to its own first one.

PERIOD is a day, or a month with `--month`, and `-` where the lines have no times; SECONDS and OPEN_SECONDS are `-` then.
Times without a year are of YEAR, or else of this year, and of the last one where the month is still to come. Bytes
are on no bill: the lines do not tell them. `--csv` has the same with commas, below a line of the names.
"""
import csv
import datetime
import io
import re

from lines import reader
from lines.fronts import DAY, EPOCH, Calendar

NAMES = ('period', 'who', 'sessions', 'sent', 'overrun', 'seconds', 'open', 'open_seconds')

# No connection is that old: one of its times is none.
MOST_DAYS = 3660


class Row:
    """What a WHO had in a period; times are in microseconds, and none where no line had one."""

    def __init__(self):
        self.sessions, self.sent, self.overrun, self.open = 0, 0, 0, 0
        self.span, self.open_span = 0, 0


class Bill(reader.Listener):
    def __init__(self, is_monthly):
        self.letters, self.rows, self.without_time, self.reader = 7 if is_monthly else 10, {}, 0, None

    def row(self, moment, who):
        return self.row_of(moment.day if moment else '-', who)

    def row_of(self, day, who):
        key = day[:self.letters], who
        row = self.rows.get(key)
        if row is None:
            row = self.rows[key] = Row()
        return row

    def entered(self, link):
        """Fronts are read as they come, since the year of one may go by that before."""
        link.entered = self.reader.moment(link.entered)

    def ended(self, link, who, sent, overrun, _ending):
        if who != b'-' and (who == b'anonymous' or who.startswith(b'rover:')):
            self.add(link, who, sent, overrun, self.reader.moment(self.reader.front))

    def cut(self, links):
        for link in links:
            if link.kind == 'rover':
                who = b'anonymous' if link.user == b'-' else b'rover:' + link.user
                last = self.reader.moment(link.last)
                self.add(link, who, link.sent, link.overrun, last).open += 1
                self.span(who, last, self.reader.moment(link.until), 'open_span')

    def add(self, link, who, sent, overrun, moment):
        """A session counts in the period of this moment, in the row that is given back."""
        row = self.row(moment, who)
        row.sessions, row.sent, row.overrun = row.sessions + 1, row.sent + sent, row.overrun + overrun
        self.without_time += moment is None
        first = self.reader.moment(link.front)
        if link.address == b'-' and link.entered is None:
            self.span(who, self.reader.moment(self.reader.first), first, 'open_span')
        self.span(who, link.entered or first, moment, 'span')
        return row

    def span(self, who, start, end, what):
        """Adds the time between two moments, to each day its part."""
        if start is None or end is None or not 0 < end.at - start.at < MOST_DAYS * DAY:
            return
        at, day = start.at, start.day
        while at < end.at:
            ahead = start.ahead if following(day) < end.day else end.ahead
            midnight = (number_of(day) + 1) * DAY - ahead
            part = end.at if day >= end.day else min(max(midnight, at), end.at)
            row = self.row_of(day, who)
            setattr(row, what, getattr(row, what) + part - at)
            at, day = part, following(day)


def number_of(day):
    return datetime.date.fromisoformat(day).toordinal() - EPOCH


def following(day):
    return datetime.date.fromordinal(number_of(day) + EPOCH + 1).isoformat()


def seconds(period, span):
    return '-' if period == '-' else str(span // 1_000_000)


def rows_of(bill):
    for (period, who), row in sorted(bill.rows.items()):
        yield (period, who.decode('ascii'), str(row.sessions), str(row.sent), str(row.overrun),
               seconds(period, row.span), str(row.open), seconds(period, row.open_span))


def csv_of(rows):
    text = io.StringIO()
    csv.writer(text).writerows([NAMES, *rows])
    return text.getvalue().encode()


def run(name, words):
    year, options = None, set()
    while words and words[0].startswith('--'):
        option, *words = words
        if option == '--year' and words and re.fullmatch('[1-9][0-9]{3}', words[0]):
            year, *words = words
        elif option in ('--month', '--csv'):
            options.add(option)
        else:
            return reader.usage(name, __doc__)
    bill = Bill('--month' in options)
    bill.reader = reader.Reader(bill, Calendar(year and int(year)))
    reader.read_all(bill.reader, words)
    bill.reader.end()
    status = reader.finish(bill.reader, name)
    if status == 0:
        rows = list(rows_of(bill))
        reader.write(csv_of(rows) if '--csv' in options else ''.join(' '.join(row) + '\n' for row in rows).encode())
        if bill.without_time:
            reader.say('%s: %d sessions stand in lines without times: they have no seconds, and one period, `-`'
                       % (name, bill.without_time))
    return status
