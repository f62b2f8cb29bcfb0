"""Draws a report of `caster replay`, `caster warm` or `caster bare`, or the lines of a run of `caster keep`, as a
picture (SVG):

    caster replay CONFIG SESSION | draw-report > picture.svg
    draw-report [FILE..] > picture.svg

Each connection has a lane, with a bar for each of its segments along the places of the mountpoint. Red are the places
that were overwritten before the rover came to them; a dashed line leads to the base that a rover was given next. The
line of the report that a part of the picture stands for is its title, which a browser shows under the pointer; only of
`bytes` it has the number alone. The totals of `caster serve` are drawn too, without connections. Of the lines of `caster
keep` each link is a connection, in the order in which they ended, and the bytes are not told; the lines before a receipt
are left out, and so are those that say how things stand.

A report that is cut short, or that is none, gets one line on standard error and status 1.
"""
from html import escape

from lines import reader
from lines.fronts import Calendar
from lines.grammar import LINK_FORMS, other_line

FONT = 13                 # the size of a letter
LETTER = 8                # the width that it takes
ROW = 24                  # the height of a lane
NOTE = 18                 # the height of a line below a lane
GAP = 20                  # the space between two columns
AXIS = 900                # the width of the places
SCALE_EVERY = 700         # at this distance the numbers of the places are drawn again
COLOURS = ['#4878a8', '#59a14f', '#b07aa1', '#9c755f', '#76b7b2', '#d4a72c', '#7f7f7f', '#8c8c2f']
LAPPED = '#d62728'
CHANGED = '#e67e00'

# A picture of more connections would be too large to be looked at.
MOST = 10000


class Refused(Exception):
    """The input is no whole report; the text says why."""


# ---- reading

class Segment:
    def __init__(self, line, mount, *numbers):
        self.line, self.mount, self.laps = line, mount, []
        self.start, self.end, self.sent, self.overrun = map(int, numbers)


class Lap:
    def __init__(self, line, *numbers):
        self.line = line
        self.start, self.end, self.published, self.overrun = map(int, numbers)

    def text(self):
        return 'lapped %d to %d at %d: %d overrun' % (
            self.start, self.end, self.published, self.overrun)


class Connection:
    def __init__(self, line, name, ending):
        self.line, self.segments, self.junk, self.sent = line, [], None, None
        self.name, self.ending = name, ending


class Link:
    """A connection of `caster keep`, which is told by its receipt's lines."""

    sent = '-'

    def __init__(self, name):
        self.name, self.segments = name, []

    def end(self, line, _who, _sent, _overrun, junk, ending):
        self.line, self.junk, self.ending = line, int(junk), ending


class Total:
    """A line of the end: a mountpoint, an account, or the sum."""

    def __init__(self, line, name, *counts):
        self.line, self.name, self.counts = line, name, list(map(int, counts))


class Report:
    """What was read so far: connections, then mountpoints, then accounts, then the sum. A line of these at another place
    is refused; one that is not known is counted and passed over."""

    def __init__(self):
        self.connections, self.mounts, self.accounts, self.total = [], [], [], None
        self.links, self.calendar, self.number, self.strange, self.skipped = {}, Calendar(), 0, 0, 0

    def known(self):
        return self.number - self.strange - self.skipped

    def is_open(self):
        """The last connection lacks lines."""
        return bool(self.connections) and self.connections[-1].sent is None

    def take(self, line):
        self.number += 1
        front, body = self.calendar.cut(line)
        if front.is_other or line.startswith(b'-- '):
            self.skipped += 1
            return
        words = body.split(b' ', 2)
        form = LINK_FORMS.get(words[1]) if len(words) == 3 and reader.number_of(words[0]) else None
        found = form and form.fullmatch(words[2])
        text = body.decode('utf-8', 'backslashreplace')
        if found:
            self.take_link(words[0].decode(), words[1].decode(), text, found.groups())
            return
        found = other_line(body)
        if found:
            self.take_other(*found[:2], text, [word.decode() for word in found[2]])
        else:
            self.strange += 1

    def misplaced(self):
        return Refused('line %d is no line of a report at this place' % self.number)

    def take_link(self, name, kind, text, words):
        """A line of a link of `caster keep`."""
        if self.is_open() or self.mounts or self.total:
            raise self.misplaced()
        link = self.links.setdefault(name, Link(name))
        words = [word.decode('utf-8', 'backslashreplace') for word in words]
        if kind == 'segment':
            link.segments.append(Segment(text, *words))
        elif kind == 'lap' and link.segments:
            link.segments[-1].laps.append(Lap(text, *words))
        elif kind == 'lap':
            self.strange += 1
        elif kind == 'end':
            link.end(text, *words)
            self.connections.append(self.links.pop(name))
        if len(self.connections) + len(self.links) > MOST:
            raise Refused('more than %d connections: draw a part of them' % MOST)

    def take_other(self, section, form, text, words):
        kind = form.split(' ')[0]
        if section in ('now', 'fault'):
            return
        if self.total is not None:
            raise self.misplaced()
        if section == 'report' and kind != 'connection':
            self.take_inner(kind, text, words)
        elif self.is_open():
            raise self.misplaced()
        elif kind == 'connection' and not self.mounts:
            self.connections.append(Connection(text, int(words[0]), words[1]))
        elif kind == 'mount' and not self.accounts:
            self.mounts.append(Total(text, *words))
        elif kind == 'account' and self.mounts:
            self.accounts.append(Total(text, *words))
        elif kind == 'total' and self.mounts:
            self.total = Total(text, 'total', *words)
        else:
            raise self.misplaced()

    def take_inner(self, kind, text, words):
        """A line of a connection of a report; it is passed over where it cannot stand, and the connection is then not
        whole when the next one comes."""
        connection = self.connections[-1] if self.is_open() else None
        if connection is None or (kind == 'junk') != (connection.junk is None):
            self.strange += 1
        elif kind == 'junk':
            connection.junk = int(words[0])
        elif kind == 'segment':
            connection.segments.append(Segment(text, *words))
        elif kind == 'lap' and connection.segments:
            connection.segments[-1].laps.append(Lap(text, *words))
        elif kind == 'bytes':
            connection.sent = 0 if words[0] == '-' else len(words[0]) // 2
        else:
            self.strange += 1


def read_report(report, files):
    """Takes the lines of these; the last one has to be whole, and the total to be there."""
    for path in files or [None]:
        with open(0 if path is None else path, 'rb') as file:
            for line in file:
                if not line.endswith(b'\n'):
                    raise Refused('the report is cut short: line %d is not whole' % (report.number + 1))
                report.take(line[:-1])
    if report.total is None and (report.known() or not report.strange):
        raise Refused('the report is cut short: it ends behind line %d, before its total' % report.number)


# ---- drawing

def plural(count, word):
    return '%d %s' % (count, word if count == 1 else word + 's')


class Row:
    """One lane: the texts of its columns, and the segment of which it has the bar."""

    def __init__(self, line, texts, mount=None, start=0, end=0, laps=(), changed=False):
        self.line, self.texts, self.mount = line, texts, mount
        self.start, self.end, self.laps, self.changed = start, end, laps, changed


def rows_of_connection(connection):
    texts = [str(connection.name), connection.ending, str(connection.junk), str(connection.sent)]
    about = connection.line
    if connection.sent != '-':
        about += '\njunk %d\nbytes: %d' % (connection.junk, connection.sent)
    rows = []
    for at, segment in enumerate(connection.segments):
        changed = at > 0 and connection.segments[at - 1].mount != segment.mount
        text = '%s %d to %d: %d sent, %d overrun' % (
            segment.mount, segment.start, segment.end, segment.sent, segment.overrun)
        text = 'changed to ' + text if changed else text
        line = segment.line if at else about + '\n' + segment.line
        rows.append(Row(line, (['', '', '', ''] if at else texts) + [text],
                        segment.mount, segment.start, segment.end, segment.laps, changed))
    return rows or [Row(about, texts + [''])]


def rows_of_mounts(report):
    return [Row(mount.line, ['', '', '', '', '%s: %d published, %s' % (
        mount.name, mount.counts[0], plural(mount.counts[1], 'claim'))], mount.name, 0, mount.counts[0])
        for mount in report.mounts]


def sums(report):
    """The last lines, as texts."""
    for account in report.accounts + [report.total]:
        name = 'account ' + account.name if account is not report.total else 'total'
        sessions, sent, overrun = account.counts
        yield account.line, '%s: %s of rovers, %d sent, %d overrun' % (
            name, plural(sessions, 'session'), sent, overrun)


def step_of(most):
    """The distance between two numbers on the scale, which has 10 at most beside 0."""
    step = 1
    while True:
        for factor in (1, 2, 5):
            if most <= 10 * factor * step:
                return factor * step
        step *= 10


class Picture:
    HEADS = ['connection', 'ending', 'junk', 'bytes sent', 'segment, by the places of its mountpoint']

    LEGEND = ['A bar covers the places of a segment, in the colour of its mountpoint; a circle is a segment of none. '
              '"ALPHA 0 to 3" are the',
              'places 0, 1 and 2. Dashed: the rover was given another base.',
              'Red: places that were overwritten before the rover came to them. "lapped 3 to 8 at 12: 5 overrun": '
              'when 12 frames were published',
              'the places 3 to 7 were lost to the rover, which was permitted 5 of their frames.']

    def __init__(self, report):
        self.report, self.parts, self.under, self.height = report, [], [], 0
        self.mounts = rows_of_mounts(report)
        self.lanes = [row for one in report.connections for row in rows_of_connection(one)]
        self.most = max([1] + [row.end for row in self.mounts + self.lanes])
        self.columns, at = [], GAP
        for column, head in enumerate(self.HEADS):
            self.columns.append(at)
            texts = [head] + [row.texts[column] for row in self.mounts + self.lanes]
            at += max(len(text) for text in texts) * LETTER + GAP
        self.left, self.width = at, at + AXIS + 6 * GAP
        self.colours = {mount.name: COLOURS[at % len(COLOURS)] for at, mount in enumerate(report.mounts)}

    def place(self, place):
        return self.left + place * AXIS / self.most

    def text(self, x, y, text, more=''):
        self.parts.append('<text x="%.1f" y="%.1f"%s>%s</text>' % (x, y, more, escape(text)))

    def box(self, x, y, width, height, colour):
        self.parts.append('<rect x="%.1f" y="%.1f" width="%.1f" height="%.1f" fill="%s"/>' % (
            x, y, width, height, colour))

    def scale(self):
        """The numbers of the places, with a mark at each."""
        step = step_of(self.most)
        for place in range(0, self.most + 1, step):
            x = self.place(place)
            self.parts.append('<path d="M%.1f %dv6" stroke="#888"/>' % (x, self.height + 18))
            self.text(x, self.height + 14, str(place), ' text-anchor="middle" fill="#666"')
        self.height += 28

    def bar(self, row, y):
        x, end = self.place(row.start), self.place(row.end)
        colour = self.colours.get(row.mount, '#000000')
        if row.start == row.end:
            self.parts.append('<circle cx="%.1f" cy="%.1f" r="4" fill="none" stroke="%s" stroke-width="2"/>'
                              % (x, y + ROW / 2, colour))
        else:
            self.box(x, y + 5, max(end - x, 2), ROW - 10, colour)

    def laps(self, row, y):
        """The red parts of a bar, and a line below it for each: side by side where there is room."""
        ends = []
        for lap in row.laps:
            x, width = self.place(lap.start), len(lap.text()) * LETTER
            self.parts.append('<g><title>%s</title>' % escape(lap.line))
            self.box(x, y + 5, max(self.place(lap.end) - x, 2), ROW - 10, LAPPED)
            x = max(self.left, min(x, self.width - GAP - width))
            line = next((at for at, end in enumerate(ends) if end <= x), len(ends))
            ends[line:line + 1] = [x + width + GAP]
            self.text(x, y + ROW + NOTE * line + 13, lap.text(),
                      ' fill="%s" stroke="#fff" stroke-width="3" paint-order="stroke"' % LAPPED)
            self.parts.append('</g>')
        return NOTE * len(ends)

    def lane(self, row, before):
        """Draws the lane; `before` is the one above, with the height of its middle."""
        y = self.height
        self.parts.append('<g><title>%s</title>' % escape(row.line))
        for x, text in zip(self.columns, row.texts):
            if text:
                self.text(x, y + 17, text)
        if row.mount is not None:
            self.bar(row, y)
        self.parts.append('</g>')
        if row.changed:
            above, middle = before
            self.under.append('<path d="M%.1f %.1fL%.1f %.1f" stroke="%s" stroke-width="2" '
                              'stroke-dasharray="5 3" marker-end="url(#arrow)"/>' % (
                                  self.place(above.end), middle, self.place(row.start), y + 5, CHANGED))
        self.height += ROW + self.laps(row, y)
        return row, y + ROW / 2

    def rows(self, rows):
        before, scaled = None, None
        for row in rows:
            if scaled is None or self.height > scaled + SCALE_EVERY:
                self.scale()
                scaled = self.height
            elif row.texts[0]:
                self.under.append('<path d="M%d %dH%d" stroke="#ddd"/>' % (GAP, self.height, self.width - GAP))
            before = self.lane(row, before)

    def heading(self, text):
        self.height += 2 * GAP
        self.text(GAP, self.height, text, ' font-weight="bold"')
        self.height += 8

    def draw(self):
        self.height = 10
        self.heading('Mountpoints')
        self.rows(self.mounts)
        if self.lanes:
            self.heading('Connections')
            for line in self.LEGEND:
                self.height += NOTE
                self.text(GAP, self.height, line, ' fill="#666"')
            self.height += NOTE + 8
            for x, head in zip(self.columns, self.HEADS):
                self.text(x, self.height, head, ' fill="#666"')
            self.rows(self.lanes)
        self.heading('Sums')
        for line, text in sums(self.report):
            self.parts.append('<g><title>%s</title>' % escape(line))
            self.text(GAP, self.height + 17, text)
            self.parts.append('</g>')
            self.height += ROW
        return self.whole()

    def whole(self):
        width, height = max(self.width, 130 * LETTER), self.height + GAP
        return '\n'.join([
            '<svg xmlns="http://www.w3.org/2000/svg" width="%d" height="%d" viewBox="0 0 %d %d" '
            'font-family="DejaVu Sans Mono, Menlo, Consolas, monospace" font-size="%d" '
            'xml:space="preserve">' % (width, height, width, height, FONT),
            '<defs><marker id="arrow" viewBox="0 0 8 8" refX="7" refY="4" markerWidth="5" markerHeight="5" '
            'orient="auto"><path d="M0 0L8 4L0 8z" fill="%s"/></marker></defs>' % CHANGED,
            '<rect width="%d" height="%d" fill="#ffffff"/>' % (width, height)]
            + self.under + self.parts + ['</svg>', ''])


def run(name, words):
    report = Report()
    try:
        read_report(report, words)
    except Refused as refused:
        reader.say('%s: %s' % (name, refused))
        return 1
    status = reader.finish(report, name)
    if status == 0:
        reader.write(Picture(report).draw().encode())
    return status
