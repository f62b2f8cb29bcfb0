"""Keeps a page of how a caster stands, for a browser, and the same as JSON:

    journalctl -fu caster -n all -o short-iso | caster-lines page DIR
    caster-lines page DIR [FILE..]

DIR has `index.html` and `state.json` then, each written anew a second behind a line at the latest, by another name
first. The page is one file that takes nothing from elsewhere. It is as of its last line; with a script it renews itself.
It shows the caster, each mountpoint, each connection that is open, the last 50 that ended and the last 50 that were
refused. What needs an eye stands first: a mountpoint without a base or without frames, workers nearly all busy, a rover
that loses more than one frame of a hundred.

How many frames there are, how many workers are busy, and which mountpoints nobody ever held, only answers to `status`
tell: somebody has to ask, once a minute. Of a rover that is on the lines do not tell what it was sent, until it is given
another base or leaves; its agent and its bytes they never tell. A connection that began before the lines do is missing.
Times are UTC.
"""
import json
import os
import time
from html import escape

from lines import look, reader
from lines.state import State

# A part of workers above which they are nearly all busy, a share of frames that a rover may lose, and how many seconds
# behind the last answer to `status` nobody asks any more.
NEARLY, SHARE, UNASKED = 0.9, 0.01, 180

# So many mountpoints, and so many rovers, are named at most among what needs an eye.
MOST_NAMED = 10

ENDINGS = {
    'source-end': 'ended by itself', 'rover-end': 'left', 'no-head': 'ended before its head was whole',
    'bad-head': 'no head of NTRIP or HTTP', 'long-head': 'its head is too long', 'method': 'another method of HTTP',
    'coding': 'another coding of its body', 'no-mount': 'no such mountpoint', 'no-account': 'no such user',
    'password': 'wrong password', 'source-password': 'wrong password of the mountpoint',
    'denied': 'its group may not enter there', 'taken': 'another base holds the mountpoint',
    'full': 'its account is full', 'bad-chunk': 'its chunked body broke',
    'upstream-table': 'answered with a sourcetable', 'upstream': 'answered with status',
    'read-fault': 'reading failed, or it was silent for too long',
    'write-fault': 'writing failed', 'worn': 'a lock is worn', 'memory': 'no memory', '': 'its caster ended'}
KINDS = {'source': 'base', 'relay': 'relay', 'rover': 'rover', None: 'not let in yet'}
NONE = '–'


# ---- texts

def span(seconds):
    """A span of time, in its two largest units."""
    if seconds is None:
        return NONE
    for size, name, smaller, below in ((86400, 'd', 3600, 'h'), (3600, 'h', 60, 'min')):
        if seconds >= size:
            return '%d %s %d %s' % (seconds // size, name, seconds % size // smaller, below)
    return '%d min' % (seconds // 60) if seconds >= 60 else '%d s' % max(0, seconds)


def clock(at, now):
    """A time of day, with the day where that is another one than now's."""
    if at is None:
        return NONE
    is_today = now is not None and at // 86400 == now // 86400
    return time.strftime('%H:%M:%S' if is_today else '%Y-%m-%d %H:%M', time.gmtime(at))


def since(at, now):
    return NONE if at is None else '%s (%s)' % (clock(at, now), span(now - at))


def share_of(row):
    """Which part of the frames that were there for a rover it lost; none where that is not known."""
    if row.get('sent') is None or not row['sent'] + row['lost']:
        return None
    return row['lost'] / (row['sent'] + row['lost'])


def percent(share):
    return NONE if share is None else '0 %' if not share else '%.2f %%' % (100 * share)


def number(value):
    return NONE if value is None else '{:,}'.format(value)


def per_second(rate):
    return NONE if rate is None else '%.1f' % rate if rate < 100 else '%.0f' % rate


def why(ending):
    word, _, more = ending.partition(' ')
    return ENDINGS.get(word, word) + (' ' + more if word == 'upstream' else '')


def user_of(row):
    return row['user'] or ('without credentials' if row['kind'] == 'rover' else NONE)


# ---- what needs an eye

def is_lossy(row):
    share = share_of(row)
    return share is not None and share > SHARE


def mount_need(mount):
    """How much a mountpoint needs an eye, 0 where it does not, and why."""
    if mount['is_near']:
        return 0, ''
    relay = mount['relay']
    more = '' if relay is None else ' (its relay: %s)' % why(relay['ending'])
    if not mount['is_held']:
        return 2, 'No base holds %s%s.' % (mount['name'], more)
    if mount['rate'] == 0:
        return 1, '%s is held, and silent for %s.' % (mount['name'], span(mount['silent']))
    return 0, ''


def named(texts, what):
    """These texts, but only so many, and how many there are more."""
    return texts[:MOST_NAMED] + [what % (len(texts) - MOST_NAMED)] * (len(texts) > MOST_NAMED)


def mount_needs(state):
    needs = sorted((mount_need(mount) for mount in state['mounts']), key=lambda need: -need[0])
    return named([text for rank, text in needs if rank], 'And %d mountpoints more have no base, or are silent.')


def lossy_needs(state):
    """Rovers that lose too much, or did in a session that ended in the last hour."""
    texts = ['%s at %s loses %s of its frames.' % (user_of(row), row['mount'], percent(share_of(row)))
             for row in state['connections'] if is_lossy(row)]
    texts += ['%s at %s lost %s of its frames, up to %s.' % (
        user_of(row), row['mount'], percent(share_of(row)), clock(row['at'], state['at']))
        for row in state['ended'] if is_lossy(row) and row['at'] > state['at'] - 3600]
    return named(texts, 'And %d rovers more lose frames.')


def needs(state):
    """What needs an eye, the worst first."""
    caster = state['caster']
    if not caster['is_serving']:
        return ['The caster has stopped, in order: its totals came.']
    texts = mount_needs(state)
    if caster['workers'] and caster['busy'] > NEARLY * caster['workers']:
        texts.append('%d of %d workers are busy: who comes next may have to wait.' % (caster['busy'], caster['workers']))
    texts += lossy_needs(state)
    if caster['answered'] is None or state['at'] - caster['answered'] > UNASKED:
        texts.append('Nobody asks for status: frames and workers are not known, or old.')
    return texts


# ---- parts of the page

def table(name, columns, rows, nothing):
    """A table of these columns, of rows each of which is a class and cells of HTML. On a phone a row is a card."""
    if not rows:
        return '<p class="nothing">%s</p>' % nothing
    head = ''.join('<th scope="col">%s</th>' % column for column in columns)
    lines = ['<table id="%s"><thead><tr>%s</tr></thead><tbody>' % (name, head)]
    for kind, cells in rows:
        lines.append('<tr class="%s">%s</tr>' % (kind, ''.join(
            '<td data-label="%s"%s>%s</td>' % (column, ' class="unknown"' * (cell == NONE), cell)
            for column, cell in zip(columns, cells))))
    return '\n'.join(lines + ['</tbody></table>'])


def curve(mount, now):
    """The frames a second of the last hour as a small picture: a step for each two answers, above a line for none."""
    steps = mount['curve']
    if not steps:
        return NONE
    most, parts, last = max(rate for _, _, rate in steps), [], None
    for start, end, rate in steps:
        left, right = (120 * max(0, 1 - (now - at) / 3600) for at in (start, end))
        height = 22 - 20 * rate / (most or 1)
        parts.append('%s%.1f %.1fH%.1f' % ('L' if start == last else 'M', left, height, right))
        last = end
    said = 'up to %s frames a second' % per_second(most)
    return ('<svg class="curve" viewBox="0 0 120 24" role="img" aria-label="%s"><title>%s</title><path class="ground" '
            'd="M0 23.5H120"/><path d="%s"/></svg>' % (said, said, ''.join(parts)))


def held_by(mount):
    if mount['address'] is None and mount['claim'] is None:
        return NONE
    if mount['address'] is None:
        return 'claim %d, which began before the lines' % mount['claim']
    return '%s %s' % (KINDS[mount['holder']], escape(mount['address']))


def state_of(mount):
    if mount['is_near']:
        return 'near', 'near'
    rank, _ = mount_need(mount)
    kind, text = {0: ('fine', 'held'), 1: ('silent', 'silent'), 2: ('none', 'no base')}[rank]
    tries = mount['relay'] and not mount['is_held'] and ': relay %s' % why(mount['relay']['ending'])
    return kind, text + (tries or '')


def mount_rows(state):
    rows = []
    for mount in sorted(state['mounts'], key=lambda one: -mount_need(one)[0]):
        kind, text = state_of(mount)
        cells = ['<b>%s</b>' % escape(mount['name']), '<span class="badge %s">%s</span>' % (kind, escape(text))]
        if mount['is_near']:
            cells += [NONE] * 5
        else:
            cells += [held_by(mount), since(mount['since'], state['at']), per_second(mount['rate']),
                      curve(mount, state['at']), span(mount['silent'])]
        rows.append((kind, cells + [number(mount['rovers'])]))
    return rows


def link_rows(state):
    rows = []
    links = sorted(state['connections'], key=lambda row: (not is_lossy(row), row['kind'] is not None, row['since'] or 0))
    for row in links:
        kind = 'none' if is_lossy(row) else ''
        rows.append((kind, ['<b>%s</b>' % escape(user_of(row)), KINDS[row['kind']], escape(row['address'] or NONE),
                            escape(row['mount'] or NONE), escape(row['base'] or NONE), since(row['since'], state['at']),
                            number(row['sent']), number(row['lost']), percent(share_of(row))]))
    return rows


def ended_rows(state):
    return [('none' if is_lossy(row) else '', [
        clock(row['at'], state['at']), '<b>%s</b>' % escape(user_of(row)), KINDS[row['kind']],
        escape(row['address'] or NONE), escape(row['mount'] or NONE),
        NONE if row['since'] is None else span(row['at'] - row['since']), number(row['sent']), number(row['lost']),
        percent(share_of(row)), escape(why(row['ending']))]) for row in state['ended']]


def refused_rows(state):
    return [('', [clock(row['at'], state['at']), '<b>%s</b>' % escape(row['address'] or NONE),
                  escape(row['mount'] or NONE), escape(row['user'] or NONE), escape(why(row['ending']))])
            for row in state['refused']]


def tiles(state):
    """The caster in a few figures."""
    caster, now = state['caster'], state['at']
    workers = NONE if caster['workers'] is None else '%s of %d' % (number(caster['busy']), caster['workers'])
    kinds = [row['kind'] for row in state['connections']]
    is_older = caster['is_first_run'] and caster['since'] is not None
    begun = since(caster['since'], now) + ', or before' * is_older
    away = '%s, %s in the last hour' % (number(caster['refused']), number(caster['refused_in_an_hour']))
    rows = [('Serving since' if caster['is_serving'] else 'Stopped; served since', begun),
            ('Workers busy', workers), ('Rovers', number(kinds.count('rover'))),
            ('Bases and relays', number(kinds.count('source') + kinds.count('relay'))),
            ('Turned away', away), ('Frames and workers as of', clock(caster['answered'], now))]
    return '<dl>%s</dl>' % ''.join('<div><dt>%s</dt><dd>%s</dd></div>' % row for row in rows)


def eye(state):
    texts = needs(state)
    if not texts:
        return '<p class="nothing">Nothing needs an eye.</p>'
    return '<ul>%s</ul>' % ''.join('<li>%s</li>' % escape(text) for text in texts)


MOUNT_COLUMNS = ('Mountpoint', 'State', 'Held by', 'Since', 'Frames/s', 'Last hour', 'Silent for', 'Rovers')
LINK_COLUMNS = ('User', 'Kind', 'Address', 'Mountpoint', 'Base', 'Since', 'Sent', 'Lost', 'Share lost')
ENDED_COLUMNS = ('At', 'User', 'Kind', 'Address', 'Mountpoint', 'Was on for', 'Sent', 'Lost', 'Share lost', 'Why')
REFUSED_COLUMNS = ('At', 'Address', 'Asked for', 'As user', 'Why')


def folded(name, title, rows, columns, nothing):
    return '<details id="fold-%s"><summary><h2>%s (%d)</h2></summary>%s</details>' % (
        name, title, len(rows), table(name, columns, rows, nothing))


def main_of(state):
    now = state['at']
    parts = ['<p class="as-of">As of <time data-now="%d">%s UTC</time> <span id="age"></span></p>' % (
                 now, time.strftime('%Y-%m-%d %H:%M:%S', time.gmtime(now))),
             '<section id="eye"><h2>Needs an eye</h2>%s</section>' % eye(state),
             '<section id="caster">%s</section>' % tiles(state),
             '<section><h2>Mountpoints</h2>%s</section>' % table(
                 'mounts', MOUNT_COLUMNS, mount_rows(state), 'None is known.'),
             '<section><h2>Connections</h2>%s</section>' % table(
                 'links', LINK_COLUMNS, link_rows(state), 'None is open.'),
             folded('ended', 'The last that ended', ended_rows(state), ENDED_COLUMNS, 'None ended.'),
             folded('refused', 'The last that were refused', refused_rows(state), REFUSED_COLUMNS,
                    'None was refused.')]
    return '<main>\n%s\n</main>' % '\n'.join(parts)


def page_of(state):
    count = len(needs(state))
    title = 'Caster: %s' % ('all is well' if not count else '%d need%s an eye' % (count, 's' if count == 1 else ''))
    return look.PAGE % {'title': title, 'main': main_of(state), 'policy': look.POLICY, 'style': look.STYLE,
                        'script': look.SCRIPT}


def run(name, words):
    if not words or words[0].startswith('-'):
        return reader.usage(name, __doc__)
    folder, *files = words
    state = State()

    def write():
        told = state.told_now()
        reader.put(os.path.join(folder, 'index.html'), page_of(told))
        reader.put(os.path.join(folder, 'state.json'), json.dumps(told, indent=1) + '\n')
    if not files:
        return reader.keep(state.reader, name, write)
    reader.read_all(state.reader, files)
    status = reader.finish(state.reader, name)
    if status == 0:
        write()
    return status
