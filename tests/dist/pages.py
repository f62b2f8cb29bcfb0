"""Cases of what the pages say: heads by form, positions, and phrases that are said no more."""
import os
import re
import subprocess
import tempfile

from wire import *

ROVER1 = basic('rover1', 'secret')
AT_ALPHA = report('4807.038,N', '01131.000,E')
AT_BRAVO = report('4812.000,N', '01131.000,E')


def text_of(path):
    with open(path) as file:
        return file.read()


def example(workers):
    """The example's configuration with so many workers, without its relay, and with room in its account."""
    text = text_of('examples/caster.toml')
    front, behind = text.split('# The frames of BRAVO are pulled')
    text = front + behind[behind.index('# Rovers without credentials'):]
    for old, new in [('workers = 4 ', 'workers = %d ' % workers), ('cap = 2 ', 'cap = 99 ')]:
        if old not in text:
            raise Wrong('no %s in the example' % old)
        text = text.replace(old, new)
    return text


# ---- heads by form

def rows_of_heads():
    """Of each row of docs/CLIENTS.md: the head's bytes, the first line of the answer, none where that is `none`,
    and what then is."""
    section = text_of('docs/CLIENTS.md').split('## Heads by form\n')[1].split('\n## ')[0]
    rows = re.findall(r'^\| `(.*)` \| (?:`(.*)`|none) \| (\w+) \|$', section, re.M)
    if len(rows) != section.count('\n| `') or len(rows) < 30:
        raise Wrong('%d rows' % len(rows))
    for head, answer, then in rows:
        head = head.replace('{base}', basic('x', 'sesame')).replace('{rover}', ROVER1).replace('{gga}', AT_ALPHA)
        yield head.replace('¶', '\r\n').replace('↓', '\n').encode(), answer.encode() + b'\r\n', then


def heard_nothing(client, seconds=0.3):
    """Nothing comes to the client for so long, and its connection stands."""
    client.socket.settimeout(seconds)
    try:
        some = client.socket.recv(100)
        raise Wrong('wanted nothing and got %s' % show(some))
    except TimeoutError:
        client.socket.settimeout(PATIENCE)


def answered(client, answer):
    """The answer begins with this line; all of its head is taken."""
    while b'\r\n\r\n' not in client.came and client.receive():
        pass
    if not client.came.startswith(answer):
        raise Wrong('wanted %s and got %s' % (show(answer), show(client.came)))
    head, _, rest = bytes(client.came).partition(b'\r\n\r\n')
    client.came[:] = rest
    return head


def source_at(caster):
    """A source of ALPHA, once the one before it is gone."""
    until = time.monotonic() + PATIENCE
    while True:
        source = caster.client().send(source_1('ALPHA', 'sesame'))
        while source.receive() and b'\r\n' not in source.came:
            pass
        if source.came == ICY:
            source.came.clear()
            return source
        if time.monotonic() > until:
            raise Wrong('the mountpoint is held')
        time.sleep(0.02)


def publishes(caster, client, head, answer):
    rover = caster.client().send(rover_1('ALPHA', ROVER1)).expect(ICY)
    answered(client.send(head), answer)
    client.send(chunk(A) if b'chunked' in head else A)
    rover.expect(A)
    rover.close()


def is_sent(caster, client, head, answer, frame):
    source = source_at(caster)
    answered(client.send(head), answer)
    # Where a report comes behind the head nothing says when it is read: so a frame is sent until one comes.
    until = time.monotonic() + PATIENCE
    while not client.came and time.monotonic() < until:
        source.send(A)
        client.socket.settimeout(1)
        try:
            client.receive()
        except Wrong:
            pass
    client.socket.settimeout(PATIENCE)
    client.expect(frame)
    source.close()


def heads_by_form():
    """Each row of docs/CLIENTS.md, "Heads by form": its head is answered as it says."""
    caster = Keeping(example(8), 0)
    try:
        for head, answer, then in rows_of_heads():
            client = caster.client()
            try:
                row_is_so(caster, client, head, answer, then)
            except Wrong as wrong:
                raise Wrong('%s: %s' % (show(head), wrong)) from None
            client.close()
            until = time.monotonic() + PATIENCE
            while not caster.is_left():
                if time.monotonic() > until:
                    raise Wrong('%s: its connection does not end' % show(head))
                time.sleep(0.02)
        caster.ends()
    finally:
        caster.stop()


def row_is_so(caster, client, head, answer, then):
    if then == 'publishes':
        publishes(caster, client, head, answer)
    elif then in ('frames', 'chunks'):
        is_sent(caster, client, head, answer, A if then == 'frames' else chunk(A))
    elif then == 'waits':
        heard_nothing(client.send(head))
    else:
        client.send(head)
        while client.receive():
            pass
        if not client.came.startswith(answer) or client.came.endswith(b'ENDSOURCETABLE\r\n') != (then == 'table'):
            raise Wrong('wanted %s and got %s' % (show(answer), show(client.came)))


# ---- positions

def changed(old, new):
    """The report at ALPHA with this change, and with the checksum that it then has."""
    text = AT_ALPHA[1:-3].replace(old, new, 1)
    total = 0
    for byte in text.encode():
        total ^= byte
    return '$%s*%02X' % (text, total)


# Lines behind the head that are no report: no fix, nothing known, another sentence, no checksum, a wrong one, a field
# too few, one too many, two digits of longitude, minutes of 60, a name in small letters, a space in front, 129 bytes.
NO_REPORTS = [changed('E,1,', 'E,0,'), changed('4807.038,N,01131.000,E,1', ',,,,0'), changed('GPGGA', 'GPRMC'),
              AT_ALPHA[:-3], AT_ALPHA[:-1] + '8', changed('M,,', 'M,'), changed('M,,', 'M,,,'), changed('01131', '1131'),
              changed('4807', '4860'), changed('GPGGA', 'gpgga'), ' ' + AT_ALPHA, changed('.9,', '.9' + '0' * 64 + ',')]


def unread(client):
    """How many bytes of the client the caster's system holds that the caster has not read."""
    ends = [':%04X' % address[1] for address in (client.socket.getpeername(), client.socket.getsockname())]
    with open('/proc/net/tcp') as file:
        for line in file:
            fields = line.split()
            if fields[1].endswith(ends[0]) and fields[2].endswith(ends[1]):
                return int(fields[4].split(':')[1], 16)
    raise Wrong('the caster has no such connection')


def reports(client, data):
    """The client sends this, and the caster has read it. Nothing says when it has heeded it: a second is left for
    that."""
    client.send(data)
    until = time.monotonic() + PATIENCE
    while unread(client):
        if time.monotonic() > until:
            raise Wrong('the caster does not read')
        time.sleep(0.01)
    time.sleep(1)


def heard_by(witness, source, frame):
    """The source sends a frame, and it is published: a rover of its mountpoint alone has got it."""
    source.send(frame)
    witness.expect(frame)
    return source


def is_gone(caster, mount):
    """Each source that held the mountpoint has its receipt."""
    until = time.monotonic() + PATIENCE
    while True:
        lines = [line.split(' ') for line in caster.lines()]
        ended = {words[0] for words in lines if words[1] == 'end'}
        if {words[0] for words in lines if words[1:3] == ['source', mount]} <= ended:
            return
        if time.monotonic() > until:
            raise Wrong('a source of %s stays' % mount)
        time.sleep(0.02)


def segments_of(caster, mount):
    """The segments of the rover that asked for this mountpoint."""
    lines = [line.split(' ') for line in caster.lines()]
    number, = (words[0] for words in lines if words[1] == 'asks' and words[3:5] == ['rover', mount])
    return [words[2:] for words in lines if words[:2] == [number, 'segment']]


def positions():
    """docs/FORMATS.md, "Positions": a rover of NEAR hears nothing until it has reported a position that counts while a
    base is held; where its base goes it stays until its next report; and a base that comes back it hears without
    one."""
    caster = Keeping(example(8), 0)
    try:
        rover = caster.client().send(rover_1('NEAR', ROVER1)).expect(ICY)
        at_alpha, at_bravo = (caster.client().send(rover_1(mount, ROVER1)).expect(ICY) for mount in ('ALPHA', 'BRAVO'))
        reports(rover, AT_ALPHA.encode() + b'\r\n')
        alpha = heard_by(at_alpha, source_at(caster), A)
        heard_nothing(rover)
        if len(NO_REPORTS[-1]) != 129 or changed('', '') != AT_ALPHA:
            raise Wrong('another line was meant')
        reports(rover, ''.join(line + '\r\n' for line in NO_REPORTS).encode() + AT_ALPHA.encode())
        heard_by(at_alpha, alpha, A)
        heard_nothing(rover)
        # The end of its line.
        reports(rover, b'\n')
        heard_by(at_alpha, alpha, B)
        rover.expect(B)
        bravo = caster.client().send(source_1('BRAVO', 'open')).expect(ICY)
        alpha.close()
        heard_by(at_bravo, bravo, A)
        heard_nothing(rover)
        heard_by(at_alpha, source_at(caster), Z).close()
        rover.expect(Z)
        is_gone(caster, 'ALPHA')
        reports(rover, AT_ALPHA.encode() + b'\n')
        heard_by(at_bravo, bravo, A)
        rover.expect(A)
        for client in (rover, at_alpha, at_bravo, bravo):
            client.close()
        caster.ends()
        segments = segments_of(caster, 'NEAR')
        # At ALPHA from the third frame on, at BRAVO from the second on, each up to the last.
        if segments != [['ALPHA', '2', '4', '2', '0'], ['BRAVO', '1', '2', '1', '0']]:
            raise Wrong('segments: %s' % segments)
    finally:
        caster.stop()


def nesting():
    """docs/FORMATS.md, "Configuration": what nests 80 deep is read, and what nests deeper is no document."""
    config = example(4)
    for depth, wanted in [(80, b'ok\n'), (81, b'configuration: toml\n')]:
        for front in ('x = %s%s\n' % ('[' * depth, ']' * depth), 'x = %s1%s\n' % ('{a=' * depth, '}' * depth),
                      '.'.join('a' * depth) + ' = 1\n'):
            with tempfile.NamedTemporaryFile('w', suffix='.toml') as file:
                file.write(front + config)
                file.flush()
                done = subprocess.run([PROGRAM, 'check', file.name], stdout=subprocess.PIPE, timeout=PATIENCE)
            if done.stdout != wanted:
                raise Wrong('%d deep: %s' % (depth, show(done.stdout)))


# ---- phrases

def phrases_not_said():
    """No page says a phrase of docs/phrases-not-said. A test of the test: each phrase is found in a text that has
    it, with its words on two lines."""
    def plain(text):
        return ' '.join(text.lower().split())
    with open('docs/phrases-not-said') as file:
        phrases = [line.strip() for line in file if line.strip() and not line.startswith('#')]
    if len(phrases) < 20 or len(set(phrases)) != len(phrases):
        raise Wrong('the phrases are %s' % phrases)
    paths = ['README.md', 'CONTRIBUTING.md'] + ['%s/%s' % (at, name) for folder in ('docs', 'dist')
                                                for at, _, names in os.walk(folder) for name in sorted(names)]
    texts = {}
    for path in paths:
        with open(path, 'rb') as file:
            data = file.read()
        if path != 'docs/phrases-not-said' and data[:4] not in (b'\x7fELF', b'\x89PNG'):
            # In the manual page a minus sign has a backslash before it.
            texts[path] = plain(data.decode().replace('\\-', '-'))
    for phrase in phrases:
        if plain(phrase) not in plain('Before it. ' + phrase.replace(' ', '\n  ', 1) + ' Behind it.'):
            raise Wrong('%r would not be found' % phrase)
        for path, text in texts.items():
            if plain(phrase) in text:
                raise Wrong('%s says %r' % (path, phrase))


CASES = [heads_by_form, positions, nesting, phrases_not_said]
