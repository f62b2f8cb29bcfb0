"""Inputs that are drawn by a generator of random numbers: heads, bodies, chunks and reports, well
formed, changed, or of no form at all."""
from model import *

HONEST, NEAR = 'HONEST', 'NEAR'
PASSWORDS = {HONEST: 'true', 'LOOSE0': 'open', 'LOOSE1': 'open'}
LOOSE = basic('loose', 'loose')
NARROW = basic('narrow', 'narrow')

TOKENS = [b'\r\n', b'\n', b'\r', b'\0', b'\xff', b' ', b'\t', b':', b';', b'/', b'?', b'%00', b'\r\n\r\n',
          b'\n\n', b'HTTP/1.1', b'Transfer-Encoding: chunked\r\n', b'Ntrip-Version: Ntrip/2.0\r\n',
          b'SOURCE ', b'GET /', b'POST /', b'Authorization: Basic ', b'====', b'0\r\n\r\n', b'ffffff',
          b'\xd3\x00', b'\xd3\x03\xff', b'$GPGGA,', b'*00\r\n', b',,,,', b'-1', b'9' * 30, b'A' * 300]


def noise(rng, least, most):
    return rng.randbytes(rng.randint(least, most))


def changed_once(rng, data):
    at = rng.randint(0, len(data))
    to = min(len(data), at + rng.choice([1, 1, 2, 5, 20, 100]))
    what = rng.randrange(8)
    if what == 0 and at < len(data):
        return data[:at] + bytes([data[at] ^ 1 << rng.randrange(8)]) + data[at + 1:]
    if what == 1:
        return data[:at] + rng.randbytes(to - at) + data[to:]
    if what == 2:
        return data[:at] + noise(rng, 1, 20) + data[at:]
    if what == 3:
        return data[:at] + data[to:]
    if what == 4:
        return data[:to] + data[at:to] * rng.randint(1, 8) + data[to:]
    if what == 5:
        other = rng.randint(0, len(data))
        return data[:at] + data[other:]
    return data[:at] + rng.choice(TOKENS) + data[to if what == 6 else at:]


def changed(rng, data, most=6):
    """These bytes with one to so many changes."""
    for _ in range(rng.randint(1, most)):
        data = changed_once(rng, data)
    return data


def in_pieces(rng, data):
    """These bytes as one piece, as some, or as many small ones."""
    count = rng.choice([1, 1, 2, 3, 6])
    if len(data) < 60 and rng.random() < 0.1:
        count = len(data)
    cuts = sorted(rng.randint(0, len(data)) for _ in range(count - 1))
    return [data[at:to] for at, to in zip([0] + cuts, cuts + [len(data)])]


# ---- heads

def more_lines(rng):
    """Header lines, most of which mean nothing to a caster."""
    some = ['Accept: */*', 'Connection: close', 'X: ' + 'y' * rng.randrange(400), LOOSE, NARROW,
            'Ntrip-GGA: ' + any_report(rng).decode('latin-1'), 'Authorization: Digest x', 'Range: 0-0',
            'Authorization: Basic ' + base64.b64encode(rng.randbytes(rng.randrange(60))).decode(),
            'Transfer-Encoding: chunked', 'Ntrip-Version: Ntrip/2.0', 'Content-Length: 99999999999999']
    count = rng.choice([0, 1, 2, 3, 5, 28, 33])
    return [rng.choice(some) for _ in range(count)]


def any_head(rng, honest=True):
    """A head of some form, for a mountpoint that may be there."""
    mount = rng.choice([HONEST, NEAR, 'LOOSE0', 'LOOSE1', 'NONE', ''] if honest else ['NONE', ''])
    password = PASSWORDS.get(mount, 'none') if rng.random() < 0.8 else 'wrong'
    who = rng.choice([[], [LOOSE], [NARROW], [basic('loose', 'wrong')], [basic('nobody', '')]])
    what = rng.randrange(4)
    if what == 0:
        return rover_1(mount, *who, *more_lines(rng))
    if what == 1:
        return rover_2(mount, *who, *more_lines(rng))
    if what == 2:
        return source_1(mount, password)
    return source_2(mount, password, *more_lines(rng))


def wild_head(rng, honest=True):
    """A head that is changed, far too long, or nothing like one."""
    what = rng.randrange(10)
    if what == 0:
        return noise(rng, 1, 12000)
    if what == 1:
        return noise(rng, 0, 300) + b'\r\n\r\n' + noise(rng, 0, 300)
    if what == 2:
        head = any_head(rng, honest)
        long = b'Long: ' + b'a' * rng.choice([100, 4000, 7000, 8100, 8192, 20000]) + b'\r\n\r\n'
        return head[:-2] + long
    if what == 3:
        return rng.choice([b'GET /', b'SOURCE ', b'POST /']) + b'a' * rng.randint(8180, 8200)
    if what == 4:
        return changed(rng, any_head(rng, honest) + any_head(rng, honest), 20)
    if what == 5:
        return any_head(rng, honest).replace(b'\r\n', rng.choice([b'\n', b'\r', b'\r\n ', b'\r\r\n']))
    if what == 6:
        return rng.choice([any_head(rng, honest).swapcase(), any_head(rng, honest).replace(b' ', b'  ')])
    return changed(rng, any_head(rng, honest), rng.choice([1, 1, 2, 6]))


# ---- bodies

def any_frame(rng):
    size = rng.choice([0, 1, 2, 6, 20, 100, 300, 1023])
    payload = rng.randbytes(size)
    if size >= 2 and rng.random() < 0.6:
        payload = struct.pack('>H', rng.choice([1005, 1077]) << 4) + payload[2:]
    return frame_of(payload, rng.choice([0, 0, 0, 63, rng.randrange(64)]))


def wild_frame(rng):
    """A frame, or what is nearly one."""
    one = any_frame(rng)
    what = rng.randrange(12)
    if what == 0:
        return changed(rng, one, 2)
    if what == 1:
        return one[:rng.randrange(len(one))]
    if what == 2:
        return b'\xd3' * rng.randint(1, 40)
    if what == 3:
        return b'\xd3' + struct.pack('>H', rng.randrange(1024)) + one
    if what == 4:
        return frame_of(one[:1000]) + one
    if what == 5:
        return noise(rng, 0, 400)
    if what == 6:
        return one[:-1] + bytes([one[-1] ^ 1])
    return one


def wild_body(rng):
    return b''.join(wild_frame(rng) for _ in range(rng.choice([0, 1, 3, 10, 40])))


def wild_chunks(rng, body):
    """This body in chunks, most of them right, which may be changed or go on in another way."""
    out = []
    at = 0
    while at < len(body):
        some = body[at:at + rng.choice([1, 2, 7, 50, 400, 3000])]
        at += len(some)
        size = rng.choice(['%x', '%X', '%04x', '%06X']) % len(some)
        more = rng.choice(['', '', '', ';a=b', ';' + 'x' * rng.choice([10, 200, 246, 247, 253, 260])])
        out.append((size + more + '\r\n').encode() + some + b'\r\n')
    what = rng.randrange(6)
    if what == 0:
        out.append(b'0\r\n' + rng.choice([b'', b'A: b\r\n', b'T: ' + b't' * 1030 + b'\r\n']) + b'\r\n' + body)
    if what == 1 and out:
        at = rng.randrange(len(out))
        out[at] = changed(rng, out[at], 2)
    if what == 2:
        wrong = [b'fffffff', b'ffffff', b'-1', b'0x5', b' 5', b'5 ', b'', b'g', b'5\r', b'5;\r', b'5;']
        out.insert(rng.randint(0, len(out)), rng.choice(wrong) + rng.choice([b'\r\n', b'\n']))
    if what == 3:
        return changed(rng, b''.join(out), 3)
    return b''.join(out)


# ---- reports

def any_report(rng):
    north = '%07.3f,%s' % (rng.uniform(0, 9000), rng.choice('NS'))
    east = '%08.3f,%s' % (rng.uniform(0, 18000), rng.choice('EW'))
    return report(north, east).encode()


def wild_reports(rng):
    """Reports, lines that are nearly some, and what is no line at all."""
    out = []
    for _ in range(rng.choice([1, 3, 20, 200])):
        one = any_report(rng)
        what = rng.randrange(8)
        if what == 0:
            one = changed(rng, one)
        if what == 1:
            one = noise(rng, 0, 300)
        if what == 2:
            one = rng.choice([b'$', b'$GPGGA' + b',' * 500, b'9' * 3000, b'$GPGGA,1,9e99,N', b'*', b'$*00'])
        out.append(one + rng.choice([b'\r\n', b'\r\n', b'\n', b'\r', b'']))
    return b''.join(out)
