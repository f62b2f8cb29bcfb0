"""The clients of a random session: what each of them sends, how it reads and how it leaves, and which reply it
may have. All of it is drawn before the session begins; the session's own dice say who comes next.
"""
import random
import socket
import struct

from model import frame_of
from wire import (BAD_HEAD, BAD_PASSWORD_1, DENIED_1, DENIED_2, FULL_1, FULL_2, ICY, NO_MOUNT_2, NOT_DONE, ROVER_2_OK,
                  SOURCE_2_OK, TAKEN_1, TAKEN_2, UNAUTHORIZED_1, UNAUTHORIZED_2, basic, chunk, report, rover_1,
                  rover_2, source_1, source_2)

PASSWORDS = {'ALPHA': 'sesame', 'BRAVO': 'open'}
CONFIG = '''version = 2
[[mount]]
name = "ALPHA"
password = "sesame"
ring = %d
latitude = 481173000
longitude = 115166666
[[mount]]
name = "BRAVO"
password = "open"
ring = %d
latitude = 482000000
longitude = 115166666
[[near]]
name = "NEAR"
bases = ["ALPHA", "BRAVO"]
[[group]]
name = "all"
mounts = ["ALPHA", "BRAVO", "NEAR"]
types = "all"
[[group]]
name = "some"
mounts = ["ALPHA", "NEAR"]
types = [1005, 1077]
[[account]]
user = "wide"
password = "one"
group = "all"
cap = 100
[[account]]
user = "lone"
password = "two"
group = "some"
cap = 1
[anonymous]
group = "some"
cap = 2
'''

MESSAGES = [1005, 1077, 1087, 1230]


def config(dice):
    return CONFIG % (dice.choice([1, 2, 8, 64, 256]), dice.choice([1, 4, 256]))


class Client:
    """A client of a session.

    pieces    what it sends, in this order
    leaves    'finish' (it ends its side and reads to the end), 'close' or 'reset'
    late      it leaves when all that sources send was sent, and not before
    replies   what it was sent is empty, or begins with one of these; an entry that is whole is all of it
    most      how many bytes it takes at once
    room      how many bytes the system keeps for it, where it says so
    """

    def __init__(self, kind, head, replies, dice, late=False, body=b'', slow=False):
        self.kind, self.replies, self.late = kind, replies, late
        data = head + body
        self.pieces = in_pieces(dice, data)
        self.planned = data
        self.leaves = dice.choice(['finish'] * 7 + ['close', 'reset', 'reset'])
        self.most = dice.choice([30, 300, 3000]) if slow else 65536
        self.room = 4096 if slow else None
        self.delay = dice.randint(0, 60)
        self.socket, self.rest = None, b''
        self.sent, self.got = bytearray(), bytearray()
        self.is_gone, self.has_finished, self.saw_end, self.was_cut = False, False, False, False

    # ---- what it does, none of which waits

    def connect(self, port):
        self.socket = socket.socket()
        if self.room:
            self.socket.setsockopt(socket.SOL_SOCKET, socket.SO_RCVBUF, self.room)
        self.socket.settimeout(20)
        self.socket.connect(('127.0.0.1', port))
        self.socket.setsockopt(socket.IPPROTO_TCP, socket.TCP_NODELAY, 1)
        self.socket.setblocking(False)

    def is_open(self):
        return self.socket is not None and not self.is_gone and not self.saw_end

    def has_more(self):
        return bool(self.rest or self.pieces)

    def send(self):
        """The next piece, or as much of it as the system takes."""
        if not self.rest and self.pieces:
            self.rest = self.pieces.pop(0)
        try:
            count = self.socket.send(self.rest) if self.rest else 0
        except BlockingIOError:
            return
        except (ConnectionResetError, BrokenPipeError):
            self.rest, self.pieces, self.was_cut = b'', [], True
            return
        self.sent += self.rest[:count]
        self.rest = self.rest[count:]

    def read(self):
        try:
            some = self.socket.recv(self.most)
        except BlockingIOError:
            return
        except ConnectionResetError:
            some, self.was_cut = b'', True
        self.got += some
        self.saw_end = self.saw_end or not some

    def leave(self):
        """It sends nothing more. One that closes does not read what is still on its way."""
        if self.leaves == 'finish':
            try:
                self.socket.shutdown(socket.SHUT_WR)
            except OSError:
                self.was_cut = True
            self.has_finished = True
            return
        if self.leaves == 'reset':
            self.socket.setsockopt(socket.SOL_SOCKET, socket.SO_LINGER, struct.pack('ii', 1, 0))
        self.socket.close()
        self.is_gone = True

    def has_left(self):
        return self.has_finished or self.is_gone


def in_pieces(dice, data):
    """These bytes in some pieces, as one, or the first of them one by one."""
    most = dice.choice([1, 7, 60, 500, 3000, 100000])
    pieces, at = [], 0
    while at < len(data):
        size = dice.randint(1, most) if len(pieces) < 60 else 5000
        pieces.append(data[at:at + size])
        at += size
    return pieces


# ---- bodies

def any_frame(dice):
    size = dice.choice([2, 4, 6, 20, 120, 700, 1023])
    return frame_of(struct.pack('>H', dice.choice(MESSAGES) << 4) + dice.randbytes(size - 2), dice.choice([0, 0, 0, 5]))


def junk(dice):
    """Bytes that are no frame: text, a wrong checksum, a frame that was cut, a preamble alone."""
    one = any_frame(dice)
    return dice.choice([b'no frame at all\r\n', one[:-1] + bytes([one[-1] ^ 1]), one[:dice.randrange(len(one))],
                        b'\xd3', b'\xd3\x00', dice.randbytes(dice.randint(1, 40)), frame_of(b''), frame_of(b'\xd3')])


def stream(dice):
    count = dice.choice([0, 1, 3, 10, 30, 80, 80, 300])
    return b''.join(junk(dice) if dice.random() < 0.15 else any_frame(dice) for _ in range(count))


def chunked(dice, data):
    """These bytes in chunks, which end, go on, or break."""
    out, at = [], 0
    while at < len(data):
        some = data[at:at + dice.choice([1, 9, 100, 1500])] if len(out) < 80 else data[at:]
        out.append(b'%X;a=b\r\n%s\r\n' % (len(some), some) if dice.random() < 0.3 else chunk(some))
        at += len(some)
    end = dice.choice([b'', b'', b'0\r\n\r\n', b'0\r\nA: b\r\n\r\n', b'0\r\n\r\nbehind it', b'zz\r\n', b'5\r\nab',
                       b'\r\n'])
    return b''.join(out) + end


# ---- kinds of clients

def a_source(dice):
    mount, kind = dice.choice(['ALPHA', 'ALPHA', 'BRAVO']), dice.choice(['one', 'two', 'chunks'])
    data, password = stream(dice), PASSWORDS[mount]
    if kind == 'one':
        return Client('source', source_1(mount, password), [ICY, TAKEN_1], dice, body=data)
    more = ['Transfer-Encoding: chunked'] if kind == 'chunks' else []
    data = chunked(dice, data) if kind == 'chunks' else data
    return Client(kind, source_2(mount, password, *more), [SOURCE_2_OK, TAKEN_2], dice, body=data)


def a_rover(dice):
    mount, version = dice.choice(['ALPHA', 'ALPHA', 'BRAVO']), dice.choice([1, 2])
    user = dice.choice([None, 'wide', 'wide', 'lone'])
    who = [basic(user, {'wide': 'one', 'lone': 'two'}[user])] if user else []
    if mount == 'BRAVO' and user != 'wide':
        replies = [[DENIED_1], [DENIED_2]][version - 1]
    else:
        replies = [[ICY, FULL_1], [ROVER_2_OK, FULL_2]][version - 1]
    more = dice.choice([b'', b'', b'GET / HTTP/1.0\r\n\r\n', dice.randbytes(50)])
    head = rover_1 if version == 1 else rover_2
    return Client('rover', head(mount, *who), replies, dice, dice.random() < 0.7, more, dice.random() < 0.4)


def a_near_rover(dice, users=(None, 'wide', 'lone')):
    version, user = dice.choice([1, 2]), dice.choice(users)
    who = [basic(user, {'wide': 'one', 'lone': 'two'}[user])] if user else []

    def somewhere():
        return report('48%02d.%03d,N' % (dice.randint(5, 14), dice.randint(0, 999)), '01131.000,E')

    more = ['Ntrip-GGA: ' + somewhere()] if dice.random() < 0.5 else []
    lines = [dice.choice([somewhere(), somewhere(), somewhere(), '$GPGGA,no report*00', 'x' * 140])
             for _ in range(dice.choice([0, 1, 3, 12]) if None in users else 12)]
    head = rover_1 if version == 1 else rover_2
    return Client('rover', head('NEAR', *who, *more), [[ICY, FULL_1], [ROVER_2_OK, FULL_2]][version - 1], dice, True,
                  ''.join(line + '\r\n' for line in lines).encode(), dice.random() < 0.2)


def one_that_asks_for_the_table(dice):
    return Client('table', dice.choice([rover_1, rover_2])(''), ['table'], dice)


def one_that_is_refused(dice):
    """A right head with a wrong word, or one that asks for what is not done. The whole reply is known."""
    head, reply = dice.choice([
        (source_1('ALPHA', 'open'), BAD_PASSWORD_1), (source_2('ALPHA', 'open'), UNAUTHORIZED_2),
        (source_1('NONE', 'open'), TAKEN_1), (source_2('NONE', 'open'), NO_MOUNT_2),
        (rover_1('ALPHA', basic('wide', 'two')), UNAUTHORIZED_1), (rover_2('ALPHA', basic('none', '')), UNAUTHORIZED_2),
        (rover_2('NONE', basic('wide', 'one')), NO_MOUNT_2), (rover_1('NONE'), 'table'),
        (source_2('ALPHA', 'sesame', 'Transfer-Encoding: gzip'), NOT_DONE),
        (b'PUT /ALPHA HTTP/1.1\r\nHost: caster\r\n\r\n', NOT_DONE), (b'NONSENSE\r\n\r\n', BAD_HEAD),
        (b'\r\n\r\n', BAD_HEAD), (b'a' * 9000, BAD_HEAD)])
    return Client('refused', head, [reply], dice, body=dice.choice([b'', b'', dice.randbytes(100)]))


def one_without_a_head(dice):
    return Client('no head', dice.choice([b'', b'G', rover_1('ALPHA')[:-2], b'SOURCE sesame AL']), [], dice)


KINDS = [(a_source, 5), (a_rover, 5), (a_near_rover, 2), (one_that_asks_for_the_table, 1), (one_that_is_refused, 2),
         (one_without_a_head, 1)]


def a_field(dice):
    """A source at each base, which stay for a while, and rovers that move between them."""
    some = [Client('source', source_1('ALPHA', 'sesame'), [ICY, TAKEN_1], dice, body=stream(dice)),
            Client('two', source_2('BRAVO', 'open'), [SOURCE_2_OK, TAKEN_2], dice, body=stream(dice))]
    for one in some:
        one.delay = dice.randint(100, 300)
    return some + [a_near_rover(dice, ['wide']) for _ in range(dice.randint(1, 3))]


def drawn(dice):
    """The clients of a session, in the order in which they come."""
    kinds, weights = zip(*KINDS)
    some = [a_source(dice), a_rover(dice)]
    some += [kind(dice) for kind in dice.choices(kinds, weights, k=dice.randint(0, 14))]
    dice.shuffle(some)
    return a_field(dice) + some if dice.random() < 0.4 else some


def dice_of(seed, number):
    return random.Random('%d/%d' % (seed, number))
