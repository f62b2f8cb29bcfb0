"""The program under attack, the honest two, and the kinds of hostile connections.

What the program is to have counted at its end is counted here as well. A connection that reads all that
it is sent, up to its end, knows what it was: a claim, a session with so many frames, or neither. One
that resets itself does not always: these have mountpoints and accounts of their own, whose counts are
known within bounds.
"""
import collections
import functools
import random
import traceback

from books import House, agree, read
from draw import *

# So many clients at a time, each with a mountpoint of its own.
LANES = 10

CLOSED_REPLIES = {
    'bad head': BAD_HEAD, 'not done': NOT_DONE, 'unauthorized 1': UNAUTHORIZED_1, 'denied 1': DENIED_1,
    'full 1': FULL_1, 'bad password 1': BAD_PASSWORD_1, 'taken 1': TAKEN_1, 'no mount 2': NO_MOUNT_2,
    'unauthorized 2': UNAUTHORIZED_2, 'denied 2': DENIED_2, 'full 2': FULL_2, 'taken 2': TAKEN_2}

MOUNT = '''[[mount]]
name = "%s"
password = "%s"
ring = %d
latitude = %d
longitude = %d
'''
ACCOUNT = '''[[account]]
user = "%s"
password = "%s"
group = "%s"
cap = %d
'''
GROUP = '''[[group]]
name = "%s"
mounts = %s
types = %s
'''

ACCOUNTS = [('honest', 'all', 1), ('exact', 'all', 1000), ('near', 'all', 1000), ('loose', 'some', 1000),
            ('narrow', 'some', 1)]


def mounts():
    return [HONEST, 'LOOSE0', 'LOOSE1'] + ['LANE%d' % lane for lane in range(LANES)]


def config(workers):
    rings = {HONEST: 4096, 'LOOSE0': 8, 'LOOSE1': 1}
    text = 'version = 2\nworkers = %d\n' % workers
    for number, name in enumerate(mounts()):
        text += MOUNT % (name, PASSWORDS.get(name, 'lane'), rings.get(name, (1, 4, 64)[number % 3]),
                         481173000 - 600000000 * (name == 'LOOSE0'), 115166666)
    text += '[[near]]\nname = "%s"\nbases = ["%s", "LOOSE0"]\n' % (NEAR, HONEST)
    text += GROUP % ('all', str(mounts() + [NEAR]).replace("'", '"'), '"all"')
    text += GROUP % ('some', '["%s", "%s", "LOOSE0"]' % (HONEST, NEAR), '[1005, 1077]')
    for user, group, cap in ACCOUNTS:
        text += ACCOUNT % (user, user, group, cap)
    return text + '[anonymous]\ngroup = "some"\ncap = 3\n'


class Told:
    """The frames of the honest source. Each is made from the seed and its place, so each process can make it."""

    def __init__(self, seed):
        self.seed, self.count = seed, 0

    @functools.lru_cache(5000)
    def at(self, place):
        rng = random.Random('%d honest %d' % (self.seed, place))
        size = rng.choice([6, 6, 20, 60, 200, 1023])
        message = rng.choice([1005, 1077, 1087, rng.randrange(4096)])
        return frame_of(struct.pack('>HI', message << 4, place) + rng.randbytes(size - 6))

    def __len__(self):
        return self.count

    def __contains__(self, one):
        return len(one) >= 12 and self.at(self[one]) == one

    def __getitem__(self, one):
        """The place that is written in a frame."""
        return struct.unpack('>I', one[5:9])[0]


class Case:
    """One case: what was sent is kept, for each of its connections."""

    def __init__(self, number, kind, rng):
        self.number = number
        self.kind = kind
        self.rng = rng
        self.sent = []


class Server:
    """The program, and what it is to have counted."""

    def __init__(self, workers, limit, kind=Caster):
        self.lock = threading.Lock()
        self.counts = collections.Counter()
        self.endings = collections.Counter()
        self.frames = Told(0)
        self.tables = {}
        self.workers = workers
        self.caster = kind(config(workers), limit)

    def learn_tables(self):
        """What the sourcetable is, by another command of the program."""
        words = [PROGRAM, 'table', self.caster.path]
        table = subprocess.run(words, capture_output=True, timeout=PATIENCE).stdout
        self.tables = {'table 1': table_1(table), 'table 2': table_2(table)}

    def is_there(self):
        if self.caster.process.poll() is not None:
            raise Wrong('the program has ended with status %d' % self.caster.process.returncode)

    def count(self, **counts):
        with self.lock:
            self.counts.update(counts)

    def ending(self, what):
        with self.lock:
            self.endings[what] += 1

    def books(self):
        """The lines of a caster that was kept are books, whose closing lines are their sums."""
        house = House(self.workers, mounts(), [user for user, _, _ in ACCOUNTS])
        agree(read(''.join(line + '\n' for line in self.caster.lines())), house)

    def tell(self):
        for what, count in sorted(self.endings.items()):
            print('%6d  %s' % (count, what))

    def totals(self, text, honest):
        """What is wanted of each of the closing lines, whether it is so, and what is there."""
        rows = [line.split(' ') for line in text.splitlines()]
        names = ['mount ' + name for name in mounts()] + ['account ' + user for user, _, _ in ACCOUNTS]
        got = [' '.join(row[:-2 if row[0] == 'mount' else -3]) for row in rows]
        yield 'closing lines', got == names + ['total'], text
        sums = {' '.join(row[:2]): [int(word) for word in row[2:]] for row in rows[:-1]}
        total = [int(word) for word in rows[-1][1:]]
        counts = self.counts
        for name in mounts():
            got = sums['mount ' + name]
            if name == HONEST:
                yield name, got == [len(honest.frames), 1], '%s, %d frames' % (got, len(honest.frames))
            elif name.startswith('LANE'):
                wanted = [counts['published ' + name], counts['claims ' + name]]
                yield name, got == wanted, '%s, wanted %s' % (got, wanted)
        yield from self.loose_mounts(sums)
        yield from self.exact_accounts(sums, honest)
        yield from self.loose_accounts(sums, total)

    def loose_mounts(self, sums):
        both = [sums['mount LOOSE0'], sums['mount LOOSE1']]
        published, claims = both[0][0] + both[1][0], both[0][1] + both[1][1]
        counts = self.counts
        yield ('claims of the loose mountpoints', counts['claims'] <= claims <= counts['claims'] + counts['perhaps'],
               '%d, wanted %d and at most %d more' % (claims, counts['claims'], counts['perhaps']))
        yield ('frames of the loose mountpoints', published <= counts['preambles'],
               '%d, of %d preambles' % (published, counts['preambles']))

    def exact_accounts(self, sums, honest):
        counts = self.counts
        wanted = [1, len(honest.frames), 0]
        yield 'account honest', sums['account honest'] == wanted, '%s, wanted %s' % (sums['account honest'], wanted)
        wanted = [counts['sessions exact'], counts['sent exact'], counts['overrun exact']]
        yield 'account exact', sums['account exact'] == wanted, '%s, wanted %s' % (sums['account exact'], wanted)
        wanted = [counts['sessions near'], counts['sent near']]
        yield 'account near', sums['account near'][:2] == wanted, '%s, wanted %s' % (sums['account near'], wanted)

    def loose_accounts(self, sums, total):
        """Those who gave other credentials or none. The lines of accounts have not more than the total,
        which has those without credentials, too."""
        counts = self.counts
        exact = [sums['account ' + user] for user in ('honest', 'exact', 'near')]
        named = exact + [sums['account loose'], sums['account narrow']]
        yield ('accounts in the total', all(sum(column) <= whole for column, whole in zip(zip(*named), total)),
               '%s in %s' % (named, total))
        sessions, sent, overrun = [whole - sum(column) for column, whole in zip(zip(*exact), total)]
        yield ('loose sessions', counts['sessions'] <= sessions <= counts['sessions'] + counts['perhaps'],
               '%d, wanted %d and at most %d more' % (sessions, counts['sessions'], counts['perhaps']))
        most = max(sums['mount %s' % name][0] for name in (HONEST, 'LOOSE0', 'LOOSE1'))
        yield ('loose frames', counts['sent'] <= sent <= counts['sent'] + counts['perhaps'] * most,
               '%d, wanted %d' % (sent, counts['sent']))
        yield ('loose sent and overrun', sent + overrun <= sessions * most * 2,
               '%d and %d in %d sessions of at most %d frames' % (sent, overrun, sessions, most))


# ---- the honest two

class Honest:
    """A source that sends frames in torn pieces all the time, and a rover that is sent each of them. The
    versions of both are drawn."""

    def __init__(self, server, rng):
        self.server = server
        self.rng = rng
        self.frames = server.frames
        self.wrong = None
        self.ending = self.stopped = False
        self.chunked = rng.random() < 0.4
        self.second = rng.random() < 0.5
        head, reply = source_2(HONEST, 'true', *['Transfer-Encoding: chunked'] * self.chunked), SOURCE_2_OK
        if not self.chunked and rng.random() < 0.5:
            head, reply = source_1(HONEST, 'true'), ICY
        self.source = server.caster.client().send(head).expect(reply)
        who = basic('honest', 'honest')
        if self.second:
            self.rover = server.caster.client().send(rover_2(HONEST, who)).expect(ROVER_2_OK)
        else:
            self.rover = server.caster.client().send(rover_1(HONEST, who)).expect(ICY)
        self.due = bytearray()
        self.at = 0
        # Of each frame that is on its way, where it ends and when its sending began; and how long others took.
        self.marks, self.latencies = collections.deque(), []
        self.threads = [threading.Thread(target=self.keep, args=(call,), daemon=True)
                        for call in (self.publish, self.listen)]
        for one in self.threads:
            one.start()

    def keep(self, call):
        try:
            call()
        except Exception as fault:
            self.wrong = str(fault) if isinstance(fault, Wrong) else traceback.format_exc()

    def next_frame(self):
        """A frame that there was not before: its payload has its place."""
        one = self.frames.at(self.frames.count)
        self.frames.count += 1
        self.due += chunk(one) if self.second else one
        self.marks.append((len(self.due), time.monotonic()))
        return one

    def publish(self):
        """Sends some frames at a time. All that is due is known before the last of them are sent."""
        while not self.stopped:
            some = b''.join(self.next_frame() for _ in range(self.rng.randint(1, 4)))
            self.stopped = self.ending
            for piece in in_pieces(self.rng, some):
                if piece:
                    self.source.send(chunk(piece) if self.chunked else piece)
            time.sleep(self.rng.uniform(0.002, 0.02))

    def listen(self):
        """Each byte that comes is the next one that is due. It ends when all came."""
        while not (self.stopped and self.at == len(self.due)):
            some = self.rover.receive()
            if not some:
                raise Wrong('its connection ended at %d' % self.at)
            if bytes(self.due[self.at:self.at + len(some)]) != some:
                raise Wrong('behind %d bytes came %s' % (self.at, show(some)))
            self.at += len(some)
            self.rover.came.clear()
            now = time.monotonic()
            while self.marks and self.marks[0][0] <= self.at:
                self.latencies.append(now - self.marks.popleft()[1])

    def end(self):
        """The source sends a last frame, and both end, the rover when it was sent all; nothing more comes."""
        self.ending = True
        for one in self.threads:
            one.join(PATIENCE)
        try:
            if self.wrong or any(one.is_alive() for one in self.threads):
                raise Wrong(self.wrong or '%d bytes of %d came' % (self.at, len(self.due)))
            for one in (self.rover, self.source):
                one.socket.shutdown(socket.SHUT_WR)
                one.expect_end()
        finally:
            self.rover.close()
            self.source.close()


# ---- hostile connections

class Talk:
    """A hostile connection. It sends in pieces, and goes on where the other side has closed."""

    def __init__(self, server, case):
        self.rng = case.rng
        self.sent = bytearray()
        self.came = bytearray()
        self.cut_off = False
        case.sent.append(self.sent)
        try:
            self.socket = socket.create_connection(('127.0.0.1', server.caster.port), PATIENCE)
        except OSError as fault:
            raise Wrong('no connection: %s' % fault) from None
        self.socket.setsockopt(socket.IPPROTO_TCP, socket.TCP_NODELAY, 1)

    def send(self, data):
        for piece in in_pieces(self.rng, data):
            self.sent += piece
            if not self.cut_off:
                try:
                    self.socket.sendall(piece)
                except (ConnectionResetError, BrokenPipeError):
                    self.cut_off = True
            if self.rng.random() < 0.2:
                time.sleep(self.rng.uniform(0, 0.03))
        return self

    def receive(self):
        try:
            some = self.socket.recv(65536)
        except ConnectionResetError:
            self.cut_off = True
            return b''
        except socket.timeout:
            raise Wrong('nothing more came behind %s' % show(self.came)) from None
        self.came += some
        return some

    def wait_for(self, wanted):
        """These bytes come first."""
        while len(self.came) < len(wanted) and self.receive():
            pass
        if bytes(self.came[:len(wanted)]) != wanted:
            raise Wrong('wanted %s and got %s' % (show(wanted), show(self.came)))
        return self

    def finish(self):
        """Sends no more, and takes all that comes up to the end."""
        try:
            self.socket.shutdown(socket.SHUT_WR)
        except OSError:
            pass
        while self.receive():
            pass
        self.socket.close()
        return self

    def reset(self):
        self.socket.setsockopt(socket.SOL_SOCKET, socket.SO_LINGER, struct.pack('ii', 1, 0))
        self.socket.close()


def wants(talk, wanted):
    if bytes(talk.came) != wanted:
        raise Wrong('wanted %s and got %s%s' % (
            show(wanted), show(talk.came), ', and was cut off' * talk.cut_off))


def is_source(talk):
    return talk.sent.startswith(b'SOURCE ')


def settle(server, talk):
    """Tells what a connection was that read all up to its end, and counts it among the loose ones."""
    came = bytes(talk.came)
    server.count(preambles=talk.sent.count(0xD3))
    for what, reply in list(CLOSED_REPLIES.items()) + list(server.tables.items()):
        if came == reply:
            return server.ending(what)
    if not came and talk.cut_off:
        raise Wrong('it was cut off without an answer')
    if not came:
        return server.ending('no answer')
    if came == SOURCE_2_OK or came == ICY and is_source(talk):
        server.ending('source')
        return server.count(claims=1)
    reply = ICY if came.startswith(ICY) else ROVER_2_OK
    if not came.startswith(reply) or is_source(talk):
        raise Wrong('no answer that there is: %s' % show(came))
    server.ending('rover')
    return server.count(sessions=1, sent=len(body_frames(came, reply)))


def in_order(server, frames):
    """The places of those of these frames that are of the honest source: they rise."""
    places = [server.frames[one] for one in frames if one in server.frames]
    if places != sorted(set(places)):
        raise Wrong('the honest frames come in the order %s' % places)
    return places


# ---- kinds of cases

def wild(server, case, lane):
    """Any head that is changed or none, something behind it, and all that is answered."""
    talk = Talk(server, case).send(wild_head(case.rng))
    if case.rng.random() < 0.5:
        talk.send(case.rng.choice([wild_body, wild_reports])(case.rng)[:20000])
    settle(server, talk.finish())


def torn(server, case, lane):
    """The first part of a head that may be right; it is reset, closed, or ended."""
    head = case.rng.choice([any_head, wild_head])(case.rng)
    talk = Talk(server, case).send(head[:case.rng.randint(0, len(head))])
    leave(server, talk)


def leave(server, talk):
    """Ends a connection in some way; where it does not read all, what it was is not known."""
    how = talk.rng.choice(['reset', 'closed', 'ended', 'reset behind bytes'])
    if how == 'ended':
        return settle(server, talk.finish())
    if how == 'reset behind bytes':
        talk.socket.settimeout(talk.rng.uniform(0.001, 0.2))
        try:
            talk.receive()
        except Wrong:
            pass
    server.ending(how)
    server.count(perhaps=1, preambles=talk.sent.count(0xD3))
    return talk.socket.close() if how == 'closed' else talk.reset()


def silent(server, case, lane):
    """Not one byte is sent."""
    talk = Talk(server, case)
    time.sleep(case.rng.choice([0, 0, 0.01, 0.1, 1]))
    leave(server, talk)


def rude(server, case, lane):
    """A right head, for a mountpoint where there are others, and a connection that ends in some way."""
    rng = case.rng
    talk = Talk(server, case).send(any_head(rng))
    talk.send(rng.choice([wild_body, wild_reports])(rng))
    leave(server, talk)


def known(server, case, lane):
    """A right head that is refused, with garbage behind it: the answer is known."""
    nobody, wrong = basic('nobody', 'x'), basic('exact', 'x')
    head, what = case.rng.choice([
        (source_1(HONEST, 'true'), 'taken 1'), (source_2(HONEST, 'true'), 'taken 2'),
        (source_1(HONEST, 'false'), 'bad password 1'), (source_2(HONEST, 'lane'), 'unauthorized 2'),
        (source_1('NONE', ''), 'taken 1'), (source_2('NONE', ''), 'no mount 2'),
        (rover_1(HONEST, nobody), 'unauthorized 1'), (rover_2(HONEST, wrong), 'unauthorized 2'),
        (rover_1('LANE%d' % lane), 'denied 1'), (rover_2('LANE%d' % lane, LOOSE), 'denied 2'),
        (rover_1(''), 'table 1'), (rover_2('', nobody), 'table 2'),
        (source_2(HONEST, 'true', 'Transfer-Encoding: x'), 'not done')])
    talk = Talk(server, case).send(head)
    if case.rng.random() < 0.5:
        talk.send(noise(case.rng, 0, 3000))
    wants(talk.finish(), {**CLOSED_REPLIES, **server.tables}[what])
    server.ending(what)


def drawn_source(rng, lane):
    """A head of a source of this lane, its reply, a body, and the frames that are published of it."""
    mount = 'LANE%d' % lane
    body = wild_body(rng)
    what = rng.randrange(4)
    if what == 0:
        return source_1(mount, 'lane'), ICY, body, cut(body)[0]
    if what == 1:
        return source_2(mount, 'lane'), SOURCE_2_OK, body, cut(body)[0]
    body = wild_chunks(rng, body)
    return source_2(mount, 'lane', 'Transfer-Encoding: chunked'), SOURCE_2_OK, body, cut(unchunked(body))[0]


def send_body(server, case, lane, drawn):
    """A source whose body is hostile: it was given its claim, and all frames of it are published."""
    head, reply, body, frames = drawn
    server.count(**{'claims LANE%d' % lane: 1, 'published LANE%d' % lane: len(frames)})
    talk = Talk(server, case).send(head + body).finish()
    wants(talk, reply)
    server.ending('source of a lane')


def source(server, case, lane):
    """A source with a right head at the mountpoint of its lane."""
    send_body(server, case, lane, drawn_source(case.rng, lane))


def run_of_preambles(server, case, lane):
    """A long run of first bytes of frames, none of which is one, and then a frame."""
    one = any_frame(case.rng)
    body = b'\xd3' * case.rng.randint(1000, 200000) + bytes(1100) + one
    send_body(server, case, lane, (source_1('LANE%d' % lane, 'lane'), ICY, body, [one]))


def pair(server, case, lane):
    """A rover is there before a source of the lane sends a hostile body. It is sent frames of it in order,
    the last one too; those that it is not sent were overrun."""
    rng = case.rng
    drawn = drawn_source(rng, lane)
    while drawn[3] and drawn[3].count(drawn[3][-1]) > 1:
        drawn = drawn_source(rng, lane)
    frames = drawn[3]
    who = basic('exact', 'exact')
    head, reply = rng.choice([(rover_1('LANE%d' % lane, who), ICY), (rover_2('LANE%d' % lane, who), ROVER_2_OK)])
    rover = Talk(server, case).send(head).wait_for(reply)
    send_body(server, case, lane, drawn)
    if frames:
        last = chunk(frames[-1]) if reply == ROVER_2_OK else frames[-1]
        while not rover.came[len(reply):].endswith(last):
            if not rover.receive():
                raise Wrong('the last frame does not come')
    got = body_frames(rover.finish().came, reply)
    rest = iter(frames)
    if not all(one in rest for one in got) or len(got) > len(frames):
        raise Wrong('%d frames of %d, not in order' % (len(got), len(frames)))
    server.count(**{'sessions exact': 1, 'sent exact': len(got), 'overrun exact': len(frames) - len(got)})
    server.ending('rover of a lane')


def rover_at(server, case, mount, user, *more):
    """A rover with a right head, which sends reports and nonsense. What it is sent."""
    rng = case.rng
    who = basic(user, user)
    head, reply = rng.choice([(rover_1(mount, who, *more), ICY), (rover_2(mount, who, *more), ROVER_2_OK)])
    talk = Talk(server, case).send(head + wild_reports(rng))
    time.sleep(rng.uniform(0, 0.2))
    talk.send(rng.choice([wild_reports, wild_body])(rng)).finish()
    if not talk.came.startswith(reply):
        wants(talk, reply)
    got = body_frames(talk.came, reply)
    server.count(**{'sessions ' + user: 1, 'sent ' + user: len(got)})
    server.ending('rover at ' + mount)
    return got


def listener(server, case, lane):
    """A rover at the mountpoint of the honest source: it is sent all frames from some on, each once."""
    got = rover_at(server, case, HONEST, 'exact')
    places = in_order(server, got)
    if len(places) != len(got) or places and places[-1] - places[0] != len(places) - 1:
        raise Wrong('it was sent the frames %s' % places)


def near_rover(server, case, lane):
    """A rover whose reports are hostile, at the mountpoint that picks the nearest base."""
    at = ['Ntrip-GGA: ' + any_report(case.rng).decode()] * case.rng.randint(0, 1)
    in_order(server, rover_at(server, case, NEAR, 'near', *at))


def tail(server, case, lane):
    """Any head that is changed or none, when the honest two have gone: it asks for none of their places."""
    settle(server, Talk(server, case).send(wild_head(case.rng, honest=False)).finish())


SINGLE = [(wild, 30), (torn, 12), (silent, 3), (rude, 12), (known, 8), (source, 24), (run_of_preambles, 1),
          (listener, 5), (near_rover, 10)]
ALL = SINGLE + [(pair, 12)]
TAIL = [(tail, 1)]


def connections(kind):
    return 2 if kind is pair else 1
