"""Random sessions of clients through `caster record`, on real sockets. Of each session is compared:

- what each client was given with the `bytes` of the replay of the script: all of it where the client read to its
  end, and a first part where it closed or reset its connection;
- what each client sent with what the script brings in: all of it where the script has its `end`, else a first part;
- its reply with those that it may have by docs/FORMATS.md;
- how many frames the replay counts as published with a cut of the test's own (tests/real/cut.py) of what the
  sources sent, and their claims; and each body with that cut: whole frames that a source sent, and nothing else.

Each tenth session is tried again with scripts and reports that are wrong in one thing (tests/record/faults.py).
Session K of seed S is the same each time but for its times. A session that is wrong is written to a folder below
TMPDIR, whose name is printed.
"""
import os
import subprocess
import sys
import tempfile
import time
import traceback

sys.path[:0] = ['tests/serve', 'tests/hostile', 'tests/real', 'tests/record']

import clients
import faults
from cut import cut
from model import chunks_of, unchunked
from wire import (ICY, PROGRAM, ROVER_2_OK, SOURCE_2_OK, Recorder, Wrong, brought, events_of, parts_of, replay, sent_by,
                  show, table_1, table_2)

# The longest that a session may take, in seconds.
LONGEST = 40

# What sources and rovers that are let in are answered.
LET_IN = (ICY, SOURCE_2_OK, ROVER_2_OK)


class Session:
    """A recorder, its clients, and what they did."""

    def __init__(self, seed, number):
        self.dice = clients.dice_of(seed, number)
        self.config, self.clients = clients.config(self.dice), clients.drawn(self.dice)
        self.output = tempfile.NamedTemporaryFile('w+b', suffix='.script')
        self.caster = Recorder(self.config, len(self.clients), None, self.output)
        self.until = time.monotonic() + LONGEST
        self.script, self.report = '', ''

    def is_late(self):
        if time.monotonic() > self.until:
            raise Wrong('it takes more than %d seconds' % LONGEST)
        return False

    # ---- what the clients do

    def wait_for_the_listener(self):
        """A first connection that is refused is tried again; it is no client's then."""
        while not self.is_late():
            try:
                return self.clients[0].connect(self.caster.port)
            except ConnectionRefusedError:
                time.sleep(0.005)

    def play(self):
        """Each step is one client's: it comes, sends a piece, reads, or leaves. In between all read, so that the
        program waits for nobody."""
        self.wait_for_the_listener()
        coming, steps = self.clients[1:], 0
        while not self.is_late() and (coming or not all(one.has_left() for one in self.clients)):
            steps += 1
            if coming and (self.dice.random() < 0.3 or not self.acting(coming)):
                coming.pop(0).connect(self.caster.port)
            else:
                self.step(self.dice.choice(self.acting(coming) or self.clients), coming)
            if steps % 10 == 0:
                self.all_read()
                time.sleep(self.dice.choice([0, 0, 0, 0.001]))

    def acting(self, coming):
        return [one for one in self.clients if one.is_open() and not one.has_left()]

    def step(self, one, coming):
        if not one.is_open():
            # It has seen its end, and leaves.
            return None if one.has_left() else one.leave()
        if one.has_more() and not one.has_left():
            return one.send()
        one.read()
        if one.has_left():
            return None
        sources_send = coming or any(other.kind in ('source', 'two', 'chunks') and other.has_more()
                                     for other in self.clients if other.is_open())
        if one.late and sources_send and self.dice.random() < 0.98:
            return None
        one.delay -= 1
        return one.leave() if one.delay < 0 else None

    def all_read(self):
        for one in self.clients:
            if one.is_open():
                one.read()

    def read_to_the_ends(self):
        """Those that finished read to their ends, which come when all connections of the session have ended."""
        while not self.is_late() and not all(one.is_gone or one.saw_end for one in self.clients):
            self.all_read()
            time.sleep(0.001)
        for one in self.clients:
            one.socket.close()

    # ---- what came of it

    def end(self):
        """It has ended by itself; its script, the report of that, and the sourcetable."""
        self.caster.ends()
        with open(self.output.name) as file:
            self.script = file.read()
        self.report = replay(self.caster.path, self.script)
        table = subprocess.run([PROGRAM, 'table', self.caster.path], capture_output=True, timeout=20).stdout
        self.tables = [table_1(table), table_2(table)]

    def check(self, script, report):
        events, (connections, last) = events_of(script), parts_of(report)
        numbers = list(range(1, len(self.clients) + 1))
        opened = [int(words[1]) for words in events if words[0] == 'open']
        if opened != numbers or list(connections) != numbers:
            raise Wrong('connections: %s are opened, %s told, of %d' % (opened, list(connections), len(numbers)))
        for number, one in zip(numbers, self.clients):
            try:
                self.check_one(one, events, number, connections[number])
            except Wrong as wrong:
                raise Wrong('connection %d, %s that leaves by %s: %s' % (number, one.kind, one.leaves, wrong)) from None
        self.check_frames(events, connections, last)

    def check_one(self, one, events, number, lines):
        told, got, came = sent_by(lines), bytes(one.got), brought(events, number)
        closed = {words[0] for words in events if words[0] in ('end', 'break') and words[1] == str(number)}
        if one.is_gone and told[:len(got)] != got or not one.is_gone and told != got:
            raise Wrong('it was sent %s, and %s came' % (show(told), show(got)))
        if bytes(one.sent[:len(came)]) != came or closed == {'end'} and bytes(one.sent) != came:
            raise Wrong('it sent %s, and %s are brought in' % (show(one.sent), show(came)))
        if 'break' in closed and not one.is_gone:
            raise Wrong('it was told as broken, and read to its end')
        if not closed and lines[0].split(' ')[2] in ('rover-end', 'no-head'):
            raise Wrong('it has no end, and ended as %s' % lines[0])
        self.check_reply(one, told, 'break' in closed)

    def check_reply(self, one, told, is_broken):
        """Nothing was said to it where it left, or had not asked; else one of its replies, whole where that refuses."""
        wanted = [reply for entry in one.replies for reply in (self.tables if entry == 'table' else [entry])]
        found = [reply for reply in wanted if told.startswith(reply)]
        asked = bytes(one.sent) == one.planned or b'\r\n\r\n' in one.sent or len(one.sent) > 8192
        if not told and (is_broken or not wanted or not asked):
            return
        if not found or not any(reply in LET_IN or told == reply for reply in found):
            raise Wrong('no reply of it: %s' % show(told))
        if one.kind in ('source', 'two', 'chunks') and told not in found:
            raise Wrong('more than a reply: %s' % show(told))

    def check_frames(self, events, connections, last):
        """What sources sent and what was published, and the bodies of rovers."""
        published, claims, known = 0, 0, set()
        for number, one in enumerate(self.clients, 1):
            if one.kind in ('source', 'two', 'chunks') and sent_by(connections[number]) in (ICY, SOURCE_2_OK):
                _, _, body = brought(events, number).partition(b'\r\n\r\n')
                found = cut(unchunked(body) if one.kind == 'chunks' else body)
                published, claims = published + len(found.frames), claims + 1
                known.update(found.frames)
                if connections[number][1] != 'junk %d' % found.junk:
                    raise Wrong('connection %d: %s, wanted %d' % (number, connections[number][1], found.junk))
        told = [sum(int(line.split(' ')[at]) for line in last if line.startswith('mount ')) for at in (2, 3)]
        if told != [published, claims]:
            raise Wrong('%s frames and claims are told, %s were sent' % (told, [published, claims]))
        for number, one in enumerate(self.clients, 1):
            if one.kind == 'rover':
                check_body(number, sent_by(connections[number]), connections[number], known)

    # ---- its end

    def keep(self, fault, seed, number):
        """What it was, for one who looks for the fault."""
        place = tempfile.mkdtemp(prefix='record-%d-%d-' % (seed, number))
        for name, text in [('config.toml', self.config), ('session', self.script), ('report', self.report),
                           ('fault', fault + '\n')]:
            with open(os.path.join(place, name), 'w') as file:
                file.write(text)
        return place

    def close(self):
        self.caster.stop()
        self.output.close()
        for one in self.clients:
            if one.socket:
                one.socket.close()


def check_body(number, told, lines, known):
    """A body has as many frames as its segments say were sent, each of them one of these."""
    front = next((reply for reply in (ROVER_2_OK, ICY) if told.startswith(reply)), None)
    if front is None:
        return
    found = cut(told[len(front):])
    frames = chunks_of(told[len(front):]) if front == ROVER_2_OK else found.frames
    if frames is None or front == ICY and (found.junk or found.waiting):
        raise Wrong('connection %d: the body is not of whole frames: %s' % (number, show(told)))
    sent = sum(int(line.split(' ')[4]) for line in lines if line.startswith('segment '))
    if len(frames) != sent or not known.issuperset(frames):
        raise Wrong('connection %d: %d frames of sources, and %d are told' % (number, len(frames), sent))


def try_one(seed, number, sums):
    """Whether the session of this number was as it should be."""
    session = Session(seed, number)
    try:
        session.play()
        session.read_to_the_ends()
        session.end()
        session.check(session.script, session.report)
        if number % 10 == 0:
            sums['refused'] += faults.try_all(session, Wrong)
        count(session, sums)
        return True
    except Exception as fault:
        said = str(fault) if isinstance(fault, Wrong) else traceback.format_exc()
        print('FAILED session %d of seed %d: %s\n  it is kept in %s' % (
            number, seed, said, session.keep(said, seed, number)), flush=True)
        return False
    finally:
        session.close()


def count(session, sums):
    """What was in it, for the last line."""
    sums['clients'] += len(session.clients)
    sums['bytes'] += sum(len(one.got) for one in session.clients)
    sums['cut off'] += sum(one.is_gone for one in session.clients)
    sums['overrun'] += int(session.report.splitlines()[-1].split(' ')[3])
    for lines in parts_of(session.report)[0].values():
        ending = 'ending ' + lines[0].split(' ')[2]
        sums[ending] = sums.get(ending, 0) + 1
        sums['moved'] += sum(line.startswith('segment ') for line in lines) > 1


def main(words):
    if len(words) > 3 or not all(word.isdigit() for word in words):
        sys.exit('usage: tests/record/run [COUNT [SEED [FROM]]]')
    number, seed, first = [int(word) for word in words] + [60, 1, 0][len(words):]
    sums, begun = dict.fromkeys(['clients', 'bytes', 'cut off', 'overrun', 'moved', 'refused'], 0), time.monotonic()
    passed = sum(try_one(seed, at, sums) for at in range(first, first + number))
    print('endings: ' + ', '.join('%d %s' % (sums[one], one[7:]) for one in sorted(sums) if one.startswith('ending ')))
    print('%d clients, of which %d closed or reset; %d bytes came to them; %d frames were overrun; %d rovers changed '
          'their base' % (sums['clients'], sums['cut off'], sums['bytes'], sums['overrun'], sums['moved']))
    print('copies of scripts and reports that are wrong in one thing, each refused: %d' % sums['refused'])
    print('seed %d: %d passed, %d failed; %.0f s' % (seed, passed, number - passed, time.monotonic() - begun))
    return 0 if passed == number and number > 0 else 1


if __name__ == '__main__':
    sys.exit(main(sys.argv[1:]))
