"""Cases of `caster keep` with real sockets. Each is a function whose text says what it tries; it is wrong
where it raises something. What is wanted comes from docs/FORMATS.md and from what the clients did, saw and
sent; tests/keep/books.py compares the lines with it. Cases of the process, its output and its signals stand
in tests/keep/process.py, those of its sockets and of its rests in tests/keep/sockets.py, those of slow rovers in
tests/keep/slow.py.
"""
import os
import random
import re
import signal
import subprocess
import sys
import threading
import time
import traceback

sys.path.insert(0, 'tests/keep')

from books import agree, compare, read
from guests import *
from mutants import try_all
from process import *
from slow import *
from sockets import *
from wire import (BAD_PASSWORD_1, DENIED_1, FULL_1, NO_MOUNT_2, TAKEN_1, TAKEN_2, UNAUTHORIZED_1, UNAUTHORIZED_2,
                  Client, rover_1, rover_2, source_1, source_2, table_1, table_2)

# The longest that all cases may take, in seconds.
LONGEST = 170


# ---- stops

def refused_ones(keeper):
    """One of each refusal, and those who ask for the table. The account `lone` has a session."""
    table = subprocess.run([PROGRAM, 'table', keeper.path], capture_output=True, timeout=PATIENCE).stdout
    nobody, wrong, lone = basic('nobody', 'secret'), basic('rover1', 'wrong'), basic('lone', 'only')
    for head, reply, ending, *asks in [
            (rover_1(''), table_1(table), 'table-sent', 1, 'table', '-', '-'),
            (rover_2(''), table_2(table), 'table-sent', 2, 'table', '-', '-'),
            (rover_1('NONE'), table_1(table), 'no-mount', 1, 'rover', 'NONE', '-'),
            (rover_2('NONE', nobody), NO_MOUNT_2, 'no-mount', 2, 'rover', 'NONE', 'nobody'),
            (source_1('NONE', 'x'), TAKEN_1, 'no-mount', 1, 'source', 'NONE', '-'),
            (rover_1('ALPHA', nobody), UNAUTHORIZED_1, 'no-account', 1, 'rover', 'ALPHA', 'nobody'),
            (rover_1('ALPHA', basic('a;b', 'c')), UNAUTHORIZED_1, 'no-account', 1, 'rover', 'ALPHA', '-'),
            (rover_2('ALPHA', wrong), UNAUTHORIZED_2, 'password 1', 2, 'rover', 'ALPHA', 'rover1'),
            (rover_1('CHARLIE'), DENIED_1, 'denied 2', 1, 'rover', 'CHARLIE', '-'),
            (rover_1('ALPHA', lone), FULL_1, 'full 1 1', 1, 'rover', 'ALPHA', 'lone'),
            (source_1('ALPHA', 'wrong'), BAD_PASSWORD_1, 'source-password', 1, 'source', 'ALPHA', '-'),
            (b'NONSENSE\r\n\r\n', wire.BAD_HEAD, 'bad-head'),
            (b'a' * 8192, wire.BAD_HEAD, 'long-head'),
            (b'PUT /ALPHA HTTP/1.1\r\n\r\n', wire.NOT_DONE, 'method'),
            (source_2('ALPHA', 'sesame', 'Transfer-Encoding: gzip'), wire.NOT_DONE, 'coding')]:
        Refused(keeper, head, reply, ending, *asks)


def taken_one(keeper, head, reply, version, base):
    """A source that finds its mountpoint held by this base. Which caller that is, the lines of the base say."""
    one = Visitor(keeper).asks(version, 'source', base.mount).send(head).expect(reply)
    one.expect_end()
    keeper.wait_for_lines(r'\S+ from %s' % re.escape(base.guest.peer[1]))
    caller = re.search(r'^([0-9]+)\.[0-9]+ from %s$' % re.escape(base.guest.peer[1]), keeper.text(), re.M)[1]
    one.ended('taken %s %d' % (caller, base.guest.claim))


def stop_with_all_open():
    """Sources, rovers and relays of all kinds are open, others left before, and one has sent no head: at the
    word each sees its end, the lines are those of what they did, and the sums are theirs."""
    upstream = Upstream('CHARLIE', 2)
    keeper = keep(16, [upstream.relay])
    far = upstream.accept(keeper)
    lone = Rover(keeper, 'ALPHA', 'lone')
    lone.guest.spans = [(0, 0)]
    refused_ones(keeper)
    first = Base(keeper, 'ALPHA', claim=1)
    taken_one(keeper, source_1('ALPHA', 'sesame'), TAKEN_1, 1, first)
    taken_one(keeper, source_2('ALPHA', 'sesame'), TAKEN_2, 2, first)
    early = Rover(keeper, 'ALPHA', 'rover1')
    first.publish(3).babble(b'no frame')
    early.wait_for('ALPHA', 2).leaves()
    early.guest.spans = [(0, 3)]
    lone.wait_for('ALPHA', 2).leaves()
    lone.guest.spans = [(0, 3)]
    first.publish(2)
    first.finish()
    first.until_end()
    base = Base(keeper, 'ALPHA', 2, chunked=True, claim=2)
    bravo = Base(keeper, 'BRAVO', 2, claim=1)
    rovers = [Rover(keeper, mount, user, version) for mount, user, version in [
        ('ALPHA', 'rover1', 1), ('ALPHA', 'rover1', 2), ('ALPHA', 'rover2', 2), ('ALPHA', '-', 1), ('BRAVO', '-', 2),
        ('BRAVO', 'rover2', 1), ('CHARLIE', 'rover1', 2)]]
    near = Rover(keeper, 'NEAR', 'rover1', 2, more=['Ntrip-GGA: ' + AT_BRAVO])
    silent = Visitor(keeper)
    half = Visitor(keeper).send(b'GET /ALPHA HTT')
    for one in range(20):
        base.publish(2, 3)
        bravo.publish(3)
        far.publish(1)
    bravo.babble(b'Here is no frame.').publish(1)
    last = {mount: count - 1 for mount, count in keeper.published.items()}
    for one in rovers:
        hears = HEARS.get(one.guest.entered[1], {1005, 1077})
        mount = one.target
        one.wait_for(mount, last[mount] if message_of(mount, last[mount]) in hears else last[mount] - 1)
        one.guest.spans = [({'ALPHA': 5}.get(mount, 0), last[mount] + 1)]
    near.wait_for('BRAVO', last['BRAVO'])
    near.guest.spans = [(0, last['BRAVO'] + 1)]
    stay = [base, bravo, *rovers, near, silent, half, far]
    begun = time.monotonic()
    checked_at_a_stop(keeper, stay)
    ended_within(1.5, begun, stay)
    upstream.close()


def stop_of_250_rovers():
    """Two bases and 250 rovers of both versions, as many as there are workers but four, get 40 frames each; at
    the word all see their end, and the 250 receipts are theirs."""
    keeper = keep(256)
    bases = [Base(keeper, mount, claim=1) for mount in ('ALPHA', 'BRAVO')]
    users = ['rover1', 'rover2', '-']

    def rover(at):
        return Rover(keeper, ('ALPHA', 'BRAVO')[at % 2], users[at % 3], 1 + at // 2 % 2)

    rovers = [rover(at) for at in range(250)]
    for _ in range(20):
        for base in bases:
            base.publish(2)


    def read_all(at):
        """The last frame that all may hear is that of the place 38; one that hears all waits for the next."""
        one = rovers[at]
        one.wait_for(one.target, 39 if one.guest.entered[1] == 'rover1' else 38)
        one.guest.spans = [(0, 40)]

    all_at_once(250, read_all)
    begun = time.monotonic()
    books = checked_at_a_stop(keeper, rovers + bases)
    ended_within(2, begun, rovers + bases)
    wants('receipts of rovers', sum(end.who[:5] in ('rover', 'anony') for end in books.ends()), 250)


def lapped_and_near():
    """A ring of four frames, and a base that sends a hundred at once: two rovers are lapped, and each place came
    or stands in a lap. A rover of NEAR moves from base to base, and has a segment at each."""
    keeper = keep(7, ring=4)
    base, other = Base(keeper, 'ALPHA', claim=1), Base(keeper, 'BRAVO', claim=1)
    near = Rover(keeper, 'NEAR', 'rover1').send(AT_ALPHA.encode() + b'\r\n')
    publish_until(base, lambda: near.heard_last()[0] == 'ALPHA', near)
    near.send(AT_BRAVO.encode() + b'\r\n')
    publish_until(other, lambda: near.heard_last()[0] == 'BRAVO', near)
    stream = Base(keeper, 'CHARLIE', claim=1)
    slow = [Rover(keeper, 'CHARLIE', user, version) for user, version in [('rover1', 1), ('rover2', 2)]]
    reading = [threading.Thread(target=one.wait_for, args=('CHARLIE', 999 - at)) for at, one in enumerate(slow)]
    for one in reading:
        one.start()
    for _ in range(10):
        stream.publish(100)
    for one in reading:
        one.join()
    for one in slow:
        one.guest.spans = [(0, 1000)]
    books = checked_at_a_stop(keeper, [base, other, near, stream, *slow])
    holds('no rover was lapped', all(
        link.end.overrun for link in books.links.values() if link.entered[0] == 'rover' and link.asks[2] == 'CHARLIE'))
    wants('the bases of the near rover', [mount for mount, _ in near.guest.heard], ['ALPHA', 'BRAVO'])


def publish_until(base, came, rover):
    """One frame after the other, until this came of them to the rover."""
    rover.socket.settimeout(0.05)
    end = time.monotonic() + PATIENCE
    while not came():
        holds('nothing comes of ' + base.mount, time.monotonic() < end)
        base.publish(2)
        try:
            rover.receive()
        except wire.Wrong:
            pass
    rover.socket.settimeout(PATIENCE)


def other_words():
    """Other lines, a stop in two parts, and the end of the input: none of them is a stop."""
    keeper = keep(2)
    base = Base(keeper, 'ALPHA', claim=1)
    for words in ('stopp\nsto\np\n\nSTOP\n stop\nstop now\n', 'x' * 100000 + 'stop\n', 'st'):
        keeper.ask(words)
    time.sleep(0.5)
    rover = Rover(keeper, 'ALPHA')
    base.publish(1)
    rover.wait_for('ALPHA', 0).guest.spans = [(0, 1)]
    keeper.ask('op\r\n')
    keeper.checked(keeper.ends())
    ended = keep(2)
    base = Base(ended, 'ALPHA', claim=1)
    ended.process.stdin.write(b'stop')
    ended.process.stdin.close()
    ended.process.stdin = None
    time.sleep(0.5)
    rover = Rover(ended, 'ALPHA')
    base.publish(1)
    rover.wait_for('ALPHA', 0)
    holds('it ended with its input', ended.process.poll() is None)


def stands(mounts, busy, workers):
    """An answer: how many frames were published at each mountpoint and its claim, and how many workers are busy."""
    return [['mount', mount, str(published), holder] for mount, published, holder in mounts] + [
        ['workers', str(busy), str(workers)]]


def status_while_all_are_busy():
    """A base and a rover hold both workers, and what they did is told at the line `status`: once for each such line,
    and for no other. Then the base leaves, and its claim and its worker are free."""
    keeper = keep(2)
    base, rover = Base(keeper, 'ALPHA', claim=1), Rover(keeper, 'ALPHA')
    late = Visitor(keeper)
    answer = 'now end\n'
    for count, published in [(1, 3), (3, 5)]:
        base.publish(published - keeper.published['ALPHA'])
        rover.wait_for('ALPHA', published - 1)
        keeper.ask('status\n' if count == 1 else 'statuss\nstatus\nSTATUS\n\nsta')
        if count == 3:
            keeper.ask('tus\r\n')
        until(lambda: keeper.text().count(answer) >= count, 'the answers to %d lines' % count)
    base.finish()
    base.until_end()
    keeper.wait_for_lines(r'[01]\.1 end source:ALPHA 0 0 0 source-end 1')
    # The one that came late is taken by the worker that is free now.
    keeper.wait_for_lines(r'\S+ from %s' % re.escape(late.guest.peer[1]))
    late.finish()
    late.until_end()
    until(lambda: keeper.text().count(' end ') >= 2, 'the end of the one that came late')
    keeper.ask('status\n')
    until(lambda: keeper.text().count(answer) >= 4, 'the answer behind it')
    time.sleep(0.5)
    rover.guest.spans = [(0, 5)]
    books = checked_at_a_stop(keeper, [rover])
    others = [('BRAVO', 0, '-'), ('CHARLIE', 0, '-')]
    wants('how things stood', books.stood, [
        stands([('ALPHA', 3, '1'), *others], 2, 2), stands([('ALPHA', 5, '1'), *others], 2, 2),
        stands([('ALPHA', 5, '1'), *others], 2, 2), stands([('ALPHA', 5, '-'), *others], 1, 2)])


# ---- silence

BASE = '''import socket, sys, time, os
one = socket.create_connection(('127.0.0.1', int(sys.argv[1])))
one.sendall(bytes.fromhex(sys.argv[2]))
while one.recv(100)[-2:] != b'\\r\\n': pass
one.sendall(bytes.fromhex(sys.argv[3]))
print('%s:%d' % one.getsockname(), flush=True)
if sys.argv[4] == 'hold' and os.fork() == 0:
    os.close(1)
    time.sleep(30)
elif sys.argv[4] == 'stay':
    time.sleep(30)
'''


def other_base(keeper, mount, how):
    """A source in a process of its own, which has sent three frames, and its account."""
    data = keeper.frames_to_publish(mount, 3)
    process = subprocess.Popen([sys.executable, '-c', BASE, str(keeper.port), source_1(mount, PASSWORDS[mount]).hex(),
                                data.hex(), how], stdout=subprocess.PIPE, start_new_session=True)
    children.append(process)
    visitor = Visitor.__new__(Visitor)
    visitor.guest = Guest(process.stdout.readline().decode().strip())
    visitor.asks(1, 'source', mount).ended('read-fault')
    visitor.guest.entered, visitor.guest.sent, visitor.guest.claim = ('source', mount), 3, 1
    keeper.note(visitor)
    return process


def base_that_tries(keeper, mount):
    """A source that tries until it is let in, and when that was."""
    while True:
        one = Client(keeper.port).send(source_1(mount, PASSWORDS[mount]))
        address = address_of(one.socket)
        while b'\r\n' not in one.came and one.receive():
            pass
        if one.came == ICY:
            return one, address, time.monotonic()
        wants('the reply', bytes(one.came), TAKEN_1)
        one.close()
        time.sleep(0.1)


def bases_that_vanish():
    """QUIET 4: a base that is stopped, and one whose process ended while another one holds its socket, lose
    their claims 4 seconds behind their last bytes; bases that try all the time are let in then. One that sends
    a frame every half second keeps its claim, and its rover stays."""
    keeper = keep(12, quiet=4)
    steady, rover = Base(keeper, 'CHARLIE', claim=1), Rover(keeper, 'CHARLIE', 'rover1')
    first = time.monotonic()
    stopped = other_base(keeper, 'ALPHA', 'stay')
    held = other_base(keeper, 'BRAVO', 'hold')
    stopped.send_signal(signal.SIGSTOP)
    held.wait(PATIENCE)
    # Their last bytes came between these two moments.
    last = time.monotonic()
    tried = threading.Thread(target=lambda: again.extend(
        all_at_once(2, lambda at: base_that_tries(keeper, ('ALPHA', 'BRAVO')[at]))))
    again = []
    tried.start()
    while tried.is_alive():
        steady.publish(1)
        tried.join(0.5)
    wants('bases that were let in', len(again), 2)
    for _, _, when in again:
        holds('let in after %.2f to %.2f seconds' % (when - last, when - first), 4 <= when - first and when - last < 6)
    rover.wait_for('CHARLIE', keeper.published['CHARLIE'] - 1).guest.spans = [(0, keeper.published['CHARLIE'])]
    text = keeper.stops()
    for one in (steady, rover):
        one.until_end()
    # Those that tried have no accounts here.
    books = read(text)
    agree(books, keeper.house)
    compare(books, keeper.house, [one.guest for one in keeper.guests], message_of, strangers=True)
    wants('frames and claims of the two mountpoints', [line[2:] for line in books.closing[:2]], [['3', '2']] * 2)
    known = {one.guest.peer for one in keeper.guests}
    for mount, (_, address, _) in zip(('ALPHA', 'BRAVO'), again):
        known.add(('from', address))
        link = next(link for link in books.links.values() if link.peer == ('from', address))
        wants('the second base', (link.entered, link.end.ending), (('source', mount, '2'), 'source-end 2'))
    for link in books.links.values():
        if link.peer not in known:
            holds('%s: %s' % (link.name, link.end), link.asks[1] == 'source' and link.end.ending[:6] == 'taken ')
    for process in (stopped, held):
        os.killpg(process.pid, signal.SIGKILL)


def one_byte_a_second():
    """QUIET 2: a client that sends one byte a second of a head is cut, as is one that sends none; and one that
    was let in stays while it takes frames."""
    keeper = keep(5, quiet=2)
    base, rover = Base(keeper, 'ALPHA', claim=1), Rover(keeper, 'ALPHA')
    begun = time.monotonic()
    slow, silent = Visitor(keeper), Visitor(keeper)
    for byte in rover_1('ALPHA')[:4]:
        try:
            slow.send(bytes([byte]))
        except OSError:
            break
        base.publish(2)
        time.sleep(1)
    for one in (slow, silent):
        # What ended it is told by the first read that does not give bytes; it came at its time.
        one.until_end()
        one.ended('read-fault')
    holds('they were not cut', time.monotonic() - begun < 6)
    while time.monotonic() - begun < 6:
        base.publish(2)
        time.sleep(0.5)
    rover.wait_for('ALPHA', keeper.published['ALPHA'] - 2).guest.spans = [(0, keeper.published['ALPHA'])]
    for one in (slow, silent):
        wants('what came', bytes(one.got), b'')
        one.guest.heard = []
    checked_at_a_stop(keeper, [base, rover])


def cut_in_time():
    """QUIET 2: a silent client sees its end 2 seconds after it came, and not before; with 0 it stays."""
    quick, never = keep(2, quiet=2), keep(2, quiet=0)
    stays = Visitor(never)
    begun = time.monotonic()
    silent = Visitor(quick).ended('read-fault').until_end()
    holds('cut after %.2f seconds' % (silent.over - begun), 1.9 < silent.over - begun < 3.5)
    quick.checked(quick.stops())
    time.sleep(1)
    never.checked(never.stops())
    stays.until_end()


# ---- relays

def upstream_that_comes_back():
    """A relay's caster ends twice: it is dialled again 5 seconds later, and then 10; each is a link of its own,
    and the rover gets the frames of all three, in a row."""
    upstream = Upstream('CHARLIE')
    keeper = keep(3, [upstream.relay])
    far = upstream.accept(keeper)
    rover = Rover(keeper, 'CHARLIE', 'rover1')
    for claim, pause in [(1, 5), (2, 10)]:
        far.guest.claim = claim
        far.publish(4)
        rover.wait_for('CHARLIE', 4 * claim - 1)
        far.close()
        ended = time.monotonic()
        far = upstream.accept(keeper)
        took = far.begun - ended
        holds('dialled again after %.2f seconds, wanted %d' % (took, pause), pause - 0.1 < took < pause + 1.5)
    far.guest.claim = 3
    far.publish(4)
    rover.wait_for('CHARLIE', 11).guest.spans = [(0, 12)]
    checked_at_a_stop(keeper, [far, rover])
    upstream.close()


# ---- many links, and a test of the checker

def many_links():
    """More than a thousand short links by eight clients at a time: rovers, sources, refusals, the table. The
    books hold; and of copies of them with one receipt less, one more, or another sum none does."""
    keeper = keep(10)
    base = Base(keeper, 'ALPHA', claim=1)
    base.publish(20)
    claims = iter(range(1, 10000))

    def lane(at):
        dice = random.Random(at)
        for number in range(140):
            kind = dice.randrange(10)
            if kind < 7:
                user = dice.choice(['rover1', 'rover2', '-'])
                one = Rover(keeper, 'ALPHA', user, dice.choice([1, 2]))
                if number % 4 == 0:
                    base_lock.acquire()
                    base.publish(2)
                    base_lock.release()
                one.leaves()
            elif kind == 7:
                Refused(keeper, rover_2('NONE'), NO_MOUNT_2, 'no-mount', 2, 'rover', 'NONE', '-')
            elif kind == 8 and at == 0:
                one = Base(keeper, 'BRAVO', claim=next(claims)).publish(3)
                one.finish()
                one.until_end()
            else:
                Refused(keeper, source_1('BRAVO', 'wrong'), BAD_PASSWORD_1, 'source-password', 1, 'source', 'BRAVO', '-')

    base_lock = threading.Lock()
    all_at_once(8, lane)
    last = Rover(keeper, 'ALPHA', 'rover1')
    base.publish(1)
    last.wait_for('ALPHA', keeper.published['ALPHA'] - 1)
    keeper.ask()
    for one in (base, last):
        one.until_end()
    text = keeper.ends()
    holds('too few links', len(read(text).links) > 1000)
    try_all(text, keeper.house, keeper.checked, random.Random(7))


# Those that wait for seconds run beside the others, each in a process of its own.
SLOW = [stop_while_a_write_waits, slow_rovers_are_lapped, idle_rover_has_its_buffer, stop_while_a_link_has_no_room,
        end_of_a_link_without_room, upstream_that_comes_back, many_links, killed_at_any_time, bases_that_vanish,
        one_byte_a_second, cut_in_time, frames_come_at_once, those_who_wait_rest, peer_that_refuses,
        peer_that_does_not_answer, descriptors_that_run_out]
CASES = [stop_with_all_open, stop_of_250_rovers, lapped_and_near, other_words, status_while_all_are_busy,
         status_with_a_relay, options_of_links, listener_that_is_gone, full_pipe, closed_output,
         outputs_that_take_nothing, no_further_thread, caster_run_by_signals, caster_run_early_and_often,
         caster_run_at_a_hangup, caster_run_beside_another, caster_run_to_a_file_at_its_limit,
         caster_run_gives_the_status] + SLOW


def run(case, failed):
    begun = time.monotonic()
    try:
        case()
    except (Wrong, wire.Wrong) as wrong:
        failed.append((case.__name__, str(wrong)))
    except Exception:
        failed.append((case.__name__, traceback.format_exc()))
    if os.environ.get('TIMES'):
        print('%6.2f s  %s' % (time.monotonic() - begun, case.__name__), flush=True)


def end_all():
    for keeper in keepers:
        keeper.stop()
    for process in children:
        try:
            os.killpg(process.pid, signal.SIGKILL)
        except ProcessLookupError:
            pass


def give_up():
    end_all()
    print('FAILED the cases took more than %d seconds' % LONGEST)
    sys.stdout.flush()
    os._exit(1)


def run_beside(case, failed):
    """The case in a process of its own."""
    words = [sys.executable, '-B', sys.argv[0], case.__name__]
    process = subprocess.Popen(words, stdout=subprocess.PIPE, stderr=subprocess.STDOUT, start_new_session=True)
    children.append(process)
    said = process.communicate()[0].decode()
    if process.returncode:
        failed.append((case.__name__, said))
    elif os.environ.get('TIMES'):
        print(said.splitlines()[0], flush=True)


def main(names):
    watch = threading.Timer(LONGEST, give_up)
    watch.daemon = True
    watch.start()
    cases = [case for case in CASES if not names or case.__name__ in names]
    failed = []
    beside = [threading.Thread(target=run_beside, args=(case, failed)) for case in cases
              if case in SLOW and len(cases) > 1]
    for thread in beside:
        thread.start()
    for case in cases:
        if case not in SLOW or len(cases) == 1:
            run(case, failed)
    for thread in beside:
        thread.join()
    end_all()
    for name, said in failed:
        print('FAILED %s\n%s' % (name, said.rstrip('\n')[:4000]))
    print('%d passed, %d failed' % (len(cases) - len(failed), len(failed)))
    return 0 if cases and not failed else 1


if __name__ == '__main__':
    sys.exit(main(sys.argv[1:]))
