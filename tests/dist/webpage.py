"""Cases of the page: what stands in it, by hand; in a real browser, over nginx, while the program runs; and what
haproxy is told by its state."""
import datetime
import json
import os
import re
import subprocess
import threading
import time

import browser
from common import *

# ---- by hand

BEGIN = datetime.datetime(2026, 12, 1, 8, 0, tzinfo=datetime.timezone.utc)
EPOCH_8 = int(BEGIN.timestamp())


def stamped(rows, process=71):
    """Lines with times: each row is so many seconds behind eight o'clock, and a line."""
    return ''.join('%s field caster[%d]: %s\n' % (
        (BEGIN + datetime.timedelta(seconds=at)).strftime('%Y-%m-%dT%H:%M:%S+0000'), process, line) for at, line in rows)


def state_of(text):
    """What `page` makes of these lines: `state.json`, and the page."""
    folder = os.path.join(WORK, 'page')
    os.makedirs(folder, exist_ok=True)
    passes('dist/caster-lines', 'page', folder, write('page.lines', text))
    if sorted(os.listdir(folder)) != ['index.html', 'state.json']:
        raise Wrong('the folder has %s' % os.listdir(folder))
    return json.loads(text_of(folder + '/state.json')), text_of(folder + '/index.html')


def holds(what, got, wanted):
    """The row has these values, among others."""
    got = {key: got.get(key) for key in wanted}
    if got != wanted:
        raise Wrong('%s: wanted %s and got %s' % (what, wanted, got))


def answer(at, alpha, bravo, busy=3):
    return [(at, 'now mount ALPHA %s' % alpha), (at, 'now mount BRAVO %s' % bravo), (at, 'now workers %d 4' % busy),
            (at, 'now end')]


# By hand from FORMATS: a base of ALPHA, a relay of BRAVO that is dialled in vain, and rovers of ALPHA and NEAR.
RUN = [(0, '0.1 from 203.0.113.1:50001'), (0, '0.1 asks 1 source ALPHA -'), (1, '0.1 source ALPHA 1'),
       *answer(10, '5 1', '0 -'),
       (11, '4.1 to 198.51.100.9:2101'), (12, '4.1 end relay:BRAVO 0 0 0 upstream 404'),
       (17, '4.2 to 198.51.100.9:2101'), (18, '4.2 end relay:BRAVO 0 0 0 upstream 503'),
       (20, '1.1 from 203.0.113.2:50002'), (20, '1.1 asks 2 rover ALPHA <i>u'), (21, '1.1 rover <i>u'),
       (22, '2.1 from 203.0.113.3:50003'), (22, '2.1 asks 1 rover NEAR -'), (23, '2.1 rover -'),
       *answer(70, '305 1', '0 -', 3),
       (71, '2.1 segment ALPHA 5 105 98 2'), (71, '2.1 lap 5 7 105 2'),
       (80, '3.1 from 203.0.113.4:50004'), (80, '3.1 asks 1 rover <s>X <b>y'), (80, '3.1 end - 0 0 0 no-account'),
       (90, '3.2 from 203.0.113.5:50005'), (90, '3.2 asks 1 table - -'), (90, '3.2 end - 0 0 0 table-sent'),
       (100, '1.1 segment ALPHA 5 405 400 0'), (100, '1.1 end rover:<i>u 400 0 0 rover-end'),
       *answer(130, '605 1', '0 -', 2)]


def page_by_hand():
    """Of lines that were written by hand the state has what they say: who holds a mountpoint and since when, frames a
    second between the last two answers, silence, a relay dialled in vain, who is on, who left and who was refused."""
    state, page = state_of(stamped(RUN))
    holds('caster', state['caster'], {'is_serving': True, 'since': EPOCH_8, 'workers': 4, 'busy': 2, 'refused': 1,
                                      'answered': EPOCH_8 + 130, 'refusals': {'no-account': 1}, 'passed_over': 0})
    alpha, bravo, near = state['mounts']
    holds('ALPHA', alpha, {'name': 'ALPHA', 'is_held': True, 'holder': 'source', 'address': '203.0.113.1:50001',
                           'claim': 1, 'since': EPOCH_8 + 1, 'published': 605, 'rate': 5.0, 'silent': 0, 'rovers': 0,
                           'relay': None, 'curve': [[EPOCH_8 + at, EPOCH_8 + at + 60, 5.0] for at in (10, 70)]})
    holds('BRAVO', bravo, {'is_held': False, 'rate': 0.0, 'silent': 120, 'rovers': 0, 'since': None,
                           'relay': {'at': EPOCH_8 + 18, 'tries': 2, 'ending': 'upstream 503'}})
    holds('NEAR', near, {'name': 'NEAR', 'is_near': True, 'rovers': 1})
    base, rover = state['connections']
    holds('the base', base, {'number': '0.1', 'kind': 'source', 'mount': 'ALPHA', 'user': None, 'sent': None})
    holds('the rover', rover, {'number': '2.1', 'kind': 'rover', 'mount': 'NEAR', 'base': 'ALPHA', 'user': None,
                               'sent': 98, 'lost': 2, 'since': EPOCH_8 + 23})
    left, = state['ended']
    holds('who left', left, {'user': '<i>u', 'mount': 'ALPHA', 'sent': 400, 'lost': 0, 'since': EPOCH_8 + 21,
                             'at': EPOCH_8 + 100, 'address': '203.0.113.2:50002', 'ending': 'rover-end'})
    refused, = state['refused']
    holds('who was refused', refused, {'at': EPOCH_8 + 80, 'address': '203.0.113.4', 'user': '<b>y', 'mount': '<s>X',
                                       'ending': 'no-account'})
    for mark in ('<i>u', '<b>y', '<s>X'):
        if mark in page or mark.replace('<', '&lt;').replace('>', '&gt;') not in page:
            raise Wrong('%s stands in the page' % mark)
    if needs_of(page) != ['No base holds BRAVO (its relay: answered with status 503).',
                          'without credentials at NEAR loses 2.00 % of its frames.']:
        raise Wrong('what needs an eye: %s' % needs_of(page))


def state_of_formats():
    """docs/FORMATS.md, "The state of a page", has the keys of each row, and no others."""
    state, _ = state_of(stamped(RUN))
    section = text_of('docs/FORMATS.md').split('## The state of a page\n')[1].split('\n## ')[0]
    rows = dict(re.findall(r'^\| (.*?) \| (.*) \|$', section, re.M))
    kinds = ('source', 'relay', 'rover', 'status', '[from, to, rate]')
    bravo = state['mounts'][1]
    for of, got in [('the file', state), ('`caster`', state['caster']), ('a mountpoint', {**bravo, **bravo['relay']}),
                    ('a connection', state['connections'][0]), ('one that ended', state['ended'][0]),
                    ('one that was refused', state['refused'][0])]:
        named = {word for word in re.findall('`([^`]+)`', rows[of])}
        if named - set(kinds) != set(got) - set(kinds):
            raise Wrong('%s: FORMATS has %s, and the state %s' % (of, sorted(named), sorted(got)))


def needs_of(page):
    return re.findall('<li>(.*?)</li>', page)


def runs_of_a_page():
    """A run that was killed is over when the next one begins: who was on stands among those that ended, a mountpoint
    that the next run does not name is gone, and frames are counted anew. Behind totals the caster has stopped."""
    more = [(200, '0.1 from 203.0.113.1:50101'), (201, '0.1 source ALPHA 1')]
    cut = [(210, 'now mount ALPHA 700 1'), (210, 'now workers 4 4'), (210, 'now end'),
           (270, 'now mount ALPHA 700 1'), (270, 'now workers 4 4'), (270, 'now end')]
    state, page = state_of(stamped(RUN) + stamped(more + cut, 72))
    if [mount['name'] for mount in state['mounts']] != ['ALPHA']:
        raise Wrong('the mountpoints are %s' % state['mounts'])
    holds('ALPHA', state['mounts'][0], {'address': '203.0.113.1:50101', 'rate': 0.0, 'silent': 60,
                                        'since': EPOCH_8 + 201})
    # No rate reaches from one run into the other.
    if [step[1:] for step in state['mounts'][0]['curve']] != [
            [EPOCH_8 + 70, 5.0], [EPOCH_8 + 130, 5.0], [EPOCH_8 + 270, 0.0]]:
        raise Wrong('the curve is %s' % state['mounts'][0]['curve'])
    ended = [(row['kind'], row['mount'], row['sent'], row['lost'], row['ending']) for row in state['ended']]
    if sorted(ended[:2]) != [('rover', 'ALPHA', 98, 2, ''), ('source', 'ALPHA', None, None, '')] or len(ended) != 3:
        raise Wrong('who ended: %s' % ended)
    if needs_of(page) != ['ALPHA is held, and silent for 1 min.',
                          '4 of 4 workers are busy: who comes next may have to wait.',
                          'without credentials at ALPHA lost 2.00 % of its frames, up to 08:02:10.']:
        raise Wrong('what needs an eye: %s' % needs_of(page))
    totals = [(300, 'mount ALPHA 700 1'), (300, 'total 0 0 0')]
    state, page = state_of(stamped(RUN) + stamped(more + cut + totals, 72))
    if state['caster']['is_serving'] or needs_of(page) != ['The caster has stopped, in order: its totals came.']:
        raise Wrong('it has stopped: %s' % needs_of(page))


# Behind each part of the lines, which begin in the midst of a run: whether ALPHA is held, by whom, under which claim, and
# its relay.
MIDST = [(answer(0, '5 7', '0 -'), (True, None, 7, None)),
         ([(1, '0.9 end source:ALPHA 0 0 0 source-end 7')], (False, None, None, None)),
         ([(2, '1.5 from 203.0.113.1:1'), (2, '0.10 from 203.0.113.2:2'), (3, '0.10 source ALPHA 8')],
          (True, '203.0.113.2:2', 8, None)),
         # The next claim is told before the line `end` of the connection that had the one before.
         ([(4, '1.5 source ALPHA 9')], (True, '203.0.113.1:1', 9, None)),
         ([(5, '0.10 end source:ALPHA 0 0 0 read-fault')], (True, '203.0.113.1:1', 9, None)),
         ([(6, '1.5 end source:ALPHA 0 0 0 source-end 9'), (7, '4.7 to 198.51.100.9:2101'), (8, '4.7 relay ALPHA 10')],
          (True, '198.51.100.9:2101', 10, None)),
         ([(9, '4.7 end relay:ALPHA 0 0 0 source-end 10')], (False, None, None, (0, 'source-end 10'))),
         ([(10, '4.8 to -'), (11, '4.8 end relay:ALPHA 0 0 0 no-head')], (False, None, None, (1, 'no-head'))),
         ([(12, '4.9 to 198.51.100.9:2101'), (13, '4.9 relay ALPHA 11')], (True, '198.51.100.9:2101', 11, None))]


def holders_in_the_midst():
    """Who holds a mountpoint, where the lines begin in the midst of a run, claims follow each other closely, and a relay
    comes and goes."""
    rows = []
    for part, (is_held, address, claim, relay) in MIDST:
        rows += part
        state, _ = state_of(stamped(rows))
        alpha = state['mounts'][0]
        holds('behind %s' % part[-1][1], alpha, {'is_held': is_held, 'address': address, 'claim': claim})
        if (alpha['relay'] and (alpha['relay']['tries'], alpha['relay']['ending'])) != relay:
            raise Wrong('behind %s: the relay is %s' % (part[-1][1], alpha['relay']))


def page_of_many():
    """The last fifty that ended and that were refused stand there, the last one first, and a curve has an hour."""
    rows = []
    for at in range(120):
        rows += [(at, '0.%d from 203.0.113.1:%d' % (at + 1, at + 1)), (at, '0.%d rover r%d' % (at + 1, at)),
                 (at, '0.%d end rover:r%d 1 0 0 rover-end' % (at + 1, at)),
                 (at, '1.%d from 203.0.113.2:%d' % (at + 1, at + 1)), (at, '1.%d end - 0 0 0 password 1' % (at + 1))]
    for minute in range(180):
        rows += [(200 + 60 * minute, 'now mount FREE%d 0 -' % number) for number in range(30)]
        rows += answer(200 + 60 * minute, '%d 1' % (minute * 120), '%d -' % minute)
    state, page = state_of(stamped(rows))
    if needs_of(page) != ['No base holds FREE%d.' % number for number in range(10)] + [
            'And 21 mountpoints more have no base, or are silent.']:
        raise Wrong('what needs an eye: %s' % needs_of(page))
    if [row['user'] for row in state['ended']] != ['r%d' % at for at in range(119, 69, -1)]:
        raise Wrong('who ended: %s' % [row['user'] for row in state['ended']])
    if len(state['refused']) != 50 or state['refused'][0]['at'] != EPOCH_8 + 119 or state['caster']['refused'] != 120:
        raise Wrong('%d were refused' % len(state['refused']))
    curve = next(mount for mount in state['mounts'] if mount['name'] == 'ALPHA')['curve']
    last = EPOCH_8 + 200 + 179 * 60
    if len(curve) != 60 or curve[-1] != [last - 60, last, 2.0] or {rate for _, _, rate in curve} != {2.0}:
        raise Wrong('%d places of a curve, %s' % (len(curve), curve[-1]))


def page_without_times():
    """Lines without times are as of when they come, and the page follows them: each is in it soon."""
    folder = os.path.join(WORK, 'live')
    os.makedirs(folder)
    process = subprocess.Popen(['dist/caster-lines', 'page', folder], stdin=subprocess.PIPE)
    processes.append(process)
    begun, rows = int(time.time()), [line for _, line in RUN]
    for part, wanted in ((rows[:3], 1), (rows[3:14], 2), (rows[14:16], 3)):
        process.stdin.write(''.join(line + '\n' for line in part).encode())
        process.stdin.flush()
        until = time.monotonic() + PATIENCE
        while not os.path.exists(folder + '/state.json') or len(
                json.loads(text_of(folder + '/state.json'))['connections']) != wanted:
            if time.monotonic() > until:
                raise Wrong('it has %s' % os.listdir(folder))
            time.sleep(0.05)
    process.stdin.close()
    if process.wait(timeout=PATIENCE):
        raise Wrong('status %d' % process.returncode)
    state = json.loads(text_of(folder + '/state.json'))
    times = [state['at'], state['mounts'][0]['since'], *[row['since'] for row in state['connections'][:2]]]
    if not all(begun <= at <= time.time() for at in times) or state['connections'][2]['since'] is not None:
        raise Wrong('the times are %s, begun at %d' % (times, begun))


# ---- in a browser

CONFIG = '''version = 2
workers = 12
[[mount]]
name = "ALPHA"
password = "sesame"
ring = 512
latitude = 0
longitude = 0
[[mount]]
name = "BRAVO"
password = "sesame"
ring = 512
latitude = 100
longitude = 0
[[mount]]
name = "CHARLIE"
password = "sesame"
ring = 512
latitude = 200
longitude = 0
[[near]]
name = "NEAR"
bases = ["ALPHA", "BRAVO"]
[[group]]
name = "open"
mounts = ["ALPHA", "BRAVO", "CHARLIE", "NEAR"]
types = "all"
[[account]]
user = "rover1"
password = "secret"
group = "open"
cap = 20
[[account]]
user = "tractor7"
password = "secret"
group = "open"
cap = 20
[anonymous]
group = "open"
cap = 99
'''

# Frames of a base that sends all at once, more than the system keeps for a rover.
BURST, SIZE = 12000, 1000

# Frames of that base in the half of an hour before.
QUIET_ONES = 16 * 120


class Scene:
    """The program; each of its lines gets the time of a clock of ours and goes to `page`, whose folder nginx serves."""

    def __init__(self):
        self.port, self.front, self.clock, self.lines = free_port(), free_port(), int(time.time()) - 1700, []
        self.folder = os.path.join(WORK, 'www')
        os.makedirs(self.folder)
        self.page = subprocess.Popen(['dist/caster-lines', 'page', self.folder], stdin=subprocess.PIPE)
        self.caster = subprocess.Popen([PROGRAM, 'keep', write('scene.toml', CONFIG), '127.0.0.1:%d' % self.port, '0'],
                                       stdin=subprocess.PIPE, stdout=subprocess.PIPE)
        processes.extend([self.page, self.caster])
        self.reader = threading.Thread(target=self.read, daemon=True)
        self.reader.start()
        self.serve()

    def read(self):
        for line in self.caster.stdout:
            front = time.strftime('%Y-%m-%dT%H:%M:%S+0000', time.gmtime(self.clock)) + ' field caster[71]: '
            self.page.stdin.write(front.encode() + line)
            self.page.stdin.flush()
            self.lines.append(line.decode().strip())
        self.page.stdin.close()

    def serve(self):
        """nginx by its recipe, at another port."""
        users = write('page.users', 'me:' + passes('openssl', 'passwd', '-apr1', 'see').decode())
        server = replaced(text_of('dist/nginx-page.conf'), [
            ('listen 2180', 'listen 127.0.0.1:%d' % self.front), ('/etc/nginx/caster.pem', certificate()),
            ('/run/caster-page', self.folder), ('/etc/nginx/page.users', users)])
        path = write('page.conf', '%sdaemon off; pid %s/page.pid; error_log stderr;\nevents {}\nhttp {\n'
                     'include /etc/nginx/mime.types; access_log off; client_body_temp_path %s/body;\n%s}\n'
                     % ('user root; ' * (os.geteuid() == 0), WORK, WORK, server))
        start('nginx', '-c', path)
        until = time.monotonic() + PATIENCE
        while self.asked('me:see') != '200':
            if time.monotonic() > until:
                raise Wrong('nginx answers %s' % self.asked('me:see'))
            self.status_is_asked()
            time.sleep(0.2)

    def asked(self, user):
        """The status with which nginx answers this user."""
        return run('curl', '-sk', '-o', '/dev/null', '-w', '%{http_code}', '-u', user,
                   'https://127.0.0.1:%d/' % self.front).stdout.decode()

    def waits_for(self, form, count=1):
        until = time.monotonic() + PATIENCE
        while sum(re.search(form, line) is not None for line in list(self.lines)) < count:
            if time.monotonic() > until:
                raise Wrong('%d lines %s did not come: %s' % (count, form, self.lines[-20:]))
            time.sleep(0.01)

    def status_is_asked(self, behind=0):
        """So many seconds later by our clock."""
        self.clock += behind
        count = self.lines.count('now end')
        self.caster.stdin.write(b'status\n')
        self.caster.stdin.flush()
        self.waits_for('^now end$', count + 1)


    def ends(self):
        """The program is told to stop, and the page with it."""
        self.caster.stdin.write(b'stop\n')
        self.caster.stdin.flush()
        if self.caster.wait(timeout=PATIENCE) or self.page.wait(timeout=PATIENCE):
            raise Wrong('they end with %d and %d' % (self.caster.returncode, self.page.returncode))


class Clients:
    """Two bases and five rovers, and what each of them did."""

    def __init__(self, scene):
        port, self.begun, self.taken = scene.port, scene.clock, 0
        self.alpha = Client(port).send(source_1('ALPHA', 'sesame')).expect(ICY)
        self.bravo = Client(port).send(source_2('BRAVO', 'sesame')).expect(SOURCE_2_OK)
        here = report('0000.000,N', '00000.000,E')
        known, other = basic('rover1', 'secret'), basic('tractor7', 'secret')
        self.rovers = {
            'rover1': Client(port).send(rover_1('ALPHA', known)).expect(ICY),
            'tractor7': Client(port).send(rover_2('ALPHA', other)).expect(ROVER_2_OK),
            'open': Client(port).send(rover_1('ALPHA')).expect(ICY),
            'near': Client(port).send(rover_1('NEAR', 'Ntrip-GGA: ' + here)).expect(ICY),
            'slow': Client(port, room=4096).send(rover_1('BRAVO', known)).expect(ICY)}
        scene.waits_for(r'^\d+\.\d+ rover ', 5)

    def links(self):
        """User, kind, address and mountpoint of each, as the page is to have them."""
        about = {'rover1': ('rover1', 'ALPHA'), 'tractor7': ('tractor7', 'ALPHA'),
                 'open': ('without credentials', 'ALPHA'), 'near': ('without credentials', 'NEAR'), 'slow': ('rover1', 'BRAVO')}
        rows = [('–', 'base', at(self.alpha), 'ALPHA'), ('–', 'base', at(self.bravo), 'BRAVO')]
        return sorted(rows + [(user, 'rover', at(self.rovers[name]), mount) for name, (user, mount) in about.items()])

    def half_an_hour_goes_by(self, scene):
        """By our clock: the base at ALPHA sends some frames a second, and the other one falls silent in the midst."""
        for minute in range(27):
            self.frames_come(240 + 30 * (minute % 3))
            if minute < 16:
                self.bravo.send(B * 120)
                self.rovers['slow'].expect(B * 120)
            scene.status_is_asked(60)

    def frames_come(self, count):
        """The base at ALPHA sends so many frames, and each rover that hears it takes them."""
        self.alpha.send(A * count)
        for name in ('rover1', 'open', 'near'):
            self.rovers[name].expect(A * count)
        for _ in range(count):
            self.rovers['tractor7'].expect(chunk(A))
        self.taken += count

    def burst(self):
        """The base at BRAVO sends more at once than its slow rover can be kept; it reads on to the last frame, and gives
        how many of these came."""
        self.bravo.send(b''.join(frames(1005, 0, BURST, SIZE)))
        slow, last = self.rovers['slow'], frame(1005, BURST - 1, SIZE)
        came = places_in(slow.receive_until(last), SIZE)
        slow.close()
        return len(came)

    def come_and_go(self, scene):
        """The slow rover, another one and the base at BRAVO leave, and three are refused: how many frames of the burst
        came to the slow one, and who was refused."""
        came = self.burst()
        scene.waits_for(' end rover:rover1 ')
        self.rovers['tractor7'].close()
        scene.waits_for(' end rover:tractor7 ')
        refused = self.are_refused(scene)
        self.bravo.close()
        scene.waits_for(' end source:BRAVO ')
        scene.status_is_asked(10)
        scene.status_is_asked(10)
        return came, refused

    def are_refused(self, scene):
        """Three that are turned away: by what they asked for, as whom, and why."""
        heads = [rover_1('ALPHA', basic('rover1', 'wrong')), rover_1('<script>alert(1)'), source_1('CHARLIE', 'wrong')]
        for count, head in enumerate(heads, 1):
            one = Client(scene.port).send(head)
            while one.receive():
                pass
            one.close()
            scene.waits_for(' end - 0 0 0 (password|no-mount|source-password)', count)
        return [('ALPHA', 'rover1', 'wrong password'), ('<script>alert(1)', '–', 'no such mountpoint'),
                ('CHARLIE', '–', 'wrong password of the mountpoint')]


def at(client):
    return '127.0.0.1:%d' % client.socket.getsockname()[1]


def figures(tab):
    return tab.value('''Object.fromEntries([...document.querySelectorAll('dl div')].map(
        one => [one.querySelector('dt').textContent, one.querySelector('dd').textContent]))''')


def eye_of(tab):
    return tab.value("[...document.querySelectorAll('#eye li')].map(one => one.textContent)")


def clock_of(at):
    return time.strftime('%H:%M:%S', time.gmtime(at))


def shows_who_is_on(tab, scene, clients):
    """Behind half an hour, and 40 frames of ALPHA in its last ten seconds; BRAVO had its last ones at minute 16."""
    tab.wait_for("document.querySelector('#mounts') && [...document.querySelectorAll('#mounts td')].some("
                 "cell => cell.textContent === '4.0')")
    rows = tab.rows('links')
    got = sorted((row['User'], row['Kind'], row['Address'], row['Mountpoint']) for row in rows)
    if got != clients.links():
        raise Wrong('on are %s, and the clients are %s' % (got, clients.links()))
    since = clock_of(clients.begun) + ' (27 min)'
    if {row['Since'] for row in rows} != {since}:
        raise Wrong('they are on since %s, and not %s' % ([row['Since'] for row in rows], since))
    mounts = {row['Mountpoint']: row for row in tab.rows('mounts')}
    if list(mounts) != ['CHARLIE', 'BRAVO', 'ALPHA', 'NEAR']:
        raise Wrong('the mountpoints are %s' % list(mounts))
    holds('ALPHA', mounts['ALPHA'], {'State': 'held', 'Held by': 'base ' + at(clients.alpha), 'Since': since,
                                     'Frames/s': '4.0', 'Silent for': '0 s', 'Rovers': '3'})
    holds('BRAVO', mounts['BRAVO'], {'State': 'silent', 'Held by': 'base ' + at(clients.bravo), 'Frames/s': '0.0',
                                     'Silent for': '11 min', 'Rovers': '1'})
    holds('CHARLIE', mounts['CHARLIE'], {'State': 'no base', 'Held by': '–', 'Rovers': '0'})
    holds('NEAR', mounts['NEAR'], {'State': 'near', 'Rovers': '1'})
    holds('the caster', figures(tab), {'Workers busy': '7 of 12', 'Rovers': '5', 'Bases and relays': '2',
                                       'Turned away': '0, 0 in the last hour'})
    if eye_of(tab) != ['No base holds CHARLIE.', 'BRAVO is held, and silent for 11 min.']:
        raise Wrong('what needs an eye: %s' % eye_of(tab))


def shows_who_left(tab, clients, came, refused):
    """Renewed by its own script: who left, with what they counted themselves, and who was refused."""
    tab.wait_for("document.querySelectorAll('#refused tbody tr').length === 3 && "
                 "document.querySelector('#eye li').textContent === 'No base holds BRAVO.'")
    ended = [(row['User'], row['Kind'], row['Sent'], row['Lost'], row['Why']) for row in tab.rows('ended')]
    wanted = [('–', 'base', '–', '–', 'ended by itself'),
              ('tractor7', 'rover', '{:,}'.format(clients.taken), '0', 'left'),
              ('rover1', 'rover', '{:,}'.format(came + QUIET_ONES), '{:,}'.format(BURST - came), 'left')]
    if ended != wanted or came > 0.98 * BURST:
        raise Wrong('ended: %s, and the clients counted %s' % (ended, wanted))
    got = [(row['Asked for'], row['As user'], row['Why']) for row in tab.rows('refused')]
    if got != refused[::-1]:
        raise Wrong('refused: %s, and those who came: %s' % (got, refused))
    share = 'rover1 at BRAVO lost %.2f %% of its frames' % (100 * (BURST - came) / (BURST + QUIET_ONES))
    said = eye_of(tab)
    if said[:3] != ['No base holds BRAVO.', 'No base holds CHARLIE.', 'ALPHA is held, and silent for 20 s.'] or \
            not said[3].startswith(share) or len(said) != 4:
        raise Wrong('what needs an eye: %s, and %s' % (said, share))
    holds('the caster', figures(tab), {'Workers busy': '4 of 12', 'Rovers': '3', 'Bases and relays': '1',
                                       'Turned away': '3, 3 in the last hour'})
    if not tab.value("document.getElementById('fold-ended').open"):
        raise Wrong('what was unfolded is folded again')


def takes_nothing_from_elsewhere(tabs, origin):
    asked = [event['params']['request']['url'] for event in tabs[0].browser.events
             if event['method'] == 'Network.requestWillBeSent']
    strange = [url for url in asked if not url.replace('me:see@', '').startswith((origin, 'data:'))]
    if strange or not asked:
        raise Wrong('it asks for %s' % (strange or 'nothing'))
    if [event for event in tabs[0].browser.events if event['method'] in (
            'Page.javascriptDialogOpening', 'Log.entryAdded', 'Runtime.exceptionThrown')]:
        raise Wrong('a script of others ran, or its own failed: %s' % tabs[0].browser.events[-5:])


def reads_well(phone, desktop):
    """As wide as the screen and no wider; dark letters on light ground, or the other way round."""
    for tab in (phone, desktop):
        if tab.value('document.documentElement.scrollWidth') > tab.width:
            raise Wrong('it is wider than %d' % tab.width)
    lights = [sum(map(int, re.findall('[0-9]+', tab.value('getComputedStyle(document.body).%s' % what))[:3]))
              for tab in (phone, desktop) for what in ('backgroundColor', 'color')]
    if not lights[0] < 150 < 500 < lights[1] or not lights[3] < 150 < 500 < lights[2]:
        raise Wrong('the colours are %s' % lights)


def page_in_a_browser():
    """A real browser opens the page over nginx, by its recipe, while the program serves two bases and five rovers: what
    stands in it is what the clients did, on a phone and a desktop, dark and light, with scripts and without."""
    need('chromium', 'nginx', 'openssl', 'curl')
    scene = Scene()
    if scene.asked('me:wrong') != '401':
        raise Wrong('another password is taken')
    clients = Clients(scene)
    scene.status_is_asked(10)
    clients.half_an_hour_goes_by(scene)
    clients.frames_come(40)
    scene.status_is_asked(10)
    origin, url = ['https://%s127.0.0.1:%d/' % (user, scene.front) for user in ('', 'me:see@')]
    with browser.Browser() as chromium:
        phone, desktop = browser.Tab(chromium, 390, 844, 'dark'), browser.Tab(chromium)
        for tab in (phone, desktop):
            tab.open(url)
            shows_who_is_on(tab, scene, clients)
        reads_well(phone, desktop)
        pictures(phone, desktop)
        phone.value("document.getElementById('fold-ended').open = true")
        shows_who_left(phone, clients, *clients.come_and_go(scene))
        still = browser.Tab(chromium, scripts=False)
        still.open(url)
        if [still.rows(name) for name in ('mounts', 'links')] != [phone.rows(name) for name in ('mounts', 'links')]:
            raise Wrong('without scripts it says something else: %s' % still.value('document.body.innerText'))
        scene.status_is_asked(60)
        phone.wait_for("[...document.querySelectorAll('#eye li')].some(one => one.textContent === "
                       "'ALPHA is held, and silent for 1 min.')")
        if eye_of(still)[2] != 'ALPHA is held, and silent for 20 s.':
            raise Wrong('without scripts it renews itself: %s' % eye_of(still))
        scene.ends()
        phone.wait_for("document.querySelector('#eye li').textContent.startsWith('The caster has stopped')")
        takes_nothing_from_elsewhere((phone, desktop, still), origin)


def pictures(phone, desktop):
    """Two pictures, in the folder that PICTURES names."""
    folder = os.environ.get('PICTURES')
    if folder:
        phone.picture(folder + '/phone.png', 2400)
        desktop.picture(folder + '/desktop.png', 1200)


CASES = [page_by_hand, state_of_formats, runs_of_a_page, holders_in_the_midst, page_of_many, page_without_times, page_in_a_browser]
