"""Which base a rover of a near mountpoint is given: sessions of random numbers through `replay`, against a model that
was written from docs/FORMATS.md, "Positions", and shares nothing with the program."""
import random
import re
import subprocess
import tempfile

from wire import *

SESSIONS = 60
DEGREE = 10 ** 7


# ---- the model

def cosine(degrees):
    """Bhaskara's approximation, in steps of 1/10,000."""
    return 10000 * (32400 - 4 * degrees ** 2) // (32400 + degrees ** 2)


def measure(rover, base, wrong):
    north, turn = abs(rover[0] - base[0]), abs(rover[1] - base[1])
    if wrong != 'the long way round':
        turn = min(turn, 360 * DEGREE - turn)
    east = turn if wrong == 'no cosine' else turn * cosine(abs(rover[0]) // DEGREE) // 10000
    return north ** 2 + east ** 2


def chosen(session, wrong=None):
    """The bases that the rover is given, in order: one for each segment."""
    current, given = None, []
    for rover, held in session.reports:
        there = [one for one in range(len(held)) if held[one] and (one in session.listed or wrong == 'all bases')]
        measures = {one: measure(rover, session.bases[one], wrong) for one in there}
        if not there:
            continue
        nearest = min(there, key=lambda one: (measures[one], -one if wrong == 'the last of equal ones' else one))
        keeps = current in there
        if keeps:
            part = 100 - session.hysteresis
            part *= 100 if wrong == 'of the square' else part
            keeps = measures[nearest] * 10000 >= measures[current] * part
        if wrong == 'stays at a base that is gone' and current is not None and current not in there:
            keeps = True
        if not keeps and nearest != current:
            current = nearest
            given.append(current)
    return given


WRONG = ['the long way round', 'no cosine', 'all bases', 'the last of equal ones', 'of the square',
         'stays at a base that is gone']


# ---- sessions

def angle(units, digits):
    """The angle as GGA has it, with five decimals of a minute, and what these say, in units of 10^-7 degree."""
    degrees, part = divmod(abs(units), DEGREE)
    minutes = part * 60 // 100
    said = degrees * DEGREE + minutes * 100 // 60
    return '%0*d%02d.%05d' % (digits, degrees, *divmod(minutes, 100000)), said if units >= 0 else -said


def near(place, numbers, north, east):
    """A place on the earth that is no farther from this one."""
    lat = place[0] + numbers.randint(-north, north)
    lon = place[1] + numbers.randint(-east, east)
    return max(-90 * DEGREE, min(90 * DEGREE, lat)), (lon + 180 * DEGREE) % (360 * DEGREE) - 180 * DEGREE


class Session:
    """One rover of N, number 100, whose group lists some of its bases, and sources that come and go. `reports` has
    each report that counts, with which bases were held then."""

    def __init__(self, numbers):
        self.numbers = numbers
        count = numbers.randint(2, 5)
        middle = near((0, 0), numbers, 90 * DEGREE, 180 * DEGREE)
        if numbers.random() < 0.3:
            middle = middle[0], 180 * DEGREE - 1
        self.bases = [near(middle, numbers, DEGREE // 2, DEGREE) for _ in range(count)]
        if numbers.random() < 0.3:
            self.bases[-1] = self.bases[0]
        self.listed = set(numbers.sample(range(count), numbers.randint(1, count)))
        self.hysteresis = numbers.choice([0, 10, 25, 50])
        self.held, self.source, self.opened = [False] * count, {}, 0
        self.reports = []
        self.events = ['open 100', 'in 100 ' + rover_1('N').hex()]
        for _ in range(30):
            self.source_goes() if numbers.random() < 0.4 else self.rover_reports()

    def source_goes(self):
        """A source comes to a base, or goes from it."""
        one = self.numbers.randrange(len(self.bases))
        if self.held[one]:
            self.events.append('end %d' % self.source[one])
        else:
            self.opened += 1
            self.source[one] = self.opened
            self.events += ['open %d' % self.opened, 'in %d %s' % (self.opened, source_1('M%d' % one, 'x').hex())]
        self.held[one] = not self.held[one]

    def rover_reports(self):
        place = near(self.numbers.choice(self.bases), self.numbers, DEGREE // 2, DEGREE)
        (lat, north), (lon, east) = angle(place[0], 2), angle(place[1], 3)
        fix = self.numbers.choice(['1', '2', '4', '5', '9', '0', '', '11'])
        text = report('%s,%s' % (lat, 'NS'[place[0] < 0]), '%s,%s' % (lon, 'EW'[place[1] < 0]))
        text = with_sum(self.numbers.choice(['GP', 'GN', 'XY']) + text[3:-3].replace(',1,08,', ',%s,08,' % fix))
        self.events.append('in 100 ' + (text + self.numbers.choice(['\r\n', '\n'])).encode().hex())
        if re.fullmatch('[1-9]', fix):
            self.reports.append(((north, east), list(self.held)))

    def config(self):
        text = 'version = 2\nhysteresis = %d\n' % self.hysteresis
        for one, place in enumerate(self.bases):
            text += ('[[mount]]\nname = "M%d"\npassword = "x"\nring = 4\nlatitude = %d\nlongitude = %d\n'
                     % (one, *place))
        names = ['"M%d"' % one for one in range(len(self.bases))]
        listed = ['"N"'] + [names[one] for one in self.listed]
        return text + ('[[near]]\nname = "N"\nbases = [%s]\n[[group]]\nname = "g"\nmounts = [%s]\ntypes = "all"\n'
                       '[anonymous]\ngroup = "g"\ncap = 1\n' % (', '.join(names), ', '.join(listed)))


def with_sum(text):
    """The sentence with its checksum."""
    total = 0
    for byte in text.encode():
        total ^= byte
    return '$%s*%02x' % (text, total)


def given(config, events):
    """How the rover ended, and the bases of its segments, by the report."""
    with tempfile.NamedTemporaryFile('w') as file, tempfile.NamedTemporaryFile('w') as script:
        file.write(config)
        script.write('\n'.join(events + ['stop', '']))
        file.flush()
        script.flush()
        done = subprocess.run([PROGRAM, 'replay', file.name, script.name], stdout=subprocess.PIPE, timeout=PATIENCE)
    if done.returncode:
        raise Wrong('status %d: %s' % (done.returncode, show(done.stdout)))
    part = done.stdout.decode().split('connection 100 ')[1]
    return part.split('\n')[0], [int(one) for one in re.findall(r'^segment M([0-9]+) ', part, re.M)]


# ---- cases

def chosen_bases():
    """docs/FORMATS.md, "Positions": a near rover has a segment for each base that the model chooses, in order. A test
    of the test: each wrong model differs from what the program did."""
    numbers = random.Random(20261201)
    changes, differs = 0, set()
    for count in range(SESSIONS):
        session = Session(numbers)
        ending, bases = given(session.config(), session.events)
        if ending != 'rover-end' or bases != chosen(session):
            raise Wrong('session %d: %s, wanted %s and got %s' % (count, ending, chosen(session), bases))
        changes += len(bases)
        differs |= {wrong for wrong in WRONG if chosen(session, wrong) != bases}
    if changes < 2 * SESSIONS or differs != set(WRONG):
        raise Wrong('%d segments, and no session shows %s' % (changes, set(WRONG) - differs))


def bases_that_are_listed():
    """Where a group lists a near mountpoint and none of its bases, its rover is denied."""
    session = Session(random.Random(1))
    for listed, wanted in [(set(), 'denied 0'), ({0}, 'rover-end')]:
        session.listed = listed
        ending, _ = given(session.config(), session.events)
        if ending != wanted:
            raise Wrong('%s listed: %s' % (listed, ending))


CASES = [chosen_bases, bases_that_are_listed]
