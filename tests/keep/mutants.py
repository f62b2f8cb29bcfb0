"""A test of tests/keep/books.py: copies of true books in which one thing is wrong, each of which it is to
refuse. Most of them agree with themselves: the closing lines are the sums of what is left, and only what the
clients counted says otherwise.
"""
import re

from books import Wrong, read

# How many of each kind are made.
EACH = 4


class Lines:
    """Books as lines, by links, to be changed."""

    def __init__(self, text, house):
        self.text, self.house = text, house
        self.lines = text.split('\n')[:-1]
        self.published = {words[1]: int(words[2]) for words in map(str.split, self.lines) if words[0] == 'mount'}
        self.first_closing = next(at for at, line in enumerate(self.lines) if line.startswith('mount '))

    def of_link(self, name):
        return [at for at, line in enumerate(self.lines) if line.startswith(name + ' ')]

    def receipt(self, name):
        kinds = (' segment ', ' lap ', ' end ')
        return [at for at in self.of_link(name) if any(kind in self.lines[at] for kind in kinds)]

    def without(self, places):
        gone = set(places)
        return [line for at, line in enumerate(self.lines) if at not in gone]

    def behind(self, more):
        """With these lines before the closing ones."""
        return self.lines[:self.first_closing] + more + self.lines[self.first_closing:]

    def summed(self, lines):
        """These lines with the closing lines that are their sums."""
        links = [line for line in lines if re.match('[0-9]+\\.[0-9]+ ', line)]
        words = [line.split(' ')[1:] for line in links]
        ends = [one for one in words if one[0] == 'end']
        closing = ['mount %s %d %d' % (mount, self.published[mount], sum(
            one[0] in ('source', 'relay') and one[1] == mount for one in words)) for mount in self.house.mounts]
        for user in [*self.house.users, None]:
            who = ['rover:' + one for one in self.house.users] + ['anonymous'] if user is None else ['rover:' + user]
            own = [one for one in ends if one[1] in who]
            closing.append('%s %d %d %d' % ('account ' + user if user else 'total', len(own), sum(
                int(one[2]) for one in own), sum(int(one[3]) for one in own)))
        return links + closing


def one_more(line, at, by=1):
    words = line.split(' ')
    words[at] = str(int(words[at]) + by)
    return ' '.join(words)


def changed(lines, changes):
    copy = list(lines.lines)
    for at, line in changes.items():
        copy[at] = line
    return copy


def renumbered(lines, name):
    """The lines of a link, as the next link of its caller."""
    caller = name.split('.')[0]
    last = max(int(line.split(' ')[0].split('.')[1]) for line in lines.lines if line.startswith(caller + '.'))
    return ['%s.%d %s' % (caller, last + 1, lines.lines[at].split(' ', 1)[1]) for at in lines.of_link(name)]


def taken_away(lines, name, dice):
    yield 'an end is taken away', lines.without(lines.receipt(name)[-1:])
    yield 'a receipt is taken away', lines.without(lines.receipt(name))
    yield 'a receipt is taken away, and is in no sum', lines.summed(lines.without(lines.receipt(name)))
    yield 'a link is taken away', lines.without(lines.of_link(name))


def last_taken_away(lines, name, dice):
    """The last link of a caller: no number is missing then."""
    caller = name.split('.')[0]
    last = [line.split(' ')[0] for line in lines.lines if line.startswith(caller + '.')][-1]
    yield 'the last link of a caller is taken away', lines.summed(lines.without(lines.of_link(last)))


def doubled(lines, name, dice):
    receipt = [lines.lines[at] for at in lines.receipt(name)]
    yield 'an end is doubled', lines.behind(receipt[-1:])
    yield 'a receipt is doubled', lines.behind(receipt)
    yield 'a receipt is doubled, and is in all sums', lines.summed(lines.behind(renumbered(lines, name)))


def sums_changed(lines, name, dice):
    for at in range(lines.first_closing, len(lines.lines)):
        words = lines.lines[at].split(' ')
        number = dice.randrange(1 if words[0] == 'total' else 2, len(words))
        yield 'a sum is changed', changed(lines, {at: one_more(lines.lines[at], number)})


def counts_changed(lines, name, dice):
    """A count of a rover's segment, and all that are sums of it."""
    places = lines.receipt(name)
    segment = next(at for at in places if ' segment ' in lines.lines[at])
    by, end = dice.choice([-1, 1]), places[-1]
    if int(lines.lines[segment].split(' ')[5]) + by < 0:
        by = 1
    sent = {segment: one_more(lines.lines[segment], 5, by), end: one_more(lines.lines[end], 3, by)}
    yield 'the frames of a segment alone', changed(lines, {segment: sent[segment]})
    yield 'the frames of an end alone', changed(lines, {end: sent[end]})
    yield 'frames sent, in all sums', lines.summed(changed(lines, sent))
    lost = {segment: one_more(lines.lines[segment], 6), end: one_more(lines.lines[end], 4)}
    yield 'frames lost, in all sums', lines.summed(changed(lines, lost))
    # Of one that hears only some messages nobody else knows where its segment ends.
    if not lines.house.hears.get(lines.lines[end].split(' ')[2][6:]):
        for number, what in ((3, 'first'), (4, 'last')):
            yield 'the %s place of a segment' % what, changed(lines, {segment: one_more(lines.lines[segment], number)})


def words_changed(lines, name, dice):
    places = lines.of_link(name)
    end = lines.lines[places[-1]]
    yield 'another ending', changed(lines, {places[-1]: ' '.join(end.split(' ')[:6] + ['coding'])})
    yield 'another address', changed(lines, {places[0]: lines.lines[places[0]] + '1'})
    other = lines.house.users[lines.house.users.index(end.split(' ')[2][6:]) - 1]
    swap = {at: re.sub(r'^(\S+ end rover:|\S+ rover |\S+ asks . rover \S+ )\S+', lambda found: found[1] + other,
                       lines.lines[at]) for at in places}
    yield 'another user, in all sums', lines.summed(changed(lines, swap))
    yield 'a line of two', changed(lines, {places[0]: lines.lines[places[0]][:9] + end})
    yield 'a link in another order', lines.without(places[:1]) + [lines.lines[places[0]]]
    yield 'an ending that is none', changed(lines, {places[-1]: end + ' 7'})


KINDS = [taken_away, last_taken_away, doubled, sums_changed, counts_changed, words_changed]


def refused(lines, check):
    try:
        check(''.join(line + '\n' for line in lines))
        return False
    except Wrong:
        return True


def try_all(text, house, check, dice):
    """Makes copies of these true books with one fault each, of random receipts, and gives how many there were,
    by kind. Wrong where one of them is taken."""
    check(text)
    lines, counts = Lines(text, house), {}
    if lines.summed(lines.lines) != lines.lines:
        raise Wrong('the sums of the test are not those of the books')
    names = sorted({line.split(' ')[0] for line in lines.lines[:lines.first_closing]})
    rovers = [line.split(' ')[0] for line in lines.lines if ' end rover:' in line]
    for kind in KINDS:
        for name in dice.sample(rovers if kind in (counts_changed, words_changed) else names, EACH):
            for what, mutant in kind(lines, name, dice):
                if mutant == lines.lines:
                    raise Wrong('%s: nothing is changed at %s' % (what, name))
                counts[what] = counts.get(what, 0) + 1
                if not refused(mutant, check):
                    raise Wrong('taken for true: %s (%s)' % (what, name))
    for at in dice.sample(range(len(text) - 1), EACH):
        if not refused([text[:at]], check) or read(text[:at], cut=True) is None:
            raise Wrong('taken for true: a text cut at %d' % at)
    return counts
