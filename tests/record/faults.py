"""A test of the comparison of tests/record/cases.py: copies of a true script, or of its true report, in which one
thing is wrong, each of which it is to refuse.
"""

# How many connections are tried with each kind of fault.
EACH = 4


def line_of(lines, number):
    return next(at for at, line in enumerate(lines) if line.startswith('connection %d ' % number))


def bytes_of(lines, number):
    return next(at for at in range(line_of(lines, number), len(lines)) if lines[at].startswith('bytes '))


def one_more(line, at):
    words = line.split(' ')
    words[at] = str(int(words[at]) + 1)
    return ' '.join(words)


def with_line(lines, at, line):
    return lines[:at] + ([] if line is None else [line]) + lines[at + 1:]


def wrong_bytes(lines, number, dice):
    """The bytes of one that read to its end, and was given some."""
    at = bytes_of(lines, number)
    front, digits = lines[at].split(' ')
    place = dice.randrange(len(digits))
    other = '0' if digits[place] != '0' else '1'
    yield 'a digit is another', with_line(lines, at, '%s %s' % (front, digits[:place] + other + digits[place + 1:]))
    yield 'a byte is missing', with_line(lines, at, '%s %s' % (front, digits[:-2] or '-'))
    yield 'a byte more', with_line(lines, at, '%s %sd3' % (front, digits))
    yield 'none came', with_line(lines, at, 'bytes -')
    first = line_of(lines, number)
    yield 'a connection is missing', lines[:first] + lines[at + 1:]


def wrong_numbers(lines, number, dice):
    for at, line in enumerate(lines):
        if line.startswith('mount '):
            yield 'a frame more is published', with_line(lines, at, one_more(line, 2))
            yield 'a claim more', with_line(lines, at, one_more(line, 3))
    for at in range(line_of(lines, number), bytes_of(lines, number)):
        if lines[at].startswith('segment '):
            yield 'a frame more is sent', with_line(lines, at, one_more(lines[at], 4))


def wrong_script(lines, number, dice):
    """What one brought in whose end is there; all of it was sent."""
    own = [at for at, line in enumerate(lines) if line.startswith('in %d ' % number)]
    end = lines.index('end %d' % number) if 'end %d' % number in lines else None
    for at in dice.sample(own, 1) if own and end is not None else []:
        words = lines[at].split(' ')
        yield 'a piece is missing', with_line(lines, at, None)
        yield 'a piece comes twice', lines[:at] + [lines[at]] + lines[at:]
        digit = '0' if words[2][-1] != '0' else '1'
        yield 'a digit of a piece is another', with_line(lines, at, ' '.join(words[:2] + [words[2][:-1] + digit]))
    yield 'a connection is not opened', with_line(lines, lines.index('open %d' % number), None)
    if end is not None:
        yield 'an end is a break', with_line(lines, end, 'break %d' % number)


def refuses(session, script, report, wrong):
    try:
        session.check('\n'.join(script), '\n'.join(report))
        return False
    except wrong:
        return True


def try_all(session, wrong):
    """Tries the comparison with this session, which is as it should be. How many copies were refused; wrong where
    one of them was taken."""
    script, report = session.script.split('\n'), session.report.split('\n')
    numbers = list(range(1, len(session.clients) + 1))
    ended = [number for number in numbers if not session.clients[number - 1].is_gone]
    given = [number for number in ended if session.clients[number - 1].got]
    dice, count = session.dice, 0
    for kind, those, is_script in [(wrong_bytes, given, False), (wrong_numbers, numbers, False),
                                   (wrong_script, ended, True)]:
        for number in dice.sample(those, min(EACH, len(those))):
            for what, copy in kind(script if is_script else report, number, dice):
                good = refuses(session, copy, report, wrong) if is_script else refuses(session, script, copy, wrong)
                if not good:
                    raise wrong('taken for true: %s (connection %d)' % (what, number))
                count += 1
    return count
