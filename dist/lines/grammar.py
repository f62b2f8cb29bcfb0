"""The grammar of all lines that a caster writes: one table, as docs/FORMATS.md has it.

A line is a row more. A word of capitals is one of WORDS, any other word stands for itself.
"""
import re

# What `keep` writes of a connection, behind its number W.K and a space.
LINK = (
    'from ADDRESS',
    'to ADDRESS',
    'asks VERSION rover|source|table TARGET USER',
    'rover USER',
    'source MOUNT CLAIM',
    'relay MOUNT CLAIM',
    'segment MOUNT FROM TO SENT OVERRUN',
    'lap FROM TO PUBLISHED OVERRUN',
    'end WHO SENT OVERRUN JUNK ENDING')

# How things stand.
NOW = (
    'now mount NAME PUBLISHED HOLDER',
    'now workers BUSY ALL',
    'now end')

# The last lines of a run.
LAST = (
    'mount NAME PUBLISHED CLAIMS',
    'account USER SESSIONS SENT OVERRUN',
    'total SESSIONS SENT OVERRUN')

# What a report has of a connection.
REPORT = (
    'connection K ENDING',
    'junk J',
    'segment MOUNT FROM TO SENT OVERRUN',
    'lap FROM TO PUBLISHED OVERRUN',
    'bytes HEX')

# The one line of a status that is not 0.
FAULTS = (
    'usage',
    'configuration: toml',
    'configuration: TEST KEY',
    'session: line N',
    'session: state N',
    'session: no stop',
    'read fault',
    'network fault',
    'memory',
    'too long')

# How a connection ends.
ENDINGS = (
    'source-end CLAIM', 'rover-end', 'table-sent', 'no-head', 'bad-head', 'long-head', 'method', 'coding', 'no-mount',
    'no-account', 'password ACCOUNT', 'source-password', 'denied GROUP', 'taken CALLER CLAIM', 'full BUSY CAP',
    'bad-chunk AT', 'upstream-table', 'upstream STATUS', 'read-fault', 'write-fault', 'worn TURNS', 'memory')

# The endings of who was neither let in nor refused, and of who was let in.
UNDECIDED = ('table-sent', 'no-head', 'read-fault', 'write-fault', 'worn', 'memory')
LEFT = ('source-end', 'rover-end', 'bad-chunk')

NAME = '[!-.0-9<=>@-~]{1,100}'
NUMBER = '(?:0|[1-9][0-9]{0,19})'
WORDS = {
    'ADDRESS': r'[^\x00-\x20\x7f]{1,100}',
    'VERSION': '[12]',
    # Who asks for the table has no target.
    'rover|source|table': 'rover|source|table(?= - )',
    'TARGET': NAME, 'USER': NAME, 'MOUNT': NAME, 'NAME': NAME,
    'WHO': '-|anonymous|(?:rover|source|relay):' + NAME,
    'HOLDER': '-|' + NUMBER,
    'HEX': '-|(?:[0-9a-f]{2})+',
    'TEST': 'missing|wrong|range|twice|unknown',
    'KEY': '[a-z]+(?: [1-9][0-9]*)?(?: [a-z]+)?'}

# Where a lock was worn `now mount` has no number.
NOW_WORDS = dict(WORDS, PUBLISHED=WORDS['HOLDER'])


def pattern_of(form, words=WORDS, group='(%s)'):
    """The regular expression of a form; each word that stands for others is a group."""
    parts = []
    for word in form.split(' '):
        if word == 'ENDING':
            endings = '|'.join(pattern_of(ending, words, '(?:%s)') for ending in ENDINGS)
            parts.append(group % ('(?:%s)(?: unsettled)?' % endings))
        elif word.isupper() or word in words:
            parts.append(group % words.get(word, NUMBER))
        else:
            parts.append(word)
    return ' '.join(parts)


def compiled(form, words=WORDS):
    return re.compile(pattern_of(form, words).encode())


# Of each kind of line what stands behind the number of its connection and the kind.
LINK_FORMS = {form.split(' ')[0].encode(): compiled(form.split(' ', 1)[1]) for form in LINK}

# All other lines, by their first words.
OTHER_FORMS = {}
for section, forms in (('now', NOW), ('last', LAST), ('report', REPORT), ('fault', FAULTS)):
    for each in forms:
        row = (section, each, compiled(each, NOW_WORDS if section == 'now' else WORDS))
        OTHER_FORMS.setdefault(each.split(' ')[0].encode(), []).append(row)


def other_line(line):
    """What a line is that is none of a connection of `keep`: its section, form and words; or None."""
    for section, form, pattern in OTHER_FORMS.get(line.split(b' ', 1)[0], ()):
        match = pattern.fullmatch(line)
        if match:
            return section, form, match.groups()
    return None
