"""Who is on, or by whom connections were refused.

    who [FILE..]             a line for each connection that has no `end` yet, in the order in which they came:
                             CONNECTION KIND USER MOUNT ADDRESS LINE TIME
    who --refused [FILE..]   a line for each address that was refused, the most refusals first:
                             ADDRESS REFUSALS ENDING COUNT ..

KIND is `rover`, `source`, `relay`, or `-` of a connection that was not let in, or not yet. USER is a rover's, `-` of
one without credentials and of all others. MOUNT is what a rover asked for, and what a source or relay feeds. LINE is
the number of its first line, and TIME its time in one word, `-` where the lines have none.
"""
from collections import Counter

from lines import reader
from lines.grammar import LEFT, UNDECIDED

# So many addresses are counted at a time. Above this the half with the fewest refusals is forgotten.
MOST_ADDRESSES = 20000


def time_of(all_lines, front):
    front = all_lines.calendar.front_of(front) if isinstance(front, bytes) else front
    return front.text if front else '-'


def who(name, words):
    everybody = reader.Reader(reader.Listener())
    reader.read_all(everybody, words)
    status = reader.finish(everybody, name)
    if status == 0:
        for link in everybody.links.values():
            texts = (link.name, link.kind.encode(), link.user, link.mount, link.address, b'%d' % link.number,
                     time_of(everybody, link.front).encode('utf-8', 'replace'))
            reader.write(b' '.join(texts) + b'\n')
    return status


def host_of(address):
    """An address without its port; one of IPv4 is shown as such also at a listener of IPv6."""
    host = address.rpartition(b':')[0].strip(b'[]') or address
    return host[7:] if host.startswith(b'::ffff:') and b'.' in host else host


def is_refused(ending):
    """Whether a connection that was not let in ended so since it was refused; `ending` is the first word."""
    return ending not in UNDECIDED and ending not in LEFT


class Refused(reader.Listener):
    """How many connections of each address were refused, by their endings."""

    def __init__(self):
        self.hosts, self.forgotten = {}, 0

    def ended(self, link, who, sent, overrun, ending):
        ending = ending.split(b' ', 1)[0].decode()
        if who == b'-' and is_refused(ending):
            host = host_of(link.address)
            counts = self.hosts.get(host)
            if counts is None:
                counts = self.hosts[host] = Counter()
            counts[ending] += 1
            if len(self.hosts) > MOST_ADDRESSES:
                self.forget()

    def forget(self):
        rows = sorted(self.hosts.items(), key=lambda row: sum(row[1].values()))
        self.forgotten += len(rows) // 2
        self.hosts = dict(rows[len(rows) // 2:])


def refused(name, words):
    counted = Refused()
    everybody = reader.Reader(counted)
    reader.read_all(everybody, words)
    status = reader.finish(everybody, name)
    if status == 0:
        for host, counts in sorted(counted.hosts.items(), key=lambda row: (-sum(row[1].values()), row[0])):
            endings = sorted(counts.items(), key=lambda row: (-row[1], row[0]))
            text = ' '.join('%s %d' % row for row in endings)
            reader.write(b'%s %d %s\n' % (host, sum(counts.values()), text.encode()))
        if counted.forgotten:
            reader.say('%s: %d times an address with few refusals was forgotten, so those that stand may have had more'
                       % (name, counted.forgotten))
    return status


def run(name, words):
    if words[:1] == ['--refused']:
        return refused(name, words[1:])
    return who(name, words)
