"""What a configuration has that nobody meant, though `caster check` says ok:

    lint CONFIG [--listen ADDR] [CONFIG [--listen ADDR] ..]

It prints a line for each: the file, its line where one is known, and what is wrong. `--listen` tells at which address
the caster of the file before it listens: then relays to itself, and relays that go round, are named too. Of one file
it knows nothing else, and asks nobody. The status is 1 where something was named, and 2 where a file could not be read
or Python is older than 3.11, which reads no TOML.
"""
import difflib
import ipaddress
import re
import socket

from lines import reader

try:
    import tomllib
except ImportError:
    tomllib = None

MOUNT = ('name', 'password', 'ring', 'latitude', 'longitude', 'identifier', 'details', 'carrier', 'navigation',
         'network', 'country', 'generator', 'bitrate', 'misc')

# The keys of each table of a configuration; those of the file itself stand under no name.
KEYS = {
    '': ('version', 'workers', 'hysteresis', 'records', 'mount', 'near', 'group', 'account', 'relay', 'anonymous'),
    'mount': MOUNT,
    'near': ('name', 'bases'),
    'group': ('name', 'mounts', 'types', 'filter'),
    'group.filter': ('mount', 'types'),
    'account': ('user', 'password', 'group', 'cap'),
    'relay': ('mount', 'address', 'upstream', 'protocol', 'user', 'password'),
    'anonymous': ('group', 'cap')}

MOST_RELAYS = 16
MOST_GROUPS_1 = 16


class Config:
    """A file: its text, what it says, where its caster listens, and what was found in it."""

    def __init__(self, path, listen):
        self.path, self.listen, self.found = path, listen, []
        with open(path, 'rb') as file:
            self.bytes = file.read()
        self.text, self.says = self.bytes.decode('utf-8', 'replace'), {}

    def name(self, text, line=None):
        self.found.append((line or 0, '%s:%s %s' % (self.path, '' if line is None else '%d:' % line, text)))

    def line_of(self, form):
        """The line on which the text has this alone; none where it has it more than once."""
        places = [match.start() for match in re.finditer(form, self.text, re.M)]
        return self.text.count('\n', 0, places[0]) + 1 if len(places) == 1 else None

    def line_of_key(self, key):
        """The line of `key =`, or of the head of a table of that name."""
        word = '(?:%s|"%s"|\'%s\')' % ((re.escape(key),) * 3)
        return self.line_of(r'(?:^|[{,.\[])[ \t]*%s[ \t]*=|^[ \t]*\[+[^\]=\n]*?\b%s[ \t]*\]' % (word, word))

    def entries(self, key):
        """The entries of a list of tables, with their numbers; what is none is passed over."""
        entries = self.says.get(key)
        return [(at, one) for at, one in enumerate(entries if isinstance(entries, list) else [], 1)
                if isinstance(one, dict)]

    def texts(self, table, key):
        """Of each entry of this table the text of this key, where it is one."""
        return [(at, entry[key]) for at, entry in self.entries(table) if isinstance(entry.get(key), str)]


# ---- what is looked at

def toml(config):
    """Whether the file is one of TOML; else its fault is named."""
    try:
        config.says = tomllib.loads(config.bytes.decode())
        return True
    except UnicodeDecodeError as fault:
        config.name('no TOML: a byte that is none of UTF-8', config.bytes.count(b'\n', 0, fault.start) + 1)
    except RecursionError:
        config.name('no TOML: it nests too deep')
    except ValueError as fault:
        text, place = str(fault), re.search(r'line ([0-9]+)', str(fault))
        last = config.text.rstrip('\n').count('\n') + 1
        config.name('no TOML: %s' % text, int(place[1]) if place else last)
    return False


def unknown_key(config, table, key, place):
    nearest = difflib.get_close_matches(key, KEYS[table], 1, 0.5)
    more = ', the nearest is `%s`' % nearest[0] if nearest else ''
    config.name('%s`%s` is passed over: no such key%s' % (place and place + ': ', key, more), config.line_of_key(key))


def unknown_keys(config):
    """Each key that is not looked at."""
    for key in config.says:
        if key not in KEYS['']:
            unknown_key(config, '', key, '')
    tables = [(table, '%s %d' % (table, at), entry) for table in ('mount', 'near', 'group', 'account', 'relay')
              for at, entry in config.entries(table)]
    for at, group in config.entries('group'):
        filters = group.get('filter')
        tables += [('group.filter', 'group %d filter %d' % (at, number), one)
                   for number, one in enumerate(filters if isinstance(filters, list) else [], 1) if isinstance(one, dict)]
    if isinstance(config.says.get('anonymous'), dict):
        tables.append(('anonymous', 'anonymous', config.says['anonymous']))
    for table, place, entry in tables:
        for key in entry:
            if key not in KEYS[table]:
                unknown_key(config, table, key, place)


def version(config):
    """What a file of version 1 has that only one of version 2 may have."""
    if config.says.get('version') != 1:
        return
    for at, group in config.entries('group'):
        if 'filter' in group:
            config.name('group %d: `filter` is of version 2, and this file says version = 1' % at,
                        config.line_of_key('filter'))
    if len(config.entries('group')) > MOST_GROUPS_1:
        config.name('%d groups: more than %d are of version 2, and this file says version = 1'
                    % (len(config.entries('group')), MOST_GROUPS_1))


def ports(config):
    for at, address in config.texts('relay', 'address'):
        if split_address(address) is None:
            config.name('relay %d: `%s` has no port, as in `%s:2101`' % (at, address, address.rstrip(':')),
                        config.line_of(r'=[ \t]*["\']%s["\']' % re.escape(address)))


def passwords(config):
    """A source of NTRIP 1.0 gives its password between two spaces. Where a relay feeds the mountpoint none comes."""
    relayed = {mount for _, mount in config.texts('relay', 'mount')}
    for at, entry in config.entries('mount'):
        password, name = entry.get('password'), entry.get('name')
        if isinstance(password, str) and ' ' in password and not (isinstance(name, str) and name in relayed):
            config.name('mount %d: no base of NTRIP 1.0 can send a password with a space' % at,
                        config.line_of(r'=[ \t]*["\']%s["\']' % re.escape(password)))


def positions(config):
    for at, entry in config.entries('mount'):
        for key, most in (('latitude', 90), ('longitude', 180)):
            value = entry.get(key)
            if isinstance(value, (int, float)) and not isinstance(value, bool) and 0 < abs(value) <= most:
                config.name('mount %d: `%s = %s` looks like degrees, and is in units of 10^-7 degree: %d'
                            % (at, key, value, round(value * 10 ** 7)),
                            config.line_of(r'\b%s[ \t]*=[ \t]*[+]?%s\b' % (key, re.escape(str(value)))))


def mountpoints(config):
    count = len(config.entries('mount'))
    if count > MOST_RELAYS:
        config.name('%d mountpoints: a leaf that is to have them all can relay %d' % (count, MOST_RELAYS))


# ---- relays that come back

def split_address(address):
    """The host and the port of an address, or none."""
    match = re.fullmatch(r'(\[[^\[\]]+\]|[^:\[\] ]+):([0-9]{1,5})', address)
    return (match[1].strip('[]').lower(), int(match[2])) if match and 0 < int(match[2]) < 65536 else None


def is_of_machine(host):
    """Whether the host is one of this machine's addresses; no name is looked up but its own."""
    try:
        host = ipaddress.ip_address(host)
    except ValueError:
        return host in ('localhost', socket.gethostname().lower())
    if host.is_loopback or host.is_unspecified:
        return True
    family = socket.AF_INET if host.version == 4 else socket.AF_INET6
    try:
        with socket.socket(family, socket.SOCK_DGRAM) as probe:
            probe.bind((str(host), 0))
        return True
    except OSError:
        return False


def is_at(address, listen):
    """Whether who dials this address comes to a caster that listens there."""
    dialled, listens = split_address(address), split_address(listen or '')
    if dialled is None or listens is None or dialled[1] != listens[1]:
        return False
    return dialled[0] == listens[0] or listens[0] in ('0.0.0.0', '::') and is_of_machine(dialled[0])


def relays_of(config):
    return [(at, entry['mount'], entry['address'], entry['upstream']) for at, entry in config.entries('relay')
            if all(isinstance(entry.get(key), str) for key in ('mount', 'address', 'upstream'))]


def own_relays(config):
    for at, _, address, _ in relays_of(config):
        if is_at(address, config.listen):
            config.name('relay %d: at `%s` listens this caster itself' % (at, address),
                        config.line_of(r'=[ \t]*["\']%s["\']' % re.escape(address)))


def rings(configs):
    """Mountpoints that are relayed round, from one file to the next and back."""
    leads = {}
    for config in configs:
        for at, mount, address, upstream in relays_of(config):
            others = [one for one in configs if one is not config and is_at(address, one.listen)]
            if others:
                leads[config, mount] = at, (others[0], upstream)
    for start in leads:
        way, here = [start], leads[start][1]
        while here in leads and here not in way:
            way.append(here)
            here = leads[here][1]
        if here == start:
            told = ', then '.join('`%s` of %s' % (mount, config.path) for config, mount in way[1:])
            start[0].name('relay %d: a ring: `%s` comes from %s, and that from here' % (leads[start][0], start[1], told))


LOOKS = (unknown_keys, version, ports, passwords, positions, mountpoints, own_relays)


def configs_of(words):
    """The files, each with the address behind its `--listen`; none where the words are wrong."""
    pairs, words = [], list(words)
    while words:
        word = words.pop(0)
        if word == '--listen' and words and pairs and split_address(words[0]):
            pairs[-1][1] = words.pop(0)
        elif word.startswith('--'):
            return None
        else:
            pairs.append([word, None])
    return [Config(*pair) for pair in pairs] or None


def run(name, words):
    if tomllib is None:
        reader.say('%s: it needs Python 3.11 or later, which reads TOML' % name)
        return 2
    configs = configs_of(words)
    if configs is None:
        return reader.usage(name, __doc__)
    whole = [config for config in configs if toml(config)]
    for config in whole:
        for look in LOOKS:
            look(config)
    rings(whole)
    for config in configs:
        for _, text in sorted(config.found, key=lambda row: row[0]):
            reader.write((text + '\n').encode('utf-8', 'replace'))
    return 1 if any(config.found for config in configs) else 0
