"""Makes of the lines a text file for Prometheus' node exporter (its textfile collector):

    journalctl -fu caster -n all -o cat | caster-lines metrics /var/lib/prometheus/node-exporter/caster.prom
    caster-lines metrics [OUT [FILE..]]

OUT is written anew a second behind a line at the latest, by another name first, so that no half of it is read. Without
it, or where it is `-`, the text goes to standard output when the lines have ended. The metrics are those of METRICS.

Counts go on while it runs, also where the caster is started again. What is open and what is published begins anew then.
A mountpoint or an account has its lines once it was told of. How many workers there are, and how many are busy, only
answers to `status` tell.
"""
from collections import Counter

from lines import reader
from lines.who import is_refused

# A word for each metric, its type, its label, and what it is.
METRICS = (
    ('mount_held', 'gauge', 'mount', 'Whether a source or relay holds the mountpoint.'),
    ('mount_claims_total', 'counter', 'mount', 'Claims that were given.'),
    ('mount_published', 'gauge', 'mount', 'Frames published in this run, as far as the lines tell.'),
    ('rovers', 'gauge', 'mount', 'Rovers that are open, by what they asked for.'),
    ('relay_up', 'gauge', 'mount', 'Whether the relay of the mountpoint holds it.'),
    ('links', 'gauge', 'kind', 'Links that are open.'),
    ('sessions_total', 'counter', 'account', 'Sessions of rovers that ended.'),
    ('sent_total', 'counter', 'account', 'Frames sent in these.'),
    ('overrun_total', 'counter', 'account', 'Frames lost in these.'),
    ('refusals_total', 'counter', 'ending', 'Links that were refused.'),
    ('workers', 'gauge', None, 'Workers, as the last answer to status says.'),
    ('workers_busy', 'gauge', None, 'Workers with a connection, as the last answer to status says.'),
    ('status_answers_total', 'counter', None, 'Answers to status.'),
    ('lines_passed_over_total', 'counter', None, 'Lines that were none of a caster.'))


class Metrics(reader.Listener):
    """What the lines said so far."""

    def __init__(self):
        self.counts = {name: Counter() for name, *_ in METRICS}
        self.counts['status_answers_total'][None] = 0
        self.reader = reader.Reader(self)

    def entered(self, link):
        if link.claim is not None:
            mount = link.mount.decode()
            self.counts['mount_held'][mount] = 1
            self.counts['mount_claims_total'][mount] += 1
            if link.kind == 'relay':
                self.counts['relay_up'][mount] = 1
        else:
            self.counts['rovers'].setdefault(link.mount.decode(), 0)

    def set_free(self, link, mount):
        """The next claim can be told before the line `end` of a connection: only who was told the last one sets the
        mountpoint free. A relay that was given no claim gives nothing back."""
        last = self.reader.claims.get(mount)
        if last is None or link.mount == mount and link.claim == last:
            self.counts['mount_held'][mount.decode()] = 0

    def ended(self, link, who, sent, overrun, ending):
        kind, _, name = who.partition(b':')
        if kind in (b'rover', b'anonymous'):
            for metric, count in (('sessions_total', 1), ('sent_total', sent), ('overrun_total', overrun)):
                self.counts[metric][name.decode()] += count
        elif kind in (b'source', b'relay'):
            self.set_free(link, name)
            self.counts['mount_published'].setdefault(name.decode(), 0)
            if kind == b'relay':
                self.counts['relay_up'][name.decode()] = 0
        elif is_refused(ending.split(b' ', 1)[0].decode()):
            self.counts['refusals_total'][ending.split(b' ', 1)[0].decode()] += 1

    def cut(self, links):
        for link in links:
            if link.claim is not None:
                self.set_free(link, link.mount)
                if link.kind == 'relay':
                    self.counts['relay_up'][link.mount.decode()] = 0

    def published(self, mount, count):
        published, mount = self.counts['mount_published'], mount.decode()
        published[mount] = max(published[mount], count)

    def begins_anew(self):
        """Nobody is on, and nothing is published; what remains open came in the new run."""
        for name in ('mount_held', 'mount_published', 'relay_up'):
            for mount in self.counts[name]:
                self.counts[name][mount] = 0
        for link in self.reader.links.values():
            if link.claim is not None:
                self.counts['mount_held'][link.mount.decode()] = 1

    def stands(self, form, words):
        """An answer to `status`. Who holds a mountpoint its claims tell; where none was told yet, the answer does."""
        if form == 'now end':
            self.counts['status_answers_total'][None] += 1
        elif form.startswith('now workers '):
            self.counts['workers_busy'][None], self.counts['workers'][None] = int(words[0]), int(words[1])
        else:
            if words[1] != b'-':
                self.published(words[0], int(words[1]))
            if words[0] not in self.reader.claims:
                self.counts['mount_held'][words[0].decode()] = 0 if words[2] == b'-' else 1

    def take_stock(self):
        """What is open, and what was passed over."""
        links = list(self.reader.links.values())
        kinds = Counter(link.kind for link in links)
        self.counts['links'] = {'other': kinds['-'], 'relay': kinds['relay'], 'rover': kinds['rover'],
                                'source': kinds['source']}
        rovers = Counter(link.mount.decode() for link in links if link.kind == 'rover')
        self.counts['rovers'] = {mount: rovers[mount] for mount in {*self.counts['rovers'], *rovers}}
        self.counts['lines_passed_over_total'][None] = self.reader.strange

    def text(self):
        self.take_stock()
        lines = []
        for name, kind, label, about in METRICS:
            lines += ['# HELP caster_%s %s' % (name, about), '# TYPE caster_%s %s' % (name, kind)]
            for value, count in sorted(self.counts[name].items(), key=str):
                labels = '' if label is None else '{%s="%s"}' % (label, escaped(value))
                lines.append('caster_%s%s %d' % (name, labels, count))
        return '\n'.join(lines) + '\n'


def escaped(value):
    return value.replace('\\', '\\\\').replace('"', '\\"')


def run(name, words):
    path, *files = words or ['-']
    metrics = Metrics()

    def write():
        reader.put(path, metrics.text())
    if path != '-' and not files:
        return reader.keep(metrics.reader, name, write)
    reader.read_all(metrics.reader, files)
    status = reader.finish(metrics.reader, name)
    if status == 0 and path != '-':
        write()
    elif status == 0:
        reader.write(metrics.text().encode())
    return status
