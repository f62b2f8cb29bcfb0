"""Cases of the metrics and alarms for Prometheus, by its own programs."""
import re

from common import *
from tools import asked, journal

RULES = 'dist/caster-rules.yml'


def metrics_of_prometheus():
    """promtool takes the metrics, of a run that goes on, of one that is over, and with answers to `status`, which tell of
    the workers."""
    need('promtool')
    for text in (journal('keep.journal'), journal('keep.journal', 'keep.totals'), asked(journal('keep.journal')), ''):
        said = passes('dist/keep-metrics', input=text.encode())
        done = run('promtool', 'check', 'metrics', input=said)
        if done.returncode or done.stdout or done.stderr:
            raise Wrong('status %d, %s %s' % (done.returncode, show(done.stdout), show(done.stderr)))
    said = passes('dist/keep-metrics', input=asked(journal('keep.journal')).encode()).decode()
    for line in ('caster_workers 5', 'caster_workers_busy 4', 'caster_mount_published{mount="ALPHA"} 77'):
        if line + '\n' not in said:
            raise Wrong('no %s in\n%s' % (line, said))
    # A relay that ends is down, whether or not it had a claim, and a source at its mountpoint changes nothing of that.
    lines = ['4.1 to a:1', '4.1 relay CHARLIE 1', '4.1 end relay:CHARLIE 0 0 0 source-end 1', '4.2 to a:1',
             '0.1 from b:1', '0.1 source CHARLIE 2', '4.2 end relay:CHARLIE 0 0 0 taken 0 2']
    for count, wanted in ((2, (1, 1)), (3, (0, 0)), (6, (1, 0)), (7, (1, 0))):
        said = passes('dist/keep-metrics', input=''.join(line + '\n' for line in lines[:count]).encode()).decode()
        got = tuple(int(re.search(r'caster_%s\{mount="CHARLIE"\} ([01])' % name, said)[1])
                    for name in ('mount_held', 'relay_up'))
        if got != wanted:
            raise Wrong('behind %r: %s' % (lines[count - 1], got))


def series(name, values):
    return "      - series: '%s'\n        values: '%s'\n" % (name, values)


def alarm(minutes, name, labels=None):
    """That this alarm is on at this minute with these labels, or is not where there are none."""
    text = '      - eval_time: %dm\n        alertname: %s\n' % (minutes, name)
    if labels is None:
        return text + '        exp_alerts: []\n'
    more = ''.join('              %s: %s\n' % row for row in sorted(labels.items()))
    return text + '        exp_alerts:\n          - exp_labels:\n%s' % more


def rules_of_prometheus():
    """promtool takes the rules, and each alarm is on when it is to be, and off before and behind. For twenty minutes all
    is well, and then nothing is."""
    need('promtool')
    passes('promtool', 'check', 'rules', RULES)
    at, path = 'instance="a"', 'file="/var/lib/prometheus/node-exporter/caster.prom"'
    data = ''.join([
        series('caster_status_answers_total{%s}' % at, '0+1x60'),
        series('caster_mount_held{mount="ALPHA",%s}' % at, '1x60'),
        series('caster_mount_published{mount="ALPHA",%s}' % at, '0+60x20 1200x20 1260+60x20'),
        # Nobody asks of this one: that its number stands says nothing.
        series('caster_mount_held{mount="BRAVO",instance="b"}', '1x60'),
        series('caster_mount_published{mount="BRAVO",instance="b"}', '5x60'),
        series('caster_mount_held{mount="CHARLIE",%s}' % at, '1x20 0x20 1x20'),
        series('caster_workers{%s}' % at, '64x60'), series('caster_workers_busy{%s}' % at, '57x20 58x20 57x20'),
        series('caster_relay_up{mount="DELTA",%s}' % at, '1x20 0x20 1x20'),
        series('caster_refusals_total{ending="password",%s}' % at, '0+5x20 100+8x20 260+5x20'),
        series('caster_refusals_total{ending="no-mount",%s}' % at, '0+1x20 20+8x20 180+1x20'),
        series('node_textfile_mtime_seconds{%s,%s}' % (path, at), '0+60x20 1200x20 2520+60x20')])
    own = {'instance': 'a', 'severity': 'warning'}
    wanted = {'CasterBaseSilent': dict(own, mount='ALPHA'), 'CasterNoBase': dict(own, mount='CHARLIE'),
              'CasterWorkersNearlyAllBusy': dict(own, severity='critical'),
              'CasterRelayDown': dict(own, mount='DELTA'), 'CasterManyRefusals': own,
              'CasterMetricsOld': dict(own, file='/var/lib/prometheus/node-exporter/caster.prom')}
    named = re.findall(r'^ +- alert: (\w+)$', text_of(RULES), re.M)
    if sorted(named) != sorted(wanted):
        raise Wrong('the alarms are %s' % named)
    cases = ''.join(alarm(15, name) + alarm(38, name, labels) + alarm(58, name) for name, labels in wanted.items())
    # What an alarm says is not looked at here, but each says something.
    rules = re.sub(r'^ +annotations:\n +summary: ".+"\n', '', text_of(RULES), flags=re.M)
    if 'annotations' in rules:
        raise Wrong('an alarm says nothing')
    write('rules.yml', rules)
    test = 'rule_files: [rules.yml]\nevaluation_interval: 1m\ntests:\n  - interval: 1m\n    input_series:\n'
    path = write('rules-test.yml', test + data + '    alert_rule_test:\n' + cases)
    done = run('promtool', 'test', 'rules', path)
    if done.returncode:
        raise Wrong('%s %s' % (done.stdout.decode(), done.stderr.decode()))


CASES = [metrics_of_prometheus, rules_of_prometheus]
