"""How the page looks, and what renews it."""
import base64
import hashlib

STYLE = '''
:root { --back: #f6f7f9; --card: #fff; --ink: #1b1f24; --soft: #5b6572; --line: #d9dee5;
  --bad: #b3261e; --bad-back: #fdeceb; --warn: #7a4d00; --warn-back: #fff3d9; --good: #1b6b3a; --good-back: #e3f4e9;
  --curve: #2f6fb3; }
@media (prefers-color-scheme: dark) { :root { --back: #14171b; --card: #1d2126; --ink: #e6e9ed; --soft: #9aa5b1;
  --line: #333a43; --bad: #ff9a92; --bad-back: #43211f; --warn: #f3c36b; --warn-back: #3b2f16; --good: #7fd6a0;
  --good-back: #1b3526; --curve: #7db4ee; } }
* { box-sizing: border-box; }
body { margin: 0; background: var(--back); color: var(--ink); font: 15px/1.45 system-ui, "DejaVu Sans", sans-serif; }
main, header { max-width: 1280px; margin: 0 auto; padding: 0 16px; }
h1 { font-size: 22px; margin: 16px 0 0; }
h2 { font-size: 16px; margin: 24px 0 8px; }
.as-of { margin: 0; color: var(--soft); }
.old .as-of { color: var(--bad); font-weight: 600; }
#eye ul { margin: 0; padding: 0; list-style: none; }
#eye li { background: var(--bad-back); color: var(--bad); border-radius: 6px; padding: 6px 12px; margin-bottom: 4px; }
#eye h2 { margin-top: 12px; }
.nothing { margin: 0; color: var(--soft); }
dl { display: grid; grid-template-columns: repeat(auto-fit, minmax(180px, 1fr)); gap: 8px; margin: 16px 0 0; }
dl div { background: var(--card); border: 1px solid var(--line); border-radius: 6px; padding: 8px 12px; }
dt { color: var(--soft); font-size: 13px; }
dd { margin: 0; font-weight: 600; }
table { width: 100%; border-collapse: collapse; background: var(--card); border: 1px solid var(--line); }
th, td { text-align: left; padding: 6px 10px; border-bottom: 1px solid var(--line); vertical-align: middle;
  overflow-wrap: anywhere; }
th { color: var(--soft); font-size: 13px; font-weight: 600; white-space: nowrap; }
td { font-variant-numeric: tabular-nums; }
tr.none td:first-child { border-left: 3px solid var(--bad); }
tr.silent td:first-child { border-left: 3px solid var(--warn); }
.badge { border-radius: 999px; padding: 1px 9px; font-size: 13px; background: var(--line); }
.badge.fine { background: var(--good-back); color: var(--good); }
.badge.silent { background: var(--warn-back); color: var(--warn); }
.badge.none { background: var(--bad-back); color: var(--bad); }
.curve { width: 120px; height: 24px; display: block; }
.curve path { fill: none; stroke: var(--curve); stroke-width: 1.5; }
.curve .ground { stroke: var(--line); stroke-width: 1; }
summary { cursor: pointer; }
summary h2 { display: inline-block; }
details:last-child { padding-bottom: 32px; }
@media (max-width: 720px) {
  thead { position: absolute; left: -9999px; }
  table { border: 0; background: none; }
  table, tbody { display: block; }
  tr { display: grid; grid-template-columns: 1fr 1fr; gap: 2px 12px; background: var(--card); margin-bottom: 8px;
    border: 1px solid var(--line); border-radius: 6px; padding: 8px 12px; }
  tr.none { border-left: 3px solid var(--bad); }
  tr.silent { border-left: 3px solid var(--warn); }
  td, tr.none td:first-child, tr.silent td:first-child { border: 0; padding: 0; font-size: 14px; }
  td.unknown { display: none; }
  td::before { content: attr(data-label); display: block; color: var(--soft); font-size: 12px; }
  dl { grid-template-columns: 1fr 1fr; }
}
'''

SCRIPT = '''
'use strict';
const age = () => {
  const seconds = Math.max(0, Math.round(Date.now() / 1000 - document.querySelector('[data-now]').dataset.now));
  const units = [[172800, 86400, ' days'], [7200, 3600, ' hours'], [120, 60, ' min'], [0, 1, ' s']];
  const [, size, unit] = units.find(one => seconds >= one[0]);
  const text = Math.floor(seconds / size) + unit;
  document.getElementById('age').textContent = '(' + text + ' ago)';
  document.body.classList.toggle('old', seconds > 120);
};
const renew = async () => {
  const answer = await fetch(location.origin + location.pathname, {cache: 'no-store'});
  if (!answer.ok) return;
  const page = new DOMParser().parseFromString(await answer.text(), 'text/html');
  const main = page.querySelector('main');
  if (!main || main.isEqualNode(document.querySelector('main'))) return;
  const open = [...document.querySelectorAll('details[open]')].map(one => one.id);
  document.querySelector('main').replaceWith(main);
  document.title = page.title;
  for (const id of open) document.getElementById(id).open = true;
  age();
};
age();
setInterval(age, 1000);
setInterval(() => renew().catch(() => {}), 5000);
'''


def policy_of(text):
    return "'sha256-%s'" % base64.b64encode(hashlib.sha256(text.encode()).digest()).decode()


# What the page may do: its own style and script, and ask for itself anew.
POLICY = "default-src 'none'; img-src data:; connect-src 'self'; base-uri 'none'; form-action 'none'; " \
    'style-src %s; script-src %s' % (policy_of(STYLE), policy_of(SCRIPT))

PAGE = '''<!doctype html>
<html lang="en">
<head>
<meta charset="utf-8">
<meta http-equiv="Content-Security-Policy" content="%(policy)s">
<meta name="viewport" content="width=device-width, initial-scale=1">
<meta name="color-scheme" content="light dark">
<title>%(title)s</title>
<link rel="icon" href="data:,">
<style>%(style)s</style>
</head>
<body>
<header><h1>Caster</h1></header>
%(main)s
<script>%(script)s</script>
</body>
</html>
'''
