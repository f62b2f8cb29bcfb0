"""Answers whether a caster serves, for the `agent-check` of haproxy:

    health DIR [SECONDS]

It prints `up` while `state.json` in the folder of `page` is of a caster that serves and of a line that came in the last
120 seconds, or in SECONDS; else `down`, and why. So somebody has to ask for `status` once a minute. The status is 0.
"""
import json
import os
import re
import time

from lines import reader


def answer(path, most, now):
    """`up` or `down`, by the state in this file."""
    try:
        with open(path, encoding='utf-8') as file:
            state = json.load(file)
        age, is_serving = now - state['at'], state['caster']['is_serving']
    except (OSError, ValueError, TypeError, KeyError):
        return 'down #no state'
    if not is_serving:
        return 'down #stopped'
    return 'up' if age < most else 'down #no line for %d s' % age


def run(name, words):
    if not 1 <= len(words) <= 2 or not re.fullmatch('[1-9][0-9]{0,5}', words[-1] if words[1:] else '1'):
        return reader.usage(name, __doc__)
    most = int(words[1]) if words[1:] else 120
    reader.write((answer(os.path.join(words[0], 'state.json'), most, time.time()) + '\n').encode())
    return 0
