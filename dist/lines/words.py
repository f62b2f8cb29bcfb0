"""The words of `caster-lines`, and the names by which it is called."""
import importlib
import os
import sys

from lines import reader

# Each word, which is that of the module that it runs, with the name by which it is called alone.
WORDS = {
    'who': 'caster-who', 'bill': 'caster-bill', 'metrics': 'caster-keep-metrics', 'page': 'caster-page',
    'health': 'caster-health', 'draw': 'draw-report', 'lint': 'caster-lint'}

# Which word a name is, with `caster-` before it or not.
NAMES = {**{word: word for word in WORDS}, 'keep-metrics': 'metrics', 'draw-report': 'draw'}


def main(program, words, about):
    called = os.path.basename(program)
    word = NAMES.get(called[len('caster-'):] if called.startswith('caster-') else called)
    if word is None:
        word, words = (words or [''])[0], words[1:]
    if word not in WORDS:
        return reader.usage('caster-lines', about)
    # No other word is read: `health` is asked often.
    module, name = importlib.import_module('lines.' + word), WORDS[word]
    if words[:1] in (['-h'], ['--help']):
        return reader.usage(name, module.__doc__)
    try:
        status = module.run(name, words)
        sys.stdout.flush()
        return status
    except BrokenPipeError:
        os.dup2(os.open(os.devnull, os.O_WRONLY), sys.stdout.fileno())
        return 0
    except OSError as fault:
        reader.say('%s: %s' % (name, fault))
        return 2
    except KeyboardInterrupt:
        return 130
