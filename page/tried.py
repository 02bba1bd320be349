"""What the tests of the page share: the programs, the examples, and a check.

    python3 -m unittest discover -s page -p 'test_*.py'
    PAGE_PROVED=1 python3 -m unittest discover -s page -p 'test_*.py'

The answers are those of the second program, with PAGE_PROVED those of the
proved programs.  Every page is read back from its file (readback.py) and held
to the text of the answers.  hu means half units.
"""

import os
import subprocess
import sys
import unittest

HERE = os.path.dirname(os.path.abspath(__file__))
sys.path.insert(0, HERE)

from trouble import ROOT    # noqa: E402  (finds compare/ for the others)

import page         # noqa: E402
import readback     # noqa: E402

# second/ has a compare.py of its own; compare/ is found before it.
sys.path.append(os.path.join(ROOT, 'second'))

import account      # noqa: E402
import second       # noqa: E402

sys.path.insert(0, HERE)    # account puts second/ first

EXAMPLES = os.path.join(ROOT, 'examples')
SAMPLES = os.path.join(HERE, 'samples')
PROVED = bool(os.environ.get('PAGE_PROVED'))

# A word and two characters, for texts to go with.
PLAIN = b'set 2\n10\n50\nbase 3\n%sruby 2\n15 5\n15 5\nelem 3\nM 2\nP\nP\n' % (
    b'19 10 0 0 1\n' * 3)


# ---------------------------------------------------------------------------
# The programs
# ---------------------------------------------------------------------------

SEEN = set()        # programs that were found to be proved from these sources


def framed(program, given):
    """The proved program's answers to many sheets, in one run.

    bin/proved sees to it that it is proved, which is enough once; bin/program
    runs what is there.
    """
    command = 'program' if program in SEEN else 'proved'
    SEEN.add(program)
    done = subprocess.run(
        [os.path.join(ROOT, 'bin', command), program], check=True,
        input=b''.join(b'sheet %d\n' % len(sheet) + sheet for sheet in given),
        stdout=subprocess.PIPE)
    found, left = [], done.stdout
    while left:
        head, _, left = left.partition(b'\n')
        count = int(head.split(b' ')[1])
        found.append(left[:count])
        left = left[count:]
    return found


class Programs:
    """The answers of both programs; those that were given once are kept."""

    def __init__(self):
        self.known = {}

    def learn(self, given):
        """Asks for all of them at once."""
        given = [sheet for sheet in dict.fromkeys(given)
                 if sheet not in self.known]
        if PROVED and given:
            both = framed('settings', given), framed('accounts', given)
        else:
            both = ([second.answer(sheet) for sheet in given],
                    [account.text(sheet) for sheet in given])
        for sheet, *told in zip(given, *both):
            self.known[sheet] = tuple(
                text.encode() if isinstance(text, str) else text
                for text in told)

    def __call__(self, sheet):
        self.learn([sheet])
        return self.known[sheet]


ASK = Programs()


def content(*path):
    with open(os.path.join(*path), 'rb') as file:
        return file.read()


def example(name):
    return content(EXAMPLES, name)


def made(*given, text=None, vertical=False, ask=ASK):
    """(status, page) of the bytes of one sheet, or of two."""
    names = ['job.sheet'] if len(given) == 1 else ['old.sheet', 'new.sheet']
    texts = text if isinstance(text, list) else [text] * len(given)
    return page.page_of(names, list(given), [
        None if one is None else (one, 'job.text') for one in texts],
        vertical, ask)


def sample(name):
    """(sheet, an ask that knows it, text) of a sheet written by hand."""
    sheet, result, told, text = (
        content(SAMPLES, name + ending)
        for ending in ('.sheet', '.result', '.account', '.text'))

    def ask(given):
        if given != sheet:
            raise AssertionError('another sheet is asked for')
        return result, told
    return sheet, ask, text


def example_names():
    return sorted(os.path.relpath(os.path.join(folder, name), EXAMPLES)[:-6]
                  for folder, _, names in os.walk(EXAMPLES)
                  for name in names if name.endswith('.sheet'))


class Case(unittest.TestCase):

    def check(self, sheet, text=None, vertical=False, ask=ASK):
        """The page of a sheet that is set, read back."""
        status, told = made(sheet, text=text, vertical=vertical, ask=ask)
        self.assertEqual(status, 0)
        readback.check_page(told, sheet, *ask(sheet), vertical)
        return told
