"""The page of a sheet as a picture: one HTML file.

    bin/page [--text FILE] [--vertical] SHEET > page.html
    bin/page [--text FILE [--text FILE]] [--vertical] OLD NEW > page.html

It is made from what the proved programs write for the sheet, result and
account; no position is worked out here.
"""

import os
import subprocess
import sys

from trouble import ROOT, Trouble, printable, reason

import compare
import answers
import document
import letters
import pair
import sheets

SETTING = [os.path.join(ROOT, 'bin', 'setting')]
ACCOUNT = [os.path.join(ROOT, 'bin', 'account')]
LONGEST_TEXT = 1000001      # bytes, one more than a text may have

USAGE = """\
usage: bin/page [--text FILE] [--vertical] [SHEET] > page.html
       bin/page [--text FILE [--text FILE]] [--vertical] OLD NEW > page.html

Shows a sheet as a picture: one HTML file with each line to scale, every gap
with its width and the rule that holds it, and for each element why it stands
where it does. With two sheets they stand side by side, and what moved is
marked. SHEET is read from standard input if it is - or not there.

  --text FILE   the characters, in UTF-8: the base characters on the first
                line, the ruby characters on the second, the left ones on the
                third. Without it the boxes have the names of the classes. For
                two sheets it may be given twice, for the old and the new one.
  --vertical    vertical setting: lines run from top to bottom and follow each
                other from right to left
  --help        this text

Status 0: a page of a sheet that is set. 1: a page of a sheet that is refused.
2: no page; one line on standard error says why. The first run proves and
builds the programs, which takes some minutes. docs/MANUAL.md says what each
sign means.
"""


# ---------------------------------------------------------------------------
# What is asked for
# ---------------------------------------------------------------------------

class Asked:
    """What the arguments ask for."""

    def __init__(self, arguments):
        self.texts, self.sheets = [], []
        self.vertical = self.help = False
        words, options = list(arguments), True
        while words:
            word = words.pop(0)
            if not options or word == '-' or not word.startswith('-'):
                self.sheets.append(word)
            elif word == '--':
                options = False
            else:
                self.take(word, words)
        if not self.help:
            self.judge()

    def take(self, word, words):
        if word in ('--help', '-h'):
            self.help = True
        elif word == '--vertical':
            self.vertical = True
        elif word == '--text' and words:
            self.texts.append(words.pop(0))
        elif word.startswith('--text='):
            self.texts.append(word[len('--text='):])
        elif word == '--text':
            raise Trouble('--text needs a file')
        else:
            raise Trouble('unknown option %s (bin/page --help says how it is '
                          'used)' % printable(word))

    def judge(self):
        self.sheets = self.sheets or ['-']
        if len(self.sheets) > 2:
            raise Trouble('one sheet is shown, or two side by side, and here '
                          'are %d' % len(self.sheets))
        if len(self.texts) > len(self.sheets):
            raise Trouble('--text is given %s for %s' % (
                'twice' if len(self.texts) == 2
                else '%d times' % len(self.texts),
                'one sheet' if len(self.sheets) == 1 else 'two sheets'))
        if self.sheets.count('-') + self.texts.count('-') > 1:
            raise Trouble('standard input can be read once only')


# ---------------------------------------------------------------------------
# The files and the programs
# ---------------------------------------------------------------------------

def read(file, most, closed):
    """The first bytes of a file, or of standard input unless it is closed."""
    what = 'standard input' if file == '-' else printable(file)
    if file == '-' and closed:
        raise Trouble('cannot read standard input: it is closed, or a folder')
    if file == '-' and os.isatty(0):
        compare.write(2, 'page: a sheet is awaited on standard input, ended '
                      'by Ctrl-D (bin/page --help says how it is used)\n')
    try:
        with open(0 if file == '-' else file, 'rb',
                  closefd=file != '-') as opened:
            return opened.read(most)
    except (OSError, ValueError) as error:
        raise Trouble('cannot read %s: %s' % (what, reason(error)))


def run(command, content):
    """What a command writes for the bytes of a sheet."""
    try:
        done = subprocess.run(command, input=content, stdout=subprocess.PIPE)
    except OSError as error:
        raise Trouble('cannot run %s: %s' % (command[0], reason(error)))
    # 0 is set, 1 is refused; a program that has no status of its own for a
    # refusal ends with 0 too.
    if done.returncode not in (0, 1):
        raise Trouble('%s ended with status %d' % (command[0],
                                                   done.returncode))
    return done.stdout


def asking(setting, account):
    """A function that asks both programs."""
    return lambda content: (run(setting, content), run(account, content))


def sound_sheet(content, page):
    """The sheet's records; None where its form is not sound."""
    if isinstance(page, answers.Refused) and page.number in (2, 13):
        return None
    return sheets.read_sheet(content)


def source(file, content, text, ask):
    """(Source, its Sheet or None) of the bytes of a sheet and of a text."""
    result, account = ask(content)
    try:
        page = answers.read_page(content, result, account)
        sheet = sound_sheet(content, page)
    except (ValueError, IndexError, KeyError, TypeError):
        raise Trouble('%s: the programs gave no whole answer, or do not agree'
                      % printable(file))
    shown = None if text is None else letters.read_text(*text, sheet)
    return document.Source(file, content, result, page, shown), sheet


def names_of(files):
    """The sheets' names, with as much of their folders as tells them apart."""
    short = [os.path.basename(file) for file in files]
    if len(set(short)) < len(short):
        whole = [os.path.abspath(file) for file in files]
        top = os.path.commonpath([os.path.dirname(file) for file in whole])
        short = [os.path.relpath(file, top) for file in whole]
    return ['standard input' if file == '-' else printable(file)
            for file in short]


# ---------------------------------------------------------------------------
# The command
# ---------------------------------------------------------------------------

def page_of(files, contents, texts, vertical, ask):
    """(status, HTML) of one sheet, or of two.

    texts has for each sheet (bytes, name) of its text, or None; ask gives
    the programs' two answers to the bytes of a sheet.
    """
    found = [source(*given, ask) for given in zip(files, contents, texts)]
    for (one, _), name in zip(found, names_of(files)):
        one.name = name
    refused = any(isinstance(one.page, answers.Refused) for one, _ in found)
    if len(found) == 2:
        told = pair.pair_page([one for one, _ in found],
                              [sheet for _, sheet in found], ask, vertical)
    elif refused:
        told = document.refused_page(*found[0], ask, vertical)
    else:
        told = document.set_page(found[0][0], vertical)
    return (1 if refused else 0), told


def given(asked, closed=False):
    """The bytes of each sheet, and for each (bytes, name) of its text.

    One text is for both sheets; where there is none it is None.  closed is
    whether standard input is.
    """
    contents = [read(file, compare.LONGEST, closed) for file in asked.sheets]
    texts = [(read(file, LONGEST_TEXT, closed), file) for file in asked.texts]
    for text, file in texts:
        if len(text) == LONGEST_TEXT:
            raise Trouble('the text %s has too many characters: it is over '
                          '1,000,000 bytes' % printable(file))
    texts = (texts * 2 if len(texts) == 1 else texts or [None, None])
    return contents, texts[:len(contents)]


def made(asked, ask, closed=False):
    """(status, HTML) of what is asked for."""
    return page_of(asked.sheets, *given(asked, closed), asked.vertical, ask)


def fill():
    """Which standard descriptors are closed; they are filled.

    Otherwise a file or a pipe of ours would get the number of one.
    """
    closed = [compare.is_closed(number) for number in range(3)]
    for gone in closed:
        if gone:
            os.open(os.devnull, os.O_RDWR)
    return closed


def answer(arguments, closed):
    """The exit status, with the page written."""
    if closed[1]:
        raise Trouble('standard output is closed')
    asked = Asked(arguments)
    status, told = ((0, USAGE) if asked.help
                    else made(asked, asking(SETTING, ACCOUNT), closed[0]))
    try:
        compare.write(1, told)
    except OSError as error:
        raise Trouble('the page cannot be written to standard output: %s'
                      % reason(error))
    return status


def main(arguments):
    """The exit status."""
    closed = fill()
    try:
        return answer(arguments, closed)
    except Trouble as trouble:
        told = str(trouble)
    except Exception as error:  # status 1 is a refusal, and this is none
        told = 'the page cannot be made: %s: %s' % (
            type(error).__name__, printable(str(error)))
    try:
        compare.write(2, 'page: %s\n' % told)
    except OSError:
        pass    # nobody hears it; the status tells
    return 2


if __name__ == '__main__':
    sys.exit(main(sys.argv[1:]))
