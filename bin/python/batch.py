"""The command for many sheets: bin/batch --help."""

import os
import stat
import sys

import command
import proving
from proving import Trouble, printable, reason, say

USAGE = """\
usage: bin/batch [--account] [--out DIR] FILE-or-FOLDER..
       bin/batch --convert --out DIR FILE-or-FOLDER..

Sets every sheet: each FILE, and every *.sheet in and below each FOLDER. The answer to NAME.sheet is written to NAME.result beside it, a refusal too.

  --account   also write the account, to NAME.account
  --out DIR   write into DIR instead; a sheet found in a FOLDER goes to the same place below DIR that it has below FOLDER
  --convert   write each sheet in the other form instead, to NAME.sheet in DIR, which may not be FOLDER or lie in it. No sheet that is there is
              altered: where DIR has another sheet of that name, it stays. One that is refused is told on standard error, and not written
  --help      this text

Progress and each sheet that is over-long or could not be set are told on standard error; a summary ends it on standard output. An answer is written
whole or not at all. Status 0: all are set, or converted. 1: some are refused. 2: some could not be read or written, or there was no sheet, or it could
not be run. The first run proves and builds the programs, which takes some minutes.
"""

AT_ONCE = 200   # sheets for one run of a program
NAMES = 3       # names that the summary has for each number
BAR = 40        # characters of the bar
VAIN = 3        # runs of a program in turn without any answer, after which it is not tried again


class Asked:
    """What the arguments ask for."""

    def __init__(self, arguments):
        self.account, self.convert, self.out, self.places, self.help = False, False, None, [], False
        words, options = list(arguments), True
        while words:
            word = words.pop(0)
            if not options or word == '-' or not word.startswith('-'):
                self.places.append(word)
            elif word == '--':
                options = False
            elif word in ('--help', '-h'):
                self.help = True
            elif word == '--account':
                self.account = True
            elif word == '--convert':
                self.convert = True
            elif word == '--out' or word.startswith('--out='):
                self.take_out(word, words)
            else:
                raise Trouble('unknown option %s (bin/batch --help says how it is used)' % printable(word))
        if self.help:
            return
        if not self.places:
            raise Trouble('no file and no folder is named (bin/batch --help says how it is used)')
        if self.convert:
            self.judge_convert()

    def judge_convert(self):
        if self.account:
            raise Trouble('--convert writes sheets and no accounts')
        if self.out is None:
            raise Trouble('--convert needs --out DIR: the sheets that are there stay as they are')
        out = os.path.realpath(self.out)
        for place in self.places:
            folder = os.path.realpath(place)
            if os.path.isdir(folder) and os.path.commonpath([out, folder]) == folder:
                raise Trouble('%s is %s, or lies in it: what is converted goes elsewhere' % (printable(self.out), printable(place)))

    def programs(self):
        """The program for each ending that is written."""
        if self.convert:
            return {'.sheet': 'converts'}
        return {'.result': 'settings', '.account': 'accounts'} if self.account else {'.result': 'settings'}

    def take_out(self, word, words):
        if self.out is not None:
            raise Trouble('--out is given twice')
        if word == '--out' and not words:
            raise Trouble('--out needs a folder')
        self.out = words.pop(0) if word == '--out' else word[len('--out='):]
        if not self.out:
            raise Trouble('--out needs a folder')


class Tally:
    """What became of the sheets, and the telling of it."""

    def __init__(self, convert):
        self.total = self.done = self.tenths = self.wide = 0
        self.verb = 'converted' if convert else 'set'
        self.good = {'to form two': 0, 'to form one': 0} if convert else {'set': 0}
        self.refused, self.failed = {}, []
        self.bar = os.isatty(2)

    def tell(self, line):
        """A line of its own, also where a bar is drawn."""
        if self.wide:
            self.put('\r' + ' ' * self.wide + '\r')
            self.wide = 0
        say('batch: ' + line)

    def put(self, text):
        try:
            os.write(2, text.encode())
        except OSError:
            pass

    def fail(self, name, why):
        self.failed.append(name)
        self.tell('%s: %s' % (printable(name), why))

    def step(self):
        """One sheet more is done with, whatever became of it."""
        self.done += 1
        tenths = 10 * self.done // self.total
        percent = 100 * self.done // self.total
        if self.bar:
            self.draw(percent)
        elif tenths > self.tenths:
            say('batch: %d of %d sheets (%d %%)' % (self.done, self.total, percent))
        self.tenths = tenths

    def draw(self, percent):
        full = BAR * self.done // self.total
        line = '[%s%s] %d of %d sheets (%d %%)' % ('#' * full, '.' * (BAR - full), self.done, self.total, percent)
        if self.done == self.total or self.wide == 0 or percent != 100 * (self.done - 1) // self.total:
            self.wide = 0 if self.done == self.total else len(line)
            self.put('\r' + line + ('\n' if self.done == self.total else ''))

    def summary(self):
        def some(names):
            return '%d (%s%s)' % (len(names), ', '.join(map(printable, names[:NAMES])), ', ..' if len(names) > NAMES else '')
        refused = sum(map(len, self.refused.values()))
        good = ''.join('%d %s, ' % (count, word) for word, count in self.good.items())
        lines = ['%s%d refused, %d not read or not written' % (good, refused, len(self.failed))]
        lines += ['refused %d: %s' % (number, some(self.refused[number])) for number in sorted(self.refused)]
        if self.failed:
            lines.append('not read or not written: ' + some(self.failed))
        return '\n'.join(lines) + '\n'

    def status(self):
        return 2 if self.failed or not self.total else 1 if self.refused else 0


def sheets_in(folder, tally, seen):
    """The paths of all sheets in a folder and below it, in order. Links are followed, and a folder that is met again is not entered again."""
    try:
        found = os.stat(folder)
        if (found.st_dev, found.st_ino) in seen:
            return
        seen.add((found.st_dev, found.st_ino))
        entries = sorted(os.scandir(folder), key=lambda entry: entry.name)
    except OSError as error:
        tally.fail(folder, 'cannot be searched: %s' % reason(error))
        return
    for entry in entries:
        path = os.path.join(folder, entry.name)
        if os.path.isdir(path):
            yield from sheets_in(path, tally, seen)
        elif entry.name.endswith('.sheet'):
            yield path


def sheets_of(asked, tally):
    """For each sheet its path, and the path of its answers without the ending. Two sheets never share one."""
    taken = {}
    for place in asked.places:
        folder = os.path.isdir(place)
        if not folder and not place.endswith('.sheet'):
            tally.fail(place, 'is not a folder, and its name does not end in .sheet' if os.path.lexists(place) else 'there is no such file')
            continue
        found = list(sheets_in(place, tally, set())) if folder else [place]
        if not found:
            tally.tell('%s: there is no *.sheet in it' % printable(place))
        for path in found:
            below = os.path.relpath(path, place) if folder else os.path.basename(path)
            to = (path if asked.out is None else os.path.join(asked.out, below))[:-len('.sheet')]
            here = os.path.join(os.path.realpath(os.path.dirname(to) or '.'), os.path.basename(to))
            first = taken.setdefault(here, path)
            if first is path:
                yield path, to
            elif os.path.realpath(first) != os.path.realpath(path):
                tally.fail(path, 'not %s: its answer would have the place of the one to %s' % (tally.verb, printable(first)))


def read_sheet(path, tally):
    """Its first bytes, enough to tell that it is too long; None where it cannot be read."""
    try:
        if not stat.S_ISREG(os.stat(path).st_mode):
            raise OSError(0, 'it is not a plain file')
        with open(path, 'rb', buffering=0) as file:
            sheet = b''
            while len(sheet) < command.LONGEST:
                more = file.read(command.LONGEST - len(sheet))
                if not more:
                    break
                sheet += more
    except OSError as error:
        tally.fail(path, 'cannot be read: %s' % reason(error))
        return None
    if len(sheet) == command.LONGEST:
        tally.tell('%s: over-long (more than 65,535 bytes)' % printable(path))
    return sheet


def answers_to(program, sheets):
    """The program's answer to each sheet, in frames; None where it gave none, and then it is started anew behind that sheet."""
    answers, vain = [], 0
    while len(answers) < len(sheets):
        left = sheets[len(answers):]
        written, odd = command.run(program, b''.join(b'sheet %d\n' % len(sheet) + sheet for sheet in left))
        some = whole_frames(written)
        answers += some[:len(left)]
        if len(some) < len(left):
            answers.append(None)
        vain = 0 if some else vain + 1
        if vain == VAIN:
            raise Trouble(odd or 'the program gives no answers')
    return answers


def whole_frames(written):
    """The answers up to the first that is not whole."""
    found, at = [], 0
    while True:
        end = written.find(b'\n', at)
        head = written[at:end].split(b' ')
        if end < 0 or len(head) != 2 or head[0] != b'answer' or not head[1].isdigit():
            return found
        at = end + 1 + int(head[1])
        if at > len(written):
            return found
        found.append(written[end + 1:at])


def write_whole(path, text):
    """Whole or not at all: a file of its own in the same folder, then a change of names."""
    folder = os.path.dirname(path)
    if folder:
        os.makedirs(folder, exist_ok=True)
    part = os.path.join(folder, '.batch-%s.part' % os.urandom(8).hex())
    try:
        with open(part, 'xb') as file:
            file.write(text)
        os.replace(part, path)
    except BaseException:
        try:
            os.remove(part)
        except OSError:
            pass
        raise


def write_new(path, text):
    """The same for a sheet: what is there already is never altered."""
    if not os.path.lexists(path):
        write_whole(path, text)
    elif not is_that(path, text):
        raise Trouble('%s is there already, and is another one' % printable(path))


def is_that(path, text):
    """Whether a file has this text."""
    if not os.path.isfile(path):
        return False
    with open(path, 'rb') as file:
        return file.read(command.LONGEST) == text


def number_of(texts, heads):
    """The number of the refusal that the answers to a sheet are; 0 where they are none."""
    if None in texts.values():
        raise Trouble('the program gave no answer')
    numbers = {command.refused(text, heads) for text in texts.values()}
    if len(numbers) != 1:
        raise Trouble('the programs do not agree on it')
    return numbers.pop()


def put_answers(path, to, texts, tally):
    """Writes the answers to one sheet, a refusal too; (number, what it was counted as)."""
    number = number_of(texts, (b'lines', b'clear'))
    for ending, text in texts.items():
        write_whole(to + ending, text)
    return number, 'set'


def put_converted(path, to, texts, tally):
    """Writes the other sheet; a refusal is told."""
    number, text = number_of(texts, (b'set',)), texts['.sheet']
    if number:
        tally.tell('%s: %s' % (printable(path), printable(text.split(b'\n')[0].decode('ascii', 'backslashreplace'))))
    else:
        write_new(to + '.sheet', text)
    return number, 'to form two' if text.startswith(b'set 9\n') else 'to form one'


def finish(path, to, texts, tally):
    """Writes what the programs answered to one sheet, and counts it."""
    try:
        number, word = (put_converted if '.sheet' in texts else put_answers)(path, to, texts, tally)
    except Trouble as trouble:
        tally.fail(path, 'not %s: %s' % (tally.verb, trouble))
    except OSError as error:
        tally.fail(path, '%s cannot be written: %s' % (printable(to), reason(error)))
    else:
        if number:
            tally.refused.setdefault(number, []).append(path)
        else:
            tally.good[word] += 1
    tally.step()


def set_all(found, programs, tally):
    for start in range(0, len(found), AT_ONCE):
        some = []
        for path, to in found[start:start + AT_ONCE]:
            sheet = read_sheet(path, tally)
            if sheet is None:
                tally.step()
            else:
                some.append((path, to, sheet))
        answers = [answers_to(program, [sheet for _, _, sheet in some]) for program in programs.values()]
        for (path, to, _), texts in zip(some, zip(*answers)):
            finish(path, to, dict(zip(programs, texts)), tally)


def main(closed, _, arguments):
    asked = Asked(arguments)
    if closed[1]:
        raise Trouble('standard output is closed')
    if asked.help:
        command.write(USAGE.encode())
        return 0
    tally = Tally(asked.convert)
    found = list(sheets_of(asked, tally))
    tally.total = len(found)
    if not found:
        raise Trouble('there is no sheet to %s' % ('convert' if asked.convert else 'set'))
    if asked.out is not None:
        try:
            os.makedirs(asked.out, exist_ok=True)
        except OSError as error:
            raise Trouble('%s cannot be made a folder: %s' % (printable(asked.out), reason(error)))
    programs = asked.programs()
    for program in programs.values():
        proving.make_ready('batch', program)
    set_all(found, programs, tally)
    command.write(tally.summary().encode('utf-8', 'backslashreplace'))
    return tally.status()


if __name__ == '__main__':
    sys.exit(proving.guard(main))
