"""The commands on one sheet: a job sheet from a file or from standard input, its answer on standard output.

Status 0: set; 1: refused; 2: could not be run, and then there is a line on standard error and no answer.
The programs themselves have no arguments, and no status but for a read or a write that fails (docs/DECISIONS.md), so that is done here.
"""

import os
import subprocess
import sys

import proving
from proving import ROOT, Trouble, printable, reason

LONGEST = 65536     # one byte more than a sheet may have is enough to tell that it is too long

# Each command's program, with what its answer begins where it is no refusal, and how it is used.
COMMANDS = {
    'setting': ('setting', (b'lines',), """\
usage: bin/setting [FILE]

Sets a job sheet: where every character stands, line by line. FILE is the sheet; without FILE, or with -, it is read from standard input. The answer
goes to standard output: a result, or one line `refused N P` with the number and the place of the first fault.

  --help   this text

Status 0: set. 1: refused. 2: could not be run; one line on standard error says why, and there is no answer.
The first run proves and builds the program, which takes some minutes. bin/batch sets many sheets, bin/account says why each gap is as wide as it is;
docs/MANUAL.md has the sheet, the result and every refusal.
"""),
    'account': ('account_main', (b'clear',), """\
usage: bin/account [FILE]

Says of a job sheet why each gap is as wide as it is. FILE is the sheet; without FILE, or with -, it is read from standard input. The answer goes to
standard output: the account, or `refused N P` with the number and the place of the first fault; for number 11 a second line says by how much the line
is too long.

  --help   this text

Status 0: an account. 1: refused. 2: could not be run; one line on standard error says why, and there is no answer.
The first run proves and builds the program, which takes some minutes. docs/MANUAL.md, "The account", has the form of each line.
"""),
    'convert': ('convert', (b'set',), """\
usage: bin/convert [FILE]

Takes a job sheet of form one to form two, and a sheet of form two back to form one; its first line says which it is. FILE is the sheet; without FILE,
or with -, it is read from standard input. The other sheet goes to standard output, whole, or one line `refused N P`. A sheet whose job is refused is
not converted, and form two goes back only if it has no left reading, both ratios are 1:2:1 and the profile is 0 (number 17).

  --help   this text

Status 0: converted. 1: refused. 2: could not be run; one line on standard error says why, and there is no answer.
The first run proves and builds the program, which takes some minutes. bin/batch --convert converts many sheets; docs/MANUAL.md, "From one form to the
other", says more.
"""),
}


def chosen(arguments, name):
    """The file's name, `-` for standard input; None where help is asked for."""
    files, options = [], True
    for word in arguments:
        if options and word == '--':
            options = False
        elif options and word in ('--help', '-h'):
            return None
        elif options and word.startswith('-') and word != '-':
            raise Trouble('unknown option %s (bin/%s --help says how it is used)' % (printable(word), name))
        else:
            files.append(word)
    if len(files) > 1:
        many = 'bin/batch --convert converts many' if name == 'convert' else 'bin/batch sets many'
        raise Trouble('one sheet at a time, and here are %d (%s)' % (len(files), many))
    return files[0] if files else '-'


def read_sheet(file, closed, name):
    """The sheet's bytes, or as many as tell that it is too long."""
    if file == '-' and closed:
        raise Trouble('cannot read standard input: it is closed, or a folder')
    if file == '-' and os.isatty(0):
        proving.say('%s: a sheet is awaited on standard input, ended by Ctrl-D (bin/%s --help says how it is used)' % (name, name))
    try:
        with open(0 if file == '-' else file, 'rb', closefd=file != '-') as sheet:
            return sheet.read(LONGEST) or b''
    except (OSError, ValueError) as error:
        what = 'standard input' if file == '-' else printable(file) or "''"
        raise Trouble('cannot read %s: %s' % (what, reason(error) if isinstance(error, OSError) else error))


def run(program, given):
    """What the program writes for these bytes. Its standard input is all that it gets."""
    done = subprocess.run([os.path.join(ROOT, 'bin', 'program'), program], input=given, stdout=subprocess.PIPE)
    if done.returncode < 0:
        return done.stdout, 'the program was ended by signal %d' % -done.returncode
    if done.returncode > 0:
        return done.stdout, 'the program ended with status %d' % done.returncode
    return done.stdout, ''


def refused(answer, heads):
    """The number of a refusal; 0 where it is none. An answer is whole if it begins with one of these words or is a refusal, and its last line ends."""
    words = answer.split(b'\n', 1)[0].split(b' ')
    if answer.endswith(b'\n') and words[0] in heads:
        return 0
    if answer.endswith(b'\n') and len(words) == 3 and words[0] == b'refused' and words[1].isdigit() and int(words[1]) > 0:
        return int(words[1])
    raise Trouble('the program gave no whole answer')


def write(text):
    """All of it on standard output, or Trouble."""
    try:
        at = 0
        while at < len(text):
            at += os.write(1, text[at:])
        os.close(1)
    except OSError as error:
        raise Trouble('the answer cannot be written to standard output: %s' % reason(error))


def main(closed, name, arguments):
    program, heads, usage = COMMANDS[name]
    file = chosen(arguments, name)
    if closed[1]:
        raise Trouble('standard output is closed')
    if file is None:
        write(usage.encode())
        return 0
    sheet = read_sheet(file, closed[0], name)
    proving.make_ready(name, program)
    answer, odd = run(program, sheet)
    if odd:
        raise Trouble(odd)
    number = refused(answer, heads)
    write(answer)
    return 1 if number else 0


if __name__ == '__main__':
    sys.exit(proving.guard(main))
