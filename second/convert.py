"""The converter of R-6: a sheet of form one to form two, and back.

    python3 convert.py < sheet              one sheet, the other sheet
    python3 convert.py --framed < sheets    many sheets (see README.md)

It writes the other sheet whole, or `refused N P`.  The sheet's own form says
which way it goes.  What is written is put together from the lines of what is
read: a sound sheet has one spelling, so nothing needs to be written anew.
"""

import os
import sys

sys.path.insert(0, os.path.dirname(os.path.abspath(__file__)))

import second       # noqa: E402  (found through the path set above)
from second import Refused, refused_text  # noqa: E402

# Lines 4 to 10 of form two where form one can hold the sheet: "both ratios are
# 1:2:1 and the profile is 0".  The numbers, not the proportion: 2:4:2 is
# another ratio.
PLAIN = [b'1', b'2', b'1', b'1', b'2', b'1', b'0']


def converted(sheet):
    """The other sheet's bytes, or `refused N P` and LF."""
    try:
        # 13, and the 2 of a count line, come first: "17 ... after 13".
        arguments = second.read_sheet(sheet)
        lines = sheet.split(b'\n')[:-1]
        if lines[0] == b'set 2':
            return to_form_two(arguments, lines)
        return to_form_one(arguments, lines)
    except Refused as refusal:
        return refused_text(refusal.number, refusal.place)


def to_form_two(arguments, lines):
    # "A converter takes every form one sheet whose job is accepted to form
    # two"; "other jobs get their refusal".
    check_accepted(arguments)
    left_at = left_line(lines)
    elements = left_at + 1      # behind the elem line
    return text_of([b'set 9'] + lines[1:3] + PLAIN + lines[3:left_at]
                   + [b'left 0', lines[left_at]]
                   + [with_letter(line) for line in lines[elements:]])


def to_form_one(arguments, lines):
    # 17 right behind the reading, ahead of all other numbers; then the job.
    check_form_one_can_hold(arguments, lines)
    check_accepted(arguments)
    left_at = left_line(lines)
    elements = left_at + 2      # behind the left line and the elem line
    return text_of([b'set 2'] + lines[1:3] + lines[10:left_at]
                   + [lines[left_at + 1]]
                   + [without_letter(line) for line in lines[elements:]])


def check_accepted(arguments):
    """Accepted is what the setting program sets, 11 included."""
    outs = ([0] * second.MOST_BASE, [0] * second.MOST_RUBY,
            [0] * second.MOST_LEFT, [0] * second.MOST_BASE)
    result = second.set_job(*arguments, *outs)
    if result[0] == 'refused':
        raise Refused(result[1], result[2])


def check_form_one_can_hold(arguments, lines):
    # "Form two goes back only if it has no left reading, both ratios are 1:2:1
    # and the profile is 0. Refusals: 17, a form two sheet that form one can't
    # hold, ... place the first line at fault (a reading: the `left` count
    # line)."
    for number, (line, plain) in enumerate(zip(lines[3:10], PLAIN), 4):
        if line != plain:
            raise Refused(17, number)
    if has_left_reading(arguments[15]):
        raise Refused(17, left_line(lines) + 1)


def has_left_reading(left):
    # A left count over 0, or a letter other than N: letters without characters
    # and characters without letters are none that form one could hold.
    return (len(left.left_class) > 0
            or any(kind != second.N for kind in left.left_kind))


def left_line(lines):
    """Where the `left` line is, or would be, in the list of lines.

    It is behind the `ruby` section, and counts from 0 here.
    """
    at = 3 if lines[0] == b'set 2' else 10
    for _ in (b'base', b'ruby'):
        at += 1 + int(lines[at].split(b' ')[1])
    return at


def with_letter(line):
    # "each M, G and J line ends in a letter for the left kind (M, G, J; N for
    # none) and its counts"; N has none.
    return line if line == b'P' else line + b' N'


def without_letter(line):
    return line if line == b'P' else line[:-len(b' N')]


def text_of(lines):
    return b''.join(line + b'\n' for line in lines)


def main(arguments):
    """The exit status."""
    if arguments not in ([], ['--framed']):
        sys.exit('usage: convert.py [--framed]')
    return second.answer_input(arguments, converted)


if __name__ == '__main__':
    sys.exit(main(sys.argv[1:]))
