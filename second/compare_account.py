"""Compares an account program with the second program's own account.

    python3 compare_account.py [--sheets N] [--seed S] [--program PATH]
                               [--framed]

The program reads a sheet on standard input and writes its account; it is run
once for each sheet, and ends with status 0, or 1 where the sheet is refused.
With --framed it takes many sheets in one run, as compare.py has it.  PATH is
an executable (bin/account where none is given) or a command such as 'python3
second/account.py'.  Every sheet in kept/ goes through it first, then the first
N sheets of the seed, half of them of form two (R-6).  What it writes is read
by the form of README.md, "The account", and every word of it is checked:

- the verdict, its counts or the refusal, and with number 11 the extent that
  is needed and the measure;
- of each line the extent, of each element its index, start and gap;
- the rule: the least number among the rules that break when the element is
  moved one half unit nearer the line's start.  Where the block stands at the
  line's start, rule 4 comes ahead of all others: nothing moves nearer there;
- the other element: one of those with which that rule breaks, and for rule 2
  the one just before;
- the depth: the one that rule 2 permits there;
- that what is said to touch does touch, in the spans that are drawn, and that
  where two reasons of one rule hold the first in the form's order is named.

At last the bytes are compared with those of account.py, which finds the
reasons in another way.

A sheet with anything wrong is one difference.  It is put into kept/ and told
with the first things that are wrong, up to five sheets in one run; the rest
are counted.  The line before the last says what was seen; the last line is
`compared N sheets, M elements, D differences`.  The exit status is 0 only if
D is 0.
"""

import argparse
import collections
import os
import re
import shlex
import shutil
import sys

HERE = os.path.dirname(os.path.abspath(__file__))
sys.path.insert(0, HERE)

import account      # noqa: E402  (found through the path set above)
import compare      # noqa: E402
import generate_two     # noqa: E402
from account import Reason, Refusal  # noqa: E402

PROGRAM = os.path.join(os.path.dirname(HERE), 'bin', 'account')
SHOWN = 5       # sheets with a difference that are told and kept
WRONG = 8       # things that are told of one such sheet
DENSE = 3       # elements held by ruby (rules 2 and 3) that make a dense line


# ---------------------------------------------------------------------------
# Reading the text by its form
# ---------------------------------------------------------------------------

class Malformed(Exception):
    """The text is not of the form."""


# What the text tells.  lines has (extent, rows) for each line.
Told = collections.namedtuple('Told', 'line_count elements readings lines')
Row = collections.namedtuple('Row', 'element start gap reason')


def form(words):
    """A pattern for one line; N stands for a number."""
    return re.compile(words.replace(b'N', b'(0|[1-9][0-9]{0,9})'))


CLEAR = form(b'clear lines N elements N readings N')
REFUSED = form(b'refused N N')
NEEDS = form(b'needs N measure N')
LINE = form(b'line N')
ELEMENT = b'element N at N gap N '

# The ten reasons in the order in which one is named, four of them of left
# readings: rule, what touches, what is touched, and the line.
REASONS = (
    (4, 'block', 'start', form(ELEMENT + b'rule 4 block touches start')),
    (1, 'block', 'block',
     form(ELEMENT + b'rule 1 block touches block of N')),
    (2, 'block', 'ruby',
     form(ELEMENT + b'rule 2 block touches ruby of N at depth N')),
    (2, 'block', 'left ruby',
     form(ELEMENT + b'rule 2 block touches left ruby of N at depth N')),
    (2, 'ruby', 'block',
     form(ELEMENT + b'rule 2 ruby touches block of N at depth N')),
    (2, 'left ruby', 'block',
     form(ELEMENT + b'rule 2 left ruby touches block of N at depth N')),
    (3, 'ruby', 'ruby', form(ELEMENT + b'rule 3 ruby touches ruby of N')),
    (3, 'left ruby', 'left ruby',
     form(ELEMENT + b'rule 3 left ruby touches left ruby of N')),
    (4, 'ruby', 'start', form(ELEMENT + b'rule 4 ruby touches start')),
    (4, 'left ruby', 'start',
     form(ELEMENT + b'rule 4 left ruby touches start')),
)


def numbers(pattern, line):
    """The numbers of a line of this form; None if it is of another."""
    match = pattern.fullmatch(line)
    return None if match is None else [int(text) for text in match.groups()]


def parse(text):
    """Told or Refusal; Malformed if any byte is out of place."""
    if not text.endswith(b'\n'):
        raise Malformed('the text does not end with LF')
    lines = text[:-1].split(b'\n')
    if REFUSED.fullmatch(lines[0]):
        return parse_refusal(lines)
    counts = numbers(CLEAR, lines[0])
    if counts is None:
        raise Malformed('1: neither clear nor refused: %s' % shown(lines[0]))
    return Told(*counts, parse_lines(lines))


def parse_refusal(lines):
    number, place = numbers(REFUSED, lines[0])
    if len(lines) != (2 if number == 11 else 1):
        raise Malformed('%d lines of text with number %d'
                        % (len(lines), number))
    if number != 11:
        return Refusal(number, place, None)
    needs = numbers(NEEDS, lines[1])
    if needs is None:
        raise Malformed('2: not what is needed: %s' % shown(lines[1]))
    return Refusal(number, place, tuple(needs))


def parse_lines(lines):
    found = []
    for number, line in enumerate(lines[1:], 2):
        extent = numbers(LINE, line)
        if extent is not None:
            found.append((extent[0], []))
        elif found:
            found[-1][1].append(parse_row(number, line))
        else:
            raise Malformed('%d: not a line: %s' % (number, shown(line)))
    return found


def parse_row(number, line):
    for rule, mine, its, pattern in REASONS:
        values = numbers(pattern, line)
        if values is not None:
            element, start, gap, other, depth = (values + [None, None])[:5]
            return Row(element, start, gap,
                       Reason(rule, mine, its, other, depth))
    raise Malformed('%d: neither a line nor an element: %s'
                    % (number, shown(line)))


def shown(line):
    return repr(line)[1:]


# ---------------------------------------------------------------------------
# Checking what it tells
# ---------------------------------------------------------------------------

def wrong_things(found, text):
    """What is wrong with a text; found is the verdict of account.py."""
    try:
        told = parse(text)
    except Malformed as error:
        return [str(error)]
    if isinstance(found, Refusal) or isinstance(told, Refusal):
        return wrong_refusal(found, told)
    return list(wrong_account(found, told))


def wrong_refusal(found, told):
    if found == told:
        return []
    return ['%s, not %s' % (verdict_words(told), verdict_words(found))]


def verdict_words(either):
    if isinstance(either, Refusal):
        return ', '.join(account.refusal_rows(either))
    return 'clear'


def differing(place, pairs):
    """What is told otherwise; pairs has (name, told, expected)."""
    for name, told, expected in pairs:
        if told != expected:
            yield '%s: %s %s, not %s' % (place, name, told, expected)


def wrong_account(found, told):
    yield from differing('clear', (
        ('lines', told.line_count, len(found.lines)),
        ('elements', told.elements, found.elements),
        ('readings', told.readings, found.readings),
        ('lines that follow:', len(told.lines), len(found.lines))))
    for number, (line, (extent, rows)) in enumerate(
            zip(found.lines, told.lines), 1):
        yield from wrong_line('line %d' % number, line, extent, rows)


def wrong_line(place, line, extent, rows):
    yield from differing(place, (
        ('extent', extent, account.extent(line)),
        ('elements that follow:', len(rows), len(line))))
    accounts = account.line_account(line)
    for at, (row, expected) in enumerate(zip(rows, accounts)):
        element, start, gap, broken = expected
        here = '%s, element %d' % (place, element)
        yield from differing(here, (
            ('index', row.element, element),
            ('start', row.start, start),
            ('gap', row.gap, gap)))
        yield from wrong_reason(here, row.reason, broken, line[:at], line[at])


def wrong_reason(place, reason, broken, earlier, drawn):
    """broken has what breaks one half unit nearer: (rule, other)."""
    rule = first_rule(broken, drawn)
    if reason.rule != rule:
        yield '%s: rule %d, not %s' % (place, reason.rule, rule)
        return
    others = [other for number, other in broken if number == rule]
    if reason.other not in others:
        yield '%s: other %s, not of %s' % (place, reason.other, others)
        return
    if rule == 2:
        yield from wrong_depth(place, reason, earlier[-1], drawn)
    if not touches(reason, earlier, drawn):
        yield ('%s: %s does not hold'
               % (place, account.reason_words(reason)))
    for first in ahead_of(reason, earlier, drawn):
        if touches(first, earlier, drawn):
            yield '%s: %s, not %s' % (place, account.reason_words(reason),
                                      account.reason_words(first))
            return


def first_rule(broken, drawn):
    # Nothing can move nearer than the line's start, so rule 4 is the first
    # there; else the rules come in the order of their numbers.
    if drawn.block[0] == 0:
        return 4
    return min(rule for rule, _ in broken)


def wrong_depth(place, reason, before, drawn):
    # Rule 2 lets ruby only onto the P just before it or just after it.
    permitted = (drawn.depth_before if reason.mine == 'block'
                 else before.depth_after)
    yield from differing(place, (('other', reason.other, before.element),
                                 ('depth', reason.depth, permitted)))


def span(drawn, name):
    return {'block': drawn.block, 'ruby': drawn.ruby,
            'left ruby': drawn.left}[name]


def touches(reason, earlier, drawn):
    """Whether the start of the one is the end of the other, less the depth."""
    mine = span(drawn, reason.mine)
    if mine is None:
        return False
    if reason.its == 'start':
        return mine[0] == 0
    # Several characters of a J with a mono left reading have one index.
    others = earlier if reason.rule == 3 else earlier[-1:]
    its = [span(before, reason.its) for before in others
           if before.element == reason.other]
    return any(other is not None
               and other[1] == mine[0] + (reason.depth or 0) for other in its)


def ahead_of(reason, earlier, drawn):
    """The reasons of the same rule that come ahead of this one.

    Of one side's rule 3 there is one at most: rubies are at least 1 wide and
    don't overlap, so no two of a side and a line end at one place.
    """
    for rule, mine, its, _ in REASONS:
        if (mine, its) == (reason.mine, reason.its):
            return
        if rule != reason.rule:
            continue
        if rule == 4:
            yield Reason(4, mine, its, None, None)
        elif rule == 2:
            yield Reason(2, mine, its, earlier[-1].element,
                         drawn.depth_before if mine == 'block'
                         else earlier[-1].depth_after)
        else:
            for before in earlier:
                yield Reason(rule, mine, its, before.element, None)


# ---------------------------------------------------------------------------
# What was seen
# ---------------------------------------------------------------------------

class Seen:
    """Counts over the verdicts of account.py, whatever the program wrote."""

    def __init__(self):
        self.sheets = self.accepted = self.elements = 0
        self.lines = self.dense = 0
        self.refused = collections.Counter()
        self.kinds = collections.Counter()

    def add(self, found):
        self.sheets += 1
        if isinstance(found, Refusal):
            self.refused[found.number] += 1
            return
        self.accepted += 1
        for line in found.lines:
            named = account.line_reasons(line)
            self.lines += 1
            self.elements += len(line)
            self.kinds.update(map(kind, named))
            if sum(reason.rule in (2, 3) for reason in named) >= DENSE:
                self.dense += 1

    def words(self):
        refused = ', '.join('%d by %d' % (count, number) for number, count
                            in sorted(self.refused.items()))
        kinds = ', '.join('%s %d' % (name, self.kinds[name])
                          for name in KINDS + LEFT_KINDS
                          if name in KINDS or self.kinds[name])
        return ('seen: %d accepted; refused %s; %d lines, %d of them dense; '
                'reasons %s' % (self.accepted, refused or 'none', self.lines,
                                self.dense, kinds))


KINDS = ('block-start', 'block-block', 'block-ruby', 'block-ruby-deep',
         'ruby-block', 'ruby-block-deep', 'ruby-ruby', 'ruby-start')
LEFT_KINDS = ('block-left', 'block-left-deep', 'left-block',
              'left-block-deep', 'left-left', 'left-start')


def kind(reason):
    """What touches and what is touched; deep where the depth is not 0."""
    words = '%s-%s%s' % (reason.mine, reason.its,
                         '-deep' if reason.depth else '')
    return words.replace('left ruby', 'left')


# ---------------------------------------------------------------------------
# The comparison
# ---------------------------------------------------------------------------

def all_sheets(folder, seed, count):
    yield from compare.kept_sheets(folder)
    yield from generate_two.account_sheets(seed, count)


def wrong_with_run(found, written, odd):
    """What is wrong with one run of the program."""
    wrong = ['the run: %s' % odd] if odd else []
    wrong += wrong_things(found, written)
    if not wrong and written != account.text_of(found):
        wrong.append('not the text that account.py writes')
    return wrong


def show_difference(path, wrong):
    print('difference: %s' % path)
    for words in wrong[:WRONG]:
        print('    %s' % words)
    if len(wrong) > WRONG:
        print('    and %d more' % (len(wrong) - WRONG))


def one_by_one(command, sheets):
    """Each sheet with what the program wrote and what was odd about it."""
    for sheet in sheets:
        yield (sheet, *compare.run_once(command, sheet, single=True))


def in_frames(command, sheets):
    """The same with many sheets in one run."""
    for batch in compare.batches(sheets):
        for sheet, written in zip(batch,
                                  compare.engine_answers(command, batch)):
            yield (sheet, b'', 'no answer') if written is None else (
                sheet, written, '')


def compare_all(command, folder, seed, count, runs=one_by_one):
    """(what was seen, differences)"""
    seen, differences = Seen(), 0
    for sheet, written, odd in runs(command, all_sheets(folder, seed, count)):
        found = account.verdict(sheet)
        seen.add(found)
        wrong = wrong_with_run(found, written, odd)
        if wrong:
            differences += 1
            if differences <= SHOWN:
                show_difference(compare.keep(folder, sheet), wrong)
    return seen, differences


def command_of(program):
    """An executable's path as it stands, or the words of a command."""
    return [program] if os.path.isfile(program) else shlex.split(program)


def main():
    parser = argparse.ArgumentParser()
    parser.add_argument('--sheets', type=int, default=1000)
    parser.add_argument('--seed', type=int, default=3)
    parser.add_argument('--program', default=PROGRAM)
    parser.add_argument('--framed', action='store_true')
    parser.add_argument('--kept', default=os.path.join(HERE, 'kept'),
                        help='the folder of sheets that showed a difference')
    chosen = parser.parse_args()
    command = command_of(chosen.program)
    if not command or shutil.which(command[0]) is None:
        sys.exit('%s cannot be run' % chosen.program)
    seen, differences = compare_all(
        command, chosen.kept, chosen.seed, chosen.sheets,
        in_frames if chosen.framed else one_by_one)
    print(seen.words())
    print('compared %d sheets, %d elements, %d differences'
          % (seen.sheets, seen.elements, differences))
    sys.exit(0 if differences == 0 else 1)


if __name__ == '__main__':
    main()
