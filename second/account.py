"""Why each element of a set line stands no nearer the line's start.

    python3 account.py < sheet    the account of a sheet as a text

account(sheet) gives a list for each line of the sheet's result.  It has a row
for each element of the line, in order:

    (element, block start, gap before the block, [(rule, other), ...])

The element is its index in the job; one that is cut by a line end is an
element of each of its lines, and a J with a mono left reading has a row for
each of its characters, each of them "an element to the clearance rules" (R-5).
The block start is its position in half units,
and the gap reaches back to the block before it, or to the line's start.  The
list has every rule of clearance (document 01, level two) that breaks when the
element is moved one half unit nearer the line's start and all elements before
it stay as they are: the rule's number and the index of the other element,
None where there is no other.  A sheet that is refused raises second.Refused.

The rules are stated here once more, over what is drawn: spans of blocks and
of rubies at the positions of the result.

verdict(sheet) has the rest of what an account tells: how many lines, elements
and readings there are, or the refusal, and with number 11 the extent that the
line would need.  text(sheet) writes everything down in the form of the
account program (README.md, "The account").  It names one reason for each
element, and finds it in another way than account(sheet) does: not by moving
the element but by what it touches where it stands.

account_job tells the same reasons of a job in lists, in rows of numbers, as
include/bolyverit.h has them.
"""

import collections
import os
import sys

sys.path.insert(0, os.path.dirname(os.path.abspath(__file__)))

import second       # noqa: E402  (found through the path set above)
from second import sound_job    # noqa: E402


class Drawn:
    """An element, a part or a character of a J, as it stands in a line.

    Spans are (start, end) in half units.  The ruby is the right reading; it
    is None for a P, as left is where there is no left reading.  The depths
    are those to which ruby may lie on it, 0 but for a P.
    """

    def __init__(self, element, block, ruby, depth_before, depth_after,
                 left=None):
        self.element = element
        self.block = block
        self.ruby = ruby
        self.left = left
        self.depth_before = depth_before
        self.depth_after = depth_after

    def rubies(self):
        """The rubies that it has: (name, span), right before left."""
        both = (('ruby', self.ruby), ('left ruby', self.left))
        return [(name, span) for name, span in both if span is not None]

    def nearer(self):
        """The same, one half unit nearer the line's start."""
        return Drawn(self.element, moved(self.block), moved(self.ruby),
                     self.depth_before, self.depth_after, moved(self.left))


def moved(span):
    return None if span is None else (span[0] - 1, span[1] - 1)


# ---------------------------------------------------------------------------
# The four rules, between a drawn element and one before it in the line
# ---------------------------------------------------------------------------

def overlap(one, other):
    return one[0] < other[1] and other[0] < one[1]


def breaks_1(before, drawn, neighbours):
    # "1. Each block starts at or after the end of the block before it."
    return neighbours and drawn.block[0] < before.block[1]


def breaks_2(before, drawn, neighbours):
    # "2. Ruby keeps off every other element's block, except that it may lie
    # on the blank after the P element just before it ... or the blank before
    # the P element just after it", and in profile 1 "on a P element of class
    # 15 or 16 just before or just after".  "Clearance rule 2 holds for
    # each ruby" (R-5).
    if not neighbours:
        return (any(overlap(ruby, before.block)
                    for _, ruby in drawn.rubies())
                or any(overlap(ruby, drawn.block)
                       for _, ruby in before.rubies()))
    # The depth is how far ruby reaches past the near edge of its neighbour.
    return (any(before.block[1] - ruby[0] > before.depth_after
                for _, ruby in drawn.rubies())
            or any(ruby[1] - drawn.block[0] > drawn.depth_before
                   for _, ruby in before.rubies()))


def breaks_3(before, drawn):
    # "3. No two rubies overlap. Touching is allowed."  It holds "for rubies
    # of one side" (R-5).
    return any(name == other and overlap(one, two)
               for name, one in before.rubies()
               for other, two in drawn.rubies())


def breaks_4(drawn):
    # "4. Nothing starts before the line's start ..."  What moves nearer ends
    # no later than it did, so the measure needs no look.
    return drawn.block[0] < 0 or any(ruby[0] < 0
                                     for _, ruby in drawn.rubies())


def broken_rules(earlier, drawn):
    """[(rule, other)] of an element that stands behind the earlier ones."""
    broken = []
    for place, before in enumerate(earlier):
        neighbours = place == len(earlier) - 1
        if breaks_1(before, drawn, neighbours):
            broken.append((1, before.element))
        if breaks_2(before, drawn, neighbours):
            broken.append((2, before.element))
        if breaks_3(before, drawn):
            broken.append((3, before.element))
    broken.sort()
    if breaks_4(drawn):
        broken.append((4, None))
    return broken


# ---------------------------------------------------------------------------
# What is drawn, and its account
# ---------------------------------------------------------------------------

def span_of(indices, positions, widths):
    """From the start of the first character to the end of the last."""
    if len(indices) == 0:
        return None
    first, last = indices[0], indices[-1]
    return positions[first], positions[last] + 2 * widths[last]


def drawn_element(job, number, bases, rubies, lefts, base_out, ruby_outs):
    """One element of a line from the positions of its characters."""
    block = span_of(bases, base_out, job.base_width)
    ruby = span_of(rubies, ruby_outs[second.RIGHT], job.ruby_width)
    left = span_of(lefts, ruby_outs[second.LEFT], job.left_width)
    if job.elements[number].kind != second.P:
        return Drawn(number, block, ruby, 0, 0, left)
    return Drawn(number, block, None, second.depth_before(job, bases[0]),
                 second.depth_after(job, bases[0]))


def drawn_parts(job, owner, ends):
    """(element, base, ruby, left indices) of what the rules see as elements.

    They are what is printed, but for a J with a mono left reading: "each [of
    its characters] an element to the clearance rules" (R-5).
    """
    for bases, rubies, lefts in second.printed_parts(job, ends):
        number = owner[bases[0]]
        element = job.elements[number]
        if (element.kind, element.left_kind) != (second.J, second.M):
            yield number, bases, rubies, lefts
            continue
        for index in bases:
            readings = second.readings_of_part(job, element, index, index + 1)
            yield (number, [index], *map(second.indices, readings))


def drawn_lines(sheet):
    """The elements of each line, as the result of the sheet places them."""
    return drawn_lines_of(second.read_sheet(sheet))


def drawn_lines_of(arguments):
    """The same for a job that is given by its sixteen arguments."""
    base_out = [0] * second.MOST_BASE
    ruby_outs = [0] * second.MOST_RUBY, [0] * second.MOST_LEFT
    line_out = [0] * second.MOST_BASE
    result = second.set_job(*arguments, base_out, *ruby_outs, line_out)
    if result[0] == 'refused':
        raise second.Refused(result[1], result[2])
    job = sound_job(arguments)
    ends = line_out[:result[1]]
    lines = [[] for _ in ends]
    for number, bases, rubies, lefts in drawn_parts(job, second.owners(job),
                                                    ends):
        line = sum(end <= bases[0] for end in ends)
        lines[line].append(drawn_element(job, number, bases, rubies, lefts,
                                         base_out, ruby_outs))
    return lines


def line_account(line):
    """The rows of one line; line is a list of Drawn."""
    rows, block_before = [], 0
    for place, drawn in enumerate(line):
        rows.append((drawn.element, drawn.block[0],
                     drawn.block[0] - block_before,
                     broken_rules(line[:place], drawn.nearer())))
        block_before = drawn.block[1]
    return rows


def account(sheet):
    return [line_account(line) for line in drawn_lines(sheet)]


# ---------------------------------------------------------------------------
# The verdict: the counts of an accepted sheet, or the refusal
# ---------------------------------------------------------------------------

# lines has a list of Drawn for each line; elements counts those of the job,
# and readings the right ones (of M, G and J) and the left ones together.
Clear = collections.namedtuple('Clear', 'lines elements readings')

# needs is (extent, measure) in half units with number 11, else None.
Refusal = collections.namedtuple('Refusal', 'number place needs')


def verdict(sheet):
    """Clear or Refusal."""
    try:
        arguments = second.read_sheet(sheet)
    except second.Refused as refusal:
        return Refusal(refusal.number, refusal.place, None)
    return verdict_of(arguments)


def verdict_of(arguments):
    """The same for a job that is given by its sixteen arguments."""
    try:
        lines = drawn_lines_of(arguments)
    except second.Refused as refusal:
        needs = None
        if refusal.number == 11:
            needs = needs_of_line(arguments, refusal.place)
        return Refusal(refusal.number, refusal.place, needs)
    elements = sound_job(arguments).elements
    return Clear(lines, len(elements), sum(map(readings_of, elements)))


def readings_of(element):
    """How many readings an element has: 0, 1 or 2."""
    return (element.kind != second.P) + (element.left_kind != second.N)


def needs_of_line(arguments, first):
    """(least extent of a line that begins with first, the measure)"""
    job = sound_job(arguments)
    return needed_extent(job, first), 2 * job.measure


def needed_extent(job, first):
    """The least extent of any line from base character first to a break.

    Every permitted break ahead counts.  A line is at least as long as its
    base widths together (rule 1) and as its ruby widths of one side together
    (rule 3), and only a line that is shorter than the least so far matters;
    so it is set within a measure that is one half unit less, and not at all
    if its widths pass that already.
    """
    owner = second.owners(job)
    least = second.LARGEST_NUMBER + 1   # more than any extent
    for end in second.permitted_breaks(job):
        if end <= first or (
                2 * second.least_by_widths(job, owner, first, end) >= least):
            continue
        words = second.words_of_line(job, owner, first, end)
        origins = second.least_setting(words, least - 1)
        if origins is not None:
            least = max(origin + word.end
                        for word, origin in zip(words, origins))
    return least


def extent(line):
    # "The line's extent is the furthest end of any block or ruby in it."
    return max([drawn.block[1] for drawn in line]
               + [ruby[1] for drawn in line for _, ruby in drawn.rubies()])


# ---------------------------------------------------------------------------
# The reasons: what an element touches where it stands
# ---------------------------------------------------------------------------

# mine is what touches, 'block', 'ruby' or 'left ruby'; its is what is touched,
# 'start', 'block', 'ruby' or 'left ruby'.  other is the element whose block or
# ruby that is, None with 'start'; depth is None but for rule 2.
Reason = collections.namedtuple('Reason', 'rule mine its other depth')


def reasons(earlier, drawn):
    """Every reason that holds, in the order in which one is named."""
    block = drawn.block
    # The block stands at the line's start.
    if block[0] == 0:
        yield Reason(4, 'block', 'start', None, None)
    if earlier:
        before = earlier[-1]
        # The block touches the end of the block before.
        if before.block[1] == block[0]:
            yield Reason(1, 'block', 'block', before.element, None)
        # A ruby before lies on the block as deep as it may.
        for its, ruby in before.rubies():
            if ruby[1] == block[0] + drawn.depth_before:
                yield Reason(2, 'block', its, before.element,
                             drawn.depth_before)
        # A ruby lies on the block before as deep as it may.
        for mine, ruby in drawn.rubies():
            if before.block[1] == ruby[0] + before.depth_after:
                yield Reason(2, mine, 'block', before.element,
                             before.depth_after)
    # A ruby touches the end of an earlier ruby of its side; the nearest comes
    # first.
    for mine, ruby in drawn.rubies():
        for before in reversed(earlier):
            for its, other in before.rubies():
                if its == mine and other[1] == ruby[0]:
                    yield Reason(3, mine, its, before.element, None)
    # A ruby stands at the line's start.
    for mine, ruby in drawn.rubies():
        if ruby[0] == 0:
            yield Reason(4, mine, 'start', None, None)


def line_reasons(line):
    """The reason named for each element of a line, a list of Drawn."""
    return [next(reasons(line[:place], drawn))
            for place, drawn in enumerate(line)]


# ---------------------------------------------------------------------------
# The account of a job in lists (include/bolyverit.h, bv_account_job)
# ---------------------------------------------------------------------------

ROW = 6     # numbers in a row

# How a reason is told: BV_BY_START to BV_BY_EDGE, and 4 more where the ruby is
# a left one.
TOLD = {(4, 'block', 'start'): 1, (1, 'block', 'block'): 2,
        (2, 'block', 'ruby'): 3, (2, 'ruby', 'block'): 4,
        (3, 'ruby', 'ruby'): 5, (4, 'ruby', 'start'): 6,
        (2, 'block', 'left ruby'): 7, (2, 'left ruby', 'block'): 8,
        (3, 'left ruby', 'left ruby'): 9, (4, 'left ruby', 'start'): 10}


def account_job(em, measure, ratios, profile, base_class, base_width,
                blank_before, blank_after, flag, ruby_class, ruby_width, kind,
                elem_base, elem_ruby, runs, left, rows, told, extents):
    """('set', number of lines) or ('refused', number, place).

    The three result lists are written on success only.
    """
    arguments = (em, measure, ratios, profile, base_class, base_width,
                 blank_before, blank_after, flag, ruby_class, ruby_width, kind,
                 elem_base, elem_ruby, runs, left)
    job = second.Job(*arguments)
    try:
        # "The job is given, checked and refused as in bv_set_job", but for
        # the room, which these three result lists need.
        second.check_sizes(job)
        second.check_ratios(job)
        second.check_profile(job)
        second.check_counts(job)
        check_room(job, rows, told, extents)
        lines = drawn_lines_of(arguments)
    except second.Refused as refusal:
        return ('refused', refusal.number, refusal.place)
    write_account(lines, rows, told, extents)
    return ('set', len(lines))


def check_room(job, rows, told, extents):
    # "rows needs BV_ROW entries for each base character, told and extents
    # one; else the job is refused with number 12."
    if len(rows) < ROW * job.base_count:
        raise second.Refused(12, 0)
    if len(told) < job.base_count or len(extents) < job.base_count:
        raise second.Refused(12, 0)


def write_account(lines, rows, told, extents):
    # "rows: BV_ROW numbers for each element of each line, in order"; "told:
    # for each line the count of rows up to its end"; "extents: for each line
    # its extent".  "On success, entries past those used stay as they were."
    count = 0
    for number, line in enumerate(lines):
        for row in told_rows(line):
            for place, value in enumerate(row):
                rows[ROW * count + place] = value
            count += 1
        told[number] = count
        extents[number] = extent(line)


def told_rows(line):
    """The row of each element of a line, a list of Drawn."""
    block_before = 0
    for drawn, reason in zip(line, line_reasons(line)):
        # The element, its start, its gap, the reason; the other element and
        # the depth, 0 where there is none.
        yield (drawn.element, drawn.block[0], drawn.block[0] - block_before,
               TOLD[reason.rule, reason.mine, reason.its],
               reason.other or 0, reason.depth or 0)
        block_before = drawn.block[1]


# ---------------------------------------------------------------------------
# The text
# ---------------------------------------------------------------------------

def text(sheet):
    """The account of a sheet, as bytes."""
    return text_of(verdict(sheet))


def text_of(found):
    """The account of a verdict, as bytes."""
    if isinstance(found, Refusal):
        rows = refusal_rows(found)
    else:
        rows = clear_rows(found)
    return ''.join(row + '\n' for row in rows).encode('ascii')


def refusal_rows(refusal):
    yield 'refused %d %d' % (refusal.number, refusal.place)
    if refusal.needs is not None:
        yield 'needs %d measure %d' % refusal.needs


def clear_rows(clear):
    yield ('clear lines %d elements %d readings %d'
           % (len(clear.lines), clear.elements, clear.readings))
    for line in clear.lines:
        yield 'line %d' % extent(line)
        block_before = 0
        for drawn, reason in zip(line, line_reasons(line)):
            yield ('element %d at %d gap %d %s'
                   % (drawn.element, drawn.block[0],
                      drawn.block[0] - block_before, reason_words(reason)))
            block_before = drawn.block[1]


def reason_words(reason):
    words = 'rule %d %s touches %s' % (reason.rule, reason.mine, reason.its)
    if reason.other is not None:
        words += ' of %d' % reason.other
    if reason.depth is not None:
        words += ' at depth %d' % reason.depth
    return words


def main(arguments):
    """The exit status."""
    if arguments not in ([], ['--framed']):
        sys.exit('usage: account.py [--framed] < sheet')
    return second.answer_input(arguments, text)


if __name__ == '__main__':
    sys.exit(main(sys.argv[1:]))
