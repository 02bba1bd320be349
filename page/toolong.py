"""The line that is too long for the measure (number 11), to be drawn.

The programs set it: a sheet is made of the rows of that line alone, with the
measure that the account says is needed, and handed to them.  The line runs
from the character at the place to the first permitted break.  Before it
stands a narrow character of its own line, unless it is the job's first line:
a space that opens a job takes no reading, one that opens a later line does.
That the right line was set is seen by its extent: it has to be the one that
the account needs.
"""

import collections

import answers
import sheets

# By what numbers the line is known on the whole sheet: its elements, and for
# each letter what is added to the number of a character.
Numbers = collections.namedtuple('Numbers', 'elements firsts')

GUARD = '19 1 0 0 1'    # it has a line of its own: nothing fits behind it
MOST = 4000000          # the widest measure of a sheet


def first_break(sheet, place):
    """[(element, first base character, end)] up to the first break."""
    found = []
    for number, element in enumerate(sheet.elements):
        start, end = max(element.base.start, place), element.base.stop
        if end <= place:
            continue
        if end - start > 1 and may_be_cut(sheet, number):
            return found + [(number, start, start + 1)]
        found.append((number, start, end))
        if sheet.base[end - 1].flag == 1:
            return found
    return found


def may_be_cut(sheet, number):
    """Whether a line may end within an element.

    Within a J, but for one with a left G, or with a left J and a run longer
    than one em on either side: that is a group on both sides.
    """
    element = sheet.elements[number]
    left = element.counts.get('l', ('N', []))[0]
    if element.kind != 'J' or left == 'G':
        return False
    return left != 'J' or not any(
        2 * width > sheets.em(sheet) for letter in ('r', 'l')
        for width in run_widths(sheet, number, letter))


def run_widths(sheet, number, letter):
    """The width of each run of a J, in units."""
    element = sheet.elements[number]
    at = ruby_range(sheet, letter, [(number, element.base.start,
                                     element.base.stop)]).start
    for count in element.counts[letter][1]:
        yield sum(ruby.width for ruby in sheet.rubies[letter][at:at + count])
        at += count


def part_line(element, start, end):
    """The line of an element, or of one character of a J, on the sheet."""
    if (start, end) == (element.base.start, element.base.stop):
        return element.line
    at = start - element.base.start
    words = ['M %d' % element.counts['r'][1][at]]
    if 'l' in element.counts:
        kind, counts = element.counts['l']
        words.append('N' if kind == 'N' else 'M %d' % counts[at])
    return ' '.join(words)


def taken(element, letter, start, end):
    """How many ruby characters a part takes, and how many stand before it."""
    kind, counts = element.counts.get(letter, ('N', []))
    if len(counts) == len(element.base) and kind != 'G':
        first = start - element.base.start
        return sum(counts[:first]), sum(counts[first:end - element.base.start])
    return 0, sum(counts)


def ruby_range(sheet, letter, parts):
    """The ruby characters of a side that belong to some parts in a row."""
    number, start, end = parts[0]
    first = sum(sum(element.counts.get(letter, ('N', []))[1])
                for element in sheet.elements[:number])
    first += taken(sheet.elements[number], letter, start, end)[0]
    return range(first, first + sum(
        taken(sheet.elements[part[0]], letter, *part[1:])[1]
        for part in parts))


def alone(sheet, refused):
    """A sheet of the line alone, in bytes, and the Line's own numbers.

    None where no measure of a sheet holds the line.
    """
    parts = first_break(sheet, refused.place)
    measure = -(-refused.needs[0] // 2)
    if measure > MOST or not parts:
        return None
    lead = 1 if refused.place > 0 else 0
    firsts = {'b': parts[0][1] - lead}
    rows = {'base': [GUARD] * lead + cut(sheet, 'base', range(
        parts[0][1], parts[-1][2]))}
    for side in sheets.SIDES:
        if side.section in sheet.sections:
            own = ruby_range(sheet, side.letter, parts)
            firsts[side.letter] = own.start
            rows[side.section] = cut(sheet, side.section, own)
    rows['elem'] = ['P'] * lead + [
        part_line(sheet.elements[number], start, end)
        for number, start, end in parts]
    return (written(sheet, measure, rows),
            Numbers([None] * lead + [part[0] for part in parts], firsts))


def cut(sheet, section, numbers):
    return sheet.sections[section].rows[numbers.start:numbers.stop]


def written(sheet, measure, rows):
    """The sheet with other sections and another measure."""
    numbers = list(sheet.sections['set'].rows)
    numbers[1] = str(measure)
    told = ['set %d' % len(numbers)] + numbers
    for name in rows:
        told += ['%s %d' % (name, len(rows[name]))] + rows[name]
    return ''.join(row + '\n' for row in told).encode('ascii')


# ---------------------------------------------------------------------------
# The line by the numbers that it has on the whole sheet
# ---------------------------------------------------------------------------

def renumbered_row(row, numbers):
    other = None if row.other is None else numbers.elements[row.other]
    return row._replace(element=numbers.elements[row.element], other=other)


def renumbered(line, numbers):
    """A Line of the sheet of one line, as a Line of the whole sheet."""
    return answers.Line(line.extent, [
        answers.Piece(
            numbers.elements[piece.element],
            {letter: [box._replace(index=box.index + numbers.firsts[letter])
                      for box in boxes]
             for letter, boxes in piece.boxes.items()},
            [renumbered_row(row, numbers) for row in piece.rows])
        for piece in line.pieces])


def line_of(sheet, refused, ask):
    """The Line that is too long; None where it cannot be drawn.

    ask gives the programs' two answers to the bytes of a sheet.
    """
    found = refused.needs and alone(sheet, refused)
    if not found:
        return None
    content, numbers = found
    page = answers.read_page(content, *ask(content))
    if isinstance(page, answers.Refused):
        return None
    line = page.lines[-1]
    if line.extent != refused.needs[0] or len(page.lines) != (
            2 if refused.place > 0 else 1):
        return None
    return renumbered(line, numbers)
