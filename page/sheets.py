"""A job sheet as records: its characters, its elements, its sections.

Readings stand on two sides of their base.  Whatever is done for a reading is
done for a side, so that right and left are written once.  A sheet of form one
has right readings only; form two begins with `set 9`, has a section `left`
and names on each M, G and J line the kind and the counts of a left reading.
"""

import collections

# A side: the letter of its lines in the result, its section on the sheet, the
# account's word for a reading of this side, and ours.
Side = collections.namedtuple('Side', 'letter section account words')
RIGHT = Side('r', 'ruby', 'ruby', 'reading')
LEFT = Side('l', 'left', 'left ruby', 'left reading')
SIDES = (RIGHT, LEFT)

# A base character and a ruby character; widths and blanks in units.
Base = collections.namedtuple('Base', 'cls width before after flag')
Ruby = collections.namedtuple('Ruby', 'cls width')

# An element: its kind, its line on the sheet, the numbers of its base
# characters, and for each side the letter and the counts of its reading.
Element = collections.namedtuple('Element', 'kind line base counts')

# A section: the line of its head, counted from 1, and the lines under it.
Section = collections.namedtuple('Section', 'head rows')

# rubies: for each side its ruby characters.  numbers: those of `set`.
Sheet = collections.namedtuple(
    'Sheet', 'sections numbers base rubies elements')


def read_sections(rows):
    """{name: Section} of a sheet whose form is sound."""
    sections, at = {}, 0
    while at < len(rows):
        name, count = rows[at].split(' ')
        sections[name] = Section(at + 1, rows[at + 1:at + 1 + int(count)])
        at += 1 + int(count)
    return sections


def numbers_of(row):
    return [int(word) for word in row.split(' ')]


def read_counts(row):
    """(base characters, {side's letter: (kind, counts)}) of an element."""
    kind, *words = row.split(' ')
    if kind == 'P':
        return 1, {}
    bases = 1 if kind == 'M' else int(words.pop(0))
    right = bases if kind == 'J' else 1
    counts = {'r': (kind, [int(word) for word in words[:right]])}
    if words[right:]:
        left, *more = words[right:]
        counts['l'] = (left, [int(word) for word in more])
    return bases, counts


def read_elements(rows):
    elements, at = [], 0
    for row in rows:
        bases, counts = read_counts(row)
        elements.append(Element(row[0], row, range(at, at + bases), counts))
        at += bases
    return elements


def read_sheet(content):
    """The records of a sheet's bytes; ValueError if its form is not sound."""
    rows = content.decode('ascii').split('\n')
    if rows.pop() != '':
        raise ValueError('the last line has no end')
    sections = read_sections(rows)
    return Sheet(
        sections,
        [int(row) for row in sections['set'].rows],
        [Base(*numbers_of(row)) for row in sections['base'].rows],
        {side.letter: [Ruby(*numbers_of(row))
                       for row in sections[side.section].rows]
         for side in SIDES if side.section in sections},
        read_elements(sections['elem'].rows))


def em(sheet):
    """The size of a base character, in half units."""
    return 2 * sheet.numbers[0]


def measure(sheet):
    """In half units."""
    return 2 * sheet.numbers[1]


def has(sheet, side):
    """Whether some element has a reading on this side."""
    return bool(sheet.rubies.get(side.letter))
