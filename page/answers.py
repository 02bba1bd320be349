"""What the proved programs write for a sheet, as records: result and account.

The positions are the result's, and the lengths are twice the sheet's widths:
nothing is worked out here.
"""

import collections

import sheets

# A character where it stands: its number, its start in the line and its
# length.  Half units.
Box = collections.namedtuple('Box', 'index start length')

# An element in a line, or the part of one that stands there.  boxes has the
# base characters under 'b' and the ruby characters under their side's letter;
# rows are the lines of the account that speak of it.
Piece = collections.namedtuple('Piece', 'element boxes rows')

# A line of the page.
Line = collections.namedtuple('Line', 'extent pieces')

# A line of the account.  what touches of whom: 'block', 'ruby' or
# 'left ruby', and 'start' too; other is None for the line's start, depth is
# None where the account names none.
Row = collections.namedtuple(
    'Row', 'element at gap rule what touched other depth')

# A page that is set; an element with a left reading has two readings.
Page = collections.namedtuple('Page', 'sheet lines readings')

# A sheet that is refused.  needs is (extent, measure) for number 11.
Refused = collections.namedtuple('Refused', 'number place needs')


def rows_of(answer):
    rows = answer.decode('ascii').split('\n')
    if rows.pop() != '':
        raise ValueError('the last line has no end')
    return rows


# ---------------------------------------------------------------------------
# The result
# ---------------------------------------------------------------------------

def box_of(sheet, letter, index, start):
    characters = sheet.base if letter == 'b' else sheet.rubies[letter]
    return Box(index, start, 2 * characters[index].width)


def read_lines(rows, sheet):
    """The lines of a result, without the rows of an account.

    The result goes element by element, base before readings, so a ruby
    character belongs to the element whose base characters came last.
    """
    owner = [number for number, element in enumerate(sheet.elements)
             for _ in element.base]
    lines = []
    for row in rows:
        letter, *numbers = row.split(' ')
        numbers = [int(number) for number in numbers]
        if letter == 'line':
            lines.append(Line(numbers[0], []))
            continue
        pieces, box = lines[-1].pieces, box_of(sheet, letter, *numbers)
        if letter == 'b' and (not pieces
                              or pieces[-1].element != owner[box.index]):
            pieces.append(Piece(owner[box.index], {}, []))
        pieces[-1].boxes.setdefault(letter, []).append(box)
    return lines


# ---------------------------------------------------------------------------
# The account
# ---------------------------------------------------------------------------

def read_reason(words):
    """(rule, what, touched, other, depth) of `rule 2 ruby touches ..`."""
    rule, rest = words.split(' ', 2)[1:]
    what, rest = rest.split(' touches ')
    rest, _, depth = rest.partition(' at depth ')
    touched, _, other = rest.partition(' of ')
    return (int(rule), what, touched, int(other) if other else None,
            int(depth) if depth else None)


def read_row(row):
    """A line `element I at S gap W REASON`."""
    words = row.split(' ', 6)
    if words[0:5:2] != ['element', 'at', 'gap']:
        raise ValueError(row)
    return Row(int(words[1]), int(words[3]), int(words[5]),
               *read_reason(words[6]))


def read_account(rows):
    """[(extent, its rows)] of the lines of an account."""
    lines = []
    for row in rows:
        if row.startswith('line '):
            lines.append((int(row[5:]), []))
        else:
            lines[-1][1].append(read_row(row))
    return lines


def join(lines, accounts):
    """Puts each row of the account to its element in the result's line."""
    if [line.extent for line in lines] != [extent for extent, _ in accounts]:
        raise ValueError('the two do not speak of the same lines')
    for line, (_, rows) in zip(lines, accounts):
        pieces = {piece.element: piece for piece in line.pieces}
        for row in rows:
            piece = pieces[row.element]
            if row.at not in [box.start for box in piece.boxes['b']]:
                raise ValueError('element %d stands elsewhere' % row.element)
            piece.rows.append(row)
        if not all(piece.rows for piece in line.pieces):
            raise ValueError('an element has no row')


# ---------------------------------------------------------------------------
# Both
# ---------------------------------------------------------------------------

def read_refused(result, account):
    """Refused, from the rows of two answers; None where the sheet is set."""
    if not result[0].startswith('refused '):
        return None
    number, place = sheets.numbers_of(result[0][len('refused '):])
    if result[1:] or account[0] != result[0]:
        raise ValueError('the two do not refuse alike')
    needs = None
    if account[1:]:
        words = account[1].split(' ')
        needs = int(words[1]), int(words[3])
    return Refused(number, place, needs)


def read_page(content, result, account):
    """Page or Refused, of a sheet's bytes and the two programs' answers."""
    result, account = rows_of(result), rows_of(account)
    refused = read_refused(result, account)
    if refused:
        return refused
    sheet = sheets.read_sheet(content)
    lines = read_lines(result[1:], sheet)
    join(lines, read_account(account[1:]))
    verdict = account[0].split(' ')
    if (result[0] != 'lines %d' % len(lines) or verdict[0] != 'clear'
            or int(verdict[4]) != len(sheet.elements)):
        raise ValueError('not all of it is there')
    return Page(sheet, lines, int(verdict[6]))


# ---------------------------------------------------------------------------
# Where the boxes of an element end: sums of what the programs wrote
# ---------------------------------------------------------------------------

def end(box):
    return box.start + box.length


def span(boxes):
    """(start, end) of some characters of a line."""
    return boxes[0].start, end(boxes[-1])
