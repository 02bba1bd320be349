"""The lanes of a picture: what stands where across the line.

From the right readings' side to the other: what moved, the signs of the
rules, the right readings, the base, the left readings with their signs, the
numbers of the elements, the gaps.  Labels that would meet stand in lanes of
their own.  The em is the unit across the line and for the size of letters.
"""

import collections

import answers
import sheets
import words

# What is told of an element that moved: beside it, and in a sentence.
Move = collections.namedtuple('Move', 'label words')

# Of an em: the thickness of lanes, and the sizes of letters.
READING, BASE = 0.5, 1.0
LABEL = 0.23            # letters of labels
LETTER = 0.13           # the width of such a letter, near enough
BADGE = 0.17            # radius of the sign with a rule's number
AIR = 0.08
OVER = 'over'           # the key of what passes the measure
FAR = 6                 # a measure further off than this is not drawn


class View:
    """How the lines of a sheet are drawn.

    text has the characters, None where the classes' names stand for them.
    prefix makes the names of elements differ where a page has two sheets.
    alone is the name of a line that is no line of a page; still is whether
    the picture stands for itself, with nothing to point at.
    """

    def __init__(self, sheet, lines, text=None, vertical=False, prefix=''):
        self.sheet, self.text, self.vertical = sheet, text, vertical
        self.prefix, self.alone, self.still = prefix, None, False
        self.em, self.measure = sheets.em(sheet), sheets.measure(sheet)
        self.unit = self.em     # by which a screen's scale goes
        longest = max([line.extent for line in lines] + [self.em])
        # A measure that is far away would leave nothing of the line to see.
        self.far = self.measure > longest + FAR * self.em
        self.span = (longest + self.em if self.far
                     else max(longest, self.measure))
        # Too short for `start` and `measure` to stand over it side by side.
        self.short = not vertical and self.measure < 2.6 * self.em
        self.left = any(sheets.LEFT.letter in piece.boxes
                        for line in lines for piece in line.pieces)

    def identity(self, line, element):
        """The name of an element of a line in the file."""
        return '%sl%de%d' % (self.prefix, line, element)

    def line_name(self, line):
        return self.alone or 'Line %d' % line


class Label:
    """Rows of words about a place along the line; key says of what."""

    def __init__(self, view, key, along, rows):
        wide = (max(map(len, rows)) * LETTER + AIR) * view.em
        high = (len(rows) * 1.15 * LABEL + AIR) * view.em
        self.key, self.along, self.rows, self.lane = key, along, rows, 0
        self.size, self.thick = ((high, wide) if view.vertical
                                 else (wide, high))


class Contact:
    """Where an element is held: the end of a reading that may not pass."""

    def __init__(self, view, row, along, side):
        self.key, self.row = key_of(row), row
        self.along, self.side, self.lane = along, side, 0
        self.size = (2 * BADGE + AIR) * view.em
        self.thick = (2 * BADGE + AIR / 2) * view.em


def key_of(row):
    """A row of a line's account by what tells it from the others."""
    return row.element, row.at


def contact_of(view, row, pieces):
    """The Contact of a row; None where no reading has a part in it."""
    if row.what in words.SIDE_OF:
        side = words.SIDE_OF[row.what]
        boxes = pieces[row.element].boxes[side.letter]
        return Contact(view, row, boxes[0].start, side)
    if row.touched in words.SIDE_OF:
        side = words.SIDE_OF[row.touched]
        boxes = pieces[row.other].boxes[side.letter]
        return Contact(view, row, answers.span(boxes)[1], side)
    return None


def put_lanes(things):
    """Gives each the first lane in which it has room; how many there are.

    The last comes first: what is drawn later then covers the lines that lead
    further out.
    """
    starts = []
    for thing in reversed(sorted(things, key=lambda thing: thing.along)):
        lane = 0
        while (lane < len(starts)
               and starts[lane] < thing.along + thing.size / 2):
            lane += 1
        starts[lane:lane + 1] = [thing.along - thing.size / 2]
        thing.lane = lane
    return len(starts)


class Band:
    """Lanes of one sort: where they begin, and where a thing stands.

    inward: the first lane is the one at the far end, next to the readings.
    """

    def __init__(self, things, begin, air=0, inward=False):
        self.by_key = {thing.key: thing for thing in things}
        self.begin, self.inward = begin, inward
        self.count = put_lanes(things)
        self.each = max([thing.thick for thing in things], default=0)
        self.air = air if self.count else 0
        self.end = begin + self.air + self.count * self.each

    def middle(self, thing):
        lane = self.count - 1 - thing.lane if self.inward else thing.lane
        return (self.begin + (0 if self.inward else self.air)
                + (lane + 0.5) * self.each)


class Lanes:
    """The lanes of one line; moves has the Move of each that moved."""

    def __init__(self, view, line, moves):
        em = view.em
        pieces = {piece.element: piece for piece in line.pieces}
        rows = [row for piece in line.pieces for row in piece.rows if row.gap]
        contacts = [contact_of(view, row, pieces) for row in rows]
        self.contacts = [contact for contact in contacts if contact]
        at = (AIR if view.vertical else LABEL + 2 * AIR) * em
        self.moves = Band([Label(view, element, middle(pieces[element]),
                                 [move.label])
                           for element, move in moves.items()], at)
        self.badges, self.readings = {}, {}
        at = self.put_badges(sheets.RIGHT, self.moves.end, True)
        self.readings[sheets.RIGHT] = at
        self.base = at + READING * em
        at = self.base + BASE * em
        if view.left:
            self.readings[sheets.LEFT] = at
            at = self.put_badges(sheets.LEFT, at + READING * em, False)
        self.numbers = at
        at += (0.5 if view.vertical else 0.3) * em
        labels = [Label(view, key_of(row), row.at - row.gap / 2,
                        [str(row.gap), 'rule %d' % row.rule])
                  for row in rows]
        over = line.extent - view.measure
        if over > 0:
            labels.append(Label(view, OVER, view.measure + over / 2,
                                [str(over), 'too long']))
        self.gaps = Band(labels, at, 2 * AIR * em)
        self.end = self.gaps.end + AIR * em

    def put_badges(self, side, at, inward):
        band = Band([contact for contact in self.contacts
                     if contact.side is side], at, inward=inward)
        self.badges[side] = band
        return band.end


def middle(piece):
    return sum(answers.span(piece.boxes['b'])) / 2
