"""What moved between two sheets, for the pictures of both.

compare/compare.py says it: which elements of the one are which of the other,
which lines have kept their breaks, and how far an element moved.  Here its
answers are put to lines and elements.
"""

import collections

import compare
from lanes import Move

# rows: what bin/compare tells.  pairs: [(old line, new line)] that stand side
# by side, None for none; lines from 0.  old, new: for each line of a sheet
# the Move of each of its elements.
Changes = collections.namedtuple('Changes', 'rows pairs old new')


def signed(amount):
    return '+%d' % amount if amount > 0 else '\u2212%d' % -amount


def side_by_side(pairing, count):
    """[(old line, new line)], from each new line's old one or None.

    Lines whose breaks changed stand beside the old lines between the same
    two pairs, as far as there are any.
    """
    found, old, waiting = [], 0, []

    def let_go(until):
        nonlocal old
        gone = list(range(old, until))
        for at in range(max(len(gone), len(waiting))):
            found.append((gone[at] if at < len(gone) else None,
                          waiting[at] if at < len(waiting) else None))
        waiting.clear()
        old = until

    for number, pair in enumerate(pairing):
        if pair is None or pair < old:
            waiting.append(number)
        else:
            let_go(pair)
            found.append((pair, number))
            old = pair + 1
    let_go(count)
    return found


def lines_of_elements(page):
    """{(element, its first base character in the line): (line, piece)}"""
    return {(piece.element, piece.first): (at, piece)
            for at, line in enumerate(page.lines) for piece in line.pieces}


def new_move(old, new, match, partner, stood, piece):
    """The Move of an element of a new line; None where it stands as it did."""
    before = match[piece.element]
    if before is None:
        return Move('put in', 'It is not on the old sheet.')
    exchanged = old.elements[before] != new.elements[piece.element]
    labels = ['exchanged'] if exchanged else []
    told = ['It was exchanged.'] if exchanged else []
    if (before, piece.first) not in stood:
        return Move(', '.join(labels + ['cut elsewhere']), ' '.join(
            told + ['It is cut elsewhere now.']))
    at, other = stood[before, piece.first]
    if at != partner:
        labels.append('from line %d' % (at + 1))
        told.append('It stood in line %d before.' % (at + 1))
    elif compare.amount(other, piece):
        labels.append(signed(compare.amount(other, piece)))
        told.append('It moved by %d.' % compare.amount(other, piece))
    told += [words[0].upper() + words[1:] + '.'
             for words in compare.own_words(other, piece)]
    return Move(', '.join(labels), ' '.join(told)) if labels else None


def new_moves(old, new, match, pairs):
    """For each line of the new page the Move of each of its elements."""
    stood = lines_of_elements(old)
    partner = {number: other for other, number in pairs}
    found = []
    for at, line in enumerate(new.lines):
        moves = {piece.element: new_move(old, new, match, partner[at], stood,
                                         piece)
                 for piece in line.pieces}
        found.append({element: move for element, move in moves.items()
                      if move})
    return found


def old_moves(old, new, match):
    """The same for the old page: what was exchanged or taken out."""
    now = {before: number for number, before in enumerate(match)
           if before is not None}
    found = []
    for line in old.lines:
        moves = {}
        for piece in line.pieces:
            number = now.get(piece.element)
            if number is None:
                moves[piece.element] = Move(
                    'taken out', 'It is not on the new sheet.')
            elif old.elements[piece.element] != new.elements[number]:
                moves[piece.element] = Move('exchanged', 'It was exchanged.')
        found.append(moves)
    return found


def changes(old, new):
    """Changes of two pairs of a sheet and its result, both in bytes."""
    old, new = compare.read_page(*old), compare.read_page(*new)
    match = compare.matched(old.elements, new.elements)
    _, rows = compare.compared(old, new)
    pairs = side_by_side(compare.paired_lines(old, new, match),
                         len(old.lines))
    return Changes(rows, pairs, old_moves(old, new, match),
                   new_moves(old, new, match, pairs))
