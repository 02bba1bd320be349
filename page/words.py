"""The account in sentences.

Elements are named by their number, with their characters where a text is
there.  Every amount is the account's own or a difference of two positions of
the result; lengths are half units.
"""

import answers
import letters
import sheets

KINDS = {'P': 'plain', 'M': 'mono', 'G': 'group', 'J': 'jukugo'}
KANA = (15, 16)     # classes on which a reading may lie with profile 1

# The account's words for what touches and is touched, and ours.
OURS = {'block': 'base'}
OURS.update((side.account, side.words) for side in sheets.SIDES)
SIDE_OF = {side.account: side for side in sheets.SIDES}

# The four rules of clearance, in the manual's words.
RULES = {
    1: 'a base starts where the one before it ends, or later',
    2: 'a reading keeps off the base of every other element, but may lie on '
       'the blank of a plain neighbour, and with profile 1 on a plain kana, '
       'to a certain depth',
    3: 'no two readings overlap',
    4: 'nothing starts before the line does'}
ONE_SIDE = 'no two readings of one side overlap'    # 3, where there are two


def capital(words):
    return words[:1].upper() + words[1:]


def half_units(amount):
    return '%d half unit%s' % (amount, '' if amount == 1 else 's')


# ---------------------------------------------------------------------------
# Names
# ---------------------------------------------------------------------------

def base_text(sheet, text, number):
    """The base characters of an element; '' without a text."""
    if text is None:
        return ''
    return ''.join(letters.shown(text['b'][index])
                   for index in sheet.elements[number].base)


def name(sheet, text, number):
    """`16`, or `16 (努)`."""
    characters = base_text(sheet, text, number)
    return '%d (%s)' % (number, characters) if characters else str(number)


def run_names(classes):
    """`hiragana`, or `2 hiragana, 1 small kana`, of some classes in a row."""
    found = []
    for cls in classes:
        if found and found[-1][1] == cls:
            found[-1][0] += 1
        else:
            found.append([1, cls])
    return ', '.join('%d %s' % (count, letters.class_name(cls))
                     if len(classes) > 1 else letters.class_name(cls)
                     for count, cls in found)


def characters_of(sheet, text, letter, boxes):
    """The characters of some boxes: themselves, or their classes' names."""
    if text is not None:
        return ''.join(letters.shown(text[letter][box.index])
                       for box in boxes)
    characters = sheet.base if letter == 'b' else sheet.rubies[letter]
    return run_names([characters[box.index].cls for box in boxes])


# ---------------------------------------------------------------------------
# Why an element stands where it does
# ---------------------------------------------------------------------------

def resting_place(sheet, number):
    """What a reading lies on where it lies on a plain element."""
    character = sheet.base[sheet.elements[number].base[0]]
    return 'this kana' if character.cls in KANA else 'its blank'


def held(sheet, text, row):
    """What holds an element: `its reading begins where .. ends`."""
    own = OURS[row.what]
    if row.touched == 'start':
        return 'its %s begins where the line starts' % own
    other = 'the %s of %s' % (OURS[row.touched], name(sheet, text, row.other))
    if not row.depth:
        return 'its %s begins where %s ends' % (own, other)
    ahead = 'its %s begins %s ahead of the end of %s' % (
        own, half_units(row.depth), other)
    if row.what == 'block':
        return '%s, which lies that deep on %s and may lie no deeper' % (
            ahead, resting_place(sheet, row.element))
    return '%s, lies that deep on %s and may lie no deeper' % (
        ahead, resting_place(sheet, row.other))


def reason(sheet, text, row):
    """Why an element stands where it does."""
    return '%s; one half unit nearer, rule %d would be broken' % (
        held(sheet, text, row), row.rule)


# ---------------------------------------------------------------------------
# What makes a gap
# ---------------------------------------------------------------------------

def past(sheet, text, row, pieces):
    """[(amount, words)]: how far the other's reading runs past its base."""
    side, boxes = SIDE_OF[row.touched], pieces[row.other].boxes
    amount = (answers.span(boxes[side.letter])[1]
              - answers.span(boxes['b'])[1])
    return [(amount, 'the %s of %s runs %d past its base' % (
        side.words, name(sheet, text, row.other), amount))]


def ahead(row, pieces):
    """[(amount, words)]: how far its own reading begins ahead of its base."""
    side = SIDE_OF[row.what]
    amount = row.at - pieces[row.element].boxes[side.letter][0].start
    return [(amount, 'its own %s begins %d ahead of its base' % (
        side.words, amount))]


def between(row, pieces):
    """[(amount, words)]: what stands between the two bases already."""
    other = answers.span(pieces[row.other].boxes['b'])[1]
    amount = row.at - row.gap - other
    if amount == 0:
        return []
    return [(-amount, '%d are between the two bases already' % amount)]


def parts(sheet, text, row, pieces):
    """[(amount, words)] whose sum is the gap."""
    found = []
    if row.touched in SIDE_OF:
        found += past(sheet, text, row, pieces)
    if row.what in SIDE_OF:
        found += ahead(row, pieces)
    if row.depth:
        found.append((-row.depth, '%d of it lie on the %s' % (
            row.depth, resting_place(sheet, row.element if row.what == 'block'
                                     else row.other).split(' ')[1])))
    if row.touched in SIDE_OF and row.what in SIDE_OF:
        found += between(row, pieces)
    return found


def summed(amounts):
    """`20 + 10 - 12`"""
    words = str(amounts[0])
    for amount in amounts[1:]:
        words += ' %s %d' % ('-' if amount < 0 else '+', abs(amount))
    return words


def listed(told):
    """`a, b and c`"""
    return ' and '.join(filter(None, [', '.join(told[:-1]), told[-1]]))


def gap_words(sheet, text, row, pieces):
    """What makes a gap: `30 = 20 + 10: the reading of ..`; '' for no gap.

    pieces are those of the line by their elements.  Where the amounts do not
    make up the gap that the account has, nothing is said.
    """
    if row.gap == 0:
        return ''
    found = parts(sheet, text, row, pieces)
    amounts = [amount for amount, _ in found]
    if sum(amounts) != row.gap:
        return ''
    equation = '%d = %s' % (row.gap, summed(amounts))
    return '%s: %s' % (equation if len(amounts) > 1 else row.gap,
                       listed([words for _, words in found]))


# ---------------------------------------------------------------------------
# What lies on an element
# ---------------------------------------------------------------------------

def depths(line, piece):
    """[(side, other element, start, end)]: the readings of others on its base.

    It is what the boxes share, as they stand in the result.
    """
    start, end = answers.span(piece.boxes['b'])
    found = []
    for other in line.pieces:
        for side in sheets.SIDES:
            if other is piece or side.letter not in other.boxes:
                continue
            first, last = answers.span(other.boxes[side.letter])
            if max(first, start) < min(last, end):
                found.append((side, other.element, max(first, start),
                              min(last, end)))
    return found


def depth_words(sheet, text, line, piece):
    """`10 of the reading of 16 lie on its blank`, where no row has said it."""
    said = {(row.touched, row.other) for row in piece.rows if row.depth}
    return ['%d of the %s of %s lie on %s' % (
        last - first, side.words, name(sheet, text, other),
        resting_place(sheet, piece.element))
        for side, other, first, last in depths(line, piece)
        if (side.account, other) not in said]


def told(sheet, text, line, piece):
    """(why it stands there, [what else there is to say]) of an element."""
    pieces = {other.element: other for other in line.pieces}
    why = '; '.join(reason(sheet, text, row) for row in piece.rows)
    more = [gap_words(sheet, text, row, pieces) for row in piece.rows]
    return why, (['the gap, ' + words for words in more if words]
                 + depth_words(sheet, text, line, piece))


def sentence(sheet, text, line, piece):
    """All that is said of an element of a line."""
    why, more = told(sheet, text, line, piece)
    return '%s: %s.' % (name(sheet, text, piece.element), '. '.join(
        [why] + [capital(words) for words in more]))
