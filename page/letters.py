"""The characters of a page: from a text file, or else the names of classes.

A text has the base characters on its first line, the ruby characters on its
second and the left ones on its third.  A combining mark or a variation
selector belongs to the character before it.
"""

import unicodedata

import sheets
from trouble import Trouble, printable

# JLReq's classes: a short name that goes into the box of a ruby character,
# and the name.
CLASSES = {
    1: ('open', 'opening bracket'), 2: ('close', 'closing bracket'),
    3: ('hyph', 'hyphen'), 4: ('!?', 'dividing mark'),
    5: ('dot', 'middle dot'), 6: ('stop', 'full stop'), 7: ('com', 'comma'),
    8: ('insep', 'inseparable character'), 9: ('iter', 'iteration mark'),
    10: ('long', 'prolonged sound mark'), 11: ('small', 'small kana'),
    12: ('pre', 'prefixed abbreviation'),
    13: ('post', 'postfixed abbreviation'), 14: ('space', 'space'),
    15: ('hira', 'hiragana'), 16: ('kata', 'katakana'),
    17: ('sym', 'math symbol'), 18: ('oper', 'math operator'),
    19: ('ideo', 'ideograph'), 24: ('num', 'grouped numeral'),
    25: ('unit', 'unit symbol'), 26: ('wsp', 'Western space'),
    27: ('West', 'Western letter')}

ORDER = ('b', 'r', 'l')
NAMES = {'b': 'base characters', 'r': 'ruby characters',
         'l': 'left ruby characters'}


def clusters(text):
    """The characters of a line, marks with what they stand on."""
    found = []
    for letter in text:
        if found and unicodedata.category(letter) in ('Mn', 'Mc', 'Me'):
            found[-1] += letter
        else:
            found.append(letter)
    return found


def decoded(content, name):
    """The lines of a text file.  Line ends may be those of Windows."""
    try:
        text = content.decode('utf-8-sig')
    except UnicodeDecodeError as error:
        raise Trouble('%s is not UTF-8: byte %d' % (name, error.start))
    rows = [row[:-1] if row.endswith('\r') else row
            for row in text.split('\n')]
    while len(rows) > len(ORDER) and rows[-1] == '':
        rows.pop()
    if len(rows) > len(ORDER):
        raise Trouble('%s has %d lines, and a text has at most three: base, '
                      'ruby and left characters' % (name, len(rows)))
    return rows + [''] * (len(ORDER) - len(rows))


def counts_of(sheet):
    """How many characters of each sort the sheet has."""
    counts = {'b': len(sheet.base)}
    for side in sheets.SIDES:
        counts[side.letter] = len(sheet.rubies.get(side.letter, ()))
    return counts


def read_text(content, file, sheet):
    """{'b', 'r' or 'l': its characters}, as many as the sheet has.

    A sheet that cannot be read (None) has no counts to hold the text to.
    """
    name, letters = 'the text %s' % printable(file), {}
    rows = decoded(content, name)
    for letter, row in zip(ORDER, rows):
        letters[letter] = clusters(row)
    if sheet is None:
        return letters
    for line, letter in enumerate(ORDER, 1):
        has, wants = len(letters[letter]), counts_of(sheet)[letter]
        if has != wants:
            raise Trouble('%s has too %s characters: line %d has %d, and the '
                          'sheet has %d %s' % (
                              name, 'few' if has < wants else 'many', line,
                              has, wants, NAMES[letter]))
    return letters


# ---------------------------------------------------------------------------
# What is shown
# ---------------------------------------------------------------------------

def shown(character):
    """A character as it can stand in a picture and do no harm.

    Blanks have a sign, control characters their pictures or the replacement
    character, and a mark without a character a circle to stand on.
    """
    first = character[0]
    category = unicodedata.category(first)
    if category == 'Zs':
        return '\u2423'
    if ord(first) < 0x20:
        return chr(0x2400 + ord(first))
    if category[0] in 'CZ':
        return '\u2421' if first == '\x7f' else '\ufffd'
    if category[0] == 'M':
        return '\u25cc' + character
    return character


def is_wide(character):
    """Whether it takes a square, as ideographs and kana do."""
    return unicodedata.east_asian_width(character[0]) in 'WF'


def class_name(cls):
    return CLASSES[cls][1] if cls in CLASSES else 'class %d' % cls


def short_name(cls):
    return CLASSES[cls][0] if cls in CLASSES else str(cls)
