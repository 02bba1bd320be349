"""What a refusal means, in the manual's words, and where its place is.

The table says of each number what docs/MANUAL.md says of it under
"Refusals"; the tests hold the two together.
"""

import collections

import letters

# The number's meaning, what its place is, and what to say to a customer.
Meaning = collections.namedtuple('Meaning', 'meaning place say')

MEANINGS = {
    1: Meaning(
        'the em is odd, or the em or the measure is out of range',
        '0 the em, 1 the measure',
        'The character size has to be an even number from 2 to 4,096 and the '
        'measure a number from 1 to 4,000,000; please look at line 2 of your '
        'sheet (place 0) or line 3 (place 1).'),
    2: Meaning(
        'a count is over its maximum',
        '0 base, 1 ruby, 2 elements, 3 left',
        'This job is too large for one sheet: please split it, so that each '
        'has at most 1,024 base characters, 2,048 ruby characters, 2,048 left '
        'characters and 1,024 elements.'),
    3: Meaning(
        'a class, width or flag is not accepted',
        'the base character; 1,024 + index for a ruby character, 3,072 + '
        'index for a left one',
        "One character has a class, width or flag that we don't know: classes "
        'are 1 to 19 and 24 to 27, widths 1 to 4,096, flags 0 or 1; it is the '
        'one that the place counts to, from 0.'),
    4: Meaning(
        "the blanks don't go with the class, or exceed the width",
        'the base character',
        "This character can't have that blank: only opening brackets have one "
        'before, closing brackets, full stops and commas one after, middle '
        "dots both, and never more than the character's width."),
    5: Meaning(
        "an element's counts are out of range (through the library also: its "
        'kind or its left kind is unknown)',
        'the element',
        'This word has too few or too many characters: every reading has 1 to '
        '64 ruby characters, every group or jukugo 1 to 32 base characters, '
        'and every character of a jukugo at least one ruby character.'),
    6: Meaning(
        'the characters run out, or some are left over',
        'the element that finds too few; left over: the number of elements',
        "The elements don't add up to the characters: please count again from "
        'the element at the place, or, if the place is the number of '
        'elements, look for characters that no element takes.'),
    7: Meaning(
        'a blank field is not 0 inside M, G or J',
        'the element',
        'Punctuation with a blank stands inside a word with a reading; please '
        'make it a plain element of its own, or set its blank to 0.'),
    8: Meaning(
        'a base character of a J is not kana-like or not one em wide',
        'the element',
        'Every character of a jukugo word has to be a Japanese character of '
        "exactly the em's width; please set the word as a group instead."),
    9: Meaning(
        'class 26, or Western and kana-like mixed, in the base, in the ruby '
        'or in the left characters of G or J',
        'the element',
        'The word, or its reading, mixes Western letters and Japanese '
        'characters, or has a Western space in it; please split it into words '
        'of one kind.'),
    10: Meaning(
        'Western ruby, or Western left characters, over Western base in a G',
        'the element',
        "A reading in Western letters can't stand over a word in Western "
        'letters as a group.'),
    11: Meaning(
        'no permitted break gives a line that can be set',
        'the first base character of that line',
        'From this character on, nothing up to the next place where a line '
        'may end fits the measure; please widen the measure or permit a break '
        'sooner.'),
    12: Meaning('a result list is too short', '0', ''),
    13: Meaning(
        'the text of the sheet breaks its form',
        'the line of the sheet, from 1; 0 if it is over 65,535 bytes',
        "The line of your sheet that the place names isn't in the form we "
        'read: please look for double spaces, tabs, Windows line ends, '
        'leading zeros, a wrong count above it, or a last line without its '
        'line end; at place 0 the file is too long.'),
    15: Meaning(
        'a ratio has a number over 7, or all three are 0',
        '0 the ruby ratio, 1 the base ratio',
        "Each of a ratio's three numbers has to be from 0 to 7, and they "
        "can't all be 0."),
    16: Meaning(
        'the element does not take a left reading of this kind',
        'the element',
        'A gloss is mono on a mono word, group on a group, and mono, jukugo '
        'or group on a jukugo; a plain character has none.'),
    17: Meaning(
        "form one can't hold this sheet of form two (bin/convert alone)",
        'the first line at fault, from 1: of the ratios 4 to 9, of the '
        'profile 10; for a left reading the line of `left`',
        'This sheet has something that the old form has no place for: another '
        'ratio than 1:2:1, another profile than 0, or a left reading; please '
        'keep it in form two, or take that out first.'),
    20: Meaning(
        'the profile is over 1', '0',
        'The profile has to be 0, or 1 for readings that may lie on kana.')}

# Where the places of the characters of each side's readings begin (number 3):
# their section, what they are called, their letter.
RUBY_PLACES = ((3072, 'left', 'left character', 'l'),
               (1024, 'ruby', 'ruby character', 'r'))


# What a place names, for the numbers whose places are few.
NAMED = {
    1: ('the em', 'the measure'),
    2: ('the count of base characters', 'the count of ruby characters',
        'the count of elements', 'the count of left characters'),
    15: ('the ruby ratio', 'the base ratio'),
    20: ('the profile',)}

# The places of 2 in the order of the sections, by the first line of the form.
COUNTED = {'set 2': (0, 1, 2), 'set 9': (0, 1, 3, 2)}


# ---------------------------------------------------------------------------
# Where a place is on the sheet
# ---------------------------------------------------------------------------

def count_line(rows, place):
    """The line of a count that is over its maximum (number 2).

    The sections above it are sound; so each is found from the one before.  In
    form two those with the places 0, 1, 3 and 2 follow each other.
    """
    at = 0
    for _ in range(COUNTED[rows[0]].index(place) + 1):
        at += 1 + int(rows[at].split(' ')[1])
    return at + 1


def ratio_line(sheet, place):
    """The line of the first number over 7 of a ratio, or of its first."""
    first = 2 + 3 * place
    over = [at for at in range(first, first + 3) if sheet.numbers[at] > 7]
    return 2 + (over or [first])[0]


def in_section(sheet, name, index):
    section = sheet.sections[name]
    return section.head + 1 + index if index < len(section.rows) else None


def line_on_sheet(refused, rows, sheet):
    """The line of the sheet, from 1, that a place means; None for none.

    sheet is None where the form is not sound, and only then is the number 2
    or 13.
    """
    number, place = refused.number, refused.place
    if number == 13:
        return place if 0 < place <= len(rows) else None
    if number == 2:
        return count_line(rows, place)
    if sheet is None:
        return None
    if number == 1:
        return 2 + place
    if number == 15:
        return ratio_line(sheet, place)
    if number == 20:
        return 10
    if number == 3:
        for first, name, _, _ in RUBY_PLACES:
            if place >= first:
                return in_section(sheet, name, place - first)
    if number in (3, 4, 11):
        return in_section(sheet, 'base', place)
    return in_section(sheet, 'elem', place)


def place_words(refused, line, sheet, text):
    """`place 2: the base character 2 (努), line 7 of the sheet`."""
    number, place = refused.number, refused.place
    if number == 13:
        return ('line %d of the sheet' % place if place
                else 'the whole sheet: it is over 65,535 bytes')
    if number in NAMED:
        of = NAMED[number]
        told = of[place] if place < len(of) else 'place %d' % place
    elif number in (3, 4, 11):
        told = character_words(number, place, text)
    elif sheet is not None and place == len(sheet.elements):
        told = 'the end of the elements: some characters are left over'
    else:
        told = 'element %d' % place
    return told + (', line %d of the sheet' % line if line else '')


def character_words(number, place, text):
    """The character that a place means, by number 3, 4 or 11."""
    if number == 3:
        for first, _, what, letter in RUBY_PLACES:
            if place >= first:
                return named(what, text, letter, place - first)
    return named('base character', text, 'b', place)


def named(what, text, letter, index):
    """`base character 2`, with the character where there is a text."""
    if text is None or index >= len(text[letter]):
        return '%s %d' % (what, index)
    return '%s %d (%s)' % (what, index, letters.shown(text[letter][index]))
