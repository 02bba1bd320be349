"""Which elements of a page a correction moved, and by how much.

    bin/compare OLD.sheet NEW.sheet

Both sheets go through the setting program, and what is told comes from its
two results and from the text of the sheets.  No position is worked out here:
positions of the one result are taken from those of the other.

told(old, new, setting) gives the status and the text; setting is the command
of the setting program, bin/setting where nothing else is said.
"""

import collections
import os
import subprocess
import sys

ROOT = os.path.dirname(os.path.dirname(os.path.abspath(__file__)))
SETTING = [os.path.join(ROOT, 'bin', 'setting')]
LONGEST = 65536     # one byte more than a sheet may have

USAGE = """\
usage: bin/compare OLD.sheet NEW.sheet

Says what a correction of a page disturbed: line by line, which elements moved
and by how much. Both sheets are set by bin/setting, and their results are
compared.

  element 0 exchanged: M 3, now M 1
  line 1: elements 0 and 1 moved by -5, 2 by -9; ruby of element 0 moved by 5
  lines 2 to 7: as they were

Lines are counted from 1, elements from 0, as in the account; an element has
the number that it has on the new sheet. Amounts are half units: 5 is away
from the line's start, -5 is towards it. An element moves as its first base
character does; one that is not named stands where it stood. Where the breaks
of a line changed, the line tells which elements it has now.

  --help   this text

Status 0: nothing moved, the results are the same. 1: something moved. 2: not
compared: a sheet is refused (told on standard output, with its number and
place), or it could not be read or set (one line on standard error).
"""


class Trouble(Exception):
    """Why nothing can be compared, in one line."""


# ---------------------------------------------------------------------------
# A sheet and its result
# ---------------------------------------------------------------------------

# The sides of a reading: the letter of its lines in a result, and its name.
SIDES = (('r', 'ruby'), ('l', 'left ruby'))

# An element of a sheet: its own line, as form one has it where it has no left
# reading, and the lines of its characters.
Element = collections.namedtuple('Element', 'line base ruby left')

# A line of a result.
Line = collections.namedtuple('Line', 'extent pieces')

# A page that is set: the numbers of its set section by their names, the
# elements and the lines.
Page = collections.namedtuple('Page', 'numbers elements lines')

# A page that is not.
Refused = collections.namedtuple('Refused', 'number place')


class Piece:
    """An element in a line, or the part of a J that stands there."""

    def __init__(self, element, first):
        self.element = element      # its number
        self.first = first          # its first base character in the element
        self.base = []              # the positions in the line
        self.rubies = {letter: [] for letter, _ in SIDES}

    def end(self):
        return self.first + len(self.base)


def read_sections(rows):
    """{name: its lines} of a sheet that is set, so its form is sound.

    A sheet of form one has no section `left`.
    """
    sections, at = {'left': []}, 0
    while at < len(rows):
        name, count = rows[at].split(' ')
        sections[name] = rows[at + 1:at + 1 + int(count)]
        at += 1 + int(count)
    return sections


def read_numbers(rows):
    """The numbers of the set section; form one means 1:2:1 and profile 0."""
    em, measure, *rest = rows
    rest = rest or ['1', '2', '1', '1', '2', '1', '0']
    return {'em': em, 'measure': measure, 'ruby ratio': ':'.join(rest[:3]),
            'base ratio': ':'.join(rest[3:6]), 'profile': rest[6]}


def read_elements(sections):
    base, ruby, left = (sections[name] for name in ('base', 'ruby', 'left'))
    elements = []
    for row in sections['elem']:
        # Form two has an N where there is no left reading.
        row = row[:-len(' N')] if row.endswith(' N') else row
        bases, rubies, lefts = counts(row)
        elements.append(Element(row, base[:bases], ruby[:rubies],
                                left[:lefts]))
        base, ruby, left = base[bases:], ruby[rubies:], left[lefts:]
    return elements


def counts(row):
    """How many base, ruby and left characters an element takes, by its line.

    Behind the numbers of its own kind the line has the letter and the counts
    of a left reading, if it has one.
    """
    kind, *words = row.split(' ')
    letter = [at for at, word in enumerate(words) if word.isalpha()]
    own = [int(word) for word in words[:letter[0] if letter else len(words)]]
    lefts = sum(int(word) for word in words[letter[0] + 1:]) if letter else 0
    if kind == 'P':
        return 1, 0, 0
    if kind == 'M':
        return 1, own[0], lefts
    if kind == 'G':
        return own[0], own[1], lefts
    return own[0], sum(own[1:]), lefts


def read_lines(rows, elements):
    """The lines of a result: `line EXTENT`, `b INDEX POSITION`, `r`, `l ..`.

    The result goes element by element, base before readings, so a character
    of a reading belongs to the piece whose base characters came last.
    """
    owner = [(number, place) for number, element in enumerate(elements)
             for place in range(len(element.base))]
    lines = []
    for row in rows:
        word, *numbers = row.split(' ')
        numbers = [int(number) for number in numbers]
        if word == 'line':
            lines.append(Line(numbers[0], []))
            continue
        pieces, (index, position) = lines[-1].pieces, numbers
        if word != 'b':
            pieces[-1].rubies[word].append(position)
            continue
        number, place = owner[index]
        if not pieces or pieces[-1].element != number:
            pieces.append(Piece(number, place))
        pieces[-1].base.append(position)
    return lines


def read_page(sheet, answer):
    """Page or Refused, from a sheet and what the setting program wrote."""
    rows = answer.decode('ascii').split('\n')
    if rows.pop() != '':
        raise ValueError('the last line has no end')
    head, *numbers = rows[0].split(' ')
    numbers = [int(number) for number in numbers]
    if head == 'refused' and len(rows) == 1:
        return Refused(*numbers)
    sections = read_sections(sheet.decode('ascii').split('\n')[:-1])
    elements = read_elements(sections)
    lines = read_lines(rows[1:], elements)
    if head != 'lines' or numbers != [len(lines)]:
        raise ValueError('not all lines are there')
    return Page(read_numbers(sections['set']), elements, lines)


def set_sheet(file, setting):
    """The page of a sheet's file."""
    try:
        with open(file, 'rb') as opened:
            sheet = opened.read(LONGEST)
    except (OSError, ValueError) as error:
        raise Trouble('cannot read %s: %s' % (printable(file), reason(error)))
    try:
        done = subprocess.run(setting, input=sheet, stdout=subprocess.PIPE)
    except OSError as error:
        raise Trouble('cannot run %s: %s' % (setting[0], reason(error)))
    # 0 is set, 1 is refused; a program that has no status of its own for a
    # refusal ends with 0 too.
    if done.returncode not in (0, 1):
        raise Trouble('%s could not be set (%s ended with status %d)'
                      % (printable(file), setting[0], done.returncode))
    try:
        return read_page(sheet, done.stdout)
    except (ValueError, LookupError, TypeError):
        raise Trouble('%s: %s gave no whole answer'
                      % (printable(file), setting[0]))


def reason(error):
    return getattr(error, 'strerror', None) or str(error)


def printable(name):
    """A name as it can stand in one line of text."""
    return ''.join(letter if letter.isprintable() else '?'
                   for letter in name) or "''"


# ---------------------------------------------------------------------------
# Words
# ---------------------------------------------------------------------------

def span(first, last):
    """`3`, `3 and 4` or `3 to 9`."""
    if first == last:
        return '%d' % first
    return '%d %s %d' % (first, 'and' if last == first + 1 else 'to', last)


def named(what, first, last):
    """`element 3`, `elements 3 and 4` or `elements 3 to 9`."""
    return '%s%s %s' % (what, '' if first == last else 's', span(first, last))


def runs(numbers):
    """[(first, last)] of the runs of numbers that follow one another."""
    found = []
    for number in numbers:
        if found and found[-1][1] == number - 1:
            found[-1] = (found[-1][0], number)
        else:
            found.append((number, number))
    return found


# ---------------------------------------------------------------------------
# The sheets: which elements were exchanged, put in or taken out
# ---------------------------------------------------------------------------

def alike(old, new):
    """How many elements from the first on are the same."""
    count = 0
    while count < min(len(old), len(new)) and old[count] == new[count]:
        count += 1
    return count


def matched(old, new):
    """For each element of the new sheet the number of the old one, or None.

    Sheets with as many elements are matched place by place.  Where the counts
    differ, what is the same from the first element on is matched, then what
    is the same from the last one back; between them elements were put in or
    taken out.
    """
    if len(old) == len(new):
        return list(range(len(new)))
    front = alike(old, new)
    back = alike(old[front:][::-1], new[front:][::-1])
    between = len(new) - front - back
    return (list(range(front)) + [None] * between
            + list(range(len(old) - back, len(old))))


def exchanged_words(old, new):
    """The elements that differ, of sheets with as many elements."""
    for first, last in runs([number for number in range(len(new))
                             if old[number] != new[number]]):
        words = '%s exchanged' % named('element', first, last)
        if first == last and old[first].line != new[first].line:
            words += ': %s, now %s' % (old[first].line, new[first].line)
        elif first == last:
            words += ': %s with other characters' % new[first].line
        yield words


def count_words(old, new, match):
    """What was put in or taken out, of sheets whose counts differ."""
    put = [number for number, other in enumerate(match) if other is None]
    kept = set(match)
    taken = [number for number in range(len(old)) if number not in kept]
    words = []
    if put and taken:
        words.append('%s exchanged for %s' % (
            named('element', taken[0], taken[-1]), span(put[0], put[-1])))
    elif put:
        words.append('%s put in' % named('element', put[0], put[-1]))
    else:
        words.append('%s taken out' % named('element', taken[0], taken[-1]))
    after = [number for number, other in enumerate(match)
             if other is not None and other != number]
    if after:
        words.append('element %d was %d%s' % (
            after[0], match[after[0]], ', and so on' if after[1:] else ''))
    yield '; '.join(words)


def sheet_words(old, new, match):
    """What differs between the sheets."""
    for name, was in old.numbers.items():
        if was != new.numbers[name]:
            yield '%s %s, now %s' % (name, was, new.numbers[name])
    if len(old.elements) == len(new.elements):
        yield from exchanged_words(old.elements, new.elements)
    else:
        yield from count_words(old.elements, new.elements, match)


# ---------------------------------------------------------------------------
# The results: which lines have kept their breaks, and what moved in them
# ---------------------------------------------------------------------------

def places(page, line, number_of):
    """What stands in a line, for the comparison of breaks.

    For each piece of a matched element: the element, and from where to where
    it is cut.  number_of gives an element's number on the old sheet, None if
    it was put in or taken out.
    """
    found = []
    for piece in line.pieces:
        number = number_of(piece.element)
        if number is not None:
            whole = len(page.elements[piece.element].base)
            end = piece.end()
            found.append((number, piece.first, None if end == whole else end))
    return tuple(found)


def paired_lines(old, new, match):
    """For each line of the new page the old one with the same breaks, or None.

    A line has kept its breaks if the elements that both sheets have are the
    same in it, and are cut at the same places.
    """
    kept = set(match)
    by_places = {}
    for index, line in enumerate(old.lines):
        here = places(old, line, lambda number: (
            number if number in kept else None))
        if here:
            by_places[here] = index
    return [by_places.get(places(new, line, match.__getitem__))
            for line in new.lines]


def pairs_of(old_line, new_line, match):
    """(old piece, new piece) of the matched elements of a pair of lines."""
    by_element = {piece.element: piece for piece in old_line.pieces}
    return [(by_element[match[piece.element]], piece)
            for piece in new_line.pieces if match[piece.element] is not None]


def amount(old, new):
    """How far an element moved: its first base character."""
    return new.base[0] - old.base[0]


def moved_words(pairs):
    """`elements 12 and 13 moved by 10, 14 to 20 by 4`; at most one."""
    groups = []     # [first, last, amount] of elements that follow each other
    for old, new in pairs:
        by, number = amount(old, new), new.element
        if groups and groups[-1][1:] == [number - 1, by]:
            groups[-1][1] = number
        else:
            groups.append([number, number, by])
    groups = [group for group in groups if group[2] != 0]
    if groups:
        first, last, by = groups[0]
        words = ['%s moved by %d' % (named('element', first, last), by)]
        words += ['%s by %d' % (span(first, last), by)
                  for first, last, by in groups[1:]]
        yield ', '.join(words)


def own_words(old, new):
    """What moved otherwise than the element's first base character."""
    by, number = amount(old, new), new.element
    words = [side_words(number, name, old.rubies[letter], new.rubies[letter],
                        by) for letter, name in SIDES]
    if any(words):
        yield from filter(None, words)
    elif any([position + by for position in was] != now for was, now in zip(
            (old.base, *old.rubies.values()),
            (new.base, *new.rubies.values()))):
        yield 'element %d is set otherwise within itself' % number


def side_words(number, name, old, new, by):
    """What a reading does otherwise than its base, which moved by `by`."""
    if new and not old:
        return 'element %d has %s now' % (number, name)
    if old and not new:
        return 'element %d has no %s now' % (number, name)
    if old and new[0] - old[0] != by:
        ruby_by = new[0] - old[0]
        return '%s of element %d %s' % (
            name, number, 'moved by %d' % ruby_by if ruby_by != 0 else 'stayed')
    return None


def line_words(old_line, new_line, match):
    """What moved in a line that has kept its breaks; '' if nothing did."""
    pairs = pairs_of(old_line, new_line, match)
    words = list(moved_words(pairs))
    for old, new in pairs:
        words += own_words(old, new)
    if old_line.extent != new_line.extent:
        words.append('extent %d, now %d' % (old_line.extent, new_line.extent))
    both = (len(old_line.pieces), len(new_line.pieces))
    if not words and both != (len(pairs), len(pairs)):
        words.append('nothing else moved')  # than what was put in, taken out
    return '; '.join(words)


def part_words(piece, whole):
    """A part of a J in a line."""
    count = len(piece.base)
    which = ('first ' if piece.first == 0 else
             'last ' if piece.end() == whole else 'next ')
    return 'the %s%s of element %d' % (
        which, 'character' if count == 1 else '%d characters' % count,
        piece.element)


def broken_words(page, line):
    """Which elements stand in a line whose breaks changed."""
    words, whole = [], []       # whole: elements not yet named

    def name_whole():
        words.extend(named('element', *run) for run in runs(whole))
        whole.clear()

    for piece in line.pieces:
        size = len(page.elements[piece.element].base)
        if len(piece.base) == size:
            whole.append(piece.element)
        else:
            name_whole()
            words.append(part_words(piece, size))
    name_whole()
    return 'its breaks changed; it now has %s' % ', '.join(words)


def unchanged_words(first, last, before):
    """Lines that are as they were; before is the old line of the first."""
    here = named('line', first, last)
    if first == before:
        return '%s: %s' % (here, 'as it was' if first == last
                           else 'as they were')
    return '%s: as %s %s' % (here, named('line', before,
                                         before + last - first),
                             'was' if first == last else 'were')


def page_words(old, new, match):
    """(whether something moved, its words) for each line or run of lines.

    Lines are counted from 1 here.
    """
    same = None     # (first, last, old line of the first), as they were
    for number, pair in enumerate(paired_lines(old, new, match), 1):
        words = (broken_words(new, new.lines[number - 1]) if pair is None else
                 line_words(old.lines[pair], new.lines[number - 1], match))
        before = number if pair is None else pair + 1
        if words == '' and same and number - before == same[0] - same[2]:
            same = (same[0], number, same[2])
            continue
        if same:
            yield same[0] != same[2], unchanged_words(*same)
        same = None if words else (number, number, before)
        if words:
            yield True, 'line %d%s: %s' % (
                number, '' if number == before
                else ' (line %d before)' % before, words)
    if same:
        yield same[0] != same[2], unchanged_words(*same)


def compared(old, new):
    """(whether something moved, rows of text) for two pages that are set."""
    match = matched(old.elements, new.elements)
    rows = list(sheet_words(old, new, match))
    moved = len(old.elements) != len(new.elements)
    if len(old.lines) != len(new.lines):
        moved = True
        rows.append('lines %d, now %d' % (len(old.lines), len(new.lines)))
    for changed, words in page_words(old, new, match):
        moved = moved or changed
        rows.append(words)
    return moved, rows


# ---------------------------------------------------------------------------
# The command
# ---------------------------------------------------------------------------

def told(old, new, setting=None):
    """(status, text) for the files of two sheets."""
    files = (('old', old), ('new', new))
    pages = [set_sheet(file, setting or SETTING) for _, file in files]
    refused = ['the %s sheet, %s, is refused: number %d, place %d'
               % (which, printable(file), page.number, page.place)
               for (which, file), page in zip(files, pages)
               if isinstance(page, Refused)]
    if refused:
        return 2, ''.join(row + '\n' for row in refused)
    moved, rows = compared(*pages)
    if not rows:
        rows = ['no lines, before and now']
    return (1 if moved else 0), ''.join(row + '\n' for row in rows)


def chosen(arguments):
    """The two files; None where help is asked for."""
    files, options = [], True
    for word in arguments:
        if options and word == '--':
            options = False
        elif options and word in ('--help', '-h'):
            return None
        elif options and word.startswith('-'):
            raise Trouble('unknown option %s (bin/compare --help says how it '
                          'is used)' % printable(word))
        else:
            files.append(word)
    if len(files) != 2:
        raise Trouble('two sheets are compared, and here %s %d (bin/compare '
                      '--help says how it is used)'
                      % ('is' if len(files) == 1 else 'are', len(files)))
    return files


def is_closed(number):
    try:
        os.fstat(number)
    except OSError:
        return True
    return False


def write(number, text):
    """All of the text to standard output (1) or standard error (2)."""
    left = text.encode('utf-8', 'replace')
    while left:
        left = left[os.write(number, left):]


def answer(arguments):
    """The exit status, with the text written."""
    if is_closed(1):
        raise Trouble('standard output is closed')
    files = chosen(arguments)
    status, text = (0, USAGE) if files is None else told(*files)
    try:
        write(1, text)
    except OSError as error:
        raise Trouble('the answer cannot be written to standard output: %s'
                      % reason(error))
    return status


def main(arguments):
    """The exit status."""
    try:
        return answer(arguments)
    except Trouble as trouble:
        try:
            write(2, 'compare: %s\n' % trouble)
        except OSError:
            pass    # nobody hears it; the status tells
        return 2


if __name__ == '__main__':
    sys.exit(main(sys.argv[1:]))
