"""Sheets of form two (R-6) from a seed, among those of form one.

    python3 generate_two.py SEED COUNT    writes COUNT framed sheets

Half of the sheets are those of generate.py.  The others are of form two: jobs
with left readings, ratios and a profile, the jobs of generated sheets of form
one, what the converter can take back and what it can't, and damaged texts.  As
in generate.py only randrange and choice are used.
"""

import os
import random
import sys

sys.path.insert(0, os.path.dirname(os.path.abspath(__file__)))

import generate     # noqa: E402  (found through the path set above)
import generate_left    # noqa: E402
import generate_lists   # noqa: E402
import second       # noqa: E402
from generate import TOO_BIG, pick  # noqa: E402
from second import G, J, M, N, P  # noqa: E402


# ---------------------------------------------------------------------------
# Writing a job down
# ---------------------------------------------------------------------------

def text_two(em, measure, ratios, profile, given, left):
    """A sheet of form two from a job in lists, as far as a sheet can say it.

    Runs that its lists lack are written as 0; what they have more is not.
    """
    count = min(map(len, (*given[7:10], *left[2:4])))
    runs, left_runs = list(given[10]), list(left.left_runs)
    lines = ['set 9', em, measure, *ratios[0], *ratios[1], profile]
    for name, lists in (('base', given[:5]), ('ruby', given[5:7]),
                        ('left', left[:2])):
        rows = list(zip(*lists))
        lines += ['%s %d' % (name, len(rows))]
        lines += [' '.join(map(str, row)) for row in rows]
    lines.append('elem %d' % count)
    for place in range(count):
        lines.append(' '.join(map(str, element_row(
            given[7][place], given[8][place], given[9][place], runs,
            left.left_kind[place], left.elem_left[place], left_runs))))
    return ''.join('%s\n' % line for line in lines).encode('ascii')


def taken(runs, count):
    """The first runs, which are taken away."""
    own = (runs[:count] + [0] * count)[:min(count, 64)]
    del runs[:count]
    return own


def element_row(kind, base, ruby, runs, left_kind, left_count, left_runs):
    if kind == P:
        return ['P']
    row = {M: ['M', ruby], G: ['G', base, ruby]}.get(kind)
    if row is None:
        row = ['J', base, *taken(runs, base)]
    if left_kind == N or left_kind not in (M, G, J):
        return row + ['N']
    if left_kind == G or (kind, left_kind) == (M, M):
        return row + [chr(left_kind), left_count]
    return row + [chr(left_kind), *taken(left_runs, 1 if kind == M else base)]


# ---------------------------------------------------------------------------
# Sheets of form two
# ---------------------------------------------------------------------------

def some_ratios(rng):
    """Mostly sound; 1:2:1, 2:4:2 and the shoulder-set one among them."""
    return tuple(pick(rng, (6, (1, 2, 1)), (2, (0, 0, 1)), (1, (2, 4, 2)),
                      (8, rng.choice(generate_lists.SOUND)),
                      (1, rng.choice(generate_lists.BAD)),
                      (1, (1, 2, rng.choice((8, 256, TOO_BIG)))))
                 for _ in range(2))


def some_profile(rng):
    return pick(rng, (5, 0), (4, 1), (1, rng.choice((2, 256, TOO_BIG))))


def with_left(rng):
    """A job with left readings, sound or spoilt."""
    em, measure, given = generate_lists.read_job(rng)
    em, measure, given, left = generate_left.with_left_readings(
        rng, em, measure, given)
    ratios = generate_left.some_ratios(rng, some_ratios(rng))
    return text_two(em, measure, ratios, some_profile(rng), given, left)


def lines_of(text):
    return text.split(b'\n')[:-1]


def joined(lines):
    return b''.join(line + b'\n' for line in lines)


def without_left(rng):
    """The job of a sheet of form one, by other ratios or as it is."""
    em, measure, given = generate_lists.read_job(rng)
    count = min(map(len, given[7:10]))
    left = second.Left([], [], [N] * count, [0] * count, [])
    plain = rng.randrange(3) > 0
    return text_two(
        em, measure, second.ONE_TWO_ONE if plain else some_ratios(rng),
        0 if plain else some_profile(rng), given, left)


def one_line_off(rng):
    """What form one could hold, but for a line or two (17)."""
    em, measure, given = generate_lists.read_job(rng)
    count = min(map(len, given[7:10]))
    left = second.Left([], [], [N] * count, [0] * count, [])
    lines = lines_of(text_two(em, measure, second.ONE_TWO_ONE, 0, given,
                              left))
    for _ in range(rng.choice((1, 1, 2))):
        way = rng.randrange(4)
        if way < 2:
            at = 3 + rng.randrange(7)
            lines[at] = b'%d' % rng.choice((0, 1, 2, 3, 4, 7, 8, TOO_BIG))
        elif way == 2:
            # A left character without a letter.
            head = lines.index(b'left 0') if b'left 0' in lines else None
            if head is not None:
                lines[head:head + 1] = [b'left 1', b'15 5']
        else:
            # A letter without characters.
            words = [at for at, line in enumerate(lines)
                     if line.endswith(b' N')]
            if words:
                at = rng.choice(words)
                lines[at] = lines[at][:-1] + b'G 1'
    return joined(lines)


def change_letter(rng, text):
    """The left letter of an element line, or its counts, otherwise."""
    lines = lines_of(text)
    elem = [at for at, line in enumerate(lines) if line[:5] == b'elem ']
    if not elem or elem[0] + 1 >= len(lines):
        return text
    way = rng.randrange(14)
    places = list(range(elem[0] + 1, len(lines)))
    if way in (8, 9, 10):
        # Where there is no left reading.
        places = [at for at in places if lines[at].endswith(b' N')] or places
    elif way > 11:
        # Where a J has left counts.
        places = [at for at in places if lines[at][:2] == b'J '
                  and lines[at][-1:].isdigit()] or places
    at = rng.choice(places)
    fields = lines[at].split(b' ')
    if way == 0:
        fields = fields + [b'N']
    elif way == 1:
        fields = fields[:-1]
    elif way == 2:
        fields = fields + [b'1']
    elif way == 3:
        fields = [b'N' if field in (b'M', b'G', b'J') and place > 0
                  else field for place, field in enumerate(fields)]
    elif way == 4:
        fields = [rng.choice((b'M', b'G', b'J', b'P', b'K', b'n', b'0', b''))
                  if field.isalpha() and place > 0 else field
                  for place, field in enumerate(fields)]
    elif way == 5:
        fields = rng.choice((
            b'P N', b'P', b'K 1 5', b'K 2 5', b'K 1 5 N', b'M 1', b'M 1 M',
            b'M 1 M 1', b'M 1 M 1 1',
            b'M 1 J 1', b'M 1 G 1', b'M 1 G 0', b'M 1 N 0', b'M N', b'N',
            b'G 2 3 M 1', b'G 2 3 M 1 1', b'G 2 3 G 1', b'G 2 3 G 1 1',
            b'G 0 1 M', b'G 0 1 J', b'G 2 3 J 2 1 1', b'J 2 1 1 J 2 1 1',
            b'J 2 1 1 J 1 1', b'J 2 1 1 M 1', b'J 2 1 1 M 1 1', b'J 2 1 1',
            b'J 2 1 1 G 1', b'J 2 1 1 N', b'J 2 1 N 1', b'J 0 N', b'J 33 N',
            b'J 2 1 1 1 N', b'J 2 1 1 G 1 1', b'J 2 1 1 J 1 01')).split(b' ')
    elif way == 6:
        fields[-1] = rng.choice((b'0', b'1', b'64', b'65', b'4294967295',
                                 b'4294967296', b'01', b'x'))
    elif way == 7:
        fields = fields[:1] + [field for field in fields[1:]
                               if not field.isalpha()]
    elif way in (8, 9):
        # Another letter for none.
        other = rng.choice((b'P', b'P', b'n', b'n', b'0', b'N 0'))
        fields = fields[:1] + [other if field == b'N' else field
                               for field in fields[1:]]
    elif way == 10:
        fields.insert(rng.randrange(len(fields) + 1),
                      rng.choice((b'', b'1', b'M', b'N')))
    elif way > 11 and fields[0] == b'J' and len(fields) > 2:
        # The b of the J ahead of its left counts.
        letter = max(k for k, field in enumerate(fields) if field.isalpha())
        fields.insert(letter + 1, fields[1])
    else:
        # An element that no sheet has yet, or a left letter.
        fields = rng.choice((b'K 1 5', b'K 2 5', b'M 1 K 1', b'G 1 1 K 1',
                             b'J 1 1 K 1')).split(b' ')
    lines[at] = b' '.join(fields)
    return joined(lines)


def change_left_section(rng, text):
    """The `left` section misplaced, miscounted, or not there."""
    lines = lines_of(text)
    # A text that was changed before may lack a section's line, or its count.
    heads = {line[:5]: at for at, line in enumerate(lines)
             if line[:5] in (b'ruby ', b'left ', b'elem ')
             and line[5:].isdigit()}
    if len(heads) < 3:
        return text
    at = heads[b'left ']
    count = int(lines[at][5:])
    way = rng.randrange(7)
    if way == 0:
        del lines[at]
    elif way == 1:
        # Ahead of the ruby section.
        ruby = heads[b'ruby ']
        part = lines[at:at + 1 + count]
        del lines[at:at + 1 + count]
        lines[ruby:ruby] = part
    elif way == 2:
        lines[at] = rng.choice((b'left 2048', b'left 2049', b'left 2049',
                                b'left 1025', b'left 1025', b'left 4294967295',
                                b'left 4294967296', b'left 2049 x'))
    elif way == 3:
        lines[at] = rng.choice((b'left', b'left ', b'left 00', b'Left 0',
                                b'ruby 0', b'right 0'))
    elif way == 4:
        lines[at] = b'left %d' % (count + 1)
    elif way == 5:
        # Both counts over their maximum: the one that is met first.
        lines[at] = b'left 2049'
        lines[heads[b'elem ']] = b'elem 1025'
    else:
        lines.append(lines.pop(at))
    return joined(lines)


def change_set_section(rng, text):
    lines = lines_of(text)
    way = rng.randrange(6)
    if way == 0:
        lines[0] = rng.choice((b'set 2', b'set 8', b'set 10', b'set 09',
                               b'set 3', b'set', b'set 9 '))
    elif way == 1:
        del lines[1 + rng.randrange(9)]
    elif way == 2:
        lines.insert(1 + rng.randrange(10), b'1')
    elif way == 3:
        at = 3 + rng.randrange(6)
        lines[at:at + 3] = [b' '.join(lines[at:at + 3])]
    elif way == 4:
        lines[3 + rng.randrange(7)] = rng.choice((
            b'', b'x', b'01', b'-1', b'4294967296', b'4294967295', b'8'))
    else:
        lines[3:6], lines[6:9] = lines[6:9], lines[3:6]
    return joined(lines)


def small(rng):
    """A sound job of one to three elements, so that damage hits its lines."""
    words = []
    for _ in range(1 + rng.randrange(3)):
        word = generate_left.small_word(rng)
        words.append(pick(rng, (4, word), (3, (*word[:3], N, [])),
                          (2, (P, 1, [], N, []))))
    given, left = generate_left.built(words, 10, lambda: 5, lambda: 5)
    return text_two(10, rng.choice((20, 30, 1000)), second.ONE_TWO_ONE, 0,
                    given, left)


def damaged(rng):
    """A text of form two with something wrong, mostly of its own form."""
    text = rng.choice((small, small, small, with_left, without_left))(rng)
    if rng.randrange(5) == 0:
        return generate.damage(rng, text)
    for _ in range(rng.choice((1, 1, 1, 2))):
        text = pick(rng, (6, change_letter), (4, change_left_section),
                    (2, change_set_section))(rng, text)
    return text


def more_than_form_one(rng):
    """A sheet of form one with something that form one does not have."""
    lines = lines_of(generate.tiny_draft(rng).text())
    elem = [at for at, line in enumerate(lines) if line[:5] == b'elem '][0]
    way = rng.randrange(5)
    if way == 0 and elem + 1 < len(lines):
        at = elem + 1 + rng.randrange(len(lines) - elem - 1)
        lines[at] = b'K 1 5'
    if way in (1, 2):
        lines[elem + 1:] = [line if line == b'P' else line + b' N'
                            for line in lines[elem + 1:]]
    if way in (2, 3):
        lines.insert(elem, b'left 0')
    if way == 4:
        lines[3:3] = [b'1', b'2', b'1', b'1', b'2', b'1', b'0']
    return joined(lines)


def exact_length(rng):
    """A sheet of sound form with 65,534 to 65,537 bytes, mostly of runs."""
    size = rng.choice((65534, 65535, 65535, 65536, 65536, 65537))
    head = [b'set 9', b'10', b'100', b'1', b'2', b'1', b'1', b'2', b'1', b'0',
            b'base 0', b'ruby 0', b'left 0']
    row = b'J 32' + b' 1' * 32 + b' J' + b' 1' * 32
    length = len(joined(head)) + len(b'elem 999\n')
    count = (size - length) // (len(row) + 1)
    left = size - length - count * (len(row) + 1) - (
        len(b'%d' % count) - 3)
    rows = [row] * count
    # Longer numbers fill what is left: at most 9 more digits in each run.
    fields = rows[0].split(b' ')
    for place in range(2, 34):
        digits = min(left, 9)
        fields[place] = b'%d' % 10 ** digits
        left -= digits
    rows[0] = b' '.join(fields)
    return joined(head + [b'elem %d' % count] + rows)


def many_counts(rng):
    """One line with more left counts than any element that is accepted.

    A left M or J has as many as its element has base characters, and b of a
    G is free in form: up to the 32,700 for which a sheet has room.
    """
    b = rng.choice((32, 33, 64, 65, 1000, 32000, 32700, 32760, TOO_BIG))
    counts = rng.choice((b, b, b, b - 1, b + 1, 1))
    if counts > 33000:
        counts = 33000
    return joined([b'set 9', b'10', b'100', b'1', b'2', b'1', b'1', b'2', b'1',
                   b'0', b'base 0', b'ruby 0', b'left 0', b'elem 1',
                   b'G %d 1 %s' % (b, rng.choice((b'M', b'J')))
                   + b' 1' * counts])


def form_two(rng):
    return pick(rng, (10, with_left), (5, without_left), (3, one_line_off),
                (1, small), (6, damaged), (1, more_than_form_one))(rng)


# ---------------------------------------------------------------------------
# The mixture
# ---------------------------------------------------------------------------

def one_sheet(rng):
    return pick(rng, (300, generate.one_sheet), (300, form_two),
                (1, exact_length), (1, many_counts))(rng)


def sheets(seed, count):
    """The first count sheets of a seed, as bytes."""
    rng = random.Random(seed)
    for _ in range(count):
        yield one_sheet(rng)


def dense(rng):
    """Long readings side by side, on both sides; sound, or just too long."""
    em, measure, _, _, *given, _ = second.read_sheet(generate.dense(rng))
    _, measure, left = generate_left.sound_left(rng, em, measure, given)
    ratios = tuple(rng.choice(((1, 2, 1), (1, 2, 1), (0, 0, 1), (2, 0, 1),
                               (1, 3, 1))) for _ in range(2))
    return text_two(em, measure, ratios, rng.randrange(2), given, left)


def account_sheets(seed, count):
    """The same with more lines that are full or that cannot be set."""
    rng = random.Random(seed)
    for _ in range(count):
        yield pick(rng, (3, one_sheet), (2, dense), (1, small),
                   (1, generate.tight), (1, generate.dense))(rng)


def main(arguments):
    if len(arguments) != 2:
        sys.exit('usage: generate_two.py SEED COUNT')
    for sheet in sheets(int(arguments[0]), int(arguments[1])):
        second.write_frame(sys.stdout.buffer, b'sheet', sheet)


if __name__ == '__main__':
    main(sys.argv[1:])
