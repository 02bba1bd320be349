"""Left readings for jobs in lists (R-5), from the numbers of a seed.

put_left adds them to a job that is given in lists: glosses on some of its
words, of about the length of the base, of the right reading or of neither, and
a measure that is enough for them.  Some of them are spoilt: every refusal that
left lists can get, alone and beside others.  A few jobs are made anew, with
the greatest counts and widths on both sides.  As in generate.py only randrange
and choice are used.
"""

import os
import sys

sys.path.insert(0, os.path.dirname(os.path.abspath(__file__)))

from generate import (BAD_WIDTHS, NOT_ACCEPTED, TOO_BIG,  # noqa: E402
                      WESTERN, WIDEST, WIDEST_MEASURE, clip, pick,
                      ruby_count_for, split, surplus)
from second import G, J, M, N, P, Left, is_western  # noqa: E402

KANA = [15, 15, 16, 16, 19, 14, 9]
ANY = [15, 16, 19, 24, 25, 26, 27]
MOST_LEFT = 2048


class Word:
    """One element of a job in lists, as far as its lists go."""

    def __init__(self, place, kind, bases, rubies, runs, western, flag):
        self.place = place      # its index in the job
        self.kind = kind
        self.bases = bases      # widths
        self.rubies = rubies
        self.runs = runs        # of a J, as many as it has
        self.western = western  # its first base character
        self.flag = flag        # of its last base character

    def run_widths(self, runs, widths):
        """The widths of each base character's run together."""
        sums, taken = [], 0
        for run in runs:
            sums.append(sum(widths[taken:taken + run]))
            taken += run
        return sums


def words_of(given):
    """The words of a job; counts that are out of range are taken as near."""
    (classes, widths, _, _, flags, _, ruby_widths, kinds, bases, rubies,
     runs) = given
    words, base, ruby, run = [], 0, 0, 0
    for place in range(min(len(kinds), len(bases), len(rubies))):
        kind, own_runs = kinds[place], []
        base_count = clip(bases[place], 0, 32) if kind in (G, J) else 1
        ruby_count = clip(rubies[place], 0, 64) if kind in (M, G) else 0
        if kind == J:
            own_runs = [clip(count, 0, 64)
                        for count in runs[run:run + base_count]]
            ruby_count = sum(own_runs)
            run += base_count
        last = base + base_count - 1
        words.append(Word(place, kind, widths[base:base + base_count],
                          ruby_widths[ruby:ruby + ruby_count], own_runs,
                          base < len(classes) and is_western(classes[base]),
                          flags[last] if 0 <= last < len(flags) else 0))
        base += base_count
        ruby += ruby_count
    return words


# ---------------------------------------------------------------------------
# Readings
# ---------------------------------------------------------------------------

def left_total(rng, em, base, ruby):
    """The length of a left reading, often at an edge of the other two."""
    longer = max(base, ruby)
    return clip(rng.choice((
        base, ruby, longer, base + 1, base - 1, ruby + 1, ruby - 1,
        (base + ruby) // 2, (base + ruby) // 2, 1 + rng.randrange(longer + 1),
        1 + rng.randrange(longer + 1), em // 2, em,
        longer + surplus(rng, em), longer + surplus(rng, em),
        longer + surplus(rng, em))), 1, 64 * WIDEST)


def classes_for(rng, word, left_kind):
    """What the characters of a left reading are taken from."""
    if word.kind == M:
        return rng.choice((KANA, WESTERN, ANY))
    if word.kind == G and word.western:
        return KANA
    return rng.choice((KANA, KANA, WESTERN))


def left_run(rng, em, ruby):
    """The length of one run: exactly one em, one more, as the right one."""
    return clip(pick(rng, (4, em), (3, em + 1), (2, em - 1), (3, ruby),
                     (3, ruby + 1), (4, 1 + rng.randrange(em)),
                     (2, em + surplus(rng, em)), (1, 1)), 1, WIDEST)


def short_run(rng, em):
    return clip(rng.choice((em, em, em - 1, 1 + rng.randrange(em))), 1, WIDEST)


def runs_of(rng, em, word):
    """The widths of each run of a left reading; short ones, or any."""
    short = rng.randrange(2) == 0
    rubies = word.run_widths(word.runs, word.rubies)
    runs, count = [], 0
    for place in range(len(word.bases)):
        ruby = rubies[place] if place < len(rubies) else em
        total = short_run(rng, em) if short else left_run(rng, em, ruby)
        widths = split(rng, total, ruby_count_for(rng, em, total))
        if count + len(widths) + len(word.bases) - place - 1 > 64:
            widths = [total]
        runs.append(widths)
        count += len(widths)
    return runs


def left_reading(rng, em, word):
    """(left kind, widths of each of its counts) for an M, a G or a J."""
    kind = rng.choice((M, J, J, G)) if word.kind == J else word.kind
    if word.kind == J and kind != G:
        return kind, runs_of(rng, em, word)
    total = left_total(rng, em, sum(word.bases), sum(word.rubies))
    count = pick(rng, (30, ruby_count_for(rng, em, total)),
                 (1, rng.choice((63, 64))))
    return kind, [split(rng, total, count)]


def some_readings(rng, em, words):
    """Left kind and runs of widths for each word; N and none for most P."""
    share = pick(rng, (1, 0), (6, 5), (6, 10))
    readings, count = [], 0
    for word in words:
        reading = (N, [])
        if word.kind in (M, G, J) and word.bases and rng.randrange(10) < share:
            reading = left_reading(rng, em, word)
        count += sum(map(len, reading[1]))
        readings.append(reading if count <= MOST_LEFT else (N, []))
    return readings


def lists_of(rng, words, readings):
    left = Left([], [], [], [], [])
    for word, (kind, runs) in zip(words, readings):
        classes = classes_for(rng, word, kind)
        for width in sum(runs, []):
            left.left_class.append(rng.choice(classes))
            left.left_width.append(width)
        left.left_kind.append(kind)
        in_runs = word.kind == J and kind in (M, J)
        left.elem_left.append(len(runs[0]) if runs and not in_runs else 0)
        if in_runs:
            left.left_runs.extend(map(len, runs))
    return left


# ---------------------------------------------------------------------------
# The measure
# ---------------------------------------------------------------------------

def stretches(words, readings):
    """A width that is enough for each piece between permitted breaks."""
    enough, width = [], 0
    for word, (kind, runs) in zip(words, readings):
        lefts = [sum(run) for run in runs]
        if word.kind == J and kind in (N, M, J):
            rubies = word.run_widths(word.runs, word.rubies)
            for place, base in enumerate(word.bases):
                if place > 0 and kind != J:
                    enough.append(width)
                    width = 0
                width += max([base] + rubies[place:place + 1]
                             + lefts[place:place + 1])
        else:
            width += max(sum(word.bases), sum(word.rubies), sum(lefts))
        if word.flag == 1:
            enough.append(width)
            width = 0
    return enough + [width]


def some_measure(rng, em, widths):
    """A measure that is enough, or just not, mostly for several lines."""
    least, whole = max(widths), sum(widths)
    return clip(pick(
        rng, (4, least), (4, least + rng.randrange(em + 1)),
        (4, least + rng.randrange(6 * em)),
        (6, max(least, whole // rng.choice((1, 2, 3, 4)))),
        (2, max(least, whole - rng.randrange(em + 1))),
        (2, least - 1 - rng.randrange(em)), (1, WIDEST_MEASURE)),
        1, WIDEST_MEASURE)


# ---------------------------------------------------------------------------
# What is spoilt
# ---------------------------------------------------------------------------

def spoil_kind(rng, given, left):
    """An unknown left kind (5), or one that the element doesn't take (16)."""
    if left.left_kind:
        place = rng.randrange(len(left.left_kind))
        left.left_kind[place] = pick(
            rng, (2, rng.choice((0, 80, 75, 109, 110, 78 + 256, TOO_BIG))),
            (5, rng.choice((M, G, J))), (1, N))
        if rng.randrange(3) == 0 and place < len(left.elem_left):
            left.elem_left[place] = rng.choice((0, 1, 2, 64, 65))


def not_taken(rng, given, left):
    """A left kind that its element doesn't take, with counts for it or not."""
    places = [place for place, kind in enumerate(given[7])
              if kind in (P, M, G) and place < len(left.left_kind)]
    if places:
        place = rng.choice(places)
        left.left_kind[place] = rng.choice(
            {P: (M, G, J), M: (G, J), G: (M, J)}[given[7][place]])
        if place < len(left.elem_left):
            left.elem_left[place] = rng.choice((0, 1, 1, 64, 65))
        if rng.randrange(2) == 0:
            left.left_runs[:0] = [rng.choice((0, 1, 1, 65))] * rng.choice(
                (1, 2, 32))


def spoil_counts(rng, given, left):
    """Left counts and runs out of range: 0, 65, sums of 65, sums that wrap."""
    if left.left_runs and rng.randrange(2) == 0:
        place = rng.randrange(len(left.left_runs))
        left.left_runs[place] = rng.choice((0, 0, 33, 64, 65, TOO_BIG,
                                            TOO_BIG - 1))
        if rng.randrange(3) == 0:
            left.left_runs[place:place + 2] = [2 ** 31, 2 ** 31]
        return
    places = [place for place, kind in enumerate(left.left_kind)
              if kind in (M, G) and place < len(left.elem_left)]
    if places:
        left.elem_left[rng.choice(places)] = rng.choice((0, 0, 65, 65, 256,
                                                     TOO_BIG))


def spoil_supply(rng, given, left):
    """A left character too few or too many, or a count that is one off."""
    way = rng.randrange(4)
    if way == 0 and left.left_width:
        del left.left_width[-1]
    elif way == 1:
        left.left_class.append(15)
        left.left_width.append(5)
    elif left.left_runs and way == 2:
        left.left_runs[rng.randrange(len(left.left_runs))] += 1
    elif left.elem_left:
        place = rng.randrange(len(left.elem_left))
        left.elem_left[place] = clip(
            left.elem_left[place] + rng.choice((-1, 1)), 1, 64)


def spoil_character(rng, given, left):
    """A class or a width that is not accepted (3)."""
    if left.left_class and left.left_width:
        values, bad = rng.choice(((left.left_class, NOT_ACCEPTED),
                                  (left.left_width, BAD_WIDTHS)))
        place = rng.choice((0, len(values) - 1, rng.randrange(len(values))))
        values[place] = rng.choice(bad)


def spoil_sort(rng, given, left):
    """Class 26, or another sort, among the left characters (9, 10)."""
    if left.left_class:
        way = rng.randrange(3)
        place = rng.randrange(len(left.left_class))
        if way == 0:
            left.left_class[place] = 26
        elif way == 1:
            left.left_class[place] = (
                15 if is_western(left.left_class[place]) else 27)
        else:
            left.left_class[:] = [rng.choice(WESTERN)] * len(left.left_class)


def spoil_base(rng, given, left):
    """Every base character Western: 10 in a G with a Western reading."""
    given[0][:] = [rng.choice(WESTERN) for _ in given[0]]
    for blanks in given[2:4]:
        blanks[:] = [0] * len(blanks)
    if rng.randrange(2) == 0:
        left.left_class[:] = [rng.choice(WESTERN)] * len(left.left_class)


def spoil_right(rng, given, left):
    """The right reading's own 5, 9 or 10, beside what the left one has."""
    way = rng.randrange(3)
    if way == 0 and given[9]:
        given[9][rng.randrange(len(given[9]))] = rng.choice((0, 65))
    elif given[5]:
        given[5][:] = [rng.choice(WESTERN)] * len(given[5])
        if way == 1:
            given[5][rng.randrange(len(given[5]))] = rng.choice((26, 15))


def spoil_length(rng, given, left):
    """2,048 left characters, or more, in both lists or in one."""
    length = MOST_LEFT + pick(rng, (4, 1), (1, 0), (1, 300))
    for values in (left.left_class, left.left_width):
        values += [rng.choice((0, 1, 15))] * (length - len(values))
    if rng.randrange(5) == 0:
        del rng.choice((left.left_class, left.left_width))[MOST_LEFT:]


def spoil_lists(rng, given, left):
    """One list cut, extended, or with an odd number in it."""
    values = rng.choice(left)
    way = rng.randrange(3)
    if way == 0 and values:
        del values[rng.choice((0, len(values) - 1,
                               rng.randrange(len(values)))):]
    elif way == 1:
        values += [rng.choice((0, 1, N, TOO_BIG))] * rng.choice((1, 1, 2, 40))
    elif values:
        values[rng.randrange(len(values))] = rng.choice((0, 1, 2, 71, 78, 65,
                                                         TOO_BIG))


SPOILT = ((2, spoil_kind), (4, not_taken), (3, spoil_counts),
          (3, spoil_supply), (3, spoil_character), (3, spoil_sort),
          (2, spoil_base), (1, spoil_length), (2, spoil_lists))


def change_not_read(rng, words, left):
    """Spare runs, and odd numbers in left counts that are not read."""
    for word in words:
        if left.left_kind[word.place] == N or (
                word.kind == J and left.left_kind[word.place] != G):
            left.elem_left[word.place] = rng.choice((0, 1, 77, TOO_BIG))
    left.left_runs.extend([rng.choice((0, 1, TOO_BIG))] * rng.randrange(4))


# ---------------------------------------------------------------------------
# The greatest sizes
# ---------------------------------------------------------------------------

def great_words(rng):
    """(kind, base count, right runs, left kind, left runs) of some words."""
    way = rng.randrange(4)
    if way == 0:
        # The longest line that the counts allow, its words in some order.
        words = [(M, 1, [1], M, [64])] * 32 + [(M, 1, [64], N, [])] * 31
        return words + [(M, 1, [32], N, [])], 960
    if way == 1:
        return [(G, 32, [64], G, [rng.choice((1, 63, 64))])] * 32, 0
    kind = rng.choice((M, J, G))
    runs = [64] if kind == G else [2] * 32
    if way == 2:
        return [(J, 32, [2] * 32, kind, runs)] * 32, 0
    return [(J, 8, [1] * 8, kind, [64] if kind == G else [8] * 8),
            (M, 1, [64], M, [1])] * 20, 200


def built(words, width, ruby_width, left_width):
    """(lists, Left) of such words; a left M on M and a left G have one run.

    The widths are those of base characters, and functions that give those of
    ruby characters.
    """
    given = [[] for _ in range(11)]
    left = Left([], [], [], [], [])
    for kind, base, runs, left_kind, left_runs in words:
        for values, value in zip(given, (19, width, 0, 0, 1)):
            values += [value] * base
        given[5] += [15] * sum(runs)
        given[6] += [ruby_width() for _ in range(sum(runs))]
        for values, value in zip(given[7:], (kind, base, sum(runs))):
            values.append(value)
        given[10] += runs if kind == J else []
        left.left_class.extend([15] * sum(left_runs))
        left.left_width.extend(left_width() for _ in range(sum(left_runs)))
        left.left_kind.append(left_kind)
        one = left_kind == G or (kind, left_kind) == (M, M)
        left.elem_left.append(sum(left_runs) if one else 0)
        left.left_runs.extend([] if one else left_runs)
    return given, left


def great(rng):
    """(em, measure, lists, Left): the greatest widths and counts."""
    words, plain = great_words(rng)
    words = list(words)
    for _ in range(plain):
        words.insert(rng.randrange(len(words) + 1), (P, 1, [], N, []))
    given, left = built(
        words, WIDEST, lambda: rng.choice((WIDEST, WIDEST, WIDEST, 1)),
        lambda: WIDEST)
    return (WIDEST, rng.choice((262143, 262144, 300000, WIDEST_MEASURE)),
            given, left)


# ---------------------------------------------------------------------------
# Two groups
# ---------------------------------------------------------------------------

def two_groups(rng):
    """A G, or a J with a left G: one reading long, the other mostly short."""
    base = 1 + rng.randrange(3)
    counts = [5 + rng.randrange(10),
              pick(rng, (4, 1 + rng.randrange(4)), (1, 5 + rng.randrange(8)))]
    if rng.randrange(2) == 0:
        counts.reverse()
    if rng.randrange(3) > 0:
        return G, base, counts[:1], G, counts[1:]
    runs = [1] * base
    runs[rng.randrange(base)] += max(0, counts[0] - base)
    return J, base, runs, G, counts[1:]


def groups(rng):
    """(em, measure, lists, Left): a few of them, of every sort."""
    words = [two_groups(rng) for _ in range(1 + rng.randrange(3))]
    given, left = built(words, 10, lambda: rng.choice((5, 5, 5, 4, 7)),
                        lambda: rng.choice((5, 5, 5, 4, 7)))
    base = ruby = other = 0
    for kind, count, runs, _, left_runs in words:
        sorts = rng.choice(((19, 15, 15), (19, 15, 15), (19, 15, 27),
                            (19, 27, 15), (19, 24, 25), (24, 15, 16)))
        if kind == J:
            sorts = (19, *sorts[1:])
        for classes, at, length, cls in zip(
                (given[0], given[5], left.left_class), (base, ruby, other),
                (count, sum(runs), sum(left_runs)), sorts):
            classes[at:at + length] = [cls] * length
        base, ruby = base + count, ruby + sum(runs)
        other += sum(left_runs)
    return 10, rng.choice((40, 60, 80, 150)), given, left


# ---------------------------------------------------------------------------
# Reasons that hold at once
# ---------------------------------------------------------------------------

def ties(rng):
    """(em, measure, lists, Left): words, each reading of one character.

    Their readings pass the base by few different amounts and by sums of
    them, so that several rules often hold one element, on one side or on
    both.  Some plain elements are spaces, the job's first too.
    """
    words = [rng.choice(((M, 1, [1], M, [1]), (M, 1, [1], M, [1]),
                         (M, 1, [1], N, []), (J, 2, [1, 1], M, [1, 1]),
                         (P, 1, [], N, [])))
             for _ in range(2 + rng.randrange(5))]
    given, left = built(words, 10, lambda: rng.choice((8, 10, 12, 14, 16)),
                        lambda: rng.choice((8, 10, 12, 14, 16, 18, 20)))
    place = 0
    for kind, count, *_ in words:
        if kind == P:
            given[0][place] = rng.choice((14, 14, 15, 19))
        place += count
    return 10, rng.choice((40, 60, 100)), given, left


# ---------------------------------------------------------------------------
# Faults that meet in one element
# ---------------------------------------------------------------------------

def small_word(rng):
    """A word with a left reading that it takes."""
    kind = rng.choice((M, G, J, J))
    base = 1 if kind == M else 1 + rng.randrange(3)
    runs = [1 + rng.randrange(2) for _ in range(base)]
    left_kind = rng.choice((M, J, G)) if kind == J else kind
    left_runs = [1 + rng.randrange(2) for _ in range(base)]
    if kind != J:
        runs = [1 + rng.randrange(4)]
    if kind != J or left_kind == G:
        left_runs = [2 + rng.randrange(3)]
    return kind, base, runs, left_kind, left_runs


def sound_kind_not_taken(rng):
    """A word with a left reading that it doesn't take, its counts sound."""
    kind, left_kind = rng.choice(((M, G), (M, J), (G, M), (G, J), (P, M),
                                  (P, G), (P, J)))
    base = 1 + rng.randrange(3) if kind == G else 1
    runs = [] if kind == P else [1 + rng.randrange(3)]
    left_runs = [] if kind == P else [1] * base
    if left_kind == G and kind != P:
        left_runs = [2]
    return kind, base, runs, left_kind, left_runs


def paint(rng, classes, ways):
    """Classes of one sort, or of both, or 26 among them."""
    way = rng.choice(ways)
    for place in range(len(classes)):
        classes[place] = 27 if way == 'western' else 15
    if classes and way == 'mixed':
        classes[rng.randrange(len(classes))] = rng.choice((24, 26))
    elif classes and way == '26':
        classes[:] = [26] * len(classes)


def meeting(rng):
    """(em, measure, lists, Left): small words, faults of one or two kinds."""
    way = rng.choice(('sorts', 'sorts', 'sorts', 'sorts by run', 'kinds',
                      'kinds', 'unknown', 'lengths', 'runs', 'runs',
                      'characters', 'lists'))
    words = [small_word(rng) for _ in range(1 + rng.randrange(2))]
    if way == 'sorts' and rng.randrange(2) == 0:
        words = [(G, 1 + rng.randrange(2), [2], G, [2])]
    if way == 'sorts by run':
        words = [(J, 2, [1, 1], rng.choice((M, J)), [1, 2])]
    if way == 'kinds':
        words.append(sound_kind_not_taken(rng))
    given, left = built(words, 10, lambda: rng.choice((5, 5, 1)),
                        lambda: rng.choice((5, 5, 1)))
    if way == 'sorts':
        # 9 and 10 of the base, of the right side and of the left one.
        paint(rng, given[0], ('kana', 'western', 'western'))
        paint(rng, given[5], ('kana', 'western', 'western', 'mixed'))
        paint(rng, left.left_class, ('kana', 'western', 'mixed', 'mixed',
                                     '26'))
        if rng.randrange(3) == 0:
            paint(rng, given[0], ('kana',))
            paint(rng, given[5], ('kana', 'western'))
    if way == 'sorts by run':
        # 9 of the left characters together, no run of two sorts; or none.
        left.left_class[:] = rng.choice(([27, 15, 15], [15, 24, 25],
                                         [26, 15, 15], [27, 24, 25]))
    if way == 'kinds':
        # 5, 16 and 6 in one element.
        other = rng.choice(('none', 'left', 'right', 'base', 'count',
                            'left count'))
        values = {'left': left.left_width, 'right': given[6],
                  'base': given[1]}.get(other)
        if values:
            values.pop()
        if other == 'count':
            given[9][-1] = rng.choice((0, 65))
        if other == 'left count':
            left.elem_left[-1] = rng.choice((0, 65))
            left.left_runs[-1:] = [rng.choice((0, 65))]
    if way == 'unknown':
        # Nothing else is wrong: its characters are taken away.
        kind, base, runs, _, _ = words.pop()
        given, left = built(words + [(kind, base, runs, N, [])], 10,
                            lambda: 5, lambda: 5)
        left.left_kind[-1] = rng.choice((0, 0, 1, P, 75, 110, N + 256,
                                         TOO_BIG))
    if way == 'lengths':
        for values in rng.choice((left[:2], left[:2] + tuple(given[7:10])
                                  + left[2:4])):
            values += [15] * (MOST_LEFT + 1 - len(values))
    if way == 'runs' and left.left_runs:
        left.left_runs[rng.randrange(len(left.left_runs))] = rng.choice(
            (0, 0, 60, 65))
        if rng.randrange(2) == 0:
            # run lengths whose sum would come out small if it wrapped
            left.left_runs[:2] = rng.choice(([2 ** 31, 2 ** 31],
                                             [TOO_BIG, 2], [2, TOO_BIG]))
    if way == 'characters':
        # 3 and 4 of base, right and left characters, two of them or all.
        for values in rng.choice(((given[5], left.left_class),
                                  (given[6], left.left_width),
                                  (given[3], left.left_width),
                                  (given[2], given[6], left.left_class))):
            values[rng.randrange(len(values))] = TOO_BIG
    if way == 'lists':
        # The element's shortest list decides; the rest is not read.
        values = rng.choice(left[2:4])
        if rng.randrange(2) == 0:
            values.pop()
        else:
            values.append(rng.choice((0, N, TOO_BIG)))
    return 10, 1000, given, left


# ---------------------------------------------------------------------------

def some_ratios(rng, ratios):
    """Sometimes one string all in front and the other all behind.

    The other reading then stands clear of its base.
    """
    if rng.randrange(10) > 0 or max(map(max, ratios)) > 7:
        return ratios
    front, behind = (0, 0, 1 + rng.randrange(7)), (1 + rng.randrange(7), 0, 0)
    return rng.choice(((front, behind), (behind, front)))


def with_left_readings(rng, em, measure, given):
    """(em, measure, lists, Left): this job with left readings, or another."""
    way = rng.randrange(120)
    if way == 0:
        return great(rng)
    if way <= 18:
        return meeting(rng)
    if way <= 26:
        return groups(rng)
    if way <= 30:
        return ties(rng)
    return (em, *put_left(rng, em, measure, given))


def sound_left(rng, em, measure, given):
    """(words, measure, Left): left readings as the words take them."""
    words = words_of(given)
    readings = some_readings(rng, clip(em, 2, WIDEST), words)
    left = lists_of(rng, words, readings)
    if 1 <= measure <= WIDEST_MEASURE and rng.randrange(5) > 0:
        measure = some_measure(rng, clip(em, 2, WIDEST),
                               stretches(words, readings))
    return words, measure, left


def put_left(rng, em, measure, given):
    """(measure, lists, Left) for a job in lists, which may be altered."""
    words, measure, left = sound_left(rng, em, measure, given)
    way = pick(rng, (18, 'sound'), (3, 'not read'), (5, 'spoilt'),
               (2, 'both'))
    if way == 'not read':
        change_not_read(rng, words, left)
    if way == 'both':
        spoil_right(rng, given, left)
    if way in ('spoilt', 'both'):
        for _ in range(rng.choice((1, 1, 2, 3))):
            pick(rng, *SPOILT)(rng, given, left)
    return measure, given, left
