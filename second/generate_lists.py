"""Jobs in lists from a seed: what no sheet can show.

The jobs are those of generated sheets, by ratios of every sort and by both
profiles.  Some of them are altered: lists of unequal lengths, spare runs,
counts that are not read, unknown kinds, counts over their maximum, result
lists that are too short.  Every job goes through generate_left.py, which has
what left readings (R-5) bring.  As in generate.py only randrange and choice
are used.
"""

import os
import random
import sys

sys.path.insert(0, os.path.dirname(os.path.abspath(__file__)))

import generate     # noqa: E402  (found through the path set above)
import generate_left    # noqa: E402
import second       # noqa: E402
from account import ROW  # noqa: E402
from generate import TOO_BIG, clip, pick  # noqa: E402
from lists import ACCOUNT, SET, Call, with_left  # noqa: E402

FRESH = 32768   # numbers from which the result lists are filled

# The lists of base characters, of ruby characters and of elements.
GROUPS = ((0, 1, 2, 3, 4), (5, 6), (7, 8, 9))
MOST = (1024, 2048, 1024)


# ---------------------------------------------------------------------------
# Ratios
# ---------------------------------------------------------------------------

ALL = [(a, m, c) for a in range(9) for m in range(9) for c in range(9)]
BAD = [ratio for ratio in ALL if 8 in ratio or not any(ratio)]
SOUND = [ratio for ratio in ALL if ratio not in BAD]


class Ratios:
    """The ratios of ruby, or of base.

    Some are common, and every one with numbers from 0 to 8 has its turn.
    """

    def __init__(self, rng):
        self.rng = rng
        self.left = {'sound': [], 'bad': []}

    def in_turn(self, name, ratios):
        left = self.left[name]
        if not left:
            left += ratios
        return left.pop(self.rng.randrange(len(left)))

    def sound(self):
        """Three numbers from 0 to 7, not all of them 0."""
        rng = self.rng
        way = pick(rng, (8, '1:2:1'), (4, '0:0:1'), (2, '1:0:0'),
                   (2, '1:3:1'), (2, '0:m:0'), (6, 'a:0:c'), (4, '0:m:c'),
                   (4, 'a:m:0'), (28, 'in turn'))
        if way == 'in turn':
            return self.in_turn('sound', SOUND)
        numbers = {'a': 1 + rng.randrange(7), 'm': 1 + rng.randrange(7),
                   'c': 1 + rng.randrange(7)}
        return tuple(numbers[name] if name in numbers else int(name)
                     for name in way.split(':'))

    def bad(self):
        """A number over 7, or three that are 0."""
        way = pick(self.rng, (5, 'in turn'), (1, 'zeros'), (1, 'great'))
        if way == 'in turn':
            return self.in_turn('bad', BAD)
        if way == 'zeros':
            return (0, 0, 0)
        ratio = list(self.rng.choice(SOUND))
        ratio[self.rng.randrange(3)] = self.rng.choice((9, 256, TOO_BIG))
        return tuple(ratio)


def some_ratios(rng, sides, sound):
    """The ratios of both sides, or with one of them bad, or both."""
    bad = () if sound else rng.choice(((0,), (1,), (0, 1)))
    return tuple(side.bad() if place in bad else side.sound()
                 for place, side in enumerate(sides))


def some_profile(rng, sound):
    """Mostly 1, which lets ruby onto kana; or one that 20 refuses."""
    if sound:
        return pick(rng, (2, 0), (3, 1))
    return rng.choice((2, 2, 2, 3, 256, 257, TOO_BIG, TOO_BIG))


# ---------------------------------------------------------------------------
# Jobs
# ---------------------------------------------------------------------------

def add_wide_group(rng, draft):
    """A group with much space for its ruby: mostly more than the limit."""
    em = draft.em
    base = [[rng.choice((19, 19, 19, 27)), em]] * (2 + rng.randrange(6))
    ruby = [[15, clip(em // 2 + rng.randrange(3), 1, em)]
            for _ in range(1 + rng.randrange(4))]
    draft.add(base, ruby, ['G', len(base), len(ruby)])


def words(rng):
    """A few words, mostly groups and jukugo, in one line or cut."""
    draft = generate.Draft(generate.some_em(rng))
    for _ in range(1 + rng.randrange(4)):
        pick(rng, (1, generate.add_plain), (1, generate.add_mono),
             (5, generate.add_group), (3, generate.add_jukugo),
             (2, generate.add_long_group), (2, add_wide_group))(rng, draft)
    generate.put_flags(rng, draft)
    generate.put_measure(rng, draft)
    return draft.text()


def kana_row(rng, em):
    """A kana, mostly; its width about the depth on it, or anything else.

    Small kana, class 11, and the prolonged sound mark, class 10, take no ruby.
    """
    cls = rng.choice((15, 15, 15, 16, 16, 16, 11, 10))
    width = rng.choice((em, em, em // 2, em // 2 - 1, em // 2 + 1, em // 4, 1,
                        2, 1 + rng.randrange(em)))
    return [cls, clip(width, 1, generate.WIDEST)]


def add_kana(rng, draft):
    draft.add([kana_row(rng, draft.em)], [], ['P'])


def add_word_over_kana(rng, draft):
    """M, G or J with kana for its base, its reading short or long."""
    em = draft.em
    short = max(1, em // 2)
    total = rng.choice((short, short, em, em + generate.surplus(rng, em)))
    ruby = [[15, width] for width in generate.split(
        rng, total, generate.ruby_count_for(rng, em, total))]
    draft.add([[rng.choice((15, 16)), em]], ruby, rng.choice((
        ['M', len(ruby)], ['M', len(ruby)], ['G', 1, len(ruby)],
        ['J', 1, len(ruby)])))


def add_blank(rng, draft):
    draft.add([generate.blank_row(rng, draft.em)], [], ['P'])


def add_between(rng, draft):
    """What stands between two long readings."""
    way = pick(rng, (10, 'kana'), (2, 'two kana'), (5, 'word'),
               (2, 'kana and blank'), (2, 'blank and kana'), (1, 'blank'),
               (1, 'nothing'))
    if way == 'blank and kana':
        add_blank(rng, draft)
    if way in ('kana', 'two kana', 'kana and blank', 'blank and kana'):
        add_kana(rng, draft)
    if way == 'two kana':
        add_kana(rng, draft)
    if way == 'word':
        add_word_over_kana(rng, draft)
    if way in ('blank', 'kana and blank'):
        add_blank(rng, draft)


def kana(rng):
    """Long readings with kana between them, at the ends and first in a line.

    The measure is near what all of it takes in one line or in a few.
    """
    draft = generate.Draft(generate.some_em(rng))
    first = pick(rng, (4, add_kana), (2, generate.add_space), (4, None))
    if first is not None:
        first(rng, draft)
    for _ in range(1 + rng.randrange(4)):
        generate.add_long_word(rng, draft)
        add_between(rng, draft)
    if rng.randrange(2) == 0:
        generate.add_long_word(rng, draft)
    generate.put_flags(rng, draft)
    if rng.randrange(3) == 0:
        generate.put_measure(rng, draft)
        return draft.text()
    widths = generate.stretches(draft)
    whole = sum(widths) // rng.choice((1, 1, 2, 3))
    draft.measure = clip(
        whole + rng.choice((0, 0, -1, -(draft.em // 2), -(draft.em // 2) - 1,
                            -rng.randrange(draft.em),
                            rng.randrange(draft.em))),
        max(widths) - rng.choice((0, 0, 1, draft.em // 2)),
        generate.WIDEST_MEASURE)
    draft.measure = max(1, draft.measure)
    return draft.text()


def some_sheet(rng):
    """The mixture of generate.py without what is no job."""
    return pick(rng, (300, words), (250, kana), (250, generate.sound),
                (40, generate.opening), (20, generate.later),
                (60, generate.tight), (220, generate.one_fault),
                (60, generate.two_faults), (60, generate.meeting_faults),
                (10, generate.spare), (4, generate.great),
                (2, generate.great_plain), (3, generate.great_words),
                (3, generate.great_wide))(rng)


def read_job(rng):
    """(em, measure, lists) of the next sheet that is a job."""
    while True:
        try:
            em, measure, _, _, *given, _ = second.read_sheet(some_sheet(rng))
        except second.Refused:
            continue
        return em, measure, given


# ---------------------------------------------------------------------------
# What is altered
# ---------------------------------------------------------------------------

def change_lists(rng, given):
    """One or two lists cut, extended, or with an odd number in them."""
    for _ in range(1 + rng.randrange(2)):
        values = rng.choice(given)
        way = rng.randrange(3)
        if way == 0 and values:
            del values[rng.choice((0, len(values) // 2, len(values) - 1,
                                   rng.randrange(len(values)))):]
        elif way == 1:
            values += [rng.choice((0, 1, 5, 77, TOO_BIG))] * rng.choice(
                (1, 1, 2, 3, 1024, 2048))
        elif values:
            values[rng.randrange(len(values))] = rng.choice(
                (0, 1, 2, 33, 65, 74, 80, TOO_BIG))


def change_not_read(rng, given):
    """Spare runs, and odd numbers in counts that are not read."""
    kinds, bases, rubies, runs = given[7:]
    for place, kind in enumerate(kinds):
        if kind in (second.P, second.M) and rng.randrange(2) == 0:
            bases[place] = rng.choice((0, 1, 77, TOO_BIG))
        if kind in (second.P, second.J) and rng.randrange(2) == 0:
            rubies[place] = rng.choice((0, 1, 77, TOO_BIG))
    runs += [rng.choice((0, 1, TOO_BIG))] * rng.randrange(4)


def fault_2(rng, given):
    """A count over its maximum, or just at it, or one list that is not."""
    for group in rng.choice(((0,), (1,), (2,), (0, 2), (1, 2), (0, 1, 2))):
        length = MOST[group] + pick(rng, (6, 1), (2, 0), (1, 500))
        for number in GROUPS[group]:
            values = given[number]
            values += [rng.choice((0, 1, 15))] * (length - len(values))
        if rng.randrange(6) == 0:
            del given[rng.choice(GROUPS[group])][MOST[group]:]


def fault_1(rng, em, measure):
    return (rng.choice((em, 0, em ^ 1, 4098, TOO_BIG)),
            rng.choice((measure, 0, 4000001)))


def count_of(given, group):
    """How many base characters, ruby characters or elements there are."""
    return min(len(given[number]) for number in GROUPS[group])


def rooms(rng, needs, most, short):
    """Lengths of the result lists; short: too little for one or more."""
    lengths = [clip(rng.choice((need, need, need + 1, need + 5, top)),
                    need, max(need, top))
               for need, top in zip(needs, most)]
    if short:
        for _ in range(rng.choice((1, 1, 1, 3))):
            which = rng.randrange(len(needs))
            lengths[which] = max(0, rng.choice((
                needs[which] - 1, needs[which] - 1, needs[which] // 2, 0)))
    return lengths


# ---------------------------------------------------------------------------
# The calls
# ---------------------------------------------------------------------------

def some_job(rng, sides):
    """(em, measure, ratios, profile, lists, whether results have no room)

    sides has the Ratios of ruby and of base.
    """
    em, measure, given = read_job(rng)
    way = pick(rng, (55, 'as it is'), (8, 'not read'), (10, 'lists'),
               (7, 'ratio'), (4, 'profile'), (2, 'count'), (14, 'door'))
    # At the door some of 1, 15, 20, 2 and 12 meet: their order decides.
    door = way == 'door'
    if way == 'not read':
        change_not_read(rng, given)
    if way == 'lists':
        change_lists(rng, given)
    if door and rng.randrange(2) == 0:
        em, measure = fault_1(rng, em, measure)
    bad = way == 'ratio' or door and rng.randrange(2) == 0
    ratios = some_ratios(rng, sides, not bad)
    bad = way == 'profile' or door and rng.randrange(2) == 0
    profile = some_profile(rng, not bad)
    if way == 'count' or door and rng.randrange(3) == 0:
        fault_2(rng, given)
    short = rng.randrange(3 if door else 25) == 0
    return em, measure, ratios, profile, given, short


def rooms_needed(given, left):
    """What each function's result lists need at least, and what is most."""
    base, ruby = count_of(given, 0), count_of(given, 1)
    lefts = min(len(left.left_class), len(left.left_width))
    return ((SET, (base, ruby, lefts, base), (1024, 2048, 2048, 1024)),
            (ACCOUNT, (ROW * base, base, base, 0),
             (ROW * 1024, 1024, 1024, 0)))


def no_left_readings(given):
    """A Left of a job without left readings, as short as its shortest list."""
    count = count_of(given, 2)
    return second.Left([], [], [second.N] * count, [0] * count, [])


def calls(seed, count, left=True):
    """The first count jobs of a seed: (call of set_job, of account_job).

    left: with left readings; else the left lists have none.
    """
    rng = random.Random(seed)
    sides = Ratios(rng), Ratios(rng)
    fresh = [rng.randrange(TOO_BIG + 1) for _ in range(FRESH)]

    def numbers(length):
        start = rng.randrange(FRESH - length + 1)
        return fresh[start:start + length]

    for _ in range(count):
        em, measure, ratios, profile, given, short = some_job(rng, sides)
        if left:
            em, measure, given, lefts = generate_left.with_left_readings(
                rng, em, measure, given)
            ratios = generate_left.some_ratios(rng, ratios)
        else:
            lefts = no_left_readings(given)
        both = []
        for which, needs, most in rooms_needed(given, lefts):
            results = [numbers(length)
                       for length in rooms(rng, needs, most, short)]
            read = with_left(given, lefts)
            around = numbers(2 + len(read) + len(results) + 1)
            both.append(Call(which, em, measure, ratios, profile, read,
                             results, around))
        yield tuple(both)
