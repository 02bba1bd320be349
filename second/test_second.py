"""Tests of the second program, with values worked out by hand.

    python3 second/test_second.py

Every expected value comes from document 01 (with R-1, R-4 and R-8 of document
02), or is derived from its rules in the comment beside it.  hu means half
units.  Where nothing else is said, em is 10, base characters are 10 wide and
ruby characters 5 wide, as in the settings K1 to K12.
"""

import os
import random
import subprocess
import sys
import tempfile
import unittest

HERE = os.path.dirname(os.path.abspath(__file__))
sys.path.insert(0, HERE)

import compare      # noqa: E402
import generate     # noqa: E402
import second       # noqa: E402
from second import G, ONE_TWO_ONE, P, answer, set_job  # noqa: E402

BIG = 4294967295

EXAMPLE = (b'set 2\n10\n35\n'
           b'base 4\n19 10 0 0 1\n15 10 0 0 1\n19 10 0 0 1\n19 10 0 0 1\n'
           b'ruby 6\n15 5\n15 5\n15 5\n15 5\n15 5\n15 5\n'
           b'elem 3\nM 3\nP\nJ 2 1 2\n')

EXAMPLE_RESULT = (b'lines 2\nline 70\nb 0 5\nr 0 0\nr 1 10\nr 2 20\nb 1 30\n'
                  b'b 2 50\nr 3 55\nline 20\nb 3 0\nr 4 0\nr 5 10\n')


# ---------------------------------------------------------------------------
# Writing jobs down shortly
# ---------------------------------------------------------------------------

def sheet(elements, em=10, measure=4000):
    """A sheet from elements; each is what p, m, g and j below give."""
    base = [row for bases, _, _ in elements for row in bases]
    ruby = [row for _, rubies, _ in elements for row in rubies]
    elem = [line for _, _, line in elements]
    lines = ['set 2', str(em), str(measure), 'base %d' % len(base)]
    lines += ['%d %d %d %d %d' % row for row in base]
    lines += ['ruby %d' % len(ruby)] + ['%d %d' % row for row in ruby]
    lines += ['elem %d' % len(elem)] + elem
    return ''.join(line + '\n' for line in lines).encode('ascii')


def base_rows(widths, cls=19, flags=None):
    flags = flags or [1] * len(widths)
    return [(cls, width, 0, 0, flag) for width, flag in zip(widths, flags)]


def ruby_rows(widths, cls=15):
    return [(cls, width) for width in widths]


def p(cls=19, width=10, before=0, after=0, flag=1):
    return [(cls, width, before, after, flag)], [], 'P'


def m(ruby, width=10, cls=19, flag=1, ruby_class=15):
    """M over one character; ruby is a list of widths, or a count of fives."""
    ruby = [5] * ruby if isinstance(ruby, int) else ruby
    return (base_rows([width], cls, [flag]), ruby_rows(ruby, ruby_class),
            'M %d' % len(ruby))


def g(base, ruby, cls=19, ruby_class=15, flags=None):
    base = [10] * base if isinstance(base, int) else base
    ruby = [5] * ruby if isinstance(ruby, int) else ruby
    return (base_rows(base, cls, flags), ruby_rows(ruby, ruby_class),
            'G %d %d' % (len(base), len(ruby)))


def j(runs, ruby_class=15, flags=None, em=10):
    """J; runs is a list of width lists, or of counts of fives."""
    runs = [[5] * run if isinstance(run, int) else run for run in runs]
    return (base_rows([em] * len(runs), 19, flags),
            ruby_rows([width for run in runs for width in run], ruby_class),
            'J %d %s' % (len(runs), ' '.join(str(len(run)) for run in runs)))


def shown(text):
    """[(extent, base positions, ruby positions)] of a result, line by line."""
    lines = []
    rows = text.decode('ascii').split('\n')
    assert rows[-1] == '' and rows[0].startswith('lines '), text
    for row in rows[1:-1]:
        fields = row.split(' ')
        if fields[0] == 'line':
            lines.append((int(fields[1]), [], []))
        else:
            lines[-1][1 if fields[0] == 'b' else 2].append(int(fields[2]))
    assert int(rows[0].split(' ')[1]) == len(lines), text
    return lines


def lines_of(elements, em=10, measure=4000):
    return shown(answer(sheet(elements, em, measure)))


def one_line(elements, em=10, measure=4000):
    """(base positions, ruby positions) of a job that is one line."""
    lines = lines_of(elements, em, measure)
    assert len(lines) == 1, lines
    return lines[0][1], lines[0][2]


def as_lists(elements):
    """The list arguments, base_class to runs, for elements as above."""
    base = [row for bases, _, _ in elements for row in bases]
    ruby = [row for _, rubies, _ in elements for row in rubies]
    lists = dict(
        base_class=[row[0] for row in base],
        base_width=[row[1] for row in base],
        blank_before=[row[2] for row in base],
        blank_after=[row[3] for row in base],
        flag=[row[4] for row in base],
        ruby_class=[row[0] for row in ruby],
        ruby_width=[row[1] for row in ruby],
        kind=[], elem_base=[], elem_ruby=[], runs=[])
    for _, _, line in elements:
        fields = line.split(' ')
        numbers = [int(field) for field in fields[1:]]
        lists['kind'].append(ord(fields[0]))
        if fields[0] == 'J':
            lists['elem_base'].append(numbers[0])
            lists['elem_ruby'].append(0)
            lists['runs'] += numbers[1:]
        else:
            lists['elem_base'].append(numbers[0] if fields[0] == 'G' else 0)
            lists['elem_ruby'].append(numbers[-1] if numbers else 0)
    return lists


class Lists:
    """A list-level call on a job of elements, with some lists replaced."""

    def __init__(self, elements, em=10, measure=4000, ratios=ONE_TWO_ONE,
                 profile=0, room=None, **replaced):
        arguments = as_lists(elements)
        arguments.update(replaced)
        base, ruby, line = room if room else (1024, 2048, 1024)
        self.base_out = [77] * base
        self.ruby_out = [77] * ruby
        self.line_out = [77] * line
        self.result = set_job(em, measure, ratios, profile, left=None,
                              base_out=self.base_out, ruby_out=self.ruby_out,
                              left_out=[], line_out=self.line_out, **arguments)
        outs = self.base_out + self.ruby_out + self.line_out
        self.untouched = all(entry == 77 for entry in outs)


class Case(unittest.TestCase):

    def refused(self, number, place, elements, **changes):
        """A refusal: its number and place, and no list altered."""
        call = Lists(elements, **changes)
        self.assertEqual(call.result, ('refused', number, place))
        self.assertTrue(call.untouched)

    def accepted(self, elements, **changes):
        call = Lists(elements, **changes)
        self.assertEqual(call.result[0], 'set', call.result)
        return call

    def answered(self, expected, text):
        self.assertEqual(answer(text), expected)


# ---------------------------------------------------------------------------
# Settings on both sides of each edge
# ---------------------------------------------------------------------------

class Settings(Case):
    """K1 to K12 of document 01."""

    def test_k1(self):
        self.assertEqual(one_line([m(3)]), ([5], [0, 10, 20]))

    def test_k2(self):
        self.assertEqual(one_line([g(3, 2)]), ([0, 20, 40], [10, 40]))

    def test_k3(self):
        self.assertEqual(one_line([g(5, 2)]),
                         ([0, 20, 40, 60, 80], [10, 80]))

    def test_k4(self):
        self.assertEqual(one_line([g(2, 7)]),
                         ([7, 43], [0, 10, 20, 30, 40, 50, 60]))

    def test_k5(self):
        self.assertEqual(one_line([g(3, 8)]),
                         ([3, 30, 57], [0, 10, 20, 30, 40, 50, 60, 70]))

    def test_k6(self):
        self.assertEqual(one_line([g(4, 1)]), ([0, 20, 40, 60], [35]))

    def test_k7(self):
        self.assertEqual(one_line([j([1, 2])]), ([0, 20], [5, 20, 30]))

    def test_k8(self):
        self.assertEqual(one_line([j([1, 3])]), ([0, 20], [0, 10, 20, 30]))

    def test_k9(self):
        self.assertEqual(one_line([m(3), m(3)]),
                         ([5, 35], [0, 10, 20, 30, 40, 50]))

    def test_k10(self):
        base, ruby = one_line([m(3), p(7, 10, 0, 5), m(3)])
        self.assertEqual(base, [5, 30, 50])
        self.assertEqual(ruby, [0, 10, 20, 45, 55, 65])

    def test_k11(self):
        base, ruby = one_line([m(3), p(7, 7, 0, 2), m(3)])
        self.assertEqual(base, [5, 30, 45])
        self.assertEqual(ruby, [0, 10, 20, 40, 50, 60])

    def test_k12(self):
        base, ruby = one_line([m(3), p(14, 3), m(3)])
        self.assertEqual(base, [5, 25, 35])
        self.assertEqual(ruby, [0, 10, 20, 30, 40, 50])


# ---------------------------------------------------------------------------
# Level one
# ---------------------------------------------------------------------------

class LevelOne(Case):

    def test_mono_shorter_equal_longer(self):
        # B 10: R 5, D 5, ruby at 5; R 10, D 0; R 11, D 1, base at 1.
        self.assertEqual(one_line([m(1)]), ([0], [5]))
        self.assertEqual(one_line([m(2)]), ([0], [0, 10]))
        self.assertEqual(one_line([m([5, 6])]), ([1], [0, 10]))

    def test_mono_is_never_spread(self):
        # B 100, R 10, D 90: solid at 90, not spread.
        self.assertEqual(one_line([m(2, width=100)]), ([0], [90, 100]))

    def test_mono_takes_any_classes(self):
        # Western over Western, 26, and a mixture: only G and J refuse them.
        for cls, ruby_class in ((24, 27), (26, 26), (19, 26), (26, 15)):
            self.assertEqual(one_line([m(3, cls=cls, ruby_class=ruby_class)]),
                             ([5], [0, 10, 20]))
        bases, rubies, line = m(3)
        rubies = [(24, 5), (15, 5), (26, 5)]
        self.assertEqual(one_line([(bases, rubies, line)]),
                         ([5], [0, 10, 20]))

    def test_group_equal_sums_are_solid(self):
        # B 20, R 20.
        self.assertEqual(one_line([g(2, 4)]), ([0, 20], [0, 10, 20, 30]))
        self.assertEqual(one_line([g(2, [7, 13])]), ([0, 20], [0, 14]))

    def test_half_em_limit_one_under_at_and_over(self):
        # n 2. B 28: D 18, g 9; second at 9 + 10 + (36 - 18) = 37.
        self.assertEqual(one_line([g([10, 10, 8], 2)])[1], [9, 37])
        # B 29: D 19, g floor(9.5) = 9; second at 9 + 10 + (38 - 18) = 39.
        self.assertEqual(one_line([g([10, 10, 9], 2)])[1], [9, 39])
        # B 31: D 21, g 10; second at 10 + 10 + (42 - 20) = 42.
        self.assertEqual(one_line([g([10, 10, 11], 2)])[1], [10, 42])
        # B 32: D 22, floor(D/n) 11, held at 10; 10 + 10 + (44 - 20) = 44.
        self.assertEqual(one_line([g([10, 10, 12], 2)])[1], [10, 44])

    def test_no_limit_with_one_character(self):
        # B 100, R 5: D 95 though em is 10.
        self.assertEqual(one_line([g([50, 50], 1)])[1], [95])

    def test_no_limit_where_base_is_spread(self):
        # B 20, R 42, D 22, n 2: g 11 > em; second at 11 + 20 + 22 = 53.
        self.assertEqual(one_line([g(2, [6] * 7)])[0], [11, 53])

    def test_no_limit_over_western_base(self):
        # B 50, R 10, D 40, n 2: g 20; second at 20 + 10 + (80 - 40) = 70.
        self.assertEqual(one_line([g(5, 2, cls=24)])[1], [20, 70])

    def test_kana_ruby_over_western_base_longer_is_solid(self):
        # B 20, R 35, D 15: base solid at 15.
        self.assertEqual(one_line([g(2, 7, cls=27)])[0], [15, 35])

    def test_western_ruby_over_kana_base(self):
        # Shorter: B 50, R 10, D 40: solid at 40.
        self.assertEqual(one_line([g(5, 2, ruby_class=25)])[1], [40, 50])
        # Longer: B 20, R 35: base spread as in K4.
        self.assertEqual(one_line([g(2, 7, ruby_class=24)])[0], [7, 43])
        # Longer beyond half an em: B 20, R 42: g 11, as above.
        self.assertEqual(one_line([g(2, [6] * 7, ruby_class=24)])[0],
                         [11, 53])

    def test_inner_gaps_are_floored_afresh(self):
        # B 25, R 20, D 5, n 4: g 1, 2D - 2g = 8; floor(8i/3) = 0, 2, 5, 8.
        # 1; 1+10+2 = 13; 1+20+5 = 26; 1+30+8 = 39.
        self.assertEqual(one_line([g([10, 10, 5], 4)])[1], [1, 13, 26, 39])

    def test_gap_smaller_than_count(self):
        # B 21, R 20, D 1, n 4: g 0, floor(2i/3) = 0, 0, 1, 2.
        # 0; 10+0 = 10; 20+1 = 21; 30+2 = 32.
        self.assertEqual(one_line([g([10, 11], 4)])[1], [0, 10, 21, 32])

    def test_spread_of_uneven_widths(self):
        # Ruby 2, 8, 5 (15) over 30: D 15, n 3, g 5, 2D - 2g = 20.
        # 5; 5+4+10 = 19; 5+20+20 = 45.
        self.assertEqual(one_line([g(3, [2, 8, 5])])[1], [5, 19, 45])

    def test_single_base_character_spread(self):
        # B 10, R 20, D 10, n 1: base at D.
        self.assertEqual(one_line([g(1, 4)]), ([10], [0, 10, 20, 30]))

    def test_jukugo_run_of_one_em_and_one_more(self):
        # Runs 10 and 5: each solid over its own character: 0, 10 and 25.
        self.assertEqual(one_line([j([[5, 5], [5]])])[1], [0, 10, 25])
        # Runs 11 and 5: set as G: B 20, R 16, D 4, n 3, g 1, 2D - 2g = 6.
        # 1; 1+10+3 = 14; 1+22+6 = 29.
        self.assertEqual(one_line([j([[5, 6], [5]])])[1], [1, 14, 29])

    def test_jukugo_run_is_compared_with_one_em(self):
        # Run 11 is longer than one em though both bases have 20 together.
        self.assertEqual(one_line([j([[11], [1]])])[1],
                         # D 8, n 2, g 4: 4; 4+22+(16-8) = 34
                         [4, 34])

    def test_jukugo_longer_in_all_spreads_the_base(self):
        # Runs 15 and 10: R 25, B 20, D 5, n 2, g 2; 2; 2+20+(10-4) = 28.
        self.assertEqual(one_line([j([3, 2])]),
                         ([2, 28], [0, 10, 20, 30, 40]))

    def test_jukugo_set_as_group_with_shorter_ruby(self):
        # The limit never holds in a J: every base character, one em wide,
        # has a ruby character of its own, so D/n is below one em.
        # 4 bases (B 40), runs 11, 1, 1, 1: R 14, D 26, n 4, g 6 (< 10),
        # 2D - 2g = 40, floor(40i/3) = 0, 13, 26, 40.
        # 6; 6+22+13 = 41; 6+24+26 = 56; 6+26+40 = 72.
        self.assertEqual(one_line([j([[11], [1], [1], [1]])])[1],
                         [6, 41, 56, 72])
        # em 2, bases 2 wide, runs 3, 1, 1, 1, 1, 1, 1 over 14: R 9, D 5,
        # n 7, g 0, 2D = 10, floor(10i/6): 0, 1, 3, 5, 6, 8, 10; twice the
        # widths before: 0, 6, 8, 10, 12, 14, 16.
        runs = [[3], [1], [1], [1], [1], [1], [1]]
        self.assertEqual(one_line([j(runs, em=2)], em=2)[1],
                         [0, 7, 11, 15, 18, 22, 26])

    def test_jukugo_with_western_ruby(self):
        # No run longer than one em: each solid over its own.
        self.assertEqual(one_line([j([1, 1], ruby_class=27)])[1], [5, 25])
        # A long run, shorter in all: B 30, R 25, D 5: Western ruby is solid.
        self.assertEqual(one_line([j([3, 1, 1], ruby_class=27)])[1],
                         [5, 15, 25, 35, 45])
        # Longer in all: base spread as with kana-like ruby.
        self.assertEqual(one_line([j([3, 2], ruby_class=27)])[0], [2, 28])

    def test_jukugo_of_one_character(self):
        self.assertEqual(one_line([j([1])]), ([0], [5]))
        self.assertEqual(one_line([j([3])]), ([5], [0, 10, 20]))

    def test_smallest_em(self):
        # em 2: limit 2 hu. B 6 (three of 2), R 2, D 4, n 2: floor 2, g 2;
        # second at 2 + 2 + (8 - 4) = 8.
        self.assertEqual(one_line([g([2, 2, 2], [1, 1])], em=2)[1], [2, 8])
        # B 8: D 6, floor 3, held at 2; second at 2 + 2 + (12 - 4) = 12.
        self.assertEqual(one_line([g([2, 2, 4], [1, 1])], em=2)[1], [2, 12])


# ---------------------------------------------------------------------------
# ratios
# ---------------------------------------------------------------------------
# g(3, 2): B 30, R 10, D 20, 2D 40.  g(5, 2): B 50, R 10, D 40, 2D 80.
# g(2, 7): B 20, R 35, D 15, 2D 30.  g(4, 1): B 40, R 5, D 35, 2D 70.

SHOULDER = (0, 0, 1)    # "no space before, none between, all after"
OTHER = (7, 0, 0)       # what the string that is not spread would show


def by_ruby(ratio, word, em=10):
    """The ruby positions of a word, spread by this ratio."""
    return by_ratios((ratio, OTHER), [word], em)[1]


def by_base(ratio, word, em=10):
    """The base positions of a word, spread by this ratio."""
    return by_ratios((OTHER, ratio), [word], em)[0]


def by_ratios(ratios, elements, em=10, measure=4000):
    """(base positions, ruby positions) of a job that is one line."""
    call = Lists(elements, em, measure, ratios)
    assert call.result == ('set', 1), call.result
    lists = as_lists(elements)
    return (call.base_out[:len(lists['flag'])],
            call.ruby_out[:len(lists['ruby_width'])])


def spread_of_document_01(widths, difference, limit):
    """What R-4 has in its 1:2:1, as document 01 states it.

    "The shorter string gets equal end gaps g = floor(D/n). Character i (from
    0) starts at g + twice the widths before it + floor((2D - 2g) * i /
    (n - 1)). With n = 1 it starts at D."
    """
    n, at = len(widths), []
    if n == 1:
        return [difference]
    g = difference // n
    if limit is not None and g > limit:
        g = limit
    before = 0
    for i, width in enumerate(widths):
        at.append(g + 2 * before + (2 * difference - 2 * g) * i // (n - 1))
        before += width
    return at


def random_spreads(seed, count):
    """(widths, D, limit) of strings that are spread."""
    rng = random.Random(seed)
    for _ in range(count):
        widths = [1 + rng.randrange(30)
                  for _ in range(1 + rng.randrange(12))]
        limit = rng.choice((None, 2, 10, 10, 2 + 2 * rng.randrange(20)))
        yield widths, 1 + rng.randrange(rng.choice((10, 100, 1000))), limit


class Ratios(Case):

    def test_shoulder_set(self):
        # All 40 hu after the ruby, all 30 hu after the base.
        self.assertEqual(by_ruby(SHOULDER, g(3, 2)), [0, 10])
        self.assertEqual(by_base(SHOULDER, g(2, 7)), [0, 20])
        # The other string is solid from the word's start.
        self.assertEqual(by_ratios((SHOULDER, OTHER), [g(3, 2)])[0],
                         [0, 20, 40])
        self.assertEqual(by_ratios((OTHER, SHOULDER), [g(2, 7)])[1],
                         [0, 10, 20, 30, 40, 50, 60])

    def test_one_three_one_of_ruby(self):
        # n 2, S 1 + 3 + 1 = 5, gaps floor(40/5) = 8 and 8, inside 24.
        # 8; 8 + 10 + 24 = 42.
        self.assertEqual(by_ruby((1, 3, 1), g(3, 2)), [8, 42])
        # B 30, R 15, 2D 30, n 3, S 1 + 6 + 1 = 8: floor(30/8) = 3 and 3,
        # inside 24: 3; 3 + 10 + 12 = 25; 3 + 20 + 24 = 47.
        self.assertEqual(by_ruby((1, 3, 1), g(3, 3)), [3, 25, 47])
        # 2D 80: 16 and 16, both held at 10, inside 60: 10 + 10 + 60 = 80.
        self.assertEqual(by_ruby((1, 3, 1), g(5, 2)), [10, 80])

    def test_one_three_one_of_base(self):
        # n 2, S 5: floor(30/5) = 6 and 6, inside 18: 6; 6 + 20 + 18 = 44.
        self.assertEqual(by_base((1, 3, 1), g(2, 7)), [6, 44])
        # B 30, R 40, 2D 20, n 3, S 8: floor(20/8) = 2 and 2, inside 16.
        # 2; 2 + 20 + 8 = 30; 2 + 40 + 16 = 58.
        self.assertEqual(by_base((1, 3, 1), g(3, 8)), [2, 30, 58])

    def test_ends_are_floored_each_for_itself(self):
        # 2:3:5, n 2, S 10, 2D 30: 6 and 15, inside 9: 6; 6 + 20 + 9 = 35.
        self.assertEqual(by_base((2, 3, 5), g(2, 7)), [6, 35])
        # 2:3:4, S 9: floor(60/9) = 6, floor(120/9) = 13, inside 11:
        # 6; 6 + 20 + 11 = 37.
        self.assertEqual(by_base((2, 3, 4), g(2, 7)), [6, 37])
        # 4:3:2: 13 and 6, inside 11: 13; 13 + 20 + 11 = 44.
        self.assertEqual(by_base((4, 3, 2), g(2, 7)), [13, 44])

    def test_inner_gaps_are_floored_afresh(self):
        # B 25, R 20, D 5, 2D 10, n 4.  0:1:3, S 3 + 3 = 6: rear floor(30/6)
        # = 5, inside 5, floor(5i/3) = 0, 1, 3, 5: 0; 10+1; 20+3; 30+5.
        self.assertEqual(by_ruby((0, 1, 3), g([10, 10, 5], 4)),
                         [0, 11, 23, 35])

    def test_nothing_at_the_ends(self):
        # 0:1:0: all 40 hu inside: 0; 10 + 40.  Base: 0; 20 + 30.
        self.assertEqual(by_ruby((0, 1, 0), g(3, 2)), [0, 50])
        self.assertEqual(by_base((0, 1, 0), g(2, 7)), [0, 50])

    def test_all_before(self):
        # 1:0:0: all 40 hu in front of the ruby, all 30 of the base.
        self.assertEqual(by_ruby((1, 0, 0), g(3, 2)), [40, 50])
        self.assertEqual(by_base((1, 0, 0), g(2, 7)), [30, 50])

    def test_the_rear_takes_what_is_left(self):
        # 1:0:2, S 3: front floor(40/3) = 13 and the rest behind: 13, 23.
        self.assertEqual(by_ruby((1, 0, 2), g(3, 2)), [13, 23])
        # 2:0:1: front floor(80/3) = 26: 26, 36.
        self.assertEqual(by_ruby((2, 0, 1), g(3, 2)), [26, 36])
        # 3:0:4 of the base, S 7: front floor(90/7) = 12: 12, 32.
        self.assertEqual(by_base((3, 0, 4), g(2, 7)), [12, 32])

    def test_one_ruby_character(self):
        # 2D 70, S a + c; the limit of 10 hu is not for one character.
        for ratio, place in (((1, 2, 1), 35), (SHOULDER, 0), ((1, 0, 0), 70),
                             ((1, 3, 1), 35), ((1, 5, 2), 23), ((2, 7, 1), 46),
                             ((0, 7, 5), 0), ((5, 7, 0), 70), ((7, 0, 7), 35)):
            self.assertEqual(by_ruby(ratio, g(4, 1)), [place])

    def test_one_base_character(self):
        # B 10, R 20, 2D 20: 1:0:2 floor(20/3) = 6; 2:1:1 floor(40/3) = 13.
        for ratio, place in (((1, 2, 1), 10), (SHOULDER, 0), ((1, 0, 0), 20),
                             ((1, 0, 2), 6), ((2, 1, 1), 13), ((0, 1, 1), 0),
                             ((1, 1, 0), 20)):
            self.assertEqual(by_base(ratio, g(1, 4)), [place])

    def test_one_character_centred(self):
        # "if a and c are both 0 the character is centred": D.
        for m in (1, 3, 7):
            self.assertEqual(by_ruby((0, m, 0), g(4, 1)), [35])
            self.assertEqual(by_base((0, m, 0), g(1, 4)), [10])

    def test_limit_at_one_end(self):
        # n 2, 2D 80.  0:1:4, S 5: 0 and 64, held at 10, inside 70: 10 + 70.
        self.assertEqual(by_ruby((0, 1, 4), g(5, 2)), [0, 80])
        # 4:1:0: 64, held at 10, and 0, inside 70: 10; 10 + 10 + 70 = 90.
        self.assertEqual(by_ruby((4, 1, 0), g(5, 2)), [10, 90])
        # 1:6:4, S 11: floor(80/11) = 7; floor(320/11) = 29, held at 10;
        # inside 63: 7; 7 + 10 + 63 = 80.
        self.assertEqual(by_ruby((1, 6, 4), g(5, 2)), [7, 80])
        # 4:6:1: 10 and 7, inside 63: 10; 10 + 10 + 63 = 83.
        self.assertEqual(by_ruby((4, 6, 1), g(5, 2)), [10, 83])
        # B 60, R 15, 2D 90, n 3.  1:2:5, S 10: 9; 45, held at 10; inside 71:
        # 9; 9 + 10 + floor(71/2) = 54; 9 + 20 + 71 = 100.
        self.assertEqual(by_ruby((1, 2, 5), g(6, 3)), [9, 54, 100])

    def test_limit_at_both_ends(self):
        # 1:1:4, S 6: floor(80/6) = 13 and floor(320/6) = 53: 10 and 10,
        # inside 60: 10; 10 + 10 + 60 = 80.
        self.assertEqual(by_ruby((1, 1, 4), g(5, 2)), [10, 80])

    def test_limit_one_under_at_and_over(self):
        # 0:3:1, n 2, S 4.  B 28, 2D 36: rear 9, inside 27: 10 + 27 = 37.
        self.assertEqual(by_ruby((0, 3, 1), g([10, 10, 8], 2)), [0, 37])
        # B 30, 2D 40: rear 10, inside 30: 40.
        self.assertEqual(by_ruby((0, 3, 1), g(3, 2)), [0, 40])
        # B 32, 2D 44: rear 11, held at 10, inside 34: 44.
        self.assertEqual(by_ruby((0, 3, 1), g([10, 10, 12], 2)), [0, 44])
        # 1:3:0 of the same: front 11, held at 10, inside 34: 10 + 10 + 34.
        self.assertEqual(by_ruby((1, 3, 0), g([10, 10, 12], 2)), [10, 54])

    def test_no_limit_with_m_0(self):
        # 1:0:1, S 2, 2D 80: front 40, no more than 10 with the limit.
        self.assertEqual(by_ruby((1, 0, 1), g(5, 2)), [40, 50])
        # 0:0:1: rear 80; 1:0:0: front 80.
        self.assertEqual(by_ruby(SHOULDER, g(5, 2)), [0, 10])
        self.assertEqual(by_ruby((1, 0, 0), g(5, 2)), [80, 90])

    def test_no_limit_where_it_never_stood(self):
        # Western base: 0:1:4, 2D 80: 0 and 64, inside 16: 0; 10 + 16 = 26.
        self.assertEqual(by_ruby((0, 1, 4), g(5, 2, cls=24)), [0, 26])
        # Base spread: B 20, R 42, 2D 44: 0:1:4: 0 and floor(176/5) = 35,
        # inside 9: 0; 20 + 9 = 29.  Under Western ruby the same.
        self.assertEqual(by_base((0, 1, 4), g(2, [6] * 7)), [0, 29])
        self.assertEqual(by_base((0, 1, 4), g(2, [6] * 7, ruby_class=24)),
                         [0, 29])

    def test_each_string_by_its_own_ratio(self):
        # Ruby 0:0:1: 0, 10; base 1:0:0: 30, 50 behind the word's start.  The
        # first word is 0..60, the second's ruby 60..130.
        self.assertEqual(by_ratios((SHOULDER, (1, 0, 0)), [g(3, 2), g(2, 7)]),
                         ([0, 20, 40, 90, 110],
                          [0, 10, 60, 70, 80, 90, 100, 110, 120]))

    def test_what_is_solid_is_not_touched(self):
        for ratio in (SHOULDER, (1, 0, 0), (0, 3, 0), (7, 1, 2)):
            def positions(word):
                return by_ratios((ratio, ratio), [word])
            # M, ruby shorter, equal and longer: D 5, 0, 5.
            self.assertEqual(positions(m(1)), ([0], [5]))
            self.assertEqual(positions(m(2)), ([0], [0, 10]))
            self.assertEqual(positions(m(3)), ([5], [0, 10, 20]))
            self.assertEqual(positions(m(2, width=100)), ([0], [90, 100]))
            # G, equal sums.
            self.assertEqual(positions(g(2, 4)), ([0, 20], [0, 10, 20, 30]))
            # Kana-like ruby over Western base, longer: D 15.
            self.assertEqual(positions(g(2, 7, cls=27))[0], [15, 35])
            # Western ruby over kana-like base, shorter: D 40.
            self.assertEqual(positions(g(5, 2, ruby_class=25))[1], [40, 50])
            # J, no run longer than one em: K7.
            self.assertEqual(positions(j([1, 2])), ([0, 20], [5, 20, 30]))
            self.assertEqual(positions(j([1])), ([0], [5]))
            # J as G with equal sums: K8.
            self.assertEqual(positions(j([1, 3]))[1], [0, 10, 20, 30])
            # J as G, Western ruby, shorter in all: B 30, R 25, D 5.
            self.assertEqual(positions(j([3, 1, 1], ruby_class=27))[1],
                             [5, 15, 25, 35, 45])

    def test_jukugo_as_group(self):
        # Runs 11 and 5: ruby 5, 6, 5 (16) over 20, 2D 8, n 3.  0:0:1: 0, 10,
        # 22.  1:1:0, S 1 + 2 = 3: front floor(8/3) = 2, inside 6: 2; 2+10+3;
        # 2+22+6.
        self.assertEqual(by_ruby(SHOULDER, j([[5, 6], [5]])), [0, 10, 22])
        self.assertEqual(by_ruby((1, 1, 0), j([[5, 6], [5]])), [2, 15, 30])
        # Runs 15 and 10: R 25 over 20, 2D 10, n 2.  1:0:0: 10, 30.
        self.assertEqual(by_base((1, 0, 0), j([3, 2])), [10, 30])
        # Western ruby spreads the base alike.
        self.assertEqual(by_base((1, 0, 0), j([3, 2], ruby_class=27)),
                         [10, 30])

    def test_jukugo_of_one_character(self):
        # R 15, B 10, 2D 10.  Not cut, it is set as G: 1:0:0 at 10, 0:0:1 at
        # 0, 1:7:2 at floor(10/3) = 3, 0:2:0 at D, 5.
        for ratio, place in (((1, 0, 0), 10), (SHOULDER, 0), ((1, 7, 2), 3),
                             ((0, 2, 0), 5), ((1, 2, 1), 5)):
            self.assertEqual(by_base(ratio, j([3])), [place])

    def test_part_of_one_character(self):
        # Measure 25: both characters together have R 30, 60 > 50, so each is
        # a part of one, set as M, at 5; the P stands where its ruby ends.
        call = self.accepted([j([3, 3]), p()], measure=25,
                             ratios=(OTHER, (1, 0, 0)))
        self.assertEqual(call.line_out[:2], [1, 3])
        self.assertEqual(call.base_out[:3], [5, 5, 30])
        # In one line: B 20, R 30, 2D 20: 20, 40, and the P where the ruby
        # ends, which is where the block ends too: 60.
        self.assertEqual(by_ratios((OTHER, (1, 0, 0)), [j([3, 3]), p()])[0],
                         [20, 40, 60])

    def test_part_of_more_characters(self):
        # Runs 15, 15, 5; measure 30: as a whole R 35, 70 > 60.  Two: B 20,
        # R 30, 2D 20, base 0:0:1: 0, 20.  Then one with a run of 5: 5.
        call = self.accepted([j([3, 3, 1])], measure=30,
                             ratios=(OTHER, SHOULDER))
        self.assertEqual(call.line_out[:2], [2, 3])
        self.assertEqual(call.base_out[:3], [0, 20, 0])
        self.assertEqual(call.ruby_out[:7], [0, 10, 20, 30, 40, 50, 5])

    def test_protrusions_that_differ(self):
        # g(2, 7), base 0:0:1: block 0..40, ruby 0..70.  Between two P: the
        # first 0..20, the word from there, the second behind its ruby.
        self.assertEqual(by_ratios((OTHER, SHOULDER),
                                   [p(), g(2, 7), p()])[0], [0, 20, 40, 90])
        # Base 1:0:0: block 30..70: the second P where both end.
        self.assertEqual(by_ratios((OTHER, (1, 0, 0)),
                                   [p(), g(2, 7), p()])[0], [0, 50, 70, 90])
        # A space behind it, 0:0:1: 10 hu of ruby on it, from 60, and no ruby
        # of the next word on the same 10 hu: the word from 80 (its block
        # behind the space, 80; its ruby from 70).
        self.assertEqual(by_ratios((OTHER, SHOULDER),
                                   [g(2, 7), p(14, 10), g(2, 7)])[0],
                         [0, 20, 60, 80, 100])
        # 1:0:0: the space where the block ends, 70..90; the next ruby from
        # 80, its block from 110.
        self.assertEqual(by_ratios((OTHER, (1, 0, 0)),
                                   [g(2, 7), p(14, 10), g(2, 7)])[0],
                         [30, 50, 70, 110, 130])

    def test_protrusions_decide_what_fits(self):
        # A space of 20 units between them.  0:0:1: it is 60..100, and the
        # next word 100..170; 1:0:0: 70..110, and the next ruby 100..170.
        words = [g(2, 7, flags=[0, 0]), p(14, 20, flag=0), g(2, 7)]
        for ratio in (SHOULDER, (1, 0, 0)):
            self.accepted(words, measure=85, ratios=(OTHER, ratio))
            self.refused(11, 0, words, measure=84, ratios=(OTHER, ratio))
        # 1:2:1 (K4): block 7..63, ruby 0..70; space at 63 (60 by the ruby),
        # 63..103; the next origin 96 by the blocks (103 - 7), 93 by the
        # space: it ends at 166.
        self.accepted(words, measure=83)
        self.refused(11, 0, words, measure=82)

    def test_two_four_two_is_one_two_one(self):
        for widths, difference, limit in random_spreads(41, 500):
            self.assertEqual(
                second.spread(widths, difference, (2, 4, 2), limit),
                second.spread(widths, difference, (1, 2, 1), limit))

    def test_one_two_one_is_document_01(self):
        held = 0
        for widths, difference, limit in random_spreads(42, 3000):
            expected = spread_of_document_01(widths, difference, limit)
            self.assertEqual(
                second.spread(widths, difference, (1, 2, 1), limit), expected)
            held += len(widths) > 1 and expected[0] == limit
        self.assertGreater(held, 100)

    def test_all_space_sums_to_2d(self):
        # The last character ends 2D after the widths, less the rear gap, and
        # that is floor(2D * c / S) where m is not 0, held or not.
        rng = random.Random(43)
        for widths, difference, limit in random_spreads(44, 1000):
            a, m, c = (rng.randrange(8) for _ in range(3))
            n = len(widths)
            if n == 1 or m == 0:
                continue
            rear = 2 * difference * c // (a + m * (n - 1) + c)
            if limit is not None:
                rear = min(rear, limit)
            last = second.spread(widths, difference, (a, m, c), limit)[-1]
            self.assertEqual(last + 2 * widths[-1] + rear,
                             2 * sum(widths) + 2 * difference)


# ---------------------------------------------------------------------------
# Level two
# ---------------------------------------------------------------------------
# m(3): origin o: block o+5..o+25, ruby o..o+30.
# m(4): origin o: block o+10..o+30, ruby o..o+40 (R 20, D 10).
# m(6): origin o: block o+20..o+40, ruby o..o+60 (R 30, D 20).

class Clearance(Case):

    def test_plain_characters_touch(self):
        self.assertEqual(one_line([p(), p(width=7), p(width=1)])[0],
                         [0, 20, 34])

    def test_ruby_inside_its_block_keeps_nothing_off(self):
        self.assertEqual(one_line([m(1), p(), m(2), j([1, 2]), p()])[0],
                         [0, 20, 40, 60, 80, 100])

    def test_ruby_keeps_off_a_plain_character(self):
        self.assertEqual(one_line([m(3), p()])[0], [5, 30])
        self.assertEqual(one_line([p(), m(3)])[0], [0, 25])

    def test_ruby_keeps_off_a_block_with_short_ruby(self):
        # Second block from 30 (end of the first ruby), its ruby at 35.
        self.assertEqual(one_line([m(3), m(1)]), ([5, 30], [0, 10, 20, 35]))
        # First block 0..20; the second ruby from 20, its block at 25.
        self.assertEqual(one_line([m(1), m(3)]), ([0, 25], [5, 20, 30, 40]))

    def test_depth_ends_at_the_far_edge_of_a_narrow_space(self):
        # Ruby to 30, block to 25.  Width 1: depth 2, space at 28; width 2:
        # depth 4, at 26; width 3: depth 6, 24 by the ruby, 25 by the block.
        for width, place in ((1, 28), (2, 26), (3, 25), (4, 25)):
            self.assertEqual(one_line([m(3), p(14, width)])[0], [5, place])
        # Same with a class 1 that is all blank.
        self.assertEqual(one_line([m(3), p(1, 1, 1, 0)])[0], [5, 28])
        # Class 5, all blank before, width 2: depth min(4, 5) = 4, at 26.
        self.assertEqual(one_line([m(3), p(5, 2, 2, 0)])[0], [5, 26])

    def test_extent_after_a_narrow_space(self):
        # Space 28..30, ruby to 30.
        self.assertEqual(lines_of([m(3), p(14, 1)])[0][0], 30)

    def test_narrow_space_between_two_rubies(self):
        # Space 28..30; next ruby from 30 (rule 3; 28 by the space), base 35.
        self.assertEqual(one_line([m(3), p(14, 1), m(3)]),
                         ([5, 28, 35], [0, 10, 20, 30, 40, 50]))

    def test_half_em_is_the_most(self):
        # m(6): ruby to 60, block to 40. Space 20 wide: depth 10: space at 50.
        self.assertEqual(one_line([m(6), p(14, 20)])[0], [20, 50])
        # 5 wide: depth 10, the same; 4 wide: depth 8: space at 52.
        self.assertEqual(one_line([m(6), p(14, 5)])[0], [20, 50])
        self.assertEqual(one_line([m(6), p(14, 4)])[0], [20, 52])
        # Before a word: space 20..60, ruby from 50, base at 70.
        self.assertEqual(one_line([p(), p(14, 20), m(6)])[0], [0, 20, 70])
        # Space 20..28, ruby from 20, base at 40.
        self.assertEqual(one_line([p(), p(14, 4), m(6)])[0], [0, 20, 40])

    def test_blank_before_of_class_1(self):
        # m(4): ruby to 40, block to 30. Blank 5: depth 10: at 30;
        # blank 6: still 10, at 30; blank 4: depth 8: at 32; none: at 40.
        for blank, place in ((5, 30), (6, 30), (4, 32), (1, 38), (0, 40)):
            self.assertEqual(one_line([m(4), p(1, 10, blank, 0)])[0],
                             [10, place])
        # It has no blank after: 0..20, ruby from 20, base at 30.
        self.assertEqual(one_line([p(1, 10, 10, 0), m(4)])[0], [0, 30])

    def test_blank_after_of_classes_2_6_7(self):
        # Block 0..20.  Blank 5: ruby from 10, base at 20; blank 6: the same;
        # blank 4: ruby from 12, base at 22; none: ruby from 20, base at 30.
        for cls in (2, 6, 7):
            for blank, place in ((5, 20), (6, 20), (4, 22), (0, 30)):
                self.assertEqual(one_line([p(cls, 10, 0, blank), m(4)])[0],
                                 [0, place])
            # They have no blank before: ruby to 40.
            self.assertEqual(one_line([m(4), p(cls, 10, 0, 10)])[0],
                             [10, 40])

    def test_class_5_has_a_quarter_em(self):
        # Quarter em 5 hu. Blank before 5 (10 hu), 3 (6 hu): depth 5: at 35;
        # 2: depth 4: at 36; 0: at 40.
        for blank, place in ((5, 35), (3, 35), (2, 36), (0, 40)):
            self.assertEqual(one_line([m(4), p(5, 10, blank, 5)])[0],
                             [10, place])
        # After: block 0..20; ruby from 15, base 25; 16, 26; 20, 30.
        for blank, place in ((5, 25), (3, 25), (2, 26), (0, 30)):
            self.assertEqual(one_line([p(5, 10, 5, blank), m(4)])[0],
                             [0, place])

    def test_quarter_of_the_smallest_em(self):
        # em 2: quarter em 1 hu. m over 2 wide, ruby 2+2: block 2..6, ruby
        # 0..8. Dot 2 wide, blanks 1 and 1 (2 hu): depth 1: dot at 7.
        self.assertEqual(one_line([m([2, 2], width=2), p(5, 2, 1, 1)],
                                  em=2)[0], [2, 7])

    def test_blanks_of_one_side_only(self):
        # m(4) to 40; dot with blank 5 after only: at 40, then 40..60; next
        # ruby from 55, base 65.
        self.assertEqual(one_line([m(4), p(5, 10, 0, 5), m(4)])[0],
                         [10, 40, 65])

    def test_one_space_under_two_rubies(self):
        # Space 10 wide: 40 - 10 = 30, space 30..50; next ruby from 40 both
        # by the space (50 - 10) and by rule 3; base at 50.
        self.assertEqual(one_line([m(4), p(14, 10), m(4)])[0], [10, 30, 50])
        # 4 wide: depth 8: space 32..40; next ruby 32 by the space, 40 by
        # rule 3; base at 50.
        self.assertEqual(one_line([m(4), p(14, 4), m(4)])[0], [10, 32, 50])

    def test_plain_between_plain(self):
        # Space 0..20, space 20..22 (depth 2): ruby from 20; base at 30.
        # The first space is not just before the word.
        self.assertEqual(one_line([p(14, 10), p(14, 1), m(4)])[0],
                         [0, 20, 30])
        # Word to 40: narrow space at 38..40, then the wide one.
        self.assertEqual(one_line([m(4), p(14, 1), p(14, 10)])[0],
                         [10, 38, 40])

    def test_line_start(self):
        # The ruby stands at the line's start, not the base.
        self.assertEqual(one_line([m(6)]), ([20], [0, 10, 20, 30, 40, 50]))

    def test_space_as_base_of_a_word_is_no_blank(self):
        # m(4) to 40; the word over a space begins there, its ruby at 45.
        self.assertEqual(one_line([m(4), m(1, cls=14)]),
                         ([10, 40], [0, 10, 20, 30, 45]))
        # G over a space: B 10, R 5, n 1: ruby at 5.
        self.assertEqual(one_line([m(4), g(1, 1, cls=14)])[0], [10, 40])
        # And before a word: block 0..20, next ruby from 20.
        self.assertEqual(one_line([m(1, cls=14), m(4)])[0], [0, 30])

    def test_group_with_spread_base(self):
        # K4: block 7..63, ruby 0..70; the next one from 70.
        self.assertEqual(one_line([g(2, 7), g(2, 7)])[0], [7, 43, 77, 113])
        # Space 10 wide: 60 by the ruby (70 - 10), 63 by the block: 63..83.
        # Second origin: 70 by rule 3, 73 by the space (83 - 10), 76 by the
        # blocks (83 - 7): bases at 76 + 7 = 83 and 76 + 43 = 119.
        self.assertEqual(one_line([g(2, 7), p(14, 10), g(2, 7)])[0],
                         [7, 43, 63, 83, 119])

    def test_neighbour_in_the_line_only(self):
        # Measure 20: the comma ends line one; the word of line two has its
        # ruby at 0 and its base at 10.
        self.assertEqual(
            lines_of([p(), p(7, 10, 0, 5), m(4)], measure=20),
            [(40, [0, 20], []), (40, [10], [0, 10, 20, 30])])

    def test_part_of_a_jukugo_is_an_element(self):
        # Line one: J part of one character with run 15 as M: block 5..25,
        # ruby 0..30; line two: the other, then a plain one off its ruby.
        self.assertEqual(
            lines_of([j([3, 3]), p()], measure=25),
            [(30, [5], [0, 10, 20]), (50, [5, 30], [0, 10, 20])])


class OpeningIndent(Case):
    """R-1: "a class 14 character that is the job's first element takes no
    ruby at all. ... A class 14 character at the start of a later line is as
    before."
    """

    def test_it_takes_no_ruby(self):
        # Indent 0..20.  m(4): ruby from 20, base at 30; m(6): base at 40.
        self.assertEqual(one_line([p(14, 10), m(4)]),
                         ([0, 30], [20, 30, 40, 50]))
        self.assertEqual(one_line([p(14, 10), m(6)])[0], [0, 40])
        # Narrow, 0..2: ruby from 2, base at 12.  Wide, 0..80: ruby from 80.
        self.assertEqual(one_line([p(14, 1), m(4)])[0], [0, 12])
        self.assertEqual(one_line([p(14, 40), m(3)])[0], [0, 85])
        # K4, whose base is spread: ruby from 20, bases 7 and 43 behind it.
        self.assertEqual(one_line([p(14, 10), g(2, 7)])[0], [0, 27, 63])
        # A J with a run over one em is set as G: B 20, R 30, D 10, g 5: ruby
        # from 20, bases 5 and 35 behind it.
        self.assertEqual(one_line([p(14, 10), j([3, 3])])[0], [0, 25, 55])

    def test_a_short_reading_is_as_before(self):
        # Indent 0..20, base at 20; one ruby character 5 hu behind its start.
        self.assertEqual(one_line([p(14, 10), m(1)]), ([0, 20], [25]))
        self.assertEqual(one_line([p(14, 10), m(2)]), ([0, 20], [20, 30]))

    def test_the_second_space_is_as_before(self):
        # Spaces 0..20 and 20..40: ruby from 30, base at 40.
        self.assertEqual(one_line([p(14, 10), p(14, 10), m(4)])[0],
                         [0, 20, 40])

    def test_a_space_behind_another_element_is_as_before(self):
        # P 0..20, space 20..40: ruby from 30, base at 40.
        self.assertEqual(one_line([p(), p(14, 10), m(4)])[0], [0, 20, 40])
        # A word over a space is no P; the P behind it is the second element.
        self.assertEqual(one_line([m(1, cls=14), p(14, 10), m(4)])[0],
                         [0, 20, 40])

    def test_other_classes_are_as_before(self):
        # A comma 0..20 with a blank of 5: ruby from 10, base at 20.
        self.assertEqual(one_line([p(7, 10, 0, 5), m(4)])[0], [0, 20])

    def test_a_later_line_is_as_before(self):
        # Measure 25, 50 hu.  Line one: 40, and 60 with the space.  Line two:
        # space 0..20, ruby 10..50, base at 20.
        self.assertEqual(
            lines_of([p(), p(), p(14, 10, flag=0), m(4)], measure=25),
            [(40, [0, 20], []), (50, [0, 20], [10, 20, 30, 40])])
        # Measure 30, 60 hu: the same words in both lines.  Line one: indent
        # 0..20, ruby 20..60, base at 30.
        words = [p(14, 10, flag=0), m(4)]
        self.assertEqual(
            lines_of(words + words, measure=30),
            [(60, [0, 30], [20, 30, 40, 50]),
             (50, [0, 20], [10, 20, 30, 40])])

    def test_it_decides_what_fits(self):
        # As above, line one takes 60 hu.
        words = [p(14, 10, flag=0), m(4)]
        self.accepted(words, measure=30)
        self.refused(11, 0, words, measure=29)
        # Where the line may end after the indent, it does.
        self.assertEqual(
            lines_of([p(14, 10), m(4)], measure=29),
            [(20, [0], []), (40, [10], [0, 10, 20, 30])])

    def test_as_the_base_of_a_word(self):
        # No P: block 0..20, the next ruby from 20, as ever.  Nothing is
        # refused.
        space = [(14, 10, 0, 0, 1)]
        for line in ('M 1', 'G 1 1', 'J 1 1'):
            self.assertEqual(one_line([(space, [(15, 5)], line), m(4)]),
                             ([0, 30], [5, 20, 30, 40, 50]))
        # Its own reading may pass it: ruby 0..40, base at 10.
        self.assertEqual(one_line([m(4, cls=14)])[0], [10])

    def test_nothing_else(self):
        self.assertEqual(lines_of([p(14, 10)]), [(20, [0], [])])
        self.accepted([p(14, 10)], measure=10)
        self.refused(11, 0, [p(14, 10)], measure=9)


# ---------------------------------------------------------------------------
# profile 1
# ---------------------------------------------------------------------------

def by_profile(profile, elements, em=10):
    """(base positions, ruby positions) of a job that is one line."""
    call = Lists(elements, em, profile=profile)
    assert call.result == ('set', 1), call.result
    lists = as_lists(elements)
    return (call.base_out[:len(lists['flag'])],
            call.ruby_out[:len(lists['ruby_width'])])


def bases(*elements, profile=1, em=10):
    """The base positions of a job that is one line, by profile 1."""
    return by_profile(profile, elements, em)[0]


def kana(width=10, flag=1):
    return p(15, width, flag=flag)


class OnKana(Case):
    """R-8: "Profile 1 permits ruby on a P element of class 15 or 16 just
    before or just after, to a depth of at most one ruby em (half the em) and
    at most its width."

    m(3), m(4) and m(6) as above; half the em is 10 hu.
    """

    def test_just_after(self):
        for cls in (15, 16):
            # m(3): ruby to 30, block to 25: 20 by the ruby, 25 by the block.
            self.assertEqual(bases(m(3), p(cls)), [5, 25])
            # m(4): ruby to 40, block to 30: 30 by either.
            self.assertEqual(bases(m(4), p(cls)), [10, 30])
            # m(6): ruby to 60, block to 40: 10 hu of ruby on it, from 50.
            self.assertEqual(bases(m(6), p(cls)), [20, 50])

    def test_just_before(self):
        for cls in (15, 16):
            # Kana 0..20.  m(3): ruby from 15 by the block, base at 20.
            self.assertEqual(by_profile(1, [p(cls), m(3)]),
                             ([0, 20], [15, 25, 35]))
            # m(4): ruby from 10, base at 20; m(6): from 10, base at 30.
            self.assertEqual(bases(p(cls), m(4)), [0, 20])
            self.assertEqual(by_profile(1, [p(cls), m(6)]),
                             ([0, 30], [10, 20, 30, 40, 50, 60]))

    def test_profile_0_is_as_before(self):
        # Ruby to 30 and 60; kana 0..20, ruby from 20.
        for cls in (15, 16):
            self.assertEqual(bases(m(3), p(cls), profile=0), [5, 30])
            self.assertEqual(bases(m(6), p(cls), profile=0), [20, 60])
            self.assertEqual(bases(p(cls), m(4), profile=0), [0, 30])
            self.assertEqual(bases(p(cls), m(6), profile=0), [0, 40])

    def test_narrower_than_the_depth(self):
        # m(6): ruby to 60.  Width 6: depth min(12, 10): at 50; 5: 10, at 50;
        # 4: 8, at 52; 1: 2, at 58.  It never comes out behind the kana.
        for width, place in ((20, 50), (6, 50), (5, 50), (4, 52), (1, 58)):
            self.assertEqual(bases(m(6), kana(width)), [20, place])
        # Width 20, 0..40: ruby from 30, base at 50; 6, 0..12: ruby from 2, at
        # 22; 5, 0..10: ruby from 0, at 20; 4, 0..8, and 1, 0..2: the same.
        for width, place in ((20, 50), (6, 22), (5, 20), (4, 20), (1, 20)):
            self.assertEqual(bases(kana(width), m(6)), [0, place])
        # Behind a P 0..20.  Width 4, 20..28: ruby from 20, at 40.  Not over
        # it onto the P, however near that would be.
        self.assertEqual(bases(p(), kana(4), m(6)), [0, 20, 40])
        self.assertEqual(bases(m(6), kana(1), p()), [20, 58, 60])

    def test_one_ruby_em_of_another_em(self):
        # em 2: half of it is 2 hu.  Ruby 2 + 2 over 2: block 2..6, ruby 0..8.
        # Kana 2 wide: 6 by either; before: 0..4, ruby from 2, base at 4.
        word = m([2, 2], width=2)
        self.assertEqual(bases(word, kana(2), em=2), [2, 6])
        self.assertEqual(bases(kana(2), word, em=2), [0, 4])
        # em 8: 8 hu.  m(6), 10 wide: at 52; before: ruby from 12, base at 32.
        self.assertEqual(bases(m(6), kana(), em=8), [20, 52])
        self.assertEqual(bases(kana(), m(6), em=8), [0, 32])

    def test_between_two_long_readings(self):
        # m(6): ruby to 60, kana 50..70 with 10 hu of it; the next ruby from
        # 60, by the kana (70 - 10) and by rule 3: base at 80.  Both lie on
        # the whole kana and touch.
        self.assertEqual(by_profile(1, [m(6), kana(), m(6)]), (
            [20, 50, 80], [0, 10, 20, 30, 40, 50, 60, 70, 80, 90, 100, 110]))
        # Width 15: kana 50..80, ruby from 70: they do not meet, base at 90.
        self.assertEqual(bases(m(6), kana(15), m(6)), [20, 50, 90])
        # Profile 0: kana 60..80, ruby from 80, base at 100.
        self.assertEqual(bases(m(6), kana(), m(6), profile=0), [20, 60, 100])

    def test_rule_3_across_a_kana(self):
        # Width 7: kana 50..64.  By the kana the ruby from 54; by rule 3 from
        # 60: base at 80.
        self.assertEqual(bases(m(6), kana(7), m(6)), [20, 50, 80])
        # Width 4: depth 8: kana 52..60; 52 by the kana, 60 by rule 3.
        self.assertEqual(bases(m(6), kana(4), m(6)), [20, 52, 80])
        # Width 1: kana 58..60; 58 by the kana, 60 by rule 3.
        self.assertEqual(bases(m(6), kana(1), m(6)), [20, 58, 80])
        # m(3): block to 25, ruby to 30.  Width 1: kana 28..30, depth 2; width
        # 4: kana 25..33 (22 by the ruby); the next ruby from 30, base at 35.
        self.assertEqual(bases(m(3), kana(1), m(3)), [5, 28, 35])
        self.assertEqual(bases(m(3), kana(4), m(3)), [5, 25, 35])

    def test_two_kana(self):
        # Each reading has a kana of its own: 50..70 and 70..90; the ruby from
        # 80, base at 100.
        self.assertEqual(bases(m(6), kana(), kana(), m(6)),
                         [20, 50, 70, 100])
        # 1 wide: 58..60 and 60..62; the ruby from 60, by the second (62 - 2)
        # and by rule 3, base at 80.
        self.assertEqual(bases(m(6), kana(1), kana(1), m(6)),
                         [20, 58, 60, 80])

    def test_only_just_before_and_just_after(self):
        # A P between: kana 0..20, P 20..40: ruby from 40, base at 60.
        self.assertEqual(bases(kana(), p(), m(6)), [0, 20, 60])
        # Ruby to 60, P there, kana behind it.
        self.assertEqual(bases(m(6), p(), kana()), [20, 60, 80])

    def test_other_classes_take_none(self):
        # m(6) to 60; 0..20 and ruby from 20.  Small kana is class 11, the
        # prolonged sound mark 10; the classes with blanks have none here.
        for cls in list(range(1, 14)) + [17, 18, 19, 24, 25, 26, 27]:
            self.assertEqual(bases(m(6), p(cls)), [20, 60])
            self.assertEqual(bases(p(cls), m(6)), [0, 40])

    def test_as_the_base_of_a_word(self):
        # m(6) to 60, the next block there.  Block 0..20, the next ruby from
        # 20: base at 40.
        for cls in (15, 16):
            for line in ('M 1', 'G 1 1', 'J 1 1'):
                word = [(cls, 10, 0, 0, 1)], [(15, 5)], line
                self.assertEqual(bases(m(6), word), [20, 60])
                self.assertEqual(bases(word, m(6)), [0, 40])
            # G over two of them: block 0..40, ruby from 40, base at 60.
            self.assertEqual(bases(g(2, 2, cls=cls), m(6)), [0, 20, 60])
            # Long readings of both: rule 3, 60..120.
            self.assertEqual(bases(m(6), m(6, cls=cls)), [20, 80])

    def test_group_with_spread_base(self):
        # K4: block 7..63, ruby 0..70.  Kana at 63 (60 by the ruby), 63..83;
        # the next origin 76 by the blocks (83 - 7), 73 by the kana.
        self.assertEqual(bases(g(2, 7), kana(), g(2, 7)),
                         [7, 43, 63, 83, 119])

    def test_blanks_are_as_before(self):
        # All of profile 0 stays.  Bracket with blank before 5, 4, none: at
        # 50, 52, 60; comma with blank after 5, 4: ruby from 10, 12, base at
        # 30, 32.
        for blank, place in ((5, 50), (4, 52), (0, 60)):
            self.assertEqual(bases(m(6), p(1, 10, blank, 0)), [20, place])
        for blank, place in ((5, 30), (4, 32), (0, 40)):
            for cls in (2, 6, 7):
                self.assertEqual(bases(p(cls, 10, 0, blank), m(6)),
                                 [0, place])
        # Class 5 a quarter em, 5 hu: at 55; ruby from 15, base at 35.
        self.assertEqual(bases(m(6), p(5, 10, 5, 5)), [20, 55])
        self.assertEqual(bases(p(5, 10, 5, 5), m(6)), [0, 35])
        # A space that is not the first element: 50; 20..40, ruby from 30.
        self.assertEqual(bases(m(6), p(14)), [20, 50])
        self.assertEqual(bases(p(), p(14), m(6)), [0, 20, 50])

    def test_kana_beside_a_bracket(self):
        # Kana 50..70, the closing bracket 70..90 with a blank of 5: the next
        # ruby from 80, base at 100.
        self.assertEqual(bases(m(6), kana(), p(2, 10, 0, 5), m(6)),
                         [20, 50, 70, 100])
        # Opening bracket, blank of 5: 50..70; kana 70..90, ruby from 80.
        self.assertEqual(bases(m(6), p(1, 10, 5, 0), kana(), m(6)),
                         [20, 50, 70, 100])
        # The kana is 1 wide, 58..60: the bracket's blank is not next to the
        # ruby, which ends at 60.
        self.assertEqual(bases(m(6), kana(1), p(1, 10, 5, 0)), [20, 58, 60])

    def test_the_opening_indent_takes_none(self):
        # R-1 is as before: indent 0..20, ruby from 20, base at 40.
        self.assertEqual(bases(p(14), m(6)), [0, 40])
        # Indent 0..20, kana 20..40: ruby from 30, base at 50.
        self.assertEqual(bases(p(14), kana(), m(6)), [0, 20, 50])
        # 1 wide, 20..22: ruby from 20, base at 40.
        self.assertEqual(bases(p(14), kana(1), m(6)), [0, 20, 40])

    def test_first_in_a_later_line(self):
        # Measure 35, 70 hu.  Line one: 40, and 110 with the kana and the word
        # (kana 40..60, ruby 50..110).  Line two: kana 0..20, ruby 10..70,
        # base at 30.
        words = [p(), p(), kana(flag=0), m(6)]
        call = self.accepted(words, measure=35, profile=1)
        self.assertEqual(call.result, ('set', 2))
        self.assertEqual(call.line_out[:2], [2, 4])
        self.assertEqual(call.base_out[:4], [0, 20, 0, 30])
        # A reading at the end of a line lies on no kana of the next one.
        # Measure 35: ruby 0..60, and the kana 50..70 fits; 34: it does not.
        words = [m(6), kana()]
        self.assertEqual(self.accepted(words, measure=35, profile=1).result,
                         ('set', 1))
        call = self.accepted(words, measure=34, profile=1)
        self.assertEqual(call.result, ('set', 2))
        self.assertEqual(call.base_out[:2], [20, 0])

    def test_it_decides_what_fits(self):
        # Kana 50..70, ruby 60..120; by profile 0 60..80 and 80..140.
        words = [m(6, flag=0), kana(flag=0), m(6)]
        self.accepted(words, measure=60, profile=1)
        self.refused(11, 0, words, measure=59, profile=1)
        self.accepted(words, measure=70)
        self.refused(11, 0, words, measure=69)

    def test_parts_of_a_jukugo(self):
        # j([3, 3]) cut by measure 25: each part as M, ruby 0..30, block
        # 5..25.  The kana behind the second part at 25: 45 hu.
        call = self.accepted([j([3, 3]), kana()], measure=25, profile=1)
        self.assertEqual(call.result, ('set', 2))
        self.assertEqual(call.base_out[:3], [5, 5, 25])

    def test_a_sheet_means_profile_0(self):
        self.assertEqual(one_line([m(6), kana(), m(6)])[0], [20, 60, 100])


# ---------------------------------------------------------------------------
# Filling
# ---------------------------------------------------------------------------

class Filling(Case):

    def test_equality_with_the_measure_fits(self):
        self.assertEqual(lines_of([m(3)], measure=15)[0][0], 30)
        self.refused(11, 0, [m(3)], measure=14)
        # R 11: extent 22.
        self.assertEqual(lines_of([m([11])], measure=11)[0][0], 22)
        self.refused(11, 0, [m([11])], measure=10)

    def test_odd_extent(self):
        # em 2: word 2 wide under ruby 2+2: ruby to 8; dot at 7..9 (depth 1,
        # width 1 all blank before): extent 9; measure 5 holds 10, 4 holds 8.
        elements = [m([2, 2], width=2, flag=0), p(5, 1, 1, 0)]
        self.assertEqual(lines_of(elements, em=2, measure=5)[0][:2],
                         (9, [2, 7]))
        self.refused(11, 0, elements, em=2, measure=4)

    def test_flag_of_the_last_character_decides(self):
        # G of two (B = R = 20) and a P: 30 in all, measure 20.
        self.refused(11, 0, [g(2, 4, flags=[1, 0]), p()], measure=20)
        self.assertEqual(
            [line[0] for line in
             lines_of([g(2, 4, flags=[0, 1]), p()], measure=20)], [40, 20])

    def test_job_end_needs_no_flag(self):
        self.assertEqual(lines_of([p(flag=0)])[0][0], 20)
        self.assertEqual(lines_of([j([1, 1], flags=[0, 0])])[0][0], 40)

    def test_jukugo_is_cut_anywhere_and_again(self):
        call = self.accepted([j([1, 1, 1], flags=[0, 0, 0])], measure=10)
        self.assertEqual(call.result, ('set', 3))
        self.assertEqual(call.line_out[:4], [1, 2, 3, 77])
        self.assertEqual(call.base_out[:4], [0, 0, 0, 77])
        self.assertEqual(call.ruby_out[:4], [5, 5, 5, 77])

    def test_flag_after_a_jukugo(self):
        # Breaks at 1 (inside) and 3 (end), not at 2: flag of its last is 0.
        call = self.accepted([j([1, 1], flags=[1, 0]), p()], measure=20)
        self.assertEqual(call.line_out[:2], [1, 3])
        # With the flag: 2 and 3.
        call = self.accepted([j([1, 1], flags=[0, 1]), p()], measure=20)
        self.assertEqual(call.line_out[:2], [2, 3])

    def test_long_run_of_another_part(self):
        # Whole: runs 5, 5, 15: as G: B 30, R 25, D 5, n 5, g 1, 2D - 2g = 8,
        # floor(8i/4) = 2i: 1, 13, 25, 37, 49.
        word = [j([1, 1, 3])]
        self.assertEqual(one_line(word), ([0, 20, 40], [1, 13, 25, 37, 49]))
        # Measure 25: two characters, whose runs are short: each solid over
        # its own; then one as M.
        self.assertEqual(
            lines_of(word, measure=25),
            [(40, [0, 20], [5, 25]), (30, [5], [0, 10, 20])])

    def test_part_set_as_group(self):
        # Runs 15, 5, 5; measure 20: part of two: B 20, R 20, solid 0, 10,
        # 20, 30; then one: ruby at 5.
        self.assertEqual(
            lines_of([j([3, 1, 1])], measure=20),
            [(40, [0, 20], [0, 10, 20, 30]), (20, [0], [5])])

    def test_part_with_spread_base(self):
        # Runs 15, 15, 5; measure 30: whole has B 30, R 35: 70 > 60; two have
        # B 20, R 30, D 10, n 2, g 5: 5, 5+20+10 = 35; extent 60.
        self.assertEqual(
            lines_of([j([3, 3, 1])], measure=30),
            [(60, [5, 35], [0, 10, 20, 30, 40, 50]), (20, [0], [5])])

    def test_eleven_after_lines(self):
        # Two P on line one (40 = 2 * 20), then G with R 25: 50 > 40.
        self.refused(11, 2, [p(), p(), g(2, 5)], measure=20)
        self.assertEqual(
            [line[0] for line in
             lines_of([p(), p(), g(2, 5)], measure=25)], [40, 50])

    def test_eleven_inside_a_jukugo(self):
        # Measure 10: characters 0 and 1 alone fit, 2 has ruby of 15.
        self.refused(11, 2, [j([1, 1, 3])], measure=10)

    def test_eleven_is_given_by_the_first_line_that_fails(self):
        self.refused(11, 1, [p(), g(2, 5), g(2, 5)], measure=20)

    def test_furthest_break(self):
        # Four P, measure 30: breaks after 1 and 3 only (flags), so 3 and 4.
        call = self.accepted([p(), p(flag=0), p(), p()], measure=30)
        self.assertEqual(call.line_out[:2], [3, 4])
        # Flags 1, 0, 0, 1, measure 30: break after 1, then three.
        call = self.accepted([p(), p(flag=0), p(flag=0), p()], measure=30)
        self.assertEqual(call.line_out[:2], [1, 4])

    def test_blanks_at_the_edges_count(self):
        # A space at the line's end is part of it: 20 units fit 20, not 19.
        self.assertEqual(lines_of([p(), p(14, 10)], measure=20)[0][0], 40)
        self.assertEqual([line[0] for line in
                          lines_of([p(), p(14, 10)], measure=19)], [20, 20])
        self.assertEqual([line[0] for line in
                          lines_of([p(), p(7, 10, 0, 5)], measure=19)],
                         [20, 20])
        # And at its start.
        self.assertEqual(
            lines_of([p(), p(14, 10, flag=0), p()], measure=20),
            [(20, [0], []), (40, [0, 20], [])])

    def test_inner_flags_of_a_group_make_no_break(self):
        # G of two with flags 1, 1, B = R = 20, measure 10: no break inside.
        self.refused(11, 0, [g(2, 4, flags=[1, 1])], measure=10)

    def test_no_elements(self):
        call = self.accepted([])
        self.assertEqual(call.result, ('set', 0))
        self.assertTrue(call.untouched)


# ---------------------------------------------------------------------------
# Refusals by number
# ---------------------------------------------------------------------------

ONE = [p(width=1)]      # one plain character, 1 wide: fits every measure


class Refusals(Case):

    def test_1_em(self):
        for em in (2, 4, 4094, 4096):
            self.accepted(ONE, em=em)
        for em in (0, 1, 3, 4095, 4097, 4098, 4294967294, BIG):
            self.refused(1, 0, ONE, em=em)

    def test_1_measure(self):
        for measure in (1, 2, 3999999, 4000000):
            self.accepted(ONE, measure=measure)
        for measure in (0, 4000001, BIG):
            self.refused(1, 1, ONE, measure=measure)

    def test_1_lowest_place(self):
        self.refused(1, 0, ONE, em=3, measure=0)

    def test_15_numbers(self):
        sound = (1, 2, 1)
        for at in range(3):
            for number in (0, 1, 7):
                ratio = [1, 1, 1]
                ratio[at] = number
                self.accepted(ONE, ratios=(ratio, sound))
                self.accepted(ONE, ratios=(sound, ratio))
            for number in (8, 9, 256, BIG):
                ratio = [1, 1, 1]
                ratio[at] = number
                self.refused(15, 0, ONE, ratios=(ratio, sound))
                self.refused(15, 1, ONE, ratios=(sound, ratio))
            # Nothing but one number, and that one a 7.
            ratio = [0, 0, 0]
            ratio[at] = 7
            self.accepted(ONE, ratios=(ratio, ratio))
        self.accepted(ONE, ratios=((7, 7, 7), (7, 7, 7)))

    def test_15_all_three_0(self):
        self.refused(15, 0, ONE, ratios=((0, 0, 0), (1, 2, 1)))
        self.refused(15, 1, ONE, ratios=((1, 2, 1), (0, 0, 0)))
        # Also where nothing is spread.
        self.refused(15, 0, [], ratios=((0, 0, 0), (1, 2, 1)))

    def test_15_lowest_place(self):
        # The ruby ratio is judged whole before the base ratio.
        for bad in ((8, 1, 1), (1, 1, 8), (0, 0, 0), (BIG, BIG, BIG)):
            for other in ((8, 1, 1), (1, 1, 8), (0, 0, 0)):
                self.refused(15, 0, ONE, ratios=(bad, other))

    def test_20_profile(self):
        for profile in (0, 1):
            self.accepted(ONE, profile=profile)
        for profile in (2, 3, 256, 257, BIG):
            self.refused(20, 0, ONE, profile=profile)
            # Also where no kana is.
            self.refused(20, 0, [], profile=profile)

    def test_2_counts(self):
        full = [m(2) for _ in range(1024)]
        # Ten words of 20 hu fill 2 * 100 exactly: 103 lines, the last of 4.
        call = self.accepted(full, measure=100)
        self.assertEqual(call.result, ('set', 103))
        self.assertEqual(call.line_out[101:103], [1020, 1024])
        self.assertEqual(call.ruby_out[2046:], [60, 70])
        self.refused(2, 0, full + [p()], room=(1025, 2048, 1025))
        bases, rubies, line = full[0]
        self.refused(2, 1, [(bases, rubies + [(15, 5)], line)] + full[1:],
                     room=(1024, 2049, 1024))
        self.refused(2, 2, full + [([], [], 'P')])

    def test_2_lowest_place(self):
        over = [m(3) for _ in range(1025)]
        self.refused(2, 0, over)
        self.refused(2, 1, over, flag=[1])
        self.refused(2, 2, over, flag=[1], ruby_class=[15])

    def test_2_counts_the_shortest_list(self):
        # 1,500 entries in four lists, one in the fifth: one character.
        self.accepted([p() for _ in range(1500)], flag=[0], kind=[P])

    def test_12_room(self):
        two = [m(3), p()]
        self.accepted(two, room=(2, 3, 2))
        self.refused(12, 0, two, room=(1, 3, 2))
        self.refused(12, 0, two, room=(2, 2, 2))
        # One line comes out, but two entries are asked for.
        self.refused(12, 0, two, room=(2, 3, 1))
        self.refused(12, 0, two, room=(0, 0, 0))

    def test_12_empty_lists(self):
        # Nothing to set: empty lists are enough.
        for profile in (0, 1):
            result = set_job(10, 10, ONE_TWO_ONE, profile, [], [], [], [], [],
                             [], [], [], [], [], [], None, [], [], [], [])
            self.assertEqual(result, ('set', 0))

    def test_3_class(self):
        good = (1, 2, 5, 14, 18, 19, 24, 25, 26, 27)
        bad = (0, 20, 21, 22, 23, 28, 29, 30, 31, 32, 255, 256, 270, BIG)
        for cls in good:
            self.accepted([p(), p(cls)])
            self.accepted([m(2, ruby_class=cls)])
        for cls in bad:
            self.refused(3, 1, [p(), p(cls)])
            self.refused(3, 1024, [m(2, ruby_class=cls)])
            self.refused(3, 1025, [m(2)], ruby_class=[15, cls])

    def test_3_width(self):
        for width in (1, 4096):
            self.accepted([p(width=width)], measure=4000000)
            self.accepted([m([5, width])], measure=4000000)
        for width in (0, 4097, BIG):
            self.refused(3, 0, [p(width=width)], measure=4000000)
            self.refused(3, 1025, [m([5, width])], measure=4000000)

    def test_3_flag(self):
        for flag in (0, 1):
            self.accepted([p(flag=flag)])
        for flag in (2, 3, BIG):
            self.refused(3, 0, [p(flag=flag)])
            # Also where the flag is not consulted.
            self.refused(3, 0, [g(2, 2, flags=[flag, 1])])

    def test_4_classes(self):
        for cls in list(range(1, 20)) + [24, 25, 26, 27]:
            before = [p(cls, 10, 1, 0)]
            after = [p(cls, 10, 0, 1)]
            if cls in (1, 5):
                self.accepted(before)
            else:
                self.refused(4, 0, before)
            if cls in (2, 5, 6, 7):
                self.accepted(after)
            else:
                self.refused(4, 0, after)

    def test_4_sums(self):
        self.accepted([p(5, 10, 4, 6)])
        self.refused(4, 0, [p(5, 10, 5, 6)])
        self.accepted([p(1, 10, 10, 0)])
        self.refused(4, 0, [p(1, 10, 11, 0)])
        self.accepted([p(7, 10, 0, 10)])
        self.refused(4, 0, [p(7, 10, 0, 11)])
        # BIG + 1 is no 0.
        self.refused(4, 0, [p(5, 10, BIG, 1)])
        self.refused(4, 0, [p(5, 10, 2147483648, 2147483648)])

    def test_3_and_4_in_turn(self):
        self.refused(4, 0, [p(19, 10, 1, 0), p(0)])
        self.refused(3, 0, [p(0), p(19, 10, 1, 0)])
        self.refused(3, 0, [p(0, 10, 1, 0)])
        self.refused(3, 0, [p(1, 0, 1, 0)])
        self.refused(3, 0, [p(19, 10, 1, 0, flag=2)])
        # Base characters come before ruby characters.
        self.refused(4, 1, [m(2, ruby_class=0), p(19, 10, 1, 0)])

    def test_5_kind(self):
        for kind in (0, 1, 70, 72, 75, 76, 78, 79, 81, 112, 336, BIG):
            self.refused(5, 1, [p(), p()], kind=[P, kind])

    def test_5_mono(self):
        self.accepted([m(1)])
        self.accepted([m([1] * 64)])
        self.refused(5, 0, [m(1)], elem_ruby=[0])
        self.refused(5, 0, [m([1] * 65)])
        self.refused(5, 0, [m(1)], elem_ruby=[BIG])

    def test_5_group(self):
        self.accepted([g(1, 1)])
        self.accepted([g(32, [1] * 64)])
        self.refused(5, 0, [g(33, 1)])
        self.refused(5, 0, [g(1, [1] * 65)])
        self.refused(5, 0, [g(1, 1)], elem_base=[0])
        self.refused(5, 0, [g(1, 1)], elem_ruby=[0])
        self.refused(5, 0, [g(1, 1)], elem_base=[BIG])

    def test_5_jukugo(self):
        self.accepted([j([2] * 32)])
        self.accepted([j([[1] * 64])])
        self.refused(5, 0, [j([2] * 31 + [3])])         # 65 in all
        self.refused(5, 0, [j([[1] * 65])])
        self.refused(5, 0, [j([1] * 33)])
        self.refused(5, 0, [j([1])], elem_base=[0])
        self.refused(5, 0, [j([1, 1])], runs=[1, 0])
        self.refused(5, 0, [j([1, 1])], runs=[0, 1])
        # Sums do not wrap: BIG + 3 is not 2.
        self.refused(5, 0, [j([1, 1])], runs=[BIG, 3])
        # A run past the end reads as 0.
        self.refused(5, 0, [j([1, 1])], runs=[1])
        self.refused(5, 0, [j([1])], runs=[])

    def test_6_run_out(self):
        self.refused(6, 1, [p(), ([], [], 'P')])
        self.refused(6, 1, [p(), m(2)], ruby_class=[15])
        self.refused(6, 1, [p(), m(2)], flag=[1])
        self.refused(6, 0, [g(2, 2)], flag=[1])
        self.refused(6, 0, [g(2, 2)], ruby_width=[5])
        self.refused(6, 0, [j([1, 2])], ruby_class=[15, 15])
        self.refused(6, 0, [j([1, 2])], flag=[1])

    def test_6_left_over(self):
        self.refused(6, 1, [p(), p()], kind=[P])
        self.refused(6, 1, [m(2)], elem_ruby=[1])
        self.refused(6, 0, [p()], kind=[])
        self.refused(6, 0, [], ruby_class=[15], ruby_width=[5])

    def test_7_blanks_inside(self):
        comma = (7, 10, 0, 5, 1)
        for line in ('M 1', 'G 1 1', 'J 1 1'):
            self.refused(7, 1, [p(), ([comma], [(15, 5)], line)])
            # A class that may have blanks, with none, passes.
            self.accepted([([(7, 10, 0, 0, 1)], [(15, 5)], line)])
            # Class 14 passes.
            self.accepted([([(14, 10, 0, 0, 1)], [(15, 5)], line)])
        self.refused(7, 0, [([(19, 10, 0, 0, 1), (1, 10, 1, 0, 1)],
                             [(15, 5)], 'G 2 1')])
        self.accepted([p(7, 10, 0, 5)])

    def test_8_jukugo_base(self):
        ruby = [(15, 5), (15, 5)]
        for cls in (24, 25, 26, 27):
            rows = [(19, 10, 0, 0, 1), (cls, 10, 0, 0, 1)]
            self.refused(8, 0, [(rows, ruby, 'J 2 1 1')])
        for width in (9, 11, 1, 4096):
            rows = [(19, 10, 0, 0, 1), (19, width, 0, 0, 1)]
            self.refused(8, 0, [(rows, ruby, 'J 2 1 1')])
            self.accepted([(rows, ruby, 'G 2 2')], measure=9000)
        for cls in range(1, 20):
            self.accepted([([(cls, 10, 0, 0, 1)], [(15, 5)], 'J 1 1')])

    def test_9_mixture(self):
        def group(base, ruby):
            return [([(cls, 10, 0, 0, 1) for cls in base],
                     [(cls, 5) for cls in ruby],
                     'G %d %d' % (len(base), len(ruby)))]
        for base, ruby in (([19, 24], [15]), ([26], [15]), ([26, 26], [15]),
                           ([24, 26], [15]), ([19], [15, 27]), ([19], [26]),
                           ([24], [15, 25]), ([19], [24, 26])):
            self.refused(9, 0, group(base, ruby))
        self.accepted(group([19, 1, 14], [15, 3]))
        self.accepted(group([24, 25, 27], [15, 3]))
        self.accepted(group([19, 1], [24, 25, 27]))

    def test_9_jukugo_ruby(self):
        def jukugo(ruby):
            return [(base_rows([10, 10]), [(cls, 5) for cls in ruby],
                     'J 2 1 1')]
        # Over all runs together.
        self.refused(9, 0, jukugo([15, 24]))
        self.refused(9, 0, jukugo([27, 15]))
        self.refused(9, 0, jukugo([26, 26]))
        self.accepted(jukugo([15, 16]))
        self.accepted(jukugo([24, 27]))

    def test_10_western_over_western(self):
        for base in (24, 25, 27):
            for ruby in (24, 25, 27):
                self.refused(10, 0, [g(1, 1, cls=base, ruby_class=ruby)])
                # at any lengths: shorter, equal, longer
                self.refused(10, 0, [g(3, 2, cls=base, ruby_class=ruby)])
                self.refused(10, 0, [g(2, 4, cls=base, ruby_class=ruby)])
                self.refused(10, 0, [g(2, 7, cls=base, ruby_class=ruby)])
                self.accepted([m(3, cls=base, ruby_class=ruby)])


class Order(Case):
    """Two faults in one job."""

    def test_1_2_12_3(self):
        over = [p(0) for _ in range(1025)]
        self.refused(1, 0, over, em=0, room=(0, 0, 0))
        self.refused(1, 1, over, measure=0, room=(0, 0, 0))
        self.refused(2, 0, over, room=(0, 0, 0))
        self.refused(12, 0, [p(0)], room=(0, 0, 0))
        self.refused(3, 0, [p(0)])

    def test_1_15_2_12(self):
        over = [p(0) for _ in range(1025)]
        for ratios, place in ((((0, 0, 0), (1, 2, 1)), 0),
                              (((1, 2, 1), (1, 8, 1)), 1)):
            self.refused(1, 0, over, em=0, ratios=ratios, room=(0, 0, 0))
            self.refused(1, 1, over, measure=0, ratios=ratios, room=(0, 0, 0))
            self.refused(15, place, over, ratios=ratios, room=(0, 0, 0))
            self.refused(15, place, [p(0)], ratios=ratios, room=(0, 0, 0))
            self.refused(15, place, [p(0)], ratios=ratios)
            self.refused(15, place, [p()], ratios=ratios, measure=9)

    def test_1_15_20_2_12(self):
        over, none = [p(0) for _ in range(1025)], (0, 0, 0)
        for profile in (2, BIG):
            for ratios, place in ((((0, 0, 0), (1, 2, 1)), 0),
                                  (((1, 2, 1), (1, 8, 1)), 1)):
                for words in (over, [p(0)], [p()]):
                    self.refused(1, 0, words, em=0, ratios=ratios,
                                 profile=profile, room=none)
                    self.refused(1, 1, words, measure=0, profile=profile)
                    self.refused(15, place, words, ratios=ratios,
                                 profile=profile, room=none)
            self.refused(20, 0, over, profile=profile, room=none)
            self.refused(20, 0, over, profile=profile)
            self.refused(20, 0, [p(0)], profile=profile, room=none)
            self.refused(20, 0, [p(0)], profile=profile)
            self.refused(20, 0, [p()], profile=profile, measure=9)
        for profile in (0, 1):
            self.refused(2, 0, over, profile=profile, room=none)
            self.refused(12, 0, [p(0)], profile=profile, room=none)
            self.refused(3, 0, [p(0)], profile=profile)

    def test_characters_before_elements(self):
        # The unknown kind is element 0; the ruby with width 0 comes first.
        self.refused(3, 1024, [m([0])], kind=[1])
        self.refused(4, 1, [m(1), p(19, 10, 0, 1)], kind=[1, 1])
        # Also for characters no element takes.
        self.refused(3, 1, [p(), p(0)], kind=[P])

    def test_elements_in_turn(self):
        western = g(1, 1, cls=24, ruby_class=24)
        self.refused(10, 0, [western, p()], kind=[G, 0])
        self.refused(5, 0, [p(), western], kind=[0, G])
        self.refused(9, 0, [g(1, 1, cls=26), m(1)], elem_ruby=[1, 65])
        # Run out at element 1 after 10 at element 0.
        self.refused(10, 0, [western, p(), p()], flag=[1, 1])

    def test_5_before_6(self):
        self.refused(5, 0, [m(1)], elem_ruby=[65])
        self.refused(5, 0, [g(1, 1)], elem_base=[33])
        self.refused(5, 0, [j([1, 1])], runs=[9, 0])
        self.refused(6, 0, [m(1)], elem_ruby=[64])
        self.refused(6, 0, [g(1, 1)], elem_base=[32])

    def test_6_before_7(self):
        comma = (7, 10, 0, 5, 1)
        self.refused(6, 0, [([comma], [(15, 5)], 'G 2 1')])
        self.refused(6, 0, [([comma], [(15, 5)], 'M 2')])
        self.refused(7, 0, [([comma], [(15, 5)], 'M 1')])

    def test_7_before_8(self):
        narrow, comma = (19, 9, 0, 0, 1), (7, 10, 0, 5, 1)
        ruby = [(15, 5), (15, 5)]
        self.refused(7, 0, [([narrow, comma], ruby, 'J 2 1 1')])
        self.refused(7, 0, [([comma, narrow], ruby, 'J 2 1 1')])
        self.refused(8, 0, [([narrow, narrow], ruby, 'J 2 1 1')])

    def test_7_before_9(self):
        comma = (7, 10, 0, 5, 1)
        self.refused(7, 0, [([comma], [(26, 5)], 'G 1 1')])
        self.refused(7, 0, [([(26, 10, 0, 0, 1), comma], [(15, 5)], 'G 2 1')])

    def test_8_before_9(self):
        self.refused(8, 0, [([(26, 10, 0, 0, 1)], [(26, 5)], 'J 1 1')])
        self.refused(8, 0, [([(19, 9, 0, 0, 1)], [(26, 5)], 'J 1 1')])
        self.refused(9, 0, [([(19, 10, 0, 0, 1)], [(26, 5)], 'J 1 1')])

    def test_9_before_10(self):
        self.refused(9, 0, [([(24, 10, 0, 0, 1)], [(24, 5), (26, 5)],
                             'G 1 2')])
        self.refused(9, 0, [([(24, 10, 0, 0, 1), (26, 10, 0, 0, 1)],
                             [(24, 5)], 'G 2 1')])

    def test_left_over_after_the_elements(self):
        western = g(1, 1, cls=24, ruby_class=24)
        self.refused(10, 1, [p(), western, p()], kind=[P, G])
        self.refused(6, 2, [p(), p(), p()], kind=[P, P])

    def test_left_over_before_lines(self):
        self.refused(6, 1, [p(), p()], kind=[P], measure=5)
        self.refused(11, 0, [p(), p()], measure=5)


class ListsAsLent(Case):

    def test_shortest_list_counts(self):
        # Further entries are not read: a class of 0 among them is no fault.
        call = self.accepted([p()], base_class=[19, 0, 0],
                             base_width=[10, 0])
        self.assertEqual(call.result, ('set', 1))
        call = self.accepted([m(1)], ruby_class=[15, 0])
        self.assertEqual(call.ruby_out[:2], [5, 77])
        self.accepted([p()], kind=[P, 0, 0], elem_base=[0, 0])

    def test_room_is_judged_by_the_count(self):
        self.accepted([p()], base_class=[19] * 5, room=(1, 0, 1))

    def test_each_base_list_can_be_the_shortest(self):
        for name in ('base_class', 'base_width', 'blank_before',
                     'blank_after', 'flag'):
            self.refused(6, 0, [p()], **{name: []})
        for name in ('ruby_class', 'ruby_width'):
            self.refused(6, 0, [m(1)], **{name: []})
        for name in ('kind', 'elem_base', 'elem_ruby'):
            self.refused(6, 0, [p()], **{name: []})

    def test_counts_that_are_not_read(self):
        self.accepted([p()], elem_base=[999], elem_ruby=[BIG])
        self.accepted([m(1)], elem_base=[0])
        self.accepted([m(1)], elem_base=[BIG])
        self.accepted([j([1, 2])], elem_ruby=[0])
        self.accepted([j([1, 2])], elem_ruby=[BIG])

    def test_spare_runs_are_not_read(self):
        self.accepted([j([1])], runs=[1, 0, BIG])
        self.accepted([p()], runs=[0])

    def test_runs_are_taken_in_turn(self):
        # The first J is K7, to 40; P 40..60; the second J at 60 with runs
        # of 10 and 5: 60, 70 and 80 + 5.
        call = self.accepted([j([1, 2]), p(), j([2, 1])])
        self.assertEqual(call.ruby_out[:6], [5, 20, 30, 60, 70, 85])

    def test_runs_of_a_list_that_ends_in_the_second_word(self):
        self.refused(5, 1, [j([1]), j([1, 1])], runs=[1, 1])

    def test_entries_past_those_used(self):
        call = self.accepted([m(3), p(), j([1, 2])], measure=35)
        # The worked example: positions 5, 30, 50 and 0; lines end at 3, 4.
        self.assertEqual(call.result, ('set', 2))
        self.assertEqual(call.base_out[:5], [5, 30, 50, 0, 77])
        self.assertEqual(call.ruby_out[:7], [0, 10, 20, 55, 0, 10, 77])
        self.assertEqual(call.line_out[:3], [3, 4, 77])

    def test_refused_late_leaves_the_lists(self):
        # The first line could be set, the second cannot.
        self.refused(11, 1, [p(), g(2, 5)], measure=20)


# ---------------------------------------------------------------------------
# The sheet
# ---------------------------------------------------------------------------

def lines_changed(number, line):
    """The example with one line (from 1) replaced."""
    lines = EXAMPLE.split(b'\n')[:-1]
    lines[number - 1] = line
    return b''.join(each + b'\n' for each in lines)


class Sheets(Case):
    # Lines of the example: 1 set, 2 em, 3 measure, 4 base, 5 to 8 rows,
    # 9 ruby, 10 to 15 rows, 16 elem, 17 M, 18 P, 19 J.

    def test_worked_example(self):
        self.answered(EXAMPLE_RESULT, EXAMPLE)

    def test_no_elements(self):
        self.answered(b'lines 0\n', sheet([]))

    def test_base_before_ruby_in_a_jukugo(self):
        # K7 in one line.
        self.answered(b'lines 1\nline 40\nb 0 0\nb 1 20\nr 0 5\nr 1 20\n'
                      b'r 2 30\n', sheet([j([1, 2])]))

    def test_cut_jukugo_is_printed_by_part(self):
        # Measure 20: characters 0 and 1, then 2; runs 5, 5, 5.
        self.answered(b'lines 2\nline 40\nb 0 0\nb 1 20\nr 0 5\nr 1 25\n'
                      b'line 20\nb 2 0\nr 2 5\n',
                      sheet([j([1, 1, 1])], measure=20))

    def test_missing_lines(self):
        self.answered(b'refused 13 1\n', b'')
        lines = EXAMPLE.split(b'\n')[:-1]
        for count in range(len(lines)):
            text = b''.join(line + b'\n' for line in lines[:count])
            self.answered(b'refused 13 %d\n' % (count + 1), text)

    def test_last_line_without_lf(self):
        self.answered(b'refused 13 19\n', EXAMPLE[:-1])
        self.answered(b'refused 13 1\n', b'set 2')
        self.answered(b'refused 13 4\n', b'set 2\n10\n35\nbase 1025')

    def test_cut_at_every_byte(self):
        for end in range(len(EXAMPLE)):
            whole_lines = EXAMPLE[:end].count(b'\n')
            self.answered(b'refused 13 %d\n' % (whole_lines + 1),
                          EXAMPLE[:end])

    def test_nothing_after(self):
        for extra in (b'\n', b'x', b'P\n', b'\0', b' ', EXAMPLE):
            self.answered(b'refused 13 20\n', EXAMPLE + extra)

    def test_set_line(self):
        for line in (b'set 3', b'set 02', b'set 2 ', b' set 2', b'set  2',
                     b'set', b'Set 2', b'set 2 2', b'', b'set\t2'):
            self.answered(b'refused 13 1\n', lines_changed(1, line))

    def test_numbers(self):
        for text in (b'', b'01', b'00', b'+1', b'-1', b'1 ', b' 1', b'1 1',
                     b'4294967296', b'9999999999', b'10000000000', b'a',
                     b'1a', b'1\r', b'1\t', b'1\0', b'1_0', b'\xb2', b'0x1',
                     b'\xef\xbc\x91', b'18446744073709551626'):
            self.answered(b'refused 13 2\n', lines_changed(2, text))
            self.answered(b'refused 13 3\n', lines_changed(3, text))
        self.answered(b'refused 1 0\n', lines_changed(2, b'0'))
        self.answered(b'refused 1 0\n', lines_changed(2, b'4294967295'))
        self.answered(b'refused 1 1\n', lines_changed(3, b'0'))
        self.answered(b'refused 1 1\n', lines_changed(3, b'4294967295'))

    def test_sound_numbers_out_of_range(self):
        # Not faults of form: refused by their own numbers.
        self.answered(b'refused 3 0\n',
                      lines_changed(5, b'4294967295 10 0 0 1'))
        self.answered(b'refused 3 0\n',
                      lines_changed(5, b'19 4294967295 0 0 1'))
        self.answered(b'refused 4 0\n',
                      lines_changed(5, b'19 10 4294967295 0 1'))
        self.answered(b'refused 3 0\n',
                      lines_changed(5, b'19 10 0 0 4294967295'))
        self.answered(b'refused 3 1024\n', lines_changed(10, b'0 5'))
        self.answered(b'refused 5 0\n', lines_changed(17, b'M 4294967295'))
        self.answered(b'refused 5 0\n', lines_changed(17, b'G 0 1'))
        self.answered(b'refused 5 0\n', lines_changed(17, b'G 33 1'))
        self.answered(b'refused 5 2\n', lines_changed(19, b'J 2 1 0'))
        self.answered(b'refused 5 2\n',
                      lines_changed(19, b'J 2 1 4294967295'))

    def test_rows(self):
        for line in (b'19 10 0 0', b'19 10 0 0 1 1', b'19 10 0  0 1', b'',
                     b'19 10 0 0 1 ', b' 19 10 0 0 1', b'19\t10 0 0 1',
                     b'19 10 0 0 1\r', b'19 10 0 0 01', b'19 10 0 0 x'):
            self.answered(b'refused 13 6\n', lines_changed(6, line))
        for line in (b'15', b'15 5 5', b'15  5', b'15 5\r', b'', b'P'):
            self.answered(b'refused 13 12\n', lines_changed(12, line))

    def test_too_few_and_too_many_rows(self):
        # base 3: line 8 should be the ruby count; base 5: line 9 a row.
        self.answered(b'refused 13 8\n', lines_changed(4, b'base 3'))
        self.answered(b'refused 13 9\n', lines_changed(4, b'base 5'))
        self.answered(b'refused 13 15\n', lines_changed(9, b'ruby 5'))
        self.answered(b'refused 13 16\n', lines_changed(9, b'ruby 7'))
        self.answered(b'refused 13 19\n', lines_changed(16, b'elem 2'))
        self.answered(b'refused 13 20\n', lines_changed(16, b'elem 4'))

    def test_heads(self):
        for line in (b'base', b'base 4 ', b'base 04', b'base  4', b'Base 4',
                     b'ruby 4', b'4', b'base 4 4', b'base -1', b'base x'):
            self.answered(b'refused 13 4\n', lines_changed(4, line))
        self.answered(b'refused 13 9\n', lines_changed(9, b'elem 6'))
        self.answered(b'refused 13 16\n', lines_changed(16, b'ruby 3'))

    def test_missing_sections(self):
        self.answered(b'refused 13 4\n', b'set 2\n10\n35\nruby 0\nelem 0\n')
        self.answered(b'refused 13 5\n', b'set 2\n10\n35\nbase 0\nelem 0\n')
        self.answered(b'refused 13 6\n', b'set 2\n10\n35\nbase 0\nruby 0\n')
        self.answered(b'lines 0\n',
                      b'set 2\n10\n35\nbase 0\nruby 0\nelem 0\n')

    def test_elements(self):
        for line in (b'P 1', b'P ', b'p', b'', b'Q', b'PP', b'M', b'M 1 1',
                     b'M 01', b'M  3', b'm 3', b'G 1', b'G 1 1 1', b'G',
                     b'J', b'J 0', b'J 2 1', b'J 2 1 2 3', b'J 0 1',
                     b'J 33' + b' 1' * 33, b'J 2 1 02', b'J 2 1 2 ',
                     b'J 4294967295', b'J 1 4294967296', b'80'):
            self.answered(b'refused 13 18\n', lines_changed(18, line))

    def test_jukugo_of_32_on_a_sheet(self):
        # 32 runs of one, each 5 wide at 5, 25, ...: 640 hu.
        lines = lines_of([j([1] * 32)])
        self.assertEqual(lines[0][0], 640)
        self.assertEqual(lines[0][2], [20 * i + 5 for i in range(32)])

    def test_counts_over_the_maximum(self):
        self.answered(b'refused 2 0\n', lines_changed(4, b'base 1025'))
        self.answered(b'refused 2 0\n', lines_changed(4, b'base 4294967295'))
        self.answered(b'refused 2 1\n', lines_changed(9, b'ruby 2049'))
        self.answered(b'refused 2 2\n', lines_changed(16, b'elem 1025'))
        # At the maximum the rows are missed: line 9, line 16, line 20.
        self.answered(b'refused 13 9\n', lines_changed(4, b'base 1024'))
        self.answered(b'refused 13 16\n', lines_changed(9, b'ruby 2048'))
        self.answered(b'refused 13 20\n', lines_changed(16, b'elem 1024'))

    def test_form_before_count_within_a_line(self):
        for line in (b'base 1025 x', b'base 1025 ', b'base 4294967296',
                     b'base 01025', b'base 1025\r'):
            self.answered(b'refused 13 4\n', lines_changed(4, line))

    def test_first_fault_met(self):
        # A count over its maximum ends the reading ...
        self.answered(b'refused 2 0\n', b'set 2\n10\n35\nbase 1025\n')
        self.answered(b'refused 2 0\n',
                      b'set 2\n10\n35\nbase 1025\n\xff\xff')
        # ... and is given ahead of 1, ...
        self.answered(b'refused 2 0\n', b'set 2\n0\n0\nbase 1025\n')
        # ... but an earlier fault of form is given first.
        self.answered(b'refused 13 2\n', b'set 2\n01\n35\nbase 1025\n')
        self.answered(b'refused 13 5\n',
                      b'set 2\n10\n35\nbase 1\nx\nruby 2049\n')

    def test_form_before_all_other_numbers(self):
        self.answered(b'refused 13 19\n', lines_changed(2, b'0')[:-1])
        self.answered(b'refused 13 20\n',
                      lines_changed(5, b'0 10 0 0 1') + b'x')
        self.answered(b'refused 13 19\n',
                      lines_changed(17, b'M 0').replace(b'J 2 1 2', b'J 2 1'))

    def test_length(self):
        # 65,535 bytes are read, 65,536 are not, whatever they are.
        self.answered(b'refused 13 1\n', b'x' * 65535)
        self.answered(b'refused 13 0\n', b'x' * 65536)
        self.answered(b'refused 13 20\n',
                      EXAMPLE + b'\n' * (65535 - len(EXAMPLE)))
        self.answered(b'refused 13 0\n',
                      EXAMPLE + b'\n' * (65536 - len(EXAMPLE)))
        # Ahead of a 13 and of a 2.
        over = b'set 2\n10\n35\nbase 1025\n'
        self.answered(b'refused 2 0\n', over + b'x' * (65535 - len(over)))
        self.answered(b'refused 13 0\n', over + b'x' * (65536 - len(over)))

    def test_sound_sheet_of_the_greatest_length(self):
        # A row `J 32` with runs of 1 has 4 + 64 + 1 = 69 bytes.
        head = b'set 2\n10\n35\nbase 0\nruby 0\nelem 949\n'
        rows = [b'J 32' + b' 1' * 32] * 949
        text = head + b'\n'.join(rows) + b'\n'
        # 949 * 69 = 65,481, and the head has 6+3+3+7+7+9 = 35: 65,516.
        self.assertEqual(len(text), 65516)
        # No characters: they run out at element 0.
        self.answered(b'refused 6 0\n', text)
        # 19 more digits make 65,535 bytes, and the runs too many.
        longer = text.replace(b' 1', b' 1' + b'0' * 9, 2)
        longer = longer.replace(b' 1\n', b' 10\n', 1)
        self.assertEqual(len(longer), 65535)
        self.answered(b'refused 5 0\n', longer)
        longer = longer.replace(b' 10\n', b' 100\n', 1)
        self.answered(b'refused 13 0\n', longer)

    def test_refusals_of_the_list_level(self):
        self.answered(b'refused 11 0\n', lines_changed(3, b'10'))
        self.answered(b'refused 6 0\n', lines_changed(17, b'M 7'))
        # M takes 2, the J three: one ruby character is left over.
        self.answered(b'refused 6 3\n', lines_changed(17, b'M 2'))

    def test_places_of_the_maximum(self):
        # The last of 2,048 ruby characters has width 0: 1,024 + 2,047.
        words = [m(2) for _ in range(1023)] + [m([5, 0])]
        self.answered(b'refused 3 3071\n', sheet(words))


# ---------------------------------------------------------------------------
# What surrounds the program
# ---------------------------------------------------------------------------

def own_program(*arguments):
    return [sys.executable, '-B', os.path.join(HERE, 'second.py'), *arguments]


def compared(seed, count):
    """The sheets that compare.py takes by default."""
    return compare.all_sheets('', seed, count)


class Programs(Case):

    def test_one_sheet(self):
        done = subprocess.run(own_program(), input=EXAMPLE,
                              stdout=subprocess.PIPE, check=True)
        self.assertEqual(done.stdout, EXAMPLE_RESULT)

    def test_one_sheet_that_is_refused(self):
        done = subprocess.run(own_program(), input=b'',
                              stdout=subprocess.PIPE)
        self.assertEqual((done.stdout, done.returncode),
                         (b'refused 13 1\n', 1))

    def test_framed(self):
        frames = (b'sheet %d\n' % len(EXAMPLE) + EXAMPLE + b'sheet 0\n'
                  + b'sheet 2\nx\n')
        done = subprocess.run(own_program('--framed'), input=frames,
                              stdout=subprocess.PIPE, check=True)
        self.assertEqual(
            done.stdout,
            b'answer %d\n' % len(EXAMPLE_RESULT) + EXAMPLE_RESULT
            + b'answer 13\nrefused 13 1\n' + b'answer 13\nrefused 13 1\n')

    def test_generator_repeats_itself(self):
        first = list(generate.sheets(11, 60))
        self.assertEqual(first, list(generate.sheets(11, 60)))
        self.assertEqual(first[:20], list(generate.sheets(11, 20)))
        self.assertNotEqual(first, list(generate.sheets(12, 60)))

    def test_generator_reaches_every_answer_of_a_sheet(self):
        seen = set()
        for text in generate.sheets(1, 700):
            fields = answer(text).split()
            seen.add(int(fields[1]) if fields[0] == b'refused' else 'set')
        self.assertEqual(seen, {'set', 1, 2, 3, 4, 5, 6, 7, 8, 9, 10, 11, 13})

    def test_compare_with_itself(self):
        with tempfile.TemporaryDirectory() as folder:
            self.assertEqual(
                compare.compare(own_program('--framed'), folder, 5, 40),
                (40, 0))
            self.assertEqual(os.listdir(folder), [])

    def test_compare_one_sheet_at_a_time(self):
        with tempfile.TemporaryDirectory() as folder:
            self.assertEqual(
                compare.compare(own_program(), folder, 5, 12,
                                compare.single_answers), (12, 0))
            self.assertEqual(os.listdir(folder), [])
        # An engine that answers rightly and then ends with status 3.
        dying = [sys.executable, '-B', '-c', (
            'import sys; sys.path.insert(0, %r); import second\n'
            'second.main([]); sys.stdout.flush(); sys.exit(3)' % HERE)]
        with tempfile.TemporaryDirectory() as folder, quiet():
            self.assertEqual(compare.compare(dying, folder, 5, 2,
                                             compare.single_answers), (2, 2))
        # An engine that answers rightly and always ends with status 0.
        careless = [sys.executable, '-B', '-c', (
            'import sys; sys.path.insert(0, %r); import second\n'
            'second.main([])' % HERE)]
        refused = sum(answer(text).startswith(b'refused')
                      for text in compared(5, 12))
        self.assertGreater(refused, 0)
        with tempfile.TemporaryDirectory() as folder, quiet():
            self.assertEqual(compare.compare(careless, folder, 5, 12,
                                             compare.single_answers),
                             (12, refused))

    def test_compare_keeps_no_more_than_it_shows(self):
        dumb = [sys.executable, '-c', '']
        with tempfile.TemporaryDirectory() as folder, quiet():
            self.assertEqual(compare.compare(dumb, folder, 5, 30,
                                             compare.single_answers),
                             (30, 30))
            self.assertLessEqual(len(os.listdir(folder)), compare.SHOWN)

    def test_compare_finds_keeps_and_repeats(self):
        # An engine that refuses everything with 13 1.
        wrong = [sys.executable, '-B', '-c', (
            'import sys; sys.path.insert(0, %r); import second\n'
            'while second.read_frame(sys.stdin.buffer, b"sheet") is not None:'
            ' second.write_frame(sys.stdout.buffer, b"answer",'
            ' b"refused 13 1\\n")' % HERE)]
        expected = sum(answer(text) != b'refused 13 1\n'
                       for text in compared(5, 10))
        with tempfile.TemporaryDirectory() as folder, quiet():
            self.assertEqual(compare.compare(wrong, folder, 5, 10),
                             (10, expected))
            kept = len(os.listdir(folder))
            self.assertEqual(kept, expected)
            # Kept sheets are compared again, whatever the seed.
            self.assertEqual(compare.compare(wrong, folder, 6, 0),
                             (kept, kept))
            self.assertEqual(
                compare.compare(own_program('--framed'), folder, 6, 0),
                (kept, 0))

    def test_compare_with_an_engine_that_dies(self):
        # It answers one sheet, then ends with status 3.
        dying = [sys.executable, '-B', '-c', (
            'import sys; sys.path.insert(0, %r); import second\n'
            'sheet = second.read_frame(sys.stdin.buffer, b"sheet")\n'
            'second.write_frame(sys.stdout.buffer, b"answer",'
            ' second.answer(sheet))\n'
            'sys.stdout.flush(); sys.exit(3)' % HERE)]
        with tempfile.TemporaryDirectory() as folder, quiet():
            # Sheets 1 and 3 are answered, 2 and 4 are not.
            self.assertEqual(compare.compare(dying, folder, 5, 4), (4, 2))


class quiet:
    """Keeps what compare prints out of the test's output."""

    def __enter__(self):
        self.before, sys.stdout = sys.stdout, open(os.devnull, 'w')

    def __exit__(self, *_):
        sys.stdout.close()
        sys.stdout = self.before


# ---------------------------------------------------------------------------
# The shortcuts against the wording
# ---------------------------------------------------------------------------

def furthest_settable(job, owner, breaks, first):
    """The wording without any shortcut: all tries are made and judged."""
    settable = []
    for end in breaks:
        if end > first:
            words = second.words_of_line(job, owner, first, end)
            origins = second.least_setting(words, 10 ** 12)
            extent = max(origin + word.end
                         for origin, word in zip(origins, words))
            if extent <= 2 * job.measure:
                settable.append((end, origins))
    return max(settable) if settable else None


def accepted_jobs(seed, count):
    """Jobs of generated sheets that pass 1 to 10.

    They are set by various ratios, and by profile 1 as often as by 0.
    """
    various = ((1, 2, 1), (0, 0, 1), (1, 3, 1), (7, 0, 3), (0, 1, 6))
    for number, text in enumerate(generate.sheets(seed, count)):
        try:
            arguments = second.read_sheet(text)
            arguments[2] = (various[number % 5], various[number // 5 % 5])
            arguments[3] = number % 2
            job = second.Job(*arguments)
            second.check_sizes(job)
            second.check_ratios(job)
            second.check_profile(job)
            second.check_counts(job)
            second.check_characters(job)
            second.take_elements(job)
        except second.Refused:
            continue
        if job.base_count <= 64:
            yield job


class Wording(Case):

    def test_shortcuts_of_filling(self):
        for job in accepted_jobs(21, 120):
            owner = second.owners(job)
            breaks = second.permitted_breaks(job)
            first = 0
            while first is not None and first < job.base_count:
                expected = furthest_settable(job, owner, breaks, first)
                try:
                    end, (_, origins) = second.fill_line(job, owner, breaks,
                                                         first)
                    self.assertEqual((end, origins), expected)
                    first = end
                except second.Refused:
                    self.assertIsNone(expected)
                    first = None

    def test_lines_keep_the_rules_and_are_least(self):
        for job in accepted_jobs(22, 200):
            try:
                lines = second.fill_lines(job)
            except second.Refused:
                continue
            for _, words, origins in lines:
                self.assertTrue(keeps_the_rules(job, words, origins))
                # No word can be a half unit further left.
                for i in range(len(words)):
                    lower = list(origins)
                    lower[i] -= 1
                    self.assertFalse(keeps_the_rules(job, words, lower))


def keeps_the_rules(job, words, origins):
    """The four rules over intervals, without saying who stands where."""
    blocks = [(at + word.block_start, at + word.block_end)
              for word, at in zip(words, origins)]
    if any(blocks[k][0] < blocks[k - 1][1] for k in range(1, len(words))):
        return False
    return all(keep_the_rules(job, words, blocks, [
        None if word.rubies[side] is None else
        (at + word.rubies[side].start, at + word.rubies[side].end)
        for word, at in zip(words, origins)])
        for side in (second.RIGHT, second.LEFT))


def keep_the_rules(job, words, blocks, rubies):
    """Rules 2 to 4 for the rubies of one side and all blocks."""
    everything = blocks + [ruby for ruby in rubies if ruby]
    if min(start for start, _ in everything) < 0:
        return False
    if max(end for _, end in everything) > 2 * job.measure:
        return False
    for i, ruby in enumerate(rubies):
        for k in range(len(words)):
            if k == i or ruby is None:
                continue
            start, end = blocks[k]
            if k == i + 1:
                start += words[k].depth_before
            if k == i - 1:
                end -= words[k].depth_after
            if ruby[0] < end and start < ruby[1]:
                return False
            # What the depth leaves open may be nothing at all; the ruby must
            # not come out on the far side.
            if k == i + 1 and ruby[1] > start:
                return False
            if k == i - 1 and ruby[0] < end:
                return False
            if rubies[k] and ruby[0] < rubies[k][1] and rubies[k][0] < ruby[1]:
                return False
    return True


if __name__ == '__main__':
    unittest.main()
