"""Tests of readings on both sides (R-5), with values worked out by hand.

    python3 second/test_left.py

Every expected value is derived from R-5 of document 02, and from document 01,
in the comment beside it.  hu means half units.  Where nothing else is said, em
is 10, base characters are 10 wide, right and left ruby characters 5 wide, all
kana-like, and both ratios are 1:2:1.
"""

import collections
import os
import random
import sys
import unittest

HERE = os.path.dirname(os.path.abspath(__file__))
sys.path.insert(0, HERE)

import account      # noqa: E402  (found through the path set above)
import generate_left    # noqa: E402
import generate_lists   # noqa: E402
import lists        # noqa: E402
import second       # noqa: E402
from second import G, J, LEFT, M, N, ONE_TWO_ONE, P, RIGHT, Left  # noqa: E402
from test_second import (as_lists, furthest_settable, g, j,  # noqa: E402
                         keeps_the_rules, m, p)

BIG = 4294967295
SHOULDER = (0, 0, 1)


# ---------------------------------------------------------------------------
# Writing jobs down shortly
# ---------------------------------------------------------------------------

def fives(reading):
    return [5] * reading if isinstance(reading, int) else reading


def w(element, letter, reading, cls=15):
    """An element with a left reading: a width list, or a count of fives.

    Of a left M or J on a J it is a list of such, one for each character.
    """
    in_runs = element[2][0] == 'J' and letter != 'G'
    runs = [fives(run) for run in (reading if in_runs else [reading])]
    rows = [(cls, width) for run in runs for width in run]
    return (*element, letter, rows, list(map(len, runs)))


def left_lists(elements):
    """The Left of elements as w, m, g, j and p give them."""
    left = Left([], [], [], [], [])
    for element in elements:
        letter, rows, counts = (element + ('N', [], []))[3:6]
        left.left_kind.append(ord(letter))
        left.left_class.extend(row[0] for row in rows)
        left.left_width.extend(row[1] for row in rows)
        in_runs = element[2][0] == 'J' and letter in 'MJ'
        left.elem_left.append(0 if in_runs or not counts else counts[0])
        left.left_runs.extend(counts if in_runs else [])
    return left


def arguments_of(elements, em=10, measure=4000, ratios=ONE_TWO_ONE, profile=0,
                 **replaced):
    """The sixteen arguments; lists and fields of Left may be replaced."""
    given = as_lists([element[:3] for element in elements])
    left = left_lists(elements)
    for name, values in replaced.items():
        if name in given:
            given[name] = values
        else:
            left = left._replace(**{name: values})
    return [em, measure, ratios, profile, *given.values(), left]


class Both:
    """A call on a job in lists with left readings."""

    def __init__(self, elements, room=None, **changes):
        arguments = arguments_of(elements, **changes)
        self.outs = [[77] * length
                     for length in room or (1024, 2048, 2048, 1024)]
        self.result = second.set_job(*arguments, *self.outs)
        self.untouched = all(entry == 77 for out in self.outs for entry in out)


def one_line(elements, **changes):
    """(base, right, left positions) of a job that is one line."""
    call = Both(elements, **changes)
    assert call.result == ('set', 1), call.result
    arguments = arguments_of(elements)
    counts = len(arguments[4]), len(arguments[9]), len(arguments[15][0])
    return tuple(out[:count] for out, count in zip(call.outs, counts))


def text_of(elements, **changes):
    """What the setting program would write, as rows."""
    arguments = arguments_of(elements, **changes)
    outs = [[0] * 2048 for _ in range(4)]
    result = second.set_job(*arguments, *outs)
    assert result[0] == 'set', result
    text = second.result_text(arguments, outs[0], outs[1:3],
                              outs[3][:result[1]])
    return text.decode('ascii').splitlines()


def account_of(elements, **changes):
    """What the account program would write, as rows."""
    found = account.verdict_of(arguments_of(elements, **changes))
    return account.text_of(found).decode('ascii').splitlines()


class Case(unittest.TestCase):

    def refused(self, number, place, elements, **changes):
        """A refusal: its number and place, and no list altered."""
        call = Both(elements, **changes)
        self.assertEqual(call.result, ('refused', number, place))
        self.assertTrue(call.untouched)

    def accepted(self, elements, **changes):
        call = Both(elements, **changes)
        self.assertEqual(call.result[0], 'set', call.result)
        return call


# ---------------------------------------------------------------------------
# Level one
# ---------------------------------------------------------------------------

class MonoWithMono(Case):
    """R-5: "Mono with mono is solid and centred on both sides"."""

    def test_each_is_centred_on_the_longest(self):
        # Base 10, right 15, left 5: base at 5, right at 0, left at 10.
        self.assertEqual(one_line([w(m(3), 'M', 1)]),
                         ([5], [0, 10, 20], [10]))
        # The other way round.
        self.assertEqual(one_line([w(m(1), 'M', 3)]),
                         ([5], [10], [0, 10, 20]))
        # The base longest: both at 5.
        self.assertEqual(one_line([w(m(1), 'M', 1)]), ([0], [5], [5]))
        # All equal.
        self.assertEqual(one_line([w(m(2), 'M', 2)]), ([0], [0, 10], [0, 10]))
        # Three lengths: base 10, right 11, left 12: 2, 1 and 0.
        self.assertEqual(one_line([w(m([5, 6]), 'M', [12])]),
                         ([2], [1, 11], [0]))

    def test_never_spread_whatever_the_ratios(self):
        for ratios in ((SHOULDER, SHOULDER), ((7, 0, 0), (0, 7, 0))):
            self.assertEqual(
                one_line([w(m(2, width=100), 'M', 4)], ratios=ratios),
                # B 100, R 10, L 20.
                ([0], [90, 100], [80, 90, 100, 110]))

    def test_any_classes(self):
        # 9 and 10 name G and J only.
        for cls in (24, 26, 27):
            self.assertEqual(one_line([w(m(3, cls=24), 'M', 1, cls)]),
                             ([5], [0, 10, 20], [10]))


class TwoGroups(Case):
    """R-5: "Two groups ... follow section 3 of document 000"."""

    def test_neither_longer_than_the_base(self):
        # B 30. Right 10: K2, 10 and 40. Left 20: D 10, n 4, g 2, 2D - 2g
        # 16, floor(16i/3) = 0, 5, 10, 16: 2, 17, 32, 48.
        self.assertEqual(one_line([w(g(3, 2), 'G', 4)]),
                         ([0, 20, 40], [10, 40], [2, 17, 32, 48]))
        # Left 30, equal to the base: solid.
        self.assertEqual(one_line([w(g(3, 2), 'G', 6)]),
                         ([0, 20, 40], [10, 40], [0, 10, 20, 30, 40, 50]))
        # Both equal to the base.
        self.assertEqual(one_line([w(g(1, 2), 'G', [10])]),
                         ([0], [0, 10], [0]))

    def test_the_half_em_limit_on_both_sides(self):
        # B 50. Right 10: K3, 10 and 80. Left 10 the same.
        self.assertEqual(one_line([w(g(5, 2), 'G', 2)])[1:],
                         ([10, 80], [10, 80]))

    def test_right_longer(self):
        # K4: base 7 and 43 under 70 hu. The other: 10 over a base of 35, D
        # 25, n 2: floor(D/n) 12 is held at 10; then 10 + 10 + (50 - 20).
        self.assertEqual(one_line([w(g(2, 7), 'G', 2)]),
                         ([7, 43], [0, 10, 20, 30, 40, 50, 60], [10, 50]))
        # Over the spread base without its end gaps, 56 hu from 7 on, it
        # would be D 18, g 9, 16 and 44; with the base's own 20 it would be
        # 12 and 32.

    def test_left_longer(self):
        self.assertEqual(one_line([w(g(2, 2), 'G', 7)]),
                         ([7, 43], [10, 50], [0, 10, 20, 30, 40, 50, 60]))

    def test_the_other_longer_than_the_base_too(self):
        # B 20, R 35, L 25: over 35, D 10, n 5, g 2, 2D - 2g 16, floor(16i/4)
        # = 0, 4, 8, 12, 16: 2, 16, 30, 44, 58.
        self.assertEqual(one_line([w(g(2, 7), 'G', 5)])[2],
                         [2, 16, 30, 44, 58])
        # One less than the longer one: 34 in one character, D 1: at 1.
        self.assertEqual(one_line([w(g(2, 7), 'G', [34])])[2], [1])

    def test_equal_and_longer_than_the_base(self):
        # Both 35: the base spread once, the other solid.
        self.assertEqual(one_line([w(g(2, 7), 'G', [20, 15])]),
                         ([7, 43], [0, 10, 20, 30, 40, 50, 60], [0, 40]))

    def test_base_of_one_character_longer_by_one(self):
        # B 10, R 10, L 11: the base at D = 1, right over 11: D 1, n 2, g 0,
        # floor(2i/1): 0 and 10 + 2.
        self.assertEqual(one_line([w(g(1, 2), 'G', [11])]),
                         ([1], [0, 12], [0]))

    def test_western_base(self):
        # Kana-like ruby longer than a Western base: the base is solid, at
        # 15. The other, kana-like, is over a Western base of 35: spread
        # without the limit, D 25, n 2, g 12, 12 + 10 + (50 - 24) = 48.
        self.assertEqual(one_line([w(g(2, 7, cls=27), 'G', 2)]),
                         ([15, 35], [0, 10, 20, 30, 40, 50, 60], [12, 48]))

    def test_western_other_reading(self):
        # Western, shorter, over the kana-like base's length 35: solid at 25.
        self.assertEqual(one_line([w(g(2, 7), 'G', 2, cls=24)])[2], [25, 35])
        self.assertEqual(one_line([w(g(2, 2, ruby_class=24), 'G', 7)])[1],
                         [25, 35])

    def test_the_base_s_own_kind(self):
        # The longer reading is Western and spreads the kana-like base; the
        # other is over a base of its length and of the base's own kind: with
        # the limit, 10 and 50. Over a Western base it would be 12 and 48.
        self.assertEqual(one_line([w(g(2, 2), 'G', 7, cls=27)]),
                         ([7, 43], [10, 50], [0, 10, 20, 30, 40, 50, 60]))
        self.assertEqual(one_line([w(g(2, 7, ruby_class=25), 'G', 2)])[2],
                         [10, 50])

    def test_one_character(self):
        # 10 over 35 in one character: D 25, at 25, without the limit.
        self.assertEqual(one_line([w(g(2, 7), 'G', [10])])[2], [25])

    def test_ratios(self):
        # the other reading is spread ruby. 1:0:0, 2D 50: 50 and 60; it
        # lies 50 to 70, the block 7 to 63: neither inside nor around it.
        ratios = ((1, 0, 0), (1, 2, 1))
        self.assertEqual(one_line([w(g(2, 7), 'G', 2)], ratios=ratios),
                         ([7, 43], [0, 10, 20, 30, 40, 50, 60], [50, 60]))
        # The base all behind, at 30 and 50; the left reading all in front,
        # 0 to 20: it stands clear of its own base.
        ratios = (SHOULDER, (1, 0, 0))
        self.assertEqual(one_line([w(g(2, 7), 'G', 2)], ratios=ratios),
                         ([30, 50], [0, 10, 20, 30, 40, 50, 60], [0, 10]))
        # 1:3:1: S 5, ends 50 // 5 = 10, at the limit; inner 30.
        ratios = ((1, 3, 1), (1, 3, 1))
        self.assertEqual(one_line([w(g(2, 7), 'G', 2)], ratios=ratios)[2],
                         [10, 50])
        # 2:1:1: S 4, front 25 held at 10, rear 12 held at 10.
        ratios = ((2, 1, 1), (1, 2, 1))
        self.assertEqual(one_line([w(g(2, 7), 'G', 2)], ratios=ratios)[2],
                         [10, 50])
        # 0:1:2: S 3, front 0, rear 33 held at 10; inner 40.
        ratios = ((0, 1, 2), (1, 2, 1))
        self.assertEqual(one_line([w(g(2, 7), 'G', 2)], ratios=ratios)[2],
                         [0, 50])


class Jukugo(Case):

    def test_with_a_left_group(self):
        # Group on both sides though no run is long. B 20. Right 15: D 5, n
        # 3, g 1, 2D - 2g 8: 1, 1+10+4 = 15, 1+20+8 = 29 (K7 has 5, 20, 30).
        # Left 10: D 10, n 2, g 5: 5, 5+10+10 = 25.
        self.assertEqual(one_line([w(j([1, 2]), 'G', 2)]),
                         ([0, 20], [1, 15, 29], [5, 25]))
        # Longer than the base: as K4 with the other at 10 over 35: right 10
        # of two runs, left 35.
        self.assertEqual(one_line([w(j([1, 1]), 'G', 7)]),
                         ([7, 43], [10, 50], [0, 10, 20, 30, 40, 50, 60]))

    def test_with_a_left_group_is_not_cut(self):
        # Two characters take 20 units. Alone the J is cut.
        self.assertEqual(Both([j([1, 2])], measure=10).result, ('set', 2))
        self.refused(11, 0, [w(j([1, 2]), 'G', 2)], measure=19)
        self.assertEqual(Both([w(j([1, 2]), 'G', 2)], measure=20).result,
                         ('set', 1))
        # A line may end behind it, by the flag of its last character.
        words = [w(j([1, 2], flags=[0, 1]), 'G', 2), p()]
        self.assertEqual(Both(words, measure=20).result, ('set', 2))
        words = [w(j([1, 2], flags=[1, 0]), 'G', 2), p()]
        self.refused(11, 0, words, measure=20)

    def test_with_a_left_jukugo_and_no_long_run(self):
        # Each run solid over its own character, on both sides.
        self.assertEqual(one_line([w(j([1, 2]), 'J', [2, 1])]),
                         ([0, 20], [5, 20, 30], [0, 10, 25]))
        # It is cut, and each part is the same.
        call = self.accepted([w(j([1, 2]), 'J', [2, 1])], measure=10)
        self.assertEqual(call.result, ('set', 2))
        self.assertEqual([out[:3] for out in call.outs], [
            [0, 0, 77], [5, 0, 10], [0, 10, 5], [1, 2, 77]])
        # The kinds of ruby don't matter, nor do the ratios.
        self.assertEqual(one_line([w(j([1, 2]), 'J', [2, 1], 27)],
                                  ratios=(SHOULDER, SHOULDER))[2],
                         [0, 10, 25])

    def test_with_a_left_jukugo_and_a_run_of_one_em_and_one_more(self):
        # Exactly one em on either side: not long, so it is cut.
        word = w(j([[10], [5]]), 'J', [[5], [10]])
        self.assertEqual(one_line([word]), ([0, 20], [0, 25], [5, 20]))
        self.assertEqual(Both([word], measure=10).result, ('set', 2))
        # 11 on the left. Right 10: D 10, n 2, g 5: 5, 25. Left 16: D 4, n 3,
        # g 1, 2D - 2g 6: 1, 1+10+3 = 14, 1+22+6 = 29. Not cut.
        word = w(j([1, 1]), 'J', [[5, 6], [5]])
        self.assertEqual(one_line([word]), ([0, 20], [5, 25], [1, 14, 29]))
        self.refused(11, 0, [word], measure=19)
        # 11 on the right.
        word = w(j([[5, 6], [5]]), 'J', [1, 1])
        self.assertEqual(one_line([word]), ([0, 20], [1, 14, 29], [5, 25]))
        self.refused(11, 0, [word], measure=19)
        # Without the left reading a part without the long run is cut off.
        self.assertEqual(Both([j([[5, 6], [5]])], measure=11).result,
                         ('set', 2))

    def test_of_one_character(self):
        # As a group by the base ratio: R 15, B 10, 2D 10, 1:0:0: base at 10;
        # left 5 over 15: n 1, 1:2:1: at D = 10.
        ratios = ((1, 2, 1), (1, 0, 0))
        for word in (w(j([3]), 'G', 1), w(j([3]), 'J', [1])):
            self.assertEqual(one_line([word], ratios=ratios),
                             ([10], [0, 10, 20], [10]))
        # With a mono left reading it is one M, centred.
        self.assertEqual(one_line([w(j([3]), 'M', [1])], ratios=ratios),
                         ([5], [0, 10, 20], [10]))

    def test_with_a_mono_left_reading(self):
        # One M for each character. The first has both at 5 in 20 hu. The
        # second: base 10, right 10, left 15: 5, 5, 0. Its left reading keeps
        # off the first block, to 20: origin 20.
        self.assertEqual(one_line([w(j([1, 2]), 'M', [1, 3])]),
                         ([0, 25], [5, 25, 35], [5, 20, 30, 40]))

    def test_with_a_mono_left_reading_and_a_long_right_run(self):
        # No run makes it a group: the first has base 5, right 0 to 30, left
        # 10; the second keeps off that ruby: 30, right and left 35. As a
        # group it would be 20 in 20, solid.
        self.assertEqual(one_line([w(j([3, 1]), 'M', [1, 1])]),
                         ([5, 30], [0, 10, 20, 35], [10, 35]))
        # Ratios don't reach it.
        self.assertEqual(one_line([w(j([3, 1]), 'M', [1, 1])],
                                  ratios=(SHOULDER, SHOULDER))[0], [5, 30])

    def test_with_a_mono_left_reading_is_cut_anywhere(self):
        word = w(j([3, 1, 1]), 'M', [1, 1, 1])
        # 30 and 20 and 20 hu: all in one line take 70.
        for measure, ends in ((35, [3]), (34, [2, 3]), (25, [2, 3]),
                              (24, [1, 3]), (15, [1, 2, 3])):
            call = self.accepted([word], measure=measure)
            self.assertEqual(call.outs[3][:len(ends) + 1], ends + [77])
        self.refused(11, 0, [word], measure=14)

    def test_rule_3_inside_a_jukugo_with_a_mono_left_reading(self):
        # Both characters have left readings of 15: they touch at 30.
        self.assertEqual(one_line([w(j([1, 1]), 'M', [3, 3])]),
                         ([5, 35], [10, 40], [0, 10, 20, 30, 40, 50]))


# ---------------------------------------------------------------------------
# Clearance
# ---------------------------------------------------------------------------

class Clearance(Case):
    """R-5: "Clearance rule 2 holds for each ruby, rule 3 for rubies of one
    side"."""

    def test_rubies_of_two_sides_may_overlap(self):
        # First: block 5 to 25, right 0 to 30, left 10 to 20. Second from its
        # origin: block 5 to 25, right 10 to 20, left 0 to 30. Rule 2: the
        # right ruby's 30 and the second block, the first block's 25 and the
        # left ruby: origin 25. The right ruby, to 30, and the left one, from
        # 25, don't hold each other.
        self.assertEqual(one_line([w(m(3), 'M', 1), w(m(1), 'M', 3)]),
                         ([5, 30], [0, 10, 20, 35], [10, 25, 35, 45]))

    def test_rubies_of_one_side(self):
        # K9 on the left.
        self.assertEqual(one_line([w(m(1), 'M', 3), w(m(1), 'M', 3)]),
                         ([5, 35], [10, 40], [0, 10, 20, 30, 40, 50]))

    def test_left_ruby_keeps_off_blocks(self):
        # A plain character behind it, and before it.
        self.assertEqual(one_line([w(m(1), 'M', 3), p()])[0], [5, 30])
        self.assertEqual(one_line([p(), w(m(1), 'M', 3)])[0], [0, 25])
        # Words without a left reading: the short right one does not matter.
        self.assertEqual(one_line([w(m(1), 'M', 3), m(1)])[0], [5, 30])
        self.assertEqual(one_line([m(1), w(m(1), 'M', 3)])[0], [0, 25])

    def test_left_ruby_on_blanks(self):
        # K10, K11 and K12 on the left.
        long = w(m(1), 'M', 3)
        self.assertEqual(one_line([long, p(7, 10, 0, 5), long])[0],
                         [5, 30, 50])
        self.assertEqual(one_line([long, p(7, 7, 0, 2), long])[0],
                         [5, 30, 45])
        self.assertEqual(one_line([long, p(14, 3), long])[0], [5, 25, 35])

    def test_one_blank_by_both_sides_to_different_depths(self):
        # Base 10, right 30, left 25: block 20 to 40, right 0 to 60, left 5
        # to 55. A space of 20 hu takes 10: 50 because of the right one, and
        # the left one lies 5 on it.
        self.assertEqual(one_line([w(m(6), 'M', 5), p(14)])[0], [20, 50])
        # The next word the same. Its right reading lies 10 on the space,
        # from 60, and meets the right one of the first there: origin 60.
        self.assertEqual(
            one_line([w(m(6), 'M', 5), p(14), w(m(6), 'M', 5)])[0],
            [20, 50, 80])
        # The next with right 25 and left 30. The left one may lie 10 on the
        # space, from 60; the first left one ends at 55. Rule 3 holds neither.
        self.assertEqual(
            one_line([w(m(6), 'M', 5), p(14), w(m(5), 'M', 6)])[0],
            [20, 50, 80])
        # A space of 5 hu takes 5 at most: at 55 because of the right one, to
        # 60; the next, with right 5 and left 30, from 55: its left reading
        # touches the first left one. Rule 3 on the right: 60 is far behind.
        self.assertEqual(
            one_line([w(m(6), 'M', 5), p(14, 3), w(m(1), 'M', 6)]),
            ([20, 54, 75], [0, 10, 20, 30, 40, 50, 80],
             [5, 15, 25, 35, 45, 55, 65, 75, 85, 95, 105]))

    def test_opening_indent(self):
        # the left reading keeps off it as well.
        self.assertEqual(one_line([p(14), w(m(1), 'M', 6)])[0], [0, 40])
        self.assertEqual(one_line([p(), p(14), w(m(1), 'M', 6)])[0],
                         [0, 20, 50])

    def test_kana_in_profile_1(self):
        # block 20 to 40, left 0 to 60; a kana takes 10 of it.
        self.assertEqual(one_line([w(m(1), 'M', 6), p(15)], profile=1)[0],
                         [20, 50])
        self.assertEqual(one_line([p(15), w(m(1), 'M', 6)], profile=1)[0],
                         [0, 30])
        self.assertEqual(one_line([w(m(1), 'M', 6), p(15)])[0], [20, 60])

    def test_left_ruby_neither_inside_nor_around_its_block(self):
        # Block 7 to 63, right 0 to 70, left 50 to 70: what follows is at 70,
        # what stands before ends at 0. A space takes 10 of both.
        word = w(g(2, 7), 'G', 2)
        ratios = ((1, 0, 0), (1, 2, 1))
        self.assertEqual(one_line([word, p()], ratios=ratios)[0],
                         [7, 43, 70])
        self.assertEqual(one_line([p(), word], ratios=ratios)[0],
                         [0, 27, 63])
        # Two of them: rule 3 on the right, 70; the left ones are far apart.
        self.assertEqual(one_line([word, word], ratios=ratios)[0],
                         [7, 43, 77, 113])

    def test_line_start_and_measure(self):
        # The left reading at 0, the base at 5; 30 hu in all.
        self.assertEqual(Both([w(m(1), 'M', 3)], measure=15).result,
                         ('set', 1))
        self.refused(11, 0, [w(m(1), 'M', 3)], measure=14)

    def test_no_left_readings(self):
        # A job with left lists and no left reading is set as before.
        for elements in ([m(3), p(7, 7, 0, 2), m(3)],
                         [j([3, 2]), p(14), g(2, 7)]):
            call = self.accepted(elements)
            arguments = arguments_of(elements)
            outs = [[77] * 1024, [77] * 2048, [], [77] * 1024]
            second.set_job(*arguments[:15], None, *outs)
            self.assertEqual(call.outs[:2] + call.outs[3:],
                             outs[:2] + outs[3:])


# ---------------------------------------------------------------------------
# The result text
# ---------------------------------------------------------------------------

class Text(Case):

    def test_left_after_right(self):
        self.assertEqual(text_of([w(m(3), 'M', 1), p()]), [
            'lines 1', 'line 50', 'b 0 5', 'r 0 0', 'r 1 10', 'r 2 20',
            'l 0 10', 'b 1 30'])

    def test_the_left_reading_is_part_of_the_extent(self):
        self.assertEqual(text_of([w(m(1), 'M', 3)])[:2], ['lines 1',
                                                          'line 30'])

    def test_a_jukugo_with_a_mono_left_reading_is_one_element(self):
        # All its b, then all r, then all l.
        self.assertEqual(text_of([w(j([1, 2]), 'M', [1, 3])]), [
            'lines 1', 'line 50', 'b 0 0', 'b 1 25', 'r 0 5', 'r 1 25',
            'r 2 35', 'l 0 5', 'l 1 20', 'l 2 30', 'l 3 40'])

    def test_cut(self):
        self.assertEqual(text_of([w(j([1, 2]), 'M', [1, 3])], measure=15), [
            'lines 2', 'line 20', 'b 0 0', 'r 0 5', 'l 0 5',
            'line 30', 'b 1 5', 'r 1 5', 'r 2 15', 'l 1 0', 'l 2 10',
            'l 3 20'])
        self.assertEqual(text_of([w(j([1, 2]), 'J', [2, 1])], measure=10), [
            'lines 2', 'line 20', 'b 0 0', 'r 0 5', 'l 0 0', 'l 1 10',
            'line 20', 'b 1 0', 'r 1 0', 'r 2 10', 'l 2 5'])

    def test_the_glosses_of_the_examples(self):
        # examples/c/glosses.c, which has the working.
        elements = [w(m(5), 'M', [4] * 4, 27), p(7, 10, 0, 5),
                    w(g(2, 4), 'G', [4] * 6, 27), p(15),
                    w(j([1, 2]), 'M', [[4] * 4, [4] * 8], 27), m(2)]
        told = []
        for name, measure in (('wide', 130), ('narrow', 84)):
            told += [name, *text_of(elements, measure=measure),
                     *account_of(elements, measure=measure)]
        with open(os.path.join(os.path.dirname(HERE), 'examples', 'c',
                               'glosses.result')) as result:
            rows = result.read().splitlines()
        self.assertEqual(rows[:len(told)], told)
        self.assertEqual(rows[len(told):], [
            'a group on the mono word', 'refused 16 0', 'not set',
            'refused 5 0'])
        self.refused(16, 0, [w(m(5), 'G', [4] * 4, 27)] + elements[1:])


# ---------------------------------------------------------------------------
# The account
# ---------------------------------------------------------------------------

class Account(Case):

    def test_right_before_left(self):
        # The second block touches the first right ruby, and its own left
        # ruby the first block; the block comes first.
        self.assertEqual(account_of([w(m(3), 'M', 1), w(m(1), 'M', 3)]), [
            'clear lines 1 elements 2 readings 4', 'line 55',
            'element 0 at 5 gap 5 rule 4 ruby touches start',
            'element 1 at 30 gap 5 rule 2 block touches ruby of 0 at depth 0'
            ])
        # Both rubies of both sides touch.
        self.assertEqual(account_of([w(m(3), 'M', 3), w(m(3), 'M', 3)])[2:], [
            'element 0 at 5 gap 5 rule 4 ruby touches start',
            'element 1 at 35 gap 10 rule 3 ruby touches ruby of 0'])
        self.assertEqual(account_of([w(m(3), 'M', 3), p()])[3],
                         'element 1 at 30 gap 5 rule 2 block touches ruby of '
                         '0 at depth 0')
        self.assertEqual(account_of([p(), w(m(3), 'M', 3)])[3],
                         'element 1 at 25 gap 5 rule 2 ruby touches block of '
                         '0 at depth 0')

    def test_left_alone(self):
        long = w(m(1), 'M', 3)
        self.assertEqual(account_of([long, long]), [
            'clear lines 1 elements 2 readings 4', 'line 60',
            'element 0 at 5 gap 5 rule 4 left ruby touches start',
            'element 1 at 35 gap 10 rule 3 left ruby touches left ruby of 0'])
        self.assertEqual(account_of([p(), long, p()]), [
            'clear lines 1 elements 3 readings 2', 'line 70',
            'element 0 at 0 gap 0 rule 4 block touches start',
            'element 1 at 25 gap 5 rule 2 left ruby touches block of 0 at '
            'depth 0',
            'element 2 at 50 gap 5 rule 2 block touches left ruby of 1 at '
            'depth 0'])

    def test_depths(self):
        # K11 and K12 on the left, and a space of 1 unit, which stands at 28.
        long = w(m(1), 'M', 3)
        self.assertEqual(account_of([long, p(7, 7, 0, 2), long])[4],
                         'element 2 at 45 gap 1 rule 2 left ruby touches '
                         'block of 1 at depth 4')
        self.assertEqual(account_of([long, p(14, 3), long])[3:], [
            'element 1 at 25 gap 0 rule 1 block touches block of 0',
            'element 2 at 35 gap 4 rule 3 left ruby touches left ruby of 0'])
        self.assertEqual(account_of([long, p(14, 1)])[3],
                         'element 1 at 28 gap 3 rule 2 block touches left '
                         'ruby of 0 at depth 2')

    def test_a_jukugo_with_a_mono_left_reading(self):
        # A row for each of its characters, all with its own index.
        self.assertEqual(account_of([p(), w(j([1, 2]), 'M', [1, 3]), p()]), [
            'clear lines 1 elements 3 readings 2', 'line 90',
            'element 0 at 0 gap 0 rule 4 block touches start',
            'element 1 at 20 gap 0 rule 1 block touches block of 0',
            'element 1 at 45 gap 5 rule 2 left ruby touches block of 1 at '
            'depth 0',
            'element 2 at 70 gap 5 rule 2 block touches left ruby of 1 at '
            'depth 0'])
        self.assertEqual(account_of([w(j([1, 1]), 'M', [3, 3])])[3],
                         'element 0 at 35 gap 10 rule 3 left ruby touches '
                         'left ruby of 0')

    def test_readings_of_both_sides_count(self):
        words = [m(3), w(m(3), 'M', 1), w(g(2, 2), 'G', 1), p(),
                 w(j([1, 1]), 'M', [1, 1]), w(j([1, 1]), 'G', 1), j([1])]
        # 1 + 2 + 2 + 0 + 2 + 2 + 1.
        self.assertEqual(account_of(words)[0],
                         'clear lines 1 elements 7 readings 10')

    def test_what_a_line_needs(self):
        # The left reading needs 30 hu.
        self.assertEqual(account_of([w(m(1), 'M', 3)], measure=14),
                         ['refused 11 0', 'needs 30 measure 28'])
        # Not cut: the J needs 40 hu as a whole.
        self.assertEqual(account_of([w(j([1, 1]), 'G', 1)], measure=10),
                         ['refused 11 0', 'needs 40 measure 20'])

    def told(self, elements, **changes):
        arguments = arguments_of(elements, **changes)
        count = len(arguments[4])
        outs = [77] * (6 * count), [77] * count, [77] * count
        answer = account.account_job(*arguments, *outs)
        rows = [outs[0][at:at + 6] for at in range(0, 6 * count, 6)]
        return answer, rows, outs[1], outs[2]

    def test_in_lists(self):
        # Left reasons have 4 more than the right ones: 7 the block under a
        # left ruby, 8 a left ruby over the block, 9 left on left, 10 a left
        # ruby at the line's start.
        long = w(m(1), 'M', 3)
        self.assertEqual(
            self.told([long, p(), long, long]),
            (('set', 1), [[0, 5, 5, 10, 0, 0], [1, 30, 5, 7, 0, 0],
                          [2, 55, 5, 8, 1, 0], [3, 85, 10, 9, 2, 0]],
             [4, 77, 77, 77], [110, 77, 77, 77]))
        # A row for each character of a J with a mono left reading.
        self.assertEqual(
            self.told([w(j([1, 2]), 'M', [1, 3])]),
            (('set', 1), [[0, 0, 0, 1, 0, 0], [0, 25, 5, 8, 0, 0]],
             [2, 77], [50, 77]))


# ---------------------------------------------------------------------------
# Refusals
# ---------------------------------------------------------------------------

class Refusals(Case):

    def test_2_place_3(self):
        # 20 hu each, 400 of them in 4,000 units.
        words = [w(m(1), 'M', 2) for _ in range(1024)]
        self.assertEqual(Both(words).result, ('set', 3))
        over = dict(left_class=[15] * 2049, left_width=[5] * 2049)
        self.refused(2, 3, words, **over)
        # The shortest list counts.
        over['left_width'] = [5] * 2048
        self.assertEqual(Both(words, **over).result, ('set', 3))
        # By lowest place it comes after the elements.
        over['left_width'] = [5] * 2049
        self.refused(2, 2, [p()] * 1025, base_class=[19], **over)
        # And ahead of 12 and all others.
        self.refused(2, 3, [p(0)], room=(0, 0, 0, 0), **over)

    def test_12(self):
        word = w(m(3), 'M', 2)
        self.accepted([word], room=(1, 3, 2, 1))
        self.refused(12, 0, [word], room=(1, 3, 1, 1))
        self.refused(12, 0, [word], room=(1, 3, 0, 1))
        # Without left characters none is needed; ahead of 3.
        self.accepted([m(3)], room=(1, 3, 0, 1))
        self.refused(12, 0, [w(m(3), 'M', [0])], room=(1, 3, 0, 1))

    def test_3(self):
        for cls in (0, 20, 23, 28, BIG):
            self.refused(3, 3072, [w(m(3), 'M', 2, cls)])
        for width in (0, 4097, BIG):
            self.refused(3, 3073, [w(m(3), 'M', [5, width])])
        self.accepted([w(m(3), 'M', [1, 4096])], measure=4097)
        # Base characters, then right ones, then left ones.
        self.refused(3, 1024, [w(m([0]), 'M', [0])])
        self.refused(4, 1, [w(m(3), 'M', [0]), p(19, 10, 1, 0)])
        # The last of 2,048.
        words = [w(m(1), 'M', 2)] * 1023 + [w(m(1), 'M', [5, 0])]
        self.refused(3, 5119, words)
        # Ahead of 5.
        self.refused(3, 3072, [w(m(1), 'M', [0])], kind=[0])

    def test_5_left_kind(self):
        for kind in (0, 1, 75, 80, 109, 78 + 256, BIG):
            for word in (p(), m(1), g(2, 2), j([1])):
                self.refused(5, 0, [word], left_kind=[kind])

    def test_5_left_count(self):
        for word, letter in ((m(1), 'M'), (g(2, 2), 'G'), (j([1, 1]), 'G')):
            for count in (0, 65, 256, BIG):
                self.refused(5, 0, [w(word, letter, 1)], elem_left=[count])
            self.accepted([w(word, letter, [1] * 64)])

    def test_5_left_runs(self):
        for letter in 'MJ':
            word = w(j([1, 1]), letter, [1, 1])
            for runs in ([0, 1], [1, 0], [1], [], [65, 1], [64, 1], [1, 64],
                         [2 ** 31, 2 ** 31], [BIG, 2]):
                self.refused(5, 0, [word], left_runs=runs)
            self.accepted([w(j([1, 1]), letter, [[1] * 32, [1] * 32])])
            # A second J has the runs behind those of the first.
            self.refused(5, 1, [word, word], left_runs=[1, 1, 1])

    def test_16(self):
        # On P any but N, whatever its counts.
        for kind in (M, G, J):
            for count in (0, 1, BIG):
                self.refused(16, 1, [m(1), p()], elem_left=[0, count],
                             left_kind=[N, kind])
        # M takes M, G takes G, J all three.
        for word, kinds in ((m(1), (G, J)), (g(1, 1), (M, J))):
            for kind in kinds:
                self.refused(16, 0, [word], elem_left=[1], left_kind=[kind],
                             left_runs=[1])
        for kind in (M, G, J):
            self.accepted([w(j([1]), chr(kind), [1] if kind != G else 1)])

    def test_5_then_16_then_6(self):
        # The counts of a kind that is not taken are judged first: one count
        # of a G, a run for each base character of an M or a J.
        self.refused(5, 0, [m(1)], elem_left=[0], left_kind=[G])
        self.refused(16, 0, [m(1)], elem_left=[1], left_kind=[G])
        self.refused(5, 0, [m(1)], elem_left=[1], left_kind=[J])
        self.refused(16, 0, [m(1)], elem_left=[0], left_kind=[J],
                     left_runs=[1])
        self.refused(5, 0, [g(2, 2)], elem_left=[1], left_kind=[M],
                     left_runs=[1])
        self.refused(16, 0, [g(2, 2)], elem_left=[0], left_kind=[M],
                     left_runs=[1, 1])
        # The right counts are judged before the left kind.
        self.refused(5, 0, [m([])], elem_left=[1], left_kind=[G])
        # 16 ahead of 6: no left characters are there.
        self.refused(16, 0, [m(1)], elem_left=[1], elem_ruby=[2],
                     left_kind=[G])
        # A 6 of element 0 ahead of a 16 of element 1.
        self.refused(6, 0, [w(m(1), 'M', 1), m(1)], elem_left=[2, 1],
                     left_kind=[M, G])

    def test_6(self):
        # Left characters run out at the element that needs more.
        words = [w(m(1), 'M', 1), w(m(1), 'M', 1)]
        self.refused(6, 1, words, elem_left=[1, 2])
        self.refused(6, 0, words, elem_left=[3, 1])
        self.refused(6, 0, [w(j([1, 1]), 'J', [1, 1])], left_runs=[1, 2])
        # Some are left over: the element count.
        self.refused(6, 2, words, left_class=[15] * 3, left_width=[5] * 3)
        self.refused(6, 1, [m(1)], left_class=[15], left_width=[5])
        self.refused(6, 0, [], left_class=[15], left_width=[5])

    def test_7_and_8_are_as_before(self):
        self.refused(7, 0, [w(m(1, cls=1), 'M', 1)], blank_before=[1])
        self.refused(8, 0, [w(j([1, 1]), 'M', [1, 1])],
                     base_width=[10, 11])

    def test_9(self):
        mixed = dict(left_class=[15, 24])
        for word in (w(g(2, 2), 'G', 2), w(j([1, 1]), 'G', 2),
                     w(j([1, 1]), 'J', [1, 1]), w(j([1, 1]), 'M', [1, 1])):
            self.refused(9, 0, [word], **mixed)
            self.refused(9, 0, [word], left_class=[26, 26])
            self.accepted([word], left_class=[24, 27])
            self.accepted([word], left_class=[19, 1])
        self.accepted([w(m(1), 'M', 2)], **mixed)
        self.accepted([w(m(1), 'M', 2)], left_class=[26, 15])
        # Each element for itself: kana-like in one, Western in the next.
        self.accepted([w(g(2, 2), 'G', 1), w(g(2, 2), 'G', 1, 27)])
        # 8 ahead of it.
        self.refused(8, 0, [w(j([1, 1]), 'J', [1, 1])], base_class=[19, 26],
                     **mixed)

    def test_10(self):
        self.refused(10, 0, [w(g(2, 2, cls=24), 'G', 2, 27)])
        self.accepted([w(g(2, 2, cls=24), 'G', 2)])
        self.accepted([w(m(1, cls=24), 'M', 2, 27)])
        # All of 9 comes first: a right 10 with a left 9 is 9.
        self.refused(9, 0, [w(g(2, 2, cls=24, ruby_class=24), 'G', 2)],
                     left_class=[15, 24])
        self.refused(9, 0, [w(g(2, 2, cls=24), 'G', 2, 24)],
                     ruby_class=[15, 26])
        self.refused(10, 0, [w(g(2, 2, cls=24, ruby_class=24), 'G', 2)])

    def test_lists_as_lent(self):
        # The left kind and the left count share the element's shortest list.
        words = [w(m(1), 'M', 1), p()]
        self.refused(6, 1, words, elem_left=[1])
        self.refused(6, 1, words, left_kind=[M])
        self.accepted(words, elem_left=[1, 0, 5], left_kind=[M, N, 0])
        # Spare left runs are not read; left counts that no kind shows either.
        word = w(j([1, 1]), 'J', [1, 1])
        self.accepted([word], elem_left=[BIG], left_runs=[1, 1, 0, BIG])
        self.accepted([w(j([1, 1]), 'M', [1, 1])], elem_left=[BIG])
        self.accepted([p(), m(1)], elem_left=[BIG, BIG])
        # Left runs are taken in turn, by left M and J of J only.
        words = [w(j([1, 1]), 'J', [1, 2]), w(j([1, 1]), 'G', 1),
                 w(j([1]), 'M', [3]), j([1, 1])]
        self.assertEqual(left_lists(words).left_runs, [1, 2, 3])
        self.accepted(words)

    def test_entries_past_those_used(self):
        call = self.accepted([w(m(3), 'M', 1)], room=(2, 5, 3, 2))
        self.assertEqual(call.outs, [[5, 77], [0, 10, 20, 77, 77],
                                     [10, 77, 77], [1, 77]])

    def test_refused_late_leaves_the_lists(self):
        self.refused(11, 1, [w(m(1), 'M', 1), w(m(1), 'M', 9)], measure=20)


# ---------------------------------------------------------------------------
# The limit
# ---------------------------------------------------------------------------

LIMIT = 41943040    # R-5: "With left characters counted, R-3's limit is"


def whole_extent(arguments):
    """The extent of all elements in one line, whatever the measure."""
    job = second.sound_job(arguments)
    words = second.words_of_line(job, second.owners(job), 0, job.base_count)
    origins = second.least_setting(words, 10 ** 12)
    return max((at + word.end for word, at in zip(words, origins)), default=0)


class Limit(Case):

    def test_the_longest_line(self):
        # 32 M with 1 right and 64 left characters, 31 with 64 right ones and
        # one with 32; 2,048 of either. 960 P make 1,024 base characters; one
        # of them stands where the readings change sides and would overlap.
        # 63 * 64 * 8,192 + 32 * 8,192 + 960 * 8,192.
        wide = [4096]
        words = [w(m(wide), 'M', wide * 64)] * 32 + [p(19, 4096)]
        words += [m(wide * 64)] * 31 + [m(wide * 32)] + [p(19, 4096)] * 959
        arguments = arguments_of(words)
        self.assertEqual([len(arguments[9]), len(arguments[15].left_class),
                          len(arguments[4])], [2048, 2048, 1024])
        self.assertEqual(whole_extent(arguments), 41156608)
        self.assertLess(41156608, LIMIT)

    def test_groups_and_jukugo(self):
        # 32 words with 32 base and 64 right and left characters each, all
        # 4,096 wide: 64 * 8,192 each.
        wide = [4096]
        for word in (w(g(wide * 32, wide * 64), 'G', wide * 64),
                     w(j([wide * 2] * 32, em=4096), 'J', [wide * 2] * 32),
                     w(j([wide * 2] * 32, em=4096), 'M', [wide * 2] * 32),
                     w(j([wide * 2] * 32, em=4096), 'G', wide * 64)):
            for ratios in (ONE_TWO_ONE, ((7, 0, 0), (0, 0, 7))):
                arguments = arguments_of([word] * 32, em=4096, ratios=ratios)
                self.assertEqual(whole_extent(arguments), 16777216)


# ---------------------------------------------------------------------------
# Generated jobs
# ---------------------------------------------------------------------------

def arguments_of_call(call):
    return [call.em, call.measure, call.ratios, call.profile,
            *lists.job_lists(call.given)]


def long_runs(job, element):
    """For each side whether a run is longer than one em, and the longest."""
    readings = second.readings_of_part(job, element, element.base_first,
                                       element.base_end)
    return [max(map(sum, second.cut_into_runs(reading.runs, reading.widths)))
            for reading in readings]


def group_edges(job, element):
    """Edges of two groups."""
    right, left = second.readings_of_part(job, element, element.base_first,
                                          element.base_end)
    base = job.base_width[element.base_first:element.base_end]
    western = second.is_western(job.base_class[element.base_first])
    lengths = sum(base), sum(right.widths), sum(left.widths)
    if max(lengths[1:]) <= lengths[0]:
        yield 'neither longer than the base'
        if lengths[0] in lengths[1:]:
            yield 'as long as the base'
        return
    name, longer, other = (('right', right, left)
                           if lengths[1] >= lengths[2]
                           else ('left', left, right))
    if lengths[1] == lengths[2]:
        yield 'equal, longer than the base'
        return
    yield name + ' longer'
    yield ('the other longer than the base' if min(lengths[1:]) > lengths[0]
           else 'the other not longer than the base')
    space = 2 * (sum(longer.widths) - sum(other.widths))
    n, ratio = len(other.widths), job.ratios[0]
    if western:
        yield 'over a Western base'
    elif other.western:
        yield 'a Western other reading'
    elif n >= 2 and ratio[1] != 0 and (
            second.end_gaps(n, space // 2, ratio, None)
            != second.end_gaps(n, space // 2, ratio, job.em)):
        yield 'the other held by the limit'
        if longer.western:
            yield 'held under a Western longer reading'


def element_edges(job, ends):
    for element in job.elements:
        kinds = element.kind, element.left_kind
        cut = any(element.base_first < end < element.base_end for end in ends)
        if element.left_kind == N:
            continue
        yield '%c on %c' % kinds[::-1]
        if kinds == (J, J):
            longest = long_runs(job, element)
            longer = [length > job.em for length in longest]
            yield {(False, False): 'no long run', (True, False): 'long right',
                   (False, True): 'long left', (True, True): 'both long'}[
                       tuple(longer)]
            if longest[LEFT] == job.em and not longer[RIGHT]:
                yield 'a left run of one em'
            if longest[LEFT] == job.em + 1 and not longer[RIGHT]:
                yield 'a left run of one em and one more'
            if longest[RIGHT] == job.em + 1 and not longer[LEFT]:
                yield 'a right run of one em and one more'
            if cut:
                yield 'J on J cut'
        if kinds == (J, M):
            if cut:
                yield 'M on J cut'
            if max(long_runs(job, element)) > job.em:
                yield 'M on J with a long run'
        if G in kinds or kinds == (J, J) and any(longer):
            yield from group_edges(job, element)


def line_edges(line):
    """Edges of a line; line is a list of account.Drawn."""
    for drawn in line:
        if drawn.left is None:
            continue
        (start, end), (first, last) = drawn.left, drawn.block
        if first < start < last < end or start < first < end < last:
            yield 'neither inside nor around its block'
        if end <= first or last <= start:
            yield 'clear of its own base'
    for reason in account.line_reasons(line):
        yield '%s-%s%s' % (reason.mine, reason.its,
                           ' deep' if reason.depth else '')
    for one, two in zip(line, line[1:]):
        if one.ruby and two.left and one.ruby[1] > two.left[0]:
            yield 'right over the next left'
        if one.left and two.ruby and one.left[1] > two.ruby[0]:
            yield 'left over the next right'
        if one.left and two.depth_before and (
                0 < one.left[1] - two.block[0] != one.ruby[1] - two.block[0]
                > 0):
            yield 'one blank to two depths'
        if one.left and not two.left and two.ruby and (
                one.left[1] == two.block[0] > one.ruby[1]):
            yield 'left keeps off a word without a left reading'
        if one.element == two.element and two.block[0] > one.block[1]:
            yield 'a J that its readings open'


WANTED = (
    'M on M', 'G on G', 'M on J', 'J on J', 'G on J',
    'neither longer than the base', 'as long as the base', 'right longer',
    'left longer', 'equal, longer than the base',
    'the other longer than the base', 'the other not longer than the base',
    'over a Western base', 'a Western other reading',
    'the other held by the limit', 'held under a Western longer reading',
    'no long run', 'long right', 'long left', 'both long',
    'a left run of one em', 'a left run of one em and one more',
    'a right run of one em and one more', 'J on J cut', 'M on J cut',
    'M on J with a long run', 'neither inside nor around its block',
    'clear of its own base', 'block-left ruby', 'block-left ruby deep',
    'left ruby-block', 'left ruby-block deep', 'left ruby-left ruby',
    'left ruby-start', 'right over the next left', 'left over the next right',
    'one blank to two depths', 'left keeps off a word without a left reading',
    'a J that its readings open')


class Generated(unittest.TestCase):

    @classmethod
    def setUpClass(cls):
        cls.calls = [call for call, _ in generate_lists.calls(1, 1000, True)]
        cls.answers = [call.answered()[0] for call in cls.calls]
        cls.accepted = [call for call, answer in zip(cls.calls, cls.answers)
                        if answer[0] == 'set']

    def test_every_edge(self):
        met = collections.Counter()
        for call in self.accepted:
            arguments = arguments_of_call(call)
            job = second.sound_job(arguments)
            lines = account.drawn_lines_of(arguments)
            outs = [[0] * 2048 for _ in range(4)]
            count = second.set_job(*arguments, *outs)[1]
            met.update(set(element_edges(job, outs[3][:count])))
            for line in lines:
                met.update(set(line_edges(line)))
        self.assertEqual([edge for edge in WANTED if met[edge] == 0], [])

    def test_every_place_of_the_refusals(self):
        met = {answer[1:] for answer in self.answers if answer[0] != 'set'}
        numbers = {number for number, _ in met}
        self.assertEqual(numbers, {1, 2, 3, 4, 5, 6, 7, 8, 9, 10, 11, 12, 15,
                                   16, 20})
        self.assertLessEqual({(2, 0), (2, 1), (2, 2), (2, 3)}, met)
        self.assertTrue(any(number == 3 and place >= 3072
                            for number, place in met))
        self.assertGreater(len(self.accepted), 250)

    def test_without_left_lists_it_is_as_before(self):
        # Every accepted job without its left readings is set alike with left
        # lists that are empty of readings and without left lists.
        for call in self.accepted[:150]:
            *given, left = arguments_of_call(call)
            none = Left([], [], [N] * len(left.left_kind), left.elem_left,
                        left.left_runs)
            found = []
            for each in (None, none):
                outs = [[77] * 2048 for _ in range(4)]
                found.append((second.set_job(*given, each, *outs), outs))
            self.assertEqual(*found)

    def test_lines_keep_the_rules_and_are_least(self):
        seen = 0
        for call in self.accepted[:250]:
            job = second.sound_job(arguments_of_call(call))
            if job.base_count > 40:
                continue
            for _, words, origins in second.fill_lines(job):
                self.assertTrue(keeps_the_rules(job, words, origins))
                # No word can be a half unit further left.
                for i in range(len(words)):
                    lower = list(origins)
                    lower[i] -= 1
                    self.assertFalse(keeps_the_rules(job, words, lower))
                seen += 1
        self.assertGreater(seen, 300)

    def test_shortcuts_of_filling(self):
        for call in self.accepted[:120]:
            job = second.sound_job(arguments_of_call(call))
            if job.base_count > 40:
                continue
            owner = second.owners(job)
            breaks = second.permitted_breaks(job)
            first = 0
            while first < job.base_count:
                end, (_, origins) = second.fill_line(job, owner, breaks,
                                                     first)
                self.assertEqual((end, origins), furthest_settable(
                    job, owner, breaks, first))
                first = end

    def test_every_element_is_held(self):
        # As it stands no rule is broken, and one half unit nearer some is;
        # the reason that is named is one of them.
        for call in self.accepted[:250]:
            for line in account.drawn_lines_of(arguments_of_call(call)):
                if len(line) > 60:
                    continue
                rows = account.line_account(line)
                named = account.line_reasons(line)
                for place, (row, reason) in enumerate(zip(rows, named)):
                    self.assertEqual(account.broken_rules(
                        line[:place], line[place]), [])
                    if line[place].block[0] > 0:
                        self.assertEqual(reason.rule, row[3][0][0])
                    self.assertIn((reason.rule, reason.other), row[3])

    def test_the_limit(self):
        extents = []
        for call, answer in zip(self.calls, self.answers):
            if answer[0] == 'set' or answer[1] == 11:
                extents.append(whole_extent(arguments_of_call(call)))
        # The greatest ones by themselves, some more of them.
        rng = random.Random(1)
        for _ in range(16):
            em, measure, given, left = generate_left.great(rng)
            extents.append(whole_extent([em, measure, ONE_TWO_ONE, 0, *given,
                                         left]))
        self.assertLessEqual(max(extents), LIMIT)
        self.assertGreater(max(extents), 30000000)


if __name__ == '__main__':
    unittest.main()
