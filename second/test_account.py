"""Tests of the account, with values worked out by hand.

    python3 second/test_account.py

hu means half units.  Where nothing else is said, em is 10, base characters
are 10 wide and ruby characters 5 wide, as in the settings K1 to K12.
"""

import os
import sys
import unittest

HERE = os.path.dirname(os.path.abspath(__file__))
sys.path.insert(0, HERE)

import generate     # noqa: E402  (found through the path set above)
import second       # noqa: E402
from account import account, account_job, broken_rules  # noqa: E402
from account import drawn_lines, drawn_lines_of, line_account  # noqa: E402
from second import ONE_TWO_ONE  # noqa: E402
from test_second import EXAMPLE, as_lists, g, j, m, p, sheet  # noqa: E402


class ByHand(unittest.TestCase):

    def accounted(self, expected, elements, **changes):
        self.assertEqual(account(sheet(elements, **changes)), expected)

    def test_k9(self):
        # The first word's ruby would pass the line's start.  The second's
        # would begin at 29, under the ruby that ends at 30; its base, at 34,
        # keeps off that ruby, and its ruby off the block that ends at 25.
        self.accounted([[(0, 5, 5, [(4, None)]),
                         (1, 35, 10, [(3, 0)])]], [m(3), m(3)])

    def test_k10(self):
        # The comma at 29 would stand under the ruby that ends at 30.  The
        # base at 49 would stand on the comma, 30 to 50; its ruby, at 44, may
        # lie on the blank, which begins at 40.
        self.accounted([[(0, 5, 5, [(4, None)]),
                         (1, 30, 5, [(2, 0)]),
                         (2, 50, 0, [(1, 1)])]],
                       [m(3), p(7, 10, 0, 5), m(3)])

    def test_k11(self):
        # The comma is 30 to 44, its blank begins at 40.  The base at 44 would
        # be clear of it, its ruby at 39 would not.
        self.accounted([[(0, 5, 5, [(4, None)]),
                         (1, 30, 5, [(2, 0)]),
                         (2, 45, 1, [(2, 1)])]],
                       [m(3), p(7, 7, 0, 2), m(3)])

    def test_k12(self):
        # The space, 25 to 31, touches the block before it; the ruby to 30
        # lies on 5 of its 6 hu, and on all 6 one half unit nearer.  The last
        # word's ruby at 29 would lie on the first word's; the space itself
        # would let it reach 25.
        self.accounted([[(0, 5, 5, [(4, None)]),
                         (1, 25, 0, [(1, 0)]),
                         (2, 35, 4, [(3, 0)])]],
                       [m(3), p(14, 3), m(3)])

    def test_worked_example(self):
        # Line 1: M, P at 30 where the ruby ends, the J's first character
        # behind the P (its ruby stands 5 hu inside).  Line 2: the rest of
        # the J, at the line's start.
        self.assertEqual(account(EXAMPLE), [
            [(0, 5, 5, [(4, None)]), (1, 30, 5, [(2, 0)]),
             (2, 50, 0, [(1, 1)])],
            [(2, 0, 0, [(4, None)])]])

    def test_everything_touches(self):
        # Both rubies fill their blocks: block on block, ruby on block and
        # ruby on ruby would overlap at once.
        self.accounted([[(0, 0, 0, [(4, None)]),
                         (1, 20, 0, [(1, 0), (2, 0), (3, 0)])]],
                       [m(2), m(2)])

    def test_depth_is_a_reach(self):
        # A space of 1 unit alone behind K1 stands at 28: the ruby to 30 is
        # 2 hu past its near edge.  At 27 it would be 3 hu past, and come out
        # behind the space.
        self.accounted([[(0, 5, 5, [(4, None)]), (1, 28, 3, [(2, 0)])]],
                       [m(3), p(14, 1)])

    def test_class_5_has_a_quarter_em(self):
        # The dot's blank before is 5 units, 10 hu, and a quarter em is 5 hu:
        # it stands at 25, where it also meets the block.
        self.accounted([[(0, 5, 5, [(4, None)]),
                         (1, 25, 0, [(1, 0), (2, 0)])]],
                       [m(3), p(5, 10, 5, 0)])

    def test_two_plain_characters_between(self):
        # K1, two spaces of 1 unit, K1.  The first space stands at 28 as
        # above and ends at 30, the second is 30 to 32.  The last word's ruby
        # may reach 2 hu over the second space, to 30: its base is at 35.
        # One half unit nearer its ruby would reach 3 hu over that space, and
        # begin under the first ruby, which ends at 30; and it would lie on
        # the first space, which is not its neighbour.
        self.accounted([[(0, 5, 5, [(4, None)]), (1, 28, 3, [(2, 0)]),
                         (2, 30, 0, [(1, 1), (2, 0)]),
                         (3, 35, 3, [(2, 1), (2, 2), (3, 0)])]],
                       [m(3), p(14, 1), p(14, 1), m(3)])

    def test_opening_indent(self):
        # The indent is 0 to 20 and takes no ruby.  The reading is 60
        # hu, 20 hu past its block: it begins at 20, and the block at 40.
        self.accounted([[(0, 0, 0, [(4, None)]), (1, 40, 20, [(2, 0)])]],
                       [p(14), m(6)])

    def test_space_at_the_start_of_a_later_line(self):
        # The same twice, 80 hu at most in a line: the second space takes 10
        # hu of ruby, as before.  The ruby begins at 10, the block at 30.
        words = [p(14, flag=0), m(6)]
        self.accounted([[(0, 0, 0, [(4, None)]), (1, 40, 20, [(2, 0)])],
                        [(2, 0, 0, [(4, None)]), (3, 30, 10, [(2, 2)])]],
                       words + words, measure=40)

    def test_spread_base(self):
        # K4's block starts 7 hu behind its ruby's start; the P before it has
        # no blank, so the ruby begins at 20 where that ends.
        self.accounted([[(0, 0, 0, [(4, None)]), (1, 27, 7, [(2, 0)])]],
                       [p(), g(2, 7)])

    def test_parts_of_a_jukugo(self):
        # Three characters at a measure of one: an element of three lines.
        self.accounted([[(0, 0, 0, [(4, None)])]] * 3, [j([2, 1, 2])],
                       measure=10)

    def test_no_lines(self):
        self.accounted([], [])

    def test_refused(self):
        with self.assertRaises(second.Refused) as caught:
            account(sheet([m(3)], em=11))
        self.assertEqual((caught.exception.number, caught.exception.place),
                         (1, 0))


class InLists(unittest.TestCase):
    """account_job: rows of element, start, gap, reason, other and depth."""

    def told(self, elements, em=10, measure=4000, ratios=ONE_TWO_ONE,
             profile=0, room=None):
        """(answer, rows, told, extents), 77 where nothing was written."""
        lists = as_lists(elements)
        count = len(lists['flag'])
        rows, told, extents = ([77] * length for length in (
            room or (6 * count + 1, count + 1, count + 1)))
        answer = account_job(em, measure, ratios, profile, left=None,
                             rows=rows, told=told, extents=extents, **lists)
        return answer, rows, told, extents

    def test_k11(self):
        # Reasons: its ruby at the line's start (6); its block under the ruby
        # of 0 at depth 0 (3); its ruby over the block of 1 at depth 4 (4).
        # The ruby of the last word ends at 70.
        self.assertEqual(
            self.told([m(3), p(7, 7, 0, 2), m(3)]),
            (('set', 1), [0, 5, 5, 6, 0, 0, 1, 30, 5, 3, 0, 0,
                          2, 45, 1, 4, 1, 4, 77],
             [3, 77, 77, 77], [70, 77, 77, 77]))

    def test_several_lines(self):
        # The worked example; the J is told in both of its lines, its second
        # part by its block at the start (1).  The J's first part touches the
        # block before it (2).
        self.assertEqual(
            self.told([m(3), p(), j([1, 2])], measure=35),
            (('set', 2), [0, 5, 5, 6, 0, 0, 1, 30, 5, 3, 0, 0,
                          2, 50, 0, 2, 1, 0, 2, 0, 0, 1, 0, 0, 77],
             [3, 4, 77, 77, 77], [70, 20, 77, 77, 77]))

    def test_ruby_on_ruby(self):
        # K9: the second ruby touches that of 0 (5).
        self.assertEqual(self.told([m(3), m(3)])[1][6:12],
                         [1, 35, 10, 5, 0, 0])

    def test_ratios(self):
        # P 0..20, then g(2, 7).  Base 0:0:1: its block touches the P's, its
        # ruby to 90.  1:0:0: its ruby from 20, the P has no blank; its block
        # 30 hu behind.
        words = [p(), g(2, 7)]
        self.assertEqual(self.told(words, ratios=((1, 2, 1), (0, 0, 1)))[1:],
                         ([0, 0, 0, 1, 0, 0, 1, 20, 0, 2, 0, 0]
                          + [77] * 7, [2, 77, 77, 77], [90, 77, 77, 77]))
        self.assertEqual(self.told(words, ratios=((1, 2, 1), (1, 0, 0)))[1:],
                         ([0, 0, 0, 1, 0, 0, 1, 50, 30, 4, 0, 0]
                          + [77] * 7, [2, 77, 77, 77], [90, 77, 77, 77]))

    def test_on_kana(self):
        # m(6): block 20..40, ruby 0..60.  Profile 1: the kana at 50 with 10
        # hu of ruby (3), 10 hu behind the block; the next ruby from 60, on
        # 10 hu of the kana (4, ahead of rule 3), its block at 80, to 120.
        words = [m(6), p(15), m(6)]
        self.assertEqual(
            self.told(words, profile=1),
            (('set', 1), [0, 20, 20, 6, 0, 0, 1, 50, 10, 3, 0, 10,
                          2, 80, 10, 4, 1, 10, 77],
             [3, 77, 77, 77], [120, 77, 77, 77]))
        # Profile 0: depth 0; the kana at 60, the next ruby from 80 to 140.
        self.assertEqual(
            self.told(words)[1:],
            ([0, 20, 20, 6, 0, 0, 1, 60, 20, 3, 0, 0,
              2, 100, 20, 4, 1, 0, 77],
             [3, 77, 77, 77], [140, 77, 77, 77]))

    def test_on_a_narrow_kana(self):
        # 4 wide, depth 8: 52..60; 12 hu behind the block.  The next ruby from
        # 60: the kana would let it from 52, rule 3 does not (5).
        self.assertEqual(
            self.told([m(6), p(16, 4), m(6)], profile=1)[1][6:18],
            [1, 52, 12, 3, 0, 8, 2, 80, 20, 5, 0, 0])
        # First in the line, 0..8: the ruby at the start, on all 8 hu of it
        # (4, ahead of 6), its block at 20.
        self.assertEqual(
            self.told([p(16, 4), m(6)], profile=1)[1][:12],
            [0, 0, 0, 1, 0, 0, 1, 20, 12, 4, 0, 8])

    def test_kana_that_takes_none(self):
        # Small kana and the prolonged sound mark: depth 0, at 60.
        for cls in (10, 11):
            self.assertEqual(self.told([m(6), p(cls)], profile=1)[1][6:12],
                             [1, 60, 20, 3, 0, 0])
        # Kana as the base of an M, at 60, its short ruby inside.
        self.assertEqual(
            self.told([m(6), m(1, cls=15)], profile=1)[1][6:12],
            [1, 60, 20, 3, 0, 0])
        # The opening indent 0..20: the ruby from 20, its block at 40.
        self.assertEqual(self.told([p(14), m(6)], profile=1)[1][6:12],
                         [1, 40, 20, 4, 0, 0])

    def test_room(self):
        # Two base characters: twelve, two and two entries.
        words = [m(3), p()]
        self.assertEqual(self.told(words, room=(12, 2, 2))[0], ('set', 1))
        for room in ((11, 2, 2), (12, 1, 2), (12, 2, 1), (0, 0, 0)):
            self.assertEqual(self.told(words, room=room)[0],
                             ('refused', 12, 0))
        self.assertEqual(self.told([], room=(0, 0, 0))[0], ('set', 0))

    def test_refusals(self):
        # As of set_job; 12 behind 1, 15, 20 and 2 and ahead of all others.
        bad, none = ((1, 2, 1), (8, 0, 0)), (0, 0, 0)
        over = [p(0)] * 1025
        for expected, words, changes in (
                ((1, 1), over, dict(measure=0, ratios=bad, profile=2,
                                    room=none)),
                ((15, 1), over, dict(ratios=bad, profile=2, room=none)),
                ((20, 0), over, dict(profile=2, room=none)),
                ((2, 0), over, dict(room=none)),
                ((12, 0), [p(0)], dict(room=none)),
                ((3, 0), [p(0)], dict()),
                ((11, 1), [p(), g(2, 5)], dict(measure=20))):
            answer, *lists = self.told(words, **changes)
            self.assertEqual(answer, ('refused', *expected))
            self.assertEqual(set(sum(lists, [])) - {77}, set())


class OnGeneratedSheets(unittest.TestCase):

    def check(self, lines):
        """As they stand no rule is broken, and nearer some rule is.

        So every element stands at the least position.
        """
        for line in lines:
            rows = line_account(line)
            for place, drawn in enumerate(line):
                self.assertEqual(broken_rules(line[:place], drawn), [])
                self.assertNotEqual(rows[place][3], [])
                self.seen += 1

    def test_every_element_is_held(self):
        self.seen = 0
        for text in generate.sheets(31, 250):
            try:
                lines = drawn_lines(text)
            except second.Refused:
                continue
            if sum(map(len, lines)) <= 80:
                self.check(lines)
        self.assertGreater(self.seen, 500)

    def test_by_other_ratios_and_profile_1(self):
        self.seen = 0
        various = ((0, 0, 1), (1, 3, 1), (7, 0, 3), (0, 1, 6))
        for number, text in enumerate(generate.sheets(32, 200)):
            try:
                arguments = second.read_sheet(text)
                arguments[2] = various[number % 4], various[number // 4 % 4]
                arguments[3] = 1
                lines = drawn_lines_of(arguments)
            except second.Refused:
                continue
            if sum(map(len, lines)) <= 80:
                self.check(lines)
        self.assertGreater(self.seen, 500)


if __name__ == '__main__':
    unittest.main()
