"""Tests of sheets of form two and of the converter (R-6), worked by hand.

    python3 second/test_two.py

Every expected value is derived from R-6 of document 02, and from what it
changes, in the comment beside it.  hu means half units.
"""

import os
import random
import subprocess
import sys
import tempfile
import unittest

HERE = os.path.dirname(os.path.abspath(__file__))
sys.path.insert(0, HERE)

import account      # noqa: E402  (found through the path set above)
import compare      # noqa: E402
import compare_account  # noqa: E402
import generate     # noqa: E402
import generate_two     # noqa: E402
import second       # noqa: E402
from convert import converted  # noqa: E402
from second import G, J, M, N, P, answer, read_sheet  # noqa: E402
from test_compare_account import changed_texts, other_reasons  # noqa: E402
from test_second import EXAMPLE, EXAMPLE_RESULT, quiet  # noqa: E402

# The worked example of document 01 in form two.
EXAMPLE_TWO = (
    b'set 9\n10\n35\n1\n2\n1\n1\n2\n1\n0\n'
    b'base 4\n19 10 0 0 1\n15 10 0 0 1\n19 10 0 0 1\n19 10 0 0 1\n'
    b'ruby 6\n15 5\n15 5\n15 5\n15 5\n15 5\n15 5\n'
    b'left 0\n'
    b'elem 3\nM 3 N\nP\nJ 2 1 2 N\n')

# The same with left readings: one character on the M, two and one on the J.
WITH_LEFT = EXAMPLE_TWO.replace(
    b'left 0\n', b'left 4\n15 5\n15 5\n15 5\n15 5\n').replace(
    b'M 3 N\n', b'M 3 M 1\n').replace(b'J 2 1 2 N', b'J 2 1 2 J 2 1')

# The M: base 10, right 15, left 5, so the left one at 10.  The J is cut as in
# document 01, no run being longer than one em: its first left run, 10, is
# solid from 50, its second, 5, at 5.
WITH_LEFT_RESULT = (
    b'lines 2\nline 70\nb 0 5\nr 0 0\nr 1 10\nr 2 20\nl 0 10\nb 1 30\n'
    b'b 2 50\nr 3 55\nl 1 50\nl 2 60\nline 20\nb 3 0\nr 4 0\nr 5 10\nl 3 5\n')

BIG = 4294967295


def changed(number, line, sheet=EXAMPLE_TWO):
    """The sheet with one line, from 1, replaced."""
    lines = sheet.split(b'\n')
    lines[number - 1] = line
    return b'\n'.join(lines)


def one_element(line, base=b'19 10 0 0 1', bases=1, rubies=1, lefts=0,
                ratios=b'1\n2\n1\n1\n2\n1', profile=0):
    """A sheet of one element, its characters 10 and 5 wide."""
    return (b'set 9\n10\n4000\n%s\n%d\nbase %d\n%sruby %d\n%sleft %d\n%s'
            b'elem 1\n%s\n' % (ratios, profile, bases, (base + b'\n') * bases,
                               rubies, b'15 5\n' * rubies, lefts,
                               b'15 5\n' * lefts, line))


class Case(unittest.TestCase):

    def answered(self, expected, sheet):
        self.assertEqual(answer(sheet), expected)

    def converts(self, expected, sheet):
        self.assertEqual(converted(sheet), expected)


class Reading(Case):

    def test_worked_example(self):
        self.answered(EXAMPLE_RESULT, EXAMPLE_TWO)
        self.answered(EXAMPLE_RESULT, EXAMPLE)

    def test_left_readings(self):
        self.answered(WITH_LEFT_RESULT, WITH_LEFT)

    def test_arguments(self):
        em, measure, ratios, profile, *given, left = read_sheet(
            one_element(b'J 2 1 2 M 3 4', bases=2, ratios=b'0\n1\n2\n3\n4\n5',
                        profile=7))
        # Ruby a, m, c, then base a, m, c.
        self.assertEqual((em, measure, ratios, profile),
                         (10, 4000, ((0, 1, 2), (3, 4, 5)), 7))
        self.assertEqual(given[7:], [[J], [2], [0], [1, 2]])
        self.assertEqual(left, ([], [], [M], [0], [3, 4]))

    def test_left_counts(self):
        # The letter and its counts: one of a G, one for each base character
        # of an M or a J; the one of an M on M is the left count.
        for line, kind, count, runs in (
                (b'M 1 N', N, 0, []), (b'M 1 M 2', M, 2, []),
                (b'M 1 G 2', G, 2, []), (b'M 1 J 2', J, 0, [2]),
                (b'G 2 1 N', N, 0, []), (b'G 2 1 G 3', G, 3, []),
                (b'G 2 1 M 3 4', M, 0, [3, 4]), (b'G 0 1 J', J, 0, []),
                (b'J 2 1 1 N', N, 0, []), (b'J 2 1 1 G 9', G, 9, []),
                (b'J 2 1 1 M 1 0', M, 0, [1, 0]),
                (b'J 2 1 1 J 1 4294967295', J, 0, [1, BIG]),
                (b'P', N, 0, [])):
            left = read_sheet(one_element(line))[15]
            self.assertEqual(left[2:], ([kind], [count], runs), line)

    def test_element_lines(self):
        # Line 17 of a sheet with one base and one ruby character: 10 lines of
        # `set`, 2 of base, 2 of ruby, `left 0`, `elem 1`.
        for line in (b'P N', b'P 1', b'P ', b'M 1', b'M N', b'M 1 ', b'M 1 N ',
                     b'M 1 N 0', b'M 1 M', b'M 1 M 1 1', b'M 1 G',
                     b'M 1 J 1 1',
                     b'M 1 P', b'M 1 K 1', b'M 1 n', b'M 1 m 1', b'M 1 2 N',
                     b'M 1 M 01', b'M 1 M 4294967296', b'M 1  N', b'M N 1',
                     b'G 1 1', b'G 2 3 M 1', b'G 2 3 J 1', b'G 2 3 M 1 1 1',
                     b'G 1 N', b'G 1 1 1 N', b'G 2 3 J 2 1 1', b'G 1 1 NN',
                     b'J 2 1 1', b'J 2 1 N', b'J 2 1 1 1 N', b'J 0 N',
                     b'J 33' + b' 1' * 33 + b' N', b'J 2 1 1 J 2 1 1',
                     b'J 2 1 1 M 1', b'J 2 1 1 G 1 1', b'J N', b'N', b'K 1 5',
                     b'K 1 5 N', b'', b'M 1 N M 1'):
            self.answered(b'refused 13 17\n', one_element(line))

    def test_form_one_lines_in_form_two(self):
        self.answered(b'refused 13 27\n', changed(27, b'J 2 1 2'))
        self.answered(b'refused 13 25\n', changed(25, b'M 3'))

    def test_form_two_lines_in_form_one(self):
        self.answered(b'refused 13 17\n', EXAMPLE.replace(b'M 3', b'M 3 N'))
        self.answered(b'refused 13 16\n',
                      EXAMPLE.replace(b'elem', b'left 0\nelem'))

    def test_any_line_spoilt(self):
        count = EXAMPLE_TWO.count(b'\n')
        self.assertEqual(count, 27)
        for number in range(1, count + 1):
            for line in (b'x', b'', b'1 2 3 4 5 6'):
                self.answered(b'refused 13 %d\n' % number,
                              changed(number, line))

    def test_cut_at_every_byte(self):
        for end in range(len(WITH_LEFT)):
            cut = WITH_LEFT[:end]
            self.answered(b'refused 13 %d\n' % (cut.count(b'\n') + 1), cut)

    def test_nothing_after(self):
        for more in (b'\n', b'P\n', b'x', EXAMPLE_TWO):
            self.answered(b'refused 13 28\n', EXAMPLE_TWO + more)

    def test_first_line(self):
        for line in (b'set 1', b'set 3', b'set 09', b'set 10', b'set 9 ',
                     b'set', b'SET 9'):
            self.answered(b'refused 13 1\n', changed(1, line))
        # By form one line 4 has to be the base section.
        self.answered(b'refused 13 4\n', changed(1, b'set 2'))

    def test_left_section(self):
        # Line 23 is `left 0`. It is always there.
        self.answered(b'refused 13 23\n', EXAMPLE_TWO.replace(b'left 0\n',
                                                              b''))
        for line in (b'left', b'left 00', b'left 0 0', b'Left 0', b'ruby 0'):
            self.answered(b'refused 13 23\n', changed(23, line))
        # One row more or less.
        self.answered(b'refused 13 24\n', changed(23, b'left 1'))
        self.answered(b'refused 13 24\n',
                      changed(23, b'left 0\n15 5'))
        # Rows have a class and a width.
        self.answered(b'refused 13 24\n', changed(24, b'15', WITH_LEFT))
        self.answered(b'refused 13 24\n', changed(24, b'15 5 0', WITH_LEFT))

    def test_counts_over_the_maximum(self):
        self.answered(b'refused 2 3\n', changed(23, b'left 2049'))
        self.answered(b'refused 2 3\n', changed(23, b'left 4294967295'))
        self.answered(b'refused 13 23\n', changed(23, b'left 4294967296'))
        self.answered(b'refused 13 23\n', changed(23, b'left 2049 x'))
        self.answered(b'refused 13 24\n', changed(23, b'left 2048'))
        # Top to bottom: ruby, left, elem.
        both = changed(23, b'left 2049', changed(24, b'elem 1025'))
        self.answered(b'refused 2 3\n', both)
        self.answered(b'refused 2 1\n', changed(15, b'x', changed(
            16, b'ruby 2049', both)).replace(b'\nx\n', b'\n19 10 0 0 1\n'))
        self.answered(b'refused 2 2\n', changed(24, b'elem 1025'))
        # Ahead of 1, 15 and 20.
        self.answered(b'refused 2 3\n', changed(23, b'left 2049', changed(
            2, b'11', changed(4, b'8', changed(10, b'2')))))

    def test_length(self):
        sheet = EXAMPLE_TWO + b'x' * (65535 - len(EXAMPLE_TWO))
        self.answered(b'refused 13 28\n', sheet)
        self.answered(b'refused 13 0\n', sheet + b'x')

    def test_sound_sheet_of_the_greatest_length(self):
        rng, seen = random.Random(1), set()
        for _ in range(30):
            sheet = generate_two.exact_length(rng)
            seen.add(len(sheet))
            # No characters: they run out at element 0, or its runs are too
            # many.
            self.assertIn(answer(sheet), (
                [b'refused 13 0\n'] if len(sheet) > 65535
                else [b'refused 6 0\n', b'refused 5 0\n']))
        self.assertEqual(seen, {65534, 65535, 65536, 65537})

    def test_many_left_counts(self):
        # b of a G is free in form, and a left M or J has b counts: 32,000 of
        # them stand on a sheet, and the element is 5.  One count more or less
        # is 13 in line 15.
        def sheet(b, counts):
            return (b'set 9\n10\n100\n1\n2\n1\n1\n2\n1\n0\nbase 0\nruby 0\n'
                    b'left 0\nelem 1\nG %d 1 J' % b + b' 1' * counts + b'\n')
        for b in (33, 1000, 32000):
            self.answered(b'refused 5 0\n', sheet(b, b))
            self.answered(b'refused 13 15\n', sheet(b, b - 1))
            self.answered(b'refused 13 15\n', sheet(b, b + 1))
        self.answered(b'refused 13 15\n', sheet(4294967295, 32000))
        self.answered(b'refused 13 0\n', sheet(33000, 33000))
        # 32 are in range: 16, ahead of the 6 for want of characters.
        self.answered(b'refused 16 0\n', sheet(32, 32))

    def test_refusals_of_the_list_level(self):
        # A ratio number over 7 is no fault of form, nor is a profile over 1.
        for number, place in ((4, 0), (5, 0), (6, 0), (7, 1), (8, 1), (9, 1)):
            for value in (b'8', b'4294967295'):
                self.answered(b'refused 15 %d\n' % place,
                              changed(number, value))
            self.answered(b'refused 13 %d\n' % number,
                          changed(number, b'4294967296'))
        zeros = changed(4, b'0', changed(5, b'0', changed(6, b'0')))
        self.answered(b'refused 15 0\n', zeros)
        for value in (b'2', b'4294967295'):
            self.answered(b'refused 20 0\n', changed(10, value))
        # Em is line 2, the measure line 3.
        self.answered(b'refused 1 0\n', changed(2, b'11'))
        self.answered(b'refused 1 1\n', changed(3, b'0'))
        # 1, 15, 20.
        self.answered(b'refused 1 1\n', changed(3, b'0', changed(9, b'8')))
        self.answered(b'refused 15 1\n', changed(10, b'2', changed(9, b'8')))
        # Left characters: 3,072 + index.
        self.answered(b'refused 3 3073\n', changed(25, b'15 0', WITH_LEFT))
        # 5, 16 and 6 of the element.
        self.answered(b'refused 5 0\n', one_element(b'M 1 M 0'))
        self.answered(b'refused 5 0\n', one_element(b'M 1 G 0'))
        self.answered(b'refused 16 0\n', one_element(b'M 1 G 1'))
        self.answered(b'refused 16 0\n', one_element(b'M 1 J 1'))
        self.answered(b'refused 5 0\n', one_element(b'M 1 J 0'))
        self.answered(b'refused 16 0\n', one_element(b'G 2 3 M 1 1'))
        self.answered(b'refused 5 0\n', one_element(b'G 2 3 M 1 0'))
        self.answered(b'refused 5 0\n', one_element(b'G 0 1 M'))
        self.answered(b'refused 6 0\n', one_element(b'M 1 M 1'))
        self.answered(b'refused 6 1\n', one_element(b'M 1 N', lefts=1))
        # Left runs are those of the line, not of the line before.
        self.answered(b'refused 6 0\n', one_element(b'J 1 1 M 1'))

    def test_ratios_and_profile(self):
        # G, 2 base, 7 ruby, 2D 30: base ratio 1:0:2, floor(30/3) = 10, 30.
        self.answered(
            b'lines 1\nline 70\nb 0 10\nb 1 30\n'
            + b''.join(b'r %d %d\n' % (i, 10 * i) for i in range(7)),
            one_element(b'G 2 7 N', bases=2, rubies=7,
                        ratios=b'1\n2\n1\n1\n0\n2'))
        # G, 3 base, 2 ruby, 2D 40: ruby ratio 0:0:1, 0 and 10.
        self.answered(
            b'lines 1\nline 60\nb 0 0\nb 1 20\nb 2 40\nr 0 0\nr 1 10\n',
            one_element(b'G 3 2 N', bases=3, rubies=2,
                        ratios=b'0\n0\n1\n1\n2\n1'))
        # Profile 1: M with 6 ruby characters, then a kana: 60 - 10.
        sheet = one_element(b'M 6 N\nP', base=b'15 10 0 0 1', bases=2,
                            rubies=6, profile=1).replace(b'elem 1', b'elem 2')
        self.assertIn(b'b 0 20\n', answer(sheet))
        self.assertIn(b'b 1 50\n', answer(sheet))
        self.assertIn(b'b 1 60\n', answer(changed(10, b'0', sheet)))

    def test_every_left_kind(self):
        # G on G: K4 with a left G of 2, 10 and 50 (over 35).
        self.assertTrue(answer(one_element(
            b'G 2 7 G 2', bases=2, rubies=7, lefts=2)).endswith(
            b'l 0 10\nl 1 50\n'))
        # M on J: as one M for each character; the second at 25.
        self.answered(
            b'lines 1\nline 50\nb 0 0\nb 1 25\nr 0 5\nr 1 25\nr 2 35\n'
            b'l 0 5\nl 1 20\nl 2 30\nl 3 40\n',
            one_element(b'J 2 1 2 M 1 3', bases=2, rubies=3, lefts=4))
        # G on J: group on both sides.
        self.answered(
            b'lines 1\nline 40\nb 0 0\nb 1 20\nr 0 1\nr 1 15\nr 2 29\n'
            b'l 0 5\nl 1 25\n',
            one_element(b'J 2 1 2 G 2', bases=2, rubies=3, lefts=2))

    def test_account(self):
        self.assertEqual(account.text(EXAMPLE_TWO),
                         account.text(EXAMPLE))
        self.assertEqual(account.text(WITH_LEFT), (
            b'clear lines 2 elements 3 readings 4\nline 70\n'
            b'element 0 at 5 gap 5 rule 4 ruby touches start\n'
            b'element 1 at 30 gap 5 rule 2 block touches ruby of 0 at depth '
            b'0\n'
            b'element 2 at 50 gap 0 rule 1 block touches block of 1\n'
            b'line 20\nelement 2 at 0 gap 0 rule 4 block touches start\n'))


class Bilingual(unittest.TestCase):
    """examples/bilingual, by the positions that bilingual.txt works out."""

    # Letter, first index, positions in half units.
    BY_HAND = (
        ('b', 0, (30,)), ('r', 0, (0, 20, 40, 60, 80)),
        ('l', 0, (18, 34, 50, 66)), ('b', 1, (80,)),
        # Base 5 in front and 9 within; reading 1 in front, gaps 4, 5, 5.
        ('b', 2, (120, 169)), ('r', 5, (116, 140, 165, 190)),
        ('l', 4, (115, 131, 147, 163, 179, 195)), ('b', 4, (209,)),
        # One M for each character: 249 - 12 = 237, and 301 + 44 = 345.
        ('b', 5, (249, 345)), ('r', 9, (259, 345, 365)),
        ('l', 10, (237, 253, 269, 285)),
        ('l', 14, (301, 317, 333, 349, 365, 381, 397, 413)),
        ('b', 7, (429,)), ('b', 8, (469,)), ('r', 12, (469, 489)),
        ('l', 22, (479,)),
        # The second line.
        ('b', 9, (0, 40)), ('b', 12, (120, 160, 200)),
        ('r', 18, (121, 145, 170, 194, 219)),
        ('l', 25, (124, 140, 156, 172, 188, 204, 220)))

    def content(self, ending):
        with open(os.path.join(HERE, '..', 'examples',
                               'bilingual.' + ending), 'rb') as file:
            return file.read()

    def test_positions(self):
        rows = answer(self.content('sheet')).decode().split('\n')
        self.assertEqual(rows[:2], ['lines 2', 'line 509'])
        for letter, first, positions in self.BY_HAND:
            for index, position in enumerate(positions, first):
                self.assertIn('%s %d %d' % (letter, index, position), rows)
        # A line of the text for each character, and three for the lines.
        self.assertEqual(len(rows), 1 + 2 + 17 + 23 + 32 + 1)

    def test_what_form_one_cannot_hold(self):
        # Line 5 is the second number of the ruby ratio, 3.
        self.assertEqual(converted(self.content('sheet')), b'refused 17 5\n')


# ---------------------------------------------------------------------------
# The converter
# ---------------------------------------------------------------------------

class Converting(Case):

    def test_there_and_back(self):
        self.converts(EXAMPLE_TWO, EXAMPLE)
        self.converts(EXAMPLE, EXAMPLE_TWO)

    def test_no_elements(self):
        one = b'set 2\n10\n35\nbase 0\nruby 0\nelem 0\n'
        two = (b'set 9\n10\n35\n1\n2\n1\n1\n2\n1\n0\nbase 0\nruby 0\nleft 0\n'
               b'elem 0\n')
        self.converts(two, one)
        self.converts(one, two)

    def test_every_kind(self):
        one = (b'set 2\n10\n400\nbase 5\n' + b'19 10 0 0 1\n' * 5
               + b'ruby 6\n' + b'15 5\n' * 6
               + b'elem 4\nP\nM 1\nG 2 3\nJ 1 2\n')
        self.assertTrue(converted(one).endswith(
            b'left 0\nelem 4\nP\nM 1 N\nG 2 3 N\nJ 1 2 N\n'))
        self.converts(one, converted(one))

    def test_other_jobs_get_their_refusal(self):
        for number, line, expected in (
                (2, b'11', b'refused 1 0\n'), (3, b'0', b'refused 1 1\n'),
                (5, b'0 10 0 0 1', b'refused 3 0\n'),
                (10, b'15 0', b'refused 3 1024\n'),
                (17, b'M 65', b'refused 5 0\n'),
                (17, b'M 7', b'refused 6 0\n'),
                # Not set: 11 is a refusal too.
                (3, b'10', b'refused 11 0\n'),
                (17, b'M x', b'refused 13 17\n'),
                (4, b'base 1025', b'refused 2 0\n')):
            self.converts(expected, changed(number, line, EXAMPLE))
        self.converts(b'refused 13 0\n', b'x' * 65536)
        self.converts(b'refused 13 1\n', b'')
        # The same in form two: the base from line 12, the ruby from 17.
        for number, line, expected in (
                (2, b'11', b'refused 1 0\n'), (3, b'0', b'refused 1 1\n'),
                (12, b'0 10 0 0 1', b'refused 3 0\n'),
                (17, b'15 0', b'refused 3 1024\n'),
                (25, b'M 65 N', b'refused 5 0\n'),
                (3, b'10', b'refused 11 0\n'),
                (25, b'M 3', b'refused 13 25\n'),
                (23, b'left 2049', b'refused 2 3\n')):
            self.converts(expected, changed(number, line))

    def test_17_ratios_and_profile(self):
        for number, plain in enumerate(b'1211210', 4):
            for value in b'0123478':
                if value != plain:
                    self.converts(b'refused 17 %d\n' % number,
                                  changed(number, bytes([value])))
        self.converts(b'refused 17 10\n', changed(10, b'4294967295'))
        # The numbers, not the proportion.
        for first in (4, 7):
            sheet = EXAMPLE_TWO
            for number, value in enumerate((b'2', b'4', b'2'), first):
                sheet = changed(number, value, sheet)
            self.assertEqual(answer(sheet), EXAMPLE_RESULT)
            self.converts(b'refused 17 %d\n' % first, sheet)

    def test_17_the_first_line(self):
        self.converts(b'refused 17 5\n', changed(5, b'3', changed(
            9, b'0', changed(10, b'1', WITH_LEFT))))
        self.converts(b'refused 17 9\n', changed(9, b'0', changed(
            10, b'1', WITH_LEFT)))
        self.converts(b'refused 17 10\n', changed(10, b'1', WITH_LEFT))

    def test_17_a_reading(self):
        # The `left` count line, behind 10 + 5 + 7 lines.
        self.converts(b'refused 17 23\n', WITH_LEFT)
        # Letters with no characters, and characters with no letter.
        self.converts(b'refused 17 23\n', changed(25, b'M 3 M 1'))
        self.converts(b'refused 17 23\n', changed(27, b'J 2 1 2 G 0'))
        self.converts(b'refused 17 23\n', changed(23, b'left 1\n15 5'))

    def test_17_after_13_and_2_and_ahead_of_the_rest(self):
        bad = changed(4, b'9')
        self.converts(b'refused 17 4\n', bad)       # not 15
        self.converts(b'refused 17 10\n', changed(10, b'2'))    # not 20
        self.converts(b'refused 17 4\n', changed(2, b'11', bad))    # not 1
        self.converts(b'refused 17 4\n', changed(12, b'0 10 0 0 1', bad))
        self.converts(b'refused 17 4\n', changed(3, b'10', bad))    # not 11
        self.converts(b'refused 17 23\n', changed(25, b'M 3 G 0'))  # not 5
        self.converts(b'refused 13 27\n', changed(27, b'J 2 1 2', bad))
        self.converts(b'refused 13 28\n', bad + b'x')
        self.converts(b'refused 2 3\n', changed(23, b'left 2049', bad))
        self.converts(b'refused 2 0\n', changed(11, b'base 1025', bad))

    def test_a_long_sheet(self):
        # The greatest counts with the longest rows: 992 P of class 5 and 32 M
        # with 64 characters. Form two has 14 bytes more in its set section,
        # the 7 of `left 0`, and 2 for each M.
        one = (b'set 2\n4096\n4000000\nbase 1024\n'
               + b'5 4096 2048 2048 1\n' * 992 + b'19 4096 0 0 1\n' * 32
               + b'ruby 2048\n' + b'15 4096\n' * 2048
               + b'elem 1024\n' + b'P\n' * 992 + b'M 64\n' * 32)
        two = converted(one)
        self.assertEqual(len(two), len(one) + 14 + 7 + 64)
        self.assertLess(len(two), 45000)
        self.converts(one, two)

    def test_the_job_is_the_same(self):
        for one, two in ((EXAMPLE, EXAMPLE_TWO),):
            first, other = read_sheet(one), read_sheet(two)
            self.assertEqual(first[:15], other[:15])
            self.assertIsNone(first[15])
            self.assertEqual(other[15], ([], [], [N] * 3, [0] * 3, []))


class Generated(unittest.TestCase):
    """Round trips, and that the sheets reach what they have to."""

    @classmethod
    def setUpClass(cls):
        # Without the longest, which take long.
        cls.sheets = [sheet for sheet in generate_two.sheets(2, 900)
                      if len(sheet) <= 6000]
        cls.answers = [answer(sheet) for sheet in cls.sheets]
        cls.converted = list(map(converted, cls.sheets))

    def forms(self, first_line):
        return [each for each in zip(self.sheets, self.answers,
                                     self.converted)
                if each[0].startswith(first_line)]

    def test_form_one_there_and_back(self):
        seen = 0
        for sheet, text, other in self.forms(b'set 2\n'):
            if text.startswith(b'refused'):
                self.assertEqual(other, text)
                continue
            seen += 1
            self.assertTrue(other.startswith(b'set 9\n'))
            self.assertLessEqual(len(other), 65535)
            self.assertEqual(converted(other), sheet)
            self.assertEqual(answer(other), text)
            # The same bytes by the job's lists.
            em, measure, ratios, profile, *given, _ = read_sheet(sheet)
            count = len(given[7])
            self.assertEqual(other, generate_two.text_two(
                em, measure, ratios, profile, given,
                second.Left([], [], [N] * count, [0] * count, [])))
        self.assertGreater(seen, 150)

    def test_form_two_there_and_back(self):
        seen = 0
        for sheet, text, other in self.forms(b'set 9\n'):
            if not other.startswith(b'refused'):
                seen += 1
                self.assertTrue(other.startswith(b'set 2\n'))
                self.assertEqual(converted(other), sheet)
                self.assertEqual(answer(other), text)
            elif not other.startswith(b'refused 17 '):
                self.assertEqual(other, text)
            else:
                # A sound text: it is set, or refused by the job.
                self.assertFalse(text.startswith((b'refused 13', b'refused 2 '
                                                  )))
        self.assertGreater(seen, 30)

    def test_17_exactly_where_form_one_cannot_hold_it(self):
        for sheet, text, other in self.forms(b'set 9\n'):
            try:
                arguments = read_sheet(sheet)
            except second.Refused:
                continue
            left = arguments[15]
            holds = (arguments[2:4] == [((1, 2, 1), (1, 2, 1)), 0]
                     and left[:2] == ([], []) and set(left[2]) <= {N})
            self.assertEqual(other.startswith(b'refused 17 '), not holds)

    def test_accounts_of_both_forms_are_the_same(self):
        seen = 0
        for sheet, text, other in self.forms(b'set 2\n')[:120]:
            if other.startswith(b'set 9\n') and len(sheet) < 3000:
                self.assertEqual(account.text(other),
                                 account.text(sheet))
                seen += 1
        self.assertGreater(seen, 30)

    def test_every_answer(self):
        def numbers(texts):
            return {int(text.split()[1]) if text.startswith(b'refused')
                    else 'set' for text in texts}
        two = self.forms(b'set 9\n')
        self.assertEqual(numbers(each[1] for each in two),
                         {'set', 1, 2, 3, 4, 5, 6, 7, 8, 9, 10, 11, 13, 15,
                          16, 20})
        found = numbers(each[2] for each in two)
        self.assertLessEqual({'set', 2, 11, 13, 17}, found)
        self.assertGreater(len(found), 8)
        self.assertLessEqual(found, {'set', 1, 2, 3, 4, 5, 6, 7, 8, 9, 10, 11,
                                     13, 17})
        # Every line of the set section, and the left line, is a fault's place.
        places = {int(each[2].split()[2]) for each in two
                  if each[2].startswith(b'refused 17 ')}
        self.assertLessEqual(set(range(4, 11)), places)
        self.assertGreater(max(places), 12)
        self.assertIn(b'refused 2 3\n', [each[1] for each in two])
        kinds = {(kind, left) for sheet, text, _ in two
                 if text.startswith(b'lines')
                 for kind, left in zip(read_sheet(sheet)[11],
                                       read_sheet(sheet)[15].left_kind)}
        self.assertEqual(kinds, {(kind, left) for kind, taken
                                 in second.TAKEN.items() for left in taken})

    def test_none_stops_the_generator(self):
        # Texts that are changed twice, and those of a few lines.
        rng = random.Random(4)
        for _ in range(500):
            generate_two.damaged(rng)
            generate_two.more_than_form_one(rng)
            generate_two.one_line_off(rng)

    def test_repeats_itself(self):
        first = list(generate_two.sheets(2, 50))
        self.assertEqual(first, list(generate_two.sheets(2, 50)))
        self.assertEqual(first[:20], list(generate_two.sheets(2, 20)))
        self.assertNotEqual(first, list(generate_two.sheets(3, 50)))


class Accounts(unittest.TestCase):
    """What the comparison of accounts checks, with left readings."""

    @classmethod
    def setUpClass(cls):
        cls.found = [account.verdict(sheet) for sheet
                     in generate_two.account_sheets(6, 300)]

    def test_the_text_is_right(self):
        seen = compare_account.Seen()
        for found in self.found:
            seen.add(found)
            self.assertEqual(compare_account.wrong_things(
                found, account.text_of(found)), [])
        for name in compare_account.KINDS + compare_account.LEFT_KINDS:
            self.assertGreater(seen.kinds[name], 5, name)

    def test_every_change_and_every_other_reason_is_found(self):
        tried = 0
        for found in self.found:
            if isinstance(found, account.Refusal) or not any(
                    drawn.left for line in found.lines for drawn in line) or (
                        sum(map(len, found.lines)) > 12):
                continue
            text = account.text_of(found)
            for content in (*changed_texts(text), *other_reasons(found, text)):
                self.assertNotEqual(compare_account.wrong_things(
                    found, content), [], content)
                tried += 1
        self.assertGreater(tried, 1000)


class Programs(Case):

    def own(self, name, *arguments):
        return [sys.executable, '-B', os.path.join(HERE, name), *arguments]

    def run_it(self, command, content):
        done = subprocess.run(command, input=content, stdout=subprocess.PIPE)
        return done.stdout, done.returncode

    def test_one_sheet(self):
        self.assertEqual(self.run_it(self.own('second.py'), WITH_LEFT),
                         (WITH_LEFT_RESULT, 0))
        self.assertEqual(self.run_it(self.own('account.py'), EXAMPLE_TWO),
                         (account.text(EXAMPLE), 0))
        self.assertEqual(self.run_it(self.own('convert.py'), EXAMPLE),
                         (EXAMPLE_TWO, 0))
        self.assertEqual(self.run_it(self.own('convert.py'), WITH_LEFT),
                         (b'refused 17 23\n', 1))

    def test_comparison_of_both_forms(self):
        with tempfile.TemporaryDirectory() as folder:
            self.assertEqual(compare.compare(
                self.own('second.py', '--framed'), folder, 5, 40), (40, 0))
            self.assertEqual(compare.compare(
                self.own('convert.py', '--framed'), folder, 5, 40,
                converts=True), (40, 0))
            self.assertEqual(compare.compare(
                self.own('convert.py'), folder, 5, 12, compare.single_answers,
                converts=True), (12, 0))
            seen, differences = compare_account.compare_all(
                self.own('account.py', '--framed'), folder, 5, 40,
                compare_account.in_frames)
            self.assertEqual((seen.sheets, differences), (40, 0))
        # An engine that does not know form two.
        expected = sum(sheet.startswith(b'set 9\n') and answer(
            sheet) != b'refused 13 1\n'
            for sheet in generate_two.sheets(5, 30))
        self.assertGreater(expected, 5)
        self.differs(30, expected, (
            'def read_form_two(reader):\n'
            '    raise reader.fault()\n'
            'second.read_form_two = read_form_two\n'
            'second.main(["--framed"])'))

    def differs(self, count, expected, lines, **more):
        """An engine of these lines differs for so many of some sheets."""
        engine = [sys.executable, '-B', '-c', (
            'import os, sys; sys.path.insert(0, %r)\n'
            'import convert, second\n%s' % (HERE, lines))]
        with tempfile.TemporaryDirectory() as folder, quiet():
            self.assertEqual(compare.compare(engine, folder, 5, count, **more),
                             (count, expected))

    def test_round_trips_of_the_engine(self):
        # A converter that does not know its own sheets: it is right in its
        # first run and gives everything back as it was in the second.
        expected = sum(converted(sheet).startswith(b'set ')
                       for sheet in generate_two.sheets(5, 40))
        self.assertGreater(expected, 5)
        with tempfile.TemporaryDirectory() as folder:
            self.differs(40, expected, (
                'first = %r\n'
                'if os.path.exists(first):\n'
                '    convert.converted = lambda sheet: sheet\n'
                'open(first, "w").close()\n'
                'convert.main(["--framed"])' % os.path.join(folder, 'first')),
                converts=True)


if __name__ == '__main__':
    unittest.main()
