"""Tests of the account's text and of its comparison.

    python3 second/test_compare_account.py

Expected texts are worked out by hand from document 01 and from the form in
README.md, "The account".  hu means half units.  Where nothing else is said,
em is 10, base characters are 10 wide and ruby characters 5 wide, as in the
settings K1 to K12.
"""

import os
import stat
import subprocess
import sys
import tempfile
import unittest

HERE = os.path.dirname(os.path.abspath(__file__))
sys.path.insert(0, HERE)

import account      # noqa: E402  (found through the path set above)
import compare_account  # noqa: E402
import generate     # noqa: E402
import second       # noqa: E402
from account import Clear, Drawn, Reason, Refusal, text, verdict  # noqa: E402
from compare_account import parse, wrong_things  # noqa: E402
from test_second import EXAMPLE, g, j, m, p, quiet, sheet  # noqa: E402

EXAMPLES = os.path.join(os.path.dirname(HERE), 'examples')

K9 = sheet([m(3), m(3)])
K10 = sheet([m(3), p(7, 10, 0, 5), m(3)])
K11 = sheet([m(3), p(7, 7, 0, 2), m(3)])
K12 = sheet([m(3), p(14, 3), m(3)])

# Both words are K1: ruby 30 hu wide, block 20 hu, 5 hu inside it.  The first
# ruby is 0 to 30 and the second begins where it ends, so the second block is
# 35 to 55, 10 hu behind the first, which is 5 to 25.  The second ruby ends
# the line at 60.
K9_TEXT = b'''\
clear lines 1 elements 2 readings 2
line 60
element 0 at 5 gap 5 rule 4 ruby touches start
element 1 at 35 gap 10 rule 3 ruby touches ruby of 0
'''

# A comma has no blank before, so it stands at 30 where the first ruby ends
# (depth 0), 5 hu behind the block; it is 30 to 50.  The next block touches
# it; its ruby, 45 to 75, is on the blank (40 to 50) and ends the line.
K10_TEXT = b'''\
clear lines 1 elements 3 readings 2
line 75
element 0 at 5 gap 5 rule 4 ruby touches start
element 1 at 30 gap 5 rule 2 block touches ruby of 0 at depth 0
element 2 at 50 gap 0 rule 1 block touches block of 1
'''

# The comma is 30 to 44 and the last 4 hu are blank: less than half an em, so
# the depth is 4.  The next ruby begins at 40 and ends at 70; its block is at
# 45, 1 hu behind the comma.
K11_TEXT = b'''\
clear lines 1 elements 3 readings 2
line 70
element 0 at 5 gap 5 rule 4 ruby touches start
element 1 at 30 gap 5 rule 2 block touches ruby of 0 at depth 0
element 2 at 45 gap 1 rule 2 ruby touches block of 1 at depth 4
'''

# The space is 25 to 31, at the first block's end; the first ruby covers 5 of
# its 6 hu.  The next ruby begins at 30, where the first ends, 1 hu on the
# space that would take 6; its block is at 35, 4 hu behind the space.
K12_TEXT = b'''\
clear lines 1 elements 3 readings 2
line 60
element 0 at 5 gap 5 rule 4 ruby touches start
element 1 at 25 gap 0 rule 1 block touches block of 0
element 2 at 35 gap 4 rule 3 ruby touches ruby of 0
'''

# The worked example of document 01: lines of 70 and 20.  The P carries no
# blank and stands where the first ruby ends; the J is cut, and its first
# part touches the P (its ruby, at 55, is within the block).
EXAMPLE_TEXT = b'''\
clear lines 2 elements 3 readings 2
line 70
element 0 at 5 gap 5 rule 4 ruby touches start
element 1 at 30 gap 5 rule 2 block touches ruby of 0 at depth 0
element 2 at 50 gap 0 rule 1 block touches block of 1
line 20
element 2 at 0 gap 0 rule 4 block touches start
'''


INDENT = sheet([p(14), m(6)])
INDENT_TEXT = b'''\
clear lines 1 elements 2 readings 1
line 80
element 0 at 0 gap 0 rule 4 block touches start
element 1 at 40 gap 20 rule 2 ruby touches block of 0 at depth 0
'''


class ByHand(unittest.TestCase):

    def told(self, expected, job):
        self.assertEqual(text(job), expected)
        self.assertEqual(wrong_things(verdict(job), expected), [])

    def test_k9(self):
        self.told(K9_TEXT, K9)

    def test_k10(self):
        self.told(K10_TEXT, K10)

    def test_k11(self):
        self.told(K11_TEXT, K11)

    def test_k12(self):
        self.told(K12_TEXT, K12)

    def test_worked_example(self):
        self.told(EXAMPLE_TEXT, EXAMPLE)

    def test_depth_on_the_blank_before(self):
        # A dot of class 5 with a blank before of 5 units takes a quarter em,
        # 5 hu.  The first word's ruby is 40 hu wide, 10 hu past the block (10
        # to 30): it ends at 40, so the dot stands at 35.
        self.told(b'clear lines 1 elements 2 readings 1\n'
                  b'line 55\n'
                  b'element 0 at 10 gap 10 rule 4 ruby touches start\n'
                  b'element 1 at 35 gap 5 rule 2 block touches ruby of 0 '
                  b'at depth 5\n', sheet([m(4), p(5, 10, 5, 0)]))

    def test_an_indent(self):
        # The indent is 20 hu and takes no ruby.  The reading is 60 hu,
        # 20 hu past the block: it begins at 20 and the block at 40.
        self.told(INDENT_TEXT, INDENT)

    def test_a_space_at_the_start_of_a_later_line(self):
        # Line 1 is as above, all of the 80 hu.  In line 2 half an em of the
        # space, 10 hu, takes ruby: it begins at 10 and the block at 30.
        words = [p(14, flag=0), m(6)]
        self.told(b'clear lines 2 elements 4 readings 2\n'
                  b'line 80\n'
                  b'element 0 at 0 gap 0 rule 4 block touches start\n'
                  b'element 1 at 40 gap 20 rule 2 ruby touches block of 0 '
                  b'at depth 0\n'
                  b'line 70\n'
                  b'element 2 at 0 gap 0 rule 4 block touches start\n'
                  b'element 3 at 30 gap 10 rule 2 ruby touches block of 2 '
                  b'at depth 10\n', sheet(words + words, measure=40))

    def test_first_in_order(self):
        # Both rubies fill their blocks: block on block, ruby on block and
        # ruby on ruby all touch, and rule 1 comes first.  At the line's
        # start both block and ruby touch, and the block comes first.
        self.told(b'clear lines 1 elements 2 readings 2\n'
                  b'line 40\n'
                  b'element 0 at 0 gap 0 rule 4 block touches start\n'
                  b'element 1 at 20 gap 0 rule 1 block touches block of 0\n',
                  sheet([m(2), m(2)]))

    def test_two_rules_touch(self):
        # K1, two spaces of 1 unit, K1.  The first space stands at 28, under
        # the ruby to 30 as deep as it is (2 hu), the second at 30.  The last
        # ruby, at 30, reaches 2 hu over the second space and touches the
        # first ruby; rule 2 comes ahead of rule 3.
        self.told(b'clear lines 1 elements 4 readings 2\n'
                  b'line 60\n'
                  b'element 0 at 5 gap 5 rule 4 ruby touches start\n'
                  b'element 1 at 28 gap 3 rule 2 block touches ruby of 0 '
                  b'at depth 2\n'
                  b'element 2 at 30 gap 0 rule 1 block touches block of 1\n'
                  b'element 3 at 35 gap 3 rule 2 ruby touches block of 2 '
                  b'at depth 2\n',
                  sheet([m(3), p(14, 1), p(14, 1), m(3)]))

    def test_parts_of_a_jukugo(self):
        # Three characters at a measure of one: one element, three lines.
        self.told(b'clear lines 3 elements 1 readings 1\n'
                  + b'line 20\n'
                  b'element 0 at 0 gap 0 rule 4 block touches start\n' * 3,
                  sheet([j([2, 1, 2])], measure=10))

    def test_no_elements(self):
        self.told(b'clear lines 0 elements 0 readings 0\n', sheet([]))


class RefusedByHand(unittest.TestCase):

    def told(self, expected, job):
        self.assertEqual(text(job), expected)
        self.assertEqual(wrong_things(verdict(job), expected), [])

    def test_other_numbers_have_one_line(self):
        self.told(b'refused 1 0\n', sheet([m(3)], em=11))
        self.told(b'refused 13 1\n', b'')

    def test_11_one_break(self):
        # Line 1 is K1's word, 30 hu, at a measure of 15 units.  Behind it a
        # group of 3 characters, 60 hu, has no break but its end.
        self.told(b'refused 11 1\nneeds 60 measure 30\n',
                  sheet([m(3), g(3, 2)], measure=15))

    def test_11_nearest_of_three_breaks(self):
        # Lines 0..1, 0..2 and 0..3 are 30, 60 and 90 hu: K1 three times.
        self.told(b'refused 11 0\nneeds 30 measure 28\n',
                  sheet([m(3), m(3), m(3)], measure=14))

    def test_11_no_break_between(self):
        # The first word may not end a line.  With the comma behind it the
        # line is 30 + 20 = 50 hu; with the third word as in K10, 75.
        self.told(b'refused 11 0\nneeds 50 measure 48\n',
                  sheet([m(3, flag=0), p(7, 10, 0, 5), m(3)], measure=24))

    def test_11_within_a_jukugo(self):
        # A J may be cut after its first character, which is then set as M:
        # run 3 is 30 hu.  Whole it is set as G: 4 ruby, 40 hu.
        self.told(b'refused 11 0\nneeds 30 measure 2\n',
                  sheet([j([3, 1])], measure=1))

    def test_11_equal_extents(self):
        # The space goes under the ruby as deep as it is: K1 alone and K1
        # with the space both end at 30.
        self.told(b'refused 11 0\nneeds 30 measure 20\n',
                  sheet([m(3), p(14, 2)], measure=10))


class WrongTexts(unittest.TestCase):
    """Each text is wrong in one way, and the checker says which."""

    def wrong(self, job, right, wrong, words):
        self.assertIn(right, text(job))
        told = wrong_things(verdict(job), text(job).replace(right, wrong))
        self.assertTrue(any(words in each for each in told), told)

    def test_wrong_rule(self):
        self.wrong(K9, b'rule 3 ruby touches ruby of 0',
                   b'rule 2 ruby touches block of 0 at depth 0',
                   'rule 2, not 3')
        self.wrong(K10, b'rule 1 block touches block of 1',
                   b'rule 2 ruby touches block of 1 at depth 10',
                   'rule 2, not 1')
        self.wrong(K9, b'rule 4 ruby touches start',
                   b'rule 3 ruby touches ruby of 0', 'rule 3, not 4')

    def test_a_later_rule_that_holds(self):
        job = sheet([m(2), m(2)])
        self.wrong(job, b'rule 1 block touches block of 0',
                   b'rule 3 ruby touches ruby of 0', 'rule 3, not 1')
        self.wrong(job, b'rule 4 block touches start',
                   b'rule 4 ruby touches start', 'not rule 4 block')

    def test_wrong_other(self):
        self.wrong(K12, b'ruby of 0', b'ruby of 1', 'other 1')
        self.wrong(K12, b'block of 0', b'block of 2', 'other 2')
        # The first space is no neighbour of the last word, though rule 2
        # breaks with it too.
        self.wrong(sheet([m(3), p(14, 1), p(14, 1), m(3)]),
                   b'block of 2 at depth 2', b'block of 1 at depth 2',
                   'other 1, not 2')

    def test_wrong_start(self):
        self.wrong(K9, b'at 35', b'at 30', 'start 30, not 35')

    def test_wrong_gap(self):
        # 5 is what is left between the first ruby and the second block.
        self.wrong(K9, b'gap 10', b'gap 5', 'gap 5, not 10')

    def test_wrong_depth(self):
        self.wrong(K11, b'at depth 4', b'at depth 10', 'depth 10, not 4')
        self.wrong(K11, b'at depth 4', b'at depth 0', 'depth 0, not 4')
        self.wrong(K10, b'at depth 0', b'at depth 5', 'depth 5, not 0')
        self.wrong(INDENT, b'at depth 0', b'at depth 10', 'depth 10, not 0')

    def test_wrong_side(self):
        # The rule and the other element are right, what touches is not.
        self.wrong(K11, b'rule 2 ruby touches block of 1 at depth 4',
                   b'rule 2 block touches ruby of 1 at depth 0',
                   'does not hold')
        self.wrong(K11, b'rule 2 block touches ruby of 0 at depth 0',
                   b'rule 2 ruby touches block of 0 at depth 0',
                   'does not hold')

    def test_missing_element(self):
        self.wrong(K10, b'element 2 at 50 gap 0 '
                   b'rule 1 block touches block of 1\n', b'',
                   'elements that follow: 2, not 3')

    def test_element_of_the_line_before(self):
        self.wrong(EXAMPLE, b'line 20\nelement 2 at 0',
                   b'element 2 at 0', 'lines that follow: 1, not 2')

    def test_wrong_counts(self):
        self.wrong(K10, b'lines 1', b'lines 2', 'lines 2, not 1')
        self.wrong(K10, b'elements 3', b'elements 2', 'elements 2, not 3')
        self.wrong(K10, b'readings 2', b'readings 3', 'readings 3, not 2')
        # A J that is cut counts once.
        self.wrong(EXAMPLE, b'elements 3', b'elements 4', 'elements 4')

    def test_wrong_extent(self):
        self.wrong(K10, b'line 75', b'line 70', 'extent 70, not 75')

    def test_refused_for_clear(self):
        told = wrong_things(verdict(K9),
                            b'refused 11 0\nneeds 60 measure 59\n')
        self.assertEqual(told, ['refused 11 0, needs 60 measure 59, '
                                'not clear'])
        self.assertEqual(wrong_things(verdict(K9), b'refused 5 0\n'),
                         ['refused 5 0, not clear'])

    def test_clear_for_refused(self):
        told = wrong_things(verdict(sheet([m(3)], em=11)), K9_TEXT)
        self.assertEqual(told, ['clear, not refused 1 0'])

    def test_wrong_refusal(self):
        job = sheet([m(3), g(3, 2)], measure=15)
        self.wrong(job, b'needs 60', b'needs 61', 'needs 61')
        self.wrong(job, b'measure 30', b'measure 15', 'measure 15')
        self.wrong(job, b'11 1', b'11 0', 'refused 11 0')
        self.wrong(job, b'needs 60 measure 30\n', b'', '1 lines of text')
        self.wrong(sheet([m(3)], em=11), b'1 0\n',
                   b'1 0\nneeds 60 measure 30\n', '2 lines of text')


class Form(unittest.TestCase):
    """Every byte that is out of place is found while reading."""

    def malformed(self, changed):
        with self.assertRaises(compare_account.Malformed, msg=changed):
            parse(changed)

    def test_spaces(self):
        for at, byte in enumerate(K11_TEXT):
            if byte == ord(' '):
                for filling in (b'  ', b'', b'\t', b'\n', b' 0'):
                    self.malformed(K11_TEXT[:at] + filling
                                   + K11_TEXT[at + 1:])
        for at, byte in enumerate(K11_TEXT):
            if byte == ord('\n'):
                for filling in (b' \n', b'\n ', b'\r\n', b'\n\n', b''):
                    self.malformed(K11_TEXT[:at] + filling
                                   + K11_TEXT[at + 1:])

    def test_numbers(self):
        for wrong in (b'-5', b'+5', b'05', b'5.0', b'', b'x', b'5' * 11,
                      b'5' * 5000, b'\xd9\xa5'):
            self.malformed(K9_TEXT.replace(b'gap 5', b'gap ' + wrong))

    def test_words(self):
        for right, wrong in ((b'clear', b'Clear'), (b'lines', b'line'),
                             (b'touches', b'touch'), (b'ruby of', b'start of'),
                             (b'rule 3', b'rule 1'), (b'rule 4', b'rule 5'),
                             (b'of 0', b'of 0 at depth 0'),
                             (b'ruby touches start', b'touches start')):
            self.assertIn(right, K9_TEXT)
            self.malformed(K9_TEXT.replace(right, wrong))
        self.malformed(K11_TEXT.replace(b' at depth 4', b''))

    def test_lines(self):
        rows = K9_TEXT.splitlines(True)
        self.malformed(b'')
        self.malformed(b'\n')
        self.malformed(b''.join(rows[1:]))
        self.malformed(rows[0] + b''.join(rows[2:]))
        self.malformed(K9_TEXT + b'\n')
        self.malformed(K9_TEXT + rows[0])
        self.malformed(K9_TEXT + b'refused 1 0\n')
        self.malformed(b'refused 1 0')
        self.malformed(b'refused 1\n')
        self.malformed(b'refused 11 0\nneeds 60\n')
        self.malformed(b'refused 11 0\nneeds 60 measure 59\n\n')

    def test_read(self):
        self.assertEqual(
            parse(K11_TEXT), (1, 3, 2, [(70, [
                (0, 5, 5, Reason(4, 'ruby', 'start', None, None)),
                (1, 30, 5, Reason(2, 'block', 'ruby', 0, 0)),
                (2, 45, 1, Reason(2, 'ruby', 'block', 1, 4))])]))
        self.assertEqual(parse(b'refused 11 7\nneeds 60 measure 59\n'),
                         Refusal(11, 7, (60, 59)))
        self.assertEqual(parse(b'refused 3 1024\n'), Refusal(3, 1024, None))


class MadeUp(unittest.TestCase):
    """Spans that no line has, for the order that no line shows."""

    def test_block_comes_ahead_of_ruby_in_rule_2(self):
        # The ruby before ends at 30 on the block, and the block before ends
        # at 20 where the own ruby begins.
        before = Drawn(4, (0, 20), (0, 30), 0, 0)
        drawn = Drawn(5, (30, 50), (20, 60), 0, 0)
        named = list(account.reasons([before], drawn))
        self.assertEqual(named, [Reason(2, 'block', 'ruby', 4, 0),
                                 Reason(2, 'ruby', 'block', 4, 0)])
        for reason, wrong in zip(named, ([], [
                'here: rule 2 ruby touches block of 4 at depth 0, '
                'not rule 2 block touches ruby of 4 at depth 0'])):
            self.assertEqual(list(compare_account.wrong_reason(
                'here', reason, [(2, 4)], [before], drawn)), wrong)

    def test_nearest_ruby(self):
        earlier = [Drawn(0, (0, 20), (0, 30), 0, 0),
                   Drawn(1, (20, 24), (28, 30), 0, 0),
                   Drawn(2, (24, 31), None, 7, 7)]
        drawn = Drawn(3, (35, 55), (30, 60), 0, 0)
        self.assertEqual(list(account.reasons(earlier, drawn)),
                         [Reason(3, 'ruby', 'ruby', 1, None),
                          Reason(3, 'ruby', 'ruby', 0, None)])


def plain_needed_extent(job, first):
    """needed_extent by its wording: every line is set, none is passed by."""
    owner = second.owners(job)
    extents = []
    for end in second.permitted_breaks(job):
        if end > first:
            words = second.words_of_line(job, owner, first, end)
            origins = second.least_setting(words, second.LARGEST_NUMBER)
            extents.append(max(origin + word.end
                               for word, origin in zip(words, origins)))
    return min(extents)


def changed_texts(content):
    """The text with one number one more or one less, or without one line."""
    rows = content.split(b'\n')[:-1]
    for at, row in enumerate(rows):
        fields = row.split(b' ')
        for which, field in enumerate(fields):
            if field.isdigit():
                for number in (int(field) - 1, int(field) + 1):
                    other = fields[:which] + [b'%d' % number]
                    other += fields[which + 1:]
                    yield with_row(rows, at, [b' '.join(other)])
        yield with_row(rows, at, [])
        yield with_row(rows, at, [row, row])


def with_row(rows, at, instead):
    return b''.join(row + b'\n' for row in rows[:at] + instead + rows[at + 1:])


def other_reasons(found, content):
    """The text with one reason replaced by every other that can be said."""
    rows = content.split(b'\n')[:-1]
    at = 0
    for line in found.lines:
        at += 1
        for place, drawn in enumerate(line):
            at += 1
            head = rows[at].partition(b' rule ')[0]
            for words in possible_words(line, place):
                row = head + b' ' + words
                if row != rows[at]:
                    yield with_row(rows, at, [row])


def possible_words(line, place):
    depths = {0, line[place].depth_before}
    depths.update(drawn.depth_after for drawn in line)
    yield b'rule 4 block touches start'
    yield b'rule 4 ruby touches start'
    for drawn in line:
        other = drawn.element
        yield b'rule 1 block touches block of %d' % other
        yield b'rule 3 ruby touches ruby of %d' % other
        for depth in depths:
            yield b'rule 2 block touches ruby of %d at depth %d' % (other,
                                                                    depth)
            yield b'rule 2 ruby touches block of %d at depth %d' % (other,
                                                                    depth)
    if any(drawn.left for drawn in line):
        yield from possible_left_words(line, depths)


def possible_left_words(line, depths):
    yield b'rule 4 left ruby touches start'
    for drawn in line:
        other = drawn.element
        yield b'rule 3 left ruby touches left ruby of %d' % other
        yield b'rule 3 left ruby touches ruby of %d' % other
        for depth in depths:
            yield (b'rule 2 block touches left ruby of %d at depth %d'
                   % (other, depth))
            yield (b'rule 2 left ruby touches block of %d at depth %d'
                   % (other, depth))


class OnGeneratedSheets(unittest.TestCase):

    @classmethod
    def setUpClass(cls):
        cls.sheets = list(generate.account_sheets(41, 400))
        cls.found = [verdict(job) for job in cls.sheets]

    def test_the_text_is_right(self):
        for job, found in zip(self.sheets, self.found):
            self.assertEqual(wrong_things(found, text(job)), [])

    def test_extents_and_refusals_are_those_of_the_result(self):
        for job, found in zip(self.sheets, self.found):
            rows = second.answer(job).decode('ascii').split('\n')
            told = text(job).decode('ascii').split('\n')
            self.assertEqual([row for row in rows if row[:5] == 'line '],
                             [row for row in told if row[:5] == 'line '])
            if isinstance(found, Refusal):
                self.assertEqual(rows[0], told[0])
            else:
                self.assertEqual(rows[0], 'lines %d' % len(found.lines))

    def test_enough_is_seen(self):
        seen = compare_account.Seen()
        for found in self.found:
            seen.add(found)
        self.assertGreater(seen.accepted, 150)
        self.assertGreater(seen.refused[11], 60)
        self.assertGreater(seen.dense, 60)
        self.assertEqual(set(seen.kinds), set(compare_account.KINDS))
        for name in compare_account.KINDS:
            self.assertGreater(seen.kinds[name], 60, name)

    def test_needed_extent_as_it_is_worded(self):
        checked = 0
        for job, found in zip(self.sheets, self.found):
            if not isinstance(found, Refusal) or found.number != 11:
                continue
            sound = account.sound_job(second.read_sheet(job))
            if sound.base_count > 80:
                continue
            self.assertEqual(found.needs,
                             (plain_needed_extent(sound, found.place),
                              2 * sound.measure))
            self.assertGreater(*found.needs)
            checked += 1
        self.assertGreater(checked, 50)

    def test_every_change_is_found(self):
        changed = 0
        for job, found in zip(self.sheets, self.found):
            if isinstance(found, Clear) and sum(map(len, found.lines)) > 12:
                continue
            for content in changed_texts(text(job)):
                self.assertNotEqual(wrong_things(found, content), [], content)
                changed += 1
        self.assertGreater(changed, 3000)

    def test_every_other_reason_is_found(self):
        changed = 0
        for job, found in zip(self.sheets, self.found):
            if isinstance(found, Refusal) or sum(map(len, found.lines)) > 12:
                continue
            for content in other_reasons(found, text(job)):
                self.assertNotEqual(wrong_things(found, content), [], content)
                changed += 1
        self.assertGreater(changed, 3000)


class Examples(unittest.TestCase):

    def test_each_account_is_that_of_its_sheet(self):
        paths = [os.path.join(folder, name)
                 for folder, _, names in os.walk(EXAMPLES)
                 for name in names if name.endswith('.account')]
        self.assertGreaterEqual(len(paths), 8)
        for path in paths:
            with open(path[:-len('account')] + 'sheet', 'rb') as file:
                job = file.read()
            with open(path, 'rb') as file:
                expected = file.read()
            self.assertEqual(text(job), expected, path)
            self.assertEqual(wrong_things(verdict(job), expected), [], path)


PRINTER = '''\
#!%s
import sys
sys.path.insert(0, %r)
import account
content = account.text(sys.stdin.buffer.read())
%s
sys.stdout.buffer.write(content)
sys.exit(content.startswith(b'refused '))
'''


class Programs(unittest.TestCase):
    """The comparison with small programs, right and wrong."""

    def compared(self, change, sheets=15):
        """(exit status, lines written, files kept)"""
        with tempfile.TemporaryDirectory() as folder:
            program = os.path.join(folder, 'a printer')
            with open(program, 'w') as file:
                file.write(PRINTER % (sys.executable, HERE, change))
            os.chmod(program, stat.S_IRWXU)
            kept = os.path.join(folder, 'kept')
            status, rows = self.run_it('--program', program, '--kept', kept,
                                       '--seed', '5', '--sheets', str(sheets))
            names = os.listdir(kept) if os.path.isdir(kept) else []
            return status, rows, names

    def run_it(self, *arguments):
        done = subprocess.run(
            [sys.executable, os.path.join(HERE, 'compare_account.py'),
             *arguments], stdout=subprocess.PIPE, stderr=subprocess.PIPE)
        return done.returncode, done.stdout.decode('ascii').splitlines()

    def test_right(self):
        status, rows, kept = self.compared('')
        self.assertEqual((status, len(rows), kept), (0, 2, []))
        self.assertRegex(rows[0], r'^seen: [1-9][0-9]* accepted; refused '
                         r'.*[1-9][0-9]* by 11.*; [0-9]+ lines, [0-9]+ of '
                         r'them dense; reasons block-start [1-9]')
        self.assertRegex(rows[1], r'^compared 15 sheets, [1-9][0-9]* '
                         r'elements, 0 differences$')

    def test_wrong(self):
        for change in ('content = content.replace(b"needs", b"need")',
                       'content = content.replace(b"rule 3", b"rule 2")',
                       'content = content.replace(b"of 1\\n", b"of 0\\n")',
                       'content = content[:-1]',
                       'sys.stdout.buffer.write(b" ")',
                       'sys.stdout.buffer.write(content)\nsys.exit(0)',
                       'sys.exit(0)'):
            status, rows, kept = self.compared(change)
            self.assertEqual(status, 1, change)
            self.assertRegex(rows[0], r'^difference: .*\.sheet$')
            self.assertRegex(rows[-1], r'^compared 15 sheets, [1-9][0-9]* '
                             r'elements, [1-9][0-9]* differences$')
            self.assertGreater(len(kept), 0)
            self.assertLessEqual(len(kept), compare_account.SHOWN)

    def test_a_run_that_ends_badly(self):
        status, rows, _ = self.compared(
            'sys.stdout.buffer.write(content)\nsys.exit(3)', 4)
        self.assertEqual(status, 1)
        self.assertEqual(rows[1], '    the run: status 3')
        self.assertRegex(rows[-1], r', 4 differences$')

    def test_many_in_one_run(self):
        framed = ('import sys; sys.path.insert(0, %r)\n'
                  'import account, second\n'
                  'while True:\n'
                  ' sheet = second.read_frame(sys.stdin.buffer, b"sheet")\n'
                  ' if sheet is None: break\n'
                  ' second.write_frame(sys.stdout.buffer, b"answer",'
                  ' account.text(sheet)%%s)' % HERE)
        with tempfile.TemporaryDirectory() as folder, quiet():
            for change, differences in (('', 0), ('[1:]', 15)):
                command = [sys.executable, '-B', '-c', framed % change]
                _, found = compare_account.compare_all(
                    command, folder, 5, 15, compare_account.in_frames)
                self.assertEqual(found, differences)

    def test_no_program(self):
        status, rows = self.run_it('--program', 'no/such/program')
        self.assertEqual((status, rows), (1, []))


if __name__ == '__main__':
    unittest.main()
