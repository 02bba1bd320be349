"""Pages of sheets that are refused, and the line that is too long."""

import collections
import re
import unittest

from tried import ASK, Case, ROOT, content, example, made
from trouble import Trouble

import answers
import generate_two
import readback
import refusals
import sheets
import toolong


def manual_rows():
    """{number: (meaning, place, what to say)} of the manual's table."""
    found = {}
    for row in content(ROOT, 'docs', 'MANUAL.md').decode().split('\n'):
        cells = [cell.strip() for cell in row.split('|')[1:-1]]
        if len(cells) == 5 and cells[0].isdigit():
            said = re.search('"(.*)"', cells[4])
            found[int(cells[0])] = (cells[1], cells[2],
                                    said.group(1) if said else '')
    return found


class Refused(Case):

    NUMBERS = (1, 2, 3, 4, 5, 6, 7, 8, 9, 10, 11, 13, 15, 16, 20)

    def page(self, sheet, **given):
        status, told = made(sheet, **given)
        self.assertEqual(status, 1)
        readback.check_form(told)
        return told

    def test_the_table_is_the_manuals(self):
        manual = manual_rows()
        self.assertEqual(len(manual), 17)
        self.assertEqual({number: tuple(told) for number, told
                          in refusals.MEANINGS.items()}, manual)

    def test_each_number(self):
        manual = manual_rows()
        for number in self.NUMBERS:
            sheet = example('refusals/%d.sheet' % number)
            for vertical in (False, True):
                told = self.page(sheet, vertical=vertical)
                said = ''.join(readback.form_of(told).said)
                self.assertIn('Number %d: %s.' % (number, manual[number][0]),
                              said)
                self.assertIn(manual[number][2], said)
                self.assertIn('number %d, place ' % number, said)

    def test_where_it_is(self):
        for number, words in (
                (1, 'Place 0: the em, line 2 of the sheet.'),
                (2, 'Place 0: the count of base characters, line 4 of the '
                    'sheet.'),
                (11, 'Place 2: base character 2, line 7 of the sheet.'),
                (15, 'Place 0: the ruby ratio, line 5 of the sheet.'),
                (16, 'Place 1: element 1, line 26 of the sheet.'),
                (20, 'Place 0: the profile, line 10 of the sheet.'),
                (13, 'Place 5: line 5 of the sheet.')):
            told = self.page(example('refusals/%d.sheet' % number))
            self.assertIn(words, told)
        for number in self.NUMBERS:
            sheet = example('refusals/%d.sheet' % number)
            told = self.page(sheet)
            line = int(re.search('line ([0-9]+) of the sheet', told).group(1))
            self.assertEqual(line, self.line_by_the_manual(sheet))
            fault = re.search('<code class="fault">▶ +%d  (.*?)</code>' % line,
                              told)
            self.assertEqual(fault.group(1).encode(),
                             sheet.split(b'\n')[line - 1])

    def line_by_the_manual(self, sheet):
        """"Where a place is on the sheet", as the manual has it."""
        number, place = map(int, ASK(sheet)[0].split()[1:])
        if number in (1, 2, 13, 20):
            return {1: 2 + place, 2: 4, 13: place, 20: 10}[number]
        rows = sheet.split(b'\n')
        more = 7 if rows[0] == b'set 9' else 0      # of the set section
        if number == 15:
            # The first number over 7.
            return 1 + [int(row) > 7 for row in rows[:9]
                        if row.isdigit()].index(True, 2) + 1
        base = int(rows[3 + more].split()[1])
        ruby = int(rows[4 + more + base].split()[1])
        if number in (3, 4, 11):
            return more + (5 + place if place < 1024
                           else 6 + base + place - 1024)
        if not more:
            return 7 + base + ruby + place
        left = int(rows[5 + more + base + ruby].split()[1])
        return 15 + base + ruby + left + place

    def test_form_two(self):
        def two(*lines, numbers=b'10 50 1 2 1 1 2 1 0'):
            return b'\n'.join((b'set 9', *numbers.split(b' '), *lines, b''))
        # 3 with 3,072 + index: lines 11 and 12 are the base, 13 and 14 the
        # ruby section, 15 is `left 2`.
        bad = two(b'base 1', b'19 10 0 0 1', b'ruby 1', b'15 5', b'left 2',
                  b'15 5', b'15 0', b'elem 1', b'M 1 M 2')
        for sheet, words in (
                (bad, 'Place 3073: left character 1, line 17 of the sheet.'),
                (two(b'base 0', b'ruby 0', b'left 2049'),
                 'Place 3: the count of left characters, line 13 of the '
                 'sheet.'),
                (two(b'base 0', b'ruby 0', b'left 0', b'elem 1025'),
                 'Place 2: the count of elements, line 14 of the sheet.'),
                (two(b'base 0', b'ruby 2049'),
                 'Place 1: the count of ruby characters, line 12 of the '
                 'sheet.'),
                (two(b'base 0', b'ruby 0', b'left 0', b'elem 0',
                     numbers=b'10 50 1 2 1 1 2 8 0'),
                 'Place 1: the base ratio, line 9 of the sheet.'),
                (two(b'base 0', b'ruby 0', b'left 0', b'elem 0',
                     numbers=b'10 50 1 2 1 0 0 0 0'),
                 'Place 1: the base ratio, line 7 of the sheet.'),
                (two(b'base 0', b'ruby 0', b'left 0', b'elem 0',
                     numbers=b'11 50 1 2 1 0 0 0 0'),
                 'Place 0: the em, line 2 of the sheet.')):
            self.assertIn(words, self.page(sheet))
        self.assertIn('left character 1 (い), line 17', self.page(
            bad, text='甲\nあ\nあい\n'.encode()))

    def test_texts_that_are_no_sheets(self):
        for sheet, words in (
                (b'', 'Place 1: line 1 of the sheet.'),
                (b'set 2\n\xff<b>\x00\n', 'Place 2: line 2 of the sheet.'),
                (b'x' * 65536, 'Place 0: the whole sheet: it is over 65,535 '
                               'bytes.'),
                (b'set 2\n10\n50\nbase 1\n', 'Place 5: line 5 of the sheet.'),
                (b'set 2\n10\n50\nbase 0\nruby 2049\n',
                 'Place 1: the count of ruby characters, line 5 of the '
                 'sheet.')):
            self.assertIn(words, self.page(sheet))
            self.assertIn(words, self.page(sheet, text=b'any\ntext\n'))
        # What is left over has no line.
        self.assertIn('Place 0: the end of the elements', self.page(
            b'set 2\n10\n50\nbase 1\n19 10 0 0 1\nruby 0\nelem 0\n'))

    def test_a_character_is_named(self):
        text = '甲乙丙丁戊\nああああああ\n'.encode()
        told = self.page(example('refusals/11.sheet'), text=text)
        self.assertIn('Place 2: base character 2 (丙), line 7', told)
        with self.assertRaisesRegex(Trouble, 'too few'):
            made(example('refusals/11.sheet'), text='甲乙\n'.encode())

    def test_many(self):
        given = list(generate_two.sheets(2403, 320))
        ASK.learn(given)
        seen = collections.Counter()
        for sheet in given:
            if ASK(sheet)[0].startswith(b'refused'):
                self.page(sheet)
                seen[int(ASK(sheet)[0].split()[1])] += 1
        self.assertGreater(len(seen), 10)


class TooLong(Case):

    def drawn(self, sheet, vertical=False):
        """The boxes of the line that is too long; None if it is not drawn."""
        refused = answers.read_page(sheet, *ASK(sheet))
        status, told = made(sheet, vertical=vertical)
        self.assertEqual(status, 1)
        readback.check_form(told)
        found = readback.pictures(told)
        if not found:
            return None
        self.assertEqual(len(found), 1)
        boxes = readback.boxes(found[0].tree, vertical)
        ends = [start + length for own in boxes.values()
                for _, start, length in own]
        needs, measure = refused.needs
        self.assertEqual(max(ends), needs)
        self.assertEqual(boxes['b'][0][0], refused.place)
        readback.check_edges(found[0].tree, measure, vertical)
        self.assertEqual(readback.areas(found[0].tree, 'over', vertical),
                         [(measure, needs - measure)])
        rows = readback.sheet_rows(sheet)
        for letter, name in (('b', 'base'), ('r', 'ruby'), ('l', 'left')):
            for index, _, length in boxes[letter]:
                self.assertEqual(length, 2 * rows[name][index][1])
        return boxes

    def test_the_example(self):
        for vertical in (False, True):
            boxes = self.drawn(example('refusals/11.sheet'), vertical)
            self.assertEqual(boxes['b'], [(2, 0, 20), (3, 20, 20),
                                          (4, 40, 20)])
            self.assertEqual([box[1] for box in boxes['r']],
                             [0, 10, 20, 30, 40, 50])
        told = made(example('refusals/11.sheet'))[1]
        self.assertIn('is 60 half units long, and the measure is 40: 20 too '
                      'many. A measure of 30 units would hold it.', told)
        self.assertIn('>too long</text>', told)

    def test_a_space_that_opens_a_later_line(self):
        # A P, then a space, then a reading of five over one character, and no
        # break between: in a later line the reading lies on the space, 10 hu
        # deep, and the base stands at 20 + 5.  It needs 60; there are 50.
        sheet = (b'set 2\n10\n25\nbase 3\n19 10 0 0 1\n14 10 0 0 0\n'
                 b'19 10 0 0 1\nruby 5\n%selem 3\nP\nP\nM 5\n' % (
                     b'15 5\n' * 5))
        self.assertEqual(ASK(sheet)[1], b'refused 11 1\nneeds 60 measure 50\n')
        self.assertEqual(self.drawn(sheet)['b'], [(1, 0, 20), (2, 25, 20)])
        # The same as the job's opening indent takes none of it.
        sheet = (b'set 2\n10\n25\nbase 2\n14 10 0 0 0\n19 10 0 0 1\nruby 5\n'
                 b'%selem 2\nP\nM 5\n' % (b'15 5\n' * 5))
        self.assertEqual(self.drawn(sheet)['b'], [(0, 0, 20), (1, 35, 20)])

    def test_a_jukugo_that_is_cut(self):
        # 20 hu: the first character of the J fits, the second has a reading
        # of 30 hu and does not.
        sheet = (b'set 2\n10\n10\nbase 2\n19 10 0 0 1\n19 10 0 0 1\nruby 4\n'
                 b'%selem 1\nJ 2 1 3\n' % (b'15 5\n' * 4))
        self.assertEqual(ASK(sheet)[1], b'refused 11 1\nneeds 30 measure 20\n')
        boxes = self.drawn(sheet)
        self.assertEqual(boxes['b'], [(1, 5, 20)])
        self.assertEqual(boxes['r'], [(1, 0, 10), (2, 10, 10), (3, 20, 10)])

    def test_jukugo_with_left_readings(self):
        # Base 20 hu each, em 10, measure 10 units.  What stands up to the
        # first break: of a J with a left M or J its first character, whose
        # gloss of 30 is too long; of one with a left G, or with a left J and
        # a long run, all of it.
        for line, left, needs, bases in (
                (b'J 2 1 1 M 3 1', 4, 30, [(0, 5, 20)]),
                (b'J 2 1 1 J 2 2', 4, 20, None),
                (b'J 2 1 1 G 2', 2, 40, [(0, 0, 20), (1, 20, 20)]),
                # 40 of base and 40 of gloss.
                (b'J 2 1 1 J 3 1', 4, 40, [(0, 0, 20), (1, 20, 20)])):
            sheet = (b'set 9\n10\n10\n1\n2\n1\n1\n2\n1\n0\nbase 2\n%sruby 2'
                     b'\n15 5\n15 5\nleft %d\n%selem 1\n%s\n' % (
                         b'19 10 0 0 1\n' * 2, left, b'15 5\n' * left, line))
            if bases is None:
                self.assertIn(b'lines 2', ASK(sheet)[0])
                continue
            self.assertEqual(ASK(sheet)[1],
                             b'refused 11 0\nneeds %d measure 20\n' % needs)
            self.assertEqual(self.drawn(sheet)['b'], bases)

    def test_another_line_is_not_drawn(self):
        # Answers to the line alone that have not the extent that is needed,
        # or that refuse it: it is told in words, and nothing is drawn.
        sheet = example('refusals/11.sheet')
        alone = toolong.alone(sheets.read_sheet(sheet), answers.read_page(
            sheet, *ASK(sheet)))[0]
        longer = alone.replace(b'\n30\n', b'\n36\n').replace(b'19 10',
                                                             b'19 12')
        self.assertIn(b'lines 2\n', ASK(longer)[0])
        self.assertIn(b'line 72\n', ASK(longer)[0])
        for other in (longer, sheet):
            status, told = made(sheet, ask=lambda given: ASK(
                other if given == alone else given))
            self.assertEqual(status, 1)
            readback.check_form(told)
            self.assertEqual(readback.pictures(told), [])
            self.assertIn('A measure of 30 units would hold it.', told)

    def long_ones(self, seed, count):
        given = list(generate_two.account_sheets(seed, count))
        ASK.learn(given)
        return [sheet for sheet in given
                if ASK(sheet)[0].startswith(b'refused 11 ')]

    def test_many(self):
        # Nearly every line can be drawn: all but those for which no measure
        # of a sheet is wide enough.
        given = self.long_ones(2404, 500)
        alone = [toolong.alone(sheets.read_sheet(sheet), answers.read_page(
            sheet, *ASK(sheet))) for sheet in given]
        ASK.learn(found[0] for found in alone if found)
        drawn = [self.drawn(sheet, number % 2 == 0)
                 for number, sheet in enumerate(given)]
        self.assertGreater(len(given), 30)
        self.assertEqual([boxes is None for boxes in drawn],
                         [found is None for found in alone])

    def test_it_is_the_line_of_the_whole_sheet(self):
        # Where the whole sheet with the measure that is needed has a line
        # that begins at the place, that line begins as the one alone does.
        count = 0
        for sheet in self.long_ones(2405, 500):
            refused = answers.read_page(sheet, *ASK(sheet))
            rows = sheet.split(b'\n')
            rows[2] = b'%d' % -(-refused.needs[0] // 2)
            wider = b'\n'.join(rows)
            if ASK(wider)[0].startswith(b'refused'):
                continue
            for line in readback.result_lines(ASK(wider)[0], wider):
                if line['b'][0][0] == refused.place:
                    boxes = self.drawn(sheet)
                    self.assertEqual(line['b'][:len(boxes['b'])], boxes['b'])
                    count += 1
        self.assertGreater(count, 5)


if __name__ == '__main__':
    unittest.main()
