"""Pages of sheets that are set: examples, generated sheets, both sides."""

import collections
import hashlib
import unittest

from tried import ASK, Case, example, example_names, made, sample
from trouble import Trouble

import answers
import generate
import generate_two
import readback
import sheets
import words


class Examples(Case):

    def test_every_example(self):
        ASK.learn(example(name + '.sheet') for name in example_names())
        seen = collections.Counter()
        for name in example_names():
            sheet = example(name + '.sheet')
            if ASK(sheet)[0].startswith(b'refused'):
                seen['refused'] += 1
                continue
            seen['set'] += 1
            self.assertEqual(ASK(sheet)[0], example(name + '.result'))
            for vertical in (False, True):
                self.check(sheet, vertical=vertical)
        self.assertGreaterEqual(seen['set'], 21)
        self.assertGreaterEqual(seen['refused'], 15)

    def test_with_their_texts(self):
        for name in ('pulped', 'primer', 'compare/primer', 'bilingual',
                     'two'):
            for vertical in (False, True):
                told = self.check(example(name + '.sheet'),
                                  example(name + '.text'), vertical)
                shown = [text.text for one in readback.pictures(told)
                         for text in one.tree.iter('text')
                         if text.get('class', '').startswith('glyph')]
                due = example(name + '.text').decode().split('\n')
                self.assertEqual(collections.Counter(shown),
                                 collections.Counter(''.join(due).replace(
                                     '\u3000', '\u2423')))

    def test_why_the_second_word_stands_where_it_does(self):
        told = self.check(example('pulped.sheet'), example('pulped.text'))
        self.assertIn(
            'aria-label="1 (努): its reading begins where the reading of 0 '
            '(弟) ends; one half unit nearer, rule 3 would be broken. The gap, '
            '30 = 20 + 10: the reading of 0 (弟) runs 20 past its base and its '
            'own reading begins 10 ahead of its base."', told)
        self.assertIn('data-others="l1e0"', told)

    def test_without_a_text_classes_have_their_names(self):
        told = self.check(example('pulped.sheet'))
        one = readback.pictures(told)[0].tree
        names = [text.text for text in one.iter('text')
                 if text.get('class') == 'name']
        self.assertEqual(collections.Counter(names), collections.Counter(
            ['ideograph'] * 4 + ['hiragana', 'space', 'full', 'stop']
            + ['hira'] * 14))

    def test_no_elements(self):
        told = self.check(b'set 2\n10\n35\nbase 0\nruby 0\nelem 0\n')
        self.assertIn('0 elements, 0 readings, in 0 lines', told)

    def test_a_measure_that_is_far_away(self):
        sheet = b'set 2\n2\n4000000\nbase 1\n19 2 0 0 1\nruby 0\nelem 1\nP\n'
        told = self.check(sheet)
        self.assertIn('measure 8000000, further on', told)
        self.assertNotIn('edge measure" d', told)


class Generated(Case):

    def test_some_hundred(self):
        given = list(generate_two.account_sheets(2401, 420))
        ASK.learn(given)
        seen = collections.Counter()
        for number, sheet in enumerate(given):
            if ASK(sheet)[0].startswith(b'refused'):
                seen['refused'] += 1
                continue
            told = self.check(sheet, vertical=number % 3 == 0)
            seen['set'] += 1
            seen['gaps'] += told.count('class="gap"')
            seen['depths'] += told.count('class="depth"')
            seen['blanks'] += told.count('class="blank"')
        self.assertGreater(seen['set'], 200)
        self.assertGreater(seen['refused'], 100)
        self.assertGreater(min(seen['gaps'], seen['depths'],
                               seen['blanks']), 200)

    def test_amounts_make_up_every_gap(self):
        # In sheets without left readings every gap is told by its parts, and
        # they make it up.
        count = 0
        for sheet in generate.account_sheets(2402, 120):
            found = answers.read_page(sheet, *ASK(sheet))
            if isinstance(found, answers.Refused):
                continue
            for line in found.lines:
                pieces = {piece.element: piece for piece in line.pieces}
                for piece in line.pieces:
                    for row in piece.rows:
                        parts = words.parts(found.sheet, None, row, pieces)
                        self.assertEqual(
                            sum(amount for amount, _ in parts)
                            if row.gap else 0, row.gap)
                        count += row.gap > 0
        self.assertGreater(count, 100)


# ---------------------------------------------------------------------------
# Both sides: sheets, results and accounts written by hand
# ---------------------------------------------------------------------------

class BothSides(Case):

    # bilingual: em 10, base 10 wide, all ruby 5.  0 is M with 3 right and 4
    # left: the longest is 40 hu, so left from 0, right from 5, base from 10.
    # 1 has no left one; its base waits for the left reading of 0, at 40.  2
    # has 3 left, 5 ahead of its base; they wait for the base of 1, at 60.
    # The left reading of 3 waits for that of 2, at 90.  Four right readings
    # and three left ones are seven.
    #
    # space: 目 and 手 with left readings of 30 hu over 20, and a space of 6
    # between, as in K12: both lie on it, and rule 3 holds the second.

    def test_the_programs_write_what_is_worked_by_hand(self):
        for name in ('bilingual', 'space'):
            sheet, ask, _ = sample(name)
            self.assertEqual(ASK(sheet), ask(sheet))

    def test_both_forms_are_one_page(self):
        # But for the sheet's own sum, and what form two says of the job.
        one = example('primer.sheet')
        two = example('primer.converted')
        told, other = (self.check(sheet, example('primer.text'))
                       for sheet in (one, two))
        for sheet in (one, two):
            other = other.replace(hashlib.sha256(sheet).hexdigest(), '')
            told = told.replace(hashlib.sha256(sheet).hexdigest(), '')
        said = '; ratios 1:2:1 for ruby, 1:2:1 for base; profile 0'
        self.assertEqual(other.count(said), 1)
        self.assertEqual(other.replace(said, ''), told)

    def test_left_readings_stand_below(self):
        for name in ('bilingual', 'space'):
            for vertical in (False, True):
                sheet, ask, text = sample(name)
                self.check(sheet, text, vertical, ask)
                self.check(sheet, None, vertical, ask)

    def lanes_of(self, vertical):
        sheet, ask, text = sample('bilingual')
        told = self.check(sheet, text, vertical, ask)
        tree = readback.pictures(told)[0].tree
        key = 'x' if vertical else 'y'
        return [{float(rect.get(key)) for rect in tree.iter('rect')
                 if rect.get('data-' + letter)} for letter in 'rbl']

    def test_on_which_side_they_stand(self):
        right, base, left = self.lanes_of(False)
        self.assertEqual((len(right), len(base), len(left)), (1, 1, 1))
        self.assertLess(max(right), min(base))
        self.assertLess(max(base), min(left))
        right, base, left = self.lanes_of(True)
        self.assertGreater(min(right), max(base))
        self.assertGreater(min(base), max(left))

    def test_sentences(self):
        sheet, ask, _ = sample('bilingual')
        found = answers.read_page(sheet, *ask(sheet))
        line = found.lines[0]
        self.assertEqual(
            [words.sentence(found.sheet, None, line, piece)
             for piece in line.pieces],
            ['0: its left reading begins where the line starts; one half unit '
             'nearer, rule 4 would be broken. The gap, 10: its own left '
             'reading begins 10 ahead of its base.',
             '1: its base begins where the left reading of 0 ends; one half '
             'unit nearer, rule 2 would be broken. The gap, 10: the left '
             'reading of 0 runs 10 past its base.',
             '2: its left reading begins where the base of 1 ends; one half '
             'unit nearer, rule 2 would be broken. The gap, 5: its own left '
             'reading begins 5 ahead of its base.',
             '3: its left reading begins where the left reading of 2 ends; '
             'one half unit nearer, rule 3 would be broken. The gap, 10 = 5 + '
             '5: the left reading of 2 runs 5 past its base and its own left '
             'reading begins 5 ahead of its base.'])

    def test_readings_of_both_sides_are_counted(self):
        for name, told in (('bilingual', '4 elements, 7 readings, in 1 line'),
                           ('space', '3 elements, 4 readings, in 1 line')):
            sheet, ask, text = sample(name)
            self.assertIn(told, self.check(sheet, text, ask=ask))

    def test_depths_of_both_sides(self):
        sheet, ask, text = sample('space')
        told = self.check(sheet, text, ask=ask)
        self.assertIn('5 of the left reading of 0 (目) lie on its blank', told)
        self.assertIn('1 of the reading of 2 (手) lie on its blank', told)
        self.assertIn('1 of the left reading of 2 (手) lie on its blank', told)

    def test_the_third_line_of_a_text(self):
        sheet, ask, text = sample('bilingual')
        with self.assertRaisesRegex(Trouble, 'too few characters: line 3 has '
                                    '9, and the sheet has 10 left ruby'):
            made(sheet, text=text[:-2], ask=ask)
        with self.assertRaisesRegex(Trouble, 'too few characters: line 3'):
            made(sheet, text=b'\n'.join(text.split(b'\n')[:2]), ask=ask)

    def test_the_form_of_a_left_reading(self):
        for line, bases, counts in (
                ('P', 1, {}), ('M 3', 1, {'r': ('M', [3])}),
                ('G 2 3', 2, {'r': ('G', [3])}),
                ('J 2 1 2', 2, {'r': ('J', [1, 2])}),
                ('M 3 M 2', 1, {'r': ('M', [3]), 'l': ('M', [2])}),
                ('M 3 N', 1, {'r': ('M', [3]), 'l': ('N', [])}),
                ('J 2 1 2 M 1 1', 2, {'r': ('J', [1, 2]),
                                      'l': ('M', [1, 1])}),
                ('J 2 1 2 J 1 2', 2, {'r': ('J', [1, 2]),
                                      'l': ('J', [1, 2])}),
                ('J 2 1 2 G 3', 2, {'r': ('J', [1, 2]), 'l': ('G', [3])})):
            self.assertEqual(sheets.read_counts(line), (bases, counts))


if __name__ == '__main__':
    unittest.main()
