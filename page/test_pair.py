"""Two sheets side by side."""

import unittest
from unittest import mock

from tried import ASK, Case, PLAIN, example, made, sample
from trouble import Trouble

import changes
import readback
import sheets


class Pairs(Case):

    def pair(self, old, new, **given):
        status, told = made(old, new, **given)
        self.assertEqual(status, 0)
        for of, sheet in (('old', old), ('new', new)):
            readback.check_page(told, sheet, *ASK(sheet),
                                given.get('vertical', False), of)
        return told

    def moved(self, told, of='new'):
        """[(line, element, label)] of what is marked."""
        found = []
        for one in readback.pictures(told):
            for group in one.tree.iter('g'):
                labels = [text.text for text in group.iter('text')
                          if text.get('class') == 'move']
                if one.sheet == of and labels:
                    self.assertIn('moved', group.get('class'))
                    found.append((one.line, int(group.get('data-element')),
                                  *labels))
        return found

    def test_k12(self):
        old, new = example('k12.sheet'), example('compare/k12.sheet')
        for vertical in (False, True):
            told = self.pair(old, new, vertical=vertical)
            self.assertEqual(self.moved(told), [
                (1, 0, 'exchanged, −5'), (1, 1, '−5'), (1, 2, '−9')])
            self.assertEqual(self.moved(told, 'old'), [(1, 0, 'exchanged')])
        for row in example('compare/k12.told').decode().split('\n')[:-1]:
            self.assertIn('<li>%s</li>' % row, told)
        self.assertIn('It moved by -5. Ruby of element 0 moved by 5.', told)

    def test_primer(self):
        told = self.pair(
            example('primer.sheet'), example('compare/primer.sheet'),
            text=[example('primer.text'), example('compare/primer.text')])
        self.assertEqual(self.moved(told), [
            (4, 25, 'exchanged, +10'), (4, 26, '+20'), (5, 27, 'from line 4')]
            + [(5, number, '+40') for number in range(28, 35)])
        for row in example('compare/primer.told').decode().split('\n')[:-1]:
            self.assertIn('<li>%s</li>' % row, told)

    def test_counts_that_differ(self):
        long = PLAIN.replace(b'base 3', b'base 4').replace(
            b'ruby 2', b'16 10 0 0 1\nruby 2').replace(
            b'elem 3\n', b'elem 4\n') + b'P\n'
        told = self.pair(PLAIN, long)
        self.assertEqual(self.moved(told), [(1, 3, 'put in')])
        told = self.pair(long, PLAIN)
        self.assertEqual(self.moved(told, 'old'), [(1, 3, 'taken out')])

    def test_the_same_twice(self):
        told = self.pair(example('primer.sheet'), example('primer.sheet'))
        self.assertEqual(self.moved(told) + self.moved(told, 'old'), [])
        self.assertIn('<li>lines 1 to 7: as they were</li>', told)

    def test_amounts_are_those_of_the_results(self):
        # Measures that differ move the breaks of the primer.
        old = example('primer.sheet')
        new = old.replace(b'\n180\n', b'\n150\n', 1)
        told = self.pair(old, new)
        lines = [{box[0]: (at, box[1]) for at, line in enumerate(
            readback.result_lines(ASK(sheet)[0], sheet), 1)
            for box in line['b']} for sheet in (old, new)]
        first = {number: element.base[0] for number, element in enumerate(
            sheets.read_sheet(old).elements)}
        count = 0
        for line, element, label in self.moved(told):
            if label[0] in '+−':
                was, now = (own[first[element]] for own in lines)
                self.assertEqual(int(label.replace('−', '-')),
                                 now[1] - was[1])
                count += 1
            elif label.startswith('from line '):
                was = lines[0][first[element]]
                self.assertEqual(label, 'from line %d' % was[0])
                count += 1
        self.assertGreater(count, 20)

    def test_one_scale(self):
        # The em differs, and one half unit is as long in both pictures.
        old = example('k12.sheet')
        told = self.pair(old, old.replace(b'\n10\n', b'\n20\n', 1))
        scales = {float(one.tree.get('width'))
                  / float(one.tree.get('viewBox').split(' ')[2])
                  for one in readback.pictures(told)}
        self.assertEqual(len({round(scale, 3) for scale in scales}), 1)

    def test_both_forms(self):
        # One page in both forms; and the gloss of 手 taken off: its base
        # could stand where that of 目 ends, but keeps off the gloss of 目.
        told = self.pair(example('two.sheet'), example('two.converted'))
        self.assertEqual(self.moved(told) + self.moved(told, 'old'), [])
        old, _, _ = sample('bilingual')
        new = old.replace(b'left 10\n' + b'27 5\n' * 3, b'left 7\n').replace(
            b'M 1 M 3\nM 1 M 3\n', b'M 1 M 3\nM 1 N\n')
        told = self.pair(old, new)
        self.assertIn('element 3 exchanged: M 1 M 3, now M 1', told)
        self.assertEqual(self.moved(told), [(1, 3, 'exchanged, −5')])

    def test_sheets_that_cannot_be_compared(self):
        sheet = example('k12.sheet')
        with mock.patch.object(changes, 'changes', side_effect=ValueError):
            with self.assertRaisesRegex(Trouble, 'cannot be compared'):
                made(sheet, sheet)

    def test_one_is_refused(self):
        good, bad = example('k12.sheet'), example('refusals/11.sheet')
        for old, new in ((good, bad), (bad, good), (bad, bad)):
            status, told = made(old, new)
            self.assertEqual(status, 1)
            readback.check_form(told)
            self.assertIn('no permitted break gives a line', told)
            self.assertEqual(len(readback.pictures(told)), 2)


if __name__ == '__main__':
    unittest.main()
