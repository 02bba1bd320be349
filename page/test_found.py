"""That a wrong page is found."""

import re
import unittest

from tried import ASK, Case, PLAIN, example

import readback


class WrongPages(Case):

    def setUp(self):
        self.sheet = example('pulped.sheet')
        self.told = self.check(self.sheet, example('pulped.text'))

    def wrong(self, before, after, why):
        self.assertGreaterEqual(self.told.count(before), 1, before)
        told = self.told.replace(before, after, 1)
        with self.assertRaisesRegex(readback.Wrong, why):
            readback.check_page(told, self.sheet, *ASK(self.sheet))

    def test_boxes(self):
        self.wrong('<rect x="90"', '<rect x="91"', 'boxes b')
        self.wrong('<rect x="80"', '<rect x="79"', 'boxes r')
        self.wrong('data-r="4"', 'data-r="5"', 'boxes r')
        self.wrong('width="12"', 'width="14"', 'boxes b|blanks')

    def test_areas(self):
        self.wrong('class="blank"', 'class="blind"', 'blanks')
        self.wrong('class="gap"', 'class="gape"', 'gaps')
        self.wrong('>rule 3<', '>rule 2<', 'words at the gaps')
        self.wrong('class="rule">3<', 'class="rule">2<', 'signs of the rules')
        self.wrong('d="M80 ', 'd="M81 ', 'contacts')
        self.wrong('data-depth="12"', 'data-depth="11"', 'depth')
        self.wrong('d="M0 0L0', 'd="M1 0L1', 'the start')
        self.wrong('d="M360 0L360', 'd="M350 0L350', 'the measure')

    def test_rows(self):
        row = re.search('<tr data-of="l1e1".*?</tr>\n', self.told).group()
        self.wrong(row, '', 'rows')
        self.wrong(row, row + row, 'rows')
        self.wrong('>90</td>', '>91</td>', 'cells')
        self.wrong('rule 3 would be broken', 'rule 3 is kept', 'no reason')
        self.wrong('rule 3 would be broken.<', 'rule 3 is kept.<',
                   'no reason')

    def test_elements(self):
        group = self.told[self.told.index('<g class="element" id="l1e1"'):]
        group = group[:group.index('</g>') + 4]
        self.wrong(group, '', '.')
        self.wrong('data-element="1"', 'data-element="9"', '.')

    def test_form(self):
        self.wrong('</figure>', '', 'closes nothing|still open')
        self.wrong('id="l1e1"', 'id="l1e0"', 'names that stand once')
        self.wrong('data-others="l1e0"', 'data-others="l1e99"', 'not there')
        self.wrong('<h1>', '<h1><b>', 'closes nothing')
        self.wrong('</main>', '<img></main>', 'fetches')
        self.wrong('</main>', '<p>https://x</p></main>', 'stands in the file')
        self.wrong('<main>', '<main onclick="x">', 'onclick')

    def test_text_that_is_not_escaped(self):
        sheet = PLAIN
        told = self.check(sheet, b'<b>\n&&')
        self.assertIn('>&lt;<', told)
        for escaped, bare in (('&lt;', '<'), ('&amp;', '&')):
            with self.assertRaises(readback.Wrong):
                readback.check_page(told.replace('>%s<' % escaped,
                                                 '>%s<' % bare, 1),
                                    sheet, *ASK(sheet))


if __name__ == '__main__':
    unittest.main()
