"""The account in sentences, and the characters of a text."""

import unittest

from tried import ASK, Case, PLAIN, ROOT, content, made
from trouble import Trouble

import answers
import letters
import page
import readback
import sheets
import words


class Words(unittest.TestCase):

    def held(self, reason, classes=(19, 19)):
        """What is said of element 1, behind element 0."""
        sheet = ('set 2\n10\n50\nbase 2\n%d 10 0 0 1\n%d 10 0 0 1\nruby 0\n'
                 'elem 2\nP\nP\n' % classes).encode()
        row = answers.read_row('element 1 at 30 gap 5 ' + reason)
        return words.reason(sheets.read_sheet(sheet), None, row)

    def test_each_reason(self):
        end = '; one half unit nearer, rule %d would be broken'
        for reason, told, rule in (
                ('rule 4 block touches start',
                 'its base begins where the line starts', 4),
                ('rule 1 block touches block of 0',
                 'its base begins where the base of 0 ends', 1),
                ('rule 2 block touches ruby of 0 at depth 0',
                 'its base begins where the reading of 0 ends', 2),
                ('rule 2 ruby touches block of 0 at depth 0',
                 'its reading begins where the base of 0 ends', 2),
                ('rule 3 ruby touches ruby of 0',
                 'its reading begins where the reading of 0 ends', 3),
                ('rule 4 ruby touches start',
                 'its reading begins where the line starts', 4)):
            self.assertEqual(self.held(reason), told + end % rule)

    def test_depths(self):
        reason = 'rule 2 %s at depth %d'
        self.assertIn(
            'its base begins 12 half units ahead of the end of the reading of '
            '0, which lies that deep on its blank and may lie no deeper;',
            self.held(reason % ('block touches ruby of 0', 12), (19, 14)))
        self.assertIn(
            'its reading begins 1 half unit ahead of the end of the base of '
            '0, lies that deep on its blank and may lie no deeper;',
            self.held(reason % ('ruby touches block of 0', 1), (7, 19)))
        # With profile 1, on kana.
        self.assertIn('lies that deep on this kana', self.held(
            reason % ('ruby touches block of 0', 10), (15, 19)))
        self.assertIn('lies that deep on this kana', self.held(
            reason % ('block touches ruby of 0', 10), (19, 16)))

    def test_the_rules_are_the_manuals(self):
        manual = ' '.join(content(ROOT, 'docs', 'MANUAL.md').decode().split())
        for rule, told in words.RULES.items():
            self.assertIn('%s (%d)' % (told, rule), manual)


# ---------------------------------------------------------------------------
# Texts
# ---------------------------------------------------------------------------

class Texts(Case):

    def refused(self, text, told):
        with self.assertRaises(Trouble) as found:
            made(PLAIN, text=text)
        self.assertEqual(str(found.exception), 'the text job.text ' + told)

    def test_too_few_and_too_many(self):
        self.refused('字字\nああ\n'.encode(), 'has too few characters: line 1 '
                     'has 2, and the sheet has 3 base characters')
        self.refused('字字字字\nああ\n'.encode(), 'has too many characters: '
                     'line 1 has 4, and the sheet has 3 base characters')
        self.refused('字字字\nあ\n'.encode(), 'has too few characters: line 2 '
                     'has 1, and the sheet has 2 ruby characters')
        self.refused('字字字\n'.encode(), 'has too few characters: line 2 '
                     'has 0, and the sheet has 2 ruby characters')
        self.refused('字字字\nああ\nx\n'.encode(), 'has too many characters: '
                     'line 3 has 1, and the sheet has 0 left ruby characters')
        self.refused('字字字\nああ\n\nx'.encode(), 'has 4 lines, and a text has '
                     'at most three: base, ruby and left characters')
        self.refused(b'', 'has too few characters: line 1 has 0, and the '
                     'sheet has 3 base characters')

    def test_not_utf_8(self):
        self.refused('字字'.encode() + b'\xff\n', 'is not UTF-8: byte 6')
        self.refused('字字字\nああ\n'.encode('utf-16'), 'is not UTF-8: byte 0')
        self.refused('字'.encode()[:2], 'is not UTF-8: byte 0')

    def test_ends_of_lines(self):
        for text in ('字字字\nああ', '字字字\nああ\n', '字字字\r\nああ\r\n',
                     '\ufeff字字字\nああ\n', '字字字\nああ\n\n\n\n'):
            self.check(PLAIN, text.encode())

    def test_markup_is_text(self):
        for text in ('<b>\n&"', "'>&\n<!", ']]>\n--', '<s/\n</'):
            for vertical in (False, True):
                told = self.check(PLAIN, text.encode(), vertical)
                form = readback.form_of(told)
                shown = [each.text for one in readback.pictures(told)
                         for each in one.tree.iter('text')
                         if each.get('class') == 'glyph']
                self.assertEqual(sorted(shown), sorted(text.replace('\n', '')))
                self.assertNotIn('b', [name for name, _ in form.tags[30:]])
        told = self.check(PLAIN, b'<i>\n{}\n')
        self.assertNotIn('<i>', told)

    def test_what_would_do_harm(self):
        for given, shown in (
                ('\x00', '\u2400'), ('\x1b', '\u241b'), ('\t', '\u2409'),
                ('\x7f', '\u2421'), ('\x85', '\ufffd'), ('\u202e', '\ufffd'),
                ('\u2028', '\ufffd'), ('\ufeff', '\ufffd'),
                ('\ufffe', '\ufffd'), ('\ue000', '\ufffd'),
                ('\u3000', '\u2423'), (' ', '\u2423'), ('\u0301', '\u25cc\u0301'),
                ('字', '字'), ('か\u3099', 'か\u3099')):
            self.assertEqual(letters.shown(given), shown)
            self.check(PLAIN, ('字字%s\nああ' % given).encode()
                       if given[0] != '\u0301' else
                       ('%s字字\nああ' % given).encode())

    def test_marks_belong_to_what_they_stand_on(self):
        self.assertEqual(letters.clusters('か\u3099葛\U000e0100x'),
                         ['か\u3099', '葛\U000e0100', 'x'])
        self.check(PLAIN, 'か\u3099葛\U000e0100字\nああ'.encode())

    def test_a_sheets_name_is_text(self):
        status, told = page.page_of(['/x/<b>&.sheet'], [PLAIN], [None], False,
                                    ASK)
        self.assertEqual(status, 0)
        readback.check_page(told, PLAIN, *ASK(PLAIN))
        self.assertIn('<h1>&lt;b&gt;&amp;.sheet</h1>', told)


if __name__ == '__main__':
    unittest.main()
