"""The command, and the picture of the README."""

import os
import re
import unittest

from tried import ASK, EXAMPLES, HERE, ROOT, content, example, made
from trouble import Trouble

import page
import readback
import still


class Command(unittest.TestCase):

    def asked(self, *arguments):
        return page.Asked(list(arguments))

    def test_what_is_asked(self):
        asked = self.asked('--vertical', '--text', 'a', 'x', '--', '-y')
        self.assertEqual((asked.vertical, asked.texts, asked.sheets),
                         (True, ['a'], ['x', '-y']))
        self.assertEqual(self.asked().sheets, ['-'])
        self.assertEqual(self.asked('--text=a').texts, ['a'])
        self.assertTrue(self.asked('--help', '-').help)

    def test_what_cannot_be_asked(self):
        for arguments, told in (
                (['--quick'], 'unknown option --quick'),
                (['-x', 'a'], 'unknown option -x'),
                (['a', 'b', 'c'], 'here are 3'),
                (['a', '--text'], '--text needs a file'),
                (['--text', 'a', '--text', 'b', 'c'], 'twice for one sheet'),
                (['-', '-'], 'standard input can be read once'),
                (['--text', '-', '-'], 'standard input can be read once')):
            with self.assertRaisesRegex(Trouble, re.escape(told)):
                self.asked(*arguments)

    def test_files_that_cannot_be_read(self):
        with self.assertRaisesRegex(Trouble, 'cannot read no such: No such'):
            page.made(self.asked('no such'), ASK)
        with self.assertRaisesRegex(Trouble, 'Is a directory'):
            page.made(self.asked('--text', HERE, os.path.join(
                EXAMPLES, 'k1.sheet')), ASK)

    def test_programs_that_fail(self):
        sheet = os.path.join(EXAMPLES, 'k1.sheet')
        for command, told in (
                (['false'], None), (['/nowhere'], 'cannot run /nowhere'),
                (['sh', '-c', 'exit 2'], 'sh ended with status 2'),
                (['echo', 'lines 1'], 'no whole answer'),
                (['true'], 'no whole answer')):
            ask = page.asking(command, command)
            with self.assertRaisesRegex(Trouble, told or ''):
                page.made(self.asked(sheet), ask)

    def test_programs_that_do_not_agree(self):
        good, other = ASK(example('k9.sheet')), ASK(example('k1.sheet'))
        for told in ((good[0], other[1]), (other[0], good[1]),
                     (good[0], b'refused 1 0\n'), (b'refused 1 0\n', good[1]),
                     (good[0], good[1].replace(b'at 35', b'at 36'))):
            with self.assertRaisesRegex(Trouble, 'do not agree'):
                made(example('k9.sheet'), ask=lambda sheet: told)

    def test_a_fault_of_our_own_is_no_refusal(self):
        kept, compare_write, said = page.made, page.compare.write, []

        def fault(*_):
            raise KeyError('x\ny')
        page.made = fault
        page.compare.write = lambda number, text: said.append((number, text))
        try:
            status = page.main(['job.sheet'])
        finally:
            page.made, page.compare.write = kept, compare_write
        self.assertEqual(status, 2)
        self.assertEqual([number for number, _ in said], [2])
        self.assertEqual(said[0][1].count('\n'), 1)

    def test_names(self):
        self.assertEqual(page.names_of(['a/x.sheet']), ['x.sheet'])
        self.assertEqual(page.names_of(['a/x', 'b/y']), ['x', 'y'])
        self.assertEqual(page.names_of(['a/x', 'b/x']), ['a/x', 'b/x'])
        self.assertEqual(page.names_of(['/a/x', '/a/b/x']), ['x', 'b/x'])
        self.assertEqual(page.names_of(['-']), ['standard input'])


class Still(unittest.TestCase):

    def test_the_picture_of_the_readme(self):
        sheet = example('pulped.sheet')
        source, form = page.source('pulped.sheet', sheet, (
            example('pulped.text'), 'pulped.text'), ASK)
        drawn = still.svg(form, source.page.lines, source.text)
        self.assertEqual(drawn.encode(), content(ROOT, 'docs', 'pulped.svg'))
        tree = readback.tree_of(drawn)
        for each in tree.iter():
            each.tag = each.tag.split('}')[1]
        found = readback.boxes(tree, False)
        self.assertEqual([found], readback.result_lines(ASK(sheet)[0], sheet))


if __name__ == '__main__':
    unittest.main()
