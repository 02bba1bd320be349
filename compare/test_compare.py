"""Tests of the comparison of two pages, with texts worked out by hand.

    python3 compare/test_compare.py
    COMPARE_SETTING=bin/setting python3 compare/test_compare.py

The sheets are set by the second program, or by the command that
COMPARE_SETTING names.  hu means half units.  Where nothing else is said, em
is 10, base characters are 10 wide and ruby characters 5 wide, as in the
settings K1 to K12 of document 01, and a line may end after each element.
"""

import os
import random
import shlex
import shutil
import stat
import subprocess
import sys
import tempfile
import unittest

HERE = os.path.dirname(os.path.abspath(__file__))
ROOT = os.path.dirname(HERE)
EXAMPLES = os.path.join(ROOT, 'examples')
sys.path[:0] = [HERE, os.path.join(ROOT, 'second')]

import compare      # noqa: E402  (found through the path set above)
import generate     # noqa: E402
import generate_two     # noqa: E402
import second       # noqa: E402

SECOND = [sys.executable, '-B', os.path.join(ROOT, 'second', 'second.py')]
SETTING = shlex.split(os.environ.get('COMPARE_SETTING', '')) or SECOND


# ---------------------------------------------------------------------------
# Writing sheets down shortly: an element is (base rows, ruby rows, its line),
# with its left rows behind them where it has a left reading
# ---------------------------------------------------------------------------

def p(cls=19, width=10, flag=1):
    return ['%d %d 0 0 %d' % (cls, width, flag)], [], 'P'


def m(ruby, flag=1):
    """M over one character; ruby is a list of widths, or a count of fives."""
    ruby = [5] * ruby if isinstance(ruby, int) else ruby
    return (['19 10 0 0 %d' % flag], ['15 %d' % width for width in ruby],
            'M %d' % len(ruby))


def g(base, ruby):
    return ['19 10 0 0 1'] * base, ['15 5'] * ruby, 'G %d %d' % (base, ruby)


def j(*runs):
    return (['19 10 0 0 1'] * len(runs), ['15 5'] * sum(runs),
            'J %d %s' % (len(runs), ' '.join(map(str, runs))))


def sheet(elements, em=10, measure=50):
    rows = ['set 2', str(em), str(measure)]
    for name, which in (('base', 0), ('ruby', 1)):
        section = [row for element in elements for row in element[which]]
        rows += ['%s %d' % (name, len(section))] + section
    rows += ['elem %d' % len(elements)] + [element[2] for element in elements]
    return ''.join(row + '\n' for row in rows).encode('ascii')


def with_left(element, letter, *counts):
    """The element with a left reading of so many fives."""
    base, ruby, line = element
    return base, ruby, ' '.join(map(str, (line, letter, *counts))), [
        '15 5'] * sum(counts)


def two(elements, em=10, measure=50, ratios='1 2 1 1 2 1', profile=0):
    """A sheet of form two."""
    rows = ['set 9', str(em), str(measure), *ratios.split(' '), str(profile)]
    elements = [element if len(element) == 4 else (
        *element[:2], element[2] if element[2] == 'P' else element[2] + ' N',
        []) for element in elements]
    for name, which in (('base', 0), ('ruby', 1), ('left', 3)):
        section = [row for element in elements for row in element[which]]
        rows += ['%s %d' % (name, len(section))] + section
    rows += ['elem %d' % len(elements)] + [element[2] for element in elements]
    return ''.join(row + '\n' for row in rows).encode('ascii')


class Case(unittest.TestCase):

    def setUp(self):
        folder = tempfile.TemporaryDirectory()
        self.addCleanup(folder.cleanup)
        self.folder = folder.name

    def file(self, name, content):
        path = os.path.join(self.folder, name)
        with open(path, 'wb') as file:
            file.write(content)
        return path

    def told(self, status, text, old, new):
        """What is told of two sheets."""
        self.assertEqual(
            compare.told(self.file('old.sheet', old),
                         self.file('new.sheet', new), SETTING),
            (status, text))


# m(1): block o..o+20, ruby o+5..o+15.
# m(3): block o+5..o+25, ruby o..o+30.
# m(4): block o+10..o+30, ruby o..o+40.

class Exchanged(Case):

    def test_k12(self):
        # Before: ruby 0..30, block 5..25, space 25..31, the last ruby from 30
        # and its block at 35, to 60.  Now: block 0..20, ruby from 5; space
        # 20..26; the last ruby could begin at 20, but its block, 5 behind
        # it, begins at 26 where the space ends: ruby 21..51.
        self.told(1, 'element 0 exchanged: M 3, now M 1\n'
                  'line 1: elements 0 and 1 moved by -5, 2 by -9; '
                  'ruby of element 0 moved by 5; extent 60, now 51\n',
                  sheet([m(3), p(14, 3), m(3)]),
                  sheet([m(1), p(14, 3), m(3)]))
        # The other way round.
        self.told(1, 'element 0 exchanged: M 1, now M 3\n'
                  'line 1: elements 0 and 1 moved by 5, 2 by 9; '
                  'ruby of element 0 moved by -5; extent 51, now 60\n',
                  sheet([m(1), p(14, 3), m(3)]),
                  sheet([m(3), p(14, 3), m(3)]))

    def test_second_of_three_lines(self):
        # Lines end after elements 4, 8 and 10 alone; 100 hu.  Line 2: P
        # 0..20, ruby 20..50 over 25..45, P 50 and 70, to 90.  Now: block
        # 20..40, ruby from 25, P 40 and 60, to 80; line 3 takes 40 more.
        def page(word):
            return sheet([p(flag=0)] * 4 + [p()] + [p(flag=0), word]
                         + [p(flag=0), p()] + [p(flag=0), p()])
        self.told(1, 'element 6 exchanged: M 3, now M 1\n'
                  'line 1: as it was\n'
                  'line 2: element 6 moved by -5, 7 and 8 by -10; '
                  'ruby of element 6 moved by 5; extent 90, now 80\n'
                  'line 3: as it was\n',
                  page(m(3, flag=0)), page(m(1, flag=0)))

    def test_ruby_that_stays(self):
        # P 0..20, then ruby from 20 both times: over 25..45 to 50, and with
        # two characters over 20..40 to 40; so P goes from 50 to 40.
        self.told(1, 'element 1 exchanged: M 3, now M 2\n'
                  'line 1: element 1 moved by -5, 2 by -10; '
                  'ruby of element 1 stayed; extent 70, now 60\n',
                  sheet([p(), m(3), p()]), sheet([p(), m(2), p()]))

    def test_ruby_put_on_and_taken_off(self):
        self.told(1, 'element 1 exchanged: P, now M 1\n'
                  'line 1: element 1 has ruby now\n',
                  sheet([p(), p(), p()]), sheet([p(), m(1), p()]))
        self.told(1, 'element 1 exchanged: M 1, now P\n'
                  'line 1: element 1 has no ruby now\n',
                  sheet([p(), m(1), p()]), sheet([p(), p(), p()]))

    def test_within_itself(self):
        # Both rubies are 10 wide over 10: at 0 and 10, and at 0 and 8.
        self.told(1, 'element 0 exchanged: M 2 with other characters\n'
                  'line 1: element 0 is set otherwise within itself\n',
                  sheet([m([5, 5]), p()]), sheet([m([4, 6]), p()]))
        # A G of two with R 20 and of three with R 30: ruby solid from 0.
        self.told(1, 'element 0 exchanged: G 2 4, now G 3 6\n'
                  'line 1: element 1 moved by 20; element 0 is set otherwise '
                  'within itself; extent 60, now 80\n',
                  sheet([g(2, 4), p()]), sheet([g(3, 6), p()]))

    def test_wider_at_the_end(self):
        self.told(1, 'element 1 exchanged: P with other characters\n'
                  'line 1: extent 40, now 50\n',
                  sheet([p(), p()]), sheet([p(), p(width=15)]))

    def test_nothing_moved(self):
        self.told(0, 'line 1: as it was\n', sheet([m(3), p()]),
                  sheet([m(3), p()]))
        self.told(0, 'element 1 exchanged: P with other characters\n'
                  'line 1: as it was\n',
                  sheet([m(3), p(15)]), sheet([m(3), p(16)]))
        self.told(0, 'measure 50, now 60\nlines 1 and 2: as they were\n',
                  sheet([p(width=45), p(width=45)]),
                  sheet([p(width=45), p(width=45)], measure=60))

    def test_several_elements(self):
        # P 0..20, ruby 20..50, ruby 50..80, P 80.  Now P 20, P 40, P 60.
        self.told(1, 'elements 1 and 2 exchanged\n'
                  'line 1: element 1 moved by -5, 2 by -15, 3 by -20; '
                  'element 1 has no ruby now; element 2 has no ruby now; '
                  'extent 100, now 80\n',
                  sheet([p(), m(3), m(3), p()]), sheet([p()] * 4))
        # Apart: 0, and 2 to 4.
        self.told(0, 'element 0 exchanged: P with other characters\n'
                  'elements 2 to 4 exchanged\n'
                  'line 1: as it was\n', sheet([p(15)] * 5),
                  sheet([p(16), p(15)] + [p(16)] * 3))

    def test_em(self):
        # K3: B 50, R 10, D 40, n 2: g is 20, held at 10 by em 10 and at 12
        # by em 12; the second stands at 80 and at 12 + 10 + 56 = 78.
        self.told(1, 'em 10, now 12\nline 1: ruby of element 0 moved by 2\n',
                  sheet([g(5, 2)]), sheet([g(5, 2)], em=12))

    def test_no_elements(self):
        self.told(0, 'no lines, before and now\n', sheet([]), sheet([]))


class Breaks(Case):

    def test_fewer_lines(self):
        # 80 hu.  Ruby to 30, P at 30 and 50, to 70; the last P in line 2.
        # Now P at 20, 40 and 60, all in line 1.
        self.told(1, 'element 0 exchanged: M 3, now M 1\n'
                  'lines 2, now 1\n'
                  'line 1: its breaks changed; it now has elements 0 to 3\n',
                  sheet([m(3), p(), p(), p()], measure=40),
                  sheet([m(1), p(), p(), p()], measure=40))

    def test_more_lines(self):
        self.told(1, 'element 0 exchanged: M 1, now M 3\n'
                  'lines 1, now 2\n'
                  'line 1: its breaks changed; it now has elements 0 to 2\n'
                  'line 2: its breaks changed; it now has element 3\n',
                  sheet([m(1), p(), p(), p()], measure=40),
                  sheet([m(3), p(), p(), p()], measure=40))

    def test_a_jukugo_cut_as_before(self):
        # The worked example, 70 hu: block 5..25, P 30, the J's first at 50,
        # its last in line 2.  Now: block 0..20, P 20, the J's first at 40;
        # its last would end at 80.
        self.told(1, 'element 0 exchanged: M 3, now M 1\n'
                  'line 1: element 0 moved by -5, 1 and 2 by -10; '
                  'ruby of element 0 moved by 5; extent 70, now 60\n'
                  'line 2: as it was\n',
                  sheet([m(3), p(), j(1, 2)], measure=35),
                  sheet([m(1), p(), j(1, 2)], measure=35))

    def test_a_jukugo_cut_elsewhere(self):
        # With a reading of 40 hu the P is at 40 and the J's first would end
        # at 80: the J stands in line 2.
        one = sheet([m(3), p(), j(1, 2)], measure=35)
        other = sheet([m(4), p(), j(1, 2)], measure=35)
        self.told(1, 'element 0 exchanged: M 3, now M 4\n'
                  'line 1: its breaks changed; it now has elements 0 and 1\n'
                  'line 2: its breaks changed; it now has element 2\n',
                  one, other)
        self.told(1, 'element 0 exchanged: M 4, now M 3\n'
                  'line 1: its breaks changed; it now has elements 0 and 1, '
                  'the first character of element 2\n'
                  'line 2: its breaks changed; it now has the last character '
                  'of element 2\n', other, one)

    def test_parts_of_a_jukugo(self):
        # 40 hu, one P and a J of five: P and 1, 2, 2.  With a P of 20 units
        # before it: P, 2, 2, 1.
        self.told(1, 'element 0 exchanged: P with other characters\n'
                  'lines 3, now 4\n'
                  'line 1: its breaks changed; it now has element 0\n'
                  'line 2: its breaks changed; it now has the first 2 '
                  'characters of element 1\n'
                  'line 3: its breaks changed; it now has the next 2 '
                  'characters of element 1\n'
                  'line 4: its breaks changed; it now has the last character '
                  'of element 1\n',
                  sheet([p(), j(1, 1, 1, 1, 1)], measure=20),
                  sheet([p(width=20), j(1, 1, 1, 1, 1)], measure=20))

    def test_an_exchanged_jukugo_cut_at_the_same_place(self):
        # 40 hu: P and 1, then 2; now P and 1, then 1.
        self.told(1, 'element 1 exchanged: J 3 1 1 1, now J 2 1 1\n'
                  'line 1: as it was\n'
                  'line 2: element 1 is set otherwise within itself; '
                  'extent 40, now 20\n',
                  sheet([p(), j(1, 1, 1)], measure=20),
                  sheet([p(), j(1, 1)], measure=20))

    def test_lines_that_are_counted_otherwise(self):
        # 50 hu.  Two P in line 1, ruby 0..30 over 5..25 and P 30..50 in line
        # 2.  Now the second P is 40 hu and has line 2 for itself; in line 3
        # block 0..20, ruby from 5, P 20..40.
        self.told(1, 'elements 1 and 2 exchanged\n'
                  'lines 2, now 3\n'
                  'line 1: its breaks changed; it now has element 0\n'
                  'line 2: its breaks changed; it now has element 1\n'
                  'line 3 (line 2 before): element 2 moved by -5, 3 by -10; '
                  'ruby of element 2 moved by 5; extent 50, now 40\n',
                  sheet([p(), p(), m(3, flag=0), p()], measure=25),
                  sheet([p(), p(width=20), m(1, flag=0), p()], measure=25))


class CountsThatDiffer(Case):

    def test_put_in(self):
        # P at 0, 20, 40.  Now ruby 20..50 behind the first: P at 50, 70.
        self.told(1, 'element 1 put in; element 2 was 1, and so on\n'
                  'line 1: elements 2 and 3 moved by 30; '
                  'extent 60, now 90\n',
                  sheet([p(), p(), p()]), sheet([p(), m(3), p(), p()]))

    def test_taken_out(self):
        self.told(1, 'element 1 taken out; element 1 was 2, and so on\n'
                  'line 1: elements 1 and 2 moved by -30; '
                  'extent 90, now 60\n',
                  sheet([p(), m(3), p(), p()]), sheet([p(), p(), p()]))
        self.told(1, 'elements 1 to 3 taken out\n'
                  'line 1: extent 80, now 20\n',
                  sheet([p(), p(15), p(15), p(15)]), sheet([p()]))

    def test_one_for_two(self):
        # P 0..20, ruby 20..50, P 50.  Now blocks 20..40 and 40..60, P 60.
        self.told(1, 'element 1 exchanged for 1 and 2; element 3 was 2\n'
                  'line 1: element 3 moved by 10; extent 70, now 80\n',
                  sheet([p(15), m(3), p(16)]),
                  sheet([p(15), m(1), m(1), p(16)]))

    def test_nothing_else_moved(self):
        # A space of 2 hu goes under the end of the ruby, 28..30.
        self.told(1, 'element 1 put in\nline 1: nothing else moved\n',
                  sheet([m(3)]), sheet([m(3), p(14, 1)]))

    def test_a_line_more(self):
        # A line for each P.
        self.told(1, 'element 1 put in; element 2 was 1, and so on\n'
                  'lines 3, now 4\n'
                  'line 1: as it was\n'
                  'line 2: its breaks changed; it now has element 1\n'
                  'lines 3 and 4: as lines 2 and 3 were\n',
                  sheet([p(15), p(16), p(19)], measure=10),
                  sheet([p(15), p(9), p(16), p(19)], measure=10))

    def test_a_line_less(self):
        self.told(1, 'element 0 taken out; element 0 was 1, and so on\n'
                  'lines 3, now 2\n'
                  'lines 1 and 2: as lines 2 and 3 were\n',
                  sheet([p(15), p(16), p(19)], measure=10),
                  sheet([p(16), p(19)], measure=10))

    def test_all_put_in(self):
        self.told(1, 'elements 0 and 1 put in\nlines 0, now 1\n'
                  'line 1: its breaks changed; it now has elements 0 and 1\n',
                  sheet([]), sheet([p(), p()]))
        self.told(1, 'elements 0 and 1 taken out\nlines 1, now 0\n',
                  sheet([p(), p()]), sheet([]))


class LeftReadings(unittest.TestCase):
    """Lines `l` of a result.

    Two mono words, as a result has them with left readings: all three strings
    of a word are centred on the longest.
    """

    ELEMENTS = [compare.Element('M 1 M 3', ['19 10 0 0 1'], ['15 5'],
                                ['15 5'] * 3)] * 2

    def told(self, old, new):
        lines = [compare.read_lines(rows.split('; '), self.ELEMENTS)[0]
                 for rows in (old, new)]
        return compare.line_words(*lines, [0, 1])

    # Left readings of 30 hu over 20: they touch at 30, and the second base
    # stands at 35.
    BOTH = ('line 60; b 0 5; r 0 10; l 0 0; l 1 10; l 2 20; '
            'b 1 35; r 1 40; l 3 30; l 4 40; l 5 50')

    def test_as_it_was(self):
        self.assertEqual(self.told(self.BOTH, self.BOTH), '')

    def test_a_shorter_left_reading(self):
        # Two left characters on the first: it starts at its base, 0; the
        # second word follows at 20, with its left reading.
        self.assertEqual(self.told(self.BOTH, (
            'line 50; b 0 0; r 0 5; l 0 0; l 1 10; '
            'b 1 25; r 1 30; l 3 20; l 4 30; l 5 40')),
            'element 0 moved by -5, 1 by -10; left ruby of element 0 stayed; '
            'extent 60, now 50')

    def test_put_on_and_taken_off(self):
        none = 'line 40; b 0 0; r 0 5; b 1 20; r 1 25'
        self.assertEqual(self.told(none, self.BOTH), (
            'element 0 moved by 5, 1 by 15; element 0 has left ruby now; '
            'element 1 has left ruby now; extent 40, now 60'))
        self.assertEqual(self.told(self.BOTH, none), (
            'element 0 moved by -5, 1 by -15; element 0 has no left ruby now; '
            'element 1 has no left ruby now; extent 60, now 40'))

    def test_within_itself(self):
        # The second left character of the first word alone stands elsewhere.
        self.assertEqual(self.told(self.BOTH, self.BOTH.replace(
            'l 1 10', 'l 1 11')), 'element 0 is set otherwise within itself')


class Forms(Case):
    """Sheets of form two (R-6), and of both forms."""

    def test_one_page_in_both_forms(self):
        page = [m(3), p(), g(2, 7), j(1, 2)]
        for old, new in ((sheet(page), two(page)), (two(page), sheet(page)),
                         (two(page), two(page))):
            self.told(0, 'lines 1 to 3: as they were\n', old, new)

    def test_a_gloss_put_on_and_taken_off(self):
        # Before: ruby 0..30, block 5..25, P 30..50.  Now the gloss, 40, is
        # the longest: block 10..30, ruby 5..35, P at 40.
        glossed = [with_left(m(3), 'M', 4), p()]
        self.told(1, 'element 0 exchanged: M 3, now M 3 M 4\n'
                  'line 1: element 0 moved by 5, 1 by 10; element 0 has left '
                  'ruby now; extent 50, now 60\n',
                  sheet([m(3), p()]), two(glossed))
        self.told(1, 'element 0 exchanged: M 3 M 4, now M 3\n'
                  'line 1: element 0 moved by -5, 1 by -10; element 0 has no '
                  'left ruby now; extent 60, now 50\n',
                  two(glossed), two([m(3), p()]))

    def test_the_characters_of_a_gloss(self):
        # Gloss of 40, then of 36 with one letter narrower: the block at 8.
        old = two([with_left(m(1), 'M', 4), p()])
        self.told(1, 'element 0 exchanged: M 1 M 4 with other characters\n'
                  'line 1: element 0 moved by -2, 1 by -4; left ruby of '
                  'element 0 stayed; extent 60, now 56\n',
                  old, old.replace(b'left 4\n15 5\n', b'left 4\n15 3\n'))
        # The same of another element.
        words = [with_left(m(1), 'M', 1), with_left(m(1), 'M', 2)]
        self.told(0, 'element 1 exchanged: M 1 M 2 with other characters\n'
                  'line 1: as it was\n', two(words), two(words).replace(
                      b'15 5\nelem', b'16 5\nelem'))

    def test_every_left_kind(self):
        # How many characters each takes: the P behind it is the same one.
        for word, letter, counts in ((m(1), 'M', [1]), (g(2, 2), 'G', [3]),
                                     (j(1, 1), 'M', [1, 2]),
                                     (j(1, 1), 'J', [2, 1]),
                                     (j(1, 1), 'G', [4])):
            page = [with_left(word, letter, *counts), m(1),
                    with_left(m(1), 'M', 1), p()]
            other = page[:2] + [with_left(m(1), 'M', 2)] + page[3:]
            # Two left characters over one base: 20 over 20, nothing moves.
            self.told(1, 'element 2 exchanged: M 1 M 1, now M 1 M 2\n'
                      'line 1: left ruby of element 2 moved by -5\n',
                      two(page, measure=200), two(other, measure=200))

    def test_ratios_and_profile(self):
        # K4: base at 7 and 43; shoulder-set at 0 and 20.
        self.told(1, 'base ratio 1:2:1, now 0:0:1\n'
                  'line 1: element 0 moved by -7; ruby of element 0 stayed\n',
                  sheet([g(2, 7)]), two([g(2, 7)], ratios='1 2 1 0 0 1'))
        # K2: ruby at 10 and 40; shoulder-set at 0 and 10.
        self.told(1, 'ruby ratio 0:0:1, now 1:2:1\n'
                  'line 1: ruby of element 0 moved by 10\n',
                  two([g(3, 2)], ratios='0 0 1 1 2 1'), two([g(3, 2)]))
        # A reading to 30 over a base to 25; the kana at 30, with profile 1
        # at 25.
        page = [m(3), p(15)]
        self.told(1, 'profile 0, now 1\n'
                  'line 1: element 1 moved by -5; extent 50, now 45\n',
                  sheet(page), two(page, profile=1))
        # 2:4:2 shares out as 1:2:1 does.
        self.told(0, 'ruby ratio 1:2:1, now 2:4:2\nline 1: as it was\n',
                  sheet([g(3, 2)]), two([g(3, 2)], ratios='2 4 2 1 2 1'))

    def test_refused(self):
        # A G takes no mono left reading (16).
        self.told(2, 'the new sheet, %s, is refused: number 16, place 1\n'
                  % os.path.join(self.folder, 'new.sheet'), sheet([p()]),
                  two([p(), with_left(g(2, 2), 'M', 1, 1)]))


class RefusedSheets(Case):

    def test_each_and_both(self):
        # Em 11 is 1 0.  A word of 30 hu in 20 hu, behind a P: 11 1.
        good = sheet([p(), m(3)])
        odd = sheet([p(), m(3)], em=11)
        long = sheet([p(), m(3)], measure=10)
        old = 'the old sheet, %s/old.sheet, is refused: ' % self.folder
        new = 'the new sheet, %s/new.sheet, is refused: ' % self.folder
        self.told(2, old + 'number 1, place 0\n', odd, good)
        self.told(2, new + 'number 11, place 1\n', good, long)
        self.told(2, old + 'number 11, place 1\n'
                  + new + 'number 1, place 0\n', long, odd)

    def test_texts_that_are_no_sheets(self):
        good = sheet([p(), m(3)])
        new = 'the new sheet, %s/new.sheet, is refused: ' % self.folder
        self.told(2, new + 'number 13, place 1\n', good, b'')
        self.told(2, new + 'number 13, place 2\n', good, b'set 2\n\xff\n')
        # 65,535 bytes may be a sheet, more may not.
        self.told(2, new + 'number 13, place 1\n', good, b'x' * 65535)
        self.told(2, new + 'number 13, place 0\n', good, b'x' * 65536)
        self.told(2, new + 'number 13, place 0\n', good, b'x' * 100000)


class Examples(unittest.TestCase):

    def test_each_is_told(self):
        folder = os.path.join(EXAMPLES, 'compare')
        names = [name[:-len('.told')] for name in os.listdir(folder)
                 if name.endswith('.told')]
        self.assertEqual(sorted(names), ['k12', 'primer'])
        for name in names:
            with open(os.path.join(folder, name + '.told')) as file:
                expected = file.read()
            self.assertEqual(
                compare.told(os.path.join(EXAMPLES, name + '.sheet'),
                             os.path.join(folder, name + '.sheet'), SETTING),
                (1, expected))


# ---------------------------------------------------------------------------
# Generated pages with one element exchanged
# ---------------------------------------------------------------------------

def taken_apart(content):
    """The elements of a sheet in the form above, with its em and measure."""
    sections = compare.read_sections(
        content.decode('ascii').split('\n')[:-1])
    elements = [(element.base, element.ruby, element.line)
                + ((element.left,) if element.left else ())
                for element in compare.read_elements(sections)]
    return elements, sections['set']


def page_of(content):
    """The page of a sheet by the second program; None if it is refused."""
    page = compare.read_page(content, second.answer(content))
    return None if isinstance(page, compare.Refused) else page


def exchanges(seed, count, form_two):
    """(old sheet, new sheet, element exchanged), from sound sheets."""
    rng = random.Random(seed)
    for _ in range(count):
        content = (generate_two.dense if form_two else rng.choice(
            (generate.dense, generate.dense, generate.sound,
             generate.later)))(rng)
        elements, numbers = taken_apart(content)
        for _ in range(3):
            number = rng.randrange(len(elements))
            other = list(elements)
            other[number] = rng.choice(elements + [m(1), m(4), g(2, 7),
                                                   p(14, 3), p()])
            yield (content, two(other, *numbers[:2], ' '.join(numbers[2:8]),
                                numbers[8]) if form_two
                   else sheet(other, *numbers), number)


class Generated(unittest.TestCase):

    FORM_TWO = False
    DIFFERING = 6

    @classmethod
    def setUpClass(cls):
        cls.pairs = []
        for old, new, number in exchanges(71, 250, cls.FORM_TWO):
            pages = page_of(old), page_of(new)
            if None not in pages:
                cls.pairs.append((old, new, number) + pages)

    def test_what_one_correction_disturbs(self):
        # R-9: "every element before it stays where it was, and all elements
        # from the second after it onward move by one and the same amount".
        later = differing = 0
        for _, _, number, old, new in self.pairs:
            match = compare.matched(old.elements, new.elements)
            for at, pair in enumerate(compare.paired_lines(old, new, match)):
                if pair is None:
                    continue
                by = {piece.element: compare.amount(before, piece)
                      for before, piece in compare.pairs_of(
                          old.lines[pair], new.lines[at], match)}
                if number not in by:
                    self.assertEqual(set(by.values()), {0})
                    continue
                before = {by[e] for e in by if e < number}
                after = {by[e] for e in by if e > number + 1}
                self.assertLessEqual(before, {0})
                self.assertLessEqual(len(after), 1)
                later += len(after)
                differing += len(after - {by.get(number + 1)})
        self.assertGreater(later, 100)
        # In some the first after it moved by another amount.
        self.assertGreaterEqual(differing, self.DIFFERING)

    def test_the_status_is_that_of_the_results(self):
        seen = {True: 0, False: 0}
        for old, new, _, old_page, new_page in self.pairs:
            moved, rows = compare.compared(old_page, new_page)
            self.assertEqual(moved, second.answer(old) != second.answer(new))
            seen[moved] += 1
        self.assertGreater(seen[True], 100)
        self.assertGreater(seen[False], 20)

    def test_each_line_is_told(self):
        # Every line of the new page is told once.  One that is as it was has
        # the text of its old line, but for the numbers of the characters;
        # one in which something moved has not.
        seen = {True: 0, False: 0}
        for old, new, _, old_page, new_page in self.pairs:
            _, rows = compare.compared(old_page, new_page)
            before, now = line_texts(old), line_texts(new)
            told = [line for row in rows for line in lines_told(row)]
            self.assertEqual([line[0] for line in told],
                             list(range(1, len(now) + 1)))
            for number, pair, same in told:
                if pair is not None:
                    self.assertEqual(now[number - 1] == before[pair - 1],
                                     same)
                    seen[same] += 1
        self.assertGreater(seen[True], 100)
        self.assertGreater(seen[False], 100)


class GeneratedTwo(Generated):
    """The same with pages of form two, most of them with left readings."""

    FORM_TWO = True
    DIFFERING = 2


def lines_told(row):
    """(line, old line or None if the breaks changed, whether as it was)."""
    head, _, words = row.partition(': ')
    if head.split()[0] not in ('line', 'lines') or not words:
        return
    numbers = numbers_in(head.partition(' (')[0])
    old = numbers_in(head.partition(' (')[2]) or numbers
    same = words.startswith('as ')
    if same:
        old = numbers_in(words) or numbers
    for number in range(numbers[0], numbers[-1] + 1):
        yield (number, None if words.startswith('its breaks')
               else old[0] + number - numbers[0], same)


def numbers_in(words):
    return [int(word) for word in words.replace(')', '').split()
            if word.isdigit()]


def line_texts(content):
    """The lines of a result without the numbers of their characters."""
    lines = []
    for row in second.answer(content).decode('ascii').split('\n')[1:-1]:
        fields = row.split(' ')
        if fields[0] == 'line':
            lines.append([])
        lines[-1].append((fields[0], fields[-1]))
    return lines


# ---------------------------------------------------------------------------
# The command
# ---------------------------------------------------------------------------

class Command(Case):
    """bin/compare in a folder of its own, with a bin/setting of its own."""

    def setUp(self):
        super().setUp()
        for name in ('bin', 'compare'):
            os.mkdir(os.path.join(self.folder, name))
        for name in ('bin/compare', 'compare/compare.py'):
            shutil.copy(os.path.join(ROOT, name),
                        os.path.join(self.folder, name))
        self.setting('exec %s' % ' '.join(map(shlex.quote, SECOND)))
        self.old = self.file('old.sheet', sheet([m(3), p()]))
        self.new = self.file('new.sheet', sheet([m(1), p()]))

    def setting(self, script):
        path = self.file('bin/setting', b'#!/bin/sh\n' + script.encode())
        os.chmod(path, stat.S_IRWXU)

    def ran(self, *arguments, **changes):
        """(status, standard output, standard error)"""
        done = subprocess.run(
            [os.path.join(self.folder, 'bin', 'compare'), *arguments],
            cwd='/', stdin=subprocess.DEVNULL,
            **{'stdout': subprocess.PIPE, 'stderr': subprocess.PIPE,
               **changes})
        return (done.returncode, (done.stdout or b'').decode(),
                (done.stderr or b'').decode())

    def trouble(self, words, *arguments, **changes):
        """One line on standard error, and nothing else."""
        self.assertEqual(self.ran(*arguments, **changes),
                         (2, '', 'compare: %s\n' % words))

    def test_compared(self):
        # Ruby to 30 and P at 30; now P at 20.
        text = ('element 0 exchanged: M 3, now M 1\n'
                'line 1: element 0 moved by -5, 1 by -10; ruby of element 0 '
                'moved by 5; extent 50, now 40\n')
        self.assertEqual(self.ran(self.old, self.new), (1, text, ''))
        self.assertEqual(self.ran('--', self.old, self.new), (1, text, ''))
        self.assertEqual(self.ran(self.old, self.old),
                         (0, 'line 1: as it was\n', ''))

    def test_refused(self):
        odd = self.file('odd\n.sheet', sheet([p()], em=11))
        self.assertEqual(
            self.ran(self.old, odd),
            (2, 'the new sheet, %s/odd?.sheet, is refused: number 1, place '
             '0\n' % self.folder, ''))
        # A setting program that ends with 1 where it refuses.
        self.setting('cat >/dev/null; echo refused 11 3; exit 1')
        self.assertEqual(
            self.ran(self.old, self.new),
            (2, 'the old sheet, %s, is refused: number 11, place 3\n'
             'the new sheet, %s, is refused: number 11, place 3\n'
             % (self.old, self.new), ''))

    def test_help(self):
        for arguments in (['--help'], ['-h'], ['x', '--help']):
            self.assertEqual(self.ran(*arguments), (0, compare.USAGE, ''))

    def test_bad_arguments(self):
        say = '(bin/compare --help says how it is used)'
        self.trouble('two sheets are compared, and here are 0 ' + say)
        self.trouble('two sheets are compared, and here is 1 ' + say,
                     self.old)
        self.trouble('two sheets are compared, and here are 3 ' + say,
                     self.old, self.new, self.new)
        self.trouble('unknown option --quick ' + say, '--quick', self.old,
                     self.new)
        self.trouble('unknown option - ' + say, self.old, '-')

    def test_files_that_cannot_be_read(self):
        none = os.path.join(self.folder, 'none.sheet')
        self.trouble('cannot read %s: No such file or directory' % none,
                     self.old, none)
        self.trouble('cannot read %s: Is a directory' % self.folder,
                     self.folder, self.new)
        self.trouble("cannot read '': No such file or directory",
                     '', self.new)

    def test_setting_that_fails(self):
        program = os.path.join(self.folder, 'bin', 'setting')
        self.setting('exit 2')
        self.trouble('%s could not be set (%s ended with status 2)'
                     % (self.old, program), self.old, self.new)
        for script in ('cat', 'echo lines 1', 'printf "lines 0"', 'echo',
                       'printf "lines 1\\nline 20\\nb 7 0\\n"', ':',
                       'printf "lines 1\\nb 0 0\\n"', 'echo refused 11',
                       'printf "lines 1\\nline 20\\nb 0 0\\nq 0 0\\n"',
                       'printf "refused 1 0\\nrefused 1 0\\n"'):
            self.setting(script)
            self.trouble('%s: %s gave no whole answer' % (self.old, program),
                         self.old, self.new)
        os.remove(program)
        self.trouble('cannot run %s: No such file or directory' % program,
                     self.old, self.new)

    def test_output_that_cannot_be_written(self):
        with open('/dev/full', 'wb') as full:
            self.trouble('the answer cannot be written to standard output: '
                         'No space left on device', self.old, self.new,
                         stdout=full)
            # Nor can the trouble be told; the status is the same.
            self.assertEqual(self.ran('--quick', stderr=full)[0], 2)
        done = subprocess.run(
            ['/bin/sh', '-c', '"$0" "$1" "$2" >&-',
             os.path.join(self.folder, 'bin', 'compare'), self.old, self.new],
            stderr=subprocess.PIPE)
        self.assertEqual((done.returncode, done.stderr),
                         (2, b'compare: standard output is closed\n'))

    def test_python_is_not_there(self):
        # A path with readlink and dirname, and no python3.
        tools = os.path.join(self.folder, 'tools')
        os.mkdir(tools)
        for name in ('readlink', 'dirname'):
            os.symlink(shutil.which(name), os.path.join(tools, name))
        self.trouble('Python 3 is not on this machine: no command python3 on '
                     'the path', self.old, self.new, env={'PATH': tools})


if __name__ == '__main__':
    unittest.main()
