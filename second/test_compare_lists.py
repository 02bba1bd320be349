"""Tests of the calls on jobs in lists and of their comparison.

    python3 second/test_compare_lists.py
"""

import collections
import io
import os
import random
import struct
import subprocess
import sys
import unittest

HERE = os.path.dirname(os.path.abspath(__file__))
sys.path.insert(0, HERE)

import account          # noqa: E402  (found through the path set above)
import compare_lists    # noqa: E402
import generate_lists   # noqa: E402
import lists            # noqa: E402
import second           # noqa: E402
from compare_lists import Seen, compare_all, wrong_things  # noqa: E402
from lists import ACCOUNT, SET, Call  # noqa: E402
from test_second import g, as_lists, quiet  # noqa: E402

OWN = [sys.executable, '-B', os.path.join(HERE, 'lists.py')]

# g(2, 7) of test_second.py: B 20, R 35, 2D 30.  By 1:0:2 the base is at
# floor(30/3) = 10 and 30; the ruby is solid from 0.  It has a left G of two
# characters, 5 wide: 10 over 35, 2D 50.  By the ruby ratio 1:2:1 the ends are
# 12, held at 10: 10 and 50.  The words around the lists are 91, 92, ...
LEFT = second.Left([16, 16], [5, 5], [second.G], [2], [])
GROUP = lists.with_left(list(as_lists([g(2, 7)]).values()), LEFT)
RATIOS = [[1, 2, 1], [1, 0, 2]]
AROUND = list(range(91, 91 + 23))


def call_of(which, results):
    return Call(which, 10, 4000, RATIOS, 1, GROUP, results, AROUND)


def words_of(call, results):
    """The memory, written down once more."""
    words = [91, 1, 2, 1, 92, 1, 0, 2]
    words += [93, 19, 19, 94, 10, 10, 95, 0, 0, 96, 0, 0, 97, 1, 1]
    words += [98] + [15] * 7 + [99] + [5] * 7 + [100, 16, 16, 101, 5, 5]
    words += [102, 71, 103, 2, 104, 7, 105, 71, 106, 2, 107, 108]
    for before, values in zip((109, 110, 111, 112), results):
        words += [before] + values
    return words + [113]


class Bytes(unittest.TestCase):

    def test_a_call(self):
        # Function 0, em, measure, profile; two base characters in five lists,
        # seven ruby characters in two, two left ones in two, one element in
        # five, no runs and no left runs; room for 2, 8, 3 and 3 entries.
        results = [[1, 2], [3] * 8, [6] * 3, [4, 5, 6]]
        call = call_of(SET, results)
        head = [0, 10, 4000, 1, 2, 2, 2, 2, 2, 7, 7, 2, 2, 1, 1, 1, 1, 1, 0, 0,
                2, 8, 3, 3]
        words = head + words_of(call, results)
        self.assertEqual(call.to_bytes(),
                         struct.pack('<%dI' % len(words), *words))
        self.assertEqual(lists.memory_size(call.lengths()),
                         len(words) - len(head))

    def test_its_answer(self):
        # One line; positions as above; the last entries as they were.
        results = [[1, 2], [3] * 8, [6] * 3, [4, 5, 6]]
        call = call_of(SET, results)
        self.assertEqual(call.answered(), (('set', 1), words_of(call, [
            [10, 30], [0, 10, 20, 30, 40, 50, 60, 3], [10, 50, 6],
            [2, 5, 6]])))
        # The call itself is not altered.
        self.assertEqual(call.results, [[1, 2], [3] * 8, [6] * 3, [4, 5, 6]])
        call = call_of(SET, [[1, 2], [3] * 8, [6], [4, 5, 6]])
        self.assertEqual(call.answered(), (('refused', 12, 0),
                                           call.memory(call.results)))

    def test_its_account(self):
        # Element 0, its block at 10, 10 hu behind the start, held by its
        # ruby at the start (6); one row, 70 hu.  The account has no left
        # positions, and its fourth list is empty.
        call = call_of(ACCOUNT, [[8] * 13, [9, 9], [7, 7], []])
        self.assertEqual(call.answered(), (('set', 1), words_of(call, [
            [0, 10, 10, 6, 0, 0] + [8] * 7, [1, 9], [70, 7], []])))
        call = call_of(ACCOUNT, [[8] * 11, [9, 9], [7, 7], []])
        self.assertEqual(call.answered(), (('refused', 12, 0),
                                           call.memory(call.results)))

    def test_there_and_back(self):
        calls = [call for left in (False, True)
                 for both in generate_lists.calls(3, 60, left)
                 for call in both]
        stream = io.BytesIO(b''.join(call.to_bytes() for call in calls))
        for call in calls:
            found = lists.read_call(stream)
            self.assertEqual(found.to_bytes(), call.to_bytes())
            answer, memory = call.answered()
            content = lists.answer_bytes(answer, memory)
            self.assertEqual(lists.answer_of(lists.unpacked(content)),
                             (answer, memory))
        self.assertIsNone(lists.read_call(stream))

    def test_cut_short(self):
        content = call_of(SET, [[1], [2], [3], [4]]).to_bytes()
        for end in (1, 95, 96, 97, len(content) - 1):
            with self.assertRaises(ValueError):
                lists.read_call(io.BytesIO(content[:end]))

    def test_the_program(self):
        calls = [call_of(SET, [[1], [2], [3], [4]]),
                 call_of(SET, [[1, 2], [3] * 7, [6] * 2, [4, 5]])]
        done = subprocess.run(
            OWN, input=b''.join(call.to_bytes() for call in calls),
            stdout=subprocess.PIPE, check=True)
        words = [12, 0] + words_of(calls[0], calls[0].results)
        words += [0, 1] + words_of(calls[1], [
            [10, 30], [0, 10, 20, 30, 40, 50, 60], [10, 50], [2, 5]])
        self.assertEqual(lists.unpacked(done.stdout), words)


def kana_edges(call):
    """Edges of R-8 that an accepted job of profile 1 shows."""
    arguments = (call.em, call.measure, call.ratios, 1,
                 *lists.job_lists(call.given))
    job = account.sound_job(arguments)
    for number, line in enumerate(account.drawn_lines_of(arguments)):
        classes = [job.base_class[job.elements[drawn.element].base_first]
                   for drawn in line]
        for place, (one, two) in enumerate(zip(line, line[1:])):
            over = two.ruby and one.block[1] - two.ruby[0]
            under = one.ruby and one.ruby[1] - two.block[0]
            first, next_one = classes[place:place + 2]
            # A kana before or after a ruby that lies on it as deep as it may.
            if not one.ruby and over and 0 < over == one.depth_after:
                yield 'whole depth after class %d' % first
                if first in (15, 16):
                    yield 'depth %s half an em' % (
                        'under' if over < job.em else 'of')
                    if place == 0:
                        yield ('first in the job' if number == 0
                               else 'first in a later line')
                    elif one.depth_before and line[place - 1].depth_after:
                        yield 'behind a blank or a kana'
            if not two.ruby and under and 0 < under == two.depth_before:
                yield 'whole depth before class %d' % next_one
            # What takes none, beside a reading that would lie on it.
            if over == 0 and one.depth_after == 0 and two.ruby[0] < (
                    two.block[0]):
                yield 'none on class %d%s' % (
                    first, ' with ruby' if one.ruby else '')
        for one, two, three in zip(line, line[1:], line[2:]):
            if (one.ruby and three.ruby and two.depth_after > 0
                    and one.ruby[1] == three.ruby[0]
                    and two.block[0] < one.ruby[1] <= two.block[1]):
                yield 'two readings on one, that touch'


WANTED = ['whole depth %s class %d' % (side, cls)
          for side in ('before', 'after') for cls in (5, 14, 15, 16)] + [
    'whole depth before class 1', 'whole depth after class 2',
    'whole depth after class 7', 'depth under half an em',
    'depth of half an em', 'first in the job', 'first in a later line',
    'behind a blank or a kana', 'none on class 10', 'none on class 11',
    'none on class 14', 'none on class 15 with ruby',
    'none on class 16 with ruby', 'two readings on one, that touch']


class Generated(unittest.TestCase):
    """Jobs without left readings; test_left.py has those with them."""

    @classmethod
    def setUpClass(cls):
        cls.calls = list(generate_lists.calls(1, 1000, False))
        cls.expected = [call.answered() for call, _ in cls.calls]

    def test_repeats_itself(self):
        def content(seed, count):
            return [call.to_bytes()
                    for both in generate_lists.calls(seed, count)
                    for call in both]
        self.assertEqual(content(11, 30), content(11, 60)[:60])
        self.assertNotEqual(content(11, 10), content(12, 10))

    def test_every_answer(self):
        seen = Seen(False)
        for (call, _), (answer, _) in zip(self.calls, self.expected):
            seen.add(call, answer)
        self.assertEqual(set(seen.answers),
                         {0, *compare_lists.REFUSALS_WITHOUT_LEFT})
        self.assertGreater(seen.answers[0], 300)
        self.assertEqual(seen.lefts, {})

    def test_every_place_of_the_door(self):
        places = {answer[1:] for answer, _ in self.expected
                  if answer[0] == 'refused'
                  and answer[1] in (1, 15, 20, 2, 12)}
        self.assertEqual(places, {(1, 0), (1, 1), (15, 0), (15, 1), (20, 0),
                                  (2, 0), (2, 1), (2, 2), (12, 0)})

    def test_every_ratio_in_turn(self):
        # 729 with numbers from 0 to 8; 511 are sound: 8 * 8 * 8 less 0:0:0.
        self.assertEqual((len(generate_lists.ALL), len(generate_lists.SOUND),
                          len(generate_lists.BAD)), (729, 511, 218))
        side = generate_lists.Ratios(random.Random(1))
        for name, ratios in (('sound', generate_lists.SOUND),
                             ('bad', generate_lists.BAD)):
            for _ in range(2):
                self.assertEqual(sorted(side.in_turn(name, ratios)
                                        for _ in ratios), sorted(ratios))
        for _ in range(300):
            self.assertIn(side.sound(), generate_lists.SOUND)
            ratio = side.bad()
            self.assertTrue(max(ratio) > 7 or not any(ratio), ratio)

    def test_ratios(self):
        # Most accepted jobs have a ratio that is not 1:2:1.
        other = [call.ratios for (call, _), (answer, _)
                 in zip(self.calls, self.expected) if answer[0] == 'set'
                 and list(map(tuple, call.ratios)) != [(1, 2, 1), (1, 2, 1)]]
        self.assertGreater(len(other), 300)

    def test_profiles(self):
        # The profile decides the answer of many jobs.
        decided = 0
        for (call, _), expected in zip(self.calls, self.expected):
            if call.profile in (0, 1):
                other = Call(call.which, call.em, call.measure, call.ratios,
                             1 - call.profile, call.given, call.results,
                             call.around)
                decided += other.answered() != expected
        self.assertGreater(decided, 100)

    def test_every_edge_of_profile_1(self):
        met = collections.Counter()
        for (call, _), (answer, _) in zip(self.calls, self.expected):
            if answer[0] == 'set' and call.profile == 1:
                met.update(set(kana_edges(call)))
        self.assertEqual([edge for edge in WANTED if met[edge] == 0], [])

    def test_every_number_fits_its_bytes(self):
        for both in generate_lists.calls(7, 300):
            for call in both:
                self.assertLessEqual(max(call.em, call.measure, call.profile,
                                         *call.memory(call.results)),
                                     second.LARGEST_NUMBER)

    def test_short_and_long_lists(self):
        lengths = [len(call.given[0]) for call, _ in self.calls]
        self.assertEqual((min(lengths), max(lengths) > 1024), (0, True))
        self.assertIn(1024, [len(call.given[0]) for (call, _), (answer, _)
                             in zip(self.calls, self.expected)
                             if answer[0] == 'set'])


ENGINE = '''\
import sys
sys.path.insert(0, %r)
import lists
number = 0
while True:
    call = lists.read_call(sys.stdin.buffer)
    if call is None:
        break
    answer, memory = call.answered()
    content = lists.answer_bytes(answer, memory)
    number += 1
%s
    sys.stdout.buffer.write(content)
'''


def engine(change):
    """An engine that does this to its answers."""
    return [sys.executable, '-B', '-c', ENGINE % (HERE, change)]


class Comparison(unittest.TestCase):

    def differences(self, command, count=20, **rest):
        with quiet():
            return compare_all(command, 5, count, **rest)[1]

    def test_with_itself(self):
        seen, differences = compare_all(OWN, 5, 40)
        self.assertEqual((seen.jobs(), differences), (40, 0))
        self.assertIn('; left ', seen.words())
        seen, differences = compare_all(OWN, 5, 40, functions=1, left=False)
        self.assertEqual((seen.jobs(), differences), (40, 0))
        self.assertNotIn('; left ', seen.words())

    def test_each_word_counts(self):
        # The answer, the ratios, the lists that are read, the result lists,
        # and what stands around them, first and last.
        for change in (
                'content = lists.packed([answer[1] + 1, 0] + memory)',
                'memory[2] += 1; content = lists.answer_bytes(answer, memory)',
                'memory[0] ^= 1; content = lists.answer_bytes(answer, memory)',
                'memory[-1] ^= 1;'
                ' content = lists.answer_bytes(answer, memory)',
                'memory[9] ^= 1; content = lists.answer_bytes(answer, memory)',
                ):
            self.assertEqual(self.differences(engine('    ' + change)), 20)

    def test_lists_altered_by_a_refusal(self):
        change = ('    if answer[0] == "refused":\n'
                  '        memory[-2] ^= 1\n'
                  '        content = lists.answer_bytes(answer, memory)\n')
        refused = sum(call.answered()[0][0] == 'refused'
                      for call, _ in generate_lists.calls(5, 60))
        self.assertGreater(refused, 10)
        self.assertEqual(self.differences(engine(change), 60), refused)

    def test_the_account_alone(self):
        change = ('    if call.which == lists.ACCOUNT:\n'
                  '        content = lists.packed([99, 0] + memory)\n')
        self.assertEqual(self.differences(engine(change)), 20)
        self.assertEqual(self.differences(engine(change), functions=1), 0)

    def test_left_positions(self):
        # The last left position is off by one, where there are any.
        change = ('    if call.which == lists.SET and call.results[2]:\n'
                  '        at = -3 - len(call.results[3])\n'
                  '        memory[at] ^= 1\n'
                  '        content = lists.answer_bytes(answer, memory)\n')
        has_left = sum(len(call.results[2]) > 0
                       for call, _ in generate_lists.calls(5, 20))
        self.assertGreater(has_left, 5)
        self.assertEqual(self.differences(engine(change)), has_left)

    def test_an_engine_that_dies(self):
        # It answers three calls in each run, then ends with status 3.
        change = '    if number == 4: sys.stdout.flush(); sys.exit(3)'
        # Six jobs have twelve calls; the 4th, 8th and 12th have no answer.
        self.assertEqual(self.differences(engine(change), 6), 3)
        # All answers, and then a bad end: the last call is blamed.
        self.assertEqual(self.differences(engine(
            '    if number == 12:\n'
            '        sys.stdout.buffer.write(content)\n'
            '        sys.stdout.flush(); sys.exit(3)'), 6), 1)
        # More than the answers.
        self.assertEqual(self.differences(engine(
            '    if number == 12: content += b"x"'), 6), 1)
        # Nothing at all.
        self.assertEqual(self.differences([sys.executable, '-c', ''], 4), 4)

    def test_what_is_told(self):
        call = call_of(SET, [[1, 2], [3] * 7, [6] * 2, [4, 5]])
        answer, memory = call.answered()
        self.assertEqual(wrong_things(call, (answer, memory),
                                      (answer, memory)), [])
        self.assertEqual(wrong_things(call, (answer, memory), None),
                         ['no answer'])
        other = list(memory)
        other[-1], other[-3], other[-5], other[-9], other[9] = 5, 6, 7, 8, 9
        self.assertEqual(
            wrong_things(call, (answer, memory), (('refused', 3, 4), other)),
            ['refused 3 4, not set 1', 'class[0]: 9, not 19',
             'ruby[5]: 8, not 50', 'left[1]: 7, not 50', 'lines[0]: 6, not 2',
             'the word behind lines: 5, not 113'])

    def test_what_is_missing(self):
        seen = Seen()
        seen.answers.update({number: 100 for number
                             in compare_lists.REFUSALS})
        seen.answers[0] = 1300
        seen.ratios = set(generate_lists.ALL), set(generate_lists.ALL)
        seen.profiles.update({0: 975, 1: 325})
        seen.lefts.update(compare_lists.LEFT_KINDS)
        self.assertEqual(list(seen.missing()), [])
        del seen.answers[12], seen.answers[20]
        del seen.lefts[second.J, second.M]
        seen.answers[0] = 300
        seen.profiles.update({0: -901, 1: -99})
        seen.ratios[1].remove((0, 8, 7))
        self.assertEqual(list(seen.missing()), [
            'no job refused by 12', 'no job refused by 20',
            'no accepted job with a left M on J',
            '300 accepted of 1600 jobs',
            '74 by profile 0 of 300 accepted jobs',
            'no job with 0:8:7 for base'])

    def run_it(self, command, count):
        done = subprocess.run(
            [sys.executable, '-B', os.path.join(HERE, 'compare_lists.py'),
             '--engine', ' '.join("'%s'" % word for word in command),
             '--seed', '7', '--count', str(count)], stdout=subprocess.PIPE)
        return done.returncode, done.stdout.decode('ascii').splitlines()

    def test_as_a_program(self):
        status, rows = self.run_it(OWN, 25)
        self.assertEqual((status, len(rows)), (0, 2))
        self.assertRegex(rows[0], r'^seen: [1-9][0-9]* accepted, [1-9][0-9]* '
                         r'of them by profile 1; refused '
                         r'[0-9]+ by [0-9]+, .*; [0-9]+ ratios of ruby, '
                         r'[0-9]+ of base; left .*$')
        self.assertEqual(rows[1], 'compared 25 jobs, 0 differences')
        status, rows = self.run_it([sys.executable, '-c', ''], 25)
        self.assertEqual((status, rows[-1]),
                         (1, 'compared 25 jobs, 25 differences'))


if __name__ == '__main__':
    unittest.main()
