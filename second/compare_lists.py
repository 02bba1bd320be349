"""Compares calls on jobs in lists with the second program, list by list.

    python3 compare_lists.py --engine CMD --seed S --count N [--setting-only]
                             [--no-left]

CMD reads calls on standard input and answers them (README.md, "Jobs in
lists"), as lists.c does, linked with an engine, and lists.py.  Each of the N
jobs goes through bv_set_job and bv_account_job, with --setting-only through
the first alone.  With --no-left no job has left readings.  Compared
are the answer and every word of the memory after the call: the result lists,
which hold fresh numbers before it, in full; that a refusal alters none of
them; that the lists which are read, and what stands around all of them, are as
they were.

The last line is `compared N jobs, D differences`, and the line before says
what was seen.  The exit status is 0 only if D is 0 and, with 4,000 jobs and
more, every refusal of a job in lists, every ratio with numbers from 0 to 8 on
either side and enough accepted jobs were seen, by profile 0 and by profile 1.
"""

import argparse
import collections
import os
import shlex
import sys

HERE = os.path.dirname(os.path.abspath(__file__))
sys.path.insert(0, HERE)

import compare          # noqa: E402  (found through the path set above)
import generate_lists   # noqa: E402
import lists            # noqa: E402
import second           # noqa: E402

SHOWN = 5       # jobs with a difference that are printed
WRONG = 8       # things that are printed of one such job
ENOUGH = 4000   # jobs that have to show every refusal and every ratio

# Every number of the refusal list that a job in lists can get, and those that
# it can get without left readings.
REFUSALS = (1, 2, 3, 4, 5, 6, 7, 8, 9, 10, 11, 12, 15, 16, 20)
REFUSALS_WITHOUT_LEFT = tuple(number for number in REFUSALS if number != 16)
PROFILES = (0, 1)
NAMES = ('bv_set_job', 'bv_account_job')


# ---------------------------------------------------------------------------
# The engine
# ---------------------------------------------------------------------------

def run_engine(command, calls):
    """One run of the engine: the whole answers it wrote, and what was odd."""
    written, odd = compare.run_once(
        command, b''.join(call.to_bytes() for call in calls))
    answers, place = [], 0
    for call in calls:
        end = place + 4 * (2 + lists.memory_size(call.lengths()))
        if end > len(written):
            break
        answers.append(lists.answer_of(lists.unpacked(written[place:end])))
        place = end
    if place < len(written):
        odd = '; '.join(filter(None, ('bytes that are no answer', odd)))
    return answers, odd


def engine_answers(command, calls):
    """An answer for each call; None where the engine gave none.

    After a call without an answer the engine is started anew behind it, so
    that one bad call is one difference.
    """
    answers = []
    while len(answers) < len(calls):
        rest = calls[len(answers):]
        some, odd = run_engine(command, rest)
        answers += some
        if len(some) < len(rest):
            print('the engine gave no answer to a call: %s' % (odd or 'end'))
            answers.append(None)
        elif odd:
            # Every call has its answer, but the run did not end well.
            print('after a batch: %s' % odd)
            answers[-1] = None
    return answers


# ---------------------------------------------------------------------------
# What differs
# ---------------------------------------------------------------------------

def verdict_words(answer):
    return ' '.join(map(str, answer))


def labels(call):
    """What each word of the memory is."""
    names = ('ruby ratio', 'base ratio', *lists.GIVEN,
             *lists.RESULTS[call.which])
    for name, length in zip(names, [3, 3] + call.lengths()):
        yield 'the word before %s' % name
        for place in range(length):
            yield '%s[%d]' % (name, place)
    yield 'the word behind %s' % names[-1]


def wrong_things(call, expected, found):
    """What differs between the second program and the engine."""
    if found is None:
        return ['no answer']
    (answer, memory), (told, other) = expected, found
    wrong = []
    if told != answer:
        wrong.append('%s, not %s' % (verdict_words(told),
                                     verdict_words(answer)))
    return wrong + ['%s: %d, not %d' % words
                    for words in zip(labels(call), other, memory)
                    if words[1] != words[2]]


def show_difference(number, call, wrong):
    print('difference: job %d, %s' % (number, NAMES[call.which]))
    for words in wrong[:WRONG]:
        print('    %s' % words)
    if len(wrong) > WRONG:
        print('    and %d more' % (len(wrong) - WRONG))
    print('    em %d, measure %d, ratios %s and %s, profile %d' % (
        call.em, call.measure, *(':'.join(map(str, ratio))
                                 for ratio in call.ratios), call.profile))
    for name, values in zip(lists.GIVEN, call.given):
        print('    %s %r' % (name, values))
    print('    lengths of %s: %s' % (
        ', '.join(lists.RESULTS[call.which]),
        ', '.join(str(len(values)) for values in call.results)))


# ---------------------------------------------------------------------------
# What was seen
# ---------------------------------------------------------------------------

# Every left kind that an element takes, by the element's kind.
LEFT_KINDS = tuple((kind, left) for kind, taken in second.TAKEN.items()
                   for left in taken if left != second.N)


def left_kinds_of(call):
    """(kind, left kind) of each element of an accepted job with a left one."""
    *_, kinds, _, _, _, left = lists.job_lists(call.given)
    return [(kind, other) for kind, other in zip(kinds, left.left_kind)
            if kind != second.P and other != second.N]


class Seen:
    """Counts over the jobs and the second program's answers.

    left: the jobs have left readings.
    """

    def __init__(self, left=True):
        self.answers = collections.Counter()    # by number, 0 if accepted
        self.ratios = (set(), set())            # of ruby and of base
        self.profiles = collections.Counter()   # of accepted jobs
        self.lefts = collections.Counter()      # left kinds in accepted jobs
        # Those that have to be seen; left kinds as (kind, left kind).
        self.refusals = REFUSALS if left else REFUSALS_WITHOUT_LEFT
        self.left_kinds = LEFT_KINDS if left else ()

    def add(self, call, answer):
        self.answers[0 if answer[0] == 'set' else answer[1]] += 1
        if answer[0] == 'set':
            self.profiles[call.profile] += 1
            self.lefts.update(left_kinds_of(call))
        for side, ratio in zip(self.ratios, call.ratios):
            side.add(tuple(ratio))

    def jobs(self):
        return sum(self.answers.values())

    def words(self):
        refused = ', '.join('%d by %d' % (count, number) for number, count
                            in sorted(self.answers.items()) if number != 0)
        lefts = ''.join(', %d %s on %s' % (self.lefts[both], chr(both[1]),
                                           chr(both[0]))
                        for both in self.left_kinds)
        return ('seen: %d accepted, %d of them by profile 1; refused %s; '
                '%d ratios of ruby, %d of base%s'
                % (self.answers[0], self.profiles[1], refused or 'none',
                   *map(len, self.ratios), lefts and '; left' + lefts[1:]))

    def missing(self):
        """What some thousands of jobs should have shown and did not."""
        for number in self.refusals:
            if self.answers[number] == 0:
                yield 'no job refused by %d' % number
        for kind, left in self.left_kinds:
            if self.lefts[kind, left] == 0:
                yield ('no accepted job with a left %s on %s'
                       % (chr(left), chr(kind)))
        if self.answers[0] < self.jobs() // 4:
            yield '%d accepted of %d jobs' % (self.answers[0], self.jobs())
        for profile in PROFILES:
            if self.profiles[profile] < self.answers[0] // 4:
                yield ('%d by profile %d of %d accepted jobs'
                       % (self.profiles[profile], profile, self.answers[0]))
        for side, name in zip(self.ratios, ('ruby', 'base')):
            for ratio in generate_lists.ALL:
                if ratio not in side:
                    yield 'no job with %d:%d:%d for %s' % (*ratio, name)


# ---------------------------------------------------------------------------
# The comparison
# ---------------------------------------------------------------------------

def answered_jobs(command, seed, count, functions, left):
    """For each job its calls, each as (call, expected, what was found)."""
    for batch in compare.batches(generate_lists.calls(seed, count, left)):
        batch = [both[:functions] for both in batch]
        found = iter(engine_answers(command, [call for calls in batch
                                              for call in calls]))
        for calls in batch:
            yield [(call, call.answered(), next(found)) for call in calls]


def compare_all(command, seed, count, functions=len(NAMES), left=True):
    """(what was seen, jobs with a difference)"""
    seen, differences = Seen(left), 0
    for job in answered_jobs(command, seed, count, functions, left):
        call, (answer, _), _ = job[0]
        seen.add(call, answer)
        wrong = [each for each in job if each[1] != each[2]]
        if wrong:
            differences += 1
            if differences <= SHOWN:
                call, expected, found = wrong[0]
                show_difference(seen.jobs() - 1, call,
                                wrong_things(call, expected, found))
    return seen, differences


def main():
    parser = argparse.ArgumentParser()
    parser.add_argument('--engine', required=True)
    parser.add_argument('--seed', type=int, required=True)
    parser.add_argument('--count', type=int, required=True)
    parser.add_argument('--setting-only', action='store_true',
                        help='an engine that has no bv_account_job')
    parser.add_argument('--no-left', action='store_true',
                        help='jobs without left readings')
    chosen = parser.parse_args()
    seen, differences = compare_all(
        shlex.split(chosen.engine), chosen.seed, chosen.count,
        1 if chosen.setting_only else len(NAMES), not chosen.no_left)
    missing = list(seen.missing()) if chosen.count >= ENOUGH else []
    for words in missing:
        print('missing: %s' % words)
    print(seen.words())
    print('compared %d jobs, %d differences' % (seen.jobs(), differences))
    sys.exit(0 if differences == 0 and not missing else 1)


if __name__ == '__main__':
    main()
