"""Calls on jobs in lists, as bytes: to a program and back.

    python3 lists.py < calls    answers them by the second program

What sheets cannot show goes to an engine this way: ratios, profiles, left
readings, lists of unequal lengths, spare runs, short result lists (README.md,
"Jobs in lists").  lists.c answers the same calls by bv_set_job and
bv_account_job.
"""

import os
import struct
import sys

sys.path.insert(0, os.path.dirname(os.path.abspath(__file__)))

import account      # noqa: E402  (found through the path set above)
import second       # noqa: E402

SET, ACCOUNT = 0, 1     # which of the two functions is called
FIRST = 4               # the function, em, measure and profile

# The lists that a call reads and those that each function writes, in the order
# of include/bolyverit.h.  The account has no left positions: its fourth result
# list is empty, and no function is lent it.
GIVEN = ('class', 'width', 'before', 'after', 'flag', 'rclass', 'rwidth',
         'lclass', 'lwidth', 'kind', 'ebase', 'eruby', 'lkind', 'eleft',
         'runs', 'lruns')
RESULTS = (('base', 'ruby', 'left', 'lines'),
           ('rows', 'told', 'extents', 'nothing'))

# Those among them that a job has without left readings, as set_job takes them.
RIGHT = tuple(name for name in GIVEN
              if name not in ('lclass', 'lwidth', 'lkind', 'eleft', 'lruns'))


def with_left(given, left):
    """The lists of a call from the eleven others and a Left."""
    lists = dict(zip(RIGHT, given))
    lists.update(lclass=left.left_class, lwidth=left.left_width,
                 lkind=left.left_kind, eleft=left.elem_left,
                 lruns=left.left_runs)
    return [lists[name] for name in GIVEN]


def job_lists(given):
    """The lists of a call as set_job takes them: eleven, and a Left."""
    lists = dict(zip(GIVEN, given))
    left = second.Left(lists['lclass'], lists['lwidth'], lists['lkind'],
                       lists['eleft'], lists['lruns'])
    return [lists[name] for name in RIGHT] + [left]


class Call:
    """One call: the lists of a job, the result lists, what stands between.

    ratios and results are lists too; around has a word for the place before
    each of them and one for the place behind the last.
    """

    def __init__(self, which, em, measure, ratios, profile, given, results,
                 around):
        self.which = which
        self.em = em
        self.measure = measure
        self.ratios = ratios
        self.profile = profile
        self.given = given
        self.results = results
        self.around = around

    def lengths(self):
        return [len(values) for values in self.given + self.results]

    def memory(self, results):
        """Every word that the program holds, with these result lists."""
        words = []
        lists = [*self.ratios, *self.given, *results]
        for before, values in zip(self.around, lists):
            words.append(before)
            words += values
        return words + [self.around[-1]]

    def answered(self):
        """(answer, memory after it), by the second program."""
        results = [list(values) for values in self.results]
        job = (self.em, self.measure, self.ratios, self.profile,
               *job_lists(self.given))
        if self.which == ACCOUNT:
            answer = account.account_job(*job, *results[:3])
        else:
            answer = second.set_job(*job, *results)
        return answer, self.memory(results)

    def to_bytes(self):
        return (packed([self.which, self.em, self.measure, self.profile,
                        *self.lengths()])
                + packed(self.memory(self.results)))


# ---------------------------------------------------------------------------
# Bytes
# ---------------------------------------------------------------------------

def packed(words):
    """Each word in four bytes, the least first."""
    return struct.pack('<%dI' % len(words), *words)


def unpacked(content):
    return list(struct.unpack('<%dI' % (len(content) // 4), content))


def memory_size(lengths):
    """How many words the memory of a call has."""
    return 1 + 2 * 4 + sum(1 + length for length in lengths)


def answer_bytes(answer, memory):
    """A number and a place, and the memory."""
    pair = [0, answer[1]] if answer[0] == 'set' else list(answer[1:])
    return packed(pair + memory)


def answer_of(words):
    """('set', lines) or ('refused', number, place), and the memory."""
    number, place, *memory = words
    if number == 0:
        return ('set', place), memory
    return ('refused', number, place), memory


def read_call(stream):
    """The next call, or None at the end."""
    head_size = 4 * (FIRST + len(GIVEN) + len(RESULTS[SET]))
    head = stream.read(head_size)
    if head == b'':
        return None
    if len(head) < head_size:
        raise ValueError('a call is cut short')
    which, em, measure, profile, *lengths = unpacked(head)
    size = 4 * memory_size(lengths)
    content = stream.read(size)
    if len(content) < size:
        raise ValueError('a call is cut short')
    around, lists, place = [], [], 0
    words = unpacked(content)
    for length in [3, 3] + lengths:
        around.append(words[place])
        lists.append(words[place + 1:place + 1 + length])
        place += 1 + length
    return Call(which, em, measure, lists[:2], profile,
                lists[2:2 + len(GIVEN)], lists[2 + len(GIVEN):],
                around + words[place:])


def main(arguments):
    if arguments:
        sys.exit('usage: lists.py < calls')
    call = read_call(sys.stdin.buffer)
    while call is not None:
        sys.stdout.buffer.write(answer_bytes(*call.answered()))
        call = read_call(sys.stdin.buffer)


if __name__ == '__main__':
    main(sys.argv[1:])
