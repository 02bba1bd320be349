"""The second program of Bolyverit: document 01, read plainly.

It reads a job sheet on standard input and writes what the setting program
writes.  It states the rules of document 01 one by one and looks for nothing
clever; it exists to be compared, byte for byte, with the proved engine.  A
change of document 02 is in the place of the rule that it changes, under its
number (R-1, R-4, R-5, R-6, R-8).

    python3 second.py < sheet              one sheet, one answer
    python3 second.py --framed < sheets    many sheets (see README.md)

Widths are whole units.  Positions are in half units.
Section names in comments are those of document 01.
"""

import collections
import sys

LARGEST_NUMBER = 4294967295
LARGEST_SHEET = 65535

MOST_BASE = 1024
MOST_RUBY = 2048
MOST_ELEMENTS = 1024
MOST_LEFT = 2048    # left characters "as for right ones"

# How a kind is written in a list: the byte of the sheet's letter.
P, M, G, J = 80, 77, 71, 74

# a left kind is M, G or J, or N for none, written in the same way.
N = 78

# the two sides on which an element may have a reading.
RIGHT, LEFT = 0, 1

# R-4: "A job carries two ratios, one for spread ruby and one for spread base,
# each of three numbers a, m, c".  This is the ratio of document 01, in both.
ONE_TWO_ONE = ((1, 2, 1), (1, 2, 1))


class Refused(Exception):
    """Refusal list: "Each returns its number and a place." """

    def __init__(self, number, place):
        super().__init__(number, place)
        self.number = number
        self.place = place


# ---------------------------------------------------------------------------
# Classes
# ---------------------------------------------------------------------------

def is_accepted(cls):
    # The job: "Accepted classes are 1 to 19 and 24 to 27."
    return 1 <= cls <= 19 or 24 <= cls <= 27


def is_western(cls):
    # The job: "Western means classes 24, 25 and 27."
    return cls in (24, 25, 27)


def is_kana_like(cls):
    # The job: "Kana-like means every accepted class but 24 to 27."
    return is_accepted(cls) and not 24 <= cls <= 27


def may_have_blank_before(cls):
    # The job: "Class 1 may have a blank before; ... 5 both; all others
    # neither."  (The fields; class 14 has 0 in both.)
    return cls in (1, 5)


def may_have_blank_after(cls):
    # The job: "2, 6 and 7 a blank after; 5 both; all others neither."
    return cls in (2, 5, 6, 7)


# ---------------------------------------------------------------------------
# The job, as lists
# ---------------------------------------------------------------------------

# The lists of R-5: class and width of the left characters, left kind and left
# count of the elements, left runs one after the other.
Left = collections.namedtuple(
    'Left', 'left_class left_width left_kind elem_left left_runs')


class Element:
    """One element with the characters it takes, by index in the job."""

    def __init__(self, kind, base_first, base_end, ruby_first, ruby_end, runs,
                 left_kind, left_first, left_end, left_runs):
        self.kind = kind
        self.base_first = base_first    # its first base character
        self.base_end = base_end        # one past its last base character
        self.ruby_first = ruby_first
        self.ruby_end = ruby_end
        self.runs = runs                # J: ruby count of each base character
        self.left_kind = left_kind
        self.left_first = left_first
        self.left_end = left_end
        self.left_runs = left_runs      # left M or J on J: the same


class Job:
    """The lists of a job and, once they are known, its elements.

    left is a Left; None where the job has no left lists at all, and then no
    element has a left reading.
    """

    def __init__(self, em, measure, ratios, profile, base_class, base_width,
                 blank_before, blank_after, flag, ruby_class, ruby_width,
                 kind, elem_base, elem_ruby, runs, left=None):
        self.em = em
        self.measure = measure
        self.ratios = ratios        # (a, m, c) of the ruby and of the base
        self.profile = profile      # 0, or 1: ruby on kana too
        self.base_class = base_class
        self.base_width = base_width
        self.blank_before = blank_before
        self.blank_after = blank_after
        self.flag = flag
        self.ruby_class = ruby_class
        self.ruby_width = ruby_width
        self.kind = kind
        self.elem_base = elem_base
        self.elem_ruby = elem_ruby
        self.runs = runs
        # The job: "Where a kind's fields come in several lists, its count is
        # the shortest list's length."  The run list is not one of these.
        self.base_count = min(len(base_class), len(base_width),
                              len(blank_before), len(blank_after), len(flag))
        self.ruby_count = min(len(ruby_class), len(ruby_width))
        self.element_count = min(len(kind), len(elem_base), len(elem_ruby))
        if left is None:
            left = Left([], [], [N] * self.element_count,
                        [0] * self.element_count, [])
        self.left_class = left.left_class
        self.left_width = left.left_width
        self.left_kind = left.left_kind
        self.elem_left = left.elem_left
        self.left_runs = left.left_runs
        # the left kind and the left count are fields of the element.
        self.left_count = min(len(left.left_class), len(left.left_width))
        self.element_count = min(self.element_count, len(left.left_kind),
                                 len(left.elem_left))
        self.elements = []
        self.words = {}     # level one's answers, by element part


# ---------------------------------------------------------------------------
# Refusals 1, 15, 20, 2, 12
# ---------------------------------------------------------------------------

def check_sizes(job):
    # Refusal 1: "em odd, or em or measure out of range"; place 0 em, 1
    # measure.  The job: "em: even, 2 to 4,096. Measure: 1 to 4,000,000."
    if job.em % 2 != 0 or not 2 <= job.em <= 4096:
        raise Refused(1, 0)
    if not 1 <= job.measure <= 4000000:
        raise Refused(1, 1)


def check_ratios(job):
    # R-4: "Refusals: 15, a ratio number over 7 or all three 0, checked after
    # 1, place 0 for the ruby ratio, 1 for the base."
    for place, ratio in enumerate(job.ratios):
        if any(number > 7 for number in ratio):
            raise Refused(15, place)
        if all(number == 0 for number in ratio):
            raise Refused(15, place)


def check_profile(job):
    # "Refusals: 20, a profile over 1, checked after 15, place 0."
    if job.profile > 1:
        raise Refused(20, 0)


def check_counts(job):
    # Refusal 2: "a count over its maximum"; 0 base, 1 ruby, 2 elements; by
    # R-5 "places 3 for the count" of left characters.
    if job.base_count > MOST_BASE:
        raise Refused(2, 0)
    if job.ruby_count > MOST_RUBY:
        raise Refused(2, 1)
    if job.element_count > MOST_ELEMENTS:
        raise Refused(2, 2)
    if job.left_count > MOST_LEFT:
        raise Refused(2, 3)


def check_room(job, base_out, ruby_out, left_out, line_out):
    # Refusal 12: "a result list too short: base list or line list below the
    # base count, ruby list below the ruby count"; place 0.  R-5: 12 holds
    # "for left characters as for right ones".
    if len(base_out) < job.base_count:
        raise Refused(12, 0)
    if len(line_out) < job.base_count:
        raise Refused(12, 0)
    if len(ruby_out) < job.ruby_count:
        raise Refused(12, 0)
    if len(left_out) < job.left_count:
        raise Refused(12, 0)


# ---------------------------------------------------------------------------
# Refusals 3 and 4
# ---------------------------------------------------------------------------

def check_characters(job):
    # Order: "then base characters and then ruby characters in turn, 3 before
    # 4": character by character, and 3 before 4 within a character.
    for index in range(job.base_count):
        check_base_character(job, index)
        check_blanks(job, index)
    for index in range(job.ruby_count):
        check_ruby_character(job, index)
    # "as for right ones, right first".
    for index in range(job.left_count):
        check_left_character(job, index)


def check_base_character(job, index):
    # Refusal 3: "class, width or flag not accepted"; place the character.
    if not is_accepted(job.base_class[index]):
        raise Refused(3, index)
    if not 1 <= job.base_width[index] <= 4096:
        raise Refused(3, index)
    if job.flag[index] not in (0, 1):
        raise Refused(3, index)


def check_ruby_character(job, index):
    # Refusal 3 for ruby: place "ruby ones 1,024 + index".
    if not is_accepted(job.ruby_class[index]):
        raise Refused(3, 1024 + index)
    if not 1 <= job.ruby_width[index] <= 4096:
        raise Refused(3, 1024 + index)


def check_left_character(job, index):
    # 3 for a left character, place "3,072 + index".
    if not is_accepted(job.left_class[index]):
        raise Refused(3, 3072 + index)
    if not 1 <= job.left_width[index] <= 4096:
        raise Refused(3, 3072 + index)


def check_blanks(job, index):
    # Refusal 4: "blanks against the class or over the width".
    cls = job.base_class[index]
    before = job.blank_before[index]
    after = job.blank_after[index]
    if before != 0 and not may_have_blank_before(cls):
        raise Refused(4, index)
    if after != 0 and not may_have_blank_after(cls):
        raise Refused(4, index)
    # The job: the blanks "together don't exceed" the width.
    if before + after > job.base_width[index]:
        raise Refused(4, index)


# ---------------------------------------------------------------------------
# Refusals 5 to 10, and 16
# ---------------------------------------------------------------------------

def take_elements(job):
    # Order: "then elements in turn, in the table's order from 5; then
    # leftover characters".  R-5: 5 "for left characters as for right ones,
    # right first", and 16 "after 5".
    base_taken = ruby_taken = runs_taken = left_taken = left_runs_taken = 0
    for place in range(job.element_count):
        base, ruby, runs = element_counts(job, place, runs_taken)
        left, left_runs = left_counts(job, place, base, left_runs_taken)
        check_left_kind(job, place)
        # Refusal 6: "characters run out"; place the element.
        if base_taken + base > job.base_count:
            raise Refused(6, place)
        if ruby_taken + ruby > job.ruby_count:
            raise Refused(6, place)
        if left_taken + left > job.left_count:
            raise Refused(6, place)
        element = Element(job.kind[place], base_taken, base_taken + base,
                          ruby_taken, ruby_taken + ruby, runs,
                          job.left_kind[place], left_taken, left_taken + left,
                          left_runs)
        check_blanks_inside(job, element, place)
        check_jukugo_base(job, element, place)
        check_mixture(job, element, place)
        check_western_over_western(job, element, place)
        job.elements.append(element)
        base_taken = element.base_end
        ruby_taken = element.ruby_end
        runs_taken += len(runs)
        left_taken = element.left_end
        left_runs_taken += len(left_runs)
    # Refusal 6: "or some are left over"; place "the element count".
    if base_taken < job.base_count or ruby_taken < job.ruby_count:
        raise Refused(6, job.element_count)
    if left_taken < job.left_count:
        raise Refused(6, job.element_count)


def element_counts(job, place, runs_taken):
    # Refusal 5: "unknown kind, or element counts out of range".
    # "Nor are counts a kind doesn't show on the sheet [read]: both of P, the
    # base count of M, the ruby count of J."
    kind = job.kind[place]
    if kind == P:
        # "P: one base character, no ruby."
        return 1, 0, []
    if kind == M:
        # "M: one base character, 1 to 64 ruby characters."
        if not 1 <= job.elem_ruby[place] <= 64:
            raise Refused(5, place)
        return 1, job.elem_ruby[place], []
    if kind == G:
        # "G: 1 to 32 base characters, 1 to 64 ruby characters."
        if not 1 <= job.elem_base[place] <= 32:
            raise Refused(5, place)
        if not 1 <= job.elem_ruby[place] <= 64:
            raise Refused(5, place)
        return job.elem_base[place], job.elem_ruby[place], []
    if kind == J:
        # "J: 1 to 32 base characters, each with its own run of at least 1
        # ruby character, 64 in all at most."
        if not 1 <= job.elem_base[place] <= 32:
            raise Refused(5, place)
        runs = [run_at(job.runs, runs_taken + i)
                for i in range(job.elem_base[place])]
        if 0 in runs or sum(runs) > 64:
            raise Refused(5, place)
        return job.elem_base[place], sum(runs), runs
    raise Refused(5, place)


def run_at(runs, index):
    # The job: "a J run past the end of its list reads as 0".
    return runs[index] if index < len(runs) else 0


def left_counts(job, place, base, runs_taken):
    # 5 holds "for left characters as for right ones": an unknown left
    # kind, or left counts out of range, whether or not the element takes the
    # kind.  A G has one count, and an M on an M; an M or a J on any other
    # element has a run for each base character, read as J runs are.  With N,
    # and on a P, nothing is read.
    kind = job.left_kind[place]
    if kind not in (M, G, J, N):
        raise Refused(5, place)
    if kind == N or job.kind[place] == P:
        return 0, []
    if kind == G or (kind == M and job.kind[place] == M):
        if not 1 <= job.elem_left[place] <= 64:
            raise Refused(5, place)
        return job.elem_left[place], []
    runs = [run_at(job.left_runs, runs_taken + i) for i in range(base)]
    if 0 in runs or sum(runs) > 64:
        raise Refused(5, place)
    return sum(runs), runs


# R-5: "A left reading is mono on M, group on G, and mono, jukugo or group on
# J."
TAKEN = {P: (N,), M: (N, M), G: (N, G), J: (N, M, J, G)}


def check_left_kind(job, place):
    # R-5: "16, a left kind its element doesn't take, place the element, after
    # 5".
    if job.left_kind[place] not in TAKEN[job.kind[place]]:
        raise Refused(16, place)


def check_blanks_inside(job, element, place):
    # Refusal 7: "a blank field not 0 inside M, G or J (class 14 passes)".
    # Class 14 passes by itself: its fields are 0, or it was a 4.
    if element.kind == P:
        return
    for index in range(element.base_first, element.base_end):
        if job.blank_before[index] != 0 or job.blank_after[index] != 0:
            raise Refused(7, place)


def check_jukugo_base(job, element, place):
    # Refusal 8: "a J base character not kana-like or not one em wide".
    if element.kind != J:
        return
    for index in range(element.base_first, element.base_end):
        if not is_kana_like(job.base_class[index]):
            raise Refused(8, place)
        if job.base_width[index] != job.em:
            raise Refused(8, place)


def check_mixture(job, element, place):
    # Refusal 9: "class 26, or Western and kana-like mixed, within the base
    # or the ruby of G or J".  R-5: "9 and 10 likewise", so within the left
    # characters of G or J too, whatever the left kind.
    if element.kind not in (G, J):
        return
    base = job.base_class[element.base_first:element.base_end]
    ruby = job.ruby_class[element.ruby_first:element.ruby_end]
    left = job.left_class[element.left_first:element.left_end]
    for classes in (base, ruby, left):
        if 26 in classes:
            raise Refused(9, place)
        if any(map(is_western, classes)) and any(map(is_kana_like, classes)):
            raise Refused(9, place)


def check_western_over_western(job, element, place):
    # Refusal 10: "Western ruby over Western base in G, at any lengths".
    # No string is mixed here, so its first character speaks for it.  R-5: "9
    # and 10 likewise".
    if element.kind != G:
        return
    if (is_western(job.base_class[element.base_first])
            and is_western(job.ruby_class[element.ruby_first])):
        raise Refused(10, place)
    if (element.left_kind != N
            and is_western(job.base_class[element.base_first])
            and is_western(job.left_class[element.left_first])):
        raise Refused(10, place)


# ---------------------------------------------------------------------------
# Level one: the word alone
# ---------------------------------------------------------------------------
# Every function here gives (base positions, ruby positions) in half units,
# counted from the start of the longer string; with two readings (base, right,
# left), counted from the start of the longest.

def one_after_another(start, widths):
    # No space within the string: each starts where the one before it ends.
    return [start + 2 * sum(widths[:i]) for i in range(len(widths))]


def solid(base_widths, ruby_widths):
    # "Solid: no space within either string; the shorter starts at D half
    # units."
    base, ruby = sum(base_widths), sum(ruby_widths)
    difference = abs(base - ruby)
    base_start = difference if base < ruby else 0
    ruby_start = difference if ruby < base else 0
    return (one_after_another(base_start, base_widths),
            one_after_another(ruby_start, ruby_widths))


def spread(widths, difference, ratio, limit):
    # "Spread: ... Character i (from 0) starts at g + twice the widths before
    # it + floor((2D - 2g) * i / (n - 1))."  By R-4 the front gap is in the
    # place of g, and what both gaps leave in the place of 2D - 2g: "the inner
    # gaps share what is left as in document 01".
    n = len(widths)
    if n == 1:
        return [gap_before_one(difference, ratio)]
    front, rear = end_gaps(n, difference, ratio, limit)
    left = 2 * difference - front - rear
    return [front + 2 * sum(widths[:i]) + left * i // (n - 1)
            for i in range(n)]


def gap_before_one(difference, ratio):
    # R-4: "With n = 1 the front gap is as above and the rear takes the rest,
    # but if a and c are both 0 the character is centred."  S is a + c here;
    # centred is at D half units, half of 2D.
    a, _, c = ratio
    if a == 0 and c == 0:
        return difference
    return 2 * difference * a // (a + c)


def end_gaps(n, difference, ratio, limit):
    """(front gap, rear gap) of a string of two characters and more.

    limit is the em where the half-em limit applies, None elsewhere.
    """
    # R-4: "With S = a + m(n - 1) + c, the front gap is floor(2D * a / S), the
    # rear gap floor(2D * c / S)".
    a, m, c = ratio
    total = a + m * (n - 1) + c
    front = 2 * difference * a // total
    rear = 2 * difference * c // total
    if m == 0:
        # "If m = 0 and n is at least 2, the rear gap takes what is left."
        return front, 2 * difference - front
    if limit is not None:
        # "The half-em limit stays where it stood, at either end, and only if
        # m is not 0."  Half an em is em half units.
        front, rear = min(front, limit), min(rear, limit)
    return front, rear


def spread_ruby(ratios, base_widths, ruby_widths, limit):
    # The ruby is the shorter string, so positions count from the base.
    difference = sum(base_widths) - sum(ruby_widths)
    return (one_after_another(0, base_widths),
            spread(ruby_widths, difference, ratios[0], limit))


def spread_base(ratios, base_widths, ruby_widths):
    # The base is the shorter string, so positions count from the ruby.
    difference = sum(ruby_widths) - sum(base_widths)
    return (spread(base_widths, difference, ratios[1], None),
            one_after_another(0, ruby_widths))


def set_mono(base_widths, ruby_widths):
    # "M: always solid."
    return solid(base_widths, ruby_widths)


def set_group(em, ratios, base_western, base_widths,
              ruby_western, ruby_widths):
    base, ruby = sum(base_widths), sum(ruby_widths)
    if base == ruby:
        # "G, equal sums: solid."
        return solid(base_widths, ruby_widths)
    if not base_western and not ruby_western:
        # "G, kana-like over kana-like: the shorter string is spread. Where
        # the ruby is shorter and n is at least 2, g = min(floor(D/n), em)."
        if ruby < base:
            return spread_ruby(ratios, base_widths, ruby_widths, em)
        return spread_base(ratios, base_widths, ruby_widths)
    if base_western and not ruby_western:
        # "G, kana-like ruby over Western base: shorter ruby is spread,
        # without that limit; longer ruby is solid."
        if ruby < base:
            return spread_ruby(ratios, base_widths, ruby_widths, None)
        return solid(base_widths, ruby_widths)
    # "G, Western ruby over kana-like base: shorter ruby is solid; longer
    # ruby spreads the base, without that limit."  (Western over Western is
    # refused, 10.)
    if ruby < base:
        return solid(base_widths, ruby_widths)
    return spread_base(ratios, base_widths, ruby_widths)


def set_jukugo(em, ratios, base_widths, runs, ruby_western, ruby_widths):
    # "J: if no run is longer than one em, each run is solid over its own
    # character. If any is longer, the whole is set as G."
    run_widths = cut_into_runs(runs, ruby_widths)
    if any(sum(widths) > em for widths in run_widths):
        return set_group(em, ratios, False, base_widths,
                         ruby_western, ruby_widths)
    base_positions, ruby_positions = [], []
    for i, widths in enumerate(run_widths):
        # No run is longer than its character, so positions of the pair
        # count from the character, which follows the ones before it.
        start = 2 * sum(base_widths[:i])
        own_base, own_ruby = solid([base_widths[i]], widths)
        base_positions += [start + position for position in own_base]
        ruby_positions += [start + position for position in own_ruby]
    return base_positions, ruby_positions


def cut_into_runs(runs, ruby_widths):
    pieces, taken = [], 0
    for run in runs:
        pieces.append(ruby_widths[taken:taken + run])
        taken += run
    return pieces


def set_mono_with_mono(base_widths, right_widths, left_widths):
    # "Mono with mono is solid and centred on both sides": each of the
    # three strings is centred on the longest, and starts at the difference in
    # half units, as the shorter of two does.
    strings = base_widths, right_widths, left_widths
    longest = max(map(sum, strings))
    return tuple(one_after_another(longest - sum(widths), widths)
                 for widths in strings)


def set_two_groups(em, ratios, base_western, base_widths, right, left):
    """right and left are Readings."""
    def group(widths, reading):
        return set_group(em, ratios, base_western, widths,
                         reading.western, reading.widths)

    right_sum, left_sum = sum(right.widths), sum(left.widths)
    if max(right_sum, left_sum) <= sum(base_widths):
        # R-5: "if neither reading is longer than the base, each is set as a
        # group alone."  Positions count from the base in both.
        base_positions, right_positions = group(base_widths, right)
        _, left_positions = group(base_widths, left)
    elif right_sum >= left_sum:
        # "Otherwise the longer reading (right, if equal) is set with the base
        # by document 01, and the other is then set as a shorter or equal ruby
        # over a base of the longer one's length and the base's own kind."
        base_positions, right_positions = group(base_widths, right)
        _, left_positions = group([right_sum], left)
    else:
        base_positions, left_positions = group(base_widths, left)
        _, right_positions = group([left_sum], right)
    return base_positions, right_positions, left_positions


class Reading:
    """The reading of a word on one side, before it is set."""

    def __init__(self, first, widths, runs, western):
        self.first = first      # its first character, by index in the job
        self.widths = widths
        self.runs = runs        # how many of them each base character has
        self.western = western  # of its first character, if it is not mixed


def reading_of_part(classes, widths, first, end, runs, skipped, count):
    """What a part of an element has of the element's reading on one side.

    The reading has characters first..end-1.  The part has `count` base
    characters, behind `skipped` others of its element.
    """
    if runs:
        first += sum(runs[:skipped])
        runs = runs[skipped:skipped + count]
        end = first + sum(runs)
    return Reading(first, widths[first:end], runs, is_western(classes[first]))


def readings_of_part(job, element, first, end):
    """(right, left) of base characters first..end-1; None where there is none.
    """
    part = first - element.base_first, end - first
    right = left = None
    if element.kind != P:
        right = reading_of_part(job.ruby_class, job.ruby_width,
                                element.ruby_first, element.ruby_end,
                                element.runs, *part)
    if element.left_kind != N:
        left = reading_of_part(job.left_class, job.left_width,
                               element.left_first, element.left_end,
                               element.left_runs, *part)
    return right, left


class Ruby:
    """A reading that is set: its span and its characters in the word."""

    def __init__(self, reading, positions):
        self.first = reading.first
        self.positions = positions
        self.start = positions[0]
        self.end = positions[-1] + 2 * reading.widths[-1]


class Word:
    """What moves as a whole, set within itself.

    It is an element, a part of a J that is cut, or one character of a J with
    a mono left reading.  Everything is counted from the word's origin, the
    start of its longest string.  A P has no ruby and tells how deep ruby may
    lie on it.
    """

    def __init__(self, base_first, base_positions, block_end, right, left):
        self.base_first = base_first
        self.base_positions = base_positions
        # "The base block runs from the start of the first base character to
        # the end of the last."
        self.block_start = base_positions[0]
        self.block_end = block_end
        self.rubies = right, left       # by side; None where there is none
        self.sides = [side for side in (RIGHT, LEFT)
                      if self.rubies[side] is not None]
        # The furthest end of its block or its rubies.
        self.end = max([block_end] + [self.rubies[side].end
                                      for side in self.sides])
        # Only a P lets ruby onto itself; see plain_word.
        self.depth_before = 0
        self.depth_after = 0


def word_of_part(job, number, first, end):
    """The word made of base characters first..end-1 of one element.

    A word depends on its part alone ("the word alone"), so each is set once.
    """
    key = (number, first, end)
    if key not in job.words:
        element = job.elements[number]
        if element.kind == P:
            job.words[key] = plain_word(job, first)
        else:
            job.words[key] = ruby_word(job, element, first, end)
    return job.words[key]


def plain_word(job, index):
    # Level two: "A P element is its own block."
    width = job.base_width[index]
    word = Word(index, [0], 2 * width, None, None)
    word.depth_before = depth_before(job, index)
    word.depth_after = depth_after(job, index)
    return word


def ruby_word(job, element, first, end):
    base_widths = job.base_width[first:end]
    right, left = readings_of_part(job, element, first, end)
    if left is None:
        base, ruby = set_one_reading(job, element, first, end, right)
        left_ruby = None
    else:
        base, ruby, positions = set_two_readings(job, element, first, end,
                                                 right, left)
        left_ruby = Ruby(left, positions)
    return Word(first, base, base[-1] + 2 * base_widths[-1],
                Ruby(right, ruby), left_ruby)


def set_one_reading(job, element, first, end, right):
    base_widths = job.base_width[first:end]
    if element.kind == M:
        return set_mono(base_widths, right.widths)
    if element.kind == G:
        base_western = is_western(job.base_class[first])
        return set_group(job.em, job.ratios, base_western, base_widths,
                         right.western, right.widths)
    if is_cut(element, first, end) and end - first == 1:
        # "A J cut by a line end is two words: a part of one character is
        # set as M, a part of more as J."  A J of one character that is not
        # cut is no part: with a run over one em it is set as G, and R-4's
        # base ratio decides.
        return set_mono(base_widths, right.widths)
    return set_jukugo(job.em, job.ratios, base_widths, right.runs,
                      right.western, right.widths)


def set_two_readings(job, element, first, end, right, left):
    base_widths = job.base_width[first:end]
    if element.left_kind == M:
        # R-5: "Mono with mono"; "a J with a mono left reading is set as one
        # such M for each character", and this is one of them.
        return set_mono_with_mono(base_widths, right.widths, left.widths)
    if is_group_on_both_sides(job, element):
        base_western = is_western(job.base_class[first])
        return set_two_groups(job.em, job.ratios, base_western, base_widths,
                              right, left)
    # A J with a left J and no run longer than one em on either side: "each
    # run is solid over its own character".  So it is in a part of one
    # character set as M.
    base, ruby = set_jukugo(job.em, job.ratios, base_widths, right.runs,
                            right.western, right.widths)
    _, other = set_jukugo(job.em, job.ratios, base_widths, left.runs,
                          left.western, left.widths)
    return base, ruby, other


def is_group_on_both_sides(job, element):
    # R-5: "Two groups"; "A J with a left G, or with a left J and a run longer
    # than one em on either side, is taken as group on both sides".  Judged on
    # the whole J.
    if element.left_kind == G:
        return True
    if element.left_kind != J:
        return False
    return any(has_long_run(job.em, reading) for reading in readings_of_part(
        job, element, element.base_first, element.base_end))


def has_long_run(em, reading):
    return any(sum(widths) > em
               for widths in cut_into_runs(reading.runs, reading.widths))


def is_cut(element, first, end):
    return (first, end) != (element.base_first, element.base_end)


# ---------------------------------------------------------------------------
# Level two: the four rules of clearance
# ---------------------------------------------------------------------------

def greatest_depth(job, cls):
    # Rule 2: "at most half an em; for class 5 a quarter em", in half units.
    return job.em // 2 if cls == 5 else job.em


def blank_of_space(job, index):
    # The job: "In class 14 ... the whole width is blank."  But R-1: "a class
    # 14 character that is the job's first element takes no ruby at all. ...
    # A class 14 character at the start of a later line is as before."  Only
    # a P is asked, and the job's first element has base character 0.
    return 0 if index == 0 else job.base_width[index]


def is_kana(cls):
    # "a P element of class 15 or 16".  Small kana, class 11, and the
    # prolonged sound mark, class 10, are not named.
    return cls in (15, 16)


def depth_on_kana(job, index):
    # R-8: "Profile 1 permits ruby on a P element of class 15 or 16 just
    # before or just after, to a depth of at most one ruby em (half the em)
    # and at most its width. Profile 0 is document 01 with R-1."  Half an em
    # is em half units.  Only a P is asked: a kana that is the base of a word
    # takes none.
    if job.profile != 1:
        return 0
    return min(2 * job.base_width[index], job.em)


def depth_after(job, index):
    # Rule 2: "the blank after the P element ... (classes 2, 5, 6, 7, 14)";
    # "The depth is at most the blank as given".  By R-8 ruby "may also lie on
    # a neighbouring kana": what has a blank is as before.
    cls = job.base_class[index]
    if is_kana(cls):
        return depth_on_kana(job, index)
    if cls == 14:
        blank = blank_of_space(job, index)
    elif cls in (2, 5, 6, 7):
        blank = job.blank_after[index]
    else:
        blank = 0
    return min(2 * blank, greatest_depth(job, cls))


def depth_before(job, index):
    # Rule 2: "the blank before the P element ... (classes 1, 5, 14)".  R-8 as
    # above: a kana may take ruby from before and from after, each to its own
    # depth; rule 3 keeps the two rubies off one another.
    cls = job.base_class[index]
    if is_kana(cls):
        return depth_on_kana(job, index)
    if cls == 14:
        blank = blank_of_space(job, index)
    elif cls in (1, 5):
        blank = job.blank_before[index]
    else:
        blank = 0
    return min(2 * blank, greatest_depth(job, cls))


# The rules speak of two words of one line.  Each function below says how far
# the later word has to be raised for the pair to keep the rule; 0 or less
# means that the rule is kept.  earlier_at and later_at are their origins.
# "Clearance rule 2 holds for each ruby, rule 3 for rubies of one side":
# side is the side of the ruby, or of both rubies.

def broken_1(earlier, earlier_at, later, later_at):
    # "1. Each block starts at or after the end of the block before it."
    return (earlier_at + earlier.block_end) - (later_at + later.block_start)


def broken_2_forward(earlier, earlier_at, later, later_at, neighbours, side):
    # "2. Ruby keeps off every other element's block, except that it may lie
    # on ... the blank before the P element just after it", or on the kana just
    # after it.  Depth is how far the ruby reaches past the near edge of
    # the P.
    depth = later.depth_before if neighbours else 0
    return ((earlier_at + earlier.rubies[side].end)
            - (later_at + later.block_start + depth))


def broken_2_backward(earlier, earlier_at, later, later_at, neighbours, side):
    # "2. Ruby keeps off every other element's block, except that it may lie
    # on the blank after the P element just before it", or on the kana just
    # before it.
    depth = earlier.depth_after if neighbours else 0
    return ((earlier_at + earlier.block_end - depth)
            - (later_at + later.rubies[side].start))


def broken_3(earlier, earlier_at, later, later_at, side):
    # "3. No two rubies overlap. Touching is allowed."
    return ((earlier_at + earlier.rubies[side].end)
            - (later_at + later.rubies[side].start))


def broken_4(word, at, limit):
    # "4. Nothing starts before the line's start or ends after the measure."
    # A word starts at its origin, which is never below 0; so only its end
    # can break the rule, and raising the word does not mend that.
    return at + word.end > limit


def broken_between(earlier, earlier_at, later, later_at, neighbours):
    """How far the later word has to be raised because of the earlier one."""
    if earlier_at + earlier.end <= later_at:
        # All of it ends before anything of the later word begins: no rule is
        # broken.  This only answers early what the rules answer.
        return 0
    amount = broken_1(earlier, earlier_at, later, later_at)
    for side in earlier.sides:
        amount = max(amount, broken_2_forward(
            earlier, earlier_at, later, later_at, neighbours, side))
    for side in later.sides:
        amount = max(amount, broken_2_backward(
            earlier, earlier_at, later, later_at, neighbours, side))
        if side in earlier.sides:
            amount = max(amount, broken_3(
                earlier, earlier_at, later, later_at, side))
    return amount


def pairs(count):
    """All pairs of words, earlier first.

    Neighbours are looked at ahead of the rest: they break rules most often,
    so a line that is too long is mostly known from them.
    """
    for j in range(1, count):
        yield j - 1, j
    for j in range(count):
        for i in range(j):
            yield i, j


def least_setting(words, limit):
    """The least origins that keep the four rules, or None if there are none.

    Every word starts at origin 0, so that nothing starts before the line's
    start (rule 4).  Whatever breaks a rule is raised by the least amount that
    mends it, until nothing breaks.  Each raise is forced, so the setting that
    is left is the least one in every word at once; and a word that has passed
    the measure stays past it.
    """
    origins = [0] * len(words)
    if any(broken_4(word, 0, limit) for word in words):
        return None
    settled = False
    while not settled:
        settled = True
        for i, j in pairs(len(words)):
            amount = broken_between(words[i], origins[i],
                                    words[j], origins[j], j == i + 1)
            if amount > 0:
                origins[j] += amount
                settled = False
                if broken_4(words[j], origins[j], limit):
                    return None
    return origins


# ---------------------------------------------------------------------------
# Breaks and lines
# ---------------------------------------------------------------------------

def permitted_breaks(job):
    # The job: "A line may end after the last base character of an element
    # whose flag is 1, between any two base characters of a J, and at the
    # job's end. Other flags inside M, G and J elements are not consulted."
    # A break is given as the count of base characters before it.
    breaks = []
    for element in job.elements:
        if may_be_cut(job, element):
            breaks += range(element.base_first + 1, element.base_end)
        if job.flag[element.base_end - 1] == 1 or element is job.elements[-1]:
            breaks.append(element.base_end)
    return breaks


def may_be_cut(job, element):
    # R-5: a J "taken as group on both sides ... isn't cut; every other J is
    # cut as in document 01."
    return element.kind == J and not is_group_on_both_sides(job, element)


def owners(job):
    """For each base character the number of its element."""
    return [number for number, element in enumerate(job.elements)
            for _ in range(element.base_first, element.base_end)]


def words_of_line(job, owner, first, end):
    """The words of the line holding base characters first..end-1."""
    words = []
    while first < end:
        part_end = min(end, end_of_word(job.elements[owner[first]], first))
        words.append(word_of_part(job, owner[first], first, part_end))
        first = part_end
    return words


def end_of_word(element, first):
    """One past the last base character of the word that begins with first."""
    # R-5: "a J with a mono left reading is set as one such M for each
    # character, each an element to the clearance rules".
    if element.kind == J and element.left_kind == M:
        return first + 1
    return element.base_end


def readings_before(job, owner, index):
    """How many ruby and left characters belong to earlier base characters.

    Asked only where a line may begin or end.
    """
    if index == job.base_count:
        return job.ruby_count, job.left_count
    element = job.elements[owner[index]]
    skipped = index - element.base_first
    return (element.ruby_first + sum(element.runs[:skipped]),
            element.left_first + sum(element.left_runs[:skipped]))


def least_by_widths(job, owner, first, end):
    """The greatest of the widths of base, ruby and left characters.

    Blocks don't overlap (rule 1) and hold their characters side by side, nor
    do rubies of one side overlap (rule 3); so no line is shorter.
    """
    ruby_first, left_first = readings_before(job, owner, first)
    ruby_end, left_end = readings_before(job, owner, end)
    return max(sum(job.base_width[first:end]),
               sum(job.ruby_width[ruby_first:ruby_end]),
               sum(job.left_width[left_first:left_end]))


def plainly_too_long(job, owner, first, end):
    # Nothing starts before the line's start or ends after the measure (rule
    # 4).  This only answers early what least_setting would answer late.
    if sum(job.base_width[first:end]) > job.measure:
        return True
    return least_by_widths(job, owner, first, end) > job.measure


def try_line(job, owner, first, end):
    """(words, origins) of the line first..end-1; None if it can't be set."""
    if plainly_too_long(job, owner, first, end):
        return None
    words = words_of_line(job, owner, first, end)
    origins = least_setting(words, 2 * job.measure)
    if origins is None:
        return None
    return words, origins


def fill_line(job, owner, breaks, first):
    # Level two: "each [line] ends at the furthest permitted break whose line
    # can be set. Every permitted break ahead is a try, also one past a try
    # that failed."  Tried from the furthest; the first that can be set is
    # the furthest.
    for end in reversed(breaks):
        if end <= first:
            break
        line = try_line(job, owner, first, end)
        if line is not None:
            return end, line
    # Refusal 11: "after the lines so far, no permitted break gives a line
    # that can be set"; place "first base character of the line".
    raise Refused(11, first)


def fill_lines(job):
    # Level two: "Lines are filled from the first."
    owner = owners(job)
    breaks = permitted_breaks(job)
    lines, first = [], 0
    while first < job.base_count:
        end, (words, origins) = fill_line(job, owner, breaks, first)
        lines.append((end, words, origins))
        first = end
    return lines


# ---------------------------------------------------------------------------
# The list-level call
# ---------------------------------------------------------------------------

def set_job(em, measure, ratios, profile, base_class, base_width,
            blank_before, blank_after, flag, ruby_class, ruby_width, kind,
            elem_base, elem_ruby, runs, left, base_out, ruby_out, left_out,
            line_out):
    """('set', number of lines) or ('refused', number, place).

    left is a Left, or None in a job without left lists.  The four result lists
    are written on success only.
    """
    job = Job(em, measure, ratios, profile, base_class, base_width,
              blank_before, blank_after, flag, ruby_class, ruby_width, kind,
              elem_base, elem_ruby, runs, left)
    try:
        # Order: "1, 2 and 12, each by lowest place; then base characters and
        # then ruby characters in turn, 3 before 4; then elements in turn, in
        # the table's order from 5; then leftover characters; then lines in
        # turn."  R-4's 15 is "checked after 1", R-8's 20 "after 15".
        check_sizes(job)
        check_ratios(job)
        check_profile(job)
        check_counts(job)
        check_room(job, base_out, ruby_out, left_out, line_out)
        check_characters(job)
        take_elements(job)
        lines = fill_lines(job)
    except Refused as refusal:
        # "None of them is altered by a refusal."
        return ('refused', refusal.number, refusal.place)
    write_results(lines, base_out, (ruby_out, left_out), line_out)
    # "Success returns the number of lines."
    return ('set', len(lines))


def write_results(lines, base_out, ruby_outs, line_out):
    # Refusal list: "a position for each base character, one for each ruby
    # character, and for each line the count of base characters up to its
    # end. ... On success, entries past those used stay as they were."  R-5:
    # "left positions a result list of their own"; ruby_outs is by side.
    for number, (end, words, origins) in enumerate(lines):
        line_out[number] = end
        for word, origin in zip(words, origins):
            for i, position in enumerate(word.base_positions):
                base_out[word.base_first + i] = origin + position
            for side in word.sides:
                ruby = word.rubies[side]
                for i, position in enumerate(ruby.positions):
                    ruby_outs[side][ruby.first + i] = origin + position


# ---------------------------------------------------------------------------
# The job sheet
# ---------------------------------------------------------------------------

class Reader:
    # "The reader of a sheet holds the sheet's bytes and its own place in
    # them."  The number of the line last asked for goes with the place.

    def __init__(self, sheet):
        self.sheet = sheet
        self.place = 0
        self.line_number = 0

    def fault(self):
        # Refusal 13: "job sheet text breaks its form"; place "line from 1".
        return Refused(13, self.line_number)

    def fields(self):
        # "Single spaces, ... each line ended by LF"; "a missing line has the
        # next line's number".  Fields are what stands between single spaces.
        self.line_number += 1
        end = self.sheet.find(b'\n', self.place)
        if end < 0:
            raise self.fault()
        line = self.sheet[self.place:end]
        self.place = end + 1
        return line.split(b' ')

    def number(self, text):
        # "decimal without leading zeros and at most 4,294,967,295"
        if len(text) == 0 or len(text) > 10:
            raise self.fault()
        if any(byte not in b'0123456789' for byte in text):
            raise self.fault()
        if len(text) > 1 and text[:1] == b'0':
            raise self.fault()
        if int(text) > LARGEST_NUMBER:
            raise self.fault()
        return int(text)

    def numbers(self, texts, count):
        if len(texts) != count:
            raise self.fault()
        return [self.number(text) for text in texts]

    def count(self, name, most, place):
        # "Sections in a fixed order, each after its count"; "the first fault
        # met, 13 or a count over its maximum (2)"; "within a line form comes
        # before count".
        fields = self.fields()
        if fields[0] != name:
            raise self.fault()
        value = self.numbers(fields[1:], 1)[0]
        if value > most:
            raise Refused(2, place)
        return value

    def nothing_after(self):
        # "nothing after"
        if self.place < len(self.sheet):
            self.line_number += 1
            raise self.fault()


def read_sheet(sheet):
    """The sixteen arguments of a job (em to left), or Refused."""
    # "over-length comes before both"; place "0 if over 65,535 bytes".
    if len(sheet) > LARGEST_SHEET:
        raise Refused(13, 0)
    reader = Reader(sheet)
    # The first line tells the form: "`set 2`" (document 01), or "Form two
    # begins with `set 9`" (R-6).
    form = reader.fields()
    if form == [b'set', b'2']:
        arguments = read_form_one(reader)
    elif form == [b'set', b'9']:
        arguments = read_form_two(reader)
    else:
        raise reader.fault()
    reader.nothing_after()
    return arguments


def read_form_one(reader):
    # A sheet of form one has no ratios: they are document 01's.  Nor has it a
    # profile: "Profile 0 is document 01 with R-1".  Nor left lists.
    em, measure = read_set(reader, 2)
    base = read_base(reader)
    ruby = read_ruby(reader)
    kind, elem_base, elem_ruby, runs = read_elem(reader)
    return ([em, measure, ONE_TWO_ONE, 0] + base + ruby
            + [kind, elem_base, elem_ruby, runs, None])


def read_form_two(reader):
    # R-6: "`set 9` (form one's two numbers, the six ratio numbers, and one
    # number for the profile, 0 until another is named)", which R-8 does.  The
    # ruby ratio comes first, as in 15's places.  "and has a `left` section
    # after `ruby`".
    em, measure, *six, profile = read_set(reader, 9)
    ratios = (tuple(six[:3]), tuple(six[3:]))
    base = read_base(reader)
    ruby = read_ruby(reader)
    left_class, left_width = read_left(reader)
    elements = read_elem_two(reader)
    left = Left(left_class, left_width, *elements[4:])
    return ([em, measure, ratios, profile] + base + ruby + elements[:4]
            + [left])


def read_set(reader, count):
    # "`set 2` with em and measure, one a line"
    return [reader.numbers(reader.fields(), 1)[0] for _ in range(count)]


def read_base(reader):
    # "`base` (class, width, blank before, blank after, flag)"
    lists = [[], [], [], [], []]
    for _ in range(reader.count(b'base', MOST_BASE, 0)):
        for values, value in zip(lists, reader.numbers(reader.fields(), 5)):
            values.append(value)
    return lists


def read_ruby(reader):
    # "`ruby` (class, width)"
    lists = [[], []]
    for _ in range(reader.count(b'ruby', MOST_RUBY, 1)):
        for values, value in zip(lists, reader.numbers(reader.fields(), 2)):
            values.append(value)
    return lists


def read_left(reader):
    # R-6: the `left` section, in the form of `ruby`.  R-5: "2 ... as for
    # right ones, ... with places 3 for the count".
    lists = [[], []]
    for _ in range(reader.count(b'left', MOST_LEFT, 3)):
        for values, value in zip(lists, reader.numbers(reader.fields(), 2)):
            values.append(value)
    return lists


def read_elem(reader):
    # "`elem` (`P`, `M r`, `G b r`, `J b` and b run lengths, b from 1 to 32)"
    # Counts that a kind doesn't show are not read; they are given as 0.
    kind, elem_base, elem_ruby, runs = [], [], [], []
    for _ in range(reader.count(b'elem', MOST_ELEMENTS, 2)):
        letter, base, ruby, own_runs = read_element(reader)
        kind.append(letter)
        elem_base.append(base)
        elem_ruby.append(ruby)
        runs += own_runs
    return kind, elem_base, elem_ruby, runs


def read_element(reader):
    return read_right(reader, reader.fields())


def read_right(reader, fields):
    letter, texts = fields[0], fields[1:]
    if letter == b'P':
        reader.numbers(texts, 0)
        return P, 0, 0, []
    if letter == b'M':
        ruby, = reader.numbers(texts, 1)
        return M, 0, ruby, []
    if letter == b'G':
        base, ruby = reader.numbers(texts, 2)
        return G, base, ruby, []
    if letter == b'J':
        values = reader.numbers(texts, len(texts))
        if len(values) == 0 or not 1 <= values[0] <= 32:
            raise reader.fault()
        if len(values) != 1 + values[0]:
            raise reader.fault()
        return J, values[0], 0, values[1:]
    raise reader.fault()


def read_elem_two(reader):
    """kind, base count, ruby count, runs; left kind, left count, left runs."""
    lists = [[], [], [], [], [], [], []]
    for _ in range(reader.count(b'elem', MOST_ELEMENTS, 2)):
        values = read_element_two(reader)
        for place in (0, 1, 2, 4, 5):
            lists[place].append(values[place])
        for place in (3, 6):
            lists[place] += values[place]
    return lists


def read_element_two(reader):
    # R-6: "each M, G and J line ends in a letter for the left kind (M, G, J;
    # N for none) and its counts".  A P line has no letter.
    fields = reader.fields()
    at = place_of_left_letter(fields)
    kind, base, ruby, runs = read_right(reader, fields[:at])
    if kind == P and at == len(fields):
        return P, base, ruby, runs, N, 0, []
    if kind == P or at == len(fields):
        raise reader.fault()
    return (kind, base, ruby, runs, *read_left_counts(
        reader, kind, base, fields[at], fields[at + 1:]))


def place_of_left_letter(fields):
    """Where it has to be: behind the letter and all that are numbers."""
    at = 1
    while at < len(fields) and fields[at].isdigit():
        at += 1
    return at


def read_left_counts(reader, kind, base, letter, texts):
    # A left G has one count; a left M or J one for each base character of the
    # element, without a count before them, also where the element doesn't take
    # the kind (16).  The one of a left M on M is the left count, the others
    # are left runs.  An M has one base character.
    if letter == b'N':
        reader.numbers(texts, 0)
        return N, 0, []
    if letter == b'G':
        count, = reader.numbers(texts, 1)
        return G, count, []
    if letter == b'M' and kind == M:
        count, = reader.numbers(texts, 1)
        return M, count, []
    if letter not in (b'M', b'J'):
        raise reader.fault()
    runs = reader.numbers(texts, 1 if kind == M else base)
    return ord(letter), 0, runs


# ---------------------------------------------------------------------------
# The setting program
# ---------------------------------------------------------------------------

def answer(sheet):
    # "The setting program reads a sheet on standard input and writes
    # `refused N P`, or a result."
    try:
        arguments = read_sheet(sheet)
    except Refused as refusal:
        return refused_text(refusal.number, refusal.place)
    base_out = [0] * MOST_BASE
    ruby_out = [0] * MOST_RUBY
    left_out = [0] * MOST_LEFT
    line_out = [0] * MOST_BASE
    result = set_job(*arguments, base_out, ruby_out, left_out, line_out)
    if result[0] == 'refused':
        return refused_text(result[1], result[2])
    return result_text(arguments, base_out, (ruby_out, left_out),
                       line_out[:result[1]])


def refused_text(number, place):
    return b'refused %d %d\n' % (number, place)


def result_text(arguments, base_out, ruby_outs, ends):
    # "`lines` has the number of lines, `line` the extent; `b` and `r` have
    # index and position, element by element, base before ruby."  R-5's left
    # positions are `l`, after the `r` of the element.
    job = sound_job(arguments)
    parts = printed_parts(job, ends)
    text = [b'lines %d\n' % len(ends)]
    for end in ends:
        in_line = []
        while len(parts) > 0 and parts[0][0][-1] < end:
            in_line.append(parts.pop(0))
        extent = line_extent(job, in_line, base_out, ruby_outs)
        text.append(b'line %d\n' % extent)
        for bases, rubies, lefts in in_line:
            text += [b'b %d %d\n' % (i, base_out[i]) for i in bases]
            text += [b'r %d %d\n' % (i, ruby_outs[RIGHT][i]) for i in rubies]
            text += [b'l %d %d\n' % (i, ruby_outs[LEFT][i]) for i in lefts]
    return b''.join(text)


def sound_job(arguments):
    """The job with its elements.

    Asked of jobs that are accepted or refused by number 11: their elements
    have passed every check.
    """
    job = Job(*arguments)
    take_elements(job)
    return job


def printed_parts(job, ends):
    """(base, ruby, left indices) of every element, cut at the lines' ends.

    Asked of accepted jobs only.  A J with a mono left reading is one element
    here: "element by element, base before ruby".
    """
    parts = []
    for element in job.elements:
        for first, end in cut_by_lines(element, ends):
            readings = readings_of_part(job, element, first, end)
            parts.append((range(first, end), *map(indices, readings)))
    return parts


def cut_by_lines(element, ends):
    # Level one: "A J cut by a line end is two words"; each part is printed
    # in its own line.  No line ends within another element.
    first, end = element.base_first, element.base_end
    cuts = []
    if end - first > 1:
        cuts = [cut for cut in ends if first < cut < end]
    return zip([first] + cuts, cuts + [end])


def indices(reading):
    if reading is None:
        return range(0)
    return range(reading.first, reading.first + len(reading.widths))


def line_extent(job, parts, base_out, ruby_outs):
    # Level two: "The line's extent is the furthest end of any block or ruby
    # in it."
    ends = []
    for part in parts:
        for numbers, positions, widths in zip(
                part, (base_out, *ruby_outs),
                (job.base_width, job.ruby_width, job.left_width)):
            ends += [positions[i] + 2 * widths[i] for i in numbers]
    return max(ends)


# ---------------------------------------------------------------------------
# Many sheets in one run
# ---------------------------------------------------------------------------

def read_frame(stream, name):
    """The bytes of the next `name LENGTH` frame, or None at the end."""
    head = stream.readline()
    if head == b'':
        return None
    fields = head.rstrip(b'\n').split(b' ')
    if len(fields) != 2 or fields[0] != name or not fields[1].isdigit():
        raise ValueError('not a frame: %r' % head[:80])
    length = int(fields[1])
    content = stream.read(length)
    if len(content) != length:
        raise ValueError('a frame is cut short')
    return content


def write_frame(stream, name, content):
    stream.write(b'%s %d\n' % (name, len(content)))
    stream.write(content)


def status_of(text):
    """The status after one sheet: 1 where it is refused."""
    return 1 if text.startswith(b'refused ') else 0


def answer_input(arguments, answered):
    """Answers one sheet, or with --framed many; the exit status."""
    if arguments == []:
        text = answered(sys.stdin.buffer.read())
        sys.stdout.buffer.write(text)
        return status_of(text)
    sheet = read_frame(sys.stdin.buffer, b'sheet')
    while sheet is not None:
        write_frame(sys.stdout.buffer, b'answer', answered(sheet))
        sheet = read_frame(sys.stdin.buffer, b'sheet')
    return 0


def main(arguments):
    """The exit status."""
    if arguments not in ([], ['--framed']):
        sys.exit('usage: second.py [--framed]')
    return answer_input(arguments, answer)


if __name__ == '__main__':
    sys.exit(main(sys.argv[1:]))
