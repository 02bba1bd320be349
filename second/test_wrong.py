"""Wrong engines, each wrong in one way, and that the comparison finds them.

    python3 second/test_wrong.py

Every entry of WRONG replaces some functions of the second program by wrong
ones: the drawings that document 01 doesn't want to see again, readings of 01
that are not ours, and slips at an edge.  Some of the first 1,500 sheets of
seed 1 have to show each of them.  WRONG_BY_RATIOS and WRONG_BY_PROFILE have
what sheets cannot show, readings of R-4 and of R-8 that are not ours and slips
in them; some of the first 1,000 jobs in lists of seed 1 have to show each of
those.  WRONG_BY_LEFT has the same of R-5, and some of the first 2,000 jobs
with left readings have to show it; WRONG_ACCOUNTS replaces functions of
account.py, and the accounts of such jobs show it.  WRONG_BY_FORM has what is
wrong in reading sheets of form two (R-6), and WRONG_CONVERTERS replaces
functions of convert.py; some of the first 2,500 sheets of both forms have to
show each of them.
"""

import copy
import os
import sys
import unittest
from unittest import mock

HERE = os.path.dirname(os.path.abspath(__file__))
sys.path.insert(0, HERE)

import account      # noqa: E402  (found through the path set above)
import convert      # noqa: E402
import generate     # noqa: E402
import generate_lists   # noqa: E402
import generate_two     # noqa: E402
import second       # noqa: E402
from second import G, J, LEFT, M, N, P, RIGHT, Refused  # noqa: E402

right = {name: value for name, value in vars(second).items()
         if callable(value)}
WRONG = {}
WRONG_BY_RATIOS = {}
WRONG_BY_PROFILE = {}
WRONG_BY_LEFT = {}
WRONG_ACCOUNTS = {}
WRONG_BY_FORM = {}
WRONG_CONVERTERS = {}


def wrong(name, among=WRONG):
    """The function below gives the replacements of the wrong engine."""
    def put(replacements):
        assert name not in among, name
        among[name] = replacements()
        return replacements
    return put


def wrong_by_ratios(name):
    return wrong(name, WRONG_BY_RATIOS)


def wrong_by_profile(name):
    return wrong(name, WRONG_BY_PROFILE)


def wrong_by_left(name):
    return wrong(name, WRONG_BY_LEFT)


def wrong_account(name):
    return wrong(name, WRONG_ACCOUNTS)


def wrong_by_form(name):
    return wrong(name, WRONG_BY_FORM)


def wrong_converter(name):
    return wrong(name, WRONG_CONVERTERS)


# ---------------------------------------------------------------------------
# Level one
# ---------------------------------------------------------------------------

@wrong('the half-em limit applied to Western base')
def _():
    def set_group(em, ratios, base_western, base, ruby_western, ruby):
        if base_western and sum(ruby) < sum(base):
            return second.spread_ruby(ratios, base, ruby, em)
        return right['set_group'](em, ratios, base_western, base,
                                  ruby_western, ruby)
    return {'set_group': set_group}


@wrong('the half-em limit applied to base being spread')
def _():
    def set_group(em, ratios, base_western, base, ruby_western, ruby):
        if not base_western and sum(ruby) > sum(base):
            positions = second.spread(base, sum(ruby) - sum(base), ratios[1],
                                      em)
            return positions, second.one_after_another(0, ruby)
        return right['set_group'](em, ratios, base_western, base,
                                  ruby_western, ruby)
    return {'set_group': set_group}


@wrong('the half-em limit taken as em units')
def _():
    def spread(widths, difference, ratio, limit):
        return right['spread'](widths, difference, ratio,
                               None if limit is None else 2 * limit)
    return {'spread': spread}


@wrong('a jukugo run compared with the sum of base widths')
def _():
    def set_jukugo(em, ratios, base, runs, ruby_western, ruby):
        return right['set_jukugo'](sum(base), ratios, base, runs,
                                   ruby_western, ruby)
    return {'set_jukugo': set_jukugo}


@wrong('a run of exactly one em taken as longer')
def _():
    def set_jukugo(em, ratios, base, runs, ruby_western, ruby):
        pieces = second.cut_into_runs(runs, ruby)
        if any(sum(piece) >= em for piece in pieces):
            return second.set_group(em, ratios, False, base,
                                    ruby_western, ruby)
        return right['set_jukugo'](em, ratios, base, runs, ruby_western, ruby)
    return {'set_jukugo': set_jukugo}


@wrong('a single spread character pushed to the front')
def _():
    def spread(widths, difference, ratio, limit):
        if len(widths) == 1:
            return [0]
        return right['spread'](widths, difference, ratio, limit)
    return {'spread': spread}


@wrong('a single spread character held by the limit')
def _():
    def spread(widths, difference, ratio, limit):
        if len(widths) == 1 and limit is not None:
            return [min(difference, limit)]
        return right['spread'](widths, difference, ratio, limit)
    return {'spread': spread}


@wrong('equal inner gaps, rounded down: the remainder dropped')
def _():
    def spread(widths, difference, ratio, limit):
        n = len(widths)
        positions = right['spread'](widths, difference, ratio, limit)
        if n == 1:
            return positions
        inner = (2 * difference - 2 * positions[0]) // (n - 1)
        return [positions[0] + 2 * sum(widths[:i]) + inner * i
                for i in range(n)]
    return {'spread': spread}


def by_pencil(full):
    """A spread by a quotient and a remainder carried from gap to gap.

    `full(n, before, left)` says whether a gap gets one half unit more: n is
    the number of characters, `before` what was carried up to this gap and
    `left` that and the remainder.  R-2 has left >= n - 1.
    """
    def spread(widths, difference, ratio, limit):
        n = len(widths)
        if n == 1:
            return right['spread'](widths, difference, ratio, limit)
        front, rear = second.end_gaps(n, difference, ratio, limit)
        quotient, remainder = divmod(2 * difference - front - rear, n - 1)
        positions, carried = [front], 0
        for width in widths[:-1]:
            left = carried + remainder
            more = full(n, carried, left)
            carried = left - (n - 1) if more else left
            positions.append(positions[-1] + 2 * width + quotient
                             + (1 if more else 0))
        return positions
    return {'spread': spread}


@wrong('the carry taken one gap late')
def _():
    return by_pencil(lambda n, before, left: before >= n - 1)


@wrong('the carried remainder compared with n instead of n - 1')
def _():
    return by_pencil(lambda n, before, left: left >= n)


@wrong('mono ruby spread')
def _():
    def set_mono(base, ruby):
        if sum(ruby) < sum(base):
            return second.spread_ruby(second.ONE_TWO_ONE, base, ruby, None)
        return right['set_mono'](base, ruby)
    return {'set_mono': set_mono}


@wrong('a part set by the long run of another part')
def _():
    def ruby_word(job, element, first, end):
        whole = right['ruby_word'](job, element, element.base_first,
                                   element.base_end)
        word = right['ruby_word'](job, element, first, end)
        runs = second.cut_into_runs(
            element.runs, job.ruby_width[element.ruby_first:element.ruby_end])
        if (element.kind == J and end - first > 1 and whole is not word
                and any(sum(run) > job.em for run in runs)):
            base = job.base_width[first:end]
            ruby, _ = second.readings_of_part(job, element, first, end)
            places = second.set_group(job.em, job.ratios, False, base,
                                      ruby.western, ruby.widths)
            return second.Word(first, places[0], places[0][-1] + 2 * base[-1],
                               second.Ruby(ruby, places[1]), None)
        return word
    return {'ruby_word': ruby_word}


# ---------------------------------------------------------------------------
# Level two
# ---------------------------------------------------------------------------

@wrong('rubies that may overlap')
def _():
    return {'broken_3': lambda *_: 0}


@wrong('one squeezed space used by the rubies at both its ends')
def _():
    def broken_between(earlier, earlier_at, later, later_at, neighbours):
        if neighbours:
            return right['broken_between'](earlier, earlier_at, later,
                                           later_at, neighbours)
        return second.broken_1(earlier, earlier_at, later, later_at)
    return {'broken_between': broken_between}


@wrong('base brought to the line\'s edge with ruby outside it')
def _():
    def least_setting(words, limit):
        origins = right['least_setting'](words, limit)
        edge = words[0].block_start
        return origins and [origin - edge for origin in origins]
    return {'least_setting': least_setting}


@wrong('ruby that comes out behind a narrow blank')
def _():
    def broken_2_forward(earlier, earlier_at, later, later_at, neighbours,
                         side):
        if neighbours and later.depth_before == later.block_end:
            return 0
        return right['broken_2_forward'](earlier, earlier_at, later, later_at,
                                         neighbours, side)
    return {'broken_2_forward': broken_2_forward}


@wrong('half an em on class 5')
def _():
    return {'greatest_depth': lambda job, cls: job.em}


@wrong('a quarter em for every class')
def _():
    return {'greatest_depth': lambda job, cls: job.em // 2}


@wrong('no limit on the depth')
def _():
    return {'greatest_depth': lambda job, cls: 10 ** 9}


@wrong('no ruby on a space before it')
def _():
    def depth_before(job, index):
        return (0 if job.base_class[index] == 14
                else right['depth_before'](job, index))
    return {'depth_before': depth_before}


def opens_with_space(job):
    """Whether R-1 holds for the job's first element."""
    return job.elements[0].kind == P and job.base_class[0] == 14


@wrong('ruby on the opening indent')
def _():
    return {'blank_of_space': lambda job, index: job.base_width[index]}


@wrong('no ruby on a space at the start of any line')
def _():
    def words_of_line(job, owner, first, end):
        words = right['words_of_line'](job, owner, first, end)
        if job.base_class[first] == 14:
            words[0] = copy.copy(words[0])
            words[0].depth_after = 0
        return words
    return {'words_of_line': words_of_line}


@wrong('no ruby on the second space of an indent either')
def _():
    def blank_of_space(job, index):
        if index == 1 and opens_with_space(job):
            return 0
        return right['blank_of_space'](job, index)
    return {'blank_of_space': blank_of_space}


@wrong('no ruby on the first space of the job, wherever it stands')
def _():
    def blank_of_space(job, index):
        if index == job.base_class.index(14):
            return 0
        return right['blank_of_space'](job, index)
    return {'blank_of_space': blank_of_space}


@wrong('no ruby on the first element, whatever its class')
def _():
    def depth_after(job, index):
        return 0 if index == 0 else right['depth_after'](job, index)
    return {'depth_after': depth_after}


@wrong('ruby on the opening indent where the line would be too long')
def _():
    def try_line(job, owner, first, end):
        line = right['try_line'](job, owner, first, end)
        if line is None and first == 0 and opens_with_space(job):
            job.words.clear()
            with mock.patch.object(second, 'blank_of_space',
                                   lambda job, index: job.base_width[index]):
                line = right['try_line'](job, owner, first, end)
            job.words.clear()
        return line
    return {'try_line': try_line}


@wrong('a word over a space refused at the start of the job')
def _():
    def check_blanks_inside(job, element, place):
        right['check_blanks_inside'](job, element, place)
        if place == 0 and element.kind != P and job.base_class[0] == 14:
            raise Refused(7, place)
    return {'check_blanks_inside': check_blanks_inside}


@wrong('a line that just fits declined')
def _():
    return {'broken_4': lambda word, at, limit: at + word.end >= limit}


@wrong('a line one half unit too long')
def _():
    return {'broken_4': lambda word, at, limit: at + word.end > limit + 1,
            'plainly_too_long': lambda *_: False}


@wrong('base blocks alone held to the measure')
def _():
    return {'broken_4': lambda word, at, limit: at + word.block_end > limit,
            'plainly_too_long': lambda *_: False}


# ---------------------------------------------------------------------------
# Lines
# ---------------------------------------------------------------------------

@wrong('the nearest break')
def _():
    def fill_line(job, owner, breaks, first):
        for end in breaks:
            line = (second.try_line(job, owner, first, end) if end > first
                    else None)
            if line is not None:
                return end, line
        raise Refused(11, first)
    return {'fill_line': fill_line}


@wrong('all flags of a group consulted')
def _():
    def permitted_breaks(job):
        shut = {element.base_end for element in job.elements[:-1]
                if element.kind == G
                and 0 in job.flag[element.base_first:element.base_end]}
        return [end for end in right['permitted_breaks'](job)
                if end not in shut]
    return {'permitted_breaks': permitted_breaks}


@wrong('no break inside a jukugo')
def _():
    def permitted_breaks(job):
        ends = {element.base_end for element in job.elements}
        return [end for end in right['permitted_breaks'](job) if end in ends]
    return {'permitted_breaks': permitted_breaks}


@wrong('no break at the end of the job without a flag')
def _():
    def permitted_breaks(job):
        breaks = right['permitted_breaks'](job)
        if breaks and job.flag[breaks[-1] - 1] == 0:
            breaks.pop()
        return breaks
    return {'permitted_breaks': permitted_breaks}


# ---------------------------------------------------------------------------
# Refusals
# ---------------------------------------------------------------------------

@wrong('every 3 before every 4')
def _():
    def check_characters(job):
        for index in range(job.base_count):
            second.check_base_character(job, index)
        for index in range(job.base_count):
            second.check_blanks(job, index)
        for index in range(job.ruby_count):
            second.check_ruby_character(job, index)
    return {'check_characters': check_characters}


@wrong('ruby places without 1,024')
def _():
    def check_ruby_character(job, index):
        try:
            right['check_ruby_character'](job, index)
        except Refused:
            raise Refused(3, index)
    return {'check_ruby_character': check_ruby_character}


@wrong('blanks whose sum wraps')
def _():
    def check_blanks(job, index):
        cls, before = job.base_class[index], job.blank_before[index]
        after = job.blank_after[index]
        if cls == 5 and (before + after) % 2 ** 32 <= job.base_width[index]:
            return
        right['check_blanks'](job, index)
    return {'check_blanks': check_blanks}


@wrong('runs whose sum wraps')
def _():
    def element_counts(job, place, taken):
        if job.kind[place] == J:
            runs = [second.run_at(job.runs, taken + i)
                    for i in range(job.elem_base[place])]
            if 0 not in runs and sum(runs) % 2 ** 32 <= 64:
                return len(runs), sum(runs) % 2 ** 32, runs
        return right['element_counts'](job, place, taken)
    return {'element_counts': element_counts}


@wrong('9 before 8')
def _():
    def check_jukugo_base(job, element, place):
        second.check_mixture(job, element, place)
        right['check_jukugo_base'](job, element, place)
    return {'check_jukugo_base': check_jukugo_base}


@wrong('10 before 9')
def _():
    def check_mixture(job, element, place):
        second.check_western_over_western(job, element, place)
        right['check_mixture'](job, element, place)
    return {'check_mixture': check_mixture}


@wrong('class 26 taken as Western')
def _():
    def check_mixture(job, element, place):
        base = job.base_class[element.base_first:element.base_end]
        ruby = job.ruby_class[element.ruby_first:element.ruby_end]
        for classes in (base, ruby):
            western = [cls in (24, 25, 26, 27) for cls in classes]
            if element.kind in (G, J) and any(western) and not all(western):
                raise Refused(9, place)
    return {'check_mixture': check_mixture}


@wrong('blanks inside a word allowed')
def _():
    return {'check_blanks_inside': lambda *_: None}


@wrong('left over counted from the last element')
def _():
    def take_elements(job):
        try:
            right['take_elements'](job)
        except Refused as refusal:
            if (refusal.number, refusal.place) == (6, job.element_count):
                raise Refused(6, max(0, job.element_count - 1))
            raise
    return {'take_elements': take_elements}


@wrong('11 with the place of the job')
def _():
    def fill_line(*arguments):
        try:
            return right['fill_line'](*arguments)
        except Refused:
            raise Refused(11, 0)
    return {'fill_line': fill_line}


@wrong('an odd em')
def _():
    def check_sizes(job):
        if not (job.em % 2 == 1 and 2 <= job.em <= 4096):
            right['check_sizes'](job)
        elif not 1 <= job.measure <= 4000000:
            raise Refused(1, 1)
    return {'check_sizes': check_sizes}


# ---------------------------------------------------------------------------
# The sheet and the result
# ---------------------------------------------------------------------------

def reader(**methods):
    """A reader with some of its methods replaced."""
    return {'Reader': type('Slip', (right['Reader'],), methods)}


@wrong('a number that wraps at 4,294,967,296')
def _():
    def number(self, text):
        if len(text) == 10 and text.isdigit() and text[:1] != b'0':
            return int(text) % 2 ** 32
        return right['Reader'].number(self, text)
    return reader(number=number)


@wrong('leading zeros')
def _():
    def number(self, text):
        if text.isdigit() and len(text) <= 10:
            return right['Reader'].number(self, text.lstrip(b'0') or b'0')
        return right['Reader'].number(self, text)
    return reader(number=number)


@wrong('a last line without LF')
def _():
    def fields(self):
        if self.sheet.find(b'\n', self.place) < 0 and (
                self.place < len(self.sheet)):
            self.sheet += b'\n'
        return right['Reader'].fields(self)
    return reader(fields=fields)


@wrong('CR before LF')
def _():
    def fields(self):
        return [field.rstrip(b'\r') for field in right['Reader'].fields(self)]
    return reader(fields=fields)


@wrong('tabs and several spaces')
def _():
    def fields(self):
        return b' '.join(right['Reader'].fields(self)).split() or [b'']
    return reader(fields=fields)


@wrong('bytes after the last line')
def _():
    return reader(nothing_after=lambda self: None)


@wrong('bytes after the last line blamed on the last line')
def _():
    def nothing_after(self):
        if self.place < len(self.sheet):
            raise self.fault()
    return reader(nothing_after=nothing_after)


@wrong('count before form within a line')
def _():
    def count(self, name, most, place):
        line = self.sheet[self.place:].split(b'\n')[0].split(b' ')
        if (len(line) > 1 and line[0] == name and line[1].isdigit()
                and int(line[1]) > most):
            raise Refused(2, place)
        return right['Reader'].count(self, name, most, place)
    return reader(count=count)


@wrong('a count judged after the whole sheet')
def _():
    def read_sheet(sheet):
        try:
            return right['read_sheet'](sheet)
        except Refused as refusal:
            if refusal.number == 2:
                with mock.patch.multiple(second, MOST_BASE=10 ** 10,
                                         MOST_RUBY=10 ** 10,
                                         MOST_ELEMENTS=10 ** 10):
                    right['read_sheet'](sheet)
            raise
    return {'read_sheet': read_sheet}


@wrong('65,536 bytes')
def _():
    return {'LARGEST_SHEET': 65536}


@wrong('65,534 bytes')
def _():
    return {'LARGEST_SHEET': 65534}


@wrong('J 0 and J 33 as number 5')
def _():
    def read_element(reader):
        start = reader.place
        fields = reader.sheet[start:].split(b'\n')[0].split(b' ')
        if (fields[0] == b'J' and len(fields) > 1 and fields[1].isdigit()
                and len(fields) == 2 + int(fields[1])):
            reader.fields()
            values = reader.numbers(fields[1:], len(fields) - 1)
            return J, values[0], 0, values[1:]
        return right['read_element'](reader)
    return {'read_element': read_element}


@wrong('a jukugo printed character by character')
def _():
    def cut_by_lines(element, ends):
        if element.kind == J:
            return [(index, index + 1) for index
                    in range(element.base_first, element.base_end)]
        return right['cut_by_lines'](element, ends)
    return {'cut_by_lines': cut_by_lines}


@wrong('the extent of base blocks alone')
def _():
    def line_extent(job, parts, base_out, ruby_outs):
        return max(base_out[i] + 2 * job.base_width[i]
                   for bases, *_ in parts for i in bases)
    return {'line_extent': line_extent}


@wrong('the extent in units')
def _():
    return {'line_extent':
            lambda *arguments: right['line_extent'](*arguments) // 2}


# ---------------------------------------------------------------------------
# R-4: the ratios
# ---------------------------------------------------------------------------

def ends(change):
    """end_gaps with `change(n, 2D, ratio, limit, front, rear)` after it."""
    def end_gaps(n, difference, ratio, limit):
        front, rear = right['end_gaps'](n, difference, ratio, limit)
        return change(n, 2 * difference, ratio, limit, front, rear)
    return {'end_gaps': end_gaps}


def ends_where_held(change):
    """The same with the gaps before the limit, where that holds."""
    def end_gaps(n, difference, ratio, limit):
        held = right['end_gaps'](n, difference, ratio, limit)
        free = right['end_gaps'](n, difference, ratio, None)
        return held if held == free else change(limit, *free)
    return {'end_gaps': end_gaps}


def moved_by(ratios, base, ruby):
    """Solid, but with the shorter string moved by its ratio, as one."""
    difference = abs(sum(base) - sum(ruby))
    front = second.gap_before_one(difference, ratios[sum(base) < sum(ruby)])
    return (second.one_after_another(front if sum(base) < sum(ruby) else 0,
                                     base),
            second.one_after_another(front if sum(ruby) < sum(base) else 0,
                                     ruby))


@wrong_by_ratios('ratios that are not read')
def _():
    def spread(widths, difference, ratio, limit):
        return right['spread'](widths, difference, (1, 2, 1), limit)
    return {'spread': spread}


@wrong_by_ratios('the half-em limit with m = 0, the rest inside')
def _():
    def change(n, space, ratio, limit, front, rear):
        if ratio[1] == 0 and limit is not None:
            return min(front, limit), min(rear, limit)
        return front, rear
    return ends(change)


@wrong_by_ratios('the half-em limit with m = 0, the rest behind')
def _():
    def change(n, space, ratio, limit, front, rear):
        if ratio[1] == 0 and limit is not None:
            return min(front, limit), space - min(front, limit)
        return front, rear
    return ends(change)


@wrong_by_ratios('the front alone held by the limit')
def _():
    return ends_where_held(
        lambda limit, front, rear: (min(front, limit), rear))


@wrong_by_ratios('the rear alone held by the limit')
def _():
    return ends_where_held(
        lambda limit, front, rear: (front, min(rear, limit)))


@wrong_by_ratios('both ends at the limit where one is held')
def _():
    return ends_where_held(lambda limit, front, rear: (limit, limit))


@wrong_by_ratios('the narrower end at both where one is held')
def _():
    def change(limit, front, rear):
        return (min(front, rear, limit),) * 2
    return ends_where_held(change)


@wrong_by_ratios('no limit unless both ends pass it')
def _():
    def change(limit, front, rear):
        if min(front, rear) <= limit:
            return front, rear
        return limit, limit
    return ends_where_held(change)


@wrong_by_ratios('what the limit takes given to the other end')
def _():
    def change(limit, front, rear):
        return (min(front, limit) + max(0, rear - limit),
                min(rear, limit) + max(0, front - limit))
    return ends_where_held(change)


@wrong_by_ratios('what the limit takes in front given to the rear')
def _():
    def change(limit, front, rear):
        return min(front, limit), min(rear, limit) + max(0, front - limit)
    return ends_where_held(change)


@wrong_by_ratios('the limit for one character')
def _():
    def spread(widths, difference, ratio, limit):
        positions = right['spread'](widths, difference, ratio, limit)
        if len(widths) == 1 and limit is not None:
            return [min(positions[0], limit)]
        return positions
    return {'spread': spread}


@wrong_by_ratios('inner gaps by their share, the rear from what is left')
def _():
    def spread(widths, difference, ratio, limit):
        (a, m, c), n = ratio, len(widths)
        front = right['spread'](widths, difference, ratio, limit)[0]
        if n == 1 or m == 0 or limit is not None:
            return right['spread'](widths, difference, ratio, limit)
        inner = 2 * difference * m // (a + m * (n - 1) + c)
        return [front + 2 * sum(widths[:i]) + inner * i for i in range(n)]
    return {'spread': spread}


@wrong_by_ratios('all inner gaps by their share, the rear from what is left')
def _():
    def change(n, space, ratio, limit, front, rear):
        a, m, c = ratio
        if m == 0 or limit is not None:
            return front, rear
        inner = space * m * (n - 1) // (a + m * (n - 1) + c)
        return front, space - front - inner
    return ends(change)


@wrong_by_ratios('the front taking what is left with m = 0')
def _():
    def change(n, space, ratio, limit, front, rear):
        a, m, c = ratio
        if m == 0:
            rear = space * c // (a + c)
            return space - rear, rear
        return front, rear
    return ends(change)


@wrong_by_ratios('what is left inside with m = 0')
def _():
    def change(n, space, ratio, limit, front, rear):
        a, m, c = ratio
        return front, (space * c // (a + c) if m == 0 else rear)
    return ends(change)


@wrong_by_ratios('the front gap at both ends')
def _():
    return ends(lambda n, space, ratio, limit, front, rear:
                (front, min(front, space - front)))


@wrong_by_ratios('a and c exchanged')
def _():
    def spread(widths, difference, ratio, limit):
        return right['spread'](widths, difference, ratio[::-1], limit)
    return {'spread': spread}


@wrong_by_ratios('m counted n times')
def _():
    def end_gaps(n, difference, ratio, limit):
        if ratio[1] == 0:
            return right['end_gaps'](n, difference, ratio, limit)
        return right['end_gaps'](n + 1, difference, ratio, limit)
    return {'end_gaps': end_gaps}


@wrong_by_ratios('m counted once')
def _():
    def end_gaps(n, difference, ratio, limit):
        return right['end_gaps'](2, difference, ratio, limit)
    return {'end_gaps': end_gaps}


@wrong_by_ratios('shares of D and not of 2D')
def _():
    def end_gaps(n, difference, ratio, limit):
        a, m, c = ratio
        front, rear = right['end_gaps'](n, difference, ratio, limit)
        return front // 2, rear // 2 if m else 2 * difference - front // 2
    return {'end_gaps': end_gaps}


@wrong_by_ratios('end gaps rounded up')
def _():
    def change(n, space, ratio, limit, front, rear):
        a, m, c = ratio
        total = a + m * (n - 1) + c
        if m == 0 or limit is not None:
            return front, rear
        return -(-space * a // total), -(-space * c // total)
    return ends(change)


@wrong_by_ratios('one character with a = c = 0 at the front')
def _():
    def gap_before_one(difference, ratio):
        if ratio[0] == 0:
            return 0
        return right['gap_before_one'](difference, ratio)
    return {'gap_before_one': gap_before_one}


@wrong_by_ratios('one character always centred')
def _():
    return {'gap_before_one': lambda difference, ratio: difference}


@wrong_by_ratios('one character with m counted')
def _():
    def gap_before_one(difference, ratio):
        return 2 * difference * ratio[0] // sum(ratio)
    return {'gap_before_one': gap_before_one}


@wrong_by_ratios('one character centred with a or c 0')
def _():
    def gap_before_one(difference, ratio):
        if ratio[0] == 0 or ratio[2] == 0:
            return difference
        return right['gap_before_one'](difference, ratio)
    return {'gap_before_one': gap_before_one}


@wrong_by_ratios('the base ratio for ruby')
def _():
    def spread_ruby(ratios, base, ruby, limit):
        return right['spread_ruby']((ratios[1], ratios[1]), base, ruby, limit)
    return {'spread_ruby': spread_ruby}


@wrong_by_ratios('the ruby ratio for base')
def _():
    def spread_base(ratios, base, ruby):
        return right['spread_base']((ratios[0], ratios[0]), base, ruby)
    return {'spread_base': spread_base}


@wrong_by_ratios('ratios applied to mono ruby')
def _():
    asked = []

    def ruby_word(job, element, first, end):
        asked[:] = job.ratios
        return right['ruby_word'](job, element, first, end)
    return {'ruby_word': ruby_word,
            'set_mono': lambda base, ruby: moved_by(asked, base, ruby)}


@wrong_by_ratios('ratios applied to jukugo runs')
def _():
    def set_jukugo(em, ratios, base, runs, ruby_western, ruby):
        with mock.patch.object(
                second, 'solid', lambda one, run: moved_by(ratios, one, run)):
            pieces = second.cut_into_runs(runs, ruby)
            if all(sum(piece) <= em for piece in pieces):
                return right['set_jukugo'](em, ratios, base, runs,
                                           ruby_western, ruby)
        return right['set_jukugo'](em, ratios, base, runs, ruby_western, ruby)
    return {'set_jukugo': set_jukugo}


@wrong_by_ratios('ratios applied to solid Western ruby')
def _():
    def set_group(em, ratios, base_western, base, ruby_western, ruby):
        if ruby_western and sum(ruby) < sum(base):
            return moved_by(ratios, base, ruby)
        return right['set_group'](em, ratios, base_western, base,
                                  ruby_western, ruby)
    return {'set_group': set_group}


@wrong_by_ratios('ratios applied to solid Western base')
def _():
    def set_group(em, ratios, base_western, base, ruby_western, ruby):
        if base_western and sum(ruby) > sum(base):
            return moved_by(ratios, base, ruby)
        return right['set_group'](em, ratios, base_western, base,
                                  ruby_western, ruby)
    return {'set_group': set_group}


@wrong_by_ratios('a part of one character by the base ratio')
def _():
    return {'is_cut': lambda element, first, end: False}


@wrong_by_ratios('a jukugo of one character set as mono')
def _():
    return {'is_cut': lambda element, first, end: True}


@wrong_by_ratios('a jukugo as a group always by 1:2:1')
def _():
    def set_jukugo(em, ratios, *rest):
        return right['set_jukugo'](em, second.ONE_TWO_ONE, *rest)
    return {'set_jukugo': set_jukugo}


@wrong_by_ratios('the protrusion in front taken for both ends')
def _():
    def ruby_word(job, element, first, end):
        word = right['ruby_word'](job, element, first, end)
        ruby = word.rubies[second.RIGHT]
        if ruby.start < word.block_start or ruby.end > word.block_end:
            ruby.end = word.block_end + (word.block_start - ruby.start)
        return word
    return {'ruby_word': ruby_word}


@wrong_by_ratios('the protrusion behind taken for both ends')
def _():
    def ruby_word(job, element, first, end):
        word = right['ruby_word'](job, element, first, end)
        ruby = word.rubies[second.RIGHT]
        if ruby.start < word.block_start or ruby.end > word.block_end:
            ruby.start = word.block_start - (ruby.end - word.block_end)
        return word
    return {'ruby_word': ruby_word}


def judged(*numbers_and_zeros):
    """check_ratios by conditions in turn, each for a place."""
    def check_ratios(job):
        for place, is_bad in numbers_and_zeros:
            if is_bad(job.ratios[place]):
                raise Refused(15, place)
    return {'check_ratios': check_ratios}


def over(most):
    return lambda ratio: max(ratio) > most


def zeros(ratio):
    return not any(ratio)


@wrong_by_ratios('15 ahead of 1')
def _():
    def check_sizes(job):
        second.check_ratios(job)
        right['check_sizes'](job)
    return {'check_sizes': check_sizes}


@wrong_by_ratios('15 between em and measure')
def _():
    def check_sizes(job):
        if job.em % 2 != 0 or not 2 <= job.em <= 4096:
            raise Refused(1, 0)
        second.check_ratios(job)
        right['check_sizes'](job)
    return {'check_sizes': check_sizes}


@wrong_by_ratios('15 after 2')
def _():
    def check_counts(job):
        right['check_counts'](job)
        right['check_ratios'](job)
    return {'check_counts': check_counts, 'check_ratios': lambda job: None}


@wrong_by_ratios('15 after 12')
def _():
    def check_room(job, *results):
        right['check_room'](job, *results)
        right['check_ratios'](job)
    return {'check_room': check_room, 'check_ratios': lambda job: None}


@wrong_by_ratios('15 after the characters and elements')
def _():
    def fill_lines(job):
        right['check_ratios'](job)
        return right['fill_lines'](job)
    return {'fill_lines': fill_lines, 'check_ratios': lambda job: None}


@wrong_by_ratios('the base ratio judged first')
def _():
    return judged((1, over(7)), (1, zeros), (0, over(7)), (0, zeros))


@wrong_by_ratios('numbers over 7 of both ratios before three that are 0')
def _():
    return judged((0, over(7)), (1, over(7)), (0, zeros), (1, zeros))


@wrong_by_ratios('three that are 0 of both ratios before numbers over 7')
def _():
    return judged((0, zeros), (1, zeros), (0, over(7)), (1, over(7)))


@wrong_by_ratios('three that are 0 accepted for the ruby')
def _():
    return judged((0, over(7)), (1, over(7)), (1, zeros))


@wrong_by_ratios('three that are 0 accepted for the base')
def _():
    return judged((0, over(7)), (0, zeros), (1, over(7)))


@wrong_by_ratios('8 accepted for the ruby')
def _():
    return judged((0, over(8)), (0, zeros), (1, over(7)), (1, zeros))


@wrong_by_ratios('8 accepted for the base')
def _():
    return judged((0, over(7)), (0, zeros), (1, over(8)), (1, zeros))


@wrong_by_ratios('7 refused')
def _():
    return judged((0, over(6)), (0, zeros), (1, over(6)), (1, zeros))


@wrong_by_ratios('a single 0 refused')
def _():
    return judged(*((place, is_bad) for place in (0, 1)
                    for is_bad in (over(7), lambda ratio: 0 in ratio)))


@wrong_by_ratios('the last number not looked at')
def _():
    return judged(*((place, is_bad) for place in (0, 1)
                    for is_bad in (lambda ratio: max(ratio[:2]) > 7, zeros)))


@wrong_by_ratios('ratio numbers by their last byte')
def _():
    return judged(*((place, is_bad) for place in (0, 1) for is_bad in (
        lambda ratio: max(number % 256 for number in ratio) > 7, zeros)))


@wrong_by_ratios('the places of 15 exchanged')
def _():
    def check_ratios(job):
        try:
            right['check_ratios'](job)
        except Refused as refusal:
            raise Refused(15, 1 - refusal.place)
    return {'check_ratios': check_ratios}


@wrong_by_ratios('the place of 15 as the number at fault, of six')
def _():
    def check_ratios(job):
        for place, number in enumerate([*job.ratios[0], *job.ratios[1]]):
            if number > 7:
                raise Refused(15, place)
        right['check_ratios'](job)
    return {'check_ratios': check_ratios}


# ---------------------------------------------------------------------------
# R-8: the profile
# ---------------------------------------------------------------------------

def on_kana(depth):
    """`depth(job, width)` in the place of the depth on a kana."""
    def depth_on_kana(job, index):
        if job.profile != 1:
            return 0
        return depth(job, job.base_width[index])
    return {'depth_on_kana': depth_on_kana}


def kana_are(*classes):
    return {'is_kana': lambda cls: cls in classes}


@wrong_by_profile('a profile that is not read')
def _():
    return on_kana(lambda job, width: 0)


@wrong_by_profile('ruby on kana in profile 0 too')
def _():
    return {'depth_on_kana':
            lambda job, index: min(2 * job.base_width[index], job.em)}


@wrong_by_profile('the profiles exchanged')
def _():
    def depth_on_kana(job, index):
        if job.profile == 1:
            return 0
        return min(2 * job.base_width[index], job.em)
    return {'depth_on_kana': depth_on_kana}


@wrong_by_profile('ruby on small kana')
def _():
    return kana_are(11, 15, 16)


@wrong_by_profile('ruby on the prolonged sound mark')
def _():
    return kana_are(10, 15, 16)


@wrong_by_profile('ruby on class 15 alone')
def _():
    return kana_are(15)


@wrong_by_profile('ruby on class 16 alone')
def _():
    return kana_are(16)


@wrong_by_profile('ruby on class 19')
def _():
    return kana_are(15, 16, 19)


@wrong_by_profile('ruby past the width of a kana')
def _():
    return on_kana(lambda job, width: job.em)


@wrong_by_profile('ruby on the whole kana')
def _():
    return on_kana(lambda job, width: 2 * width)


@wrong_by_profile('a whole em of ruby on a kana')
def _():
    return on_kana(lambda job, width: min(2 * width, 2 * job.em))


@wrong_by_profile('a quarter em of ruby on a kana')
def _():
    return on_kana(lambda job, width: min(2 * width, job.em // 2))


@wrong_by_profile('ruby on half the width of a kana')
def _():
    return on_kana(lambda job, width: min(width, job.em))


@wrong_by_profile('no ruby on a kana narrower than half an em')
def _():
    return on_kana(lambda job, width: job.em if 2 * width >= job.em else 0)


def no_ruby_on(side, is_held):
    """No depth on one side of a kana of which `is_held(job, index)`."""
    def depth(job, index):
        if second.is_kana(job.base_class[index]) and is_held(job, index):
            return 0
        return right[side](job, index)
    return {side: depth}


@wrong_by_profile('ruby on a kana just after it alone')
def _():
    return no_ruby_on('depth_after', lambda job, index: True)


@wrong_by_profile('ruby on a kana just before it alone')
def _():
    return no_ruby_on('depth_before', lambda job, index: True)


@wrong_by_profile('no ruby on a kana as the first character of the job')
def _():
    return no_ruby_on('depth_after', lambda job, index: index == 0)


def changed_words(change):
    """`change(job, words, place)` of copies of a line's words, kana alone."""
    def words_of_line(job, owner, first, end):
        words = [copy.copy(word) for word in
                 right['words_of_line'](job, owner, first, end)]
        for place, word in enumerate(words):
            if not word.sides and (
                    second.is_kana(job.base_class[word.base_first])):
                change(job, words, place)
        return words
    return {'words_of_line': words_of_line}


@wrong_by_profile('no ruby on a kana as the first character of a later line')
def _():
    def change(job, words, place):
        if place == 0 and words[0].base_first > 0:
            words[0].depth_after = 0
    return changed_words(change)


def is_between(words, place):
    """Whether it stands between two words that have ruby."""
    return (0 < place < len(words) - 1 and words[place - 1].sides
            and words[place + 1].sides)


@wrong_by_profile('one reading alone on a kana between two, the earlier')
def _():
    def change(job, words, place):
        if is_between(words, place):
            words[place].depth_after = 0
    return changed_words(change)


@wrong_by_profile('one reading alone on a kana between two, the later')
def _():
    def change(job, words, place):
        if is_between(words, place):
            words[place].depth_before = 0
    return changed_words(change)


@wrong_by_profile('half of a kana for each reading')
def _():
    def change(job, words, place):
        word = words[place]
        if is_between(words, place):
            half = word.block_end // 2
            word.depth_before = min(word.depth_before, half)
            word.depth_after = min(word.depth_after, half)
    return changed_words(change)


@wrong_by_profile('rule 3 not asked across a kana')
def _():
    def change(job, words, place):
        if is_between(words, place) and words[place].depth_after > 0:
            words[place - 1].across = words[place + 1].base_first

    def broken_3(earlier, earlier_at, later, later_at, side):
        if getattr(earlier, 'across', None) == later.base_first:
            return 0
        return right['broken_3'](earlier, earlier_at, later, later_at, side)
    return {**changed_words(change), 'broken_3': broken_3}


def over_kana(kind):
    """A kana as the base of a word of this kind takes ruby, at either end."""
    def ruby_word(job, element, first, end):
        word = right['ruby_word'](job, element, first, end)
        if element.kind == kind:
            if second.is_kana(job.base_class[first]):
                word.depth_before = second.depth_on_kana(job, first)
            if second.is_kana(job.base_class[end - 1]):
                word.depth_after = second.depth_on_kana(job, end - 1)
        return word
    return {'ruby_word': ruby_word}


@wrong_by_profile('ruby on a kana that is the base of M')
def _():
    return over_kana(M)


@wrong_by_profile('ruby on a kana that is the base of G')
def _():
    return over_kana(G)


@wrong_by_profile('ruby on a kana that is the base of J')
def _():
    return over_kana(J)


def no_blanks(side):
    def depth(job, index):
        if job.profile == 1 and not second.is_kana(job.base_class[index]):
            return 0
        return right[side](job, index)
    return {side: depth}


@wrong_by_profile('no ruby on blanks after in profile 1')
def _():
    return no_blanks('depth_after')


@wrong_by_profile('no ruby on blanks before in profile 1')
def _():
    return no_blanks('depth_before')


@wrong_by_profile('half an em on class 5 in profile 1')
def _():
    def greatest_depth(job, cls):
        return job.em if job.profile == 1 else right['greatest_depth'](job,
                                                                       cls)
    return {'greatest_depth': greatest_depth}


@wrong_by_profile('ruby on the opening indent in profile 1')
def _():
    def blank_of_space(job, index):
        if job.profile == 1:
            return job.base_width[index]
        return right['blank_of_space'](job, index)
    return {'blank_of_space': blank_of_space}


def check_20_within(name):
    """20 in front of what another check looks at, and not where it stands."""
    def check(job):
        right['check_profile'](job)
        right[name](job)
    return {name: check, 'check_profile': lambda job: None}


@wrong_by_profile('20 ahead of 1')
def _():
    return check_20_within('check_sizes')


@wrong_by_profile('20 ahead of 15')
def _():
    return check_20_within('check_ratios')


@wrong_by_profile('20 between the ruby ratio and the base ratio')
def _():
    def check_ratios(job):
        try:
            right['check_ratios'](job)
        except Refused as refusal:
            if refusal.place == 1:
                right['check_profile'](job)
            raise
    return {'check_ratios': check_ratios}


@wrong_by_profile('20 after 2')
def _():
    def check_counts(job):
        right['check_counts'](job)
        right['check_profile'](job)
    return {'check_counts': check_counts, 'check_profile': lambda job: None}


@wrong_by_profile('20 after 12')
def _():
    def check_room(job, *results):
        right['check_room'](job, *results)
        right['check_profile'](job)
    return {'check_room': check_room, 'check_profile': lambda job: None}


@wrong_by_profile('20 after the characters and elements')
def _():
    def fill_lines(job):
        right['check_profile'](job)
        return right['fill_lines'](job)
    return {'fill_lines': fill_lines, 'check_profile': lambda job: None}


def judged_profile(is_bad, place=0):
    def check_profile(job):
        if is_bad(job.profile):
            raise Refused(20, place)
    return {'check_profile': check_profile}


@wrong_by_profile('2 accepted')
def _():
    return judged_profile(lambda profile: profile > 2)


@wrong_by_profile('every profile accepted')
def _():
    return judged_profile(lambda profile: False)


@wrong_by_profile('1 refused')
def _():
    return judged_profile(lambda profile: profile > 0)


@wrong_by_profile('a profile by its last byte')
def _():
    return judged_profile(lambda profile: profile % 256 > 1)


@wrong_by_profile('a profile as a number with a sign')
def _():
    return judged_profile(lambda profile: 1 < profile < 2 ** 31)


@wrong_by_profile('20 with place 1')
def _():
    return judged_profile(lambda profile: profile > 1, 1)


@wrong_by_profile('20 with the profile as its place')
def _():
    def check_profile(job):
        if job.profile > 1:
            raise Refused(20, job.profile)
    return {'check_profile': check_profile}


# ---------------------------------------------------------------------------
# R-5: readings on both sides
# ---------------------------------------------------------------------------

@wrong_by_left('rule 3 across sides')
def _():
    def broken_between(earlier, earlier_at, later, later_at, neighbours):
        amount = right['broken_between'](earlier, earlier_at, later, later_at,
                                         neighbours)
        ends = [earlier.rubies[side].end for side in earlier.sides]
        starts = [later.rubies[side].start for side in later.sides]
        if ends and starts:
            amount = max(amount, earlier_at + max(ends)
                         - (later_at + min(starts)))
        return amount
    return {'broken_between': broken_between}


@wrong_by_left('rule 3 not asked of left readings')
def _():
    def broken_3(earlier, earlier_at, later, later_at, side):
        if side == LEFT:
            return 0
        return right['broken_3'](earlier, earlier_at, later, later_at, side)
    return {'broken_3': broken_3}


def rule_2(name, is_let_through):
    """Rule 2 not asked where `is_let_through(earlier, later)`, on the left."""
    def broken_2(earlier, earlier_at, later, later_at, neighbours, side):
        if side == LEFT and is_let_through(earlier, later):
            return 0
        return right[name](earlier, earlier_at, later, later_at, neighbours,
                           side)
    return {name: broken_2}


@wrong_by_left('a left reading let through the blocks behind it')
def _():
    return rule_2('broken_2_forward', lambda earlier, later: True)


@wrong_by_left('a left reading let through the blocks before it')
def _():
    return rule_2('broken_2_backward', lambda earlier, later: True)


@wrong_by_left('a left reading over words without one')
def _():
    return {**rule_2('broken_2_forward',
                     lambda earlier, later: LEFT not in later.sides),
            **rule_2('broken_2_backward',
                     lambda earlier, later: LEFT not in earlier.sides)}


def left_depth(depth_of):
    """Rule 2 by `depth_of(earlier, later, depth)` for left readings."""
    def forward(earlier, earlier_at, later, later_at, neighbours, side):
        amount = right['broken_2_forward'](earlier, earlier_at, later,
                                           later_at, neighbours, side)
        if side == LEFT and neighbours:
            depth = later.depth_before
            amount += depth - depth_of(earlier, later, depth)
        return amount

    def backward(earlier, earlier_at, later, later_at, neighbours, side):
        amount = right['broken_2_backward'](earlier, earlier_at, later,
                                            later_at, neighbours, side)
        if side == LEFT and neighbours:
            depth = earlier.depth_after
            amount += depth - depth_of(later, earlier, depth)
        return amount
    return {'broken_2_forward': forward, 'broken_2_backward': backward}


@wrong_by_left('blanks for right readings alone')
def _():
    return left_depth(lambda word, other, depth: 0)


@wrong_by_left('one blank shared by the readings of both sides')
def _():
    def what_is_left(word, other, depth):
        past = max(word.rubies[RIGHT].end - word.block_end,
                   word.block_start - word.rubies[RIGHT].start, 0)
        return depth - min(depth, past)
    return left_depth(what_is_left)


@wrong_by_left('a left reading on the opening indent')
def _():
    def depth_of(word, other, depth):
        if other.base_first == 0 and depth == 0 and not other.sides:
            return other.indent
        return depth

    def plain_word(job, index):
        word = right['plain_word'](job, index)
        word.indent = 0
        if index == 0 and job.base_class[0] == 14:
            word.indent = min(2 * job.base_width[0], job.em)
        return word
    return {**left_depth(depth_of), 'plain_word': plain_word}


@wrong_by_left('no left reading on kana in profile 1')
def _():
    def plain_word(job, index):
        word = right['plain_word'](job, index)
        word.kana = second.is_kana(job.base_class[index])
        return word
    return {**left_depth(lambda word, other, depth:
                         0 if getattr(other, 'kana', False) else depth),
            'plain_word': plain_word}


@wrong_by_left('left readings past the measure')
def _():
    def broken_4(word, at, limit):
        ends = [word.block_end] + [word.rubies[side].end for side
                                   in word.sides if side == RIGHT]
        return at + max(ends) > limit
    return {'broken_4': broken_4, 'plainly_too_long': lambda *_: False}


def two_groups(change):
    """`change(em, ratios, western, base, right, left)` or what is right."""
    def set_two_groups(em, ratios, western, base, ruby, left):
        found = change(em, ratios, western, base, ruby, left)
        if found is not None:
            return found
        return right['set_two_groups'](em, ratios, western, base, ruby, left)
    return {'set_two_groups': set_two_groups}


def is_longer(base, ruby, left):
    return max(sum(ruby.widths), sum(left.widths)) > sum(base)


def in_order(ruby, left, base_at, longer_at, other_at):
    """(base, right, left) from those of the longer and the other reading."""
    if sum(ruby.widths) >= sum(left.widths):
        return base_at, longer_at, other_at
    return base_at, other_at, longer_at


def by_length(ruby, left):
    """(longer, other): right, if equal."""
    if sum(ruby.widths) >= sum(left.widths):
        return ruby, left
    return left, ruby


def other_reading(set_other):
    """`set_other(em, ratios, western, base, base_at, longer, other)` in the
    place of the other reading's setting."""
    def change(em, ratios, western, base, ruby, left):
        if not is_longer(base, ruby, left):
            return None
        longer, other = by_length(ruby, left)
        base_at, longer_at = second.set_group(
            em, ratios, western, base, longer.western, longer.widths)
        return in_order(ruby, left, base_at, longer_at, set_other(
            em, ratios, western, base, base_at, longer, other))
    return two_groups(change)


@wrong_by_left('the shorter reading set with the base')
def _():
    def change(em, ratios, western, base, ruby, left):
        if not is_longer(base, ruby, left):
            return None
        longer, other = by_length(ruby, left)
        base_at, other_at = second.set_group(
            em, ratios, western, base, other.western, other.widths)
        span = max(sum(base), sum(other.widths))
        shift = sum(longer.widths) - span
        return in_order(
            ruby, left, [at + shift for at in base_at],
            second.one_after_another(0, longer.widths),
            [at + shift for at in other_at])
    return two_groups(change)


@wrong_by_left('the right reading always set with the base')
def _():
    def change(em, ratios, western, base, ruby, left):
        if sum(left.widths) <= max(sum(ruby.widths), sum(base)):
            return None
        base_at, ruby_at = second.set_group(
            em, ratios, western, base, ruby.western, ruby.widths)
        shift = sum(left.widths) - max(sum(ruby.widths), sum(base))
        return ([at + shift for at in base_at], [at + shift for at in ruby_at],
                second.one_after_another(0, left.widths))
    return two_groups(change)


@wrong_by_left('the other reading over the base')
def _():
    def set_other(em, ratios, western, base, base_at, longer, other):
        found = second.set_group(em, ratios, western, base, other.western,
                                 other.widths)
        middle = sum(longer.widths) - max(sum(base), sum(other.widths))
        return [at + middle for at in found[1]]
    return other_reading(set_other)


@wrong_by_left('the other reading over the spread base without its end gaps')
def _():
    # Section 3 of document 000, which 02 holds to only so far.
    def set_other(em, ratios, western, base, base_at, longer, other):
        end = base_at[-1] + 2 * base[-1]
        if 2 * sum(other.widths) >= end - base_at[0]:
            start = (base_at[0] + end) // 2 - sum(other.widths)
            return second.one_after_another(max(0, start), other.widths)
        found = second.set_group(em, ratios, western, [
            (end - base_at[0]) // 2], other.western, other.widths)
        return [at + base_at[0] for at in found[1]]
    return other_reading(set_other)


@wrong_by_left('the other reading over the longer one though neither is longer'
               ' than the base')
def _():
    def change(em, ratios, western, base, ruby, left):
        if is_longer(base, ruby, left):
            return None
        longer, other = by_length(ruby, left)
        base_at, longer_at = second.set_group(
            em, ratios, western, base, longer.western, longer.widths)
        found = second.set_group(em, ratios, western, [sum(longer.widths)],
                                 other.western, other.widths)
        return in_order(ruby, left, base_at, longer_at, [
            at + longer_at[0] for at in found[1]])
    return two_groups(change)


@wrong_by_left('the other reading solid')
def _():
    def set_other(em, ratios, western, base, base_at, longer, other):
        return second.solid(longer.widths, other.widths)[1]
    return other_reading(set_other)


def over_longer(em_and_kind):
    """The other reading by `em_and_kind(em, western, longer, other)`."""
    def set_other(em, ratios, western, base, base_at, longer, other):
        em, western = em_and_kind(em, western, longer, other)
        if western and other.western:
            return second.solid(longer.widths, other.widths)[1]
        return second.set_group(em, ratios, western, [sum(longer.widths)],
                                other.western, other.widths)[1]
    return other_reading(set_other)


@wrong_by_left('no half-em limit on the other reading')
def _():
    return over_longer(lambda em, western, longer, other: (10 ** 9, western))


@wrong_by_left('the half-em limit on the other reading over a Western base')
def _():
    return over_longer(lambda em, western, longer, other:
                       (em, western and other.western))


@wrong_by_left('the other reading over a base of the longer one\'s kind')
def _():
    return over_longer(lambda em, western, longer, other:
                       (em, longer.western))


@wrong_by_left('the other reading by the base ratio')
def _():
    def set_other(em, ratios, western, base, base_at, longer, other):
        return second.set_group(em, ratios[::-1], western,
                                [sum(longer.widths)], other.western,
                                other.widths)[1]
    return other_reading(set_other)


@wrong_by_left('a mono left reading from the word\'s start')
def _():
    def set_mono_with_mono(base, ruby, left):
        found = right['set_mono_with_mono'](base, ruby, left)
        return (*found[:2], second.one_after_another(0, left))
    return {'set_mono_with_mono': set_mono_with_mono}


@wrong_by_left('a mono left reading centred on the right one alone')
def _():
    def set_mono_with_mono(base, ruby, left):
        found = right['set_mono_with_mono'](base, ruby, left)
        if sum(left) > sum(ruby):
            return found
        return (*found[:2], second.one_after_another(
            sum(ruby) - sum(left), left))
    return {'set_mono_with_mono': set_mono_with_mono}


def group_if(is_group):
    """`is_group(job, element)` for a J with a left J or G."""
    def is_group_on_both_sides(job, element):
        if element.kind == J and element.left_kind in (J, G):
            return is_group(job, element)
        return right['is_group_on_both_sides'](job, element)
    return {'is_group_on_both_sides': is_group_on_both_sides}


def long_runs(job, element):
    """The longest run on either side."""
    return [max([sum(widths) for widths in second.cut_into_runs(
        reading.runs, reading.widths)] or [0])
        for reading in second.readings_of_part(
            job, element, element.base_first, element.base_end)]


@wrong_by_left('a run of exactly one em on either side taken as longer')
def _():
    return group_if(lambda job, element: element.left_kind == G or (
        max(long_runs(job, element)) >= job.em))


@wrong_by_left('long runs of the right side alone make two jukugo groups')
def _():
    return group_if(lambda job, element: element.left_kind == G or (
        long_runs(job, element)[RIGHT] > job.em))


@wrong_by_left('long runs of the left side alone make two jukugo groups')
def _():
    return group_if(lambda job, element: element.left_kind == G or (
        long_runs(job, element)[LEFT] > job.em))


@wrong_by_left('two jukugo always groups')
def _():
    return group_if(lambda job, element: True)


@wrong_by_left('two jukugo compared with the sum of base widths')
def _():
    return group_if(lambda job, element: element.left_kind == G or (
        max(long_runs(job, element))
        > job.em * (element.base_end - element.base_first)))


@wrong_by_left('a J with a left G cut')
def _():
    def may_be_cut(job, element):
        return element.left_kind == G and element.kind == J or (
            right['may_be_cut'](job, element))

    def readings_of_part(job, element, first, end):
        ruby, left = right['readings_of_part'](job, element, first, end)
        if element.kind == J and element.left_kind == G:
            # Its left characters in equal shares.
            count = element.base_end - element.base_first
            total = element.left_end - element.left_first
            start, stop = (element.left_first
                           + total * (index - element.base_first) // count
                           for index in (first, end))
            stop = max(stop, start + 1)
            left = second.Reading(start, job.left_width[start:stop], [],
                                  left.western)
        return ruby, left
    return {'may_be_cut': may_be_cut, 'readings_of_part': readings_of_part}


@wrong_by_left('two jukugo with a long run cut')
def _():
    def may_be_cut(job, element):
        return (element.kind, element.left_kind) == (J, J) or (
            right['may_be_cut'](job, element))
    return {'may_be_cut': may_be_cut}


@wrong_by_left('two jukugo judged part by part')
def _():
    # As document 01 has it of a J without a left reading: a part without a
    # long run has its runs over their characters.
    def set_two_readings(job, element, first, end, ruby, left):
        if (element.kind, element.left_kind) == (J, J):
            element = copy.copy(element)
            element.base_first, element.base_end = first, end
            element.ruby_first = ruby.first
            element.ruby_end = ruby.first + len(ruby.widths)
            element.runs = ruby.runs
            element.left_first = left.first
            element.left_end = left.first + len(left.widths)
            element.left_runs = left.runs
        return right['set_two_readings'](job, element, first, end, ruby, left)

    def may_be_cut(job, element):
        return (element.kind, element.left_kind) == (J, J) or (
            right['may_be_cut'](job, element))
    return {'set_two_readings': set_two_readings, 'may_be_cut': may_be_cut}


@wrong_by_left('a J with a mono left reading cut at flags alone')
def _():
    def permitted_breaks(job):
        within = [index + 1 for element in job.elements
                  if (element.kind, element.left_kind) == (J, M)
                  for index in range(element.base_first, element.base_end - 1)
                  if job.flag[index] == 0]
        return [end for end in right['permitted_breaks'](job)
                if end not in within]
    return {'permitted_breaks': permitted_breaks}


@wrong_by_left('a J with any left reading not cut')
def _():
    def may_be_cut(job, element):
        return element.left_kind == N and right['may_be_cut'](job, element)
    return {'may_be_cut': may_be_cut}


@wrong_by_left('a J with a mono left reading not cut')
def _():
    def may_be_cut(job, element):
        return element.left_kind != M and right['may_be_cut'](job, element)
    return {'may_be_cut': may_be_cut}


@wrong_by_left('right runs over their characters with a left G')
def _():
    def set_two_readings(job, element, first, end, ruby, left):
        found = right['set_two_readings'](job, element, first, end, ruby,
                                          left)
        if (element.kind, element.left_kind) == (J, G) and (
                long_runs(job, element)[RIGHT] <= job.em and found[0][0] == 0):
            base = job.base_width[first:end]
            return (found[0], second.set_jukugo(
                job.em, job.ratios, base, ruby.runs, ruby.western,
                ruby.widths)[1], found[2])
        return found
    return {'set_two_readings': set_two_readings}


def mono_as(left_kind, is_so):
    """A J with a mono left reading of which `is_so(job, element)` as one with
    a left reading of another kind."""
    def take_elements(job):
        right['take_elements'](job)
        for element in job.elements:
            if (element.kind, element.left_kind) == (J, M) and (
                    is_so(job, element)):
                element.left_kind = left_kind
    return {'take_elements': take_elements}


@wrong_by_left('a J with a mono left reading set as group where a run is long')
def _():
    return mono_as(G, lambda job, element:
                   max(long_runs(job, element)) > job.em)


@wrong_by_left('a J with a mono left reading and a long right run as group')
def _():
    return mono_as(G, lambda job, element:
                   long_runs(job, element)[RIGHT] > job.em)


@wrong_by_left('a J with a mono left reading as one element')
def _():
    return mono_as(J, lambda job, element: True)


@wrong_by_left('left positions from the word\'s start')
def _():
    def write_results(lines, base_out, ruby_outs, line_out):
        right['write_results'](lines, base_out, ruby_outs, line_out)
        for _, words, origins in lines:
            for word, origin in zip(words, origins):
                if LEFT in word.sides:
                    ruby = word.rubies[LEFT]
                    for i, position in enumerate(ruby.positions):
                        ruby_outs[LEFT][ruby.first + i] = position
    return {'write_results': write_results}


@wrong_by_left('left positions not written')
def _():
    def write_results(lines, base_out, ruby_outs, line_out):
        right['write_results'](lines, base_out,
                               (ruby_outs[0], list(ruby_outs[1])), line_out)
    return {'write_results': write_results}


def set_job_then(change):
    def set_job(*arguments):
        answer = right['set_job'](*arguments)
        change(answer, *arguments[-4:])
        return answer
    return {'set_job': set_job}


@wrong_by_left('the left list written on a refusal')
def _():
    def change(answer, base_out, ruby_out, left_out, line_out):
        if answer[:2] == ('refused', 11) and left_out:
            left_out[0] = 0
    return set_job_then(change)


@wrong_by_left('the rest of the left list cleared')
def _():
    def set_job(*arguments):
        before = list(arguments[-2])
        answer = right['set_job'](*arguments)
        left_out = arguments[-2]
        if answer[0] == 'set' and left_out and left_out[-1] == before[-1]:
            left_out[-1] = 0
        return answer
    return {'set_job': set_job}


def left_places(change):
    """`change(index)` in the place of 3,072 + index."""
    def check_left_character(job, index):
        try:
            right['check_left_character'](job, index)
        except Refused:
            raise Refused(3, change(index))
    return {'check_left_character': check_left_character}


@wrong_by_left('left places without 3,072')
def _():
    return left_places(lambda index: index)


@wrong_by_left('left places from 1,024')
def _():
    return left_places(lambda index: 1024 + index)


@wrong_by_left('left places from 2,048')
def _():
    return left_places(lambda index: 2048 + index)


@wrong_by_left('left places behind the job\'s right ones')
def _():
    def check_left_character(job, index):
        try:
            right['check_left_character'](job, index)
        except Refused:
            raise Refused(3, 1024 + job.ruby_count + index)
    return {'check_left_character': check_left_character}


@wrong_by_left('left characters not looked at')
def _():
    return {'check_left_character': lambda job, index: None}


@wrong_by_left('left characters ahead of right ones')
def _():
    def check_ruby_character(job, index):
        if index == 0:
            for number in range(job.left_count):
                right['check_left_character'](job, number)
        right['check_ruby_character'](job, index)
    return {'check_ruby_character': check_ruby_character}


@wrong_by_left('left characters ahead of base ones')
def _():
    def check_characters(job):
        for index in range(job.left_count):
            right['check_left_character'](job, index)
        right['check_characters'](job)
    return {'check_characters': check_characters}


@wrong_by_left('2,048 ruby and left characters together')
def _():
    def check_counts(job):
        right['check_counts'](job)
        if job.ruby_count + job.left_count > 2048:
            raise Refused(2, 3)
    return {'check_counts': check_counts}


@wrong_by_left('the left count not held to its maximum')
def _():
    return {'MOST_LEFT': 10 ** 9}


@wrong_by_left('1,024 left characters at most')
def _():
    return {'MOST_LEFT': 1024}


@wrong_by_left('2,047 left characters at most')
def _():
    return {'MOST_LEFT': 2047}


@wrong_by_left('the left count ahead of the element count')
def _():
    def check_counts(job):
        if job.left_count > 2048 and job.base_count <= 1024 and (
                job.ruby_count <= 2048):
            raise Refused(2, 3)
        right['check_counts'](job)
    return {'check_counts': check_counts}


@wrong_by_left('2 with place 1 for the left count')
def _():
    def check_counts(job):
        try:
            right['check_counts'](job)
        except Refused as refusal:
            raise Refused(2, 1 if refusal.place == 3 else refusal.place)
    return {'check_counts': check_counts}


@wrong_by_left('a left list that is too short not refused')
def _():
    def check_room(job, base_out, ruby_out, left_out, line_out):
        right['check_room'](job, base_out, ruby_out, [0] * 4096, line_out)
    return {'check_room': check_room}


@wrong_by_left('the left list held to the right count')
def _():
    def check_room(job, base_out, ruby_out, left_out, line_out):
        right['check_room'](job, base_out, ruby_out, left_out, line_out)
        if len(left_out) < job.ruby_count:
            raise Refused(12, 0)
    return {'check_room': check_room}


def judged_left(*steps):
    """Elements judged by these steps in turn in the place of 5 and 16."""
    def left_counts(job, place, base, taken):
        found = 0, []
        for step in steps:
            found = step(job, place, base, taken) or found
        return found
    return {'left_counts': left_counts, 'check_left_kind': lambda *_: None}


def by_counts(job, place, base, taken):
    return right['left_counts'](job, place, base, taken)


def by_kind(job, place, base, taken):
    right['check_left_kind'](job, place)


@wrong_by_left('16 ahead of 5')
def _():
    return judged_left(by_kind, by_counts)


@wrong_by_left('16 between the left kind\'s 5 and the left counts\' 5')
def _():
    def known(job, place, base, taken):
        if job.left_kind[place] not in (M, G, J, N):
            raise Refused(5, place)
    return judged_left(known, by_kind, by_counts)


@wrong_by_left('16 ahead of the right counts\' 5')
def _():
    def element_counts(job, place, taken):
        if job.kind[place] in second.TAKEN and (
                job.left_kind[place] in (M, G, J, N)):
            right['check_left_kind'](job, place)
        return right['element_counts'](job, place, taken)
    return {'element_counts': element_counts}


@wrong_by_left('16 after 6')
def _():
    def check_blanks_inside(job, element, place):
        right['check_left_kind'](job, place)
        right['check_blanks_inside'](job, element, place)
    return {'check_blanks_inside': check_blanks_inside,
            'check_left_kind': lambda *_: None}


@wrong_by_left('an unknown left kind as 16')
def _():
    def left_counts(job, place, base, taken):
        if job.left_kind[place] not in (M, G, J, N):
            raise Refused(16, place)
        return right['left_counts'](job, place, base, taken)
    return {'left_counts': left_counts}


def no_reading_if(is_none):
    """No left reading where `is_none(kind, left kind)`, and no refusal."""
    def left_counts(job, place, base, taken):
        if is_none(job.kind[place], job.left_kind[place]):
            job.left_kind = list(job.left_kind)
            job.left_kind[place] = N
        return right['left_counts'](job, place, base, taken)
    return {'left_counts': left_counts}


@wrong_by_left('an unknown left kind as none')
def _():
    return no_reading_if(lambda kind, left: left not in (M, G, J, N))


@wrong_by_left('0 as a left kind for none')
def _():
    return no_reading_if(lambda kind, left: left == 0)


@wrong_by_left('a left kind on P not looked at')
def _():
    return no_reading_if(lambda kind, left: kind == P)


@wrong_by_left('a left kind on P judged by its count')
def _():
    def left_counts(job, place, base, taken):
        if job.kind[place] == P and job.left_kind[place] in (M, G, J):
            if not 1 <= job.elem_left[place] <= 64:
                raise Refused(5, place)
        return right['left_counts'](job, place, base, taken)
    return {'left_counts': left_counts}


def taken(**more):
    """TAKEN with one more left kind for an element's kind."""
    return {'TAKEN': {**second.TAKEN, **{
        ord(kind): second.TAKEN[ord(kind)] + (left,)
        for kind, left in more.items()}}}


@wrong_by_left('a left G on M')
def _():
    return taken(M=G)


@wrong_by_left('a left J on M')
def _():
    return taken(M=J)


@wrong_by_left('a left M on G')
def _():
    return taken(G=M)


@wrong_by_left('a left J on G')
def _():
    return taken(G=J)


@wrong_by_left('no left M on J')
def _():
    return {'TAKEN': {**second.TAKEN, J: (N, J, G)}}


@wrong_by_left('16 with the number of the base character')
def _():
    def take_elements(job):
        try:
            right['take_elements'](job)
        except Refused as refusal:
            if refusal.number == 16:
                raise Refused(16, sum(
                    1 if kind in (P, M) else base for kind, base in zip(
                        job.kind[:refusal.place], job.elem_base)))
            raise
    return {'take_elements': take_elements}


def counts_within(least, most, most_runs, least_run=1):
    def left_counts(job, place, base, taken):
        kind = job.left_kind[place]
        if kind not in (M, G, J, N) or kind == N or job.kind[place] == P:
            return right['left_counts'](job, place, base, taken)
        if kind == G or (kind, job.kind[place]) == (M, M):
            if not least <= job.elem_left[place] <= most:
                raise Refused(5, place)
            return job.elem_left[place], []
        runs = [second.run_at(job.left_runs, taken + i) for i in range(base)]
        if min(runs) < least_run or sum(runs) > most_runs:
            raise Refused(5, place)
        return sum(runs), runs
    return {'left_counts': left_counts}


@wrong_by_left('a left count of 0')
def _():
    return counts_within(0, 64, 64)


@wrong_by_left('a left count of 65')
def _():
    return counts_within(1, 65, 64)


@wrong_by_left('63 left characters at most')
def _():
    return counts_within(1, 63, 64)


@wrong_by_left('a left run of 0 for a character without a gloss')
def _():
    return counts_within(1, 64, 64, 0)


@wrong_by_left('left runs of 64 each')
def _():
    return counts_within(1, 64, 32 * 64)


@wrong_by_left('left runs whose sum wraps')
def _():
    def left_counts(job, place, base, taken):
        runs = [second.run_at(job.left_runs, taken + i) for i in range(base)]
        if job.kind[place] == J and job.left_kind[place] in (M, J) and (
                0 not in runs and sum(runs) % 2 ** 32 <= 64):
            return sum(runs) % 2 ** 32, runs
        return right['left_counts'](job, place, base, taken)
    return {'left_counts': left_counts}


@wrong_by_left('left runs read on from those of another left kind')
def _():
    # As if every J took its left runs, also with none or a left G.
    def left_counts(job, place, base, taken):
        skipped = sum(other for number, other in enumerate(
            job.elem_base[:place]) if job.kind[number] == J
            and job.left_kind[number] in (N, G))
        return right['left_counts'](job, place, base, taken + skipped)
    return {'left_counts': left_counts}


@wrong_by_left('left runs read from the right ones')
def _():
    def left_counts(job, place, base, taken):
        job.left_runs = job.runs
        return right['left_counts'](job, place, base, taken)
    return {'left_counts': left_counts}


@wrong_by_left('a left count read for a left J')
def _():
    def left_counts(job, place, base, taken):
        if job.left_kind[place] in (M, J) and job.kind[place] == J and (
                not 0 <= job.elem_left[place] <= 64):
            raise Refused(5, place)
        return right['left_counts'](job, place, base, taken)
    return {'left_counts': left_counts}


@wrong_by_left('a left count read where there is none')
def _():
    def left_counts(job, place, base, taken):
        if job.left_kind[place] == N and job.elem_left[place] > 64:
            raise Refused(5, place)
        return right['left_counts'](job, place, base, taken)
    return {'left_counts': left_counts}


def counted_by_eleft(kind, left_kind):
    """The left count judged for a left kind that has runs."""
    def left_counts(job, place, base, taken):
        if (job.kind[place], job.left_kind[place]) == (kind, left_kind):
            if not 1 <= job.elem_left[place] <= 64:
                raise Refused(5, place)
            return job.elem_left[place], []
        return right['left_counts'](job, place, base, taken)
    return {'left_counts': left_counts}


@wrong_by_left('a left J on M judged by its left count')
def _():
    return counted_by_eleft(M, J)


@wrong_by_left('a left M on G judged by its left count')
def _():
    return counted_by_eleft(G, M)


@wrong_by_left('a left J on G judged by its left count')
def _():
    return counted_by_eleft(G, J)


@wrong_by_left('no counts judged of a left kind that is not taken')
def _():
    def left_counts(job, place, base, taken):
        if job.left_kind[place] in (M, G, J) and (
                job.left_kind[place] not in second.TAKEN[job.kind[place]]):
            return 0, []
        return right['left_counts'](job, place, base, taken)
    return {'left_counts': left_counts}


def run_past_the_end(count):
    """A left run past the end of its list read as `count`."""
    def left_counts(job, place, base, taken):
        job.left_runs = (list(job.left_runs)
                         + [count] * (taken + base - len(job.left_runs)))
        return right['left_counts'](job, place, base, taken)
    return {'left_counts': left_counts}


@wrong_by_left('a left run past the end of its list as 1')
def _():
    return run_past_the_end(1)


@wrong_by_left('spare left runs as characters left over')
def _():
    def take_elements(job):
        right['take_elements'](job)
        if sum(len(element.left_runs) for element in job.elements) < len(
                job.left_runs):
            raise Refused(6, job.element_count)
    return {'take_elements': take_elements}


@wrong_by_left('64 characters of both readings together')
def _():
    def left_counts(job, place, base, taken):
        count, runs = right['left_counts'](job, place, base, taken)
        if job.kind[place] in (M, G) and count and (
                count + job.elem_ruby[place] > 64):
            raise Refused(5, place)
        return count, runs
    return {'left_counts': left_counts}


@wrong_by_left('left lists not among the lists of an element')
def _():
    class Job(right['Job']):
        def __init__(self, *arguments):
            super().__init__(*arguments)
            count = min(map(len, arguments[11:14]))
            self.element_count = count
            self.left_kind = (self.left_kind + [N] * count)[:count]
            self.elem_left = (self.elem_left + [0] * count)[:count]
    return {'Job': Job}


@wrong_by_left('left characters that are left over passed by')
def _():
    def take_elements(job):
        count = job.left_count
        try:
            right['take_elements'](job)
        except Refused as refusal:
            taken = job.elements[-1].left_end if job.elements else 0
            if (refusal.number, refusal.place) == (6, job.element_count) and (
                    taken < count):
                job.left_count = taken
                job.elements.clear()
                right['take_elements'](job)
            else:
                raise
    return {'take_elements': take_elements}


@wrong_by_left('left characters that run out after the element\'s 7 to 10')
def _():
    def take_elements(job):
        job.lefts, job.left_count = job.left_count, 10 ** 9
        try:
            right['take_elements'](job)
        except Refused as refusal:
            if (refusal.number, refusal.place) != (6, job.element_count):
                raise
        finally:
            job.left_count = job.lefts
        # What is left over is asked once more, with nothing else amiss.
        job.elements.clear()
        right['take_elements'](job)

    def check_western_over_western(job, element, place):
        copied = copy.copy(element)
        copied.left_kind = N
        right['check_western_over_western'](job, copied, place)
        if element.left_end > job.lefts:
            raise Refused(6, place)
        right['check_western_over_western'](job, element, place)
    return {'take_elements': take_elements,
            'check_western_over_western': check_western_over_western}


def mixture(*asked):
    """9 within the strings that `asked(job, element)` give."""
    def check_mixture(job, element, place):
        if element.kind not in (G, J):
            return
        for ask in asked:
            classes = ask(job, element)
            if 26 in classes or (
                    any(map(second.is_western, classes))
                    and any(map(second.is_kana_like, classes))):
                raise Refused(9, place)
    return {'check_mixture': check_mixture}


def base_classes(job, element):
    return job.base_class[element.base_first:element.base_end]


def right_classes(job, element):
    return job.ruby_class[element.ruby_first:element.ruby_end]


def left_classes(job, element):
    return job.left_class[element.left_first:element.left_end]


@wrong_by_left('9 not asked of left characters')
def _():
    return mixture(base_classes, right_classes)


@wrong_by_left('9 not asked of a mono left reading on J')
def _():
    return mixture(base_classes, right_classes, lambda job, element: [] if (
        element.left_kind == M) else left_classes(job, element))


@wrong_by_left('9 asked of a mono left reading on M')
def _():
    def check_mixture(job, element, place):
        right['check_mixture'](job, element, place)
        classes = left_classes(job, element)
        if element.kind == M and (26 in classes or (
                any(map(second.is_western, classes))
                and any(map(second.is_kana_like, classes)))):
            raise Refused(9, place)
    return {'check_mixture': check_mixture}


@wrong_by_left('a left 9 run by run on J')
def _():
    def check_mixture(job, element, place):
        if element.kind != J or not element.left_runs:
            right['check_mixture'](job, element, place)
            return
        mixture(base_classes, right_classes)['check_mixture'](
            job, element, place)
        for classes in second.cut_into_runs(element.left_runs,
                                            left_classes(job, element)):
            if 26 in classes or (any(map(second.is_western, classes))
                                 and any(map(second.is_kana_like, classes))):
                raise Refused(9, place)
    return {'check_mixture': check_mixture}


@wrong_by_left('left and right characters as one string')
def _():
    return mixture(base_classes, lambda job, element: right_classes(
        job, element) + left_classes(job, element))


@wrong_by_left('a right 10 ahead of a left 9')
def _():
    found = mixture(base_classes, right_classes)

    def check_western_over_western(job, element, place):
        if element.kind == G and second.is_western(
                job.base_class[element.base_first]) and second.is_western(
                    job.ruby_class[element.ruby_first]):
            raise Refused(10, place)
        right['check_mixture'](job, element, place)
        right['check_western_over_western'](job, element, place)
    return {**found,
            'check_western_over_western': check_western_over_western}


@wrong_by_left('10 not asked of left readings')
def _():
    def check_western_over_western(job, element, place):
        copied = copy.copy(element)
        copied.left_kind = N
        right['check_western_over_western'](job, copied, place)
    return {'check_western_over_western': check_western_over_western}


@wrong_by_left('10 asked of a left reading in M')
def _():
    def check_western_over_western(job, element, place):
        right['check_western_over_western'](job, element, place)
        if element.left_kind == M and element.kind == M and second.is_western(
                job.base_class[element.base_first]) and second.is_western(
                    job.left_class[element.left_first]):
            raise Refused(10, place)
    return {'check_western_over_western': check_western_over_western}


# ---------------------------------------------------------------------------
# R-5: the account
# ---------------------------------------------------------------------------

right_account = {name: value for name, value in vars(account).items()
                 if callable(value)}


@wrong_account('left reasons named first')
def _():
    class Drawn(right_account['Drawn']):
        def rubies(self):
            return right_account['Drawn'].rubies(self)[::-1]
    return {'Drawn': Drawn}


@wrong_account('reasons of the left named as of the right')
def _():
    return {'TOLD': {key: code - 4 if code > 6 else code
                     for key, code in account.TOLD.items()}}


@wrong_account('rule 2 of the left named last')
def _():
    def reasons(earlier, drawn):
        found = list(right_account['reasons'](earlier, drawn))
        yield from sorted(found, key=lambda reason: reason.rule == 2 and (
            'left ruby' in (reason.mine, reason.its)))
    return {'reasons': reasons}


@wrong_account('every reason of the right ahead of those of the left')
def _():
    def reasons(earlier, drawn):
        found = list(right_account['reasons'](earlier, drawn))
        yield from sorted(found, key=lambda reason: 'left ruby' in (
            reason.mine, reason.its))
    return {'reasons': reasons}


@wrong_account('the depth of a left reason not told')
def _():
    def reasons(earlier, drawn):
        for reason in right_account['reasons'](earlier, drawn):
            if reason.rule == 2 and 'left ruby' in (reason.mine, reason.its):
                reason = reason._replace(depth=0)
            yield reason
    return {'reasons': reasons}


@wrong_account('the element just before named for rule 3')
def _():
    def reasons(earlier, drawn):
        for reason in right_account['reasons'](earlier, drawn):
            if reason.rule == 3:
                reason = reason._replace(other=earlier[-1].element)
            yield reason
    return {'reasons': reasons}


@wrong_account('extents without left readings')
def _():
    def extent(line):
        return max(max(drawn.block[1], (drawn.ruby or drawn.block)[1])
                   for drawn in line)
    return {'extent': extent}


@wrong_account('one row for a J with a mono left reading')
def _():
    def drawn_parts(job, owner, ends):
        for bases, rubies, lefts in second.printed_parts(job, ends):
            yield owner[bases[0]], bases, rubies, lefts
    return {'drawn_parts': drawn_parts}


@wrong_account('base characters counted for the elements of such a J')
def _():
    def drawn_element(job, number, bases, *rest):
        drawn = right_account['drawn_element'](job, number, bases, *rest)
        element = job.elements[number]
        if (element.kind, element.left_kind) == (J, M):
            drawn.element = bases[0]
        return drawn
    return {'drawn_element': drawn_element}


# ---------------------------------------------------------------------------
# R-6: sheets of form two
# ---------------------------------------------------------------------------

def reordered(change):
    """`change(the nine numbers)` in the place of them."""
    def read_set(reader, count):
        numbers = right['read_set'](reader, count)
        return change(*numbers) if count == 9 else numbers
    return {'read_set': read_set}


@wrong_by_form('the base ratio ahead of the ruby ratio')
def _():
    return reordered(lambda em, measure, a, b, c, d, e, f, profile:
                     [em, measure, d, e, f, a, b, c, profile])


@wrong_by_form('ratio numbers from behind')
def _():
    return reordered(lambda em, measure, a, b, c, d, e, f, profile:
                     [em, measure, c, b, a, f, e, d, profile])


@wrong_by_form('ratio numbers of ruby and base in turn')
def _():
    return reordered(lambda em, measure, a, b, c, d, e, f, profile:
                     [em, measure, a, c, e, b, d, f, profile])


@wrong_by_form('the profile ahead of the ratios')
def _():
    return reordered(lambda em, measure, profile, *six:
                     [em, measure, *six, profile])


@wrong_by_form('the measure ahead of the em')
def _():
    return reordered(lambda em, measure, *rest: [measure, em, *rest])


@wrong_by_form('the ratios not read')
def _():
    return reordered(lambda em, measure, *rest:
                     [em, measure, 1, 2, 1, 1, 2, 1, rest[-1]])


@wrong_by_form('the profile not read')
def _():
    return reordered(lambda *numbers: [*numbers[:-1], 0])


def judged_in_form(is_bad):
    """`is_bad(place, number)` of the nine as a fault of form."""
    def read_set(reader, count):
        numbers = []
        for place in range(count):
            numbers += reader.numbers(reader.fields(), 1)
            if count == 9 and is_bad(place, numbers[-1]):
                raise reader.fault()
        return numbers
    return {'read_set': read_set}


@wrong_by_form('a ratio number over 7 as a fault of form')
def _():
    return judged_in_form(lambda place, number: 2 <= place < 8 and number > 7)


@wrong_by_form('a profile other than 0 as a fault of form')
def _():
    return judged_in_form(lambda place, number: place == 8 and number > 0)


@wrong_by_form('a profile over 1 as a fault of form')
def _():
    return judged_in_form(lambda place, number: place == 8 and number > 1)


def first_lines(one, two):
    """Which first lines are read as which form."""
    def read_sheet(sheet):
        line, _, rest = sheet.partition(b'\n')
        if line in one:
            line = b'set 2'
        elif line in two:
            line = b'set 9'
        else:
            line = b'set 0'
        if b'\n' not in sheet or len(sheet) > 65535:
            return right['read_sheet'](sheet)
        return right['read_sheet'](line + b'\n' + rest)
    return {'read_sheet': read_sheet}


@wrong_by_form('form two alone')
def _():
    return first_lines((), (b'set 9',))


@wrong_by_form('form one alone')
def _():
    return first_lines((b'set 2',), ())


@wrong_by_form('any other number of the set section as form two')
def _():
    return first_lines((b'set 2',), (b'set 9', b'set 8', b'set 10', b'set 3'))


@wrong_by_form('the left section ahead of the ruby section')
def _():
    def read_ruby(reader):
        if reader.sheet.startswith(b'set 9'):
            reader.ahead = right['read_left'](reader)
        return right['read_ruby'](reader)
    return {'read_ruby': read_ruby, 'read_left': lambda reader: reader.ahead}


@wrong_by_form('no left section where it would be empty')
def _():
    def read_left(reader):
        if reader.sheet[reader.place:reader.place + 5] == b'elem ':
            return [[], []]
        return right['read_left'](reader)
    return {'read_left': read_left}


def left_section(name=b'left', most=2048, place=3):
    def read_left(reader):
        lists = [[], []]
        for _ in range(reader.count(name, most, place)):
            for values, value in zip(lists,
                                     reader.numbers(reader.fields(), 2)):
                values.append(value)
        return lists
    return {'read_left': read_left}


@wrong_by_form('a second ruby section')
def _():
    return left_section(name=b'ruby')


@wrong_by_form('2 with place 1 for the left count of a sheet')
def _():
    return left_section(place=1)


@wrong_by_form('2 with place 2 for the left count of a sheet')
def _():
    return left_section(place=2)


@wrong_by_form('1,024 left characters on a sheet')
def _():
    return left_section(most=1024)


@wrong_by_form('the left count of a sheet not held to its maximum')
def _():
    return left_section(most=10 ** 10)


@wrong_by_form('the left count judged after the element count')
def _():
    def read_left(reader):
        try:
            return right['read_left'](reader)
        except Refused as refusal:
            if refusal.number == 2:
                reader.count(b'elem', 1024, 2)
            raise
    return {'read_left': read_left}


def element_line(change):
    """`change(fields)` of each element line of form two before it is read."""
    def read_element_two(reader):
        start = reader.place
        fields = change(reader.fields())
        line = b' '.join(fields) + b'\n'
        rest = reader.sheet[reader.place:]
        reader.sheet = reader.sheet[:start] + line + rest
        reader.place = start
        reader.line_number -= 1
        return right['read_element_two'](reader)
    return {'read_element_two': read_element_two}


def has_letter(fields):
    return any(field.isalpha() for field in fields[1:])


@wrong_by_form('no letter for none')
def _():
    return element_line(lambda fields: fields if has_letter(fields)
                        or fields[0] == b'P' else fields + [b'N'])


@wrong_by_form('a letter for none on P')
def _():
    return element_line(lambda fields: [b'P'] if fields == [b'P', b'N']
                        else fields)


@wrong_by_form('a letter asked for on P')
def _():
    return element_line(lambda fields: [b'P', b'P'] if fields == [b'P']
                        else fields[:1] if fields == [b'P', b'N'] else fields)


@wrong_by_form('small letters')
def _():
    return element_line(lambda fields: fields[:1] + [
        field.upper() for field in fields[1:]])


@wrong_by_form('P as a letter for none')
def _():
    return element_line(lambda fields: fields[:1] + [
        b'N' if field == b'P' else field for field in fields[1:]])


@wrong_by_form('counts behind N passed over')
def _():
    return element_line(lambda fields: fields[:fields.index(b'N') + 1]
                        if b'N' in fields[1:] else fields)


def left_counts_as(count_of):
    """`count_of(kind, base, letter)` counts behind the letter M or J."""
    def read_left_counts(reader, kind, base, letter, texts):
        if letter in (b'M', b'J') and not (letter == b'M' and kind == M):
            runs = reader.numbers(texts, count_of(kind, base, letter))
            return ord(letter), 0, runs
        return right['read_left_counts'](reader, kind, base, letter, texts)
    return {'read_left_counts': read_left_counts}


@wrong_by_form('one count for a left kind that is not taken')
def _():
    return left_counts_as(lambda kind, base, letter: 1 if kind != J else base)


@wrong_by_form('one count for a mono left reading on J')
def _():
    return left_counts_as(lambda kind, base, letter: 1 if letter == b'M' or (
        kind == M) else base)


@wrong_by_form('a count ahead of the runs of a left J')
def _():
    def read_left_counts(reader, kind, base, letter, texts):
        if letter == b'J' and len(texts) > 0:
            if texts[0] != b'%d' % base:
                raise reader.fault()
            texts = texts[1:]
        return right['read_left_counts'](reader, kind, base, letter, texts)
    return {'read_left_counts': read_left_counts}


@wrong_by_form('a count ahead of the runs of a mono left reading on J')
def _():
    def read_left_counts(reader, kind, base, letter, texts):
        if (kind, letter) == (J, b'M') and len(texts) > 0:
            if texts[0] != b'%d' % base:
                raise reader.fault()
            texts = texts[1:]
        return right['read_left_counts'](reader, kind, base, letter, texts)
    return {'read_left_counts': read_left_counts}


@wrong_by_form('a count ahead of left runs passed over')
def _():
    def read_left_counts(reader, kind, base, letter, texts):
        if (kind == J and letter in (b'M', b'J') and len(texts) == base + 1
                and texts[0] == b'%d' % base):
            texts = texts[1:]
        return right['read_left_counts'](reader, kind, base, letter, texts)
    return {'read_left_counts': read_left_counts}


@wrong_by_form('K taken in form two')
def _():
    def read_right(reader, fields):
        if fields[0] == b'K' and reader.sheet.startswith(b'set 9'):
            base, _ = reader.numbers(fields[1:], 2)
            return ord('K'), base, 0, []
        return right['read_right'](reader, fields)

    def read_element_two(reader):
        line = reader.sheet[reader.place:].split(b'\n')[0]
        if line.startswith(b'K '):
            return (*second.read_right(reader, reader.fields()), N, 0, [])
        return right['read_element_two'](reader)
    return {'read_right': read_right, 'read_element_two': read_element_two}


def in_form_one(take):
    """`take(fields)` of an element line of form one before it is read."""
    def read_element(reader):
        return second.read_right(reader, take(reader.fields()))
    return {'read_element': read_element}


@wrong_by_form('K taken in form one')
def _():
    return in_form_one(lambda fields: [b'P'] if fields[0] == b'K' else fields)


@wrong_by_form('letters taken in form one')
def _():
    return in_form_one(lambda fields: fields[:-1] if fields[-1] == b'N'
                       else fields)


@wrong_by_form('a left section taken in form one')
def _():
    def read_elem(reader):
        if reader.sheet[reader.place:].startswith(b'left 0\n'):
            reader.fields()
        return right['read_elem'](reader)
    return {'read_elem': read_elem}


@wrong_by_form('K taken as a left letter')
def _():
    def read_left_counts(reader, kind, base, letter, texts):
        if letter == b'K':
            return ord('K'), *reader.numbers(texts, 1), []
        return right['read_left_counts'](reader, kind, base, letter, texts)
    return {'read_left_counts': read_left_counts}


@wrong_by_form('17 given by the setting program')
def _():
    def read_sheet(sheet):
        arguments = right['read_sheet'](sheet)
        if sheet.startswith(b'set 9'):
            convert.check_form_one_can_hold(arguments,
                                            sheet.split(b'\n')[:-1])
        return arguments
    return {'read_sheet': read_sheet}


@wrong_by_form('more than 65,535 bytes in form two')
def _():
    def read_sheet(sheet):
        most = 10 ** 6 if sheet.startswith(b'set 9') else 65535
        with mock.patch.object(second, 'LARGEST_SHEET', most):
            return right['read_sheet'](sheet)
    return {'read_sheet': read_sheet}


@wrong_by_form('a left kind that is not taken as a fault of form')
def _():
    def read_left_counts(reader, kind, base, letter, texts):
        found = right['read_left_counts'](reader, kind, base, letter, texts)
        if found[0] not in second.TAKEN[kind]:
            raise reader.fault()
        return found
    return {'read_left_counts': read_left_counts}


@wrong_by_form('left counts out of range as a fault of form')
def _():
    def read_left_counts(reader, kind, base, letter, texts):
        found = right['read_left_counts'](reader, kind, base, letter, texts)
        if found[0] in (M, G) and not found[2] and not 1 <= found[1] <= 64:
            raise reader.fault()
        return found
    return {'read_left_counts': read_left_counts}


@wrong_by_form('no left positions in the result')
def _():
    def result_text(*arguments):
        text = right['result_text'](*arguments)
        return b''.join(line for line in text.splitlines(True)
                        if not line.startswith(b'l '))
    return {'result_text': result_text}


@wrong_by_form('left positions ahead of the right ones')
def _():
    def result_text(arguments, base_out, ruby_outs, ends):
        text = right['result_text'](arguments, base_out, ruby_outs, ends)
        rows, lefts = [], []
        for line in text.splitlines(True):
            if line.startswith(b'l '):
                at = len(rows)
                while at > 0 and rows[at - 1].startswith(b'r '):
                    at -= 1
                rows.insert(at, line)
            else:
                rows.append(line)
        return b''.join(rows)
    return {'result_text': result_text}


@wrong_by_form('a J with a mono left reading printed character by character')
def _():
    def cut_by_lines(element, ends):
        if (element.kind, element.left_kind) == (J, M):
            return [(index, index + 1) for index
                    in range(element.base_first, element.base_end)]
        return right['cut_by_lines'](element, ends)
    return {'cut_by_lines': cut_by_lines}


@wrong_by_form('the extent without left readings')
def _():
    def line_extent(job, parts, base_out, ruby_outs):
        return right['line_extent'](job, [(*part[:2], []) for part in parts],
                                    base_out, ruby_outs)
    return {'line_extent': line_extent}


# ---------------------------------------------------------------------------
# R-6: the converter
# ---------------------------------------------------------------------------

right_converter = {name: value for name, value in vars(convert).items()
                   if callable(value)}


def writes(line, other):
    """One line of form two that is written another way."""
    def to_form_two(arguments, lines):
        found = right_converter['to_form_two'](arguments, lines).split(b'\n')
        found[line - 1] = other
        return b'\n'.join(found)
    return {'to_form_two': to_form_two}


@wrong_converter('another ruby ratio')
def _():
    return writes(5, b'3')


@wrong_converter('another base ratio')
def _():
    return writes(7, b'2')


@wrong_converter('ratios of the same proportion')
def _():
    def to_form_two(arguments, lines):
        found = right_converter['to_form_two'](arguments, lines).split(b'\n')
        found[3:9] = [b'2', b'4', b'2'] * 2
        return b'\n'.join(found)
    return {'to_form_two': to_form_two}


@wrong_converter('profile 1')
def _():
    return writes(10, b'1')


@wrong_converter('the left section left out when empty')
def _():
    def to_form_two(arguments, lines):
        found = right_converter['to_form_two'](arguments, lines)
        return found.replace(b'left 0\n', b'')
    return {'to_form_two': to_form_two}


@wrong_converter('the left section behind the elements')
def _():
    def to_form_two(arguments, lines):
        found = right_converter['to_form_two'](arguments, lines)
        return found.replace(b'left 0\n', b'') + b'left 0\n'
    return {'to_form_two': to_form_two}


@wrong_converter('a letter on P')
def _():
    return {'with_letter': lambda line: line + b' N'}


@wrong_converter('no letters')
def _():
    return {'with_letter': lambda line: line}


@wrong_converter('a count behind N')
def _():
    return {'with_letter': lambda line: line if line == b'P'
            else line + b' N 0'}


@wrong_converter('letters kept in form one')
def _():
    return {'without_letter': lambda line: line}


@wrong_converter('no LF at the end')
def _():
    def text_of(lines):
        return right_converter['text_of'](lines)[:-1]
    return {'text_of': text_of}


@wrong_converter('jobs that are refused converted')
def _():
    return {'check_accepted': lambda arguments: None}


@wrong_converter('jobs with refusal 11 converted')
def _():
    def check_accepted(arguments):
        try:
            right_converter['check_accepted'](arguments)
        except Refused as refusal:
            if refusal.number != 11:
                raise
    return {'check_accepted': check_accepted}


def but_for_11(taken):
    """A job with refusal 11 is converted, in this direction."""
    def wrong_one(arguments, lines):
        try:
            return right_converter[taken](arguments, lines)
        except Refused as refusal:
            if refusal.number != 11:
                raise
        with mock.patch.object(convert, 'check_accepted', lambda _: None):
            return right_converter[taken](arguments, lines)
    return {taken: wrong_one}


@wrong_converter('jobs with refusal 11 taken to form two')
def _():
    return but_for_11('to_form_two')


@wrong_converter('jobs with refusal 11 taken back')
def _():
    return but_for_11('to_form_one')


@wrong_converter('form two not taken back')
def _():
    def to_form_one(arguments, lines):
        right_converter['to_form_one'](arguments, lines)
        return b''.join(line + b'\n' for line in lines)
    return {'to_form_one': to_form_one}


def held(check):
    return {'check_form_one_can_hold': check}


@wrong_converter('ratios not looked at')
def _():
    def check(arguments, lines):
        right_converter['check_form_one_can_hold'](
            arguments, lines[:3] + convert.PLAIN[:6] + lines[9:])
    return held(check)


@wrong_converter('the base ratio not looked at')
def _():
    def check(arguments, lines):
        right_converter['check_form_one_can_hold'](
            arguments, lines[:6] + convert.PLAIN[3:6] + lines[9:])
    return held(check)


@wrong_converter('ratios by their proportion')
def _():
    def check(arguments, lines):
        lines = list(lines)
        for first in (3, 6):
            numbers = [int(line) for line in lines[first:first + 3]]
            if numbers[0] > 0 and numbers == [
                    numbers[0], 2 * numbers[0], numbers[0]]:
                lines[first:first + 3] = [b'1', b'2', b'1']
        right_converter['check_form_one_can_hold'](arguments, lines)
    return held(check)


@wrong_converter('the profile not looked at')
def _():
    def check(arguments, lines):
        right_converter['check_form_one_can_hold'](
            arguments, lines[:9] + [b'0'] + lines[10:])
    return held(check)


@wrong_converter('left characters without a letter passed over')
def _():
    return {'has_left_reading': lambda left: any(
        kind != N for kind in left.left_kind)}


@wrong_converter('letters without left characters passed over')
def _():
    return {'has_left_reading': lambda left: len(left.left_class) > 0}


def place_of_17(change):
    """`change(place, arguments, lines)` in the place of 17's."""
    def check(arguments, lines):
        try:
            right_converter['check_form_one_can_hold'](arguments, lines)
        except Refused as refusal:
            raise Refused(17, change(refusal.place, arguments, lines))
    return held(check)


@wrong_converter('17 with lines from 0')
def _():
    return place_of_17(lambda place, arguments, lines: place - 1)


@wrong_converter('17 with a line too many in the set section')
def _():
    return place_of_17(lambda place, arguments, lines:
                       place + 1 if place < 11 else place)


@wrong_converter('17 with a line too few in the set section')
def _():
    return place_of_17(lambda place, arguments, lines:
                       place - 1 if place < 11 else place)


@wrong_converter('17 with lines from 0 for a reading')
def _():
    return place_of_17(lambda place, arguments, lines:
                       place - 1 if place > 10 else place)


@wrong_converter('17 by the base ratio ahead of the ruby ratio')
def _():
    return place_of_17(lambda place, arguments, lines:
                       place + 3 if place < 7 else
                       place - 3 if place < 10 else place)


@wrong_converter('17 with the elem line for a letter')
def _():
    def change(place, arguments, lines):
        count = len(arguments[15].left_class)
        return place if place < 11 or count > 0 else place + 1
    return place_of_17(change)


@wrong_converter('17 with the first line of the ratio')
def _():
    return place_of_17(lambda place, arguments, lines:
                       4 if place < 7 else 7 if place < 10 else place)


@wrong_converter('17 with the places of 15')
def _():
    return place_of_17(lambda place, arguments, lines:
                       0 if place < 7 else 1 if place < 10 else place)


@wrong_converter('17 with the first left character')
def _():
    return place_of_17(lambda place, arguments, lines:
                       place + 1 if place > 10 else place)


@wrong_converter('17 with the line of the element')
def _():
    def change(place, arguments, lines):
        if place <= 10:
            return place
        for number, line in enumerate(lines[place:], place + 1):
            if line[:1] in b'MGJ' and not line.endswith(b' N'):
                return number
        return place
    return place_of_17(change)


@wrong_converter('17 with the last line at fault')
def _():
    def change(place, arguments, lines):
        if convert.has_left_reading(arguments[15]):
            return convert.left_line(lines) + 1
        return max(number for number, (line, plain) in enumerate(
            zip(lines[3:10], convert.PLAIN), 4) if line != plain)
    return place_of_17(change)


@wrong_converter('17 for a reading ahead of 17 for a ratio')
def _():
    def change(place, arguments, lines):
        if convert.has_left_reading(arguments[15]):
            return convert.left_line(lines) + 1
        return place
    return place_of_17(change)


@wrong_converter('17 after the job\'s own refusals')
def _():
    def check(arguments, lines):
        right_converter['check_accepted'](arguments)
        right_converter['check_form_one_can_hold'](arguments, lines)
    return held(check)


@wrong_converter('17 after 15 and 20')
def _():
    def check(arguments, lines):
        job = second.Job(*arguments)
        second.check_ratios(job)
        second.check_profile(job)
        right_converter['check_form_one_can_hold'](arguments, lines)
    return held(check)


@wrong_converter('17 after 1')
def _():
    def check(arguments, lines):
        second.check_sizes(second.Job(*arguments))
        right_converter['check_form_one_can_hold'](arguments, lines)
    return held(check)


def early_17(but_for):
    """17 for a line of the set section ahead of this number."""
    def converted(sheet):
        found = right_converter['converted'](sheet)
        lines = sheet.split(b'\n')
        if found.startswith(b'refused %d ' % but_for) and (
                lines[0] == b'set 9' and len(lines) > 10
                and len(sheet) <= 65535):
            for number, (line, plain) in enumerate(
                    zip(lines[3:10], convert.PLAIN), 4):
                if not line.isdigit():
                    break
                if line != plain:
                    return b'refused 17 %d\n' % number
        return found
    return {'converted': converted}


@wrong_converter('17 ahead of 13')
def _():
    return early_17(13)


@wrong_converter('17 ahead of 2')
def _():
    return early_17(2)


@wrong_converter('form one alone converted')
def _():
    def converted(sheet):
        if sheet.startswith(b'set 9\n'):
            return b'refused 13 1\n'
        return right_converter['converted'](sheet)
    return {'converted': converted}


# ---------------------------------------------------------------------------

class Found(unittest.TestCase):

    @classmethod
    def setUpClass(cls):
        cls.sheets = list(generate.sheets(1, 1500))
        cls.answers = [second.answer(text) for text in cls.sheets]
        cls.calls = [call for call, _ in generate_lists.calls(1, 1000, False)]
        cls.results = [call.answered() for call in cls.calls]

    def shown_by(self, replacements):
        """How many sheets are put in before the first that shows it."""
        return first_shown(replacements, second.answer, self.sheets,
                           self.answers)

    def shown_in_lists(self, replacements):
        """How many jobs in lists are put in before the first that shows it."""
        return first_shown(replacements, lambda call: call.answered(),
                           self.calls, self.results)

    def test_every_wrong_engine_is_found(self):
        for name, replacements in WRONG.items():
            with self.subTest(name):
                self.assertIsNotNone(self.shown_by(replacements), name)

    def test_every_wrong_engine_of_ratios_is_found(self):
        for name, replacements in WRONG_BY_RATIOS.items():
            with self.subTest(name):
                self.assertIsNotNone(self.shown_in_lists(replacements), name)

    def test_every_wrong_engine_of_profiles_is_found(self):
        for name, replacements in WRONG_BY_PROFILE.items():
            with self.subTest(name):
                self.assertIsNotNone(self.shown_in_lists(replacements), name)

    def test_the_spread_by_pencil_is_right(self):
        pencil = by_pencil(lambda n, before, left: left >= n - 1)
        self.assertIsNone(self.shown_by(pencil))
        self.assertIsNone(self.shown_in_lists(pencil))


class FoundByLeft(unittest.TestCase):

    @classmethod
    def setUpClass(cls):
        # Without the longest, which take long and show nothing else.
        cls.calls = [both for both in generate_lists.calls(1, 2000, True)
                     if len(both[0].given[0]) <= 100]
        cls.results = [call.answered() for call, _ in cls.calls]

    def test_every_wrong_engine_of_left_readings_is_found(self):
        calls = [call for call, _ in self.calls]
        for name, replacements in WRONG_BY_LEFT.items():
            with self.subTest(name):
                self.assertIsNotNone(first_shown(
                    replacements, lambda call: call.answered(), calls,
                    self.results), name)

    def test_every_wrong_account_of_left_readings_is_found(self):
        calls = [call for _, call in self.calls]
        accounts = [call.answered() for call in calls]
        for name, replacements in WRONG_ACCOUNTS.items():
            with self.subTest(name):
                self.assertIsNotNone(first_shown(
                    replacements, lambda call: call.answered(), calls,
                    accounts, account), name)

    def test_the_left_one_if_equal_is_the_same(self):
        # "the longer reading (right, if equal)": which of two equal ones is
        # set with the base never shows.
        def set_two_groups(em, ratios, western, base, ruby, left):
            if sum(ruby.widths) != sum(left.widths):
                return right['set_two_groups'](em, ratios, western, base,
                                               ruby, left)
            base_at, left_at, ruby_at = right['set_two_groups'](
                em, ratios, western, base, left, ruby)
            return base_at, ruby_at, left_at
        calls = [call for call, _ in self.calls]
        self.assertIsNone(first_shown(
            {'set_two_groups': set_two_groups},
            lambda call: call.answered(), calls, self.results))


class FoundByForms(unittest.TestCase):

    @classmethod
    def setUpClass(cls):
        # Without the longer ones, which take long and show nothing else; those
        # of just the greatest length don't.
        cls.sheets = [sheet for sheet in generate_two.sheets(1, 2500)
                      if not 6000 < len(sheet) < 65530]

    def test_every_wrong_reading_of_form_two_is_found(self):
        answers = list(map(second.answer, self.sheets))
        for name, replacements in WRONG_BY_FORM.items():
            with self.subTest(name):
                self.assertIsNotNone(first_shown(
                    replacements, second.answer, self.sheets, answers), name)

    def test_every_wrong_converter_is_found(self):
        expected = list(map(convert.converted, self.sheets))
        for name, replacements in WRONG_CONVERTERS.items():
            with self.subTest(name):
                self.assertIsNotNone(first_shown(
                    replacements, lambda sheet: convert.converted(sheet),
                    self.sheets, expected, convert), name)


def first_shown(replacements, answered, given, expected, module=second):
    """How many are answered rightly before the first that is not."""
    with mock.patch.multiple(module, **replacements):
        for count, one in enumerate(given):
            try:
                answer = answered(one)
            except Exception:   # a wrong engine may well break down
                return count
            if answer != expected[count]:
                return count
    return None


if __name__ == '__main__':
    unittest.main()
