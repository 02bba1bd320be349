"""The generated sheets reach the edges that they are there for.

    python3 second/test_generate.py

Each edge has to be met by some of the first 1,500 sheets of seed 1.
"""

import collections
import os
import sys
import unittest

HERE = os.path.dirname(os.path.abspath(__file__))
sys.path.insert(0, HERE)

import generate     # noqa: E402  (found through the path set above)
import second       # noqa: E402
from account import drawn_lines  # noqa: E402
from second import G, J, M, P, is_western  # noqa: E402


def text_edges(text, answer):
    """Edges of the sheet's bytes."""
    yield ' '.join(answer.decode('ascii').split()[:2])  # as `refused 3`
    for length in (0, 65535, 65536):
        if len(text) == length:
            yield 'length %d' % length
    for name, byte in (('CR', b'\r'), ('tab', b'\t'), ('NUL', b'\0')):
        if byte in text:
            yield name
    for number in (b'4294967295', b'4294967296'):
        if number in text:
            yield number.decode('ascii')
    if any(field[:1] == b'0' and len(field) > 1 for field in text.split()):
        yield 'leading zero'
    if text and not text.endswith(b'\n'):
        yield 'no LF at the end'


def group_edges(job, element, base, ruby):
    if base == ruby:
        yield 'G, equal sums'
        return
    western = (is_western(job.base_class[element.base_first]),
               is_western(job.ruby_class[element.ruby_first]))
    kinds = {(False, False): 'kana-like', (True, False): 'Western base',
             (False, True): 'Western ruby'}[western]
    shorter = 'ruby' if ruby < base else 'base'
    n = (element.ruby_end - element.ruby_first if ruby < base
         else element.base_end - element.base_first)
    g = abs(base - ruby) // n
    yield 'G, %s, %s shorter' % (kinds, shorter)
    if n == 1:
        yield 'G, %s shorter, n = 1' % shorter
    elif g in (job.em - 1, job.em, job.em + 1):
        yield 'G, %s, %s shorter, g = em%+d' % (kinds, shorter, g - job.em)


def word_edges(job):
    """Edges of level one."""
    for element in job.elements:
        base = sum(job.base_width[element.base_first:element.base_end])
        widths = job.ruby_width[element.ruby_first:element.ruby_end]
        if element.kind == G:
            yield from group_edges(job, element, base, sum(widths))
        if element.kind == M and len(widths) == 64:
            yield 'M 64'
        if element.kind == J:
            runs = second.cut_into_runs(element.runs, widths)
            longest = max(map(sum, runs))
            if longest - job.em in (0, 1):
                yield 'J, longest run = em%+d' % (longest - job.em)
            if longest > job.em:
                yield ('J as G, ruby shorter' if sum(widths) < base else
                       'J as G, equal sums' if sum(widths) == base else
                       'J as G, ruby longer')


def line_edges(job, line):
    """Edges of level two."""
    extent = max(max(drawn.block[1], (drawn.ruby or drawn.block)[1])
                 for drawn in line)
    if extent in (2 * job.measure, 2 * job.measure - 1):
        yield 'extent = measure%+d' % (extent - 2 * job.measure)
    for one, two in zip(line, line[1:]):
        one_class = job.base_class[job.elements[one.element].base_first]
        two_class = job.base_class[job.elements[two.element].base_first]
        if one.ruby and two.ruby and (one.block[1] < one.ruby[1]
                                      == two.ruby[0] < two.block[0]):
            yield 'long readings side by side'
        if two.ruby and 0 < one.block[1] - two.ruby[0] == one.depth_after:
            yield 'whole depth after class %d' % one_class
        if one.ruby and 0 < one.ruby[1] - two.block[0] == two.depth_before:
            yield 'whole depth before class %d' % two_class
    for one, two, three in zip(line, line[1:], line[2:]):
        if one.ruby and three.ruby and not two.ruby and (
                one.ruby[1] == three.ruby[0]
                and two.block[0] < one.ruby[1] < two.block[1]):
            yield 'two readings on one blank'


def is_space(job, drawn):
    """A P of class 14."""
    element = job.elements[drawn.element]
    return element.kind == P and job.base_class[element.base_first] == 14


def opening_edges(job, lines):
    """Edges of R-1: class 14 at the start of the job and of later lines."""
    if job.base_class[0] == 14 and job.elements[0].kind != P:
        yield 'a space as base of %s opens the job' % chr(job.elements[0].kind)
    if job.element_count == 1 and is_space(job, lines[0][0]):
        yield 'nothing but a space'
    for place, line in [('the job', lines[0])] + [
            ('a later line', line) for line in lines[1:]]:
        spaces = 0
        while spaces < len(line) and is_space(job, line[spaces]):
            spaces += 1
        if spaces in (1, 2) and spaces < len(line):
            word = line[spaces]
            if word.ruby and word.ruby[0] < word.block[0]:
                yield '%d in front of a long reading, %s' % (spaces, place)


def job_edges(job, lines):
    counts = (job.base_count, job.ruby_count, job.element_count)
    for name, count, most in zip(('base', 'ruby', 'elem'), counts,
                                 (1024, 2048, 1024)):
        if count == most:
            yield '%s %d' % (name, most)
    seen = collections.Counter(drawn.element for line in lines
                               for drawn in line)
    for times in seen.values():
        if times > 1:
            yield 'cut once' if times == 2 else 'cut more than once'
    for line in lines:
        yield from line_edges(job, line)
    if lines:
        yield from opening_edges(job, lines)


def lines_before(job):
    """How many lines are filled before number 11."""
    owner, breaks = second.owners(job), second.permitted_breaks(job)
    count = first = 0
    try:
        while True:
            first, _ = second.fill_line(job, owner, breaks, first)
            count += 1
    except second.Refused:
        return count


def edges(text):
    answer = second.answer(text)
    yield from text_edges(text, answer)
    refused = answer.split()[1] if answer.startswith(b'refused') else None
    if refused not in (None, b'11'):
        return
    job = second.Job(*second.read_sheet(text))
    second.take_elements(job)
    yield from word_edges(job)
    if refused is None:
        yield from job_edges(job, drawn_lines(text))
    elif lines_before(job) >= 3:
        yield '11 after three lines and more'


WANTED = ['refused %d' % number for number in range(1, 14) if number != 12] + [
    'lines 0', 'lines 1', 'lines 2', 'lines 9',
    'length 0', 'length 65535', 'length 65536', 'CR', 'tab', 'NUL',
    '4294967295', '4294967296', 'leading zero', 'no LF at the end',
    'G, equal sums', 'G, ruby shorter, n = 1', 'G, base shorter, n = 1',
    'G, kana-like, ruby shorter, g = em-1',
    'G, kana-like, ruby shorter, g = em+0',
    'G, kana-like, ruby shorter, g = em+1',
    'G, Western base, ruby shorter, g = em+1',
    'G, kana-like, base shorter, g = em+1',
    'G, Western base, base shorter', 'G, Western ruby, ruby shorter',
    'G, Western ruby, base shorter', 'M 64',
    'J, longest run = em+0', 'J, longest run = em+1', 'J as G, ruby shorter',
    'J as G, equal sums', 'J as G, ruby longer',
    'extent = measure+0', 'extent = measure-1', 'long readings side by side',
    'two readings on one blank', 'base 1024', 'ruby 2048', 'elem 1024',
    'cut once', 'cut more than once', '11 after three lines and more',
    'nothing but a space',
] + ['whole depth after class %d' % cls for cls in (2, 5, 6, 7, 14)] + [
    'whole depth before class %d' % cls for cls in (1, 5, 14)] + [
    'a space as base of %s opens the job' % kind for kind in 'MGJ'] + [
    '%d in front of a long reading, %s' % (spaces, place)
    for spaces in (1, 2) for place in ('the job', 'a later line')]


class Edges(unittest.TestCase):

    def test_every_edge_is_met(self):
        met = collections.Counter()
        for text in generate.sheets(1, 1500):
            met.update(set(edges(text)))
        self.assertEqual([edge for edge in WANTED if met[edge] == 0], [])


if __name__ == '__main__':
    unittest.main()
