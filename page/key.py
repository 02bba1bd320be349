"""The key to the signs of a picture, drawn with the same parts."""

import html

import words
from plane import Plane, tag

HEADING = 'How to read the picture'
LONG, THICK = 68, 46    # of a sample, along and across, in its own units


def sample(vertical, drawn):
    size = (THICK, LONG) if vertical else (LONG, THICK)
    return tag('svg', drawn, class_='picture', viewBox='0 0 %d %d' % size,
               text_anchor='middle', aria_hidden='true')


def samples(plane, left):
    """(drawing, words) for each sign."""
    rect, path, text = plane.rect, plane.path, plane.text
    right, beside = (('to the right of', 'to the left of') if plane.vertical
                     else ('above', 'below'))
    base = rect(20, 28, 16, 28, class_='base')
    blank = base + rect(34, 14, 16, 28, class_='blank')
    yield base + ''.join(rect(at, 14, 2, 14, class_='ruby')
                         for at in (13, 27, 41)), (
        'a base character with its reading %s it; the small number beside it '
        'is that of its element' % right)
    if left:
        yield rect(20, 28, 2, 28, class_='base') + ''.join(
            rect(at, 14, 30, 14, class_='ruby left') for at in (20, 34)), (
            'a left reading, %s its base' % beside)
    yield blank, 'the blank of a character: the empty part of its width'
    yield blank + rect(34, 14, 16, 10, class_='depth') + text(
        41, 21, '10', 9, class_='deep'), (
        'how deep the reading of a neighbour lies on it')
    yield rect(24, 20, 4, 20, class_='gap') + ''.join(
        path((at, 24), (at, 31), class_='tick') for at in (24, 44)) + path(
        (24, 29), (44, 29), class_='width') + text(
        34, 39, '30', 11, class_='told'), (
        'a gap between two bases; beside it how wide it is, and the rule that '
        'holds it open')
    yield path((34, 12), (34, 42), class_='contact') + plane.circle(
        34, 10, 8, class_='badge') + text(34, 10, '3', 11, class_='rule'), (
        'what holds it: here a reading may go no further, by the rule with '
        'this number')
    yield path((14, 6), (14, 40), class_='edge start') + path(
        (54, 6), (54, 40), class_='edge measure'), (
        'where the line starts, and where the measure ends')


def key(vertical, left, name='key'):
    """The key as HTML, with the four rules; name is that of its heading."""
    signs = ''.join(tag('li', sample(vertical, drawn)
                        + tag('span', html.escape(told)))
                    for drawn, told in samples(Plane(vertical, THICK), left))
    told = {**words.RULES, **({3: words.ONE_SIDE} if left else {})}
    rules = ''.join(tag('li', html.escape(told[rule]), value=rule)
                    for rule in sorted(told))
    return (tag('h2', HEADING, id=name)
            + tag('ul', signs, class_='key')
            + tag('h2', 'The four rules of clearance')
            + tag('ol', rules, class_='rules'))
