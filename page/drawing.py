"""A line of the page as SVG: boxes where the programs put them.

Every box that stands for a character carries its number, as data-b, data-r
or data-l; its place and its length along the line are the result's position
and twice the sheet's width.  An element of the line is a group that can be
pointed at and moved to, with its account as its name.
"""

import html

import answers
import lanes
import letters
import sheets
import words
from plane import Plane, number, tag

GLYPH = 0.84            # of an em: the size of base characters
NARROW = 1.7            # the size of a letter that is one wide
DEPTH = 0.3             # of an em: the strip of a base on which a reading lies
SMALL = 0.2             # of an em: small letters
PIXELS = 72             # of an em on a screen, where there is room
LEAST = 24              # and at least, before the picture is scrolled
TALL = 580              # pixels of a column, where that is not too small
WIDEST = 16000          # pixels of a picture


# ---------------------------------------------------------------------------
# Characters in their boxes
# ---------------------------------------------------------------------------

def glyph(plane, box, across, thick, character, cls, size):
    """A character of the text in its box.

    What was squeezed to less than its square keeps its ink inside the box: an
    opening bracket has it at the end of its square, a closing one, a full
    stop and a comma at the start.
    """
    shown, wide = letters.shown(character), letters.is_wide(character)
    anchor, along = None, box.start + box.length / 2
    squeezed = wide and box.length < size
    if squeezed and cls in (2, 6, 7):
        anchor, along = 'start', box.start
    elif squeezed and cls == 1:
        anchor, along = 'end', answers.end(box)
    else:
        sign = wide or shown != character
        size = min(size, box.length * (1 if sign else NARROW))
    return plane.text(along, across + thick / 2, shown, size, lang='ja',
                      class_='glyph' if shown == character else 'glyph sign',
                      text_anchor=anchor)


def class_label(plane, box, across, thick, cls, size, short):
    """The name of a character's class in its box, one word under the other."""
    name = letters.short_name(cls) if short else letters.class_name(cls)
    rows = name.split(' ')
    wide = thick if plane.vertical else box.length
    high = box.length if plane.vertical else thick
    size = min(size, wide / (0.66 * max(map(len, rows))),
               high / (1.15 * len(rows)))
    return plane.rows(box.start + box.length / 2, across + thick / 2, rows,
                      size, class_='name')


def character(view, plane, letter, box, across, thick):
    """A box and what stands in it."""
    base = letter == 'b'
    of = (view.sheet.base if base else view.sheet.rubies[letter])[box.index]
    kind = {'b': 'base', 'r': 'ruby', 'l': 'ruby left'}[letter]
    drawn = plane.rect(box.start, box.length, across, thick, class_=kind,
                       **{'data-' + letter: box.index})
    if base:
        drawn += blanks(plane, box, across, thick, of)
    if view.text is None:
        return drawn + class_label(plane, box, across, thick, of.cls,
                                   SMALL * view.em, not base)
    return drawn + glyph(plane, box, across, thick,
                         view.text[letter][box.index], of.cls,
                         GLYPH * thick)


def blanks(plane, box, across, thick, of):
    """The empty parts of a base character; a space is empty altogether."""
    before, after = 2 * of.before, 2 * of.after
    parts = [(box.start, before), (answers.end(box) - after, after)]
    if of.cls == 14:
        parts = [(box.start, box.length)]
    return ''.join(plane.rect(start, length, across, thick, class_='blank')
                   for start, length in parts if length)


# ---------------------------------------------------------------------------
# An element
# ---------------------------------------------------------------------------

def gap_parts(view, plane, row, rows):
    """A gap: its place among the bases, and its width and rule beside it."""
    if not row.gap:
        return ''
    start = row.at - row.gap
    return (plane.rect(start, row.gap, rows.base, lanes.BASE * view.em,
                       class_='gap', data_gap=row.gap)
            + width_parts(view, plane, start, row.at, lanes.key_of(row),
                          rows))


def width_parts(view, plane, start, end, key, rows):
    """A length between two places, and the words that stand beside it."""
    em, label = view.em, rows.gaps.by_key[key]
    tick, middle = rows.gaps.begin + lanes.AIR * em, rows.gaps.middle(label)
    drawn = ''.join(plane.path((along, rows.numbers),
                               (along, tick + lanes.AIR * em), class_='tick')
                    for along in (start, end))
    drawn += plane.path((start, tick), (end, tick), class_='width')
    drawn += plane.path((label.along, tick),
                        (label.along, middle - label.thick / 2),
                        class_='tick')
    return drawn + plane.rows(label.along, middle, label.rows,
                              lanes.LABEL * em, class_='told')


def contact_parts(view, plane, row, rows):
    """Where a reading holds the element, with the number of the rule."""
    for side, band in rows.badges.items():
        contact = band.by_key.get(lanes.key_of(row))
        if contact is None:
            continue
        em, across = view.em, band.middle(contact)
        far = rows.readings[side]
        if side is sheets.RIGHT:
            far += (lanes.READING + (lanes.BASE if row.rule == 2 else 0)) * em
        elif row.rule == 2:
            far = rows.base
        return (plane.path((contact.along, across), (contact.along, far),
                           class_='contact')
                + plane.circle(contact.along, across, lanes.BADGE * em,
                               class_='badge')
                + plane.text(contact.along, across, str(row.rule),
                             lanes.LABEL * em, class_='rule'))
    return ''


def hatch(plane, along, length, across, thick):
    """Slanting lines over an area."""
    drawn, at, step = '', thick / 2, thick / 2
    while at < length + thick:
        drawn += plane.path(
            (along + max(0, at - thick), across + min(at, thick)),
            (along + min(at, length), across + max(0, at - length)),
            class_='hatch')
        at += step
    return drawn


def depth_parts(view, plane, line, piece, rows):
    """How far the readings of others lie on this element's base."""
    drawn, em = '', view.em
    for side, _, start, end in words.depths(line, piece):
        across = rows.base
        if side is sheets.LEFT:
            across += (lanes.BASE - DEPTH) * em
        drawn += plane.rect(start, end - start, across, DEPTH * em,
                            class_='depth', data_depth=end - start)
        drawn += hatch(plane, start, end - start, across, DEPTH * em)
        size = min(SMALL * em, (end - start) / (0.6 * len(str(end - start))))
        drawn += plane.text((start + end) / 2, across + DEPTH * em / 2,
                            str(end - start), size, class_='deep')
    return drawn


def move_parts(view, plane, piece, rows):
    label = rows.moves.by_key.get(piece.element)
    if label is None:
        return ''
    return plane.rows(label.along, rows.moves.middle(label), label.rows,
                      lanes.LABEL * view.em, class_='move')


def element_parts(view, plane, line, piece, rows):
    """Everything that is drawn of an element of a line."""
    em = view.em
    drawn = ''.join(gap_parts(view, plane, row, rows) for row in piece.rows)
    for box in piece.boxes['b']:
        drawn += character(view, plane, 'b', box, rows.base, lanes.BASE * em)
    drawn += depth_parts(view, plane, line, piece, rows)
    for side, across in rows.readings.items():
        for box in piece.boxes.get(side.letter, ()):
            drawn += character(view, plane, side.letter, box, across,
                               lanes.READING * em)
    drawn += plane.text(lanes.middle(piece),
                        rows.numbers + (0.25 if view.vertical else 0.16) * em,
                        str(piece.element), SMALL * em, class_='number')
    drawn += ''.join(contact_parts(view, plane, row, rows)
                     for row in piece.rows)
    return drawn + move_parts(view, plane, piece, rows)


def element(view, plane, line, at, piece, rows, move):
    """An element of a line as a group that can be moved to."""
    said = words.sentence(view.sheet, view.text, line, piece)
    if view.still:
        return tag('g', tag('title', html.escape(said)) + element_parts(
            view, plane, line, piece, rows), data_element=piece.element)
    others = sorted({row.other for row in piece.rows
                     if row.other is not None})
    return tag('g', element_parts(view, plane, line, piece, rows),
               class_='element moved' if move else 'element',
               id=view.identity(at, piece.element), tabindex=0, role='img',
               data_element=piece.element,
               data_others=' '.join(view.identity(at, other)
                                    for other in others) or None,
               aria_label=said + (' ' + move.words if move else ''))


# ---------------------------------------------------------------------------
# A line
# ---------------------------------------------------------------------------

def start_edge(plane, rows):
    """The line's start."""
    return plane.path((0, 0), (0, rows.numbers), class_='edge start')


def measure_edge(view, plane, line, rows):
    """The measure, and what passes it."""
    drawn, over = '', line.extent - view.measure
    if over > 0:
        drawn += plane.rect(view.measure, over, 0, rows.numbers,
                            class_='over', data_over=over)
        drawn += width_parts(view, plane, view.measure, line.extent,
                             lanes.OVER, rows)
    if not view.far:
        drawn += plane.path((view.measure, 0), (view.measure, rows.numbers),
                            class_='edge measure')
    return drawn


def edge_labels(view, plane, rows):
    """`start` and `measure`: over a line, or at the ends of a vertical one."""
    em, size = view.em, lanes.LABEL * view.em
    said = 'measure %d' % view.measure + (', further on' if view.far else '')
    end = view.span if view.far else view.measure
    if view.vertical:
        across = rows.base + lanes.BASE * em / 2
        places = [(-0.25 * em, across, None),
                  (max(end, view.span) + 0.25 * em, across, None)]
    else:
        across = (lanes.LABEL / 2 + lanes.AIR) * em
        places = [(lanes.AIR * em, across, 'start'),
                  (end - lanes.AIR * em, across, 'end')]
        if view.short:
            places[1] = (end + lanes.AIR * em, across, 'start')
    return ''.join(plane.text(along, across, words, size, class_='told',
                              text_anchor=anchor)
                   for (along, across, anchor), words
                   in zip(places, ('start', said)))


def line_parts(view, line, at, moves):
    """(what is drawn of a line, how far its lanes go across)."""
    rows = lanes.Lanes(view, line, moves)
    plane = Plane(view.vertical, rows.end)
    drawn = plane.rect(0, min(view.span, view.measure), rows.base,
                       lanes.BASE * view.em, class_='ground')
    drawn += start_edge(plane, rows)
    drawn += ''.join(element(view, plane, line, at, piece, rows,
                             moves.get(piece.element))
                     for piece in line.pieces)
    drawn += measure_edge(view, plane, line, rows)
    return drawn + edge_labels(view, plane, rows), rows.end


def svg(view, line, at, moves=None):
    """A line as an SVG.

    at is its number, counted from 1; moves has the Move of each element that
    moved.
    """
    drawn, thick = line_parts(view, line, at, moves or {})
    margin = 0.5 * view.em
    along = view.span + margin + (2.5 * view.em if view.short else margin)
    scale = PIXELS / view.unit
    if view.vertical:
        # A column is held to the height of a window where it can be.
        scale = max(min(scale, TALL / along), LEAST / view.unit)
        box, size = (0, -margin, thick, along), (thick, along)
    else:
        box, size = (-margin, 0, along, thick), (along, thick)
    scale = min(scale, WIDEST / along)
    least = None if view.vertical else 'min-width:%spx' % number(
        min(LEAST / view.unit * along, scale * along))
    return tag('svg', drawn, class_='picture', viewBox=' '.join(
        map(number, box)), width=number(size[0] * scale),
        height=number(size[1] * scale), style=least, role='group',
        aria_label='%s, to scale' % view.line_name(at), data_line=at,
        text_anchor='middle',
        data_sheet=view.prefix or None)
