"""The lines of a page as one SVG that stands alone, for a document.

The drawing is that of the page.  Under each line stands what holds its gaps,
and at the end what the rules say that do.
"""

import html
import unicodedata

import drawing
import lanes
import style
import words
from plane import number, tag

ROW = 0.36          # of an em: from one row of words to the next
WORDS = 0.235       # of an em: the size of their letters
AIR = 0.1           # of an em: between a line and its words
PIXELS = 60         # of an em


def columns(text):
    """How many columns a text takes where an ideograph takes two."""
    return sum(2 if unicodedata.east_asian_width(letter) in 'WF' else 1
               for letter in text)


def wrapped(text, most):
    """Rows of at most so many columns."""
    rows = ['']
    for word in text.split(' '):
        if rows[-1] and columns(rows[-1] + ' ' + word) > most:
            rows.append('')
        rows[-1] += (' ' if rows[-1] else '') + word
    return rows


def gap_rows(view, line, most):
    """The sentences of a line's gaps, in rows."""
    return [told for piece in line.pieces for row in piece.rows if row.gap
            for told in wrapped('%s: %s.' % (
                words.name(view.sheet, view.text, row.element),
                words.held(view.sheet, view.text, row)), most)]


def rule_rows(lines, most):
    """What the rules say that hold a gap."""
    rules = {row.rule for line in lines for piece in line.pieces
             for row in piece.rows if row.gap}
    return [told for rule in sorted(rules)
            for told in wrapped('Rule %d: %s.' % (rule, words.RULES[rule]),
                                most)]


def words_below(view, rows, at, cls=None):
    """(rows of words, where the next thing may stand)."""
    em = view.em
    drawn = ''.join(tag('text', html.escape(row), x='0', y=number(
        at + (index + 0.5) * ROW * em), font_size=number(WORDS * em),
        text_anchor='start', class_=cls) for index, row in enumerate(rows))
    return drawn + '\n', at + len(rows) * ROW * em + em / 4


def svg(sheet, lines, text):
    """The whole picture."""
    view = lanes.View(sheet, lines, text)
    view.still = True
    em, margin = view.em, view.em / 2
    wide = max(view.span, 8 * em) + 2 * margin
    most = int((wide - 2 * margin) / (0.51 * WORDS * em))
    drawn, at = '', margin / 2
    for index, line in enumerate(lines, 1):
        parts, thick = drawing.line_parts(view, line, index, {})
        drawn += tag('g', parts, transform='translate(0 %s)' % number(at),
                     data_line=index) + '\n'
        below, at = words_below(view, gap_rows(view, line, most),
                                at + thick + AIR * em)
        drawn += below
    below, at = words_below(view, rule_rows(lines, most), at, 'name')
    drawn += below
    ground = tag('rect', x=number(-margin), y='0', width=number(wide),
                 height=number(at), style='fill: var(--paper)')
    return tag('svg', '\n' + tag('style', style.PICTURE) + ground + drawn,
               xmlns='http://www.w3.org/2000/svg', class_='picture',
               viewBox='%s 0 %s %s' % (number(-margin), number(wide),
                                       number(at)),
               width=number(PIXELS / em * wide),
               height=number(PIXELS / em * at),
               text_anchor='middle') + '\n'
