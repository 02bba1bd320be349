"""The account as tables: the rows of the programs, with their sentences."""

import html

import sheets
import words
from plane import tag

HEADS = (('element', 'Element'), ('characters', 'Characters'), ('at', 'At'),
         ('gap', 'Gap'), ('rule', 'Rule'), ('why', 'Why it stands there'))


def characters_cell(view, piece):
    """The characters of an element in a line, and its readings."""
    sheet, text = view.sheet, view.text
    own = words.characters_of(sheet, text, 'b', piece.boxes['b'])
    language = None if text is None else 'ja'
    kind = words.KINDS[sheet.elements[piece.element].kind]
    more = ''.join(', %s %s' % (side.words, words.characters_of(
        sheet, text, side.letter, piece.boxes[side.letter]))
        for side in sheets.SIDES if side.letter in piece.boxes)
    return tag('span', html.escape(own), lang=language) + tag(
        'small', html.escape(kind + more), lang=language)


def why_cell(view, line, piece, row):
    """The sentence of one row; what lies on it goes with the first."""
    sheet, text = view.sheet, view.text
    pieces = {other.element: other for other in line.pieces}
    more = [words.gap_words(sheet, text, row, pieces)]
    if row is piece.rows[0]:
        more += words.depth_words(sheet, text, line, piece)
    return html.escape('%s.' % words.capital(words.reason(
        sheet, text, row))) + ''.join(
            tag('small', html.escape(words.capital(told) + '.'))
            for told in more if told)


def row_of(view, line, at, piece, row):
    identity = view.identity(at, piece.element)
    link = tag('a', str(row.element), href='#' + identity)
    return tag('tr', ''.join((
        tag('th', link, scope='row'),
        tag('td', characters_cell(view, piece)),
        tag('td', str(row.at), class_='amount'),
        tag('td', str(row.gap), class_='amount'),
        tag('td', str(row.rule), class_='amount'),
        tag('td', why_cell(view, line, piece, row)))),
        data_of=identity, data_element=row.element, data_at=row.at,
        data_gap=row.gap, data_rule=row.rule)


def table(view, line, at, **attributes):
    """The rows of one line."""
    head = tag('tr', ''.join(tag('th', name, scope='col', class_='of-' + cls)
                             for cls, name in HEADS))
    rows = ''.join(row_of(view, line, at, piece, row) + '\n'
                   for piece in line.pieces for row in piece.rows)
    return tag('div', tag('table', ''.join((
        tag('caption', '%s: extent %d, measure %d' % (
            view.line_name(at), line.extent, view.measure)),
        tag('thead', head), '\n', tag('tbody', '\n' + rows)))),
        class_='account', data_line=at, data_sheet=view.prefix or None,
        **attributes)
