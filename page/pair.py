"""Two sheets side by side: what a correction moved."""

import html

import answers
import changes
import document
import key
import lanes
import sheets
import tables
from plane import tag
from trouble import Trouble

SIDES = ('old', 'new')


def place(column, row):
    """Where a thing stands among the pairs; the style turns vertical ones."""
    return '--column:%d;--row:%d' % (column, row)


def heads():
    return ''.join(tag('h2', 'The %s sheet' % side, class_='head',
                       style=place(column, 1))
                   for column, side in enumerate(SIDES, 1))


def grid(views, pages, told):
    """The lines of both, pair by pair, and below them their accounts."""
    moves, drawn, rows = (told.old, told.new), heads(), ''
    for row, pair in enumerate(told.pairs, 2):
        for column, (side, at) in enumerate(zip(SIDES, pair)):
            here = place(column + 1, row)
            if at is None:
                drawn += tag('p', 'no such line on the %s sheet' % side,
                             class_='none', style=here)
                continue
            line = pages[column].lines[at]
            drawn += document.figure(views[column], line, at + 1,
                                     moves[column][at], style=here) + '\n'
            rows += tables.table(views[column], line, at + 1,
                                 style=here) + '\n'
    return (tag('div', drawn, class_='pairs pictures')
            + tag('div', rows, class_='pairs'))


def told_list(rows):
    if not rows:
        return tag('p', 'No lines, before and now.')
    return tag('ul', ''.join(tag('li', html.escape(row)) for row in rows))


def set_parts(sources, vertical):
    """Two sheets that are set."""
    pages = [source.page for source in sources]
    try:
        told = changes.changes(*((source.content, source.result)
                                 for source in sources))
    except (ValueError, IndexError, KeyError, TypeError):
        raise Trouble('%s and %s cannot be compared: bin/compare does not '
                      'read them' % tuple(source.name for source in sources))
    views = [lanes.View(page.sheet, page.lines, source.text, vertical, side)
             for page, source, side in zip(pages, sources, SIDES)]
    # Both to one scale along the line, so that what moved is seen.
    span, unit = (max(view.span for view in views),
                  max(view.em for view in views))
    for view in views:
        view.span, view.unit = span, unit
    left = any(sheets.has(page.sheet, sheets.LEFT) for page in pages)
    return (tag('h2', 'What moved') + told_list(told.rows)
            + tag('p', 'Amounts are half units: +5 is away from the line’s '
                  'start, −5 towards it.', class_='facts')
            + document.with_said(grid(views, pages, told))
            + key.key(vertical, left))


def one_refused(sources, forms, ask, vertical):
    """Where a sheet is refused there is nothing to compare; each is told."""
    parts = ''
    for source, sheet, side in zip(sources, forms, SIDES):
        parts += tag('h2', 'The %s sheet, %s' % (side, html.escape(
            source.name)))
        if isinstance(source.page, answers.Refused):
            parts += document.refusal_parts(source, sheet, ask, vertical,
                                            side)
        else:
            view = lanes.View(sheet, source.page.lines, source.text, vertical,
                              side)
            parts += document.verdict(source.page)
            parts += document.lines_section(view, source.page.lines)
    return document.with_said(parts)


def pair_page(sources, forms, ask, vertical):
    """The page of two sheets; forms are their sheets, None if unsound."""
    refused = [side for side, source in zip(SIDES, sources)
               if isinstance(source.page, answers.Refused)]
    names = ' and '.join(source.name for source in sources)
    head = tag('h1', html.escape(names))
    if refused:
        head += tag('p', '%s %s' % (tag('b', 'Refused'), ' and '.join(
            'the %s sheet' % side for side in refused)),
            class_='verdict refused')
        main = one_refused(sources, forms, ask, vertical)
    else:
        head += ''.join(document.facts(form, '%s sheet: ' % side.title())
                        for form, side in zip(forms, SIDES))
        main = set_parts(sources, vertical)
    return document.whole('%s: two sheets side by side' % names, head, main,
                          document.footer(*sources), vertical)
