"""The page: one HTML file that fetches nothing."""

import hashlib
import html

import drawing
import key
import lanes
import refusals
import style
import tables
import toolong
from plane import tag

# Nothing may be fetched, whatever stands in the page.
POLICY = ("default-src 'none'; style-src 'unsafe-inline'; "
          "script-src 'unsafe-inline'")
HINT = ('Point at an element, or move to it with the tab and arrow keys: what '
        'keeps it from standing nearer the line’s start is told here, and '
        'what holds it lights up. Escape clears.')
AROUND = 4      # lines of a refused sheet above and below the fault


class Source:
    """A sheet to be shown: its name and bytes, its page, and its text."""

    def __init__(self, name, content, result, page, text):
        self.name, self.content, self.result = name, content, result
        self.page, self.text = page, text


def counted(count, what):
    return '%d %s%s' % (count, what, '' if count == 1 else 's')


# ---------------------------------------------------------------------------
# The frame
# ---------------------------------------------------------------------------

def whole(title, head, main, foot, vertical):
    """The file."""
    css = style.PAGE + style.PICTURE + style.DARK + style.PRINT
    return '\n'.join((
        '<!DOCTYPE html>', '<html lang="en">', '<head>',
        '<meta charset="utf-8">',
        '<meta name="viewport" content="width=device-width, '
        'initial-scale=1">',
        '<meta http-equiv="Content-Security-Policy" content="%s">' % POLICY,
        tag('title', html.escape(title)), tag('style', css), '</head>',
        '<body class="%s">' % ('vertical' if vertical else 'horizontal'),
        tag('header', head), tag('main', main), tag('footer', foot),
        tag('script', style.SCRIPT), '</body>', '</html>', ''))


def footer(*sources):
    told = ('Made by bin/page from what the proved programs, bin/setting and '
            'bin/account, write for this sheet. No position is worked out '
            'here. Positions, gaps and extents are half units.')
    sums = ''.join(tag('p', 'SHA-256 of %s: %s' % (
        html.escape(source.name),
        hashlib.sha256(source.content).hexdigest())) for source in sources)
    return tag('p', told) + sums


def facts(sheet, of=''):
    """What the sheet says of the whole job."""
    em, measure = sheet.numbers[:2]
    told = ['em %d units' % em,
            'measure %d units, %d half units' % (measure, 2 * measure)]
    if len(sheet.numbers) > 2:
        told.append('ratios %d:%d:%d for ruby, %d:%d:%d for base' % tuple(
            sheet.numbers[2:8]))
        told.append('profile %d' % sheet.numbers[8])
    return tag('p', of + '; '.join(told), class_='facts')


def with_said(parts):
    """With the place above them where the account is told, if it is of use."""
    if 'tabindex' not in parts:
        return parts
    return tag('p', HINT, class_='said', id='said', role='status',
               aria_live='polite') + parts


# ---------------------------------------------------------------------------
# A sheet that is set
# ---------------------------------------------------------------------------

def figure(view, line, at, moves=None, **attributes):
    return tag('figure', tag('figcaption', '%s: extent %d' % (
        view.line_name(at), line.extent))
               + drawing.svg(view, line, at, moves), **attributes)


def verdict(page):
    """The account's verdict in words."""
    return tag('p', '%s %s, %s, in %s: every element stands clear of all '
               'others.' % (
                   tag('b', 'Clear'),
                   counted(len(page.sheet.elements), 'element'),
                   counted(page.readings, 'reading'),
                   counted(len(page.lines), 'line')),
               class_='verdict')


def lines_section(view, lines):
    """The lines with their accounts, and the key to their signs."""
    parts = ''.join(tag('section', figure(view, line, at) + '\n'
                        + tables.table(view, line, at), class_='line',
                        aria_label=view.line_name(at)) + '\n'
                    for at, line in enumerate(lines, 1))
    return tag('div', '\n' + parts + tag(
        'section', key.key(view.vertical, view.left, view.prefix + 'key'),
        class_='explained'),
        class_='lines')


def set_page(source, vertical):
    page = source.page
    view = lanes.View(page.sheet, page.lines, source.text, vertical)
    head = (tag('h1', html.escape(source.name)) + verdict(page)
            + facts(page.sheet) + tag('p', tag('a', key.HEADING, href='#key'),
                                      class_='facts'))
    main = with_said(
        tag('h2', 'The lines, and why each gap is as wide as it is')
        + lines_section(view, page.lines))
    return whole('%s: the page as a picture' % source.name, head, main,
                 footer(source), vertical)


# ---------------------------------------------------------------------------
# A sheet that is refused
# ---------------------------------------------------------------------------

def visible(row):
    """A line of a sheet's bytes as text that can be shown."""
    return ''.join(letter if letter.isprintable() else
                   chr(0x2400 + ord(letter)) if ord(letter) < 0x20 else
                   '\ufffd' for letter in row.decode('utf-8', 'replace'))


def excerpt(content, line):
    """The lines of the sheet about a fault."""
    rows = content.split(b'\n')
    if rows and rows[-1] == b'':
        rows.pop()
    first = max(0, line - 1 - AROUND)
    shown = []
    for at, row in enumerate(rows[first:line + AROUND], first + 1):
        mark = '▶' if at == line else ' '
        shown.append(tag('code', '%s %5d  %s' % (
            mark, at, html.escape(visible(row)[:400])),
            class_='fault' if at == line else None))
    if line > len(rows):
        shown.append(tag('code', '▶ %5d  (there is no such line)' % line,
                         class_='fault'))
    return tag('pre', ''.join(shown), class_='sheet')


def refusal_parts(source, sheet, ask, vertical, prefix=''):
    """What is told of a refused sheet, with its line for number 11."""
    refused = source.page
    rows = source.content.decode('latin-1').split('\n')
    line = refusals.line_on_sheet(refused, rows, sheet)
    told = refusals.MEANINGS.get(refused.number)
    parts = ''
    if told:
        parts += tag('h2', 'What it means')
        parts += tag('p', html.escape('Number %d: %s.' % (
            refused.number, told.meaning)))
        if told.say:
            parts += tag('blockquote', tag('p', html.escape(told.say)))
    parts += tag('h2', 'Where it is')
    parts += tag('p', html.escape('Place %d: %s.' % (
        refused.place, refusals.place_words(refused, line, sheet,
                                            source.text))))
    if line:
        parts += excerpt(source.content, line)
    return parts + long_line(source, sheet, ask, vertical, prefix)


def needs_words(refused):
    needs, measure = refused.needs
    return ('The shortest line from this character to a place where a line '
            'may end is %d half units long, and the measure is %d: %d too '
            'many. A measure of %d units would hold it.' % (
                needs, measure, needs - measure, -(-needs // 2)))


def long_line(source, sheet, ask, vertical, prefix):
    """The line that is too long, against the measure (number 11)."""
    refused = source.page
    if not refused.needs or sheet is None:
        return ''
    line = toolong.line_of(sheet, refused, ask)
    parts = tag('h2', 'The line that is too long') + tag(
        'p', needs_words(refused))
    if line is None:
        return parts
    view = lanes.View(sheet, [line], source.text, vertical, prefix)
    view.alone = 'The line from base character %d' % refused.place
    return (parts + tag('p', 'It is drawn as the programs set it alone, with '
                        'that measure; beyond the dashed line it passes the '
                        'sheet’s own.')
            + lines_section(view, [line]))


def refused_page(source, sheet, ask, vertical):
    refused = source.page
    head = tag('h1', html.escape(source.name)) + tag(
        'p', '%s number %d, place %d' % (
            tag('b', 'Refused'), refused.number, refused.place),
        class_='verdict refused')
    return whole('%s: refused, number %d' % (source.name, refused.number),
                 head, with_said(refusal_parts(source, sheet, ask, vertical)),
                 footer(source), vertical)
