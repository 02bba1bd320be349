"""A page read back from its file, and held to what the programs wrote.

For the tests and for page/look.  It goes by the text of sheet, result and
account alone and uses none of the readers that the page was made with.
"""

import collections
import html.parser
import re
import xml.etree.ElementTree

VOID = {'meta', 'br', 'hr', 'img', 'link', 'input'}
PICTURE = re.compile(r'<svg class="picture"(?:(?!</svg>).)*</svg>', re.S)

# What is drawn of a line: its number and sheet, and the SVG as a tree.
Picture = collections.namedtuple('Picture', 'line sheet tree')


class Wrong(Exception):
    """What is wrong with a page."""


def want(found, due, what):
    if found != due:
        raise Wrong('%s: %r is there, %r is due' % (what, found, due))


# ---------------------------------------------------------------------------
# Its form
# ---------------------------------------------------------------------------

class Form(html.parser.HTMLParser):
    """Every tag is closed in its turn; what is said is kept."""

    def __init__(self):
        super().__init__()
        self.open, self.tags, self.said = [], [], []

    def handle_starttag(self, name, attributes):
        self.tags.append((name, dict(attributes)))
        if len(dict(attributes)) != len(attributes):
            raise Wrong('an attribute stands twice in <%s>' % name)
        if name not in VOID:
            self.open.append(name)

    def handle_startendtag(self, name, attributes):
        self.tags.append((name, dict(attributes)))

    def handle_endtag(self, name):
        if not self.open or self.open.pop() != name:
            raise Wrong('</%s> closes nothing' % name)

    def handle_data(self, text):
        if not self.open and text.strip():
            raise Wrong('text outside of everything: %r' % text)
        if self.open and self.open[-1] not in ('script', 'style'):
            self.said.append(text)


def form_of(text):
    form = Form()
    form.feed(text)
    form.close()
    want(form.open, [], 'what is still open')
    return form


def check_form(text):
    """The page is well formed, names each thing once and fetches nothing."""
    form = form_of(text)
    names = [given['id'] for _, given in form.tags if 'id' in given]
    want(len(set(names)), len(names), 'names that stand once')
    for name, given in form.tags:
        if name in ('link', 'img', 'iframe', 'object', 'embed', 'base'):
            raise Wrong('<%s> fetches something' % name)
        for key, value in given.items():
            if key in ('src', 'xlink:href') or key.startswith('on'):
                raise Wrong('%s in <%s>' % (key, name))
            if key == 'href' and value[1:] not in names:
                raise Wrong('a link to %r' % value)
        for other in (given.get('data-others') or '').split():
            if other not in names:
                raise Wrong('%s is not there' % other)
    for pattern in ('https?:', r'url\(', '@import', r'fetch\(', '//[a-z]'):
        if re.search(pattern, text.replace('<!DOCTYPE html>', '')):
            raise Wrong('%s stands in the file' % pattern)
    return form


# ---------------------------------------------------------------------------
# Its boxes
# ---------------------------------------------------------------------------

def tree_of(text):
    try:
        return xml.etree.ElementTree.fromstring(text)
    except xml.etree.ElementTree.ParseError as error:
        raise Wrong('it is no XML: %s' % error)


def pictures(text):
    """The lines of a page, in their order; the key's samples are none."""
    found = []
    for match in PICTURE.finditer(text):
        tree = tree_of(match.group())
        if tree.get('data-line'):
            found.append(Picture(int(tree.get('data-line')),
                                 tree.get('data-sheet') or '', tree))
    return found


def place(rect, vertical):
    """(start, length) of a rectangle along the line."""
    keys = ('y', 'height') if vertical else ('x', 'width')
    return tuple(float(rect.get(key)) for key in keys)


def boxes(tree, vertical):
    """{letter: [(index, start, length)]} of the characters in a picture."""
    found = {'b': [], 'r': [], 'l': []}
    for rect in tree.iter('rect'):
        for letter in found:
            if rect.get('data-' + letter) is not None:
                found[letter].append((int(rect.get('data-' + letter)),
                                      *place(rect, vertical)))
    return found


def areas(tree, cls, vertical):
    """[(start, length)] of the areas of one sort."""
    return [place(rect, vertical) for rect in tree.iter('rect')
            if rect.get('class') == cls]


# ---------------------------------------------------------------------------
# What the programs wrote
# ---------------------------------------------------------------------------

def sheet_rows(sheet):
    """{section: [numbers of each line]}, the elements as they stand."""
    rows, found = sheet.decode('ascii').split('\n')[:-1], {}
    while rows:
        name, count = rows[0].split(' ')
        own, rows = rows[1:1 + int(count)], rows[1 + int(count):]
        found[name] = own if name == 'elem' else [
            [int(word) for word in row.split(' ')] for row in own]
    return found


def result_lines(result, sheet):
    """For each line {letter: [(index, start, length)]}."""
    rows = sheet_rows(sheet)
    widths = {letter: [2 * row[1] for row in rows.get(name, ())]
              for letter, name in (('b', 'base'), ('r', 'ruby'),
                                   ('l', 'left'))}
    lines = []
    for row in result.decode('ascii').split('\n')[1:-1]:
        letter, *numbers = row.split(' ')
        if letter == 'line':
            lines.append({'b': [], 'r': [], 'l': []})
        else:
            index, start = map(int, numbers)
            lines[-1][letter].append((index, start, widths[letter][index]))
    return lines


def account_lines(account):
    """For each line its rows, as the account has them."""
    lines = []
    for row in account.decode('ascii').split('\n')[1:-1]:
        if row.startswith('line '):
            lines.append([])
        else:
            lines[-1].append(row)
    return lines


def row_numbers(row):
    """(element, at, gap, rule, depth) of a row of an account."""
    words = row.split(' ')
    return tuple(int(words[at]) for at in (1, 3, 5, 7)) + (
        int(words[-1]) if words[-2] == 'depth' else 0,)


# ---------------------------------------------------------------------------
# The one against the other
# ---------------------------------------------------------------------------

def check_boxes(tree, due, vertical):
    """The characters of a line stand where the result has them."""
    found = boxes(tree, vertical)
    for letter in due:
        want(found[letter], due[letter], 'boxes %s' % letter)


def check_blanks(tree, due, base, vertical):
    """The blanks are to scale, and where they belong."""
    blanks = []
    for index, start, length in due['b']:
        cls, _, before, after, _ = base[index]
        if cls == 14:
            blanks.append((start, length))
        blanks += [(at, 2 * blank) for at, blank in (
            (start, before), (start + length - 2 * after, after)) if blank]
    want(areas(tree, 'blank', vertical), blanks, 'blanks')


def check_gaps(tree, rows, vertical):
    """Each element stands in it once, and each gap has its width and rule."""
    groups = [group for group in tree.iter('g')
              if group.get('class', '').startswith('element')]
    numbers = [row_numbers(row) for row in rows]
    want([int(group.get('data-element')) for group in groups],
         sorted({row[0] for row in numbers}), 'elements')
    for group in groups:
        own = [row for row in numbers
               if row[0] == int(group.get('data-element'))]
        gaps = [row for row in own if row[2]]
        want(areas(group, 'gap', vertical),
             [(row[1] - row[2], row[2]) for row in gaps], 'gaps')
        said = [text.text for text in group.iter('text')
                if text.get('class') == 'told']
        want(said, [words for row in gaps
                    for words in (str(row[2]), 'rule %d' % row[3])],
             'words at the gaps')
        for row in own:
            if ('rule %d would be broken' % row[3]
                    not in group.get('aria-label')):
                raise Wrong('no reason in %r' % group.get('aria-label'))
        badges = [text.text for text in group.iter('text')
                  if text.get('class') == 'rule']
        want(badges, [str(row[3]) for row in gaps], 'signs of the rules')


def span(boxes):
    return boxes[0][1], boxes[-1][1] + boxes[-1][2]


def due_contact(row, drawn):
    """Where a row with a gap is held: the end of a reading."""
    what, _, touched = row.split(' rule ')[1][2:].partition(' touches ')
    if what != 'block':
        own = drawn[row_numbers(row)[0]]
        return span(own['l' if what.startswith('left') else 'r'])[0]
    other = drawn[int(touched.split(' of ')[1].split(' ')[0])]
    return span(other['l' if touched.startswith('left') else 'r'])[1]


def check_contacts(tree, rows, vertical):
    """What holds each gap is marked where it is."""
    groups = {int(group.get('data-element')): group
              for group in tree.iter('g') if group.get('data-element')}
    drawn = {element: boxes(group, vertical)
             for element, group in groups.items()}
    for element, group in groups.items():
        found = [float(path.get('d')[1:].split('L')[0].split(' ')[
            1 if vertical else 0]) for path in group.iter('path')
            if path.get('class') == 'contact']
        want(found, [due_contact(row, drawn) for row in rows
                     if row_numbers(row)[0] == element
                     and row_numbers(row)[2]], 'contacts')


def check_depths(tree, rows, vertical):
    """Each depth of the account is drawn, and nothing lies elsewhere."""
    drawn = sorted(int(rect.get('data-depth')) for rect in tree.iter('rect')
                   if rect.get('class') == 'depth')
    want(sorted(length for _, length in areas(tree, 'depth', vertical)),
         [float(depth) for depth in drawn], 'depths to scale')
    for row in rows:
        depth = row_numbers(row)[4]
        if depth and depth not in drawn:
            raise Wrong('the depth of %r is not drawn' % row)
    # What a reading of one group shares with the base of another.
    groups = [boxes(group, vertical) for group in tree.iter('g')
              if group.get('class', '').startswith('element')]
    shared = []
    for one in groups:
        for other in groups:
            for letter in 'rl':
                if one is not other and other[letter]:
                    first, last = span(other[letter])
                    start, end = span(one['b'])
                    shared.append(min(last, end) - max(first, start))
    want(drawn, sorted(int(length) for length in shared if length > 0),
         'depths')


def check_edges(tree, measure, vertical):
    """The line's start and the measure stand where they are."""
    lines = {}
    for path in tree.iter('path'):
        if path.get('class', '').startswith('edge '):
            points = [tuple(map(float, point.split(' ')))
                      for point in path.get('d')[1:].split('L')]
            lines[path.get('class')[5:]] = {
                point[1 if vertical else 0] for point in points}
    want(lines['start'], {0.0}, 'the start')
    if 'measure' in lines:
        want(lines['measure'], {float(measure)}, 'the measure')


def table_rows(text):
    """[(sheet, line, [row's numbers], its cells)] of the tables."""
    found = []
    for match in re.finditer(r'<div class="account"(.*?)</table></div>', text,
                             re.S):
        head = match.group(1).split('>', 1)[0]
        line = int(re.search(r'data-line="(\d+)"', head).group(1))
        sheet = re.search(r'data-sheet="(\w+)"', head)
        rows = []
        for row in re.finditer(r'<tr data-of.*?</tr>', match.group(), re.S):
            tree = tree_of(row.group())
            cells = [''.join(cell.itertext()) for cell in tree]
            rows.append((tuple(int(tree.get('data-' + key)) for key in (
                'element', 'at', 'gap', 'rule')), cells))
        found.append((sheet.group(1) if sheet else '', line, rows))
    return found


def check_table(rows, due):
    """The rows of a line's table are those of the account."""
    numbers = [row_numbers(row) for row in due]
    want([row for row, _ in rows], [row[:4] for row in numbers], 'rows')
    for (_, cells), row in zip(rows, numbers):
        want((cells[0], *cells[2:5]), tuple(map(str, row[:4])), 'cells')
        if 'rule %d would be broken' % row[3] not in cells[5]:
            raise Wrong('no reason in %r' % cells)


def check_page(text, sheet, result, account, vertical=False, of=''):
    """Everything, of a page whose sheet is set; of is old or new."""
    form = check_form(text)
    rows = sheet_rows(sheet)
    due, told = result_lines(result, sheet), account_lines(account)
    drawn = [one for one in pictures(text) if one.sheet == of]
    tables = [one for one in table_rows(text) if one[0] == of]
    want([one.line for one in drawn], list(range(1, len(due) + 1)), 'lines')
    want([one[1] for one in tables], list(range(1, len(due) + 1)), 'tables')
    for at, one in enumerate(drawn):
        check_boxes(one.tree, due[at], vertical)
        check_blanks(one.tree, due[at], rows['base'], vertical)
        check_gaps(one.tree, told[at], vertical)
        check_contacts(one.tree, told[at], vertical)
        check_depths(one.tree, told[at], vertical)
        check_edges(one.tree, 2 * rows['set'][1][0], vertical)
        check_table(tables[at][2], told[at])
    return form
