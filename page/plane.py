"""Along the line and across it, as x and y of an SVG.

Along the line a picture is in half units, so that a box has the very position
and length that the programs gave it.  In horizontal setting across goes from
above to below, in vertical setting from right to left; nothing else differs.
"""

import html


def number(value):
    """A number as it stands in the file."""
    return ('%.2f' % value).rstrip('0').rstrip('.')


def tag(name, content=None, **attributes):
    """An element of XML; attributes whose value is None are left out."""
    given = ''.join(' %s="%s"' % (key.rstrip('_').replace('_', '-'),
                                  html.escape(str(value)))
                    for key, value in attributes.items() if value is not None)
    if content is None:
        return '<%s%s/>' % (name, given)
    return '<%s%s>%s</%s>' % (name, given, content, name)


class Plane:
    """Where things come to stand on the paper.

    along counts from the line's start, across from the outer edge of the
    lanes on the right readings' side; thick is how far across all lanes go.
    """

    def __init__(self, vertical, thick):
        self.vertical, self.thick = vertical, thick

    def point(self, along, across):
        if self.vertical:
            return self.thick - across, along
        return along, across

    def rect(self, along, length, across, thick, **attributes):
        x, y = self.point(along, across + (thick if self.vertical else 0))
        wide, high = (thick, length) if self.vertical else (length, thick)
        return tag('rect', x=number(x), y=number(y), width=number(wide),
                   height=number(high), **attributes)

    def path(self, *points, **attributes):
        steps = ['%s %s' % tuple(map(number, self.point(*point)))
                 for point in points]
        return tag('path', d='M' + 'L'.join(steps), **attributes)

    def text(self, along, across, content, size, **attributes):
        x, y = self.point(along, across)
        return tag('text', html.escape(content), x=number(x), y=number(y),
                   font_size=number(size), **attributes)

    def rows(self, along, across, rows, size, **attributes):
        """Rows of words, one under the other, about a place."""
        x, y = self.point(along, across)
        first = y - (len(rows) - 1) * 0.575 * size
        return ''.join(tag('text', html.escape(row), x=number(x),
                           y=number(first + index * 1.15 * size),
                           font_size=number(size), **attributes)
                       for index, row in enumerate(rows))

    def circle(self, along, across, radius, **attributes):
        x, y = self.point(along, across)
        return tag('circle', cx=number(x), cy=number(y), r=number(radius),
                   **attributes)
