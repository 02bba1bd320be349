"""Job sheets from a seed, rich in edges.

    python3 generate.py SEED COUNT    writes COUNT framed sheets

Each sheet is preceded by a line `sheet LENGTH`.  About half of the sheets
are accepted jobs; the others spread over the refusals of document 01 and over
damaged texts.  Only randrange and choice of random.Random are used, so that a
seed gives the same bytes under every Python 3.
"""

import random
import sys

WIDEST = 4096
WIDEST_MEASURE = 4000000
TOO_BIG = 4294967295
ACCEPTED = list(range(1, 20)) + list(range(24, 28))
WESTERN = [24, 25, 27]
KANA_LIKE = list(range(1, 20))
NOT_ACCEPTED = [0, 0, 20, 20, 21, 22, 23, 23, 28, 28, 29, 30, 31, 256, TOO_BIG]
BAD_WIDTHS = [0, 0, 4097, 4097, 4098, TOO_BIG]


# ---------------------------------------------------------------------------
# Small tools
# ---------------------------------------------------------------------------

def pick(rng, *weighted):
    """One of the values of (weight, value) pairs."""
    ticket = rng.randrange(sum(weight for weight, _ in weighted))
    for weight, value in weighted:
        if ticket < weight:
            return value
        ticket -= weight


def clip(value, low, high):
    return max(low, min(high, value))


def width_near(rng, value):
    return clip(value + rng.choice((-1, 0, 0, 0, 1)), 1, WIDEST)


def split(rng, total, parts):
    """Widths that sum to total: mostly even, some moved about."""
    parts = clip(parts, (total + WIDEST - 1) // WIDEST, max(total, 1))
    widths = [total // parts] * parts
    for i in range(total % parts):
        widths[i] += 1
    for _ in range(rng.choice((0, 0, 1, 3))):
        giver, taker = rng.randrange(parts), rng.randrange(parts)
        most = min(widths[giver] - 1, WIDEST - widths[taker])
        if giver != taker and most > 0:
            amount = 1 + rng.randrange(most)
            widths[giver] -= amount
            widths[taker] += amount
    return widths


class Draft:
    """A job before it is written down; rows are lists so faults can go in."""

    def __init__(self, em):
        self.em = em
        self.written_em = em    # differs where the em itself is the fault
        self.measure = 1
        self.base = []      # [class, width, before, after, flag]
        self.ruby = []      # [class, width]
        self.elem = []      # ['P'], ['M', r], ['G', b, r], ['J', b, runs...]
        self.heads = [None, None, None]     # written counts that differ

    def text(self):
        lines = ['set 2', str(self.written_em), str(self.measure)]
        sections = (('base', self.base), ('ruby', self.ruby),
                    ('elem', self.elem))
        for (name, rows), head in zip(sections, self.heads):
            lines.append('%s %d' % (name, len(rows) if head is None else head))
            lines += [' '.join(map(str, row)) for row in rows]
        return ('\n'.join(lines) + '\n').encode('ascii')

    def add(self, base, ruby, elem):
        """An element; a base row is [class, width] or has blanks too."""
        for row in base:
            self.base.append((row + [0, 0])[:4] + [1])
        self.ruby += ruby
        self.elem.append(elem)

    def spans(self):
        """(element, first base, end, first ruby, end), as far as rows go."""
        spans, base, ruby = [], 0, 0
        for elem in self.elem:
            bases, rubies = 1, 0
            if elem[0] == 'M':
                rubies = elem[1]
            elif elem[0] == 'G':
                bases, rubies = elem[1], elem[2]
            elif elem[0] == 'J':
                bases, rubies = elem[1], sum(elem[2:])
            base_end = min(base + bases, len(self.base))
            ruby_end = min(ruby + rubies, len(self.ruby))
            spans.append((elem, base, base_end, ruby, ruby_end))
            base, ruby = base_end, ruby_end
        return spans


# ---------------------------------------------------------------------------
# Elements
# ---------------------------------------------------------------------------

def some_width(rng, em):
    return pick(rng, (8, em), (2, width_near(rng, em)),
                (2, width_near(rng, em // 2)), (1, 1),
                (2, 1 + rng.randrange(min(2 * em, WIDEST))))


def some_blank(rng, em, width):
    """A blank from 0 to the width, often at an edge of the depths."""
    blank = rng.choice((0, 1, width, width // 2, em // 4, em // 4 + 1,
                        em // 2, em // 2 + 1, em // 2 - 1,
                        rng.randrange(width + 1)))
    return clip(blank, 0, width)


def blank_row(rng, em):
    """A base row that can carry a blank: classes 1, 2, 5, 6, 7 and 14."""
    cls = rng.choice((1, 2, 5, 5, 6, 7, 7, 14, 14, 14))
    width = some_width(rng, em)
    if rng.randrange(3) == 0:
        width = 1 + rng.randrange(max(1, min(em, 6)))
    if cls == 14:
        return [cls, width]
    if cls == 1:
        return [cls, width, some_blank(rng, em, width), 0]
    if cls == 5:
        before = some_blank(rng, em, width)
        after = rng.choice((width - before,
                            some_blank(rng, em, width - before)))
        return [cls, width, before, after]
    return [cls, width, 0, some_blank(rng, em, width)]


def add_plain(rng, draft):
    if rng.randrange(2) == 0:
        row = blank_row(rng, draft.em)
    else:
        cls = rng.choice((19, 19, 15, 16, 9, rng.choice(ACCEPTED)))
        row = [cls, some_width(rng, draft.em)]
    draft.add([row], [], ['P'])


def surplus(rng, em):
    """How much longer one string is: the edges of the clearance depths."""
    return max(1, rng.choice((1, 2, 3, em // 4, em // 2 - 1, em // 2,
                              em // 2 + 1, em - 1, em, em + 1, 2 * em,
                              1 + rng.randrange(2 * em))))


def ruby_count_for(rng, em, total):
    """About as many ruby characters as half an em each would make."""
    usual = max(1, total * 2 // em)
    return clip(rng.choice((usual, usual, usual + 1, 1, 2,
                            1 + rng.randrange(6))), 1, 30)


def add_mono(rng, draft):
    em = draft.em
    base = some_width(rng, em)
    total = pick(rng, (5, base + surplus(rng, em)), (2, base),
                 (3, 1 + rng.randrange(base)))
    count = pick(rng, (30, ruby_count_for(rng, em, total)),
                 (1, rng.choice((63, 64))))
    widths = split(rng, total, count)
    classes = rng.choice((KANA_LIKE, KANA_LIKE, WESTERN, ACCEPTED))
    cls = rng.choice((19, 19, 14, rng.choice(ACCEPTED)))
    draft.add([[cls, base]], [[rng.choice(classes), w] for w in widths],
              ['M', len(widths)])


def group_sums(rng, em, base_count, ruby_count):
    """(base sum, ruby sum): equal, longer, shorter, and the half-em limit."""
    way = rng.randrange(6)
    if way == 0:
        both = max(base_count, ruby_count, em + rng.randrange(3 * em))
        return both, both
    if way == 1:
        # floor(D/n) at em - 1, em and em + 1 with the ruby shorter
        ruby = ruby_count + rng.randrange(em * 2)
        step = rng.choice((-1, 0, 0, 1, ruby_count - 1, ruby_count))
        return max(base_count, ruby + max(1, em * ruby_count + step)), ruby
    if way == 2:
        # the same with the base shorter, where no limit holds
        base = base_count + rng.randrange(em * 2)
        step = rng.choice((-1, 0, 1, base_count))
        return base, max(ruby_count, base + max(1, em * base_count + step))
    if way == 3:
        base = max(base_count, em * base_count)
        return base, max(ruby_count, base + surplus(rng, em))
    ruby = max(ruby_count, ruby_count * em // 2)
    if way == 4:
        return max(base_count, ruby + surplus(rng, em)), ruby
    return max(base_count, em * base_count), ruby


def add_group(rng, draft):
    base_classes, ruby_classes = rng.choice((
        (KANA_LIKE, KANA_LIKE), (KANA_LIKE, KANA_LIKE),
        (WESTERN, KANA_LIKE), (KANA_LIKE, WESTERN)))
    base_count = pick(rng, (20, 1 + rng.randrange(5)), (3, 1),
                      (1, rng.choice((31, 32))))
    ruby_count = pick(rng, (20, 1 + rng.randrange(8)), (5, 1),
                      (1, rng.choice((63, 64))))
    base, ruby = group_sums(rng, draft.em, base_count, ruby_count)
    base_widths = split(rng, base, base_count)
    ruby_widths = split(rng, ruby, ruby_count)
    if len(base_widths) > 32 or len(ruby_widths) > 64:
        base_widths, ruby_widths = [draft.em], [draft.em]
    draft.add([[rng.choice(base_classes), w] for w in base_widths],
              [[rng.choice(ruby_classes), w] for w in ruby_widths],
              ['G', len(base_widths), len(ruby_widths)])


def jukugo_run(rng, em, long_ones):
    """The widths of one run: under an em, exactly one em, one more, longer."""
    if long_ones and rng.randrange(3) == 0:
        total = em + surplus(rng, em)
    else:
        total = pick(rng, (3, em), (2, max(1, em - 1)),
                     (1 if long_ones else 0, em + 1),
                     (4, 1 + rng.randrange(em)))
    return split(rng, total, ruby_count_for(rng, em, total))


def add_jukugo(rng, draft):
    count = pick(rng, (20, 1 + rng.randrange(6)), (1, rng.choice((31, 32))))
    long_ones = rng.randrange(2) == 0
    classes = rng.choice((KANA_LIKE, KANA_LIKE, WESTERN))
    runs, ruby = [], []
    for left in range(count - 1, -1, -1):
        widths = jukugo_run(rng, draft.em, long_ones)
        if len(ruby) + len(widths) + left > 64:
            widths = [clip(draft.em, 1, WIDEST)]
        runs.append(len(widths))
        ruby += [[rng.choice(classes), w] for w in widths]
    base = [[rng.choice((19, 19, 15, 14, rng.choice(KANA_LIKE))), draft.em]
            for _ in range(count)]
    draft.add(base, ruby, ['J', count] + runs)


def add_ruby_word(rng, draft):
    pick(rng, (4, add_mono), (3, add_group), (3, add_jukugo))(rng, draft)


# ---------------------------------------------------------------------------
# Sound jobs
# ---------------------------------------------------------------------------

def some_em(rng):
    return pick(rng, (12, 10), (3, 2), (3, 4), (3, 6), (3, 12), (2, 20),
                (1, 100), (1, 1000), (1, 4094), (1, 4096),
                (2, 2 + 2 * rng.randrange(50)))


def add_mixed(rng, draft, length):
    while len(draft.base) < length:
        if rng.randrange(2) == 0:
            add_plain(rng, draft)
        else:
            add_ruby_word(rng, draft)


def add_chain(rng, draft, length):
    """Long readings side by side, over narrow and squeezed blanks."""
    while len(draft.base) < length:
        add_ruby_word(rng, draft)
        for _ in range(rng.choice((0, 1, 1, 1, 2, 3))):
            draft.add([blank_row(rng, draft.em)], [], ['P'])


def add_space(rng, draft):
    width = pick(rng, (3, draft.em), (2, clip(draft.em // 2, 1, WIDEST)),
                 (2, 1 + rng.randrange(draft.em)), (1, 1))
    draft.add([[14, width]], [], ['P'])


def add_indented(rng, draft, length):
    """An indent before every word or two."""
    while len(draft.base) < length:
        add_space(rng, draft)
        for _ in range(rng.choice((1, 1, 2))):
            add_ruby_word(rng, draft)


def add_jukugos(rng, draft, length):
    """Words that are cut, and cut again."""
    while len(draft.base) < length:
        add_jukugo(rng, draft)
        if rng.randrange(3) == 0:
            add_plain(rng, draft)


def put_flags(rng, draft):
    ones = rng.choice((0, 2, 5, 8, 8, 10, 10, 10))
    for row in draft.base:
        row[4] = 1 if rng.randrange(10) < ones else 0
    if ones == 0 and rng.randrange(2) == 0:
        # hardly any break: only the ends of ruby words
        for elem, _, base_end, _, _ in draft.spans():
            if elem[0] != 'P':
                draft.base[base_end - 1][4] = 1


def stretches(draft):
    """A width that is enough for each piece between permitted breaks."""
    enough, width = [], 0
    for elem, base, base_end, ruby, ruby_end in draft.spans():
        bases = [row[1] for row in draft.base[base:base_end]]
        rubies = [row[1] for row in draft.ruby[ruby:ruby_end]]
        if elem[0] == 'J':
            for i, run in enumerate(elem[2:]):
                if i > 0:
                    enough.append(width)
                    width = 0
                width += max(sum(bases[i:i + 1]), sum(rubies[:run]))
                rubies = rubies[run:]
        else:
            width += max(sum(bases), sum(rubies))
        if base_end > 0 and draft.base[base_end - 1][4] == 1:
            enough.append(width)
            width = 0
    return enough + [width]


def put_measure(rng, draft):
    """A measure that is enough, mostly for several lines."""
    widths = stretches(draft)
    least, whole, em = max(widths), sum(widths), draft.em
    draft.measure = clip(pick(
        rng, (4, least), (4, least + rng.randrange(em + 1)),
        (6, least + rng.randrange(6 * em)),
        (6, max(least, whole // rng.choice((2, 3, 4, 5, 6)))),
        (2, max(least, sum(widths[:1 + rng.randrange(len(widths))]))),
        (1, whole), (1, whole - 1), (1, WIDEST_MEASURE)),
        least, WIDEST_MEASURE)


def put_tight_measure(rng, draft):
    """A measure that some line, often not the first, will not keep to."""
    widths = stretches(draft)
    least, em = max(widths), draft.em
    second = max([width for width in widths if width < least] or [least])
    draft.measure = clip(rng.choice((
        least - 1, least - 1 - rng.randrange(em), second, second,
        (least + second) // 2, least // 2)), 1, WIDEST_MEASURE)


def sound_draft(rng):
    draft = Draft(some_em(rng))
    length = pick(rng, (1, 1), (2, 3), (4, 2 + rng.randrange(10)),
                  (10, 8 + rng.randrange(30)), (3, 30 + rng.randrange(30)))
    pick(rng, (4, add_mixed), (4, add_chain), (2, add_indented),
         (2, add_jukugos))(rng, draft, length)
    put_flags(rng, draft)
    put_measure(rng, draft)
    return draft


def sound(rng):
    return sound_draft(rng).text()


def tight(rng):
    draft = sound_draft(rng)
    put_tight_measure(rng, draft)
    return draft.text()


def add_long_mono(rng, draft):
    """A mono word with a reading that is longer than its base."""
    total = draft.em + surplus(rng, draft.em)
    widths = split(rng, total, ruby_count_for(rng, draft.em, total))
    draft.add([[19, draft.em]], [[15, width] for width in widths],
              ['M', len(widths)])


def add_crowd(rng, draft, length):
    """Mono words, each longer in its reading, nothing or little between."""
    while len(draft.base) < length:
        add_long_mono(rng, draft)
        if rng.randrange(2) == 0:
            draft.add([blank_row(rng, draft.em)], [], ['P'])


def dense(rng):
    """Few lines with much in them: long readings, narrow blanks between."""
    draft = Draft(some_em(rng))
    rng.choice((add_chain, add_crowd))(rng, draft, 10 + rng.randrange(30))
    put_flags(rng, draft)
    widths = stretches(draft)
    draft.measure = clip(sum(widths) // rng.choice((1, 1, 2, 3)),
                         max(widths), WIDEST_MEASURE)
    return draft.text()


def add_long_group(rng, draft):
    """A group, or a jukugo that is set as one, with ruby past its base."""
    em, count = draft.em, 1 + rng.randrange(3)
    runs = []
    for _ in range(count):
        total = em + surplus(rng, em)
        runs.append(split(rng, total, min(ruby_count_for(rng, em, total), 20)))
    ruby = [[15, width] for run in runs for width in run]
    draft.add([[19, em] for _ in range(count)], ruby, rng.choice((
        ['G', count, len(ruby)], ['J', count] + [len(run) for run in runs])))


def add_long_word(rng, draft):
    rng.choice((add_long_mono, add_long_group))(rng, draft)


def add_word_over_space(rng, draft):
    """M, G or J with a class 14 character for its base."""
    em = draft.em
    total = rng.choice((max(1, em // 2), em, em + surplus(rng, em)))
    ruby = [[15, width] for width in split(
        rng, total, ruby_count_for(rng, em, total))]
    draft.add([[14, em]], ruby, rng.choice((
        ['M', len(ruby)], ['G', 1, len(ruby)], ['J', 1, len(ruby)])))


def opening(rng):
    """Jobs that begin with a class 14 character.

    One or two of them and a long reading; one as the base of a word; one and
    nothing else; and another character with a blank in its place.  The
    measure is near what all of it takes in one line.
    """
    draft = Draft(some_em(rng))
    way = pick(rng, (8, 'one'), (6, 'two'), (6, 'base'), (3, 'other'),
               (3, 'alone'))
    if way == 'base':
        add_word_over_space(rng, draft)
        if rng.randrange(2) == 0:
            add_space(rng, draft)
    elif way == 'other':
        draft.add([blank_row(rng, draft.em)], [], ['P'])
    else:
        for _ in range(2 if way == 'two' else 1):
            add_space(rng, draft)
    if way != 'alone':
        add_long_word(rng, draft)
        add_mixed(rng, draft, len(draft.base) + rng.choice((0, 0, 1, 4)))
    put_flags(rng, draft)
    whole, em = sum(stretches(draft)), draft.em
    draft.measure = clip(rng.choice((
        whole, whole, whole - 1, whole - em // 2, whole - em // 2 - 1,
        whole - rng.randrange(em), whole + rng.randrange(em))),
        1, WIDEST_MEASURE)
    return draft.text()


def later(rng):
    """Lines that begin with a space; the job's first does, or does not.

    Only the end of such a line is a permitted break (and the inside of a J),
    and each is about as long as the measure.
    """
    draft = Draft(some_em(rng))
    ends = []
    for number in range(2 + rng.randrange(3)):
        if number > 0 or rng.randrange(2) == 0:
            for _ in range(rng.choice((1, 1, 1, 2))):
                add_space(rng, draft)
        add_long_word(rng, draft)
        if rng.randrange(3) == 0:
            draft.add([[15, draft.em]], [], ['P'])
        ends.append(len(draft.base) - 1)
    for index, row in enumerate(draft.base):
        row[4] = 1 if index in ends else 0
    least = max(stretches(draft))
    draft.measure = clip(rng.choice((
        least, least, least - 1, least - draft.em // 2,
        least - rng.randrange(draft.em))), 1, WIDEST_MEASURE)
    return draft.text()


def spare(rng):
    """Jobs with little in them."""
    draft = Draft(some_em(rng))
    draft.measure = 1 + rng.randrange(100)
    way = rng.randrange(3)
    if way == 1:
        draft.add([[19, draft.em]], [], ['P'])
    elif way == 2:
        draft.base.append([19, 1, 0, 0, 1])     # left over: no element
    return draft.text()


# ---------------------------------------------------------------------------
# Faults in sound jobs
# ---------------------------------------------------------------------------

def need(rng, draft, kinds):
    """The spans of elements of these kinds, one added if there is none."""
    found = [span for span in draft.spans() if span[0][0] in kinds]
    if not found:
        adder = {'M': add_mono, 'G': add_group, 'J': add_jukugo}[kinds[-1]]
        adder(rng, draft)
        found = [span for span in draft.spans() if span[0][0] in kinds]
    return found


def fault_1(rng, draft):
    if rng.randrange(2) == 0:
        draft.written_em = rng.choice((0, 0, 1, 3, 11, 4095, 4097, 4098, 4098,
                                       8192, TOO_BIG))
    else:
        draft.measure = rng.choice((0, 0, 4000001, 4000001, TOO_BIG))


def fault_2(rng, draft):
    which = rng.randrange(3)
    most = (1024, 2048, 1024)[which]
    draft.heads[which] = rng.choice((most + 1, most + 1, 65536, TOO_BIG))


def fault_3(rng, draft):
    if draft.ruby and rng.randrange(2) == 0:
        row = rng.choice(draft.ruby)
        if rng.randrange(2) == 0:
            row[0] = rng.choice(NOT_ACCEPTED)
        else:
            row[1] = rng.choice(BAD_WIDTHS)
        return
    row = rng.choice(draft.base)
    way = rng.randrange(3)
    if way == 0:
        row[0] = rng.choice(NOT_ACCEPTED)
    elif way == 1:
        row[1] = rng.choice(BAD_WIDTHS)
    else:
        row[4] = rng.choice((2, 2, 3, 256, TOO_BIG))


def fault_4(rng, draft):
    row = rng.choice(draft.base)
    width = max(1, min(row[1], WIDEST))
    row[:4] = rng.choice((
        [rng.choice((2, 6, 7, 14, 14, 19, 26)), width, 1, 0],
        [rng.choice((1, 1, 14, 14, 3, 15, 24, 27)), width, 0, 1],
        [rng.choice(ACCEPTED), width, 1, 0],
        [rng.choice(ACCEPTED), width, 0, 1],
        [1, width, width + 1, 0],
        [rng.choice((2, 6, 7)), width, 0, width + 1],
        [5, width, width, 1], [5, width, 1, width], [5, width, 0, width + 1],
        # sums that would come out small if they wrapped
        [5, width, TOO_BIG, 1], [5, width, 1, TOO_BIG],
        [5, width, 2147483648, 2147483648]))


def fault_5(rng, draft):
    elem = rng.choice(need(rng, draft, 'MGJ'))[0]
    if elem[0] == 'M':
        elem[1] = rng.choice((0, 65, 65, TOO_BIG))
    elif elem[0] == 'G':
        which = 1 + rng.randrange(2)
        elem[which] = rng.choice((0, 0, (33, 65)[which - 1],
                                  (33, 65)[which - 1], TOO_BIG))
    elif len(elem) > 3 and rng.randrange(5) == 0:
        # run lengths whose sum would come out small if it wrapped
        elem[2:4] = rng.choice(([2147483648, 2147483648], [TOO_BIG, 2],
                                [2, TOO_BIG]))
    else:
        at = 2 + rng.randrange(len(elem) - 2)
        rest = sum(elem[2:]) - elem[at]
        elem[at] = rng.choice((0, 0, max(0, 65 - rest), max(0, 66 - rest),
                               65, TOO_BIG))


def fault_6(rng, draft):
    way = rng.randrange(7)
    if way == 0 and len(draft.base) > 1:
        del draft.base[-1 - rng.randrange(min(3, len(draft.base) - 1)):]
    elif way == 1 and draft.ruby:
        del draft.ruby[-1 - rng.randrange(min(3, len(draft.ruby))):]
    elif way == 2:
        draft.base.append([19, draft.em, 0, 0, 1])
    elif way == 3:
        draft.ruby.append([15, max(1, draft.em // 2)])
    elif way == 4:
        draft.elem.append(rng.choice((['P'], ['M', 1], ['G', 1, 1],
                                      ['J', 1, 1])))
    elif way == 5 and draft.elem:
        del draft.elem[rng.randrange(len(draft.elem))]
    else:
        elem = rng.choice(need(rng, draft, 'GM'))[0]
        elem[-1] = clip(elem[-1] + rng.choice((-1, 1)), 1, 64)


def fault_7(rng, draft):
    _, base, base_end, _, _ = rng.choice(need(rng, draft, 'MGJ'))
    if base < base_end:
        row = draft.base[base + rng.randrange(base_end - base)]
        row[:4] = rng.choice(([1, row[1], 1, 0], [5, row[1], 0, 1],
                              [5, row[1], 1, 0], [2, row[1], 0, row[1]],
                              [6, row[1], 0, 1], [7, row[1], 0, 1]))


def fault_8(rng, draft):
    _, base, base_end, _, _ = rng.choice(need(rng, draft, 'J'))
    if base < base_end:
        row = draft.base[base + rng.randrange(base_end - base)]
        if rng.randrange(2) == 0:
            row[0] = rng.choice((24, 25, 26, 27))
        else:
            row[1] = clip(row[1] + rng.choice((-1, 1)), 1, WIDEST)


def fault_9(rng, draft):
    elem, base, base_end, ruby, ruby_end = rng.choice(need(rng, draft, 'JG'))
    rows = draft.ruby[ruby:ruby_end]
    if elem[0] == 'G' and rng.randrange(2) == 0:
        rows = draft.base[base:base_end]
    if not rows:
        return
    row = rng.choice(rows)
    if rng.randrange(3) == 0:
        row[0] = 26
    elif row[0] in WESTERN:
        row[0] = rng.choice((15, 16, 14, 19))
    else:
        row[0] = rng.choice(WESTERN)


def fault_10(rng, draft):
    _, base, base_end, ruby, ruby_end = rng.choice(need(rng, draft, 'G'))
    for row in draft.base[base:base_end]:
        row[0] = rng.choice(WESTERN)
        row[2] = row[3] = 0
    for row in draft.ruby[ruby:ruby_end]:
        row[0] = rng.choice(WESTERN)


FAULTS = (fault_1, fault_2, fault_3, fault_4, fault_5, fault_6, fault_7,
          fault_8, fault_9, fault_10, put_tight_measure)


def one_fault(rng):
    draft = sound_draft(rng)
    rng.choice(FAULTS)(rng, draft)
    return draft.text()


def tiny_draft(rng):
    """One or two elements, so that faults meet in one place."""
    draft = Draft(some_em(rng))
    for _ in range(1 + rng.randrange(2)):
        pick(rng, (1, add_plain), (1, add_mono), (3, add_group),
             (3, add_jukugo))(rng, draft)
    put_measure(rng, draft)
    return draft


def two_faults(rng):
    """Two faults in one job: the order of the refusals decides."""
    draft = rng.choice((sound_draft, tiny_draft, tiny_draft))(rng)
    for _ in range(rng.choice((2, 2, 3))):
        rng.choice(FAULTS)(rng, draft)
    text = draft.text()
    if rng.randrange(8) == 0:
        text = damage(rng, text)
    return text


def meeting_faults(rng):
    """Faults of neighbouring numbers in a tiny job."""
    draft = tiny_draft(rng)
    at = rng.randrange(len(FAULTS) - 1)
    both = pick(rng, (4, (fault_4, fault_3)), (3, (fault_10, fault_9)),
                (2, (fault_8, fault_7)), (3, FAULTS[at:at + 2]),
                (3, FAULTS[at:at + 2][::-1]))
    for fault in both:
        fault(rng, draft)
    return draft.text()


# ---------------------------------------------------------------------------
# Damaged sheets
# ---------------------------------------------------------------------------

ODD_BYTES = (0, 9, 10, 11, 13, 32, 32, 43, 45, 46, 48, 48, 49, 50, 57, 58, 65,
             71, 74, 77, 80, 95, 112, 127, 128, 178, 255)


def change_byte(rng, text):
    at = rng.randrange(len(text))
    return text[:at] + bytes([rng.choice(ODD_BYTES)]) + text[at + 1:]


def remove_byte(rng, text):
    at = rng.randrange(len(text))
    return text[:at] + text[at + 1:]


def insert_byte(rng, text):
    at = rng.randrange(len(text) + 1)
    return text[:at] + bytes([rng.choice(ODD_BYTES)]) + text[at:]


def cut(rng, text):
    return text[:rng.randrange(len(text))]


def cut_end(rng, text):
    return text[:-1 - rng.randrange(min(3, len(text)))]


def change_lines(rng, text):
    """A line removed, doubled, swapped with the next, emptied or added."""
    lines = text.split(b'\n')[:-1]
    at = rng.randrange(len(lines))
    way = rng.randrange(5)
    if way == 0:
        del lines[at]
    elif way == 1:
        lines.insert(at, lines[at])
    elif way == 2:
        lines[at:at + 2] = lines[at:at + 2][::-1]
    elif way == 3:
        lines[at] = b''
    else:
        lines.insert(at, rng.choice((b'', b'P', b'15 5', b'19 10 0 0 1')))
    return b''.join(line + b'\n' for line in lines)


def change_ending(rng, text):
    """CR before the LF, or a space, or a tab."""
    lines = text.split(b'\n')[:-1]
    extra = rng.choice((b'\r', b'\r', b' ', b'\t', b'\0'))
    if rng.randrange(3) == 0:
        return b''.join(line + extra + b'\n' for line in lines)
    at = rng.randrange(len(lines))
    lines[at] += extra
    return b''.join(line + b'\n' for line in lines)


def change_space(rng, text):
    """One of the spaces becomes two, a tab, or a line end."""
    at = text.find(b' ', rng.randrange(len(text)))
    if at < 0:
        at = text.find(b' ')
    return (text[:at] + rng.choice((b'  ', b'  ', b'\t', b'\n', b', ', b''))
            + text[at + 1:])


def some_number(rng, text):
    """(text before, the number, text after) for one of the numbers."""
    lines = text.split(b'\n')[:-1]
    at = rng.randrange(len(lines))
    fields = lines[at].split(b' ')
    which = rng.randrange(len(fields))
    if not fields[which].isdigit():
        which = len(fields) - 1
    start = sum(len(line) + 1 for line in lines[:at])
    start += sum(len(field) + 1 for field in fields[:which])
    end = start + len(fields[which])
    return text[:start], text[start:end], text[end:]


def miswrite_number(rng, text):
    """One of the numbers in a writing that is not allowed."""
    before, number, after = some_number(rng, text)
    number = rng.choice((
        b'0' + number, b'0' + number, b'00' + number, b'00', b'+' + number,
        b'-' + number, number + b'.0', b'', b'\xef\xbc\x91', b'1_0', b'0x1',
        b'1e1', number + b',', number + b' 0'))
    return before + number + after


def wrapped(number, bits):
    return b'%d' % (int(number) + 2 ** bits) if number.isdigit() else number


def change_number(rng, text):
    """One of the numbers becomes a number at an edge."""
    before, number, after = some_number(rng, text)
    number = rng.choice((
        b'4294967295', b'4294967295', b'4294967295', b'4294967296',
        b'4294967296', b'4294967296', b'4294967296', b'4294967296',
        b'4294967297', b'9999999999', b'10000000000',
        b'18446744073709551617', b'0', b'1', b'2', b'32', b'33', b'64',
        b'65', b'1' + number, number + b'0', number + b'0' * 300,
        # what a reader that wraps would take for the number itself
        wrapped(number, 32), wrapped(number, 32), wrapped(number, 64)))
    return before + number + after


def change_element(rng, text):
    """One of the element lines becomes another, mostly of wrong form."""
    lines = text.split(b'\n')[:-1]
    first = [i for i, line in enumerate(lines) if line[:4] == b'elem'][0]
    at = min(first + 1 + rng.randrange(len(lines) - first), len(lines) - 1)
    edge = rng.choice((b'J 0', b'J 33' + b' 1' * 33))   # just out of 1 to 32
    lines[at] = pick(rng, (1, edge), (2, rng.choice((
        b'J', b'J ', b'J 0 ', b'J 1', b'J 2 1', b'J 2 1 1 1',
        b'J 32' + b' 1' * 31, b'J 32' + b' 1' * 32, b'J 32' + b' 2' * 32,
        b'J 1 0', b'J 1 65', b'J 4294967295 1',
        b'M', b'M 0', b'M 1 1', b'M 64', b'M 65', b'G', b'G 1', b'G 1 1 1',
        b'G 0 1', b'G 1 0', b'G 33 1', b'G 32 64', b'P 0', b'P ', b'p', b'm 1',
        b'H 1 1', b'', lines[at] + b' 1', lines[at] + b' '))))
    return b''.join(line + b'\n' for line in lines)


def change_head(rng, text):
    """A section's name or count changed, or the section itself misplaced."""
    lines = text.split(b'\n')[:-1]
    heads = [i for i, line in enumerate(lines)
             if line[:4] in (b'set ', b'base', b'ruby', b'elem')]
    at = rng.choice(heads)
    name, _, count = lines[at].partition(b' ')
    lines[at] = rng.choice((
        name, name + b' ', name + b' ' + count + b' 0', b' ' + lines[at],
        name.upper() + b' ' + count, name + b' 0' + count,
        b'base ' + count, b'ruby ' + count, b'elem ' + count, b'set ' + count,
        name + b' %d' % (int(count) + 1), name + b' %d' % (int(count) + 1),
        name + b' %d' % max(0, int(count) - 1),
        name + b' 1024', name + b' 1025', name + b' 2048', name + b' 2049',
        name + b' 1025 x', name + b' 2049 ', name + b' 4294967295',
        name + b' 4294967296'))
    return b''.join(line + b'\n' for line in lines)


def trailing(rng, text):
    return text + rng.choice((b'\n', b' ', b'\0', b'P\n', b'x', b'\r\n',
                              b'elem 0\n', text))


def damage(rng, text):
    ways = (change_byte, change_byte, remove_byte, remove_byte, insert_byte,
            insert_byte, cut, cut_end, change_lines, change_lines,
            change_ending, change_ending, change_space, change_space,
            miswrite_number, miswrite_number, change_number, change_number,
            change_number, change_number, change_element, change_element,
            change_head, change_head, trailing)
    return rng.choice(ways)(rng, text)


def damaged(rng):
    # In a tiny sheet the heads and the elements are hit as often as rows.
    draft = rng.choice((sound_draft, tiny_draft, tiny_draft))(rng)
    text = damage(rng, draft.text())
    if len(text) > 0 and b' ' in text and rng.randrange(6) == 0:
        text = change_byte(rng, text)
    return text


# ---------------------------------------------------------------------------
# Sheets of the greatest sizes
# ---------------------------------------------------------------------------

def full_draft(rng, base, ruby, elements):
    """M words and P characters to the counts given; base = elements."""
    draft = Draft(10)
    words = min(base, ruby)
    for i in range(elements):
        if i < words:
            count = ruby // words + (1 if i < ruby % words else 0)
            draft.add([[19, 10]], [[15, 1 + rng.randrange(8)]
                                   for _ in range(count)], ['M', count])
        else:
            draft.add([blank_row(rng, 10)], [], ['P'])
    return draft


def great(rng):
    """The greatest counts, and one over."""
    base, ruby, elements = 1024, 2048, 1024
    over = rng.randrange(6)
    draft = full_draft(rng, base, ruby, elements)
    if over == 0:
        draft.add([[19, 10]], [], ['P'])
    elif over == 1:
        draft.ruby.append([15, 5])
    elif over == 2:
        draft.elem.append(['P'])
    draft.measure = rng.choice((40, 75, 200, 900))
    return draft.text()


def great_plain(rng):
    """As many words as fit, plain characters among them, few or one line."""
    draft = Draft(10)
    while len(draft.base) < 990 and len(draft.ruby) < 1980:
        pick(rng, (3, add_plain), (2, add_mono), (1, add_jukugo))(rng, draft)
    while len(draft.base) < 1024:
        draft.add([[19, 10]], [], ['P'])
    put_flags(rng, draft)
    whole = sum(stretches(draft))
    draft.measure = clip(rng.choice((whole, whole // 20, whole // 9)),
                         max(stretches(draft)), WIDEST_MEASURE)
    return draft.text()


def great_words(rng):
    """32 words of 32 base and 64 ruby characters."""
    draft = Draft(10)
    for _ in range(32):
        base = [[19, 10] for _ in range(32)]
        ruby = [[15, rng.choice((4, 5, 5, 6))] for _ in range(64)]
        draft.add(base, ruby, rng.choice((['G', 32, 64],
                                          ['J', 32] + [2] * 32)))
    draft.measure = rng.choice((384, 400, 640, 1000, 2500))
    return draft.text()


def great_wide(rng):
    """Characters of the greatest width, to the greatest counts."""
    draft = Draft(rng.choice((2, 4096, 4096)))
    kind = rng.choice('MGJ' if draft.em == WIDEST else 'MG')
    count = 1 if kind == 'M' else 32
    for _ in range(32):
        base = [[19, WIDEST] for _ in range(count)]
        ruby = [[15, rng.choice((WIDEST, WIDEST, 1))] for _ in range(64)]
        draft.add(base, ruby, {'M': ['M', 64], 'G': ['G', count, 64],
                               'J': ['J', count] + [2] * count}[kind])
        if kind == 'M':
            for _ in range(rng.randrange(20)):
                draft.add([[14, WIDEST]], [], ['P'])
    put_flags(rng, draft)
    draft.measure = rng.choice((262143, 262144, 300000, 3999999, 4000000,
                                4000000))
    return draft.text()


def long_line(rng):
    """One line of text as long as a sheet can be, and one byte longer."""
    start = rng.choice((b'', b'set 2\n', b'set 2\n10\n', b'set 2\n10\n35\n',
                        b'set 2\n10\n35\nbase ', b'J 32'))
    filling = rng.choice((b'1', b'9', b'0', b' ', b' 1', b'x', b'\0', b'\r'))
    size = rng.choice((65534, 65535, 65535, 65536))
    last = rng.choice((b'\n', filling[:1]))
    return (start + filling * size)[:size - 1] + last


def exact_length(rng):
    """A sheet of sound form with 65,534 to 65,537 bytes, mostly of runs."""
    draft = Draft(10)
    draft.measure = 100
    size = rng.choice((65534, 65535, 65535, 65536, 65536, 65537))
    for _ in range(32 * rng.randrange(3)):
        draft.base.append([19, 10, 0, 0, 1])
        draft.ruby.append([15, 5])
    row = ['J', 32] + [1] * 32
    row_length = len(' '.join(map(str, row))) + 1
    count = (size - len(draft.text())) // row_length - 1
    draft.elem = [list(row) for _ in range(count)]
    # Longer numbers fill what is left: at most 9 more digits in each run.
    left = size - len(draft.text())
    for elem in rng.choice((draft.elem, draft.elem[::-1])):
        for i in range(2, len(elem)):
            digits = min(left, 9)
            elem[i] = 10 ** digits
            left -= digits
    return draft.text()


def too_long(rng):
    """65,535 or 65,536 bytes and more of anything."""
    size = rng.choice((65535, 65536, 65536, 70000))
    text = sound(rng)
    filling = rng.choice((b'P\n', b'\n', b'x', b'1 ', b'\0'))
    return (text + filling * size)[:size]


def empty(rng):
    return rng.choice((b'', b'', b'\n', b' ', b'set 2', b'set 2\n'))


# ---------------------------------------------------------------------------
# The mixture
# ---------------------------------------------------------------------------

def one_sheet(rng):
    return pick(rng, (600, sound), (60, opening), (20, later), (60, tight),
                (230, one_fault), (100, two_faults), (50, meeting_faults),
                (170, damaged), (8, spare), (5, great), (2, great_plain),
                (2, great_words), (3, great_wide), (4, exact_length),
                (3, too_long), (2, long_line), (6, empty))(rng)


def sheets(seed, count):
    """The first count sheets of a seed, as bytes."""
    rng = random.Random(seed)
    for _ in range(count):
        yield one_sheet(rng)


def account_sheets(seed, count):
    """The same with more lines that are full or that cannot be set.

    Of four sheets two are of the mixture, one is tight and one is dense.
    """
    rng = random.Random(seed)
    for _ in range(count):
        yield pick(rng, (2, one_sheet), (1, tight), (1, dense))(rng)


def main(arguments):
    if len(arguments) != 2:
        sys.exit('usage: generate.py SEED COUNT')
    for sheet in sheets(int(arguments[0]), int(arguments[1])):
        sys.stdout.buffer.write(b'sheet %d\n' % len(sheet))
        sys.stdout.buffer.write(sheet)


if __name__ == '__main__':
    main(sys.argv[1:])
