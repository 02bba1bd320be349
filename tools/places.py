#!/usr/bin/env python3
"""The places in the crates' src/ that docs/DESIGN-PASS.md counts, by point: `tools/places.py` prints the counts, `tools/places.py 3` the places of point 3 too.

A place is told by its text alone: what a line shows (an enum of the shape of Option, a loop by `while`, a clause that stands in three
contracts). What the page keeps, and why, is said on the page and beside the place."""
import re
import sys
from collections import defaultdict
from pathlib import Path

TOP = Path(__file__).resolve().parent.parent
SOURCES = sorted(TOP.glob('crates/*/src/**/*.rt'))
WORDS = re.compile(r"[A-Za-z_][A-Za-z_0-9]*|\d[\d_]*|\S")


def closing(text, at):
    """The place behind the bracket that closes the one at `at`."""
    pairs = {'(': ')', '{': '}', '[': ']'}
    opened, shut = text[at], pairs[text[at]]
    depth = 0
    for i in range(at, len(text)):
        if text[i] == opened:
            depth += 1
        elif text[i] == shut:
            depth -= 1
            if depth == 0:
                return i + 1
    return len(text)


def bare(text):
    """A source without comments and with its lines kept."""
    return re.sub(r'//[^\n]*', '', text)


def functions(path):
    """Name, line, parameters, clauses and body of each function of a file."""
    text = bare(path.read_text())
    for found in re.finditer(r'\bfn (\w+)(<[^(]*>)?\(', text):
        opened = found.end() - 1
        at = closing(text, opened)
        params = text[opened + 1:at - 1]
        clauses = []
        while True:
            rest = re.compile(r'[^{;]*?(requires|ensures|measure)[^{;]*|[^{;]*').match(text, at)
            keyword = rest.group(1)
            at = rest.end()
            if at >= len(text) or text[at] == ';':
                body = ''
                break
            end = closing(text, at)
            if keyword:
                clauses.append((keyword, ' '.join(text[at + 1:end - 1].split())))
                at = end
                continue
            body = text[at:end]
            break
        yield found.group(1), text.count('\n', 0, found.start()) + 1, params, clauses, body


ALL = [(path, *each) for path in SOURCES for each in functions(path)]


def at(path, line, what):
    return f'{path.relative_to(TOP)}:{line}: {what}'


def enums():
    """Point 1: enums of two cases, one with a value, the other bare or with a refusal (Option, Result); flags beside a value; numbers for none."""
    places = []
    for path in SOURCES:
        text = bare(path.read_text())
        for found in re.finditer(r'\benum (\w+) \{', text):
            end = closing(text, found.end() - 1)
            cases = [c.strip() for c in re.split(r',\s*\n', text[found.end():end - 1]) if c.strip().strip(',')]
            line = text.count('\n', 0, found.start()) + 1
            if len(cases) == 2 and any('(' in c for c in cases):
                places.append(at(path, line, f'enum {found.group(1)}'))
        for found in re.finditer(r'\b(there): bool,', text):
            places.append(at(path, text.count('\n', 0, found.start()) + 1, 'a flag beside its value'))
    return places


def twins():
    """Point 2: pairs of functions of six lines or more whose bodies have the same shape, names and numbers aside."""
    keep = {'if', 'else', 'while', 'for', 'in', 'let', 'mut', 'match', 'return', 'true', 'false', 'as'}
    shapes = defaultdict(list)
    for path, name, line, params, clauses, body in ALL:
        if body.count('\n') < 6:
            continue
        shape = tuple(w if w in keep or not re.match(r'\w', w) else ('9' if w[0].isdigit() else 'x') for w in WORDS.findall(body))
        shapes[shape].append(at(path, line, name))
    return [' = '.join(v) for v in shapes.values() if len(v) > 1]


def loops():
    """Point 3: loops by `while`."""
    places = []
    for path in SOURCES:
        for number, line in enumerate(bare(path.read_text()).split('\n'), 1):
            if re.search(r'\bwhile\b', line):
                places.append(at(path, number, line.strip()))
    return places


def handwritten():
    """Point 4: equality by a match (each arm true or false), conversion of one value by a match or ifs (each arm a constant), least and greatest by an if, copies of three fields or more of a value one by one."""
    places = []
    truth = r'(true|false)'
    constant = r"(\d[\d_]*|[A-Za-z:]*[A-Z]\w*::[A-Z]\w*(\(\w\))?|[a-z]\w?|[A-Za-z:]*[A-Z_]{2,})"
    for path, name, line, params, clauses, body in ALL:
        flat = ' '.join(body.split())
        arms = [a for a in re.findall(r'=> ([^{},]+),', flat)]
        one = len([p for p in params.split(',') if p.strip()]) == 1
        if len(arms) >= 2 and all(re.fullmatch(truth, a) for a in arms):
            places.append(at(path, line, f'{name}: equality'))
        elif one and len(arms) >= 2 and all(re.fullmatch(constant, a) for a in arms):
            places.append(at(path, line, f'{name}: conversion'))
        elif one and len(re.findall(r'\{ (return )?' + constant + r';? \}', flat)) >= 2 and not re.search(r'\b(while|for|let)\b', flat):
            places.append(at(path, line, f'{name}: conversion'))
        elif re.fullmatch(r'\{ if (\w+) <=? (\w+) \{ (\1|\2|\1 - \2|\2 - \1) \} else \{ (\1|\2|0) \} \}', flat):
            places.append(at(path, line, f'{name}: least, greatest or difference'))
        copied = defaultdict(int)
        for field, value in re.findall(r'\b(\w+): (\w+)\.\1\s*[,}]', flat):
            copied[value] += 1
        if copied and max(copied.values()) >= 3:
            places.append(at(path, line, f'{name}: a copy, field by field'))
    return places


def conjuncts(clause):
    """The facts of a clause, at the top of its product."""
    parts, depth, last = [], 0, 0
    for i, c in enumerate(clause):
        depth += (c in '([{') - (c in ')]}')
        if c == '×' and depth == 0:
            parts.append(clause[last:i])
            last = i + 1
    parts.append(clause[last:])
    return [p.strip().strip('()').strip() for p in parts]


def together():
    """Point 5: facts that three or more functions of one crate ask; four or more parameters, the same by name and type, in three or more functions of one crate."""
    facts, groups = defaultdict(list), defaultdict(list)
    for path, name, line, params, clauses, body in ALL:
        crate = path.relative_to(TOP).parts[1]
        for keyword, clause in clauses:
            if keyword == 'requires':
                for fact in conjuncts(clause):
                    facts[crate, fact].append(name)
        listed = [' '.join(p.split()) for p in re.split(r',(?![^<\[(]*[>\])])', params) if p.strip()]
        for size in range(len(listed), 3, -1):
            for start in range(len(listed) - size + 1):
                groups[crate, tuple(listed[start:start + size])].append(name)
    places = [f'{crate}: {fact}: {", ".join(names)}' for (crate, fact), names in facts.items() if len(set(names)) >= 3]
    often = {k: v for k, v in groups.items() if len(set(v)) >= 3}
    for (crate, group), names in often.items():
        wider = any(c == crate and len(g) > len(group) and set(names) <= set(v) and set(group) <= set(g) for (c, g), v in often.items())
        if not wider:
            places.append(f'{crate}: ({", ".join(group)}): {", ".join(dict.fromkeys(names))}')
    return places


def packed():
    """Point 6: a table of packed numbers lent (`t`, `rows`, `elements` as lists of u32), and lists lent with their length beside them."""
    places = []
    for path, name, line, params, clauses, body in ALL:
        if re.search(r'\b(t|rows|elements|elem|elems): &(mut )?\[u32\]', params):
            places.append(at(path, line, f'{name}: packed numbers'))
        elif re.search(r'\b(n|count|elements|bases|rubies|lefts): usize\b', params) and re.search(r'&(mut )?\[', params):
            places.append(at(path, line, f'{name}: a length beside its list'))
    return places


def steps():
    """Point 7: a parameter whose cases choose which step runs."""
    places = []
    for path, name, line, params, clauses, body in ALL:
        flat = ' '.join(body.split())
        if re.search(r'match (mark|step|which|m|side)\b', flat):
            places.append(at(path, line, name))
    return places


def proofs():
    """Point 8: proof files of answers."""
    return [str(p.relative_to(TOP)) for p in sorted(TOP.glob('crates/*/proofs/**/Answers.antt'))]


POINTS = [enums, twins, loops, handwritten, together, packed, steps, proofs]

if __name__ == '__main__':
    asked = [int(a) for a in sys.argv[1:]]
    for number, point in enumerate(POINTS, 1):
        if asked and number not in asked:
            continue
        places = point()
        print(f'{number}. {len(places)}  {point.__doc__.split(": ", 1)[1]}')
        if asked:
            print('\n'.join(f'   {p}' for p in places))
