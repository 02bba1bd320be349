"""Compares an engine with the second program, byte for byte.

    python3 compare.py --engine CMD --seed S --count N [--single] [--convert]

CMD reads framed sheets on standard input (`sheet LENGTH`, then the bytes) and
writes for each of them `answer LENGTH` and the answer's bytes.  With --single
CMD is run once for each sheet: the sheet's bytes in, the answer's bytes out,
status 0, or 1 where the answer is a refusal.
Every sheet in kept/ is compared first, then the first N sheets of the seed;
half of them are of form two (R-6).
With --convert CMD is a converter.  Each sheet that it writes goes to it again,
and the first sheet has to come back.
A sheet that shows a difference is printed with both answers and put into
kept/, up to twenty of them in one run; the rest are counted.

The last line is `compared N sheets, D differences`; the exit status is 0 only
if D is 0.
"""

import argparse
import hashlib
import io
import os
import shlex
import subprocess
import sys

HERE = os.path.dirname(os.path.abspath(__file__))
sys.path.insert(0, HERE)

import convert      # noqa: E402  (found through the path set above)
import generate_two     # noqa: E402
import second       # noqa: E402

BATCH = 200     # sheets for one run of the engine
LONGEST = 300   # seconds that one run of the engine may take
SHOWN = 20      # differences that are printed and kept


def kept_sheets(folder):
    """The sheets of earlier differences, by name."""
    if not os.path.isdir(folder):
        return
    for name in sorted(os.listdir(folder)):
        if name.endswith('.sheet'):
            with open(os.path.join(folder, name), 'rb') as file:
                yield file.read()


def keep(folder, sheet):
    """Writes a sheet to the folder under a short hash of its bytes."""
    os.makedirs(folder, exist_ok=True)
    name = hashlib.sha256(sheet).hexdigest()[:12] + '.sheet'
    path = os.path.join(folder, name)
    with open(path, 'wb') as file:
        file.write(sheet)
    return path


def all_sheets(folder, seed, count):
    yield from kept_sheets(folder)
    yield from generate_two.sheets(seed, count)


def batches(sheets):
    batch = []
    for sheet in sheets:
        batch.append(sheet)
        if len(batch) == BATCH:
            yield batch
            batch = []
    if batch:
        yield batch


def run_once(command, content, single=False):
    """(what one run of the engine wrote, what was odd about the run)

    A run on a single sheet ends with status 1 where that is refused.
    """
    try:
        done = subprocess.run(command, input=content, stdout=subprocess.PIPE,
                              timeout=LONGEST)
    except subprocess.TimeoutExpired as late:
        return late.output or b'', 'not ended after %d s' % LONGEST
    due = second.status_of(done.stdout) if single else 0
    odd = '' if done.returncode == due else 'status %d' % done.returncode
    return done.stdout, odd


def run_engine(command, batch):
    """One run of the engine: the whole frames it wrote, and what was odd."""
    frames = io.BytesIO()
    for sheet in batch:
        second.write_frame(frames, b'sheet', sheet)
    written, odd = run_once(command, frames.getvalue())
    answers, output = [], io.BytesIO(written)
    try:
        answer = second.read_frame(output, b'answer')
        while answer is not None:
            answers.append(answer)
            answer = second.read_frame(output, b'answer')
    except ValueError as error:
        odd = '; '.join(filter(None, (str(error), odd)))
    return answers, odd


def engine_answers(command, batch):
    """An answer for each sheet; None where the engine gave none.

    After a sheet without an answer the engine is started anew behind it, so
    that one bad sheet is one difference.
    """
    answers = []
    while len(answers) < len(batch):
        rest = batch[len(answers):]
        some, odd = run_engine(command, rest)
        if len(some) > len(rest):
            some, odd = [], 'more answers than sheets'
        answers += some
        if len(some) < len(rest):
            print('the engine gave no answer to a sheet: %s' % (odd or 'end'))
            answers.append(None)
        elif odd:
            # Every sheet has its answer, but the run did not end well.
            print('after a batch: %s' % odd)
            answers[-1] = None
    return answers


def single_answers(command, batch):
    """The same with one run of the engine for each sheet."""
    answers = []
    for sheet in batch:
        answer, odd = run_once(command, sheet, single=True)
        if odd:
            print('a run of the engine: %s' % odd)
        answers.append(None if odd else answer)
    return answers


def readable(content):
    """Bytes as text in which every odd byte can be seen."""
    if content is None:
        return '(no answer)\n'
    text = content.decode('ascii', 'backslashreplace')
    text = ''.join(c if c == '\n' or ' ' <= c <= '~' else '\\x%02x' % ord(c)
                   for c in text)
    return text if text.endswith('\n') else text + '(no LF)\n'


def show_difference(path, sheet, engine, expected):
    print('difference: %s' % path)
    print('--- sheet\n%s--- engine\n%s--- second program\n%s---'
          % (readable(sheet), readable(engine), readable(expected)))


def is_sheet(answer):
    return answer is not None and answer.startswith(b'set ')


def taken_back(command, batch, given, answers):
    """What a converter makes of the sheets that it gave; else the sheet."""
    back = iter(answers(command, list(filter(is_sheet, given))))
    return [next(back) if is_sheet(answer) else sheet
            for sheet, answer in zip(batch, given)]


def compare(command, folder, seed, count, answers=engine_answers,
            converts=False):
    """(sheets compared, differences)

    converts: the engine is a converter.
    """
    compared = differences = 0
    for batch in batches(all_sheets(folder, seed, count)):
        given = answers(command, batch)
        # "takes every form one sheet whose job is accepted to form two and
        # back to the same bytes"
        back = (taken_back(command, batch, given, answers) if converts
                else batch)
        for sheet, engine, returned in zip(batch, given, back):
            expected = (convert.converted if converts
                        else second.answer)(sheet)
            compared += 1
            if engine != expected or returned != sheet:
                differences += 1
                if differences <= SHOWN:
                    path = keep(folder, sheet)
                    show_difference(path, sheet, engine, expected)
                    if returned != sheet:
                        print('--- taken back by the engine\n%s---'
                              % readable(returned))
    return compared, differences


def main():
    parser = argparse.ArgumentParser()
    parser.add_argument('--engine', required=True)
    parser.add_argument('--seed', type=int, required=True)
    parser.add_argument('--count', type=int, required=True)
    parser.add_argument('--single', action='store_true')
    parser.add_argument('--convert', action='store_true',
                        help='CMD is a converter')
    chosen = parser.parse_args()
    compared, differences = compare(
        shlex.split(chosen.engine), os.path.join(HERE, 'kept'),
        chosen.seed, chosen.count,
        single_answers if chosen.single else engine_answers, chosen.convert)
    print('compared %d sheets, %d differences' % (compared, differences))
    sys.exit(0 if differences == 0 else 1)


if __name__ == '__main__':
    main()
