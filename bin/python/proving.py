"""What the commands share: where the kit is, whether a program is proved from these sources, and the proving itself.

A program is run only if its stamp holds. The stamp, target/proved/PROGRAM, was written when the program was proved and built; it has a sum over the
contents of crates/ and crates.txt and the kit's identity (`rt version`), and one over the built program. Dates play no part. Without a stamp that
holds the program is proved and built first, by `rt run` in its crate's folder, which leaves it in out/, and from there it is taken to target/bin. The archive
for callers in C is looked after in the same way (`rt lib`, target/staticlib). What rt keeps in a crate's folder out/ is no source.
"""

import hashlib
import os
import signal
import subprocess
import sys

ROOT = os.path.dirname(os.path.dirname(os.path.dirname(os.path.realpath(__file__))))
TARGET = os.path.join(ROOT, 'target')
KIT = '/opt/rattle/bin'     # where the kit is looked for besides the path

SHOWN = 12      # lines that are shown of a check that fails
WIDE = 300      # characters that are shown of each


class Trouble(Exception):
    """A line for standard error. The command ends with status 2."""


def printable(text):
    """A file name or another's message on one line, whatever is in it."""
    return ''.join(c if c.isprintable() else '\\x%02x' % ord(c) if ord(c) < 256 else '?' for c in text)


def say(line):
    """A line on standard error; one that nobody can read is no fault of the command."""
    try:
        os.write(2, (line + '\n').encode('utf-8', 'backslashreplace'))
    except OSError:
        pass


def reason(error):
    return error.strerror or str(error)


def find_kit():
    """The command rt. It is on the path afterwards, for bin/program too."""
    folders = os.environ.get('PATH', os.defpath).split(os.pathsep)
    for folder in folders + [KIT]:
        rt = os.path.join(folder, 'rt')
        if os.path.isfile(rt) and os.access(rt, os.X_OK):
            if folder not in folders:
                os.environ['PATH'] = os.pathsep.join(folders + [folder])
            return os.path.abspath(rt)
    raise Trouble('the Rattle kit is not on this machine: no command rt on the path or in %s' % KIT)


def identity(rt):
    """The kit's line about itself."""
    try:
        done = subprocess.run([rt, 'version'], stdin=subprocess.DEVNULL, stdout=subprocess.PIPE, stderr=subprocess.PIPE)
    except OSError as error:
        raise Trouble('the Rattle kit cannot be run: %s: %s' % (rt, reason(error)))
    if done.returncode != 0 or not done.stdout.strip():
        said = (done.stderr.decode(errors='replace').strip().splitlines() or ['it says nothing'])[0]
        raise Trouble('the Rattle kit cannot be run: %s version: %s' % (rt, printable(said)))
    return done.stdout


def source_files():
    """The files of crates/ and crates.txt, by their paths from the repository's folder, in one order."""
    def stop(error):
        raise Trouble('cannot read %s: %s' % (printable(error.filename), reason(error)))
    yield 'crates.txt'
    for where, folders, names in os.walk(os.path.join(ROOT, 'crates'), onerror=stop):
        folders.sort()
        if os.path.dirname(where) == os.path.join(ROOT, 'crates') and 'out' in folders:
            folders.remove('out')
        for folder in folders:
            if os.path.islink(os.path.join(where, folder)):
                raise Trouble('%s is a link to a folder, and what is behind a link is not vouched for'
                              % printable(os.path.join(where, folder)))
        for name in sorted(names):
            yield os.path.relpath(os.path.join(where, name), ROOT)


def sum_of_sources(kit):
    """Changes with any byte of the sources, any name, and the kit."""
    total = hashlib.sha256(kit)
    for path in source_files():
        whole = os.path.join(ROOT, path)
        try:
            # A link that leads nowhere is an editor's mark, not a source.
            content = b'' if os.path.islink(whole) and not os.path.exists(whole) else read(whole)
        except OSError as error:
            raise Trouble('cannot read %s: %s' % (printable(path), reason(error)))
        total.update(b'\n%d %s\n' % (len(content), os.fsencode(path)))
        total.update(content)
    return total.hexdigest()


def read(path):
    with open(path, 'rb', buffering=0) as file:
        return file.read()


def is_program(crate):
    return os.path.isfile(os.path.join(ROOT, 'crates', crate, 'src', 'main.rt'))


def built(crate):
    """What is made of a crate, from target/ on: a program, or the archive of a static library."""
    return os.path.join('bin', crate) if is_program(crate) else os.path.join('staticlib', 'lib%s.a' % crate)


def take(crate):
    """What rt left in the crate's folder, to its place in target/: whole or not at all."""
    import shutil
    to = os.path.join(TARGET, built(crate))
    try:
        os.makedirs(os.path.dirname(to), exist_ok=True)
        shutil.copy(os.path.join(ROOT, 'crates', crate, 'out', os.path.basename(to)), to + '.part')
        os.replace(to + '.part', to)
    except OSError as error:
        raise Trouble('rt finds it proved, but target/%s cannot be had: %s' % (built(crate), reason(error)))


def sum_of_built(program):
    """Of the file that was built; empty where there is none."""
    try:
        return hashlib.sha256(read(os.path.join(TARGET, built(program)))).hexdigest()
    except OSError:
        return ''


def stamp_of(program):
    """(sum of the sources, sum of the program) as they were when the program was proved; empty where it never was."""
    try:
        words = read(os.path.join(TARGET, 'proved', program)).decode('ascii').split()
    except (OSError, UnicodeDecodeError):
        words = []
    return (words[1], words[3]) if len(words) == 4 and words[0::2] == ['sources', 'program'] else ('', '')


def holds(program, sources):
    stamp = stamp_of(program)
    return '' not in stamp and stamp == (sources, sum_of_built(program))


def make_ready(name, program):
    """Sees to it that what is built of a program's or an archive's crate is proved from these sources. NAME is the command's, for what is said."""
    rt = find_kit()
    kit = identity(rt)
    if holds(program, sum_of_sources(kit)):
        return
    open_target()
    import fcntl    # here and below: what only the proving needs is not loaded for each sheet
    with open(os.path.join(TARGET, 'proved', 'lock'), 'w') as lock:
        try:
            fcntl.flock(lock, fcntl.LOCK_EX | fcntl.LOCK_NB)
        except OSError:
            say('%s: another run is proving; this one waits for it' % name)
            fcntl.flock(lock, fcntl.LOCK_EX)
        sources = sum_of_sources(kit)
        if not holds(program, sources):
            prove(name, program, rt, kit, sources)


def open_target():
    """target/ with its folders; said at once where nothing can be written there."""
    try:
        for folder in ('proved', 'log'):
            os.makedirs(os.path.join(TARGET, folder), exist_ok=True)
            probe = os.path.join(TARGET, folder, '.probe-%d' % os.getpid())
            os.close(os.open(probe, os.O_CREAT | os.O_WRONLY))
            os.remove(probe)
    except OSError as error:
        raise Trouble('it has to be proved and built first, and %s cannot be written: %s' % (printable(TARGET), reason(error)))


def remove(*words):
    try:
        os.remove(os.path.join(TARGET, *words))
    except FileNotFoundError:
        pass


def prove(name, program, rt, kit, sources):
    """Proves and builds, and writes the stamp. SOURCES is their sum before it began."""
    remove('proved', program)
    run_check(name, program, rt)
    take(program)
    if sum_of_sources(kit) != sources:
        raise Trouble('the sources were changed while they were proved: run this again')
    made = sum_of_built(program)
    stamp = os.path.join(TARGET, 'proved', program)
    with open(stamp + '.part', 'w') as file:
        file.write('sources %s\nprogram %s\n' % (sources, made))
    os.replace(stamp + '.part', stamp)


def crates_below(program):
    """The program's crate and all that it rests on, as crates.txt has them."""
    listed = {}
    with open(os.path.join(ROOT, 'crates.txt'), encoding='utf-8') as file:
        for line in file:
            crate, colon, deps = line.split('#')[0].partition(':')
            if colon:
                # a static library has that word behind its name
                listed[crate.split()[0]] = deps.split()
    found, left = set(), [program]
    while left:
        crate = left.pop()
        if crate in listed and crate not in found:
            found.add(crate)
            left += listed[crate]
    return found


def run_check(name, program, rt):
    """`rt run`, or `rt lib` of the archive: a line for each crate on standard error, everything in a log; on failure the lines that matter. What a program
    that is run writes, on an empty input, goes to the log too."""
    import time
    began = time.monotonic()
    verb = 'run' if is_program(program) else 'lib'
    log = os.path.join(TARGET, 'log', '%s-%s.log' % (verb, program))
    count = len(crates_below(program))
    say('%s: it is proved and built first (rt %s in crates/%s), which takes some minutes from nothing; %s has all of it'
        % (name, verb, program, os.path.relpath(log, ROOT)))
    with open(log, 'wb') as kept:
        # The sheet waits on standard input: rt must not read it, nor write into the answer.
        check = subprocess.Popen([rt, verb], cwd=os.path.join(ROOT, 'crates', program), stdin=subprocess.DEVNULL, stdout=subprocess.PIPE, stderr=subprocess.STDOUT,
                                 start_new_session=True)
        try:
            matter = follow(name, check.stdout, kept, count)
            status = check.wait()
        except BaseException:
            # Whoever stops this stops the provers too: they are a group of their own.
            os.killpg(check.pid, signal.SIGTERM)
            check.wait()
            raise
    if status != 0:
        for line in matter[:SHOWN]:
            say('  ' + line[:WIDE])
        raise Trouble('not proved (rt %s in crates/%s: status %d), so nothing is run; %s has all that was said'
                      % (verb, program, status, os.path.relpath(log, ROOT)))
    say('%s: proved and built in %d s' % (name, time.monotonic() - began))


def follow(name, lines, log, count):
    """Keeps what rt says and tells of each crate as it is proved; of one that was proved before it says nothing. The lines that matter if the check fails."""
    import re
    import time
    crate = re.compile(r'crate (\w+): modules')
    fault = re.compile(r'.*\berror\b|fn .*: (not proved|no proof)|rt: .*(did not build|is not |was not |ended with|crates\.txt)')
    at, matter, which, began = 0, [], '', time.monotonic()
    for raw in lines:
        log.write(raw)
        log.flush()
        line = raw.decode('utf-8', 'replace').rstrip('\n')
        one = crate.match(line)
        if one:
            which = one[1]
        elif line.startswith('logic=proved') and which:
            at += 1
            say('%s: proving %d of %d: %s, %d s' % (name, at, count, which, time.monotonic() - began))
            which, began = '', time.monotonic()
        elif fault.match(line):
            matter.append(printable(line.replace(ROOT + os.sep, '')))
    return matter


def guard(main):
    """Runs a command's main, with the command's name and its words; its status, and a line instead of a traceback where it cannot go on."""
    name = sys.argv[1]
    # A standard descriptor that is closed is filled, so that no file of ours gets its number.
    closed = [stream is None for stream in (sys.stdin, sys.stdout, sys.stderr)]
    for descriptor, gone in enumerate(closed):
        if gone:
            os.open(os.devnull, os.O_RDWR)
    # Ended from outside, a command still removes what is half done.
    for number in (signal.SIGTERM, signal.SIGHUP):
        if signal.getsignal(number) == signal.SIG_DFL:
            signal.signal(number, lambda number, _: sys.exit(128 + number))
    try:
        return main(closed, name, sys.argv[2:])
    except Trouble as trouble:
        say('%s: %s' % (name, trouble))
        return 2
    except OSError as error:
        say('%s: %s%s' % (name, reason(error), ': ' + printable(str(error.filename)) if error.filename else ''))
        return 2
    except KeyboardInterrupt:
        say('%s: stopped' % name)
        return 130
