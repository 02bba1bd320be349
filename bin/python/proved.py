"""proved PROGRAM: runs target/bin/PROGRAM as bin/program does, from any directory, once it is proved from these sources.
proved exports: sees to the archive target/staticlib/libexports.a in the same way, and ends.

From a fresh clone, and after a change under crates/, it is proved and built first; that is said on standard error. Standard input, standard output
and the status are the program's; 2 where it could not be proved.
"""

import os
import sys

import proving


def main(closed, _, arguments):
    if closed[0] or closed[1]:
        raise proving.Trouble('standard %s is closed' % ('input' if closed[0] else 'output'))
    name = arguments[0] if len(arguments) == 1 else ''
    if not (name == 'exports' or '/' not in name and proving.is_program(name)):
        raise proving.Trouble('one argument: the name of a program under crates/, or exports')
    proving.make_ready('proved', name)
    if not proving.is_program(name):
        return 0
    program = os.path.join(proving.ROOT, 'bin', 'program')
    os.execv(program, [program, name])


if __name__ == '__main__':
    sys.exit(proving.guard(main))
