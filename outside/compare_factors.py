#!/usr/bin/env python3
"""compare_factors.py PROGRAM: the list that the program `factors` writes is the list of FIPS 204's appendix B as another implementation
has it (fips204_zetas.txt beside this file, entries 1 to 255; entry 0 is 1), and stands line for line in crate ring as FACTORS.
Exit code 1 where anything differs."""
import pathlib
import re
import subprocess
import sys

HERE = pathlib.Path(__file__).resolve().parent
ZETAS = HERE / 'fips204_zetas.txt'
SOURCE = HERE.parent / 'crates/ring/src/lib.rt'
SIZE = 256


def fail(why):
    sys.exit('compare_factors.py: ' + why)


def written(program):
    """The program's lines."""
    try:
        done = subprocess.run([program], stdout=subprocess.PIPE)
    except OSError as why:
        fail('cannot run %s: %s' % (program, why.strerror))
    if done.returncode != 0:
        fail('%s ended with code %d' % (program, done.returncode))
    return done.stdout.decode('ascii', 'replace').splitlines()


def entries(lines):
    """The numbers of lines of the form `    NUMBER,`."""
    for at, line in enumerate(lines):
        if not re.fullmatch('    (0|[1-9][0-9]*),', line):
            fail('line %d is not of the form `    NUMBER,`: %r' % (at + 1, line))
    return [int(line.strip(' ,')) for line in lines]


def zetas():
    lines = ZETAS.read_text(encoding='ascii').splitlines()
    return [int(line) for line in lines if not line.startswith('#')]


def in_source():
    """The lines of the list."""
    found = re.findall(r'^static FACTORS: \[u32; 256\] = \[\n(.*?)^\];$', SOURCE.read_text(encoding='utf-8'), re.M | re.S)
    if len(found) != 1:
        fail('%s has FACTORS %d times' % (SOURCE, len(found)))
    return found[0].splitlines()


def compare(name, first, ours, theirs):
    if len(ours) != len(theirs):
        fail('%s has %d entries, not %d' % (name, len(theirs), len(ours)))
    for at, (one, other) in enumerate(zip(ours, theirs), first):
        if one != other:
            fail('entry %d: the program has %r, %s has %r' % (at, one, name, other))


def main(args):
    if len(args) != 1:
        fail('usage: compare_factors.py PROGRAM')
    lines = written(args[0])
    numbers = entries(lines)
    if len(numbers) != SIZE:
        fail('%s writes %d entries, not %d' % (args[0], len(numbers), SIZE))
    if numbers[0] != 1:
        fail('entry 0 is %d, not 1' % numbers[0])
    compare(ZETAS.name, 1, numbers[1:], zetas())
    compare('the constant FACTORS', 0, lines, in_source())
    print('%d factors as written by the program: entry 0 is 1, entries 1 to 255 equal those of %s, and all lines equal those of FACTORS in crate ring'
          % (SIZE, ZETAS.name))


if __name__ == '__main__':
    main(sys.argv[1:])
