#!/usr/bin/env python3
"""stored_load.py CRATE EXAMPLES: writes the stored run of the program `load` into its crate folder, the inputs data/*, the arguments that
name them, and stdout, the expected text of all of them, worked out by plain_load.py beside this file; and EXAMPLES/load.txt, the thousand
lines that operators run on each release."""
import os
import random
import sys

from compare_lines import good_words, refused_words
from plain_load import output_for


def text_of(lines):
    return b''.join(line + b'\n' for line in lines)


def cases():
    """Pairs of a name and an input."""
    yield 'empty', b''
    yield 'sample', b'H - 0 95233\nB - 1 0 0\nH 1 0\n'
    # each shape of a run, so that each length of a draw
    yield 'shapes', text_of(b'%s %d %d' % (kind, set_, kind == b'B') + b' 1' * n for kind in (b'H', b'B') for set_ in (0, 1) for n in range(1, 9))
    # lines that draw nothing: refused by each question, malformed, empty
    yield 'refused', b'H 2 0 1\nH 0 0\nH 0 0 1 1 1 1 1 1 1 1 1\nH 0 1 1\nB 0 0 1\nB 1 4190209 1\nH 1 0 8380417\nX\n\nH 0 0 1 \n'
    # the same run before, between and behind such lines; the last line lacks its line end
    yield 'between', b'H 0 0 1\nH 2 0 1\nH 0 0 1\nX\nH 0 0 1'
    yield 'last_line_refused', b'H 0 0 1\nH 2 0 1'
    # a malformed line above 1,024 bytes
    yield 'long', b'H 0 0 1\nH 0 0' + b' 1' * 600 + b'\nB 1 5 4\n'


def load_lines(count):
    """Good lines of every kind, and now and then a refused or a malformed one."""
    rng = random.Random(4)
    for k in range(count):
        if k % 50 == 24:
            yield ' '.join(refused_words(rng)).encode()
        elif k % 50 == 49:
            yield b'H 0 0 ' + b'x' * rng.randrange(4)
        else:
            words = good_words(rng)
            yield ' '.join([words[0], words[1].replace('-', '0')] + words[2:]).encode()


def write(path, data):
    with open(path, 'wb') as file:
        file.write(data)


def main():
    crate, examples = sys.argv[1:3]
    os.makedirs(os.path.join(crate, 'data'), exist_ok=True)
    load = text_of(load_lines(1000))
    write(os.path.join(examples, 'load.txt'), load)
    inputs = list(cases()) + [('thousand', load)]
    for name, data in inputs:
        write(os.path.join(crate, 'data', name), data)
    write(os.path.join(crate, 'args'), text_of(name.encode() for name, _ in inputs))
    write(os.path.join(crate, 'stdout'), b''.join(output_for(data) for _, data in inputs))


main()
