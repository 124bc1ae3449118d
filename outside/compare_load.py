#!/usr/bin/env python3
"""compare_load.py PROGRAM [COUNT [SEED]]: what the load program writes must equal, byte for byte, what plain_load.py beside this file
writes, the last line with the generator's state among it: for an input of COUNT random lines (20,000 if not given), good, refused and
malformed; for the same input cut off at random places; for lines with other line ends; and for every stored edge file of the line
program and of crate load. Exit code 1 if any differs."""
import os

from compare_lines import EDGES, HERE, arguments, compare, forms_of, line, stored_in
from plain_load import output_for

LOADS = os.path.join(HERE, '..', 'crates', 'load', 'data')


def inputs(rng, count):
    yield from forms_of(rng, [line(rng) for _ in range(count)], 500, 3)
    yield from stored_in(EDGES)
    yield from stored_in(LOADS)


def main():
    program, count, rng = arguments()
    compare(program, inputs(rng, count), output_for)


if __name__ == '__main__':
    main()
