#!/usr/bin/env python3
"""ring_counts.py [SETS]: does the work of a product depend on its numbers? Counts the instructions of ring_product, ring_transform and
ring_product_transformed on SETS (default 5) random pairs of rows and on two extreme ones, with valgrind (Debian package valgrind). Prints the
fewest and the most of each call; equal counts say that none took another way. Exit code 1 where counts differ, or where the calls' results do.
Needs the library: rt lib in crates/phone."""
import pathlib
import random
import re
import struct
import subprocess
import sys
import tempfile

HERE = pathlib.Path(__file__).resolve().parent
ARCHIVE = HERE.parent / 'crates/phone/out/libphone.a'
Q, SIZE = 8380417, 256
CALLS = ('ring_product', 'ring_transform', 'ring_product_transformed')


def instructions(program, folder, call, data):
    """Instructions of one call, and the program's output."""
    out = folder / 'counted'
    done = subprocess.run(['valgrind', '--tool=callgrind', '--callgrind-out-file=%s' % out, '--toggle-collect=' + call, program],
                          input=data, stdout=subprocess.PIPE, stderr=subprocess.PIPE)
    if done.returncode != 0:
        sys.exit('ring_counts.py: the calls were refused, or valgrind failed: %s' % done.stderr.decode(errors='replace'))
    return int(re.search(r'^totals: (\d+)', out.read_text(), re.M).group(1)), done.stdout


def pairs(sets):
    rng = random.Random(7)
    yield [0] * (2 * SIZE)
    yield [Q - 1] * (2 * SIZE)
    for _ in range(sets):
        yield [rng.randrange(Q) for _ in range(2 * SIZE)]


def main(args):
    if not ARCHIVE.exists():
        sys.exit('ring_counts.py: build the library first: rt lib in crates/phone')
    inputs = [struct.pack('<%dI' % len(numbers), *numbers) for numbers in pairs(int(args[0]) if args else 5)]
    differ = False
    with tempfile.TemporaryDirectory() as name:
        folder = pathlib.Path(name)
        program = folder / 'ring_calls'
        subprocess.run(['cc', '-O2', '-o', program, HERE / 'ring_calls.c', ARCHIVE], check=True)
        for call in CALLS:
            counts, results = zip(*(instructions(program, folder, call, data) for data in inputs))
            if any(out[:4 * SIZE] != out[-4 * SIZE:] for out in results):
                sys.exit('ring_counts.py: ring_product and ring_product_transformed differ')
            differ = differ or len(set(counts)) > 1 or counts[0] == 0
            print('%-26s %7d to %7d instructions, %d pairs of rows' % (call, min(counts), max(counts), len(counts)))
    return 1 if differ else 0


if __name__ == '__main__':
    sys.exit(main(sys.argv[1:]))
