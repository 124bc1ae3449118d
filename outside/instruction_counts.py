#!/usr/bin/env python3
"""instruction_counts.py PROGRAM [SETS]: does the work of a run depend on shares or keys? Fixes settings, coefficients and the
dealer's drawn numbers, and so every opened number; draws SETS (default 20) random sets of keys, input shares and phone's numbers;
and counts the instructions of the program `transcript` on each, with valgrind (Debian package valgrind): of begin at each side, of
each send and each take, and of the whole program. All numbers are written with ten digits, so
that reading them costs the same. Prints the fewest and the most; equal counts say that no step took another way."""
import glob
import os
import random
import re
import subprocess
import sys
import tempfile

import transcript
from compare_transcripts import shared_out
from transcript import KEYS, Q, WIDTH


def draw_of(rng, set_, kind, n, drawn):
    """A draw with these drawn numbers, and random numbers of the phone's."""
    out, it = [], iter(drawn)

    def take_drawn():
        out.append(next(it))
        return out[-1]

    transcript.deal_book(set_, kind, n, take_drawn, lambda _: out.extend(rng.randrange(Q) for _ in range(WIDTH)))
    return out


def one_input(rng, set_, kind, n, bound, secret, drawn):
    keys = [[rng.randrange(1, Q) for _ in range(KEYS)] for _ in (0, 1)]
    server, phone = shared_out(rng, keys, secret)
    numbers = [set_, kind, n, bound, 1] + keys[0] + keys[1] + server + phone + draw_of(rng, set_, kind, n, drawn)
    return b' '.join(b'%010d' % x for x in numbers) + b'\n'


# Callgrind writes out what it has counted before and after each of these.
CALLS = ('execution::begin_at', 'execution::send_at', 'execution::take_at')


def instructions(program, data):
    """Instructions of each call and of the whole run, and what it wrote behind the messages."""
    with tempfile.TemporaryDirectory() as folder, tempfile.TemporaryFile() as given:
        given.write(data)  # a file, for a pipe may hand its bytes over in other pieces
        given.seek(0)
        bounds = [f'--dump-{when}={call}' for call in CALLS for when in ('before', 'after')]
        out = os.path.join(folder, 'out')
        done = subprocess.run(['valgrind', '--tool=callgrind', f'--callgrind-out-file={out}', *bounds, program],
                              stdin=given, stdout=subprocess.PIPE, stderr=subprocess.PIPE)
        parts = sorted(glob.glob(out + '.*'), key=lambda name: int(name.rsplit('.', 1)[1]))
        texts = [open(name).read() for name in parts + [out]]
    counts = [int(re.search(r'^totals: (\d+)', text, re.M).group(1)) for text in texts]
    calls = [count for count, text in zip(counts, texts) if 'Trigger: --dump-after=' in text]
    return calls + [sum(counts)], [line for line in done.stdout.decode().split('\n') if line[:1] in 'ao']


LABELS = (['begin, server', 'begin, phone']
          + [f'round {r}, {way}' for r in range(1, 8) for way in ('server sends', 'phone takes', 'phone sends', 'server takes')]
          + ['the whole program'])


def main(program, sets='20'):
    differ = False
    for set_ in (0, 1):
        for kind in (0, 1):
            rng = random.Random(4 * set_ + kind)
            n, bound = 8, 0 if kind == 0 else 100000
            secret = [rng.randrange(Q) if kind == 0 else rng.randrange(-bound + 1, bound) % Q for _ in range(n)]
            drawn = [rng.randrange(Q) for _ in range(18 * n if kind == 0 else 17 * n + 1)]
            runs, ends = [], []
            for _ in range(int(sets)):
                counts, end = instructions(program, one_input(rng, set_, kind, n, bound, secret, drawn))
                runs.append(counts)
                ends.append(end)
            assert all(end == ends[0] for end in ends) and ends[0][0].startswith('answer 0'), ends[0]
            assert all(len(counts) == len(LABELS) for counts in runs), len(runs[0])
            print('set %d, %s, N = %d, %d runs' % (set_, ('HIGH', 'BOUND')[kind], n, len(runs)))
            for label, *counts in zip(LABELS, *runs):
                differ = differ or max(counts) > min(counts)
                print('  %-36s %9d to %9d' % (label, min(counts), max(counts)))
    return 1 if differ else 0


if __name__ == '__main__':
    if len(sys.argv) not in (2, 3):
        sys.exit(__doc__)
    sys.exit(main(*sys.argv[1:]))
