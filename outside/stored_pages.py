#!/usr/bin/env python3
"""stored_pages.py CRATE: writes the arguments and the expected text that crate top_digits is run with: the page of each set, with t(d) by
the sentence of the request, and what is printed for words that name no set."""
import os
import sys

S = (44, 16)

# Each argument with its set, or the refusal.
WORDS = (('0', 0), ('1', 1), ('2', '!1'), ('0000000001', 1), ('4294967295', '!1'), ('4294967296', '!12'), ('00000000001', '!12'),
         ('-1', '!12'), ('set', '!12'))


def top(s, d):
    """t(d) = d below s, else d - s"""
    return d if d < s else d - s


def page(set_):
    s = S[set_]
    return ['set %d' % set_, 'd t(d)'] + ['%d %d' % (d, top(s, d)) for d in range(2 * s + 2)]


def main():
    crate = sys.argv[1]
    lines = []
    for _, answer in WORDS:
        lines += [answer] if isinstance(answer, str) else page(answer)
    with open(os.path.join(crate, 'args'), 'w') as f:
        f.write(''.join(word + '\n' for word, _ in WORDS))
    with open(os.path.join(crate, 'stdout'), 'w') as f:
        f.write(''.join(line + '\n' for line in lines))


main()
