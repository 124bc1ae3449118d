#!/usr/bin/env python3
"""stored_desk.py CRATE: writes the stored run of the program `desk` into its crate folder: the inputs data/*, the arguments that name
them, and stdout, the expected text of all of them, worked out by plain_desk.py beside this file."""
import os
import random
import sys

from plain_desk import MOST_BOUND, Q, book_size, output_for

LAST = 2**32 - 1


def book(serial, number, size):
    """A book whose numbers say which it is."""
    return [serial] + [number] * (size - 1)


def choose(set_, kind, n, last, first, second):
    size = book_size(set_, kind, n)
    stocks = [[x for serial, number in stock for x in book(serial, number, size)] for stock in (first, second)]
    return ['choose', set_, kind, n, last, len(stocks[0])] + stocks[0] + stocks[1]


def cases():
    """Pairs of a name and the lines of an input, each a list of words."""
    rng = random.Random(204)
    yield 'sample', [['parts', 0, 5000000], ['verdict', 0, 1000, 999, Q - 999], ['choose', 0, 0, 1, 0, 0]]
    # the request's known results
    yield 'known', (
        [['parts', 0, w] for w in (95232, 95233, 8285184, 8285185, Q - 1)]
        + [['parts', 1, w] for w in (261888, 261889, 8118528, 8118529)]
        + [['verdict', 0, MOST_BOUND, w] for w in (4190207, 4190208, 4190209, 4190210)]
    )
    edges = (0, 1, 95232, 261888, 95234, 261890, 190464, 523776, MOST_BOUND, Q - 2)
    yield 'parts', [['parts', set_, w] for set_ in (0, 1) for w in edges]
    yield 'parts_refused', [['parts'] + words for words in ([2, 0], [0, Q], [1, LAST], [LAST, LAST])]
    bounds = ((1, [0]), (1, [0, 1]), (1, [Q - 1]), (2, [1, Q - 1] * 4), (MOST_BOUND, [MOST_BOUND - 1] * 8))
    yield 'verdicts', [['verdict', set_, b] + ws for set_ in (0, 1) for b, ws in bounds]
    # the order of the questions: 1, 2, 3, 6
    yield 'verdict_refused', [
        ['verdict', 2, 0, Q], ['verdict', 0, 0], ['verdict', 0, 5] + [1] * 9, ['verdict', 0, 0] + [Q] * 9,
        ['verdict', 1, 0, Q], ['verdict', 1, MOST_BOUND + 1, 1], ['verdict', 1, MOST_BOUND, Q], ['verdict', 0, 1, 0, LAST],
    ]  # fmt: skip
    for set_ in (0, 1):
        for kind in (0, 1):
            yield f'choose_set{set_}_kind{kind}', [choose(set_, kind, 1, 3, [(3, 11), (9, 12)], [(7, 13), (8, 14)])]
    # equal serials: the first stock, then the earlier place
    yield 'choose_ties', [
        choose(1, 1, 1, 0, [(5, 21)], [(5, 22)]),
        choose(1, 1, 1, 0, [(6, 31), (5, 32), (5, 33)], [(5, 34)]),
        choose(1, 1, 1, 0, [(6, 41)], [(5, 42), (5, 43)]),
        choose(1, 1, 1, 5, [(5, 51), (6, 52)], [(6, 53), (5, 54)]),
    ]
    yield 'choose_serials', [
        choose(1, 0, 1, 0, [(0, 61), (LAST, 62)], []),
        choose(1, 0, 1, LAST - 1, [(LAST - 1, 71)], [(LAST, 72)]),
        choose(1, 0, 1, 2, [], [(4, 81), (3, 82), (2, 83), (1, 84)]),
    ]
    yield 'choose_refused', [
        ['choose', 2, 0, 0, 0, 0], ['choose', 0, 2, 0, 0, 0], ['choose', 0, 0, 0, 0, 0, 1], ['choose', 1, 1, 9, 0, 1, 7],
        ['choose', 0, 0, 1, 0, 0, 1], choose(1, 1, 1, 0, [(1, 1)], [])[:-1], choose(1, 1, 1, 0, [], [(1, 1)])[:-1],
        ['choose', 1, 1, 1, 0, book_size(1, 1, 1) - 1] + book(1, 1, book_size(1, 1, 1)), ['choose', 0, 0, 1, 0, 0],
        choose(1, 1, 1, 5, [(5, 1)], [(4, 2)]), choose(1, 1, 1, LAST, [(LAST, 1)], []), choose(1, 1, 1, 0, [(0, 1)], [(0, 2)]),
    ]  # fmt: skip
    # the longest book, in numbers of ten digits
    yield 'choose_largest', [['choose', 0, 0, 8, 0, 0, LAST] + [rng.randrange(10**9, LAST + 1) for _ in range(book_size(0, 0, 8) - 1)]]
    yield 'draws', [['draw', seed, set_, kind, 1] for set_ in (0, 1) for kind in (0, 1) for seed in (1, LAST)] + [
        ['draw', 2**31, 0, 0, 8], ['draw', rng.randrange(1, LAST), 1, 1, 8],
    ]
    # the order of the questions: 16, 1, 2
    yield 'draw_refused', [['draw'] + words for words in (
        [0, 2, 2, 0], [0, 0, 0, 1], [1, 2, 0, 0], [1, 0, 2, 9], [LAST, LAST, 0, 1], [2, 1, LAST, 1], [1, 0, 0, 0], [1, 1, 1, 9], [1, 0, 0, LAST],
    )]  # fmt: skip
    yield 'few_words', [
        ['parts'], ['parts', 0], ['parts', 0, 1, 2], ['verdict'], ['verdict', 0], ['choose'],
        ['draw'], ['draw', 1], ['draw', 1, 0, 0], ['draw', 1, 0, 0, 1, 0], ['draw', 0, 9, 9],
        ['choose', 0, 0, 1, 0], ['choose', 0, 0, 1, 0, 1], ['choose', 0, 0, 1, 0, LAST, 1], ['choose', 9, 9, 9, 0, 2, 1],
    ]  # fmt: skip
    # `high` and `low` name no call any more
    names = ('high', 'low', 'Parts', 'PARTS', 'part', 'partss', 'verdic', 'choos', 'patrs', '-', '0', 'H')
    yield 'other_words', [[name, 0, 1] for name in names] + [[name, 1, 0, 0, 1] for name in ('Draw', 'dra', 'draws', 'ward', 'd')]
    # 01: 1 to 10 digits, at most 2^32 - 1
    yield 'digits', [['parts', word, 1] for word in ('0000000001', '00000000001', '4294967295', '4294967296', '+0', '-0', '0x1', '1.0', 'one')]


TEXTS = (
    ('blanks', b' parts 0 1\nparts  0 1\nparts 0 1 \nparts 0  1\n parts 0 1 \n\n \nparts\t0 1\nparts 0\t1\n'),
    ('other_bytes', b'parts 0 1\r\nparts 0 1\x00\n\xffparts 0 1\nparts 0 \xb1\n\xef\xbb\xbfparts 0 1\nparts\x000 1\n'),
    ('last_line_open', b'parts 0 95233\nparts 0 8380416'),
    ('last_line_open_malformed', b'parts 0 95233\nparts'),
    ('line_end_alone', b'\n'),
    ('empty', b''),
)


def main():
    crate = sys.argv[1]
    data = os.path.join(crate, 'data')
    os.makedirs(data, exist_ok=True)
    inputs = [(name, ''.join(' '.join(map(str, words)) + '\n' for words in lines).encode()) for name, lines in cases()]
    inputs += list(TEXTS)
    for name, text in inputs:
        with open(os.path.join(data, name), 'wb') as file:
            file.write(text)
    with open(os.path.join(crate, 'args'), 'w') as file:
        file.write(''.join(name + '\n' for name, _ in inputs))
    with open(os.path.join(crate, 'stdout'), 'wb') as file:
        file.write(b''.join(output_for(text) for _, text in inputs))


if __name__ == '__main__':
    main()
