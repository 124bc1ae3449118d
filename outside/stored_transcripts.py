#!/usr/bin/env python3
"""stored_transcripts.py CRATE: writes the stored run of the program `transcript` into its crate folder: the inputs data/*, the
arguments that name them, and stdout, the expected text of all of them, worked out by transcript.py beside this file."""
import os
import random
import sys

import compare_transcripts
import transcript
from transcript import Q, ALPHA, KEYS, WIDTH

ONES = [1] * (2 * KEYS)  # the keys of both sides


def honest(rng, set_, kind, n, bound):
    keys = [[rng.randrange(1, Q) for _ in range(KEYS)] for _ in (0, 1)]
    secret = [compare_transcripts.secret(rng, set_, kind, bound) for _ in range(n)]
    server, phone = compare_transcripts.shared_out(rng, keys, secret)
    draw = [rng.randrange(Q) for _ in range(transcript.draw_length(set_, kind, n))]
    return [set_, kind, n, bound, rng.randrange(1, 2**32)] + keys[0] + keys[1], server, phone, draw


def zeros(n):
    """The inputs of a side, all 0."""
    return [0] * (WIDTH * n)


def no_draw(set_, kind, n):
    return [0] * transcript.draw_length(set_, kind, n)


def cases():
    rng = random.Random(204)
    for set_ in (0, 1):
        yield 'high_set%d_n1' % set_, honest(rng, set_, 0, 1, 0)
        yield 'bound_set%d_n1' % set_, honest(rng, set_, 1, 1, 4190208)
    yield 'high_set0_n8', honest(rng, 0, 0, 8, 0)
    yield 'bound_set1_n8', honest(rng, 1, 1, 8, 130994)
    # the request's known message: server, set 0, HIGH, N = 1, round 1, serial 1, share 1, four zero parts
    w = (2 - ALPHA[0] // 2) % Q
    parts, none = [w] * KEYS, [0] * KEYS
    yield 'known_message', ([0, 0, 1, 0, 1] + ONES, [w] + parts + none, [0] + none + parts, no_draw(0, 0, 1))
    # keys that are all equal, and keys at the ends of their range
    for name, keys in (('equal_keys', [5] * (2 * KEYS)), ('keys_at_the_ends', [1, Q - 1] * KEYS)):
        server, phone = compare_transcripts.shared_out(rng, (keys[:KEYS], keys[KEYS:]), [4190208])
        yield name, ([1, 0, 1, 0, 9] + keys, server, phone, [rng.randrange(Q) for _ in no_draw(1, 0, 1)])
    # check shares that do not fit the share: under each key of the server, and of the phone
    for i in range(2 * KEYS):
        head, server, phone, _ = honest(rng, 0, 1, 1, 100)
        server[1 + i] = (server[1 + i] + 1) % Q
        yield 'check_share_%s_key_%d' % (('server', 'phone')[i // KEYS], i % KEYS), (head, server, phone, no_draw(0, 1, 1))
    # parts under two keys of one side in each other's place
    head, server, phone, _ = honest(rng, 1, 0, 1, 0)
    for side in (server, phone):
        side[1], side[2] = side[2], side[1]
    yield 'parts_swapped', (head, server, phone, no_draw(1, 0, 1))
    # one key is 0, or q: asked before the length of the draw
    for i in range(2 * KEYS):
        head = [1, 0, 1, 0, 1] + ONES
        head[5 + i] = 0 if i % 2 == 0 else Q
        yield 'key_%d_refused' % i, (head, zeros(1), zeros(1), [])
        # with books in place of the draw the side's own begin asks
        yield 'books_key_%d_refused' % i, (head, zeros(1), zeros(1), [0] * (2 * transcript.book_length(1, 0, 1)))
    yield 'bound_above', ([1, 1, 1, 4190209, 1] + ONES, zeros(1), zeros(1), no_draw(1, 1, 1))
    yield 'serial_zero', ([1, 0, 1, 0, 0] + ONES, zeros(1), zeros(1), no_draw(1, 0, 1))
    for name, at in (('share_too_large', 0), ('part_too_large', WIDTH - 1)):
        phone = zeros(1)
        phone[at] = Q
        yield name, ([1, 0, 1, 0, 1] + ONES, zeros(1), phone, no_draw(1, 0, 1))
    yield 'count_above', ([0, 0, 9, 0, 1] + ONES, [], [], [5])
    yield 'no_draw', ([0, 0, 1, 0, 1] + ONES, [1] * WIDTH, [2], [])


def books_cases():
    """Inputs with books in place of a draw. Where an answer stands behind the shape, a bad dealer has chosen it: no check fails."""
    rng = random.Random(205)
    for name, shape, *chosen in (('books_honest', (1, 0, 1, 0)), ('books_answer_50', (0, 0, 1, 0), 50), ('books_caught', (0, 1, 1, 100)),
                                 ('books_not_below_q', (1, 1, 1, 130994)), ('books_one_more', (1, 1, 1, 1)),
                                 ('books_answer_44', (0, 0, 1, 0), 44), ('books_answer_43', (0, 0, 1, 0), 43),
                                 ('books_answer_16', (1, 0, 1, 0), 16), ('books_answer_15', (1, 0, 1, 0), 15),
                                 ('books_answers_43_44', (0, 0, 2, 0), 43, 44), ('books_verdict_2', (0, 1, 1, 4190208), 2),
                                 ('books_verdict_1', (1, 1, 2, 1), 1)):
        head, server, phone, draw = honest(rng, *shape)
        books = compare_transcripts.dealt_books((head, server, phone, draw))
        if chosen:
            compare_transcripts.choose_answer((head, server, phone, draw), books, chosen)
        elif name == 'books_caught':
            # the share of the mask r, without its check parts
            books[1][0] = (books[1][0] + 1) % Q
        elif name == 'books_not_below_q':
            books[1][-1] = Q
        elif name == 'books_one_more':
            books[1].append(0)
        yield name, (head, server, phone) + tuple(books)


def head_text(last):
    """What stands before the shares, with another last word."""
    return b'0 0 1 0 1' + b' 1' * (2 * KEYS - 1) + last


TEXTS = (
    ('malformed_letter', head_text(b' x\n')),
    ('malformed_value', head_text(b' 4294967296\n')),
    ('malformed_digits', head_text(b' 00000000001\n')),
    ('malformed_return', head_text(b' 1\r\n')),
    ('one_key_less', head_text(b'\n')),
    ('keys_alone', b'\n ' + head_text(b'  4294967295')),
    ('empty', b''),
)


def main(crate):
    inputs = [(name, '\n'.join(' '.join(map(str, part)) for part in parts).encode() + b'\n') for name, parts in (*cases(), *books_cases())]
    inputs += TEXTS
    folder = os.path.join(crate, 'data')
    os.makedirs(folder, exist_ok=True)
    for name in os.listdir(folder):
        os.remove(os.path.join(folder, name))
    for name, data in inputs:
        with open(os.path.join(crate, 'data', name), 'wb') as f:
            f.write(data)
    with open(os.path.join(crate, 'args'), 'w') as f:
        f.write(''.join(name + '\n' for name, _ in inputs))
    with open(os.path.join(crate, 'stdout'), 'wb') as f:
        f.write(b''.join(transcript.output(data) for _, data in inputs))


if __name__ == '__main__':
    main(sys.argv[1])
