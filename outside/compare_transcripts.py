#!/usr/bin/env python3
"""compare_transcripts.py PROGRAM COUNT SEED: random inputs, honest, spoiled and malformed, some with books in place of a draw; what the
program writes must equal, byte for byte, what transcript.py beside this file writes. Also: compare_transcripts.py --write DIR COUNT SEED writes the inputs as files
DIR/0, DIR/1, .., and the expected text of all of them in turn as DIR.expected."""
import os
import random
import subprocess
import sys

import transcript
from transcript import Q, ALPHA, HEAD, KEYS, MOST, PARTS, WIDTH

KINDS = ('honest', 'honest', 'honest', 'share', 'check', 'draw', 'settings', 'short', 'long', 'text')
# with books in place of the draw; 'draw' then spoils a number of the books, 'dealer' is a bad dealer whose books pass every check, and
# 'answer' is one who chooses the answer, near the end of its range
BOOK_KINDS = ('honest', 'dealer', 'dealer', 'answer', 'answer', 'answer', 'swapped', 'share', 'check', 'draw', 'draw', 'settings', 'short', 'long')


def centre_near(rng, bound):
    return (rng.choice((1, -1)) * (bound + rng.randrange(-2, 3))) % Q


def secret(rng, set_, kind, bound):
    pick = rng.randrange(4)
    if pick == 0:
        return rng.choice((0, 1, Q - 1, Q - 2, (Q - 1) // 2, (Q + 1) // 2))
    if pick == 1 and kind == 0:
        return (rng.randrange(50) * ALPHA[set_] + ALPHA[set_] // 2 + rng.randrange(-2, 3)) % Q
    if pick == 1:
        return centre_near(rng, bound)
    if pick == 2 and kind == 1:
        return rng.randrange(-bound + 1, bound) % Q
    return rng.randrange(Q)


def number(rng):
    return rng.choice((0, Q - 1, rng.randrange(Q), rng.randrange(Q), rng.randrange(Q)))


def keys_in(head):
    """The server's keys, and the phone's."""
    return head[5:5 + KEYS], head[5 + KEYS:HEAD]


def shared_out(rng, keys, secret):
    """Both sides' input shares and check shares for some coefficients."""
    server, phone = [], []
    for w in secret:
        for number in transcript.whole(w, *keys):
            own = rng.randrange(Q)
            phone.append(own)
            server.append((number - own) % Q)
    return server, phone


def some_keys(rng):
    """A side's keys; now and then all are equal."""
    keys = [rng.choice((1, Q - 1, rng.randrange(1, Q), rng.randrange(1, Q))) for _ in range(KEYS)]
    return keys[:1] * KEYS if rng.randrange(8) == 0 else keys


def honest(rng):
    """Settings, both sides' inputs and the draw, as a list of lists."""
    set_, kind = rng.randrange(2), rng.randrange(2)
    n = rng.choice((1, 1, 2, 3, 4, 5, 6, 7, 8, 8))
    bound = rng.choice((1, 2, 4190208, rng.randrange(1, 4190209))) if kind == 1 else 0
    serial = rng.choice((1, 2**32 - 1, rng.randrange(1, 2**32)))
    keys = some_keys(rng), some_keys(rng)
    server, phone = shared_out(rng, keys, [secret(rng, set_, kind, bound) for _ in range(n)])
    size = transcript.draw_length(set_, kind, n)
    draw = [0] * size if rng.randrange(8) == 0 else [number(rng) for _ in range(size)]
    return [[set_, kind, n, bound, serial] + keys[0] + keys[1], server, phone, draw]


def dealt_books(parts):
    """The books of an input's draw, to stand in its place."""
    head, _, _, draw = parts
    set_, kind, n = head[:3]
    return [[x for place in book for x in place] for book in transcript.deal(set_, kind, n, *keys_in(head), draw)]


def shift(head, book, place, amount):
    """Makes a shared number greater by an amount, with its check parts: a book of either side changes, and no check fails."""
    for at, more in enumerate(transcript.whole(amount, *keys_in(head)), WIDTH * place):
        book[at] = (book[at] + more) % Q


def choose_answer(parts, books, wanted):
    """Moves the entries of the zero check's vectors by what the honest answer lacks to the one wanted: no check fails."""
    head, server, phone, draw = parts
    kind, n = head[1:3]
    size = len(books[0]) // WIDTH
    honest_answer = transcript.transcript(head + server + phone + draw)[-4]
    for j, (have, want) in enumerate(zip(map(int, honest_answer.split()[2:]), wanted)):
        end, entries, amount = ((j + 1) * size // n, 7, have - want) if kind == 0 else (size, n + 2, want - have)
        for place in range(end - entries, end):
            shift(head, books[0], place, amount)


def edge(rng, set_, kind):
    """A number for an answer, in range or not."""
    limit = PARTS[set_] if kind == 0 else 2
    return rng.choice((0, limit - 1, limit - 1, limit - 1, limit - 1, limit - 1, limit, limit + 1, Q - 1))


def spoil(rng, how, parts):
    head, server, phone, draw = parts
    if how == 'share':
        side = rng.choice((server, phone))
        at = rng.randrange(len(side))
        side[at] = rng.choice(((side[at] + rng.randrange(1, Q)) % Q, Q, 2**32 - 1))
    elif how == 'check':
        side = rng.choice((server, phone))
        at = WIDTH * rng.randrange(len(side) // WIDTH) + rng.randrange(1, WIDTH)
        side[at] = (side[at] + rng.randrange(1, Q)) % Q
    elif how == 'draw':
        draw[rng.randrange(len(draw))] = rng.choice((Q, 2**32 - 1, rng.randrange(Q)))
    elif how == 'settings':
        at = rng.randrange(HEAD)
        head[at] = rng.choice((0, 1, 2, 9, Q, 4190209, 2**32 - 1, rng.randrange(2**32)))
    numbers = head + server + phone + draw
    if how == 'short':
        numbers = numbers[:rng.choice((rng.randrange(len(numbers)), rng.randrange(40), len(numbers) - 1))]
    elif how == 'long':
        numbers += [rng.randrange(Q) for _ in range(rng.choice((1, WIDTH, MOST - HEAD - len(numbers), MOST - len(numbers), MOST + 1 - len(numbers))))]
    return numbers


def text(rng, numbers, how):
    style = rng.randrange(3)
    words = []
    for x in numbers:
        w = b'%d' % x
        if style == 2 and rng.randrange(10) == 0:
            w = w.rjust(rng.randrange(len(w), 11), b'0')
        words.append(w)
    if how == 'text' and words:
        at = rng.randrange(len(words))
        words[at] = rng.choice((b'4294967296', b'9999999999', b'00000000001', b'-1', b'1a', b'+1', b'1.0', b'\t', b'1\r', b'\0',
                                words[at] + b'\x80', b'12345678901'))
    if style == 0:
        data = b' '.join(words) + b'\n'
    elif style == 1:
        data = b'\n'.join(words)
    else:
        data = b''.join(w + rng.choice((b' ', b'\n', b'  ', b' \n ', b'\n\n')) for w in words)
        data = rng.choice((b'', b' ', b'\n \n')) + data
    return data


def books_case(rng, how):
    """An input with books in place of its draw."""
    parts = honest(rng)
    books = dealt_books(parts)
    if how == 'dealer':
        for _ in range(rng.choice((1, 1, 3, 40))):
            book = rng.choice(books)
            shift(parts[0], book, rng.randrange(len(book) // WIDTH), rng.choice((1, Q - 1, rng.randrange(1, Q))))
    elif how == 'answer':
        set_, kind, n = parts[0][:3]
        choose_answer(parts, books, [edge(rng, set_, kind) for _ in range(n if kind == 0 else 1)])
    elif how == 'swapped':
        books.reverse()
    return spoil(rng, how, parts[:3] + [books[0] + books[1]])


def case(rng):
    if rng.randrange(3) == 0:
        how = rng.choice(BOOK_KINDS)
        return 'books, ' + how, text(rng, books_case(rng, how), how)
    how = rng.choice(KINDS)
    return how, text(rng, spoil(rng, how, honest(rng)), how)


def last_words(out):
    """What a transcript came to, for the counts."""
    for line in out.decode().split('\n'):
        if line.startswith('refused') or line == 'malformed':
            return line
    return 'finished'


def main(args):
    if args[0] == '--write':
        rng = random.Random(int(args[3]))
        os.makedirs(args[1], exist_ok=True)
        with open(args[1] + '.expected', 'wb') as expected:
            for i in range(int(args[2])):
                _, data = case(rng)
                with open(os.path.join(args[1], str(i)), 'wb') as f:
                    f.write(data)
                expected.write(transcript.output(data))
        return 0
    program, count, rng = args[0], int(args[1]), random.Random(int(args[2]))
    ends, differ = {}, 0
    for i in range(count):
        how, data = case(rng)
        want = transcript.output(data)
        got = subprocess.run([program], input=data, stdout=subprocess.PIPE).stdout
        if got != want:
            differ += 1
            print('DIFFERS: input %d (%s)' % (i, how))
        end = last_words(want) + (' (books)' if how.startswith('books') else '')
        ends[end] = ends.get(end, 0) + 1
    for end in sorted(ends):
        print('%6d  %s' % (ends[end], end))
    print('%d compared, %d differ' % (count, differ))
    return 1 if differ else 0


if __name__ == '__main__':
    sys.exit(main(sys.argv[1:]))
