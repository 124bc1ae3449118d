#!/usr/bin/env python3
"""compare_desk.py PROGRAM [COUNT [SEED]]: what the program `desk` writes must equal, byte for byte, what plain_desk.py beside this file
writes: for an input of COUNT random lines (5,000 if not given), good, refused and malformed; for the same input cut off at random
places; for lines of 2^20 bytes and of some bytes more or less; and for every stored input of crate desk. Shows the first line that
differs. Exit code 1 if any does."""
import os
import random
import subprocess
import sys

from compare_lines import coefficient, forms_of, stored_in
from plain_desk import LONGEST, MOST_BOUND, Q, book_size, output_for
from plain_lines import lines_of

HERE = os.path.dirname(os.path.abspath(__file__))
STORED = os.path.join(HERE, '..', 'crates', 'desk', 'data')
LAST = 2**32 - 1


def parts_words(rng):
    set_ = rng.randrange(2)
    return ['parts', set_, coefficient(rng, set_, 0)]


def verdict_words(rng):
    bound = rng.choice((1, 2, 1000, MOST_BOUND, rng.randrange(1, MOST_BOUND + 1)))
    set_ = rng.randrange(2)
    return ['verdict', set_, bound] + [coefficient(rng, set_, bound) for _ in range(rng.randrange(1, 9))]


def book(rng, size, serials):
    """A book of a stock: few serials, so that two are often equal; numbers of any length up to ten digits."""
    return [rng.choice(serials)] + [rng.randrange(rng.choice((10, Q, LAST + 1))) for _ in range(size - 1)]


def choose_words(rng, set_=None, kind=None, n=None):
    set_ = rng.randrange(2) if set_ is None else set_
    kind = rng.randrange(2) if kind is None else kind
    n = rng.choice((1, 1, 1, 2, 8)) if n is None else n
    size = book_size(set_, kind, n)
    serials = [rng.randrange(6) for _ in range(3)] + [rng.randrange(LAST + 1), LAST]
    stocks = [[x for _ in range(rng.choice((0, 1, 1, 2, 3))) for x in book(rng, size, serials)] for _ in (0, 1)]
    last = rng.choice((0, 0, 1, 3, rng.choice(serials)))
    return ['choose', set_, kind, n, last, len(stocks[0])] + stocks[0] + stocks[1]


def draw_words(rng):
    seed = rng.choice((1, 2, LAST, 2**31, rng.randrange(1, LAST + 1), rng.randrange(1, LAST + 1)))
    return ['draw', seed, rng.randrange(2), rng.randrange(2), rng.choice((1, 1, 2, 8, rng.randrange(1, 9)))]


def good_words(rng):
    return rng.choice((parts_words, parts_words, verdict_words, verdict_words, choose_words, draw_words))(rng)


def refused_words(rng):
    how = rng.randrange(10)
    words = rng.choice((parts_words, verdict_words, choose_words))(rng)
    if how == 0:
        words[1] = rng.choice((2, 3, LAST))
    elif how == 1:
        words = parts_words(rng)
        words[2] = rng.choice((Q, Q + 1, LAST))
    elif how == 2:
        words = verdict_words(rng)[:3] + [rng.randrange(Q)] * rng.choice((0, 9, 10, 50))
    elif how == 3:
        words = verdict_words(rng)
        words[2] = rng.choice((0, MOST_BOUND + 1, LAST))
    elif how == 4:
        words = verdict_words(rng)
        words[rng.randrange(3, len(words))] = rng.choice((Q, LAST))
    elif how == 5:
        words = choose_words(rng)
        words[rng.choice((2, 3))] = rng.choice((2, 9, LAST))
    elif how == 6:
        words = choose_words(rng)
        words[5] = max(0, words[5] + rng.choice((-1, 1)))
    elif how == 7:
        words = choose_words(rng) + [rng.randrange(LAST)] * rng.choice((1, 2))
    elif how == 8:
        words = choose_words(rng)
        words[4] = LAST
    else:
        words = draw_words(rng)
        for at in rng.sample((1, 2, 3, 4), rng.choice((1, 1, 1, 2, 3, 4))):
            words[at] = rng.choice(((0,), (2, LAST), (2, LAST), (0, 9, LAST))[at - 1])
    return words


def text_of(words):
    return ' '.join(map(str, words)).encode()


def malformed(rng):
    words = rng.choice((parts_words, verdict_words, choose_words, draw_words))(rng)
    line = text_of(words)
    how = rng.randrange(10)
    if how == 0:
        at = rng.randrange(len(line) + 1)
        byte = rng.choice([b for b in range(256) if b != 10])
        return line[:at] + bytes([byte]) + line[at:]
    if how == 1:
        at = rng.randrange(min(len(line), 12))
        return line[:at] + line[at + 1 :]
    if how == 2:
        return rng.choice((line + b' ', b' ' + line, line.replace(b' ', b'  ', 1)))
    if how == 3:
        return b''
    if how == 4:
        return text_of(words[: rng.randrange(7)])
    if how == 5:
        return line + b' ' + str(rng.choice((LAST + 1, 9999999999, 10**10, 10**20))).encode()
    if how == 6:
        return line + b' ' + b'0' * rng.choice((9, 10, 11))
    if how == 7:
        names = ('Parts', 'part', 'partss', 'high', 'low', 'verdicts', 'chose', 'choos', 'choosed', 'Draw', 'dra', 'draws', '0')
        return text_of([rng.choice(names)] + words[1:])
    if how == 8:
        words = choose_words(rng)
        words[5] = rng.choice((len(words) - 5, len(words), LAST))
        return text_of(words)
    return bytes(rng.choice([b for b in range(256) if b != 10]) for _ in range(rng.randrange(40)))


def line(rng):
    pick = rng.randrange(10)
    if pick < 5:
        return text_of(good_words(rng))
    if pick < 8:
        return text_of(refused_words(rng))
    return malformed(rng)


def widened(rng, words, length):
    """The words with zeros in front of numbers, so that the line has this many bytes."""
    texts = [str(word) for word in words]
    left = length - len(' '.join(texts))
    for i in range(len(texts) - 1, 0, -1):
        zeros = min(left, 10 - len(texts[i]))
        texts[i] = '0' * zeros + texts[i]
        left -= zeros
    assert left == 0
    return ' '.join(texts).encode()


def long_lines(rng):
    """Lines of about 2^20 bytes: with as many numbers as have room, with many books, and with no words."""
    for length in (LONGEST - 1, LONGEST, LONGEST + 1, LONGEST + 2, 3 * LONGEST):
        for head in (b'verdict 0 1', b'verdict 1 10', b'parts 0 0', b'', b'x'):
            yield (head + b' 0' * length)[:length]
        yield b'7' * length
        yield b' ' * length
    size = book_size(0, 0, 8)
    books = LONGEST // (11 * size)
    for count in (0, books // 2, books):
        words = ['choose', 0, 0, 8, 1, count * size] + [x for _ in range(books) for x in book(rng, size, [1, 2, 3])]
        yield widened(rng, words, len(text_of(words)) + 1000)
    size = book_size(1, 1, 1)
    books = LONGEST // (8 * size)
    words = ['choose', 1, 1, 1, 4, size * (books // 3)] + [x for _ in range(books) for x in [rng.randrange(9)] + [5] * (size - 1)]
    for length in (LONGEST, LONGEST + 1):
        yield widened(rng, words, length)


def inputs(rng, count):
    """Pairs of a name and an input."""
    yield from forms_of(rng, [line(rng) for _ in range(count)], 200, 10)
    longs = list(long_lines(rng))
    yield 'long lines', b'\n'.join(longs) + b'\n'
    yield 'a long line without its line end', longs[-2]
    yield from stored_in(STORED)


def show(text):
    return text if len(text) <= 200 else text[:100] + b' .. ' + text[-50:]


def first_difference(data, got, expected):
    lines = lines_of(data)
    for i, (a, b) in enumerate(zip(got.split(b'\n'), expected.split(b'\n'))):
        if a != b:
            return f'line {i + 1}: {show(lines[i])}\n  written  {show(a)}\n  expected {show(b)}'
    return f'{got.count(10)} output lines, expected {expected.count(10)}'


def main():
    program = os.path.abspath(sys.argv[1])
    count = int(sys.argv[2]) if len(sys.argv) > 2 else 5000
    rng = random.Random(int(sys.argv[3]) if len(sys.argv) > 3 else 1)
    compared = lines = 0
    for name, data in inputs(rng, count):
        got = subprocess.run([program], input=data, capture_output=True, check=True).stdout
        expected = output_for(data)
        if got != expected:
            print(f'{name} differs, {first_difference(data, got, expected)}')
            sys.exit(1)
        compared += 1
        lines += got.count(b'\n')
    print(f'{compared} inputs, {lines} output lines compared; all equal')


if __name__ == '__main__':
    main()
