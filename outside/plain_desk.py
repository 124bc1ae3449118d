#!/usr/bin/env python3
"""What the desk program has to write, from the request alone: FIPS 204's Decompose, the centred size, a choice by sorting, and the draw
of plain_generator.py.

output_for(bytes) -> bytes answers one input. As a program: the inputs in the named files, one
after another, or standard input.
"""
import plain_generator
from plain_lines import ALPHA, Q, answer_inputs, centred, decompose, lines_of, number_in

LONGEST = 2**20  # the most bytes of a line, without its line end
MOST_BOUND = (Q - 1) // 2
BASES = ((16, 16, 24, 31), (16, 32, 31, 33))  # of digits 0 to 3
PARTS = (44, 16)
WIDTH = 1 + 2 * 4  # numbers of a shared number: the share, and a part under each of four keys of either side


class Refused(Exception):
    """The first question that is answered no."""


def ask(yes, number):
    if not yes:
        raise Refused(number)


def shared_numbers(set_, kind, n):
    """How many shared numbers a book has, counted as the request lists them."""
    vectors = sum(BASES[set_]) + PARTS[set_] + 1
    coefficient = 1 + vectors + 8 * 3
    if kind == 0:
        return n * (coefficient + 1 + (5 + 2))
    return n * coefficient + 1 + (n + 2)


def book_size(set_, kind, n):
    """The numbers of a book in a stock: its serial first."""
    return 1 + WIDTH * shared_numbers(set_, kind, n)


def parts(numbers):
    """High and low part."""
    set_, w = numbers
    ask(set_ <= 1, 1)
    ask(w < Q, 6)
    return decompose(w, ALPHA[set_])


def verdict(numbers):
    set_, bound, *coefficients = numbers
    ask(set_ <= 1, 1)
    ask(1 <= len(coefficients) <= 8, 2)
    ask(1 <= bound <= MOST_BOUND, 3)
    ask(all(w < Q for w in coefficients), 6)
    return int(all(abs(centred(w)) < bound for w in coefficients))


def choose(set_, kind, n, last, first, second):
    """The book with the least serial above the last: its serial and its numbers."""
    ask(set_ <= 1 and kind <= 1, 1)
    ask(1 <= n <= 8, 2)
    size = book_size(set_, kind, n)
    ask(len(first) % size == 0 and len(second) % size == 0, 5)
    books = [stock[at : at + size] for stock in (first, second) for at in range(0, len(stock), size)]
    books = [book for book in books if book[0] > last]
    ask(books, 14)
    return sorted(books, key=lambda book: book[0])[0]  # stable: of equal serials the first stock's, then the earlier


def draw(seed, set_, kind, n):
    """The draw's numbers, and the generator's state after it."""
    ask(seed != 0, 16)
    ask(set_ <= 1 and kind <= 1, 1)
    ask(1 <= n <= 8, 2)
    numbers, state = plain_generator.draw(seed, set_, kind, n)
    return numbers + [state]


def result(line):
    """What stands before the line end; None for a malformed line."""
    if len(line) > LONGEST:
        return None
    name, *words = line.split(b" ")
    numbers = [number_in(word) for word in words]
    if None in numbers:
        return None
    if name == b"parts" and len(numbers) == 2:
        return "%d %d" % parts(numbers)
    if name == b"verdict" and len(numbers) >= 2:
        return str(verdict(numbers))
    if name == b"choose" and len(numbers) >= 5 and numbers[4] <= len(numbers) - 5:
        set_, kind, n, last, count, *stocks = numbers
        return " ".join(map(str, choose(set_, kind, n, last, stocks[:count], stocks[count:])))
    if name == b"draw" and len(numbers) == 4:
        return " ".join(map(str, draw(*numbers)))
    return None


def answer(line):
    try:
        text = result(line)
    except Refused as refused:
        return f"!{refused.args[0]}"
    return "!12" if text is None else text


def output_for(data):
    """The whole output for an input."""
    return "".join(f"{answer(line)}\n" for line in lines_of(data)).encode()


if __name__ == "__main__":
    answer_inputs(output_for)
