#!/usr/bin/env python3
"""What the load program has to write: the plain meaning of plain_lines.py for each line, and then the state of one generator from seed 1,
which takes one step for each number of the draw of a line's run, and none for a line that is refused or malformed.

output_for(bytes) -> bytes answers one input. As a program: the inputs in the named files, one after another, or standard input.
"""
from functools import lru_cache

from plain_generator import draw, step
from plain_lines import LAST, answer_inputs, lines_of, order_in, refusal
from plain_lines import output_for as answers_for

SEED = 1


@lru_cache(maxsize=None)
def draw_length(set_, kind, n):
    """How many numbers a draw has: as many as one that is made, place by place of the book."""
    numbers, _ = draw(SEED, set_, kind, n)
    return len(numbers)


def draws_of(number, line):
    """How many numbers a line draws."""
    order = order_in(line) if number <= LAST else None
    if order is None or refusal(*order):
        return 0
    bound_kind, set_, _, coefficients = order
    return draw_length(set_, int(bound_kind), len(coefficients))


def output_for(data):
    """The whole output for an input."""
    state = SEED
    for _ in range(sum(draws_of(number, line) for number, line in enumerate(lines_of(data), 1))):
        state = step(state)
    return answers_for(data) + b"%d\n" % state


if __name__ == "__main__":
    answer_inputs(output_for)
