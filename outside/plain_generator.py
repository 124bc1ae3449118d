#!/usr/bin/env python3
"""The generator for tests and its draw, written from the request's text alone."""
from transcript import Q, WIDTH, deal_book

KEPT = 2**32 - 1  # 32 bits


def step(x):
    """The next output, which is the state after it: from seed 1 the first is 270,369."""
    x ^= (x << 13) & KEPT
    x ^= x >> 17
    x ^= (x << 5) & KEPT
    return x


class Generator:
    """Advances while it gives a number."""

    def __init__(self, state):
        self.state = state

    def next_number(self):
        self.state = step(self.state)
        return self.state


def draw(state, set_, kind, n):
    """A draw's numbers, in the order of the book: a drawn number, then the phone's nine for its place; a place whose value is not drawn
    has only the nine. Beside them, the generator's state after the draw."""
    generator = Generator(state)
    numbers = []

    def take_drawn():
        numbers.append(generator.next_number() % Q)
        return numbers[-1]

    def take_place(_):
        for _ in range(WIDTH):
            take_drawn()

    deal_book(set_, kind, n, take_drawn, take_place)
    return numbers, generator.state
