#!/usr/bin/env python3
"""compare_products.py [HOW MANY]: the library's products modulo q and X^256 + 1 against Python's integer multiplication, without any
transform: the coefficients stand in one integer, 64 bits each, and so do those of the product, each a sum below 2^54. Random rows (5,000
products where no count is given) and all pairs of edge rows, each by ring_product and by ring_transform with ring_product_transformed. The
rows are the same in every run. Exit code 1 where anything differs. Needs the library: rt lib in crates/phone."""
import random
import struct
import sys

from mldsa_sign import LIB, Q, SIZE, ring


def packed(row):
    return int.from_bytes(struct.pack('<%dQ' % SIZE, *row), 'little')


def product(a, b):
    """The product of two integers, taken apart; X^256 is -1, so that the upper half is subtracted."""
    numbers = struct.unpack('<%dQ' % (2 * SIZE), (packed(a) * packed(b)).to_bytes(16 * SIZE, 'little'))
    return [(low - high) % Q for low, high in zip(numbers[:SIZE], numbers[SIZE:])]


def one_place(place, number):
    return [number if at == place else 0 for at in range(SIZE)]


def edge_rows():
    rows = [[0] * SIZE, [1] * SIZE, [Q - 1] * SIZE]
    for place in (0, 1, 127, 128, 255):
        rows += [one_place(place, 1), one_place(place, Q - 1)]
    return rows


def random_row(rng):
    """Half of the rows uniform; the others of few numbers that are not 0, of numbers near 0 and q, or of the greatest alone."""
    pick = rng.randrange(6)
    if pick == 0:
        row = [0] * SIZE
        for _ in range(4):
            row[rng.randrange(SIZE)] = rng.randrange(Q)
        return row
    if pick == 1:
        return [rng.randrange(-4, 5) % Q for _ in range(SIZE)]
    if pick == 2:
        return [Q - 1 - rng.randrange(3) for _ in range(SIZE)]
    return [rng.randrange(Q) for _ in range(SIZE)]


def pairs(count):
    rows = edge_rows()
    for i, a in enumerate(rows):
        for j, b in enumerate(rows):
            yield 'edge rows %d and %d' % (i, j), a, b
    rng = random.Random(256)
    for i in range(count):
        yield 'random product %d' % i, random_row(rng), random_row(rng)


def main(args):
    count = int(args[0]) if args else 5000
    compared, differ = 0, 0
    for name, a, b in pairs(count):
        want = product(a, b)
        transformed = ring(LIB.ring_transform, a)
        for way, got in (('ring_product', ring(LIB.ring_product, a, b)),
                         ('ring_product_transformed', ring(LIB.ring_product_transformed, transformed, b))):
            if got != want:
                differ += 1
                print('DIFFERS: %s, %s' % (way, name))
        compared += 1
    print('%d products compared with integer multiplication, %d of them of edge rows, each in two ways: %d differ'
          % (compared, compared - count, differ))
    return 1 if differ else 0


if __name__ == '__main__':
    sys.exit(main(sys.argv[1:]))
