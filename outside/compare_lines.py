#!/usr/bin/env python3
"""compare_lines.py PROGRAM [COUNT [SEED]]: what the line program writes must equal, byte for byte, what plain_lines.py beside this
file writes: for an input of COUNT random lines (20,000 if not given), good, refused and malformed; for the same input cut off at
random places; for the same lines with other line ends; and for every stored edge file of crate line_program. Exit code 1 if any
differs."""
import os
import random
import subprocess
import sys

from plain_lines import Q, output_for

HERE = os.path.dirname(os.path.abspath(__file__))
EDGES = os.path.join(HERE, '..', 'crates', 'line_program', 'data')
ALPHA = (190464, 523776)
MOST_BOUND = (Q - 1) // 2


def coefficient(rng, set_, bound):
    """A number below q, often one near an edge of its high part or of the bound."""
    pick = rng.randrange(5)
    if pick == 0:
        return rng.choice((0, 1, Q - 1, Q - 2, MOST_BOUND, MOST_BOUND + 1))
    if pick == 1:
        return (rng.randrange(45) * ALPHA[set_] + ALPHA[set_] // 2 + rng.randrange(-2, 3)) % Q
    if pick == 2 and bound:
        return (rng.choice((1, -1)) * (bound + rng.randrange(-2, 3))) % Q
    if pick == 3 and bound:
        return rng.randrange(-bound + 1, bound) % Q
    return rng.randrange(Q)


def good_words(rng):
    set_ = rng.randrange(2)
    kind = rng.choice('HB')
    bound = rng.choice((1, 2, 1000, MOST_BOUND, rng.randrange(1, MOST_BOUND + 1))) if kind == 'B' else 0
    numbers = [coefficient(rng, set_, bound) for _ in range(rng.randrange(1, 9))]
    return [kind, '-' if set_ == 0 and rng.randrange(2) else str(set_), str(bound)] + [str(x) for x in numbers]


def refused_words(rng):
    words = good_words(rng)
    how = rng.randrange(5)
    if how == 0:
        words[1] = str(rng.choice((2, 3, 10, 2**32 - 1)))
    elif how == 1:
        words = words[:3] + [str(rng.randrange(Q)) for _ in range(rng.choice((0, 9, 10, 50)))]
    elif how == 2:
        words[2] = str(rng.choice((1, 5)) if words[0] == 'H' else rng.choice((0, MOST_BOUND + 1, 2**32 - 1)))
    elif how == 3:
        words[rng.randrange(3, len(words))] = str(rng.choice((Q, Q + 1, 2**32 - 1)))
    else:
        words[1], words[2] = '2', '9'
    return words


def malformed(rng):
    line = ' '.join(good_words(rng)).encode()
    how = rng.randrange(9)
    if how == 0:
        at = rng.randrange(len(line) + 1)
        byte = rng.choice([b for b in range(256) if b != 10])
        return line[:at] + bytes([byte]) + line[at:]
    if how == 1:
        at = rng.randrange(len(line))
        return line[:at] + line[at + 1:]
    if how == 2:
        return line + b' ' * rng.choice((1, 2, 1000))
    if how == 3:
        return b''
    if how == 4:
        return b' '.join(line.split(b' ')[:rng.randrange(3)])
    if how == 5:
        return line + b' ' + str(rng.choice((2**32, 9999999999, 10**10, 10**20))).encode()
    if how == 6:
        return line + b' ' + b'0' * rng.choice((9, 10, 11))
    if how == 7:
        return (line + b' 1' * 1024)[:rng.choice((1023, 1024, 1025, 1026, 3000))]
    return bytes(rng.choice([b for b in range(256) if b != 10]) for _ in range(rng.randrange(40)))


def line(rng):
    pick = rng.randrange(10)
    if pick < 6:
        return ' '.join(good_words(rng)).encode()
    if pick < 8:
        return ' '.join(refused_words(rng)).encode()
    return malformed(rng)


def forms_of(rng, lines, with_return, cuts):
    """Pairs of a name and an input: these lines, without the last line end, some with line ends of two bytes, and cut off at random."""
    whole = b'\n'.join(lines) + b'\n'
    yield f'{len(lines)} lines', whole
    yield 'the last line without its line end', whole[:-1]
    yield 'line ends of two bytes', b'\r\n'.join(lines[:with_return]) + b'\r\n'
    for _ in range(cuts):
        cut = rng.randrange(len(whole))
        yield f'cut at byte {cut}', whole[max(0, cut - 100000) : cut]


def stored_in(folder):
    """The stored inputs of a crate, with their names."""
    for name in sorted(os.listdir(folder)):
        with open(os.path.join(folder, name), 'rb') as file:
            yield f'stored input {name}', file.read()


def inputs(rng, count):
    yield from forms_of(rng, [line(rng) for _ in range(count)], 2000, 20)
    yield from stored_in(EDGES)


def compare(program, named_inputs, output_for):
    """Runs the program on every input, and says where its output is not what `output_for` gives; exit code 1 if there is any."""
    compared = lines = 0
    differ = []
    for name, data in named_inputs:
        got = subprocess.run([program], input=data, capture_output=True, check=True).stdout
        compared += 1
        lines += got.count(b'\n')
        if got != output_for(data):
            differ.append(name)
    print(f'{compared} inputs, {lines} output lines compared; {len(differ)} differ')
    for name in differ:
        print(f'differs: {name}')
    sys.exit(1 if differ else 0)


def arguments():
    """The program, how many lines, and a random generator, from the command line."""
    program = os.path.abspath(sys.argv[1])
    count = int(sys.argv[2]) if len(sys.argv) > 2 else 20000
    return program, count, random.Random(int(sys.argv[3]) if len(sys.argv) > 3 else 1)


def main():
    program, count, rng = arguments()
    compare(program, inputs(rng, count), output_for)


if __name__ == '__main__':
    main()
