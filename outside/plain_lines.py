#!/usr/bin/env python3
"""What the line program has to write, from the plain meaning alone: no shares, no rounds.

output_for(bytes) -> bytes answers one input. As a program: the inputs in the named files, one
after another, or standard input.
"""
import sys

Q = 8380417
ALPHA = (190464, 523776)  # 2 * gamma2 of FIPS 204: (q - 1) / 44 and (q - 1) / 16
LONGEST = 1024  # the most bytes of a line, without its line end
LAST = 2**32 - 1  # the largest number that is read, and the last serial


def decompose(r, alpha):
    """FIPS 204, Decompose: high and low part."""
    r %= Q
    low = r % alpha
    if low > alpha // 2:
        low -= alpha
    if r - low == Q - 1:
        return 0, low - 1
    return (r - low) // alpha, low


def centred(r):
    return r if r <= (Q - 1) // 2 else r - Q


def number_in(word):
    """An unsigned decimal of 1 to 10 digits, at most 2^32 - 1; None for any other word."""
    if not 1 <= len(word) <= 10 or any(b not in b"0123456789" for b in word):
        return None
    value = int(word)
    return value if value <= LAST else None


def order_in(line):
    """Kind, set, B and the coefficients that a line asks for; None where it is malformed."""
    if len(line) > LONGEST:
        return None
    words = line.split(b" ")
    if len(words) < 3 or words[0] not in (b"H", b"B"):
        return None
    numbers = [0 if words[1] == b"-" else number_in(words[1])]
    numbers += [number_in(w) for w in words[2:]]
    if None in numbers:
        return None
    return words[0] == b"B", numbers[0], numbers[1], numbers[2:]


def refusal(bound_kind, number_set, bound, coefficients):
    """The first no: the deal asks 1 and 2, then the begin asks 3 and 6. 0 where there is none."""
    if number_set > 1:
        return 1
    if not 1 <= len(coefficients) <= 8:
        return 2
    if not (1 <= bound <= (Q - 1) // 2 if bound_kind else bound == 0):
        return 3
    if any(c >= Q for c in coefficients):
        return 6
    return 0


def answer(number, line):
    """What stands behind the line number."""
    order = order_in(line) if number <= LAST else None
    if order is None:
        return "!12"
    no = refusal(*order)
    if no:
        return f"!{no}"
    bound_kind, number_set, bound, coefficients = order
    if bound_kind:
        return str(int(all(abs(centred(c)) < bound for c in coefficients)))
    return " ".join(str(decompose(c, ALPHA[number_set])[0]) for c in coefficients)


def lines_of(data):
    """The lines without their line ends; the last line may lack its own."""
    lines = data.split(b"\n")
    if lines[-1] == b"":
        lines.pop()
    return lines


def output_for(data):
    """The whole output for an input."""
    lines = lines_of(data)
    return "".join(f"{k} {answer(k, line)}\n" for k, line in enumerate(lines, 1)).encode()


def answer_inputs(answer_input):
    """Writes what a function of an input's bytes gives: for the named files, one after another, or for standard input."""
    if len(sys.argv) < 2:
        sys.stdout.buffer.write(answer_input(sys.stdin.buffer.read()))
        return
    for name in sys.argv[1:]:
        with open(name, "rb") as file:
            sys.stdout.buffer.write(answer_input(file.read()))


if __name__ == "__main__":
    answer_inputs(output_for)
