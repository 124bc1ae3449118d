#!/usr/bin/env python3
"""A run between the two sides, written from the request's text alone: reads the numbers that the program `transcript` reads, and
writes the lines that it must write."""
import sys

Q = 8380417
ALPHA = (190464, 523776)
PARTS = (44, 16)
BASES = ((16, 16, 24, 31, 45), (16, 32, 31, 33, 17))
TRIPLES = 8
KEYS = 4  # a side
WIDTH = 1 + 2 * KEYS  # numbers of a shared number on one side
HEAD = 5 + 2 * KEYS  # numbers of an input before the shares
MOST = HEAD + 2 * WIDTH * (8 + 1320) + 1  # numbers of an input: one more than the longest has, with both books


class No(Exception):
    """A call's refusal."""


def ask(answer, number):
    if not answer:
        raise No(number)


def digits(set_, y):
    out = []
    for base in BASES[set_]:
        out.append(y % base)
        y //= base
    return out


def top_k(kind, n):
    return 5 if kind == 0 else n


def gap(kind, n):
    return Q // (top_k(kind, n) + 1)


# ---- The dealer

def deal_book(set_, kind, n, take_drawn, take_place):
    """Walks a book in its order: `take_drawn()` gives a drawn number, `take_place(value)` makes one shared number."""
    def drawn():
        value = take_drawn()
        take_place(value)
        return value

    def vector(size, d):
        for j in range(size):
            take_place(1 if j == d else 0)

    def group():
        rho = drawn()
        vector(top_k(kind, n) + 2, rho // gap(kind, n))

    for _ in range(n):
        r = drawn()
        for base, d in zip(BASES[set_], digits(set_, r)):
            vector(base, d)
        for _ in range(TRIPLES):
            a = drawn()
            b = drawn()
            take_place(a * b % Q)
        if kind == 0:
            group()
    if kind == 1:
        group()


def draw_length(set_, kind, n):
    count = [0]

    def take_drawn():
        count[0] += 1
        return 0

    def take_place(_):
        count[0] += WIDTH

    deal_book(set_, kind, n, take_drawn, take_place)
    return count[0]


def book_length(set_, kind, n):
    """The numbers of one side's book."""
    count = [0]

    def take_place(_):
        count[0] += WIDTH

    deal_book(set_, kind, n, lambda: 0, take_place)
    return count[0]


def by_nine(numbers):
    """The numbers of each shared number."""
    return [numbers[i:i + WIDTH] for i in range(0, len(numbers), WIDTH)]


def keys_ok(keys):
    return all(1 <= key < Q for key in keys)


def given_books(set_, kind, n, numbers):
    """Books in place of a draw: both, each a list of shared numbers, where there are exactly as many numbers as two books have; else
    None."""
    if not (set_ < 2 and kind < 2 and 1 <= n <= 8):
        return None
    size = book_length(set_, kind, n)
    if len(numbers) != 2 * size:
        return None
    return by_nine(numbers[:size]), by_nine(numbers[size:])


def whole(value, keys0, keys1):
    """What the two sides' numbers of a shared number add up to."""
    return [value] + [key * value for key in keys0] + [key * value for key in keys1]


def deal(set_, kind, n, keys0, keys1, draw):
    """Both books, each a list of shared numbers."""
    ask(set_ < 2 and kind < 2, 1)
    ask(1 <= n <= 8, 2)
    ask(keys_ok(keys0) and keys_ok(keys1), 4)
    ask(len(draw) == draw_length(set_, kind, n), 5)
    ask(all(x < Q for x in draw), 6)
    it = iter(draw)
    server, phone = [], []

    def take_place(value):
        own = [next(it) for _ in range(WIDTH)]
        phone.append(own)
        server.append([(w - o) % Q for w, o in zip(whole(value, keys0, keys1), own)])

    deal_book(set_, kind, n, lambda: next(it), take_place)
    return server, phone


# ---- Shared numbers on one side: vectors of nine

def plus(*vs):
    return [sum(c) % Q for c in zip(*vs)]


def minus(u, v):
    return [(a - b) % Q for a, b in zip(u, v)]


def times(k, v):
    return [k * a % Q for a in v]


ZERO = [0] * WIDTH


def part(v, side, i):
    """The part under key i of a side."""
    return v[1 + side * KEYS + i]


class Side:
    def __init__(self):
        self.run = False      # has a run begun?
        self.stopped = False
        self.finished = False
        self.serial = 0
        self.accepted = 0

    # -- begin

    def begin(self, number, set_, kind, n, bound, keys, serial, inputs, book):
        ask(set_ < 2 and kind < 2, 1)
        ask(1 <= n <= 8, 2)
        ask(bound == 0 if kind == 0 else 1 <= bound <= 4190208, 3)
        ask(keys_ok(keys), 4)
        ask(len(inputs) == WIDTH * n, 5)
        ask(all(x < Q for x in inputs) and all(x < Q for place in book for x in place), 6)
        ask(serial > self.serial, 7)
        self.number, self.set, self.kind, self.n, self.bound = number, set_, kind, n, bound
        self.keys, self.serial = keys, serial
        self.run, self.round, self.sending = True, 1, number == 0
        self.accepted = 0
        self.inputs = by_nine(inputs)
        self.read_book(book)

    def read_book(self, book):
        it = iter(book)
        self.coefficients = []

        def group():
            return next(it), [next(it) for _ in range(top_k(self.kind, self.n) + 2)]

        for _ in range(self.n):
            co = {'r': next(it)}
            co['vectors'] = [[next(it) for _ in range(base)] for base in BASES[self.set]]
            co['triples'] = [[next(it) for _ in range(3)] for _ in range(TRIPLES)]
            if self.kind == 0:
                co['group'] = group()
            self.coefficients.append(co)
        if self.kind == 1:
            self.group = group()

    # -- public numbers

    def public(self, k):
        """What a public k is on this side: the server's share, and own key x k under each own key."""
        none = [0] * KEYS
        own = [key * k % Q for key in self.keys]
        return [k % Q] + own + none if self.number == 0 else [0] + none + own

    # -- products

    def factors(self, j):
        """The two products of coefficient j in rounds 2 to 5: (base, u, v, triple)."""
        i = self.round - 1
        co = self.coefficients[j]
        vec = co['vectors'][i]
        base = BASES[self.set][i]
        s = PARTS[self.set]
        out = []
        if self.kind == 0:
            d = digits(self.set, self.y[j])[i]

            def weigh(f):
                return plus(ZERO, *(times(f(m), e) for m, e in enumerate(vec)))

            if i < 4:
                forms = (lambda y: weigh(lambda m: 1 if m + y >= base else 0),
                         lambda y: weigh(lambda m: 1 if (m + y) % base == 0 else 0))
            else:
                forms = (lambda y: weigh(lambda m: m + y if m + y < s else m + y - s),
                         lambda y: weigh(lambda m: 1 if m + y > s else 0))
            for k, form in enumerate(forms):
                without, with_carry = form(d), form(d + 1)
                out.append((without, self.carry[j], minus(with_carry, without), co['triples'][2 * (i - 1) + k]))
        else:
            for k in (0, 1):
                d = digits(self.set, self.threshold(j, k))[i]
                below = plus(ZERO, *vec[:d])
                so_far = (self.hi, self.lo)[k][j]
                out.append((below, vec[d], so_far, co['triples'][2 * (i - 1) + k]))
        return out

    def threshold(self, j, k):
        return ((2 * self.bound - 1 if k == 0 else 0) - self.y[j]) % Q

    # -- this side's numbers for the round's openings

    def own(self):
        out = []
        if self.round == 1:
            add = ALPHA[self.set] // 2 - 1 if self.kind == 0 else self.bound - 1
            for w, co in zip(self.inputs, self.coefficients):
                out.append(minus(plus(w, self.public(add)), co['r']))
        elif self.round <= 5:
            for j in range(self.n):
                for _, u, v, (a, b, _) in self.factors(j):
                    out.append(minus(u, a))
                    out.append(minus(v, b))
        elif self.round == 6:
            g = gap(self.kind, self.n)
            if self.kind == 0:
                for j, co in enumerate(self.coefficients):
                    out.append(plus(co['group'][0], times(g, minus(self.public(5), self.zeros[j]))))
            else:
                inside = ZERO
                for j in range(self.n):
                    one = 1 if self.threshold(j, 0) < self.threshold(j, 1) else 0
                    inside = plus(inside, minus(self.hi[j], self.lo[j]), self.public(one))
                out.append(plus(self.group[0], times(g, minus(self.public(self.n), inside))))
        else:
            out = list(self.last)
        return out

    # -- messages

    def header(self, sender):
        bits = ''
        for value, width in ((sender, 1), (self.set, 1), (self.kind, 1), (self.n - 1, 3), (self.round, 3),
                             (self.bound, 23), (self.serial, 32)):
            bits += format(value, '0%db' % width)
        return bits

    def send(self):
        ask(self.run and not self.stopped and not self.finished and self.sending, 8)
        bits = self.header(self.number)
        # the phone's numbers for a round are those it checked the server's with
        for v in self.own() if self.number == 0 else self.checked_with:
            bits += format(v[0], '023b') + ''.join(format(part(v, 1 - self.number, i), '023b') for i in range(KEYS))
        bits += '0' * (-len(bits) % 8)
        self.sending = False
        if self.number == 1:
            if self.round == 7:
                self.finished = True
            else:
                self.round += 1
        return bytes(int(bits[i:i + 8], 2) for i in range(0, len(bits), 8))

    def take(self, message):
        ask(self.run and not self.stopped and not self.finished and not self.sending, 8)
        own = self.own()
        count = (1 + KEYS) * len(own)
        need = 64 + 23 * count
        ask(len(message) == (need + 7) // 8, 10)
        bits = ''.join(format(b, '08b') for b in message)
        ask(bits[:64] == self.header(1 - self.number), 11)
        fields = [int(bits[64 + 23 * i:64 + 23 * i + 23], 2) for i in range(count)]
        ask(all(f < Q for f in fields) and '1' not in bits[need:], 12)
        opened = []
        for o, v in enumerate(own):
            share, *parts = fields[(1 + KEYS) * o:(1 + KEYS) * (o + 1)]
            x = (v[0] + share) % Q
            if any((part(v, self.number, i) + parts[i]) % Q != self.keys[i] * x % Q for i in range(KEYS)):
                self.stopped = True
                raise No(13)
            opened.append(x)
        self.checked_with = own
        self.absorb(opened)
        self.accepted += len(own)
        self.sending = True
        if self.number == 0:
            if self.round == 7:
                self.finished = True
            else:
                self.round += 1

    # -- what the opened numbers do

    def absorb(self, opened):
        if self.round == 1:
            self.y = opened
            if self.kind == 0:
                base = BASES[self.set][0]
                self.carry, self.zeros = [], []
                for y, co in zip(opened, self.coefficients):
                    d = digits(self.set, y)[0]
                    vec = co['vectors'][0]
                    self.carry.append(plus(ZERO, *(e for m, e in enumerate(vec) if m + d >= base)))
                    self.zeros.append(plus(ZERO, *(e for m, e in enumerate(vec) if (m + d) % base == 0)))
            else:
                self.hi, self.lo = [], []
                for j, co in enumerate(self.coefficients):
                    for k, list_ in enumerate((self.hi, self.lo)):
                        d = digits(self.set, self.threshold(j, k))[0]
                        list_.append(plus(ZERO, *co['vectors'][0][:d]))
        elif self.round <= 5:
            results = []
            for j in range(self.n):
                for k, (base, u, v, (_, _, c)) in enumerate(self.factors(j)):
                    e, f = opened[4 * j + 2 * k], opened[4 * j + 2 * k + 1]
                    results.append(plus(base, times(e, v), times(f, u), c, self.public(-e * f)))
            for j in range(self.n):
                first, second = results[2 * j], results[2 * j + 1]
                if self.kind == 0:
                    self.carry[j] = first
                    self.zeros[j] = plus(self.zeros[j], second)
                else:
                    self.hi[j], self.lo[j] = first, second
        elif self.round == 6:
            g = gap(self.kind, self.n)
            if self.kind == 0:
                self.last = [minus(self.carry[j], co['group'][1][opened[j] // g])
                             for j, co in enumerate(self.coefficients)]
            else:
                self.last = [self.group[1][opened[0] // g]]
        else:
            self.result = opened

    def answer(self):
        ask(self.finished, 8)
        limit = PARTS[self.set] if self.kind == 0 else 2
        ask(all(x < limit for x in self.result), 15)
        return self.result


# ---- The program

def parse(data):
    """The numbers, or None if the input has not the form."""
    if any(b not in b'0123456789 \n' for b in data):
        return None
    words = data.replace(b'\n', b' ').split(b' ')
    words = [w for w in words if w]
    if not HEAD <= len(words) <= MOST:
        return None
    if any(len(w) > 10 or int(w) > 2**32 - 1 for w in words):
        return None
    return [int(w) for w in words]


def transcript(numbers):
    set_, kind, n, bound, serial = numbers[:5]
    keys = numbers[5:5 + KEYS], numbers[5 + KEYS:HEAD]
    size = WIDTH * n if n <= 8 else 0
    rest = numbers[HEAD:]
    inputs = rest[:size], rest[size:2 * size]
    sides = Side(), Side()
    lines = []
    call, who = 'deal', '-'
    try:
        books = given_books(set_, kind, n, rest[2 * size:])
        if books is None:
            books = deal(set_, kind, n, *keys, rest[2 * size:])
        call = 'begin'
        for who in (0, 1):
            sides[who].begin(who, set_, kind, n, bound, keys[who], serial, inputs[who], books[who])
        for round_ in range(1, 8):
            for sender in (0, 1):
                call, who = 'send', sender
                message = sides[sender].send()
                lines.append('%d %d %s' % (sender, round_, message.hex()))
                call, who = 'take', 1 - sender
                sides[1 - sender].take(message)
        lines += [answer_line(who, sides[who]) for who in (0, 1)]
    except No as no:
        lines.append('refused %s %s %d' % (call, who, no.args[0]))
    for who in (0, 1):
        lines.append('openings %d %d' % (who, sides[who].accepted))
    return lines


def answer_line(who, side):
    """A side's answer, or its refusal."""
    try:
        return 'answer %d %s' % (who, ' '.join(map(str, side.answer())))
    except No as no:
        return 'refused answer %d %d' % (who, no.args[0])


def output(data):
    numbers = parse(data)
    lines = ['malformed'] if numbers is None else transcript(numbers)
    return ''.join(line + '\n' for line in lines).encode()


if __name__ == '__main__':
    sys.stdout.buffer.write(output(sys.stdin.buffer.read()))
