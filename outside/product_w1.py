#!/usr/bin/env python3
"""product_w1.py [HOW MANY]: w = A y of ML-DSA-44 signatures, multiplied on shares and rounded by runs, is what the signatures were made with.

A key is made from a seed, and OpenSSL signs, through the Python package `cryptography` (version 47 or newer); where that package or its
ML-DSA is missing, mldsa_sign.py signs. From the seed come the matrix and the secret s1, from the signature c~ and z, and y is z - c s1. Each
polynomial of y is shared: nine rows a side. Both sides multiply each of their rows by the polynomials of the matrix with ring_product, and
with ring_product_transformed by the matrix as it is sampled, and add up. The shares of w, eight coefficients a time, are the inputs of runs
of the program `transcript`, whose answers are w1. The signature's c~ must be the hash of mu and w1.

Two signatures where no count is given. All but what OpenSSL draws is the same in every run. Exit code 1 where anything differs. Needs the
library and the program: rt lib in crates/phone, rt run in crates/transcript.
"""
import random
import subprocess
import sys

import transcript
from mldsa_sign import KINDS, LIB, Q, ROOT, SIZE, h, inverse_ntt, ntt, pack, ring
from transcript import KEYS

PROGRAM = ROOT / 'crates/transcript/out/transcript'
ML_DSA = KINDS['ML-DSA-44']
# The runs: set, kind HIGH, coefficients, bound.
SETTINGS = (ML_DSA.set, 0, 8, 0)
TOGETHER = SETTINGS[2]
DRAW = transcript.draw_length(*SETTINGS[:3])


def fail(why):
    sys.exit('product_w1.py: ' + why)


# ---- A signature

def own_signer(seed, message):
    public, secret = ML_DSA.keys(seed)
    return public, ML_DSA.sign(secret, message)


def signer():
    """Who signs, and the function from a seed and a message to the public key and the signature."""
    own = 'mldsa_sign.py, as the Python package cryptography with ML-DSA is not here', own_signer
    try:
        import cryptography
        from cryptography.exceptions import UnsupportedAlgorithm
        from cryptography.hazmat.backends.openssl import backend
        from cryptography.hazmat.primitives.asymmetric import mldsa
    except ImportError:
        return own

    def openssl_signer(seed, message):
        key = mldsa.MLDSA44PrivateKey.from_seed_bytes(seed)
        return key.public_key().public_bytes_raw(), key.sign(message)

    try:
        openssl_signer(bytes(32), b'')
    except UnsupportedAlgorithm:
        return own
    return '%s (Python package cryptography %s)' % (backend.openssl_version_text(), cryptography.__version__), openssl_signer


def unpack(data, bits):
    number = int.from_bytes(data, 'little')
    return [number >> (bits * i) & ((1 << bits) - 1) for i in range(SIZE)]


def taken_apart(signature):
    """c~ and z, centred."""
    bits, start = ML_DSA.gamma1.bit_length(), ML_DSA.strength // 4
    length = SIZE * bits // 8
    parts = [signature[start + length * j:start + length * (j + 1)] for j in range(ML_DSA.l)]
    return signature[:start], [[ML_DSA.gamma1 - x for x in unpack(part, bits)] for part in parts]


def modulo(poly):
    return [x % Q for x in poly]


def mask(challenge, z, s1):
    """y = z - c s1, modulo q."""
    c = ntt(modulo(ML_DSA.ball(challenge)))
    out = []
    for zs, s in zip(z, s1):
        product = inverse_ntt([a * b % Q for a, b in zip(c, ntt(modulo(s)))])
        out.append([(a - b) % Q for a, b in zip(zs, product)])
    return out


# ---- Both sides

def shared(rng, factors, poly):
    """Both sides' rows: any numbers for the server; for the phone what is missing to the secret and to each key times it."""
    server = [[rng.randrange(Q) for _ in poly] for _ in factors]
    phone = [[(factor * x - own) % Q for x, own in zip(poly, row)] for factor, row in zip(factors, server)]
    return server, phone


def times(call, public, shares):
    """A side's rows of the sum of products: public polynomials, and the rows of as many shared ones."""
    total = [[0] * SIZE for _ in shares[0]]
    for poly, rows in zip(public, shares):
        for sums, row in zip(total, rows):
            sums[:] = [(a + b) % Q for a, b in zip(sums, ring(call, poly, row))]
    return total


def answers(rng, keys, serial, inputs):
    """The high parts that a run of both sides gives."""
    draw = [rng.randrange(Q) for _ in range(DRAW)]
    numbers = [*SETTINGS, serial, *keys[0], *keys[1], *inputs[0], *inputs[1], *draw]
    done = subprocess.run([PROGRAM], input=' '.join(map(str, numbers)).encode(), stdout=subprocess.PIPE)
    lines = [line.split() for line in done.stdout.decode().splitlines()]
    found = {line[1]: [int(word) for word in line[2:]] for line in lines if line[0] == 'answer'}
    if set(found) != {'0', '1'} or found['0'] != found['1']:
        fail('run %d did not finish with one answer on both sides: %s' % (serial, [line for line in lines if len(line) != 3]))
    return found['0']


def high_parts(rng, keys, first, sides):
    """w1 of one polynomial from both sides' rows, by runs whose serials go on from the first."""
    out = []
    for run, start in enumerate(range(0, SIZE, TOGETHER)):
        inputs = [[row[n] for n in range(start, start + TOGETHER) for row in rows] for rows in sides]
        out += answers(rng, keys, first + run, inputs)
    return out


# ---- One signature

def check(rng, sign):
    """Makes a signature and does all that the head of this file says. How many runs were made?"""
    seed, message = rng.randbytes(32), rng.randbytes(40)
    public, signature = sign(seed, message)
    ours, (rho, _, _, s1, _, _) = ML_DSA.keys(seed)
    if ours != public:
        fail('the public key of the seed is not that of the signer')
    challenge, z = taken_apart(signature)
    y = mask(challenge, z, s1)

    keys = [[rng.randrange(1, Q) for _ in range(KEYS)] for _ in (0, 1)]
    factors = transcript.whole(1, *keys)
    shares = [shared(rng, factors, poly) for poly in y]
    sampled = ML_DSA.matrix(rho)
    w = ML_DSA.times(sampled, [ntt(poly) for poly in y])
    w1, runs = [], 0
    for row, plain in zip(sampled, w):
        polynomials = [inverse_ntt(poly) for poly in row]
        if [ring(LIB.ring_transform, poly) for poly in polynomials] != row:
            fail('ring_transform does not lead back to the sampled matrix')
        sides = []
        for side in (0, 1):
            own = [both[side] for both in shares]
            sides.append(times(LIB.ring_product, polynomials, own))
            if times(LIB.ring_product_transformed, row, own) != sides[side]:
                fail('ring_product and ring_product_transformed differ')
        for factor, server, phone in zip(factors, *sides):
            if [(a + b) % Q for a, b in zip(server, phone)] != [factor * x % Q for x in plain]:
                fail('the shares of w, or the parts of it under a key, do not join')
        w1.append(high_parts(rng, keys, runs + 1, sides))
        runs += SIZE // TOGETHER

    mu = h(h(public, 64) + b'\0\0' + message, 64)
    bits = (transcript.PARTS[ML_DSA.set] - 1).bit_length()
    if h(mu + b''.join(pack(poly, bits) for poly in w1), len(challenge)) != challenge:
        fail('w1 from the runs is not that of the signature')
    return runs


def main(args):
    count = int(args[0]) if args else 2
    if not PROGRAM.exists():
        fail('build the program first: rt run in crates/transcript')
    rng = random.Random(44)
    name, sign = signer()
    runs = sum(check(rng, sign) for _ in range(count))
    print('%d signatures of ML-DSA-44 made by %s: w from products on shares, w1 equal in all, from %d runs' % (count, name, runs))


if __name__ == '__main__':
    main(sys.argv[1:])
