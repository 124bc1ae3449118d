#!/usr/bin/env python3
"""Signs with ML-DSA-44, -65 and -87, all rounding done by the phone's library, and has the signatures verified elsewhere.

FIPS 204 key generation and signing in plain Python; Decompose is `high_and_low` of libphone.
The verifier is OpenSSL, through the Python package `cryptography` (version 47 or newer), which nothing else here needs: other programs
beside this one take the library and the signer from it.

Usage: outside/mldsa_sign.py [HOW MANY]      (after `rt lib` in crates/phone)
"""
import ctypes
import hashlib
import os
import pathlib
import subprocess
import sys
import tempfile

Q, D = 8380417, 13
SIZE = 256
ROOT = pathlib.Path(__file__).resolve().parent.parent


class PartsCode(ctypes.Structure):
    """High and low part, each as the call for it alone gives it."""

    _fields_ = [("high", ctypes.c_int64), ("low", ctypes.c_int64)]


def load():
    """The static library as a shared one."""
    archive = ROOT / "crates/phone/out/libphone.a"
    if not archive.exists():
        sys.exit("build the library first: rt lib in crates/phone")
    with tempfile.TemporaryDirectory() as folder:
        shared = pathlib.Path(folder) / "libphone.so"
        subprocess.run(["cc", "-shared", "-o", shared, "-Wl,--whole-archive", archive, "-Wl,--no-whole-archive"], check=True)
        lib = ctypes.CDLL(str(shared))
    lib.high_and_low.argtypes, lib.high_and_low.restype = [ctypes.c_uint32, ctypes.c_uint32], PartsCode
    for call, slices in ((lib.ring_product, 3), (lib.ring_transform, 2), (lib.ring_product_transformed, 3)):
        call.argtypes, call.restype = [ctypes.POINTER(ctypes.c_uint32), ctypes.c_size_t] * slices, ctypes.c_uint32
    return lib


LIB = load()


def ring(call, *rows):
    """What one of the library's ring calls writes of these rows of 256 numbers."""
    slices = [(ctypes.c_uint32 * len(row))(*row) for row in rows] + [(ctypes.c_uint32 * SIZE)()]
    refusal = call(*(word for numbers in slices for word in (numbers, len(numbers))))
    if refusal != 0:
        sys.exit(f"{call.__name__} refused with {refusal}")
    return list(slices[-1])


def reverse8(i):
    return int(f"{i:08b}"[::-1], 2)


ZETAS = [pow(1753, reverse8(i), Q) for i in range(256)]


def ntt(f):
    w, m, length = list(f), 0, 128
    while length >= 1:
        for start in range(0, 256, 2 * length):
            m += 1
            for j in range(start, start + length):
                t = ZETAS[m] * w[j + length] % Q
                w[j + length], w[j] = (w[j] - t) % Q, (w[j] + t) % Q
        length //= 2
    return w


def inverse_ntt(f):
    w, m, length = list(f), 256, 1
    while length < 256:
        for start in range(0, 256, 2 * length):
            m -= 1
            for j in range(start, start + length):
                t = w[j]
                w[j], w[j + length] = (t + w[j + length]) % Q, -ZETAS[m] * (t - w[j + length]) % Q
        length *= 2
    return [x * 8347681 % Q for x in w]


def h(data, size):
    return hashlib.shake_256(data).digest(size)


def pack(values, bits):
    number = 0
    for i, v in enumerate(values):
        number |= v << (bits * i)
    return number.to_bytes(len(values) * bits // 8, "little")


class Parameters:
    def __init__(self, rows, columns, eta, tau, gamma1, half_step, omega, strength, rounding_set, public):
        self.k, self.l, self.eta, self.tau, self.gamma1, self.gamma2 = rows, columns, eta, tau, gamma1, half_step
        self.omega, self.strength, self.set, self.public = omega, strength, rounding_set, public
        self.beta = tau * eta

    # ---- rounding, by the library

    def decompose(self, r):
        parts = LIB.high_and_low(self.set, r)
        assert 0 <= parts.high < 2**32 and abs(parts.low) < 2**32, (parts.high, parts.low)
        return parts.high, parts.low

    # ---- sampling

    def matrix(self, rho):
        return [[self.uniform(rho + bytes([s, r])) for s in range(self.l)] for r in range(self.k)]

    @staticmethod
    def uniform(seed):
        stream, out, at = hashlib.shake_128(seed).digest(2048), [], 0
        while len(out) < 256:
            z = int.from_bytes(stream[at : at + 3], "little") & 0x7FFFFF
            at += 3
            if z < Q:
                out.append(z)
        return out

    def small(self, seed):
        stream, out, at = h(seed, 1024), [], 0
        while len(out) < 256:
            for z in (stream[at] & 15, stream[at] >> 4):
                if self.eta == 2 and z < 15:
                    out.append(2 - z % 5)
                elif self.eta == 4 and z < 9:
                    out.append(4 - z)
            at += 1
        return out[:256]

    def mask(self, seed, nonce):
        bits = self.gamma1.bit_length()
        result = []
        for r in range(self.l):
            number = int.from_bytes(h(seed + (nonce + r).to_bytes(2, "little"), 32 * bits), "little")
            result.append([self.gamma1 - (number >> (bits * i) & ((1 << bits) - 1)) for i in range(256)])
        return result

    def ball(self, seed):
        stream = h(seed, 1024)
        signs, at, c = int.from_bytes(stream[:8], "little"), 8, [0] * 256
        for i in range(256 - self.tau, 256):
            while stream[at] > i:
                at += 1
            j = stream[at]
            at += 1
            c[i], c[j] = c[j], 1 - 2 * (signs & 1)
            signs >>= 1
        return c

    # ---- keys and signatures

    def times(self, matrix, vector):
        out = []
        for row in matrix:
            total = [0] * 256
            for a, b in zip(row, vector):
                total = [(t + x * y) % Q for t, x, y in zip(total, a, b)]
            out.append(inverse_ntt(total))
        return out

    def keys(self, seed):
        stretched = h(seed + bytes([self.k, self.l]), 128)
        rho, rho_prime, key = stretched[:32], stretched[32:96], stretched[96:]
        s1 = [self.small(rho_prime + r.to_bytes(2, "little")) for r in range(self.l)]
        s2 = [self.small(rho_prime + (r + self.l).to_bytes(2, "little")) for r in range(self.k)]
        t = self.times(self.matrix(rho), [ntt([x % Q for x in s]) for s in s1])
        t = [[(a + b) % Q for a, b in zip(x, y)] for x, y in zip(t, s2)]
        t0 = [[centred(x % 2**D, 2**D) for x in poly] for poly in t]
        t1 = [[(x - y) >> D for x, y in zip(a, b)] for a, b in zip(t, t0)]
        public = rho + b"".join(pack(poly, 10) for poly in t1)
        return public, (rho, key, h(public, 64), s1, s2, t0)

    def sign(self, secret, message):
        rho, key, tr, s1, s2, t0 = secret
        matrix = self.matrix(rho)
        hats = [[ntt([x % Q for x in poly]) for poly in v] for v in (s1, s2, t0)]
        mu = h(tr + b"\0\0" + message, 64)
        seed, nonce = h(key + os.urandom(32) + mu, 64), 0
        while True:
            y = self.mask(seed, nonce)
            nonce += self.l
            w = self.times(matrix, [ntt([x % Q for x in poly]) for poly in y])
            w1 = [[self.decompose(x)[0] for x in poly] for poly in w]
            bits = ((Q - 1) // (2 * self.gamma2) - 1).bit_length()
            challenge = h(mu + b"".join(pack(poly, bits) for poly in w1), self.strength // 4)
            c = ntt([x % Q for x in self.ball(challenge)])
            cs1, cs2, ct0 = [[inverse_ntt([a * b % Q for a, b in zip(c, poly)]) for poly in v] for v in hats]
            z = [[centred((a + b) % Q, Q) for a, b in zip(p, r)] for p, r in zip(y, cs1)]
            rest = [[(a - b) % Q for a, b in zip(p, r)] for p, r in zip(w, cs2)]
            parts = [[self.decompose(x) for x in poly] for poly in rest]
            if size(z) >= self.gamma1 - self.beta or size([[low for _, low in poly] for poly in parts]) >= self.gamma2 - self.beta:
                continue
            if size([[centred(x, Q) for x in poly] for poly in ct0]) >= self.gamma2:
                continue
            hinted = [[self.decompose((a + b) % Q) for a, b in zip(p, r)] for p, r in zip(rest, ct0)]
            hint = [[int(a != b) for (a, _), (b, _) in zip(p, r)] for p, r in zip(parts, hinted)]
            if sum(map(sum, hint)) > self.omega:
                continue
            zs = b"".join(pack([self.gamma1 - x for x in poly], self.gamma1.bit_length()) for poly in z)
            return challenge + zs + self.pack_hint(hint)

    def pack_hint(self, hint):
        out, at = bytearray(self.omega + self.k), 0
        for i, poly in enumerate(hint):
            for j, bit in enumerate(poly):
                if bit:
                    out[at] = j
                    at += 1
            out[self.omega + i] = at
        return bytes(out)


def centred(x, m):
    return x if x <= m // 2 else x - m


def size(vector):
    return max(abs(x) for poly in vector for x in poly)


KINDS = {
    "ML-DSA-44": Parameters(4, 4, 2, 39, 2**17, (Q - 1) // 88, 80, 128, 0, "MLDSA44PublicKey"),
    "ML-DSA-65": Parameters(6, 5, 4, 49, 2**19, (Q - 1) // 32, 55, 192, 1, "MLDSA65PublicKey"),
    "ML-DSA-87": Parameters(8, 7, 2, 60, 2**19, (Q - 1) // 32, 75, 256, 1, "MLDSA87PublicKey"),
}


def main():
    from cryptography.exceptions import InvalidSignature
    from cryptography.hazmat.primitives.asymmetric import mldsa

    count = int(sys.argv[1]) if len(sys.argv) > 1 else 3
    for name, p in KINDS.items():
        for i in range(count):
            public, secret = p.keys(os.urandom(32))
            message = os.urandom(40)
            signature = p.sign(secret, message)
            verifier = getattr(mldsa, p.public).from_public_bytes(public)
            verifier.verify(signature, message)
            try:
                verifier.verify(signature, message + b"!")
            except InvalidSignature:
                continue
            sys.exit(f"{name}: a signature of another message was accepted")
        print(f"{name}: {count} signatures verified")


if __name__ == "__main__":
    main()
