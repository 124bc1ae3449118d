#!/usr/bin/env python3
"""Takes the list of FIPS 204's appendix B, powers of 1,753 modulo q, from another implementation: the table zetas_montgomery of OpenSSL,
as compiled into the Python package `cryptography` (48.0.0 has it). Its 256 numbers are those of the list times 2^32 modulo q. Writes
entries 1 to 255, one a line, behind lines that start with '#' and say where they are from.

Usage: python3 outside/take_zetas.py > outside/fips204_zetas.txt
"""
import pathlib
import struct
import sys

Q = 8380417
COUNT = 256
# The first four numbers of the table: 2^32 modulo q, and what the table is known by.
START = (4193792, 25847, 5771523, 7861508)


def package():
    try:
        import cryptography
        from cryptography.hazmat.backends.openssl import backend
    except ImportError as why:
        sys.exit(f"take_zetas.py: the Python package cryptography is needed, and cannot be imported: {why}")
    return cryptography, backend.openssl_version_text()


def table(folder):
    """The numbers of the table, from the one compiled file that has it."""
    start = struct.pack("<%dI" % len(START), *START)
    found = []
    for path in sorted((folder / "hazmat/bindings").glob("_rust*")):
        if path.is_file():
            data = path.read_bytes()
            at = data.find(start)
            while at >= 0:
                found.append(data[at : at + 4 * COUNT])
                at = data.find(start, at + 1)
    if len(set(found)) != 1 or len(found[0]) != 4 * COUNT:
        sys.exit(f"take_zetas.py: {folder} should have one table that begins with {START}; found: {len(set(found))}")
    return struct.unpack("<%dI" % COUNT, found[0])


def main():
    cryptography, openssl = package()
    shrink = pow(2**32, -1, Q)
    numbers = table(pathlib.Path(cryptography.__file__).parent)
    if any(number >= Q for number in numbers):
        sys.exit("take_zetas.py: a number of the table is not below q")
    zetas = [number * shrink % Q for number in numbers]
    if zetas[0] != 1:
        sys.exit("take_zetas.py: the table's first number is not 2^32 modulo q")
    print("# FIPS 204, appendix B: entries 1 to 255 of the list of powers of 1,753 modulo q.")
    print(f"# Taken by take_zetas.py from the table zetas_montgomery of {openssl}")
    print(f"# as compiled into the Python package cryptography {cryptography.__version__}, each entry divided by 2^32 modulo q.")
    for zeta in zetas[1:]:
        print(zeta)


if __name__ == "__main__":
    main()
