"""Prints a table of sums, products, negatives and inverses in two finite fields.

    fieldtable.py >crates/fieldtable/stdout    from the repository's root

Field P is the integers modulo 65521; field B is the octets of RFC 6330 section 5.7. Each operation takes any 16-bit
words, reads each as its remainder by the field's size, and gives a code. It is written from the rules of the two fields
alone, without tables of logarithms or powers: a product of octets is a long multiplication and a long division, and an
inverse of an octet is searched for.

The lines: for each pair of words one of P and one of B, with the words a and b, then a + b, a * b, -a and 1/a (none
where a has no inverse); then all products of octets, a line for each octet; then a line of the inverses of all octets.
"""

import sys

PRIME = 65521
OCTETS = 256
POLYNOMIAL = 285
EDGES = [0, 1, 2, 3, 128, 255, 256, 257, 511, 512, 32760, 32761, 65279, 65280, 65519, 65520, 65521, 65522, 65535]
PAIRS = 4096


def prime_plus(a, b):
    return (a + b) % PRIME


def prime_times(a, b):
    return a * b % PRIME


def prime_negative(a):
    return -a % PRIME


def prime_inverse(a):
    return None if a % PRIME == 0 else pow(a, -1, PRIME)


def octets_plus(a, b):
    return a % OCTETS ^ b % OCTETS


def octets_times(a, b):
    a, b = a % OCTETS, b % OCTETS
    product = 0
    for place in range(8):
        if b >> place & 1:
            product ^= a << place
    # The product has at most 15 bits and the polynomial has 9.
    for place in range(6, -1, -1):
        if product >> place + 8 & 1:
            product ^= POLYNOMIAL << place
    return product


def octets_negative(a):
    return a % OCTETS


def octets_inverse(a):
    for b in range(OCTETS):
        if octets_times(a, b) == 1:
            return b
    return None


FIELDS = [
    ("P", prime_plus, prime_times, prime_negative, prime_inverse),
    ("B", octets_plus, octets_times, octets_negative, octets_inverse),
]


def pairs():
    for x in EDGES:
        for y in EDGES:
            yield x, y
    state = 1
    for _ in range(PAIRS):
        first = (state * 1664525 + 1013904223) % 2**32
        state = (first * 1664525 + 1013904223) % 2**32
        yield first >> 16, state >> 16


def line(values):
    return ",".join("none" if value is None else str(value) for value in values) + "\n"


def lines():
    for a, b in pairs():
        for name, plus, times, negative, inverse in FIELDS:
            yield line([name, a, b, plus(a, b), times(a, b), negative(a), inverse(a)])
    for a in range(OCTETS):
        yield line(["B", "times", a] + [octets_times(a, b) for b in range(OCTETS)])
    yield line(["B", "inverse"] + [octets_inverse(a) for a in range(OCTETS)])


def main():
    for text in lines():
        sys.stdout.buffer.write(text.encode())


if __name__ == "__main__":
    main()
