"""Second implementation of profile, written from its rules alone before the program stood, for comparing outputs.

    profile.py <LOG    from any folder

Reads a log of one hour from standard input: O,field,width opens it, F,sum,minute,weight,.. is a frame. Writes one
answer per line read. Where an hour was opened, two lines follow: the row rank profile of its frames, and the outcome of
the run with the scan. The matrix is kept whole, and products of octets are those of fieldtable.py, without tables.
"""

import functools
import sys
from collections import namedtuple

import fieldtable
from framecheck import MAX_LINE, MAX_MINUTE, MAX_TERMS, read_number, split_fields, split_lines

MAX_WIDTH = 64
MAX_ROWS = 96

Field = namedtuple("Field", "q plus times negative inverse")

FIELDS = {
    b"P": Field(
        fieldtable.PRIME,
        fieldtable.prime_plus,
        fieldtable.prime_times,
        fieldtable.prime_negative,
        functools.cache(fieldtable.prime_inverse),
    ),
    b"B": Field(
        fieldtable.OCTETS,
        fieldtable.octets_plus,
        functools.cache(fieldtable.octets_times),
        fieldtable.octets_negative,
        functools.cache(fieldtable.octets_inverse),
    ),
}


class Refused(Exception):
    def __init__(self, number, place=0):
        self.number = number
        self.place = place


def layer(number):
    if 13 <= number <= 15:
        return b"line"
    if 10 <= number <= 12:
        return b"frame"
    return b"block"


# Reading lines.


def number_in(offset, field):
    value = read_number(field)
    if value is None:
        raise Refused(15, offset)
    return value


def read_opening(fields):
    """The field and the width of an O line."""
    if len(fields) != 3:
        raise Refused(14)
    offset, name = fields[1]
    if name not in FIELDS:
        raise Refused(15, offset)
    return FIELDS[name], number_in(*fields[2])


def read_frame(fields):
    """The sum and the terms of an F line, each term a minute and a weight."""
    rest = fields[1:]
    if len(rest) % 2 == 0:
        raise Refused(14)
    numbers = [number_in(*field) for field in rest]
    terms = list(zip(numbers[1::2], numbers[2::2]))
    if not 1 <= len(terms) <= MAX_TERMS:
        raise Refused(10)
    before = -1
    for place, (minute, _) in enumerate(terms):
        if minute > MAX_MINUTE or minute <= before:
            raise Refused(11, place)
        before = minute
    for place, (_, weight) in enumerate(terms):
        if weight == 0:
            raise Refused(12, place)
    return numbers[0], terms


class Log:
    """What the lines so far have left: no hour yet, or one with its field, its width, the rows of its matrix and their
    sums, all as codes."""

    def __init__(self):
        self.field = None
        self.width = 0
        self.matrix = []
        self.sums = []

    def open(self, fields):
        if self.field is not None:
            raise Refused(13)
        field, width = read_opening(fields)
        if not 1 <= width <= MAX_WIDTH:
            raise Refused(16)
        self.field, self.width = field, width
        return width

    def take(self, fields):
        if self.field is None:
            raise Refused(13)
        total, terms = read_frame(fields)
        for place, (minute, _) in enumerate(terms):
            if minute >= self.width:
                raise Refused(2, place)
        if len(self.matrix) >= MAX_ROWS:
            raise Refused(5)
        row = [0] * self.width
        for minute, weight in terms:
            row[minute] = weight % self.field.q
        self.matrix.append(row)
        self.sums.append(total % self.field.q)
        return len(self.matrix) - 1

    def answer(self, line):
        """The answer to a line, both without byte 10."""
        letter = b"?"
        try:
            if len(line) > MAX_LINE:
                raise Refused(13)
            fields = split_fields(line)
            if fields[0][1] not in (b"O", b"F"):
                raise Refused(13)
            letter = fields[0][1]
            number = self.open(fields) if letter == b"O" else self.take(fields)
            return b"%s,ok,%d" % (letter, number)
        except Refused as refusal:
            return b"%s,refused,%s,%d,%d" % (letter, layer(refusal.number), refusal.number, refusal.place)


# Vectors.


def dot(field, a, b):
    total = 0
    for x, y in zip(a, b):
        total = field.plus(total, field.times(x, y))
    return total


def scaled(field, factor, vector):
    return [field.times(factor, x) for x in vector]


def added(field, a, b):
    return [field.plus(x, y) for x, y in zip(a, b)]


def negated(field, vector):
    return [field.negative(x) for x in vector]


def first_not_zero(values):
    for place, value in enumerate(values):
        if value != 0:
            return place
    return None


# The row rank profile.


def rank_profile(field, matrix):
    """The numbers of the rows that are no combinations of the rows before them."""
    profile = []
    kept = []  # rows cleared of the leads of those kept before, each with the place of its lead
    for number, row in enumerate(matrix):
        for lead, other in kept:
            row = added(field, row, scaled(field, field.negative(row[lead]), other))
        lead = first_not_zero(row)
        if lead is not None:
            kept.append((lead, scaled(field, field.inverse(row[lead]), row)))
            profile.append(number)
    return profile


# The run.


def row_values(field, matrix, sums, x):
    """b - Ax."""
    return [field.plus(total, field.negative(dot(field, row, x))) for row, total in zip(matrix, sums)]


def column_values(field, matrix, width, u):
    """uA."""
    return [dot(field, u, [row[c] for row in matrix]) for c in range(width)]


def run(field, width, matrix, sums):
    """The outcome of the run with the scan, as the words of its line."""
    rows = []  # P
    columns = []  # Q
    inverse = []  # B, a row for each pivot column and a column for each pivot row
    questions = 0
    while True:
        # 1
        x = [0] * width
        pivot_sums = [sums[p] for p in rows]
        for place, c in enumerate(columns):
            x[c] = dot(field, inverse[place], pivot_sums)
        # 2
        questions += 1
        i = first_not_zero(row_values(field, matrix, sums, x))
        if i is None:
            return ["solved", "whole" if len(rows) == width else "part", len(rows), questions] + x
        # 3
        v = [matrix[i][c] for c in columns]
        vb = [dot(field, v, [row[place] for row in inverse]) for place in range(len(rows))]
        u = [0] * len(matrix)
        u[i] = 1
        for p, value in zip(rows, negated(field, vb)):
            u[p] = value
        # 4
        questions += 1
        j = first_not_zero(column_values(field, matrix, width, u))
        if j is None:
            return ["contradiction", len(rows), questions] + u
        # 5
        a = [matrix[p][j] for p in rows]
        ba = [dot(field, row, a) for row in inverse]
        w = field.inverse(field.plus(matrix[i][j], field.negative(dot(field, vb, a))))
        grown = []
        for row, value in zip(inverse, ba):
            factor = field.times(value, w)
            grown.append(added(field, row, scaled(field, factor, vb)) + [field.negative(factor)])
        grown.append(negated(field, scaled(field, w, vb)) + [w])
        inverse = grown
        rows.append(i)
        columns.append(j)


def answers(data):
    """The whole output for a whole input."""
    log = Log()
    lines = [log.answer(line) for line in split_lines(data)]
    if log.field is not None:
        profile = rank_profile(log.field, log.matrix)
        ends = [["profile", len(profile)] + profile, run(log.field, log.width, log.matrix, log.sums)]
        lines += [",".join(map(str, words)).encode() for words in ends]
    return b"".join(line + b"\n" for line in lines)


def main():
    sys.stdout.buffer.write(answers(sys.stdin.buffer.read()))
    sys.stdout.buffer.flush()


if __name__ == "__main__":
    main()
