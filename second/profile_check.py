"""Checks the last two lines that profile gives for a log, by other means than profile.py.

    profile_check.py LOG ANSWERS

It takes from ANSWERS which lines of LOG were accepted, and calculates with fields of its own: octets by powers and
logarithms, inverses by powers. A row is in the profile exactly where the rank of the rows up to it is greater than that
of the rows before it, each rank by an elimination of its own. The run is done again with every x and u solved for anew,
so without any inverse of a matrix. And what the outcome says has to hold: a solved x satisfies all rows, whole means as
many pivots as minutes and no more than the rank, and a contradiction's u makes each column 0 and the sums not.
"""

import sys


class Prime:
    q = 65521

    def add_scaled(self, a, factor, b):
        """a plus factor times b."""
        return [(x + factor * y) % self.q for x, y in zip(a, b)]

    def scale(self, factor, a):
        return [factor * x % self.q for x in a]

    def dot(self, a, b):
        return sum(x * y for x, y in zip(a, b)) % self.q

    def negative(self, a):
        return (self.q - a) % self.q

    def inverse(self, a):
        return pow(a, self.q - 2, self.q)


class Octets:
    q = 256

    def __init__(self):
        powers = [1]
        while len(powers) < 255:
            double = powers[-1] * 2
            powers.append(double ^ 285 if double > 255 else double)
        logs = {power: log for log, power in enumerate(powers)}
        self.products = [
            [powers[(logs[a] + logs[b]) % 255] if a and b else 0 for b in range(256)] for a in range(256)
        ]

    def add_scaled(self, a, factor, b):
        times = self.products[factor]
        return [x ^ times[y] for x, y in zip(a, b)]

    def scale(self, factor, a):
        times = self.products[factor]
        return [times[x] for x in a]

    def dot(self, a, b):
        total = 0
        for x, y in zip(a, b):
            total ^= self.products[x][y]
        return total

    def negative(self, a):
        return a

    def inverse(self, a):
        power = a
        for _ in range(253):  # a to the 254th
            power = self.products[power][a]
        return power


FIELDS = {"P": Prime(), "B": Octets()}


def cleared(field, rows, columns):
    """The rows after an elimination from above and below on the first columns, and how many leads it found."""
    rows = [list(row) for row in rows]
    rank = 0
    for c in range(columns):
        lead = next((i for i in range(rank, len(rows)) if rows[i][c]), None)
        if lead is None:
            continue
        rows[rank], rows[lead] = rows[lead], rows[rank]
        rows[rank] = field.scale(field.inverse(rows[rank][c]), rows[rank])
        for i in range(len(rows)):
            if i != rank and rows[i][c]:
                rows[i] = field.add_scaled(rows[i], field.negative(rows[i][c]), rows[rank])
        rank += 1
    return rows, rank


def rank(field, rows, width):
    return cleared(field, rows, width)[1]


def solve(field, matrix, right):
    """The y with matrix y = right, for a square matrix of full rank."""
    size = len(matrix)
    rows, found = cleared(field, [row + [value] for row, value in zip(matrix, right)], size)
    assert found == size
    return [row[size] for row in rows]


def profile_by_ranks(field, rows, width):
    ranks = [rank(field, rows[:count], width) for count in range(len(rows) + 1)]
    return [i for i in range(len(rows)) if ranks[i + 1] > ranks[i]]


def run_by_solving(field, width, matrix, sums):
    """The words of the run's line."""
    transposed = [[row[c] for row in matrix] for c in range(width)]
    pivots = []
    while True:
        part = [[matrix[p][c] for _, c in pivots] for p, _ in pivots]
        x = [0] * width
        for (_, c), value in zip(pivots, solve(field, part, [sums[p] for p, _ in pivots])):
            x[c] = value
        i = next((i for i, row in enumerate(matrix) if field.dot(row, x) != sums[i]), None)
        if i is None:
            return ["solved", "whole" if len(pivots) == width else "part", len(pivots), 2 * len(pivots) + 1] + x
        u = [0] * len(matrix)
        u[i] = 1
        flipped = [list(column) for column in zip(*part)]
        for (p, _), value in zip(pivots, solve(field, flipped, [field.negative(matrix[i][c]) for _, c in pivots])):
            u[p] = value
        j = next((j for j, column in enumerate(transposed) if field.dot(column, u)), None)
        if j is None:
            return ["contradiction", len(pivots), 2 * len(pivots) + 2] + u
        pivots.append((i, j))


def rows_of(log, answers):
    """The field, the width, the matrix and the sums of the accepted lines; None where no hour was opened."""
    hour = None
    for line, answer in zip(log.split(b"\n"), answers.split(b"\n")):
        words = line.decode("latin-1").split(",")
        if answer.startswith(b"O,ok,"):
            hour = FIELDS[words[1]], int(words[2]), [], []
        elif answer.startswith(b"F,ok,"):
            field, width, matrix, sums = hour
            numbers = [int(word) % field.q for word in words[1:]]
            row = [0] * width
            for minute, weight in zip(words[2::2], numbers[2::2]):
                row[int(minute)] = weight
            matrix.append(row)
            sums.append(numbers[0])
    return hour


def check(log, answers):
    """Says what is wrong, or gives None."""
    lines = log.count(b"\n") + (0 if log.endswith(b"\n") or not log else 1)
    ends = answers.decode().split("\n")[lines:]
    hour = rows_of(log, answers)
    if hour is None:
        return None if ends == [""] else "no hour was opened, but there are lines at the end"
    if len(ends) != 3 or ends[2] != "":
        return "not two lines at the end"
    field, width, matrix, sums = hour

    profile = profile_by_ranks(field, matrix, width)
    if ends[0] != ",".join(map(str, ["profile", len(profile)] + profile)):
        return "the profile by ranks is %s" % profile
    expected = run_by_solving(field, width, matrix, sums)
    if ends[1] != ",".join(map(str, expected)):
        return "the run by solving gives %s" % expected

    kind, *words = ends[1].split(",")
    if kind == "solved":
        pivots, questions, *x = map(int, words[1:])
        if len(x) != width or any(field.dot(row, x) != total for row, total in zip(matrix, sums)):
            return "x does not satisfy all rows"
        if (words[0] == "whole") != (pivots == width) or pivots > len(profile):
            return "whole or part does not fit the pivots or the rank"
        if questions != 2 * pivots + 1:
            return "the number of questions is wrong"
    else:
        pivots, questions, *u = map(int, words)
        if len(u) != len(matrix) or any(field.dot(u, [row[c] for row in matrix]) for c in range(width)):
            return "uA is not 0"
        if field.dot(u, sums) == 0:
            return "u refutes nothing"
        if pivots > len(profile) or questions != 2 * pivots + 2:
            return "the number of pivots or of questions is wrong"
    return None


def main():
    if len(sys.argv) != 3:
        sys.exit(__doc__)
    contents = []
    for path in sys.argv[1:]:
        with open(path, "rb") as file:
            contents.append(file.read())
    wrong = check(*contents)
    if wrong is not None:
        sys.exit(wrong)


if __name__ == "__main__":
    main()
