"""Second implementation of framecheck, written from its rules alone before the program stood, for
comparing outputs. Reads standard input, writes one answer per line."""

import sys

NEWLINE = 10
COMMA = 44
MAX_LINE = 256
MAX_NUMBER = 65535
MAX_TERMS = 16
MAX_MINUTE = 63


def split_lines(data):
    """The lines of the input; byte 10 ends a line and is no part of it."""
    lines = data.split(bytes([NEWLINE]))
    # What follows the last byte 10 is a line only if it has bytes.
    if lines[-1] == b"":
        lines.pop()
    return lines


def split_fields(line):
    """The fields of a line, each with the offset where it begins."""
    fields = []
    start = 0
    for offset, byte in enumerate(line):
        if byte == COMMA:
            fields.append((start, line[start:offset]))
            start = offset + 1
    fields.append((start, line[start:]))
    return fields


def read_number(field):
    """The value of a number field, or None if the field is no number."""
    if field == b"":
        return None
    for byte in field:
        if byte < 48 or byte > 57:
            return None
    if field[0] == 48 and len(field) > 1:
        return None
    value = 0
    for byte in field:
        value = value * 10 + (byte - 48)
        if value > MAX_NUMBER:
            return None
    return value


def check(line):
    """The answer to one line, without its byte 10."""
    # 13: too long, or not a frame line.
    if len(line) > MAX_LINE:
        return b"?,refused,line,13,0"
    fields = split_fields(line)
    if fields[0][1] != b"F":
        return b"?,refused,line,13,0"

    # 14: the number of fields. After F come the sum and then pairs.
    rest = fields[1:]
    if len(rest) == 0 or (len(rest) - 1) % 2 != 0:
        return b"F,refused,line,14,0"

    # 15: every field after F is a number.
    values = []
    for offset, field in rest:
        value = read_number(field)
        if value is None:
            return b"F,refused,line,15,%d" % offset
        values.append(value)

    # 10: the number of terms.
    total = values[0]
    minutes = values[1::2]
    weights = values[2::2]
    if len(minutes) == 0 or len(minutes) > MAX_TERMS:
        return b"F,refused,frame,10,0"

    # 11: minutes within the hour and rising.
    for index, minute in enumerate(minutes):
        if minute > MAX_MINUTE:
            return b"F,refused,frame,11,%d" % index
        if index > 0 and minute <= minutes[index - 1]:
            return b"F,refused,frame,11,%d" % index

    # 12: no weight of 0.
    for index, weight in enumerate(weights):
        if weight == 0:
            return b"F,refused,frame,12,%d" % index

    answer = b"F,%d" % total
    for minute, weight in zip(minutes, weights):
        answer += b",%d,%d" % (minute, weight)
    return answer


def main():
    data = sys.stdin.buffer.read()
    out = sys.stdout.buffer
    for line in split_lines(data):
        out.write(check(line) + bytes([NEWLINE]))
    out.flush()


if __name__ == "__main__":
    main()
