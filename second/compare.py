"""Compares the built framecheck with second/framecheck.py on lines made at random.

    compare.py [LINES [SEED]]    from the repository's root, once crates/framecheck/out/framecheck is built

A line is a frame's line, often with some bytes changed, removed, doubled or added, and now and then any bytes at all or
a line longer than a line may be. Input is given in one piece and through a pipe in small pieces.
"""

import random
import subprocess
import sys

PROGRAM = "crates/framecheck/out/framecheck"
SECOND = [sys.executable, "second/framecheck.py"]
LIKELY = b"0123456789,,,,FF-+ \r\x00\xff65536"


def frame_line(rng):
    count = rng.choice([0, 1, 1, 2, 3, 5, 8, 15, 16, 16, 17, 30])
    numbers = [rng.randrange(65536)]
    minutes = sorted(rng.sample(range(66), count))
    for minute in minutes:
        numbers += [minute, rng.choice([0, 1, 9, 10, 65535, rng.randrange(65536)])]
    return b"F," + b",".join(b"%d" % n for n in numbers)


def damaged(rng, line):
    line = bytearray(line)
    for _ in range(rng.choice([0, 0, 1, 1, 2, 4])):
        at = rng.randrange(len(line) + 1)
        kind = rng.randrange(4)
        if kind == 0:
            line[at:at] = bytes([rng.choice(LIKELY)])
        elif kind == 1:
            line[at : at + 1] = bytes([rng.choice(LIKELY)])
        elif kind == 2:
            del line[at : at + 1]
        else:
            line[at:at] = line[at : at + rng.randrange(9)]
    return bytes(line)


def any_line(rng):
    pick = rng.randrange(100)
    if pick == 0:
        return bytes(rng.randrange(256) for _ in range(rng.randrange(300)))
    if pick == 1:
        return (frame_line(rng) + b",1,1" * 80)[: rng.choice([254, 255, 256, 257, 258])]
    if pick == 2:
        return b""
    return damaged(rng, frame_line(rng))


def answers(command, data):
    return subprocess.run(command, input=data, stdout=subprocess.PIPE, check=True).stdout


def in_pieces(data, size):
    process = subprocess.Popen([PROGRAM], stdin=subprocess.PIPE, stdout=subprocess.PIPE)
    for at in range(0, len(data), size):
        process.stdin.write(data[at : at + size])
        process.stdin.flush()
    return process.communicate()[0]


def main():
    words = [int(word) for word in sys.argv[1:]]
    count = words[0] if words else 100000
    rng = random.Random(words[1] if len(words) > 1 else 1)
    data = b"\n".join(any_line(rng) for _ in range(count))
    expected = answers(SECOND, data)
    small = data[:20000]
    if answers([PROGRAM], data) != expected or in_pieces(small, 7) != answers(SECOND, small):
        sys.exit("they differ")
    for whole in (b"", b"\n", b"\n\n", b"F,0,0,1", b"F,0,0,1\n", b"x" * 300000, b"x" * 300000 + b"\nF,0,0,1"):
        if answers([PROGRAM], whole) != answers(SECOND, whole):
            sys.exit("they differ at a whole input of %d bytes" % len(whole))
    refused = expected.count(b",refused,")
    print("%d lines, %d refused: no difference" % (expected.count(b"\n"), refused))


if __name__ == "__main__":
    main()
