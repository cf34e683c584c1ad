"""Compares the built profile with second/profile.py: on the stored logs, then on logs made at random.

    compare_profile.py [LOGS [SEED]]    from the repository's root, once crates/profile/out/profile is built

A log opens an hour, often a small one, and takes frames, most of which fit its levels. Some weights come from a few
words only, so that many frames depend on others. Lines are damaged, and lines are put in between. Some input is given
through a pipe in small pieces. The last lines of short logs are also held to profile_check.py. Where the program is not
built, only the second implementation is checked.
"""

import os
import random
import subprocess
import sys

import profile
import profile_check
from compare import damaged
from profile_cases import CLOSED, FULL, OPEN, Hour, cases

PROGRAM = "crates/profile/out/profile"
OTHERS = [line for line, _, _ in CLOSED + OPEN + FULL]


def random_frame(rng, hour):
    """Takes a frame into the hour, of one of several kinds."""
    most = rng.choice([1, 2, 3, 5, 16, 16])
    minutes = list(range(hour.width))
    if rng.randrange(3) == 0:
        minutes = minutes[: 1 + rng.randrange(hour.width)]
    weights = None
    pick = rng.randrange(8) if hour.frames else 7
    if pick < 2:
        weights = hour.multiple()
    elif pick < 4:
        weights = hour.joined()
    elif pick < 6:
        chosen = sorted(rng.sample(minutes, min(len(minutes), rng.randint(1, most))))
        weights = {m: rng.choice([0, 1, 1, 2, hour.field.q - 1]) for m in chosen}
    error = rng.randrange(hour.field.q) if hour.wrong and rng.randrange(hour.wrong) == 0 else 0
    hour.take(weights or hour.fresh(minutes, most), error)


def random_log(rng):
    letter = rng.choice([b"P", b"B"])
    width = rng.choice([1, 2, 3, 4, 5, 6, 8, 12, 16, 64, rng.randint(1, 64)])
    hour = Hour(letter, width, rng.randrange(2**32))
    if rng.randrange(4) == 0:
        hour.levels = [rng.choice([0, 0, 1, level]) for level in hour.levels]
    hour.wrong = rng.choice([0, 0, 0, 1, 5, 20])  # one sum in so many is wrong
    hour.open()
    count = rng.choice([0, 1, 2, width // 2, width, width + 3, 2 * width, 100])
    while len(hour.frames) < min(count, 100):
        random_frame(rng, hour)
    noise = rng.choice([0, 0, 3, 10])  # how many lines in 30 are damaged, or have another before them
    lines = []
    for line, _ in hour.lines:
        if rng.randrange(30) < noise:
            lines.append(rng.choice(OTHERS))
        lines.append(damaged(rng, line) if rng.randrange(30) < noise else line)
    if noise > 0 and rng.randrange(8) > 0:
        lines.insert(rng.randrange(2), b"O,%s,%d" % (letter, width))
    return b"\n".join(lines) + rng.choice([b"", b"\n", b"\n", b"\n\n"])


def output(data):
    return subprocess.run([PROGRAM], input=data, stdout=subprocess.PIPE, check=True).stdout


def output_in_pieces(data, size):
    process = subprocess.Popen([PROGRAM], stdin=subprocess.PIPE, stdout=subprocess.PIPE)
    for at in range(0, len(data), size):
        process.stdin.write(data[at : at + size])
        process.stdin.flush()
    return process.communicate()[0]


def stop(data, wrong):
    path = "/tmp/profile_differs.log"
    with open(path, "wb") as file:
        file.write(data)
    sys.exit("%s: the log is %s" % (wrong, path))


def main():
    words = [int(word) for word in sys.argv[1:]]
    count = words[0] if words else 1000
    rng = random.Random(words[1] if len(words) > 1 else 1)
    built = os.path.exists(PROGRAM)
    if built:
        for case in cases():
            if output(case.stdin) != case.stdout:
                stop(case.stdin, "the program differs from the stored log " + case.name)
    else:
        print("%s is missing: only the second implementation is checked" % PROGRAM)

    said = {b"solved,whole": 0, b"solved,part": 0, b"contradiction": 0, b",refused,": 0, b"F,ok,": 0}
    checked = 0
    for number in range(count):
        data = random_log(rng)
        expected = profile.answers(data)
        if built and output(data) != expected:
            stop(data, "the program and second/profile.py differ")
        if built and number % 50 == 0 and output_in_pieces(data, 1 + number % 9) != expected:
            stop(data, "the program and second/profile.py differ on a log in pieces")
        small = len(data) < 1500
        wrong = profile_check.check(data, expected) if small else None
        if wrong is not None:
            stop(data, "profile.py against profile_check.py: " + wrong)
        checked += small
        for word in said:
            said[word] += expected.count(word)
    counts = ", ".join("%d %s" % (number, word.decode().strip(",")) for word, number in said.items())
    print("%d logs, %d of them checked by profile_check.py: no difference (%s)" % (count, checked, counts))


if __name__ == "__main__":
    main()
