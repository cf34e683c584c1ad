"""Compares the speed of framecheck with the plain Rust baseline.

    framecheck.py [--mixed] [--runs N]

Makes about 10 MB of frame lines under /tmp (with --mixed one line in ten is
damaged), builds bench/framecheck_baseline.rs there, checks that all programs
give the same output, then times crates/framecheck/out/framecheck and the baseline in
turn. Without crates/framecheck/out/framecheck only the baseline is timed.
"""

import argparse
import os
import random
import statistics
import subprocess
import sys
import time

ROOT = os.path.dirname(os.path.dirname(os.path.abspath(__file__)))
TARGET = os.path.join(ROOT, "crates", "framecheck", "out", "framecheck")
SECOND = os.path.join(ROOT, "second", "framecheck.py")
SOURCE = os.path.join(ROOT, "bench", "framecheck_baseline.rs")
FOLDER = "/tmp/framecheck_bench"
BASELINE = os.path.join(FOLDER, "baseline")
SIZE = 10_000_000
SEED = 64


def frame_line(rng):
    minutes = sorted(rng.sample(range(64), rng.randint(1, 16)))
    fields = ["F", str(rng.randrange(65521))]
    for minute in minutes:
        fields += [str(minute), str(rng.randrange(1, 65521))]
    return ",".join(fields).encode()


def damage(rng, line):
    """A line as it may come out of a bad transit; a few stay good frames."""
    kind = rng.randrange(5)
    place = rng.randrange(len(line))
    if kind == 0:  # a byte changed to any other than 10
        byte = rng.choice([b for b in range(256) if b not in (10, line[place])])
        return line[:place] + bytes([byte]) + line[place + 1:]
    if kind == 1:  # a byte lost
        return line[:place] + line[place + 1:]
    if kind == 2:  # the end lost
        return line[:place]
    if kind == 3:  # a part doubled
        end = rng.randrange(place, len(line)) + 1
        return line[:end] + line[place:]
    return line + line  # the byte 10 between two frames lost


def make_input(path, mixed):
    rng = random.Random(SEED)
    size = 0
    with open(path, "wb") as file:
        while size < SIZE:
            line = frame_line(rng)
            if mixed and rng.random() < 0.1:
                line = damage(rng, line)
            size += file.write(line + b"\n")


def output_of(command, path):
    with open(path, "rb") as file:
        return subprocess.run(command, stdin=file, stdout=subprocess.PIPE, check=True).stdout


def seconds(command, path):
    with open(path, "rb") as file:
        start = time.perf_counter()
        subprocess.run(command, stdin=file, stdout=subprocess.DEVNULL, check=True)
        return time.perf_counter() - start


def main():
    parser = argparse.ArgumentParser()
    parser.add_argument("--mixed", action="store_true", help="one line in ten damaged")
    parser.add_argument("--runs", type=int, default=15, help="runs of each program")
    options = parser.parse_args()

    os.makedirs(FOLDER, exist_ok=True)
    path = os.path.join(FOLDER, "mixed.log" if options.mixed else "valid.log")
    make_input(path, options.mixed)
    subprocess.run(["rustc", "-O", "-C", "opt-level=3", "-o", BASELINE, SOURCE], check=True)

    programs = {"baseline": [BASELINE]}
    if os.path.exists(TARGET):
        programs = {"framecheck": [TARGET], "baseline": [BASELINE]}
    else:
        print("crates/framecheck/out/framecheck is missing: only the baseline is run")

    expected = output_of([sys.executable, SECOND], path)
    for name, command in programs.items():
        if output_of(command, path) != expected:
            sys.exit("%s and second/framecheck.py differ on %s" % (name, path))
    print("%s: %d bytes, %d lines, %d refused, outputs identical" % (
        path, os.path.getsize(path), expected.count(b"\n"), expected.count(b"refused")))

    times = {name: [] for name in programs}
    for _ in range(options.runs):
        for name, command in programs.items():
            times[name].append(seconds(command, path))
    for name, values in times.items():
        print("%-10s median %.4f s, minimum %.4f s over %d runs" % (
            name, statistics.median(values), min(values), len(values)))
    if "framecheck" in times:
        print("ratio framecheck / baseline: median %.2f, minimum %.2f" % (
            statistics.median(times["framecheck"]) / statistics.median(times["baseline"]),
            min(times["framecheck"]) / min(times["baseline"])))


if __name__ == "__main__":
    main()
