"""Times the settle with the scan in plain Rust, beside that of a static library where one is given.

    settle.py [LIBRARY]

LIBRARY is the path of a static library with the calls that bench/settle.rs
declares. Builds bench/settle.rs, with its module settle_baseline.rs, in
/tmp/settle_bench. First checks that it gives the outcomes of second/profile.py
on the stored logs and on logs made at random, and with a library that both
sides give the same. Then times the settle of an hour of 64 minutes and 96
frames of 16 terms, in each field.

Printed: the median over runs that are processes of their own, with the lowest
and the highest in brackets. Other work on the machine slows both sides of a run
alike, so each ratio is that of one run. It needs rustc, and with a library cc.
"""

import argparse
import os
import random
import re
import statistics
import subprocess
import sys

ROOT = os.path.dirname(os.path.dirname(os.path.abspath(__file__)))
sys.path.insert(0, os.path.join(ROOT, "second"))

import compare_profile
import profile
import profile_cases

SOURCE = os.path.join(ROOT, "bench", "settle.rs")
FOLDER = "/tmp/settle_bench"
PROGRAM = os.path.join(FOLDER, "settle")
TIMED = {"prime": "prime_full_frames", "octets": "octet_full_frames"}
RANDOM_LOGS = 400
SEED = 64
RUNS = 15
LINE = re.compile(r"(.*?): (.*)")
TIME = re.compile(r"(library|plain Rust) (\d+) ns")


def build(library):
    command = ["rustc", "--edition", "2021", "-O", "-C", "opt-level=3", "--check-cfg", "cfg(library)", "-o", PROGRAM]
    if library:
        command += ["--cfg", "library", "-C", "link-arg=" + library, "-C", "link-arg=-lc"]
    subprocess.run(command + [SOURCE], check=True)


def write_log(name, data, answers):
    """Writes the accepted lines of a log; gives the path, or None where no hour is opened."""
    kept = [line for line, answer in zip(data.split(b"\n"), answers.split(b"\n")) if answer[1:5] == b",ok,"]
    if not kept:
        return None
    path = os.path.join(FOLDER, name)
    with open(path, "wb") as file:
        file.write(b"".join(line + b"\n" for line in kept))
    return path


def check(cases):
    rng = random.Random(SEED)
    logs = [(case.name, case.stdin, case.stdout) for case in cases]
    for number in range(RANDOM_LOGS):
        data = compare_profile.random_log(rng)
        logs.append(("random%d" % number, data, profile.answers(data)))
    paths, expected = [], []
    for name, data, answers in logs:
        path = write_log(name, data, answers)
        if path:
            paths.append(path)
            expected.append(answers.split(b"\n")[-2])
    given = subprocess.run([PROGRAM] + paths, stdout=subprocess.PIPE, check=True).stdout.split(b"\n")[:-1]
    for path, line, wanted in zip(paths, given, expected):
        if line != wanted:
            sys.exit("%s: expected %r, got %r" % (path, wanted, line))
    if len(given) != len(expected):
        sys.exit("%d logs, but %d outcomes" % (len(expected), len(given)))
    print("%d logs, outcomes as second/profile.py gives them" % len(paths), flush=True)


def measure():
    """For each field the times of each side, one for each run."""
    paths = {os.path.join(FOLDER, name): field for field, name in TIMED.items()}
    times = {field: {} for field in TIMED}
    for _ in range(RUNS):
        run = subprocess.run([PROGRAM, "--times"] + list(paths), stdout=subprocess.PIPE, check=True, text=True)
        for path, text in LINE.findall(run.stdout):
            for side, time in TIME.findall(text):
                times[paths[path]].setdefault(side, []).append(int(time))
    return times


def main():
    parser = argparse.ArgumentParser()
    parser.add_argument("library", nargs="?", help="path of the static library")
    library = parser.parse_args().library
    if library and not os.path.isfile(library):
        sys.exit("no such file: " + library)
    os.makedirs(FOLDER, exist_ok=True)
    try:
        build(library and os.path.abspath(library))
        check(profile_cases.cases())
        times = measure()
    except subprocess.CalledProcessError as error:
        sys.exit("%s failed" % error.cmd[0])
    for field, sides in times.items():
        parts = [
            "%s %d ns per settle (%d to %d)" % (side, statistics.median(runs), min(runs), max(runs))
            for side, runs in sides.items()
        ]
        if "library" in sides:
            ratios = [ours / rust for ours, rust in zip(sides["library"], sides["plain Rust"])]
            parts.append("ratio %.2f (%.2f to %.2f)" % (statistics.median(ratios), min(ratios), max(ratios)))
        print("%s: %s" % (field, ", ".join(parts)))


if __name__ == "__main__":
    main()
