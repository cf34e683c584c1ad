"""Compares the speed of the finite fields' library with plain Rust.

    fields.py [LIBRARY]

LIBRARY is the path of the static library; without it the libfieldspeed.a is taken
that `rt lib` makes in crates/fieldspeed. Builds bench/fields.rs
against it in /tmp/field_bench, for a plain x86-64, and runs it. That program
checks that both sides give the same codes, then times them in turn.

Where the linker puts a short loop moves its time by up to a half, so the program
is built four times, with the functions of both sides 0, 16, 32 and 48 bytes
further on, in another pairing each time, and each build is run three times in
turn. Printed for each comparison: the median of each side over all runs, the
ratio of the two (under 1 the library is the faster), and the ratios of single
runs, lowest and highest. It needs rustc and cc.
"""

import argparse
import os
import re
import statistics
import subprocess
import sys

ROOT = os.path.dirname(os.path.dirname(os.path.abspath(__file__)))
SOURCE = os.path.join(ROOT, "bench", "fields.rs")
FOLDER = "/tmp/field_bench"
SHIFTS = [(0, 32), (16, 0), (32, 48), (48, 16)]  # of the library and of plain Rust
RUNS = 3
LINE = re.compile(r"(.*): library ([0-9.]+) ns, plain Rust ([0-9.]+) ns, ratio ")


def find_library():
    library = os.path.join(ROOT, "crates", "fieldspeed", "out", "libfieldspeed.a")
    if not os.path.exists(library):
        sys.exit("no %s: build it with rt lib, or give its path" % library)
    return library


def build(library, shift, rust_shift):
    """The program with so many bytes of text before the functions of each side."""
    os.makedirs(FOLDER, exist_ok=True)
    padding = os.path.join(FOLDER, "padding%d" % shift)
    program = os.path.join(FOLDER, "fields%d" % shift)
    with open(padding + ".s", "w") as file:
        file.write('.section .text.padding,"ax",@progbits\n.globl padding\n')
        file.write(".p2align 6\npadding:\n" + "nop\n" * shift + "ret\n")
    subprocess.run(["cc", "-c", padding + ".s", "-o", padding + ".o"], check=True)
    subprocess.run(
        ["rustc", "--edition", "2021", "-C", "opt-level=3", "-C", "target-cpu=x86-64",
         "-C", "link-arg=" + padding + ".o", "-C", "link-arg=-Wl,-u,padding",
         "-C", "link-arg=" + library, "-C", "link-arg=-lc", "-o", program, SOURCE],
        check=True,
        env=dict(os.environ, PADDING=str(rust_shift)),
    )
    return program


def measure(programs):
    """For each comparison the times of both sides, one pair for each run."""
    times = {}
    for _ in range(RUNS):
        for program in programs:
            run = subprocess.run([program], check=True, stdout=subprocess.PIPE, text=True)
            for name, ours, rust in LINE.findall(run.stdout):
                times.setdefault(name, []).append((float(ours), float(rust)))
    return times


def main():
    parser = argparse.ArgumentParser()
    parser.add_argument("library", nargs="?", help="path of the static library")
    library = os.path.abspath(parser.parse_args().library or find_library())
    if not os.path.isfile(library):
        sys.exit("no such file: " + library)
    print("library: " + library, flush=True)
    try:
        times = measure([build(library, *shifts) for shifts in SHIFTS])
    except subprocess.CalledProcessError as error:
        sys.exit("%s failed" % error.cmd[0])
    if not times:
        sys.exit("the program printed no comparison")
    for name, pairs in times.items():
        ours = statistics.median(pair[0] for pair in pairs)
        rust = statistics.median(pair[1] for pair in pairs)
        ratios = [pair[0] / pair[1] for pair in pairs]
        print("%s: library %.2f ns, plain Rust %.2f ns, ratio %.2f (%.2f to %.2f)"
              % (name, ours, rust, ours / rust, min(ratios), max(ratios)))


if __name__ == "__main__":
    main()
