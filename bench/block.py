"""Times a settle of a full hour through a block, with 0, 8 and 32 minutes noted, beside one of the bare table.

    block.py [RUNS]

Runs the program blockspeed, which is built first where it is not, RUNS times (9),
each a process of its own, and prints the median time of each settle with the
lowest and the highest, and the ratio to the bare table of the same run.
"""

import os
import statistics
import subprocess
import sys

ROOT = os.path.dirname(os.path.dirname(os.path.abspath(__file__)))
SETTLES = "50"


def run():
    lines = subprocess.run(
        [os.path.join(ROOT, "run"), "blockspeed", SETTLES], stdout=subprocess.PIPE, text=True, check=True
    ).stdout.splitlines()
    return {tuple(line.rsplit(" ", 1)[0].split(" ", 1)): int(line.rsplit(" ", 1)[1]) for line in lines[1:]}


def main():
    runs = [run() for _ in range(int(sys.argv[1]) if len(sys.argv) > 1 else 9)]
    for field, settle in runs[0]:
        times = [times[field, settle] / 1000 for times in runs]
        ratios = [times[field, settle] / times[field, "table"] for times in runs]
        print(
            f"{field} {settle}: {statistics.median(times):.0f} us ({min(times):.0f} to {max(times):.0f}), "
            f"ratio {statistics.median(ratios):.2f} ({min(ratios):.2f} to {max(ratios):.2f})"
        )


main()
