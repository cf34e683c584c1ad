#!/usr/bin/env python3
"""A slip is spent once: programs that break this, tried on a copy, have to be refused by the prover.

python3 tools/one_slip.py, at the top of the repository. The first program ends with a slip in hand, the second lets a
refusal go unread, with the slip in it, and the third strikes and then abandons with one slip (which does not compile, so
it can be no must-fail edit). Ends with status 1 where one of them is let through, or is refused for another reason.
"""
import pathlib
import shutil
import subprocess
import sys
import tempfile

FILE = "crates/disputes/src/clients.rt"
OLD = "    let _abandoned = block.abandon(slip);\n"
PROGRAMS = {
    "ends with a slip in hand": ("    let _kept = slip;\n", "`drop` requires"),
    "lets a refused strike go": ("    let _struck = block.strike(slip, 0);\n", "`drop` requires"),
    "strikes and abandons with one slip": ("    let _struck = block.strike(slip, 0);\n" + OLD, "use of moved value: `slip`"),
}


def main():
    here = pathlib.Path(__file__).resolve().parent.parent
    with tempfile.TemporaryDirectory(prefix="one_slip_") as folder:
        copy = pathlib.Path(folder)
        shutil.copy(here / "crates.txt", copy)
        skipped = shutil.ignore_patterns("target", "must-fail")
        shutil.copytree(here / "crates", copy / "crates", ignore=skipped)
        source = (copy / FILE).read_text()
        assert source.count(OLD) == 1, f"{FILE} has no line to change"
        failed = False
        for program, (new, reason) in PROGRAMS.items():
            (copy / FILE).write_text(source.replace(OLD, new))
            check = subprocess.run(
                ["rt", "check"], cwd=copy / "crates/disputes", stdout=subprocess.PIPE, stderr=subprocess.STDOUT, text=True
            )
            refused = check.returncode != 0 and reason in check.stdout
            failed = failed or not refused
            print(f"a program that {program}: {'refused' if refused else 'NOT REFUSED as it has to be'}")
            if not refused:
                print(check.stdout)
    return 1 if failed else 0


sys.exit(main())
