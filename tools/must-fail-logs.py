#!/usr/bin/env python3
"""Which must-fail edits show nothing? To be called with what `rt ci` or `rt must-fail` printed, a line for each edit.

    tools/must-fail-logs.py target/check/gate                          every crate, of the gate that tools/check-all.sh ran
    rt must-fail policy join 2>&1 | tools/must-fail-logs.py - policy join   these

An edit is to be refused because a fact no longer holds. Where the toolchain says that it was refused only because a proof file names what the edit took
away, or only by a limit of the prover, the contract was not what refused it. Such edits are named, and so are those that could not be tried, that were
not refused, or of which nothing is said. Exit status 1 if there is one.
"""
import glob
import os
import re
import sys

WORDS = ("BAD EDIT", "NOT TRIED", "NOT REFUSED", "(only because", "(only by a limit")


def main():
    if len(sys.argv) < 2:
        sys.exit(__doc__)
    log = sys.stdin.read() if sys.argv[1] == "-" else open(sys.argv[1], errors="replace").read()
    os.chdir(os.path.join(os.path.dirname(os.path.abspath(__file__)), ".."))
    crates = sys.argv[2:] or ["*"]
    edits = sorted(path for crate in crates for path in glob.glob(f"crates/{crate}/must-fail/*.edit"))
    named = [f"{path.split('/')[1]}/{os.path.basename(path)}" for path in edits]
    said = dict(re.findall(r"^(?:rt: )?must-fail (\S+\.edit): (.*)$", log, re.M))
    if not said:
        sys.exit("it says nothing of edits: give it what `rt ci` or `rt must-fail` printed")
    faults = [f"{edit}: nothing is said of it" for edit in named if edit not in said]
    faults += [f"{edit}: {said[edit]}" for edit in named if edit in said and any(word in said[edit] for word in WORDS)]
    print(f"{sum(edit in said for edit in named)} of {len(named)} edits are in the log")
    if faults:
        sys.exit("\n".join(faults))


main()
