#!/usr/bin/env python3
"""Says which crates of crates.txt stand on a crate that no file of theirs names: the graph is what an auditor takes for what is trusted.

    python3 tools/crate-edges.py

Exit status 1 if there is one.
"""
import pathlib
import re
import sys

TOP = pathlib.Path(__file__).resolve().parent.parent

# What a crate only hands on, and so does not name: the prover must see the type all the same.
HANDED_ON = {("pointing", "declarations"), ("listing", "refusals")}


def sources(crate):
    """All of a crate's Rattle and antt as one text. What the toolchain keeps in out/ is none of it."""
    folder = TOP / "crates" / crate
    files = sorted(file for file in folder.rglob("*") if file.relative_to(folder).parts[0] != "out")
    return "\n".join(file.read_text() for file in files if file.suffix in (".rt", ".antt"))


def names(text, crate):
    """Whether the text names the crate: in a path of the specs, of the code, or in a `use`."""
    return re.search(rf"Rattle\.{crate}\b|\b{crate}::|\buse {crate}\b", text) is not None


def main():
    unused = []
    for line in (TOP / "crates.txt").read_text().splitlines():
        if line.startswith("#") or ":" not in line:
            continue
        crate, below = line.split(":")
        crate = crate.split()[0]
        text = sources(crate)
        unused += [f"{crate}: {other}" for other in below.split() if not names(text, other) and (crate, other) not in HANDED_ON]
    for edge in unused:
        print(f"{edge} is named by no file")
    return 1 if unused else 0


if __name__ == "__main__":
    sys.exit(main())
