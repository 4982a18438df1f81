#!/usr/bin/env python3
"""Can tools/check-documents.sh fail? Copies the pages, spoils one thing at a time, and sees that the page is named.

    tools/spoil-documents.py [TARGET]

Exit status 1 if a spoilt page passes, or if what is to be spoilt is no longer there.
"""
import os
import shutil
import subprocess
import sys
import tempfile

# A page, what stands there, and what is put in its place: a command's output, bytes, streams, verdicts, counts, links, hashes, names.
SPOILS = [
    ("README.md", "2 1 1 0 1 EF", "2 1 1 0 0 EF"),
    ("README.md", "output: rule 5 forbids it", "output: rule 4 forbids it"),
    ("README.md", "docs/REFUSALS.md)", "docs/REFUSAL.md)"),
    ("README.md", "    ticks       milliseconds", "    tocks       milliseconds"),
    ("docs/WHY.md", "8 3 1 0 0 EE", "8 3 1 0 0 EF"),
    ("docs/CLEAN.md", "left 31 bytes", "left 32 bytes"),
    ("docs/CLEAN.md", "    01 00 00 01 01 00 FF\n", "    01 00 00 01 00 00 FF\n"),
    ("docs/POLICY-FILE.md", "5 0 0 0 1 FE", "5 0 0 0 0 FF"),
    ("docs/POLICY-FILE.md", "printf '\\000\\005", "printf '\\000\\006"),
    ("docs/POLICY-FILE.md", "| `01 00 03` |", "| `01 00 04` |"),
    ("docs/POLICY-FILE.md", "(at 1, E on: go to 0)", "(at 1, E on: go to 0) [MUST-FAIL.md](MUST-FAIL.md)"),
    ("docs/POLICY-TEXT.md", "      V t0 <= 4 -> q1", "      V t0 <= 3 -> q1"),
    ("docs/POLICY-TEXT.md", "      !C t0 <= 2 -> q1", "      !C t0 <= 1 -> q1"),
    ("docs/POLICY-TEXT.md", "    compiled 68 bytes", "    compiled 67 bytes"),
    ("docs/POLICY-TEXT.md", "    refused 31 line 3", "    refused 31 line 4"),
    ("docs/C-INTERFACE.md", "    1B\n", "    0B\n"),
    ("docs/ANNEX.md", "| released by the join's enforcer | `00` | `20`", "| released by the join's enforcer | `00` | `30`"),
    ("docs/ANNEX.md", "`30`: it opens the valve | `10`:", "`30`: it opens the valve | `00`:"),
    ("docs/AUDIT.md", "d9301f4c", "d9301f4d"),
    ("docs/AUDIT.md", "`axioms=4`", "`axioms=2`"),
    ("docs/AUDIT.md", "the record `Demand3`", "the record `Demand4`"),
    ("docs/AUDIT.md", "grep -wE 'axiom|lem|ac'", "grep -wE 'axiom|lem|ac|use'"),
    ("docs/REFUSALS.md", "| 29 |", "| 35 |"),
    ("docs/WRITING-POLICIES.md", "  age >= 2    -> violation", "  age >= 1    -> violation"),
    ("docs/WRITING-POLICIES.md", "01 00 00 01 01 00 FF 00 03 FF FF", "01 00 00 01 01 00 FF 00 02 FF FF"),
    ("docs/WRITING-POLICIES.md", "| released, both readings | - | **PV** |", "| released, both readings | - | **-** |"),
    ("docs/WRITING-POLICIES.md", "| released, reading 2 | A | - | **H** |", "| released, reading 2 | A | - | - |"),
    ("docs/WRITING-POLICIES.md", "**SR**", "SR"),
    ("docs/WRITING-POLICIES.md", "Verdict 1, 3 states, 2 live", "Verdict 0, 3 states, 2 live"),
    ("docs/WRITING-POLICIES.md", "| 224 | 85 | 54 |", "| 224 | 86 | 54 |"),
    ("docs/WRITING-POLICIES.md", "input: no output will do; with none on, rule 4", "input: no output will do; with none on, rule 5"),
    ("example/README.md", "reading 2: 01 00 00 10 00", "reading 2: 01 00 00 00 10"),
]


def main():
    os.chdir(os.path.join(os.path.dirname(os.path.abspath(__file__)), ".."))
    target = sys.argv[1] if len(sys.argv) > 1 else "target"
    passed = 0
    for page, old, new in SPOILS:
        with tempfile.TemporaryDirectory() as folder:
            shutil.copytree("docs", os.path.join(folder, "docs"))
            os.mkdir(os.path.join(folder, "example"))
            for name in ("README.md", "example/README.md"):
                shutil.copy(name, os.path.join(folder, name))
            path = os.path.join(folder, page)
            with open(path, encoding="utf-8") as file:
                text = file.read()
            if old not in text:
                print(f"{page}: there is no {old!r} to spoil")
                passed += 1
                continue
            with open(path, "w", encoding="utf-8") as file:
                file.write(text.replace(old, new, 1))
            done = subprocess.run(["tools/check-documents.sh", target], capture_output=True, text=True, check=False,
                                  env={**os.environ, "PAGES": folder, "RT": "no"})
            if done.returncode == 0 or f"no longer so: {page}" not in done.stdout + done.stderr:
                print(f"{page}: {old!r} as {new!r} passes")
                passed += 1
    print(f"{len(SPOILS)} spoilt, {passed} not noticed")
    sys.exit(1 if passed else 0)


main()
