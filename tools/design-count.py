#!/usr/bin/env python3
"""Counts, in the code of a commit, the places that docs/DESIGN-PASS.md speaks of.

    tools/design-count.py [COMMIT] [-v]

Without a commit the working tree is read; -v names the places. The generated stored cases are passed over."""
import os
import re
import subprocess
import sys
from collections import defaultdict

VERBOSE = "-v" in sys.argv
COMMITS = [a for a in sys.argv[1:] if a != "-v"]
if 1 < len(COMMITS) or COMMITS and COMMITS[0].startswith("-"):
    sys.exit("usage: tools/design-count.py [COMMIT] [-v]")
COMMIT = COMMITS[0] if COMMITS else None
os.chdir(os.path.join(os.path.dirname(os.path.abspath(__file__)), ".."))


def run(*words):
    done = subprocess.run(words, capture_output=True, text=True)
    if done.returncode != 0:
        sys.exit(f"design-count: {done.stderr.strip()}")
    return done.stdout


def sources():
    listed = run("git", "ls-tree", "-r", "--name-only", COMMIT, "crates") if COMMIT else run("git", "ls-files", "crates")
    for path in listed.split():
        if "/src/" in path and path.endswith(".rt") and "stored_cases" not in path:
            yield path, run("git", "show", f"{COMMIT}:{path}") if COMMIT else open(path, encoding="utf-8").read()


FN = re.compile(r"^ *(?:pub(?:\(crate\))? )?fn (\w+)", re.M)


def functions(text):
    """The name, the parameters, the rest of the head and the body of each function."""
    for m in FN.finditer(text):
        at = text.find("(", m.end())
        depth, i = 1, at + 1
        while depth:
            depth += {"(": 1, ")": -1}.get(text[i], 0)
            i += 1
        indent = len(m.group(0)) - len(m.group(0).lstrip())
        opens = text.find("\n" + " " * indent + "{", i)
        one_line = text.find(" {", i)
        if opens < 0 or (0 <= one_line < opens and "\n" not in text[i:one_line]):
            opens = one_line
        closes = text.find("\n" + " " * indent + "}", opens)
        yield m.group(1), re.sub(r"\s+", " ", text[at + 1 : i - 1]).strip(), text[i:opens], text[opens:closes]


def places(pattern, skip=""):
    for path, text in sources():
        for number, line in enumerate(text.split("\n"), 1):
            if re.search(pattern, line) and not (skip and re.search(skip, line)):
                yield f"{path}:{number}: {line.strip()}"


def by_function(test):
    for path, text in sources():
        for name, params, head, body in functions(re.sub(r"//.*", "", text)):
            if test(name, params, head, body):
                yield f"{path}: {name}"


def twins():
    alike = defaultdict(list)
    keep = {"if", "else", "while", "let", "mut", "return", "for", "in", "match", "as", "true", "false"}
    for path, text in sources():
        for name, _, _, body in functions(re.sub(r"//.*", "", text)):
            words = re.findall(r"[A-Za-z_]\w*|\d\w*|b'.'|\"[^\"]*\"|[^\s\w]", body)
            if 25 <= len(words):
                shape = " ".join(w if w in keep or not re.match(r"[\w\"]", w) else "_" for w in words)
                alike[shape].append(f"{path.split('/')[1]}::{name}")
    for names in alike.values():
        if 1 < len(names):
            yield ", ".join(names)


def travelling():
    """Pairs of parameters that ten and more functions take, side by side or not."""
    pairs = defaultdict(int)
    for _, text in sources():
        for _, params, _, _ in functions(text):
            given = [p.strip() for p in re.split(r", (?=\w+:)", params) if ":" in p]
            for i, a in enumerate(given):
                for b in given[i + 1 :]:
                    pairs[a.rstrip(","), b.rstrip(",")] += 1
    for (a, b), n in sorted(pairs.items(), key=lambda kv: -kv[1]):
        if 10 <= n:
            yield f"{n}: {a} and {b}"


def repeated_facts():
    facts = defaultdict(int)
    for _, text in sources():
        for clause in re.findall(r"^ *requires(?: \w+)? \{(.*)\}$", text, re.M):
            for fact in clause.split(" × "):
                facts[re.sub(r"[()]", "", fact).strip()] += 1
    for fact, n in sorted(facts.items(), key=lambda kv: -kv[1]):
        if 3 <= n:
            yield f"{n}: {fact}"


FLAGS = r"refusal: u8|some: bool|permitted: bool|released: bool|good: bool|stray: bool|unclear: bool"
COUNTS = [
    ("1 types of the shape of Option or Result, flags with a value beside them", lambda: places(rf"^ +(pub )?({FLAGS}),|^ +(Nothing|Refused\(u8\)),$")),
    ("1 functions that answer a refusal by its number", lambda: by_function(lambda n, p, h, b: "-> u8" in h and re.search(r"refus|_bay\b|judge|bays_new|meter_new|no_signals|^build$|enforce_events|odd_", n))),
    ("1 functions that answer `none` by a number", lambda: by_function(lambda n, p, h, b: "place_below" in h or n in ("weight_at", "input_weight", "output_weight", "reading_of", "reading_told"))),
    ("1 numbers for kinds", lambda: places(r"\b(part|stage|kind) *(==|!=|<|<=) *[0-9A-Z]")),
    ("2 groups of functions alike but for names and numbers", twins),
    ("3 loops that are counted by hand", lambda: places(r"^ *(while|loop) ")),
    ("4 letters and signs by their numbers", lambda: places(r"(<|<=|==|!=) *(65|90|97|122|95|48|57|32|45|35|13|9|10|62|59)\b|\b(65|90|57|62|59|45) *(<|<=)", r"requires|ensures|LEN|len\(\)")),
    ("4 conversions by `as`", lambda: places(r" as (u8|u16|u32|u64|usize)\b")),
    ("5 facts in three and more contracts", repeated_facts),
    ("5 pairs of parameters in ten and more functions", travelling),
    ("6 buffers of a fixed size", lambda: places(r"= \[0(u8|u16|u32|u64)?; ")),
    ("6 parallel arrays: places of names and their lengths", lambda: places(r"starts: &(mut )?\[usize\]")),
    ("7 switches on a step", lambda: by_function(lambda n, p, h, b: len(re.findall(r"if (part|stage|kind) == ", b)) > 1 or re.search(r"match [\w.]*(part|stage)\b", b))),
]

for what, count in COUNTS:
    found = list(count())
    print(f"{len(found):5} {what}")
    if VERBOSE:
        for place in found:
            print(f"        {place}")
