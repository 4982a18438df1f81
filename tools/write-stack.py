#!/usr/bin/env python3
"""Writes how much stack each C function was seen to use, into include/groovepawn.h and docs/C-INTERFACE.md.

    tools/build.sh groovepawn && tools/write-stack.py

It builds tools/stack.c with the archive and runs it. Another archive: tools/write-stack.py path/to/libgroovepawn.a
"""
import collections
import os
import re
import subprocess
import sys
import tempfile

top = os.path.join(os.path.dirname(os.path.abspath(__file__)), "..")
archive = os.path.abspath(sys.argv[1] if len(sys.argv) > 1 else os.path.join(top, "target/staticlib/libgroovepawn.a"))
os.chdir(top)
HEADER, PAGE = "include/groovepawn.h", "docs/C-INTERFACE.md"
# These are tools and no part of a loop: the header's opening comment names them with their numbers.
TOOLS = (
    "groovepawn_clean", "groovepawn_why", "groovepawn_why_run", "groovepawn_text_read", "groovepawn_text_line_of_rule",
    "groovepawn_text_name_of_signal", "groovepawn_text_name_of_clock", "groovepawn_text_name_of_location",
)


def measured():
    with tempfile.TemporaryDirectory() as folder:
        program = os.path.join(folder, "stack")
        command = ["cc", "-O2", "-Iinclude", "tools/stack.c", archive, "-o", program, "-pthread", "-Wl,-z,now"]
        subprocess.run(command, check=True)
        said = subprocess.run([program], check=True, capture_output=True, text=True).stdout
    if "refused" in said:
        sys.exit(said)
    return {name: int(size) for name, size in re.findall(r"^(groovepawn_\w+) +(\d+) bytes$", said, re.M)}


def in_words(size):
    return f"{size:,} bytes" if size else "none"


def in_header(text, sizes):
    def written(match):
        comment, declarations = match[1], match[2]
        left = re.findall(r"(groovepawn_\w+)\(", declarations)

        def of_one(said):
            names = [left.pop(0) for _ in range(said[1].count(" and ") + 1)]
            return "Stack: " + (in_words(sizes[names[0]]) if len(names) == 1 else " and ".join(f"{sizes[name]:,}" for name in names) + " bytes")

        return "/*" + re.sub(r"Stack: ((?:[\d,]+)(?: and [\d,]+)? bytes|none|not read yet)", of_one, comment) + "*/\n" + declarations

    text = re.sub(r"/\*((?:(?!\*/).)*)\*/\n((?:GROOVEPAWN_LOOK_AT_ANSWER\n[^;]*;\n)+)", written, text, flags=re.S)
    for tool in TOOLS:
        text = re.sub(r"(%s(?: |\n \* )\()[\d,]+" % tool, lambda m: f"{m[1]}{sizes[tool]:,}", text, count=1)
    return text


def in_page(text, sizes):
    by_size = collections.defaultdict(list)
    for name, size in sizes.items():
        by_size[size].append(f"`{name}`")
    rows = [f"| {', '.join(by_size[size])} | {size:,} |" for size in sorted(by_size, reverse=True) if size]
    text = re.sub(r"(\| Function \| Bytes \|\n\|---\|---\|\n)(?:\|.*\n)+", lambda m: m[1] + "\n".join(rows) + "\n", text)
    *some, last = by_size[0]
    return re.sub(r"^`groovepawn_[^.]*` use none\.", f"{', '.join(some)} and {last} use none.", text, flags=re.M)


sizes = measured()
for path, write in ((HEADER, in_header), (PAGE, in_page)):
    old = open(path).read()
    open(path, "w").write(write(old, sizes))
most = max(size for name, size in sizes.items() if name not in TOOLS)
print(f"{len(sizes)} functions; the most but for {' and '.join(TOOLS)}: {most:,} bytes")
if most >= 2560:
    sys.exit("the header says less than 2.5 KiB for all others")
