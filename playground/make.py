#!/usr/bin/env python3
"""Makes the page of its sources and of the library: one HTML file that opens by a double click.

    playground/make.py GROOVEPAWN.WASM PAGE.HTML

The modules are put one after another into one script, each after those that it uses, each in a function of its own: a page from a file may
load no other file. The library stands in the script, packed.
"""
import base64
import json
import pathlib
import re
import sys
import zlib

SOURCES = pathlib.Path(__file__).resolve().parent / "src"
PATTERNS = SOURCES.parents[1] / "docs/WRITING-POLICIES.md"
MOST_BYTES = 400_000
IMPORT = re.compile(r"^import \{ ([^}]*) \} from '\./(\w+)\.js';$", re.M)
EXPORT = re.compile(r"^export (?:async )?(?:function|class|const) (\w+)", re.M)


def fail(words):
    sys.exit(f"make.py: {words}")


def read(name):
    return (SOURCES / name).read_text(encoding="utf-8")


def in_order(name, done, under=()):
    """The modules that this one uses, then itself."""
    if name in under:
        fail(f"{name}.js uses itself: {' '.join(under)}")
    for _, other in IMPORT.findall(read(f"{name}.js")):
        if other not in done:
            in_order(other, done, (*under, name))
    done.append(name)
    return done


def module(name):
    """A module as a function that gives what it exports."""
    source = read(f"{name}.js")
    used = IMPORT.sub(lambda found: f"const {{ {found[1].replace(' as ', ': ')} }} = modules.{found[2]};", source)
    exports = EXPORT.findall(source)
    body = re.sub(r"^export ", "", used, flags=re.M)
    if re.search(r"^(import|export)\b", body, re.M):
        fail(f"{name}.js imports or exports in a form that is not known here")
    return f"modules.{name} = (() => {{\n{body}\nreturn {{ {', '.join(exports)} }};\n}})();\n"


def pattern(section):
    """A pattern of the page on writing policies: its title, the first policy as text, and the stream that is read in its table."""
    title = re.match(r"### (\d+\. .*)", section)[1]
    text = re.search(r"\n\n((?:    .*\n|\n)+)", section)[1]
    read = re.search(r"^\| read \|(.*)\|$", section, re.M)[1]
    events = "".join(f"{' '.join(event.strip())}\n" for event in read.split("|"))
    policy = re.sub(r"^    ", "", text, flags=re.M).strip("\n")
    return {"name": title, "text": f"# {title}\n{policy}\n", "events": events, "reading": "both" if "| released, reading 2" in section else "1"}


def patterns():
    page = PATTERNS.read_text(encoding="utf-8")
    part = page[page.index("\n## Ten patterns"):page.index("\n## How far joins go")]
    found = [pattern(section) for section in re.split(r"\n(?=### )", part)[1:]]
    if len(found) != 10:
        fail(f"{PATTERNS.name} has {len(found)} patterns")
    return json.dumps(found)


def packed(wasm):
    squeeze = zlib.compressobj(9, zlib.DEFLATED, -15)
    return base64.b64encode(squeeze.compress(wasm) + squeeze.flush()).decode("ascii")


def program(wasm):
    modules = "".join(module(name) for name in in_order("main", []))
    text = f"'use strict';\nconst WASM = '{packed(wasm)}';\nconst PATTERNS = {patterns()};\nconst modules = {{}};\n{modules}"
    if "</script" in text or "<!--" in text:
        fail("the program has what would end its script")
    return text


def main():
    if len(sys.argv) != 3:
        sys.exit(__doc__)
    wasm = pathlib.Path(sys.argv[1]).read_bytes()
    page = read("page.html").replace("/*STYLE*/", read("style.css")).replace("/*PROGRAM*/", program(wasm))
    size = len(page.encode("utf-8"))
    if size > MOST_BYTES:
        fail(f"the page has {size:,} bytes, and {MOST_BYTES:,} is the most")
    out = pathlib.Path(sys.argv[2])
    out.parent.mkdir(parents=True, exist_ok=True)
    part = out.with_suffix(".part")
    part.write_text(page, encoding="utf-8")
    part.replace(out)
    print(f"{out}: {size:,} bytes, {len(wasm):,} of the library before it was packed")


main()
