#!/usr/bin/env python3
"""Spoils a copy of the page, one thing at a time, and checks that its tests notice:

    playground/test/spoil.py GROOVEPAWN.WASM
"""
import pathlib
import shutil
import subprocess
import sys
import tempfile

PLAYGROUND = pathlib.Path(__file__).resolve().parents[1]

# The source, what stands there, what is put in its place, and the test that must fail.
SPOILS = [
    ("calls.js", "input: { kind: field(answer, 8, 8), number: field(answer, 16, 16) }", "input: { kind: field(answer, 32, 8), number: field(answer, 40, 24) }", "choose"),
    ("calls.js", "line: field(answer, 8, 32), file", "line: field(answer, 8, 32) + 1, file", "wrong_line"),
    ("calls.js", "return { refusal, line: field", "return { refusal: 0, line: field", "refusals"),
    ("library.js", "for (const [bytes, at] of lent) bytes.set(new Uint8Array(this.memory.buffer, at, bytes.length));", "", "stored"),
    ("engine.js", "const joins = READINGS.map((reading) => joined", "const joins = READINGS.map(() => 1).map((reading) => joined", "joined_names"),
    ("engine.js", "new Station(library, reading, joined.file, room)", "new Station(library, 1, joined.file, room)", "readings"),
    ("engine.js", "clause.tick(released);", "clause.tick(event);", "clauses_follow"),
    ("engine.js", "meter?.putAt(record, registers, record.done);", "", "meter"),
    ("engine.js", "return pulses ? event | bit : event & ~bit;", "return event;", "meter"),
    ("joining.js", "places: part.places.filter((_, location) => !gone.has(location))", "places: part.places", "joined_names"),
    ("joining.js", "cleaning && files.length > 1 &&", "files.length > 1 &&", "join_too"),
    ("events.js", "events.fill(event, at, at + times);", "events[at] = event;", "paste"),
    ("keeping.js", "return store(PLACE, { desk, address: location.hash });", "return true;", "nothing_typed"),
    ("keeping.js", "desk.events = value.events;", "desk.events = '';", "link"),
    ("sentences.js", "rule ${number} (line ${line})", "rule ${number} (line ${number})", "first"),
    ("drawing.js", "if (here) kinds.push('here');", "", "first"),
    ("drawing.js", "else if (card.place.live === 0) kinds.push('future');", "", "told_apart"),
    ("waves.js", "if ((read[tick] ^ released[tick]) & bit) {", "if (released[tick] & bit) {", "waves"),
    ("samples.js", "B R -> violation", "A R -> violation", "samples"),
    ("page.js", "this.shelf.putAside();\n    this.desk = deskFrom(desk);", "this.desk = deskFrom(desk);", "nothing_typed"),
    ("page.js", "event.target.selectedIndex = 0;", "event.target.selectedIndex = 0; console.error('a fault');", "samples"),
    ("workshop.js", "this.current.slow = setTimeout(() => this.noticed(), NOTICED);", "", "word"),
    ("style.css", ".editor .numbers span { display: block; height: var(--high); }", ".editor .numbers .wrong { display: inline-block; }", "wrong_line"),
    ("style.css", ".wide { overflow: auto; max-width: 100%; }", "", "narrow"),
    ("style.css", "--soft: #5b6770;", "--soft: #a5adb3;", "contrast"),
    ("page.html", 'aria-label="How many ticks"', "", "labels"),
    ("page.html", '<button type="button" id="tick" class="main">One tick</button>', '<span id="tick" class="main">One tick</span>', "by_keyboard"),
    ("page.html", "<title>Groovepawn playground</title>", '<title>Groovepawn playground</title><script src="https://example.org/x.js"></script>', "one_file"),
]


def noticed(wasm, source, old, new, test):
    with tempfile.TemporaryDirectory() as folder:
        top = pathlib.Path(folder)
        copy = top / "playground"
        shutil.copytree(PLAYGROUND, copy)
        for beside in ("cross", "crates", "docs"):
            (top / beside).symlink_to(PLAYGROUND.parent / beside)
        path = copy / "src" / source
        text = path.read_text(encoding="utf-8")
        if old not in text:
            return f"{source} has no {old!r}"
        path.write_text(text.replace(old, new, 1), encoding="utf-8")
        page = top / "page.html"
        subprocess.run([sys.executable, copy / "make.py", wasm, page], check=True, stdout=subprocess.DEVNULL)
        done = subprocess.run([sys.executable, copy / "test/test_page.py", page, test], capture_output=True, text=True, check=False)
        return None if done.returncode == 1 and "FAILED" in done.stdout else f"not noticed by {test}: {done.stdout}{done.stderr}"


def main():
    if len(sys.argv) != 2:
        sys.exit(__doc__)
    wasm = pathlib.Path(sys.argv[1]).resolve()
    missed = 0
    for source, old, new, test in SPOILS:
        said = noticed(wasm, source, old, new, test)
        missed += said is not None
        print(f"{'noticed' if said is None else 'MISSED '} {source}: {old[:70]!r}{'' if said is None else f': {said}'}", flush=True)
    print(f"{len(SPOILS) - missed} of {len(SPOILS)} spoiled pages noticed")
    return 1 if missed else 0


if __name__ == "__main__":
    sys.exit(main())
