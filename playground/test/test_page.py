#!/usr/bin/env python3
"""Uses the page in Chromium as a person would, and says what does not hold:

    playground/test/test_page.py PAGE.HTML [--pictures FOLDER] [NAME ..]

With names, only the tests whose names begin so. The stored cases of crates/vectors go through the page's library.
"""
import base64
import contextlib
import json
import pathlib
import re
import statistics
import sys
import time
import traceback

from pictures import smaller
from webdriver import Browser, Keys

ROOT = pathlib.Path(__file__).resolve().parents[2]
MOST_BYTES = 400_000
KEYSTROKE_MS = 50
TEXT, EVENTS = "#text textarea", "#events textarea"

# The five samples of the scope, as bytes, and its marked streams: events as read and as released.
SCOPE = {
    "S": ("02 41 42 01 52 00 01 00 00 03 00 03 03 00 00 00 FF 00 02 02 01 01 00 FF 00 00 00 00 00 00 00", [("03", "01"), ("12", "02"), ("13", "11"), ("11", "11")]),
    "D": ("01 52 01 43 01 00 03 02 00 00 00 04 00 01 01 00 00 01 01 00 00 FF FF 00 00 00 00 00 01 00 00 00 FF FF"
          " 01 00 00 01 01 01 00 00 00 FF FF 01 00 00 01 00 00 01 00 00 00 02", [("01 00 00 00 00", "01 00 00 00 10")]),
    "T": ("01 41 01 42 00 02 00 00 00 02 00 01 01 00 00 00 01 00 00 00 00 00 00 00", [("01 11", "00 10")]),
    "K": ("00 01 4B 01 00 03 01 00 00 02 00 00 00 01 01 00 FF 00 03 FF FF 00 00 00 00 00 00 00 00 00 FF FF",
          [("00 00 10", "00 00 10"), ("00 00 00 10", "00 00 00 00")]),
    "N": ("00 00 00 01 00 00 00", []),
}
SCOPE_VERDICTS = {"S": "Verdict 0.", "D": "Verdict 0.", "T": "Verdict 1.", "K": "Verdict 0.", "N": "Refused 11."}

VALVE = """input  C credit
output V valve
location shut
location open

at shut
  credit -> open
  valve  -> violation
  any    -> shut
at open
  any    -> open
"""


def expect(held, words):
    if not held:
        raise AssertionError(words)


def same(found, wanted, what):
    expect(found == wanted, f"{what}: {found!r}, and {wanted!r} was expected")


def within(part, whole, what):
    expect(whole is not None and part in whole, f"{what}: {part!r} is not in {whole!r}")


class Page:
    """The page in a browser, and what a person does with it."""

    def __init__(self, path, **window):
        self.url = path.resolve().as_uri()
        self.browser = Browser(**window)
        self.browser.devtools("Browser.setDownloadBehavior", behavior="allow", downloadPath=self.browser.folder)

    def fresh(self, address=""):
        """As if it had never been opened."""
        # All files of a browser share what is kept; the page itself must be gone, or it would keep its desk again.
        empty = pathlib.Path(self.browser.folder) / "empty.html"
        empty.write_text("<!doctype html><title>empty</title>")
        self.browser.go(empty.as_uri())
        self.browser.run("localStorage.clear()")
        self.open(address)

    def open(self, address=""):
        self.browser.go(self.url + address)
        self.idle()

    def idle(self):
        """Waits until all that was asked is answered and shown."""
        self.browser.wait("""const page = window.groovepawn?.page;
            return page && !page.preparing && !page.workshop.current && page.workshop.queue.length === 0 && document.body.dataset.answered == page.turn""")

    def write(self, css, words):
        """Everything in an area is replaced, as by pasting."""
        browser = self.browser
        if words:
            browser.run("const area = document.createElement('textarea'); area.id = 'elsewhere'; document.body.append(area); area.value = arguments[0]; area.select()", words)
            browser.press((Keys.CONTROL, "c"))
            browser.run("document.querySelector('#elsewhere').remove()")
        browser.click(css)
        browser.press((Keys.CONTROL, "a"), (Keys.CONTROL, "v") if words else Keys.BACKSPACE)
        self.idle()

    def sample(self, begin):
        number = self.browser.run("return window.groovepawn.samples.findIndex(({ name }) => name.startsWith(arguments[0]))", begin)
        expect(number >= 0, f"no sample {begin}")
        self.browser.click(f'#sample option[value="{number}"]')
        self.idle()

    def text(self, css):
        return self.browser.text(css)

    def click(self, css):
        self.browser.click(css)
        self.idle()

    def rows(self):
        """The rows of the table as lists of cells; the button's words first."""
        return self.browser.run("""return [...document.querySelectorAll('#table tbody tr')].map((row) => [...row.children].map((cell) => cell.innerText.trim().replace(/\\n,/g, ',')))""")

    def record(self, reading=1):
        """The events as read and as released, in hex."""
        found = self.browser.run("""const record = window.groovepawn.page.tried[arguments[0] - 1];
            return [[...record.read], [...record.released]]""", reading)
        return tuple(" ".join(f"{event:02x}" for event in events) for events in found)

    def downloaded(self, name):
        path = pathlib.Path(self.browser.folder) / name
        end = time.monotonic() + 10
        while not path.exists() and time.monotonic() < end:
            time.sleep(0.05)
        time.sleep(0.1)
        expect(path.exists(), f"{name} was not saved")
        data = path.read_bytes()
        path.unlink()
        return data

    def upload(self, name, data):
        path = pathlib.Path(self.browser.folder) / name
        path.write_bytes(data)
        self.browser.type("#file", str(path))
        time.sleep(0.15)
        self.idle()


# The tests, in the order of the page. Each has a fresh page.

def test_one_file(page, path):
    data = path.read_text(encoding="utf-8")
    expect(len(data.encode()) <= MOST_BYTES, f"{len(data.encode())} bytes")
    outside = [found for found in re.findall(r"""(?:src|href)=["'](?!data:|#)[^"']+|@import|url\((?!#)[^)]*|https?://[^\s"'<>)]+""", data) if "www.w3.org" not in found]
    same(outside, [], "what is loaded from elsewhere")
    same(page.browser.run("return performance.getEntriesByType('resource').filter(({ name }) => !/^(data|blob):/.test(name)).length"), 0, "what was loaded")
    return f"{len(data.encode()):,} bytes"


def test_first_sight(page, _):
    within("transfer station", page.browser.value(TEXT), "the first text")
    within("Verdict 0.", page.text("#verdict"), "verdict")
    within("906 states, all live", page.text("#verdict"), "verdict")
    within("delivery off: rule 1 (line 14) forbids it: at idle, delivery on.", page.text("#last"), "the last tick")
    same(page.browser.run("return document.querySelectorAll('#drawing .card').length"), 3, "cards")
    same(page.browser.run("return document.querySelector('#drawing .here .name').textContent"), "● idleidle", "the present location")
    same(page.browser.run("return document.querySelector('#drawing .here .chip.clock').textContent"), "age 301", "its clock")


def test_wrong_line_while_typing(page, _):
    browser = page.browser
    page.write(TEXT, "")
    within("refused 2", page.text("#wrong"), "an empty text")
    lines = VALVE.splitlines()
    for number, line in enumerate(lines, 1):
        browser.type(TEXT, line + "\n")
    page.idle()
    same(page.text("#wrong"), "", "a right text")
    within("Verdict 0.", page.text("#verdict"), "verdict")
    # A letter too many in the seventh line: marked there, with its number and its words, and nothing else is lost.
    browser.run("const area = document.querySelector(arguments[0]); area.focus(); const at = area.value.indexOf('credit -> open') + 6; area.setSelectionRange(at, at)", TEXT)
    browser.press("s")
    page.idle()
    within("Line 7: refused 31", page.text("#wrong"), "the wrong word")
    within("credits -> open", browser.text("#text .line.wrong"), "the marked line")
    within("refused 31", browser.text("#text .line.wrong .said"), "the words at the line")
    same(browser.text("#text .numbers .wrong").strip(), "7", "the marked number")
    same(browser.run("return document.querySelector(arguments[0]).getAttribute('aria-invalid')", TEXT), "true", "aria-invalid")
    beside = """const tops = (css) => [...document.querySelectorAll(css)].map((one) => Math.round(one.getBoundingClientRect().top));
        return [tops('#text .numbers span'), tops('#text .behind .line')]"""
    numbers, shown = browser.run(beside)
    same(numbers, shown, "each number beside its line")
    browser.press(Keys.BACKSPACE)
    page.idle()
    same(page.text("#wrong"), "", "right again")


def test_refusals_of_a_text(page, _):
    cases = [
        ("location a\ninput A\n", 2, 30), ("input A\ninput A\nlocation a\n", 2, 31), ("clock t 70000\nlocation a\n", 1, 32),
        ("clock t 0\nlocation a\n", 1, 4), ("input A\ninput B\ninput C\ninput D\ninput E\n", 5, 33),
        ("location a\nlocation b\nat b\nany -> a\nat a\nany -> a\n", 5, 34), ("clock t 3\nlocation a\nat a\nt <= 3 -> a\n", 4, 7),
        ("clock t 1000\nclock u 1000\nlocation a\n", 0, 9), ("# nothing\n", 0, 2), ("\0\1\2", 1, 30), ("ä ö ü 漢字\n", 1, 30),
    ]
    for text, line, number in cases:
        page.write(TEXT, text)
        said = page.text("#wrong")
        within(f"refused {number}:", said, text)
        same(said.startswith("Line "), line > 0, f"a line for {text!r}")
        if line:
            within(f"Line {line}:", said, text)
    within("of the last one that was", page.text("#verdict"), "what is drawn meanwhile")
    expect(page.browser.run("return document.querySelector('#tick').disabled && document.body.classList.contains('stale')"), "a wrong text can be ticked")
    page.write(TEXT, "x" * 200_000)
    within("Line 1: refused 30", page.text("#wrong"), "a line of 200,000 letters")


def test_samples_of_the_scope(page, _):
    for name, (data, streams) in SCOPE.items():
        page.sample(f"{name}:")
        same(page.browser.run("return [...window.groovepawn.page.policy.file].map((byte) => byte.toString(16).padStart(2, '0').toUpperCase()).join(' ')"), data, f"the bytes of {name}")
        within(SCOPE_VERDICTS[name], page.text("#verdict"), f"the verdict of {name}")
        tags = page.browser.run("return window.groovepawn.page.named.signals.map(({ tag, bit }) => [tag, bit])")
        for read, released in streams:
            each = [int(event, 16) for event in read.split()]
            page.write(EVENTS, "".join((" ".join(tag for tag, bit in tags if event & bit) or "-") + "\n" for event in each))
            same(page.record(), (read, released), f"{name} on {read}")
    within("hopeless", page.text("#last"), "a hopeless policy is not tried")
    expect(page.browser.run("return document.querySelector('#tick').disabled"), "a hopeless policy can be ticked")


def test_patterns(page, _):
    """The ten patterns as docs/WRITING-POLICIES.md has them: verdict, states, and what is released under each reading."""
    part = (ROOT / "docs/WRITING-POLICIES.md").read_text(encoding="utf-8").split("\n## Ten patterns")[1].split("\n## How far joins go")[0]
    sections = part.split("\n### ")[1:]
    same(len(sections), 10, "patterns")
    for section in sections:
        name = section.splitlines()[0]
        page.sample(name)
        verdict, states = re.search(r"^Verdict (\d), (\d+) state", section, re.M).groups()
        within(f"Verdict {verdict}. ", page.text("#verdict"), name)
        within(f"({states} state", page.text("#verdict"), name)
        rows = dict(reversed(re.findall(r"^\| (released, [a-z]+ ?\w*) \|(.*)\|$", section, re.M)))
        bits = dict(page.browser.run("return window.groovepawn.page.named.signals.map(({ tag, bit }) => [tag, bit])"))
        for reading in (1, 2):
            said = rows.get("released, both readings") or rows[f"released, reading {reading}"]
            wanted = [sum(bits[letter] for letter in event.strip(" *-")) for event in said.split("|")]
            same(page.record(reading)[1], " ".join(f"{event:02x}" for event in wanted), f"{name}, reading {reading}")


def test_long_quiet_run(page, _):
    page.sample("K:")
    same(page.rows()[-1][:3], ["65,542", "credit", "– credit, taken off"], "credit after 65,537 quiet ticks")
    within("2 edited", page.text("#table .tools"), "edited")


def test_switches(page, _):
    page.write(TEXT, VALVE)
    page.write(EVENTS, "")
    page.click('[data-bit="16"]')
    same(page.browser.run("return document.querySelector('[data-bit=\"16\"]').getAttribute('aria-checked')"), "true", "the switch")
    page.click("#tick")
    same(page.rows(), [["1", "valve", "– valve, taken off", "shut", "Output changed, valve off: rule 1 (line 8) forbids it: at shut, valve on."]], "one tick")
    within("Tick 1. Read valve.", page.text("#last"), "the last tick")
    same(page.browser.run("return document.querySelector('#drawing .row.lit').textContent.includes('valve')"), True, "the lit rule")
    within("valve  -> violation", page.browser.text("#text .line.lit"), "the lit line")
    page.click('[data-bit="1"]')
    page.click("#tick")
    within("● open", page.text("#drawing .here .name") or page.browser.run("return document.querySelector('#drawing .here .name').textContent"), "the present location")
    page.browser.run("document.getElementById('count').value = 25")
    page.click("#ticks")
    same(page.browser.value(EVENTS), "valve\ncredit valve * 26\n", "the events")
    within("27 ticks, 1 edited", page.text("#table .tools"), "ticks")
    page.click("#undo")
    same(page.browser.value(EVENTS), "valve\ncredit valve * 25\n", "one taken back")
    page.click("#restart")
    same(page.browser.value(EVENTS), "", "from the start")
    within("No tick yet", page.text("#table"), "no tick")
    page.click("#back")
    same(page.browser.value(EVENTS), "valve\ncredit valve * 25\n", "brought back")


def test_choose_a_tick(page, _):
    page.click('#table [data-tick="311"]')
    within("After tick 312: transfer age 301", page.text("#now"), "the state then")
    within("rule 10 (line 25)", page.text("#last"), "its reason")
    within("credit age >= 301", page.browser.text("#text .line.lit"), "its line")
    same(page.browser.run("return document.querySelectorAll('#waves .chosen').length"), 1, "chosen in the waves")


def test_paste_events(page, _):
    browser = page.browser
    page.write(TEXT, VALVE)
    page.write(EVENTS, "- * 2\nC\nvalve * 3 # open\n\n-\n")
    same(page.record(), ("00 00 01 10 10 10 00", "00 00 01 10 10 10 00"), "events by letter and name")
    # Cut and pasted by keys.
    browser.click(EVENTS)
    browser.press((Keys.CONTROL, "a"), (Keys.CONTROL, "x"))
    page.idle()
    same(browser.value(EVENTS), "", "cut")
    browser.press((Keys.CONTROL, "v"), (Keys.CONTROL, "v"))
    page.idle()
    same(page.record()[0], "00 00 01 10 10 10 00 00 00 01 10 10 10 00", "pasted twice")


def test_wrong_events(page, _):
    page.write(TEXT, VALVE)
    for text, line, words in [("-\nwater\n", 2, "no signal water"), ("C C\n", 1, "there twice"), ("* 3\n", 1, "no event before the *"), ("C * x\n", 1, "no count of ticks"),
                              ("C * 0\n", 1, "no count"), ("-\nC * 9999999\n", 2, "more than 1,000,000 ticks"), ("C @99999\n", 1, "no register"), ("- \n@7\n", 2, "first reading")]:
        page.write(EVENTS, text)
        said = page.text("#events-wrong")
        within(f"Line {line}:", said, text)
        within(words, said, text)
    page.write(EVENTS, "C\nwater\n")
    same(page.record(), ("01", "01"), "what stands before the wrong line is played")
    expect(page.browser.run("return document.querySelector('#tick').disabled"), "a tick behind a wrong line")
    page.write(EVENTS, "C @5\n")
    within("refused 26", page.text("#last").lower() + page.text("#table").lower(), "a meter without P and D")


def test_readings(page, _):
    page.sample("D:")
    same(page.browser.run("return document.querySelector('[name=reading]:checked').value"), "both", "side by side")
    same(page.record(1), ("01 00 00 00 00", "01 00 00 00 10"), "reading 1")
    same(page.record(2), ("01 00 00 00 00", "01 00 00 10 00"), "reading 2")
    head = page.browser.run("return [...document.querySelectorAll('#table thead th')].map((cell) => cell.innerText)")
    same(head, ["Tick", "Read", "Released, reading 1", "Released, reading 2", "Then, reading 1", "Why"], "columns")
    within("reading 2", page.browser.run("return document.querySelector('#waves svg').textContent"), "the waves of both")
    page.click("[name=reading][value='2']")
    same([row[0] for row in page.rows() if row[2] == "answer, put on"], ["4"], "reading 2 alone")
    page.click("[name=reading][value='1']")
    same([row[0] for row in page.rows() if row[2] == "answer, put on"], ["5"], "reading 1 alone")


def test_waves(page, _):
    page.sample("Valve that stays open")
    page.click("[name=reading][value='1']")
    same(page.browser.run("return document.querySelectorAll('#waves rect.edit').length"), 4, "edits")
    same(page.browser.run("return document.querySelectorAll('#waves path.released').length"), 2, "traces")
    page.sample("K:")
    same(page.browser.run("return document.querySelector('#window').hidden"), False, "the window")
    page.browser.run("const from = document.querySelector('#from'); from.value = 1; from.dispatchEvent(new Event('input'))")
    within("1 to ", page.text("#from-said"), "moved to the start")


def test_meter(page, _):
    values = lambda: page.browser.run("return [...document.querySelectorAll('#meter dd')].map((value) => value.innerText)")
    same(values(), ["1,522", "1,555", "3", "1,558"], "register, billed, not billed, all")
    page.write(EVENTS, "@65530\ncard\ncredit\ndelivery @65530\ndelivery @4\n")
    same(values(), ["4", "10", "0", "10"], "65,530 followed by 4 is 10 pulses")
    same(page.record()[0], "01 02 10 14", "P is on in the tick with pulses, and in no other")
    page.click('[data-bit="16"]')
    page.browser.run("document.querySelector('#pulses').value = 7")
    page.click("#tick")
    same(page.browser.value(EVENTS).splitlines()[-1], "delivery @+7", "a tick with pulses")
    same(values(), ["11", "17", "0", "17"], "billed")
    expect(page.browser.run("return document.querySelector('#inputs [data-bit=\"4\"]').disabled"), "P can be switched though the meter sets it")


def test_clauses(page, _):
    page.sample("Three clauses")
    same(page.browser.run("return document.querySelectorAll('#clauses [data-clause]').length"), 3, "clauses")
    why = [row[-1] for row in page.rows()]
    within("Clause 1 (Interlock) objects to the output: rule 0 (line 10) forbids it: at all, stop valve on.", why[2], "the objection")
    within("objects to the output: no rule allows it.", why[4], "the objection")
    within("Clause 3 (Credit) objects to the output: rule 3 (line 16) forbids it", why[6], "the objection")
    page.click('#table [data-tick="2"]')
    within("stop valve -> violation", page.browser.text("#text .line.lit"), "the line of the clause that objects")
    page.click("#drawn [data-drawn='2']")
    same(page.browser.run("return document.querySelectorAll('#drawing .card').length"), 2, "one clause drawn")
    page.click("#whole summary")
    page.browser.wait("return document.querySelector('#whole-shown').innerText")
    within("3 clauses joined, and cleaned in between for reading 1: 4 locations, 2 clocks", page.text("#whole-shown"), "as one file")
    page.click("#clauses [data-clause='1']")
    within("Alarm: within 3 ticks", page.browser.value(TEXT), "the second clause")
    page.click("#clauses [data-add]")
    same(page.browser.run("return document.querySelectorAll('#clauses [data-clause]').length"), 4, "one more")
    within("Verdict 0.", page.text("#verdict"), "joined with one that permits all")
    page.write(TEXT, "input A\nlocation a\nat a\n  any -> a\n")
    within("Clause 4 cannot be joined to those before it: refused 12", page.text("#verdict"), "other signals")
    page.write(TEXT, "input A\nlocation a\nat a\n  nothing -> a\n")
    within("(refused)", page.text("#clauses"), "a clause that is not read")
    page.click("#clauses [data-remove]")
    same(page.browser.run("return document.querySelectorAll('#clauses [data-clause]').length"), 3, "removed")
    within("Verdict 0.", page.text("#verdict"), "joined again")
    page.browser.click("#whole-shown button")
    page.idle()
    within("location q0", page.browser.value(TEXT), "the whole as one text")
    within("Verdict 0.", page.text("#verdict"), "the whole, read again")


def test_only_together(page, _):
    page.write(TEXT, "# The valve stays open\ninput S stop\noutput V valve\nlocation all\n\nat all\n  !valve -> violation\n  any -> all\n")
    page.click("#clauses [data-add]")
    page.write(TEXT, "# No valve at a stop\ninput S stop\noutput V valve\nlocation all\n\nat all\n  stop valve -> violation\n  any -> all\n")
    page.write(EVENTS, "stop valve\n")
    within("Clause 2 (No valve at a stop) objects to the output", page.rows()[0][-1], "one of them objects")
    page.write(EVENTS, "stop\n")
    within("Clause 1 (The valve stays open) objects to the output", page.rows()[0][-1], "the other objects")


def test_clauses_follow_the_release(page, _):
    # The valve is taken off by the second clause, so for the first it never opened.
    head = "input S stop\noutput V valve\n"
    page.write(TEXT, f"# Door\n{head}location shut\nlocation open\n\nat shut\n  valve -> open\n  any -> shut\nat open\n  any -> open\n")
    page.click("#clauses [data-add]")
    page.write(TEXT, f"# Stop\n{head}location all\n\nat all\n  stop valve -> violation\n  any -> all\n")
    page.write(EVENTS, "stop valve\n")
    page.click("#drawn [data-drawn='0']")
    within("After tick 1: shut", page.text("#now"), "the first clause")
    page.write(EVENTS, "stop valve\nvalve\n")
    within("After tick 2: open", page.text("#now"), "the first clause later")


PLACES = """
const { page } = window.groovepawn;
const wrong = [];
page.tried.forEach((record, i) => {
  const named = page.names[i];
  if (named.locations.length !== named.parts.mustBeLeft.length) wrong.push(`${named.locations.length} names`);
  for (let tick = 0; tick < record.done; tick++) {
    const parts = page.clauses.map((clause, c) => clause.locations.length > 1 ? clause.locations[record.clauseStates[c][tick * 5]] : null).filter((name) => name !== null);
    const name = named.locations[record.states[tick * 5]];
    if (name !== parts.join(' · ')) wrong.push(`reading ${i + 1} tick ${tick + 1}: ${name}, and not ${parts.join(' · ')}`);
  }
});
return wrong;
"""


def test_joined_names(page, _):
    for sample in ("Three clauses", "Pacemaker, P1 to P5", "Pacemaker, P1 to P4"):
        page.sample(sample)
        same(page.browser.run(PLACES), [], f"{sample}: the joined location is that of the clauses")
        struck = page.browser.run("return window.groovepawn.page.policies.map(({ struck }) => struck.length)")
        same(struck, [0, 0], f"{sample}: what cleaning would strike out of a cleaned join, under each reading")


def test_join_too_large(page, _):
    page.sample("Pacemaker, P1 to P5")
    within("10,010 states", page.text("#verdict"), "P1 to P5, joined and cleaned in between")
    page.click("#clauses input")
    said = page.text("#verdict")
    within("refused 13", said, "without cleaning they do not fit")
    within("is the most", said, "by which limit")
    page.click("#clauses input")
    within("10,010 states", page.text("#verdict"), "cleaned again")


def test_hopeless(page, _):
    page.write(TEXT, "input A\nlocation a must be left\n\nat a\n  any -> a\n")
    within("Refused 11.", page.text("#verdict"), "verdict")
    within("no future", page.browser.run("return document.querySelector('#drawing').textContent"), "told in the drawing")


def test_told_apart(page, _):
    page.sample("A slip")
    within("Verdict 1.", page.text("#verdict"), "verdict")
    within("never entered: spare", page.text("#verdict"), "what is never entered")
    kinds = page.browser.run("return [...document.querySelectorAll('#drawing .card')].map((card) => [card.className.baseVal, [...card.querySelectorAll('.chip')].map((chip) => chip.textContent).join()])")
    same(kinds, [["card here", "start"], ["card", "must be left"], ["card future", "must be left,no future"], ["card never", "never entered"]], "the locations")


def test_save_and_open(page, _):
    page.write(TEXT, VALVE)
    page.write(EVENTS, "valve\nC\nvalve * 3\n")
    page.click("#save-text")
    same(page.downloaded("policy.txt").decode(), VALVE, "the text saved")
    page.click("#save-file")
    file = page.downloaded("station.policy")
    same(file.hex(), "014301560002000000040001010000000100000001010" + "0ff0000000000000001000000000001", "the file saved")
    page.click("#save-wave")
    wave = page.downloaded("station.vcd")
    within("$var wire 1 C C $end", wave.decode(), "the wave saved")
    page.write(EVENTS, "")
    page.upload("station.vcd", wave)
    same(page.browser.value(EVENTS), "-\ncredit\nvalve * 3\n", "the wave opened")
    page.upload("station.policy", file)
    within("output V\nlocation q0\nlocation q1", page.browser.value(TEXT), "the file opened")
    page.upload("policy.txt", VALVE.encode())
    same(page.browser.value(TEXT), VALVE, "the text opened")
    page.upload("broken.policy", file[:-1])
    within("refused 1:", page.text("#said"), "a file cut short")
    same(page.browser.value(TEXT), VALVE, "what was there stays")
    page.upload("other.vcd", wave.replace(b"C C", b"X X"))
    within("refused 21", page.text("#said"), "a wave of other signals")
    page.upload("day.events", b"valve * 2\n")
    same(page.browser.value(EVENTS), "valve * 2\n", "events opened")
    page.write(EVENTS, "- * 20000\n")
    page.click("#save-wave")
    within("refused 29", page.text("#said"), "a wave of 20,000 ticks")


def test_link(page, _):
    page.write(TEXT, VALVE)
    page.write(EVENTS, "C\nvalve\n")
    page.browser.click("#link")
    page.browser.wait("return document.querySelector('#said').textContent.includes('link')")
    address = page.browser.run("return location.hash")
    expect(address.startswith("#p="), f"the address {address[:20]}")
    page.fresh(address)
    same(page.browser.value(TEXT), VALVE, "the text in the link")
    same(page.browser.value(EVENTS), "C\nvalve\n", "the events in the link")
    page.fresh("#text=input%20A%0Alocation%20a%0A%0Aat%20a%0A%20%20any%20-%3E%20a%0A")
    same(page.browser.value(TEXT), "input A\nlocation a\n\nat a\n  any -> a\n", "a text as it is in the link")
    for damaged in ("#p=AAAA", "#p=" + address[3:60], "#nothing", "#text=%"):
        page.fresh(damaged)
        within("damaged", page.text("#said"), damaged)
        within("transfer station", page.browser.value(TEXT), damaged)
    return f"{len(address)} letters"


def test_nothing_typed_is_lost(page, _):
    browser = page.browser
    page.write(TEXT, VALVE)
    page.write(EVENTS, "C\n")
    browser.wait("return location.hash.length > 1")
    browser.click(TEXT)
    browser.press((Keys.CONTROL, Keys.END), *"# mine")
    browser.reload()
    page.idle()
    same(browser.value(TEXT), VALVE + "# mine", "the text after a reload at once")
    same(browser.value(EVENTS), "C\n", "the events after it")
    page.sample("S:")
    page.click("#back")
    same(browser.value(TEXT), VALVE + "# mine", "brought back after a sample")
    page.fresh()
    page.write(TEXT, VALVE)
    page.open("#text=location%20a%0A")
    browser.reload()
    page.idle()
    page.click("#back")
    same(browser.value(TEXT), VALVE, "brought back after a link")


def test_by_keyboard(page, _):
    browser = page.browser
    page.write(TEXT, VALVE)
    page.write(EVENTS, "")
    browser.reload()
    page.idle()
    browser.press(Keys.TAB, Keys.ENTER)
    same(browser.run("return document.activeElement.id"), "text-heading", "the first link leads to the policy")
    expect("heading" not in browser.run("return location.hash"), "the first link took the address")
    browser.reload()
    page.idle()
    seen = []
    for _ in range(60):
        browser.press(Keys.TAB)
        seen.append(browser.run("const it = document.activeElement; return it.id || it.name || it.dataset.bit || it.dataset.add && 'add' || it.tagName + ' in ' + (it.closest('[id]')?.id ?? '')"))
        if seen[-1] == "BODY in ":
            break
    for wanted in ("sample", "open", "save-text", "save-file", "save-wave", "link", "add", "TEXTAREA in text", "drawing", "reading", "1", "16", "tick", "ticks", "count", "TEXTAREA in events", "waves"):
        expect(wanted in seen, f"{wanted} is not reached by Tab: {seen}")
    # The valve by its letter, the tick by Enter; then a switch by Space.
    browser.run("document.querySelector('#tick').focus()")
    browser.press("v", Keys.ENTER)
    page.idle()
    same(page.rows()[0][:3], ["1", "valve", "– valve, taken off"], "ticked by keys")
    browser.run("document.querySelector('[data-bit=\"1\"]').focus()")
    browser.press(Keys.SPACE)
    same(browser.run("return document.activeElement.dataset.bit + document.activeElement.getAttribute('aria-checked')"), "1true", "switched by Space, and the focus stays")
    browser.run("document.querySelector('#table [data-tick]').focus()")
    browser.press(Keys.ENTER)
    page.idle()
    same(browser.run("return document.activeElement.dataset.tick + document.activeElement.getAttribute('aria-pressed')"), "0true", "a tick chosen by Enter")
    browser.run("document.querySelector('[name=reading]:checked').focus()")
    browser.press(Keys.DOWN)
    page.idle()
    same(browser.run("return document.querySelector('[name=reading]:checked').value"), "2", "the reading by an arrow")


def test_labels(page, _):
    page.sample("Three clauses")
    nodes = page.browser.devtools("Accessibility.getFullAXTree")["nodes"]
    silent = [node["role"]["value"] for node in nodes if not node.get("ignored") and node.get("role", {}).get("value") in
              ("button", "switch", "checkbox", "radio", "textbox", "combobox", "slider", "spinbutton", "image", "img", "link", "table", "region") and not node.get("name", {}).get("value") and node["role"]["value"] != "table"]
    same(silent, [], "what has no name for a screen reader")
    roles = [node["role"]["value"] for node in nodes if not node.get("ignored") and "role" in node]
    for role in ("heading", "switch", "table", "columnheader", "status", "main"):
        expect(role in roles, f"nothing is a {role}")
    same(page.browser.run("return document.documentElement.lang"), "en", "language")
    levels = page.browser.run("return [...document.querySelectorAll('h1,h2,h3')].map((heading) => Number(heading.tagName[1]))")
    expect(levels[0] == 1 and all(after - before <= 1 for before, after in zip(levels, levels[1:])), f"headings {levels}")


CONTRAST = """
const number = (css) => { const found = css.match(/[\\d.]+/g).map(Number); return found; };
const luminance = (rgb) => rgb.slice(0, 3).map((part) => { const p = part / 255; return p <= 0.03928 ? p / 12.92 : ((p + 0.055) / 1.055) ** 2.4; }).reduce((sum, part, i) => sum + part * [0.2126, 0.7152, 0.0722][i], 0);
const behind = (element) => { for (let at = element; at; at = at.parentElement) { const back = getComputedStyle(at).backgroundColor; const rgb = number(back); if (rgb.length < 4 || rgb[3] > 0.5) return rgb; } return [255, 255, 255]; };
const low = [];
for (const element of document.querySelectorAll('body *')) {
  const own = [...element.childNodes].some((node) => node.nodeType === 3 && node.textContent.trim());
  const style = getComputedStyle(element);
  if (!own || element.closest('svg, [hidden], option, script, style') || element.disabled || !element.getClientRects().length || style.color === 'rgba(0, 0, 0, 0)') continue;
  const [a, b] = [luminance(number(style.color)), luminance(behind(element))];
  const ratio = (Math.max(a, b) + 0.05) / (Math.min(a, b) + 0.05);
  if (ratio < 4.5 && !element.closest('.numbers')) low.push(`${element.tagName}.${element.className} ${ratio.toFixed(2)}`);
}
return [...new Set(low)];
"""


def test_contrast(page, _):
    page.sample("Three clauses")
    page.write(EVENTS, "valve\nwater\n")
    for dark in (False, True):
        page.browser.scheme(dark)
        same(page.browser.run(CONTRAST), [], f"too little contrast, {'dark' if dark else 'light'}")
    page.browser.scheme(False)


def test_narrow(page, _):
    browser = page.browser
    browser.size(360, 740)
    try:
        for sample in ("Transfer", "Three clauses", "D:", "The largest"):
            page.sample(sample)
            wide = browser.run("return [document.documentElement.scrollWidth, innerWidth]")
            expect(wide[0] <= 360, f"{sample}: the page is {wide[0]} wide")
        small = browser.run("return [...document.querySelectorAll('button, select')].filter((one) => one.getClientRects().length && one.getBoundingClientRect().height < 24).map((one) => one.id || one.innerText)")
        same(small, [], "too small for a finger")
    finally:
        browser.size(1280, 900)


TIMED = """
const done = arguments[arguments.length - 1];
window.times = [];
const area = document.querySelector('#text textarea');
let since = null;
area.addEventListener('input', (event) => { since = event.timeStamp; }, true);
new MutationObserver(() => requestAnimationFrame(() => { if (since !== null) window.times.push(performance.now() - since); since = null; })).observe(document.body, { attributes: true, attributeFilter: ['data-answered'] });
done(true);
"""


def thousand_states():
    """Twenty locations and a clock of fifty values: a thousand states, sixty rules."""
    names = [f"l{i}" for i in range(20)]
    rules = "".join(f"at {name}\n  A age <= 47 -> {names[(i + 1) % 20]} reset age\n  B age >= 3  -> {names[(i + 5) % 20]}\n  any         -> {name}\n" for i, name in enumerate(names))
    return "input A\noutput B\nclock age 49\n" + "".join(f"location {name}\n" for name in names) + "\n" + rules


def test_keystrokes(page, _):
    browser = page.browser
    page.write(TEXT, thousand_states())
    page.write(EVENTS, "A\n- * 60\nA B\nB * 5\n")
    within("1,000 states", page.text("#verdict"), "states")
    browser.run_later(TIMED)
    browser.click(TEXT)
    browser.press((Keys.CONTROL, Keys.END))
    # Other work on the machine can only add to it: the best of some rounds tells.
    told = []
    for _ in range(4):
        browser.run("window.times = []")
        for letter in "# a comment that is typed\n  A -> l3\n":
            browser.press(Keys.ENTER if letter == "\n" else letter)
            page.idle()
            time.sleep(0.03)
        times = browser.run("return window.times")
        expect(len(times) >= 30, f"{len(times)} keystrokes were answered")
        middle, most = statistics.median(times), max(times)
        told.append(f"half within {middle:.0f} ms, all within {most:.0f}")
        if middle <= KEYSTROKE_MS:
            return told[-1]
    raise AssertionError("; ".join(told))


def test_largest(page, _):
    browser = page.browser
    browser.run("""window.gaps = []; let last = performance.now(); window.words = new Set();
        new MutationObserver(() => window.words.add(document.querySelector('#verdict').innerText)).observe(document.querySelector('#verdict'), { childList: true, subtree: true });
        setInterval(() => { const now = performance.now(); window.gaps.push(now - last); last = now; }, 10)""")
    begun = time.monotonic()
    page.sample("The largest")
    took = time.monotonic() - begun
    within("65,536 states", page.text("#verdict"), "verdict")
    gap = browser.run("return Math.max(...window.gaps)")
    expect(gap < 1000, f"the page stood still for {gap:.0f} ms")
    browser.click(TEXT)
    browser.press((Keys.CONTROL, Keys.END), *"  # typed")
    page.idle()
    within("  # typed", browser.value(TEXT), "typed meanwhile")
    return f"{took * 1000:.0f} ms until all is shown, no pause above {gap:.0f} ms"


def slow_policy():
    """As large as it may be, and slow to prepare: every state but the last is reached late."""
    names = [f"l{i}" for i in range(64)]
    rules = []
    for i, name in enumerate(names):
        rules.append(f"at {name}\n  A t <= 29 u <= 29 -> {names[(i + 1) % 64]}\n  B u >= 30 -> {names[(i * 7 + 3) % 64]} reset t\n  !A !B t >= 3 -> {name} reset u\n  A B -> {names[63 - i]} reset t u\n")
    return "input A\noutput B\nclock t 31\nclock u 31\n" + "".join(f"location {name}{' must be left' if i % 2 else ''}\n" for i, name in enumerate(names)) + "\n" + "".join(rules)


def test_word_while_it_works(page, _):
    browser = page.browser
    browser.run("""window.words = new Set();
        new MutationObserver(() => window.words.add(document.querySelector('#verdict').innerText)).observe(document.querySelector('#verdict'), { childList: true, subtree: true, characterData: true });
        // As on a machine that is many times slower.
        const { workshop } = window.groovepawn.page; const send = workshop.worker.postMessage.bind(workshop.worker);
        workshop.worker.postMessage = (data) => setTimeout(() => send(data), 400);""")
    page.write(TEXT, slow_policy())
    said = browser.run("return [...window.words]")
    expect(any("Preparing 65,536 states" in words for words in said), f"no word while it works: {said}")
    within("Verdict", page.text("#verdict"), "then the verdict")


@contextlib.contextmanager
def before_each_load(browser, script):
    """A browser that lacks something."""
    number = browser.devtools("Page.addScriptToEvaluateOnNewDocument", source=script)["identifier"]
    try:
        yield
    finally:
        browser.devtools("Page.removeScriptToEvaluateOnNewDocument", identifier=number)


def test_without_workers(page, _):
    with before_each_load(page.browser, "delete window.Worker"):
        page.open()
        page.browser.reload()
        page.idle()
        within("Verdict 0.", page.text("#verdict"), "verdict")
        page.sample("D:")
        same(page.record(2)[1], "01 00 00 10 00", "reading 2")
        page.write(TEXT, VALVE + "x")
        within("Line 12: refused 31", page.text("#wrong"), "a wrong line")


def test_without_a_store(page, _):
    with before_each_load(page.browser, "Object.defineProperty(window, 'localStorage', { get() { throw new Error('forbidden'); } })"):
        page.browser.reload()
        page.idle()
        page.write(TEXT, VALVE)
        within("keeps nothing", page.text("#said"), "that nothing is kept is said")
        within("Verdict 0.", page.text("#verdict"), "verdict")
        time.sleep(1)
        page.browser.reload()
        page.idle()
        same(page.browser.value(TEXT), VALVE, "the address alone carries it over a reload")


def test_hostile_texts(page, _):
    bad = "# <img src=x onerror=\"console.error('run')\"> & </textarea><script>console.error('run')</script>\n"
    page.write(TEXT, bad + VALVE)
    page.click("#clauses [data-add]")
    page.write(EVENTS, "<b>C</b>\n")
    within("no signal <b>C</b>", page.text("#events-wrong"), "signs as they are")
    same(page.browser.run("return document.querySelectorAll('img, #text script, #clauses b').length"), 0, "what was typed is never taken for markup")


REPLAY = """
const done = arguments[arguments.length - 1];
const bytes = (words) => Uint8Array.from(atob(words), (letter) => letter.charCodeAt(0));
const [source, cases, wrong] = arguments;
try {
  const replay = new Function(`${source}; return replay;`)();
  done([replay(window.groovepawn.library, bytes(cases)), replay(window.groovepawn.library, bytes(wrong))]);
} catch (error) { done(String(error)); }
"""


def test_stored_cases(page, _):
    browser = page.browser
    source = (ROOT / "cross/cases.mjs").read_text().replace("export ", "")
    packed = [base64.b64encode((ROOT / f"crates/vectors/data/{name}").read_bytes()).decode() for name in ("cases", "wrong")]
    browser.devtools("Page.setBypassCSP", enabled=True)
    browser.reload()
    page.idle()
    found = browser.run_later(REPLAY, source, *packed)
    browser.devtools("Page.setBypassCSP", enabled=False)
    expect(isinstance(found, list), f"the replay failed: {found}")
    (cases, wrong) = found
    same(cases["different"], 0, "stored cases that come out different")
    expect(cases["all"] >= 1500, f"only {cases['all']} cases")
    same(wrong["different"], wrong["all"], "wrong expectations that were noticed")
    return f"{cases['all']:,} cases, {wrong['all']} wrong ones noticed"


PICTURES = [("wide-light", 1280, False, "Transfer"), ("wide-dark", 1280, True, "Three clauses"), ("narrow-light", 360, False, "Transfer"), ("narrow-dark", 360, True, "A slip")]


def take_pictures(path, folder):
    """The page in both schemes and both widths."""
    folder.mkdir(parents=True, exist_ok=True)
    for name, width, dark, sample in PICTURES:
        page = Page(path, width=width, height=1000, dark=dark)
        try:
            page.fresh()
            page.sample(sample)
            page.browser.run("document.activeElement.blur(); document.querySelector('#said').textContent = ''")
            (folder / f"playground-{name}.png").write_bytes(smaller(page.browser.picture()))
        finally:
            page.browser.close()


def main():
    words = sys.argv[1:]
    pictures = None
    if "--pictures" in words:
        at = words.index("--pictures")
        pictures = pathlib.Path(words[at + 1])
        del words[at:at + 2]
    path, *names = pathlib.Path(words[0]), *words[1:]
    if pictures:
        take_pictures(path, pictures)
        return 0
    page = Page(path)
    failed = 0
    tests = [(name, test) for name, test in globals().items() if name.startswith("test_")]
    chosen = [(name, test) for name, test in tests if not names or any(name[5:].startswith(begin) for begin in names)]
    try:
        for name, test in chosen:
            begun = time.monotonic()
            try:
                page.fresh()
                page.browser.console()
                told = test(page, path)
                errors = [line["message"] for line in page.browser.console()]
                same(errors, [], "on the console")
                print(f"ok      {name[5:]:24} {time.monotonic() - begun:5.1f} s  {told or ''}".rstrip(), flush=True)
            except Exception as error:  # every test is told of
                failed += 1
                print(f"FAILED  {name[5:]:24} {error}", flush=True)
                if "-v" in names:
                    traceback.print_exc()
    finally:
        page.browser.close()
    print(f"{len(chosen) - failed} of {len(chosen)} tests of the page passed")
    return 1 if failed else 0


if __name__ == "__main__":
    sys.exit(main())
