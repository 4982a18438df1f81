"""What tools/check-documents.sh does: reads the pages themselves, so that nothing is stored twice, and holds them against the programs and the library."""
import glob
import hashlib
import os
import re
import shutil
import subprocess
import sys
import tempfile

from library import Library, Refused, rules_in
from policy_text import draft_of, file_of

PAGES = os.environ.get("PAGES", ".")
TENDER = {"01": "../shared/tender/01-scope.md", "02": "../shared/tender/02-change-requests.md"}
COMMAND_WORDS = {"rt", "cc", "grep", "{", "sed", "python3", "printf", "cat", "make", "cargo", "groovepawn", "export"}
DESK = "rust/target/release/groovepawn"  # what `make` builds
SAMPLES = {"enforce": [], "wave": [], "why": []}  # the programs that take crates/NAME/stdin, with their words

faults, skipped, held = [], [], 0


def hold(where, is_so, what):
    """Counts a fact of a page, or tells that it does not hold."""
    global held
    if is_so:
        held += 1
    else:
        faults.append(f"{where}: {what}")


def skip(where, what):
    skipped.append(f"{where}: {what}")


def read(page):
    with open(os.path.join(PAGES, page), encoding="utf-8") as file:
        return file.read().split("\n")


# Blocks: lines set in by four blanks, with blank lines between them.


class Block:
    def __init__(self, page, number):
        self.where, self.lines, self.before, self.after = f"{page}:{number}", [], "", ""

    def first_word(self):
        return self.lines[0].split()[0] if self.lines[0].split() else ""

    def is_command(self):
        word = self.first_word()
        return word in COMMAND_WORDS or word.startswith(("./", "target/", "tools/", ".ci/"))

    def is_hex(self):
        return all(re.match(r"([0-9A-F]{2} )*[0-9A-F]{2}($|    )", line) for line in self.lines)

    def bytes(self):
        return bytes.fromhex("".join(line.split("    ")[0] for line in self.lines))

    def is_policy_text(self):
        return any(re.match(r"(input|output)\s+[A-Z]\b|location [a-z]", line) for line in self.lines)


def blocks_of(page):
    """The blocks of a page. A list's lines are not set in by four blanks in these pages."""
    found, block, last, heading = [], None, "", False
    for number, line in enumerate(read(page), 1):
        if line.startswith("    "):
            if block is None:
                block = Block(page, number)
                block.before, block.after_heading = last, heading
                found.append(block)
                heading = False
            block.lines += [""] * block.__dict__.pop("blank", 0) + [line[4:]]
        elif not line.strip():
            if block is not None:
                block.blank = block.__dict__.get("blank", 0) + 1
        else:
            if block is not None:
                block.after, block = line, None
            heading = heading or line.startswith("#")
            last = line
    return [part for block in found for part in apart(block)]


def apart(block):
    """A command and what it prints, where only a blank line stands between them, are two blocks."""
    for at, line in enumerate(block.lines[:-1]):
        if not line and block.is_command() and is_printed(block.lines[at + 1]):
            page, number = block.where.split(":")
            printed = Block(page, int(number) + at + 1)
            printed.lines, printed.after, printed.after_heading = block.lines[at + 1:], block.after, False
            block.lines = block.lines[:at]
            return [block, printed]
    return [block]


# Commands.


class Shell:
    """A folder that looks like the repository's top, in which commands may leave what they like."""

    def __init__(self, target, folder):
        self.target, self.folder = target, folder
        for name in os.listdir("."):
            if name not in ("target", ".git"):
                os.symlink(os.path.abspath(name), os.path.join(folder, name))
        os.mkdir(os.path.join(folder, "target"))
        for name in ("bin", "staticlib"):
            if os.path.isdir(os.path.join(target, name)):
                os.symlink(os.path.join(target, name), os.path.join(folder, "target", name))

    def missing(self, command):
        used = re.findall(r"target/(?:bin|staticlib)/[\w.]+", command)
        if re.search(r"^groovepawn ", command, re.M):
            used.append(DESK)
        tools = [tool for tool in ("xxd", "cc") if re.search(rf"(^|\| ){tool} ", command, re.M) and not shutil.which(tool)]
        return tools + [path for path in used if not os.path.exists(os.path.join(self.folder, path))]

    def run(self, command):
        shell = shutil.which("dash") or "sh"
        path = os.pathsep.join([os.path.abspath(os.path.dirname(DESK)), os.environ["PATH"]])
        return subprocess.run([shell, "-c", command], cwd=self.folder, env={**os.environ, "PATH": path}, capture_output=True, text=True, timeout=120, check=False)


def without_rt(block, crates):
    """The command without what the prover would do; the crates that are named must be there."""
    kept = []
    for line in block.lines:
        parts = line.split(" && ")
        while parts and parts[0].split()[:1] in (["rt"], [".ci/run"], ["tools/build.sh"]):
            words = parts.pop(0).split()
            named = words[1:] if words[0] == "tools/build.sh" else words[2:] if words[:2] == ["rt", "ci"] else []
            hold(block.where, all(word in crates for word in named), f"{' '.join(words)}: no such crate")
        if parts:
            kept.append(" && ".join(parts))
    return "\n".join(kept)


def run_block(block, following, shell, crates):
    """Runs a command block; True if the following block is what it printed."""
    command = without_rt(block, crates)
    if not command:
        skip(block.where, f"not run: {block.lines[0]}")
        return False
    if block.first_word() in (".ci/run", "make", "cargo", "export") or "tools/" in command:
        skip(block.where, f"not run: {block.lines[0]}")
        return False
    missing = shell.missing(command)
    if missing:
        skip(block.where, f"not run, there is no {', '.join(missing)}")
        return following is not None and not following.is_command() and not following.after_heading
    done = shell.run(command)
    if block.after.startswith("prints nothing"):
        hold(block.where, done.stdout + done.stderr == "", f"it prints {(done.stdout + done.stderr)[:200]!r}")
        return False
    is_refused = following is not None and following.first_word() == "refused"
    hold(block.where, done.returncode == 0 and not done.stderr and done.stdout.startswith("refused") == is_refused,
         f"it ends with {done.returncode} and says {(done.stdout + done.stderr)[:300]!r}")
    if not done.stdout or following is None or following.is_command() or following.after_heading:
        return False
    hold(following.where, done.stdout == "\n".join(following.lines) + "\n", f"it prints\n{done.stdout}")
    return True


def sample_outputs(shell):
    """What the programs print on the samples of the repository, and the bytes that clean leaves."""
    outputs, files = [], []
    for name, words in SAMPLES.items():
        if shell.missing(f"target/bin/{name}"):
            skip("samples", f"there is no {name}")
            continue
        outputs.append(shell.run(f"target/bin/{name} {' '.join(words)} < crates/{name}/stdin").stdout.split("\n"))
    if shell.missing("target/bin/clean"):
        skip("samples", "there is no clean")
    else:
        outputs.append(shell.run("target/bin/clean 1 crates/clean/data/doors target/sample").stdout.split("\n"))
        for path in ("crates/clean/data/doors", os.path.join(shell.folder, "target/sample")):
            with open(path, "rb") as file:
                files.append(file.read())
    return outputs, files


def in_order(lines, output):
    rest = iter(output)
    return all(line in rest for line in lines)


def is_printed(line):
    return re.match(r"tick \d+: read |verdict \d|\d+( \d+){4} [EF]{2}$|input: |output: |(location|rule) \d+: |left \d+ bytes$", line)


# The policies of the pages.


def letters(draft, event):
    on = [tag for bit, tag in enumerate(draft.inputs) if event >> bit & 1]
    on += [tag for bit, tag in enumerate(draft.outputs) if event >> 4 + bit & 1]
    return "".join(on) or "-"


def event_of(draft, word):
    event = 0
    for tag in word.replace("-", ""):
        event |= 1 << draft.inputs.index(tag) if tag in draft.inputs else 16 << draft.outputs.index(tag)
    return event


def draft_of_block(block):
    try:
        return draft_of("\n".join(block.lines))
    except ValueError as problem:
        sys.exit(f"no longer so: {block.where}: not a policy's text: {problem}")


def readings_named(words):
    return [1, 2] if "both readings" in words else [int(re.search(r"reading (\d)", words, re.I).group(1))]


def verdict_of(library, reading, file):
    try:
        verdict, states, live, _ = library.prepare(reading, file)
        return f"verdict {verdict}, {states} state{'' if states == 1 else 's'}, {live} live"
    except Refused as refused:
        return str(refused)


class PolicyPage:
    """A page of policies: a text, its bytes, its verdict, then streams. Every text must have all of them."""

    def __init__(self, page, library):
        self.page, self.library = page, library
        self.draft = self.file = self.read = None
        self.wanted = []

    def whole(self):
        hold(self.page, not self.wanted, f"before this the last policy lacks {', '.join(self.wanted)}")
        self.wanted = []

    def block(self, block):
        if block.is_policy_text():
            self.whole()
            self.page = block.where
            self.draft, self.file = draft_of_block(block), None
            self.wanted = ["its bytes", "its verdict", "a stream under reading 1", "a stream under reading 2"]
        elif block.is_hex():
            printed = [bytes.fromhex(line) for line in block.lines]
            hold(block.where, printed == self.draft.sections(), "these bytes are not those of the text above, section by section and rule by rule")
            self.file = b"".join(printed)
            self.had("its bytes")

    def had(self, what):
        if what in self.wanted:
            self.wanted.remove(what)

    def line(self, where, line):
        if re.match(r"(Reading \d: )?[Vv]erdict \d, ", line):
            for part in re.findall(r"(?:Reading \d: )?[Vv]erdict [^.]*", line):
                said = re.search(r"[Vv]erdict \d+, \d+ states?, \d+ live", part).group(0).lower()
                for reading in readings_named(part):
                    found = verdict_of(self.library, reading, self.file)
                    hold(where, found == said, f"under reading {reading}: {found}")
            self.had("its verdict")
        cells = [cell.strip() for cell in line.strip("|").split("|")]
        if line.startswith("| read |"):
            self.read = cells[1:]
        elif line.startswith("| released, "):
            events = [event_of(self.draft, word) for word in self.read]
            for reading in readings_named(cells[0]):
                released = [letters(self.draft, event) for event in self.library.run(reading, self.file, events)]
                shown = [one if one == letters(self.draft, event) else f"**{one}**" for one, event in zip(released, events)]
                hold(where, cells[1:] == shown, f"under reading {reading} is released: {' | '.join(shown)}")
                self.had(f"a stream under reading {reading}")


def clause_text(signals, clause, last=None):
    """The text of a clause of the table of joins: `never` one thing or several, or a deadline of four rules, or of more with other last ones."""
    never = re.fullmatch(r"never ((?:`[^`]*`(?:, )?)+)", clause)
    if never:
        rules = "".join(f"{condition} -> violation\n" for condition in re.findall(r"`([^`]*)`", never.group(1)))
        return f"{signals}location all\nat all\n{rules}any -> all\n"
    late, ticks, cause = re.fullmatch(r"`(\w+)` within (\d+) ticks after `(\w+)`", clause).groups()
    return (f"{signals}clock age {int(ticks) - 1}\nlocation quiet\nlocation due\nat quiet\n{cause} !{late} -> due reset age\nany -> quiet\n"
            f"at due\n{late} -> quiet\n" + (last or "age <= {} -> due\n").format(int(ticks) - (1 if last else 2)))


def joined(library, files, reading):
    """After each file the number of rules of all so far; cleaned after each join under the reading, if one is named."""
    whole, counts = None, []
    for file in files:
        try:
            whole = file if whole is None else library.join(whole, file)
            whole = library.clean(reading, whole) if reading else whole
            counts.append(str(rules_in(whole)))
        except Refused as refused:
            return counts + [str(refused)]
    return counts


def check_joins(page, library):
    lines = read(page)
    rows = [[cell.strip() for cell in line.strip("|").split("|")] for line in lines if re.match(r"\| \d+ \| (never|`)", line)]
    said = next(line for line in lines if line.startswith("Beyond a limit the join is refused"))
    inputs, outputs = re.search(r"over the inputs ([^.]*?) and the outputs ([^.]*?)\. ", said).groups()
    signals = "".join(f"{kind} {signal}\n" for kind, names in (("input", inputs), ("output", outputs)) for signal in names.split(", "))
    files = [file_of(clause_text(signals, row[1])) for row in rows]
    nevers = [row[1] for row in rows if row[1].startswith("never")]
    one = file_of(clause_text(signals, "never " + ", ".join(row[6:] for row in nevers)))
    deadlines = files[len(nevers):]
    for reading in (1, 2):
        columns = [joined(library, files, 0), joined(library, files, reading),
                   [""] * (len(nevers) - 1) + joined(library, [one] + deadlines, reading)]
        for number, row in enumerate(rows):
            found = [column[number] if number < len(column) else "" for column in columns]
            hold(f"{page}, joins, row {number + 1}", row[2:] == found, f"under reading {reading}: {found}")
    text = "\n".join(lines)
    alone = joined(library, deadlines, 0)
    for ticks in (re.search(r"join to (\d+) rules", text), re.search(r"a fourth still fits \((\d+)\)", text)):
        hold(page, ticks is not None and ticks.group(1) in alone[2:4], f"deadlines alone join to {alone}")
    written = [file_of(clause_text(signals, row[1], "age >= {} -> violation\nany -> due\n")) for row in rows[len(nevers):]]
    said = re.search(r"With five rules each, three make (\d+), and the fourth is refused", text)
    alone = joined(library, written, 0)
    hold(page, said is not None and alone[2:] == [said.group(1), "refused 13"], f"deadlines of five rules join to {alone}")


def check_policies(page, library, shell):
    policies = PolicyPage(page, library)
    blocks = {int(block.where.split(":")[1]): block for block in blocks_of(page)}
    pending = None
    for number, line in enumerate(read(page), 1):
        block = blocks.get(number)
        if pending and block:
            hold(block.where, pending == "\n".join(block.lines) + "\n", f"it prints\n{pending}")
            pending = None
        elif block and block.is_command():
            command = "\n".join(block.lines)
            for name in re.findall(r"[\w.]+\.hex", command):
                with open(os.path.join(shell.folder, name), "w", encoding="ascii") as file:
                    file.write(policies.file.hex())
            if shell.missing(command):
                skip(block.where, f"not run, there is no {', '.join(shell.missing(command))}")
                pending = None
                blocks = {at: one for at, one in blocks.items() if one.is_policy_text() or one.is_hex() or one.is_command()}
                continue
            done = shell.run(command)
            hold(block.where, done.returncode == 0 and not done.stderr, done.stderr)
            pending = done.stdout or None
        elif block:
            policies.block(block)
            hold(block.where, block.is_policy_text() or block.is_hex(), "a block that nothing checks")
        else:
            policies.line(f"{page}:{number}", line)
    policies.whole()


def check_wave(block, library):
    """The wave of C-INTERFACE: the text that is written for S and the events named above it."""
    policy = bytes.fromhex("02 41 42 01 52 00 01 00 00 03  00 03 03 00 00 00 FF  00 02 02 01 01 00 FF  00 00 00 00 00 00 00")
    events = bytes.fromhex(re.search(r"the events `([0-9A-F ]+)`", block.before).group(1))
    written = library.wave(policy, events)
    hold(block.where, written == "\n".join(block.lines) + "\n", f"it is\n{written}")


def sample_named(block):
    """The file of the sample of the scope that the line before a block names, as in **S**, ..:"""
    with open("independent/src/samples.rs", encoding="utf-8") as file:
        samples = dict(re.findall(r'pub const (\w): &str = "([0-9A-F\s\\]+)";', file.read()))
    name = re.match(r"\*\*([A-Z])\*\*, ", block.before)
    return bytes.fromhex(samples[name.group(1)].replace("\\", "")) if name else None


def check_page(page, shell, library, crates, outputs, files):
    blocks = blocks_of(page)
    texts = []
    printed = None
    for block, following in zip(blocks, blocks[1:] + [None]):
        if block is printed:
            continue
        if block.is_command():
            if run_block(block, following, shell, crates):
                printed = following
        elif block.is_hex():
            hold(block.where, block.bytes() in files or not files, "no sample and no file that a program leaves has these bytes")
        elif block.is_policy_text() and sample_named(block):
            hold(block.where, b"".join(draft_of_block(block).sections()) == sample_named(block), "this text gives another file than the sample")
        elif block.is_policy_text() and page == "docs/POLICY-FILE.md":
            continue  # its texts are held against their bytes (check_file_page)
        elif block.is_policy_text():
            texts.append(b"".join(draft_of_block(block).sections()))
            hold(block.where, texts[-1] == texts[0], "this text gives another file than the first of the page")
            hold(block.where, verdict_of(library, 1, texts[-1]).startswith("verdict"), verdict_of(library, 1, texts[-1]))
        elif block.first_word() == "$timescale":
            check_wave(block, library)
        elif all(is_printed(line) for line in block.lines):
            hold(block.where, not outputs or any(in_order(block.lines, output) for output in outputs), "no program prints these lines on its sample")
        elif re.search(r"\bN\b|^clean \d ", block.lines[0]):
            pass  # a form, not a line
        elif block.first_word() in crates:
            named = {line.split()[0] for line in block.lines if not line.startswith("-")}
            hold(block.where, named == crates, f"the crates are otherwise: {sorted(named ^ crates)}")
        elif page == "example/README.md":
            pass  # example/try.sh compares these
        else:
            hold(block.where, False, "a block that nothing checks")


# Links, names of files, numbers.


def check_links(pages):
    beside = [page for page in ("bench/README.md", "cross/README.md", "independent/README.md") if os.path.exists(os.path.join(PAGES, page))]
    for page in pages + beside:
        for number, line in enumerate(read(page), 1):
            for link in re.findall(r"\]\(([^)#\s]+)(?:#[^)]*)?\)", line):
                if "://" not in link:
                    path = os.path.normpath(os.path.join(os.path.dirname(page), link))
                    hold(f"{page}:{number}", os.path.exists(path), f"no file {link}")
            if page.startswith(("docs/CHANGES", "docs/DECISIONS")):
                continue  # they tell of files that were
            for path in re.findall(r"`((?:tools|crates|include|example|docs|bench|cross|independent)/[\w./-]+)`", line):
                hold(f"{page}:{number}", os.path.exists(path), f"no file {path}")


def check_tender(page):
    text = "\n".join(read(page))
    for name, path in TENDER.items():
        if not os.path.exists(path):
            skip(page, f"the hash of {name}: there is no {path}")
            continue
        with open(path, "rb") as file:
            found = hashlib.sha256(file.read()).hexdigest()
        said = re.search(rf"^\| {name} \| .*`([0-9a-f]{{64}})`", text, re.M)
        hold(page, said is not None and said.group(1) == found, f"the hash of {name} is {found}")


def check_kit(page):
    said = re.search(r"`rt version` prints `([^`]*)`", "\n".join(read(page)))
    if os.environ.get("RT") == "no" or not shutil.which("rt"):
        skip(page, "the kit's identity: rt was not asked")
        return
    found = subprocess.run(["rt", "version"], capture_output=True, text=True, check=False).stdout
    hold(page, said is not None and said.group(1) in found, f"rt version prints {found.strip()}")


def check_axioms(page, target):
    """How many C functions a program's check counts, as the toolchain's own log has it."""
    for line in read(page):
        row = re.match(r"\s*\| (`.*?`) \| `axioms=(\d+)` \|", line)
        for name in re.findall(r"`(\w+)`", row.group(1)) if row else []:
            log = os.path.join(target, "log", name + ".out")
            if not os.path.exists(log):
                skip(page, f"the C functions of {name}: there is no {log}")
                continue
            with open(log, encoding="utf-8") as file:
                found = re.findall(r"axioms=(\d+)", file.read())
            hold(page, found == [row.group(2)], f"the check of {name} counts {found}")


def check_stops(page):
    """Each stop of the auditor's hour names files, and in them what to look at; and the minutes make an hour."""
    minutes = 0
    for line in read(page):
        stop = re.match(r"\d\. \*\*.*\*\* \((\d+) minutes\)\. (.*)", line)
        if not stop:
            continue
        minutes += int(stop.group(1))
        quoted = re.findall(r"`([^`]+)`", stop.group(2))
        text = ""
        for path in [one for one in quoted if one.startswith("crates/")]:
            with open(path, encoding="utf-8") as file:
                text += file.read()
        for name in [one for one in quoted if not one.startswith("crates/")]:
            hold(page, re.search(rf"\b{re.escape(name)}\b", text), f"{name} stands in none of the files of its stop")
    hold(page, minutes == 60, f"the stops take {minutes} minutes")


def check_refusals(page, text_page):
    """Every refusal of the header, and every one of a policy's text, has a row; and no row is without one."""
    with open("include/groovepawn.h", encoding="utf-8") as file:
        header = {int(number) for number in re.findall(r"GROOVEPAWN_REFUSED_\w+ = (\d+)", file.read())}
    of_text = {int(number) for number in re.findall(r"^\| (\d+) \|", "\n".join(read(text_page)), re.M)}
    rows = [int(number) for number in re.findall(r"^\| (\d+) \|", "\n".join(read(page)), re.M)]
    hold(page, len(rows) == len(set(rows)) and set(rows) == header | of_text, f"rows and refusals differ in {sorted(set(rows) ^ (header | of_text))}")


def check_helper(samples):
    """The helper that reads texts, held against the texts and files of which it is proved that they say the same."""
    with open(samples, encoding="utf-8") as file:
        source = file.read()
    files = {name.lower(): bytes.fromhex("".join(re.findall(r"0x(..)", body))) for name, body in re.findall(r"^(\w+) =\s+((?:0x..\s+∷\s+)+)\[\]", source, re.M)}
    texts = re.findall(r'^(?:text|written|letters)_(\w+) = ascii "(.*)"$', source, re.M)
    hold(samples, len(texts) >= 5, f"only {len(texts)} texts are found")
    for name, text in texts:
        text = re.sub(r"\\([ntr])", lambda one: {"n": "\n", "t": "\t", "r": "\r"}[one.group(1)], text)
        hold(samples, file_of(text) == files.get(name.lower()), f"tools/policy_text.py gives another file for a text of {name}")


def check_file_page(page):
    """The bytes of POLICY-FILE's table are those that its command puts into the program."""
    lines = read(page)
    table = "".join(re.match(r"\| `([0-9A-F ]+)` \|", line).group(1) for line in lines if re.match(r"\| `[0-9A-F]{2} ", line))
    octal = [int(digits, 8) for line in lines for digits in re.findall(r"\\(\d{3})", line)]
    hold(page, bytes(octal[2:2 + len(bytes.fromhex(table))]) == bytes.fromhex(table), "the table and the command have different bytes")
    texts = [file_of("\n".join(block.lines)) for block in blocks_of(page) if block.is_policy_text()]
    written = [files_in(line)[0] for line in lines if line.startswith("As bytes: ")] + [bytes.fromhex(table)]
    hold(page, texts == written, "a text of the page gives other bytes than those beside it")


def files_in(line):
    """The policy that stands in a line as bytes between backquotes, the head and then each rule; from `rules` on they are those of one policy."""
    return [bytes.fromhex("".join(re.findall(r"`([0-9A-F ]+)`", part))) for part in re.findall(r"`[0-9A-F ]+`, (?:with the )?rules[^;|]*", line)]


def bytes_in(cells):
    return bytes.fromhex("".join(re.match(r"`([0-9A-F]{2})`", cell).group(1) for cell in cells))


def check_annex(page, library):
    """The clauses of ANNEX, their joins, and what each enforcer releases: alone, together and in a row."""
    lines = read(page)
    clause = {}
    for line in lines:
        named = re.match(r"\| (A|B)(?: joined with (B))?(?::|\s\|)", line)
        if named and files_in(line):
            clause["".join(name for name in named.groups() if name)] = files_in(line)[0]
        if line.startswith("C is `"):
            clause["C"], clause["AC"] = files_in(line)
    hold(page, sorted(clause) == ["A", "AB", "AC", "B", "C"], f"of the policies there are {sorted(clause)}")
    for other in "BC":
        hold(page, library.join(clause["A"], clause[other]) == clause["A" + other], f"A joined with {other} has other bytes")
    rows = [[cell.strip() for cell in line.strip("|").split("|")] for line in lines if line.startswith("|")]
    wanted = bytes_in(next(row for row in rows if row[0] == "read")[1:])
    for reading in (1, 2):
        def release(name, events):
            return library.run(reading, clause[name], events)

        together = release("AB", wanted)
        for row in rows:
            for words, name, events in (("released by the join's enforcer", "AB", wanted), ("that, through A's", "A", together), ("that, through B's", "B", together)):
                if row[0].startswith(words):
                    hold(page, bytes_in(row[1:]) == release(name, events), f"{row[0]}: {release(name, events).hex(' ')}")
            second = re.match(r"(B|C): ", row[0])
            if second and len(row) == 4:
                alone = release("A", b"\x10")
                found = alone + release(second.group(1), alone) + release("A" + second.group(1), b"\x10")
                hold(page, bytes_in(row[1:]) == found, f"in a row with {second.group(1)}: {found.hex(' ')}")
        said = re.search(r"A alone releases `([0-9A-F ]+)` for `([0-9A-F ]+)`, and of that the join's enforcer makes `([0-9A-F ]+)`", "\n".join(lines))
        alone, events, both = (bytes.fromhex(part) for part in said.groups())
        hold(page, release("A", events) == alone and release("AB", alone) == both, "what A alone releases, and the join of that")


def check_transfer(page, library):
    """POLICY-FILE's transfer that must be able to end: all events pass, and without its third rule B is turned off."""
    (file,) = [files_in(line)[0] for line in read(page) if line.startswith("As bytes: ")]
    rules = [file[at:at + 7] for at in range(len(file) - 28, len(file), 7)]
    without = file[:len(file) - 29] + b"\x03" + b"".join(rules[:2] + rules[3:])
    for reading in (1, 2):
        streams = [bytes([a, b, c]) for a in (0, 1, 16, 17) for b in (0, 1, 16, 17) for c in (0, 1, 16, 17)]
        hold(page, all(library.run(reading, file, events) == events for events in streams), "the transfer is edited")
        hold(page, library.run(reading, without, b"\x01") == b"\x00", "without its third rule B is not turned off")


def check_deadline(pages, library):
    """Sample D, wherever a page says what becomes of R and four quiet ticks."""
    file = bytes.fromhex("".join(re.match(r"\| `([0-9A-F ]+)` \|", line).group(1) for line in read("docs/POLICY-FILE.md") if re.match(r"\| `[0-9A-F]{2} ", line)))
    released = {library.run(reading, file, bytes([1, 0, 0, 0, 0])).hex(" ") for reading in (1, 2)}
    for page in pages:
        said = {one for line in read(page) if "`01 00 00 00 00`" in line or "reading 2 the clock is read as 3" in line for one in re.findall(r"`((?:[0-9A-F]{2} ){4}[0-9A-F]{2})`", line)}
        hold(page, said <= released | {"01 00 00 00 00"}, f"D releases {sorted(released)}")


def main():
    target = os.path.abspath(sys.argv[1])
    archive = os.path.join(target, "staticlib", "libgroovepawn.a")
    if not os.path.exists(archive):
        sys.exit(f"check-documents: there is no {archive}: tools/build.sh groovepawn")
    with open("crates.txt", encoding="utf-8") as file:
        crates = {line.split()[0].rstrip(":") for line in file if line.strip() and not line.startswith("#")}
    pages = ["README.md"] + sorted(os.path.relpath(path, PAGES) for path in glob.glob(os.path.join(PAGES, "docs/*.md"))) + ["example/README.md"]
    library = Library(archive)
    with tempfile.TemporaryDirectory() as folder:
        shell = Shell(target, folder)
        outputs, files = sample_outputs(shell)
        for page in pages:
            if page == "docs/WRITING-POLICIES.md":
                check_policies(page, library, shell)
                check_joins(page, library)
            else:
                check_page(page, shell, library, crates, outputs, files)
        examples = subprocess.run(["example/try.sh", archive], capture_output=True, text=True, check=False)
        hold("example/README.md", examples.returncode == 0, examples.stdout + examples.stderr)
    check_annex("docs/ANNEX.md", library)
    check_transfer("docs/POLICY-FILE.md", library)
    check_deadline(["docs/POLICY-FILE.md", "docs/C-INTERFACE.md"], library)
    check_links(pages)
    check_tender("docs/AUDIT.md")
    check_kit("docs/AUDIT.md")
    check_axioms("docs/AUDIT.md", target)
    check_stops("docs/AUDIT.md")
    check_refusals("docs/REFUSALS.md", "docs/POLICY-TEXT.md")
    check_file_page("docs/POLICY-FILE.md")
    check_helper("crates/wording/specs/Samples.antt")
    for line in skipped:
        print(f"skipped: {line}")
    for line in faults:
        print(f"no longer so: {line}")
    print(f"{held} hold, {len(faults)} no longer, {len(skipped)} skipped")
    sys.exit(1 if faults else 0)


main()
