#!/usr/bin/env python3
"""The reading list of docs/PROMISES.md: every definition that a promise rests on, by the files that hold them.

    tools/reading-list.py            is the list right, and is every name there that the pages cite?
    tools/reading-list.py --write    write the list

A promise rests on the definitions that its statement names, and on those that they name in turn. Proofs are not followed, nor the library. The promises
are what docs/PROMISES.md cites; a name `crate: Module.name` is in crates/<crate>/specs/<Module>.antt, or in proofs/<Module>.antt. A file that holds little else is listed as a whole, with its lines but for the imports; what stands among theorems is
listed by its name.

Without an argument it also says
- which names docs/PROMISES.md and docs/DECISIONS.md cite that are not there, or not where they are said to be;
- which entries have a promise that tender's `Demand1`, where they stand together, has not;
- which public functions are neither in the table of entries of PROMISES nor in DECISIONS' list of those that are none, and what these two have that
  is no public function.
"""
import collections
import glob
import os
import re
import sys

sys.dont_write_bytecode = True
os.chdir(os.path.join(os.path.dirname(os.path.abspath(__file__)), ".."))
from sources import code_names, public_functions  # noqa: E402
from specs import closure, files_of, home_of, is_letter, modules  # noqa: E402

PROMISES, DECISIONS = "docs/PROMISES.md", "docs/DECISIONS.md"
HEAD, END = "## What to read\n", "## The meaning\n"

# The parts of the list: a title, the crates (or modules of one) whose entries belong to it, and the sections whose citations do.
PARTS = [
    ("Demands 1 to 3, and the library's entries in 01", "", []),
    ("The program `enforce` and the C interface", "printing readings frames console groovepawn:Calls groovepawn:Words", ["The program `enforce` and the C interface"]),
    ("The second engine (8/13)", "paths fast groovepawn:Fast", []),
    ("The rule index (12/13)", "index indexed groovepawn:Indexed", ["The rule index (12/13)"]),
    ("Several bays (10/13)", "bays groovepawn:Bays", ["Several bays (10/13)"]),
    ("Meter (11/13)", "meter groovepawn:Meter", ["Meter (11/13)"]),
    ("Wave viewer (4/13)", "drawing tracing waves viewer groovepawn:Waves", ["Wave viewer (4/13)"]),
    ("Cleaning (9/13)", "usage cleaning listing groovepawn:Clean", ["Cleaning (9/13)"]),
    ("Why a half was edited (2/13)", "counting explaining reasons sentences telling asks groovepawn:Why", ["Why a half was edited (2/13)"]),
    ("A policy as text", "wording words conditions phrases declarations compiling pointing rule_text showing translating groovepawn:Text", ["A policy as text"]),
    ("Adding a clause never loosens one (13/13)", "", ["Adding a clause never loosens one (13/13)"]),
    ("What the other tables cite", "", None),
]
ENTRIES, NO_ENTRIES = "The public entries (demand 1)", "Public functions that are no entries"
TOGETHER = ("tender", "Demand1")
# The demands, and the policy that permits all, of which demand 3 speaks.
DEMANDS = [(("tender", "Demand2"), "Demand2"), (("tender", "Demand3"), "Demand3"), (("join", "Free"), "free"), (("join", "Free"), "free_file")]

crates = {crate for crate, _ in modules} | {path.split("/")[1] for path in glob.glob("crates/*/src")}
code = code_names()
CODE_ANYWHERE = {name for _, name in code}
C_NAMES = {name for path in glob.glob("include/*.h") for name in re.findall(r"\b\w*(?:groovepawn|GROOVEPAWN)_\w+", open(path).read())}
# Words of the language, of the toolchain and of the system, and the mark at the head of a file of stored cases.
LANGUAGE = set("ensures requires unfolding pub self const static inline u8 u16 u32 u64 usize main rt std create_new set_len memset GPV2".split())
LIBRARY = ("std", "os", "io", "libc")


def spans(line):
    """What a line cites: (crate, module, name, dotted), the crate and module as they stand at that point of the line: crate: `Module.name`, `name`, ..
    A crate that is named in parentheses is named for what stands in them."""
    crate = key = None
    outside = []
    for word in re.finditer(r"(\w+): (?=`)|`([^`]+)`|[()]", line):
        if word[0] == "(":
            outside.append((crate, key))
        elif word[0] == ")":
            crate, key = outside.pop() if outside else (crate, key)
        elif word[1] in crates:
            crate, key = word[1], None
        if not word[2]:
            continue
        dotted = re.match(r"([A-Z]\w*)\.([^\s.]+)$", word[2])
        if crate and dotted:
            key = (crate, dotted[1])
        name = dotted[2] if dotted else word[2]
        if crate and not dotted and files_of((crate, name)) and not (key and home_of(key, name)):
            key = (crate, name)
        yield crate, key, name, dotted and dotted[1]


def cited(line):
    """The declarations that a line of PROMISES cites. A module alone stands for all that it declares."""
    for crate, key, name, dotted in spans(line):
        if not dotted and key == (crate, name) and not home_of(key, name):
            for module in files_of(key):
                for each in module.decls:
                    yield module.key, each
        elif key and home_of(key, name):
            yield home_of(key, name)


def roots_of_parts(text):
    roots = [set() for _ in PARTS]
    roots[0] |= set(DEMANDS)
    place = {where: i for i, part in enumerate(PARTS) for where in part[1].split()}
    section_of = {section: i for i, part in enumerate(PARTS) for section in part[2] or []}
    section = None
    for line in text.split("\n"):
        if line.startswith("## "):
            section = line[3:]
        names = set(cited(line))
        if section == ENTRIES and line.startswith("| "):
            # An entry has four columns. The steps below the entries have two: nobody has to believe them.
            if line.count(" | ") < 3:
                continue
            at = max([place.get(key[0], place.get(":".join(key), 0)) for key, _ in names] or [0])
            roots[at] |= names
        elif section:
            roots[section_of.get(section, len(PARTS) - 1)] |= names
    return roots


def order():
    crates = [line.split(":")[0].split()[0] for line in open("crates.txt") if not line.startswith("#")]
    for crate in crates:
        for folder, mark in (("specs", ""), ("proofs", "proofs.")):
            lib = f"crates/{crate}/{folder}/Lib.antt"
            for name in re.findall(r"^(?:pub )?mod (\S+)$", open(lib).read(), re.M) if os.path.exists(lib) else []:
                yield crate, mark + name


def purpose(module):
    comment = []
    for line in module.lines:
        if not line.startswith("-- "):
            break
        comment.append(line[3:])
    return " ".join(comment).replace("|", "\\|")


def first_sentence(text):
    return re.split(r"(?<=[.;:]) (?=[A-Z`\"])", text)[0].rstrip(":;")


def the_list(text):
    whole, named, types, out, sums = set(), set(), set(), [], []
    for (title, _, _), roots in zip(PARTS, roots_of_parts(text)):
        reached = closure(roots)
        by_file = collections.defaultdict(set)
        for key, name in reached:
            if key in modules and key not in whole and (key, name) not in named and modules[key].decls[name][0] != "theorem":
                by_file[key].add(name)
        rows, total = [], 0
        for key in order():
            if key not in by_file:
                continue
            module = modules[key]
            lines = {i for name in by_file[key] for i in range(*module.stated(name))}
            all_lines = {i for name in module.decls for i in range(module.decls[name][1], module.decls[name][2])}
            path = f"[{key[0]}: `{key[1].removeprefix('proofs.')}`](../{module.path})"
            if 2 * len(lines) >= len(all_lines) or len(module.lines) < 60:
                whole.add(key)
                rows.append((path, module.length, first_sentence(purpose(module))))
                total += module.length
            else:
                named |= {(key, name) for name in by_file[key]}
                listed = [name for _, name in sorted((module.decls[name][1], name) for name in by_file[key]) if not is_letter(name)]
                if listed:
                    rows.append((path, len(lines), "of it " + ", ".join(f"`{name}`" for name in listed)))
                    total += len(lines)
        code = collections.defaultdict(list)
        for key, name in sorted(reached):
            if key[1].startswith("declared.") and "TheVariants" not in key[1] and (key, name) not in types:
                types.add((key, name))
                pieces = key[1].split(".")[1:-1]
                code[f"crates/{key[0]}/src/{pieces[0] if pieces else 'lib'}.rt"].append(name)
        if rows or code:
            sums.append((title, total))
            out.append(f"### {title}: {total} lines\n")
            out += ["| File | Lines | What it says |", "|---|---|---|"] + [f"| {a} | {b} | {c} |" for a, b, c in rows] + [""]
            if code:
                said = "; ".join(f"{', '.join(f'`{n}`' for n in names)} in `{path}`" for path, names in code.items())
                out += [f"The code's own types that these name: {said}.", ""]
    return out, sums


# Are the names there?


def declared_in(crate, name):
    """Whether a crate (or, without one, any) declares the name, in specs/, in proofs/ or in its code, or has a module of that name."""
    for at in {crate} if crate else crates:
        if (at, name) in code or files_of((at, name)):
            return True
        if any(name in module.decls or name in module.makes or name in module.fields for key, module in modules.items() if key[0] == at):
            return True
    return False


def path_there(name):
    """A path from the top, or the end of one."""
    return os.path.exists(name) or any(glob.glob(f"{top}/**/{name}", recursive=True) for top in set(os.listdir()) - {"target"})


def is_there(crate, key, name, dotted):
    """Whether a page may cite this. What is no name, a command or some bytes, is not looked for."""
    if dotted:
        return bool(key and home_of(key, name)) or (not crate and any(home_of((at, dotted), name) for at in crates))
    name = re.sub(r"\(.*\)$", "", name)
    if re.search(r"[\s&$#^\[≡]|^[\d{<]", name) or name in LANGUAGE or is_letter(name):
        return True
    if name in crates or "/" in name or re.search(r"\.(rt|antt|md|sh|py|c|h|rs|a|vcd|txt)$", name):
        return name in crates or path_there(name)
    if "::" in name:
        first, *rest = name.split("::")
        return first in LIBRARY or all(declared_in(first if first in crates else None, each) for each in ([] if first in crates else [first]) + rest)
    if name in C_NAMES or (name.startswith("_") and "groovepawn" + name in C_NAMES):
        return True
    if key and home_of(key, name):
        return True
    if not crate:
        return declared_in(None, name)
    return name in CODE_ANYWHERE or files_of((crate, name)) or any(name in module.fields for at, module in modules.items() if at[0] == crate)


def check_names(path, text):
    for number, line in enumerate(text.split("\n"), 1):
        for crate, key, name, dotted in spans(line):
            if path == PROMISES and not crate and (dotted or re.fullmatch(r"[\w-]+-[\w-]+", name)) and not line.startswith("#"):
                yield f"{path}:{number}: `{dotted + '.' if dotted else ''}{name}` is cited without its crate, so the list leaves it out"
            if not is_there(crate, key, name, dotted):
                where = ".".join(key) if key else crate or "any crate"
                yield f"{path}:{number}: `{dotted + '.' if dotted else ''}{name}` is not there, looked for in {where}"


def section(text, title):
    return text.split(f"\n## {title}\n")[1].split("\n## ")[0]


def functions_of(cell, public):
    """The public functions that the first cell of a row names: `crate::name(..)`, `Type::name(..)`, `groovepawn_a`, `_b`, or `name` (crate c)."""
    of = re.search(r"\(crate (\w+)\)", cell)
    for span in re.findall(r"`([^`]+)`", cell):
        *before, name = re.sub(r"\(.*", "", span).split("::")
        name = "groovepawn" + name if name.startswith("_") else name
        fits = [
            each
            for each in public
            if each.name == name and (not of or each.crate == of[1]) and all(part in (each.crate, each.module, each.type) for part in before)
        ]
        if len(fits) == 1 and (of or before or fits[0].crate == "groovepawn"):
            yield fits[0]
        else:
            yield span


def entry_rows(promises):
    return [line for line in section(promises, ENTRIES).split("\n") if line.startswith("| ") and line.count(" | ") == 3 and not line.startswith("| Entry")]


def check_together(promises):
    """"All of them together": the promise of each entry, or where it is an equation the definition, can be had from one module."""
    together = {home_of(TOGETHER, name) for name in modules[TOGETHER].names}
    for row in entry_rows(promises):
        ends = [len(list(spans(" | ".join(row.split(" | ")[:cells])))) for cells in range(1, 4)]
        homes = [key and home_of(key, name) for _, key, name, _ in spans(row)]
        promises_of, definitions = (set(filter(None, homes[a:b])) for a, b in ((ends[1], ends[2]), (ends[0], ends[1])))
        for home in promises_of or (set() if definitions & together else definitions):
            if home not in together:
                yield f"{PROMISES}: {home[0][0]} `{home[0][1]}.{home[1]}` is the promise of an entry, and {TOGETHER[0]} `{TOGETHER[1]}` has it not"


def check_functions(promises, decisions):
    public, listed = public_functions(), set()
    entries = entry_rows(promises)
    others = [line for line in section(decisions, NO_ENTRIES).split("\n") if line.startswith("| `")]
    for path, rows in ((PROMISES, entries), (DECISIONS, others)):
        for row in rows:
            for function in functions_of(row.split(" | ")[0], public):
                listed.add(function)
                if isinstance(function, str):
                    yield f"{path}: `{function}` is listed and is no public function, or its crate is not said"
    for row in others:
        first, *_, last = row.split(" | ")
        for function in functions_of(first, public):
            text = "" if isinstance(function, str) else "".join(open(path).read() for path in glob.glob(f"crates/{function.crate}/src/**/*.rt", recursive=True))
            for name in re.findall(r"`([A-Z]\w+)`", last):
                if not isinstance(function, str) and not re.search(r"\b%s\b" % name, text):
                    yield f"{DECISIONS}: `{name}` is said of {function.name}, and nothing in crates/{function.crate}/src names it"
    for function in sorted(set(public) - listed, key=str):
        name = "::".join(filter(None, (function.crate, function.type, function.name)))
        yield f"`{name}` is public, and is neither an entry of {PROMISES} nor in {DECISIONS}'s list"


def main():
    text, decisions = open(PROMISES).read(), open(DECISIONS).read()
    a, b = text.index(HEAD), text.index(END)
    rest = text[b:]
    out, sums = the_list(rest)
    intro = text[a + len(HEAD) : b].split("\n### ")[0].rstrip("\n")
    new = HEAD + intro + "\n\n" + "\n".join(out) + "\n"
    for title, total in sums:
        print(f"{total:5d}  {title}")
    if "--write" in sys.argv:
        open(PROMISES, "w").write(text[:a] + new + rest)
        return
    faults = [] if text[a:b] == new else ["the reading list is not the one that the promises make: tools/reading-list.py --write"]
    blank = "\n" * text[:b].count("\n")
    faults += [*check_names(PROMISES, blank + rest), *check_names(DECISIONS, decisions), *check_functions(text, decisions), *check_together(text)]
    if faults:
        sys.exit("\n".join(faults))


main()
