#!/usr/bin/env python3
"""Brings the repository's own definitions and lemmas to today's spelling, after port.py.

usage: python3 tools/port-names.py            in a checkout: renames, and says which names kept a dash
       python3 tools/port-names.py --check    names that an own module does not give, names that fall together, reserved names

Words are in snake_case, `maskGood` is `mask_good` and `first-refused` is `first_refused`; names that begin with an upper-case letter, and names of std, of Rust and of the generated modules, keep their spelling.
Where a lemma would get the name of another thing in the same file, it keeps its dash everywhere.
On a tree that has the spelling already it changes nothing.
"""

import os
import re
import sys
from collections import Counter, defaultdict

# Names that are not turned by the rule, old to new.
SPECIAL = {"inARow": "in_a_row"}
# Lemmas that port.py respelled since std has a lemma of the same name. Where the definition in camel case stands in the same file, the lemma has its dash again.
BACK = {
    "agree_at": "agreeAt",
    "by_name": "byName",
    "count_at": "countAt",
    "from_start": "fromStart",
    "is_state": "isState",
    "takes_at": "takesAt",
}
# As names of definitions; `rules` is a field in places, which is accepted.
RESERVED = set("""open data record in as where search ruleset rw simp omega grind cc assumption ground elim use pub module abbrev
unfoldable unfolding infix infixl infixr syntax tt Unit absurd mod hlevel first_of ghost exact""".split())
# Names with a middle dot, which port.py left: a namespace is a module.
DOTTED = (
    ("use Rattle.std.proofs.Math.Logic.{Iff·trans}", "use Rattle.std.proofs.Math.Logic.Iff"),
    ("Iff·trans", "Iff.trans"),
    ("Text·letter", "text_letter"),
)
# Modules that Rattle makes: their names are not the repository's.
MADE = re.compile(r"\.(declared|contracts|Statement|Tie|Needs|Goals|TheVariants|TheLaws|Symbol|Key|Met|Reads|Kinds)(\.|$)|\.\+|\.proofs\..*\.Code$")
# A comment, a string, a name, or one other character.
TOKEN = re.compile(r"""--[^\n]*|"(?:\\.|[^"\\\n])*"|[^\s(){}\[\];,."]+|\s+|.""", re.S)
RUST_TOKEN = re.compile(r"""//[^\n]*|b?'(?:\\.|[^'\\])'|"(?:\\.|[^"\\])*"|[^\s(){}\[\];,."&*!?|:<>=]+(?:::[^\s(){}\[\];,."]+)*|\s+|.""", re.S)
USE = re.compile(r"^[ \t]*(?:pub +|ghost +)*use +([^\s{};]+?)(?:\.\{([^}]*)\}|\.\{\}|)(?: +as +([^\s;]+))?;?[ \t]*$", re.M)
DECLARED = re.compile(r"^[ \t]*(?:\| *)?(?:(?:pub|abbrev|unfoldable|data|record|ghost|mutual)[ \t]+)*((?:[^\s(){}\[\];,.\":]+[ \t]+)+):(?=\s)", re.M)
TOP = re.compile(r"^(?:(?:pub|abbrev|unfoldable|ghost)[ \t]+)*(?:(?:data|record|ruleset)[ \t]+([^\s(){}\[\];,.\"]+)|((?:[^\s(){}\[\];,.\":]+[ \t]+)+):(?=\s))", re.M)
HEADED = re.compile(r"^[ \t]*(?:(?:pub|abbrev|unfoldable)[ \t]+)*(data|record|ruleset)[ \t]+([^\s(){}\[\];,.\"]+)", re.M)


def snake(name):
    """The name in today's spelling."""
    if name in SPECIAL:
        return SPECIAL[name]
    if "◌" in name:
        return "◌".join(snake(part) for part in name.split("◌"))
    if not name or not name[0].isalpha() or name[0].isupper():
        return name
    name = name.replace("′", "'")
    name = re.sub(r"(?<=[\w'])-(?=\w)", "_", name)
    parts = []
    for part in name.split("_"):
        if part and not part[0].isupper():
            part = re.sub(r"(?<=[^\W_A-Z])([A-Z]+)", lambda m: "_" + m.group(1).lower(), part)
        parts.append(part)
    return "_".join(parts)


def is_old(name):
    return snake(name) != name


class File:
    def __init__(self, path):
        self.path = path
        with open(path, encoding="utf-8", newline="") as f:
            self.text = f.read()
        self.proof = os.path.basename(path) == "Proof.antt"
        # The proof of functions that call one another: most of its names are made by Rattle.
        self.cycle = self.proof and "/+" in path.replace(os.sep, "/")
        self.rust = path.endswith(".rt")
        self.module = module_of(path)
        self.uses = []
        self.own, self.library, self.alias = {}, set(), {}
        self.use_spans = []
        for m in USE.finditer(self.text):
            if self.rust and "ghost" not in m.group(0).split("use")[0]:
                continue
            way, names, short = m.group(1), m.group(2), m.group(3)
            own = is_own(way)
            line = self.text.count("\n", 0, m.start()) + 1
            self.use_spans.append((m.start(1), m.end(1)))
            if names is None:
                self.alias[short or way.split(".")[-1]] = way
                continue
            for item in re.sub(r"(?://|--)[^\n]*", "", names).replace("\n", " ").split(","):
                words = item.split()
                if not words:
                    continue
                name = words[0]
                new = words[2] if len(words) == 3 and words[1] == "as" else name
                self.uses.append((line, way, name, new, own, m.group(0).lstrip().startswith("pub")))
                if own:
                    self.own[new] = way
                    self.own.setdefault(name, way)
                else:
                    self.library.add(name)
                    self.library |= bare(name)
                    if new != name:
                        self.own[new] = way
        self.declared = Counter()
        for m in DECLARED.finditer(self.text):
            words = m.group(1).split()
            for name in words[words[0] in ("let", "module", "where") :] if "=" not in words else []:
                self.declared[name] += 1
        for m in HEADED.finditer(self.text):
            self.declared[m.group(2)] += 1
        for name in list(self.declared) + list(self.own):
            for b in bare(name):
                self.own.setdefault(b, self.module)
        # Names of answers in a Proof.antt: another tool turns them.
        self.answers = set()
        if self.proof:
            self.answers = set(re.findall(r"^(?:abbrev +|pub +|unfoldable +)*([^\s(){}\[\];,.\":]+)[ \t]+:\s+tie\.", self.text, re.M))

        self.imported = {new for line, way, name, new, own, pub in self.uses if own}
        for name in list(self.imported):
            self.imported |= bare(name)
        self.words = None
        self.top = Counter()
        for m in TOP.finditer(self.text):
            words = (m.group(1) or m.group(2)).split()
            if "=" not in words:
                self.top.update(words)

    def has(self, name):
        """The name stands in the file."""
        if self.words is None:
            self.words = {m.group() for m in self.tokens()}
        return name in self.words

    def piece(self, text):
        """A text that stands in this file, to be read as this file is."""
        part = object.__new__(File)
        part.text, part.rust, part.use_spans = text, self.rust, []
        return part

    def tokens(self):
        return (RUST_TOKEN if self.rust else TOKEN).finditer(self.text)

    def names(self):
        """Each name with its place, and how it stands: 'plain', 'path' (in the path of a use), 'after' (after a dot)."""
        spans = iter(self.use_spans + [(1 << 60, 1 << 60)])
        span = next(spans)
        head, last, in_path = None, None, False
        for m in self.tokens():
            w = m.group()
            if w[0] in " \t\r\n" or w.startswith("--") or (self.rust and w.startswith("//")) or w[0] == '"':
                last = None
                continue
            while m.start() >= span[1]:
                span = next(spans)
            if not (w[0].isalnum() or w[0] in "_◌") or len(w) == 1 and not w.isalnum():
                last = w
                if w != ".":
                    head = None if w not in ")]}" else w
                continue
            if span[0] <= m.start() < span[1]:
                yield m.start(), w, "path", None
            elif last == "." and head is not None:
                yield m.start(), w, "after", head
            else:
                head = w
                yield m.start(), w, "plain", None
            last = w


def bare(name):
    """The word of an operator, as it stands between its arguments."""
    return {part for part in name.split("◌") if part} if "◌" in name else set()


def module_of(path):
    parts = path.split(os.sep)
    if not path.endswith(".antt"):
        return None
    return "Rattle." + ".".join(parts[1:])[: -len(".antt")]


def is_own(way):
    parts = way.split(".")
    return len(parts) > 1 and parts[0] == "Rattle" and parts[1] in CRATES and not MADE.search(way)


def load():
    out = []
    for folder, dirs, names in os.walk("crates"):
        dirs[:] = sorted(d for d in dirs if d != "out" and not os.path.islink(os.path.join(folder, d)))
        out += [File(os.path.join(folder, n)) for n in sorted(names) if n.endswith((".antt", ".rt"))]
    return out


def fields(files):
    """The fields of the repository's own records."""
    found = set()
    for f in files:
        if f.rust:
            found |= set(re.findall(r"^\s+(?:pub )?ghost (\w+)\s*:", f.text, re.M))
            continue
        lines = f.text.split("\n")
        inside = None
        for line in lines:
            m = re.match(r"([ \t]*)(?:(?:pub|abbrev|unfoldable)[ \t]+)*record[ \t]+\S.*", line)
            if m:
                inside = len(m.group(1))
                continue
            if inside is not None and line.strip():
                if len(line) - len(line.lstrip()) <= inside:
                    inside = None
                    continue
                d = DECLARED.match(line)
                if d:
                    found |= set(d.group(1).split())
    return found


if __name__ == "__main__" and not os.path.isfile("crates.txt"):
    raise SystemExit("run it at the top of the repository")
with open("crates.txt", encoding="utf-8") as it:
    CRATES = {line.split(":")[0].strip() for line in it if ":" in line and not line.startswith("#")}



class Tree:
    """All files, and how each of their names is respelled."""

    def __init__(self):
        self.files = load()
        self.by_module = {f.module: f for f in self.files if f.module}
        self.fields = fields(self.files)
        rust = "\n".join(f.text for f in self.files if f.rust)
        self.functions = set(re.findall(r"\bfn (\w+)", rust))
        # A field of the repository that has the name of a function: in a Proof.antt the step of a call stands so.
        self.steps = {w for w in self.fields if w.replace("-", "_") in self.functions}
        self.dashed = {}
        self.find_dashed()
        self.own_words = defaultdict(set)
        for f in self.files:
            if f.module:
                for name in f.declared:
                    self.own_words[name].add(f.module.split(".")[-1])

    def find_dashed(self):
        """Lemmas that would get the name of another thing in the same file: they keep the dash."""
        while True:
            found = dict(self.dashed)
            for f in self.files:
                if f.rust:
                    continue
                by = defaultdict(set)
                for at, w, how, head in f.names():
                    if how == "plain":
                        by[self.new(f, w, how, head)].add(w)
                for new, olds in by.items():
                    if len(olds) > 1:
                        for w in olds:
                            if "-" in w and w not in f.library and new != w:
                                found.setdefault(w, f"{f.path}: {', '.join(sorted(olds - {w}))}")
            if found == self.dashed:
                return
            self.dashed = found

    def new(self, f, w, how, head):
        """The spelling of the name w where it stands so in f."""
        if how == "path":
            return w
        if w in BACK and how == "plain" and f.has(BACK[w]):
            return w.replace("_", "-")
        if w in self.dashed or not is_old(w):
            return w
        new = snake(w)
        if how == "after":
            if head in f.alias:
                return new if is_own(f.alias[head]) else w
            if head == "tie" or w not in self.fields or f.proof and w in self.steps and "-" in w:
                return w
            return new
        if w in f.library or w in f.answers:
            return w
        if f.rust:
            return new if w in f.own else w
        if f.cycle and w not in self.fields and w not in f.imported and not w.endswith("-spec"):
            return w
        return new

    def turn(self, f, text=None):
        """The text of f, or a text that stands in f, respelled."""
        part = f if text is None else f.piece(text)
        out, last = [], 0
        for at, w, how, head in part.names():
            new = self.new(f, w, how, head)
            if new != w:
                out += [part.text[last:at], new]
                last = at + len(w)
        out.append(part.text[last:])
        text = "".join(out)
        for old, new in DOTTED:
            text = text.replace(old, new)
        return text if part is not f else self.turn_comments(f, text)

    def turn_comments(self, f, text):
        pattern = RUST_TOKEN if f.rust else TOKEN
        mark = "//" if f.rust else "--"
        return pattern.sub(lambda m: self.prose(m.group(), f) if m.group().startswith(mark) else m.group(), text)

    def prose(self, text, f=None):
        """Words of the repository in a comment or a page: camel case, and a dashed name only in backticks or after its module."""

        def word(m):
            w = m.group()
            if w not in self.own_words or w in self.dashed or (f and w in f.library):
                return w
            return snake(w)

        def ticked(m):
            return re.sub(r"[^\W\d][\w'₀-₉-]*", word, m.group())

        def of_module(m):
            module, w = m.group(1), m.group(2)
            return m.group() if w in self.dashed or module not in self.own_words.get(w, ()) else f"{module}.{snake(w)}"

        if f is None:
            text = re.sub(r"(?<!`)`[^`\n]+`(?!`)", ticked, text)
        else:
            text = re.sub(r"`[^`\n]+`", ticked, text)
            text = re.sub(r"(?<![\w'-])[a-z][a-z0-9]*[A-Z][\w']*(?![\w'-])", word, text)
        return re.sub(r"\b([A-Z]\w*)\.([a-z][\w']*(?:-[\w']+)*)", of_module, text)


def write(path, old, new, changed):
    if new != old:
        with open(path, "w", encoding="utf-8", newline="") as f:
            f.write(new)
        changed.append(path)


def tight(text):
    """A projection without its space, as port.py wrote it in the files that edits name."""
    text = re.sub(r"\(([\w'₀-₉]+) \.([\w'-]+)\)", r"\1.\2", text)
    return re.sub(r"(?<=[\w')]) \.(?=[\w])", ".", text)


def edits(tree):
    """The must-fail edits: path, text, text respelled as the file that each names."""
    by_path = {f.path: f for f in tree.files}
    for crate in sorted(CRATES):
        folder = os.path.join("crates", crate, "must-fail")
        for name in sorted(os.listdir(folder)) if os.path.isdir(folder) else []:
            if not name.endswith(".edit"):
                continue
            path = os.path.join(folder, name)
            with open(path, encoding="utf-8", newline="") as it:
                text = it.read()
            lines, f = [], None
            for line in text.splitlines(keepends=True):
                head, colon, rest = line.partition(": ")
                if head == "file":
                    f = by_path.get(os.path.join("crates", crate, rest.strip()))
                elif f and colon and head in ("old", "new"):
                    line = head + colon + (tree.turn(f, rest) if f.rust else tree.turn(f, tight(rest)))
                lines.append(line)
            yield path, text, "".join(lines), f


def pages():
    yield "README.md"
    for folder, ends in (("docs", ".md"), ("tools", (".py", ".sh"))):
        for name in sorted(os.listdir(folder)):
            if name.endswith(ends) and name not in ("PORT.md", "port-names.py"):
                yield os.path.join(folder, name)


def rename():
    tree = Tree()
    changed = []
    turned = [(f, tree.turn(f)) for f in tree.files]
    for path, old, new, f in list(edits(tree)):
        write(path, old, new, changed)
    for path in pages():
        with open(path, encoding="utf-8", newline="") as it:
            old = it.read()
        write(path, old, tree.prose(old), changed)
    for f, new in turned:
        write(f.path, f.text, new, changed)
    for w, why in sorted(tree.dashed.items()):
        print(f"keeps its dash: {w} ({why})")
    print(f"port-names: {len(changed)} files changed, {len(tree.dashed)} names keep a dash")


def given(tree, way, seen=()):
    """The names that an own module gives, or None where it is made by Rattle or not known."""
    f = tree.by_module.get(way)
    if f is None or way in seen:
        return None
    return set(f.declared) | {new for line, w, name, new, own, pub in f.uses if pub}


def check():
    tree = Tree()
    said = 0

    def say(f, line, text):
        nonlocal said
        said += 1
        print(f"{f.path}:{line}: {text}")

    for f in tree.files:
        seen = {}
        for line, way, name, new, own, pub in f.uses:
            if own:
                names = given(tree, way)
                if names is None:
                    say(f, line, f"no module {way}")
                elif name not in names:
                    near = sorted(n for n in names if snake(n.replace("-", "_")) == snake(name.replace("-", "_")))
                    say(f, line, f"{way} does not give {name}" + (f", but {', '.join(near)}" if near else ""))
            if seen.setdefault(new, (way, name)) != (way, name):
                say(f, line, f"{new} is taken from {seen[new][0]} and from {way}")
            if new in f.top:
                say(f, line, f"{new} is taken from {way} and declared")
        for short, way in sorted(f.alias.items()):
            if is_own(way) and way not in tree.by_module and way != way.split(".")[0]:
                say(f, 1, f"no module {way}")
        for name, n in sorted(f.top.items()):
            if n > 1:
                say(f, 1, f"{name} is declared {n} times")
        for name in sorted(f.declared):
            if name in RESERVED and not f.rust:
                say(f, 1, f"{name} is reserved")
        for at, w, how, head in f.names():
            if how == "after" and head in f.alias and is_own(f.alias[head]):
                names = given(tree, f.alias[head])
                if names is not None and w not in names:
                    say(f, f.text.count("\n", 0, at) + 1, f"{f.alias[head]} does not give {w}")
            elif tree.new(f, w, how, head) != w:
                say(f, f.text.count("\n", 0, at) + 1, f"{w} has an older spelling")
    print(f"port-names: {said} places")
    return 1 if said else 0


if __name__ == "__main__":
    if sys.argv[1:] == ["--check"]:
        sys.exit(check())
    if sys.argv[1:]:
        raise SystemExit(__doc__)
    rename()
