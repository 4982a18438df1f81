"""The definitions and theorems of crates/*/specs, and those that stand in crates/*/proofs: what each file declares, and what a declaration names.

A module of proofs/ has the key (crate, "proofs.Module"). It is also looked into for a name of (crate, "Module") that specs/Module.antt has not: a theorem
stands in proofs/ where an edit of a definition has to be refused by a proof.
"""
import glob
import re

WORD = re.compile(r"[^\s(){};,\[\]⌜⌝]+")
MARKS = r"(?:(?:unfoldable|abbrev|pub) )*"


class Module:
    """A file of specs/ or proofs/: what it has from others, and its declarations as (kind, first line, line after the last, enclosing module lines)."""

    def __init__(self, path):
        _, crate, folder, file = path.split("/")
        self.key = crate, ("proofs." if folder == "proofs" else "") + file[:-5]
        self.path, self.lines = path, open(path).read().split("\n")[:-1]
        text = re.sub(r"^(?:pub )?use [^{\n]*(?:\{[^}]*\})?[^\n]*\n", "", "\n".join(self.lines) + "\n", flags=re.M)
        self.length = text.count("\n")
        self.names, self.aliases, self.decls, self.makes, self.fields, self.telescopes = {}, {}, {}, {}, {}, {}
        for use in re.finditer(r"^(?:pub )?use ([^\s{]+?)(?:\.\{([^}]*)\})?(?: as (\S+))?$", "\n".join(self.lines), re.M):
            home = re.match(r"Rattle\.(\w+)\.(?:specs\.)?(.+)$", use[1])
            home = home and (home[1], home[2])
            for name in (use[2] or "").split(","):
                old, _, new = name.strip().partition(" as ")
                self.names[new.strip() or old] = (home, old)
            if use[2] is None:
                self.aliases[use[3] or use[1].split(".")[-1]] = home
        self.declare()

    def declare(self):
        heads, inside = [], []
        for i, line in enumerate(self.lines):
            indent = len(line) - len(line.lstrip())
            if not line.strip() or line.strip().startswith("--") or re.match(r"(pub )?use |[})]", line.strip()):
                continue
            while inside and indent <= inside[-1][0]:
                inside.pop()
            if indent != (inside[-1][0] + 2 if inside else 0):
                continue
            here = [at for _, at in inside]
            if line.strip().startswith("module "):
                inside.append((indent, i))
                heads.append((i, None, "module", here))
                self.telescopes[i] = line
                continue
            head = re.match(r"\s*(%s)(record |data )?([^\s(){}:=,;]+)\s*(?:\{[^}]*\}\s*)?(:|\(|\{|$)" % MARKS, line)
            if head and (head[2] or (head[4] == ":" and head[3] not in ("where", "unfolding"))):
                kind = (head[2] or ("definition" if re.search("abbrev|unfoldable", head[1]) else "theorem")).strip()
                heads.append((i, head[3], kind, here))
        ends = [head[0] for head in heads[1:]] + [len(self.lines)]
        for (start, name, kind, here), end in zip(heads, ends):
            if not name:
                self.telescopes[start] = " ".join(self.lines[start:end]).split(" where")[0]
                continue
            while end > start + 1 and re.match(r"\s*(--|infix|$)", self.lines[end - 1]):
                end -= 1
            self.decls[name] = (kind, start, end, here)
            for line in self.lines[start + 1 : end] if kind in ("data", "record") else []:
                made = re.match(r"\s+(?:pub )?([^\s(){}:]+)\s*:", line)
                if made:
                    (self.makes if kind == "data" else self.fields)[made[1]] = name

    def stated(self, name):
        """The lines that a reader of the name reads: a definition whole, of a theorem the statement."""
        kind, start, end, _ = self.decls[name]
        if kind == "theorem":
            for i in range(start + 1, end):
                if re.match(r"\s*(unfolding\b|%s( .*)?=)" % re.escape(name), self.lines[i]):
                    return start, i
        return start, end


modules = {}
for path in sorted(glob.glob("crates/*/specs/*.antt")) + sorted(glob.glob("crates/*/proofs/*.antt")):
    if not path.endswith("/Lib.antt"):
        module = Module(path)
        modules[module.key] = module


def is_letter(name):
    """A single small letter: a shorthand of the statements beside it, and no name to look for."""
    return len(name) == 1 and name.islower()


def files_of(key):
    """The modules that a page may mean by a crate and a module: the one of specs/, and the one of that name in proofs/."""
    return [modules[each] for each in ((key, (key[0], "proofs." + key[1])) if key else ()) if each in modules]


def home_of(key, name):
    """Where a name that a module has is declared: a declaration of specs/ or proofs/, or a type of the code. A field is its record's, a maker its type's."""
    for _ in range(9):
        if key and key[1].startswith("declared."):
            return key, name
        files = files_of(key)
        for module in files:
            if name in module.decls:
                return module.key, name
            if name in module.makes:
                return module.key, module.makes[name]
        for module in files:
            if name not in module.names and name in module.fields:
                return module.key, module.fields[name]
        module = next((module for module in files if name in module.names), None)
        if not module:
            return None
        key, name = module.names[name]
    return None


def found(module, word):
    word = word.strip(".«»")
    if word in module.decls or word in module.makes or word in module.names:
        return home_of(module.key, word)
    alias, _, name = word.partition(".")
    if name and module.aliases.get(alias):
        return home_of(module.aliases[alias], name)
    return None


def rests_on(key, name):
    """What a declaration names. Variables of its clauses are none of it, nor is a letter that stands for something in another part of the file."""
    module = modules[key]
    start, end = module.stated(name)
    here = module.decls[name][3]
    text = [module.telescopes[i] for i in here] + module.lines[start:end]
    out = set()
    for line in text:
        line = "" if line.strip().startswith("--") else line.split(" -- ")[0]
        bound = set(re.findall(r"λ (\w+)\.", line))
        for group in re.findall(r"[({]([\w′ ]+) :", line):
            bound |= set(group.split())
        clause = re.match(r"\s*%s (.*?) = " % re.escape(name), line)
        if clause:
            bound |= {word for word in WORD.findall(clause[1]) if word.islower()}
        words = {word for word in WORD.findall(line) if word not in bound and not word.startswith(".")}
        words = {word for word in words if not is_letter(word) or (word in module.decls and set(module.decls[word][3]) <= set(here))}
        for known in [known for known in list(module.decls) + list(module.names) if "◌" in known]:
            if all(piece in words for piece in known.split("◌") if piece):
                words.add(known)
        out |= {found(module, word) for word in words}
    return out - {None, (key, name)}


def closure(roots):
    seen, todo = set(), list(roots)
    while todo:
        at = todo.pop()
        if at not in seen:
            seen.add(at)
            if at[0] in modules:
                todo += rests_on(*at)
    return seen
