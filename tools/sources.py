"""The names of the code: what crates/*/src declares, and which of its functions are public."""
import collections
import glob
import os
import re

Function = collections.namedtuple("Function", "crate module type name")


def sources():
    for path in sorted(glob.glob("crates/*/src/**/*.rt", recursive=True)):
        yield path.split("/")[1], os.path.basename(path)[:-3], open(path).read()


def public_functions():
    """Each `pub fn`, with the type that it belongs to, if any. `pub(crate)` is not public, and an export for C is another crate's function again."""
    out = []
    for crate, module, text in sources():
        of = None
        for line in text.split("\n"):
            head = re.match(r"impl (?:\w+ for )?(\w+)", line)
            if head or line.startswith("}"):
                of = head[1] if head else None
            function = re.match(r"\s*pub (?:const )?fn (\w+)", line)
            if function:
                out.append(Function(crate, module, of, function[1]))
    return out


def code_names():
    """Every name that some crate's code declares: (crate, name)."""
    out = set()
    for crate, module, text in sources():
        text = re.sub(r"//.*", "", text)
        out.add((crate, module))
        out |= {(crate, name) for name in re.findall(r"\b(?:fn|struct|enum|const|static|mod|type) (?:mut )?(\w+)", text)}
        for body in re.findall(r"\b(?:struct|enum) \w+ \{(.*?)\n\}", text, re.S):
            out |= {(crate, name) for name in re.findall(r"^\s*(?:pub )?(\w+)(?:[:,({]|$)", body, re.M)}
    return out
