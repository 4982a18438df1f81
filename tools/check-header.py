#!/usr/bin/env python3
"""Is what include/ says so?

    tools/check-header.py

- groovepawn.h and groovepawn_policy.h compile without a warning, with gcc and clang, as C99 to C17 and as C++98 to C++20.
- Each compiler warns in each of these where an answer is thrown away.
- groovepawn.h and groovepawn.rs declare the functions of crates/groovepawn_c, and these alone, with their parameters; their constants are the same.
- The stack that groovepawn.h names for a function is that of docs/C-INTERFACE.md.

Other compilers: CHECK_HEADER_WITH="gcc-12 clang-15" tools/check-header.py
"""
import glob
import os
import re
import shutil
import subprocess
import sys

os.chdir(os.path.join(os.path.dirname(os.path.abspath(__file__)), ".."))
COMPILERS = os.environ.get("CHECK_HEADER_WITH", "gcc clang").split()
STANDARDS = [("c", std) for std in ("c99", "c11", "c17")] + [("c++", std) for std in ("c++98", "c++03", "c++11", "c++14", "c++17", "c++20")]
WARNINGS = "-O2 -Wall -Wextra -Wpedantic -Wconversion -Wshadow -Werror".split()
faults = []


def read(path):
    return open(path).read()


def numbers(kind, text):
    return {name: int(value.replace("_", "")) for name, value in re.findall(kind, text, re.M)}


header, policy_header, rust, pages = (
    read(path) for path in ("include/groovepawn.h", "include/groovepawn_policy.h", "include/groovepawn.rs", "docs/C-INTERFACE.md")
)


# The functions: the name, each parameter with its type and whether it is a slice that is written, one that is read, or a number; what is returned.


def from_code():
    out = {}
    for path in sorted(glob.glob("crates/groovepawn_c/src/*.rt")):
        for name, parameters, result in re.findall(r'pub extern "C" fn (\w+)\(([^)]*)\) -> (\w+)', read(path)):
            shape = []
            for parameter in filter(None, (each.strip() for each in parameters.split(","))):
                word, kind = parameter.split(": ")
                slice_of = re.match(r"&(mut )?\[(\w+)\]", kind)
                shape.append((word, slice_of[2] if slice_of else kind, "written" if slice_of and slice_of[1] else "read" if slice_of else "number"))
            out[name] = (shape, result)
    return out


def joined(parameters):
    """Parameters as (name, type, whether it is a pointer that is written, one that is read, or a number), a pointer with its length as one."""
    out = []
    for word, kind, use in parameters:
        if kind == "usize":
            if not out or word != out[-1][0] + "_len" or out[-1][2] == "number":
                faults.append(f"{word} is no length of what stands before it")
            continue
        out.append((word, kind, use))
    return out


def from_header():
    out = {}
    types = {"uint8_t": "u8", "uint16_t": "u16", "uint32_t": "u32", "uint64_t": "u64", "size_t": "usize"}
    for result, name, parameters in re.findall(r"^GROOVEPAWN_LOOK_AT_ANSWER\n(\w+) (groovepawn_\w+)\(([^)]*)\);", header, re.M):
        shape = []
        for parameter in parameters.split(","):
            const, kind, pointer, word = re.match(r"\s*(const )?(\w+) (\*?)(\w+)", parameter).groups()
            shape.append((word, types[kind], "number" if not pointer else "read" if const else "written"))
        out[name] = (joined(shape), types[result])
    return out


def from_rust():
    out = {}
    for name, parameters, result in re.findall(r"pub fn (groovepawn_\w+)\(([^)]*)\)\s*-> (\w+);", rust):
        shape = []
        for parameter in filter(None, (each.strip() for each in parameters.split(","))):
            word, pointer, kind = re.match(r"(\w+): (\*const |\*mut |)(\w+)", parameter).groups()
            shape.append((word, kind, {"": "number", "*const ": "read", "*mut ": "written"}[pointer]))
        out[name] = (joined(shape), result)
    return out


def kinds(function):
    parameters, result = function
    return [(kind, use) for _, kind, use in parameters], result


def check_functions():
    code = from_code()
    for where, declared in (("groovepawn.h", from_header()), ("groovepawn.rs", from_rust())):
        for name in sorted(set(code) | set(declared)):
            if name not in declared:
                faults.append(f"{where} does not declare {name}")
            elif name not in code:
                faults.append(f"{where} declares {name}, which crates/groovepawn_c has not")
            elif kinds(code[name]) != kinds(declared[name]):
                faults.append(f"{where}: {name} takes and returns {kinds(declared[name])}, and in crates/groovepawn_c {kinds(code[name])}")
    print(f"{len(code)} functions")
    return code


def check_constants():
    mine = numbers(r"^#define (GROOVEPAWN_\w+) (\d+)$", header) | numbers(r"^    (GROOVEPAWN_\w+) = (\d+)", header)
    other = numbers(r"^pub const (GROOVEPAWN_\w+): \w+ = ([\d_]+);", rust)
    for name in sorted(set(mine) | set(other)):
        if mine.get(name) != other.get(name):
            faults.append(f"{name} is {mine.get(name)} in groovepawn.h and {other.get(name)} in groovepawn.rs")
    refusals = sorted(value for name, value in mine.items() if "REFUSED" in name)
    if refusals != list(range(36)):
        faults.append(f"the refusals are not 0 to 35, each once: {refusals}")
    print(f"{len(mine)} constants")


def check_stack(code):
    said = {}
    for names, size in re.findall(r"^\| (`groovepawn_.*`) \| ([\d,]+) \|$", pages.split("\n## Stack\n")[1].split("\n## ")[0], re.M):
        for name in re.findall(r"`(\w+)`", names):
            said[name] = size
    none = re.search(r"^(`groovepawn_[^.]*`) use none\.", pages, re.M)
    for name in re.findall(r"`(\w+)`", none[1] if none else ""):
        said[name] = "none"
    told = {}
    for comment, declarations in re.findall(r"/\*((?:(?!\*/).)*)\*/\n((?:GROOVEPAWN_LOOK_AT_ANSWER\n[^;]*;\n)+)", header, re.S):
        names = re.findall(r"(groovepawn_\w+)\(", declarations)
        sizes = [size for group in re.findall(r"Stack: ([\d,]+(?: and [\d,]+)?|none)", comment) for size in group.split(" and ")]
        told.update(zip(names, sizes) if len(names) == len(sizes) else {})
    for name in code:
        if name not in said or said[name] != told.get(name):
            faults.append(f"the stack of {name} is {told.get(name)} in groovepawn.h and {said.get(name)} in docs/C-INTERFACE.md")


# The compilers.


def uses_all():
    """A file that calls everything in both headers, and looks at each answer."""
    lines = ['#include "groovepawn_policy.h"', "extern uint64_t sum;", "uint64_t sum;"]
    calls = [(name, text) for _, name, text in re.findall(r"(?:^|static inline )(uint\d+_t|void) (groovepawn_\w+)\(([^)]*)\)", header + policy_header, re.M)]
    for i, (name, parameters) in enumerate(calls):
        words = [re.search(r"(\w+)$", each.strip())[1] for each in parameters.split(",")]
        looked = "" if name == "groovepawn_policy_meter_new" else "sum += "
        lines += [f"void call_{i}({' '.join(parameters.split())});", f"void call_{i}({' '.join(parameters.split())})", "{",
                  f"    {looked}{name}({', '.join(words)});", "}"]
    lines += ["int fields(uint64_t answer);", "int fields(uint64_t answer)", "{", "    uint32_t half = (uint32_t)answer;",
              "    struct groovepawn_state state = GROOVEPAWN_START;", "    sum += state.numbers[0];"]
    for name in re.findall(r"^#define (GROOVEPAWN_\w+)\(answer\)", header, re.M):
        lines += [f"    sum += {name}(answer);"]
        if name in ("GROOVEPAWN_REFUSAL", "GROOVEPAWN_VALUE"):
            lines += [f"    sum += {name}(half);"]
    for name in sorted(numbers(r"^    (GROOVEPAWN_\w+) = (\d+)", header)):
        lines += [f"    if (GROOVEPAWN_REFUSAL(answer) == {name} || GROOVEPAWN_REFUSAL(half) == {name}) {{ sum += {name}; }}"]
    for name in sorted(numbers(r"^#define (GROOVEPAWN_\w+) (\d+)$", header)):
        lines += [f"    sum += {name};"]
    return "\n".join(lines + ["    return GROOVEPAWN_VERSION >= 10000 ? 0 : 1;", "}", ""]), len(calls)


THROWN_AWAY = """#include "groovepawn_policy.h"
void thrown_away(struct groovepawn_policy *policy, struct groovepawn_state *state);
void thrown_away(struct groovepawn_policy *policy, struct groovepawn_state *state)
{
    CALL;
}
"""
CALLS = ["groovepawn_policy_input(policy, state, 0)", "groovepawn_ticks(250, 100, 0)"]


def compiled(compiler, language, standard, text):
    command = [compiler, "-x", language, f"-std={standard}", *WARNINGS, "-Iinclude", "-c", "-", "-o", "/dev/null"]
    run = subprocess.run(command, input=text, capture_output=True, text=True)
    return run.returncode == 0, run.stderr


def check_compilers():
    text, calls = uses_all()
    for compiler in COMPILERS:
        if not shutil.which(compiler):
            faults.append(f"there is no {compiler}: apt-get install {compiler}")
            continue
        for language, standard in STANDARDS:
            good, said = compiled(compiler, language, standard, text)
            if not good:
                faults.append(f"{compiler} -std={standard}:\n{said}")
            for call in CALLS:
                good, said = compiled(compiler, language, standard, THROWN_AWAY.replace("CALL", call))
                if good or "unused" not in said:
                    faults.append(f"{compiler} -std={standard} lets an answer be thrown away: {call}")
        print(f"{compiler}: {calls} calls as {', '.join(standard for _, standard in STANDARDS)}")


code = check_functions()
check_constants()
check_stack(code)
check_compilers()
if faults:
    sys.exit("\n".join(faults))
