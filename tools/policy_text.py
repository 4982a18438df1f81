"""The file that a policy's text gives (docs/POLICY-TEXT.md), in hex, a line for each rule:

    python3 tools/policy_text.py < policy.txt > policy.hex

A helper, and no part of what is proved. It says where a text is not of the form, and leaves the checks of the file to the library.
"""
import re

NO_UPPER_BOUND = 65535
VIOLATION = 255
KEYWORDS = set("input output clock location at any violation reset must be left".split())


def words_of(line):
    return re.findall(r"->|>=|<=|[^\s<>-]+", line.split("#")[0])


def two_bytes(number):
    return bytes([number >> 8, number & 255])


class Draft:
    """What the lines have said so far."""

    def __init__(self):
        self.inputs, self.outputs, self.clocks, self.locations, self.rules = [], [], [], [], []
        self.signals = {}  # letter or name: (0 for inputs and 1 for outputs, number)
        self.source = None

    def declare_signal(self, words):
        side = self.inputs if words[0] == "input" else self.outputs
        where = (0 if words[0] == "input" else 1, len(side))
        for name in words[1:]:
            if name in self.signals or name in KEYWORDS:
                raise ValueError(f"{name} is taken")
            self.signals[name] = where
        side.append(words[1])

    def location(self, name):
        for number, (known, _) in enumerate(self.locations):
            if known == name:
                return number
        raise ValueError(f"no location {name}")

    def clock(self, name):
        for number, (known, _) in enumerate(self.clocks):
            if known == name:
                return number
        raise ValueError(f"no clock {name}")

    def rule(self, words):
        arrow = words.index("->")
        care, value = [0, 0], [0, 0]
        bounds = [[0, NO_UPPER_BOUND] for _ in self.clocks]
        conditions = [] if words[:arrow] == ["any"] else words[:arrow]
        while conditions:
            first = conditions.pop(0)
            if conditions and conditions[0] in (">=", "<="):
                side = 0 if conditions.pop(0) == ">=" else 1
                bounds[self.clock(first)][side] = int(conditions.pop(0))
                continue
            side, number = self.signals[first.lstrip("!")]
            if care[side] >> number & 1:
                raise ValueError(f"{first} is said twice")
            care[side] |= 1 << number
            value[side] |= 0 if first.startswith("!") else 1 << number
        target = VIOLATION if words[arrow + 1] == "violation" else self.location(words[arrow + 1])
        resets = 0
        if len(words) > arrow + 2:
            if words[arrow + 2] != "reset":
                raise ValueError(f"{words[arrow + 2]} after the target")
            for name in words[arrow + 3:]:
                resets |= 1 << self.clock(name)
        head = bytes([self.source, care[0], value[0], care[1], value[1], resets, target])
        self.rules.append(head + b"".join(two_bytes(low) + two_bytes(high) for low, high in bounds))

    def line(self, words):
        if words[0] in ("input", "output"):
            self.declare_signal(words)
        elif words[0] == "clock":
            self.clocks.append((words[1], int(words[2])))
        elif words[0] == "location":
            if words[2:] not in ([], ["must", "be", "left"]):
                raise ValueError(f"{words[2:]} after the location")
            self.locations.append((words[1], 1 if words[2:] else 0))
        elif words[0] == "at":
            self.source = self.location(words[1])
        else:
            self.rule(words)

    def sections(self):
        """The file as the lines in which the pages print it: all before the rules, then one for each rule."""
        head = bytes([len(self.inputs)]) + "".join(self.inputs).encode()
        head += bytes([len(self.outputs)]) + "".join(self.outputs).encode()
        head += bytes([len(self.clocks)]) + b"".join(two_bytes(ceiling) for _, ceiling in self.clocks)
        head += bytes([len(self.locations)]) + bytes(byte for _, byte in self.locations)
        return [head + two_bytes(len(self.rules))] + self.rules


def draft_of(text):
    draft = Draft()
    for number, line in enumerate(text.splitlines(), 1):
        words = words_of(line)
        try:
            if words:
                draft.line(words)
        except (ValueError, KeyError, IndexError, TypeError) as problem:
            raise ValueError(f"line {number}, {line.strip()}: {problem}") from None
    return draft


def file_of(text):
    return b"".join(draft_of(text).sections())


if __name__ == "__main__":
    import sys

    if len(sys.argv) > 1:
        sys.exit("usage: policy_text.py < TEXT > HEX")
    try:
        draft = draft_of(sys.stdin.read())
        if not draft.locations:
            raise ValueError("there is no location")
        for part in draft.sections():
            print(" ".join(f"{byte:02X}" for byte in part))
    except ValueError as problem:
        sys.exit(f"policy_text: {problem}")
