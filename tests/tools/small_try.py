"""Stands for `rt try` over the sound tree: turns the program, its crate `small` and the edited copies of that into Python line by line, and runs it."""

import os
import re
import sys
from types import SimpleNamespace

ENDED = "run=ended status=0 runners=2 proved=no"
WORDS = [
    (r"^let (?:mut )?(\w+)(?:: [^=]*)? = ", r"\1 = "),
    (r"\[(\d+); (\d+)\]", r"[\1] * \2"),
    (r"Count \{(.*)\}", r"Count(\1)"),
    (r"\b(number|length):", r"\1="),
    (r"(small_edit_\d+)::", r"\1_"),
    (r"&(?:mut )?|small::|\?|;$|^Ok\(\(\)\)$", ""),
    (r"usize::MAX", "None"),
    (r"print!\(host; ", "say("),
    (r"put_\w+s\(host, ", "many("),
    (r"put_\w+\(host, ", "one("),
    (r"\(host\)", "()"),
]


def python(line):
    """A line of Rattle, as one of Python."""
    line = line.strip()
    for old, new in WORDS:
        line = re.sub(old, new, line)
    return line


def functions(text, head, before=""):
    """The functions of a source, as Python: what stands last without a semicolon is returned. Something is put before their names."""
    out = ""
    for name, given, body in re.findall(r"(?ms)^%s(\w+)\((.*?)\).*?\{\n(.*?)^\}" % head, text):
        body = re.sub(r"\{\n\s+(.*?),\n    \}", lambda m: "{ %s }" % re.sub(r"\n\s+", " ", m.group(1)), body, flags=re.S)
        lines = ["%s%s" % ("" if x.endswith(";") else "return ", python(x)) for x in body.strip().split("\n")]
        out += "def %s%s(%s):\n%s" % (before, name, re.sub(r"host: \w+|: [^,]*", "", given), "".join("    %s\n" % x for x in lines))
    return out


def read(*path):
    """The text of a file."""
    with open(os.path.join(*path), encoding="utf-8") as f:
        return f.read()


def written(tree):
    """What the program in a tree writes."""
    said, crates = [], os.path.join(tree, "crates")
    names = {
        "Count": SimpleNamespace,
        "say": said.append,
        "one": lambda x: said.append(" %d" % x),
        "many": lambda l, most: said.extend(" %d" % x for x in l[:most]),
    }
    texts = {c: re.sub(r"(?m)^    (requires|ensures) .*$", "", read(crates, c, "src", "lib.rt")) for c in os.listdir(crates) if c != "shown"}
    bodies = "".join(functions(text, "pub fn ", crate + "_" if crate != "small" else "") for crate, text in texts.items())
    exec(bodies + functions(read(crates, "shown", "src", "main.rt"), "fn (?=case|main)") + "main()\n", names)
    return "".join(said)


def tried(tree):
    """What is wrong with a run of the program in a tree, or nothing."""
    try:
        found, expected = written(tree), read(tree, "crates", "shown", "stdout")
    except Exception as stop:
        return "FAIL: stopped by %s" % type(stop).__name__
    return None if found == expected else "FAIL: expected %r, found %r" % (expected, found)


if __name__ == "__main__":
    sys.stdout.write(written(os.path.join("..", "..")))
    sys.stderr.write(ENDED + "\n")
