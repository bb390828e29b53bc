"""Wrong answers and wrong definitions as edits of the tree: the files of tests/wrong and of crates/CRATE/must-fail that the tools beside this file try."""
import glob
import os
import re

from sources import File, code_of, read, without_comments

# the kinds of costs, each with what it has of its own, and the type that a neighbour list has for its costs
KINDS = {"net::Floats": ("bits", "u64"), "net::Ints": ("costs", "i64")}


class Edit:
    """One replacement in a crate: the function whose answer it makes wrong, with an input, the right and the wrong answer; or the definition that it makes wrong."""

    def __init__(self, root, crate, path):
        self.crate, self.name, self.path = crate, os.path.basename(path)[:-5], os.path.relpath(path, root)
        self.function = self.definition = self.words = self.file = self.inside = self.old = ""
        self.new, self.trouble = None, None
        self.input, self.right, self.wrong = [], [], []
        lines = read(path).split("\n")
        head = re.match(r"# (function|definition): (\S+)$", lines[0])
        if head:
            setattr(self, *head.groups())
        self.words = lines[1][2:].strip() if len(lines) > 1 and lines[1].startswith("# ") else ""
        once = {"file": "file", "in": "inside", "old": "old", "new": "new"}
        for line in lines[2:]:
            word, _, rest = (line + " ").partition(": ") if line == "new:" else line.partition(": ")
            if word in once:
                setattr(self, once.pop(word), rest)
            elif word in ("input", "right", "wrong"):
                name, given, value = (rest + " ").partition(" = ")
                getattr(self, word).append((name.strip(), value.strip()))
                self.trouble = self.trouble if given else "a line `%s:` has no ` = `" % word
            elif line and not line.startswith("#"):
                self.trouble = "a line of no kind, or one more of its kind: " + line
        if not (head and self.words and self.file and self.old and self.new is not None):
            self.trouble = "it has to have the lines `# function:` or `# definition:`, `# ..`, `file:`, `old:` and `new:`"
        elif not re.match(r"src/[\w/]+\.rt$" if self.function else r"specs/[\w/]+\.antt$", self.file):
            self.trouble = "it changes no " + ("source" if self.function else "definition")
        elif not os.path.exists(os.path.join(root, "crates", crate, self.file)):
            self.trouble = "there is no " + self.file
        else:
            text = read(os.path.join(root, "crates", crate, self.file))
            self.place(text, functions(text) if self.function else definitions(File(root, os.path.join(crate, self.file))))

    def place(self, text, spans):
        """The edited text, and the function or the definition that it stands in, of those with these spans."""
        start, end = 0, len(text)
        if self.inside:
            found = [s for s in spans if s[0] == self.inside]
            if len(found) != 1:
                self.trouble = "there is not one %s %s" % ("function" if self.function else "definition", self.inside)
                return
            start, end = found[0][1:]
        if text.count(self.old, start, end) != 1:
            self.trouble = "its old text stands %d times" % text.count(self.old, start, end)
            return
        self.at = text.index(self.old, start, end)
        self.changed = ([s[0] for s in spans if s[1] <= self.at < s[2]] or [""])[-1]
        self.text = self.applied(text)
        told = without_comments if self.function else lambda x: code_of(self.file, x).split()
        if told(self.text) == told(text):
            self.trouble = "it changes nothing"
        elif self.definition and self.changed != self.definition.split("::")[-1]:
            self.trouble = "its old text stands in " + (self.changed or "no definition")

    def stop(self):
        """What stops the edited program, in the interpreter's word, where that stands in the place of a wrong answer."""
        return self.wrong[0][1] if [name for name, _ in self.wrong] == ["stops"] else None

    def types(self, parameters):
        """What type parameters, and the types that belong to them, are for it: as its inputs name them, C, the kind of costs, by what is given of its own."""
        given = dict(self.input)
        kind = next((k for k, (field, _) in KINDS.items() if field in given), "net::Ints")
        told = dict({"C": kind, "C::Weight": KINDS[kind][1]}, **given)
        return {name: value for name, value in told.items() if name.partition("::")[0] in parameters}

    def applied(self, text):
        """A text with the replacement, where nothing before it was changed."""
        return text[:self.at] + self.new + text[self.at + len(self.old):]


def functions(text):
    """The functions of a source that have a body: name, start and end."""
    out = []
    for m in re.finditer(r"(?m)^( *)(?:pub (?:extern \"C\" )?)?fn (\w+)[<(]", text):
        opened = re.compile(r"(?m)[{;]$").search(text, m.end())
        if opened and opened.group() == ";":
            continue
        close = re.compile(r"(?m)^" + m.group(1) + r"\}$").search(text, m.end())
        out.append((m.group(2), m.start(), close.end() if close else len(text)))
    return out


def definitions(file):
    """The definitions of an antt file: name, start and end."""
    found = sorted({d.line: d.name for d in file.defs.values()}.items())
    starts = [0] + [m.end() for m in re.finditer("\n", file.text)]
    places = [starts[line - 1] for line, _ in found] + [len(file.text)]
    return [(name, start, end) for (_, name), start, end in zip(found, places, places[1:])]


def read_edits(root):
    """The edits of tests/wrong."""
    return [Edit(root, os.path.basename(os.path.dirname(path)), path) for path in sorted(glob.glob(os.path.join(root, "tests", "wrong", "*", "*.edit")))]


def gate_edits(root):
    """The edits of the gate that are wrong answers of a function: those that name one. The others there are wrong definitions, and name nothing."""
    paths = sorted(glob.glob(os.path.join(root, "crates", "*", "must-fail", "*.edit")))
    return [Edit(root, path.split(os.sep)[-3], path) for path in paths if read(path).startswith("# function: ")]


def write(path, text):
    """A text, written to a file."""
    with open(path, "w", encoding="utf-8") as f:
        f.write(text)
