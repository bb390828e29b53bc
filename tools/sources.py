"""How the tools beside this file read the tree: public functions of .rt files, definitions of .antt files, and the tables of documents."""
import functools
import glob
import json
import os
import re
import shutil
import subprocess

SPACE = re.compile(r"\s+")


def read(path):
    with open(path, encoding="utf-8") as f:
        return f.read()


def flat(text):
    """A text on one line."""
    return SPACE.sub(" ", text).strip()


# ---- Rattle sources


class Function:
    """A public function: its name with crate and module, the lent slices it may write, its result and its contract. `texts` are the sources of every crate,
    `holders` the structs that hold something lent that may be written, `types` its type parameters, those of its block among them: of a method of a trait
    `Self` is one, which stands first. `held` has for each parameter that is a lent struct what tells all of it."""

    def __init__(self, name, file, line, params, result, clauses, head, texts, holders, types):
        self.crate, self.name, self.file, self.line = name.split("::")[0], name, file, line
        self.params, self.result, self.head, self.types = params, result, head, types
        self.fields = struct_fields(texts[self.crate], result)
        self.held = {p: lent_fields(texts, self.crate, kind) for p, kind in params if LENT.match(kind.strip())}
        self.written = [p for p, kind in params if LENT.search(kind) or not SHARED.match(kind) and holders & set(re.findall(r"\w+", kind))]
        self.ghosts = [name for word, name, _ in clauses if word == "ghost"]
        self.requires = [contract(word, text) for word, _, text in clauses if word.startswith("requires")]
        self.ensures = [contract(word, text) for word, _, text in clauses if word.startswith("ensures")]


def contract(word, text):
    """Is a clause a fact, and what it states, with the values of the names that a `let` before it gives. A clause with a star is no fact, but an assertion of
    memory. Names are without « and »."""
    statement = flat(re.sub("[«»]", "", text))
    return not word.endswith("*"), with_values(statement)


def with_values(statement):
    """A statement without the `let` before it: the value, in brackets, for each name."""
    m = re.match(r"let (\S+)(?: : .*?)? = ", statement)
    if not m:
        return statement
    parts, last = split_top(statement[m.end():], " in "), 1
    # a value may have a `let` of its own
    while last < len(parts) and sum(part.strip().startswith("let ") for part in parts[:last]) >= last:
        last += 1
    value = "(" + " in ".join(parts[:last]).strip() + ")"
    return with_values(re.sub(word_of(m.group(1)), lambda _: value, " in ".join(parts[last:])))


def word_of(name):
    """A pattern for a name where it is a word, which may have a field behind it."""
    return r"(?<![^\s(){}\[\],;])" + re.escape(name) + r"(?![^\s(){}\[\],;.])"


def closing(text, at):
    """Where the bracket that opens at a place is closed."""
    pairs = {"(": ")", "{": "}", "[": "]"}
    depth, opened, closed = 0, text[at], pairs[text[at]]
    for i in range(at, len(text)):
        if text[i] == opened:
            depth += 1
        elif text[i] == closed:
            depth -= 1
            if depth == 0:
                return i
    raise ValueError("no closing bracket")


def split_top(text, separator):
    """The parts of a text between separators that stand in no bracket."""
    parts, depth, start = [], 0, 0
    for i, c in enumerate(text):
        if c in "([{":
            depth += 1
        elif c in ")]}":
            depth -= 1
        elif depth == 0 and text.startswith(separator, i):
            parts.append(text[start:i])
            start = i + len(separator)
    return parts + [text[start:]]


def split_types(text):
    """The parts of a text of the language between commas that stand in no bracket, those of types included."""
    closed = re.sub(r"<[^<>]*>", lambda m: "(" + m.group()[1:-1] + ")", text.replace("->", "  "))
    while "<" in closed and re.search(r"<[^<>]*>", closed):
        closed = re.sub(r"<[^<>]*>", lambda m: "(" + m.group()[1:-1] + ")", closed)
    parts, at = [], 0
    for part in split_top(closed, ","):
        parts.append(text[at:at + len(part)])
        at += len(part) + 1
    return parts


def bare(text):
    """A text without the brackets around all of it."""
    text = text.strip()
    while text.startswith("(") and closing(text, 0) == len(text) - 1:
        text = text[1:-1].strip()
    return text


def without_comments(text):
    """A source with its comments blanked, so that places stay."""
    return re.sub(r"//[^\n]*", lambda m: " " * len(m.group()), text)


SOURCES = (".antt", ".rt", ".rs", ".c", ".cpp", ".h")
NO_CODE = {
    "antt": re.compile(r"(?m)(^|\s)--(\s.*)?$"),
    "source": re.compile(r"(?s)'(?:\\.|[^'\\\n])'|\"(?:\\.|[^\"\\])*\"|//[^\n]*|/\*.*?\*/"),
    "script": re.compile(r"(?m)(^|\s)#.*$"),
}


def code_of(path, text):
    """A file of any language without its comments, a source also without its strings."""
    return NO_CODE["antt" if path.endswith(".antt") else "source" if path.endswith(SOURCES) else "script"].sub(" ", text)


# a clause of a contract: its word, its name where it has one
CLAUSE = re.compile(r"\s*((?:requires|ensures)\*?|ghost)(?:\s+([^\s{}:*]+):?)?\s*\{")
# what stands in `<..>` behind a name, with more of it inside, three deep
ANGLE = functools.reduce(lambda inner, _: r"<(?:->|[^<>]|%s)*>" % inner, range(3), r"<(?:->|[^<>])*>")
FN = re.compile(r'\bpub\s+(?:[\w"]+\s+)*fn\s+(\w+)\s*(' + ANGLE + r")?\s*\(")
METHOD = re.compile(r"\bfn\s+(\w+)\s*(" + ANGLE + r")?\s*\(")
TRAIT = re.compile(r"(?m)^\s*pub\s+(?:unsafe\s+)?trait\s+(\w+)\s*(" + ANGLE + r")?[^{;]*\{")
IMPL = re.compile(r"(?m)^impl\b\s*(" + ANGLE + r")?[^{]*?(\w+)(" + ANGLE + r")?\s*(?:\bwhere\b[^{]*)?\{")
GHOST = re.compile(r"\s*(?:pub\s+)?ghost\b")
LENT = re.compile(r"&\s*('\w+\s+)?mut\b")
SHARED = re.compile(r"\s*&")


def sources(root, crate):
    """The texts of a crate's sources, without comments, by file."""
    files = sorted(glob.glob(os.path.join(root, "crates", crate, "src", "**", "*.rt"), recursive=True))
    return {file: without_comments(read(file)) for file in files}


def public_functions(root):
    """Every public function of every crate: of each module but those that the top of the crate declares without `pub`. The methods of a public trait are such,
    once for the trait: an impl of it has their contract. One of a static library that has the name, the parameters, the result and the clauses of a function of a crate that it lists is that function under an exported name, and does not count twice."""
    texts = {crate: sources(root, crate) for crate in crates(root)}
    holders = lent_structs([text for found in texts.values() for text in found.values()])
    out = []
    for crate, found in texts.items():
        src = os.path.join(root, "crates", crate, "src")
        for file, text in found.items():
            module = os.path.relpath(file, src)[:-3].replace(os.sep, "::")
            private = r"(?m)^\s*mod " + module.split("::")[0] + r"\b"
            if any(re.search(private, found.get(os.path.join(src, top), "")) for top in ("lib.rt", "main.rt")):
                continue
            place = crate if module in ("lib", "main") else crate + "::" + module
            heads = [m for trait in TRAIT.finditer(text) for m in methods(text, trait)]
            for m in sorted([*FN.finditer(text), *heads], key=lambda m: m.start()):
                out.append(function_at(root, place, file, texts, m, holders))
    libraries = exported(root)
    listed = {crate for deps in libraries.values() for crate in deps}
    known = {(f.crate, promise(root, f)) for f in out if f.crate in listed}
    return [f for f in out if f.crate not in libraries or not any((crate, promise(root, f)) in known for crate in libraries[f.crate])]


def methods(text, trait):
    """Where the heads of a trait's methods start: not what stands in a body or in a clause."""
    inside = range(trait.end(), closing(text, trait.end() - 1))
    found = METHOD.finditer(text, inside.start, inside.stop)
    return [m for m in found if text.count("{", inside.start, m.start()) == text.count("}", inside.start, m.start())]


def exported(root):
    """The static libraries, each with the crates that its line lists."""
    listed = os.path.join(root, "crates.txt")
    found = re.findall(r"(?m)^(\w+) staticlib:([^#\n]*)", read(listed)) if os.path.exists(listed) else []
    return {name: deps.split() for name, deps in found}


def promise(root, f):
    """The head and the clauses of a function, in one line, whatever calls it may be called by, and what their words stand for."""
    said, imported = flat(" ".join(f.head)).replace('pub extern "C" fn ', "pub fn "), ghost_imports(root, f.file)
    return said, tuple((word, imported.get(word)) for word in re.split(r"[\s(){}\[\],;]+", said) if imported.get(word))


def lent_structs(texts):
    """The structs of some sources that hold something lent that may be written, or such a struct."""
    heads = [(text, m) for text in texts for m in re.finditer(r"\bstruct\s+(\w+)[^({;]*[({]", text)]
    bodies = [(m.group(1), text[m.end():closing(text, m.end() - 1)]) for text, m in heads]
    holders, before = {name for name, body in bodies if LENT.search(body)}, None
    while holders != before:
        before = holders
        holders = holders | {name for name, body in bodies if holders & set(re.findall(r"\w+", body))}
    return holders


def declaring(texts, crate, kind):
    """The sources of the crate that declares the struct of a type: that which its path or an import names, else the crate itself, and the struct's name."""
    path = re.sub(r"<.*|&\s*|'\w+\s*|\bmut\b", "", kind).strip().split("::")
    for text in texts[crate].values() if len(path) == 1 else []:
        name = re.escape(path[0])
        m = re.search(r"(?m)^use (\w+)::(?:" + name + r"|\{[^}]*\b" + name + r"\b[^}]*\});", text)
        path = [m.group(1)] + path if m and len(path) == 1 else path
    return texts.get(path[0] if len(path) > 1 else crate, {}), path[-1]


def lent_fields(texts, crate, kind):
    """What tells all of a struct, for a type that is one: of each field that is lent what it holds, and each other field."""
    found, name = declaring(texts, crate, kind)
    for text in found.values():
        m = re.search(r"\bstruct\s+" + re.escape(name) + r"\s*(<[^>]*>)?\s*\{", text) if name else None
        if m:
            body = text[m.end():closing(text, m.end() - 1)]
            fields = [f.partition(":") for f in split_types(body) if ":" in f and not GHOST.match(f)]
            return [head.split()[-1] + (".now" if LENT.match(of.strip()) else "") for head, _, of in fields]
    return []


def function_at(root, place, file, texts, m, holders):
    """The public function whose head starts at a match of FN or METHOD in a file of the sources of a crate, given the sources of all."""
    found = texts[place.split("::")[0]]
    text = found[file]
    close = closing(text, m.end() - 1)
    params = []
    for p in split_types(text[m.end():close]):
        name, _, kind = p.partition(":")
        if name.strip():
            params.append((re.findall(r"\w+", name)[-1], kind or name))
    at, result, clauses = close + 1, "", []
    arrow = re.match(r"\s*->\s*", text[at:])
    if arrow:
        at += arrow.end()
        # a method may end with its head; what ends there is not the type of an array
        stop = re.search(r"\b(where|ghost|requires|ensures)\b|\{|;(?![^\[\]]*\])", text[at:]).start()
        result = flat(text[at:at + stop])
        at += stop
    bounds = re.match(r"\s*where\b.*?(?=\b(?:ghost|requires|ensures)\b|\{|;)", text[at:], re.S)
    at += bounds.end() if bounds else 0
    head = [x for x in text[m.start():at].split("\n") if x.strip()]
    while True:
        word = CLAUSE.match(text[at:])
        if not word:
            break
        opened = at + word.end() - 1
        end = closing(text, opened)
        clauses.append((word.group(1), word.group(2), text[opened + 1:end]))
        head.append(flat(text[at:end + 1]))
        at = end + 1
    # a block has what it is of, its own parameters, and what `self` is in it
    blocks = [(i, i.group(2), parameters(i.group(1)), i.group(2) + (i.group(3) or "")) for i in IMPL.finditer(text)]
    blocks += [(t, t.group(1), ["Self"] + parameters(t.group(2)), "Self") for t in TRAIT.finditer(text)]
    owner, types = "", parameters(m.group(2))
    for head_of, name, own, block in blocks:
        if head_of.start() < m.start() < closing(text, head_of.end() - 1):
            owner, types = name + "::", own + types
            params = [(p, re.sub(r"\b[sS]elf\b(?!\s*::)", lambda _, kind=block: kind, kind)) for p, kind in params]
    line = text.count("\n", 0, m.start()) + 1
    return Function(place + "::" + owner + m.group(1), os.path.relpath(file, root), line, params, result, clauses, head, texts, holders, types)


def parameters(angle):
    """The type parameters among those in `<..>`, which may be none."""
    named = [x.partition(":")[0].split() for x in split_types((angle or "<>")[1:-1])]
    return [name[-1] for name in named if name and not name[0].startswith("'")]


def struct_fields(found, name):
    """The fields of a struct declared in the sources of a crate but what is stated of them, or none where they declare no such struct."""
    name = re.sub(r"<.*", "", name).split("::")[-1]
    for text in found.values():
        m = re.search(r"\bstruct\s+" + re.escape(name) + r"\s*(<[^>]*>)?\s*\{", text)
        if m:
            body = text[m.end():closing(text, m.end() - 1)]
            return [f.split(":")[0].split()[-1] for f in split_types(body) if ":" in f and not GHOST.match(f)]
    return None


def crates(root):
    """The names of the crates."""
    return sorted(d for d in os.listdir(os.path.join(root, "crates")) if os.path.isdir(os.path.join(root, "crates", d)))


class Imports:
    """What the names that a file imports stand for."""

    def __init__(self, names, aliases):
        self.names, self.aliases = names, aliases

    def get(self, word):
        """The module and the name that a word stands for."""
        if word in self.names:
            return self.names[word]
        alias, _, name = word.partition(".")
        return (self.aliases[alias], name) if name and alias in self.aliases else None


def ghost_imports(root, file):
    """What the names in the contracts of a source stand for."""
    return imports(read(os.path.join(root, file)), r"ghost use ", ";")


# ---- antt files


class Definition:
    """A definition or law: its file, name, first line, its statement, all its lines, and the lines of the sections that it stands in."""

    def __init__(self, file, name, line, around):
        self.file, self.name, self.line, self.around = file, name, line, around
        self.kind, self.lines, self.statement, self.parts, self.public = "", [], [], [], False


# how a line begins that goes on from the one before it
GOES_ON = re.compile(r"\s*(?:(?:[→×≡∙↔⊎≤<⊕⊖+*-]|&&)\s|[)\]}])")


def whole_lines(lines):
    """How many lines of antt there are where one that only goes on counts with the one before it, so that the count is the same however they are broken."""
    count, opened, before = 0, 0, "where"
    for line in lines:
        deep, above = (len(x) - len(x.lstrip()) for x in (line, before))
        within = not before.endswith((" in", "where")) and (deep == above + 4 or deep == above >= 4 and line.lstrip()[0] in "({")
        count += not (opened > 0 or GOES_ON.match(line) or deep and before.endswith((" =", " :")) or within)
        opened = max(0, opened + sum(map(line.count, "([{")) - sum(map(line.count, ")]}")))
        before = line
    return count


def module_file(module):
    """The file, below crates/, that a module path names, with a mark for what a source declares."""
    m = re.match(r"Rattle\.(\w+)\.(specs|proofs)\.(.+)$", module)
    if not m:
        return None
    crate, part, rest = m.groups()
    if part == "specs" and rest.startswith("declared."):
        return crate + "/src declared " + re.sub(r"\.TheVariants$", "", rest).split(".")[-1]
    return "%s/%s/%s.antt" % (crate, part, rest.replace(".", "/"))


def imports(text, word=r"(?:pub )?use ", end=""):
    """What a file imports."""
    names, aliases = {}, {}
    for m in re.finditer(r"(?m)^" + word + r"(\S+?)(?:\.\{([^}]*)\}| as (\S+?))?" + end + r"\s*$", text):
        module, listed, alias = m.groups()
        if listed is not None:
            for item in listed.split(","):
                part = item.strip().split(" as ")
                name, own = part[0].strip(), part[-1].strip()
                names[own] = names[own.strip("◌")] = (module, name)
        else:
            aliases[alias or module.split(".")[-1]] = module
    return Imports(names, aliases)


# ---- the library of the toolchain


@functools.lru_cache(maxsize=None)
def kit():
    """The folder of the toolchain's sources, and where the modules of its logic lie; nothing where there is no toolchain."""
    rt = shutil.which("rt") or shutil.which("rt", path="/opt/rattle/bin")
    top = os.path.join(os.path.dirname(subprocess.run([rt, "doc"], capture_output=True, text=True, check=True).stdout.strip()), "rattle") if rt else ""
    project = os.path.join(top, "logic", "antt-project.json")
    mounts = json.loads(read(project))["mounts"] if os.path.exists(project) else {}
    return top, {name: os.path.join(top, "logic", folder) for name, folder in mounts.items()}


@functools.lru_cache(maxsize=None)
def passed_on(file):
    """What a file of the library passes on: for each name the module and the name there, and for each module its path."""
    names, modules = {}, {}
    for m in re.finditer(r"(?m)^(?:unfoldable )?pub use (\S+?)(?:\.\{([^}]*)\}| as (\S+))?\s*$", read(file) if os.path.exists(file) else ""):
        module, listed, alias = m.groups()
        for item in (listed or "").split(","):
            part = item.strip().split(" as ")
            names[part[-1].strip()] = (module, part[0].strip())
        if listed is None:
            modules[alias or module.split(".")[-1]] = module
    return names, modules


def origin(module, name):
    """The module and the name of a thing of the library, where it is declared and not only passed on."""
    for _ in range(20):
        folder, rest = placed(module)
        if not folder:
            break
        file = os.path.join(folder, *rest) + ".antt"
        names, _ = passed_on(file)
        if name in names:
            module, name = names[name]
            continue
        for k in range(len(rest)) if not os.path.exists(file) else ():
            _, modules = passed_on(os.path.join(folder, *rest[:k], "Lib.antt") if k == 0 else os.path.join(folder, *rest[:k]) + ".antt")
            if rest[k] in modules:
                module = ".".join([modules[rest[k]]] + rest[k + 1:])
                break
        else:
            break
    return module, name


def placed(module):
    """The folder of the library that a module's file lies in, and its path there; no folder where it is none of the library."""
    top, mounts = kit()
    parts = module.split(".")
    if parts[0] == "Rattle" and len(parts) > 3 and parts[2] in ("specs", "proofs"):
        folder, rest = os.path.join(top, parts[1], parts[2]), parts[3:]
    else:
        folder, rest = mounts.get(parts[0], ""), parts[1:]
        folder = os.path.join(folder, "src") if os.path.isdir(os.path.join(folder, "src")) else folder
    return (folder, rest) if top and rest and os.path.isdir(folder) else ("", rest)


START = re.compile(r"^(?:(?:abbrev|unfoldable|opaque)\s+)*(?:pub\s+)?(?:(abbrev|unfoldable)\s+)?(?:pub\s+)?(?:(record|data)\s+)?([^\s:(){}]+)(.*)$")


class File:
    """An antt file: its definitions by name, and what other names in it stand for."""

    def __init__(self, root, file):
        self.file = file
        self.text = read(os.path.join(root, "crates", file))
        self.imports, self.passed = imports(self.text), imports(self.text, "pub use ")
        self.defs = {}
        self.scan()

    def scan(self):
        around, current, head = [], None, ""
        for number, line in enumerate(self.text.split("\n"), 1):
            code = re.sub(r"\s*--\s.*$", "", line) if not line.strip().startswith("--") else ""
            if not code.strip() or re.match(r"(use|pub use|infix\w*|mod|pub mod) ", code):
                continue
            # the head of a section may take several lines
            code, head = head + code, ""
            if re.match(r"\s*module\b", code) and not code.endswith(" where"):
                head = code + "\n"
                continue
            indent = len(code) - len(code.lstrip())
            while around and indent <= around[-1][0]:
                around.pop()
            if re.match(r"\s*module\b", code):
                around.append((indent, code))
                current = None
                continue
            level = around[-1][0] + 2 if around else 0
            m = START.match(code.strip()) if indent == level else None
            if m and (m.group(2) or re.match(r"(\s*\{[^}]*\})*\s*:(\s|$)", m.group(4))):
                current = Definition(self.file, m.group(3), number, [a[1] for a in around])
                current.kind = m.group(2) or ""
                current.public = bool(re.match(r"\s*(?:(?:abbrev|unfoldable|opaque)\s+)*pub\s", code))
                for name in {current.name, current.name.strip("◌")}:
                    self.defs[name] = current
                current.statement.append(code)
            elif current is None:
                continue
            elif indent > level and not current.kind and current.statement and not current.parts and not self.is_clause(current):
                current.statement.append(code)
            elif current.kind and indent == level + 2:
                part = re.match(r"\s*(?:pub )?([^\s:(){}]+) :", code)
                if part:
                    current.parts.append(part.group(1))
                    if current.kind == "data":
                        self.defs.setdefault(part.group(1), current)
            current.lines.append(code)

    @staticmethod
    def is_clause(d):
        """Has a clause of the definition been seen?"""
        return any(re.match(r"\s*(unfolding\b|" + re.escape(d.name) + r"(\s|$))", x) for x in d.lines[1:])

    def words(self, text):
        """The names in a text that may stand for definitions, without fields and the fields of records that are built: of `a.b` both `a.b`, which a module's
        short name may begin, and `a`."""
        text = re.sub(r"([{;]\s*)[^\s={};]+\s*=(?=\s)", r"\1", text)
        for word in re.split(r"[\s(){}\[\],;]+", text):
            word = re.sub(r"\.$", "", word.strip("«»"))
            while word and not word.startswith("."):
                yield word
                word = word.rpartition(".")[0]


class Tree:
    """All antt files, read when asked for."""

    def __init__(self, root):
        self.root, self.files, self.sources = root, {}, {}

    def file(self, name):
        if name not in self.files:
            exists = os.path.exists(os.path.join(self.root, "crates", name))
            self.files[name] = File(self.root, name) if exists else None
        return self.files[name]

    def all(self):
        for path in sorted(glob.glob(os.path.join(self.root, "crates", "*", "*", "**", "*.antt"), recursive=True)):
            name = os.path.relpath(path, os.path.join(self.root, "crates"))
            if name.split(os.sep)[1] != "out":  # what rt makes
                yield self.file(name)

    def found(self, imported, word):
        """The definition of ours that an imported word stands for, in an antt file or declared in a source."""
        module, name = imported.get(word) or ("", "")
        file = module_file(module)
        if file is None:
            return None
        if " declared " in file:
            if file not in self.sources:
                self.sources[file] = self.declared(*file.split("/src declared "))
            return self.sources[file]
        f = self.file(file)
        return (f.defs.get(name) or (self.found(f.passed, name) if name in f.passed.names else None)) if f else None

    def declared(self, crate, name):
        """A struct or enum of a source, as a definition."""
        for path, text in sources(self.root, crate).items():
            m = re.search(r"(?m)^pub (?:struct|enum)\s+" + re.escape(name) + r"\b[^{;]*\{", text)
            if m:
                d = Definition(os.path.relpath(path, os.path.join(self.root, "crates")), name, 0, [])
                d.lines = [x for x in text[m.start():closing(text, m.end() - 1) + 1].split("\n") if x.strip()]
                d.kind = "declared"
                return d
        return None

    def meant(self, file, word):
        """The definition that a word in a file stands for, if it is one of ours."""
        f = self.file(file)
        if word in f.defs:
            return f.defs[word]
        return self.found(f.imports, word)


# ---- documents

# those that speak of now, the folder of those that tell what was, those that a tool makes, those that lay an older text beside today's
NOW = (
    "README.md", "docs/AUDIT.md", "docs/BENCH.md", "docs/DECISIONS.md", "docs/DIFFERENCES.md", "docs/EXCEPTIONS.md", "docs/PROVING.md", "docs/SCRATCH.md",
    "docs/SETTLED.md", "docs/TRACE.md", "docs/WORDS.md", "examples/README.md", "oracle/README.md", "crates/replay/LIST.md",
)
HISTORY = "docs/changes/"
MADE = ("docs/STATEMENTS.md",)
BESIDE_OLDER = ("docs/PORT.md", "docs/DESIGN-PASS.md", "docs/LOOK-BACK.md", "PORTING-LEFT.md")


def tree_files(root):
    """Every file of the tree, but for the folders that a .gitignore names."""
    out, ignored = [], {".git"}
    for folder, below, files in os.walk(root):
        place = os.path.relpath(folder, root)
        if ".gitignore" in files:
            for entry in re.findall(r"(?m)^(\S+)/$", read(os.path.join(folder, ".gitignore"))):
                ignored.add(os.path.normpath(os.path.join(place, entry)) if "/" in entry else entry)
        below[:] = sorted(d for d in below if d not in ignored and os.path.normpath(os.path.join(place, d)) not in ignored)
        out += [os.path.normpath(os.path.join(place, f)) for f in sorted(files)]
    return out


def cells(line):
    """The cells of a line of a table, or nothing where it is none."""
    if not line.startswith("|"):
        return []
    return [c.strip() for c in line.strip().strip("|").split("|")]


def lines_of(root, path):
    """The lines of a document, each with its number and its block: none, or the language, which is empty for a plain or indented block.

    Of a table of docs/TRACE.md the last cell stands for the line.
    """
    block = None
    for number, line in enumerate(read(os.path.join(root, path)).split("\n"), 1):
        if line.startswith("```"):
            block = line[3:] if block is None else None
        elif block is None and line.startswith("    "):
            yield number, "", line
        else:
            yield number, block, cells(line)[-1] if path == "docs/TRACE.md" and cells(line) else line


NUMBERS = ("one", "two", "three", "four", "five", "six", "seven", "eight", "nine", "ten", "eleven", "twelve")
FIGURE = r"(\d{1,3}(?:,\d{3})+|\d+|%s)" % "|".join(NUMBERS)


def figure(text):
    """The number that a figure of a document says."""
    return NUMBERS.index(text) + 1 if text in NUMBERS else int(text.replace(",", ""))


def tables(text):
    """The tables of a document: the heading before each, and its rows without the two lines of its head."""
    out, heading, rows = [], "", None
    for line in text.split("\n"):
        if line.startswith("#"):
            heading = line.lstrip("#").strip()
        if line.startswith("|"):
            if rows is None:
                rows = []
                out.append((heading, rows))
            rows.append(cells(line))
        else:
            rows = None
    return [(h, r[2:]) for h, r in out]


def quoted(text):
    """What stands between backticks."""
    return re.findall(r"`([^`]+)`", text)


def theorems(root, tree, trouble):
    """The theorems that the first table of the audit page names: question, file and definition; `.._end` stands for all public ones of that end."""
    out, question = [], ""
    for row in tables(read(os.path.join(root, "docs", "AUDIT.md")))[0][1]:
        question = row[0] or question
        if not quoted(row[1]) or not quoted(row[2]):
            trouble.append("docs/AUDIT.md: no theorem or no file: " + " | ".join(row[:3]))
        for file, name in ((file, name) for file in quoted(row[2]) for name in quoted(row[1])):
            f = tree.file(file)
            meant = [d for d in f.defs.values() if d.name == name or name.startswith("..") and d.public and d.name.endswith(name[2:])] if f else []
            if not meant:
                trouble.append("no theorem %s in %s" % (name, file))
            out += [(question, file, d) for d in meant]
    return out
