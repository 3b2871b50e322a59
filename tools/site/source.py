"""Reads the sources of crates: items with their comments, signatures and contracts, and definitions of specs."""

import os
import re
from dataclasses import dataclass, field

# What is no code: a comment, a text, a character. A prime behind a name, as in `left'`, and a lifetime begin no character.
NO_CODE = re.compile(r"""//[^\n]*|b?"(?:\\.|[^"\\])*"|(?:(?<![\w'])b|(?<![\w']))'(?:\\[^']+|[^\\'\n])'""", re.S)
WORD = re.compile(r"[^\W\d][\w']*")


@dataclass
class Clause:
    kind: str
    label: str
    text: str


@dataclass
class Item:
    kind: str
    name: str
    doc: str
    header: str
    file: str
    line: int
    public: bool
    clauses: list = field(default_factory=list)
    children: list = field(default_factory=list)
    attributes: list = field(default_factory=list)
    comment: str = ""
    body: str = ""


def text_of(path):
    with open(path, encoding="utf-8") as file:
        return file.read()


def without_texts(text):
    return NO_CODE.sub(lambda found: re.sub(r"[^\n]", " ", found.group()), text)


def end_of_block(code, at):
    """The position behind the bracket that closes the one at a position."""
    depth = 0
    for place in range(at, len(code)):
        if code[place] in "([{":
            depth += 1
        elif code[place] in ")]}":
            depth -= 1
            if depth == 0:
                return place + 1
    raise ValueError("a bracket is not closed")


def end_of_header(code, at):
    """The position of the first `{` or `;` outside of brackets."""
    while code[at] not in "{;":
        at = end_of_block(code, at) if code[at] in "([" else at + 1
    return at


ITEM = re.compile(
    r"""(?P<vis>pub(?:\(\w+\))?\s+)?
    (?P<kind>(?:const\s+)?(?:unsafe\s+)?(?:extern\s+"C"\s+)?fn|struct|enum|trait|impl|mod|use|const|static|type|ghost)\b""",
    re.X,
)
CLAUSE = re.compile(r"\s*(requires|ensures\*?|ghost)(?:\s+(\w+))?:?\s*(?=\{)")
START_OF_CLAUSES = re.compile(r"\n\s*(?:requires|ensures|ghost)\b")


def name_of(kind, header):
    if kind == "impl":
        bare = re.sub(r"\bwhere\b.*", "", header, flags=re.S)
        bare = re.sub(r"^impl\s*", "", bare).strip()
        if bare.startswith("<"):
            bare = bare[end_of_angles(bare, 0) :].strip()
        return " ".join(bare.split())
    if kind == "use":
        return " ".join(header.split("use", 1)[1].split())
    if kind == "ghost" and re.match(r"ghost\s+use\b", header):
        return "use " + " ".join(header.split("use", 1)[1].split())
    found = WORD.search(header, header.index(kind.split()[-1]) + len(kind.split()[-1]))
    return found.group() if found else ""


def end_of_angles(text, at):
    depth = 0
    for place in range(at, len(text)):
        if text[place] == "<":
            depth += 1
        elif text[place] == ">" and text[place - 1] != "-":
            depth -= 1
            if depth == 0:
                return place + 1
    raise ValueError("an angle bracket is not closed")


def read_items(text, file, start=0, end=None):
    """Yields the items of a source between two positions."""
    code = without_texts(text)
    end = len(text) if end is None else end
    at, doc, comment, attributes = start, [], [], []
    while at < end:
        line_end = text.find("\n", at)
        line_end = end if line_end < 0 else line_end
        line = text[at:line_end].strip()
        if not line or line.startswith("//"):
            if line.startswith("///"):
                doc.append(line[4:])
            elif line.startswith("//") and not line.startswith("//!"):
                comment.append(line[3:])
            elif not line:
                comment = []
            at = line_end + 1
            continue
        at += len(text[at:line_end]) - len(text[at:line_end].lstrip())
        if text.startswith("#", at):
            close = end_of_block(code, code.index("[", at))
            attributes.append(text[at:close])
            # (what is left of the line is no empty line)
            at = close + 1 if text[close : close + 1] == "\n" else close
            continue
        found = ITEM.match(text, at)
        if not found:
            # (a macro, or a variant)
            at = line_end + 1
            doc, comment, attributes = [], [], []
            continue
        item, at = read_item(text, code, at, found, file)
        item.doc, item.comment, item.attributes = "\n".join(doc), "\n".join(comment), attributes
        doc, comment, attributes = [], [], []
        yield item


def read_item(text, code, at, found, file):
    kind = found.group("kind")
    kind = "fn" if kind.endswith("fn") else kind
    item = Item(kind, "", "", "", file, text.count("\n", 0, at) + 1, (found.group("vis") or "").strip() == "pub")
    close = end_of_header(code, at)
    if kind in ("use", "const", "static", "type") or (kind == "ghost" and text[at:close].startswith("ghost use")):
        # (a list of names in braces, or a value)
        while code[close] == "{":
            close = end_of_header(code, end_of_block(code, close))
        item.header, place = text[at:close], close + 1
    elif kind == "ghost":
        item.header, place = text[at:close].rstrip(" :="), code.index(";", close)
        pieces = []
        place = close
        while code[place] == "{":
            after = end_of_block(code, place)
            pieces.append(text[place + 1 : after - 1].strip())
            place = re.compile(r"\s*=?\s*").match(code, after).end()
        item.body = " = ".join(pieces)
        item.clauses = [Clause("ghost", "", pieces[0])]
        # (whether the first piece is the type, or a value)
        item.header = re.sub(r"\s*[:=]\s*$", "", text[at:close])
        item.attributes = []
        item.public = "=" not in text[at:close]
        place += 1
    elif kind == "fn":
        begin = START_OF_CLAUSES.search(code, at, close)
        item.header = text[at : begin.start() if begin else close].rstrip()
        place = begin.start() if begin else close
        clause = CLAUSE.match(code, place)
        while clause:
            after = end_of_block(code, clause.end())
            item.clauses.append(Clause(clause.group(1), clause.group(2) or "", text[clause.end() + 1 : after - 1].strip()))
            place = after
            clause = CLAUSE.match(code, place)
        place = end_of_header(code, place)
        if code[place] == "{":
            after = end_of_block(code, place)
            item.body = text[place:after]
            place = after
        else:
            place += 1
    else:
        item.header, place = text[at:close].rstrip(), close + 1
        if code[close] == "{":
            place = end_of_block(code, close)
            item.body = text[close + 1 : place - 1]
            if kind in ("impl", "trait", "mod"):
                item.children = list(read_items(text, file, close + 1, place - 1))
    item.name = name_of(kind, item.header)
    return item, place


class Crates:
    """The crates of a repository, read as they are asked for."""

    def __init__(self, folder):
        self.folder = folder
        self.modules = {}

    def file_of(self, crate, path):
        base = os.path.join(self.folder, crate, "src")
        if not path:
            return os.path.join(base, "lib.rt")
        return os.path.join(base, *path) + ".rt"

    def module(self, crate, path=()):
        """The items of a module, and its comment."""
        key = (crate, tuple(path))
        if key not in self.modules:
            file = self.file_of(crate, path)
            if os.path.exists(file):
                self.modules[key] = list(read_items(text_of(file), file))
            else:
                inside = [it for it in self.module(crate, path[:-1]) if it.kind == "mod" and it.name == path[-1]]
                self.modules[key] = inside[0].children
        return self.modules[key]

    def files(self, crate):
        for at, _, names in sorted(os.walk(os.path.join(self.folder, crate, "src"))):
            for name in sorted(names):
                if name.endswith(".rt"):
                    yield os.path.join(at, name)

    def all_items(self, crate):
        """The items of all files of a crate, each file read once."""
        base = os.path.join(self.folder, crate, "src")
        for file in self.files(crate):
            path = os.path.relpath(file, base)[:-3].split(os.sep)
            yield from self.module(crate, () if path == ["lib"] else tuple(path))

    def find(self, crate, path):
        """The crate and the item that a path of names leads to, through re-exports; or the path of a module."""
        *where, name = path
        try:
            items = self.module(crate, tuple(where))
        except (IndexError, FileNotFoundError):
            # (the module itself may be passed on)
            if not where:
                raise
            other, found = self.find(crate, where)
            return self.find(other, [*found, name]) if isinstance(found, list) else (other, found)
        for item in items:
            if item.name == name and item.kind in ("struct", "enum", "trait", "fn", "const", "type"):
                return crate, item
        for shown, target in uses_of(items):
            if shown == name:
                return self.resolve(crate, where, target)
        if os.path.exists(self.file_of(crate, tuple(path))) or any(it.kind == "mod" and it.name == name for it in items):
            return crate, list(path)
        raise KeyError(f"{crate}: {'::'.join(path)}")

    def resolve(self, crate, where, target):
        first, *rest = target
        if first == "crate":
            return self.find(crate, rest)
        if first == "super":
            return self.find(crate, [*where[:-1], *rest])
        if os.path.isdir(os.path.join(self.folder, first)):
            return self.find(first, rest)
        return self.find(crate, [*where, first, *rest])


def names_of_use(path):
    """The names that a `use` brings, each with the path that it stands for."""
    path = path.strip()
    braces = re.fullmatch(r"(.*?)\{(.*)\}", path, re.S)
    if braces:
        before = [word for word in braces.group(1).split("::") if word]
        for part in split_outside(braces.group(2)):
            for shown, target in names_of_use(part):
                yield shown, [*before, *target]
        return
    words, _, other = path.partition(" as ")
    target = [word.strip() for word in words.split("::")]
    yield other.strip() or target[-1], target


def split_outside(text):
    depth, part = 0, ""
    for letter in text + ",":
        depth += (letter == "{") - (letter == "}")
        if letter == "," and depth == 0:
            if part.strip():
                yield part.strip()
            part = ""
        else:
            part += letter


def uses_of(items, public=True):
    for item in items:
        if item.kind == "use" and item.public == public:
            yield from names_of_use(item.name)


@dataclass
class Definition:
    name: str
    doc: str
    text: str
    module: str
    line: int
    kind: str
    shared: bool = False
    scope: str = ""

    @property
    def variants(self):
        """The names of the cases of a `data`."""
        return re.findall(r"^\s+(?:pub )?(\S+) :", self.text.partition("\n")[2], re.M) if self.kind == "data" else []


# A list of names as an operator writes them: `◌≡◌`, `if◌then◌else◌`.
USE = re.compile(r"^\s*(?:pub )?use ([\w.]+?)(?:\.\{(.*)\})?(?: as (\w+))?$")
DEFINED = re.compile(
    r"^(\s*)(?:(?:abbrev|unfoldable|opaque|inline|irreducible) )*(?:pub )?(?:(record|data|inductive) )?(\S+)((?: .*)?(?::|where).*)$"
)


STARTS = re.compile(r"(abbrev|unfoldable|opaque|pub|inline|irreducible|record|data)\b")


def read_spec(path, module):
    """The comment of a file of specs, its definitions, and the names that it brings: name -> (module, name)."""
    reader = SpecReader(module)
    for number, line in enumerate(text_of(path).split("\n"), 1):
        reader.read(number, line)
    if not reader.begun:
        reader.head = reader.doc
    return "\n".join(reader.head), reader.definitions, reader.names, reader.passed


class SpecReader:
    """What was read of a file of specs, which it takes line by line."""

    def __init__(self, module):
        self.module = module
        self.head, self.definitions, self.names, self.passed = [], [], {}, set()
        # The comment for the next definition; the definition that a further line belongs to, with its indent; and the modules around
        # the line that have parameters, with their indents.
        self.doc, self.current, self.scopes = [], None, []
        self.begun = False

    def read(self, number, line):
        bare = line.strip()
        use = USE.match(line)
        if not bare:
            self.current = None
            if self.doc:
                self.begin()
        elif bare.startswith("--"):
            self.current = None
            self.doc.append(bare[2:].removeprefix(" "))
        elif use:
            self.read_use(use, bare.startswith("pub "))
        elif re.match(r"(?:pub )?mod ", bare):
            self.begin()
        else:
            indent = len(line) - len(line.lstrip())
            self.scopes = [scope for scope in self.scopes if scope[0] < indent]
            scope = re.match(r"module _ (.*) where$", bare)
            if scope:
                self.begun, self.current = True, None
                self.scopes.append((indent, scope.group(1)))
            else:
                self.read_code(number, line, indent)

    def begin(self):
        """The comment so far is the one of the file."""
        if not self.begun:
            self.head, self.doc, self.begun = self.doc, [], True

    def read_use(self, use, public):
        if not self.begun:
            self.head, self.doc, self.begun = self.head or self.doc, [], True
        for target, shown in names_of_spec_use(use):
            self.names[shown] = target
            if public:
                self.passed.add(shown)

    def read_code(self, number, line, indent):
        found, bare = DEFINED.match(line), line.strip()
        last = self.definitions[-1] if self.definitions else None
        if found and STARTS.match(bare) and (self.current is None or indent <= self.current[0]):
            scope = " ".join(it[1] for it in self.scopes)
            kind = found.group(2) or "abbrev"
            made = Definition(found.group(3), "\n".join(self.doc), line, self.module, number, kind, not self.doc, scope)
            if made.shared and last:
                made.doc = last.doc
            self.begun, self.doc, self.current = True, [], (indent, made)
            self.definitions.append(made)
        elif self.current is not None:
            self.current[1].text += "\n" + line
        elif last and re.match(re.escape(last.name) + r"\b", bare):
            last.text += "\n" + line
            self.current = (indent, last)
        else:
            self.doc = []


def names_of_spec_use(use):
    module, listed, other = use.groups()
    if listed is None:
        yield (module, ""), other or module.rsplit(".", 1)[-1]
        return
    for part in split_outside(listed):
        target, _, shown = part.partition(" as ")
        yield (module, target.strip()), (shown or target).strip()


class Specs:
    """The definitions of the crates and of the toolchain, by module and name."""

    def __init__(self, folders):
        self.folders = folders
        self.read = {}

    def module(self, name):
        """A module's comment, definitions and names; None if it has no file, as what the toolchain itself declares."""
        if name not in self.read:
            path = next((it for it in self.files_of(name) if os.path.exists(it)), None)
            self.read[name] = read_spec(path, name) if path else self.passed_on(name)
        return self.read[name]

    def files_of(self, name):
        words = name.split(".")
        for folder in self.folders:
            if words[0] == "Rattle" and len(words) > 3 and words[2] == "specs":
                yield os.path.join(folder, words[1], "specs", *words[3:]) + ".antt"
            elif words[0] != "Rattle":
                yield os.path.join(folder, "logic", words[0].capitalize(), *words[1:]) + ".antt"
                yield os.path.join(folder, "antt", "port", words[0], "src", *words[1:]) + ".antt"

    def passed_on(self, name):
        """A module that its crate passes on from another: `pub use Rattle.core.specs.List` in `Lib.antt`."""
        words = name.split(".")
        if words[:1] != ["Rattle"] or len(words) < 4 or words[3] in ("Lib", "declared", "contracts"):
            return None
        library = self.module(".".join([*words[:3], "Lib"]))
        target, inner = library[2].get(words[3], ("", "")) if library else ("", "")
        return self.module(".".join([target, *words[4:]])) if target and not inner else None

    def find(self, module, name, seen=()):
        """The definition of a name that a module has or passes on, or None."""
        read = self.module(module)
        if read is None or module in seen:
            return None
        _, definitions, names, passed = read
        for it in definitions:
            if it.name == name or name in it.variants:
                return it
        return self.find(*names[name], (*seen, module)) if name in passed else None
