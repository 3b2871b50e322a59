"""Writes the pages of the bindings for C and Python, from the header, the exports and the package."""

import ast
import os
import re
from dataclasses import dataclass

from pages import anchor, escape, first_sentence, mark, raw, rows_of
from source import text_of

HANDLES = {
    "bptree": "A map from numbers to numbers",
    "bptree_dict": "A map from byte strings to numbers",
    "bptree_bytes": "A set of byte strings",
}


@dataclass
class Declaration:
    kind: str
    name: str
    text: str
    comment: str
    section: str
    calls: str = ""


PIECE = re.compile(
    r"""(?P<blank>\n[ \t]*\n)|/\*(?P<comment>.*?)\*/|(?P<line>^\#.*?$|^extern.*?$|^\}$)
    |(?P<type>^typedef\b(?:[^;{]|\{[^}]*\})*;)|(?P<inline>^static\ inline\b[^{]*)(?P<body>\{[^{}]*\})|(?P<function>^[a-z][^;{}/]*;)""",
    re.X | re.S | re.M,
)


def read_header(text):
    """Yields the declarations of a header. The first comment after an empty line is of all up to the next empty line."""
    section, comment, begins = "", "", True
    for found in PIECE.finditer(text):
        if found.group("blank"):
            section, comment, begins = "", "", True
        elif found.group("comment") is not None:
            words = " ".join(found.group("comment").split())
            if begins:
                section, comment, begins = "\n".join(line.strip() for line in found.group("comment").strip().split("\n")), "", False
            else:
                comment = words
        elif found.group("type"):
            kind = "type"
            name = re.search(r"(\w+);$", found.group("type")).group(1)
            yield Declaration(kind, name, found.group("type"), comment, section)
            begins = False
        elif found.group("inline") or found.group("function"):
            signature = " ".join((found.group("inline") or found.group("function")).split()).rstrip(";").removeprefix("static inline ")
            called = re.search(r"\bbptree_dict_\w+", found.group("body") or "")
            name = re.search(r"(\w+)\(", signature).group(1)
            yield Declaration("function", name, signature, comment, section, called.group() if called else name)
            begins = False
            if found.group("inline"):
                # (a comment before one of these is of that one alone)
                comment = ""


def handle_of(name):
    if name == "bptree_record":
        return "bptree_dict"
    return next(it for it in ("bptree_bytes", "bptree_dict", "bptree") if re.match(it + r"(_|$)", name))


def c_pages(reference):
    """A page for each of the handles, with its calls and their contracts; the declarations, their summaries, and what they lack."""
    header = list(read_header(text_of(os.path.join(reference.top, "crates/bptree_c/include/sweep_bptree.h"))))
    items = reference.crates.all_items("bptree_c")
    exports = {it.name: it for it in items if it.kind == "fn" and it.public and any("no_mangle" in word for word in it.attributes)}
    pages, lacking = {}, []
    # (the comment of an export is of it alone; one of the header may be of several)
    summaries = {it.name: first_sentence(exports[it.calls].doc if it.calls in exports else it.comment) for it in header if it.calls}
    for handle, title in HANDLES.items():
        page = f"c.{handle}"
        here = [it for it in header if handle_of(it.name) == handle]
        functions = [it for it in here if it.kind == "function"]
        text = f"# {handle}\n" + raw('<div class="path">C type in <code>sweep_bptree.h</code></div>') + f"{title}.\n\n"
        for it in here:
            if it.kind == "type":
                text += f"## {it.name}\n" if it.name != handle else ""
                text += declared(it) + f"{prose(it.section)}\n\n{prose(it.comment)}\n\n"
        text += "## Calls\n" + rows_of((f"#{it.name}", it.name, summaries[it.name]) for it in functions)
        section = ""
        for it in functions:
            if it.section != section:
                section = it.section
                text += f"\n{prose(section)}\n\n"
            text += f"### {it.name}\n" + declared(it) + f"{prose(it.comment)}\n\n"
            export = exports.get(it.name)
            if export:
                names = reference.scope_of(export, "bptree_c")
                text += f"The export: {' '.join(export.doc.split())}\n" + raw(reference.contract_html(export, names, (page, it.name)))
            elif handle == "bptree_bytes":
                text += "Code in C, over the call of `bptree_dict` of that name. It is tested, not proved.\n\n"
            if not export and handle != "bptree_bytes" or export and not export.clauses:
                lacking.append((it.name, "contract"))
        pages[page] = text
    lacking += [(name, "summary") for name, summary in summaries.items() if not summary]
    return pages, header, summaries, lacking


def declared(it):
    return raw(f'{mark(it.name)}<pre class="signature">{escape(it.text)}</pre>')


def prose(text):
    return re.sub(r"(?<![`\w])((?:BPTREE|bptree)_\w+|\*\w+)(?![`\w])", r"`\1`", text)


# Python.


def python_docs(top):
    """The comments of the methods, by class and name: of the package and of its compiled part."""
    docs = {}
    tree = ast.parse(text_of(os.path.join(top, "python/sweep_bptree/__init__.py")))
    for it in tree.body:
        if isinstance(it, ast.ClassDef):
            docs[it.name, ""] = ast.get_docstring(it) or ""
            for call in it.body:
                if isinstance(call, ast.FunctionDef) and ast.get_docstring(call):
                    docs[it.name, call.name] = ast.get_docstring(call)
                    arguments = ast.unparse(call.args)
                    docs[it.name, call.name, "signature"] = f"{call.name}({arguments})"
    native = text_of(os.path.join(top, "python/native/native.c"))
    tables = {"shared": ("SortedMap", "SortedSet"), "map": ("SortedMap",), "set": ("SortedSet",)}
    for table, body in re.findall(r"^static PyMethodDef (\w+)_methods\[\] = \{(.*?)^\};", native, re.M | re.S):
        for name, text in re.findall(r'(?:PLAIN|NAMED)\("(\w+)",((?:[^"]|"(?:\\.|[^"\\])*")*?)\),\n', body):
            words = "".join(ast.literal_eval(f'"{part}"') for part in re.findall(r'"((?:\\.|[^"\\])*)"', text))
            signature, _, doc = words.partition("\n--\n\n")
            for kind in tables[table]:
                docs.setdefault((kind, name), doc)
                docs.setdefault((kind, name, "signature"), signature.replace("$self", "self").replace("<unrepresentable>", "..."))
    docs["EmptyError", ""] = re.search(r'"sweep_bptree.EmptyError", "(.*?)"', native).group(1)
    return docs


def python_pages(reference):
    """A page for each class, by the types of the package."""
    docs = python_docs(reference.top)
    tree = ast.parse(text_of(os.path.join(reference.top, "python/sweep_bptree/__init__.pyi")))
    classes = {it.name: it for it in tree.body if isinstance(it, ast.ClassDef)}
    pages, lacking = {}, []
    for name in ("SortedMap", "SortedSet", "Keys", "Values", "Items", "EmptyError"):
        page = f"python.{name}"
        calls = {}
        for kind in bases(classes, name):
            for it in kind.body:
                if isinstance(it, ast.FunctionDef):
                    calls.setdefault(it.name, {}).setdefault(kind.name, []).append(it)
        text = f"# {name}\n" + raw(f'<div class="path">Python class <code>sweep_bptree.{name}</code></div>')
        text += rst(docs.get((name, ""), ""))
        # (the types leave out what a class of the standard library has)
        inherited = [it[1] for it in docs if len(it) == 3 and it[0] == name and it[1] not in calls]
        public = sorted(it for it in [*calls, *inherited] if not it.startswith("_"))
        if public:
            summaries = [(f"#{anchor(it)}", it, first_sentence(doc_of(docs, name, it)).replace("``", "`")) for it in public]
            text += "## Methods\n" + rows_of(summaries)
        for it in public:
            doc = doc_of(docs, name, it)
            # (how they fail is said once, of the class)
            lacking += [(f"{name}.{it}", what) for what, good in (("summary", doc), ("cost", "O(" in doc)) if not good]
            signature = signatures(calls[it]) if it in calls else escape(docs[name, it, "signature"])
            text += f"### {it}\n" + raw(f'{mark(it)}<pre class="signature">{signature}</pre>') + rst(doc)
        special = [it for it in calls if it.startswith("__")]
        if special:
            text += "## Operators\n"
            for it in special:
                text += raw(f'<pre class="signature">{signatures(calls[it])}</pre>') + rst(doc_of(docs, name, it))
        pages[page] = text
    return pages, lacking


def bases(classes, name):
    """A class and those that it derives from here."""
    yield classes[name]
    for base in classes[name].bases:
        base = base.value if isinstance(base, ast.Subscript) else base
        if isinstance(base, ast.Name) and base.id in classes:
            yield from bases(classes, base.id)


def doc_of(docs, kind, name):
    return docs.get((kind, name)) or docs.get(("_View", name)) or ""


def signatures(calls):
    lines = []
    for it in next(iter(calls.values())):
        mark = "@classmethod\n" if any(isinstance(word, ast.Name) and word.id == "classmethod" for word in it.decorator_list) else ""
        returns = f" -> {ast.unparse(it.returns)}" if it.returns else ""
        lines.append(f"{mark}{it.name}({ast.unparse(it.args)}){returns}")
    return escape("\n".join(lines))


def rst(doc):
    return f"\n```{{eval-rst}}\n{doc}\n```\n\n" if doc else "\n"
