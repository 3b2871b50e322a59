"""Writes docs/PROMISES.md and docs/DEFINITIONS.md, for readers who have no site."""

import os

from pages import fill, first_sentence, sentence

MARK = "<!-- Made by `tools/reference write` from the sources: edit those. -->"


def code(text):
    """A formula as code in the cell of a table."""
    ticks = "``" if "`" in text else "`"
    return f"{ticks}{' '.join(text.split())}{ticks}".replace("|", "\\|")


def contract(item):
    lines = [f"`{it.kind}{' ' + it.label if it.label else ''}`: {code(it.text)}" for it in item.clauses]
    return "<br>".join(lines) or "No contract: that it is safe and returns is proved, and no more"


def table(head, rows):
    """A table of Markdown. Each row is a tuple of its cells."""
    lines = [head, ("---",) * len(head), *rows]
    return "".join(f"| {' | '.join(cells)} |\n" for cells in lines)


def promises(reference):
    """Each public call with its contract in full."""
    types, successes = "", []
    for entry in sorted(reference.entries.values(), key=lambda it: (it.item.kind == "fn", it.path.count("::"), it.path)):
        calls = [it for it, _ in reference.calls_of(entry)]
        if calls:
            file = os.path.relpath(calls[0].file, reference.top)
            types += f"## {entry.path}\n\n{first_sentence(entry.item.doc)} In `{file}`.\n\n"
            types += table(("Call", "Contract"), [(f"`{it.name}`", contract(it)) for it in calls]) + "\n"
        for it in calls:
            clauses = [clause.text for clause in it.clauses if "IsOk" in clause.text.split("→")[-1]]
            successes += [(entry.path, f"`{it.name}`", code(text)) for text in clauses]
    exports = table(("Call", "Contract"), [(f"`{it.name}`", contract(it)) for it in exports_of(reference)]) + "\n"
    text = fill("PROMISES", types=types, exports=exports, successes=table(("Type", "Call", "Clause"), successes))
    return f"{MARK}\n\n{text.rstrip()}\n"


def exports_of(reference):
    items = reference.crates.all_items("bptree_c")
    found = [it for it in items if it.kind == "fn" and any("no_mangle" in word for word in it.attributes)]
    return sorted(found, key=lambda it: (it.name.startswith("bptree_dict"), it.file, it.line))


def definitions(reference):
    """Each definition that public contracts name, and that these name in turn, with its words, by file."""
    text, last = "", ""
    for module in sorted({module for module, _ in reference.wanted if reference.is_own(module)}):
        crate, name = module.removeprefix("Rattle.").split(".specs.")
        if name == "declared":
            continue
        text += f"## {crate}\n\n" if crate != last else ""
        last = crate
        head = sentence(" ".join(reference.specs.module(module)[0].split()))
        text += f"[{name}](../crates/{crate}/specs/{name.replace('.', '/')}.antt): {head}\n\n"
        found = sorted((it for it in reference.wanted.values() if it.module == module), key=lambda it: it.line)
        for names, doc in groups_of(found):
            text += f"- {', '.join(f'`{it}`' for it in names)}: {words(doc)}\n"
        text += "\n"
    return f"{MARK}\n\n{fill('DEFINITIONS', crates=text).rstrip()}\n"


def groups_of(found):
    """The definitions that have one comment, together."""
    groups = []
    for it in found:
        if groups and it.shared and it.doc == groups[-1][1]:
            groups[-1][0].append(it.name)
        else:
            groups.append(([it.name], it.doc))
    return groups


def words(doc):
    return sentence(" ".join(doc.split()).replace("<", "\\<").replace("*", "\\*"))
