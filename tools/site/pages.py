"""Writes the pages of the reference, in MyST, from the sources."""

import html
import os
import re

from source import WORD, Crates, Definition, Specs, split_outside, text_of, uses_of

TYPES = ("struct", "enum", "trait", "type")
KINDS = {"struct": "Struct", "enum": "Enum", "trait": "Trait", "type": "Type alias", "fn": "Function", "const": "Constant"}
FAILURE = re.compile(r"\b(fail|fails|failed|panics)\b")
# Calls of which only is proved that they are safe and return.
UNPROMISED = {"statistic", "allocator", "cache_leaf", "below", "among", "compares_in_place"}

# What the sources do not say of variants and of types in a trait.
SUMMARIES = {
    "GroupCount::Zero": "There is no key.",
    "GroupCount::One(G, usize)": "All keys are of one group, with its size.",
    "GroupCount::Multiple": "There are several groups: the least and the greatest, each with its size, and their number.",
    "NodeId::Inner(InnerNodeId)": "The id of an inner node.",
    "NodeId::Leaf(LeafNodeId)": "The id of a leaf.",
    "Listed::Element": "The type of what the iterator lists.",
}

# The signs of contracts, and words of the logic that no file of specs defines: how each is written, and what it says.
NOTATION = {
    "≡": ("x ≡ y", "Both sides are the same value."),
    "≢": ("x ≢ y", "The two sides are different values."),
    "×": ("P × Q", "Both hold. Of types it is the pair. `(x : X) × P x` says that there is an `x` for which `P x` holds."),
    "⊎": ("P ⊎ Q", "One of both holds."),
    "→": ("P → Q", "If `P` holds, `Q` holds. Of types it is the function. `(x : X) → P x` says that `P x` holds for each `x`."),
    "↔": ("P ↔ Q", "Each holds exactly if the other does."),
    "⊤": ("⊤", "What always holds."),
    "⊥": ("⊥", "What never holds."),
    "λ": ("λ x. e", "The function that maps `x` to `e`."),
    "Type": ("Type 0", "The type of a definition that says something of its arguments, and of types."),
    "result": ("result", "What the call returns."),
    "ℕ": ("ℕ", "A natural number, of any size. `zero` is 0, and `suc n` is `n + 1`. A `usize` is seen as one below 2^64."),
    "List": ("List X", "A list of members of `X`. Contracts see a map as the list of its pairs, and a set as the list of its keys."),
    "∷": ("x ∷ xs", "The list that begins with `x` and goes on with `xs`. `[]` is the empty list."),
    "++": ("xs ++ ys", "The members of `xs` and then those of `ys`."),
    "Bool": ("Bool", "`true` or `false`. `not`, `&&` and `||` are those of Rust."),
    "cond": ("cond b x y", "`x` if `b` is true, else `y`. `if b then x else y` is the same."),
    "map": ("map f xs", "`f` of each member, in their order."),
    "reverse": ("reverse xs", "The members in reverse order."),
    "min": ("min a b", "The lesser of two numbers, and `max a b` the greater."),
    "-": ("a - b", "The difference of two natural numbers, or 0 if `b` is the greater one."),
    "Option": ("Option X", "`Some x` or `None`, as in Rust."),
    "Result": ("Result X E", "`Ok x` or `Err e`, as in Rust."),
    "Ordering": ("Ordering", "`Less`, `Equal` or `Greater`, as in Rust."),
    "Bound": ("Bound X", "`Included x`, `Excluded x` or `Unbounded`, as in Rust."),
    "Box": ("Box X", "A box, as in Rust; `b.value` is the value in it."),
    "Vec": ("Vec X", "A vector, as in Rust; `v.items` is the list of its items."),
    "String": ("String", "A string, as in Rust."),
    "Global": ("Global", "The allocator of the program."),
    "Bor": ("Bor X", "A shared reference to a value of `X`. `MutBor X` is a mutable one."),
    "Called": ("Called g f a r f'", "A call of the closure `f` with the arguments `a` returns `r` and leaves the closure as `f'`."),
    "Once": (
        "Once F A R",
        "How closures of the type `F` are called with arguments of `A`, as by `FnOnce`; `Mut` is that of `FnMut`, and `Shared` that of `Fn`.",
    ),
    "Fml": ("Fml", "A formula of the program logic, which speaks of memory."),
    "RattleType": ("RattleType", "A type of Rattle as the program logic sees it; `unit` is `()`."),
    "refl": ("refl", "The proof that a value equals itself."),
    "sem": ("sem 𝓛 F", "That `F` holds, for an `F` that speaks of borrowed memory."),
}
# Words of another entry.
SAME = {
    "true": "Bool",
    "false": "Bool",
    "not": "Bool",
    "&&": "Bool",
    "||": "Bool",
    "zero": "ℕ",
    "suc": "ℕ",
    "pred": "ℕ",
    "max": "min",
    "[]": "∷",
}
SAME.update(
    {"Some": "Option", "None": "Option", "Ok": "Result", "Err": "Result", "Less": "Ordering", "Equal": "Ordering", "Greater": "Ordering"}
)
SAME.update({"MutBor": "Bor", "Mut": "Once", "Shared": "Once", "unit": "RattleType", "IntoIter": "Vec"})
SAME.update({"Included": "Bound", "Excluded": "Bound", "Unbounded": "Bound", "none": "Option", "some": "Option"})
# What follows a dot.
MEMBERS = {
    "now": ("x.now", "The value behind the reference `x`; behind a mutable one, the value that it has now."),
    "old": ("x.old", "The value behind the mutable reference `x` before the call."),
    "new": ("x.new", "The value behind the mutable reference `x` after the call."),
    "entry": ("x.entry", "The argument `x` as it was given: of a reference, the reference itself."),
    "cmp": ("K.cmp a b", "The order of two values of the type `K`."),
    "eq": ("K.eq a b", "Whether two values of the type `K` are equal, as `==` says."),
    "is_clone": ("K.is_clone x y", "A clone of `x` can be `y`."),
    "is_infallible": ("K.is_infallible x", "No clone of `x` fails."),
    "is_default": ("A.is_default a", "The default of the type `A` can be `a`."),
    "row": ("K.row", "How contracts see the values of the type `K`, for clauses of what is borrowed."),
    "next_gives": ("I.next_gives before item after", "One step of the iterator `before` returns `item` and leaves `after`."),
    "into_iter_gives": ("I.into_iter_gives x it", "The value `x` becomes the iterator `it`."),
    "can_next": ("I.can_next it", "The iterator can be asked for its next item."),
    "remaining": ("I.remaining it", "How many items the iterator has left, at most."),
    "FnMut": (
        "F.FnMut",
        "How closures of the type `F` are called, and what a call returns; `F.FnOnce` is the same of a closure that is called once.",
    ),
    "IsAlwaysCallable": ("F.IsAlwaysCallable f", "The closure `f` may be called with any arguments, as often as wanted."),
    "pre": ("F.pre f", "The closure `f` may be called."),
    "post": ("F.post f r", "A call of the closure `f` can return `r`."),
    "has_bounds": ("R.has_bounds range", "The range has the bounds `R.start_bound range` and `R.end_bound range`."),
    "contents": ("W.contents", "What was written to a writer, as far as that is known."),
    "partial_cmp": ("K.partial_cmp a b", "The order of two values, or `None` if they are not ordered."),
    "hash_input": ("K.hash_input a", "The bytes that a value feeds a hasher."),
}
SAME_MEMBERS = {"FnOnce": "FnMut", "start_bound": "has_bounds", "end_bound": "has_bounds"}
# Laws of traits of the standard library, which an impl proves.
STANDARD_LAWS = {"laws", "total", "matches_partial_cmp", "matches_eq", "respects_eq"}
# The toolchain's modules that have entries; the program logic below them does not.
EXPLAINED = re.compile(r"(Rattle|lib)\.")
SIGN = re.compile(r"[^\W\d_][\w']*|_[\w']+|[≡≢×⊎→↔λ⊤⊥∷]|\+\+")


def escape(text):
    return html.escape(text, quote=False)


def anchor(word):
    return "".join(letter if re.match(r"[A-Za-z0-9_.-]", letter) else f"u{ord(letter):04x}" for letter in word)


def first_sentence(doc):
    paragraph = doc.strip().split("\n\n")[0].replace("\n", " ")
    found = re.match(r"(.*?[.!?])(?:\s|$)", paragraph)
    return found.group(1) if found else paragraph


def raw(text):
    return f"\n```{{raw}} html\n{text}\n```\n\n"


class Entry:
    """A public item of the facade: its paths, and the crate that declares it."""

    def __init__(self, crate, item, path):
        self.crate, self.item, self.paths = crate, item, [path]

    @property
    def path(self):
        return self.paths[0]

    @property
    def module(self):
        """The module that has the entry's page."""
        return max(self.paths, key=lambda path: path.count("::")).rpartition("::")[0]

    @property
    def slug(self):
        return self.path.replace("::", ".")


class Reference:
    def __init__(self, top, toolchain):
        self.top = top
        self.crates = Crates(os.path.join(top, "crates"))
        self.specs = Specs([os.path.join(top, "crates"), *([toolchain] if toolchain else [])])
        self.modules = {}
        self.entries = {}
        self.wanted = {}
        self.users = {}
        self.unknown = set()
        self.read_facade(())
        self.by_name = {}
        for entry in self.entries.values():
            for name in {path.rpartition("::")[2] for path in entry.paths}:
                self.by_name.setdefault(name, []).append(entry)
        self.ghosts = {}
        for entry in self.entries.values():
            if entry.item.kind == "trait":
                for it in entry.item.children:
                    if is_word(it) or it.kind in ("type", "const"):
                        self.ghosts.setdefault(it.name, entry)

    # What a user can reach.

    def read_facade(self, where):
        items = self.crates.module("sweep_bptree", where)
        name = "::".join(where)
        self.modules[name] = self.comment_of_module(where, items)
        for shown, target in uses_of(items):
            crate, found = self.crates.resolve("sweep_bptree", list(where), target)
            path = "::".join([*where, shown])
            if isinstance(found, list) and crate != "sweep_bptree":
                self.modules[path] = self.comment_of_file(self.crates.file_of(crate, found))
                for it in self.crates.module(crate, tuple(found)):
                    if it.public and it.kind in KINDS:
                        self.add(crate, it, f"{path}::{it.name}")
            elif not isinstance(found, list):
                self.add(crate, found, path)
        for it in items:
            if it.public and it.kind in KINDS:
                self.add("sweep_bptree", it, "::".join([*where, it.name]))
            if it.public and it.kind == "mod":
                self.read_facade((*where, it.name))

    def add(self, crate, item, path):
        key = (crate, item.kind, item.name)
        if key in self.entries:
            self.entries[key].paths.append(path)
            self.entries[key].paths.sort(key=lambda it: it.count("::"))
        else:
            self.entries[key] = Entry(crate, item, path)

    def comment_of_module(self, where, items):
        file = self.crates.file_of("sweep_bptree", where)
        if os.path.exists(file):
            return self.comment_of_file(file)
        outer = self.crates.module("sweep_bptree", where[:-1])
        return next(it.doc for it in outer if it.kind == "mod" and it.name == where[-1])

    @staticmethod
    def comment_of_file(file):
        return "\n".join(line[4:] for line in text_of(file).split("\n") if line.startswith("//!"))

    # Links.

    def scope_of(self, item, crate, outer=()):
        """The words that a contract of an item may name: word -> (module, name)."""
        names = {}
        file_items = self.items_of_file(item.file)
        for it in [*file_items, *(child for parent in outer for child in parent.children), *item.children]:
            if it.kind == "ghost" and it.name.startswith("use "):
                path = it.name[4:].strip()
                module, _, listed = path.partition(".{")
                if listed:
                    for part in split_outside(listed.rstrip("}")):
                        target, _, shown = part.partition(" as ")
                        names[(shown or target).strip()] = (module, target.strip())
                else:
                    module, _, shown = path.partition(" as ")
                    names[shown or module.rsplit(".", 1)[-1]] = (module, "")
        for parent in outer:
            for it in parent.children:
                if is_word(it):
                    names.setdefault(it.name, ("", it.name))
        names[""] = (crate, "")
        return names

    def items_of_file(self, file):
        base = os.path.join(self.top, "crates")
        crate, _, *path = os.path.relpath(file, base)[:-3].split(os.sep)
        if path == ["lib"]:
            path = []
        return self.crates.module(crate, tuple(path))

    def link_of_word(self, word, names, user):
        """The address of a word's entry; '' for a word without an entry, as a variable."""
        if word not in names:
            sign = not re.match(r"\w", word) or word in ("λ", "Type", "result", "ℕ", "List")
            return f"notation.html#{anchor(word)}" if sign and word in NOTATION else ""
        module, name = names[word]
        if module == "":
            entry = self.ghosts.get(name)
            return f"{entry.slug}.html#{anchor(name)}" if entry else ""
        if not name:
            return ""
        return self.link_of_definition(module, name, user)

    def link_of_definition(self, module, name, user):
        declared = re.match(r"Rattle\.(\w+)\.specs\.declared\.(?:\w+\.)*?(\w+?)(?:\.TheVariants)?$", module)
        found = self.declared(*declared.groups()) if declared else self.specs.find(module, name)
        if isinstance(found, str):
            return found
        if found and EXPLAINED.match(found.module) and found.name not in NOTATION:
            return self.link_to(found, user)
        bare = name.replace("◌", "").strip()
        bare = SAME.get(bare, bare)
        return f"notation.html#{anchor(bare)}" if bare in NOTATION else ""

    def link_to(self, found, user):
        """The address of a definition, which is wanted from now on."""
        key = (found.module, found.name)
        self.users.setdefault(key, set()).add(user)
        self.wanted.setdefault(key, found)
        return f"{page_of_spec(found.module)}.html#{anchor(name_of(found))}"

    def declared(self, crate, name):
        """A type of Rattle that a contract names: the address of its page, or, of an internal one, its declaration."""
        for entry in self.by_name.get(name, []):
            if entry.crate == crate:
                return f"{entry.slug}.html"
        if not os.path.isdir(os.path.join(self.top, "crates", crate)):
            sign = SAME.get(name, name)
            return f"notation.html#{anchor(sign)}" if sign in NOTATION else ""
        for it in self.crates.all_items(crate):
            if it.kind in ("struct", "enum") and it.name == name:
                text = dedent(it.header) + (" {" + it.body.rstrip() + "\n}" if it.body else "")
                return Definition(name, it.doc or it.comment, text, f"Rattle.{crate}.specs.declared", it.line, it.kind)
        return ""

    def link_of_member(self, before, word, names, user):
        """The address of a member of an internal trait, as `keeps` of `W.keeps`."""
        crate = names.get("", ("", ""))[0]
        if not crate or not re.search(r"(?<![\w.])(?:Self|[A-Z])\.$", before):
            return ""
        for it in self.crates.all_items(crate):
            ghosts = [child for child in it.children if is_word(child)] if it.kind == "trait" else []
            if word in [child.name for child in ghosts]:
                text = dedent(it.header) + " {\n" + "".join(f"    ghost {child.name}: {{ {child.body} }};\n" for child in ghosts) + "}"
                found = Definition(it.name, it.doc or it.comment, text, f"Rattle.{crate}.specs.declared", it.line, "struct")
                return self.link_to(found, user)
        return ""

    def linked(self, text, names, user):
        """A formula as HTML, each of its words linked to its entry."""

        # (a variable of the formula has no entry)
        bound = {word for pair in re.findall(r"λ ([\w' ]+)\.|[({]([\w' ]+) :", text) for part in pair for word in part.split()}

        def one(found):
            word = found.group()
            before = text[: found.start()]
            if re.search(r"[\w')\]⟧]\.$", before):
                if word in self.ghosts and re.search(r"(?<![\w.])(?:Self|[A-Z]|[A-Z]\.\w+)\.$", before):
                    address = f"{self.ghosts[word].slug}.html#{anchor(word)}"
                else:
                    shown = SAME_MEMBERS.get(word, word)
                    address = f"notation.html#dot-{anchor(shown)}" if shown in MEMBERS else self.link_of_member(before, word, names, user)
            elif word in bound:
                address = ""
            else:
                address = self.link_of_word(word, names, user)
                module = names.get(word, ("", ""))[0]
                if not address and re.match(r"Rattle\.\w+\.specs\.(?!contracts)", module) and names[word][1] not in ("", "Ghosts"):
                    self.unknown.add((word, *names[word]))
            return f'<a href="{address}">{escape(word)}</a>' if address else escape(word)

        pieces, last = [], 0
        for found in SIGN.finditer(text):
            pieces.append(escape(text[last : found.start()]))
            pieces.append(one(found))
            last = found.end()
        return "".join(pieces) + escape(text[last:])

    def linked_signature(self, text, crate):
        """A piece of code as HTML, each public type linked to its page."""

        def one(found):
            word = found.group()
            known = self.by_name.get(word, [])
            own = [it for it in known if it.crate == crate] or (known if len(known) == 1 else [])
            if own and own[0].item.kind in TYPES:
                return f'<a href="{own[0].slug}.html">{word}</a>'
            return word

        # (what begins a line of a declaration is a variant)
        return re.sub(r"(?<!^    )\b[A-Z]\w*\b", one, escape(text), flags=re.M)

    # Entries.

    def code(self, text, crate, kind="signature"):
        return f'<pre class="{kind}">{self.linked_signature(dedent(text), crate)}</pre>'

    def contract_html(self, item, names, user):
        clauses = "".join(clause_html(it.kind, it.label, self.linked(it.text, names, user)) for it in item.clauses)
        return f'<div class="contract"><div class="caption">Contract</div>{clauses}</div>'

    def call(self, item, crate, outer, page):
        """The entry of a function."""
        names = self.scope_of(item, crate, outer)
        source = f'<div class="source">{os.path.relpath(item.file, self.top)}:{item.line}</div>'
        text = f"### {item.name}\n" + raw(mark(item.name) + source + self.code(item.header, crate)) + item.doc + "\n"
        if item.clauses:
            return text + raw(self.contract_html(item, names, (page, item.name)))
        return text + "\nIt has no contract: that it is safe and returns is proved, and no more.\n\n"

    def ghost(self, item, crate, outer, page):
        """The entry of a word or a law of a trait."""
        body = self.linked(item.body, self.scope_of(item, crate, outer), (page, item.name))
        clause = clause_html("law" if is_law(item) else "ghost", "", f"{item.name} : {body}")
        return f"### {item.name}\n\n{item.comment}\n" + raw(f'{mark(item.name)}<div class="contract">{clause}</div>')

    def struct_of(self, entry):
        """The name of the struct or the enum of an entry: of an alias, the one that it stands for, if that has no page of its own."""
        if entry.item.kind in ("struct", "enum"):
            return entry.item.name
        alias = re.search(r"= (\w+)", entry.item.header) if entry.item.kind == "type" else None
        found = [it for it in self.crates.all_items(entry.crate) if alias and it.name == alias.group(1) and it.kind in ("struct", "enum")]
        return found[0].name if found and (entry.crate, found[0].kind, found[0].name) not in self.entries else None

    def impls_of(self, entry):
        """The impls of a type in its own crate: those of the type itself, and those of traits."""
        own, traits = [], []
        struct = self.struct_of(entry)
        for it in self.crates.all_items(entry.crate):
            trait, _, target = it.name.rpartition(" for ")
            head = re.match(r"&?(?:'\w+ )?(?:mut )?(\w+)", target)
            if it.kind == "impl" and head and head.group(1) == struct:
                (traits if trait else own).append(it)
        return own, traits

    def calls_of(self, entry):
        """The public functions of a type or a trait, each with the block that it is written in."""
        if entry.item.kind == "fn":
            return [(entry.item, [])]
        if entry.item.kind == "trait":
            return [(it, [entry.item]) for it in entry.item.children if it.kind == "fn"]
        return [(it, [impl]) for impl in self.impls_of(entry)[0] for it in impl.children if it.kind == "fn" and it.public]

    def constants_of(self, entry):
        """The constants of a type, and those of a trait with its associated types."""
        blocks = [entry.item] if entry.item.kind == "trait" else self.impls_of(entry)[0]
        found = [it for block in blocks for it in block.children if it.kind in ("const", "type") and (it.public or block is entry.item)]
        for it in found:
            it.doc = it.doc or SUMMARIES.get(f"{entry.item.name}::{it.name}", "")
        return found

    @staticmethod
    def parts_of(item):
        """The variants or the public fields of a type, each with its comment."""
        if item.kind not in ("enum", "struct"):
            return []
        found = members_of(item.body, lambda line: item.kind == "enum" or line.startswith("pub "))
        return [(name, doc or SUMMARIES.get(f"{item.name}::{name}", "")) for name, doc in found]

    def page_of_type(self, entry):
        item = entry.item
        text = f"# {item.name}\n"
        text += raw(
            f'<div class="path">{KINDS[item.kind]} <code>sweep_bptree::{entry.path}</code></div>{self.code(declaration(item), entry.crate)}'
        )
        text += f"{item.doc}\n\n" + "".join(f"Also as `sweep_bptree::{other}`.\n\n" for other in entry.paths[1:])
        text += table_of("Variants" if item.kind == "enum" else "Fields", self.parts_of(item))
        traits = self.impls_of(entry)[1]
        text += self.model(traits, entry)
        calls = self.calls_of(entry)
        if calls:
            text += "## Calls\n" + rows_of((f"#{anchor(it.name)}", it.name, first_sentence(it.doc)) for it, _ in calls)
        last = item
        for it, (block,) in calls:
            if block is not last:
                last = block
                text += raw(self.code(block.header, entry.crate, "impl"))
            text += self.call(it, entry.crate, [block], entry.slug)
        constants = "".join(self.constant(it, entry.crate) for it in self.constants_of(entry))
        # (a page goes from its title to a heading of the second level)
        text += ("## Members\n\n" if constants and not calls else "") + constants
        return text + (self.members(entry) if item.kind == "trait" else self.traits(traits, entry))

    def constant(self, item, crate):
        return f"### {item.name}\n" + raw(mark(item.name) + self.code(item.header, crate)) + f"{item.doc}\n\n"

    def model(self, traits, entry):
        """How contracts see a value: the impl of `Model`."""
        clauses = ""
        for impl in traits:
            for it in impl.children:
                if impl.name.startswith("Model for") and is_word(it):
                    body = self.linked(it.body, self.scope_of(it, entry.crate, [impl]), (entry.slug, f"Model.{it.name}"))
                    clauses += clause_html(it.name, "", body, f"Model.{it.name}")
        text = "## In contracts\n\nContracts see a value of this type as a value of `Value`.\n"
        return text + raw(f'<div class="contract">{clauses}</div>') if clauses else ""

    def members(self, entry):
        """The words and laws of a trait, and its impls."""
        text = ""
        ghosts = [it for it in entry.item.children if is_word(it)]
        for title, does, some in (
            ("Words", "defines", [it for it in ghosts if not is_law(it)]),
            ("Laws", "proves", [it for it in ghosts if is_law(it)]),
        ):
            if some:
                text += f"## {title}\n\nWhat each impl of the trait {does}.\n\n"
                text += "".join(self.ghost(it, entry.crate, [entry.item], entry.slug) for it in some)
        impls = ""
        for crate in sorted({it.crate for it in self.entries.values()}):
            for it in self.crates.all_items(crate):
                if it.kind == "impl" and re.match(re.escape(entry.item.name) + r"(<.*?>)? for ", it.name):
                    impls += self.code(it.header, crate, "impl")
        return text + ("## Implementors\n" + raw(impls) if impls else "")

    def traits(self, traits, entry):
        """The impls of traits, with what they define and the contracts that are their own."""
        derived = [word for it in entry.item.attributes for word in re.findall(r"\w+", it.partition("derive")[2])]
        text = "Derived: " + ", ".join(f"`{it}`" for it in derived) + ".\n" if derived else ""
        for impl in traits:
            if impl.name.startswith("Model for"):
                continue
            text += raw(self.code(impl.header, entry.crate, "impl")) + f"{impl.doc}\n\n"
            for it in impl.children:
                names = self.scope_of(it, entry.crate, [impl])
                name = f"{re.match(WORD, impl.name).group()}.{it.name}"
                if it.kind == "fn":
                    text += raw(mark(name) + self.code(it.header, entry.crate)) + f"{it.doc}\n"
                    text += raw(self.contract_html(it, names, (entry.slug, name))) if it.clauses else ""
                elif is_word(it) and not self.is_proof(it, names):
                    clause = clause_html("ghost", "", f"{it.name} = {self.linked(it.body, names, (entry.slug, name))}")
                    text += raw(f'{mark(name)}<div class="contract">{clause}</div>')
        return f"## Traits\n\n{text}" if text else ""

    def is_proof(self, item, names):
        """Whether a member of an impl is the proof of a law."""
        if item.name in self.ghosts:
            return any(it.name == item.name and is_law(it) for it in self.ghosts[item.name].item.children if is_word(it))
        if item.name in STANDARD_LAWS:
            return True
        words = set(SIGN.findall(item.body))
        return (
            "Prim." in item.body or bool(words & {"tt", "refl", "rw"}) or any(".proofs." in names[word][0] for word in words & set(names))
        )

    def page_of_module(self, name):
        """The page of a module of the facade: what it has, and its functions in full."""
        page = page_of_module(name)
        here = [it for it in self.entries.values() if name in [path.rpartition("::")[0] for path in it.paths]]
        own = [it for it in here if it.module == name]
        inner = sorted(it for it in self.modules if it and it.rpartition("::")[0] == name)
        text = f"# {'::'.join(['sweep_bptree', name]) if name else 'sweep_bptree'}\n\n{self.modules[name]}\n\n"
        if inner:
            rows = [(f"{page_of_module(it)}.html", it.rpartition("::")[2], first_sentence(self.modules[it])) for it in inner]
            text += "## Modules\n" + rows_of(rows)
        for kind, title in PLURAL.items():
            rows = []
            for it in sorted((it for it in here if it.item.kind == kind), key=lambda it: it.item.name):
                target = f"{it.slug}.html" if kind in TYPES else f"{page_of_module(it.module)}.html#{anchor(it.item.name)}"
                rows.append((target, it.item.name, first_sentence(it.item.doc)))
            text += f"## {title}\n" + rows_of(rows) if rows else ""
        functions = sorted((it for it in own if it.item.kind == "fn"), key=lambda it: it.item.name)
        text += "## Calls\n\n" if functions else ""
        text += "".join(self.call(it.item, it.crate, [], page) for it in functions)
        for it in own:
            if it.item.kind == "const":
                text += self.constant(it.item, it.crate)
        children = [f"{it.rpartition('::')[2]} <{page_of_module(it)}>" for it in inner]
        children += sorted({it.slug for it in own if it.item.kind in TYPES})
        return page, text + (toctree(children) if children else "")

    # Definitions.

    def is_own(self, module):
        """Whether a module of specs is of this repository, and not of the toolchain."""
        return module.startswith("Rattle.") and os.path.isdir(os.path.join(self.top, "crates", module.split(".")[1]))

    def pages_of_definitions(self):
        """Pages of all definitions that public contracts name, and that these name in turn."""
        written = set()
        while len(written) < len(self.wanted):
            for key in set(self.wanted) - written:
                written.add(key)
                self.definition_html(self.wanted[key])
        pages = {}
        for module in sorted({module for module, _ in self.wanted}):
            page = page_of_spec(module)
            pages.setdefault(page, f"---\norphan: true\n---\n\n# Definitions of {page.removeprefix('def.')}\n")
            internal = module.endswith(".declared")
            head = "Types that definitions name, and that no caller has." if internal else self.specs.module(module)[0]
            pages[page] += f"\n## {part_of_spec(module)}\n\n{sentence(markdown_of_spec(head))}\n\n"
            for found in sorted((it for (where, _), it in self.wanted.items() if where == module), key=lambda it: it.line):
                pages[page] += f"### {found.name}\n\n{sentence(markdown_of_spec(found.doc))}\n"
                pages[page] += raw(
                    f'{mark(name_of(found))}<pre class="formula">{self.definition_html(found)}</pre>{self.users_html(found)}'
                )
        return pages

    def definition_html(self, found):
        if found.kind in ("struct", "enum"):
            return escape(found.text)
        _, definitions, names, _ = self.specs.module(found.module)
        scope = dict(names)
        for it in definitions:
            for name in (it.name, *it.variants):
                scope[name] = (found.module, name)
        body = (f"-- for {found.scope}\n" if found.scope else "") + dedent(found.text)
        return self.linked(body, scope, (page_of_spec(found.module), name_of(found)))

    def users_html(self, found):
        users = sorted(self.users.get((found.module, found.name), set()) - {(page_of_spec(found.module), name_of(found))})
        shown = ", ".join(f'<a href="{page}.html#{anchor(name)}">{escape(name)}</a>' for page, name in users)
        return f'<details class="users"><summary>Used by {len(users)}</summary>{shown}</details>' if users else ""


def clause_html(kind, label, body, name=""):
    head = f'<div class="clause" id="{name}">' if name else '<div class="clause">'
    label = f' <span class="label">{label}</span>' if label else ""
    return f'{head}<span class="kind">{kind}</span>{label} {body}</div>'


def mark(name):
    """What a link to an entry leads to."""
    return f'<span id="{anchor(name)}"></span>'


def declaration(item):
    """A type as it is declared, without comments and private fields."""
    text = dedent(item.header)
    if item.kind == "enum":
        return text + " {" + re.sub(r"\n\s*///[^\n]*", "", item.body).rstrip() + "\n}"
    if item.kind == "struct" and item.body:
        shown = [f"    {line.strip()}\n" for line in item.body.split("\n") if line.strip().startswith("pub ")]
        hidden = "    // private fields\n" if len(shown) < item.body.count(": ") else ""
        return text + " {\n" + "".join(shown) + hidden + "}"
    return text


def page_of_module(name):
    return f"module.{name.replace('::', '.')}" if name else "module"


def name_of(found):
    """The name of a definition on the page of its crate."""
    return f"{part_of_spec(found.module)}.{found.name}"


def is_word(item):
    return item.kind == "ghost" and not item.name.startswith("use ")


PLURAL = {"struct": "Structs", "enum": "Enums", "trait": "Traits", "type": "Type aliases", "fn": "Functions", "const": "Constants"}


def page_of_spec(module):
    words = module.removeprefix("Rattle.").split(".")
    return f"def.{words[0]}"


def part_of_spec(module):
    """The name of a module in its crate."""
    return module.removeprefix("Rattle.").partition(".")[2].removeprefix("specs.")


def dedent(text):
    lines = text.split("\n")
    rest = [len(line) - len(line.lstrip()) for line in lines[1:] if line.strip()]
    margin = min(rest, default=0)
    if not lines[0].startswith(" "):
        # (the first line begins behind the indentation)
        closing = len(lines[-1]) - len(lines[-1].lstrip()) if len(lines) > 1 else 0
        margin = min(margin, closing) if len(lines) > 1 else 0
    else:
        margin = min(margin, len(lines[0]) - len(lines[0].lstrip())) if rest else len(lines[0]) - len(lines[0].lstrip())
        lines[0] = lines[0][margin:]
    return "\n".join([lines[0], *(line[margin:] for line in lines[1:])])


def inline(text):
    """A line of Markdown as HTML: what is between backquotes is code."""
    return re.sub(r"`([^`]*)`", r"<code>\1</code>", escape(text))


def sentence(text):
    text = text.strip()
    if not text:
        return ""
    return text[0].upper() + text[1:] + ("" if text[-1] in ".!?:`" else ".")


def markdown_of_spec(text):
    """The words of a comment in a spec, in which a word with an underscore, a sign or a capital inside is code."""
    if re.search(r"^    ", text, re.M):
        # (a list of words, laid out by hand)
        return re.sub(
            r"((?:^(?:    |\s*$).*\n?)+)",
            lambda found: f"\n```text\n{found.group(1).rstrip()}\n```\n" if found.group(1).strip() else "\n",
            text,
            flags=re.M,
        )
    return re.sub(r"(?<![`\w])(\w+_\w+|[a-z]+[A-Z]\w*|[A-Z][a-z]+[A-Z]\w*)(?![`\w])", r"`\1`", text.replace("*", r"\*").replace("<", r"\<"))


def is_law(item):
    """Whether a ghost member of a trait says something, and so is proved: its type compares values, or names its arguments."""
    return bool(re.search(r"\([\w' ]+ :|[≡≢≤<]", item.body))


def members_of(body, is_shown):
    """The variants or the fields of a type, each with its comment."""
    margin = min((len(line) - len(line.lstrip()) for line in body.split("\n") if line.strip()), default=0)
    doc = []
    for line in body.split("\n"):
        bare = line.strip()
        if bare.startswith("///"):
            doc.append(bare[4:])
        elif bare and not bare.startswith(("//", "#", ")", "}")) and len(line) - len(line.lstrip()) == margin:
            if is_shown(bare):
                yield bare.removeprefix("pub ").rstrip(",({ "), " ".join(doc)
            doc = []


def table_of(title, rows):
    lines = "".join(f"<tr><td><code>{escape(name)}</code></td><td>{inline(doc)}</td></tr>" for name, doc in rows)
    return f"## {title}\n" + raw(f'<table class="summary">{lines}</table>') if lines else ""


def rows_of(rows):
    """A table of links, each with a line on what it leads to: address, name, text."""
    lines = [f'<tr><td><a href="{address}">{escape(name)}</a></td><td>{inline(text)}</td></tr>' for address, name, text in rows]
    return raw(f'<table class="summary">{"".join(lines)}</table>')


def toctree(names):
    lines = "\n".join(names)
    return f"\n```{{toctree}}\n:hidden:\n:maxdepth: 1\n\n{lines}\n```\n"


def fill(name, **values):
    """A page of tools/site/text, with these values for the names in it."""
    text = text_of(os.path.join(os.path.dirname(os.path.abspath(__file__)), "text", f"{name}.md"))
    return re.sub(r"\{\{(\w+)\}\}", lambda found: values[found.group(1)], text)


FIRST = ("BPlusTreeMap", "BPlusTreeSet", "BPlusTree", "Cursor", "Key", "Argument", "Count", "GroupCount")


def fixed_pages(reference, definitions, c, python, summaries):
    """The first page, the signs of contracts, and the first page of each binding."""
    version = re.search(r'VERSION: &str = "(.*?)"', text_of(os.path.join(reference.top, "crates/sweep_bptree/src/lib.rt"))).group(1)
    example = text_of(os.path.join(reference.top, "crates/bptree_examples/src/race.rt")).rstrip()
    entries = {entry.path: entry for entry in reference.entries.values()}
    types = rows_of((f"{it}.html", it, first_sentence(entries[it].item.doc)) for it in FIRST)
    handles = rows_of((f"{name}.html", name.removeprefix("c."), c_title(text)) for name, text in c.items())
    calls = rows_of((f"{page}.html#{it}", it, words) for page, text in c.items() for it, words in summaries.items() if f'id="{it}"' in text)
    classes = rows_of((f"{name}.html", name.removeprefix("python."), class_title(text)) for name, text in python.items())
    own = [page for page in sorted(definitions) if os.path.isdir(os.path.join(reference.top, "crates", page.removeprefix("def.")))]
    others = [page for page in sorted(definitions) if page not in own]
    return {
        "index": fill("index", version=version, example=example, types=types),
        "notation": fill("notation", signs=signs_of(NOTATION, ""), members=signs_of(MEMBERS, "dot-")),
        "definitions": fill("definitions", own=definitions_of(reference, own), others=definitions_of(reference, others)),
        "c": fill("c", handles=handles, calls=calls) + toctree(c),
        "python": fill("python", classes=classes) + toctree(python),
        "rust": fill("rust"),
    }


def signs_of(table, mark):
    rows = [
        f'<tr id="{mark}{anchor(sign)}"><td><code>{escape(shown)}</code></td><td>{inline(words)}</td></tr>'
        for sign, (shown, words) in table.items()
    ]
    return raw(f'<table class="summary">{"".join(rows)}</table>')


def definitions_of(reference, listed):
    rows = []
    for page in listed:
        names = sorted({name for module, name in reference.wanted if page_of_spec(module) == page})
        rows.append((f"{page}.html", page.removeprefix("def."), ", ".join(f"`{name}`" for name in names)))
    return rows_of(rows)


def c_title(text):
    return text.split("```\n\n", 1)[1].split(".")[0] + "."


def class_title(text):
    doc = re.search(r"```\{eval-rst\}\n(.*?)```", text, re.S)
    return first_sentence(doc.group(1)).replace("``", "`") if doc else ""
