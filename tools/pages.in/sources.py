"""Reads crates/: the definitions in specs/, and the functions and types in src/ with their contracts.

The files are read in the layout that `rt fmt` gives them: a blank line above each item, and what
belongs to an item indented below its first line.
"""

import os
import re
from dataclasses import dataclass, field

TOP = os.path.dirname(os.path.dirname(os.path.dirname(os.path.realpath(__file__))))


@dataclass
class Part:
    """A part of an item: the field of a record or a struct, the case of an enum, the clause of a
    contract, a ghost member of a trait or an impl; or a comment between clauses, without a name."""

    kind: str                   # field, case, requires, ensures, ghost, comment
    name: str
    text: str
    comment: str


@dataclass(eq=False)
class Item:
    """A definition of specs/; a function, type, trait, impl or constant of src/; or a file of src/,
    by the comment at its head."""

    kind: str                   # abbrev, unfoldable, record, data, lemma; fn, struct, .. ; file
    name: str
    comment: str                # what stands above it
    text: str                   # without the comment; of a function, the signature alone
    source: str                 # all of its lines
    crate: str
    path: str
    scope: dict                 # the names that it may cite: the module of each, and its name there
    public: bool = True
    owner: str = ""             # of a function: its type, or its trait
    implements: str = ""        # of an impl: the trait, if it is of one
    parameters: str = ""        # of a definition: those of the modules that it is in
    parts: list = field(default_factory=list)
    functions: list = field(default_factory=list)       # of a trait or an impl

    def title(self):
        """Its name, with its owner's: Pass::put."""
        return f"{self.owner}::{self.name}" if self.owner else self.name

    def is_definition(self):
        """Whether it is a definition of specs/."""
        return self.path.endswith(".antt")

    def contract(self):
        """A function's signature and clauses, with the comments between them."""
        lines = [self.text]
        for part in self.parts:
            text = f"\n// {part.comment}" if part.kind == "comment" else part.text
            lines += [f"    {x}" if x else "" for x in text.split("\n")]
        return "\n".join(lines)


@dataclass
class Crate:
    """A crate."""

    name: str
    uses: list                  # the names of the libraries that crates.txt lists for it
    root: str                   # its src/lib.rt or src/main.rt
    comment: str                # what the root says first
    files: list                 # those of src/ but for test_files, which are compiled for tests alone
    test_files: list
    specs: list                 # the definitions
    items: list                 # those of `files`


# ---- Files ----

def all_files():
    """The files of the repository, by their paths from its top. What rt makes (out/) is left out,
    and so are folders whose names begin with a dot, but for .ci."""
    found = []
    for folder, folders, names in os.walk(TOP):
        folders[:] = [x for x in folders if x != "out" and (x == ".ci" or not x.startswith("."))]
        found += [os.path.relpath(os.path.join(folder, x), TOP) for x in names]
    return sorted(found)


FILES = all_files()


def files_in(folder, ending):
    """The files below a folder whose names end so, in order."""
    return [x for x in FILES if x.startswith(folder + "/") and x.endswith(ending)]


def read(path):
    """The text of a file."""
    with open(os.path.join(TOP, path), encoding="utf-8") as file:
        return file.read()


# ---- Lines ----

COMMENT = re.compile(r" *(///|//!|//|--) ?")


def is_comment(line):
    """Whether a line is a comment."""
    return bool(COMMENT.match(line))


def comment_text(lines):
    """The comments among some lines as one text. The entries of lists keep their lines."""
    text = "\n".join(COMMENT.sub("", x, count=1).strip() for x in lines if is_comment(x))
    text = re.sub(r"\[(`[^`\n]+`)\](?!\()", r"\1", text)        # [`Pass`]: a link of Rust's pages
    return re.sub(r"(?<!\n)\n(?![-\n]|\d+\.)", " ", text).strip()


def code_lines(text):
    """The lines of a text that aren't blank or comments."""
    return [x for x in text.split("\n") if x.strip() and not is_comment(x)]


def refuse_two(items, path):
    """Ends with an error if these first lines of the items in one block are more than one."""
    if len(items) > 1:
        raise SystemExit(f"{path}: no blank line above `{items[1].strip()}`: run rt fmt, then tools/pages")


USE = re.compile(r"^(?:ghost )?use ([\w.]+)(?:\.\{([^}]*)\}| as (\w+));?$", re.M)


def names_brought_in(text):
    """What lines like `use MODULE.{A, B as C}` and `use MODULE as A` bring in: the module of each
    name, and its name there."""
    scope = {}
    for module, names, alone in USE.findall(text):
        if alone:
            scope[alone] = (module, "")
        for name in names.split(","):
            there, _, here = name.strip().partition(" as ")
            if there:
                scope[here or there] = (module, there)
    return scope


def under_heads(lines, pattern):
    """For each line that matches the pattern: the match, the text of the comments above it, and the
    lines below it that belong to it."""
    found, comments = [], []
    for line in lines:
        head = pattern.match(line)
        if is_comment(line):
            comments.append(line)
        elif head:
            found.append((head, comment_text(comments), []))
            comments = []
        elif found:
            found[-1][2].append(line)
    return found


def read_parts(kind, lines, pattern):
    """The fields or cases in some lines, each with the comment above it. The pattern has groups for
    the name and the text."""
    return [Part(kind, head[1], " ".join([head[2], *(x.strip() for x in more)]), comment)
            for head, comment, more in under_heads(lines, pattern)]


# ---- specs/ ----

DEFINITION = re.compile(
    r" *(abbrev pub|unfoldable pub|pub record|pub data|pub(?= \S+ :)) ([^\s:({]+)"
)
FIELD = re.compile(r" *pub (\S+) : (.*)")
CASE = re.compile(r" *([\w'?]+) : (.*)")


def read_specs(crate, path):
    """The definitions in a file of specs/."""
    text = read(path)
    scope = names_brought_in(text)
    module = "Rattle." + path[len("crates/"):-len(".antt")].replace("/", ".")
    items, modules = [], []     # modules: the lines of those that are open, with their indentation
    for block in re.split(r"\n\n+", text.strip("\n")):
        lines = block.split("\n")
        head = next((at for at, x in enumerate(lines) if DEFINITION.match(x)), None)
        refuse_two([x for x in lines if re.match(r" *(abbrev|unfoldable|pub record|pub data) ", x)], path)
        if head is None:
            continue
        first = next(at for at, x in enumerate(lines) if not is_comment(x))
        depth = len(lines[first]) - len(lines[first].lstrip())
        modules = [x for x in modules if x[0] < depth]
        if first < head:        # the block begins with `module .. where`
            opened = [x for x in lines[first:head] if not is_comment(x)]
            modules.append((depth, "\n".join(opened)))
            lines = lines[lines.index(opened[-1]) + 1:]
        item = read_definition(lines, crate, path, scope)
        item.parameters = "\n".join(x for _, x in modules)
        item.source = f"{item.parameters}\n{item.source}".strip("\n")
        scope[item.name] = (module, item.name)
        items.append(item)
    return items


def read_definition(lines, crate, path, scope):
    """The definition in some lines, of which the first ones are its comment."""
    head = next(at for at, x in enumerate(lines) if DEFINITION.match(x))
    kind, name = DEFINITION.match(lines[head]).groups()
    kind = kind.replace("pub", "").strip() or "lemma"
    item = Item(kind, name, comment_text(lines[:head]), "\n".join(lines[head:]), "\n".join(lines),
                crate, path, scope)
    if kind == "record":
        item.parts = read_parts("field", lines[head + 1:], FIELD)
    if kind == "data":
        item.parts = read_parts("case", lines[head + 1:], CASE)
    return item


# ---- src/ ----

ITEM = re.compile(
    r"(pub(?:\(\w+\))? )?(?:const |unsafe )*"
    r"(fn|struct|enum|trait|impl|type|const|static|ghost(?! use))\b[ <](\w*)"
)
MEMBER = re.compile(r" {4}(?:pub(?:\(\w+\))? )?(\w+)(.*)")
CLAUSE = re.compile(r" {4}(requires|ensures)\b ?(\w*)")


def pieces(text):
    """The pieces of Rust code between blank lines after which a line isn't indented. In each there
    is one item at most."""
    return [x.strip("\n") for x in re.split(r"\n\n+(?=\S)", text)]


def read_source(crate, path):
    """The items in a file of src/, and first the file itself."""
    text = read(path)
    lines = text.split("\n")
    head = comment_text(x for x in lines if x.startswith("//!"))
    file = Item("file", os.path.basename(path), head, "", "", crate, path, {}, public=False)
    scope = names_brought_in(text)
    return [file, *read_items(text, crate, path, scope)]


def read_items(text, crate, path, scope, around=None):
    """The items in a text: of a file, or of the body of the impl or trait that is around it. The
    functions of impls and traits are among them; ghost members are parts of what is around."""
    items = []
    for piece in pieces(text):
        lines = piece.split("\n")
        heads = [at for at, line in enumerate(lines) if ITEM.match(line)]
        refuse_two([lines[at] for at in heads], path)
        if not heads:
            continue
        item = read_item(lines, heads[0], crate, path, scope)
        if item.kind == "ghost":
            around.parts.append(Part("ghost", item.name, item.text, item.comment))
            continue
        if around:
            item.owner = around.name
            item.public |= around.kind == "trait" and around.public
            around.functions.append(item)
        items.append(item)
        if item.kind in ("impl", "trait"):
            items += read_body(item, lines[heads[0]:])
    return items


def read_item(lines, head, crate, path, scope):
    """The item in some lines, of which `head` is the first after comments and attributes."""
    public, kind, name = ITEM.match(lines[head]).groups()
    item = Item(kind, name, comment_text(lines[:head]), "\n".join(lines[head:]), "\n".join(lines),
                crate, path, scope, public == "pub ")
    if kind == "fn":
        read_function(item, lines[head:])
    elif kind == "impl":
        read_impl_head(item)
    elif kind in ("struct", "enum"):
        part = "field" if kind == "struct" else "case"
        item.parts = read_parts(part, lines[head + 1:-1], MEMBER)
    return item


def read_function(item, lines):
    """Finds the signature and the contract of a function: what stands before its body, which begins
    with a brace at the beginning of a line, or at the end of one that isn't indented. A function of a
    trait may end in a semicolon instead."""
    end = next((at for at, x in enumerate(lines) if re.match(r"\{|\S.*[{};]$", x)), len(lines))
    first = next((at for at in range(end) if CLAUSE.match(lines[at])), end)
    while first and re.match(r" {4}//|$", lines[first - 1]):    # comments above the first clause
        first -= 1
    signature = "\n".join(lines[:first] if first < end else lines[:end + 1])
    item.text = re.sub(r"\s*(\{[^\n]*|;)$", "", signature)
    item.parts = read_contract(lines[first:end])


def read_contract(lines):
    """The clauses in some lines, and the comments between them."""
    parts = []
    for head, comment, more in under_heads(lines, CLAUSE):
        if comment:
            parts.append(Part("comment", "", "", comment))
        text = "\n".join(x[4:] for x in [head.string, *more] if x)
        parts.append(Part(head[1], head[2], text, ""))
    if parts:
        parts[-1].text = parts[-1].text.rstrip(";")             # of a trait's function
    return parts


def read_impl_head(item):
    """Finds whose functions an impl has, and of which trait: the words of its first line without the
    type parameters, which are taken out from the innermost brackets on."""
    head = item.text.partition("{")[0].partition("\nwhere")[0].replace("->", "")
    while re.search(r"<[^<>]*>", head):
        head = re.sub(r"<[^<>]*>", "", head)
    item.implements, _, name = head.removeprefix("impl").rpartition(" for ")
    item.implements, item.name = item.implements.strip(), name.strip(" &\n")


def read_body(item, lines):
    """The items in the body of an impl or a trait, whose lines these are."""
    first = next(at for at, x in enumerate(lines) if x.endswith(("{", "{}"))) + 1
    body = [re.sub("^    ", "", x) for x in lines[first:-1]]
    item.scope = {**item.scope, **names_brought_in("\n".join(body))}
    return read_items("\n".join(body), item.crate, item.path, item.scope, item)


# ---- Crates ----

def read_crate(name, uses):
    """A crate of the repository."""
    folder = f"crates/{name}/src"
    root = next(x for x in (f"{folder}/lib.rt", f"{folder}/main.rt") if x in FILES)
    text = read(root)
    tests = re.findall(r"#\[cfg\(test\)\]\n(?:pub )?mod (\w+);", text)
    test_files = [f"{folder}/{x}.rt" for x in tests]
    files = [x for x in files_in(folder, ".rt") if x not in test_files]
    items = [x for path in files for x in read_source(name, path)]
    specs = [x for path in files_in(f"crates/{name}/specs", ".antt") for x in read_specs(name, path)]
    comment = comment_text(x for x in text.split("\n") if x.startswith("//!"))
    return Crate(name, uses, root, comment, files, test_files, specs, items)


def read_crates():
    """All crates by name, from the bottom up: each after those that crates.txt lists for it."""
    lines = re.findall(r"^(\w+)[^:#\n]*:([^#\n]*)", read("crates.txt"), re.M)
    uses = {name: names.split() for name, names in lines}
    order = []
    for _ in uses:              # often enough, since each round places a layer
        order += [x for x in uses if x not in order
                  and all(y in order or y not in uses for y in uses[x])]
    return {name: read_crate(name, uses[name]) for name in order}
