"""The pages of docs/reference, a function for each. A page is a list of lines.

For another page write another function, and name it in `reference_pages`.
"""

import hashlib
import os
import re

from citations import Citations, unique
from markdown import REFERENCE, capital, first_sentence, page_text, table, to_file, to_heading
from sources import code_lines, comment_text, files_in, read

# The functions whose contracts say what the whole does: crate, function.
CALLS = [
    ("page_tool", "run"),
    ("log_recovery", "recover"),
    ("history_core", "all_histories"),
    ("backend_pass", "Manager::close"),
    ("backend_pass", "Pass::read_buffer"),
    ("backend_pass", "Pass::put"),
]
# The crate whose specs say what a state is (State), which steps there are (Run, IsReached), and what
# holds in every state (Laws).
PROTOCOL = "history_core"

# A line with more links than this has none: what they lead to is what follows.
MOST_LINKS = 6

# Words in backquotes in comments, in no code, and not PostgreSQL's.
NOT_POSTGRESQL = ["help"]

# Words of code that are PostgreSQL's in comments: `itoa` has a `Buffer`, too.
POSTGRESQL_TOO = {"Buffer"}

NOTATION = [
    ("`self.old`, `self.new`", "`self` before the call and after it; so with each `&mut` parameter"),
    ("`x.now`", "the value behind a `&`"),
    ("`result`", "what the call returns"),
    ("`f x y`", "f of x and y"),
    ("`a ≡ b`, `a ≢ b`", "they are equal; they differ"),
    ("`P × Q`, `P ⊎ Q`, `¬ P`, `⊥`", "and; or; not; never"),
    ("`P → Q`", "if P, then Q"),
    ("`(x : T) → P`", "for each x of T: P"),
    ("`(x : T) × P`", "for some x of T: P"),
    ("`IfOk result (λ x. P)`", "if it is `Ok(x)`, then P; so `IfErr`, `IfSome`"),
    ("`record v { a = b }`", "v, but its a is b"),
    ("`ℕ`", "the natural numbers"),
    ("`xs ++ ys`, `x ∷ xs`, `[]`", "lists: one after the other; x and then xs; none"),
    ("`L.contents`", "what the trait that L implements calls `contents`"),
]

HOW_TO_READ = (
    "Each line is the comment at a field of `specs/`, at a kind of step or at a clause, or its formula "
    "if it has none. In brackets stand the names in the source, and links to what says more. "
    "[The notation](README.md#the-notation) of formulas is short."
)


def reference_pages(crates):
    """The text of each page of docs/reference, by its path."""
    cites = Citations(crates)
    sections = protocol_sections(crates, cites)
    pages = {
        "README.md": index_page(crates),
        "LAWS.md": laws_page(sections, cites),
        "THEOREMS.md": theorems_page(crates, sections, cites),
        "STEPS.md": steps_page(sections, cites),
        "TRUSTED_DEFINITIONS.md": trusted_definitions_page(crates, cites),
        "C_NAMES.md": c_names_page(crates),
        "SIZES.md": sizes_page(crates),
    }
    return {f"{REFERENCE}/{name}": page_text(lines) for name, lines in pages.items()}


def find(items, crate, title):
    """The item of this title among those of a crate."""
    for item in items:
        if item.title() == title and item.kind != "impl":
            return item
    raise SystemExit(f"tools/pages.in/reference.py names {title} of {crate}, which has none: "
                     "change that name, and run tools/pages")


def line_count(items):
    """How many lines some definitions or types have, without blanks and comments."""
    return sum(len(code_lines(x.text)) for x in items)


def sum_of(texts):
    """A short number that changes if one of the texts does."""
    return hashlib.sha256("\n".join(texts).encode()).hexdigest()[:8]


# ---- README.md ----

def index_page(crates):
    """What each page says and for whom, what each crate is, and how to read a formula."""
    pages = [
        ("LAWS", "what a state is, and what holds in each",
         "ask why backends can't harm one another"),
        ("THEOREMS", "what is proved of the protocol, of recovery, of pages and of files",
         "ask what is proved"),
        ("STEPS", "which steps there are, and when each may be taken",
         "change the protocol, or compare it with PostgreSQL"),
        ("TRUSTED_DEFINITIONS", "all that the contracts of six calls rest on",
         "check what a contract says"),
        ("C_NAMES", "PostgreSQL's names, and where ours are", "know `bufmgr.c`"),
        ("SIZES", "lines, functions and must-fail edits, by crate", "change or review a crate"),
    ]
    page_rows = [(f"[{page}]({page}.md)", says, readers) for page, says, readers in pages]
    crate_rows = [(to_file(f"`{x.name}`", x.root), first_sentence(x.comment)) for x in crates.values()]
    return [
        "# Reference", "",
        "What comments, contracts and definitions in `crates/` say, by subject: to look things up, not "
        "to read through. `tools/pages` writes these pages. To change one, change the comment in the "
        "source, and run it. `tools/pages --crates out/crates` writes another page for each crate, with "
        "its functions and their contracts.", "",
        *table(["Page", "What it says", "For readers who"], page_rows),
        "## The crates", "", "From the bottom up.", "",
        *table(["Crate", "What it is"], crate_rows),
        "## The notation", "",
        *table(["In a formula", "it means"], NOTATION),
    ]


# ---- LAWS.md, THEOREMS.md, STEPS.md ----

def protocol_sections(crates, cites):
    """The records, data and theorems of each section of these pages. Each is in one section: the
    first that rests on it, in this order. The sections of theorems have the names of their crates."""
    names = ("State", "Run", "IsReached", "Laws")
    state, run, reached, laws = (find(crates[PROTOCOL].specs, PROTOCOL, x) for x in names)
    roots = {"a state": [state], "the steps": [run, reached], "the laws": [laws]}
    for crate in [crates[PROTOCOL], *crates.values()]:
        roots[crate.name] = [x for x in crate.items if is_theorem(x)]
    sections, shown = {}, set()
    for name, items in roots.items():
        found = [x for x in cites.closure(items) if has_heading(x) and x not in shown]
        sections[name] = found
        shown.update(found)
    return sections


def is_theorem(item):
    """Whether it is a public function that takes nothing and does nothing, with a contract, which
    therefore always holds."""
    return item.kind == "fn" and item.public and item.text.endswith("()") and bool(item.parts)


def has_heading(item):
    """Whether it has a heading of its own on these pages."""
    return item.kind in ("record", "data") or is_theorem(item)


def heading(item):
    """The heading of an item. Several crates may have one of this name."""
    return f"{item.name} ({item.crate})"


def section_lines(items, cites):
    """The items of a section: the comment of each, and those of its parts."""
    lines = []
    for item in items:
        comment = capital(item.comment).rstrip(".") + ". " if item.comment else ""
        lines += [f"### {heading(item)}", "", comment + to_file("Source", item.path), ""]
        lines += [*part_lines(item, items, cites), ""]
    return lines


def part_lines(item, items, cites):
    """A line for each comment in an item. Parts without one stand with those above them, unless
    they apply a definition that has one. If there is no comment at all, the formula is shown."""
    groups = []         # what is said, of which parts, and whether that is their own comment
    for part in item.parts:
        says = part.comment or comment_of_applied(part, item, cites)
        if says or not groups or not groups[-1][2]:
            own = bool(part.comment) and part.kind != "comment"
            groups.append((says or f"`{formula(part)}`", [part], own))
        else:
            groups[-1][1].append(part)
    lines = []
    for says, parts, _ in groups:
        links = [x for part in parts for x in links_of(part, item, items, cites)]
        lines += group_lines(says, parts, unique(links))
    return lines


def group_lines(says, parts, links):
    """The line of some parts: what is said of them, their names, and links."""
    names = ", ".join(f"`{x.name}`" for x in parts if x.name)
    links = ", ".join(links if len(links) <= MOST_LINKS else [])
    if parts[0].kind == "comment":
        return ["", says, ""]
    if parts[0].kind == "case":
        return [f"- {names}: {says}" + (f" ({links})" if links else "")]
    brackets = "; ".join(x for x in (names, links) if x)
    return [f"- {capital(says)}" + (f" ({brackets})" if brackets else "")]


def formula(part):
    """The formula of a field, a case or a clause, on one line."""
    return " ".join(re.sub(r"^(ensures|requires) ?\w* \{ | \}$", "", part.text).split())


def comment_of_applied(part, item, cites):
    """The comment of the definition that a field or a clause applies, if it does nothing else. The
    premises of a clause are left out: the comment above it has them."""
    if part.kind not in ("field", "ensures"):
        return ""
    premises = r".* → " if part.kind == "ensures" else r"(\([^()]*\) → |\S+ → )*"
    applies = re.sub(f"^{premises}", "", formula(part))
    applied = cites.in_text(applies.split(" ")[0], item.scope)
    if not applied or not applied[0].name[0].isupper() or re.search("[→×⊎≡≢λ]", applies):
        return ""
    return applied[0].comment.rstrip(".")


def links_of(part, item, items, cites):
    """Links to the items of a section that a part cites, or that definitions without a heading cite
    which it cites."""
    links, seen, waiting = [], {item}, cites.in_text(part.text, item.scope)
    while waiting:
        cited = waiting.pop(0)
        if cited in seen or not cited.is_definition():
            continue
        seen.add(cited)
        if cited in items:
            links.append(to_heading(cited.name, heading(cited)))
        if not has_heading(cited):
            waiting += cites.cited_by(cited)
    return links


def laws_page(sections, cites):
    """What a state is, and what holds in each."""
    return [
        "# The laws of every state", "",
        "For readers who ask what holds at every moment, whatever the backends do and in whatever "
        f"order. {HOW_TO_READ}", "",
        "## What a state is", "", *section_lines(sections["a state"], cites),
        "## What holds in every state", "", *section_lines(sections["the laws"], cites),
    ]


def theorems_page(crates, sections, cites):
    """The theorems by crate, the protocol's first."""
    lines = [
        "# The theorems", "",
        "For readers who ask what is proved of the protocol, of recovery, of pages and of files. A "
        "theorem is a public function that takes nothing and does nothing: its contract always holds. "
        f"Below each are the records that it speaks of. {HOW_TO_READ}", "",
    ]
    for name, items in sections.items():
        if name in crates and items:
            lines += [f"## {name}", "", *section_lines(items, cites)]
    return lines


def steps_page(sections, cites):
    """Which steps there are, and when each may be taken."""
    return [
        "# The steps", "",
        f"For readers who ask what a backend may do, and when. {HOW_TO_READ}", "",
        "## Which steps there are, and when one may be taken", "",
        *section_lines(sections["the steps"], cites),
    ]


# ---- TRUSTED_DEFINITIONS.md ----

def trusted_definitions_page(crates, cites):
    """All that the contracts of CALLS rest on."""
    rows, sections = [], []
    for crate, title in CALLS:
        call = find(crates[crate].items, crate, title)
        rests_on = cites.closure([call])[1:]
        definitions = [x for x in rests_on if x.is_definition()]
        types = [x for x in rests_on if x.kind in ("struct", "enum", "trait")]
        rows.append([
            to_heading(f"`{title}`", title), len(definitions), line_count(definitions),
            len({x.path for x in definitions}), len(types), line_count(types),
            sum_of([call.contract(), *(line for x in rests_on for line in code_lines(x.source))]),
        ])
        sections += call_lines(call, definitions, types, cites)
    heads = ["Call", "Definitions", "Lines", "Files", "Types and traits", "Lines", "Sum"]
    return [
        "# What to read to believe a contract", "",
        "For readers who check what a contract says, and leave its proof to the prover. For each of "
        "these calls: every definition of `specs/` that its clauses cite, or by which contracts read "
        "the types and traits of its signature, or that one of these cites, and so on. Beside these "
        "there are only the kit's own definitions: nothing else in `specs/`, and nothing in `proofs/`, "
        "can make the contract say anything else. `tools/pages --read CALL` prints them all as one "
        "text. Lines are without blanks and comments. The sum is of all of it: as long as it stays the "
        "same, nothing but comments has changed since you read it.", "",
        *table(heads, rows), *sections,
    ]


def call_lines(call, definitions, types, cites):
    """The section of a call: what its clauses cite, and all that it rests on."""
    files = cites.in_reading_order(definitions)
    return [
        f"## {call.title()}", "",
        f"{first_sentence(call.comment)}. {to_file('Source', call.path)}", "",
        "Its clauses cite, below the comments of the contract:", "",
        *contract_lines(call, cites), "",
        f"In all it rests on {len(definitions)} definitions. By file, in an order to read them in:", "",
        *(definitions_line(path, items) for path, items in files.items()), "",
        f"And on {len(types)} types and traits: {names_by_crate(types)}.", "",
    ]


def contract_lines(call, cites):
    """The comments in a contract, and what its clauses cite, each definition once."""
    lines, seen = [], set()
    for part in call.parts:
        if part.kind == "comment":
            lines += ["", part.comment, ""]
        for item in cites.in_text(part.text, call.scope):
            if item.is_definition() and item not in seen:
                seen.add(item)
                says = capital(item.comment) or f"`{item.text.splitlines()[0]}`"
                lines.append(f"- {to_file(f'`{item.name}`', item.path)}: {says}")
    return lines


def definitions_line(path, definitions):
    """The line of a file of specs/, with its definitions."""
    name = f"{definitions[0].crate} {os.path.basename(path)[:-len('.antt')]}"
    return f"- {to_file(name, path)}: " + ", ".join(f"`{x.name}`" for x in definitions)


def names_by_crate(items):
    """The names of some items, by crate."""
    names = {}
    for item in sorted(items, key=lambda x: x.path):
        names.setdefault(item.crate, []).append(f"`{item.name}`")
    return "; ".join(f"{', '.join(found)} ({crate})" for crate, found in names.items())


# ---- C_NAMES.md ----

def c_names_page(crates):
    """PostgreSQL's names in our comments, and what they stand at."""
    lines = [
        "# PostgreSQL's names", "",
        "For readers who know `bufmgr.c`: the names of PostgreSQL in our comments, and what of ours they "
        "stand at. Functions come first, from the top of the library down, then files, then kinds of "
        "step, types and definitions; of each the programs' and the tests' last. Places in crates of "
        "promises come after all others. A name that isn't here is in no comment; "
        "[ARCHITECTURE](../ARCHITECTURE.md#what-postgresql-has-and-this-lacks) says what is lacking.", "",
    ]
    places = places_of_c_names(crates)
    kinds = {"Functions, types and fields": False, "Flags, constants and macros": True}
    for title, is_constant in kinds.items():
        rows = []
        for name in sorted(places, key=str.lower):
            if name.isupper() == is_constant:
                first, *others = places[name]
                rows.append([f"`{name}`", to_file(*first), ", ".join(x for x, _ in others)])
        lines += [f"## {title}", "", *table(["PostgreSQL", "Here", "Also at"], rows)]
    return lines


def places_of_c_names(crates):
    """What each name of PostgreSQL stands at, functions first, and crates of promises last: our name
    with its crate, and the file. A name is PostgreSQL's if it stands in backquotes in a comment, and
    in no code."""
    ours, places, order = words_of_code(crates), {}, {"fn": 0, "file": 1}
    used = {name for crate in crates.values() for name in crate.uses}
    from_the_top = reversed(list(crates.values()))
    for crate in sorted(from_the_top, key=lambda x: x.name not in used):
        promises = crate.name.endswith("_promises")
        for item in crate.items + crate.specs:
            rank = (promises, order.get(item.kind, 2))
            for title, comment in comments_of(item):
                for name in re.findall(r"`(\w{4,})(?:\(\))?`", comment):
                    if name not in ours:
                        place = (f"`{title}` ({crate.name})", item.path)
                        places.setdefault(name, {}).setdefault(place, rank)
    return {name: sorted(found, key=found.get) for name, found in places.items()}


def words_of_code(crates):
    """The words of our code, which aren't PostgreSQL's if they stand in a comment, and a few others."""
    words = {*crates, *NOT_POSTGRESQL}
    for crate in crates.values():
        specs = files_in(f"crates/{crate.name}/specs", ".antt")
        for path in crate.files + crate.test_files + specs:
            words.update(re.findall(r"\w+", re.sub(r"(//|--).*", "", read(path))))
    return words - POSTGRESQL_TOO


def comments_of(item):
    """The comments at an item, each with the title of what it stands at: Kind.unpin, say, for a case
    of the data Kind."""
    if item.kind == "fn":
        return [(item.title(), comment_text(re.findall(r"//.*", item.source)))]
    return [(item.title(), item.comment), *((f"{item.name}.{x.name}", x.comment) for x in item.parts)]


# ---- SIZES.md ----

def sizes_page(crates):
    """How large each crate is."""
    sizes = {x.name: sizes_of(x) for x in crates.values()}
    rows = [[to_file(f"`{x.name}`", x.root), *sizes[x.name], sum_of_contracts(x)]
            for x in crates.values()]
    rows.append(["all", *(sum(x) for x in zip(*sizes.values())), ""])
    heads = ["Crate", "Code", "Contracts", "Tests", "Specs", "Proofs", "Functions", "Must-fail edits",
             "By hand", "Sum"]
    return [
        "# Sizes", "",
        "For readers who change or review a crate, or ask how much of it is code and how much is proof. "
        "From the bottom up.", "",
        "- Code, contracts, tests, specs, proofs: lines without blanks and comments. Contracts are the "
        "clauses and ghost members in `src/` (`requires`, `ensures`, `ghost`), tests the files that are "
        "compiled for tests alone.",
        "- Functions: each `fn` outside of bodies, macros and tests. The count that a check prints has "
        "besides those that derives and macros write.",
        "- Must-fail edits: the files in `must-fail/`, which the gate tries. By hand: those in "
        "`tests/by_hand/edits/`.",
        "- Sum: of all contracts and definitions, with their comments. A change that leaves it as it was "
        "changes none of them.", "",
        *table(heads, rows),
    ]


def sizes_of(crate):
    """The numbers of a crate, in the order of SIZES.md."""
    sources = [x for path in crate.files for x in code_lines(read(path))]
    contracts = contract_line_count(sources)
    counts = [len(sources) - contracts, contracts]
    specs, proofs = (files_in(f"crates/{crate.name}/{x}", ".antt") for x in ("specs", "proofs"))
    for paths in (crate.test_files, specs, proofs):
        counts.append(sum(len(code_lines(read(path))) for path in paths))
    counts.append(sum(x.kind == "fn" for x in crate.items))
    counts.append(len(files_in(f"crates/{crate.name}/must-fail", ".edit")))
    counts.append(len(files_in(f"tests/by_hand/edits/{crate.name}", ".edit")))
    return counts


def contract_line_count(lines):
    """How many lines are of clauses and ghost members. These go on until their braces are closed."""
    count = depth = 0
    for line in lines:
        if depth > 0 or re.match(r" *(requires|ensures|(pub )?ghost)\b", line):
            count += 1
            line = re.sub(r"//.*", "", line)
            depth += line.count("{") - line.count("}")
    return count


def sum_of_contracts(crate):
    """The sum of a crate's contracts and definitions."""
    texts = [x.comment + x.contract() for x in crate.items if x.kind == "fn"]
    texts += [x.source for x in crate.specs]
    return sum_of(texts) if texts else ""
