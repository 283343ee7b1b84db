"""The pages of the crates, and the reading of a contract. These are written when somebody asks for
them, and not committed."""

import os

from citations import Citations, unique
from markdown import capital, code, page_text, to_file
from sources import comment_text, read


def crate_pages(crates, folder):
    """The text of each crate's page, by its path in a folder."""
    cites = Citations(crates)
    return {f"{folder}/{x.name}.md": page_text(crate_page(x, cites, folder)) for x in crates.values()}


def crate_page(crate, cites, folder):
    """A crate's page: what its root says, its public types and functions, and its definitions."""
    lines = [f"# {crate.name}", "", crate.comment, "", to_file("Source", crate.root, folder), ""]
    public = [x for x in crate.items if x.public]
    types = [x for x in public if x.kind in ("struct", "enum", "trait")]
    lines += ["## Types", ""] if types else []
    for item in types:
        lines += [f"### {item.kind} {item.name}", "", item.comment, ""]
        lines += [to_file("Source", item.path, folder), "", *type_lines(item, cites)]
    functions = [x for x in public if x.kind == "fn"]
    lines += ["## Functions", ""] if functions else []
    for item in functions:
        lines += [f"### {item.title()}", "", item.comment, ""]
        lines += [to_file("Source", item.path, folder), "", *code(item.contract())]
    return lines + definition_lines(crate, folder)


def type_lines(item, cites):
    """The declaration of a type that hides nothing, and the ghost members by which contracts read a
    type or a trait."""
    model = cites.models.get((item.crate, item.name))
    hides = item.kind == "trait" or item.kind == "struct" and "\n    pub " not in item.text
    texts = [] if hides or "pub(" in item.text else [item.text]
    for part in item.parts + (model.parts if model else []):
        if part.kind == "ghost":
            texts.append(f"/// {part.comment}\n{part.text}" if part.comment else part.text)
    return code("\n\n".join(texts)) if texts else []


def definition_lines(crate, folder):
    """The definitions of a crate, by file: the comment of each, or its first line."""
    lines = ["## Definitions", ""] if crate.specs else []
    for path in unique(x.path for x in crate.specs):
        comment = comment_text(read(path).split("\n\n")[0].split("\n"))
        source = to_file("Source", path, folder)
        lines += [f"### {os.path.basename(path)}", "", f"{comment} {source}", ""]
        for item in crate.specs:
            if item.path == path:
                says = capital(item.comment) or f"`{item.text.splitlines()[0]}`"
                lines.append(f"- `{item.name}`: {says}")
        lines.append("")
    return lines


def reading(crates, title):
    """All that the contract of a function rests on, as one text: first what is cited, the contract
    last."""
    calls = [x for crate in crates.values() for x in crate.items if x.kind == "fn" and x.public]
    calls = [x for x in calls if title in (x.title(), f"{x.crate}::{x.title()}")]
    if not calls:
        raise SystemExit(f"{title}: no crate has a public function of this name")
    if len(calls) > 1:
        raise SystemExit(f"{title}: say which: {', '.join(f'{x.crate}::{title}' for x in calls)}")
    cites = Citations(crates)
    texts = []
    for path, items in cites.in_reading_order(cites.closure(calls)[1:]).items():
        texts += [f"-- {path}", *(x.source for x in items)]
    return "\n\n".join([*texts, f"-- {calls[0].path}", calls[0].contract()])
