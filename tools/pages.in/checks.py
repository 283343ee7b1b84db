"""What `tools/pages --check` compares: pages with the sources, and links with what they lead to."""

import difflib
import os
import re

from markdown import REFERENCE, anchor
from sources import FILES, files_in, pieces, read, read_items, read_source

# The page that quotes functions, and the crate that they are of.
QUOTING, QUOTED = "docs/LIBRARY.md", "library_example"

CODE = re.compile(r"^```rust\n(.*?)\n```$", re.M | re.S)
MOST_LINES = 6          # of a page that differs


def differences(pages):
    """How the pages that are there differ from these, and what is in their folder besides."""
    others = [x for x in files_in(REFERENCE, ".md") if x not in pages]
    found = [f"{x}: tools/pages writes no such page" for x in others]
    for path, text in pages.items():
        old = read(path) if path in FILES else ""
        lines = list(difflib.unified_diff(old.split("\n"), text.split("\n"), n=0, lineterm=""))
        changed = [x for x in lines[2:] if not x.startswith("@@")]
        if changed:
            found.append(f"{path}: {len(changed)} lines differ (- the page, + the sources)")
            found += [f"    {x[:150]}" for x in changed[:MOST_LINES]]
    return found


# ---- Functions that a page quotes ----

def key(item):
    """By what a function or a type is found in the crate."""
    return item.kind, item.implements, item.name


def sources_by_key():
    """The sources of the functions and types of the crate. Methods of several types may have one key."""
    sources = {}
    for path in files_in(f"crates/{QUOTED}/src", ".rt"):
        for item in read_source(QUOTED, path):
            sources.setdefault(key(item), []).append(item.source)
    return sources


def quoted_in(piece):
    """The function or type in a piece of code, in a list. Other lines may say what they like."""
    return read_items(piece, QUOTED, QUOTING, {})[:1]


def with_quotes():
    """The text of the page with each function and type in its blocks of code as the crate has it."""
    if QUOTING not in FILES:
        raise SystemExit(f"tools/pages.in/checks.py names {QUOTING}, which isn't there: change that "
                         "name, and run tools/pages")
    sources = sources_by_key()

    def as_in_sources(block):
        texts = pieces(block[1])
        for at, piece in enumerate(texts):
            for item in quoted_in(piece):
                found = sources.get(key(item), [piece])
                texts[at] = piece if piece in found else found[0]
        return "```rust\n" + "\n\n".join(texts) + "\n```"

    return CODE.sub(as_in_sources, read(QUOTING))


def unknown_quotes():
    """The functions and types that the page quotes, and the crate doesn't have."""
    sources = sources_by_key()
    all_pieces = [piece for block in CODE.findall(read(QUOTING)) for piece in pieces(block)]
    items = [x for piece in all_pieces for x in quoted_in(piece) if key(x) not in sources]
    return [f"{QUOTING}: {x.kind} {x.name}: crates/{QUOTED} has none" for x in items]


# ---- Links ----

def broken_links(pages):
    """The links of all Markdown pages whose file or heading isn't there. Those to the web aren't
    followed."""
    texts = {**{x: read(x) for x in FILES if x.endswith(".md")}, **pages}
    texts = {path: without_blocks(text) for path, text in texts.items()}
    anchors = {path: anchors_in(text) for path, text in texts.items()}
    there = with_folders([*FILES, *pages])
    found = []
    for path, text in texts.items():
        for target in re.findall(r"\]\((?!\w+:)([^)\s]+)", re.sub(r"`[^`\n]*`", "", text)):
            file, _, heading = target.partition("#")
            to = os.path.normpath(os.path.join(os.path.dirname(path), file)) if file else path
            if to not in there:
                found.append(f"{path}: {target}: no such file")
            elif heading and heading not in anchors.get(to, []):
                found.append(f"{path}: {target}: no such heading")
    return found


def without_blocks(text):
    """A page without its blocks of code."""
    return re.sub(r"^ *```.*?^ *```", "", text, flags=re.M | re.S)


def anchors_in(text):
    """The anchors of a page's headings. If several have the same, all but the first get a number."""
    names = [anchor(x) for x in re.findall(r"^#+ (.*)", text, re.M)]
    counts = [names[:at].count(name) for at, name in enumerate(names)]
    return [f"{name}-{count}" if count else name for name, count in zip(names, counts)]


def with_folders(paths):
    """The paths, and those of the folders that they are in."""
    found = {"."}
    for path in paths:
        while path and path not in found:
            found.add(path)
            path = os.path.dirname(path)
    return found
