"""Pieces of Markdown."""

import os
import re

REFERENCE = "docs/reference"
NOTE = "<!-- Written by tools/pages from the sources: change those, and run it again. -->"


def page_text(lines):
    """The text of a page, with one blank line between its parts."""
    return re.sub(r"\n{3,}", "\n\n", "\n".join([NOTE, "", *lines])).rstrip() + "\n"


def anchor(heading):
    """The anchor that GitHub gives a heading."""
    text = re.sub(r"\]\([^)]*\)", "", heading)
    return re.sub(r"[^\w\- ]", "", text).strip().lower().replace(" ", "-")


def to_heading(text, heading):
    """A link to a heading of the same page."""
    return f"[{text}](#{anchor(heading)})"


def to_file(text, path, folder=REFERENCE):
    """A link to a file of the repository from a page in a folder."""
    return f"[{text}]({os.path.relpath(path, folder)})"


def table(heads, rows):
    """A table, as lines."""
    lines = [heads, ["---"] * len(heads), *rows]
    return ["| " + " | ".join(str(cell) for cell in line) + " |" for line in lines] + [""]


def code(text):
    """A block of code, as lines."""
    return ["```rust", *text.split("\n"), "```", ""]


def first_sentence(comment):
    """The first sentence of a comment, for a cell of a table."""
    text = " ".join(comment.split()).replace("|", "\\|")
    return re.split(r"(?<=[\w)`])\. ", text)[0].rstrip(".:")


def capital(text):
    """The text with a capital letter at its beginning."""
    return text[:1].upper() + text[1:]
