#!/usr/bin/env python3
"""Writes the man page docs/pan.1 from docs/COMMANDS.md.

    docs/make_man.py            writes it
    docs/make_man.py --check    writes nothing, and ends with 1 where the page is not what it would write

Of Markdown it knows what COMMANDS.md uses: headings, paragraphs, lists, tables, indented blocks, **bold**, `code` and
links. A table becomes a list: the first cell of a row, and under it the others, from the third on with the heading of
their column. The page wants no preprocessor.
"""
import re
import sys
from pathlib import Path

HERE = Path(__file__).resolve().parent
SOURCE = HERE / "COMMANDS.md"
PAGE = HERE / "pan.1"
HEAD = """\
.\\" Made from docs/COMMANDS.md by docs/make_man.py: change that page.
.TH PAN 1 "" "pan" "User commands"
.SH NAME
pan \\- compiles templates of the Pan language into JSON profiles
.SH SYNOPSIS
"""


def escaped(text):
    """Characters that roff would take for its own, or print as another one."""
    text = text.replace("\\", "\\e")
    for character, name in (("-", "\\-"), ("'", "\\(aq"), ("`", "\\(ga"), ("^", "\\(ha"), ("~", "\\(ti")):
        text = text.replace(character, name)
    return re.sub(r"^\.", "\\\\&.", text)


def inline(text):
    """A line of Markdown with its bold, its code and its links."""
    text = re.sub(r"\[([^]]*)\]\([^)]*\)", r"\1", text)
    pieces = re.split(r"(\*\*.+?\*\*|`[^`]+`)", text)
    return "".join(piece_of(piece) for piece in pieces)


def piece_of(piece):
    if piece.startswith("**"):
        return f"\\fB{inline(piece[2:-2])}\\fR"
    if piece.startswith("`"):
        return f"\\fB{escaped(piece[1:-1])}\\fR"
    return escaped(piece)


def blocks_of(text):
    """The parts between blank lines; an indented block keeps the blank lines within."""
    block = []
    lines = text.splitlines() + [""]
    for line, following in zip(lines, lines[1:] + [""]):
        goes_on = block and block[0].startswith("    ") and following.startswith("    ")
        if line or goes_on:
            block.append(line)
        elif block:
            yield block
            block = []


def cells_of(row):
    return [cell.strip().replace("\\|", "|") for cell in re.split(r"(?<!\\)\|", row.strip()[1:-1])]


def table(rows):
    heads = cells_of(rows[0])
    for row in rows[2:]:
        first, *rest = cells_of(row)
        yield ".TP"
        yield inline(first) or "\\&"
        said = [cell if n == 0 else f"{heads[n + 1]}: {cell}" for n, cell in enumerate(rest) if cell]
        yield inline(". ".join(said)) or "\\&"


def listed(lines):
    for line in lines:
        if line.startswith("- "):
            yield ".IP \\(bu 2"
        yield inline(line.removeprefix("- ").strip())


def example(lines):
    return [".PP", ".RS 4", ".nf", *(escaped(line[4:]) or "\\&" for line in lines), ".fi", ".RE"]


def block(lines):
    first = lines[0]
    if first.startswith("## "):
        return [f".SH {inline(first[3:].upper())}"]
    if first.startswith("    "):
        return example(lines)
    if first.startswith("|"):
        return table(lines)
    if first.startswith("- "):
        return listed(lines)
    return [".PP", *map(inline, lines)]


def page(text):
    """The first block behind the title is the synopsis; what follows it, the description."""
    title, synopsis, *rest = blocks_of(text)
    assert title[0].startswith("# ") and synopsis[0].startswith("    ")
    lines = [".nf", *(escaped(line[4:]) for line in synopsis), ".fi", ".SH DESCRIPTION"]
    for part in rest:
        lines += block(part)
    return HEAD + "\n".join(lines) + "\n"


def main(words):
    if words not in ([], ["--check"]):
        sys.exit(__doc__)
    made = page(SOURCE.read_text())
    if not words:
        PAGE.write_text(made)
    elif not PAGE.is_file() or PAGE.read_text() != made:
        print("docs/pan.1 is not what docs/make_man.py makes of docs/COMMANDS.md")
        return 1
    return 0


if __name__ == "__main__":
    sys.exit(main(sys.argv[1:]))
