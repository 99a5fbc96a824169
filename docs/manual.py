#!/usr/bin/env python3
"""Makes the manual pages in man/ from the pages in docs/: flexvol(1) from MACHINE.md and flexvol(5) from FORMAT.md.

    docs/manual.py            writes them
    docs/manual.py --check    ends with 1 where one of them isn't what it would write

It reads what these two pages use of Markdown: headings, paragraphs, lists, tables, blocks of code, `code` and **bold**.
"""
import re
import sys
from pathlib import Path

TOP = Path(__file__).resolve().parent.parent
# A table is told as a list, row by row, where it has more columns than this, or two of them with a cell of more characters than that.
MOST_COLUMNS = 4
LONG_CELL = 60
# A column of a table is filled to its width where a cell has more characters than this.
FILLED_FROM = 24

SYNOPSIS = """\
.SH SYNOPSIS
.nf
.B flexvol \\fIFILE\\fB create \\fIBLOCKS\\fR
.B flexvol \\fIFILE\\fB run < \\fISCRIPT\\fR
.B flexvol \\fIFILE\\fB check
.B flexvol \\fIFILE\\fB gen \\fISEED COUNT\\fR
.B flexvol \\fIFILE\\fB dump\\fR [\\fBblocks\\fR | \\fBentries \\fIV\\fR]
.B reference \\fIBLOCKS\\fB < \\fISCRIPT\\fR
.B reference gen \\fISEED COUNT\\fR
.fi
"""


def text_of(line):
    """A piece of running text: `code` and **bold** are bold, and nothing else is marked."""
    parts = re.split(r"(`[^`]*`|\*\*[^*]*\*\*)", line)
    made = ""
    for part in parts:
        if part.startswith("`"):
            made += f"\\fB{escaped(part[1:-1])}\\fR"
        elif part.startswith("**"):
            made += f"\\fB{text_of(part[2:-2])}\\fR"
        else:
            made += escaped(part)
    return made


def escaped(text):
    return text.replace("\\", "\\e").replace("-", "\\-").replace("^", "\\(ha").replace("~", "\\(ti").replace("'", "\\(aq")


def guarded(line):
    """A line of the page that roff doesn't take for a request."""
    return f"\\&{line}" if line[:1] in (".", "'") else line


def cells_of(row):
    return [cell.strip() for cell in row.strip().strip("|").split("|")]


def table(rows):
    head, *body = [cells_of(row) for row in rows if not re.fullmatch(r"[|\s:-]+", row)]
    if len(head) == 2:
        return [line for cells in body for line in definition(cells[0], cells[1])]
    if len(head) > MOST_COLUMNS or sum(longest(body, column) > LONG_CELL for column in range(len(head))) > 1:
        return [line for cells in body for line in wide_row(head, cells)]
    return framed(head, body)


def longest(body, column):
    return max(len(cells[column].replace("`", "")) for cells in body)


def definition(word, told):
    return [".TP", guarded(text_of(word)) or "\\&", guarded(text_of(told)) or "\\&"]


def wide_row(head, cells):
    """A row of a wide table: its first cell, and then each other one that isn't empty with the head of its column."""
    told = [f"{named}: {cell}" if named else cell for named, cell in zip(head[1:], cells[1:]) if cell]
    return definition(cells[0], ". ".join(told))


def framed(head, body):
    """A table with lines of its own: a column with a long cell is filled, and shares the width with the other such ones."""
    filled = [longest(body, column) > FILLED_FROM for column in range(len(head))]
    lines = [".TS", " ".join("lx" if it else "l" for it in filled) + ".", "\t".join(f"\\fB{text_of(cell)}\\fR" for cell in head), "_"]
    for cells in body:
        told = [text_of(cell) for cell in cells]
        lines.append("\t".join(f"T{{\n.nh\n{guarded(cell)}\nT}}" if it else cell for cell, it in zip(told, filled)))
    return [*lines, ".TE"]


def code(lines):
    return [".PP", ".RS 4", ".EX", *[guarded(escaped(line)) for line in lines], ".EE", ".RE"]


def blocks(text):
    """The page's blocks in order: what kind each is, and its lines."""
    lines = text.splitlines()
    at = 0
    while at < len(lines):
        line = lines[at]
        end = at + 1
        if not line.strip():
            at = end
            continue
        if line.startswith("```"):
            end = lines.index("```", end)
            yield "code", lines[at + 1 : end]
            at = end + 1
            continue
        if line.startswith("#"):
            yield "heading", [line]
        elif line.startswith("    "):
            while end < len(lines) and lines[end].startswith("    "):
                end += 1
            yield "code", [it[4:] for it in lines[at:end]]
        elif line.startswith("|"):
            while end < len(lines) and lines[end].startswith("|"):
                end += 1
            yield "table", lines[at:end]
        else:
            item = re.match(r"(- |\d+\. )", line)
            while end < len(lines) and lines[end].strip() and not re.match(r"(#|\||```|- |\d+\. )", lines[end]):
                end += 1
            yield "item" if item else "text", [it.strip() for it in lines[at:end]]
        at = end


def made(kind, lines):
    if kind == "heading":
        level, words = lines[0].split(" ", 1)
        return [] if level == "#" else [f".{'SH' if level == '##' else 'SS'} {escaped(words)}"]
    if kind == "code":
        return code(lines)
    if kind == "table":
        return [".PP", *table(lines)]
    told = " ".join(lines)
    if kind == "item":
        mark, told = told.split(" ", 1)
        mark = "\\(bu" if mark == "-" else mark
        return [f".IP {mark} 3", guarded(text_of(told))]
    return [".PP", guarded(text_of(told))]


def page(name, section, title, synopsis, source):
    lines = ["'\\\" t", f'.\\" Made by docs/manual.py from docs/{source}; edit that.', f'.TH {name} {section} "" "FlexVol" "FlexVol"']
    # No hyphens, and a ragged right edge: names of files and of clauses stay whole.
    lines += [".nh", ".ad l"]
    lines += [".SH NAME", escaped(title), synopsis.rstrip("\n")] if synopsis else [".SH NAME", escaped(title)]
    begun = False
    for kind, told in blocks((TOP / "docs" / source).read_text()):
        # What stands before the first section is one of its own.
        if not begun and kind != "heading":
            lines.append(".SH DESCRIPTION")
        begun = begun or kind != "heading" or told[0].startswith("##")
        lines += made(kind, told)
    others = ", ".join(f"\\fBflexvol\\fR({it})" for it in (1, 5) if it != section)
    lines += [".SH SEE ALSO", others]
    return "\n".join(lines) + "\n"


PAGES = {
    "flexvol.1": lambda: page("FLEXVOL", 1, "flexvol, reference - volumes in one file, and the plain machine", SYNOPSIS, "MACHINE.md"),
    "reference.1": lambda: ".so man1/flexvol.1\n",
    "flexvol.5": lambda: page("FLEXVOL", 5, "flexvol - the format of an aggregate's file", "", "FORMAT.md"),
}


def main():
    check = sys.argv[1:] == ["--check"]
    if sys.argv[1:] and not check:
        sys.exit(__doc__)
    folder = TOP / "man"
    folder.mkdir(exist_ok=True)
    other = []
    for name, text in PAGES.items():
        path = folder / name
        if not check:
            path.write_text(text())
        elif not path.exists() or path.read_text() != text():
            other.append(f"man/{name}")
    if other:
        sys.exit(f"{', '.join(other)}: not what docs/ says; docs/manual.py writes them anew")


main()
