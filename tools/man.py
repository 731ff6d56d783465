#!/usr/bin/env python3
"""Makes the man page of the program, docs/pubsubd.1, out of docs/operator.md, the one source of both.

    man.py            writes it
    man.py --check    says whether it is what would be written
"""
import pathlib
import re
import sys

DOCS = pathlib.Path(__file__).resolve().parents[1] / "docs"
SOURCE, PAGE = DOCS / "operator.md", DOCS / "pubsubd.1"
HEAD = [
    r"""'\" t""",
    r".\" Made by tools/man.py from docs/operator.md: change that, and run tools/man.py.",
    ".TH PUBSUBD 1",
    ".SH NAME",
    r"pubsubd \- XMPP publish-subscribe and personal eventing behind a router",
]


def plain(text):
    """Guards what roff would read as its own."""
    text = text.replace("\\", r"\e").replace("-", r"\-")
    return re.sub(r"^([.'])", r"\\&\1", text)


def inline(text):
    """A line of prose: bold, literal words and links."""
    parts = re.split(r"(\*\*.+?\*\*|\*\w+\*|`[^`]+`|\[[^\]]+\]\([^)]+\))", text)
    made = []
    for part in parts:
        if part.startswith("**"):
            made.append(rf"\fB{plain(part[2:-2])}\fR")
        elif part.startswith("*"):
            made.append(rf"\fI{plain(part[1:-1])}\fR")
        elif part.startswith("`"):
            made.append(rf"\fB{plain(part[1:-1])}\fR")
        elif part.startswith("["):
            made.append(plain(part[1 : part.index("]")]))
        else:
            made.append(plain(part) if not made else plain(part).removeprefix(r"\&"))
    return "".join(made)


def row(line):
    return [cell.strip() for cell in line.strip().strip("|").split("|")]


def table(lines):
    """A table for tbl. The last column of the widest cells takes what is left of the line, so that the table fits a terminal."""
    head, *rows = [row(line) for line in (lines[0], *lines[2:])]
    wide = [max(len(cells[at]) for cells in rows) > 16 for at in range(len(head))]
    share = 50 // max(sum(wide), 1)
    columns = " ".join(f"lw({share}n)" if it else "l" for it in wide)
    made = [".TS", "tab(@);", " ".join(["lb"] * len(head)), f"{columns}.", "@".join(map(inline, head))]
    for cells in rows:
        made += "@".join(f"T{{\n{inline(cell)}\nT}}" if wide[at] else inline(cell) for at, cell in enumerate(cells)).split("\n")
    return [*made, ".TE"]


def code(lines):
    return [".PP", ".RS 4", ".nf", *map(plain, lines), ".fi", ".RE"]


def bullet(lines):
    return [".IP \\(bu 2", *map(inline, lines)]


def blocks(text):
    """The blocks of a page: a kind and its lines each."""
    found, lines = [], iter(text.splitlines())
    for line in lines:
        if line.startswith("```"):
            found.append(("code", []))
            for inner in lines:
                if inner.startswith("```"):
                    break
                found[-1][1].append(inner)
            found.append(("end", []))
        elif not line.strip():
            found.append(("end", []))
        elif line.startswith("#"):
            found += [("head", [line.lstrip("# ")]), ("end", [])]
        elif line.startswith("- "):
            found.append(("bullet", [line[2:]]))
        elif found and found[-1][0] in ("bullet", "text", "table"):
            found[-1][1].append(line.strip())
        else:
            found.append(("table" if line.startswith("|") else "text", [line]))
    return [it for it in found if it[1]]


def page(text):
    made = list(HEAD)
    for kind, lines in blocks(text)[1:]:
        if kind == "head":
            made.append(f".SH {plain(lines[0]).upper()}")
        elif kind == "text":
            made += [".PP", *map(inline, lines)]
        else:
            made += {"table": table, "code": code, "bullet": bullet}[kind](lines)
    return "\n".join(made) + "\n"


def main(words):
    made = page(SOURCE.read_text())
    if words == ["--check"]:
        if not PAGE.is_file() or PAGE.read_text() != made:
            print("docs/pubsubd.1 isn't what docs/operator.md says: run tools/man.py", file=sys.stderr)
            return 1
        return 0
    if words:
        print(__doc__.strip(), file=sys.stderr)
        return 2
    PAGE.write_text(made)
    return 0


if __name__ == "__main__":
    sys.exit(main(sys.argv[1:]))
