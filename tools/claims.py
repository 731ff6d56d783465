#!/usr/bin/env python3
"""The laws that the rows of docs/claims.md written by hand don't name. tables.py writes them there.

A law is a public function with an empty body: the check proves its contract, which is all that it has; what it says is the first sentence of its
doc comment.
"""
import pathlib
import re

ROOT = pathlib.Path(__file__).resolve().parents[1]
CRATES = ROOT / "crates"
LONG = 100


def names():
    """The crates in the order of crates.txt, which is by layer."""
    found = []
    for line in (ROOT / "crates.txt").read_text().splitlines():
        name = line.split(":")[0].split()[0] if line.strip() and not line.startswith("#") else ""
        if (CRATES / name / "src").is_dir() and name:
            found.append(name)
    return found


def plain(text):
    """A doc comment's text without links, on one line."""
    text = re.sub(r"\[(`[^`\]]+`)\](?!\()", r"\1", text)
    return re.sub(r"\s+", " ", text).strip().replace("|", "/")


def first_sentence(text):
    """Its first sentence; of a long one the part before its first semicolon or colon, which says something by itself."""
    match = re.match(r"(.*?[.:])(?= [A-Z`]|$)", plain(text))
    found = (match[1] if match else plain(text)).rstrip(":").rstrip(".")
    return (re.split(r"[;:] ", found)[0] if len(found) > LONG else found) + "."


def functions_of(path):
    """Each public function of a file at its top: its doc comment, its name, its lines up to its body, and whether that is empty."""
    doc, head, name = [], [], None
    for line in path.read_text().splitlines():
        if name is None:
            if line.startswith("///"):
                doc.append(line[3:].strip())
                continue
            start = re.match(r"pub fn (\w+)", line)
            if start:
                name, head = start[1], [line]
            elif not line.startswith("#["):
                doc = []
        else:
            head.append(line)
        if name and re.search(r"\{\s*\}?\s*$", line) and (line.startswith("{") or not line.startswith(" ")):
            yield " ".join(doc), name, "\n".join(head), bool(re.search(r"\{\s*\}\s*$", line))
            doc, name = [], None


def laws_of(name):
    """Each law of a crate: its file, its name, and what it says."""
    found = []
    for path in sorted((CRATES / name / "src").rglob("*.rt")):
        for doc, function, head, is_empty in functions_of(path):
            if is_empty and "ensures" in head:
                found.append((path.relative_to(ROOT), function, first_sentence(doc)))
    return found


def new_laws(name, by_hand):
    """The laws of a crate that the page doesn't name."""
    return [it for it in laws_of(name) if f"`{it[1]}`" not in by_hand]


def laws(by_hand):
    rows, last = ["| In | Law | What it says |", "|---|---|---|"], None
    for name in names():
        for _, function, says in new_laws(name, by_hand) if not name.endswith(("_tests", "_cases")) else ():
            rows.append(f"| {f'`{name}`' if name != last else ''} | `{function}` | {says} |")
            last = name
    return "\n".join(rows) + "\n"
