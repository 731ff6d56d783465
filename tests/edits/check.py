#!/usr/bin/env python3
"""Checks that each must-fail edit still fits the text that it changes: its file is there, and each old text stands in it exactly once;
and that each edit that try.py lists is there.

    check.py

The gate tries those of crates/NAME/must-fail, and of tests/edits/NAME those that TRIED of try.py lists. The others are wrong
bodies of the same kind for which it has no time: `python3 tests/edits/try.py NAME/EDIT` tries them, whenever the crate has changed.
"""

import pathlib
import re
import sys

ROOT = pathlib.Path(__file__).resolve().parents[2]


def misfits(edit, crate):
    """Lists what of an edit doesn't fit its crate."""
    found, pairs, text = [], 0, None
    for line in edit.read_text().splitlines():
        if line.startswith("file: "):
            path = crate / line[len("file: "):].strip()
            text = path.read_text() if path.is_file() else None
            if text is None:
                found.append(f"no file {path.relative_to(ROOT)}")
        elif line.startswith("old: "):
            pairs += 1
            if text is not None and text.count(line[len("old: "):]) != 1:
                found.append(f"its old text stands {text.count(line[len('old: '):])} times in {path.relative_to(ROOT)}")
    return found if pairs else [*found, "it changes nothing"]


def main():
    edits = [*ROOT.glob("crates/*/must-fail/*.edit"), *ROOT.glob("tests/edits/*/*.edit")]
    lost = []
    for edit in sorted(edits):
        name = edit.parts[-3] if edit.parts[-2] == "must-fail" else edit.parts[-2]
        lost += [f"{edit.relative_to(ROOT)}: {it}" for it in misfits(edit, ROOT / "crates" / name)]
    listed = re.search(r"(?s)TRIED = \[(.*?)\]", (ROOT / "tests/edits/try.py").read_text())[1]
    there = {f"{it.parts[-2]}/{it.stem}" for it in ROOT.glob("tests/edits/*/*.edit")}
    lost += [f"tests/edits/try.py lists {it}, which isn't there" for it in re.findall(r'"([^"=]+)', listed) if "/" in it and it not in there]
    print("\n".join([*lost, f"{len(edits)} edits, {len(lost)} misfits"]))
    return 1 if lost or not edits else 0


if __name__ == "__main__":
    sys.exit(main())
