#!/usr/bin/env python3
"""Applies wrong bodies to the files that they name, in memory, and tells those that can't be applied: nothing is proved. It is what
`checks/wrong_bodies --apply` runs, and `checks/docs` asks it of all crates.

An edit of crates/CRATE/must-fail or wrong-bodies has a line `file: PATH`, of a file in src/, specs/ or proofs/ of its crate, and
then pairs of lines `old: TEXT` and `new: TEXT`. Each TEXT of `old:` has to stand in that file once; a further pair is applied
to what the ones before it made. No other line is read. An edit of checks/ names its files from the top: it may change several crates.
The status is 1 where one can't be applied.
"""
import re
import sys
from pathlib import Path

TOP = Path(__file__).resolve().parent.parent.parent
FOLDERS = ("must-fail", "wrong-bodies")


def is_source(name, from_top):
    """Whether an edit may name this file: one of src/, specs/ or proofs/ of its crate, or, from the top, of any crate."""
    crate = "crates/[^/]+/" if from_top else ""
    return re.fullmatch(crate + "(src|specs|proofs)/.+", name) is not None and ".." not in name.split("/")


def applied(edit, folder, from_top):
    """The files that an edit names, as they stand in this folder, each with the text that it makes of it; and why it can't be applied, or None."""
    name, old, pairs, texts, before = None, None, 0, {}, {}
    for line in edit.read_text().split("\n"):
        if line.startswith("file: "):
            name = line.removeprefix("file: ").strip()
            if not is_source(name, from_top):
                return {}, f"{name} is no file of src/, specs/ or proofs/"
            if not (folder / name).is_file():
                return {}, f"there is no file {name}"
            before.setdefault(name, (folder / name).read_text())
            texts.setdefault(name, before[name])
        elif line.startswith("old: "):
            old = line.removeprefix("old: ")
        elif line.startswith("new:"):
            if not name or not old:
                return {}, "a line `new:` has no `file:` and `old:` before it"
            if texts[name].count(old) != 1:
                return {}, f"the text of `old:` stands {texts[name].count(old)} times in {name}: {old.strip()}"
            texts[name] = texts[name].replace(old, line.removeprefix("new:").removeprefix(" "))
            old, pairs = None, pairs + 1
    if old:
        return {}, "its last `old:` has no `new:`"
    if not pairs:
        return {}, "it has no pair of lines `old:` and `new:`"
    return (texts, None) if texts != before else ({}, "it changes nothing")


def fault_of(edit):
    """Why an edit can't be applied to the repository, or None."""
    from_top = edit.parent == TOP / "checks"
    return applied(edit, TOP if from_top else edit.parent.parent, from_top)[1]


def edits_of(crates):
    """The edits of these crates; or those of every one, and of checks/."""
    if not crates:
        yield from sorted((TOP / "checks").glob("*.edit"))
    folders = [TOP / "crates" / crate for crate in crates] or sorted((TOP / "crates").iterdir())
    for folder in folders:
        for kind in FOLDERS:
            yield from sorted((folder / kind).glob("*.edit"))


def edit_faults(crates=()):
    """How many edits there are, and a line for each that can't be applied."""
    faults, count = [], 0
    for edit in edits_of(crates):
        count += 1
        if fault := fault_of(edit):
            faults.append(f"{edit.relative_to(TOP)}: {fault}")
    return count, faults


def main():
    for crate in sys.argv[1:]:
        if not (TOP / "crates" / crate / "src").is_dir():
            sys.exit(f"checks/wrong_bodies: there is no crate {crate}")
    count, faults = edit_faults(sys.argv[1:])
    print("\n".join(faults + [f"{count} wrong bodies, {len(faults)} can't be applied"]))
    sys.exit(1 if faults else 0)


if __name__ == "__main__":
    main()
