"""Reads the crates' sources: the public items of each crate, with their doc comments and the names of their contracts' clauses.

Sources are laid out by `rt fmt`: an item of a file begins in the first column, and one of an impl or a trait in the fifth."""
import re
from dataclasses import dataclass, field
from functools import lru_cache
from pathlib import Path

TOP = Path(__file__).resolve().parent.parent.parent
CLAUSE = re.compile(r"(?:\s|//.*\n)*(requires|ensures)\*?(?: (\w+))? \{")
# What stands behind a function's result.
STOP = re.compile(r"\n\s+(?:where|requires|ensures\*?)\b|\s+\{|;")
PAIRS = {"(": ")", "[": "]", "{": "}", "<": ">"}


@dataclass
class Item:
    """A function, type, trait or constant. `owner` is the type or the trait that has it, if one has."""

    kind: str
    name: str
    file: Path
    doc: str
    public: bool
    exported: bool = False
    owner: str = ""
    of_trait: str = ""
    generics: str = ""
    arguments: list = field(default_factory=list)
    result: str = ""
    value: str = ""
    requires: list = field(default_factory=list)
    ensures: list = field(default_factory=list)
    # the texts of the clauses of `ensures`, in their order
    promised: list = field(default_factory=list)


@dataclass
class Crate:
    """A library: its doc comment, its items, and the names at its root with the crate that each is of ('' for one of the kit)."""

    name: str
    doc: str
    items: list
    own: set
    passed_on: dict
    modules: set


def closed(text, at):
    """The place behind the bracket that closes the one at a place. The `>` of an arrow closes nothing."""
    wanted = []
    while True:
        here = text[at]
        if text.startswith("->", at):
            at += 1
        elif wanted and here == wanted[-1]:
            wanted.pop()
            if not wanted:
                return at + 1
        elif here in "([{" or here == "<" and "{" not in wanted and "}" not in wanted:
            wanted.append(PAIRS[here])
        at += 1


def split(text, by=","):
    """The parts of a list: it is cut at commas that stand in no bracket."""
    parts, at, start = [], 0, 0
    while at < len(text):
        if text[at] in "([{<" and not text.startswith("->", at):
            at = closed(text, at)
            continue
        if text[at] == by:
            parts.append(text[start:at])
            start = at + 1
        at += 2 if text.startswith("->", at) else 1
    return [" ".join(part.split()) for part in [*parts, text[start:]] if part.strip()]


def plain(text):
    """A piece of code in one line."""
    text = re.sub(r"([(<\[]) ", r"\1", re.sub(r",? ([)>\]])", r"\1", " ".join(text.split())))
    return text.replace("- >", "->")


def read_call(text, at, item):
    """Reads a function's arguments, result and clauses, which begin at a place: where its generics or its arguments do."""
    if text[at] == "<":
        at = closed(text, at)
    end = closed(text, at)
    for argument in split(text[at + 1:end - 1]):
        name = argument.split(":")[0].strip()
        item.arguments.append(argument if "self" in name.split() or "self" in name.strip("&").split() else name.removeprefix("mut "))
    at = end
    while not STOP.match(text, at):
        at = closed(text, at) if text[at] in "([<" else at + (2 if text.startswith("->", at) else 1)
    item.result = plain(text[end:at].strip().removeprefix("->"))
    if text[at:].lstrip().startswith("where"):
        at = re.compile(r"\n\s+(?:requires|ensures\*?)\b|\n\s*\{|;").search(text, at + 1).start()
    while match := CLAUSE.match(text, at):
        getattr(item, match.group(1)).append(match.group(2) or "")
        at = closed(text, match.end() - 1)
        if match.group(1) == "ensures":
            item.promised.append(text[match.end():at - 1])
    if not re.match(r"(?:\s|//.*\n)*[{;]", text[at:]):
        raise ValueError(f"{item.file}: the clauses of {item.name} end at: {text[at:at + 60]!r}")


def owner_of(head):
    """The trait and the type of the head of an impl block, or of a trait."""
    text = re.sub(r"^(pub )?(unsafe )?", "", " ".join(head.split()))
    if text.startswith("trait"):
        return "", re.match(r"trait (\w+)", text).group(1)
    rest = text.removeprefix("impl")
    rest = rest[closed(rest, 0):] if rest.startswith("<") else rest
    trait, found, kind = rest.strip().partition(" for ")
    kind, trait = (kind, trait) if found else (trait, "")
    named = re.match(r"&?(?:mut )?(?:\w+::)*(\w+)", kind.strip())
    return (re.match(r"(?:\w+::)*(\w+)", trait).group(1) if trait else ""), named.group(1) if named else ""


HEAD = re.compile(r"^(?P<space> {4})?(?:pub\(\w+\) |(?P<public>pub ))?(?:const |unsafe |extern \"C\" )*(?P<kind>fn|struct|enum|trait|impl|const|type|union|static)\b[ <]?(?P<name>\w*)")


def items_of(file):
    """The items of a file."""
    text = re.sub(r"^#!?\[.*\]\n", "\n", file.read_text(), flags=re.M)
    items, doc, owner, trait, is_trait = [], [], "", "", False
    at = 0
    for line in text.splitlines(keepends=True):
        start, at = at, at + len(line)
        stripped = line.strip()
        if stripped.startswith("///"):
            doc.append(stripped.removeprefix("///").strip())
            continue
        if line.startswith("}"):
            owner = trait = ""
            is_trait = False
        match = HEAD.match(line)
        if not match or (match["space"] and not owner):
            doc = doc if not stripped or stripped.startswith("#") else []
            continue
        kind, name = match["kind"], match["name"]
        if kind in ("impl", "trait") and not match["space"]:
            head = text[start:re.compile(r"\s\{").search(text, start).start()]
            trait, owner = owner_of(head)
            is_trait = kind == "trait"
        if kind != "impl":
            public = bool(match["public"]) or is_trait and bool(match["space"])
            item = Item(kind, name, file, "\n".join(doc), public, 'extern "C"' in match[0])
            if match["space"]:
                item.owner, item.of_trait = owner, trait
            if kind == "fn":
                read_call(text, start + match.end("name"), item)
            elif kind in ("struct", "enum", "trait", "type") and text[start + match.end("name"):][:1] == "<":
                begin = start + match.end("name")
                item.generics = plain(text[begin:closed(text, begin)])
            elif kind == "const":
                item.value = plain(text[start:text.index(";", start)].partition(" = ")[2])
            items.append(item)
        doc = []
    return items


@lru_cache(maxsize=None)
def crate_of(name):
    """A library of the repository, or None where it is none."""
    root = TOP / "crates" / name / "src" / "lib.rt"
    if not root.is_file():
        return None
    text = root.read_text()
    doc = "\n".join(re.sub(r"^//! ?", "", line) for line in text.splitlines() if line.startswith("//!"))
    own, passed_on = set(), {}
    for path, listed, one in re.findall(r"^pub use ([\w:]+?)::(?:\{([^}]*)\}|(\w+));", text, re.M):
        first = path.split("::")[0]
        words = [word.strip() for word in (listed or one).split(",") if word.strip()]
        if (root.parent / f"{first}.rt").is_file() or (root.parent / first).is_dir():
            own |= set(words)
        else:
            passed_on.update({word: first for word in words})
    own |= set(re.findall(r"^pub (?:struct|enum|fn|const|trait|type) (\w+)", text, re.M))
    items = [item for file in sorted(root.parent.rglob("*.rt")) for item in items_of(file)]
    return Crate(name, doc, items, own, passed_on, set(re.findall(r"^pub mod (\w+);", text, re.M)))


def home_of(name, crate):
    """The crate that has an item which another one names at its root."""
    found = crate_of(crate)
    while found and name in found.passed_on:
        crate = found.passed_on[name]
        found = crate_of(crate)
    return crate


def crate_groups():
    """The headings of crates.txt, each with the crates below it."""
    groups = []
    for line in (TOP / "crates.txt").read_text().splitlines():
        if line.startswith("# "):
            groups.append((line[2:], []))
        elif match := re.match(r"(\w+)(?: staticlib)?:", line):
            groups[-1][1].append(match.group(1))
    return groups


@lru_cache(maxsize=None)
def all_calls():
    """All functions of all crates' sources, private ones too: lists of items by their owners' names (or '') and their own."""
    found = {}
    for file in sorted((TOP / "crates").glob("*/src/**/*.rt")):
        for item in items_of(file):
            if item.kind == "fn":
                found.setdefault((item.owner, item.name), []).append(item)
    return found
