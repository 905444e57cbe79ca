"""Reads the definitions and lemmas in `specs/` and `proofs/`: the names that each file has at its top, also in a `module _`, and which of
them a text names.

A name is told by the path of its file: Rattle.CRATE.specs.FILE.NAME. It is looked up as the checker does: by the file's own names, and by
its imports; a `pub use` passes on what it imports. Where a name could stand for a variable as well it is taken for the definition."""
import re
from dataclasses import dataclass, field

from definitions import imports_of
from sources import TOP

WORD = re.compile(r"[^\s(){}\[\],;]+")
HEAD = re.compile(r"(?:(?:abbrev|unfoldable|pub|record|data) )*(\S+)")
# Lines that begin as a definition would, and are none.
NO_NAME = re.compile(r"(?:(?:unfoldable )?pub )?(?:use|mod|open)\b|infix")
# Files of proofs/ which the prover looks up by their names, with all that is in them.
PROVERS = {"Answers", "Invariants", "Proof", "Goals", "Send", "Sync"}


@dataclass
class Named:
    """A definition or lemma: its path, how many lines it has with the comment above it, and the words of its text."""

    path: str
    size: int = 0
    words: set = field(default_factory=set)


def words_of(text):
    """The words of a text: `a.b` is one."""
    return {word.strip(".") for word in WORD.findall(text)}


def by_word(paths):
    """Paths by the words that stand for them: a name with places, as that of an operator, by each word between its places."""
    return {word: path for name, path in paths.items() for word in (name.split("◌") if "◌" in name else [name]) if word}


class Module:
    """A file of specs/ or proofs/: what it imports, what it passes on, and its definitions by their names."""

    def __init__(self, path, text, file):
        self.path, self.file = path, file
        self.is_provers = file.stem in PROVERS and "proofs" in path.split(".")
        self.imports, self.passed_on = imports_of(text, "(?:pub )?"), imports_of(text, "pub ")
        self.named, self.parts = {}, {}
        self.read(text)
        self.others = words_of(" ".join(re.findall(r"pub use \w+\..*\{(.*)\}", text)))
        self.paths = by_word(self.imports | {name: one.path for name, one in self.named.items()})

    def read(self, text):
        """Finds the definitions. One begins in the first column, or in that of the text of a `module _`; its clauses begin with its name."""
        columns, heads, head, now, comment = [0], [[]], None, None, 0
        for line in text.split("\n"):
            code = re.sub(r"(?:^|\s)--.*", "", line).rstrip()
            if not code:
                comment = comment + 1 if line.strip() else 0
                continue
            column, first = len(code) - len(code.lstrip()), code.split()[0]
            if head is None and columns[-1] is None:
                columns[-1] = column
            while head is None and column < columns[-1]:
                columns.pop()
                heads.pop()
            if head is not None or first == "module":
                head = (head or []) + [code]
                if code.endswith(" where"):
                    columns.append(None)
                    heads.append(head)
                    head = None
                now, comment = None, 0
                continue
            if column == columns[-1] and NO_NAME.match(code.strip()):
                now = None
            elif column == columns[-1] and first[0] not in ")]}(" and first != "unfolding":
                name = HEAD.match(code.strip())[1]
                if now is None or now.path != f"{self.path}.{name}":
                    now = self.named.setdefault(name, Named(f"{self.path}.{name}"))
                    now.size += comment
                    now.words |= words_of(" ".join(line for lines in heads for line in lines))
            if now:
                now.size += 1
                now.words |= words_of(code)
                if match := re.match(r"\s+(?:pub )?(\S+) :", code):
                    self.parts[match[1]] = now
            comment = 0


class Modules:
    """All files of specs/ and proofs/."""

    def __init__(self):
        self.all = {}
        for kind in ("specs", "proofs"):
            for file in sorted((TOP / "crates").glob(f"*/{kind}/**/*.antt")):
                inner = file.relative_to(TOP / "crates").with_suffix("").parts
                module = Module(".".join(("Rattle", *inner)).removesuffix(".Lib"), file.read_text(), file)
                self.all[module.path] = module

    def split(self, path):
        """The file that a path leads into, and the names behind it."""
        words = path.split(".")
        for end in range(len(words), 2, -1):
            if module := self.all.get(".".join(words[:end])):
                return module, words[end:]
        return None, []

    def find(self, path):
        """The definition that a path leads to, or None: one of others, or that the checker makes, or a whole file."""
        module, rest = self.split(path)
        if not rest:
            return None
        if rest[0] in module.passed_on and rest[0] not in module.named:
            return self.find(".".join([module.passed_on[rest[0]], *rest[1:]]))
        return module.named.get(rest[0]) or module.parts.get(rest[0])

    def unread(self):
        """Imports of a name that its file has, as far as is read here, neither itself nor by another file."""
        for path in sorted({path for module in self.all.values() for path in module.imports.values()}):
            module, rest = self.split(path)
            if rest and module.named and rest[0] not in {*module.named, *module.passed_on, *module.parts, *module.others}:
                yield path

    def cited(self, words, paths):
        """The definitions that words of a text name. Paths tell what the words stand for that it has from its imports, or of its own."""
        for word in words:
            first, _, rest = word.partition(".")
            if path := paths.get(first, first if first == "Rattle" and rest else None):
                if found := self.find(f"{path}.{rest}" if rest else path):
                    yield found

    def unused(self, texts):
        """The definitions that nothing needs: neither texts that stand outside of specs/ and proofs/ (each a pair of its words and the
        paths that these stand for), nor files which the prover looks up, nor a definition that one of these needs."""
        found = {one.path: one for words, paths in texts for one in self.cited(words, paths)}
        homes = {one.path: module for module in self.all.values() for one in module.named.values()}
        for module in self.all.values():
            if module.is_provers:
                for one in module.named.values():
                    found[one.path] = one
        left = list(found.values())
        while left:
            one = left.pop()
            module = homes[one.path]
            for other in self.cited(one.words, module.paths):
                if other.path not in found:
                    found[other.path] = other
                    left.append(other)
        return [one for module in self.all.values() for one in module.named.values() if one.path not in found]
