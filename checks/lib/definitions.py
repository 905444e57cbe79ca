"""Reads the definitions in `specs/`: records, and functions that give a type; and finds what a proof may choose in them.

A definition is cited by a clause, or by another one. Of a record that says something each field that is data is a part that is
only said to be there; so is `(x : T) × ..`, and left of an arrow `(x : T) → ..`."""
import re
from dataclasses import dataclass, field
from functools import lru_cache

from sources import TOP

TOKEN = re.compile(r"--.*|[(){}]|\[\]|(?:◌[^\s◌]+)+◌?|[^\W\d][\w'?!]*(?:\.\w+)*|\d[\w.]*|∷|[^\s\w(){}]+")
# Signs that say something of values, and words of the library that are types of values.
SAYS = {"≡", "≢", "≤", "<", "⊎", "↔", "≥", ">"}
VALUES = {"ℕ", "ℤ", "List", "Option", "Result", "Bool", "MutBor", "Ptr", "GName", "Global", "TableId", "Char", "String", "RattleType", "Vec", "HProp"}
# Paths to definitions of the repository that weren't found there: this file can't read them.
UNREAD = set()


@dataclass
class Definition:
    """One definition: its crate, file and name; the parts of a record, or the bodies of a function that gives a type."""

    crate: str
    file: str
    name: str
    is_record: bool
    parameters: list = field(default_factory=list)
    result: list = field(default_factory=list)
    parts: list = field(default_factory=list)
    bodies: list = field(default_factory=list)


def tree(text):
    """The words of a text; what stands in brackets is a list, which begins with the bracket."""
    stack = [[]]
    for word in TOKEN.findall(text):
        if word.startswith("--"):
            continue
        if word in "({":
            stack.append([word])
        elif word in ")}":
            done = stack.pop()
            stack[-1].append(done)
        else:
            stack[-1].append(word)
    return stack[0]


def text_of(words):
    """A tree as a text again."""
    shown = " ".join(word if isinstance(word, str) else word[0] + text_of(word[1:]) + {"(": ")", "{": "}"}[word[0]] for word in words)
    return shown.replace(" .", ".")


def cut(words, *signs):
    """The parts of a tree between signs."""
    parts = [[]]
    for word in words:
        if isinstance(word, str) and word in signs:
            parts.append([])
        else:
            parts[-1].append(word)
    return parts


def binder(word):
    """The names and the type of `(x y : T)`, or None."""
    if isinstance(word, list) and ":" in word:
        at = word.index(":")
        if at > 1 and all(isinstance(name, str) for name in word[1:at]):
            return word[1:at], word[at + 1:]
    return None


def imports_of(text, lead):
    """What a file's imports name: by each name the path of what it stands for."""
    found = {}
    for path, listed, also in re.findall(rf"^\s*{lead}use (Rattle[\w.]+?)(?:\.\{{([^}}]*)\}})?(?: as (\w+))?;?$", text, re.M):
        if listed:
            for one in listed.split(","):
                name, _, other = one.strip().partition(" as ")
                found[other or name] = f"{path}.{name}"
        else:
            found[also or path.split(".")[-1]] = path
    return found


def definitions_in(crate, name, text):
    """The definitions of a file that are records or give a type."""
    found = {}
    for piece in re.split(r"\n(?=(?:pub |abbrev |unfoldable |record |use |module )|\s+(?:abbrev |pub record |unfoldable ))", "\n" + text):
        lines = [line for line in piece.split("\n") if not line.strip().startswith("--")]
        piece = "\n".join(lines).strip("\n")
        if match := re.match(r"\s*(?:pub )?data (\w+) : Type", piece):
            # Its variants are values, too. One that says something of values isn't read.
            for one in (match[1], *re.findall(r"^\s+(\w+) :", piece, re.M)):
                found[one] = Definition(crate, name, one, True)
        head = re.match(r"\s*(pub record|record|abbrev pub|abbrev|unfoldable pub|pub) (\w+)", piece)
        if not head or head[2] in ("mod", "use", "data"):
            continue
        if "record" in head[1]:
            front, _, fields = piece.partition(" where\n") if " where\n" in piece else piece.partition("\n  where\n")
            one = Definition(crate, name, head[2], True, [word for word in tree(front[head.end():].rpartition(":")[0]) if binder(word)])
            for part in re.split(r"\n(?=\s*(?:pub )?\w+ : )", "\n" + fields):
                if match := re.match(r"\s*(?:pub )?(\w+) : (.*)", part, re.S):
                    one.parts.append((match[1], tree(match[2])))
        else:
            clauses = re.split(rf"\n(?=\s*{head[2]}\b)", piece)
            one = Definition(crate, name, head[2], False)
            one.result = cut(tree(clauses[0].partition(":")[2]), "→")[-1]
            one.bodies = [words[words.index("=") + 1:] for words in map(tree, clauses[1:]) if "=" in words]
        found[head[2]] = one
    return found


@lru_cache(maxsize=None)
def file_of(crate, name):
    """The definitions of a file of specs/, and its imports; None where there is no such file."""
    path = TOP / "crates" / crate / "specs" / f"{name}.antt"
    if not path.is_file():
        return None
    text = path.read_text()
    return definitions_in(crate, name, text), imports_of(text, "(?:pub )?")


def found_at(path):
    """The definition at a path, as Rattle.CRATE.specs.FILE.NAME."""
    words = path.split(".")
    if len(words) != 5 or words[2] != "specs" or not file_of(words[1], words[3]):
        return None
    own, imports = file_of(words[1], words[3])
    if words[4] not in own and words[4] not in imports:
        UNREAD.add(path)
    return own.get(words[4]) or (found_at(imports[words[4]]) if words[4] in imports else None)


class Scope:
    """What names stand for in one file."""

    def __init__(self, imports, own=None):
        self.imports, self.own = imports, own or {}

    def find(self, word):
        """The definition of a name, or None."""
        if word in self.own:
            return self.own[word]
        first, _, rest = word.partition(".")
        path = self.imports.get(first)
        return found_at(f"{path}.{rest}" if rest else path) if path else None

    def gives_type(self, one):
        """Whether a definition is a type, or gives one: also by a name for functions that do, as `Behind`."""
        if one.is_record or "Fml" in one.result or one.result[-2:-1] == ["Type"]:
            return True
        named = self.find(one.result[0]) if one.result and isinstance(one.result[0], str) else None
        return bool(named and named is not one and named.bodies and cut(named.bodies[0], "→")[-1][-2:-1] == ["Type"])

    def is_value(self, words, seen=()):
        """Whether a type is one of values, and says nothing of any."""
        words = cut(words, "→")[-1]
        if len(words) == 1 and isinstance(words[0], list):
            return self.is_value(words[0][1:], seen)
        if any(isinstance(word, str) and word in SAYS for word in words):
            return False
        if "×" in words:
            return all(not (len(part) == 1 and binder(part[0])) and self.is_value(part, seen) for part in cut(words, "×"))
        if not words or isinstance(words[0], list) or words[0] == "λ":
            return False
        name = words[0]
        if name == "Type" or self.imports.get(name, name).rpartition(".")[2] in VALUES:
            return True
        one = self.find(name)
        if one in seen:
            return False
        if one:
            inner = scope_of(one)
            if one.is_record:
                return all(inner.is_value(binder(word)[1]) and binder(word)[1][:1] in (["Type"], ["RattleType"]) for word in one.parameters)
            return bool(one.bodies) and all(inner.is_value(body, (*seen, one)) for body in one.bodies)
        path = self.imports.get(name.partition(".")[0], "")
        if ".declared." in path or ".src." in path:
            return True
        return not path and name[0].isupper() and len(words) == 1


def scope_of(one):
    """The scope of a definition's file."""
    own, imports = file_of(one.crate, one.file)
    return Scope(imports, own)


class Walk:
    """Goes through a clause and all that it cites, and notes each part that is only said to be there."""

    def __init__(self, note):
        self.note, self.seen = note, set()

    def say(self, words, for_it, scope, place):
        """Reads what is said. `for_it` is false left of an arrow, where a proof is given the parts."""
        if "λ" in words:
            at = words.index("λ")
            if "." in words[at:]:
                self.say(words[at:][words[at:].index(".") + 1:], for_it, scope, place)
            words = words[:at]
        if "let" in words and "in" in words:
            at = len(words) - 1 - words[::-1].index("in")
            return self.say(words[at + 1:], for_it, scope, place)
        if any(word in words for word in ("if", "then", "else")):
            for part in cut(words, "if", "then", "else"):
                self.say(part, for_it, scope, place)
            return None
        *premises, last = cut(words, "→")
        for premise in premises:
            bound = [binder(word) for word in premise]
            for names, kind in (one for one in bound if one and all(bound)):
                self.bind(names, kind, not for_it, scope, place)
            if not all(bound):
                self.say(premise, not for_it, scope, place)
        if "↔" in last:
            for side in cut(last, "↔"):
                self.say(side, True, scope, place)
                self.say(side, False, scope, place)
            return None
        for part in cut(last, "⊎", "×"):
            if len(part) == 1 and binder(part[0]):
                self.bind(*binder(part[0]), for_it, scope, place)
            else:
                self.apply(part, for_it, scope, place)
        return None

    def bind(self, names, kind, listed, scope, place):
        """A variable: it's listed where a proof chooses it."""
        if not scope.is_value(kind):
            self.say(kind, listed, scope, place)
        elif listed:
            for name in names:
                self.note(place, name, text_of(kind))

    def apply(self, words, for_it, scope, place):
        """A word with its arguments: the definitions that it names."""
        for word in words:
            if isinstance(word, list):
                self.say(word[1:] if word[0] == "(" else [], for_it, scope, place)
            elif one := scope.find(word):
                self.cite(one, for_it)

    def cite(self, one, for_it):
        """Goes through a definition."""
        if (one.crate, one.file, one.name, for_it) in self.seen:
            return
        self.seen.add((one.crate, one.file, one.name, for_it))
        scope = scope_of(one)
        if not scope.gives_type(one):
            return
        place = (one.crate, one.name)
        if one.is_record:
            if scope.is_value([one.name]):
                return
            for name, kind in one.parts:
                self.bind([name], kind, for_it, scope, place) if scope.is_value(kind) else self.say(kind, for_it, scope, place)
        else:
            for body in one.bodies:
                if not scope.is_value(body):
                    self.say(body, for_it, scope, place)
