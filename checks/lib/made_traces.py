"""Traces that are made up: of the whole language, with names and holds that are there."""
import re

from reports import run

MAINTENANCE = ["del", "pull", "sweep", "drain", "pull", "pull"]
BEHIND_PAR = ["get", "get", "get", "get", "get", "get"] + MAINTENANCE
LINES = BEHIND_PAR + ["set", "set", "set", "hold", "hit", "read", "drop", "close", "show", "moves", "pull"]


def line_of(word, state, chance):
    """A line with this first word, of names and numbers that mostly are there."""
    names, holds = state["names"], state["holds"]
    worker, klass = chance.randrange(state["workers"]), chance.randrange(state["classes"])
    name = chance.choice(names) if names else "a"
    hold = chance.choice(sorted(holds)) if holds else None
    if word == "set":
        name = f"n{chance.randrange(12)}"
        return f"{'temp' if chance.random() < 0.1 else 'set'} {name} {klass} {chance.randrange(2 ** 64)}"
    if word == "get":
        return f"get {worker} {name}" if names else None
    if word == "hold":
        free = [h for h in ("h", "i", "j", "k") if h not in holds]
        return f"hold {worker} {name} {chance.choice(free)}" if names and free else None
    if word == "hit":
        return f"hit {worker} {hold}" if hold else None
    if word in ("read", "drop"):
        return f"{word} {hold}" if hold else None
    if word == "del":
        return f"del {name}" if names else None
    if word == "pull":
        return f"pull {klass} {chance.choice(['hot', 'warm', 'cold', 'evict'])}"
    if word == "sweep":
        return f"sweep {klass}"
    if word == "close":
        return f"close {worker}" if chance.random() < 0.2 else None
    return word


def own(line, state):
    """The same `get` line, by the worker to whom its name belongs."""
    name = line.split()[2]
    return f"get {state['names'].index(name) % state['workers'] if name in state['names'] else 0} {name}"


def fault(chance):
    """A line that is most likely a fault."""
    return chance.choice(
        ["fly 0", "get 0", "set a 0 07", "set A 0 7", "temp a 64 7", "moves 0", "pull 0 tepid", "class 2 5 5", "get 64 a", "get 0 unbound", "pull 16 hot",
         "read unheld", "#" * 256, "show ", ""])


def ask(program, lines):
    """What a program says of the trace so far: the names that are bound, and the hold names in use, read off its text."""
    names, holds = set(), set()
    for line in lines:
        if match := re.match(r"(?:set|temp) (\w+) \d+\.", line):
            names.add(match.group(1))
        if match := re.match(r"hold \d+ \w+ (\w+) held", line):
            holds.add(match.group(1))
        if match := re.match(r"drop (\w+)", line):
            holds.discard(match.group(1))
    return sorted(names), holds


def make(program, chance, file):
    """A trace, made up in pieces: what a piece bound is read off the model's text before the next one is made. Behind `par` stand lines of all
    kinds, or those of maintenance alone, or `get` lines alone, of which each worker has names of its own."""
    workers, classes = chance.choice([1, 2, 4, 5, 8]), chance.choice([1, 2, 3, 4])
    state = {"workers": workers, "classes": classes, "names": [], "holds": set()}
    lines = [f"store {workers} {chance.choice([1, 2, 4, 16])} {chance.choice([2, 3, 8, 65535, 1048575])} {chance.choice([1, 4294967294])}"]
    lines += [f"class {chance.randrange(1, 6)} {chance.randrange(3)} {chance.randrange(3)}" for _ in range(classes)]
    words = LINES
    for piece in range(chance.randrange(1, 5)):
        for _ in range(chance.randrange(1, 50)):
            line = line_of(chance.choice(words), state, chance)
            if line is None or (line.startswith("drop") and line.split()[1] not in state["holds"]):
                continue
            lines.append(line)
            if line.startswith("drop"):
                state["holds"].discard(line.split()[1])
            if line.startswith("hold"):
                state["holds"] = state["holds"] - {line.split()[3]}
                break
        file.write_text("\n".join(lines) + "\n")
        _, text, _ = run(program, "model", file)
        state["names"], state["holds"] = ask(program, text.splitlines())
    if chance.random() < 0.5:
        lines.append("par")
        words = chance.choice([BEHIND_PAR, BEHIND_PAR, MAINTENANCE, ["get"]])
        for _ in range(chance.randrange(1, 60)):
            line = line_of(chance.choice(words), state, chance)
            if line is not None:
                lines.append(own(line, state) if words == ["get"] else line)
    else:
        lines.append("moves")
    if chance.random() < 1 / 6:
        lines.insert(chance.randrange(len(lines) + 1), fault(chance))
    file.write_text("\n".join(lines) + ("\n" if chance.random() < 0.98 else ""))
    return lines
