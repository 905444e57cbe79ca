#!/usr/bin/env python3
"""Tries bump_replay's words: each option that its help lists with words that it can't take, and in JSON what files of odd names,
options, faults of a log and hits by kind are told as.

    checks/lib/replay_words.py PROGRAM          status 1 where something is otherwise; what is so is told
"""
import json
import os
import re
import subprocess
import sys
import tempfile
from pathlib import Path

LOGS = Path(__file__).resolve().parent.parent.parent / "examples/logs"
# No option of a number takes one of these.
NO_NUMBERS = ["x", "-1", "1.5", "", " ", "1 ", "0x10", "18446744073709551616", "٣"]
ODD_NAMES = ['quote".log', "back\\slash.log", "line\nfeed.log", "return\r.log", "tab\t.log", "bell\a.log", "\x01\x1f\x7f.log",
             "ümlaut.log", "log \U0001f600.log", "a'b`c$d.log", "<script>.log", "{}.log", " .log", "\u2028.log", "-n.log"]


class Tries:
    def __init__(self, program, folder):
        self.program, self.folder, self.tried, self.faults = program, folder, 0, 0
        self.one = self.write("one.log", b"k\nk\nl\n")

    def write(self, name, text):
        path = self.folder / name
        path.write_bytes(text)
        return str(path)

    def run(self, *words):
        self.tried += 1
        done = subprocess.run([self.program, *words], capture_output=True, stdin=subprocess.DEVNULL, timeout=600)
        return done.returncode, done.stdout, done.stderr

    def wants(self, is_so, *what):
        if not is_so:
            self.faults += 1
            print("checks/lib/replay_words.py:", *what, file=sys.stderr)

    def refuses(self, *words):
        """The words are refused: status 2, a reason, and nothing else is printed."""
        status, out, err = self.run(*words)
        self.wants(status == 2 and not out and err, f"{words}: status {status}, said {err[-200:]!r}, printed {out[:60]!r}")

    def json_of(self, *words):
        status, out, err = self.run(*words, "--json")
        try:
            lines = [json.loads(line) for line in out.decode().removesuffix("\n").split("\n")]
        except ValueError as error:
            lines = []
            self.wants(False, f"{words}: no JSON: {error}: {out[:200]!r}")
        self.wants(status == 0 and lines, f"{words}: status {status}: {err!r}")
        return lines, err.decode()


def options_of(tries):
    """The options that the help lists: names, each with the name of its value, or None, and the words that it takes, if they are listed."""
    _, told, _ = tries.run("--help")
    found = re.findall(r"^ +(?:-\w, )?--([\w-]+)(?: <(\S+)>)?(?:\.\.\.)?(.*(?:\n {8,}[^\s-].*)*)$", told.decode(), re.M)
    tries.wants(len(found) > 15, f"the help lists {len(found)} options only")
    listed = {}
    for name, value, text in found:
        words = re.search(r"\[possible values: (.*?)\]", text, re.S)
        listed[name] = (value or None, [word.strip() for word in words[1].split(",")] if words else None)
    return listed


def try_bad_words(tries, listed):
    base = [tries.one, "--items", "1"]
    for name, (value, choices) in listed.items():
        option = f"--{name}"
        if value is None:
            for word in ("x", "", "1"):
                tries.refuses(*base, f"{option}={word}")
            continue
        # the option's value is missing
        tries.refuses(*base, option)
        if choices:
            for word in ("none", "", choices[0] + "x", choices[0].upper(), choices[0] + ",none", f" {choices[0]}"):
                tries.refuses(*base, option, word)
        elif value != "FILE" and name not in ("items", "bytes"):
            for word in NO_NUMBERS:
                tries.refuses(*base, f"{option}={word}")
    for word in [*NO_NUMBERS, "1,x", "1,,2", ",1", "1,", "1;2"]:
        tries.refuses(tries.one, f"--items={word}")
        if "bytes" in listed:
            sized = tries.write("sized.log", b"k,1\n")
            tries.refuses(sized, f"--bytes={word}", "--format", "csv", "--sizes", "2", "--classes", "10")
    for words in (["--none"], ["--item", "1"], ["-x"], ["--items", "1"], ["--json", "--json"], ["--full"]):
        tries.refuses(*base, *words)
    tries.refuses()
    tries.refuses("--items", "1")
    tries.refuses(tries.one)


def try_other_faults(tries):
    """What is a word but can't be followed: status 1, and the reason."""
    for words in ([tries.one, "--items", "1", "--svg", str(tries.folder / "none/x.svg")],
                  [tries.one, "--items", "1", "--trace", str(tries.folder / "none/x.trace")],
                  [tries.one, "--items", "1", "--svg", str(tries.folder)], [str(tries.folder), "--items", "1"],
                  [tries.one, "--items", "128000001"], [tries.one, "--items", "4294967295"],
                  [tries.one, "--items", "1", "--spare", "4294967295"], [tries.one, "--items", "1", "--hot", "4294967295"],
                  [os.fsencode(tries.one) + b"\xff", "--items", "1"], [b"--\xff"]):
        status, _, err = tries.run(*words)
        tries.wants(status == 1 and err, f"{words}: status {status}, said {err[-200:]!r}")


def try_names(tries):
    for name in ODD_NAMES:
        file = tries.write(name, b"k\nk\n")
        lines, _ = tries.json_of(file, "--items", "1")
        for run in lines:
            tries.wants(run["file"] == file and run["sizes"][0]["bump"] == {"hits": 1, "misses": 1}, f"{name!r}: JSON has {run}")
        picture = tries.folder / f"{name}.svg"
        lines, _ = tries.json_of(file, "--items", "1", "--svg", str(picture))
        for run in lines:
            tries.wants(run["options"]["svg"] == str(picture) and picture.exists(), f"{name!r}: JSON's picture is {run['options']}")
    lines, _ = tries.json_of(tries.one, str(LOGS / "zipf.log"), "--items", "1,2")
    tries.wants([line["file"] for line in lines] == [tries.one, str(LOGS / "zipf.log")], "JSON has other files")


def try_options_told(tries, listed):
    """Each option that the help lists is in JSON under its word, with what it was given."""
    base = [tries.one, "--items", "3"]
    run = tries.json_of(*base)[0][0]
    names = set(listed) - {"help", "version"}
    tries.wants(names == set(run["options"]), f"options in JSON or in the help alone: {names ^ set(run['options'])}")
    for word, value in (("hot", 7), ("warm", 8), ("spare", 9), ("workers", 3), ("ring", 11), ("parts", 2), ("drain-every", 13)):
        told = tries.json_of(*base, f"--{word}", str(value))[0][0]["options"]
        tries.wants(told[word] == value, f"--{word} {value}: JSON has {told[word]}")
        tries.wants({**told, word: 0} == {**run["options"], word: 0}, f"--{word} changes other options in JSON: {told}")
    for words, wanted in ((["--no-ages"], {"no-ages": True}), (["--strict"], {"strict": True}),
                          (["--compare", "fifo,lru"], {"compare": ["lru", "fifo"]}),
                          (["--sample", "3"], {"sample": 3, "drain-every": 21}),
                          (["--format", "csv", "--key", "1", "--sizes", "2", "--header", "--classes", "5,6"],
                           {"format": "csv", "key": 1, "sizes": 2, "time": None, "header": True, "classes": [5, 6]}),
                          (["--format", "csv", "--key", "k", "--time", "1", "--tend-every", "9"],
                           {"format": "csv", "key": "k", "time": 1, "tend-every": 9, "drain-every": None}),
                          (["--format", "twitter"], {"format": "twitter", "key": 2, "sizes": 4, "time": 1, "op": 6, "ttl": 7}),
                          (["--format", "libcachesim"], {"format": "libcachesim", "key": 5, "sizes": 4, "time": 2, "op": None, "ttl": None}),
                          (["--format", "csv", "--time", "1", "--op", "k", "--ttl", "3"], {"op": "k", "ttl": 3, "key": 1})):
        told = tries.json_of(*base, *words)[0][0]["options"]
        tries.wants(all(told[name] == value for name, value in wanted.items()), f"{words}: JSON has {told}")


def try_faults_told(tries):
    """What can't be read, and what is too large, is in JSON as standard error says it."""
    log = tries.write("faults.log", b"key,size\nk,10\nl,20\nm,x\nk,10\nn,5000\nn,1\no\n")
    words = [log, "--items", "5", "--format", "csv", "--sizes", "2", "--classes", "100", "--header"]
    lines, err = tries.json_of(*words)
    run = lines[0]
    tries.wants((run["accesses"], run["keys"], run["unreadable"], run["too_large"]) == (5, 3, 2, 2), f"faults: JSON has {run}")
    tries.wants(run["first_unreadable"]["number"] == 4 and "4" in err, f"faults: JSON has {run['first_unreadable']}, said {err!r}")
    run = tries.json_of(tries.one, "--items", "1")[0][0]
    tries.wants((run["unreadable"], run["first_unreadable"], run["too_large"]) == (0, None, 0), f"JSON has {run}")


def try_hits_told(tries):
    """The hits by kind add up to all; with a trace they are those that the table tells."""
    for log, words in (("zipf", ["--ring", "16"]), ("shift", ["--ring", "1", "--drain-every", "500"]), ("scan", ["--ring", "16", "--no-ages"])):
        file, trace = str(LOGS / f"{log}.log"), str(tries.folder / "run.trace")
        plain = tries.json_of(file, "--items", "300", *words)[0][0]["sizes"][0]
        traced = tries.json_of(file, "--items", "300", *words, "--trace", trace)[0][0]["sizes"][0]
        table = tries.run(file, "--items", "300", *words, "--trace", trace)[1].decode().split("hits, as the trace has them:\n")[1]
        told = {name.strip(): int(count) for name, count in re.findall(r"^  (\S.*?) +(\d+)$", table, re.M)}
        kinds, known = traced["hits_by_kind"], plain["hits_by_kind"]
        named = {name.replace("_", " "): count for name, count in kinds.items()}
        tries.wants(all(named[name] == count for name, count in told.items()) and len(told) == 6, f"{log}: {kinds}, the table {told}")
        tries.wants(kinds["first"] + kinds["marked"] + kinds["already"] == kinds["without_bump"], f"{log}: JSON has {kinds}")
        for one in (kinds, known):
            count = sum(one[name] for name in ("without_bump", "queued", "dropped_full", "dropped_refs", "dropped_busy"))
            tries.wants(count == plain["bump"]["hits"], f"{log}: hits by kind are {one}, all are {plain['bump']['hits']}")
        tries.wants({**kinds, "first": None, "marked": None, "already": None} == known, f"{log}: without a trace JSON has {known}")


def main():
    with tempfile.TemporaryDirectory() as folder:
        tries = Tries(str(Path(sys.argv[1]).resolve()), Path(folder))
        listed = options_of(tries)
        try_bad_words(tries, listed)
        try_other_faults(tries)
        try_names(tries)
        try_options_told(tries, listed)
        try_faults_told(tries)
        try_hits_told(tries)
    print(f"checks/lib/replay_words.py: {tries.tried} tried, {tries.faults} faults")
    sys.exit(1 if tries.faults else 0)


main()
