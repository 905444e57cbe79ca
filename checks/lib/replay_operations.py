#!/usr/bin/env python3
"""Runs bump_replay through logs that say what is asked for, when, and when what is put expires, beside plain Python; and through
the same in other layouts.

    checks/lib/replay_operations.py PROGRAM          status 1 where something is otherwise; what is so is told
"""
import json
import random
import subprocess
import sys
import tempfile
from pathlib import Path

sys.dont_write_bytecode = True
from policies import POLICIES

MODEL = Path(__file__).resolve().parent / "aged_lists.py"
ITEMS, TICKS = 100, 30
WORDS = ["get"] * 12 + ["gets", "set", "set", "add", "replace", "cas", "append", "prepend", "delete", "delete", "incr", "GET", "touch"]
SETS, GETS = ("set", "add", "replace", "cas", "append", "prepend"), ("get", "gets")
COLUMNS = ["--format", "csv", "--time", "1", "--key", "2", "--op", "3", "--ttl", "4"]


def made(seed, count, keys):
    """Accesses: time, key, word and ttl of each."""
    chance, now, accesses = random.Random(seed), 100, []
    for _ in range(count):
        now += chance.choice((0, 1, 1, 2, 9))
        key = min(chance.randrange(keys), chance.randrange(keys))
        accesses.append((now, f"k{key}", chance.choice(WORDS), chance.choice((0, 0, 40, 300, 2000))))
    return accesses


def plain_hits(accesses, policy, items=ITEMS):
    """The hits of a plain policy, from which a key is removed that is deleted, or has expired when it is asked for or put again."""
    cache, ends, hits = POLICIES[policy](items), {}, 0
    for now, key, word, ttl in accesses:
        if word == "delete":
            cache.remove(key)
        if word not in (*GETS, *SETS):
            continue
        if 0 < ends.get(key, 0) <= now:
            cache.remove(key)
        was_there = cache.access(key)
        hits += word in GETS and was_there
        if word in SETS or not was_there:
            ends[key] = now + ttl if ttl else 0
    return hits


def real_lru_hits(accesses, items):
    """The hits of an LRU, said once more in its own words: a dict in the order of uses, and what has expired is looked for each time."""
    cache, hits = {}, 0
    for now, key, word, ttl in accesses:
        found = cache.pop(key, None) if word == "delete" or word in (*GETS, *SETS) else None
        live = found is not None and (found == 0 or now < found)
        if word in GETS:
            hits += live
            cache[key] = found if live else now + ttl if ttl else 0
        elif word in SETS:
            cache[key] = now + ttl if ttl else 0
        while len(cache) > items:
            del cache[next(iter(cache))]
    return hits


def model_hits(accesses):
    """The hits of the cache's rules, by plain lists."""
    known = {**dict.fromkeys(GETS, "get"), **dict.fromkeys(SETS, "set"), "delete": "delete"}
    text = "".join(f"{now},{key},{known.get(word, 'none')},{ttl}\n" for now, key, word, ttl in accesses)
    words = [sys.executable, MODEL, *map(str, (ITEMS, 20, 40, 20, 200, 8192, 1, 1, TICKS))]
    done = subprocess.run(words, input=text, capture_output=True, check=True, text=True)
    return int(done.stdout.split()[1])


class Tries:
    def __init__(self, program, folder):
        self.program, self.folder, self.tried, self.failed = program, folder, 0, 0

    def wants(self, what, told, wanted):
        self.tried += 1
        if told != wanted:
            self.failed += 1
            print(f"checks/lib/replay_operations.py: {what}: {told}, not {wanted}", file=sys.stderr)

    def run(self, lines, *words, items=ITEMS):
        log = self.folder / "asked.csv"
        log.write_text("".join(f"{','.join(map(str, line))}\n" for line in lines))
        # each bump that waits may hold a chunk: with so many spare ones each put finds room
        words = [self.program, log, "--items", items, "--spare", 2000, "--tend-every", TICKS, "--compare", ",".join(POLICIES), "--json", *words]
        done = subprocess.run([str(word) for word in words], capture_output=True, check=True, text=True)
        return json.loads(done.stdout)

    def follow(self, accesses):
        told = self.run(accesses, *COLUMNS)
        row, gets = told["sizes"][0], sum(word in GETS for _, _, word, _ in accesses)
        wanted = {"bump": model_hits(accesses), **{policy: plain_hits(accesses, policy) for policy in POLICIES}}
        for name, hits in wanted.items():
            self.wants(f"{name}'s hits", row[name], {"hits": hits, "misses": gets - hits})
        self.wants("a real LRU's hits", row["lru"]["hits"], real_lru_hits(accesses, ITEMS))
        self.wants("what is passed over", told["passed_over"], sum(word not in (*GETS, *SETS, "delete") for _, _, word, _ in accesses))
        twitter = self.run([(now, key, len(key), 7, "c", word, ttl) for now, key, word, ttl in accesses], "--format", "twitter")
        self.wants("Twitter's layout", twitter["sizes"], told["sizes"])
        gets_alone = [(now, key) for now, key, word, ttl in accesses if word in GETS]
        named = [("when", "which"), *gets_alone]
        by_name = self.run(named, "--format", "csv", "--time", "when", "--key", "which")
        example = self.run([(0, now, 0, 7, key) for now, key in gets_alone], "--format", "libcachesim")
        self.wants("libCacheSim's layout", example["sizes"], by_name["sizes"])


# A key that was deleted, or expired, and is put again takes one place: with two places the other key is still there. So many gets hit.
SMALL = (
    ([(1, "a", "set", 0), (2, "b", "set", 0), (3, "b", "delete", 0), (4, "b", "set", 0), (5, "a", "get", 0)], 1),
    ([(1, "a", "set", 0), (2, "b", "set", 2), (4, "b", "get", 0), (5, "a", "get", 0), (6, "b", "get", 0)], 2),
    ([(1, "a", "get", 0), (2, "b", "get", 5), (6, "b", "get", 0), (7, "b", "get", 0), (8, "a", "get", 0)], 2),
    ([(1, "a", "set", 0), (2, "c", "delete", 0), (3, "a", "get", 0), (4, "a", "delete", 0), (5, "a", "get", 0)], 1),
)


def main():
    with tempfile.TemporaryDirectory() as folder:
        tries = Tries(sys.argv[1], Path(folder))
        for seed, count, keys in ((1, 20000, 400), (2, 20000, 150), (3, 5000, 3000)):
            tries.follow(made(seed, count, keys))
        for accesses, hits in SMALL:
            row = tries.run(accesses, *COLUMNS, items=2)["sizes"][0]
            for policy in POLICIES:
                tries.wants(f"{policy}'s hits of a small log", row[policy]["hits"], hits)
    print(f"operations: {tries.tried} checked, {tries.failed} failed")
    sys.exit(tries.failed != 0)


if __name__ == "__main__":
    main()
