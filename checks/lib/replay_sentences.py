#!/usr/bin/env python3
"""Compares the sentences at the end of bump_replay's tables, and the percents in them, with those that the tables' own misses make.

    checks/lib/replay_sentences.py PROGRAM          status 1 where one is otherwise; what is so is told
"""
import re
import subprocess
import sys
import tempfile
from fractions import Fraction
from pathlib import Path

LOGS = Path(__file__).resolve().parent.parent.parent / "examples/logs"
NAMES = {"lru": "LRU", "fifo": "FIFO", "clock": "CLOCK", "sieve": "SIEVE", "s3fifo": "S3-FIFO"}


def percent(count, others):
    """So many of others in percent, to the nearest hundredth, a half upwards."""
    hundredths = (Fraction(10000 * count, max(1, others)) + Fraction(1, 2)).__floor__()
    return f"{hundredths // 100}.{hundredths % 100:02}"


def beside(misses, others):
    """By how many percent of others' misses there are more or less."""
    if misses == others:
        return "as often"
    return f"{percent(abs(misses - others), others)} % {'less' if misses < others else 'more'}"


def other_percents(table):
    """The lines whose percents aren't those of their misses."""
    for line in table.split("\n\n")[0].splitlines()[1:]:
        *_, accesses, _, misses, told = line.split()
        if told != percent(int(misses), int(accesses)):
            yield line


def sentences_of(table, ages):
    """The sentences for the rows of a table's first part, where rows of one size and class stand together, the cache's first."""
    head, *lines = table.split("\n\n")[0].splitlines()
    sized = []
    for line in lines:
        *place, policy, _, _, misses, _ = line.split()
        # each row of the cache begins another size, also where it is asked for twice
        if policy == "bump":
            sized.append((place, {}))
        sized[-1][1][policy] = int(misses)
    for place, misses in sized:
        bump, others = misses.pop("bump"), [name for name in NAMES if name in misses]
        base = "lru" if "lru" in others else others[0] if others else None
        if base is None or misses[base] == 0:
            continue
        text = beside(bump, misses[base])
        where = f"at {place[-1]} items" + (f" of at most {place[-2]} bytes" if "of, bytes" in head else "")
        parts = [f"bump, {ages}, misses {text} {'as' if text == 'as often' else 'than'} {NAMES[base]} {where}"]
        parts += [f"{NAMES[name]} {beside(misses[name], misses[base])}" for name in others if name != base]
        yield "; ".join(parts) + "."


def tries(policies, folder):
    """The words of runs, and the ages that they say."""
    memcached = "by memcached's rule with ages"
    for log in ("zipf", "scan", "shift", "pages"):
        yield [LOGS / f"{log}.log", "--items", "30,100,300,1000", "--compare", ",".join(policies)], memcached
    yield [LOGS / "shift.log", "--items", "300,30", "--compare", ",".join(reversed(policies)), "--no-ages"], "without ages"
    yield [LOGS / "shift.log", "--items", "300,300", "--compare", "fifo", "--ages", "30,100"], "with ages of 30 % and 100 %"
    yield [LOGS / "zipf.log", "--items", "1", "--compare", "lru"], memcached
    yield [LOGS / "zipf.log", "--items", "999998", "--compare", "fifo,lru"], memcached
    yield [LOGS / "zipf.log", "--items", "300"], memcached
    empty, sized = Path(folder) / "empty.log", Path(folder) / "sized.log"
    empty.write_text("")
    sized.write_text("".join(f"k{place * place % 37},{place * place % 37 * 10}\n" for place in range(300)))
    yield [empty, "--items", "3", "--compare", "lru"], memcached
    yield [sized, "--items", "3,9", "--format", "csv", "--sizes", "2", "--classes", "100,400", "--compare", "lru,fifo"], memcached


def main():
    program, looked, failed = str(Path(sys.argv[1]).resolve()), 0, 0
    told = subprocess.run([program, "--help"], capture_output=True, text=True, check=True).stdout
    policies = re.search(r"--compare .*?\[possible values: (.*?)\]", told, re.S)[1].replace(" ", "").split(",")
    with tempfile.TemporaryDirectory() as folder:
        for words, ages in tries(policies, folder):
            looked += 1
            table = subprocess.run([program, *words], capture_output=True, text=True, check=True).stdout
            wanted = list(sentences_of(table, ages))
            printed = [line for line in table.splitlines() if line.startswith("bump, ")]
            faults = list(other_percents(table))
            if faults:
                failed += 1
                print(f"checks/lib/replay_sentences.py: {words}: other percents: {faults}", file=sys.stderr)
            if printed != wanted or (wanted and not table.endswith("\n\n" + "\n".join(wanted) + "\n")):
                failed += 1
                print(f"checks/lib/replay_sentences.py: {words}: {printed}, not {wanted}", file=sys.stderr)
    print(f"checks/lib/replay_sentences.py: {looked} tables looked at, {failed} faults")
    sys.exit(1 if failed else 0)


main()
