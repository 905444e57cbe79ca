#!/usr/bin/env python3
"""Runs bump_replay through samples of logs, and compares each with its run through a log that has the sampled keys alone.

    checks/lib/replay_samples.py PROGRAM          status 1 where something is otherwise; what is so is told
"""
import json
import subprocess
import sys
import tempfile
from pathlib import Path

LOGS = Path(__file__).resolve().parent.parent.parent / "examples/logs"
SPREAD, WORD = 0x9E3779B97F4A7C15, (1 << 64) - 1
EVERY = 64


def is_sampled(number, every):
    spread = (number + 1) * SPREAD & WORD
    spread = ((spread ^ spread >> 29) * SPREAD & WORD) >> 32
    return spread % every == 0


def run(program, *words):
    done = subprocess.run([program, *map(str, words), "--json"], capture_output=True, check=True, text=True)
    return json.loads(done.stdout), done.stderr


def lean(accesses, all_accesses, keys, all_keys):
    """By how many hundredths of a percent, to the nearest one, a sample has more or fewer accesses than its share."""
    share = all_accesses * keys
    return (abs(accesses * all_keys - share) * 20_000 + share) // (2 * share)


def faults_of(program, log, every, folder):
    """What differs between a sample of a log and the log of its keys."""
    keys = log.read_text().split("\n")[:-1]
    numbers = {}
    for key in keys:
        numbers.setdefault(key, len(numbers))
    few = [key for key in keys if is_sampled(numbers[key], every)]
    sampled = {key for key in numbers if is_sampled(numbers[key], every)}
    (folder / "few.log").write_text("".join(f"{key}\n" for key in few))
    items = 300
    compared = ["--compare", "lru,fifo,clock,sieve"]
    all_run, said = run(program, log, "--items", items, "--sample", every, *compared)
    few_run, _ = run(program, folder / "few.log", "--items", max(items // every, 1), "--drain-every", max(EVERY // every, 1), *compared)
    row, beside = all_run["sizes"][0], few_run["sizes"][0]
    wanted = {"accesses": len(keys), "keys": len(numbers), "sampled_accesses": len(few), "sampled_keys": len(sampled)}
    faults = [f"{name} is {all_run[name]}, not {count}" for name, count in wanted.items() if all_run[name] != count]
    if row["items"] != items:
        faults.append(f"it tells {row['items']} items")
    faults += [f"{name}: {row[name]}, not {beside[name]}" for name in ("bump", "flow", "bumps", "lru", "fifo", "clock", "sieve") if row[name] != beside[name]]
    apart = lean(len(few), len(keys), len(sampled), len(numbers))
    if f"a sample of {len(sampled)} of {len(numbers)} keys has {len(few)} of {len(keys)} accesses, which is its share but for {apart // 100}.{apart % 100:02} %" not in said:
        faults.append(f"it says {said}")
    return faults


def main():
    program, tried, failed = sys.argv[1], 0, 0
    with tempfile.TemporaryDirectory() as folder:
        for log in (LOGS / "zipf.log", LOGS / "scan.log", LOGS / "shift.log"):
            for every in (2, 3, 10):
                tried += 1
                faults = faults_of(program, log, every, Path(folder))
                failed += bool(faults)
                for fault in faults:
                    print(f"checks/lib/replay_samples.py: {log.name}, one key in {every}: {fault}", file=sys.stderr)
        tried += 1
        whole, one = (run(program, LOGS / "zipf.log", "--items", 100, *words)[0] for words in ((), ("--sample", 1)))
        if whole != one:
            failed += 1
            print("checks/lib/replay_samples.py: a sample of all keys differs from the log", file=sys.stderr)
    print(f"samples: {tried} checked, {failed} failed")
    sys.exit(failed != 0)


if __name__ == "__main__":
    main()
