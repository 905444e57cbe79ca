#!/usr/bin/env python3
# Makes the access logs of this folder, a key in each line: the same ones each time.
#   examples/logs/make_logs.py       writes zipf.log, scan.log and shift.log beside itself
import bisect
import itertools
import os
import random

ACCESSES, KEYS = 10_000, 2_000
HERE = os.path.dirname(os.path.abspath(__file__))
SUMS = list(itertools.accumulate(1 / (rank + 1) for rank in range(KEYS)))


def zipf(numbers):
    """A key by Zipf's law: the key of rank r comes 1 / r as often as the first."""
    return bisect.bisect(SUMS, numbers.random() * SUMS[-1])


def zipf_log(numbers):
    """Keys by Zipf's law."""
    return [f"k{zipf(numbers)}" for _ in range(ACCESSES)]


def scan_log(numbers):
    """The same, and in its midst a scan: 3,000 keys, each of which comes once."""
    keys = zipf_log(numbers)
    middle = ACCESSES // 2
    return keys[:middle] + [f"s{place}" for place in range(3_000)] + keys[middle:]


def shift_log(numbers):
    """A working set that shifts: 300 keys, of which one goes and another comes at each twentieth access."""
    return [f"w{place // 20 + numbers.randrange(300)}" for place in range(ACCESSES)]


for name, make, seed in (("zipf", zipf_log, 1), ("scan", scan_log, 2), ("shift", shift_log, 3)):
    with open(os.path.join(HERE, name + ".log"), "w", encoding="ascii") as log:
        log.write("\n".join(make(random.Random(seed))) + "\n")
