#!/usr/bin/env python3
"""Runs keys, one a line, through plain lists by the cache's rules, for one reader: what `bump_replay` has to count.

    checks/lib/aged_lists.py ITEMS HOT WARM HOT_AGE WARM_AGE RING EVERY [PARTS [TICKS [SPARE]]] < KEYS

HOT and WARM are percents of the items, HOT_AGE and WARM_AGE percents of the age of COLD, or - where ages don't count; EVERY is
after how many accesses the lists are tended; each of PARTS, 1 where it isn't given, has lists of its own. With TICKS a line is
an access's time, a comma, and its key, and the lists are tended when so many ticks have gone by; behind that may stand what is
asked for (get, set or delete; else nothing is) and after how many ticks what is put expires. TICKS may be -. A part has SPARE
spare chunks, 2 where that isn't given. It prints the hits, how many bumps waited at most behind a put, if only those that had
their turn applied some, and how often items went from list to list. Keys are numbered as they
first come, and the hash of its number tells a key's part.
"""
import sys
from collections import OrderedDict, deque

PUT_BUMPS, PUT_ROUNDS, TEND_ROUNDS, RESCUES = 16, 8, 100, 8

# bump_replay's seed, and what keyed_hash mixes with it.
FIRST, SECOND = 0x243F6A8885A308D3, 0x9E3779B97F4A7C15
START, MULTIPLIER, COUNT = 0xA0761D6478BD642F, 0xE7037ED1A0B428DB, 0x8EBC6AF09C88C6E3


def mix(a, b):
    product = a * b
    return product % 2**64 ^ product >> 64


def part_of(number, parts):
    """The part of a key's number, by the lower half of its full hash."""
    state = mix(FIRST ^ START ^ number, SECOND ^ MULTIPLIER)
    return mix(state, 1 ^ COUNT) % 2**32 * parts // 2**32


class Item:
    def __init__(self, key, now, expires):
        self.key, self.time, self.fetched, self.active, self.place = key, now, False, False, "hot"
        self.expires = expires

    def has_expired(self, now):
        return self.expires is not None and self.expires <= now


class Lists:
    """Each list is a dictionary of its items; the first that went in is its last item."""

    def __init__(self, items, spare, hot, warm, hot_age, warm_age, ring):
        self.items, self.ring, self.chunks, self.waiting = items, ring, items + spare, 0
        self.most = {"hot": items * hot // 100, "warm": items * warm // 100}
        self.percent = {"hot": hot_age, "warm": warm_age}
        self.lists = {place: OrderedDict() for place in ("hot", "warm", "cold")}
        self.of_key, self.bumps, self.puts, self.ways = {}, deque(), 0, {}

    def go(self, item, place):
        way = f"{item.place}_to_{place}"
        self.ways[way] = self.ways.get(way, 0) + 1
        del self.lists[item.place][item]
        self.lists[place][item] = None
        item.place, item.active = place, False

    def last(self, place):
        return next(iter(self.lists[place]), None)

    def drain(self, most, now):
        for _ in range(min(most, len(self.bumps))):
            item = self.bumps.popleft()
            if item.place is None:
                continue
            item.time = now
            if item.place == "cold" and item.active:
                self.go(item, "warm")

    def is_out_of_chunks(self):
        """Whether each chunk has an item, or a bump waits for the item that it had."""
        return len(self.of_key) + len({id(item) for item in self.bumps if item.place is None}) >= self.chunks

    def goes_on(self, place, age, now):
        item = self.last(place)
        if item is None:
            return False
        old = self.percent[place] is not None and now - item.time > age * self.percent[place] // 100
        if not (item.active or len(self.lists[place]) > self.most[place] or old):
            return False
        self.go(item, "warm" if item.active else "cold")
        return True

    def balance(self, rounds, now):
        cold = self.last("cold")
        age = now - cold.time if cold else 0
        for _ in range(rounds):
            # both are looked at in each round
            if not [place for place in ("hot", "warm") if self.goes_on(place, age, now)]:
                return

    def end(self, item):
        del self.lists[item.place][item]
        item.place = None

    def evict(self, now):
        for _ in range(RESCUES):
            item = self.last("cold")
            if item is None or not item.active or item.has_expired(now):
                break
            self.go(item, "warm")
        item = self.last("cold") or self.last("warm") or self.last("hot")
        if item.place != "cold":
            self.go(item, "warm" if item.active else "cold")
        self.ways[f"ended_{item.place}"] = self.ways.get(f"ended_{item.place}", 0) + 1
        self.end(item)
        del self.of_key[item.key]

    def get(self, key, now):
        item = self.of_key.get(key)
        if item is None or item.has_expired(now):
            return False
        if item.fetched and not item.active:
            item.active = True
            if item.place != "cold":
                item.time = now
            elif len(self.bumps) < self.ring:
                self.bumps.append(item)
                self.waiting += 1
            else:
                item.active = False
        item.fetched = True
        return True

    def remove(self, key):
        item = self.of_key.pop(key, None)
        if item is not None:
            self.end(item)

    def put(self, key, now, expires=None):
        self.puts += 1
        has_turn = self.puts % PUT_ROUNDS == 0
        if has_turn:
            self.drain(PUT_BUMPS, now)
            self.waiting -= min(PUT_BUMPS, self.waiting)
        if key not in self.of_key and len(self.of_key) >= self.items:
            if self.last("cold") in self.bumps:
                self.drain(self.ring, now)
            self.evict(now)
        if self.is_out_of_chunks():
            self.drain(self.ring, now)
        item = Item(key, now, expires)
        self.lists["hot"][item] = None
        self.remove(key)
        self.of_key[key] = item
        if has_turn:
            self.balance(PUT_ROUNDS, now)

    def tend(self, now):
        self.drain(self.ring, now)
        self.waiting = 0
        self.balance(TEND_ROUNDS, now)


def main():
    items, hot, warm = map(int, sys.argv[1:4])
    hot_age, warm_age = (None if word == "-" else int(word) for word in sys.argv[4:6])
    ring, every, parts = map(int, (*sys.argv[6:], 1)[:3])
    ticks = int(sys.argv[9]) if len(sys.argv) > 9 and sys.argv[9] != "-" else None
    shares = [items // parts + (part < items % parts) for part in range(parts)]
    # a part has as many spare chunks as `CacheConfig::new` gives it, unless it is said
    spare = int(sys.argv[10]) if len(sys.argv) > 10 else 2
    lists = [Lists(share, spare, hot, warm, hot_age, warm_age, ring) for share in shares]
    numbers, hits, waiting, ways, tended = {}, 0, 0, {}, 0
    for place, line in enumerate(line for line in sys.stdin if line.strip()):
        now, word, operation, ttl = place, line.rstrip("\r\n"), "get", 0
        if ticks is not None:
            time, word, operation, ttl = (word.split(",") + ["get", "0"])[:4]
            now = int(time)
        key = numbers.setdefault(word, len(numbers))
        part = lists[part_of(key, parts)]
        if operation == "get" and part.get(key, now):
            hits += 1
        elif operation in ("get", "set"):
            part.put(key, now, now + int(ttl) if int(ttl) else None)
            waiting = max(waiting, sum(each.waiting for each in lists))
        elif operation == "delete":
            part.remove(key)
        if place % every == 0 if ticks is None else place == 0 or now - tended >= ticks:
            tended = now
            for part in lists:
                part.tend(now)
    print("hits", hits)
    print("waiting", waiting)
    for part in lists:
        for way, count in part.ways.items():
            ways[way] = ways.get(way, 0) + count
    for way in sorted(ways):
        print(way, ways[way])


main()
