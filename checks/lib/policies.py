#!/usr/bin/env python3
"""Reads keys, one a line, and prints for each size that it is given the size, the accesses, and the hits of a cache by a policy.

    checks/lib/policies.py lru|fifo|clock|sieve|s3fifo SIZE.. < KEYS

Each class is a cache of so many items: `access` says whether a key was in it, and brings it in if not; `remove` takes a key out, which
may not be in it. A queue's oldest key stands first.
"""
import sys
from collections import OrderedDict


class Fifo:
    def __init__(self, size):
        self.size, self.queue = size, OrderedDict()

    def hit(self, key):
        """A hit moves nothing."""

    def access(self, key):
        if key in self.queue:
            self.hit(key)
            return True
        if len(self.queue) == self.size:
            self.evict()
        self.queue[key] = 0
        return False

    def evict(self):
        self.queue.popitem(last=False)

    def remove(self, key):
        self.queue.pop(key, None)


class Lru(Fifo):
    def hit(self, key):
        self.queue.move_to_end(key)


def evict_unused(queue):
    """The oldest key goes to the back with one use less, until one without uses goes for good."""
    while queue:
        key, uses = queue.popitem(last=False)
        if uses == 0:
            return
        queue[key] = uses - 1


class Clock(Fifo):
    """The values are the reference bits, and the hand is at the oldest key."""

    def hit(self, key):
        self.queue[key] = 1

    def evict(self):
        evict_unused(self.queue)


class Sieve:
    """One list from the tail to the head; the hand is a place in it, or the list's length, which stands for the tail again."""

    def __init__(self, size):
        self.size, self.queue, self.visited, self.hand = size, [], {}, 0

    def take(self, place):
        """The key at a place goes. A hand at it is at the next one towards the head; past the head it is at the tail again, also where a
        new key comes to the head first."""
        del self.visited[self.queue.pop(place)]
        self.hand -= place < self.hand
        self.hand = self.hand if self.hand < len(self.queue) else 0

    def access(self, key):
        if key in self.visited:
            self.visited[key] = True
            return True
        if len(self.queue) == self.size:
            while self.visited[self.queue[self.hand]]:
                self.visited[self.queue[self.hand]] = False
                self.hand = (self.hand + 1) % len(self.queue)
            self.take(self.hand)
        self.queue.append(key)
        self.visited[key] = False
        return False

    def remove(self, key):
        if key in self.visited:
            self.take(self.queue.index(key))


class S3Fifo:
    """The values are how often keys were asked for. Main evicts where it has more than its share of the items, or small is empty."""

    def __init__(self, size):
        self.size, self.share = size, size - max(1, size // 10)
        self.small, self.main, self.ghosts = OrderedDict(), OrderedDict(), OrderedDict()

    def evict_from_small(self):
        """The oldest keys go on to main, those that were asked for twice; the first other one goes for good, and is a ghost."""
        while self.small:
            key, uses = self.small.popitem(last=False)
            if uses < 2:
                self.ghosts[key] = None
                if len(self.ghosts) > self.share:
                    self.ghosts.popitem(last=False)
                return
            self.main[key] = 0

    def access(self, key):
        for queue in (self.small, self.main):
            if key in queue:
                queue[key] = min(queue[key] + 1, 3)
                return True
        comes_into = self.small
        if key in self.ghosts:
            del self.ghosts[key]
            comes_into = self.main
        while len(self.small) + len(self.main) >= self.size:
            if len(self.main) > self.share or not self.small:
                evict_unused(self.main)
            else:
                self.evict_from_small()
        comes_into[key] = 0
        return False

    def remove(self, key):
        """The key is no ghost for that, and a ghost stays one."""
        self.small.pop(key, None)
        self.main.pop(key, None)


POLICIES = {"lru": Lru, "fifo": Fifo, "clock": Clock, "sieve": Sieve, "s3fifo": S3Fifo}

if __name__ == "__main__":
    if len(sys.argv) < 2 or sys.argv[1] not in POLICIES:
        sys.exit(__doc__)
    keys = [line.rstrip("\r\n") for line in sys.stdin if line.strip()]
    for size in map(int, sys.argv[2:]):
        cache = POLICIES[sys.argv[1]](size)
        print(size, len(keys), sum(cache.access(key) for key in keys))
