#!/usr/bin/env python3
"""pymemcache's calls (Debian: python3-pymemcache), and what memcached answers to them.

    clients.py PORT        status 1: an answer was another one; 3: pymemcache isn't there"""
import sys
import time

try:
    from pymemcache import serde
    from pymemcache.client.base import Client, PooledClient
    from pymemcache.client.hash import HashClient
except ImportError:
    sys.exit(3)

ADDRESS = ("127.0.0.1", int(sys.argv[1]))
wrong = []


def same(what, got, wanted):
    if got != wanted:
        wrong.append(f"{what}: {got!r}, not {wanted!r}")


def store(name, client):
    same(f"{name} set", client.set("a", b"1", noreply=False), True)
    same(f"{name} get", client.get("a"), b"1")
    same(f"{name} get of nothing", client.get("nothing"), None)
    same(f"{name} add", client.add("a", b"2", noreply=False), False)
    same(f"{name} add of a new one", client.add("b", b"2", noreply=False), True)
    same(f"{name} replace", client.replace("b", b"3", noreply=False), True)
    same(f"{name} replace of nothing", client.replace("nothing", b"3", noreply=False), False)
    same(f"{name} append", client.append("b", b"4", noreply=False), True)
    same(f"{name} prepend", client.prepend("b", b"2", noreply=False), True)
    same(f"{name} get behind them", client.get("b"), b"234")
    value, unique = client.gets("a")
    same(f"{name} gets", value, b"1")
    same(f"{name} cas", client.cas("a", b"9", unique, noreply=False), True)
    same(f"{name} cas again", client.cas("a", b"8", unique, noreply=False), False)
    same(f"{name} cas of nothing", client.cas("nothing", b"8", unique, noreply=False), None)


def many(name, client):
    same(f"{name} get_many", client.get_many(["a", "b", "c"]), {"a": b"9", "b": b"234"})
    same(f"{name} set_many", client.set_many({f"m{i}": str(i).encode() for i in range(100)}, noreply=False), [])
    same(f"{name} get_many of 100", len(client.get_many([f"m{i}" for i in range(100)])), 100)
    big = bytes(range(256)) * 3900
    client.set("big", big, noreply=False)
    same(f"{name} a large value", client.get("big") == big, True)


def change(name, client):
    client.set("n", b"10", noreply=False)
    same(f"{name} incr", client.incr("n", 5), 15)
    same(f"{name} decr", client.decr("n", 20), 0)
    same(f"{name} incr of nothing", client.incr("nothing", 1), None)
    same(f"{name} touch", client.touch("n", 100, noreply=False), True)
    same(f"{name} touch of nothing", client.touch("nothing", 100, noreply=False), False)
    same(f"{name} delete", client.delete("n", noreply=False), True)
    same(f"{name} delete of nothing", client.delete("n", noreply=False), False)
    client.set("x", b"1", expire=1, noreply=False)
    time.sleep(2.1)
    same(f"{name} expired", client.get("x"), None)


for make in (lambda: Client(ADDRESS, timeout=5), lambda: PooledClient(ADDRESS, max_pool_size=4), lambda: HashClient([ADDRESS])):
    client = make()
    name = type(client).__name__
    client.flush_all(noreply=False) if name != "HashClient" else client.flush_all()
    store(name, client)
    many(name, client)
    change(name, client)
    client.flush_all(noreply=False) if name != "HashClient" else client.flush_all()
    same(f"{name} flushed", client.get("a"), None)
client = Client(ADDRESS, serde=serde.pickle_serde)
client.set("o", {"k": [1, 2]}, noreply=False)
same("an object, by the flags", client.get("o"), {"k": [1, 2]})
same("stats", client.stats()[b"threads"] > 0, True)
print("\n".join(wrong) or "all right")
sys.exit(1 if wrong else 0)
