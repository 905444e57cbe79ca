#!/usr/bin/env python3
"""pylibmc's calls (Debian: python3-pylibmc) by the binary protocol, and what memcached answers to them.

    clients_binary.py PORT        status 1: an answer was another one; 3: pylibmc isn't there"""
import sys

try:
    import pylibmc
except ImportError:
    sys.exit(3)

wrong = []


def same(what, got, wanted):
    if got != wanted:
        wrong.append(f"{what}: {str(got)[:80]}, not {str(wanted)[:80]}")


def refused(what, call):
    """Refusals are told by an exception, or by False."""
    try:
        same(what, call(), False)
    except pylibmc.Error as fault:
        same(what, type(fault).__name__ in ("NotFound", "DataExists", "NotStored"), True)


client = pylibmc.Client(["127.0.0.1:" + sys.argv[1]], binary=True, behaviors={"cas": True, "tcp_nodelay": True})
client.flush_all()
same("set", client.set("a", b"1"), True)
same("get", client.get("a"), b"1")
same("get of nothing", client.get("nothing"), None)
refused("add", lambda: client.add("a", b"2"))
same("add of a new one", client.add("b", b"2"), True)
same("replace", client.replace("b", b"3"), True)
refused("replace of nothing", lambda: client.replace("nothing", b"3"))
same("append", client.append("b", b"4"), True)
same("prepend", client.prepend("b", b"2"), True)
same("get behind them", client.get("b"), b"234")
value, unique = client.gets("a")
same("gets", value, b"1")
same("cas", client.cas("a", b"9", unique), True)
refused("cas again", lambda: client.cas("a", b"8", unique))
same("get_multi", client.get_multi(["a", "b", "c"]), {"a": b"9", "b": b"234"})
same("set_multi", client.set_multi({f"m{i}": str(i) for i in range(500)}), [])
same("get_multi of 500", client.get_multi([f"m{i}" for i in range(600)]), {f"m{i}": str(i) for i in range(500)})
same("delete_multi", client.delete_multi([f"m{i}" for i in range(500)]), True)
big = bytes(range(256)) * 3900
same("set of a large value", client.set("big", big), True)
same("get of a large value", client.get("big") == big, True)
client.set("n", 10)
same("incr", client.incr("n", 5), 15)
same("decr", client.decr("n", 20), 0)
refused("incr of nothing", lambda: client.incr("nothing"))
same("touch", client.touch("n", 100), True)
refused("touch of nothing", lambda: client.touch("nothing", 100))
same("delete", client.delete("n"), True)
refused("delete of nothing", lambda: client.delete("n"))
same("an object, by the flags", (client.set("o", {"k": [1, 2]}), client.get("o")), (True, {"k": [1, 2]}))
same("stats", int(client.get_stats()[0][1]["threads"]) > 0, True)
client.flush_all()
same("flushed", client.get("a"), None)
print("\n".join(wrong) or "all right")
sys.exit(1 if wrong else 0)
