"""Clients that speak the protocol wrongly, end in the midst, or don't read; and between them right ones, whose answers are checked.

    chaos.py PORT REQUESTS [SEED]       so many wrong requests; status 1 where a right client was answered wrongly"""
import errno
import random
import socket
import sys
import threading
from pathlib import Path

sys.path.insert(0, str(Path(__file__).resolve().parent))
from client import Client, is_right, value_for

WORDS = [b"get", b"gets", b"gat", b"gats", b"set", b"add", b"replace", b"append", b"prepend", b"cas", b"incr", b"decr", b"delete", b"touch",
         b"mg", b"ms", b"md", b"ma", b"me", b"mn", b"stats", b"stats items", b"stats slabs", b"stats settings", b"stats bump", b"stats cachedump 1 10",
         b"stats cachedump", b"version", b"lru_crawler crawl 1", b"lru_crawler metadump 1", b"lru tune 10 25 0.1 2.0",
         b"cache_memlimit 16", b"slabs reassign 1 2", b"watch", b"HTTP/1.1", b"\x80", b"\x81", b""]
MORE = [b"k1", b"k2", b"k3", b"0", b"1", b"-1", b"10", b"4294967295", b"4294967296", b"18446744073709551615", b"18446744073709551616",
        b"99999999999999999999", b"x" * 250, b"x" * 251, b"noreply", b"b", b"v", b"s", b"t", b"T30", b"T-1", b"N30", b"R30", b"q", b"O123", b"O" * 40,
        b"MA", b"ME", b"MX", b"I", b"C1", b"F9", b"S2", b"k", b"c", b"h", b"l", b"u", b"J5", b"D3", b"Zm9v", b"2147483647", b"2147483646",
        b"-2147483648", b"\x00", b"\xff\xfe", b"  ", b"2", b"5"]
ENDS = [b"\r\n", b"\r\n", b"\n", b"\r\n\r\n", b"\r", b"\r\nhello\r\n"]


def wrong_request(chance):
    """Right words in wrong places; values of wrong lengths; right requests with changed bytes; bytes."""
    kind = chance.randrange(7)
    if kind < 3:
        return b" ".join([chance.choice(WORDS)] + chance.choices(MORE, k=chance.randrange(9))) + chance.choice(ENDS)
    some = chance.randbytes(chance.randrange(60))
    if kind == 3:
        name = chance.choice([b"set", b"append", b"add", b"replace"])
        return b"%s k%d 0 %d %d\r\n%s" % (name, chance.randrange(20), chance.choice([0, 1, -1, 100]), chance.randrange(40), some) + chance.choice(ENDS)
    if kind == 4:
        return chance.randbytes(chance.randrange(300))
    if kind == 5:
        flags = b" ".join(chance.choices(MORE, k=chance.randrange(5)))
        return b"ms k%d %d %s\r\n%s\r\n" % (chance.randrange(20), chance.randrange(20), flags, some[:30])
    right = bytearray(chance.choice([b"set k1 0 0 3\r\nabc\r\n", b"gets k1 k2\r\n", b"mg k1 v k t\r\n", b"ma k2 N0 J5 D3 v\r\n", b"cas k1 0 0 1 5\r\nx\r\n"]))
    for _ in range(chance.randrange(1, 4)):
        right[chance.randrange(len(right))] = chance.randrange(256)
    return bytes(right)


class Chaos:
    def __init__(self, port, requests, seed):
        self.port, self.requests, self.seed = port, requests, seed
        self.sent, self.ended, self.asked, self.hits, self.wrong = 0, 0, 0, 0, []
        self.lock = threading.Lock()

    def is_over(self):
        return self.sent >= self.requests or self.wrong

    def connect(self):
        return socket.create_connection(("127.0.0.1", self.port), timeout=5)

    def speak_wrongly(self, chance):
        with self.connect() as link:
            link.settimeout(0.02)
            for _ in range(chance.randrange(1, 8)):
                requests = [wrong_request(chance) for _ in range(chance.randrange(1, 60))]
                link.sendall(b"".join(requests))
                with self.lock:
                    self.sent += len(requests)
                try:
                    link.recv(1 << 16)
                except socket.timeout:
                    pass

    def end_in_the_midst(self, chance):
        with self.connect() as link:
            kind = chance.randrange(4)
            if kind == 0:
                link.sendall(b"set dead%d 0 0 100000\r\n" % chance.randrange(50) + b"x" * chance.randrange(99999))
            elif kind == 1:
                big = b"set big%d 0 0 300000\r\n" % chance.randrange(5) + b"y" * 300000 + b"\r\n"
                link.settimeout(0.2)
                link.sendall(big + b"get " + b" ".join(b"big%d" % chance.randrange(5) for _ in range(20)) + b"\r\n")
            elif kind == 2:
                link.setsockopt(socket.SOL_SOCKET, socket.SO_LINGER, b"\x01\0\0\0\0\0\0\0")
                link.sendall(b"get " + b" ".join(b"ok%d" % i for i in range(50)) + b"\r\n" * chance.randrange(2))
            else:
                link.sendall(b"get " + b"k" * chance.randrange(3000))
                link.shutdown(socket.SHUT_WR)
        with self.lock:
            self.ended += 1

    def again_and_again(self, what, seed):
        chance = random.Random(seed)
        while not self.is_over():
            try:
                what(chance)
            except (BrokenPipeError, ConnectionResetError, socket.timeout):
                pass
            except OSError as fault:
                if fault.errno != errno.ENOTCONN:  # the server may close first
                    self.wrong.append(f"{what.__name__}: {fault}")

    def ask_rightly(self, number):
        """Nobody else has these keys: so what is there is what was stored last."""
        chance, mine = random.Random(self.seed * 100 + number), {}
        try:
            client = Client(self.port, 60)
            while not self.is_over():
                self.one_right(client, chance, mine, b"ok%d_%d_%d" % (self.seed, number, chance.randrange(200)))
                self.asked += 1
        except (OSError, ValueError) as fault:
            self.wrong.append(f"a right client: {fault}")

    def one_right(self, client, chance, mine, key):
        kind = chance.randrange(10)
        if kind < 4:
            value = value_for(key, chance.randrange(1 << 20), chance.choice([10, 100, 1000, 20000]))
            if client.set(key, value):
                mine[key] = value
            else:
                mine.pop(key, None)
        elif kind < 5:
            client.ask(b"delete %s\r\n" % key)
            mine.pop(key, None)
        else:
            value = client.get(key)
            if value is None:
                return
            self.hits += 1
            if not is_right(key, value) or mine.get(key) != value:
                self.wrong.append(f"a wrong value of {key!r}: {value[:40]!r}")

    def run(self):
        """What right clients were answered wrongly."""
        threads = [threading.Thread(target=self.again_and_again, args=(what, self.seed * 100 + i))
                   for i, what in enumerate([self.speak_wrongly] * 3 + [self.end_in_the_midst])]
        threads += [threading.Thread(target=self.ask_rightly, args=(50 + i,)) for i in range(2)]
        for thread in threads:
            thread.start()
        for thread in threads:
            thread.join()
        return self.wrong


if __name__ == "__main__":
    chaos = Chaos(int(sys.argv[1]), int(sys.argv[2]), int(sys.argv[3]) if len(sys.argv) > 3 else 1)
    wrong = chaos.run()
    print(f"{chaos.sent} wrong requests, {chaos.ended} clients ended in the midst, {chaos.asked} right requests, {chaos.hits} hits, wrong: {wrong[:3]}")
    sys.exit(bool(wrong))
