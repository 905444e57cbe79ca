"""What one client asks doesn't keep another one of the same thread waiting; and the answer is the same, in however many turns it is made."""
import re
import subprocess
import sys
from pathlib import Path

from c_checks import tell
from client import Client
from started import Server
from together import Together

HERE = Path(__file__).resolve().parent
ITEMS, HOLES = 500_000, 35_000
# Milliseconds that the server works while a get waits: about one, where it waits for its turn, and hundreds, where it waits for the end of a
# long command: MOST tells these two apart on a busy machine, too. What that adds to the time of a get isn't the server's work; MOST_TIME is for
# a server that sleeps. What is slow once isn't slow three times; what can be done once alone is tried in each of three servers.
MOST, TRIES, MOST_TIME = 12.0, 3, 2000.0


class Watched:
    """Another client's gets, or its stores of a length, while what stands in a with is done: the slowest one took so many milliseconds, and the
    server worked for so many at most while one waited."""

    def __init__(self, server, *length):
        self.server, self.length = server, length

    def __enter__(self):
        words = [sys.executable, str(HERE / "slowest.py"), str(self.server.port), str(self.server.process.pid), *map(str, self.length)]
        self.process = subprocess.Popen(words, stdin=subprocess.PIPE, stdout=subprocess.PIPE, text=True)
        self.process.stdout.readline()
        return self

    def __exit__(self, *_):
        told = self.process.communicate()[0].split()
        self.count, self.slowest, self.work = (int(told[0]), int(told[1]) / 1000, int(told[2]) / 1000) if len(told) == 3 else (0, float("inf"), float("inf"))

    def is_slow(self):
        return self.work > MOST or self.slowest > MOST_TIME


def ask_much(client, request):
    """Its whole answer, where that may have many megabytes."""
    client.count += 1
    end, parts = b"EN O%d\r\n" % client.count, []
    client.socket.sendall(request + b"mg nobody-has-this-key O%d\r\n" % client.count)
    while not (b"".join(parts[-2:])).endswith(end):
        parts.append(client.socket.recv(1 << 20))
        if not parts[-1]:
            raise ConnectionError("the server closed the connection")
    return b"".join(parts)[:-len(end)]


class Turns(Together):
    def check_turns(self):
        for left in reversed(range(TRIES)):
            with self.served("-m", 1024) as server:
                client = Client(server.port, 300)
                first = self.watched(server, lambda: self.store_each_class(client))
                small = self.memory(server)
                many = self.watched(server, lambda: self.store_many(client))
                if left > 0 and (first.is_slow() or many.is_slow()):
                    continue
                self.tell_watched("each class has its first item", first)
                tell("then the process takes less than 50 megabytes", "" if small < 50 else f"{small:.0f}")
                self.tell_watched(f"{ITEMS} items are stored", many)
                self.check_further(server, client)
                break
        self.check_room()
        for megabytes, holes in ((400, HOLES), (48, 4000)):
            self.check_pages(megabytes, holes)

    def check_further(self, server, client):
        """Of a server that has many items."""
        self.check_long(server, client)
        self.watch(server, "values of a megabyte are stored and read", lambda: self.large_faults(client))
        self.watch(server, "flush_all and what follows", lambda: self.flush_faults(client))
        tell("then it ends with nothing left", server.end())

    def served(self, *options):
        """One that has the processors before others, as far as the system lets: what else that does isn't what is measured."""
        server = Server(self.program, "-t", 1, *options, before=["setsid", "nice", "-n", "-10"], environment={"BUMP_SERVER_DEBUGTIME": "1"})
        try:
            Path(f"/proc/{server.process.pid}/autogroup").write_text("-20")
        except OSError:
            pass
        return server

    @staticmethod
    def memory(server):
        """Megabytes that the process has."""
        return int(Path(f"/proc/{server.process.pid}/statm").read_text().split()[1]) * 4096 / 1e6

    def check_long(self, server, client):
        """Commands about many items, or with many keys."""
        def ask(request, is_right):
            answer = ask_much(client, request)
            return "" if is_right(answer) else f"{answer[:80]} .. {answer[-80:]}"
        many = b"get " + b" ".join(b"n%d" % i for i in range(100_000)) + b"\r\n"
        prefixed = b"stats detail on\r\nget" + b"".join(b" p%d:" % i for i in range(20_000)) + b"\r\n"
        told = b"".join(b"stats %s\r\n" % what for what in (b"slabs", b"items", b"bump", b"conns"))
        for name, do in (("lru_crawler metadump all", lambda: self.dump_fault(ask_much(client, b"lru_crawler metadump all\r\n"))),
                         ("stats cachedump 1 0", lambda: self.list_fault(ask_much(client, b"stats cachedump 1 0\r\n"))),
                         ("stats sizes", lambda: ask(b"stats sizes_enable\r\nset s 0 0 1\r\n1\r\nstats sizes\r\ndelete s\r\n", lambda answer: b"\nSTAT 64 1\r\n" in answer)),
                         ("stats detail", lambda: ask(prefixed + b"stats detail dump\r\nstats detail off\r\n", lambda answer: 10_000 < answer.count(b"PREFIX p") < 20_000)),
                         ("stats", lambda: ask(b"stats\r\n", lambda answer: b"curr_items %d\r\n" % (ITEMS + 1) in answer)),
                         ("stats slabs, items, bump and conns", lambda: ask(told, lambda answer: answer.count(b"END\r\n") == 4)),
                         ("a get of 100,000 keys", lambda: ask(many, lambda answer: answer.count(b"VALUE n") == 100_000)),
                         ("a get of 2,000,000 keys that aren't there", lambda: ask(b"get" + b" none" * 2_000_000 + b"\r\n", lambda answer: answer == b"END\r\n")),
                         ("lru_crawler crawl all", lambda: self.crawl_fault(client))):
            self.watch(server, name, do)

    @staticmethod
    def watched(server, do, *length):
        with Watched(server, *length) as watched:
            watched.wrong = do()
        return watched

    def watch(self, server, name, do, *length):
        for _ in range(TRIES):
            watched = self.watched(server, do, *length)
            if watched.wrong or not watched.is_slow():
                break
        self.tell_watched(name, watched)

    @staticmethod
    def tell_watched(name, watched):
        wrong = watched.wrong or (f"more than {MOST:.0f} ms of work" if watched.is_slow() else "")
        tell(f"{name}: meanwhile the server worked {watched.work:.1f} ms at most in one of {watched.count} requests of another client, the slowest took "
             f"{watched.slowest:.1f} ms", wrong)

    @staticmethod
    def store_each_class(client):
        wrong = [size for size in (int(40 * 1.2 ** i) for i in range(55)) if not client.set(b"class", b"c" * size)]
        classes = sum(name.endswith(":chunk_size") for name in client.stats("slabs"))
        client.ask(b"delete class\r\n")
        return f"{wrong} aren't stored" if wrong else "" if classes > 35 else f"only {classes} classes"

    @staticmethod
    def store_many(client):
        """Of which a tenth expires."""
        for begin in range(0, ITEMS, 10_000):
            client.socket.sendall(b"".join(b"set n%d 0 %d 5 noreply\r\nvalue\r\n" % (i, 0 if i % 10 else 1000) for i in range(begin, begin + 10_000)))
        client.set(b"watched", b"here")
        there = int(client.stats()["curr_items"])
        return "" if there == ITEMS + 1 else f"{there} items are there"

    @staticmethod
    def dump_fault(answer):
        """Each item once, and all that is told of it."""
        keys = set(re.findall(rb"^key=(\S+) exp=-?\d+ la=\d+ cas=\d+ fetch=(?:yes|no) cls=1 size=\d+$", answer, re.M))
        if len(keys) != ITEMS + 1 or answer.count(b"\n") != ITEMS + 2 or not answer.endswith(b"\nEND\r\n"):
            return f"{len(keys)} keys in {answer.count(bytes([10]))} lines"
        return ""

    @staticmethod
    def list_fault(answer):
        keys = re.findall(rb"^ITEM (\S+) \[\d b; \d+ s\]\r$", answer, re.M)
        right = len(keys) == len(set(keys)) == 20_000 and answer.endswith(b"\r\nEND\r\n")
        return "" if right else f"{len(set(keys))} different keys in {len(keys)} lines"

    @staticmethod
    def crawl_fault(client):
        client.ask(b"debugtime 2000\r\n")
        answer, there = client.ask(b"lru_crawler crawl all\r\n"), int(client.stats()["curr_items"])
        return "" if answer == b"OK\r\n" and there == ITEMS * 9 // 10 + 1 else f"{answer}, {there} items are there"

    @staticmethod
    def large_faults(client):
        value = bytes(range(256)) * 4000
        wrong = [i for i in range(20) if not client.set(b"large%d" % i, value) or client.get(b"large%d" % i) != value]
        for request, count in ((b"get" + b" large1" * 20 + b"\r\n", 20), (b"mg large2 v\r\n" * 10, 10), (b"append large3 0 0 1\r\nx\r\nget large3\r\n", 1)):
            wrong += [] if ask_much(client, request).count(value) == count else [request[:20]]
        return f"{wrong[:5]} aren't stored, or are wrong" if wrong else ""

    @staticmethod
    def flush_faults(client):
        """Items that were flushed are ended by and by, and when they are looked for."""
        answers = client.ask(b"flush_all\r\nget n1 n2\r\nlru_crawler crawl all\r\n")
        there = int(client.stats()["curr_items"])
        return "" if (answers, there) == (b"OK\r\nEND\r\nOK\r\n", 0) else f"{answers}, {there} items are there"

    def check_room(self):
        """A large value comes where memory is full of small ones, of which thousands have to go."""
        with self.served("-m", 32) as server:
            client = Client(server.port, 300)
            self.store_many(client)
            self.watch(server, "values of a megabyte take the room of small ones", lambda: self.room_faults(client))
            stats = client.stats()
            tell("then memory isn't exceeded", "" if int(stats["bytes"]) <= 32 << 20 and stats["evictions"] != "0" else f"{stats['bytes']} bytes")
            tell("then it ends with nothing left", server.end())

    def check_pages(self, megabytes, holes):
        """Values that go leave free pages between others that stay. They go back: a store that wants memory doesn't wait for all of them."""
        with self.served("-m", megabytes) as server:
            client = Client(server.port, 300)
            for begin in range(0, holes, 1000):
                client.socket.sendall(b"".join(b"set h%d 0 0 9000 noreply\r\n%s\r\nset s%d 0 0 1000 noreply\r\n%s\r\n" %
                                               (i, bytes(9000), i, bytes(1000)) for i in range(begin, begin + 1000)))
            client.ask(b"".join(b"delete h%d noreply\r\n" % i for i in range(holes)))
            self.watch(server, f"pages go back from {holes} places", lambda: self.room_faults(client, 300), 500)
            most = megabytes * 1.049 * 1.2
            for _ in range(40):  # where small values stay between the places, they go, too: half as much as is still too much, again and again
                if self.memory(server) > most:
                    self.room_faults(client, 100)
            has = self.memory(server)
            tell("then the process takes no more than that", "" if has < most else f"{has:.0f} megabytes")
            tell("then it ends with nothing left", server.end())

    @staticmethod
    def room_faults(client, count=25):
        value = bytes(range(256)) * 4000
        wrong = [i for i in range(count) if not client.set(b"large%d" % i, value) or client.get(b"large%d" % i) != value]
        return f"{wrong[:5]} aren't stored, or are wrong" if wrong else ""
