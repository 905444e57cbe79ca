"""-m is what the process takes: with values of each size, with clients that don't read, and with many that are idle."""
import bisect
import itertools
import random
import re
import resource
import socket
import threading
import time
from pathlib import Path

from c_checks import tell, why
from client import Client, is_right, value_for
from started import ENDED, WHO, Server, run

HERE = Path(__file__).resolve().parent
MEGABYTE = 1 << 20
# What the process may have: so much more than -m, and so much for each connection that is busy. Where the maintainer waits for a processor there is
# more for a moment.
FACTOR, BUSY = 1.15, 64 << 10
IDLE = 10_000


def resident(server):
    return int(Path(f"/proc/{server.process.pid}/statm").read_text().split()[1]) * resource.getpagesize()


def addresses(server):
    """The bytes of addresses that it has, with pages or without."""
    return int(Path(f"/proc/{server.process.pid}/statm").read_text().split()[0]) * resource.getpagesize()


def mappings(server):
    return len(Path(f"/proc/{server.process.pid}/maps").read_text().splitlines())


def most_for(megabytes, busy=1):
    return int(megabytes * MEGABYTE * FACTOR) + busy * BUSY


def store(client, name, sizes, amount):
    """Values of these sizes in turn, of so many bytes together with what an item has beside. How many there were."""
    begin = 0
    while amount > 0:
        lengths = [sizes[i % len(sizes)] for i in range(begin, begin + max(1, min(1000, 400_000 // max(sizes))))]
        client.socket.sendall(b"".join(b"set %s%d 0 0 %d noreply\r\n%s\r\n" % (name, begin + i, n, bytes(n)) for i, n in enumerate(lengths)))
        begin += len(lengths)
        amount -= sum(lengths) + 100 * len(lengths)
    client.ask(b"")
    return begin


def comes_to(is_so, client, name, size, amount):
    """Whether it gets so while values of a size come: within a hundred times so many bytes of them, which is ten seconds or more."""
    for number in range(100):
        if is_so():
            return True
        store(client, b"%s%d_" % (name, number), [size], amount)
        time.sleep(0.1)
    return is_so()


def ask_three_sizes(client, keys, rounds):
    """Which part of a hundred gets hits, by the size of values, in the second half of rounds of 50 gets: of keys as many are of each size whatever
    their share of the gets is, and what misses is stored."""
    sizes, draw = [100, 10_000, 100, 10_000, 900_000], random.Random(5)
    shares = list(itertools.accumulate((i + 1) ** -0.9 for i in range(keys)))
    order, hits, gets = draw.sample(range(keys), keys), dict.fromkeys(sizes, 0), dict.fromkeys(sizes, 0)
    for number in range(rounds):
        asked = [order[bisect.bisect(shares, draw.random() * shares[-1])] for _ in range(50)]
        answers = client.ask(b"".join(b"mg k%d s\r\n" % key for key in asked)).split(b"\r\n")
        for key, answer in zip(asked, answers):
            size = sizes[key % len(sizes)]
            if number >= rounds // 2:
                gets[size] += 1
                hits[size] += answer.startswith(b"HD")
            if not answer.startswith(b"HD"):
                client.socket.sendall(b"set k%d 0 0 %d noreply\r\n%s\r\n" % (key, size, bytes(size)))
    return {size: 100 * hits[size] / gets[size] for size in hits}


class Memory:
    def check_memory(self):
        self.check_mixes()
        self.check_wide_mix()
        self.check_few_mappings()
        self.check_many_mappings()
        self.check_locked()
        self.check_sizes_in_turn()
        self.check_few_left()
        self.check_three_sizes()
        self.check_deaf()
        self.check_deaf_and_many()
        self.check_idle_connections()

    def tell_resident(self, name, server, most, again=lambda: None):
        """Judged when the memory that came free was used again: a slow machine may need more for that."""
        for _ in range(20):
            has = resident(server)
            if has <= most:
                break
            again()
            time.sleep(0.1)
        tell(f"{name}: the process has {has / MEGABYTE:.0f} megabytes", "" if has <= most else f"more than {most / MEGABYTE:.0f}")

    def check_mixes(self):
        draw = random.Random(3)
        many = [draw.randrange(1, 2000) for _ in range(5000)]
        with Server(self.program, "-m", 64) as server:
            client = Client(server.port)
            sizes = [int(24 * 1.22 ** i) for i in range(53)]
            there = sum(client.set(b"size%d" % size, bytes(size)) for size in sizes)
            few = resident(server)
            tell(f"an item in each of {there} sizes: {few / MEGABYTE:.0f} megabytes", "" if there == len(sizes) and few < 32 * MEGABYTE else "more than 32")
            for name, mix in (("values of 1 to 2,000 bytes", many), ("then of 20 bytes", [20]), ("then of 10,000 bytes", [10_000]), ("then of 100,000 bytes", [100_000])):
                store(client, b"a", mix, 100 * MEGABYTE)
                self.tell_resident(f"-m 64, {name}", server, most_for(64), lambda mix=mix: store(client, b"b", mix, 8 * MEGABYTE))
            stats = client.stats()
            tell("items were evicted for it", "" if int(stats["evictions"]) > 0 and int(stats["curr_items"]) > 0 else f"{stats['curr_items']} items")
            tell("then it ends with nothing left", server.end())

    def check_wide_mix(self):
        """Values of 20 bytes to 60,000, among which none is common: most of the memory is of items."""
        draw = random.Random(4)
        sizes = [int(20 * 3000 ** draw.random()) for _ in range(5000)]
        with Server(self.program, "-m", 64) as server:
            client = Client(server.port)
            store(client, b"a", sizes, 400 * MEGABYTE)
            self.tell_resident("-m 64, values of 20 to 60,000 bytes", server, most_for(64), lambda: store(client, b"b", sizes, 8 * MEGABYTE))
            # While the process has more than -m, items go ahead of those who store.
            for _ in range(30):
                items = int(client.stats("bump")["bytes_of_items"])
                if items > 40 * MEGABYTE:
                    break
                store(client, b"b", sizes, 8 * MEGABYTE)
                time.sleep(0.1)
            tell(f"of which items have {items / MEGABYTE:.0f}", "" if items > 40 * MEGABYTE else "less than 40")
            tell("then it ends with nothing left", server.end())

    def check_few_mappings(self):
        """Where the system has no mapping more, values find memory all the same, their pages go back, and they are right."""
        shared = self.folder / "few_mappings.so"
        if not tell("few_mappings.c compiles", why(run(["gcc", "-std=c11", "-O2", "-Wall", "-Wextra", "-Werror", "-shared", "-fPIC", HERE / "few_mappings.c", "-o", shared]))):
            return
        with Server(self.program, "-m", 64, environment={"LD_PRELOAD": str(shared)}) as server:
            client, draw, before = Client(server.port), random.Random(2), addresses(server)
            for name, sizes in (("10,000 to 120,000", [int(10_000 * 12 ** draw.random()) for _ in range(5000)]),
                                ("140,000 to 1,000,000", [draw.randrange(7, 50) * 20_000 for _ in range(3000)])):
                hits, wrong = self.ask_at_random(client, draw, sizes)
                tell(f"{hits} gets of {name} bytes hit while mappings can't be given up", f"{wrong} are wrong" if wrong else "" if hits > 100 else "too few")
                self.tell_resident("-m 64, with such values", server, most_for(64))
            fails = client.stats()["malloc_fails"]
            tell("all of them find memory", "" if fails == "0" else f"{fails} don't")
            # Of each of 43 sizes as many mappings at most as there were values at once.
            has = (addresses(server) - before) / MEGABYTE
            tell(f"they have {has:.0f} megabytes of addresses", "" if has < 200 else "more than 200")
            tell("then it ends with nothing left", server.end())
        with Server(self.program, "-m", 64, environment={"LD_PRELOAD": str(shared), "FEW_MAPPINGS": "kept"}) as server:
            client, other, before = Client(server.port), Client(server.port), addresses(server)
            for size in (500_000, 90_000):
                wrong = [i for i in range(400) if not self.set_in_parts(client, other, b"p%d" % (i % 3), value_for(b"p", i, size))]
                has = (addresses(server) - before) / MEGABYTE
                tell(f"400 values of {size:,} bytes in parts, for three keys, have {has:.0f} megabytes of addresses", f"{wrong[:5]} are wrong" if wrong else
                     "" if has < 20 else "more than 20")
            tell("then it ends with nothing left", server.end())

    @staticmethod
    def set_in_parts(client, other, key, value):
        """Whether it is stored, and is what comes back. The other client is answered between: so the first part was received before."""
        client.socket.sendall(b"set %s 0 0 %d\r\n%s" % (key, len(value), value[:20_000]))
        time.sleep(0.001)
        other.ask(b"mn\r\n")
        return client.ask(value[20_000:] + b"\r\n") == b"STORED\r\n" and client.get(key) == value

    @staticmethod
    def ask_at_random(client, draw, sizes):
        """Sets a value of each size, or gets one. How many gets hit, and how many were wrong."""
        hits, wrong = 0, 0
        for number, size in enumerate(sizes):
            key, value = b"k%d" % draw.randrange(300_000_000 // max(sizes)), value_for(b"few", number, size)
            if draw.random() < 0.6:
                client.socket.sendall(b"set %s 0 0 %d noreply\r\n%s\r\n" % (key, len(value), value))
            else:
                value = client.get(key)
                hits, wrong = hits + (value is not None), wrong + (value is not None and not is_right(b"few", value))
        return hits, wrong

    def check_many_mappings(self):
        """Values have a part of the mappings that the system lets a process have, though they go at random: the others are malloc's."""
        for size, allowed, most in ((17_000, 2000, 500), (140_000, 200, 100)):
            with Server(self.program, "-m", 128, environment={"BUMP_SERVER_MAPPINGS": str(allowed)}) as server:
                client, draw, before, wrong, has = Client(server.port), random.Random(3), mappings(server), 0, []
                keys = [b"m%d" % i for i in range(110 * MEGABYTE // size)]
                for _ in range(4):
                    for key in draw.sample(keys, len(keys)):
                        value = value_for(key, len(has), size)
                        client.socket.sendall(b"set %s 0 0 %d noreply\r\n%s\r\n" % (key, len(value), value))
                    there = [(key, client.get(key)) for key in keys[::7]]
                    wrong += sum(value is not None and not is_right(key, value) for key, value in there)
                    client.ask(b"".join(b"delete %s noreply\r\n" % key for key in keys if draw.random() < 0.5))
                    has.append(mappings(server) - before)
                hits = sum(value is not None for _, value in there)
                tell(f"{hits} of {len(there)} values of {size:,} bytes were there, by {max(has)} mappings", f"{wrong} are wrong" if wrong else
                     "" if max(has) < most + 50 and hits > len(there) * 0.8 else "more mappings, or fewer values, than there should be")
                self.tell_resident("-m 128, with such values", server, most_for(128))
                tell("then it ends with nothing left", server.end())

    def check_locked(self):
        """By -k the process has little more than without: stacks and libraries wholly."""
        if not WHO:
            print("missing: root: memory that is locked isn't tried", flush=True)
            return
        with Server(self.program, "-m", 64, "-k") as server:
            client, draw = Client(server.port), random.Random(3)
            many = [draw.randrange(1, 2000) for _ in range(5000)]
            for name, mix in (("values of 1 to 2,000 bytes", many), ("then of 20 bytes", [20]), ("then of 10,000 bytes", [10_000])):
                store(client, b"a", mix, 100 * MEGABYTE)
                self.tell_resident(f"-m 64 -k, {name}", server, most_for(68), lambda mix=mix: store(client, b"b", mix, 8 * MEGABYTE))
            tell("then it ends with nothing left", server.end())

    def check_sizes_in_turn(self):
        """Where other sizes come, not only items give their memory to them, but the chunks, too; and each size comes to have as many items again.
        Chunks go within some seconds behind the last of their items, and then more items fit: so values come until it is so."""
        with Server(self.program, "-m", 64, environment={"BUMP_SERVER_DEBUGTIME": "1"}) as server:
            client, wrong = Client(server.port), []
            for number, (size, most, least) in enumerate(((20, 26, 280_000), (1000, 7, 42_000), (20, 26, 240_000), (1000, 7, 42_000))):
                client.ask(b"debugtime 1000\r\n")  # so what was there is old
                count = store(client, b"t%d_" % number, [size], 80 * MEGABYTE)
                if client.get(b"t%d_%d" % (number, count - 1)) not in (None, bytes(size)):
                    wrong.append(f"a wrong value of {size} bytes")
                if not comes_to(lambda least=least, most=most: self.has_changed(client, least, most), client, b"u%d_" % number, size, 8 * MEGABYTE):
                    wrong.append(f"{client.stats()['curr_items']} of {size} bytes, {self.chunks(client)} bytes of chunks")
                items = client.stats()["curr_items"]
                self.tell_resident(f"-m 64, {items} values of {size} bytes", server, most_for(64),
                                   lambda number=number, size=size: store(client, b"v%d_" % number, [size], 8 * MEGABYTE))
            tell("sizes that come in turn have the chunks of those that went", "; ".join(wrong))
            tell("then it ends with nothing left", server.end())
        with Server(self.program, "-m", 16, environment={"BUMP_SERVER_DEBUGTIME": "1"}) as server:
            tell("the same by four clients, which read meanwhile: values are right", "; ".join(self.change_sizes(server)[:3]))
            tell("then it ends with nothing left", server.end())

    def check_few_left(self):
        """Few small items that are left of many don't keep the chunks of all: they go where others come."""
        with Server(self.program, "-m", 64, environment={"BUMP_SERVER_DEBUGTIME": "1"}) as server:
            client = Client(server.port)
            count = store(client, b"t", [20], 28 * MEGABYTE)
            client.ask(b"".join(b"delete t%d noreply\r\n" % i for i in range(count) if i % (count // 6) != 1))
            client.ask(b"debugtime 1000\r\n")
            left, before = client.stats()["curr_items"], self.chunks(client)
            right = comes_to(lambda: self.chunks(client) <= 7 * MEGABYTE, client, b"u", 1000, 8 * MEGABYTE)
            tell(f"chunks of {count} values go back though {left} of these are left", "" if right else f"they take {self.chunks(client)} bytes, and took {before}")
            tell("then it ends with nothing left", server.end())

    @staticmethod
    def chunks(client):
        return int(client.stats("bump")["bytes_of_shelves"])

    def has_changed(self, client, least, most):
        """Whether there are so many items, and their chunks have so many megabytes at most."""
        return int(client.stats()["curr_items"]) >= least and self.chunks(client) <= most * MEGABYTE

    def change_sizes(self, server, shrinks=True):
        """Four clients store values of one size, and then of another, and read them: shelves are opened and closed beneath them. What was wrong."""
        wrong, client, before = [], Client(server.port), 0
        for number, size in enumerate((20, 1000, 20, 1000)):
            client.ask(b"debugtime 1000\r\n")
            storing = [threading.Thread(target=self.store_and_read, args=(server, number * 4 + i, size, 60_000 if size == 20 else 8_000, wrong)) for i in range(4)]
            for one in storing:
                one.start()
            for one in storing:
                one.join()
            if size == 20:
                before = self.chunks(client)
            elif shrinks and not comes_to(lambda before=before: self.chunks(client) < before // 2, client, b"x%d_" % number, size, MEGABYTE):
                wrong.append(f"chunks take {self.chunks(client)} bytes, and took {before}")
        return wrong

    def try_changing_sizes(self, name, program, environment):
        """Of another build."""
        with Server(program, "-m", 16, environment={"BUMP_SERVER_DEBUGTIME": "1", **(environment or {})}) as server:
            tell(f"{name}: values of other sizes come, and are right", "; ".join(self.change_sizes(server, False)[:3]))
            tell(f"{name}: it ends with nothing left and nothing said", server.end() or self.more_than_end(server))

    @staticmethod
    def more_than_end(server):
        """What another build says beside its end."""
        said = [line for line in server.words().splitlines() if not ENDED.search(line)]
        return "; ".join(said[:5])

    @staticmethod
    def store_and_read(server, number, size, count, wrong):
        client = Client(server.port, 300)
        for begin in range(0, count, 100):
            keys = [b"w%d_%d" % (number, i) for i in range(begin, begin + 100)]
            client.ask(b"".join(b"set %s 0 0 %d noreply\r\n%s\r\n" % (key, len(key) + size, key + bytes(size)) for key in keys))
            for key in keys[::10]:
                value = client.get(key)
                if value not in (None, key + bytes(size)):
                    wrong.append(f"{key} is {value}")

    def check_three_sizes(self):
        """Keys of three sizes that are asked for as often: large values don't take the room of all small ones."""
        with Server(self.program, "-m", 64) as server:
            rates = ask_three_sizes(Client(server.port), 4000, 160)
            told = ", ".join(f"{size} bytes {rate:.0f} %" for size, rate in rates.items())
            right = rates[100] > 70 and rates[10_000] > 55 and rates[900_000] > 25
            tell(f"three sizes in one load hit: {told}", "" if right else "too few")
            self.tell_resident("-m 64, three sizes", server, most_for(64))
            tell("then it ends with nothing left", server.end())

    @staticmethod
    def deaf(server, request):
        """A client that asks and doesn't read."""
        one = Client.__new__(Client)
        one.port, one.count, one.held, one.socket = server.port, 0, b"", socket.socket()
        one.socket.setsockopt(socket.SOL_SOCKET, socket.SO_RCVBUF, 4096)
        one.socket.settimeout(60)
        one.socket.connect(("127.0.0.1", server.port))
        one.socket.sendall(request)
        return one

    def wait_deaf(self, client, number):
        """Until so many connections wait to send."""
        return self.wait_for(lambda: sum(state == "conn_mwrite" for name, state in client.stats("conns").items() if name.endswith(":state")) == number)

    @staticmethod
    def all_of(one, end):
        """What comes up to the answer that is the last one."""
        parts = [b""]
        while not b"".join(parts[-2:]).endswith(end):
            parts.append(one.socket.recv(1 << 20))
            if not parts[-1]:
                raise ConnectionError("the server closed the connection")
        return b"".join(parts)

    def check_deaf(self):
        """They ask for the same large value, and for small ones, again and again."""
        with Server(self.program, "-m", 64, "-c", 2000) as server:
            client, number = Client(server.port), 300
            client.set(b"big", bytes(900_000))
            client.set(b"small", bytes(3000))
            for name, request in (("20 times 900,000 bytes", b"get big\r\n" * 20), ("1,500 times 3,000 bytes", b"get " + b"small " * 1500 + b"\r\n")):
                clients = [self.deaf(server, request) for _ in range(number)]
                waits = self.wait_deaf(client, number)
                self.tell_resident(f"{number} clients ask for {name} and don't read", server, most_for(20, number))
                bump, there = client.stats("bump"), client.get(b"big") == bytes(900_000)
                tell("others are served meanwhile", "" if waits and there else f"{waits} {there}")
                least = int(bump["bytes_kept"]) + int(bump["bytes_of_connections"])
                for one in clients:
                    one.close()
                gone = self.wait_for(lambda: int(client.stats("bump")["bytes_kept"]) == 0 and int(client.stats()["curr_connections"]) == 1)
                left = int(client.stats("bump")["bytes_of_connections"])
                tell("what was counted for them is given back", "" if gone and left < MEGABYTE < least else f"{gone}, {least} and then {left} bytes")
            tell("then it ends with nothing left", server.end())

    def check_deaf_and_many(self):
        """Each asks for a large value of its own, so often that no socket takes it all: these are more than may be kept. Values change and end
        meanwhile, and who reads at last gets the whole of what the value was each time, or a refusal."""
        with Server(self.program, "-m", 64, "-c", 2000) as server:
            client, number, times, wrong = Client(server.port), 150, 12, []
            values = [value_for(b"v%d" % i, i, 400_000) for i in range(number)]
            clients = []
            for i, value in enumerate(values):
                client.set(b"v%d" % i, value)
                clients.append(self.deaf(server, b"get v%d\r\n" % i * times + b"mn\r\n"))
            waits = self.wait_for(lambda: int(client.stats("bump")["bytes_kept"]) > 24 * MEGABYTE)
            store(client, b"other", [20_000], 100 * MEGABYTE)
            kept = int(client.stats("bump")["bytes_kept"])
            if not waits or kept > 32 * MEGABYTE:
                wrong.append(f"{kept} bytes are kept")
            self.tell_resident(f"{number} clients ask for other values of 400,000 bytes and don't read", server, most_for(64, number))
            client.ask(b"".join(b"delete v%d\r\nset v%d 0 0 3\r\nnew\r\n" % (i, i + 1) for i in range(0, number, 2)))
            kinds = {b"END\r\n": 0, b"SERVER_ERROR out of memory writing get response\r\n": 0, b"value": 0}
            for i, one in enumerate(clients):
                rest, at = self.all_of(one, b"MN\r\n"), 0
                whole = (b"VALUE v%d 0 %d\r\n%s\r\nEND\r\n" % (i, len(values[i]), values[i]), b"VALUE v%d 0 3\r\nnew\r\nEND\r\n" % i)
                for _ in range(times):
                    answer = next((answer for answer in (*whole, *kinds) if rest.startswith(answer, at)), b"")
                    at += len(answer)
                    kinds[answer if answer in kinds else b"value"] += 1
                    wrong += [] if answer else [f"v{i} is answered by {rest[at:at + 60]}"]
            tell(f"who reads at last gets whole values ({', '.join(f'{count} {kind.decode().strip()}' for kind, count in kinds.items())})",
                 "; ".join(wrong[:3]) or ("" if min(kinds.values()) > 0 and kinds[b"value"] > 80 * times / 2 else "too few of one kind"))
            gone = self.wait_for(lambda: int(client.stats("bump")["bytes_kept"]) == 0)
            tell("then nothing is kept", "" if gone else client.stats("bump")["bytes_kept"])
            tell("then it ends with nothing left", server.end())

    def check_idle_connections(self):
        soft, hard = resource.getrlimit(resource.RLIMIT_NOFILE)
        resource.setrlimit(resource.RLIMIT_NOFILE, (hard, hard))
        number = min(IDLE, hard - 500)
        if number < IDLE:
            print(f"missing: files: {number} connections are tried, not {IDLE}", flush=True)
        with Server(self.program, "-m", 64, "-c", IDLE + 100) as server:
            client, value, wrong = Client(server.port), bytes(20_000), 0
            clients = [socket.create_connection(("127.0.0.1", server.port), timeout=60) for _ in range(number)]
            for i, one in enumerate(clients):
                one.sendall(b"set i%d 0 0 20000\r\n%s\r\nget i%d\r\n" % (i % 50, value, i % 50))
                got = b""
                while not got.endswith(b"END\r\n"):
                    got += one.recv(1 << 16) or b"END\r\n"
                wrong += not re.fullmatch(rb"STORED\r\nVALUE i\d+ 0 20000\r\n\0{20000}\r\nEND\r\n", got)
            self.tell_resident(f"{number} connections that stored and read 20,000 bytes each are idle", server, 32 * MEGABYTE)
            each = int(client.stats("bump")["bytes_of_connections"]) / number
            tell(f"an idle connection takes {each:.0f} bytes", f"{wrong} wrong answers" if wrong else "" if each < 2500 else "more than 2,500")
            for one in clients:
                one.close()
            gone = self.wait_for(lambda: client.stats()["curr_connections"] == "1")
            tell("then it ends with nothing left", server.end() if gone else "they are still there")
        resource.setrlimit(resource.RLIMIT_NOFILE, (soft, hard))
