"""watch: what who watches is told, and that nobody waits for one that doesn't read."""
import re
import socket
import time

from c_checks import tell
from client import Client
from started import Server

# Of the binary protocol: what ends a connection.
BINARY_QUIT = b"\x80\x07" + bytes(22)

HEAD = r"ts=\d+\.\d{6} gid=\d+ type="

# A request, and the lines of who watches fetchers, mutations and deletions.
TOLD = [
    ("get none", ["item_get key=none status=not_found clsid=0 cfd=# size=0"]),
    ("set a 0 0 3\r\nabc", ["item_get key=a status=not_found clsid=0 cfd=# size=0", "item_store key=a status=stored cmd=set ttl=0 clsid=1 cfd=# size=3"]),
    ("get a", ["item_get key=a status=found clsid=1 cfd=# size=3"]),
    ("gets a none", ["item_get key=a status=found clsid=1 cfd=# size=3", "item_get key=none status=not_found clsid=0 cfd=# size=0"]),
    ("add a 0 0 1\r\nx", ["item_get key=a status=found clsid=1 cfd=# size=3", "item_store key=a status=not_stored cmd=add ttl=0 clsid=1 cfd=# size=1"]),
    ("replace none 0 0 1\r\nx", ["item_get key=none status=not_found clsid=0 cfd=# size=0", "item_store key=none status=not_stored cmd=replace ttl=0 clsid=1 cfd=# size=1"]),
    ("cas a 0 0 1 99999\r\nx", ["item_get key=a status=found clsid=1 cfd=# size=3", "item_store key=a status=exists cmd=cas ttl=0 clsid=1 cfd=# size=1"]),
    ("cas none 0 0 1 9\r\nx", ["item_get key=none status=not_found clsid=0 cfd=# size=0", "item_store key=none status=not_found cmd=cas ttl=0 clsid=1 cfd=# size=1"]),
    ("append none 0 0 1\r\nx", ["item_get key=none status=not_found clsid=0 cfd=# size=0", "item_store key=none status=not_stored cmd=append ttl=0 clsid=1 cfd=# size=1"]),
    ("touch a 0", ["item_get key=a status=found clsid=1 cfd=# size=3"]),
    ("ms YQpiIGM= 2 b\r\nxy", ["item_get key=a%0Ab%20c status=not_found clsid=0 cfd=# size=0", "item_store key=a%0Ab%20c status=stored cmd=set ttl=0 clsid=1 cfd=# size=2"]),
    ("ma n N0 J5", ["item_get key=n status=not_found clsid=0 cfd=# size=0"] * 2 + ["item_store key=n status=stored cmd=add ttl=0 clsid=1 cfd=# size=1"]),
    ("set big 0 0 2000000\r\n" + "x" * 2000000, ["item_store key=big status=too_large cmd=set ttl=0 clsid=0 cfd=# size=0", "item_get key=big status=not_found clsid=0 cfd=# size=0"]),
    ("md a I", ["item_get key=a status=found clsid=1 cfd=# size=3"]),
    ("delete none", ["item_get key=none status=not_found clsid=0 cfd=# size=0"]),
    ("delete a", ["item_get key=a status=found clsid=1 cfd=# size=3", "deleted key=a cmd=delete clsid=1 cfd=# size=3"]),
    ("md n", ["item_get key=n status=found clsid=1 cfd=# size=1", "deleted key=n cmd=md clsid=1 cfd=# size=1"]),
]


class Watcher(Client):
    """Watches; and reads lines up to one that is asked for."""

    def watch(self, kinds):
        self.socket.sendall(b"watch%s\r\n" % kinds)
        return self.until(b"\r\n")

    def lines_until(self, key):
        lines = []
        while True:
            line = self.until(b"\n").decode()
            lines.append(line)
            if f"item_get key={key} " in line:
                return lines


class WatchChecks:
    def check_watch(self):
        with Server(self.program, "-t", 2) as server:
            client, watcher = Client(server.port), Watcher(server.port)
            wrong = [] if watcher.watch(b" fetchers mutations deletions") == b"OK" else ["watch isn't answered by OK"]
            for i, (request, wanted) in enumerate(TOLD if not wrong else []):
                client.socket.sendall(f"{request}\r\nget end{i}\r\n".encode())
                lines = watcher.lines_until(f"end{i}")[:-1]
                if not self.are_told(lines, wanted):
                    wrong.append(f"{request[:30]!r}: {lines}")
            tell(f"who watches is told of {len(TOLD)} commands as memcached tells them", "; ".join(wrong[:3]))
            self.check_who_watches(server)
            tell("then it ends with nothing left, while somebody watches", server.end())
        self.check_evictions()
        self.check_comings()
        self.check_crawls()
        self.check_slow_watcher()
        with Server(self.program, "-W") as server:
            answer = Client(server.port).ask(b"watch\r\n")
            tell("-W: watch is refused", "" if answer == b"CLIENT_ERROR watch commands not allowed\r\n" else repr(answer))
            tell("then it ends with nothing left", server.end())

    @staticmethod
    def are_told(lines, wanted):
        return len(lines) == len(wanted) and all(re.fullmatch(HEAD + re.escape(want).replace(r"cfd=\#", r"cfd=\d+"), line) for want, line in zip(wanted, lines))

    def check_who_watches(self, server):
        client = Client(server.port)
        answers = [client.ask(asked) for asked in (b"watch nothing\r\n", b"watch fetchers proxyevents\r\n", b"mn\r\nwatch\r\n")]
        watchers = [Watcher(server.port) for _ in range(20)]
        answers += [one.watch(b" evictions") for one in watchers]
        wanted = [b"ERROR\r\n"] * 2 + [b"MN\r\nERROR\r\n"] + [b"OK"] * 19 + [b"WATCHER_TOO_MANY log watcher limit reached"]
        tell("at most 20 watch, and what isn't told of is refused", "" if answers == wanted else str(answers))
        for one in watchers:
            one.close()
        gone = self.wait_for(lambda: client.stats()["log_watchers"] == "1")
        tell("who left watches no more", "" if gone else client.stats()["log_watchers"])

    def check_evictions(self):
        with Server(self.program, "-m", 8) as server:
            client, watcher = Client(server.port), Watcher(server.port)
            watcher.watch(b" evictions fetchers")
            for i in range(400):
                client.socket.sendall(b"set e%d 0 %d 100000 noreply\r\n%s\r\n" % (i, i % 2 * 1000, b"x" * 100000))
            before = int(client.stats()["evictions"])
            client.ask(b"get end\r\n")
            after = int(client.stats()["evictions"])  # the maintainer may evict meanwhile
            lines = [line for line in watcher.lines_until("end") if "type=eviction" in line]
            like = re.compile(HEAD + r"eviction key=e\d+ fetch=(no|yes) ttl=(-1|\d+) la=\d+ clsid=\d+ size=100000")
            right = 0 < before <= len(lines) <= after and all(like.fullmatch(line) for line in lines)
            tell(f"{len(lines)} evictions are told", "" if right else f"{before} to {after}: {lines[:3]}")
            tell("then it ends with nothing left", server.end())

    def check_crawls(self):
        """A round of looking for expired items, by how many there were. The maintainer, which finds some at lists' ends before, is off."""
        with Server(self.program, "-o", "no_lru_maintainer", environment={"BUMP_SERVER_DEBUGTIME": "1"}) as server:
            client, watcher = Client(server.port), Watcher(server.port)
            watcher.watch(b" sysevents fetchers")
            for i in range(100):
                client.set(b"k%d" % i, b"1", 30 if i < 70 else 0)
            time.sleep(1.5)  # a round begins before they expire, or none began yet
            client.ask(b"debugtime 31\r\n")
            gone = self.wait_for(lambda: client.stats()["curr_items"] == "30")
            time.sleep(0.5)
            client.ask(b"get end\r\n")
            lines = [line for line in watcher.lines_until("end") if "type=lru_crawler" in line]
            like = re.compile(HEAD + r"lru_crawler crawler=1 lru=all low_mark=0 next_reclaims=0 since_run=\d+ next_run=\d+ elapsed=\d+ examined=\d+ reclaimed=(\d+)")
            found = [like.fullmatch(line) for line in lines]
            right = gone and all(found) and sum(int(one.group(1)) for one in found) == 70
            tell(f"{len(lines)} rounds of looking for expired items are told", "" if right else f"{lines[:4]}")
            for _ in range(40):
                client.ask(b"debugtime 1\r\n")
                time.sleep(0.15)
            client.ask(b"get end\r\n")
            rounds = sum("type=lru_crawler" in line for line in watcher.lines_until("end"))
            tell(f"there are {rounds} in the next 40 seconds, in which nothing expires", "" if 3 <= rounds <= 10 else "more and more seldom ones are wanted")
            tell("then it ends with nothing left", server.end())

    def check_comings(self):
        """Who comes and goes, and why."""
        with Server(self.program, "-o", "idle_timeout=1") as server:
            watcher, wrong = Watcher(server.port), []
            answer = watcher.watch(b" connevents rawcmds")
            for request, reason in ((b"quit\r\n", "normal"), (BINARY_QUIT, "normal"), (b"GET / HTTP/1.1\r\n", "error"), (b"x" * 3000, "error"),
                                    (b"", "idle_timeout"), (None, "normal")):
                with socket.create_connection(("127.0.0.1", server.port), 60) as one:
                    one.sendall(request or b"")
                    while request is not None and one.recv(100):
                        pass
                    about = rf"rip=127\.0\.0\.1 rport={one.getsockname()[1]} transport=tcp"
                lines = []
                while len(lines) < 2:
                    line = watcher.until(b"\n").decode()
                    lines += [line] if about.replace("\\", "") in line else []  # else of one that was there before
                for line, like in zip(lines, (rf"conn_new {about} cfd=\d+", rf"conn_close {about} reason={reason} cfd=\d+")):
                    if not re.fullmatch(HEAD + like, line):
                        wrong.append(f"{request}: {line}")
            tell("who watches is told of connections that come and go", "; ".join(wrong[:3]) or ("" if answer == b"OK" else repr(answer)))
            tell("then it ends with nothing left", server.end())

    def check_slow_watcher(self):
        """It reads nothing while others work on; then each line is there, or is counted as skipped."""
        with Server(self.program, "-t", 2) as server:
            client, watcher = Client(server.port), Watcher(server.port)
            watcher.watch(b"")
            for i in range(4000):
                client.ask(b"get" + b" none" * 50 + b"\r\n")
                if i % 100 == 0 and int(client.stats()["log_watcher_skipped"]) > 10_000:
                    break
            seen, skipped, wrong = self.count_lines(watcher, client)
            stats = client.stats()
            if skipped == 0 or skipped > int(stats["log_watcher_skipped"]) or seen > int(stats["log_watcher_sent"]):
                wrong.append(f"{skipped} skipped, {stats['log_watcher_skipped']} told")
            tell(f"who doesn't read loses {skipped} of {seen + skipped} lines, which it is told, and others work on", "; ".join(wrong))
            tell("then it ends with nothing left", server.end())

    @staticmethod
    def count_lines(watcher, client):
        """Reads what there is, until a look-up that is made again and again is told. The number of each line is that of those before it, seen or skipped."""
        seen, skipped, wrong = 0, 0, []
        watcher.socket.settimeout(0.5)
        while not wrong:
            try:
                line = watcher.until(b"\n").decode()
            except socket.timeout:
                client.ask(b"get the-last-one\r\n")
                continue
            if line.startswith("skipped="):
                skipped += int(line[8:])
                continue
            seen += 1
            told = re.match(HEAD.replace("gid=\\d+", "gid=(\\d+)") + r"item_get key=(\S+) ", line)
            if told is None or int(told[1]) != seen + skipped:
                wrong.append(f"line {seen + skipped}: {line!r}")
            elif told[2] == "the-last-one":
                break
        return seen, skipped, wrong
