"""What stats tells: the value of each name after commands that are known, as memcached 1.6.18 counts them."""
import re
import time

from binary import DELETE, GET, SET, STAT, BinaryClient, flagged, request
from c_checks import tell
from client import Client
from started import Server

# A command, and what it adds to: of `stats`, and with slabs: or items: before the name of class 1. Hits are those of all lists together.
COUNTED = [
    ("set a 0 0 1\r\n1", "cmd_set slabs:cmd_set"),
    ("get a", "cmd_get get_hits slabs:get_hits items:hits"),
    ("gets a", "cmd_get get_hits slabs:get_hits items:hits"),
    ("get none", "cmd_get get_misses"),
    ("gat 0 a", "cmd_touch touch_hits slabs:touch_hits"),
    ("gat 0 none", "cmd_touch touch_misses"),
    ("touch a 0", "cmd_touch touch_hits slabs:touch_hits"),
    ("touch none 0", "cmd_touch touch_misses"),
    ("incr a 1", "incr_hits slabs:incr_hits"),
    ("decr a 1", "decr_hits slabs:decr_hits"),
    ("incr none 1", "incr_misses"),
    ("decr none 1", "decr_misses"),
    ("set w 0 0 1\r\nx", "cmd_set slabs:cmd_set"),
    ("incr w 1", ""),
    ("cas a 0 0 1 999999\r\n2", "cmd_set slabs:cmd_set cas_badval slabs:cas_badval"),
    ("cas none 0 0 1 9\r\n2", "cmd_set slabs:cmd_set cas_misses"),
    ("cas a 0 0 1 %a%\r\n2", "cmd_set slabs:cmd_set cas_hits slabs:cas_hits"),
    ("delete a", "delete_hits slabs:delete_hits"),
    ("delete none", "delete_misses"),
    ("mg w v", "cmd_get get_hits slabs:get_hits items:hits"),
    ("mg w u", "cmd_get get_hits slabs:get_hits items:hits"),
    ("mg none", "cmd_get get_misses"),
    ("mg w T0", "cmd_touch touch_hits slabs:touch_hits"),
    ("mg new N30", "cmd_get get_hits slabs:get_hits items:hits"),
    ("md w C99999", "delete_misses"),
    ("md w I", ""),
    ("md w", "delete_hits slabs:delete_hits"),
    ("md none", "delete_misses"),
    ("ms m 1\r\n1", "cmd_set slabs:cmd_set"),
    ("ms m 1 C99999\r\n1", "cmd_set slabs:cmd_set cas_badval slabs:cas_badval"),
    ("ms none 1 C1\r\n1", "cmd_set slabs:cmd_set cas_misses"),
    ("ma m", "incr_hits slabs:incr_hits"),
    ("ma m C0", "incr_hits slabs:incr_hits"),
    ("ma m C99999", ""),
    ("ma m MD", "decr_hits slabs:decr_hits"),
    ("ma none", "incr_misses"),
    ("append m 0 0 1\r\n3", "cmd_set slabs:cmd_set"),
]
NAMES = "cmd_get cmd_set cmd_touch get_hits get_misses touch_hits touch_misses".split()
NAMES += [f"{what}_{how}" for what in ("delete", "incr", "decr", "cas") for how in ("hits", "misses")] + ["cas_badval"]
SLABS = "get_hits cmd_set delete_hits incr_hits decr_hits cas_hits cas_badval touch_hits".split()
ITEMS = [f"hits_to_{where}" for where in ("hot", "warm", "cold", "temp")]
# Each command is followed by a get that misses, which Client.ask sends; and so is each of the three stats.
OWN = {"cmd_get": 4, "get_misses": 4}


class Told:
    def check_told(self):
        with Server(self.program, "-o", "temporary_ttl=61,hot_max_factor=1000,warm_max_factor=1000", environment={"BUMP_SERVER_DEBUGTIME": "1"}) as server:
            client = Client(server.port)
            wrong = self.count_faults(client)
            tell(f"{len(COUNTED)} commands are counted by `stats`, by class and by list as memcached counts them", "; ".join(wrong[:4]))
            client.ask(b"stats reset\r\n")
            left = {name: number for name, number in self.counts(client).items() if number and name not in OWN}
            tell("stats reset makes them 0", str(left) if left else "")
            tell("moves, hits and ages of each list are told", "; ".join(self.list_faults(client)))
            tell("then it ends with nothing left", server.end())
        self.check_flat()
        self.check_dropped()
        self.check_connections()
        self.check_settings()
        self.check_prefixes()
        self.check_sizes()

    @staticmethod
    def counts(client):
        counts = {name: int(client_number) for name, client_number in client.stats().items() if name in NAMES}
        slabs, items = client.stats("slabs"), client.stats("items")
        counts.update({f"slabs:{name}": int(slabs.get(f"1:{name}", 0)) for name in SLABS})
        counts["items:hits"] = sum(int(items.get(f"items:1:{name}", 0)) for name in ITEMS)
        return counts

    def count_faults(self, client):
        wrong, before = [], self.counts(client)
        for request, names in COUNTED:
            if "%a%" in request:
                request = request.replace("%a%", client.ask(b"mg a c\r\n").decode().split()[1][1:])
                before = self.counts(client)
            client.ask(request.encode() + b"\r\n")
            after = self.counts(client)
            added = {name: after[name] - before.get(name, 0) - OWN.get(name, 0) for name in after}
            added = {name: by for name, by in added.items() if by}
            if added != dict.fromkeys(names.split(), 1):
                wrong.append(f"{request.split(chr(13))[0]!r} adds {added}, not {names}")
            before = after
        return wrong

    @staticmethod
    def settled(client, name, wanted):
        """What stats items tells, once a name of class 1 has this value; or after a minute."""
        for _ in range(600):
            items = {key.split(":", 2)[2]: int(number) for key, number in client.stats("items").items() if key.startswith("items:1:")}
            if items.get(name) == wanted:
                break
            time.sleep(0.1)
        return items

    def list_faults(self, client):
        """Items grow old, are hit in each list, and are moved by their hits. A slow machine needs its time for that: ages are judged by it."""
        wrong, begins = [], time.monotonic()
        client.ask(b"flush_all\r\nlru_crawler crawl all\r\nstats reset\r\n")
        for i in range(1000):
            client.set(b"i%d" % i, b"1")
        items = self.settled(client, "number_cold", 800)
        if (items["number_hot"], items["moves_to_cold"], items["moves_to_warm"]) != (200, 800, 0):
            wrong.append(f"1000 items: {items}")
        client.ask(b"get i0\r\nget i0\r\n")  # the second hit queues a bump
        items = self.settled(client, "number_warm", 1)
        if (items["hits_to_cold"], items["moves_to_warm"], items["number_cold"]) != (2, 1, 799):
            wrong.append(f"two hits in COLD: {items}")
        client.ask(b"get i0\r\nget i999\r\nset t 0 50 1\r\n1\r\nget t\r\n")
        items = self.settled(client, "hits_to_temp", 1)
        if [items[name] for name in ITEMS] != [1, 1, 2, 1] or items["number_temp"] != 1:
            wrong.append(f"hits in all lists: {items}")
        stats = client.stats()
        if (stats["moves_to_cold"], stats["moves_to_warm"], stats["lru_bumps_dropped"]) != ("800", "1", "0"):
            wrong.append(f"stats: {[stats[name] for name in ('moves_to_cold', 'moves_to_warm', 'lru_bumps_dropped')]}")
        if int(stats["cmd_touch"]) or items["age"] > 3 + time.monotonic() - begins:
            wrong.append(f"age {items['age']}")
        client.ask(b"debugtime 100\r\n")
        items = self.settled(client, "number_temp", 0)
        ages = [items[name] for name in ("age_hot", "age_warm", "age")]
        if not all(100 <= age <= 103 + time.monotonic() - begins for age in ages):
            wrong.append(f"after 100 seconds the ages are {ages}")
        return wrong

    def check_flat(self):
        """One list of all items: a hit brings an item to its front, at most once a minute."""
        with Server(self.program, "-o", "temporary_ttl=61", environment={"BUMP_SERVER_DEBUGTIME": "1"}) as server:
            client = Client(server.port)
            wrong = self.flat_faults(client)
            tell("in lru mode flat a hit brings an item to the front of one list", "; ".join(wrong[:3]))
            client.ask(b"lru mode segmented\r\nset t 0 50 1\r\n1\r\nset h 0 0 1\r\n1\r\n")
            items = client.stats("items")
            right = items["items:1:number_temp"] == "1" and client.stats("settings")["lru_segmented"] == "yes"
            tell("then in lru mode segmented there are lists again", "" if right else str(items))
            tell("then it ends with nothing left", server.end())
        with Server(self.program, "-o", "no_lru_maintainer") as server:
            answers = Client(server.port).ask(b"lru mode flat\r\nlru mode segmented\r\n")
            tell("without the maintainer lru mode is refused", "" if answers == b"ERROR\r\nERROR\r\n" else str(answers))

    @staticmethod
    def flat_order(client, wanted):
        """The keys of class 1 from the list's front on, once they are these; or after half a minute."""
        for _ in range(300):
            found = b"".join(line.split()[1] for line in client.ask(b"stats cachedump 1 0\r\n").split(b"\r\n") if line.startswith(b"ITEM"))
            if found == wanted:
                break
            time.sleep(0.1)
        return found

    def flat_faults(self, client):
        client.ask(b"".join(b"set %c 0 0 1\r\n1\r\n" % key for key in b"abc"))  # in HOT: they go to the one list soon
        wrong = [] if client.ask(b"lru mode flat\r\n") == b"OK\r\n" and client.stats("settings")["lru_segmented"] == "no" else ["it is refused"]
        client.ask(b"".join(b"set %c 0 %d 1\r\n1\r\n" % (key, 50 if key == ord("e") else 0) for key in b"def"))
        # What is asked for, after so many seconds, and the order then. Within a minute a hit changes nothing.
        for seconds, keys, order in ((0, b"a", b"fedcba"), (61, b"a", b"afdcb"), (0, b"a", b"afdcb"), (30, b"ab", b"bafdc"), (31, b"ab", b"abfdc"), (61, b"fd", b"dfabc")):
            if seconds:
                client.ask(b"debugtime %d\r\n" % seconds)
            client.ask(b"".join(b"get %c\r\n" % key for key in keys))
            found = self.flat_order(client, order)
            lists = {name: client.stats("items")[f"items:1:number_{name}"] for name in ("hot", "warm", "cold", "temp")}
            if found != order or lists != {"hot": "0", "warm": "0", "cold": str(len(order)), "temp": "0"}:
                wrong.append(f"{seconds} seconds later, by {keys}: {found} and not {order}, {lists}")
        stats = client.stats()
        return wrong if stats["moves_to_warm"] == "0" else wrong + [f"{stats['moves_to_warm']} moves to WARM are told"]

    def check_dropped(self):
        """Full memory, where whoever stores evicts; and more hits in COLD than a ring has room for."""
        with Server(self.program, "-m", 32, "-t", 1) as server:
            client = Client(server.port)
            # Which of them are in COLD, and how soon the maintainer is there, differs by what else the machine does: so it is asked again and again,
            # of items that are stored anew, since what was hit is in WARM.
            for _ in range(30):
                client.ask(b"".join(b"set i%d 0 0 400 noreply\r\n%s\r\n" % (i, b"x" * 400) for i in range(200_000)))
                for _ in range(10):
                    client.ask(b"get " + b" ".join(b"i%d" % i for i in range(160_000, 200_000)) + b"\r\n")
                told, wrong = self.dropped_faults(client)
                if not wrong:
                    break
            tell(f"{told[0]} evictions, {told[1]} dropped bumps and {told[2]} moves within WARM are told", "; ".join(wrong))
            tell("then it ends with nothing left", server.end())

    def dropped_faults(self, client):
        """How many evictions, dropped bumps and moves within WARM are told, once nothing moves any more; and what is wrong with that."""
        names, before, wrong = ("evicted", "direct_reclaims", "moves_within_lru", "moves_to_warm", "moves_to_cold"), None, []
        for _ in range(600):
            stats, bump, items = client.stats(), client.stats("bump"), client.stats("items")
            sums = [sum(int(number) for name, number in items.items() if name.endswith(f":{what}")) for what in names]
            if sums == before:
                break
            before = sums
            time.sleep(0.1)
        dropped = sum(int(number) for name, number in bump.items() if ":dropped_" in name)
        if not 0 < int(stats["evictions"]) == int(stats["direct_reclaims"]) == sums[0] == sums[1]:
            wrong.append(f"{stats['evictions']} evictions, direct_reclaims {stats['direct_reclaims']} and {sums[1]}")
        if not 0 < int(stats["lru_bumps_dropped"]) == dropped:
            wrong.append(f"{dropped} bumps are dropped, lru_bumps_dropped {stats['lru_bumps_dropped']}")
        if not 0 < int(stats["moves_within_lru"]) == sums[2]:
            wrong.append(f"moves_within_lru {stats['moves_within_lru']}")
        return (sums[1], dropped, sums[2]), wrong

    def check_connections(self):
        """stats conns: each connection by its address, what it does and since when."""
        with Server(self.program, environment={"BUMP_SERVER_DEBUGTIME": "1"}) as server:
            client, reads, stores, skips, sends = (Client(server.port) for _ in range(5))
            stores.socket.sendall(b"set a 0 0 1000\r\nabc")
            skips.socket.sendall(b"set a 0 0 2000000\r\nabc")
            sends.set(b"big", b"x" * 1_000_000)
            sends.socket.sendall(b"get" + b" big" * 40 + b"\r\n")
            time.sleep(0.5)
            reads.ask(b"debugtime 7\r\n")
            many = [Client(server.port) for _ in range(300)]
            for one in many:
                one.ask(b"")
            told = client.stats("conns")
            names = {told[name]: name.split(":")[0] for name in told if name.endswith(":addr")}
            wrong, listens = [], f"tcp:127.0.0.1:{server.port}"
            for one, state in ((client, "conn_parse_cmd"), (reads, "conn_read"), (stores, "conn_nread"), (skips, "conn_swallow"), (sends, "conn_mwrite"), (many[7], "conn_read")):
                number = names.get("tcp:%s:%d" % one.socket.getsockname())
                got = (told.get(f"{number}:state"), told.get(f"{number}:listen_addr"))
                if got != (state, listens):
                    wrong.append(f"{state}: {got}")
            idle = int(told.get(names.get("tcp:%s:%d" % stores.socket.getsockname(), "") + ":secs_since_last_cmd", -1))
            if told.get(f"{names.get(listens)}:state") != "conn_listening" or len(names) != 306 or not 7 <= idle <= 60:
                wrong.append(f"{len(names)} addresses, idle for {idle}")
            tell("stats conns tells each connection, what it does, and since when", "; ".join(wrong[:3]))
            for one in [reads, stores, skips, sends, *many]:
                one.close()
            for _ in range(100):
                if sum(name.endswith(":addr") for name in client.stats("conns")) == 2:
                    break
                time.sleep(0.1)
            tell("and none that ended", "" if sum(name.endswith(":addr") for name in client.stats("conns")) == 2 else "some are told still")
            tell("then it ends with nothing left", server.end())

    def check_prefixes(self):
        """stats detail: gets, hits, stores and deletions of each prefix, by each protocol; and the memory for them has a bound."""
        with Server(self.program, "-m", 64, "-D", "/") as server:
            client, wrong = Client(server.port), []
            client.ask(b"set a/1 0 0 1\r\n1\r\nget a/1 a/2 b\r\ndelete a/3\r\nms b/1 1\r\n1\r\nmg b/1 v\r\nmd b/1\r\ntouch a/1 5\r\n")
            BinaryClient(server.port).ask(request(SET, b"c/1", flagged(1), b"1"), request(GET, b"c/1"), request(DELETE, b"c/1"))
            BinaryClient(server.port).ask(request(SET, b"c c/1", flagged(1), b"1"))
            told = sorted(client.ask(b"stats detail dump\r\n").split(b"\r\n"))
            if told != [b"", b"END", b"PREFIX a get 2 hit 1 set 1 del 1", b"PREFIX b get 1 hit 1 set 1 del 1", b"PREFIX c get 1 hit 1 set 1 del 1"]:
                wrong.append(str(told))
            binary = BinaryClient(server.port).ask(request(STAT, b"detail dump"))
            if sorted(answer[4] for answer in binary) != [b"", *(line + b"\r\n" for line in told[2:])]:
                wrong.append(f"by the binary protocol {binary}")
            table = int(client.stats("bump")["bytes_of_table"])
            for begin in range(0, 40_000, 1000):
                client.ask(b"get" + b"".join(b" p%d/1" % i for i in range(begin, begin + 1000)) + b"\r\n")
            lines, more = client.ask(b"stats detail dump\r\n").count(b"PREFIX p"), int(client.stats("bump")["bytes_of_table"]) - table
            if not 10_000 < lines < 20_000 or not 900_000 < more <= 1 << 20:
                wrong.append(f"{lines} of 40,000 prefixes are counted, by {more} bytes")
            client.ask(b"stats reset\r\n")
            if client.ask(b"stats detail dump\r\n") != b"END\r\n" or int(client.stats("bump")["bytes_of_table"]) >= table:
                wrong.append("they aren't forgotten")
            tell("stats detail tells what is asked of each prefix, up to a bound", "; ".join(wrong)[:600])
            tell("then it ends with nothing left", server.end())

    def check_sizes(self):
        """stats sizes: items that are there, by steps of 32 bytes, of those that came since it counts."""
        with Server(self.program, "-m", 64) as server:
            client, steps = Client(server.port), []
            def tell_sizes(request):
                client.ask(request)
                told = client.stats("sizes")
                steps.append({int(size): int(count) for size, count in told.items()} if told.get("sizes_status") is None else told["sizes_status"])
            tell_sizes(b"set before 0 0 100\r\n%s\r\n" % bytes(100))
            tell_sizes(b"stats sizes_enable\r\n")
            tell_sizes(b"".join(b"set k%d 0 0 %d\r\n%s\r\n" % (i, n, bytes(n)) for i, n in enumerate((1, 2, 100, 100, 5000, 900_000))))
            tell_sizes(b"delete k2\r\ndelete before\r\nset k0 0 0 100\r\n%s\r\nmd k4 I\r\n" % bytes(100))
            tell_sizes(b"stats sizes_disable\r\ndelete k1\r\n")
            tell_sizes(b"stats sizes_enable\r\ndelete k3\r\nset k0 0 0 1\r\n1\r\n")
            tell_sizes(b"flush_all\r\nlru_crawler crawl all\r\n")
            wanted = ["disabled", {}, {64: 2, 192: 2, 5088: 1, 900064: 1}, {64: 1, 192: 2, 5088: 1, 900064: 1}, "disabled", {64: 1}, {}]
            tell("stats sizes tells how many items have each size", "" if steps == wanted else str(steps))
            tell("then it ends with nothing left", server.end())
        with Server(self.program, "-o", "track_sizes") as server:
            client = Client(server.port)
            client.set(b"k", b"1")
            tell("-o track_sizes counts from the start on", "" if client.stats("sizes") == {"64": "1"} else str(client.stats("sizes")))

    def check_settings(self):
        options = "-m 33 -c 99 -t 3 -b 55 -R 7 -I 2m -f 1.5 -n 56 -M -C -F -A -o".split() + ["hot_lru_pct=11,warm_lru_pct=22,hot_max_factor=0.3,warm_max_factor=1.5,"
                   "temporary_ttl=44,idle_timeout=66,slab_automove_ratio=0.7,slab_chunk_max=100000,no_lru_crawler,no_lru_maintainer"]
        with Server(self.program, *options) as server:
            told = Client(server.port).stats("settings")
            wanted = dict(maxbytes=33 << 20, maxconns=99, tcpport=server.port, udpport=0, inter="127.0.0.1", evictions="off", domain_socket="NULL", umask=700,
                          shutdown_command="yes", growth_factor="1.50", chunk_size=56, num_threads=3, detail_enabled="no", stat_key_prefix=":", reqs_per_event=7, cas_enabled="no",
                          tcp_backlog=55, item_size_max=2 << 20, slab_automove_ratio="0.70", slab_chunk_max=100000, lru_crawler="no", tail_repair_time=0,
                          flush_enabled="no", dump_enabled="yes", lru_maintainer_thread="no", hot_lru_pct=11, warm_lru_pct=22, hot_max_factor="0.30",
                          warm_max_factor="1.50", temp_lru="yes", temporary_ttl=44, idle_timeout=66, read_buf_mem_limit=0, track_sizes="no", ssl_enabled="no",
                          memory_file="(null)")
            wrong = [f"{name} is {told.get(name)}, not {value}" for name, value in wanted.items() if told.get(name) != str(value)]
            tell(f"stats settings tells {len(wanted)} options as they were given", "; ".join(wrong[:4]))
            version = Client(server.port).stats()["version"]
            tell("the version is numbers alone", "" if re.fullmatch(r"\d+(\.\d+)+", version) else version)
            tell("then it ends with nothing left", server.end())
