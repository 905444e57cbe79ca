#!/usr/bin/env python3
"""Measures the server beside memcached: requests a second and times, instructions of a get and a set, hit rates. For docs/SERVER.md.

    measure.py SERVER MEMCACHED LOAD [--rounds 11] [--seconds 0.4] [--threads 1,2,4] [--clients 2] [--only WORD]

LOAD is load.c, built. Both servers are there and run in turn, for --seconds each, each one first in every other round. What is told of a pair of
runs is how much the one had of the other's: so what else the machine does falls on both. The medians are told as rows of the page's tables;
behind requests a second and the 99th of a hundred times stands the time that the server's own threads ran for a request, which says least about
the machine. Where memcaslap and memcslap of libmemcached-tools are there, they ask, too: clients that aren't ours. Behind each median stand the
quartiles. Instructions are counted by valgrind's callgrind: those of two runs of different lengths, and what they differ by is the requests'
alone. --only runs the parts whose names have the word: rates, instructions, calls (the system's, by perf), speeds."""
import argparse
import os
import re
import resource
import shutil
import socket
import statistics
import subprocess
import sys
import tempfile
import time
from pathlib import Path

LOGS = Path(__file__).resolve().parents[3] / "examples" / "logs"
# What is asked for: a name, the keys and the bytes of their values, and the client's other options.
WAYS = [("95 gets, 5 sets", 100_000, 100, ["-s", 50]), ("50 gets, 50 sets", 100_000, 100, ["-s", 500]), ("one key", 100_000, 100, ["-s", 50, "-o"]),
        ("24 keys at once", 100_000, 100, ["-s", 50, "-g", 24]), ("values of 10 kB", 5000, 10_000, ["-s", 50]),
        ("values of 100 kB", 500, 100_000, ["-s", 50])]
# The system's calls are counted in these, by so many requests of each of two threads. EXAMINED: of so many values that load.c reads it examines one.
CALLS_OF, EXAMINED = 20_000, 16
# What memcaslap asks for: percents of sets, the bytes of values, keys at once. Its keys are those that it stored.
SLAPPED = [("95 gets, 5 sets", 5, 100, 1), ("50 gets, 50 sets", 50, 100, 1), ("24 keys at once", 5, 100, 24), ("values of 10 kB", 5, 10_000, 1),
           ("values of 100 kB", 5, 100_000, 1)]
RATES = [("`zipf.log`, values of 20,000 bytes, 8 megabytes", ["-l", LOGS / "zipf.log", "-v", 20000, "-T", 1, "-C", 1], 8),
         ("`shift.log`, values of 40,000 bytes, 8 megabytes", ["-l", LOGS / "shift.log", "-v", 40000, "-T", 1, "-C", 1], 8),
         ("Zipf of 400,000 keys, values of 400 bytes, 32 megabytes",
          ["-z", "-a", "-s", 0, "-k", 400000, "-v", 400, "-T", 2, "-C", 8, "-N", 500000, "-n", 600], 32)]
# Whose instructions are counted, by so many requests: a name, the client's options, and the keys of a request.
COUNTED = [("a get of one key", ["-s", 0], 1), ("a key of a get of 24", ["-s", 0, "-g", 24], 24), ("a set of 100 bytes", ["-s", 1000], 1)]
FEWER, MORE = 4000, 12000


def free_port():
    with socket.socket() as one:
        one.bind(("127.0.0.1", 0))
        return one.getsockname()[1]


def time_run(process):
    """The microseconds that a process's threads ran, the kernel's part for them included."""
    return sum(int(Path(f"/proc/{process.pid}/task/{task}/schedstat").read_text().split()[0]) for task in os.listdir(f"/proc/{process.pid}/task")) / 1000


class Pair:
    def __init__(self, words):
        self.words = words
        hard = resource.getrlimit(resource.RLIMIT_NOFILE)[1]
        # valgrind keeps twelve files for itself, and refuses any other limit
        own = ["-l", "127.0.0.1", *(["-u", "root"] if os.geteuid() == 0 else [])]
        self.servers = {"bump-server": ([words.server, *own], []), "memcached": ([words.memcached, "-U", "0", *own], ["-c", str(hard - 12)])}

    def start(self, name, *options, before=(), counted=False):
        command, for_valgrind = self.servers[name]
        port = free_port()
        words = [*before, *command, "-p", port, *options, *(for_valgrind if counted else [])]
        process = subprocess.Popen([str(word) for word in words], stdout=subprocess.DEVNULL, stderr=subprocess.DEVNULL)
        for _ in range(600):
            try:
                socket.create_connection(("127.0.0.1", port)).close()
                return process, port
            except OSError:
                time.sleep(0.1)
        raise RuntimeError(f"{name} doesn't listen")

    @staticmethod
    def stop(process):
        process.terminate()
        process.wait()

    def load(self, port, *options):
        written = subprocess.run([self.words.load, "-p", str(port), *map(str, options)], capture_output=True, text=True, check=True).stdout
        return {name: float(number) for name, number in re.findall(r"([\w/.]+) ([\d.]+)(?:  |$)", written.strip())}

    def speeds(self):
        for threads in self.words.threads.split(","):
            servers = {name: self.start(name, "-m", "1024", "-t", threads) for name in self.servers}
            filled = None
            for way, keys, length, options in WAYS:
                same = ["-k", keys, "-v", length]
                if filled != same:
                    for _, port in servers.values():
                        self.load(port, *same, "-f", "-n", 0.1)
                filled = same
                options = [*same, "-T", self.words.clients, "-C", 16, "-e", EXAMINED, "-n", self.words.seconds, *options]
                self.tell_pairs(f"{way}, {threads} threads", servers, lambda port, options=options: self.load(port, *options))
            for way in SLAPPED if shutil.which("memcaslap") else ():
                count = [20_000]
                self.tell_pairs(f"memcaslap: {way[0]}, {threads} threads", servers, lambda port, way=way, count=count: self.slap_mixed(port, way, count))
            for way in ("get", "set") if shutil.which("memcslap") else ():
                count = [500]
                self.tell_pairs(f"memcslap's {way}, {threads} threads", servers, lambda port, way=way, count=count: self.slap(port, way, count))
            for process, _ in servers.values():
                self.stop(process)
        print(f"load of the machine: {os.getloadavg()}")

    def slap_mixed(self, port, way, count):
        """So many operations as take about --seconds, by what the first run took."""
        name, percent, length, group = way
        with tempfile.NamedTemporaryFile("w", suffix=".cnf") as file:
            file.write(f"key\n16 16 1\nvalue\n{length} {length} 1\ncmd\n0 {percent / 100}\n1 {1 - percent / 100}\n")
            file.flush()
            words = ["memcaslap", "-s", f"127.0.0.1:{port}", "-T", self.words.clients, "-c", 16 * self.words.clients, "-w", "1k", "-F", file.name,
                     "-x", count[0], *(["-d", group] if group > 1 else [])]
            written = subprocess.run([str(word) for word in words], capture_output=True, text=True, check=True).stdout
        operations, rate = map(int, re.search(r"Ops: (\d+) TPS: (\d+)", written).groups())
        if count[0] == 20_000:
            count[0] = max(2000, int(rate * self.words.seconds))
        return {"requests/s": rate / group, "seconds": operations / rate}

    def slap(self, port, way, count):
        words = ["memcslap", f"--servers=127.0.0.1:{port}", "--concurrency=16", f"--execute-number={count[0]}", f"--test={way}", "--tcp-nodelay"]
        written = subprocess.run(words, capture_output=True, text=True, check=True).stdout
        all_of, seconds = re.search(rf"Time to {way}\s+(\d+) keys by\s+16 threads:\s+([\d.]+)", written).groups()
        told = {"requests/s": float(all_of) / float(seconds), "seconds": float(seconds), "extra": count[0] * (way == "get")}
        if count[0] == 500:
            count[0] = max(500, int(500 / float(seconds) * self.words.seconds))
        return told

    def tell_pairs(self, way, servers, ask):
        """The medians of both servers, and of what the one has of the other's in the same round, with the quartiles. A round before finds out how
        much is asked for, and isn't counted."""
        told = {name: [] for name in servers}
        for number in range(-1, self.words.rounds):
            for name in sorted(servers, reverse=number % 2 == 1):
                process, port = servers[name]
                before = time_run(process)
                one = ask(port)
                ran = (time_run(process) - before) / (one["requests/s"] * one["seconds"] + one.get("extra", 0))
                if number >= 0:
                    told[name].append((one["requests/s"], one.get("p99"), ran))
        row = [way]
        for place, form in ((0, "{:,.0f}"), (1, "{:,.0f} µs"), (2, "{:.1f} µs")):
            ours, others = ([one[place] for one in told[name]] for name in self.servers)
            if None in ours:
                row += ["–"] * 3
                continue
            parts = sorted(one / max(other, 0.01) for one, other in zip(ours, others))
            row += [form.format(statistics.median(ours)), form.format(statistics.median(others))]
            row.append("{:.2f} ({:.2f} {:.2f})".format(statistics.median(parts), parts[len(parts) // 4], parts[len(parts) * 3 // 4]))
        print(f"| {' | '.join(row)} |", flush=True)

    def calls(self):
        """The system's calls of a request, as perf counts them: epoll's, and what receives and sends."""
        for way, keys, length, options in WAYS if shutil.which("perf") else ():
            for threads, name in [(threads, name) for threads in self.words.threads.split(",") for name in self.servers]:
                process, port = self.start(name, "-m", "1024", "-t", threads)
                same = ["-k", keys, "-v", length]
                self.load(port, *same, "-f", "-n", 0.1)
                counter = ["perf", "stat", "-x", ",", "-e", "raw_syscalls:sys_enter", "-p", str(process.pid), "--"]
                asked = [self.words.load, "-p", port, *same, "-T", 2, "-C", 16, "-e", EXAMINED, "-N", CALLS_OF, "-n", 600, *options]
                said = subprocess.run([*counter, *map(str, asked)], capture_output=True, text=True).stderr
                count = re.search(r"^(\d+),", said, re.M)
                told = f"{int(count.group(1)) / CALLS_OF / 2:.2f}" if count else "perf can't count them"
                print(f"| calls of the system, {way}, {threads} threads, {name} | {told} |", flush=True)
                self.stop(process)

    def instructions(self):
        for (what, options, keys), name in [(way, name) for way in COUNTED for name in self.servers]:
            counts = []
            for requests in (FEWER, MORE):
                with tempfile.NamedTemporaryFile() as file:
                    tool = ["valgrind", "-q", "--tool=callgrind", f"--callgrind-out-file={file.name}"]
                    process, port = self.start(name, "-t", "1", "-o", "no_lru_crawler,no_lru_maintainer", before=tool, counted=True)
                    same = ["-T", 1, "-C", 1, "-k", 1000, "-n", 600]
                    self.load(port, *same, "-s", 0, "-f", "-N", 3000)
                    self.load(port, *same, *options, "-N", requests)
                    process.send_signal(2)
                    process.wait()
                    counts.append(int(re.search(r"^(?:summary|totals): (\d+)", Path(file.name).read_text(errors="replace"), re.M).group(1)))
            print(f"| {what}, {name} | {(counts[1] - counts[0]) / (MORE - FEWER) / keys:,.0f} |", flush=True)

    def rates(self):
        for what, options, memory in RATES:
            told = []
            for name in self.servers:
                process, port = self.start(name, "-m", memory)
                told.append(self.load(port, *options)["rate"])
                self.stop(process)
            print(f"| {what} | {told[0]:.2f} | {told[1]:.2f} |", flush=True)


def main():
    words = argparse.ArgumentParser(description=__doc__, formatter_class=argparse.RawDescriptionHelpFormatter)
    for name in ("server", "memcached", "load"):
        words.add_argument(name)
    for name, number in (("--rounds", 11), ("--clients", 2)):
        words.add_argument(name, type=int, default=number)
    words.add_argument("--seconds", type=float, default=0.4)
    words.add_argument("--threads", default="1,2,4")
    words.add_argument("--only", default="")
    words = words.parse_args()
    pair = Pair(words)
    for part in ("rates", "instructions", "calls", "speeds"):
        if words.only in part:
            getattr(pair, part)()


sys.exit(main())
