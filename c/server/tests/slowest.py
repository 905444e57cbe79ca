#!/usr/bin/env python3
"""Gets one key again and again, until its standard input ends, and prints how many gets these were, how many microseconds the slowest one
took, and for how many of them the server's process worked: the most of one get. With a length it stores a value of so many bytes in place of
each get. slowest.py PORT PROCESS [LENGTH]

While this waits for a processor, the server works on for others, though its answer is there already; and while the server's thread waits for
one, the maintainer may work, which it needn't wait for. Neither is counted. The server has one thread that serves."""
import os
import select
import socket
import sys
import time
from pathlib import Path

try:
    os.setsid()
    os.nice(-10)  # what else the machine does isn't what is measured
    Path("/proc/self/autogroup").write_text("-20")
except OSError:
    pass
link = socket.create_connection(("127.0.0.1", int(sys.argv[1])), timeout=120)
link.setsockopt(socket.IPPROTO_TCP, socket.TCP_NODELAY, 1)
# Linux's clock of the time that all threads of another process ran (clock_getcpuclockid).
WORK = (~int(sys.argv[2]) << 3) | 2
TASKS = Path(f"/proc/{sys.argv[2]}/task").iterdir()
WAITED = [Path("/proc/self/schedstat"), *(task / "schedstat" for task in TASKS if (task / "comm").read_text() == "bump-serves\n")]
REQUEST, END = b"get watched\r\n", b"END\r\n"
if len(sys.argv) > 3:
    REQUEST, END = b"set watched 0 0 %d\r\n%s\r\n" % (int(sys.argv[3]), bytes(int(sys.argv[3]))), b"STORED\r\n"


def waited():
    """The seconds for which both waited for a processor."""
    return sum(int(file.read_text().split()[1]) for file in WAITED) / 1e9


slowest = most_work = count = 0
while True:
    before = waited()
    begins, worked = time.monotonic(), time.clock_gettime(WORK)
    link.sendall(REQUEST)
    got = b""
    while not got.endswith(END):
        more = link.recv(4096)
        if not more:
            sys.exit("the server closed the connection")
        got += more
    took, worked = time.monotonic() - begins, time.clock_gettime(WORK) - worked
    took -= waited() - before
    # Several threads may have worked longer together than the get took.
    slowest, most_work = max(slowest, took), max(most_work, min(took, worked))
    count += 1
    if count == 1:
        slowest = most_work = 0
        print("gets", flush=True)
    if select.select([sys.stdin], [], [], 0)[0]:
        break
print(count, int(slowest * 1e6), int(most_work * 1e6), flush=True)
