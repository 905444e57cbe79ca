"""Clients that sent something while the server slept are all served then: each gets its own answer, whether the system's calls for them are made
together or one by one."""
import ctypes
import os
import signal
import socket
import time
from pathlib import Path

from c_checks import tell, why
from client import Client
from started import Server, run

HERE = Path(__file__).resolve().parent
VALUES = {b"small": b"s" * 100, b"apart": b"a" * 20_000, b"large": b"l" * 900_000}
ROUNDS, TIMES = 4, 3
# By failing_calls.c: from which call on, and how; and whether io_uring is given up for it.
FAILURES = [(f"{number}:{way}", True) for number in (1, 2, 100) for way in ("refused", "done", "half", "part")] + [("1:short", True), ("1:passing", False)]
SAYS = "each call is made by itself from now on"
# Its number, and the bit among the features that it tells by which it is of Linux 6.0 or later.
IO_URING_SETUP, LINKED_FILE = 425, 1 << 12


def lets_io_uring():
    """Whether the kernel has it as it is needed, and lets this process have it."""
    given = (ctypes.c_uint32 * 30)()
    file = ctypes.CDLL(None, use_errno=True).syscall(IO_URING_SETUP, 1, given)
    if file >= 0:
        os.close(file)
    return file >= 0 and given[5] & LINKED_FILE != 0


def told(*keys):
    return b"".join(b"VALUE %s 0 %d\r\n%s\r\n" % (key, len(VALUES[key]), VALUES[key]) for key in keys) + b"END\r\n"


# What each client sends, what of it comes later, and what it is answered; None: it goes away at once.
ASKED = [(b"get small\r\n", b"", told(b"small")), (b"get apart\r\n", b"", told(b"apart")), (b"get large\r\n", b"", told(b"large")),
         (b"get none\r\n", b"", b"END\r\n"), (b"set new 0 0 3\r\nnew\r\n", b"", b"STORED\r\n"),
         (b"set long 0 0 100000\r\n" + b"x" * 60_000, b"x" * 40_000 + b"\r\n", b"STORED\r\n"), (b"get sma", b"ll apart\r\n", told(b"small", b"apart")),
         (b"get small\r\n" * 200, b"", told(b"small") * 200), (b"get large apart\r\n" * 6, b"", told(b"large", b"apart") * 6),
         (b"set quiet 0 0 1 noreply\r\nq\r\n", b"mn\r\n", b"MN\r\n"), (b"get small\r\nquit\r\n", b"", told(b"small")), (b"", b"mn\r\n", b"MN\r\n"),
         (b"\x80\x0b" + bytes(22), b"", b"\x81\x0b" + bytes(9) + b"\x06" + bytes(12) + b"1.6.18"), (b"get large\r\n", None, None), (b"", None, None),
         (b"delete none\r\nmg small v\r\n", b"", b"NOT_FOUND\r\nVA 100\r\n" + VALUES[b"small"] + b"\r\n")]


class Together:
    def check_together(self):
        for options in ([], ["-o", "no_io_uring"]):
            name = " ".join(["clients that sent while the server slept are each answered", *options])
            with Server(self.program, "-t", 1, "-m", 256, *options) as server:
                client, wrong = Client(server.port), self.rounds_faults(server, ROUNDS)
                tell(name, "; ".join(wrong[:5]))
                together, lets = int(client.stats("bump")["calls_together"]), lets_io_uring() and not options
                tell(f"{together} of the system's calls for them were made together", "" if (together >= ROUNDS * len(ASKED)) == lets and (together > 0) == lets else
                     f"the kernel {'lets' if lets else 'does not let'} it")
                tell("then it ends with nothing left", server.end())
        self.check_failing_calls()

    def check_failing_calls(self):
        """Where io_uring fails, at once or later, each call is made all the same, and once; and it isn't asked again and again."""
        shared = self.folder / "failing_calls.so"
        compiler = ["gcc", "-std=c11", "-O2", "-Wall", "-Wextra", "-Werror", "-shared", "-fPIC", HERE / "failing_calls.c", "-o", shared, "-ldl"]
        if not tell("failing_calls.c compiles", why(run(compiler))):
            return
        if not lets_io_uring():
            print("missing: io_uring: its failures aren't tried", flush=True)
            return
        for failure, gives_up in FAILURES:
            with Server(self.program, "-t", 2, "-m", 256, environment={"LD_PRELOAD": str(shared), "FAILING_CALLS": failure}) as server:
                wrong = self.failing_faults(server, int(failure.split(":")[0]), gives_up) or server.end()
                tell(f"calls by io_uring that fail ({failure}) are made, and once", wrong)

    def failing_faults(self, server, number, gives_up):
        try:
            wrong = self.rounds_faults(server, 1 + number // 4, 10)
            together = [self.together(server)]
            wrong += self.rounds_faults(server, 1, 10)
            together.append(self.together(server))
        except (OSError, ValueError) as fault:
            return f"{fault!r}: {server.words()[-200:]}"
        if gives_up != (SAYS in server.words()) or gives_up == (together[0] < together[1]):
            wrong.append(f"{together} calls were made together, and it says {server.words()!r}")
        return "; ".join(wrong[:5])

    @staticmethod
    def together(server):
        return int(Client(server.port, 10).stats("bump")["calls_together"])

    def rounds_faults(self, server, rounds, seconds=60):
        client = Client(server.port, seconds)
        for key, value in VALUES.items():
            client.set(key, value)
        return [fault for _ in range(rounds) for fault in self.round_faults(server, seconds)]

    @staticmethod
    def round_faults(server, seconds):
        """What all clients send stands in their sockets when the server wakes."""
        asked = [(Client(server.port, seconds), number, *asked) for number, asked in enumerate(ASKED * TIMES)]
        Client(server.port, seconds).ask(b"mn\r\n")  # those before are accepted by now
        state = Path(f"/proc/{server.process.pid}/stat")
        server.process.send_signal(signal.SIGSTOP)
        while ") T " not in state.read_text():
            time.sleep(0.01)
        for client, _, first, later, _ in asked:
            client.socket.sendall(first)
            if later is None:
                client.close()
        server.process.send_signal(signal.SIGCONT)
        faults = []
        for client, number, first, later, answer in asked:
            if later is None:
                continue
            client.socket.sendall(later)
            client.socket.shutdown(socket.SHUT_WR)
            got = more = client.socket.recv(1 << 20)
            while more:  # up to the end: nothing comes twice
                more = client.socket.recv(1 << 20)
                got += more
            if got != answer:
                faults.append(f"client {number} that sent {first[:30]} is answered {got[:60]} .. {len(got)} bytes, not {len(answer)}")
            client.close()
        return faults
