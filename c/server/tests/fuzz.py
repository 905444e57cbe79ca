"""Sessions of both protocols with faults in them, by a seed: a server answers what it can, and never hangs or ends.

    fuzz.py PORT SESSIONS [SEED] [OTHER]     so many mutated sessions; or, beside another server at the port OTHER, sessions without faults,
                                             whose answers are compared; status 1 where something was wrong"""
import random
import re
import socket
import struct
import sys
from pathlib import Path

HERE = Path(__file__).resolve().parent
sys.path[:0] = [str(HERE), str(HERE.parents[2] / "checks" / "lib")]
import binary
import protocol
from binary import BinaryClient, request
from client import Client

KEYS = [b"k1", b"k2", b"k3", b"n1", b"n2", b"k" * 250]
OPCODES = [code for code in range(0x25) if code not in (binary.QUIT, binary.QUITQ, 0x1B, 0x1F)]
QUIET = {binary.GETQ, binary.GETKQ, binary.SETQ, binary.ADDQ, binary.REPLACEQ, binary.DELETEQ, binary.INCREMENTQ, binary.DECREMENTQ, binary.FLUSHQ, binary.APPENDQ,
         binary.PREPENDQ, binary.GATQ, binary.GATKQ}
EXPIRES = [0, 0, 0, 1000, 2592001, 0xFFFFFFFF]


def right_request(chance):
    """A binary request as a client makes them."""
    code, key, value = chance.choice(OPCODES), chance.choice(KEYS), bytes(byte | 0x80 for byte in chance.randbytes(chance.choice([0, 1, 5, 5, 200, 5000])))
    unique, opaque = chance.choice([0, 0, 0, 0, 99999]), chance.getrandbits(32)
    if chance.randrange(3) == 0:
        value = b"%d" % chance.randrange(1000)
    if code in (binary.SET, binary.ADD, binary.REPLACE, binary.SETQ, binary.ADDQ, binary.REPLACEQ):
        return request(code, key, binary.flagged(chance.getrandbits(32), chance.choice(EXPIRES)), value, unique, opaque)
    if code in (binary.INCREMENT, binary.DECREMENT, binary.INCREMENTQ, binary.DECREMENTQ):
        return request(code, key, binary.counting(chance.choice([0, 1, 7, 2**64 - 1]), chance.choice([0, 5, 2**64 - 1]), chance.choice(EXPIRES)), b"", unique, opaque)
    if code in (binary.TOUCH, binary.GAT, binary.GATQ, binary.GATK, binary.GATKQ):
        return request(code, key, binary.seconds(chance.choice(EXPIRES)), b"", 0, opaque)
    if code in (binary.FLUSH, binary.FLUSHQ):
        return request(code, b"", chance.choice([b"", binary.seconds(0)]), b"", 0, opaque)
    if code in (binary.APPEND, binary.PREPEND, binary.APPENDQ, binary.PREPENDQ):
        return request(code, key, b"", value[:200], unique, opaque)
    if code in (binary.DELETE, binary.DELETEQ):
        return request(code, key, b"", b"", unique, opaque)
    if code == binary.STAT:
        return request(code, b"reset", b"", b"", 0, opaque)
    if code in (binary.NOOP, binary.VERSION, binary.SASL_LIST):
        return request(code, opaque=opaque)
    return request(code, key, b"", b"", 0, opaque)


def mutated(session, chance):
    """Bytes changed, left out, doubled or put in; mostly in heads, where a length is."""
    session = bytearray(session)
    for _ in range(chance.choice([0, 1, 1, 2, 5])):
        at = chance.randrange(len(session))
        kind = chance.randrange(5)
        if kind < 2:
            session[at] = chance.choice([0, 1, 0x80, 0xFF, chance.randrange(256)])
        elif kind == 2:
            del session[at:at + chance.randrange(1, 40)]
        elif kind == 3:
            session[at:at] = session[at:at + chance.randrange(1, 60)]
        else:
            session[at:at] = chance.randbytes(chance.randrange(1, 30))
        if not session:
            return b"\x80"
    return bytes(session)


def binary_session(chance):
    """With heads that say what isn't so, beside right ones."""
    session = []
    for _ in range(chance.randrange(1, 40)):
        if chance.randrange(8) == 0:
            head = struct.pack(binary.HEAD, 0x80, chance.randrange(256), chance.choice([0, 1, 5, 250, 251, 65535]), chance.choice([0, 4, 8, 20, 255]), chance.randrange(9),
                               chance.getrandbits(16), chance.choice([0, 1, 5, 12, 28, 300, 2**31, 2**32 - 1]), chance.getrandbits(32), chance.getrandbits(64))
            session.append(head + chance.randbytes(chance.choice([0, 5, 40, 300])))
        elif chance.randrange(30) == 0:
            session.append(request(binary.STAT, chance.choice([b"", b"settings", b"items", b"slabs", b"conns", b"detail on", b"detail dump", b"sizes_enable", b"sizes_disable", b"sizes", b"\0\0"])))
        else:
            session.append(right_request(chance))
    return b"".join(session)


def text_session(chance):
    """Rows of the text protocols, in another order."""
    rows = chance.choices(protocol.ROWS, k=chance.randrange(1, 40))
    watching = b"watch fetchers mutations evictions deletions\r\n" if chance.randrange(10) == 0 else b""
    return watching + b"".join(re.sub(r"%\w+%", "7", row[0]).encode() + b"\r\n" for row in rows if len(row[0]) < 5000)


class Fuzz:
    def __init__(self, port, seed):
        self.port, self.chance, self.sent, self.answered = port, random.Random(seed), 0, 0

    def send(self, session):
        """Sends a session, says that there is no more, and reads until the server closes the connection."""
        with socket.create_connection(("127.0.0.1", self.port), timeout=120) as link:
            try:
                half = self.chance.randrange(len(session) + 1)
                for part in (session[:half], session[half:]):
                    link.sendall(part)
                link.shutdown(socket.SHUT_WR)
                while True:
                    got = link.recv(1 << 16)
                    if not got:
                        return
                    self.answered += len(got)
            except (ConnectionResetError, BrokenPipeError):
                return  # the server closed it first
            except OSError as fault:
                if not isinstance(fault, socket.timeout):
                    return
                raise

    def run(self, sessions):
        """What was wrong."""
        for i in range(sessions):
            session = (binary_session if i % 2 else text_session)(self.chance)
            if not session:
                continue
            self.sent += 1
            try:
                self.send(mutated(session, self.chance))
            except OSError as fault:
                return f"session {i}: {fault}"
        client = Client(self.port)
        return "" if client.set(b"after", b"1") and client.get(b"after") == b"1" else "it doesn't serve any more"


def shown(answer):
    """What is the same on both servers: not the number for cas itself, nor blanks behind a number."""
    opcode, status, extras, key, value, unique, opaque = answer
    if re.fullmatch(rb"\d+ +", value):
        value = value.rstrip()
    return opcode, status, extras, key, value[:60], len(value), unique != 0, opaque


# A number that gets shorter has blanks behind. memcached leaves them out where its maintainer holds the item just then.
NUMBER = re.compile(rb"(VALUE \S+ \d+|VA) \d+( \S+)*\r\n(\d+) *\r\n")


LONG_KEY = re.compile(rb"^ *(gets?|gats?|bget) [^\n]*[^ \n]{251}", re.M)


def leveled(answer):
    """Without what differs from server to server, or by when it is asked."""
    return NUMBER.sub(rb"\1\2\r\n\3\r\n", re.sub(rb"(c)\d+|(VALUE \S+ \d+ \d+) \d+|\b(t|l)\d+", rb"\1\2\3", answer))


class Beside:
    """The same requests to two servers."""

    def __init__(self, port, other, seed):
        self.ports, self.chance, self.requests = (port, other), random.Random(seed), 0

    def compare_binary(self, sessions):
        wrong = []
        clients = [BinaryClient(port) for port in self.ports]
        for _ in range(sessions):
            asked = [right_request(self.chance) for _ in range(self.chance.randrange(1, 40))]
            self.requests += len(asked)
            answers = [[shown(answer) for answer in client.ask(*asked)] for client in clients]
            wrong += [f"{mine} beside {other}" for mine, other in zip(*answers) if mine != other][:1]
            if len(answers[0]) != len(answers[1]):
                wrong.append(f"{len(answers[0])} beside {len(answers[1])} answers to {[one[1] for one in asked]}")
        return wrong

    def compare_text(self, rows):
        """Rows in another order, without those whose answer tells of times, memory or the server."""
        wrong = []
        clients = [Client(port) for port in self.ports]
        for _ in range(rows):
            row = self.chance.choice(COMPARED)
            self.requests += 1
            answers = [leveled(client.ask(row.encode() + b"\r\n")) for client in clients]
            if answers[0] != answers[1]:
                wrong.append(f"{row[:60]!r}: {answers[0][:80]} beside {answers[1][:80]}")
        return wrong

    def compare_mutated(self, sessions):
        """Sessions of such rows with faults in them, each by a connection of its own. Behind each come lines enough to end a value that isn't whole:
        for memcached forgets answers where a connection ends in the midst of one. It does, too, where a key of a get is too long."""
        wrong = []
        for _ in range(sessions):
            rows = self.chance.choices(COMPARED, k=self.chance.randrange(1, 20))
            session = mutated(b"".join(row.encode() + b"\r\n" for row in rows), self.chance)
            if LONG_KEY.search(session):
                continue
            self.requests += session.count(b"\n")
            answers = [leveled(self.talk(port, session + b"\r\n" + b"mn\r\n" * 1500)) for port in self.ports]
            if answers[0] != answers[1]:
                at = next((i for i, (one, other) in enumerate(zip(*answers)) if one != other), min(map(len, answers)))
                wrong.append(f"{session[:60]}..: {answers[0][at:at + 60]} beside {answers[1][at:at + 60]}")
        return wrong

    @staticmethod
    def talk(port, session):
        """All answers, up to the connection's end."""
        parts = []
        Client(port).ask(b"flush_all\r\n")
        with socket.create_connection(("127.0.0.1", port), timeout=120) as link:
            try:
                link.sendall(session)
                link.shutdown(socket.SHUT_WR)
                while not parts or parts[-1]:
                    parts.append(link.recv(1 << 16))
            except (ConnectionResetError, BrokenPipeError):
                pass  # the server closed it first
        return b"".join(parts)


# Without what differs by name in c/server/README.md, and what is asked of the server itself. Where a value is blanks alone, as z may be,
# memcached reads a number in the memory behind it.
APART = re.compile(r"(incr|decr|set) z|stats|lru|slabs|cache_memlimit|shutdown|debugtime|watch|verbosity|.*flush_all|me |.* \d{10,}|.*%\w+%|.* -\d{5,}|mg \S+ .*[RN]")
COMPARED = [request for request, _ in protocol.ROWS if request and not APART.match(request.replace("\r\n", " ")) and len(request) < 5000]


if __name__ == "__main__":
    port, count, seed = (int(word) for word in [*sys.argv[1:3], *(sys.argv[3:4] or ["1"])])
    if len(sys.argv) > 4:
        beside = Beside(port, int(sys.argv[4]), seed)
        wrong = beside.compare_binary(count) + beside.compare_text(count * 10)
        print(f"{beside.requests} requests, {len(wrong)} answered in another way")
        print("\n".join(wrong[:20]))
    else:
        fuzz = Fuzz(port, seed)
        wrong = fuzz.run(count)
        print(f"{fuzz.sent} sessions, {fuzz.answered} bytes of answers; {wrong or 'all right'}")
    sys.exit(bool(wrong))
