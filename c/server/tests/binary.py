"""The binary protocol: a client of it, and what is asked of a fresh server with what memcached 1.6.18 answers.

A row has requests, and an answer for each that is answered, as (status, extras, key, value). Rows are in order."""
import socket
import struct
import time

from c_checks import tell
from client import Client, value_for
from started import Server

GET, SET, ADD, REPLACE, DELETE, INCREMENT, DECREMENT, QUIT, FLUSH, GETQ, NOOP, VERSION, GETK, GETKQ, APPEND, PREPEND, STAT = range(17)
SETQ, ADDQ, REPLACEQ, DELETEQ, INCREMENTQ, DECREMENTQ, QUITQ, FLUSHQ, APPENDQ, PREPENDQ, VERBOSITY, TOUCH, GAT, GATQ = range(17, 31)
SASL_LIST, SASL_AUTH, SASL_STEP, GATK, GATKQ = range(32, 37)
HEAD = ">BBHBBHIIQ"
NUMBER_OF_NOOP = 0xABCDEF
LONG = b"k" * 250


def request(opcode, key=b"", extras=b"", value=b"", unique=0, opaque=7, body=None, key_bytes=None):
    rest = extras + key + value
    return struct.pack(HEAD, 0x80, opcode, len(key) if key_bytes is None else key_bytes, len(extras), 0, 0, len(rest) if body is None else body, opaque, unique) + rest


def flagged(flags=0, expires=0):
    return struct.pack(">II", flags, expires)


def counting(by, initial=0, expires=0):
    return struct.pack(">QQI", by, initial, expires)


def seconds(number):
    return struct.pack(">I", number)


def number(value):
    return struct.pack(">Q", value)


class BinaryClient:
    def __init__(self, port, seconds=60):
        self.socket = socket.create_connection(("127.0.0.1", port), timeout=seconds)
        self.socket.setsockopt(socket.IPPROTO_TCP, socket.TCP_NODELAY, 1)
        self.held = b""

    def take(self, length):
        while len(self.held) < length:
            got = self.socket.recv(1 << 16)
            if not got:
                raise ConnectionError("the server closed the connection")
            self.held += got
        taken, self.held = self.held[:length], self.held[length:]
        return taken

    def answer(self):
        """The next answer: (opcode, status, extras, key, value, unique, opaque)."""
        magic, opcode, key_bytes, extras_bytes, kind, status, body, opaque, unique = struct.unpack(HEAD, self.take(24))
        if magic != 0x81 or kind != 0 or body < key_bytes + extras_bytes:
            raise ValueError(f"no head of an answer: {magic} {kind} {body}")
        rest = self.take(body)
        return opcode, status, rest[:extras_bytes], rest[extras_bytes:extras_bytes + key_bytes], rest[extras_bytes + key_bytes:], unique, opaque

    def ask(self, *requests):
        """The answers of requests, up to that of a no operation behind them."""
        self.socket.sendall(b"".join(requests) + request(NOOP, opaque=NUMBER_OF_NOOP))
        answers = []
        while True:
            answer = self.answer()
            if answer[0] == NOOP and answer[6] == NUMBER_OF_NOOP:
                return answers
            answers.append(answer)

    def ask_last(self, *requests):
        """The answers of requests behind which the server closes the connection."""
        self.socket.sendall(b"".join(requests))
        answers = []
        try:
            while True:
                answers.append(self.answer())
        except OSError:
            return answers


def done(extras=b"", key=b"", value=b""):
    return 0, extras, key, value


def fault(status, text, key=b""):
    return status, b"", key, text


MISSED, EXISTS = fault(1, b"Not found"), fault(2, b"Data exists for key.")
NOT_STORED, NO_NUMBER = fault(5, b"Not stored."), fault(6, b"Non-numeric server-side value for incr or decr")
UNKNOWN, INVALID, TOO_LARGE = fault(0x81, b"Unknown command"), fault(4, b"Invalid arguments"), fault(3, b"Too large.")
FIVE, NONE = seconds(5), seconds(0)

ROWS = [
    ([request(FLUSH)], [done()]),
    # storing and retrieving
    ([request(SET, b"a", flagged(5), b"hello"), request(GET, b"a"), request(GETK, b"a")], [done(), done(FIVE, b"", b"hello"), done(FIVE, b"a", b"hello")]),
    ([request(GET, b"none"), request(GETK, b"none"), request(GETQ, b"none"), request(GETKQ, b"none")], [MISSED, fault(1, b"", b"none")]),
    ([request(GETQ, b"a"), request(GETKQ, b"a")], [done(FIVE, b"", b"hello"), done(FIVE, b"a", b"hello")]),
    ([request(SETQ, b"a", flagged(5), b"x"), request(ADDQ, b"a", flagged(), b"y"), request(REPLACEQ, b"none", flagged(), b"z"),
      request(REPLACEQ, b"a", flagged(5), b"yy"), request(GET, b"a")], [EXISTS, MISSED, done(FIVE, b"", b"yy")]),
    ([request(ADD, b"a", flagged(), b"x"), request(REPLACE, b"none", flagged(), b"x"), request(ADD, b"b", flagged(), b"x"),
      request(REPLACE, b"b", flagged(), b"z"), request(GET, b"b")], [EXISTS, MISSED, done(), done(), done(NONE, b"", b"z")]),
    ([request(opcode, key, flagged(), b"x", unique=99999) for opcode in (SET, ADD, REPLACE) for key in (b"a", b"none")], [EXISTS, MISSED] * 3),
    ([request(SET, b"e", flagged()), request(GET, b"e"), request(SET, LONG, flagged(), b"l"), request(GETK, LONG)],
     [done(), done(NONE), done(), done(NONE, LONG, b"l")]),
    ([request(SET, b"any \r\n\0key", flagged(), bytes(range(256))), request(GETK, b"any \r\n\0key")], [done(), done(NONE, b"any \r\n\0key", bytes(range(256)))]),
    ([request(APPEND, b"b", b"", b"12"), request(PREPENDQ, b"b", b"", b"-"), request(APPENDQ, b"b", b"", b"3"), request(PREPEND, b"b", b"", b"<"), request(GET, b"b")],
     [done(), done(), done(NONE, b"", b"<-z123")]),
    ([request(opcode, b"none", b"", b"x") for opcode in (APPEND, PREPEND, APPENDQ, PREPENDQ)], [NOT_STORED] * 4),
    ([request(APPEND, b"b", b"", b"x", unique=99999)], [EXISTS]),
    ([request(SET, b"big", flagged(), b"z" * 600000), request(GET, b"big")], [done(), done(NONE, b"", b"z" * 600000)]),
    ([request(SET, b"big", flagged(), b"y" * 1100000), request(GET, b"big"), request(APPEND, b"b", b"", b"x" * 1100000)], [TOO_LARGE, MISSED, TOO_LARGE]),
    # ending
    ([request(DELETE, b"none"), request(DELETE, b"b", unique=99999), request(DELETEQ, b"none"), request(DELETEQ, b"b"), request(GET, b"b")],
     [MISSED, EXISTS, MISSED, MISSED]),
    # numbers
    ([request(INCREMENT, b"n", counting(5, 100)), request(INCREMENT, b"n", counting(5)), request(DECREMENT, b"n", counting(6)), request(GET, b"n")],
     [done(value=number(100)), done(value=number(105)), done(value=number(99)), done(NONE, b"", b"99 ")]),
    ([request(INCREMENTQ, b"n", counting(1)), request(DECREMENTQ, b"n", counting(200)), request(DECREMENT, b"n", counting(1))], [done(value=number(0))]),
    ([request(opcode, b"none", counting(5, 1, 0xFFFFFFFF)) for opcode in (INCREMENT, DECREMENT, INCREMENTQ, DECREMENTQ)], [MISSED] * 4),
    ([request(opcode, b"a", counting(5)) for opcode in (INCREMENT, DECREMENT, INCREMENTQ, DECREMENTQ)], [NO_NUMBER] * 4),
    ([request(INCREMENT, b"n", counting(1), unique=99999)], [EXISTS]),
    ([request(SET, b"n", flagged(), b"18446744073709551615"), request(INCREMENT, b"n", counting(2))], [done(), done(value=number(1))]),
    # times
    ([request(opcode, b"a", seconds(100)) for opcode in (TOUCH, GAT, GATQ, GATK, GATKQ)],
     [done(FIVE)] + [done(FIVE, b"", b"yy")] * 2 + [done(FIVE, b"a", b"yy")] * 2),
    ([request(opcode, b"none", seconds(100)) for opcode in (TOUCH, GAT, GATQ, GATK, GATKQ)], [MISSED, MISSED, fault(1, b"", b"none")]),
    ([request(GAT, b"a", seconds(0xFFFFFFFF)), request(GET, b"a"), request(GAT, b"a", seconds(2592001)), request(GET, b"a")], [done(FIVE, b"", b"yy")] * 3 + [MISSED]),
    ([request(SET, b"a", flagged(0, 2592001), b"x"), request(GET, b"a"), request(SET, b"a", flagged(0, 0xFFFFFFFF), b"x"), request(GET, b"a")],
     [done(), MISSED, done(), done(NONE, b"", b"x")]),
    # the server
    ([request(VERSION), request(NOOP)], [done(value=b"1.6.18"), done()]),
    ([request(VERBOSITY), request(0x2F), request(0xFF), request(SASL_LIST), request(SASL_AUTH, b"PLAIN", b"", b"\0a\0b"), request(SASL_STEP, b"PLAIN")], [UNKNOWN] * 6),
    ([request(VERBOSITY, b"", seconds(0)), request(0x30, b"key", b"xx", b"value")], [UNKNOWN] * 2),
    ([request(STAT, b"reset"), request(STAT, b"nothing")], [done(), MISSED]),
    ([request(SET, b"f", flagged(), b"x"), request(FLUSH, b"", seconds(1000)), request(GET, b"f"), request(FLUSHQ), request(GET, b"f")],
     [done(), done(), done(NONE, b"", b"x"), MISSED]),
]

# Requests that close the connection, with what they are answered.
LAST = [
    ([request(QUIT)], [done()]),
    ([request(QUITQ)], []),
    ([request(NOOP), b"\x81" + bytes(23)], [done()]),
    ([request(NOOP), b"version\r\n"], [done()]),
    ([request(GET, b"abc", body=1)], [UNKNOWN]),
    ([request(GET, b"k" * 251)], [INVALID]),
] + [([wrong], [INVALID]) for wrong in (
    request(GET), request(GET, b"a", b"1234"), request(GET, b"a", b"", b"x"), request(SET, b"a", b"1234", b"x"), request(SET, b"", flagged()), request(DELETE),
    request(APPEND, b"", b"", b"x"), request(INCREMENT, b"n", b"12345678"), request(TOUCH, b"a"), request(NOOP, b"k"), request(VERSION, b"k"), request(QUIT, b"k"),
    request(STAT, b"", b"1234"), request(FLUSH, b"", b"123"), request(SASL_LIST, b"x"))]


def wrong_answers(client, rows=None):
    """The rows that are answered in another way."""
    wrong = []
    for requests, wanted in rows or ROWS:
        got = client.ask(*requests)
        if [answer[1:5] for answer in got] != wanted or any(answer[6] != 7 for answer in got):
            wrong.append(f"{requests[0][:60]!r} is answered by {str(got)[:200]}, not by {str(wanted)[:200]}")
    return wrong


def unique_faults(client):
    """Numbers for cas: in answers to what stores, reads and counts, and in requests."""
    stored = client.ask(request(SET, b"u", flagged(), b"1"))[0][5]
    read, counted = (client.ask(asked)[0][5] for asked in (request(GET, b"u"), request(INCREMENT, b"u", counting(1))))
    again = [client.ask(request(opcode, b"u", flagged(), b"1", unique=unique))[0] for opcode, unique in ((SET, stored), (REPLACE, counted))]
    ended = client.ask(request(DELETE, b"u", unique=again[1][5]))[0]
    right = 0 < stored == read < counted < again[1][5] and again[0][1] == 2 and again[1][1] == 0 and ended[1] == 0
    return "" if right else f"{stored} {read} {counted} {again} {ended}"


class BinaryChecks:
    def check_binary(self):
        with Server(self.program, "-m", 64) as server:
            client = BinaryClient(server.port)
            tell(f"{len(ROWS)} rows of binary requests are answered as memcached answers them", "; ".join(wrong_answers(client)[:3]))
            tell("numbers for cas are told, and asked for", unique_faults(client))
            wrong = []
            for requests, wanted in LAST:
                got = BinaryClient(server.port).ask_last(*requests)
                if [answer[1:5] for answer in got] != wanted:
                    wrong.append(f"{requests[-1][:40]!r} is answered by {got}")
            tell(f"{len(LAST)} binary requests close the connection", "; ".join(wrong[:3]))
            tell("both protocols see each other's values", self.mixed_faults(server, client))
            tell("stats are told by the binary protocol", self.binary_stats_faults(server, client))
            tell("binary requests that come in parts are answered", "; ".join(self.parted_faults(server)[:3]))
            tell("then it ends with nothing left", server.end())
        self.check_chosen()

    @staticmethod
    def mixed_faults(server, client):
        text = Client(server.port)
        text.ask(b"set t 9 0 3\r\nabc\r\n")
        got = client.ask(request(SET, b"b", flagged(8), b"xyz"), request(GET, b"t"), request(SET, b"n l", flagged(), b"1"))
        answers = [text.ask(asked) for asked in (b"get b\r\n", b"mg biBs b k v\r\n", b"me biBs b\r\n")]
        right = got[1][2:5] == (seconds(9), b"", b"abc") and answers[:2] == [b"VALUE b 8 3\r\nxyz\r\nEND\r\n", b"VA 1 kbiBs b\r\n1\r\n"] and answers[2].startswith(b"ME biBs ")
        return "" if right else f"{got} {answers}"

    @staticmethod
    def binary_stats_faults(server, client):
        """The same names as by text, and an empty answer behind them."""
        text = Client(server.port)
        for what in (b"", b"settings", b"items", b"slabs", b"sizes", b"bump"):
            for _ in range(3):  # a class may come or go between the two
                asked, by_text = client.ask(request(STAT, what)), [*text.stats(what.decode()), ""]
                names = [answer[3].decode() for answer in asked]
                if names == by_text:
                    break
            if names != by_text or any(answer[1] for answer in asked) or asked[-1][2:5] != (b"", b"", b""):
                return f"stats {what}: {names[:5]} .. {names[-2:]}, by text {by_text[-2:]}"
        asked = [client.ask(request(STAT, b"detail " + what)) for what in (b"on", b"off", b"dump")]
        if [[answer[1] for answer in answers] for answers in asked] != [[0], [0], [0] * len(asked[2])] or asked[2][-1][2:5] != (b"", b"", b""):
            return f"stats detail: {asked}"
        for what in (b"conns", b"cachedump 1 1", b"detail"):
            if client.ask(request(STAT, what))[0][1:] != (*MISSED, 0, 7):
                return f"stats {what} is told"
        return ""

    @staticmethod
    def parted_faults(server):
        """A session that is cut at each of its places; and values that come slowly."""
        session = b"".join([request(SET, b"p", flagged(3), b"12345"), request(GETK, b"p"), request(INCREMENT, b"p", counting(1)), request(DELETE, b"p")])
        wanted, wrong = None, []
        for at in range(1, len(session)):
            client = BinaryClient(server.port)
            client.socket.sendall(session[:at])
            if at % 7 == 0:
                time.sleep(0.002)
            got = [answer[:5] for answer in client.ask(session[at:])]
            wanted = wanted or got
            if got != wanted or len(got) != 4:
                wrong.append(f"cut at {at}: {got}")
        client = BinaryClient(server.port)
        for length, parts in ((0, 1), (1, 2), (2, 2), (4095, 3), (4096, 3), (4097, 3), (5000, 4), (400000, 13), (900000, 40)):
            value = value_for(b"slow", length, length)[:length]
            asked = request(SET, b"slow", flagged(), value)
            step = len(asked) // parts + 1
            for at in range(0, len(asked), step):
                client.socket.sendall(asked[at:at + step])
                time.sleep(0.005)
            got = client.ask(request(GET, b"slow"))
            if [answer[1] for answer in got] != [0, 0] or got[1][4] != value:
                wrong.append(f"a value of {length} bytes in {parts} parts: {[answer[1] for answer in got]}")
        client.ask(request(DELETE, b"slow"))
        return wrong

    def check_chosen(self):
        """-B: one protocol alone."""
        with Server(self.program, "-B", "binary") as server:
            told = dict((answer[3], answer[4]) for answer in BinaryClient(server.port).ask(request(STAT, b"settings")))
            text = BinaryClient(server.port).ask_last(b"version\r\n" + bytes(24))
            tell("-B binary: text closes the connection", "" if not text and told[b"binding_protocol"] == b"binary" else f"{text} {told.get(b'binding_protocol')}")
            tell("then it ends with nothing left", server.end())
        with Server(self.program, "-B", "ascii") as server:
            client = Client(server.port)
            answer = client.ask(b"\x80\x0b\r\n")
            right = answer == b"ERROR\r\n" and client.stats("settings")["binding_protocol"] == "ascii"
            tell("-B ascii: the binary protocol's first byte is a word as any other", "" if right else repr(answer))
            tell("then it ends with nothing left", server.end())
        with Server(self.program, "-F") as server:
            got = BinaryClient(server.port).ask(request(FLUSH), request(FLUSHQ))
            tell("-F: a binary flush is refused", "" if [answer[1:5] for answer in got] == [fault(0x20, b"Auth failure.")] * 2 else str(got))
            tell("then it ends with nothing left", server.end())
