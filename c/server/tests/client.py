"""A client that asks, and reads until what comes next would be another answer."""
import socket
import zlib

TOKEN = b"mg nobody-has-this-key O%d\r\n"
ANSWER = b"EN O%d\r\n"


class Client:
    def __init__(self, port, seconds=60):
        self.port, self.seconds, self.count = port, seconds, 0
        self.socket = socket.create_connection(("127.0.0.1", port), timeout=seconds)
        self.socket.setsockopt(socket.IPPROTO_TCP, socket.TCP_NODELAY, 1)
        self.held = b""

    def close(self):
        self.socket.close()

    def until(self, end):
        """What comes up to these bytes, which are left out."""
        while end not in self.held:
            got = self.socket.recv(1 << 16)
            if not got:
                raise ConnectionError("the server closed the connection")
            self.held += got
        answer, self.held = self.held.split(end, 1)
        return answer

    def ask(self, request):
        """A request's whole answer: behind the request comes another one, whose answer ends it."""
        self.count += 1
        self.socket.sendall(request + TOKEN % self.count)
        return self.until(ANSWER % self.count)

    def stats(self, what=""):
        lines = self.ask(b"stats " + what.encode() + b"\r\n").decode("latin-1").split("\r\n")
        return dict(line.split(" ", 2)[1:] for line in lines if line.startswith("STAT ") and line.count(" ") >= 2)

    def set(self, key, value, expires=0):
        return self.ask(b"set %s 0 %d %d\r\n%s\r\n" % (key, expires, len(value), value)) == b"STORED\r\n"

    def get(self, key):
        answer = self.ask(b"get %s\r\n" % key)
        if answer == b"END\r\n":
            return None
        head, value = answer.split(b"\r\n", 1)
        length = int(head.split()[3])
        if head != b"VALUE %s 0 %d" % (key, length) or value[length:] != b"\r\nEND\r\n":
            raise ValueError(f"a wrong answer to get {key!r}: {answer[:80]!r}")
        return value[:length]


def value_for(key, number, length):
    """A value that has its key and a checksum."""
    body = (b"%s:%d:" % (key, number) + bytes((number + i) % 256 for i in range(61)) * (length // 61 + 1))[:length + len(key) + 8]
    return body + b":%08x" % zlib.crc32(body)


def is_right(key, value):
    return value.startswith(key + b":") and value[-9:] == b":%08x" % zlib.crc32(value[:-9])
