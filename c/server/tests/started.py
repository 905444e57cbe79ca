"""A server that is started for a check, and what a check does with the system: ports, files, commands."""
import os
import re
import signal
import socket
import subprocess
import tempfile
import time

import c_checks

ENDED = re.compile(r"ended with (\d+) connections and (\d+) items; (\d+) bumps were applied at the end; (\d+) of (\d+) workers weren't settled, "
                   r"(\d+) chunks were still held, (\d+) bytes left")
WHO = ["-u", "root"] if os.geteuid() == 0 else []  # root has to say whom to be


def run(words, seconds=3600, **more):
    """A command's status, and what it wrote and said."""
    status, written, said = c_checks.run(words, seconds, stderr=subprocess.STDOUT, errors="replace", **more)
    return status, written or said


def free_port():
    with socket.socket() as one:
        one.bind(("127.0.0.1", 0))
        return one.getsockname()[1]


def appears(path, seconds=60):
    """Waits until a file is there."""
    for _ in range(seconds * 20):
        if path.exists():
            return True
        time.sleep(0.05)
    return False


def goes(path, seconds=60):
    """Waits until a file, or a process by its folder, is there no more; a process that nobody waits for is gone, too."""
    for _ in range(seconds * 20):
        try:
            if not path.exists() or ") Z " in (path / "stat").read_text():
                return True
        except OSError:
            return True
        time.sleep(0.05)
    return False


class Server:
    """A server that runs; at the end of a with it is ended, and how it ended is told. It frees each item at its end, unless it doesn't walk."""

    def __init__(self, program, *options, before=(), port=None, seconds=120, environment=None, walks=True):
        self.port = port or free_port()
        self.said = tempfile.TemporaryFile(mode="w+")
        words = [str(word) for word in (*before, program, "-p", self.port, *WHO, *(["--walk"] if walks else []), *options)]
        self.process = subprocess.Popen(words, stderr=self.said, env={**os.environ, **(environment or {})})
        self.wait(seconds)

    def wait(self, seconds):
        for _ in range(int(seconds * 20)):
            try:
                socket.create_connection(("127.0.0.1", self.port), timeout=1).close()
                return
            except OSError:
                if self.process.poll() is not None:
                    raise RuntimeError("it ended at once: " + self.words()) from None
                time.sleep(0.05)
        raise RuntimeError("it doesn't listen")

    def words(self):
        self.said.seek(0)
        return self.said.read()

    def end(self, by=signal.SIGTERM, seconds=600):
        """What was wrong with its end."""
        if by is not None:
            self.process.send_signal(by)
        try:
            status = self.process.wait(seconds)
        except subprocess.TimeoutExpired:
            self.process.kill()
            self.process.wait()
            return "it didn't end"
        said = self.words()
        rest = ENDED.search(said)
        if status or not rest:
            return f"status {status}: {said[-600:]}"
        return "" if rest.groups()[3] == "0" and rest.groups()[5:] == ("0", "0") else said[-600:]

    def __enter__(self):
        return self

    def __exit__(self, kind, *_):
        if self.process.poll() is None:
            self.process.kill()
            self.process.wait()
        self.said.close()
