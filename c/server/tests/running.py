"""What an operator runs: addresses, users, daemons, limits, the unit file, large caches that end."""
import os
import pwd
import resource
import signal
import socket
import subprocess
import tempfile
import time
from pathlib import Path

from c_checks import tell, there, why
from client import Client
from started import ENDED, WHO, Server, appears, free_port, goes, run

HERE = Path(__file__).resolve().parent.parent


class Running:
    """The parts of a check of this program, which has a folder for what it makes."""

    def __init__(self, program, folder):
        self.program, self.folder = program, folder

    def check_addresses(self):
        """Several -l, some of them with ports and with commas between."""
        ports, hosts = [free_port() for _ in range(3)], ["127.0.0.1", "127.0.0.2"]
        options = ["-l", "127.0.0.1", "-l", f"127.0.0.1:{ports[0]},127.0.0.2", "-l", f"localhost:{ports[1]}"]
        try:
            with socket.socket(socket.AF_INET6) as one:
                one.bind(("::1", 0))
            options += ["-l", f"[::1]:{ports[2]},::1"]
        except OSError:
            print("missing: IPv6: its addresses aren't tried", flush=True)
            ports = ports[:2]
        with Server(self.program, *options) as server:
            wanted = [(host, server.port) for host in hosts] + [("127.0.0.1", port) for port in ports[:2]]
            wanted += [("::1", server.port), ("::1", ports[2])] if len(ports) > 2 else []
            wrong = []
            for place in wanted:
                try:
                    with socket.create_connection(place, timeout=20) as one:
                        one.sendall(b"mn\r\n")
                        wrong += [] if one.recv(100) == b"MN\r\n" else [f"{place} answers wrongly"]
                except OSError as fault:
                    wrong.append(f"{place}: {fault}")
            tell("it listens on each address of each -l, by their ports", "; ".join(wrong))
            tell("then it ends with nothing left", server.end())
        for wrong in ("127.0.0.1:x", "127.0.0.1:70000", "[::1", "[::1]x", "127.0.0.1:"):
            status = run([self.program, *WHO, "-p", free_port(), "-l", wrong], 60)[0]
            if status != 71:
                tell(f"-l {wrong} is refused", f"status {status}, not 71")
                return
        tell("wrong addresses are refused by status 71")

    def check_user(self):
        """Root says whom to be, and then the server is that one, and its socket's file is that one's."""
        if not WHO:
            print("missing: root: whom the server becomes isn't tried", flush=True)
            return
        status, written = run([self.program, "-p", free_port()], 60)
        right = status == 64 and "can't run as root without the -u switch" in written
        tell("root has to say whom to be", "" if right else f"status {status}: {written[-200:]}")
        nobody = pwd.getpwnam("nobody").pw_uid
        with tempfile.TemporaryDirectory() as folder, Server(self.program, "-u", "nobody") as server:
            os.chown(folder, nobody, -1)
            path = Path(folder) / "socket"
            other = subprocess.Popen([str(self.program), "-u", "nobody", "-s", str(path), "-a", "0770"], stderr=subprocess.DEVNULL)
            appears(path)
            owners = [Path(f"/proc/{server.process.pid}").stat().st_uid, path.stat().st_uid if path.exists() else None]
            tell("it becomes the user of -u, whose the file of -s is", "" if owners == [nobody, nobody] else f"{owners}, not {nobody}")
            other.terminate()
            tell("then both end with nothing left", server.end() or ("" if other.wait(120) == 0 and not path.exists() else "the one of -s didn't"))

    def check_daemon(self):
        """-d, -r and -L, and the options of Debian's memcached.conf as they stand there."""
        nobody, port = pwd.getpwnam("nobody").pw_uid, free_port()
        with tempfile.TemporaryDirectory() as folder:
            if WHO:
                os.chown(folder, nobody, -1)
            path = Path(folder) / "number"
            options = f"-d -m 64 -p {port} -u nobody -l 127.0.0.1 -P {path}".split()
            status, written = run([self.program, *options], 60)
            if not tell("-d ends once the server serves", why((status, written)) or ("" if path.exists() else "there is no file of -P")):
                return
            number = int(path.read_text())
            server = Path(f"/proc/{number}")
            wrong = [] if Client(port).set(b"a", b"1") else ["it doesn't store"]
            wrong += [] if os.getsid(number) == number and os.readlink(server / "cwd") == "/" else ["it isn't apart from where it was started"]
            wrong += [] if {os.readlink(server / "fd" / str(file)) for file in range(3)} == {"/dev/null"} else ["it has the terminal"]
            tell("it serves apart from the terminal", "; ".join(wrong))
            again = run([self.program, "-d", *WHO, "-p", port], 60)
            tell("-d where the port is taken: status 71, and it says why", "" if again[0] == 71 and "in use" in again[1] else f"{again}")
            os.kill(number, signal.SIGTERM)
            tell("it ends by TERM, and takes the file of -P away", "" if goes(server) and not path.exists() else "it is still there")

    def check_cores(self):
        """-r raises the limit of cores, and -L says something or nothing."""
        hard = resource.getrlimit(resource.RLIMIT_CORE)[1]
        if hard == 0 or not there("prlimit", "-r isn't tried"):
            return
        with Server(self.program, "-r", "-L", before=["prlimit", "--core=0:"]) as server:
            limits = resource.prlimit(server.process.pid, resource.RLIMIT_CORE)
            tell("-r lets it leave a core", "" if limits[0] == limits[1] != 0 else f"{limits}: {server.words()[-200:]}")
            pages = Path("/sys/kernel/mm/transparent_hugepage/enabled")
            large = pages.exists() and "[always]" in pages.read_text()
            tell("-L is taken, and says where it has no effect", "" if large != ("-L has no effect" in server.words()) else server.words()[-200:])
            tell("then it ends with nothing left", server.end())

    def check_unit(self):
        """What systemd says of the unit file, for the program that was built."""
        if not there("systemd-analyze", "the unit file isn't tried"):
            return
        unit = self.folder / "bump-server.service"
        unit.write_text((HERE / unit.name).read_text().replace("/usr/local/bin/bump-server", str(self.program)))
        status, written = run(["systemd-analyze", "verify", "--man=no", unit], 120)
        said = [line for line in written.splitlines() if unit.name in line]  # and not of other units
        tell("systemd reads the unit file, and warns of nothing", why((status, written)) or "; ".join(said[:3]))
        status, written = run(["systemd-analyze", "security", "--no-pager", "--offline=true", "--threshold=20", unit], 120)
        if "unrecognized option" in written:
            print("missing: systemd-analyze security --offline: the unit's exposure isn't tried", flush=True)
        else:
            tell("the unit's exposure is at most 2.0", f"status {status}: {written[-120:]}" if status else "")

    def check_vanished(self):
        """The kernel asks after clients that say nothing: its timer of that kind runs at the server's end of a connection."""
        with Server(self.program) as server:
            client = Client(server.port)
            client.set(b"a", b"1")
            ends, timers = (f":{server.port:04X}", f":{client.socket.getsockname()[1]:04X}"), []
            for _ in range(50):
                rows = [line.split() for line in Path("/proc/net/tcp").read_text().splitlines()[1:]]
                timers = [row[5][:2] for row in rows if row[1].endswith(ends[0]) and row[2].endswith(ends[1])]
                if timers == ["02"]:
                    break
                time.sleep(0.1)
            tell("clients that vanished are found out by keepalive", "" if timers == ["02"] else f"timers {timers}")

    def check_few_files(self):
        """Under a hard limit of open files it takes as many connections as there may be, and says so."""
        if not (there("setpriv", "a hard limit of files isn't tried") and there("prlimit", "a hard limit of files isn't tried")):
            return
        before = ["prlimit", "--nofile=1024:1024", *(["setpriv", "--bounding-set=-sys_resource"] if WHO else [])]
        with Server(self.program, before=before) as server:
            most = Client(server.port).stats()["max_connections"]
            right = most == "768" and "no more than 1024 files may be open: it takes 768 connections" in server.words()
            tell("where 1024 files may be open it takes fewer connections than -c, and says so", "" if right else f"{most}: {server.words()[-200:]}")
            tell("then it ends with nothing left", server.end())

    def check_quick_end(self):
        """A large cache ends at once, and tells what it had, as one does that frees each item."""
        number, ends = 600_000, []
        for walks in (False, True):
            with Server(self.program, "-m", 256, walks=walks) as server:
                client = Client(server.port)
                for at in range(0, number, 10_000):
                    client.socket.sendall(b"".join(b"set q%d 0 0 1 noreply\r\nx\r\n" % i for i in range(at, at + 10_000)))
                client.ask(b"mn\r\n")
                begins = time.monotonic()
                wrong = server.end()
                took = time.monotonic() - begins
                rest = ENDED.search(server.words())
                items = int(rest.group(2)) if rest else -1
                ends.append(wrong or ("" if items == number else f"it ended with {items} items"))
                if not walks and took > 1:
                    ends.append(f"it took {took:.1f} seconds")
        tell(f"with {number} items it ends within a second, and says the same as with --walk", "; ".join(filter(None, ends)))
