"""Runs stations: ports that are free, a process for each station, what they said."""

import atexit
import os
import socket
import subprocess
import tempfile

ROOT = os.path.dirname(os.path.dirname(os.path.dirname(os.path.dirname(os.path.abspath(__file__)))))
NODE = os.path.join(ROOT, "target", "host", "totem-node")
PATIENCE = 30  # seconds; longer is a failure


def free_ports(count):
    """Ports that nobody has now."""
    sockets = [socket.socket(socket.AF_INET, socket.SOCK_DGRAM) for _ in range(count)]
    for s in sockets:
        s.bind(("127.0.0.1", 0))
    ports = [s.getsockname()[1] for s in sockets]
    for s in sockets:
        s.close()
    return ports


def member_flags(ids, ports, ring=4):
    flags = ["--ring", str(ring)]
    for i, port in zip(ids, ports):
        flags += ["--member", f"{i}=127.0.0.1:{port}"]
    return flags


class Station:
    """One process. Output goes to files, so that no pipe fills up."""

    def __init__(self, flags, posts=None, stdout=None):
        """`posts` is all input; without it the input stays open, for `say`."""
        self.out = stdout or tempfile.TemporaryFile()
        self.err = tempfile.TemporaryFile()
        source = subprocess.PIPE
        if posts is not None:
            source = tempfile.TemporaryFile()
            source.write(posts)
            source.seek(0)
        self.process = subprocess.Popen([NODE] + flags, stdin=source, stdout=self.out, stderr=self.err)
        atexit.register(self.process.kill)  # none is left behind, whatever happens to this script

    def say(self, text):
        self.process.stdin.write(text)
        self.process.stdin.flush()

    def wait(self):
        """The exit status, or None where it had to be killed."""
        try:
            return self.process.wait(PATIENCE)
        except subprocess.TimeoutExpired:
            self.process.kill()
            self.process.wait()
            return None
        finally:
            if self.process.stdin:
                self.process.stdin.close()

    @staticmethod
    def _all(file):
        return os.pread(file.fileno(), 1 << 24, 0)

    def output(self):
        return self._all(self.out)

    def errors(self):
        return self._all(self.err).decode()


def run(flags, posts=b""):
    """Runs one to its end: status, standard output, standard error."""
    s = Station(flags, posts)
    return s.wait(), s.output(), s.errors()


def ring(ids, posts, flags=(), ports=None):
    """Starts a station for each id, each with its posts."""
    members = member_flags(ids, ports or free_ports(len(ids)))
    return [Station(members + ["--own", str(i), *flags], p) for i, p in zip(ids, posts)]
