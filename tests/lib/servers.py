"""Servers of this product, each at a free port of this machine and in a process group of its own."""
import socket
import subprocess
import threading

from tests.lib import programs


class Server:
    """A server that prints `listening PORT` as its first line. A `with` block ends it."""

    program, words = "bolt_server", ("0",)

    def __init__(self, **how):
        self.how = how
        self.start()

    def start(self):
        """Starts the server. A second call, after `kill`, starts it again."""
        how = {"stderr": subprocess.DEVNULL, **self.how}
        self.process = programs.start(self.program, self.words, **how)
        line = self.process.stdout.readline()
        if not line.startswith("listening "):
            programs.end(self.process)
            raise RuntimeError(f"{self.program} printed {line!r} in place of `listening PORT`")
        self.port = int(line.split()[1])
        # The server blocks if nobody reads its standard output.
        self.lines = []
        self.reader = threading.Thread(target=self._read, args=(self.process.stdout, self.lines), daemon=True)
        self.reader.start()

    @staticmethod
    def _read(stream, lines):
        for line in stream:
            lines.append(line)

    def kill(self):
        """Ends the server by SIGKILL."""
        self.process.kill()
        self.process.wait()
        self.reader.join()

    def __enter__(self):
        return self

    def __exit__(self, *_):
        self.kill()
        programs.end(self.process)


class ManyServer(Server):
    """`bolt_server`: up to 16 connections at once, its ledger in memory."""

    def __init__(self, *words, **how):
        self.words = ("0", *words)
        super().__init__(**how)


class ExampleServer(Server):
    """`examples server`: up to 16 connections at once, its ledger in memory. It waits 10 s for a silent client."""

    program, words = "examples", ("server", "0")


class FileServer(Server):
    """`lasting_server`: its ledger is the SQLite file, one connection after another."""

    program = "lasting_server"

    def __init__(self, file, *words, **how):
        self.words = ("0", str(file), *words)
        super().__init__(**how)


class OneServer(Server):
    """`bolt serve`: one connection after another, its ledger in memory.

    It takes no port 0, so a free port is found before."""

    program = "bolt"

    def __init__(self, connections=1_000_000, **how):
        self.connections = connections
        super().__init__(**how)

    def start(self):
        """Starts the server. If another process takes the port before the server does, tries another port."""
        for last in (False, False, False, False, True):
            with socket.socket() as taken:
                taken.bind(("127.0.0.1", 0))
                port = taken.getsockname()[1]
            self.words = ("serve", str(port), str(self.connections))
            try:
                return super().start()
            except RuntimeError:
                if last:
                    raise
