"""Proxies that cut a connection after a number of bytes."""
import contextlib
import socket
import struct
import threading

# More bytes than any test sends.
MANY = 1 << 40


class Passing:
    """Passes one connection on, and cuts it after `told` bytes of the server or `asked` bytes of the client.

    Bytes count from the moment when `armed` is true. The cut closes both ends. If `resets` is true, it resets the
    client's end. `passed` counts the bytes of each direction.
    """

    def __init__(self, told=MANY, asked=MANY, resets=False, armed=True):
        self.resets, self.armed = resets, armed
        self.left, self.passed = {"told": told, "asked": asked}, {"told": 0, "asked": 0}

    def pass_on(self, client, port):
        """Connects to the port, and moves bytes in both directions until both ends are closed."""
        with client, socket.create_connection(("127.0.0.1", port)) as server:
            for it in (client, server):
                it.setsockopt(socket.IPPROTO_TCP, socket.TCP_NODELAY, 1)
            if self.resets:
                client.setsockopt(socket.SOL_SOCKET, socket.SO_LINGER, struct.pack("ii", 1, 0))
            self.client = client
            ends = [threading.Thread(target=self.move, args=it)
                    for it in (("told", server, client), ("asked", client, server))]
            for end in ends:
                end.start()
            for end in ends:
                end.join()

    def move(self, way, source, sink):
        """Moves the bytes of one direction (`told` or `asked`) until the source ends or the cut comes."""
        with contextlib.suppress(OSError):
            while piece := source.recv(65536):
                if self.armed:
                    piece = piece[:self.left[way]]
                    self.left[way] -= len(piece)
                    self.passed[way] += len(piece)
                sink.sendall(piece)
                if self.armed and self.left[way] == 0:
                    break
        for it in (source, sink):
            with contextlib.suppress(OSError):
                it.shutdown(socket.SHUT_RD if self.resets and it is self.client else socket.SHUT_RDWR)


class Proxy(Passing):
    """Accepts one connection and passes it on to `port`. It counts bytes after `arm` was called."""

    def __init__(self, port, told=MANY, asked=MANY, resets=False):
        super().__init__(told, asked, resets, armed=False)
        self.listener = socket.create_server(("127.0.0.1", 0))
        self.listener.settimeout(60)
        self.port = self.listener.getsockname()[1]
        self.over = threading.Thread(target=self.serve, args=(port,), daemon=True)
        self.over.start()

    def arm(self):
        """Starts to count bytes, so that the cut can come."""
        self.armed = True

    def end(self):
        """Stops to listen, and waits for the end of the connection."""
        with contextlib.suppress(OSError):
            self.listener.shutdown(socket.SHUT_RDWR)
        self.over.join()

    def serve(self, port):
        """Accepts the connection and passes it on."""
        with self.listener, contextlib.suppress(OSError):
            client, _ = self.listener.accept()
            self.listener.close()
            self.pass_on(client, port)


class Listening:
    """A free port of this machine. `answer`, which a subclass defines, serves its connections one after another."""

    def __init__(self):
        self.listener = socket.create_server(("127.0.0.1", 0))
        self.over = threading.Thread(target=self.serve, daemon=True)
        self.over.start()

    def serve(self):
        """Accepts connections until the listener is shut down."""
        while True:
            try:
                client, _ = self.listener.accept()
            except OSError:
                return
            self.answer(client)

    def __enter__(self):
        return self

    def __exit__(self, *_):
        with contextlib.suppress(OSError):
            self.listener.shutdown(socket.SHUT_RDWR)
        self.over.join()
        self.listener.close()


class Door(Listening):
    """Passes connections on to `port`, one after another. It cuts the first ones as `cuts` says, and no others.

    A cut is a dict of the keyword words of `Passing`. `passed` holds the counts of each connection.
    """

    def __init__(self, port, cuts):
        self.port, self.cuts, self.passed = port, list(cuts), []
        super().__init__()

    def answer(self, client):
        """Passes one connection on."""
        one = Passing(**(self.cuts.pop(0) if self.cuts else {}))
        with contextlib.suppress(OSError):
            one.pass_on(client, self.port)
        self.passed.append(one.passed)
