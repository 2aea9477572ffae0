"""commit.py ADDRESS PORT KEY: puts a key in a transaction, and prints the outcome of each of its requests.

All requests go out in one pipeline. If the connection breaks, the first line says why.

The package is that of ../python, else the installed one. It loads python/bolt/libbolt.so, which scripts/build_libbolt
makes, or the library that the variable BOLT_SO names, as out/unproved/libbolt.so.
"""
import os
import sys

sys.path.insert(0, os.path.join(os.path.dirname(os.path.abspath(__file__)), "..", "python"))
import bolt


def commit(address: str, port: int, key: str) -> list[bolt.Request]:
    with bolt.connect(address, port, auth=("user", "pass")) as connection:
        with connection.pipeline() as asked:
            asked.begin()
            asked.run("PUT", key=key, value=1)
            asked.commit()
        return connection.session.requests


def escaped(text: str) -> str:
    """Returns a server's text on one line: what isn't printable is escaped."""
    return "".join(it if it.isprintable() else ascii(it)[1:-1] for it in text)


def main(address: str, port: str, key: str) -> None:
    try:
        requests = commit(address, int(port), key)
    except bolt.Broken as broken:
        print(f"the connection broke: {broken.why}")
        requests = broken.requests
    except bolt.Refused as refused:
        # The server chooses the code. After "refused: " it can't look like a line of an outcome.
        print(f"refused: {escaped(str(refused))}")
        requests = refused.requests
    except bolt.NotSent as unsent:
        print(unsent)
        requests = []
    for request in requests:
        print(f"{request.text}: {request.outcome}")


if __name__ == "__main__":
    if len(sys.argv) != 4:
        sys.exit(__doc__)
    main(*sys.argv[1:])
