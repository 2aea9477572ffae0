"""Servers that end a transaction of `until_known` in each way, and the fate that the client must report."""
import paths  # noqa: F401

import bolt
from tests.lib import fake_servers

DONE, told = fake_servers.DONE, fake_servers.told
# The answers to the login and to BEGIN, of a server without a name, and of one whose name says that it keeps tokens.
BEFORE = (fake_servers.V51, told(DONE, DONE), told(DONE))
NAMED = (fake_servers.V51, told(fake_servers.hello("BoltTable/1"), DONE), told(DONE))
RAN = told(DONE, DONE)
CLOSES_BEFORE_COMMIT = (*BEFORE, RAN, fake_servers.CLOSED)
CLASHES = (*NAMED, RAN, told(fake_servers.failure(fake_servers.CLASH)))
COMMITS = (*BEFORE, RAN, told(DONE))
# The name of a server, its answers, and the fate after one try.
FATES = (
    ("commits", COMMITS, bolt.STANDS),
    ("commits and says more than it may", (*BEFORE, RAN, told(DONE, DONE)), bolt.STANDS),
    ("closes before COMMIT is answered", CLOSES_BEFORE_COMMIT, bolt.OPEN),
    ("has other writes under the token", CLASHES, bolt.CLASH),
    ("refuses COMMIT", (*NAMED, RAN, told(fake_servers.failure(fake_servers.REFUSED))), bolt.REFUSED),
    ("refuses COMMIT, and has no name", (*BEFORE, RAN, told(fake_servers.failure(fake_servers.REFUSED))), bolt.OPEN),
    ("refuses COMMIT for now, and has no name", (*BEFORE, RAN, told(fake_servers.failure(fake_servers.BUSY))),
     bolt.OPEN),
    ("refuses RUN", (*BEFORE, told(fake_servers.failure(fake_servers.REFUSED))), bolt.REFUSED),
    ("refuses RUN for now", (*BEFORE, told(fake_servers.failure(fake_servers.BUSY))), bolt.ABSENT),
)


def check(test, until):
    """Checks the fate at each server. `until` takes a port, and tries a work once that returns 1."""
    for name, answers, fate in FATES:
        with test.subTest(f"a server that {name}"), fake_servers.Server([answers]) as server:
            known = until(server.port)
            test.assertEqual((fate, 1 if fate == bolt.STANDS else None), (known.fate, known.value), repr(known))
