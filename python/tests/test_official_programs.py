"""Programs as users of the official driver write them, and further idioms, run with only the import
changed.

What they have to print is by the documentation of the official driver, and by the queries of
docs/PROFILE.md."""
import paths

import asyncio
import contextlib
import io
import os
import pathlib
import re
import subprocess
import sys
import tempfile
import textwrap
import types
import unittest
import unittest.mock

import driving
from tests.lib import programs

FILE = paths.ROOT / "python" / "tests" / "official_programs.txt"
BEFORE = """
import os, sys, asyncio, threading, queue, contextlib, logging, time
from datetime import date, datetime, timedelta, timezone
import neo4j
from neo4j import GraphDatabase, TrustCustomCAs
AUTH, URI = ("user", "pass"), os.environ["NEO4J_URI"]
driver = GraphDatabase.driver(URI, auth=AUTH)
"""
# What each program prints, as a pattern.
PRINTED = {
    "01": r"\[1, 2, 3\] \['i'\] \d+\n",
    "02": r"2 <Bookmarks \['bk:\d+'\]>\n",
    "03": r"3\n",
    "04": "",
    "05": r"500500\n",
    "06": r"\d{4}-\d\d-\d\d \d{4}-\d\d-\d\d \d\d:\d\d:\d\d(\.\d+)?\+00:00 1 4\.9\n"
    r"frozenset\({'A'}\) TO 2 None 1\n",
    "07": r"syntax Neo\.ClientError\.Statement\.UnknownText unknown text\n",
    "09": "",
    "10": r"1\n2\n3\n",
    "11": "",
    "12": "",
    "13": r"55\n",
}
IMPORTS = (
    (r"\bimport neo4j\b", "import bolt.compat as neo4j"),
    (r"\bfrom neo4j\b", "from bolt.compat"),
)


def ported(text):
    """Returns a program of the official driver with its imports changed."""
    for before, after in IMPORTS:
        text = re.sub(before, after, text)
    return text


class Frame:
    """The part of a data frame of pandas that the programs use."""

    def __init__(self, rows, columns):
        self.columns = dict(zip(columns, zip(*rows)))

    def __getitem__(self, name):
        return types.SimpleNamespace(sum=lambda: sum(self.columns[name]))


def pandas():
    """Returns the module pandas, or one that has what the programs use."""
    try:
        import pandas as found
    except ImportError:
        found = types.ModuleType("pandas")
        found.DataFrame = Frame
    return found


class Programs(driving.ServerCase):
    """The first programs of a week."""

    def setUp(self):
        super().setUp()
        changed = {"NEO4J_URI": driving.uri(self.port)}
        for patch in (
            unittest.mock.patch.dict(os.environ, changed),
            unittest.mock.patch.dict(sys.modules, pandas=pandas()),
        ):
            patch.start()
            self.addCleanup(patch.stop)
        parts = re.split(r"(?m)^# ---- ", FILE.read_text())[1:]
        self.programs = {it[:2]: f"# {it}" for it in parts}

    def ran(self, number):
        """Runs a program, and returns what it prints and its names."""
        # The server gives 1,024 rows at most.
        text = self.programs[number].replace("100_000", "1_000")
        text += "\nasyncio.run(main())\n" if number == "10" else ""
        names, said = {"__name__": "program"}, io.StringIO()
        with contextlib.redirect_stdout(said):
            exec(compile(ported(BEFORE), "before", "exec"), names)
            mine = names["driver"]
            try:
                exec(compile(ported(text), number, "exec"), names)
            finally:
                mine.close()
                names["driver"].close()
        return said.getvalue(), names

    def test_thirteen_programs_are_there(self):
        self.assertEqual([f"{it:02}" for it in range(1, 14)], sorted(self.programs))

    def test_programs_print_what_they_print_there(self):
        for number, pattern in PRINTED.items():
            if number not in ("09", "11", "12"):
                with self.subTest(self.programs[number].splitlines()[0]):
                    self.assertRegex(self.ran(number)[0], f"^{pattern}$")

    def test_options_that_cannot_be_sent_are_refused(self):
        # 08 has a time limit and metadata of a transaction.
        why = driving.raised(self.ran, "08")
        self.assertIn("timeout=3: this driver can't send it to the server", str(why))

    def test_drivers_by_tls(self):
        programs.needs("openssl")
        with tempfile.TemporaryDirectory() as folder:
            words = [
                "openssl",
                "req",
                "-x509",
                "-newkey",
                "rsa:2048",
                "-nodes",
                "-keyout",
                f"{folder}/key.pem",
                "-out",
                f"{folder}/ca.pem",
                "-days",
                "2",
                "-subj",
                "/CN=localhost",
            ]
            subprocess.run(words, check=True, stdout=subprocess.DEVNULL, stderr=subprocess.DEVNULL)
            before = pathlib.Path.cwd()
            os.chdir(folder)
            try:
                said, names = self.ran("09")
            finally:
                os.chdir(before)
        self.assertEqual(("", True), (said, names["driver"].encrypted))

    def test_logging_has_no_password(self):
        import logging

        logger = logging.getLogger("bolt")
        before = logger.level, list(logger.handlers)
        said = io.StringIO()
        with contextlib.redirect_stderr(said):
            self.ran("11")
        logger.setLevel(before[0])
        logger.handlers[:] = before[1]
        self.assertIn("connected, version 51", said.getvalue())
        self.assertNotIn("pass", said.getvalue())

    def test_annotations(self):
        _, names = self.ran("12")
        with self.driver(self.port) as driver:
            driver.execute_query("PUT", key="types", value=1)
            self.assertIn("types", names["names"](driver))


# Further idioms: what is evaluated with a driver `d` and a session `s`, and its value, or the name
# of what it raises.
IDIOMS = (
    ("[r['i'] for r in s.run('ROWS', n=5).fetch(2)]", [1, 2]),
    ("s.run('ROWS', n=5).peek()['i']", 1),
    ("(lambda r: (r.fetch(2), r.peek()['i'], len(list(r))))(s.run('ROWS', n=5))[1:]", (3, 3)),
    ("s.run('ROWS', {'n': 3}).value()", [1, 2, 3]),
    ("s.run('ROWS', {'n': 3}).value('no', 7)", [7, 7, 7]),
    ("s.run('ROWS', n=2).values()", [[1], [2]]),
    ("s.run('ROWS', n=2).data()", [{"i": 1}, {"i": 2}]),
    ("s.run('ROWS', n=0).single()", None),
    ("s.run('ROWS', n=0).single(strict=True)", "ResultNotSingleError"),
    ("s.run('ROWS', n=2).single(strict=True)", "ResultNotSingleError"),
    ("s.run('ROWS', n=1).single(strict=True)['i']", 1),
    ("s.run('ROWS', n=2).keys()", ["i"]),
    (
        "(lambda r: (r.value(), r.data(), r.items(), r.get('z', 0)))"
        "(d.execute_query('ECHO', x={'a': [1]}).records[0])",
        ({"a": [1]}, {"x": {"a": [1]}}, [("x", {"a": [1]})], 0),
    ),
    (
        "(lambda m: (m.query_type, m.counters.nodes_created, m.counters.contains_updates,"
        " m.database))"
        "(d.execute_query('ONE').summary)",
        ("r", 0, False, None),
    ),
    ("d.execute_query('ROWS', n=3).summary.query", "ROWS"),
    ("d.execute_query('ROWS', n=3).summary.parameters", {"n": 3}),
    ("d.execute_query('ROWS', {'n': 3}).keys", ["i"]),
    (
        "d.execute_query('ROWS', n=3, routing_='r', result_transformer_=neo4j.Result.value)",
        [1, 2, 3],
    ),
    (
        "d.execute_query('ROWS', n=3, routing_=neo4j.RoutingControl.READ, database_='neo4j')"
        ".records[2][0]",
        3,
    ),
    ("d.execute_query('ONE', database_='other')", "ConfigurationError"),
    ("d.execute_query('ONE', routing_='x')", "ConfigurationError"),
    ("d.execute_query('ONE', impersonated_user_='x')", "ConfigurationError"),
    ("(lambda r: (r.consume() and 0, list(r)))(s.run('ONE'))", "ResultConsumedError"),
    ("(lambda r: (s.close(), list(r)))(s.run('ONE'))", "ResultConsumedError"),
    ("s.close() or s.run('ONE')", "SessionError"),
    ("d.close() or d.session()", "DriverError"),
    ("d.close() or s.run('ONE')", "DriverError"),
    ("d.close() or d.execute_query('ONE')", "DriverError"),
    ("list(map(tuple, s.execute_read(lambda tx: list(tx.run('ROWS', n=2)))))", [(1,), (2,)]),
    (
        "s.execute_write(lambda tx, k, value: (tx.run('PUT', key=k, value=value),"
        " tx.run('GET', key=k).single()[0])[1],"
        " 'idiom', value=4)",
        4,
    ),
    ("s.execute_write(lambda tx: 1 / 0)", "ZeroDivisionError"),
    ("s.execute_write(lambda tx: (i for i in tx.run('ROWS', n=2)))", "TypeError"),
    ("s.run(neo4j.Query('ROWS'), n=2).value()", [1, 2]),
    ("neo4j.Query('ROWS', timeout=3)", "ConfigurationError"),
    ("neo4j.unit_of_work(timeout=3)", "ConfigurationError"),
    ("neo4j.unit_of_work()(len)('ab')", 2),
    ("s.run('ONE', timeout=3)", "TypeError"),
    ("s.run('NO SUCH')", "CypherSyntaxError"),
    ("s.run('ECHO', x={1, 2})", "TypeError"),
    ("s.run('ECHO', x=neo4j.time.Duration(months=1, days=2)).single()[0]", (1, 2, 0, 0)),
    ("s.run('ECHO', x=neo4j.spatial.CartesianPoint((1, 2, 3))).single()[0].srid", 9157),
    ("s.run('WALK').graph().nodes.__len__()", 2),
    ("s.run('WALK').data()", [{"p": [{}, "TO", {}]}]),
    ("d.get_server_info().protocol_version", (5, 1)),
    ("d.get_server_info().agent", "BoltTable/1"),
    ("d.verify_connectivity()", None),
    ("d.verify_authentication(('user', 'pass'))", True),
    ("d.verify_authentication(('user', 'no'))", False),
    ("GraphDatabase.driver('neo4j://h')", "ConfigurationError"),
    ("GraphDatabase.driver('http://h')", "ConfigurationError"),
    ("GraphDatabase.driver('bolt://h', no_option=1)", "ConfigurationError"),
    ("s.begin_transaction(metadata={'a': 1})", "ConfigurationError"),
    ("d.session(bookmarks=['b'])", "ConfigurationError"),
    ("d.session(bookmarks=[]).closed()", False),
    ("d.session(database='x')", "ConfigurationError"),
    ("d.session(default_access_mode='x')", "ConfigurationError"),
    ("d.session(no_option=1)", "ConfigurationError"),
    ("d.session(default_access_mode=neo4j.READ_ACCESS).run('ROWS', n=1).value()", [1]),
    ("s.begin_transaction().commit()", None),
    ("s.begin_transaction().closed()", False),
)


class Idioms(driving.ServerCase):
    """Idioms of one line, and some of several."""

    def test_idioms_of_one_line(self):
        import bolt.compat as neo4j

        for text, wanted in IDIOMS:
            with self.subTest(text):
                driver = self.driver(self.port)
                session = driver.session()
                names = {
                    "neo4j": neo4j,
                    "GraphDatabase": neo4j.GraphDatabase,
                    "d": driver,
                    "s": session,
                }
                try:
                    found = eval(text, names)
                except Exception as why:
                    found = type(why).__name__
                finally:
                    session.close()
                    driver.close()
                self.assertEqual(wanted, found)

    def test_transaction_without_a_block(self):
        with self.driver(self.port) as driver:
            session = driver.session()
            for ends, value in (("commit", 7), ("rollback", 7), ("close", 7)):
                with self.subTest(ends):
                    tx = session.begin_transaction()
                    tx.run("PUT", key="explicit", value=7 if ends == "commit" else 9)
                    getattr(tx, ends)()
                    tx.close()
                    self.assertTrue(tx.closed())
                    self.assertEqual(value, session.run("GET", key="explicit").single()["value"])
            session.close()

    def test_two_results_of_a_transaction(self):
        with self.driver(self.port) as driver, driver.session(fetch_size=2) as session:
            with session.begin_transaction() as tx:
                one, other = tx.run("ROWS", n=5), tx.run("ROWS", n=3)
                self.assertEqual(([1, 2, 3, 4, 5], [1, 2, 3]), (one.value(), other.value()))

    def test_single_of_several_warns_and_returns_the_first(self):
        with self.driver(self.port) as driver, driver.session() as session:
            with self.assertWarnsRegex(UserWarning, "several"):
                self.assertEqual(1, session.run("ROWS", n=2).single()["i"])


AWAITED = """
from neo4j import AsyncGraphDatabase

async def put(tx, key, value):
    await (await tx.run("PUT", key=key, value=value)).consume()
    return (await (await tx.run("GET", key=key)).single(strict=True)).value()

async def main():
    async with AsyncGraphDatabase.driver(URI, auth=("user", "pass")) as driver:
        async with driver.session() as session:
            print(await session.execute_write(put, "z", 5))
            print(await (await session.run("ROWS", n=4)).value())
            try:
                async with await session.begin_transaction() as tx:
                    await tx.run("PUT", key="z", value=6)
                    raise RuntimeError
            except RuntimeError:
                pass
            print((await (await session.run("GET", key="z")).single())["value"])
            print(await (await session.run("ROWS", n=2)).data())
            print(await (await session.run("ROWS", n=2)).values())
            result = await session.run("ROWS", n=3)
            print((await result.peek())[0], len(await result.fetch(2)))
            tx = await session.begin_transaction()
            await tx.run("PUT", key="z", value=8)
            await tx.rollback()
            print(await session.execute_read(lambda tx: value(tx, "z")))
            print((await (await session.run("ONE")).consume()).query)
        asked = (driver.execute_query("PUT", key=f"q{n}", value=n) for n in range(50))
        done = await asyncio.gather(*asked)
        print(len(done), (await driver.get_server_info()).agent)
        await driver.verify_connectivity()
        print(await driver.verify_authentication(("user", "no")))

async def value(tx, key):
    return (await (await tx.run("GET", key=key)).single())["value"]

asyncio.run(main())
"""


class Asyncio(driving.ServerCase):
    """Idioms of asyncio."""

    def test_program_without_asyncio_does_not_import_it(self):
        text = "import bolt, sys; bolt.driver('bolt://h'); print('asyncio' in sys.modules)"
        environment = {**os.environ, "PYTHONPATH": str(paths.ROOT / "python")}
        words = [sys.executable, "-B", "-c", text]
        done = subprocess.run(words, capture_output=True, text=True, env=environment)
        self.assertEqual(("False\n", ""), (done.stdout, done.stderr))

    def test_idioms_of_asyncio(self):
        said = io.StringIO()
        with contextlib.redirect_stdout(said):
            exec(
                ported(textwrap.dedent(AWAITED)),
                {"asyncio": asyncio, "URI": driving.uri(self.port)},
            )
        wanted = [
            "5",
            "[1, 2, 3, 4]",
            "5",
            "[{'i': 1}, {'i': 2}]",
            "[[1], [2]]",
            "1 2",
            "5",
            "ONE",
            "50 BoltTable/1",
            "False",
        ]
        self.assertEqual(wanted, said.getvalue().splitlines())


if __name__ == "__main__":
    unittest.main()
