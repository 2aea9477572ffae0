"""Values, records and summaries of `bolt.driver`, by the official driver's documentation and
docs/PROFILE.md."""
import paths  # noqa: F401

import copy
import datetime
import pickle
import unittest
import zoneinfo

import bolt
import driving
from bolt import graph, hydration, records, spatial, summaries, temporal

PARIS = zoneinfo.ZoneInfo("Europe/Paris")
HOUR = datetime.timezone(datetime.timedelta(hours=1))
# A value, and the structure that is sent for it at 5.1 and at 4.4; None if they are the same.
SENT = (
    (temporal.Date(1970, 1, 11), bolt.Date(10), None),
    (temporal.Time(0, 0, 1, 5), bolt.LocalTime(1_000_000_005), None),
    (temporal.Time(1, 0, 0, 5, HOUR), bolt.Time(3_600_000_000_005, 3600), None),
    (temporal.DateTime(1970, 1, 1, 0, 0, 1, 5), bolt.LocalDateTime(1, 5), None),
    (temporal.DateTime(1970, 1, 1, 1, 0, 1, 5, HOUR), bolt.DateTime(1, 5, 3600), None),
    (
        temporal.DateTime(1970, 1, 1, 1, 0, 1, 5, PARIS),
        bolt.ZonedUtc(1, 5, "Europe/Paris"),
        bolt.ZonedLocal(3601, 5, "Europe/Paris"),
    ),
    (
        temporal.Duration(years=1, months=2, weeks=1, days=1, hours=1, seconds=1.5),
        bolt.Duration(14, 8, 3601, 500_000_000),
        None,
    ),
    (temporal.Duration(nanoseconds=-1), bolt.Duration(0, 0, -1, 999_999_999), None),
    (spatial.CartesianPoint((1, 2)), bolt.Point2D(7203, 1.0, 2.0), None),
    (spatial.CartesianPoint((1, 2, 3)), bolt.Point3D(9157, 1.0, 2.0, 3.0), None),
    (spatial.WGS84Point((1, 2)), bolt.Point2D(4326, 1.0, 2.0), None),
    (spatial.WGS84Point((1, 2, 3)), bolt.Point3D(4979, 1.0, 2.0, 3.0), None),
)
# A duration and its text of ISO 8601.
DURATIONS = (
    (temporal.Duration(), "PT0S"),
    (temporal.Duration(years=1, months=2, days=3), "P1Y2M3D"),
    (temporal.Duration(hours=4, minutes=5, seconds=6), "PT4H5M6S"),
    (temporal.Duration(days=1, nanoseconds=500_000_000), "P1DT0.5S"),
    (temporal.Duration(seconds=-1, nanoseconds=-500_000_000), "PT-1.5S"),
    (temporal.Duration(months=-14), "P-1Y-2M"),
)


class Values(unittest.TestCase):
    """Values in both directions."""

    def test_values_are_sent_and_received(self):
        for value, newest, oldest in SENT:
            for version, structure in ((51, newest), (44, oldest or newest)):
                with self.subTest(repr(value), version=version):
                    self.assertEqual(structure, hydration.sent(value, version))
                    found = hydration.Hydration().value(structure)
                    self.assertEqual((type(value), value), (type(found), found))
                    for copied in (pickle.loads(pickle.dumps(value)), copy.deepcopy(value)):
                        self.assertEqual(
                            (type(value), value, hash(value)), (type(copied), copied, hash(copied))
                        )

    def test_values_in_lists_and_maps(self):
        day, sent = temporal.Date(1970, 1, 2), bolt.Date(1)
        self.assertEqual({"a": [sent, [sent]]}, hydration.sent({"a": (day, [day])}, 51))
        self.assertEqual({"a": [day, [day]]}, hydration.Hydration().value({"a": [sent, [sent]]}))

    def test_values_of_datetime_are_sent_as_before(self):
        moment = datetime.datetime(2020, 1, 2, 3, 4, 5, 6, HOUR)
        self.assertIs(moment, hydration.sent(moment, 51))
        self.assertEqual(moment, hydration.native(moment))

    def test_moments_have_the_fields_of_python_and_nanoseconds(self):
        moment = temporal.DateTime(2020, 1, 2, 3, 4, 5, 6_007, HOUR)
        self.assertEqual(
            (2020, 1, 2, 3, 4, 5, 6_007, HOUR),
            (
                moment.year,
                moment.month,
                moment.day,
                moment.hour,
                moment.minute,
                moment.second,
                moment.nanosecond,
                moment.tzinfo,
            ),
        )
        self.assertEqual(datetime.datetime(2020, 1, 2, 3, 4, 5, 6, HOUR), moment.to_native())
        self.assertEqual(
            ("2020-01-02T03:04:05.000006007+01:00", temporal.Date(2020, 1, 2)),
            (moment.iso_format(), moment.date()),
        )
        self.assertEqual("03:04:05.000006007", str(moment.time()))
        self.assertEqual(temporal.Date(2020, 1, 2), temporal.Date.from_iso_format("2020-01-02"))
        self.assertEqual(temporal.Date(2020, 1, 2), datetime.date(2020, 1, 2))
        self.assertLess(temporal.Date(2020, 1, 2), temporal.Date(2020, 1, 3))
        self.assertLess(temporal.Time(1, 2, 3, 4), temporal.Time(1, 2, 3, 5))
        with self.assertRaises(AttributeError):
            moment.year = 1
        for wrong in (lambda: temporal.Time(0, 0, 0, 10**9), lambda: temporal.Date(2020, 2, 30)):
            self.assertRaises(ValueError, wrong)

    def test_moments_out_of_pythons_bounds_stay_structures(self):
        for it in (
            bolt.Date(10**9),
            bolt.ZonedUtc(0, 0, "No/Where"),
            bolt.DateTime(0, 0, 86_400),
            bolt.LocalDateTime(10**15, 0),
        ):
            self.assertIs(it, hydration.Hydration().value(it))

    def test_texts_of_durations(self):
        for value, text in DURATIONS:
            with self.subTest(text):
                self.assertEqual(
                    (text, value), (value.iso_format(), temporal.Duration.from_iso_format(text))
                )
        for wrong in ("", "P", "1D", "PT", "P1S"):
            self.assertRaises(ValueError, temporal.Duration.from_iso_format, wrong)
        one = temporal.Duration(months=1, seconds=1)
        self.assertEqual(
            temporal.Duration(months=2, days=1, seconds=1),
            one + temporal.Duration(months=1, days=1),
        )
        self.assertEqual(temporal.Duration(), one - one)

    def test_points(self):
        point = spatial.WGS84Point((1, 2, 3))
        self.assertEqual(
            (1.0, 2.0, 3.0, 1.0), (point.longitude, point.latitude, point.height, point.x)
        )
        self.assertNotEqual(spatial.CartesianPoint((1, 2)), spatial.WGS84Point((1, 2)))
        self.assertRaises(AttributeError, lambda: spatial.CartesianPoint((1, 2)).z)
        self.assertRaises(ValueError, spatial.CartesianPoint, (1,))
        self.assertRaises(ValueError, hydration.sent, spatial.Point((1, 2)), 51)
        self.assertEqual(17, hydration.Hydration().value(bolt.Point2D(17, 1.0, 2.0)).srid)


class Graphs(unittest.TestCase):
    """Nodes, relationships and paths."""

    A, B = bolt.Node(1, ["A"], {"name": "a"}, "n1"), bolt.Node(2, ["B", "C"], {}, "n2")

    def test_relationship_has_its_nodes_once_they_come(self):
        made = hydration.Hydration()
        alone = made.value(
            bolt.Relationship(7, 1, 2, "TO", {"since": bolt.Date(1)}, "r7", "n1", "n2")
        )
        self.assertEqual(
            ("TO", "r7", 7, temporal.Date(1970, 1, 2)),
            (alone.type, alone.element_id, alone.id, alone["since"]),
        )
        self.assertEqual(
            (frozenset(), "n1"), (alone.start_node.labels, alone.start_node.element_id)
        )
        node = made.value(self.A)
        self.assertIs(node, alone.start_node)
        self.assertEqual(
            (frozenset({"A"}), "a", None, 3),
            (node.labels, node["name"], node["no"], node.get("no", 3)),
        )
        self.assertEqual(
            (["name"], [("name", "a")], True, False),
            (list(node), list(node.items()), "name" in node, "no" in node),
        )
        self.assertEqual((2, 1), (len(made.graph.nodes), len(made.graph.relationships)))

    def test_path_goes_along_and_against_its_relationships(self):
        # From a to b against the relationship, and back along it.
        way = bolt.UnboundRelationship(7, "TO", {}, "r7")
        path = hydration.Hydration().value(bolt.Path([self.A, self.B], [way], [-1, 1, 1, 0]))
        self.assertEqual(["n1", "n2", "n1"], [it.element_id for it in path.nodes])
        self.assertEqual(
            [("n2", "n1")] * 2,
            [(it.start_node.element_id, it.end_node.element_id) for it in path.relationships],
        )
        self.assertEqual(
            (2, "n1", "n1"), (len(path), path.start_node.element_id, path.end_node.element_id)
        )

    def test_ids_of_4_4(self):
        node = hydration.Hydration().value(bolt.Node(1, [], {}))
        self.assertEqual(("1", 1), (node.element_id, node.id))
        self.assertIsInstance(node, graph.Node)

    def test_data_of_graphs(self):
        made = hydration.Hydration()
        way = bolt.UnboundRelationship(7, "TO", {}, "r7")
        cells = [
            made.value(it)
            for it in (
                self.A,
                bolt.Relationship(7, 1, 2, "TO", {}, "r7", "n1", "n2"),
                bolt.Path([self.A, self.B], [way], [1, 1]),
            )
        ]
        self.assertEqual(
            {"n": {"name": "a"}, "r": ({"name": "a"}, "TO", {}), "p": [{"name": "a"}, "TO", {}]},
            records.Record("nrp", cells).data(),
        )


class Records(unittest.TestCase):
    """A record is a tuple and a mapping."""

    ONE = records.Record(("a", "b"), (1, "x"))

    def test_cells(self):
        it = self.ONE
        self.assertEqual((1, 1, "x", "x"), (it["a"], it[0], it[-1], it["b"]))
        self.assertEqual(
            (1, 7, None, 1, 7),
            (it.get("a"), it.get("z", 7), it.get("z"), it.value(), it.value(5, 7)),
        )
        self.assertEqual(
            (["a", "b"], [1, "x"], [("a", 1), ("b", "x")]), (it.keys(), it.values(), it.items())
        )
        self.assertEqual(
            (["x", 1], [None], [("b", "x")]), (it.values("b", 0), it.values("z"), it.items("b"))
        )
        self.assertEqual(
            ({"a": 1, "b": "x"}, {"a": 1}, {"a": 1, "b": "x"}), (it.data(), it.data("a"), dict(it))
        )
        self.assertEqual((1, 0), (it.index("b"), it.index(0)))
        for wrong in (lambda: it["z"], lambda: it.index("z")):
            self.assertRaises(KeyError, wrong)
        for wrong in (lambda: it[2], lambda: it.index(2)):
            self.assertRaises(IndexError, wrong)

    def test_as_tuple_and_mapping(self):
        it = self.ONE
        one, other = it
        self.assertEqual((1, "x", 2, [1, "x"]), (one, other, len(it), list(it)))
        self.assertEqual(it, (1, "x"))
        self.assertEqual(it, {"b": "x", "a": 1})
        self.assertNotEqual(it, records.Record(("a", "c"), (1, "x")))
        self.assertEqual(
            (records.Record(("a",), (1,)), it, hash((1, "x"))),
            (it[:1], pickle.loads(pickle.dumps(it)), hash(it)),
        )
        self.assertTrue(issubclass(records.Record, tuple))


class Summaries(unittest.TestCase):
    """Counters and bookmarks."""

    def test_counters(self):
        counters = summaries.SummaryCounters(
            {"nodes-created": 2, "labels-added": 1, "contains-updates": True}
        )
        self.assertEqual(
            (2, 1, 0, True, False),
            (
                counters.nodes_created,
                counters.labels_added,
                counters.nodes_deleted,
                counters.contains_updates,
                counters.contains_system_updates,
            ),
        )
        # A server may leave the flags out.
        self.assertTrue(summaries.SummaryCounters({"nodes-created": 2}).contains_updates)
        self.assertTrue(summaries.SummaryCounters({"system-updates": 1}).contains_system_updates)
        self.assertFalse(summaries.SummaryCounters({}).contains_updates)

    def test_summary_has_what_the_server_says(self):
        last = {
            "type": "rw",
            "db": "neo4j",
            "t_last": 2,
            "stats": {"nodes-created": 1},
            "plan": {"a": 1},
            "notifications": [{"code": "N"}],
            "bookmark": "b",
        }
        it = summaries.summary_of(None, "Q", {"x": 1}, {"t_first": 1}, last, bolt.COMMITTED)
        self.assertEqual(
            (
                "Q",
                {"x": 1},
                "rw",
                "neo4j",
                1,
                2,
                1,
                {"a": 1},
                None,
                [{"code": "N"}],
                bolt.COMMITTED,
            ),
            (
                it.query,
                it.parameters,
                it.query_type,
                it.database,
                it.result_available_after,
                it.result_consumed_after,
                it.counters.nodes_created,
                it.plan,
                it.profile,
                it.notifications,
                it.outcome,
            ),
        )

    def test_bookmarks(self):
        one, other = summaries.Bookmarks(["a"]), summaries.Bookmarks.from_raw_values(["b"])
        self.assertEqual(
            (frozenset("ab"), True, False),
            ((one + other).raw_values, bool(one), bool(summaries.Bookmarks())),
        )


class Echo(driving.ServerCase):
    """Values come back from the server as they went."""

    def test_values_come_back(self):
        with self.driver(self.port) as driver:
            for value, *_ in SENT:
                with self.subTest(repr(value)):
                    found = driver.execute_query("ECHO", x=[value, {"a": value}]).records[0]["x"]
                    self.assertEqual([value, {"a": value}], found)


if __name__ == "__main__":
    unittest.main()
