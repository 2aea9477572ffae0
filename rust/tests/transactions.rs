//! Transactions that are guards, rows that are read while they are used, and work that is done until it is known.
//!
//! Each test starts a `bolt_server`, or takes the one at BOLT_PORT, which has to serve several clients at once.

mod common;
#[path = "common/cut.rs"]
mod cut;
#[path = "common/server.rs"]
mod server;

use bolt::{work_until_known, Connection, Error, ErrorKind, Fate, Outcome, Query, Tries};
use common::{login, put};
use cut::{Cut, WHOLE};
use server::Server;
use std::panic::{catch_unwind, AssertUnwindSafe};
use std::time::{Duration, Instant};

const NOT_ALLOWED: u32 = 1;

impl Server {
    /// Returns true if the key is in the table.
    fn has(&self, key: &str) -> bool {
        !self.open().run(&get(key)).unwrap().rows.is_empty()
    }
}

fn get(key: &str) -> Query {
    Query::from("GET").param("key", key)
}

fn rows(count: i64) -> Query {
    Query::from("ROWS").param("n", count)
}

/// Returns a key or a token that no other run of these tests uses.
fn own(name: &str) -> String {
    format!("work {} {name}", std::process::id())
}

fn tries(token: &str) -> Tries {
    Tries { pause: Duration::ZERO, ..Tries::under(own(token)) }
}

/// Returns how many bytes of each direction the connection has left.
fn left(connection: &Connection<Cut>) -> (usize, usize) {
    (connection.stream().told, connection.stream().asked)
}

fn assert_not_allowed<T: std::fmt::Debug>(said: Result<T, Error>) {
    assert!(matches!(said, Err(Error::NotSent { code: NOT_ALLOWED, .. })), "{said:?}");
}

#[test]
fn transaction_is_committed_only_by_commit() {
    let Some(server) = Server::start() else { return };
    let mut connection = server.open();
    let keys = ["committed", "rolled back", "dropped", "panicked"].map(own);
    let mut transaction = connection.begin(None).unwrap();
    transaction.run(&put(&keys[0])).unwrap();
    assert_eq!(transaction.run(&get(&keys[0])).unwrap().first().unwrap(), Some((1,)));
    assert!(transaction.commit().unwrap().is_some());
    let mut transaction = connection.begin(None).unwrap();
    transaction.run(&put(&keys[1])).unwrap();
    transaction.rollback().unwrap();
    connection.begin(None).unwrap().run(&put(&keys[2])).unwrap();
    let panicked = catch_unwind(AssertUnwindSafe(|| {
        let mut transaction = connection.begin(None).unwrap();
        transaction.run(&put(&keys[3])).unwrap();
        panic!("the work fails");
    }));
    assert!(panicked.is_err());
    assert_eq!(keys.map(|it| server.has(&it)), [true, false, false, false]);
    // The connection goes on.
    assert_eq!(connection.run(&rows(2)).unwrap().all::<(i64,)>().unwrap().len(), 2);
}

#[test]
fn nothing_runs_outside_of_a_transaction_after_a_failure() {
    let Some(server) = Server::start() else { return };
    let mut connection = server.open();
    let mut transaction = connection.begin(None).unwrap();
    assert_eq!(transaction.run(&Query::from("NOPE")).unwrap_err().kind(), ErrorKind::Refused);
    assert_not_allowed(transaction.run(&put(&own("outside"))));
    assert_not_allowed(transaction.rows(&put(&own("outside"))).map(drop));
    assert_not_allowed(transaction.commit());
    let mut transaction = connection.begin(None).unwrap();
    let said = transaction.rows(&Query::from("NOPE")).unwrap().next().unwrap().unwrap_err();
    assert_eq!(said.code(), Some("Neo.ClientError.Statement.UnknownText"));
    assert_not_allowed(transaction.rollback());
    assert!(!server.has(&own("outside")));
    assert!(matches!(connection.begin(Some("")), Err(Error::NotSent { .. })));
    assert!(connection.begin(None).is_ok());
}

#[test]
fn rows_are_read_while_they_are_used() {
    let Some(server) = Server::start() else { return };
    let mut connection = server.open();
    let (before, count) = (left(&connection).0, 1_000);
    let mut rows_read = connection.rows(&rows(count)).unwrap();
    assert_eq!(rows_read.columns(), ["i"]);
    let first: i64 = rows_read.next().unwrap().unwrap().get("i").unwrap();
    drop(rows_read);
    let whole = before - left(&connection).0;
    // The drop has read the rest, and the first row came long before it.
    let before = left(&connection).0;
    let mut iterator = connection.rows(&rows(count)).unwrap();
    iterator.next().unwrap().unwrap();
    std::mem::forget(iterator);
    let early = before - left(&connection).0;
    assert!(early < whole, "{early} of {whole} bytes were read for the first row");
    // After a leak the connection says that something isn't settled.
    assert_not_allowed(connection.run(&rows(1)));
    connection.settle().unwrap();
    let sum: i64 = connection.rows(&rows(count)).unwrap().map(|it| it.unwrap().get::<i64>(0).unwrap()).sum();
    assert_eq!(sum, (first..first + count).sum::<i64>());
    let mut none = connection.rows(&rows(0)).unwrap();
    assert!(none.next().is_none() && none.next().is_none());
    drop(none);
    assert!(connection.rows(&rows(3)).unwrap().finish().unwrap().is_some());
    let refused = connection.rows(&Query::from("NOPE")).unwrap().finish();
    assert_eq!(refused.unwrap_err().kind(), ErrorKind::Refused);
    assert_eq!(connection.run(&rows(1)).unwrap().rows.len(), 1);
}

#[test]
fn rows_end_with_one_error_after_each_cut() {
    let Some(server) = Server::start() else { return };
    let mut connection = server.open();
    let opened = WHOLE - left(&connection).0;
    connection.run(&rows(3)).unwrap();
    let told = WHOLE - left(&connection).0;
    // (a later bookmark may have more digits)
    let mut whole = 0;
    for at in opened..told + 8 {
        let mut connection = Connection::open(server.connect(at, WHOLE).unwrap(), &login()).unwrap();
        let items: Vec<_> = match connection.rows(&rows(3)) {
            Ok(rows) => rows.collect(),
            Err(error) => vec![Err(error)],
        };
        let read = items.iter().filter(|it| it.is_ok()).count();
        let is_whole = connection.requests().last().unwrap().outcome == Some(Outcome::Committed);
        assert_eq!(
            (items.len() - read, connection.has_ended()),
            (usize::from(!is_whole), !is_whole),
            "{at}: {items:?}"
        );
        assert!(read == 3 || !is_whole, "{at}: {items:?}");
        whole += usize::from(is_whole);
    }
    assert!((1..9).contains(&whole), "{whole}");
}

#[test]
fn panic_before_all_rows_are_read_ends_the_connection() {
    let Some(server) = Server::start() else { return };
    let mut connection = server.open();
    let panicked = catch_unwind(AssertUnwindSafe(|| {
        for row in connection.rows(&rows(1_000)).unwrap() {
            assert_eq!(row.unwrap().get::<i64>("i"), Ok(0), "the work fails");
        }
    }));
    assert!(panicked.is_err() && connection.has_ended());
    assert_eq!(connection.run(&rows(1)).unwrap_err().kind(), ErrorKind::Broken);
}

#[test]
fn iterator_that_is_leaked_in_a_transaction_ends_the_connection() {
    let Some(server) = Server::start() else { return };
    let mut connection = server.open();
    let mut transaction = connection.begin(None).unwrap();
    transaction.run(&put(&own("leaked"))).unwrap();
    std::mem::forget(transaction.rows(&rows(1_000)).unwrap());
    assert_not_allowed(transaction.commit());
    assert!(connection.has_ended() && !server.has(&own("leaked")));
}

#[test]
fn work_is_done_until_it_is_known_after_each_cut() {
    let Some(server) = Server::start() else { return };
    let source = own("source");
    server.open().run(&put(&source)).unwrap();
    let transfer = |cut: (usize, usize), key: &str| {
        let (mut cut, mut passed) = (Some(cut), (WHOLE, WHOLE));
        let mut done = 0;
        let connect = || {
            let (told, asked) = cut.take().unwrap_or((WHOLE, WHOLE));
            server.connect(told, asked)
        };
        let known = work_until_known(connect, &login(), &tries(key), |transaction| {
            done += 1;
            let (amount,): (i64,) = transaction.run(&get(&source))?.first()?.ok_or_else(|| Error::work("none"))?;
            let read = transaction.rows(&rows(2))?.collect::<Result<Vec<_>, _>>()?;
            assert_eq!(read.len(), 2);
            transaction.run(&Query::from("PUT").param("key", own(key)).param("value", amount))?;
            passed = left(transaction.connection());
            Ok(amount)
        });
        let known = known.unwrap();
        assert_eq!((known.fate, known.value, server.has(&own(key))), (Fate::Stands, Some(1), true), "{key}");
        assert!(done == 1 || known.error.is_some(), "{key}");
        (WHOLE - passed.0, WHOLE - passed.1, done)
    };
    let (told, asked, done) = transfer((WHOLE, WHOLE), "whole");
    assert_eq!(done, 1);
    // (the COMMIT and its answer take some bytes more)
    let ends = (0..told + 80).map(|at| (at, WHOLE)).chain((0..asked + 12).map(|at| (WHOLE, at)));
    let mut most = 0;
    for (told, asked) in ends.step_by(3) {
        most = most.max(transfer((told, asked), &format!("cut {} {}", told.min(9999), asked.min(9999))).2);
    }
    assert_eq!(most, 2, "some work was done again");
}

#[test]
fn work_that_gives_up_is_not_committed_and_not_tried_again() {
    let Some(server) = Server::start() else { return };
    let connect = || server.connect(WHOLE, WHOLE);
    let mut done = 0;
    let mut work = |key: &str, error: fn(Error) -> Error| {
        done += 1;
        let said = work_until_known(connect, &login(), &tries(key), |transaction| {
            transaction.run(&put(&own(key)))?;
            let refused = transaction.run(&Query::from("NOPE")).unwrap_err();
            Err::<(), _>(error(refused))
        });
        assert!(!server.has(&own(key)), "{key}");
        said
    };
    let said = work("gives up", |_| Error::work("not enough")).unwrap_err();
    assert_eq!((said.kind(), said.to_string()), (ErrorKind::Work, "not enough".to_owned()));
    let known = work("refused", |it| it).unwrap();
    assert_eq!((known.fate, known.error.unwrap().kind()), (Fate::Refused, ErrorKind::Refused));
    // Work that ignores the FAILURE has no transaction to commit.
    let mut tried = 0;
    let said = work_until_known(connect, &login(), &tries("ignores"), |transaction| {
        tried += 1;
        transaction.run(&put(&own("ignores")))?;
        Ok(transaction.run(&Query::from("NOPE")).is_ok())
    });
    assert_eq!((said.unwrap_err().kind(), tried, server.has(&own("ignores"))), (ErrorKind::NotSent, 1, false));
}

#[test]
fn errors_of_other_connections_say_nothing_of_the_transaction() {
    let Some(server) = Server::start() else { return };
    let connect = || server.connect(WHOLE, WHOLE);
    // The requests of the error are committed, but not under the token.
    let said = work_until_known(connect, &login(), &tries("other"), |transaction| {
        transaction.run(&put(&own("other")))?;
        let mut other = server.open();
        other.ask_begin(true, None)?;
        other.ask_commit()?;
        other.ask_run(&put(&own("another")), true, None)?;
        other.ask_run(&Query::from("NOPE"), true, None)?;
        Err::<(), _>(other.settle().unwrap_err())
    });
    assert_eq!((said.unwrap_err().kind(), server.has(&own("other"))), (ErrorKind::Work, false));
    assert!(server.has(&own("another")));
}

#[test]
fn other_writes_under_a_token_are_a_clash() {
    let Some(server) = Server::start() else { return };
    let known = |key: &str| {
        let connect = || server.connect(WHOLE, WHOLE);
        work_until_known(connect, &login(), &tries("clash"), |it| it.run(&put(&own(key))).map(drop)).unwrap().fate
    };
    assert_eq!([known("one"), known("one"), known("two")], [Fate::Stands, Fate::Stands, Fate::Clash]);
}

#[test]
fn tries_have_pauses_that_double() {
    let begun = Instant::now();
    let tries = Tries { most: 4, pause: Duration::from_millis(5), ..Tries::under("t") };
    let known = work_until_known(|| None::<Cut>, &login(), &tries, |_| Ok(())).unwrap();
    assert!((known.fate, known.value) == (Fate::Absent, None) && begun.elapsed() >= Duration::from_millis(5 + 10 + 20));
    for token in [String::new(), "x".repeat(65)] {
        let said = work_until_known(|| -> Option<Cut> { unreachable!() }, &login(), &Tries::under(token), |_| Ok(()));
        assert_eq!(said.unwrap_err().kind(), ErrorKind::NotSent);
    }
}
