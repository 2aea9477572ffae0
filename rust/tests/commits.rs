//! Transactions at a server, whose stream is cut after each number of bytes.
//!
//! Each test starts a `bolt_server`. With BOLT_PORT the tests take the server at that port, which may serve one client
//! at a time.

mod common;
#[path = "common/cut.rs"]
mod cut;
#[path = "common/server.rs"]
mod server;

use bolt::{until_known, Connection, Error, Fate, Outcome, Query, Value};
use common::{login, put};
use cut::{Cut, WHOLE};
use server::Server;

impl Server {
    /// Returns true if the key has the value 1 in the server's table.
    fn has(&self, key: &str) -> bool {
        let answer = self.open().run(&Query::new("GET", [("key", key.into())])).unwrap();
        answer.rows == [[Value::Int(1)]]
    }

    /// Returns how many bytes a transaction takes: those of the server, and those of the client.
    fn passed(&self) -> (usize, usize) {
        let mut connection = self.open();
        connection.transact(None, &[put(&own("whole"))]).unwrap();
        (WHOLE - connection.stream().told, WHOLE - connection.stream().asked)
    }

    /// Returns the streams of a transaction that is cut after each number of bytes: `told` and `asked` of each.
    fn cuts(&self) -> impl Iterator<Item = (usize, usize)> {
        let (told, asked) = self.passed();
        (0..=told).map(|at| (at, WHOLE)).chain((0..=asked).map(|at| (WHOLE, at)))
    }
}

/// Returns a key that no other run of these tests uses, so that they may run again at the same server.
fn own(key: &str) -> String {
    format!("rust {} {key}", std::process::id())
}

#[test]
fn outcome_of_commit_agrees_with_table_after_each_cut() {
    let Some(server) = Server::start() else { return };
    let mut unknown = [false, false];
    for (told, asked) in server.cuts() {
        let key = own(&if told == WHOLE { format!("a{asked}") } else { format!("t{told}") });
        let stream = server.connect(told, asked).unwrap();
        let said = Connection::open(stream, &login()).and_then(|mut it| it.transact(None, &[put(&key)]));
        let outcome = match &said {
            Ok(_) => Some(Outcome::Committed),
            Err(Error::Broken { requests, .. }) => {
                requests.iter().find(|it| it.text == "COMMIT").and_then(|it| it.outcome)
            }
            Err(error) => panic!("{key}: {error}"),
        };
        let is_there = server.has(&key);
        match outcome {
            Some(Outcome::Committed) => assert!(is_there, "{key}: Committed, and the key isn't in the table"),
            Some(Outcome::Unknown) => unknown[usize::from(is_there)] = true,
            None | Some(Outcome::Lost) => assert!(!is_there, "{key}: {outcome:?}, and the key is in the table"),
            Some(other) => panic!("{key}: {other:?}"),
        }
    }
    assert_eq!(unknown, [true, true], "an Unknown commit is absent after some cuts, and present after others");
}

#[test]
fn transaction_is_sent_again_until_it_is_known() {
    let Some(server) = Server::start() else { return };
    for (told, asked) in server.cuts() {
        let key = own(&format!("until {} {}", told.min(9999), asked.min(9999)));
        let mut cut = Some((told, asked));
        let connect = || {
            let (told, asked) = cut.take().unwrap_or((WHOLE, WHOLE));
            server.connect(told, asked)
        };
        let fate = until_known(connect, &login(), &key, &[put(&key)], 3);
        assert_eq!((fate.unwrap(), server.has(&key)), (Fate::Stands, true), "{key}");
    }
}

#[test]
fn refusals_and_results_are_returned() {
    let Some(server) = Server::start() else { return };
    let mut connection = server.open();
    assert_eq!(format!("{:?}", login()), "Login { agent: \"test/1\", principal: \"user\", .. }");
    let refused = connection.run(&Query::new("NOPE", []));
    assert!(
        matches!(refused, Err(Error::Refused { ref code, .. }) if code == "Neo.ClientError.Statement.UnknownText"),
        "{refused:?}"
    );
    // The refusal isn't returned again with what is asked after it.
    assert_eq!(connection.settle().unwrap(), []);
    let unsent = connection.run(&Query::new("ECHO", [("x", Value::Structure(0x44, vec!["no".into()]))]));
    assert!(matches!(unsent, Err(Error::NotSent { ref rule, place: 0, .. }) if rule == "S3"), "{unsent:?}");
    let outcomes: Vec<_> = connection.requests().iter().map(|it| it.outcome).collect();
    assert_eq!(outcomes, [Some(Outcome::Refused), Some(Outcome::Ignored)]);
    let answer = connection.run(&Query::new("ROWS", [("n", 3.into())])).unwrap();
    assert_eq!((answer.fields.as_slice(), answer.rows.len()), (["i".to_owned()].as_slice(), 3));
    assert!(answer.bookmark.is_some());
}

#[test]
fn each_fate_is_returned() {
    let Some(server) = Server::start() else { return };
    let known = |token: &str, queries: &[Query]| {
        until_known(|| server.connect(WHOLE, WHOLE), &login(), &own(token), queries, 3).unwrap()
    };
    assert_eq!(known("clash", &[put(&own("clash"))]), Fate::Stands);
    assert_eq!(known("clash", &[put(&own("other"))]), Fate::Clash);
    assert_eq!(known("no", &[Query::new("NOPE", [])]), Fate::Refused);
    let never = until_known(|| None::<Cut>, &login(), &own("none"), &[], 3);
    assert_eq!(never.unwrap(), Fate::Absent);
    // The first 100 bytes of the server end before it has answered COMMIT.
    let open = until_known(|| server.connect(100, WHOLE), &login(), &own("open"), &[put(&own("open"))], 2);
    assert_eq!(open.unwrap(), Fate::Open);
}

#[test]
fn values_come_back() {
    let Some(server) = Server::start() else { return };
    let borders = [0, -16, -17, 127, 128, -128, -129, 32_767, 32_768, i64::from(i32::MIN), i64::from(i32::MAX) + 1];
    let mut values: Vec<Value> = borders.map(Value::Int).into();
    values.extend([Value::Int(i64::MIN), Value::Int(i64::MAX), Value::Null, true.into(), 2.5.into()]);
    values.extend(["zürich".into(), "x".repeat(300).into(), Value::Bytes(vec![0, 1]), Value::Bytes(vec![7; 300])]);
    values.push(vec![Value::Int(0); 40].into());
    values.push(bolt::dict([("a", vec![1.into(), bolt::dict([("b", Value::Null)])].into())]));
    values.push(Value::Structure(0x44, vec![1.into()]));
    let mut connection = server.open();
    for value in values {
        let answer = connection.run(&Query::new("ECHO", [("x", value.clone())])).unwrap();
        assert_eq!(answer.rows, [[value]]);
    }
}
