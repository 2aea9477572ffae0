//! Each public call at a stream that ends after any byte, or that fails or panics at any of its calls.
//!
//! The outcomes that a call has to report come from the tables of docs/PROFILE.md, which are written out here.

mod common;

use bolt::{Connection, Error, Kind, Outcome, Query, Value};
use common::{login, put};
use std::cell::RefCell;
use std::io::{self, Read, Write};
use std::panic::{catch_unwind, AssertUnwindSafe};
use std::rc::Rc;

const KINDS: [Kind; 8] =
    [Kind::Hello, Kind::Reset, Kind::Run, Kind::Begin, Kind::Commit, Kind::Rollback, Kind::Pull, Kind::Logon];
const SUCCESS: u8 = 0x70;
const IGNORED: u8 = 0x7E;
const FAILURE: u8 = 0x7F;
const WHOLE: usize = usize::MAX / 2;

#[derive(Clone, Copy, Debug, PartialEq)]
enum Phase {
    Fresh,
    Unauth,
    Ready,
    Streaming,
    TxReady,
    TxStreaming,
    Halted,
    Defunct,
}

/// The phase after the SUCCESS of a request.
fn next(phase: Phase, kind: Kind) -> Option<Phase> {
    match (phase, kind) {
        (Phase::Fresh, Kind::Hello) => Some(Phase::Unauth),
        (Phase::Unauth, Kind::Logon) => Some(Phase::Ready),
        (Phase::Ready, Kind::Run) => Some(Phase::Streaming),
        (Phase::Ready, Kind::Begin) => Some(Phase::TxReady),
        (Phase::Streaming, Kind::Pull) => Some(Phase::Ready),
        (Phase::TxReady, Kind::Run) => Some(Phase::TxStreaming),
        (Phase::TxReady, Kind::Commit | Kind::Rollback) => Some(Phase::Ready),
        (Phase::TxStreaming, Kind::Pull) => Some(Phase::TxReady),
        (Phase::Fresh | Phase::Unauth | Phase::Defunct, _) => None,
        (_, Kind::Reset) => Some(Phase::Ready),
        _ => None,
    }
}

fn commits(phase: Phase, kind: Kind) -> bool {
    matches!((phase, kind), (Phase::TxReady, Kind::Commit) | (Phase::Streaming, Kind::Pull))
}

/// The phases that may follow a request whose answer isn't known. Each PULL is of all rows.
fn after(phase: Phase, kind: Kind) -> Vec<Phase> {
    match (phase, next(phase, kind)) {
        (Phase::Halted, None) => vec![Phase::Halted],
        (_, Some(following)) if kind == Kind::Reset => vec![following],
        (Phase::Fresh | Phase::Unauth | Phase::Defunct, following) => vec![following.unwrap_or(Phase::Defunct)],
        (_, following) => vec![following.unwrap_or(Phase::Defunct), Phase::Halted],
    }
}

/// A request as the server took it, and its answer: where its bytes begin, and where those of its answer end.
#[derive(Clone, Copy, Debug)]
struct Asked {
    kind: Kind,
    begins: usize,
    answer: u8,
    told: usize,
}

/// The outcome of each request of a connection that is lost. `heard` bytes of the answers came, and `handed` bytes of
/// the requests may have gone out.
fn outcomes(requests: &[Asked], heard: usize, handed: usize) -> Vec<Outcome> {
    let mut phases = vec![Phase::Fresh];
    let outcome = |it: &Asked| {
        if it.told <= heard {
            let (phase, is_success) = (phases[0], it.answer == SUCCESS);
            phases = vec![next(phase, it.kind).filter(|_| is_success).unwrap_or(Phase::Halted)];
            return match it.answer {
                SUCCESS if commits(phase, it.kind) => Outcome::Committed,
                SUCCESS => Outcome::Done,
                FAILURE => Outcome::Refused,
                _ => Outcome::Ignored,
            };
        }
        let could = phases.iter().any(|phase| commits(*phase, it.kind));
        phases = phases.iter().flat_map(|phase| after(*phase, it.kind)).collect();
        if could && it.begins < handed {
            Outcome::Unknown
        } else {
            Outcome::Lost
        }
    };
    requests.iter().map(outcome).collect()
}

#[derive(Clone, Copy, Debug, PartialEq)]
enum Failure {
    Error,
    Panic,
}

/// A server in memory, and the way to it. The way ends after so many bytes of the server, or of the client.
#[derive(Default)]
struct Way {
    /// The bytes of a message that hasn't come whole, and how many came in all.
    asked: Vec<u8>,
    gone: usize,
    /// How many may have gone out.
    handed: usize,
    told: Vec<u8>,
    heard: usize,
    /// How many the stream took off, also if it failed then.
    taken: usize,
    requests: Vec<Asked>,
    has_failed: bool,
    in_transaction: bool,
    commits: usize,
    told_end: usize,
    asked_end: usize,
    /// The calls of the stream, and the one that fails, before or after it did its work.
    calls: usize,
    fails: Option<(usize, bool, Failure)>,
    is_over: bool,
}

impl Way {
    /// Makes the way end after so many more bytes, and a call fail, counted from here.
    fn arm(&mut self, told: usize, asked: usize, fails: Option<(usize, bool, Failure)>) {
        (self.told_end, self.asked_end) = (self.told.len() + told, self.gone + asked);
        (self.calls, self.fails) = (0, fails);
    }

    fn message(&mut self) -> Option<Vec<u8>> {
        let (mut message, mut at) = (Vec::new(), 0);
        loop {
            let length = usize::from(u16::from_be_bytes([*self.asked.get(at)?, *self.asked.get(at + 1)?]));
            message.extend(self.asked.get(at + 2..at + 2 + length)?);
            at += 2 + length;
            if length == 0 {
                self.asked.drain(..at);
                return Some(message);
            }
        }
    }

    fn tell(&mut self, message: &[u8]) {
        self.told.extend([0, message.len() as u8]);
        self.told.extend(message);
        self.told.extend([0, 0]);
    }

    fn answer(&mut self, message: &[u8]) -> u8 {
        let tag = message[1];
        if self.has_failed && tag != Kind::Reset as u8 {
            self.tell(&[0xB0, IGNORED]);
            return IGNORED;
        }
        if tag == Kind::Run as u8 && message[2..].starts_with(b"\x84NOPE") {
            self.has_failed = true;
            self.tell(b"\xB1\x7F\xA2\x84code\x83A.B\x87message\x82no");
            return FAILURE;
        }
        if tag == Kind::Pull as u8 {
            self.tell(&[0xB1, 0x71, 0x91, 7]);
            self.commits += usize::from(!self.in_transaction);
        }
        self.commits += usize::from(tag == Kind::Commit as u8);
        if tag != Kind::Run as u8 && tag != Kind::Pull as u8 {
            (self.in_transaction, self.has_failed) = (tag == Kind::Begin as u8, false);
        }
        self.tell(&[0xB1, SUCCESS, 0xA0]);
        SUCCESS
    }

    fn hear(&mut self, bytes: &[u8]) {
        self.gone += bytes.len();
        self.asked.extend(bytes);
        if self.told.is_empty() && self.asked.len() >= 20 {
            self.asked.drain(..20);
            self.told.extend([0, 0, 1, 5]);
        }
        while !self.told.is_empty() {
            let begins = self.gone - self.asked.len();
            let Some(message) = self.message() else { break };
            let answer = self.answer(&message);
            let kind = KINDS.into_iter().find(|it| *it as u8 == message[1]).unwrap();
            self.requests.push(Asked { kind, begins, answer, told: self.told.len() });
        }
    }
}

#[derive(Clone, Default)]
struct Stream(Rc<RefCell<Way>>);

impl Stream {
    fn new() -> Stream {
        let stream = Stream::default();
        stream.0.borrow_mut().arm(WHOLE, WHOLE, None);
        stream
    }

    /// Does the work of a call, and fails before or after it if this is the call that fails.
    fn call<T>(&self, is_read: bool, work: impl FnOnce(&mut Way) -> io::Result<T>) -> io::Result<T> {
        let mut way = self.0.borrow_mut();
        let failure = way.fails.filter(|it| it.0 == way.calls).map(|(_, is_after, failure)| (is_after, failure));
        way.calls += 1;
        let Some((is_after, failure)) = failure else { return work(&mut way) };
        if is_after {
            work(&mut way)?;
        }
        // The server says no more, unless that was a write that did its work.
        way.is_over = is_read || !is_after;
        drop(way);
        assert!(failure == Failure::Error, "a stream that panics");
        Err(io::ErrorKind::ConnectionReset.into())
    }
}

impl Read for Stream {
    fn read(&mut self, into: &mut [u8]) -> io::Result<usize> {
        let count = self.call(true, |way| {
            let end = way.told.len().min(way.told_end).min(way.taken + into.len());
            let is_over = way.is_over || way.taken >= way.told_end || way.gone >= way.asked_end;
            assert!(end > way.taken || is_over, "nothing will come");
            let count = end - way.taken;
            into[..count].copy_from_slice(&way.told[way.taken..end]);
            way.taken = end;
            Ok(count)
        })?;
        self.0.borrow_mut().heard += count;
        Ok(count)
    }
}

impl Write for Stream {
    fn write(&mut self, bytes: &[u8]) -> io::Result<usize> {
        let handed = self.0.borrow().gone + bytes.len();
        self.0.borrow_mut().handed = handed;
        self.call(false, |way| {
            let count = bytes.len().min(way.asked_end - way.gone);
            if count == 0 {
                return Err(io::ErrorKind::BrokenPipe.into());
            }
            way.hear(&bytes[..count]);
            Ok(count)
        })
    }

    fn flush(&mut self) -> io::Result<()> {
        Ok(())
    }
}

type At = Connection<Stream>;
type Call = fn(&mut At) -> Result<(), Error>;

/// A call, what prepares it, and how many requests it asks. If its query is refused, a RESET follows.
struct Row {
    name: &'static str,
    call: Call,
    before: Call,
    count: usize,
    is_refused: bool,
}

fn nothing(_: &mut At) -> Result<(), Error> {
    Ok(())
}

fn nope() -> Query {
    Query::new("NOPE", [])
}

fn begun(it: &mut At) -> Result<(), Error> {
    it.ask_begin(true, None)?;
    it.settle().map(drop)
}

fn row(name: &'static str, count: usize, before: Call, call: Call) -> Row {
    Row { name, call, before, count, is_refused: false }
}

fn refused(name: &'static str, count: usize, before: Call, call: Call) -> Row {
    Row { is_refused: true, ..row(name, count, before, call) }
}

fn rows() -> Vec<Row> {
    vec![
        row("run", 2, nothing, |it| it.run(&put("a")).map(drop)),
        refused("run", 2, nothing, |it| it.run(&nope()).map(drop)),
        row("run in a transaction", 2, begun, |it| it.run(&put("a")).map(drop)),
        row("transact", 4, nothing, |it| it.transact(None, &[put("a")]).map(drop)),
        row("transact under a token", 6, nothing, |it| it.transact(Some("t"), &[put("a"), put("b")]).map(drop)),
        refused("transact", 6, nothing, |it| it.transact(None, &[put("a"), nope()]).map(drop)),
        row("ask_begin", 1, nothing, begun),
        row("ask_run", 2, nothing, |it| it.ask_run(&put("a"), true, None).and_then(|_| it.settle().map(drop))),
        row("ask_commit", 1, begun, |it| it.ask_commit().and_then(|_| it.settle().map(drop))),
        row("ask_rollback", 1, begun, |it| it.ask_rollback().and_then(|_| it.settle().map(drop))),
        row("ask_reset", 1, begun, |it| it.ask_reset().and_then(|_| it.settle().map(drop))),
    ]
}

/// One more call of each kind.
const AGAIN: [(&str, Call); 8] = [
    ("run", |it| it.run(&put("b")).map(drop)),
    ("transact", |it| it.transact(None, &[put("b")]).map(drop)),
    ("settle", |it| it.settle().map(drop)),
    ("ask_begin", |it| it.ask_begin(true, None).map(drop)),
    ("ask_run", |it| it.ask_run(&put("b"), true, None).map(drop)),
    ("ask_commit", |it| it.ask_commit().map(drop)),
    ("ask_rollback", |it| it.ask_rollback().map(drop)),
    ("ask_reset", |it| it.ask_reset().map(drop)),
];

type Told = Vec<(u64, Kind, Option<Outcome>)>;

fn told(requests: &[bolt::Request]) -> Told {
    requests.iter().map(|it| (it.ordinal, it.kind, it.outcome)).collect()
}

/// A call that was made at a way with an end: what it returned, None if the stream panicked.
struct Made {
    connection: At,
    way: Rc<RefCell<Way>>,
    result: Option<Result<(), Error>>,
    first: usize,
}

fn made(row: &Row, told: usize, asked: usize, fails: Option<(usize, bool, Failure)>) -> Made {
    let stream = Stream::new();
    let way = Rc::clone(&stream.0);
    let mut connection = Connection::open(stream, &login()).unwrap();
    (row.before)(&mut connection).unwrap();
    let first = way.borrow().requests.len();
    way.borrow_mut().arm(told, asked, fails);
    let result = catch_unwind(AssertUnwindSafe(|| (row.call)(&mut connection))).ok();
    Made { connection, way, result, first }
}

/// Compares what a call reports with the tables, and with what the server has committed. `whole` is the same call at
/// a way without an end.
fn check(row: &Row, whole: &Made, mut made: Made, what: &str) {
    let (whole_way, way) = (whole.way.borrow(), made.way.borrow());
    let requests = &whole_way.requests;
    let (asked, last) = (whole.first..whole.first + row.count, whole.first + row.count - 1);
    let outcomes = outcomes(requests, way.heard, way.handed);
    let wanted: Told = asked.clone().map(|it| (it as u64, requests[it].kind, Some(outcomes[it]))).collect();
    assert_eq!(told(made.connection.requests()), wanted, "{what}");
    // The rows of a query are there if its PULL was answered.
    for (at, pull) in wanted.iter().enumerate().skip(1).filter(|(_, it)| it.1 == Kind::Pull) {
        let is_whole = matches!(pull.2, Some(Outcome::Done | Outcome::Committed));
        let rows = made.connection.answer(at - 1).map(|it| it.rows);
        assert_eq!(is_whole.then(|| vec![bolt::Row::new([], [7.into()])]), rows, "{what}");
    }
    let is_answered = asked.clone().all(|it| requests[it].told <= way.heard);
    match &made.result {
        None => {}
        Some(Ok(())) => assert!(is_answered && !row.is_refused, "{what}"),
        Some(Err(Error::Refused { requests, .. })) => {
            assert_eq!((true, row.is_refused, &wanted), (is_answered, true, &told(requests)), "{what}");
        }
        Some(Err(Error::Broken { requests, .. })) => {
            assert_eq!((false, &wanted), (is_answered, &told(requests)), "{what}");
        }
        Some(Err(error)) => panic!("{what}: {error}"),
    }
    let count = |outcome| outcomes[..=last].iter().filter(|it| **it == outcome).count();
    let sure = count(Outcome::Committed);
    assert!((sure..=sure + count(Outcome::Unknown)).contains(&way.commits), "{what}: {} commits", way.commits);
    drop(way);
    // It is over also if the RESET after a FAILURE isn't answered.
    let is_over = made.way.borrow().heard < whole_way.heard || made.result.is_none();
    for (name, again) in AGAIN.iter().filter(|_| is_over).flat_map(|it| [it; 2]) {
        match again(&mut made.connection) {
            Err(Error::Broken { requests, .. }) => assert_eq!(told(&requests), wanted, "{what}, then {name}"),
            other => panic!("{what}, then {name}: {other:?}"),
        }
    }
}

#[test]
fn each_call_reports_what_is_true_after_each_end() {
    for row in rows() {
        let whole = made(&row, WHOLE, WHOLE, None);
        let (told, asked) = (whole.way.borrow().told.len(), whole.way.borrow().gone);
        check(&row, &whole, made(&row, WHOLE, WHOLE, None), row.name);
        let start = made(&Row { call: nothing, ..row }, WHOLE, WHOLE, None);
        let (told, asked) = (told - start.way.borrow().told.len(), asked - start.way.borrow().gone);
        for at in 0..told {
            check(&row, &whole, made(&row, at, WHOLE, None), &format!("{}, {at} bytes told", row.name));
        }
        for at in 0..asked {
            check(&row, &whole, made(&row, WHOLE, at, None), &format!("{}, {at} bytes asked", row.name));
        }
    }
}

#[test]
fn each_call_reports_what_is_true_after_a_failure_of_each_call_of_the_stream() {
    for row in rows() {
        let whole = made(&row, WHOLE, WHOLE, None);
        let calls = whole.way.borrow().calls;
        for (at, is_after) in (0..calls).flat_map(|at| [(at, false), (at, true)]) {
            for failure in [Failure::Error, Failure::Panic] {
                let what = format!("{}, {failure:?} in call {at}, after it: {is_after}", row.name);
                check(&row, &whole, made(&row, WHOLE, WHOLE, Some((at, is_after, failure))), &what);
            }
        }
    }
}

#[test]
fn opening_reports_what_is_true_after_each_end() {
    let whole = Stream::new();
    Connection::open(whole.clone(), &login()).unwrap();
    let whole = whole.0.borrow();
    let ends = (0..whole.told.len()).map(|at| (at, WHOLE)).chain((0..whole.gone).map(|at| (WHOLE, at)));
    for (told_end, asked_end) in ends {
        let stream = Stream::new();
        stream.0.borrow_mut().arm(told_end, asked_end, None);
        let opened = Connection::open(stream.clone(), &login()).map(drop);
        let way = stream.0.borrow();
        // Nothing is asked before the version is known.
        let requests = if way.heard < 4 { &[] } else { &whole.requests[..] };
        let outcomes = outcomes(requests, way.heard, way.handed);
        let kinds = (0..).zip(requests.iter().map(|it| it.kind));
        let wanted: Told = kinds.zip(outcomes).map(|((at, kind), outcome)| (at, kind, Some(outcome))).collect();
        match opened {
            Err(Error::Broken { requests, .. }) => assert_eq!(told(&requests), wanted, "{told_end} {asked_end}"),
            other => panic!("{told_end} {asked_end}: {other:?}"),
        }
    }
}

#[test]
fn request_is_lost_if_the_bytes_that_went_out_end_before_it() {
    // The RUN takes as many bytes as may go out before its answer, or a few more or fewer.
    let mut ends_there = 0;
    for size in 65_500..=65_513 {
        let value = Value::Bytes(vec![0; size]);
        let query = Query::new("PUT", [("key", "a".into()), ("value", value)]);
        let whole = Stream::new();
        Connection::open(whole.clone(), &login()).unwrap().run(&query).unwrap();
        let stream = Stream::new();
        let mut connection = Connection::open(stream.clone(), &login()).unwrap();
        stream.0.borrow_mut().arm(0, WHOLE, None);
        assert!(matches!(connection.run(&query), Err(Error::Broken { .. })), "{size}");
        let (whole, way) = (whole.0.borrow(), stream.0.borrow());
        let outcomes = outcomes(&whole.requests, way.heard, way.handed);
        let wanted = [(2, Kind::Run, Some(outcomes[2])), (3, Kind::Pull, Some(outcomes[3]))];
        assert_eq!(told(connection.requests()), wanted, "{size}");
        ends_there += usize::from(way.handed == whole.requests[3].begins);
    }
    assert!(ends_there > 0);
}
