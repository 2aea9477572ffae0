//! Streams that are no socket: they give fixed answers, end early, fail, panic or hold few bytes.

mod common;

use bolt::{until_known, Answer, Connection, Error, ErrorKind, Fate, Outcome, Query, Row, Value};
use common::{login, put};
use std::cell::Cell;
use std::collections::VecDeque;
use std::error::Error as _;
use std::io::{self, Read, Write};
use std::mem::ManuallyDrop;
use std::panic::{catch_unwind, AssertUnwindSafe};

const SYNTAX_ERROR: &str = "Neo.ClientError.Statement.SyntaxError";

fn outcomes<S: Read + Write>(connection: &Connection<S>) -> Vec<Option<Outcome>> {
    connection.requests().iter().map(|it| it.outcome).collect()
}

/// A stream that gives one answer to each read, ends after the last, and takes whatever is written.
struct Answers(VecDeque<Vec<u8>>);

impl Read for Answers {
    fn read(&mut self, into: &mut [u8]) -> io::Result<usize> {
        let Some(answer) = self.0.pop_front() else { return Ok(0) };
        into[..answer.len()].copy_from_slice(&answer);
        Ok(answer.len())
    }
}

impl Write for Answers {
    fn write(&mut self, bytes: &[u8]) -> io::Result<usize> {
        Ok(bytes.len())
    }

    fn flush(&mut self) -> io::Result<()> {
        Ok(())
    }
}

const SUCCESS: &[u8] = &[0xB1, 0x70, 0xA0];
/// The answer to HELLO of a server that keeps tokens.
const HELLO: &[u8] = b"\xB1\x70\xA1\x86server\x8BBoltTable/1";

/// Returns a FAILURE with a code of 16 to 255 bytes.
fn failure(code: &str) -> Vec<u8> {
    [b"\xB1\x7F\xA2\x84code\xD0", [code.len() as u8].as_slice(), code.as_bytes(), b"\x87message\x82no"].concat()
}

/// Returns a stream that takes version 5.1 and the login, and then gives these messages at once.
fn answering(messages: &[&[u8]]) -> Option<Answers> {
    let framed =
        |messages: &[&[u8]]| messages.iter().flat_map(|it| [&[0, it.len() as u8], *it, &[0, 0]].concat()).collect();
    Some(Answers([vec![0, 0, 1, 5], framed(&[HELLO, SUCCESS]), framed(messages)].into()))
}

fn connected(messages: &[&[u8]]) -> Connection<Answers> {
    Connection::open(answering(messages).unwrap(), &login()).unwrap()
}

#[test]
fn answer_counts_though_the_stream_ends_after_it() {
    let (clash, refused) = (failure("Neo.ClientError.Transaction.TokenClash"), failure(SYNTAX_ERROR));
    let rows: [(&[&[u8]], Fate); 6] = [
        // The answers to BEGIN, RUN, PULL and COMMIT. The second row has one that nobody asked for.
        (&[SUCCESS; 4], Fate::Stands),
        (&[SUCCESS; 5], Fate::Stands),
        (&[SUCCESS; 3], Fate::Open),
        (&[SUCCESS, SUCCESS, SUCCESS, &clash], Fate::Clash),
        (&[SUCCESS, SUCCESS, SUCCESS, &refused], Fate::Refused),
        (&[SUCCESS, &refused], Fate::Refused),
    ];
    for (messages, fate) in rows {
        let known = until_known(|| answering(messages), &login(), "t", &[put("a")], 1);
        assert_eq!(known.unwrap(), fate, "{messages:?}");
    }
    let refusal = connected(&[SUCCESS, SUCCESS, SUCCESS, &clash]).transact(None, &[put("a")]);
    assert!(matches!(refusal, Err(Error::Refused { ref code, .. }) if code.ends_with(".TokenClash")), "{refusal:?}");
}

#[test]
fn malformed_answer_is_not_reported_as_too_large() {
    let unknown_tag: &[u8] = b"\xB1\x72\x90";
    let byte_after_value: &[u8] = b"\xB1\x71\x90\x01";
    for answer in [unknown_tag, byte_after_value] {
        match connected(&[SUCCESS, answer]).run(&put("a")) {
            Err(Error::Broken { why, .. }) => assert_eq!("the server sent what no server may", why, "{answer:?}"),
            told => panic!("{answer:?}: {told:?}"),
        }
    }
}

/// A stream that takes whatever is written, and fails with this error when it is read.
struct Failing(io::ErrorKind);

impl Read for Failing {
    fn read(&mut self, _: &mut [u8]) -> io::Result<usize> {
        Err(self.0.into())
    }
}

impl Write for Failing {
    fn write(&mut self, bytes: &[u8]) -> io::Result<usize> {
        Ok(bytes.len())
    }

    fn flush(&mut self) -> io::Result<()> {
        Ok(())
    }
}

#[test]
fn error_has_a_kind_and_the_error_of_the_stream() {
    let rows = [
        (io::ErrorKind::TimedOut, ErrorKind::TimedOut),
        (io::ErrorKind::WouldBlock, ErrorKind::TimedOut),
        (io::ErrorKind::ConnectionReset, ErrorKind::Broken),
    ];
    for (failure, kind) in rows {
        let error = Connection::open(Failing(failure), &login()).err().unwrap();
        let source = error.source().and_then(|it| it.downcast_ref::<io::Error>()).map(io::Error::kind);
        assert_eq!((error.kind(), source, error.code()), (kind, Some(failure), None));
    }
    let work = Error::work(io::Error::other("why"));
    assert_eq!((work.kind(), work.source().unwrap().to_string()), (ErrorKind::Work, "why".to_owned()));
}

#[test]
fn answer_is_found_by_the_index_of_its_run() {
    let (fields, row): (&[u8], &[u8]) = (b"\xB1\x70\xA1\x86fields\x91\x81x", &[0xB1, 0x71, 0x91, 7]);
    for messages in [[SUCCESS, fields, row, SUCCESS, SUCCESS].as_slice(), &[SUCCESS, fields, row]] {
        let mut connection = connected(messages);
        // The requests of the login are no queries.
        for index in [0, 1, 2, usize::MAX] {
            assert_eq!(connection.answer(index), None, "{index}");
        }
        connection.ask_begin(true, None).unwrap();
        let run = connection.ask_run(&put("a"), true, None).unwrap();
        connection.ask_commit().unwrap();
        assert_eq!(connection.answer(run), None);
        let is_whole = connection.settle().is_ok();
        assert_eq!((connection.requests()[run + 1].rows.len(), is_whole), (1, messages.len() == 5));
        let answer = Answer { fields: vec!["x".to_owned()], rows: vec![Row::new(["x"], [7.into()])], bookmark: None };
        assert_eq!(connection.answer(run), is_whole.then_some(answer));
        for index in [run - 1, run + 1, run + 2, run + 3, usize::MAX] {
            assert_eq!(connection.answer(index), None, "{index}");
        }
    }
    // The first of the two columns has no name. The name of the second isn't taken for it.
    let unnamed: &[u8] = b"\xB1\x70\xA1\x86fields\x92\x07\x81x";
    let mut connection = connected(&[unnamed, row, SUCCESS]);
    let answer = Answer { fields: vec![], rows: vec![Row::new([], [7.into()])], bookmark: None };
    assert_eq!(connection.run(&put("a")).unwrap(), answer);
}

#[test]
fn calls_after_the_end_return_broken_with_outcomes_again() {
    // The answers end before that of COMMIT. The second transaction has as many requests as may wait.
    for count in [1, 15] {
        let mut connection = connected(&vec![SUCCESS; 1 + 2 * count]);
        let first = connection.transact(None, &vec![put("a"); count]).map(|it| it.len());
        let later = [
            connection.transact(None, &[put("b")]).map(|it| it.len()),
            connection.run(&put("b")).map(|it| it.rows.len()),
            connection.settle().map(<[_]>::len),
            connection.ask_begin(true, None),
            connection.ask_run(&put("b"), true, None),
            connection.ask_commit(),
            connection.ask_rollback(),
            connection.ask_reset(),
        ];
        for told in [first].into_iter().chain(later) {
            let Err(Error::Broken { requests, .. }) = &told else { panic!("{told:?}") };
            let last = requests.last().map(|it| (it.text.as_str(), it.outcome));
            assert_eq!((2 + 2 * count, Some(("COMMIT", Some(Outcome::Unknown)))), (requests.len(), last));
        }
        assert_eq!(Some(Outcome::Unknown), outcomes(&connection)[1 + 2 * count]);
    }
}

#[test]
fn transaction_that_is_too_long_ends_the_connection() {
    // The queue of 32 requests takes the first 31 of the transaction.
    let mut connection = connected(&[SUCCESS; 36]);
    // If BEGIN isn't taken, the connection can still be used.
    let unbegun = connection.transact(Some(""), &[put("a")]);
    assert!(matches!(unbegun, Err(Error::NotSent { code: 8, ref rule, .. }) if rule == "M5"), "{unbegun:?}");
    let unsent = connection.transact(None, &vec![put("a"); 16]);
    assert!(matches!(unsent, Err(Error::NotSent { code: 2, .. })), "{unsent:?}");
    // A call after the end says again how the connection ended, and what became of each request.
    let ended = connection.run(&put("b"));
    let Err(Error::Broken { requests, .. }) = &ended else { panic!("{ended:?}") };
    assert_eq!(31, requests.len());
    assert!(requests.iter().all(|it| it.outcome == Some(Outcome::Lost)), "{requests:?}");
}

#[test]
fn value_that_is_too_deep_is_not_sent() {
    let mut connection = connected(&[]);
    for (depth, is_taken) in [(30, true), (31, false), (1_000_000, false)] {
        let value = (0..depth).fold(Value::Null, |it, _| vec![it].into());
        // To drop a deep value takes one call within another for each level: too many for the stack.
        let query = ManuallyDrop::new(Query::new("ECHO", [("x", value)]));
        let asked = connection.ask_run(&query, true, None);
        match &asked {
            Ok(_) => assert!(is_taken, "{depth}"),
            Err(Error::NotSent { code: 8, rule, .. }) if rule == "P6" => assert!(!is_taken, "{depth}"),
            Err(error) => panic!("{depth}: {error:?}"),
        }
    }
}

#[test]
fn until_known_reports_what_cannot_be_sent() {
    let unsent = until_known(|| answering(&[]), &login(), "t", &vec![put("a"); 16], 3);
    assert!(matches!(unsent, Err(Error::NotSent { code: 2, .. })), "{unsent:?}");
    let unsent = until_known(|| answering(&[]), &login(), "", &[put("a")], 3);
    assert!(matches!(unsent, Err(Error::NotSent { code: 8, ref rule, .. }) if rule == "M5"), "{unsent:?}");
}

#[test]
fn only_settle_sends_what_was_asked() {
    let mut connection = connected(&[SUCCESS; 4]);
    connection.ask_run(&put("a"), true, None).unwrap();
    let (run, transacted) = (connection.run(&put("b")), connection.transact(None, &[put("b")]));
    assert!(matches!(run, Err(Error::NotSent { code: 1, .. })), "{run:?}");
    assert!(matches!(transacted, Err(Error::NotSent { code: 1, .. })), "{transacted:?}");
    assert_eq!(outcomes(&connection), [None, None]);
}

/// A stream whose flushes fail if `fails` has a kind of error: once if that is an interrupt, else each time.
struct Unflushed {
    answers: Answers,
    fails: Cell<Option<io::ErrorKind>>,
}

impl Unflushed {
    fn answering(messages: &[&[u8]]) -> Connection<Unflushed> {
        Connection::open(Unflushed { answers: answering(messages).unwrap(), fails: Cell::default() }, &login()).unwrap()
    }
}

impl Read for Unflushed {
    fn read(&mut self, into: &mut [u8]) -> io::Result<usize> {
        self.answers.read(into)
    }
}

impl Write for Unflushed {
    fn write(&mut self, bytes: &[u8]) -> io::Result<usize> {
        Ok(bytes.len())
    }

    fn flush(&mut self) -> io::Result<()> {
        let Some(kind) = self.fails.take() else { return Ok(()) };
        if kind != io::ErrorKind::Interrupted {
            self.fails.set(Some(kind));
        }
        Err(kind.into())
    }
}

#[test]
fn nothing_is_asked_after_a_flush_failed() {
    let refused = failure(SYNTAX_ERROR);
    let ignored = [0xB0, 0x7E];
    let rows: [&[&[u8]]; 2] = [&[SUCCESS; 4], &[&refused, &ignored, &ignored, &ignored]];
    for messages in rows {
        let mut connection = Unflushed::answering(messages);
        connection.stream().fails.set(Some(io::ErrorKind::TimedOut));
        let told = connection.transact(None, &[put("a")]);
        assert_eq!(told.is_ok(), messages[0] == SUCCESS, "{told:?}");
        assert!(!matches!(told, Err(Error::Broken { .. })), "{told:?}");
        let again = connection.run(&put("b"));
        match &again {
            Err(Error::Broken { why: "the stream failed", error: Some(_), requests }) if told.is_ok() => {
                assert_eq!(requests, &[]);
            }
            // After a refusal the RESET has ended the connection already.
            Err(Error::Broken { requests, .. }) if told.is_err() => {
                assert_eq!(requests, told.as_ref().unwrap_err().requests());
            }
            _ => panic!("{told:?}, and then {again:?}"),
        }
        // A call after the end says so again.
        assert!(matches!(connection.run(&put("c")), Err(Error::Broken { .. })));
    }
}

#[test]
fn refusal_is_returned_once_though_the_reset_fails() {
    let refused = failure(SYNTAX_ERROR);
    let ignored: &[u8] = &[0xB0, 0x7E];
    // The stream ends; the RESET is refused; the stream has an answer that nobody asked for.
    for reset in [[].as_slice(), &[refused.as_slice()], &[SUCCESS; 2]] {
        let mut stream = answering(&[&refused, ignored]).unwrap();
        stream.0.extend(answering(reset).unwrap().0.into_iter().skip(2).filter(|it| !it.is_empty()));
        let mut connection = Connection::open(stream, &login()).unwrap();
        let told = connection.run(&put("a"));
        assert!(matches!(told, Err(Error::Refused { .. })), "{told:?}");
        for _ in 0..2 {
            match connection.settle().map(<[_]>::len) {
                Err(Error::Broken { requests, .. }) => assert_eq!(requests, connection.requests()),
                again => panic!("{again:?}"),
            }
        }
        assert_eq!(outcomes(&connection), [Some(Outcome::Refused), Some(Outcome::Ignored)]);
    }
}

#[test]
fn interrupted_flush_is_done_again() {
    let mut connection = Unflushed::answering(&[SUCCESS; 4]);
    connection.stream().fails.set(Some(io::ErrorKind::Interrupted));
    connection.transact(None, &[put("a")]).unwrap();
    connection.ask_begin(true, None).unwrap();
}

#[derive(Clone, Copy, Debug, Default, PartialEq)]
enum Panic {
    #[default]
    Never,
    BeforeWrite,
    AfterWrite,
    AfterRead,
    /// The stream says that it read more bytes than the buffer has. The crate panics then.
    ReadTooMuch,
    AtReset,
}

/// A stream that keeps what is written, and panics at one point of its calls.
struct Panics {
    answers: Answers,
    written: Vec<u8>,
    due: Cell<Panic>,
}

impl Panics {
    fn panic(&self, at: Panic) {
        assert!(self.due.get() != at, "{at:?}");
    }
}

impl Read for Panics {
    fn read(&mut self, into: &mut [u8]) -> io::Result<usize> {
        let count = self.answers.read(into)?;
        self.panic(Panic::AfterRead);
        Ok(if self.due.get() == Panic::ReadTooMuch { into.len() + 1 } else { count })
    }
}

impl Write for Panics {
    fn write(&mut self, bytes: &[u8]) -> io::Result<usize> {
        self.panic(Panic::BeforeWrite);
        self.written.extend(bytes);
        self.panic(Panic::AfterWrite);
        if bytes == [0, 2, 0xB0, 0x0F, 0, 0] {
            self.panic(Panic::AtReset);
        }
        Ok(bytes.len())
    }

    fn flush(&mut self) -> io::Result<()> {
        Ok(())
    }
}

#[test]
fn nothing_is_sent_or_read_after_the_stream_panicked() {
    let points = [(Panic::BeforeWrite, 0), (Panic::AfterWrite, 1), (Panic::AfterRead, 1), (Panic::ReadTooMuch, 1)];
    for (due, times) in points {
        let answers = answering(&[SUCCESS; 8]).unwrap();
        let stream = Panics { answers, written: Vec::new(), due: Cell::default() };
        let mut connection = Connection::open(stream, &login()).unwrap();
        connection.stream().due.set(due);
        assert!(catch_unwind(AssertUnwindSafe(|| connection.transact(None, &[put("a")]))).is_err());
        connection.stream().due.take();
        // If this were sent, the answers to the first transaction would be taken for answers to this one.
        let again = connection.transact(None, &[put("b")]);
        assert!(matches!(again, Err(Error::Broken { why: "the stream panicked", .. })), "{due:?}: {again:?}");
        let broken = connection.settle().map(<[_]>::len);
        assert!(matches!(&broken, Err(Error::Broken { why: "the stream panicked", .. })), "{due:?}: {broken:?}");
        assert_eq!(connection.requests().last().unwrap().outcome, Some(Outcome::Unknown), "{due:?}");
        let commit = [0, 2, 0xB0, 0x12, 0, 0];
        let written = &connection.stream().written;
        assert_eq!(written.windows(commit.len()).filter(|it| *it == commit).count(), times, "{due:?}");
    }
    // The RESET after a refusal isn't among the requests of the caller.
    let (refused, ignored): (_, &[u8]) = (failure(SYNTAX_ERROR), &[0xB0, 0x7E]);
    let answers = answering(&[&refused, ignored]).unwrap();
    let stream = Panics { answers, written: Vec::new(), due: Cell::default() };
    let mut connection = Connection::open(stream, &login()).unwrap();
    connection.ask_run(&put("a"), true, None).unwrap();
    connection.stream().due.set(Panic::AtReset);
    assert!(catch_unwind(AssertUnwindSafe(|| connection.settle().is_ok())).is_err());
    assert_eq!(outcomes(&connection), [Some(Outcome::Refused), Some(Outcome::Ignored)]);
}

/// A server after sockets that hold HELD bytes each way. It answers each PULL with a long row. It reads no more
/// requests while HELD bytes of its answers wait.
struct Narrow {
    asked: Vec<u8>,
    told: VecDeque<u8>,
    has_version: bool,
}

const HELD: usize = 65_536;
const LONG: usize = 60_000;

impl Narrow {
    /// Returns the next whole message without its chunk headers.
    fn message(&mut self) -> Option<Vec<u8>> {
        let (mut message, mut at) = (Vec::new(), 0);
        loop {
            let length = usize::from(u16::from_be_bytes([*self.asked.get(at)?, *self.asked.get(at + 1)?]));
            let chunk = self.asked.get(at + 2..at + 2 + length)?;
            message.extend(chunk);
            at += 2 + length;
            if length == 0 {
                self.asked.drain(..at);
                return Some(message);
            }
        }
    }

    fn tell(&mut self, message: &[u8]) {
        self.told.extend((message.len() as u16).to_be_bytes().iter().chain(message).chain(&[0, 0]));
    }

    fn serve(&mut self) {
        if !self.has_version && self.asked.len() >= 20 {
            self.asked.drain(..20);
            self.told.extend([0, 0, 1, 5]);
            self.has_version = true;
        }
        while self.has_version && self.told.len() < HELD {
            let Some(message) = self.message() else { return };
            if message[1] == 0x3F {
                self.tell(&[[0xB1, 0x71, 0x91, 0xCD].as_slice(), &(LONG as u16).to_be_bytes(), &[0; LONG]].concat());
            }
            self.tell(SUCCESS);
        }
    }
}

impl Read for Narrow {
    fn read(&mut self, into: &mut [u8]) -> io::Result<usize> {
        self.serve();
        let count = into.len().min(self.told.len());
        into.iter_mut().zip(self.told.drain(..count)).for_each(|(place, byte)| *place = byte);
        Ok(count)
    }
}

impl Write for Narrow {
    fn write(&mut self, bytes: &[u8]) -> io::Result<usize> {
        self.serve();
        let is_read = self.told.len() < HELD;
        let room = if is_read { bytes.len() } else { HELD.saturating_sub(self.asked.len()).min(bytes.len()) };
        self.asked.extend(&bytes[..room]);
        // A socket would wait here until the peer reads.
        if room == 0 {
            Err(io::ErrorKind::WouldBlock.into())
        } else {
            Ok(room)
        }
    }

    fn flush(&mut self) -> io::Result<()> {
        Ok(())
    }
}

#[test]
fn long_pipelines_and_long_answers_do_not_wait_for_each_other() {
    let stream = Narrow { asked: Vec::new(), told: VecDeque::new(), has_version: false };
    let mut connection = Connection::open(stream, &login()).unwrap();
    let long = Query::new("PUT", [("key", "a".into()), ("value", Value::Bytes(vec![1; LONG]))]);
    for query in [&long, &put("a")] {
        let answers = connection.transact(None, &vec![query.clone(); 15]).unwrap();
        assert_eq!(answers.len(), 15);
        for answer in answers {
            assert_eq!(answer.rows, [[Value::Bytes(vec![0; LONG])]]);
        }
    }
    // No byte of COMMIT is sent if no request before it is answered.
    let mut broken = connected(&[]);
    assert!(broken.transact(None, &vec![long; 15]).is_err());
    assert_eq!(outcomes(&broken).last(), Some(&Some(Outcome::Lost)));
}
