//! Fates at servers that keep no tokens, at servers that keep them, and at an address that leads to both.

use bolt::{
    until_known, until_known_with, work_until_known, Before, Connection, Error, Fate, Login, Outcome, Query, Retry,
    Tries,
};
use std::cell::RefCell;
use std::collections::VecDeque;
use std::io::{self, Read, Write};
use std::rc::Rc;
use std::time::Duration;

const OURS: &str = "BoltTable/1";
const NEO4J: &str = "Neo4j/5.1";
const SUCCESS: &[u8] = &[0xB1, 0x70, 0xA0];
const FINAL: &str = "Neo.ClientError.Statement.SyntaxError";
const BUSY: &str = "Neo.TransientError.General.DatabaseUnavailable";
const CLASH: &str = "Neo.ClientError.Transaction.TokenClash";

/// A server. It has a name for each connection, and all further ones get the last. It commits, and doesn't answer, the
/// COMMITs with the numbers in `lost`, from 1. It answers the first COMMIT with the FAILURE `failed`. If it keeps no
/// tokens, it has committed nonetheless.
#[derive(Clone, Default)]
struct Server {
    names: Vec<&'static str>,
    lost: Vec<usize>,
    keeps: bool,
    /// The bytes of the text in the row of each query.
    row: usize,
    refuses: bool,
    failed: Option<&'static str>,
    has_hint: bool,
    connections: usize,
    asked: usize,
    commits: usize,
}

type Shared = Rc<RefCell<Server>>;

/// A connection to a server in memory, which answers when it is read.
struct Served {
    server: Shared,
    name: &'static str,
    asked: Vec<u8>,
    told: VecDeque<u8>,
    has_version: bool,
    has_ended: bool,
    has_failed: bool,
}

fn connect(server: &Shared) -> Served {
    let mut shared = server.borrow_mut();
    let name = shared.names[shared.connections.min(shared.names.len() - 1)];
    shared.connections += 1;
    let server = Rc::clone(server);
    let (asked, told) = (Vec::new(), VecDeque::new());
    Served { server, name, asked, told, has_version: false, has_ended: false, has_failed: false }
}

impl Served {
    /// The next message that has come whole, without its chunks.
    fn message(&mut self) -> Option<Vec<u8>> {
        let (mut message, mut at) = (Vec::new(), 0);
        loop {
            let length = usize::from(u16::from_be_bytes([*self.asked.get(at)?, *self.asked.get(at + 1)?]));
            message.extend(self.asked.get(at + 2..at + 2 + length)?);
            at += 2 + length;
            if length == 0 {
                self.asked.drain(..at);
                return Some(message);
            }
        }
    }

    fn tell(&mut self, message: &[u8]) {
        for chunk in message.chunks(60_000) {
            self.told.extend((chunk.len() as u16).to_be_bytes().iter().chain(chunk));
        }
        self.told.extend([0, 0]);
    }

    fn fail(&mut self, code: &str) {
        self.has_failed = true;
        let (start, length) = (b"\xB1\x7F\xA2\x84code\xD0".as_slice(), [code.len() as u8]);
        self.tell(&[start, &length, code.as_bytes(), b"\x87message\x82no"].concat());
    }

    fn answer(&mut self, message: &[u8]) {
        let tag = message[1];
        if self.has_failed && tag != 0x0F {
            return self.tell(&[0xB0, 0x7E]);
        }
        match tag {
            0x01 => {
                let hints = b"\x85hints\xA1\x8Bbolt.tokens\xC3".as_slice();
                let (start, hints) = if self.server.borrow().has_hint { (0xA2, hints) } else { (0xA1, &[][..]) };
                let (name, length) = (self.name.as_bytes(), self.name.len() as u8);
                self.tell(&[&[0xB1, 0x70, start], b"\x86server".as_slice(), &[0xD0, length], name, hints].concat());
            }
            0x10 if self.server.borrow().refuses => self.fail(FINAL),
            0x3F => {
                let size = self.server.borrow().row;
                let length = (size as u32).to_be_bytes();
                self.tell(&[[0xB1, 0x71, 0x91, 0xD2].as_slice(), &length, &vec![b'x'; size]].concat());
                self.tell(SUCCESS);
            }
            0x12 => {
                let mut server = self.server.borrow_mut();
                server.asked += 1;
                let code = server.failed.filter(|_| server.asked == 1);
                server.commits += usize::from(!server.keeps || server.commits == 0 && code.is_none());
                self.has_ended = server.lost.contains(&server.asked);
                drop(server);
                match code {
                    Some(code) => self.fail(code),
                    None if self.has_ended => {}
                    None => self.tell(SUCCESS),
                }
            }
            _ => self.tell(SUCCESS),
        }
    }
}

impl Read for Served {
    fn read(&mut self, into: &mut [u8]) -> io::Result<usize> {
        if !self.has_version && self.asked.len() >= 20 {
            self.asked.drain(..20);
            self.told.extend([0, 0, 1, 5]);
            self.has_version = true;
        }
        while self.has_version && !self.has_ended {
            let Some(message) = self.message() else { break };
            self.answer(&message);
        }
        let count = into.len().min(self.told.len());
        into.iter_mut().zip(self.told.drain(..count)).for_each(|(place, byte)| *place = byte);
        Ok(count)
    }
}

impl Write for Served {
    fn write(&mut self, bytes: &[u8]) -> io::Result<usize> {
        self.asked.extend(bytes);
        Ok(bytes.len())
    }

    fn flush(&mut self) -> io::Result<()> {
        Ok(())
    }
}

fn login() -> Login {
    Login { agent: "test/1".into(), principal: "user".into(), credentials: "pass".into() }
}

fn put() -> [Query; 1] {
    [Query::new("PUT", [("key", "a".into()), ("value", 1.into())])]
}

fn serving(server: Server) -> Shared {
    Rc::new(RefCell::new(server))
}

/// Returns the fate of a transaction, how many commits there were, and how many connections. It checks that fixed
/// queries and work have the same.
fn sent(server: Server, retry: Retry, before: Before) -> (Fate, usize, usize) {
    let (server, other) = (serving(server.clone()), serving(server));
    let fate = until_known_with(|| Some(connect(&server)), &login(), "t", &put(), 5, retry, before).unwrap();
    let tries = Tries { most: 5, pause: Duration::ZERO, retry, before, ..Tries::under("t") };
    let known = work_until_known(|| Some(connect(&other)), &login(), &tries, |it| it.run(&put()[0]).map(drop));
    let known = known.unwrap();
    let counts = |it: &Shared| (it.borrow().commits, it.borrow().connections);
    assert_eq!((fate, counts(&server)), (known.fate, counts(&other)));
    assert_eq!((fate == Fate::Stands).then_some(()), known.value);
    assert!(known.error.is_some() || fate == Fate::Stands || before == Before::InDoubt);
    (fate, counts(&server).0, counts(&server).1)
}

fn named(names: &[&'static str], keeps: bool, lost: &[usize]) -> Server {
    Server { names: names.to_vec(), lost: lost.to_vec(), keeps, ..Server::default() }
}

#[test]
fn sends_again_after_doubt_only_to_server_that_keeps_tokens() {
    use Retry::{Detect, Never, Tokens};
    let each: Vec<usize> = (1..9).collect();
    let rows = [
        ("no tokens, the answer is lost", named(&[NEO4J], false, &[1]), Detect, (Fate::Open, 1, 1)),
        ("no tokens, nothing is lost", named(&[NEO4J], false, &[]), Detect, (Fate::Stands, 1, 1)),
        ("no name, the answer is lost", named(&[""], false, &[1]), Detect, (Fate::Open, 1, 1)),
        ("tokens, the answer is lost", named(&[OURS], true, &[1]), Detect, (Fate::Stands, 1, 2)),
        ("tokens, three answers are lost", named(&[OURS], true, &[1, 2, 3]), Detect, (Fate::Stands, 1, 4)),
        ("tokens, each answer is lost", named(&[OURS], true, &each), Detect, (Fate::Open, 1, 5)),
        ("tokens first, then none", named(&[OURS, NEO4J], false, &[1]), Detect, (Fate::Open, 1, 2)),
        ("none first, then tokens", named(&[NEO4J, OURS], false, &[1]), Detect, (Fate::Open, 1, 1)),
        ("tokens under another name", named(&[NEO4J], true, &[1]), Tokens, (Fate::Stands, 1, 2)),
        ("tokens, and the caller says none", named(&[OURS], true, &[1]), Never, (Fate::Open, 1, 1)),
    ];
    for (what, server, retry, wanted) in rows {
        assert_eq!(wanted, sent(server, retry, Before::Nothing), "{what}");
    }
}

#[test]
fn hint_says_that_server_keeps_tokens() {
    let hinting = |keeps, lost: &[usize]| Server { has_hint: true, ..named(&[NEO4J], keeps, lost) };
    assert_eq!((Fate::Stands, 1, 2), sent(hinting(true, &[1]), Retry::Detect, Before::Nothing));
    assert!(Connection::open(connect(&serving(hinting(true, &[]))), &login()).unwrap().keeps_tokens());
}

#[test]
fn failure_of_commit_is_doubt_unless_server_keeps_tokens() {
    use Retry::{Detect, Never, Tokens};
    let rows = [
        ("no tokens, for now", NEO4J, false, BUSY, Detect, (Fate::Open, 1, 1)),
        ("no tokens, for good", NEO4J, false, FINAL, Detect, (Fate::Open, 1, 1)),
        ("no tokens, for other writes", NEO4J, false, CLASH, Detect, (Fate::Open, 1, 1)),
        ("no tokens, without a code", NEO4J, false, "", Detect, (Fate::Open, 1, 1)),
        ("the caller says none", OURS, false, BUSY, Never, (Fate::Open, 1, 1)),
        ("tokens, for now", OURS, true, BUSY, Detect, (Fate::Stands, 1, 2)),
        ("tokens, for good", OURS, true, FINAL, Detect, (Fate::Refused, 0, 1)),
        ("tokens, for other writes", OURS, true, CLASH, Detect, (Fate::Clash, 0, 1)),
        ("the caller says tokens", NEO4J, true, FINAL, Tokens, (Fate::Refused, 0, 1)),
    ];
    for (what, name, keeps, code, retry, wanted) in rows {
        let server = Server { failed: Some(code), ..named(&[name], keeps, &[]) };
        assert_eq!(wanted, sent(server, retry, Before::Nothing), "{what}");
    }
}

#[test]
fn plain_call_commits_once_at_server_that_keeps_no_tokens() {
    let server = serving(named(&[NEO4J], false, &[1]));
    let fate = until_known(|| Some(connect(&server)), &login(), "t", &put(), 5).unwrap();
    assert_eq!((Fate::Open, 1), (fate, server.borrow().commits));
}

#[test]
fn token_in_doubt_stays_open() {
    let refusing = Server { refuses: true, ..named(&[OURS], true, &[]) };
    let rows = [
        ("no tokens: nothing is sent", named(&[NEO4J], false, &[]), Retry::Detect, (Fate::Open, 0, 1)),
        ("tokens", named(&[OURS], true, &[]), Retry::Detect, (Fate::Stands, 1, 1)),
        ("the caller says tokens", named(&[NEO4J], true, &[]), Retry::Tokens, (Fate::Stands, 1, 1)),
        ("the caller says none: no connection", named(&[OURS], true, &[]), Retry::Never, (Fate::Open, 0, 0)),
        ("a refusal", refusing, Retry::Detect, (Fate::Open, 0, 5)),
    ];
    for (what, server, retry, wanted) in rows {
        assert_eq!(wanted, sent(server, retry, Before::InDoubt), "{what}");
    }
    for (before, wanted) in [(Before::Nothing, Fate::Absent), (Before::InDoubt, Fate::Open)] {
        let fate = until_known_with(|| None::<Served>, &login(), "t", &put(), 3, Retry::Detect, before).unwrap();
        assert_eq!(wanted, fate, "no server, {before:?}");
    }
}

#[test]
fn token_that_cant_be_sent_is_refused_before_connecting() {
    for token in ["", &"x".repeat(65), &"é".repeat(33)] {
        let server = serving(named(&[OURS], true, &[]));
        let told = until_known(|| Some(connect(&server)), &login(), token, &put(), 3);
        assert!(matches!(&told, Err(Error::NotSent { code: 8, rule, .. }) if rule == "M5"), "{token}: {told:?}");
        assert_eq!(0, server.borrow().connections, "{token}");
    }
}

#[test]
fn request_that_cant_be_written_ends_tries() {
    let server = serving(named(&[OURS], true, &[]));
    let many = vec![put()[0].clone(); 16];
    let sent = |before| until_known_with(|| Some(connect(&server)), &login(), "t", &many, 3, Retry::Detect, before);
    assert!(matches!(sent(Before::Nothing), Err(Error::NotSent { code: 2, .. })));
    assert_eq!(Fate::Open, sent(Before::InDoubt).unwrap());
    assert_eq!(2, server.borrow().connections);
}

#[test]
fn too_large_row_has_its_own_reason_and_isnt_asked_for_again() {
    // The message of a row with one text takes eight bytes more than the text, whose size takes four.
    for (row, is_taken) in [(65_528, true), (65_529, false), (70_000, false), (1_000_000, false)] {
        let server = serving(Server { row, ..named(&[OURS], true, &[]) });
        let told = Connection::open(connect(&server), &login()).unwrap().run(&put()[0]).map(|it| it.rows.len());
        match told {
            Ok(count) => assert_eq!((true, 1), (is_taken, count), "{row}"),
            Err(Error::Broken { why, .. }) => {
                assert_eq!((false, "a message of the server takes more than 65,536 bytes"), (is_taken, why), "{row}");
            }
            Err(error) => panic!("{row}: {error}"),
        }
        let fate = until_known(|| Some(connect(&server)), &login(), "t", &put(), 3).unwrap();
        // The COMMIT goes out with the query, so its answer is lost with the row.
        assert_eq!((if is_taken { Fate::Stands } else { Fate::Open }, 2), (fate, server.borrow().connections), "{row}");
    }
}

#[test]
fn connection_has_name_of_its_server() {
    for name in [OURS, NEO4J, ""] {
        let server = serving(named(&[name], true, &[]));
        let mut connection = Connection::open(connect(&server), &login()).unwrap();
        assert_eq!((name, name == OURS), (connection.server(), connection.keeps_tokens()));
        connection.transact(None, &put()).unwrap();
        let outcome = connection.requests().last().unwrap().outcome;
        assert_eq!((name, Some(Outcome::Committed)), (connection.server(), outcome));
    }
}
