//! A session of a server: bytes in, one request worked at a time, bytes out.
use super::chunks::{Dechunk, OFFER, Out, Piece, Version, choose, quad};
use super::codec::{Value, encode, put_head, put_int, put_text};
use super::machine::{Kind, State, Tables, Verdict};
use super::requests::{Count, Mode, read_login, read_request};
use super::server::{Cause, Took, User, What, Worked};
use super::structures::{Ids, lower};
use super::table::{Commit, EngineFault, EntryId, Rows, Spelled, Table, Write};
use super::walk::Walk;
use super::{CELL_DEPTH, MAX_PLACES, MAX_TO_GO, MAX_WRITES};
use std::collections::VecDeque;
use std::ops::Range;

/// A code and a message of a FAILURE.
type Fault = (&'static str, &'static str);

const INVALID: Fault = ("Neo.ClientError.Request.Invalid", "request not valid in this state");
const UNAUTHORIZED: Fault = ("Neo.ClientError.Security.Unauthorized", "authentication refused");
const TOO_MANY_WRITES: Fault = ("Neo.ClientError.Transaction.TooManyWrites", "more than 1024 writes");
const TOKEN_CLASH: Fault = ("Neo.ClientError.Transaction.TokenClash", "token used with other writes");
const NOT_IN_VERSION: Fault = ("Neo.ClientError.Statement.NotInVersion", "value not in this version");
const ROW_TOO_LARGE: Fault = ("Neo.ClientError.Statement.RowTooLarge", "row past 65536 bytes");

fn fault_of(fault: EngineFault) -> Fault {
    match fault {
        EngineFault::UnknownText => ("Neo.ClientError.Statement.UnknownText", "unknown text"),
        EngineFault::Parameter => ("Neo.ClientError.Statement.Parameter", "bad parameter"),
        EngineFault::ReadOnly => ("Neo.ClientError.Statement.ReadOnly", "write in read mode"),
        EngineFault::TooManyRows => ("Neo.ClientError.Statement.TooManyRows", "more than 1024 rows"),
    }
}

/// SUCCESS without metadata, in its chunk.
const SUCCESS: &[u8] = b"\0\x03\xB1\x70\xA0\0\0";

/// A request that waits, and where its bytes are kept.
struct Place {
    ordinal: u64,
    kind: Kind,
    mode: Mode,
    count: Count,
    held: Range<usize>,
    token: Range<usize>,
    /// Why it ends the session when its turn comes.
    bad: Option<Cause>,
}

struct OpenResult {
    rows: Rows,
    write: Option<Write>,
    mode: Mode,
    token: Option<String>,
}

struct Transaction {
    writes: Vec<Write>,
    mode: Mode,
    token: Option<String>,
}

/// How a request was worked: done, and perhaps committed; done with rows left; or refused.
enum Step {
    Success(Option<u64>),
    More,
    Failure(Fault),
}

pub struct Session {
    pub conn: u64,
    version: Option<Version>,
    tables: &'static Tables,
    /// The front of the offer.
    hand: Vec<u8>,
    dechunk: Dechunk,
    queue: VecDeque<Place>,
    /// The bytes of those requests that need them when they are worked.
    held: Vec<u8>,
    /// RESETs that wait.
    resets: usize,
    next: u64,
    reads: bool,
    state: State,
    pub cause: Option<Cause>,
    /// RECORDs of the first request that waits.
    written: i64,
    result: Option<OpenResult>,
    transaction: Option<Transaction>,
    pub out: Out,
}

/// Puts a text of a name and a number.
fn put_numbered(out: &mut Vec<u8>, name: &str, number: u64) {
    let (mut digits, mut at, mut left) = ([0u8; 20], 20, number);
    loop {
        at -= 1;
        digits[at] = b'0' + (left % 10) as u8;
        left /= 10;
        if left == 0 { break; }
    }
    put_head(out, 0x80, 0xD0, name.len() + 20 - at);
    out.extend_from_slice(name.as_bytes());
    out.extend_from_slice(&digits[at..]);
}

impl Session {
    pub fn new(conn: u64) -> Session {
        Session {
            conn,
            version: None,
            tables: Tables::of(Version::V51),
            hand: Vec::new(),
            dechunk: Dechunk::default(),
            queue: VecDeque::new(),
            held: Vec::new(),
            resets: 0,
            next: 0,
            reads: true,
            state: State::Fresh,
            cause: None,
            written: 0,
            result: None,
            transaction: None,
            out: Out::default(),
        }
    }

    fn drop_work(&mut self) {
        self.result = None;
        self.transaction = None;
    }

    fn end(&mut self, cause: Cause) {
        self.cause = Some(cause);
        self.state = State::Defunct;
        self.queue.clear();
        self.drop_work();
    }

    fn interrupt(&mut self) {
        if self.state.is_interrupted_by_reset() {
            self.state = State::Interrupted;
            self.drop_work();
        }
    }

    fn shake(&mut self, piece: &[u8]) -> Took {
        let used = piece.len().min(OFFER - self.hand.len());
        self.hand.extend_from_slice(&piece[..used]);
        let Ok(offer) = <&[u8; OFFER]>::try_from(&self.hand[..]) else { return Took { used, what: What::Part } };
        let Ok(version) = choose(offer) else {
            self.end(Cause::BadMagic);
            return Took { used, what: What::BadMagic };
        };
        self.out.put(&version.map_or([0; 4], quad));
        self.version = version;
        match version {
            Some(version) => self.tables = Tables::of(version),
            None => self.end(Cause::NoVersion),
        }
        Took { used, what: What::Handshake(version) }
    }

    pub fn feed(&mut self, piece: &[u8]) -> Took {
        if self.cause.is_some() || !self.reads { return Took { used: 0, what: What::Closed }; }
        if self.queue.len() >= MAX_PLACES || self.next >= 1 << 63 { return Took { used: 0, what: What::Full }; }
        let Some(version) = self.version else { return self.shake(piece) };
        let (used, item) = self.dechunk.feed(piece);
        let message = match item {
            Piece::Nothing => return Took { used, what: What::Part },
            Piece::Noop => return Took { used, what: What::Noop },
            Piece::TooBig => return self.malformed(used, Cause::TooBig),
            Piece::Message(message) => message,
        };
        let Ok(asked) = read_request(version, message) else { return self.malformed(used, Cause::Malformed) };
        if self.queue.is_empty() { self.held.clear(); }
        let from = self.held.len();
        if asked.keeps { self.held.extend_from_slice(message); }
        let (held, token) = (from..self.held.len(), from + asked.token.start..from + asked.token.end);
        self.queue.push_back(Place { ordinal: self.next, kind: asked.kind, mode: asked.mode, count: asked.count, held, token, bad: None });
        self.next += 1;
        if asked.kind == Kind::Reset {
            self.resets += 1;
            self.interrupt();
        }
        Took { used, what: What::Message }
    }

    /// Nothing is read behind a message that stands for no request; the session ends when its turn comes.
    fn malformed(&mut self, used: usize, cause: Cause) -> Took {
        let place = Place { ordinal: self.next, kind: Kind::Goodbye, mode: Mode::Write, count: Count::All, held: 0..0, token: 0..0, bad: Some(cause) };
        self.queue.push_back(place);
        self.reads = false;
        Took { used, what: What::Malformed }
    }

    pub fn work(&mut self, table: &mut Table, user: &User) -> Worked {
        if let Some(cause) = self.cause { return Worked::Ended(cause); }
        if self.out.waiting() >= MAX_TO_GO { return Worked::Full; }
        let (Some(version), Some(first)) = (self.version, self.queue.front()) else { return Worked::Idle };
        let (kind, count) = (first.kind, first.count);
        if self.resets > 0 { self.interrupt(); }
        let mut fault = None;
        if kind == Kind::Pull {
            match self.record(version, count) {
                Ok(true) => return Worked::Row,
                Ok(false) => {}
                Err(row) => fault = Some(row),
            }
        }
        let Some(place) = self.queue.pop_front() else { return Worked::Idle };
        if let Some(cause) = place.bad.or((kind == Kind::Goodbye).then_some(Cause::Goodbye)) {
            self.end(cause);
            return Worked::Ended(cause);
        }
        self.written = 0;
        self.resets -= (kind == Kind::Reset) as usize;
        self.answer(table, user, &place, fault)
    }

    /// Works a request that was taken from the queue, and writes its summary.
    #[inline]
    fn answer(&mut self, table: &mut Table, user: &User, place: &Place, fault: Option<Fault>) -> Worked {
        let mut entry = None;
        let verdict = if self.tables.row(self.state, place.kind, Verdict::Ignored).is_some() {
            self.out.put(b"\0\x02\xB0\x7E\0\0");
            Verdict::Ignored
        } else if self.tables.row(self.state, place.kind, Verdict::Invalid).is_some() {
            self.fail(INVALID);
            Verdict::Invalid
        } else {
            match fault.map_or_else(|| self.step(table, user, place), Step::Failure) {
                Step::Success(committed) => {
                    entry = committed;
                    Verdict::Success
                }
                Step::More => Verdict::More,
                Step::Failure(fault) => {
                    self.fail(fault);
                    Verdict::Failure
                }
            }
        };
        self.state = self.tables.row(self.state, place.kind, verdict).unwrap_or(State::Defunct);
        if self.state == State::Defunct { self.end(if verdict == Verdict::Invalid { Cause::Invalid } else { Cause::AuthRefused }); }
        Worked::Wrote { ordinal: place.ordinal, kind: place.kind, state: self.state, entry }
    }

    /// Writes the next RECORD of a PULL where one is due.
    #[inline]
    fn record(&mut self, version: Version, asked: Count) -> Result<bool, Fault> {
        let Some(result) = &mut self.result else { return Ok(false) };
        if matches!(asked, Count::Of(count) if self.written >= count) { return Ok(false); }
        let value = match &mut result.rows {
            Rows::Ints { next, last } => {
                if next > last { return Ok(false); }
                *next += 1;
                Some(Value::Int(*next - 1))
            }
            Rows::One(value) => value.take(),
            Rows::Many(all) => all.next(),
        };
        let Some(mut value) = value else { return Ok(false) };
        if !matches!(value, Value::Int(_) | Value::Text(_)) { lower(version, Ids::Fitted, &mut value, CELL_DEPTH).map_err(|_| NOT_IN_VERSION)?; }
        let put = |out: &mut Vec<u8>| {
            out.extend_from_slice(&[0xB1, 0x71, 0x91]);
            if let Value::Int(number) = value { put_int(out, number) } else { encode(&value, out) }
        };
        self.out.message(put).map_err(|_| ROW_TOO_LARGE)?;
        self.written += 1;
        Ok(true)
    }

    /// Puts a message that is far below the limit.
    #[inline]
    fn put(&mut self, write: impl FnOnce(&mut Vec<u8>)) { self.out.message(write).expect("a short message"); }

    fn fail(&mut self, (code, message): Fault) {
        self.put(|out| {
            out.extend_from_slice(b"\xB1\x7F\xA2\x84code");
            put_text(out, code);
            out.extend_from_slice(b"\x87message");
            put_text(out, message);
        });
        self.drop_work();
    }

    /// Works a request that has a row of success in the state, and writes its SUCCESS.
    #[inline]
    fn step(&mut self, table: &mut Table, user: &User, place: &Place) -> Step {
        let id = EntryId { conn: self.conn, ordinal: place.ordinal };
        match place.kind {
            Kind::Run => self.run(table, place),
            Kind::Pull => self.close_result(table, id, Count::Of(0)),
            Kind::Discard => self.close_result(table, id, place.count),
            Kind::Commit => self.commit(table, id),
            Kind::Hello | Kind::Logon => self.greet(user, place),
            Kind::Begin => {
                self.transaction = Some(Transaction { writes: Vec::new(), mode: place.mode, token: self.token_of(place) });
                self.out.put(SUCCESS);
                Step::Success(None)
            }
            Kind::Logoff | Kind::Rollback | Kind::Reset | Kind::Goodbye => {
                self.drop_work();
                self.out.put(SUCCESS);
                Step::Success(None)
            }
        }
    }

    #[inline]
    fn token_of(&self, place: &Place) -> Option<String> {
        if place.token.is_empty() { return None; }
        String::from_utf8(self.held[place.token.clone()].to_vec()).ok()
    }

    /// HELLO and LOGON, each with a login where the version wants one of it.
    fn greet(&mut self, user: &User, place: &Place) -> Step {
        let version = self.version.unwrap_or(Version::V51);
        let mut walk = Walk::over(&self.held[place.held.clone()][2..]);
        let Ok(login) = read_login(version, place.kind, &mut walk) else { return Step::Failure(INVALID) };
        let needs_login = place.kind == Kind::Logon || version != Version::V51;
        if needs_login && !user.is_known(login) { return Step::Failure(UNAUTHORIZED); }
        if place.kind == Kind::Logon {
            self.drop_work();
            self.out.put(SUCCESS);
            return Step::Success(None);
        }
        let conn = self.conn;
        self.put(|out| {
            out.extend_from_slice(b"\xB1\x70\xA2\x86server\x8BBoltTable/1\x8Dconnection_id");
            put_numbered(out, "bolt-", conn);
        });
        Step::Success(None)
    }

    #[inline]
    fn run(&mut self, table: &Table, place: &Place) -> Step {
        let version = self.version.unwrap_or(Version::V51);
        let token = if self.transaction.is_none() { self.token_of(place) } else { None };
        let mut walk = Walk::over(&self.held[place.held.clone()][2..]);
        let (Ok(text), Ok(count)) = (walk.cursor.text(), walk.cursor.dict_head()) else { return Step::Failure(INVALID) };
        let (own, mode) = self.transaction.as_ref().map_or((&[][..], place.mode), |it| (&it.writes[..], it.mode));
        let mut answer = match table.run(own, text, &Spelled { version, count, bytes: walk.cursor.left }, mode) {
            Ok(answer) => answer,
            Err(fault) => return Step::Failure(fault_of(fault)),
        };
        if self.transaction.is_some() && answer.write.is_some() && own.len() >= MAX_WRITES { return Step::Failure(TOO_MANY_WRITES); }
        self.put(|out| {
            out.extend_from_slice(b"\xB1\x70\xA2\x86fields");
            match answer.field {
                None => out.push(0x90),
                Some(field) => {
                    out.push(0x91);
                    put_text(out, field);
                }
            }
            out.extend_from_slice(b"\x87t_first\x00");
        });
        if let Some(transaction) = &mut self.transaction { transaction.writes.extend(answer.write.take()); }
        self.result = Some(OpenResult { rows: answer.rows, write: answer.write, mode: answer.mode, token });
        Step::Success(None)
    }

    /// Commits the transaction. What is refused drops it.
    #[inline]
    fn commit(&mut self, table: &mut Table, id: EntryId) -> Step {
        let Some(transaction) = self.transaction.take() else { return Step::Failure(INVALID) };
        let Commit::At(place) = table.commit(id, transaction.token, transaction.writes) else { return Step::Failure(TOKEN_CLASH) };
        self.put(|out| {
            out.extend_from_slice(b"\xB1\x70\xA1\x88bookmark");
            put_numbered(out, "bk:", place);
        });
        Step::Success(Some(place))
    }

    /// Drops so many rows, then writes the summary of a PULL or DISCARD.
    #[inline]
    fn close_result(&mut self, table: &mut Table, id: EntryId, dropped: Count) -> Step {
        let Some(result) = &mut self.result else { return Step::Failure(INVALID) };
        result.rows.drop_first(if let Count::Of(count) = dropped { count } else { i64::MAX });
        if result.rows.len() > 0 {
            self.out.put(b"\0\x0D\xB1\x70\xA1\x88has_more\xC3\0\0");
            return Step::More;
        }
        let Some(result) = self.result.take() else { return Step::Failure(INVALID) };
        let mut entry = None;
        if self.transaction.is_none() {
            let Commit::At(place) = table.commit(id, result.token, result.write.into_iter().collect()) else { return Step::Failure(TOKEN_CLASH) };
            entry = Some(place);
        }
        self.put(|out| {
            out.extend_from_slice(&[0xB1, 0x70, 0xA2 + entry.is_some() as u8]);
            if let Some(place) = entry {
                out.extend_from_slice(b"\x88bookmark");
                put_numbered(out, "bk:", place);
            }
            out.extend_from_slice(if result.mode == Mode::Write { b"\x84type\x81w\x86t_last\x00" } else { b"\x84type\x81r\x86t_last\x00" });
        });
        Step::Success(entry)
    }
}
