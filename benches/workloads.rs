//! The workloads over the twin: a client and a server in one process, which pass bytes through memory in pieces of at most 4,096. Each checks what it
//! can of its outcomes, and answers one number of all that was moved and heard, with the ledger's length.
use crate::twin::chunks::Wish;
use crate::twin::client::{Client, Heard, Outcome};
use crate::twin::codec::{Dict, Value};
use crate::twin::machine::{Kind, Phase, State};
use crate::twin::requests::{Ask, Count, Login, Mode, Pairs, Run};
use crate::twin::server::{Server, What, Worked};
use crate::twin::walk::Lent;
use std::hint::black_box;

pub const PIECE: usize = 4_096;

/// How the caller of a client asks and hears.
#[derive(Debug, Clone, Copy, PartialEq, Eq)]
pub enum Form {
    /// It makes requests of its own, and is handed rows and metadata of its own, as the product's calls have it.
    Owned,
    /// It lends requests, and reads rows and metadata where they lie.
    Lent,
}

/// What was moved and heard.
#[derive(Debug, Default, Clone, Copy, PartialEq, Eq)]
pub struct Tally {
    pub up: u64,
    pub down: u64,
    pub rows: u64,
    pub cells: u64,
    pub done: u64,
    pub committed: u64,
    pub other: u64,
}

impl Tally {
    pub fn hear(&mut self, form: Form, heard: Heard) {
        match heard {
            Heard::Nothing | Heard::Version(_) => {}
            Heard::Row(row) => {
                self.rows += 1;
                self.cells = self.cells.wrapping_add(match form {
                    Form::Lent => first_lent(row.first()),
                    Form::Owned => first_owned(&black_box(row.own())),
                });
            }
            Heard::Summary { outcome, reply, .. } => {
                if form == Form::Owned { black_box(reply.own()); }
                match outcome {
                    Outcome::Done => self.done += 1,
                    Outcome::Committed => self.committed += 1,
                    _ => self.other += 1,
                }
            }
        }
    }

    /// The check number of a run: the bytes up and down, the rows, the first cell of each (an Int, or the length of Bytes or of a list), the summaries
    /// done, twice those committed, and the ledger's length.
    pub fn check(&self, ledger: usize) -> u64 {
        assert_eq!(self.other, 0);
        self.up + self.down + self.rows + self.cells + self.done + 2 * self.committed + ledger as u64
    }
}

fn first_lent(cell: Lent) -> u64 {
    match cell {
        Lent::Int(number) => number as u64,
        Lent::Bytes(bytes) => bytes.len() as u64,
        Lent::List(count) => count as u64,
        _ => 0,
    }
}

fn first_owned(cells: &[Value]) -> u64 {
    match cells.first() {
        Some(Value::Int(number)) => *number as u64,
        Some(Value::Bytes(bytes)) => bytes.len() as u64,
        Some(Value::List(all)) => all.len() as u64,
        _ => 0,
    }
}

/// Where the bytes of exchanges are kept, of a run that is recorded.
pub type Recording = Vec<u8>;

/// A server with its sessions' clients.
pub struct Bench {
    pub server: Server,
    pub form: Form,
    pub tally: Tally,
    /// What was said up and down since the last exchange was kept; none where nothing is recorded.
    said: Option<[Vec<u8>; 2]>,
}

/// A client, and the number of its session.
pub struct Link {
    pub conn: u64,
    pub client: Client,
}

impl Bench {
    pub fn new(form: Form, is_recorded: bool) -> Bench {
        let said = is_recorded.then(Default::default);
        Bench { server: Server::new("user", "pass"), form, tally: Tally::default(), said }
    }

    /// The client writes a piece, and the server reads it.
    pub fn up(&mut self, link: &mut Link) {
        let piece = link.client.take_out(PIECE);
        if let Some([up, _]) = &mut self.said { up.extend_from_slice(piece); }
        self.tally.up += piece.len() as u64;
        feed(&mut self.server, link.conn, piece);
    }

    /// The server writes all that waits, and the client reads it piece by piece.
    pub fn down(&mut self, link: &mut Link) {
        loop {
            let piece = self.server.take_out(link.conn, PIECE).expect("a session");
            if piece.is_empty() { return; }
            if let Some([_, down]) = &mut self.said { down.extend_from_slice(piece); }
            self.tally.down += piece.len() as u64;
            hear(&mut link.client, piece, self.form, &mut self.tally);
        }
    }

    fn turn(&mut self, link: &mut Link) {
        self.up(link);
        loop {
            match self.server.work(link.conn).expect("a session") {
                Worked::Idle | Worked::Ended(_) => break,
                Worked::Full => self.down(link),
                Worked::Row | Worked::Wrote { .. } => {}
            }
        }
        self.down(link);
    }

    /// Takes turns until every request is answered.
    pub fn exchange(&mut self, link: &mut Link) {
        while link.client.pending() > 0 { self.turn(link); }
    }

    /// Keeps what was said since the last call: each part behind its length in three bytes.
    pub fn keep(&mut self, recording: &mut Recording) {
        for said in self.said.iter_mut().flatten() {
            recording.extend_from_slice(&(said.len() as u32).to_be_bytes()[1..]);
            recording.append(said);
        }
    }

    /// Opens a session at the newest version, and brings it to Ready in two exchanges.
    pub fn connect(&mut self, recording: &mut Recording) -> Link {
        let mut link = Link { conn: self.server.open().expect("a place"), client: Client::new(Wish::Newest) };
        self.turn(&mut link);
        self.keep(recording);
        greet(&mut link.client);
        self.exchange(&mut link);
        self.keep(recording);
        assert_eq!(link.client.phase(), Phase::Ready);
        link
    }

    pub fn check(&self) -> u64 { self.tally.check(self.server.table().ledger().len()) }
}

/// The server reads a piece.
pub fn feed(server: &mut Server, conn: u64, piece: &[u8]) {
    let mut at = 0;
    while at < piece.len() {
        let took = server.feed(conn, &piece[at..]).expect("a session");
        assert!(took.used > 0 && took.what != What::Malformed, "{took:?}");
        at += took.used;
    }
}

/// The client reads a piece.
pub fn hear(client: &mut Client, piece: &[u8], form: Form, tally: &mut Tally) {
    let mut at = 0;
    while at < piece.len() {
        let (used, heard) = client.feed(&piece[at..]).expect("a server's bytes");
        tally.hear(form, heard);
        at += used;
    }
}

/// HELLO and LOGON.
pub fn greet(client: &mut Client) {
    let login = Login { scheme: "basic", principal: "user", credentials: "pass" };
    client.submit(Ask::Hello { agent: "t/1", login: None }).expect("allowed");
    client.submit(Ask::Logon(login)).expect("allowed");
}

/// A RUN with at most two parameters, and PULL of all.
fn run(client: &mut Client, form: Form, text: &str, params: &[(&str, &Value)]) {
    match form {
        Form::Lent => client.submit(Ask::Run { text, params: Pairs::Lent(params), mode: Mode::Write, token: None }),
        Form::Owned => {
            let params: Dict = params.iter().map(|(key, value)| (key.to_string(), (*value).clone())).collect();
            client.submit(black_box(Run { text: text.to_string(), params, mode: Mode::Write, token: None }).ask())
        }
    }
    .expect("allowed");
    client.submit(Ask::Pull(Count::All)).expect("allowed");
}

/// A key of four letters, one for each half byte of the number, from the highest.
pub fn key(number: u32) -> String { (0..4).map(|at| (b'a' + (number >> (12 - 4 * at) & 15) as u8) as char).collect() }

/// A token of 32 hex digits that look like chance: two steps of the generator SplitMix64.
pub fn token(number: u32) -> String {
    let first = mixed(number as u64);
    format!("{first:016x}{:016x}", mixed(first))
}

fn mixed(state: u64) -> u64 {
    let one = state.wrapping_add(0x9E37_79B9_7F4A_7C15);
    let two = (one ^ (one >> 30)).wrapping_mul(0xBF58_476D_1CE4_E5B9);
    let three = (two ^ (two >> 27)).wrapping_mul(0x94D0_49BB_1331_11EB);
    three ^ (three >> 31)
}

/// What a client asks in one pipeline.
#[derive(Debug, Clone, Copy, PartialEq, Eq)]
pub enum Pipeline {
    /// So many times RUN of one row and PULL of all.
    Ones(u32),
    /// RUN of so many rows and PULL of all.
    Rows(u32),
    /// RUN that sends so many bytes back, and PULL of all.
    Echo(u32),
    /// A transaction of one put, under a token or none.
    Put { has_token: bool },
    /// A get of a key that was put.
    Get,
}

impl Pipeline {
    /// The bytes that are sent and come back.
    pub fn long(self) -> Value { Value::Bytes(vec![7; if let Pipeline::Echo(bytes) = self { bytes as usize } else { 0 }]) }

    /// Submits the pipeline of a number.
    pub fn submit(self, client: &mut Client, form: Form, number: u32, long: &Value) {
        match self {
            Pipeline::Ones(count) => for _ in 0..count { run(client, form, "ONE", &[]); },
            Pipeline::Rows(count) => run(client, form, "ROWS", &[("n", &Value::Int(count as i64))]),
            Pipeline::Echo(_) => run(client, form, "ECHO", &[("x", long)]),
            Pipeline::Get => run(client, form, "GET", &[("key", &Value::Text(key(number)))]),
            Pipeline::Put { has_token } => {
                let token = has_token.then(|| token(number));
                client.submit(Ask::Begin { mode: Mode::Write, token: token.as_deref() }).expect("allowed");
                run(client, form, "PUT", &[("key", &Value::Text(key(number))), ("value", &Value::Int(number as i64))]);
                client.submit(Ask::Commit).expect("allowed");
            }
        }
    }

    /// Rows, the sum of their first cells, summaries done and committed of the pipeline of a number.
    fn counts(self, number: u32) -> [u64; 4] {
        match self {
            Pipeline::Ones(count) => [count as u64; 4],
            Pipeline::Rows(count) => [count as u64, count as u64 * (count as u64 + 1) / 2, 1, 1],
            Pipeline::Echo(bytes) => [1, bytes as u64, 1, 1],
            Pipeline::Put { .. } => [0, 0, 3, 1],
            Pipeline::Get => [1, number as u64, 1, 1],
        }
    }
}

/// So many pipelines of each kind, one kind after the other.
pub fn pipelines(form: Form, parts: &[(Pipeline, u32)]) -> u64 { play(&mut Bench::new(form, false), parts, &mut Recording::new()) }

/// The same, recorded.
pub fn recorded(parts: &[(Pipeline, u32)]) -> Recording {
    let mut recording = Recording::new();
    play(&mut Bench::new(Form::Lent, true), parts, &mut recording);
    recording
}

fn play(bench: &mut Bench, parts: &[(Pipeline, u32)], recording: &mut Recording) -> u64 {
    let mut link = bench.connect(recording);
    let mut wanted = [0, 0, 2, 0];
    for (pipeline, count) in parts {
        let long = pipeline.long();
        for number in 0..*count {
            pipeline.submit(&mut link.client, bench.form, number, &long);
            bench.exchange(&mut link);
            bench.keep(recording);
            for (all, one) in wanted.iter_mut().zip(pipeline.counts(number)) { *all += one; }
        }
    }
    let tally = bench.tally;
    assert_eq!([tally.rows, tally.cells, tally.done, tally.committed], wanted);
    assert_eq!(bench.server.table().ledger().len() as u64, tally.committed);
    bench.check()
}

/// So many sessions at once, each with so many pairs of RUN of one row and PULL of all, interleaved by single pieces and single steps of work.
pub fn sessions(form: Form, count: u32, pairs: u32) -> u64 { interleaved(&mut Bench::new(form, false), count, pairs, &mut Recording::new()) }

/// The same, recorded: the exchanges of a round stand behind each other.
pub fn recorded_sessions(count: u32, pairs: u32) -> Recording {
    let mut recording = Recording::new();
    interleaved(&mut Bench::new(Form::Lent, true), count, pairs, &mut recording);
    recording
}

fn interleaved(bench: &mut Bench, count: u32, pairs: u32, recording: &mut Recording) -> u64 {
    let mut links: Vec<_> = (0..count).map(|_| bench.connect(recording)).collect();
    for _ in 0..pairs {
        for link in &mut links { run(&mut link.client, bench.form, "ONE", &[]); }
        let mut said: Vec<_> = links.iter_mut().map(|link| { bench.up(link); bench.said.as_mut().map(|said| std::mem::take(&mut said[0])) }).collect();
        while links.iter().fold(false, |moved, link| moved | (bench.server.work(link.conn) != Ok(Worked::Idle))) {}
        for (link, up) in links.iter_mut().zip(&mut said) {
            bench.down(link);
            if let (Some(said), Some(up)) = (&mut bench.said, up) { said[0] = std::mem::take(up); }
            bench.keep(recording);
        }
    }
    assert!(links.iter().all(|link| link.client.pending() == 0));
    assert_eq!(bench.tally.committed, count as u64 * pairs as u64);
    bench.check()
}

/// Announces Bytes, and a list, by a length of two bytes.
pub const BYTES: u8 = 0xCD;
pub const LIST: u8 = 0xD5;

/// A message of so many bytes that is fed in pieces of a length: in it Bytes, or a list of small integers, by the marker.
#[derive(Debug, Clone, Copy)]
pub struct Long {
    pub marker: u8,
    pub bytes: u32,
    pub piece: u32,
}

impl Long {
    /// The message in one chunk: a front, the long value, and a back.
    fn message(self, front: &[u8], back: &[u8]) -> Vec<u8> {
        let long = self.bytes as usize - front.len() - 3 - back.len();
        assert!((256..=65_535).contains(&self.bytes) && long >= 256);
        let mut out = (self.bytes as u16).to_be_bytes().to_vec();
        out.extend_from_slice(front);
        out.push(self.marker);
        out.extend((long as u16).to_be_bytes());
        out.resize(out.len() + long, 7);
        out.extend_from_slice(back);
        out.extend([0, 0]);
        out
    }
}

/// So many times: RUN ECHO in a long message, fed to the server in pieces and worked; and DISCARD of all, fed whole and worked.
pub fn pieces_to_server(long: Long, turns: u32) -> u64 {
    let mut bench = Bench::new(Form::Lent, false);
    let Link { conn, .. } = bench.connect(&mut Recording::new());
    let echo = long.message(b"\xB3\x10\x84ECHO\xA1\x81x", b"\xA0");
    let discard = b"\x00\x06\xB1\x2F\xA1\x81n\xFF\x00\x00";
    for turn in 0..turns as u64 {
        let mut messages = 0;
        for piece in echo.chunks(long.piece as usize) {
            let took = bench.server.feed(conn, piece).expect("a session");
            assert_eq!(took.used, piece.len());
            messages += (took.what == What::Message) as u32;
        }
        assert_eq!(messages, 1);
        let wrote = |kind, state, entry, at| Ok(Worked::Wrote { ordinal: 2 + 2 * turn + at, kind, state, entry });
        assert_eq!(bench.server.work(conn), wrote(Kind::Run, State::Streaming, None, 0));
        bench.server.feed(conn, discard).expect("a session");
        assert_eq!(bench.server.work(conn), wrote(Kind::Discard, State::Ready, Some(turn + 1), 1));
        bench.tally.up += (echo.len() + discard.len()) as u64;
        bench.tally.down += bench.server.take_out(conn, usize::MAX).expect("a session").len() as u64;
    }
    bench.check()
}

/// So many times: a RECORD in a long message, fed in pieces to a client that waits for a PULL.
pub fn pieces_to_client(form: Form, long: Long, turns: u32) -> u64 {
    let mut bench = Bench::new(form, false);
    let mut link = bench.connect(&mut Recording::new());
    run(&mut link.client, form, "ONE", &[]);
    bench.tally.up += link.client.take_out(usize::MAX).len() as u64;
    let mut feed = |bytes: &[u8], piece: usize| {
        for part in bytes.chunks(piece) {
            let (used, heard) = link.client.feed(part).expect("a server's bytes");
            assert_eq!(used, part.len());
            bench.tally.hear(form, heard);
        }
        bench.tally.down += bytes.len() as u64;
    };
    feed(b"\x00\x03\xB1\x70\xA0\x00\x00", PIECE);
    let record = long.message(b"\xB1\x71\x91", b"");
    for _ in 0..turns { feed(&record, long.piece as usize); }
    assert_eq!((bench.tally.rows, bench.tally.cells), (turns as u64, turns as u64 * (long.bytes as u64 - 6)));
    bench.check()
}
