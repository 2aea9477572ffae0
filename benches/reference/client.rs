//! A client: requests in, bytes out; bytes in, rows and summaries out.
use super::MAX_PLACES;
use super::chunks::{Dechunk, Out, Piece, Version, Wish, offer, quad, wished};
use super::cursor::Bad;
use super::machine::{Kind, Phase, PhaseSet, State, Tables, Verdict, only};
use super::requests::{Ask, Unwritten, put_request};
use super::responses::{RECORD, Reply, Row, read_record, read_reply};
use std::collections::VecDeque;

#[derive(Debug, Clone, Copy, PartialEq, Eq)]
pub enum Outcome {
    Done,
    Committed,
    Refused,
    Ignored,
}

pub enum Heard<'a> {
    Nothing,
    Version(Option<Version>),
    Row(Row<'a>),
    Summary { ordinal: u64, phase: Phase, outcome: Outcome, reply: Reply<'a> },
}

#[derive(Debug, Clone, Copy, PartialEq, Eq)]
pub enum SubmitFault {
    Closed,
    NotAllowed,
    PipelineFull,
    Unwritten(Unwritten),
}

/// What a client keeps of a request that waits.
#[derive(Clone, Copy)]
struct Waiting {
    kind: Kind,
    is_counted: bool,
}

pub struct Client {
    wish: Wish,
    version: Option<Version>,
    /// The front of the version answer.
    hand: Vec<u8>,
    dechunk: Dechunk,
    places: Places,
    is_ended: bool,
    out: Out,
}

/// The requests that wait, and the phases before and after them.
struct Places {
    tables: &'static Tables,
    waiting: VecDeque<Waiting>,
    /// RESETs that wait.
    resets: usize,
    /// The number of the next request.
    next: u64,
    phase: Phase,
    /// The phases that may follow what waits; none where they aren't known.
    ahead: PhaseSet,
}

impl Client {
    pub fn new(wish: Wish) -> Client {
        let places = Places {
            tables: Tables::of(Version::V51),
            waiting: VecDeque::with_capacity(MAX_PLACES),
            resets: 0,
            next: 0,
            phase: Phase::Fresh,
            ahead: 0,
        };
        let mut out = Out::default();
        out.put(&offer(wish));
        Client { wish, version: None, hand: Vec::with_capacity(4), dechunk: Dechunk::default(), places, is_ended: false, out }
    }

    /// Takes a request where it is allowed after those that wait, and answers its number.
    pub fn submit(&mut self, ask: Ask) -> Result<u64, SubmitFault> {
        if self.is_ended { return Err(SubmitFault::Closed); }
        let version = self.version.ok_or(SubmitFault::NotAllowed)?;
        let kind = ask.kind();
        let ahead = self.places.ahead();
        if !self.places.tables.allows(ahead, kind) { return Err(SubmitFault::NotAllowed); }
        if self.places.waiting.len() >= MAX_PLACES || self.places.next >= 1 << 63 { return Err(SubmitFault::PipelineFull); }
        put_request(version, ask, &mut self.out).map_err(SubmitFault::Unwritten)?;
        Ok(self.places.push(kind, ask.is_counted()))
    }

    pub fn take_out(&mut self, most: usize) -> &[u8] { self.out.take(most) }

    /// Hears a piece to the end of a message, and answers how many bytes it used. Bytes that aren't a server's end the client.
    pub fn feed<'a>(&'a mut self, piece: &'a [u8]) -> Result<(usize, Heard<'a>), Bad> {
        if self.is_ended { return Err(Bad); }
        let Some(version) = self.version else { return self.shake(piece) };
        let (used, item) = self.dechunk.feed(piece);
        let heard = match item {
            Piece::Nothing | Piece::Noop => return Ok((used, Heard::Nothing)),
            Piece::TooBig => Err(Bad),
            Piece::Message(message) => self.places.hear(version, message),
        };
        self.is_ended = match &heard {
            Ok(Heard::Summary { phase, .. }) => *phase == Phase::Defunct,
            Ok(_) => false,
            Err(Bad) => true,
        };
        Ok((used, heard?))
    }

    fn shake<'a>(&mut self, piece: &[u8]) -> Result<(usize, Heard<'a>), Bad> {
        let used = piece.len().min(4 - self.hand.len());
        self.hand.extend_from_slice(&piece[..used]);
        if self.hand.len() < 4 { return Ok((used, Heard::Nothing)); }
        self.version = wished(self.wish).iter().copied().find(|version| quad(*version) == self.hand[..]);
        self.is_ended = self.version.is_none();
        match self.version {
            Some(version) => self.places.tables = Tables::of(version),
            None if self.hand == [0; 4] => {}
            None => return Err(Bad),
        }
        Ok((used, Heard::Version(self.version)))
    }

    pub fn phase(&self) -> Phase { self.places.phase }

    /// How many requests wait for their summary.
    pub fn pending(&self) -> usize { self.places.waiting.len() }
}

impl Places {
    #[inline]
    fn ahead(&mut self) -> PhaseSet {
        if self.ahead == 0 {
            let after = |phases, place: &Waiting| self.tables.after(phases, place.kind, place.is_counted);
            self.ahead = self.waiting.iter().fold(only(self.phase), after);
        }
        self.ahead
    }

    #[inline]
    fn push(&mut self, kind: Kind, is_counted: bool) -> u64 {
        self.ahead = self.tables.after(self.ahead, kind, is_counted);
        self.waiting.push_back(Waiting { kind, is_counted });
        self.resets += (kind == Kind::Reset) as usize;
        self.next += 1;
        self.next - 1
    }

    #[inline]
    fn hear<'a>(&mut self, version: Version, message: &'a [u8]) -> Result<Heard<'a>, Bad> {
        let first = *self.waiting.front().ok_or(Bad)?;
        if message.get(1) != Some(&RECORD) { return self.conclude(first, read_reply(version, message)?); }
        if first.kind == Kind::Pull { read_record(version, message).map(Heard::Row) } else { Err(Bad) }
    }

    /// Takes the summary of the first request that waits, where it is accepted.
    #[inline]
    fn conclude<'a>(&mut self, first: Waiting, reply: Reply<'a>) -> Result<Heard<'a>, Bad> {
        let row = |verdict| self.tables.row(self.phase.state(), first.kind, verdict).map(State::phase).ok_or(Bad);
        let (phase, outcome) = match reply {
            Reply::Ignored => (self.ignored(first.kind)?, Outcome::Ignored),
            Reply::Failure { .. } => (row(Verdict::Failure)?, Outcome::Refused),
            Reply::Success { has_more: true, .. } if !first.is_counted => return Err(Bad),
            Reply::Success { has_more: true, .. } => (row(Verdict::More)?, Outcome::Done),
            Reply::Success { .. } => (row(Verdict::Success)?, if self.commits(first.kind) { Outcome::Committed } else { Outcome::Done }),
        };
        let ordinal = self.next - self.waiting.len() as u64;
        self.waiting.pop_front();
        self.resets -= (first.kind == Kind::Reset) as usize;
        self.phase = phase;
        self.ahead = 0;
        Ok(Heard::Summary { ordinal, phase, outcome, reply })
    }

    /// Whether a SUCCESS of a request, behind which no row is left, tells of a commit.
    #[inline]
    fn commits(&self, kind: Kind) -> bool { kind == Kind::Commit || self.phase == Phase::Streaming && matches!(kind, Kind::Pull | Kind::Discard) }

    /// IGNORED is heard where the session has failed, or may have been interrupted by a RESET that waits.
    fn ignored(&self, kind: Kind) -> Result<Phase, Bad> {
        let may_be = self.phase == Phase::Halted || self.phase.works() && self.resets > 0;
        if may_be && !matches!(kind, Kind::Reset | Kind::Goodbye) { Ok(Phase::Halted) } else { Err(Bad) }
    }
}
