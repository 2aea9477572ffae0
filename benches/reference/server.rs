//! A server over the fixed table and one user.
use super::MAX_SESSIONS;
use super::chunks::Version;
use super::machine::{Kind, State};
use super::requests::Login;
use super::session::Session;
use super::table::Table;

/// Why a session has ended.
#[derive(Debug, Clone, Copy, PartialEq, Eq)]
pub enum Cause {
    BadMagic,
    NoVersion,
    TooBig,
    Malformed,
    Invalid,
    AuthRefused,
    Goodbye,
}

#[derive(Debug, Clone, Copy, PartialEq, Eq)]
pub enum Refused {
    NoSuchConnection,
    SessionsFull,
}

#[derive(Debug, Clone, Copy, PartialEq, Eq)]
pub enum What {
    Part,
    Handshake(Option<Version>),
    BadMagic,
    Noop,
    Message,
    Malformed,
    Full,
    Closed,
}

#[derive(Debug, Clone, Copy, PartialEq, Eq)]
pub struct Took {
    pub used: usize,
    pub what: What,
}

#[derive(Debug, Clone, Copy, PartialEq, Eq)]
pub enum Worked {
    Idle,
    Full,
    Row,
    Wrote { ordinal: u64, kind: Kind, state: State, entry: Option<u64> },
    Ended(Cause),
}

/// Who is let in.
pub struct User {
    principal: String,
    credentials: String,
}

impl User {
    pub fn is_known(&self, login: Login) -> bool { login.scheme == "basic" && login.principal == self.principal && login.credentials == self.credentials }
}

pub struct Server {
    table: Table,
    user: User,
    sessions: Vec<Session>,
    next: u64,
}

impl Server {
    pub fn new(principal: &str, credentials: &str) -> Server {
        Server { table: Table::default(), user: User { principal: principal.into(), credentials: credentials.into() }, sessions: Vec::new(), next: 0 }
    }

    pub fn open(&mut self) -> Result<u64, Refused> {
        if self.sessions.len() >= MAX_SESSIONS || self.next >= 1 << 63 { return Err(Refused::SessionsFull); }
        let conn = self.next;
        self.next += 1;
        self.sessions.push(Session::new(conn));
        Ok(conn)
    }

    fn session(&mut self, conn: u64) -> Result<&mut Session, Refused> {
        self.sessions.iter_mut().find(|session| session.conn == conn).ok_or(Refused::NoSuchConnection)
    }

    pub fn feed(&mut self, conn: u64, piece: &[u8]) -> Result<Took, Refused> { Ok(self.session(conn)?.feed(piece)) }

    pub fn work(&mut self, conn: u64) -> Result<Worked, Refused> {
        let session = self.sessions.iter_mut().find(|session| session.conn == conn).ok_or(Refused::NoSuchConnection)?;
        Ok(session.work(&mut self.table, &self.user))
    }

    pub fn take_out(&mut self, conn: u64, most: usize) -> Result<&[u8], Refused> { Ok(self.session(conn)?.out.take(most)) }

    pub fn lost(&mut self, conn: u64) { self.sessions.retain(|session| session.conn != conn); }

    pub fn cause(&self, conn: u64) -> Option<Cause> { self.sessions.iter().find(|session| session.conn == conn)?.cause }

    pub fn table(&self) -> &Table { &self.table }
}
