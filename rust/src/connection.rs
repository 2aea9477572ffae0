//! A connection over any stream.

use crate::error::{is_time_out, Error, Kind, Mismatch, Outcome, Request, TOO_LARGE};
use crate::ffi::{Client, CLOSED, FULL, HALTED, LARGE, MEMORY, MESSAGE, NOT_ALLOWED, PIPELINE, READY, TX_READY};
use crate::row::{FromRow, Row};
use crate::rows::Rows;
use crate::transaction::Transaction;
use crate::value::{dict, put, Reading, Value, ROOM};
use std::fmt;
use std::io::{self, Read, Write};
use std::panic::{catch_unwind, resume_unwind, AssertUnwindSafe};
use std::sync::Arc;

/// The name of a server that keeps tokens begins so, or this hint in its answer to HELLO is true.
const KEEPS_TOKENS: &str = "BoltTable/";
const TOKENS_HINT: &str = "bolt.tokens";

/// How a client logs in: its name, and who it is. What is printed of it tells no credentials.
#[derive(Clone)]
pub struct Login {
    pub agent: String,
    pub principal: String,
    pub credentials: String,
}

impl fmt::Debug for Login {
    fn fmt(&self, f: &mut fmt::Formatter<'_>) -> fmt::Result {
        f.debug_struct("Login").field("agent", &self.agent).field("principal", &self.principal).finish_non_exhaustive()
    }
}

/// A query: its text and its parameters.
///
/// ```
/// use bolt::Query;
///
/// let one = Query::from("PUT").param("key", "a").param("value", 1);
/// let same = Query::new("PUT", [("key", "a".into()), ("value", 1.into())]);
/// assert_eq!(one, same);
/// ```
#[derive(Clone, Debug, PartialEq)]
pub struct Query {
    pub text: String,
    /// A dictionary of the parameters.
    pub params: Value,
}

impl Query {
    /// Makes a query with these parameters, in an array, a `Vec` or another collection.
    pub fn new<'a>(text: &str, params: impl IntoIterator<Item = (&'a str, Value)>) -> Query {
        Query { text: text.to_owned(), params: dict(params) }
    }

    /// Adds a parameter. It replaces one of the same name.
    pub fn param(mut self, name: &str, value: impl Into<Value>) -> Query {
        let mut params = match self.params {
            Value::Dict(params) => params,
            _ => Vec::new(),
        };
        params.retain(|it| it.0 != name);
        params.push((name.to_owned(), value.into()));
        self.params = Value::Dict(params);
        self
    }
}

/// Makes a query without parameters.
impl From<&str> for Query {
    fn from(text: &str) -> Query {
        Query::new(text, [])
    }
}

/// The rows of a query, and the names of their columns. There are none if one of them is no text.
#[derive(Clone, Debug, PartialEq)]
pub struct Answer {
    pub fields: Vec<String>,
    pub rows: Vec<Row>,
    /// The bookmark of the entry that the query committed, if it did. In a transaction COMMIT has it.
    pub bookmark: Option<String>,
}

impl Answer {
    /// Reads each row as a tuple, or as a type that implements [`FromRow`].
    ///
    /// # Errors
    ///
    /// Those of [`Row::to`], of the first row that has one.
    pub fn all<T: FromRow>(&self) -> Result<Vec<T>, Mismatch> {
        self.rows.iter().map(Row::to).collect()
    }

    /// Reads the first row. It is None if there is no row.
    ///
    /// # Errors
    ///
    /// Those of [`Row::to`].
    pub fn first<T: FromRow>(&self) -> Result<Option<T>, Mismatch> {
        self.rows.first().map(Row::to).transpose()
    }
}

/// Iterates over the rows.
impl IntoIterator for Answer {
    type Item = Row;
    type IntoIter = std::vec::IntoIter<Row>;

    fn into_iter(self) -> Self::IntoIter {
        self.rows.into_iter()
    }
}

/// A session of a server over a stream.
///
/// It may move to another thread if its stream may. Two threads can't call it at once: it isn't `Sync`. A `Mutex`
/// shares a connection between threads.
///
/// ```compile_fail,E0277
/// fn shared<T: Sync>() {}
/// shared::<bolt::Connection<std::net::TcpStream>>();
/// ```
///
/// The stream's own times bound its reads and writes. Without them a call may wait without an end. Nothing bounds a
/// call whose server goes on to send something.
///
/// Requests are asked, and go out as one pipeline when they are settled. At most 65,536 bytes, or one request, are
/// ahead of the answers. [`requests`](Connection::requests) are those asked since all were settled, each with its
/// outcome, also after a call that failed. If a call of the stream panics, so does the connection's, and the
/// connection has ended.
pub struct Connection<S> {
    stream: S,
    client: Client,
    buffer: Vec<u8>,
    requests: Vec<Request>,
    /// The ordinal of the first of them.
    first: u64,
    /// How many of them have all that came of them.
    told: usize,
    is_settled: bool,
    /// How many bytes of these requests went out, and the offset of each one's end.
    gone: usize,
    ends: Vec<usize>,
    /// Why nothing more is sent.
    cut: Option<io::Error>,
    /// Why the client has ended.
    why: Option<&'static str>,
    /// The server's name.
    server: String,
    keeps_tokens: bool,
}

fn message(kind: Kind, fields: &[&Value]) -> Vec<u8> {
    let mut out = vec![0xB0 | fields.len() as u8, kind as u8];
    fields.iter().for_each(|it| put(&mut out, it, ROOM));
    out
}

/// The entries of a BEGIN or a RUN beside its text.
fn extra(write: bool, token: Option<&str>) -> Value {
    let mut entries = Vec::new();
    if !write {
        entries.push(("mode".to_owned(), Value::from("r")));
    }
    if let Some(token) = token {
        entries.push(("tx_metadata".to_owned(), dict([("token", Value::from(token))])));
    }
    Value::Dict(entries)
}

impl<S: Read + Write> Connection<S> {
    /// Offers 5.1, 5.0 and 4.4 over a new stream, and logs in. Nothing may have been read or written.
    ///
    /// # Errors
    ///
    /// - `Refused` if the server refuses the login.
    /// - `Broken` if the stream fails or ends, or if the server takes no version or doesn't answer in Bolt.
    /// - `NotSent` if the login can't be written, as one of more than 65,536 bytes, or if memory runs out.
    pub fn open(stream: S, login: &Login) -> Result<Connection<S>, Error> {
        let client = Client::open(0).map_err(refusal)?;
        let mut connection = Connection {
            stream,
            client,
            buffer: vec![0; MESSAGE],
            requests: Vec::new(),
            first: 0,
            told: 0,
            is_settled: true,
            gone: 0,
            ends: Vec::new(),
            cut: None,
            why: None,
            server: String::new(),
            keeps_tokens: false,
        };
        while connection.client.state().version == 0 {
            connection.exchange()?;
        }
        let has_logon = connection.client.state().version >= 51;
        let (principal, credentials) = (login.principal.as_str(), login.credentials.as_str());
        let who = [("scheme", "basic"), ("principal", principal), ("credentials", credentials)];
        let who = who.map(|(key, value)| (key, Value::from(value)));
        let mut hello = vec![("user_agent".to_owned(), Value::from(login.agent.as_str()))];
        if !has_logon {
            hello.extend(who.clone().map(|(key, value)| (key.to_owned(), value)));
        }
        connection.ask("HELLO", Kind::Hello, &[&Value::Dict(hello)])?;
        if has_logon {
            connection.ask("LOGON", Kind::Logon, &[&dict(who)])?;
        }
        let hello = &connection.settle()?[0].metadata;
        let server = hello.get("server").and_then(Value::as_text).unwrap_or_default().to_owned();
        let has_hint = hello.get("hints").and_then(|it| it.get(TOKENS_HINT)) == Some(&Value::Bool(true));
        connection.keeps_tokens = has_hint || server.starts_with(KEEPS_TOKENS);
        connection.server = server;
        Ok(connection)
    }

    /// Returns the server's name, from its answer to HELLO.
    pub fn server(&self) -> &str {
        &self.server
    }

    /// Returns true if the server's answer to HELLO says that it keeps tokens: by a name that begins with
    /// `BoltTable/`, or by the hint `bolt.tokens`.
    pub fn keeps_tokens(&self) -> bool {
        self.keeps_tokens
    }

    /// The stream, for who sets its times.
    pub fn stream(&self) -> &S {
        &self.stream
    }

    /// The requests that were asked since all was settled, in order, each with its outcome once it is known.
    pub fn requests(&self) -> &[Request] {
        &self.requests
    }

    /// Submits a request; it goes out when it is settled. Returns its index among the requests.
    ///
    /// After the end of the connection it returns `Broken` again, with the outcome of each request.
    fn ask(&mut self, text: &str, kind: Kind, fields: &[&Value]) -> Result<usize, Error> {
        let has_ended = self.client.state().has_ended == 1;
        if let (true, true, Some(why)) = (has_ended, self.is_settled, self.why) {
            return Err(Error::Broken { why, error: None, requests: self.requests.clone() });
        }
        let is_first = self.is_settled && !has_ended;
        if let (false, Some(error)) = (has_ended, self.cut.take()) {
            // (it would wait for its answer without an end)
            if is_first {
                self.requests.clear();
            }
            return Err(self.lose("the stream failed", Some(error)));
        }
        if is_first {
            // (those before have what the account forgets)
            self.client.settle();
        }
        let ordinal = self.client.ask(&message(kind, fields)).map_err(|(code, told)| {
            let letters = [(told.rule >> 8) as u8 as char, told.rule as u8 as char];
            let rule = if told.rule == 0 { String::new() } else { letters.iter().collect() };
            Error::NotSent { code, rule, place: told.place }
        })?;
        if is_first {
            self.requests.clear();
            self.first = ordinal;
            self.told = 0;
            self.is_settled = false;
            self.gone = 0;
            self.ends.clear();
        }
        self.ends.push(self.gone + self.client.waiting());
        let (text, metadata, rows) = (text.to_owned(), Value::Null, Vec::new());
        self.requests.push(Request { ordinal, kind, text, outcome: None, metadata, rows });
        Ok(self.requests.len() - 1)
    }

    /// Submits a BEGIN, under the token if there is one. Returns its index among the requests.
    ///
    /// # Errors
    ///
    /// These are the errors of each call that submits requests:
    ///
    /// - `NotSent` if the request isn't allowed after those before it, if 32 requests are pending, if it can't be
    ///   written, or if memory runs out.
    /// - `Broken` if the connection has ended, or if an earlier write has failed.
    pub fn ask_begin(&mut self, write: bool, token: Option<&str>) -> Result<usize, Error> {
        self.ask("BEGIN", Kind::Begin, &[&extra(write, token)])
    }

    /// Submits a RUN and a PULL of all its rows, both or neither. Returns the index of the RUN; the PULL follows it.
    ///
    /// # Errors
    ///
    /// Those of [`ask_begin`](Connection::ask_begin).
    pub fn ask_run(&mut self, query: &Query, write: bool, token: Option<&str>) -> Result<usize, Error> {
        if self.client.state().pending as usize > PIPELINE - 2 {
            return Err(refusal(FULL));
        }
        let fields: [&Value; 3] = [&Value::from(query.text.as_str()), &query.params, &extra(write, token)];
        let run = self.ask(&format!("RUN {}", query.text), Kind::Run, &fields)?;
        match self.ask(&format!("PULL of {}", query.text), Kind::Pull, &[&dict([("n", Value::Int(-1))])]) {
            Ok(_) => Ok(run),
            // (memory ran out between the two)
            Err(_) => Err(self.lose("out of memory", None)),
        }
    }

    /// Submits a COMMIT. Returns its index among the requests.
    ///
    /// # Errors
    ///
    /// Those of [`ask_begin`](Connection::ask_begin).
    pub fn ask_commit(&mut self) -> Result<usize, Error> {
        self.ask("COMMIT", Kind::Commit, &[])
    }

    /// Submits a ROLLBACK. Returns its index among the requests.
    ///
    /// # Errors
    ///
    /// Those of [`ask_begin`](Connection::ask_begin).
    pub fn ask_rollback(&mut self) -> Result<usize, Error> {
        self.ask("ROLLBACK", Kind::Rollback, &[])
    }

    /// Submits a RESET. Returns its index among the requests.
    ///
    /// # Errors
    ///
    /// Those of [`ask_begin`](Connection::ask_begin).
    pub fn ask_reset(&mut self) -> Result<usize, Error> {
        self.ask("RESET", Kind::Reset, &[])
    }

    /// Returns how many bytes may go out: those of the first request without an answer, or as many as sockets hold
    /// after what is answered. A server that waits until its answers are read takes no more, and a write would wait
    /// for it.
    fn room(&self) -> usize {
        let Some(end) = self.ends.get(self.told) else { return MESSAGE };
        let begin = if self.told == 0 { 0 } else { self.ends[self.told - 1] };
        (*end).max(begin + MESSAGE).saturating_sub(self.gone).min(MESSAGE)
    }

    /// Sends what waits and may go out. If the stream takes no more, nothing more is sent. Answers may still be read.
    fn send(&mut self) {
        while self.cut.is_none() {
            let room = self.room();
            let count = self.client.unsent(&mut self.buffer[..room]);
            if count == 0 {
                self.cut = loop {
                    match self.stream.flush() {
                        Err(error) if error.kind() == io::ErrorKind::Interrupted => {}
                        flushed => break flushed.err(),
                    }
                };
                break;
            }
            self.gone += count;
            self.cut = self.stream.write_all(&self.buffer[..count]).err();
            self.client.sent(count);
        }
    }

    /// Takes what came of the requests since: their outcomes, their rows, and what their summaries hold.
    fn take(&mut self) -> Result<(), u32> {
        while let Some(request) = self.requests.get_mut(self.told) {
            let ordinal = self.first + self.told as u64;
            for index in 0..self.client.rows(ordinal) {
                let length = self.client.row(ordinal, index, &mut self.buffer)?;
                if let Some(Value::List(cells)) = first_field(&self.buffer[..length]) {
                    request.rows.push(cells);
                }
            }
            self.client.drop_rows(ordinal);
            request.outcome = self.client.outcome(ordinal);
            if request.outcome.is_none() {
                return Ok(());
            }
            let length = self.client.response(ordinal, &mut self.buffer)?;
            request.metadata = first_field(&self.buffer[..length]).unwrap_or(Value::Null);
            self.told += 1;
        }
        Ok(())
    }

    /// Feeds a piece. After the client's end nothing is read.
    fn hear(&mut self, piece: &[u8]) -> Result<(), Error> {
        let fed = self.client.feed(piece);
        let taken = self.take();
        let state = self.client.state();
        match taken.and(fed) {
            Ok(()) | Err(CLOSED) if state.version == 0 && state.has_ended == 1 => {
                Err(self.lose("the server took no version", None))
            }
            Ok(()) | Err(CLOSED) => Ok(()),
            Err(MEMORY) => Err(self.lose("out of memory", None)),
            Err(_) if state.version == 0 => {
                Err(self.lose("not Bolt: the answer isn't a version that was offered", None))
            }
            Err(LARGE) => Err(self.lose(TOO_LARGE, None)),
            Err(_) => Err(self.lose("the server sent what no server may", None)),
        }
    }

    /// Sends what waits, and hears a piece of the server's bytes.
    fn exchange(&mut self) -> Result<(), Error> {
        let mut piece = [0; 4096];
        let read = catch_unwind(AssertUnwindSafe(|| -> io::Result<usize> {
            self.send();
            let count = self.stream.read(&mut piece)?;
            assert!(count <= piece.len(), "a stream read more than it had room for");
            Ok(count)
        }));
        // (where the stream panics bytes are gone, and no answer may be taken for another's)
        let read = read.unwrap_or_else(|panic| {
            self.end("the stream panicked");
            resume_unwind(panic)
        });
        let (count, error) = match read {
            Ok(count) => (count, None),
            Err(error) if error.kind() == io::ErrorKind::Interrupted => return Ok(()),
            Err(error) => (0, Some(error)),
        };
        if count == 0 {
            let error = self.cut.take().or(error);
            let why = match &error {
                None => "the server closed the connection",
                Some(error) if is_time_out(error) => "time-out",
                Some(_) => "the stream failed",
            };
            return Err(self.lose(why, error));
        }
        self.hear(&piece[..count])
    }

    /// Ends the client: nothing is read any more, and the account has the outcome of each request.
    fn end(&mut self, why: &'static str) {
        self.why.get_or_insert(why);
        self.client.lose();
        let begins = std::iter::once(0).chain(self.ends.iter().copied());
        let all = self.requests.iter_mut().zip(self.first..).zip(begins);
        for ((request, ordinal), begin) in all.filter(|((it, _), _)| it.outcome.is_none()) {
            let told = self.client.outcome(ordinal);
            // (nothing was committed by what no byte of has gone out)
            let is_unsent = told == Some(Outcome::Unknown) && self.gone <= begin;
            request.outcome = if is_unsent { Some(Outcome::Lost) } else { told };
        }
        self.is_settled = true;
    }

    fn lose(&mut self, why: &'static str, error: Option<io::Error>) -> Error {
        self.end(why);
        Error::Broken { why, error, requests: self.requests.clone() }
    }

    fn await_all(&mut self) -> Result<(), Error> {
        while self.advance()? {}
        Ok(())
    }

    /// Sends what was asked, and reads all answers. Returns the requests asked since all were settled.
    ///
    /// # Errors
    ///
    /// The first FAILURE, after a RESET if the session still ignores requests. `Broken` if the connection has
    /// ended, also if that was reported before.
    pub fn settle(&mut self) -> Result<&[Request], Error> {
        if self.is_settled {
            let Some(why) = self.why else { return Ok(&[]) };
            return Err(Error::Broken { why, error: None, requests: self.requests.clone() });
        }
        self.await_all()?;
        let state = self.client.state();
        if state.has_ended == 1 {
            self.end("a summary ended the session");
        }
        // If memory ran out, not all that came is taken.
        let mut told = self.requests.iter().take(self.told);
        let Some(refused) = told.position(|it| it.outcome == Some(Outcome::Refused)) else {
            self.is_settled = true;
            if self.told < self.requests.len() {
                let why = self.why.unwrap_or_default();
                return Err(Error::Broken { why, error: None, requests: self.requests.clone() });
            }
            return Ok(&self.requests);
        };
        let requests = self.requests.clone();
        if state.has_ended == 0 && state.phase == HALTED {
            // The RESET is none of those that were asked, also if the stream panics.
            let asked = self.ask_reset();
            self.requests.truncate(requests.len());
            // If the session doesn't live on, all that was asked is answered nonetheless.
            if asked.and_then(|_| self.await_all()).is_err() {
                self.end("out of memory");
            }
        }
        self.is_settled = true;
        let told = |key| requests[refused].metadata.get(key).and_then(Value::as_text).unwrap_or_default().to_owned();
        Err(Error::Refused { code: told("code"), message: told("message"), requests })
    }

    /// Returns true if the connection has ended. Each further call returns `Broken`.
    pub fn has_ended(&self) -> bool {
        self.why.is_some()
    }

    /// Returns true if the session is ready and in no transaction, all is settled, and the connection hasn't ended.
    pub(crate) fn is_idle(&mut self) -> bool {
        self.is_settled && self.phase() == Some(READY)
    }

    /// Returns the phase of the session, None if the connection has ended.
    fn phase(&mut self) -> Option<u32> {
        let state = self.client.state();
        (state.has_ended == 0 && self.why.is_none()).then_some(state.phase)
    }

    /// Returns true if a transaction is open, and all is settled.
    pub(crate) fn is_in_transaction(&mut self) -> bool {
        self.is_settled && self.phase() == Some(TX_READY)
    }

    /// Refuses a call of a transaction that is no longer open. After the end of the connection the call itself says so.
    pub(crate) fn in_transaction(&mut self) -> Result<(), Error> {
        if self.is_in_transaction() || self.phase().is_none() {
            Ok(())
        } else {
            Err(refusal(NOT_ALLOWED))
        }
    }

    /// Begins a transaction, under a token if there is one. It is rolled back when it is dropped, unless it was
    /// committed.
    ///
    /// # Errors
    ///
    /// - `NotSent` if something was asked before and isn't settled, if a transaction is open, or if the token has no
    ///   byte or more than 64.
    /// - `Refused` if the server refuses it.
    /// - `Broken` if the connection breaks, or has ended.
    pub fn begin(&mut self, token: Option<&str>) -> Result<Transaction<'_, S>, Error> {
        self.alone()?;
        self.ask_begin(true, token)?;
        self.settle()?;
        Ok(Transaction::of(self))
    }

    /// Runs a query, and returns an iterator that reads its rows while it is used. So a result may be larger than the
    /// memory. It is part of the transaction that is open, or is committed with its last row.
    ///
    /// The server's time limit for a write bounds how long the program may take for some rows.
    ///
    /// # Errors
    ///
    /// `NotSent` and `Broken`, as [`run`](Connection::run). A FAILURE is an item of the iterator.
    pub fn rows(&mut self, query: &Query) -> Result<Rows<'_, S>, Error> {
        self.alone()?;
        let run = self.ask_run(query, true, None)?;
        while self.told <= run && self.advance()? {}
        let columns = columns_of(&self.requests[run]);
        Ok(Rows::of(self, columns, run + 1))
    }

    /// Sends what waits and reads a piece, if an answer is due. Returns false if none is.
    pub(crate) fn advance(&mut self) -> Result<bool, Error> {
        if self.client.state().awaits == 0 {
            return Ok(false);
        }
        self.exchange()?;
        Ok(true)
    }

    /// Takes the rows of a request that came since the last call.
    pub(crate) fn take_rows(&mut self, index: usize) -> Vec<Vec<Value>> {
        self.requests.get_mut(index).map(|it| std::mem::take(&mut it.rows)).unwrap_or_default()
    }

    /// Ends the connection, as if it were lost.
    pub(crate) fn give_up(&mut self, why: &'static str) {
        self.end(why);
    }

    /// Refuses a call if something was asked before and isn't settled: that would go out too.
    fn alone(&self) -> Result<(), Error> {
        if self.is_settled || self.requests.is_empty() {
            Ok(())
        } else {
            Err(refusal(NOT_ALLOWED))
        }
    }

    /// Runs a query and returns its rows. It is part of the transaction that is open, or is committed with its last
    /// row.
    ///
    /// # Errors
    ///
    /// - `NotSent` if something was asked before and isn't settled, or if the query can't be written.
    /// - `Refused` if the server refuses it. A transaction that was open is gone.
    /// - `Broken` if the connection breaks, or has ended. If [`Error::is_unknown`] is true, the query may be committed.
    pub fn run(&mut self, query: &Query) -> Result<Answer, Error> {
        self.alone()?;
        let run = self.ask_run(query, true, None)?;
        let requests = self.settle()?;
        Ok(answer_of(&requests[run], &requests[run + 1]))
    }

    /// Returns the rows of a query, by the index of its RUN among the requests. It is None if no RUN is there, or if it
    /// wasn't answered whole.
    pub fn answer(&self, run: usize) -> Option<Answer> {
        match self.requests.get(run..self.told)? {
            [run, pull, ..] if run.text.starts_with("RUN ") => {
                matches!(pull.outcome, Some(Outcome::Done | Outcome::Committed)).then(|| answer_of(run, pull))
            }
            _ => None,
        }
    }

    /// Runs queries in one transaction, as one pipeline, under a token if there is one. Returns the rows of each.
    ///
    /// # Errors
    ///
    /// - `NotSent` if something was asked before and isn't settled, or if it can't be asked as a whole, as with more
    ///   than 15 queries. Nothing of it goes out. In the second case the session has ended, unless its BEGIN was
    ///   refused.
    /// - `Refused` if the server refuses a request. A server that keeps tokens has committed nothing.
    /// - `Broken` if the connection breaks, or has ended. If [`Error::is_unknown`] is true, it may be committed.
    pub fn transact(&mut self, token: Option<&str>, queries: &[Query]) -> Result<Vec<Answer>, Error> {
        self.alone()?;
        self.ask_begin(true, token)?;
        let asked = queries.iter().map(|query| self.ask_run(query, true, None)).collect::<Result<Vec<_>, _>>();
        // If only a part of it is asked, nothing may go out.
        let whole = asked.and_then(|runs| self.ask_commit().map(|_| runs));
        let runs = whole.inspect_err(|_| self.end("not all of a transaction was asked"))?;
        let requests = self.settle()?;
        Ok(runs.into_iter().map(|run| answer_of(&requests[run], &requests[run + 1])).collect())
    }
}

/// Returns the names of the columns in the answer to a RUN.
fn columns_of(run: &Request) -> Arc<[String]> {
    let names = run.metadata.get("fields").and_then(Value::as_list).unwrap_or_default();
    let names: Option<Vec<String>> = names.iter().map(|it| it.as_text().map(str::to_owned)).collect();
    names.unwrap_or_default().into()
}

/// Returns the bookmark in the answer to a request that commits.
pub(crate) fn bookmark_of(request: &Request) -> Option<String> {
    request.metadata.get("bookmark").and_then(Value::as_text).map(str::to_owned)
}

/// Returns the answer of a RUN and of the PULL that follows it.
fn answer_of(run: &Request, pull: &Request) -> Answer {
    let columns = columns_of(run);
    let rows = pull.rows.iter().map(|it| Row::of(columns.clone(), it.clone())).collect();
    Answer { fields: columns.to_vec(), rows, bookmark: bookmark_of(pull) }
}

/// The first field of a message.
fn first_field(bytes: &[u8]) -> Option<Value> {
    Reading(bytes).structure().and_then(|(_, fields)| fields.into_iter().next())
}

fn refusal(code: u32) -> Error {
    Error::NotSent { code, rule: String::new(), place: 0 }
}
