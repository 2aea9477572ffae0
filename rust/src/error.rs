//! Outcomes of requests, and errors: why requests weren't all done.

use crate::value::Value;
use std::fmt;
use std::io;

/// Why a connection is given up whose server sends a larger message than the driver takes.
pub(crate) const TOO_LARGE: &str = "a message of the server takes more than 65,536 bytes";

/// The outcome of a request.
#[derive(Clone, Copy, Debug, PartialEq, Eq)]
pub enum Outcome {
    /// SUCCESS, and there was nothing to commit.
    Done,
    /// SUCCESS, and it is committed.
    Committed,
    /// FAILURE.
    Refused,
    /// IGNORED: after a failure, or before a RESET.
    Ignored,
    /// No summary came, and the server can't have committed by it.
    Lost,
    /// No summary came, and the server may have committed by it.
    Unknown,
}

impl Outcome {
    /// By its number in bolt.h; none where nothing is known.
    pub(crate) fn of(number: u32) -> Option<Outcome> {
        match number {
            0 => Some(Outcome::Done),
            1 => Some(Outcome::Committed),
            2 => Some(Outcome::Refused),
            3 => Some(Outcome::Ignored),
            4 => Some(Outcome::Lost),
            5 => Some(Outcome::Unknown),
            _ => None,
        }
    }
}

/// The message of a request. Its number is the message's tag.
#[derive(Clone, Copy, Debug, PartialEq, Eq)]
pub enum Kind {
    Hello = 0x01,
    Reset = 0x0F,
    Run = 0x10,
    Begin = 0x11,
    Commit = 0x12,
    Rollback = 0x13,
    Pull = 0x3F,
    Logon = 0x6A,
}

/// A request that was asked: what it is called, and once it is known its outcome, metadata and rows.
#[derive(Clone, Debug, PartialEq)]
pub struct Request {
    /// Its number among the requests of its connection, from 0, which is that of HELLO.
    pub ordinal: u64,
    pub kind: Kind,
    pub text: String,
    pub outcome: Option<Outcome>,
    pub metadata: Value,
    pub rows: Vec<Vec<Value>>,
}

/// Why requests weren't all done.
#[derive(Debug)]
pub enum Error {
    /// A call was refused, and nothing of it goes out. It says nothing about earlier requests, whose outcomes are in
    /// [`requests`](crate::Connection::requests). The code is that of bolt.h. The rule is the one that the message
    /// breaks, as `M5`, and the place is where.
    NotSent { code: u32, rule: String, place: u64 },
    /// The server's FAILURE. The session goes on if it lives on; a transaction that was open is gone.
    Refused { code: String, message: String, requests: Vec<Request> },
    /// The connection broke, or was given up: why, the stream's own error if there is one, and the requests with their
    /// outcomes. Each later call returns it again, without the stream's error.
    Broken { why: &'static str, error: Option<io::Error>, requests: Vec<Request> },
    /// A row has other columns, or a value of another type, than the caller reads. It says nothing about requests.
    Mismatch(Mismatch),
    /// The caller's work in a transaction ended with this error. The transaction isn't committed.
    Work(Box<dyn std::error::Error + Send + Sync>),
    /// No connection of a pool was free within its time limit. Nothing was sent.
    Busy,
}

/// The kind of an [`Error`].
#[derive(Clone, Copy, Debug, PartialEq, Eq)]
pub enum ErrorKind {
    /// [`Error::NotSent`].
    NotSent,
    /// [`Error::Refused`].
    Refused,
    /// [`Error::Broken`] because a time limit of the stream was over.
    TimedOut,
    /// [`Error::Broken`] for another reason.
    Broken,
    /// [`Error::Mismatch`].
    Mismatch,
    /// [`Error::Work`].
    Work,
    /// [`Error::Busy`].
    Busy,
}

/// Why a row isn't what the caller reads.
#[derive(Clone, Debug, PartialEq, Eq)]
pub enum Mismatch {
    /// The row has no such column. `columns` are the names of those that it has.
    NoColumn { column: String, columns: Vec<String> },
    /// The value is of another type than is wanted, or its number is out of the type's range. The column is there if
    /// the value was read from a row.
    Type { column: Option<String>, wanted: &'static str, found: String },
    /// The row has another number of values than the tuple has parts.
    Count { wanted: usize, found: usize },
}

impl Mismatch {
    /// Adds the column of the value.
    pub(crate) fn of_column(self, name: &impl ToString) -> Mismatch {
        match self {
            Mismatch::Type { wanted, found, .. } => Mismatch::Type { column: Some(name.to_string()), wanted, found },
            other => other,
        }
    }
}

impl fmt::Display for Mismatch {
    fn fmt(&self, f: &mut fmt::Formatter<'_>) -> fmt::Result {
        match self {
            Mismatch::NoColumn { column, columns } => {
                write!(f, "there is no column {column}; the columns are: {}", columns.join(", "))
            }
            Mismatch::Type { column: Some(column), wanted, found } => {
                write!(f, "column {column}: wanted {wanted}, found {found}")
            }
            Mismatch::Type { column: None, wanted, found } => write!(f, "wanted {wanted}, found {found}"),
            Mismatch::Count { wanted, found } => write!(f, "wanted {wanted} columns, found {found}"),
        }
    }
}

impl std::error::Error for Mismatch {}

impl From<Mismatch> for Error {
    fn from(it: Mismatch) -> Error {
        Error::Mismatch(it)
    }
}

impl Error {
    /// Makes the error by which work in a transaction gives up: `Err(Error::work("not enough money"))`.
    pub fn work(why: impl Into<Box<dyn std::error::Error + Send + Sync>>) -> Error {
        Error::Work(why.into())
    }

    /// Returns the kind.
    pub fn kind(&self) -> ErrorKind {
        match self {
            Error::NotSent { .. } => ErrorKind::NotSent,
            Error::Refused { .. } => ErrorKind::Refused,
            Error::Broken { error: Some(error), .. } if is_time_out(error) => ErrorKind::TimedOut,
            Error::Broken { .. } => ErrorKind::Broken,
            Error::Mismatch(_) => ErrorKind::Mismatch,
            Error::Work(_) => ErrorKind::Work,
            Error::Busy => ErrorKind::Busy,
        }
    }

    /// Returns the code of the server's FAILURE, None of another error.
    pub fn code(&self) -> Option<&str> {
        match self {
            Error::Refused { code, .. } => Some(code),
            _ => None,
        }
    }

    /// The requests that were asked since all was settled, in order, each with its outcome.
    pub fn requests(&self) -> &[Request] {
        match self {
            Error::Refused { requests, .. } | Error::Broken { requests, .. } => requests,
            _ => &[],
        }
    }

    /// Returns true if one of them may have been committed, and that isn't known.
    pub fn is_unknown(&self) -> bool {
        self.requests().iter().any(|it| matches!(it.outcome, None | Some(Outcome::Unknown)))
    }
}

impl fmt::Display for Error {
    fn fmt(&self, f: &mut fmt::Formatter<'_>) -> fmt::Result {
        match self {
            Error::NotSent { code, rule, .. } if rule.is_empty() => write!(f, "not sent ({code})"),
            Error::NotSent { code, rule, place } => write!(f, "not sent ({code}): {rule} at {place}"),
            Error::Refused { code, message, .. } => write!(f, "{code}: {message}"),
            Error::Broken { why, error: Some(error), .. } => write!(f, "{why}: {error}"),
            Error::Broken { why, .. } => write!(f, "{why}"),
            Error::Mismatch(it) => it.fmt(f),
            Error::Work(it) => it.fmt(f),
            Error::Busy => write!(f, "no connection of the pool was free in time"),
        }
    }
}

impl std::error::Error for Error {
    /// Returns the stream's error, or that of the work. The error's own text has its text.
    fn source(&self) -> Option<&(dyn std::error::Error + 'static)> {
        match self {
            Error::Broken { error: Some(error), .. } => Some(error),
            Error::Mismatch(it) => Some(it),
            Error::Work(it) => Some(it.as_ref()),
            _ => None,
        }
    }
}

/// Returns true if a stream's error is that of a time limit.
pub(crate) fn is_time_out(error: &io::Error) -> bool {
    matches!(error.kind(), io::ErrorKind::TimedOut | io::ErrorKind::WouldBlock)
}
