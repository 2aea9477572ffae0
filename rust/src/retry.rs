//! Sends a transaction under its token until it is known what became of it.

use crate::connection::{Connection, Login, Query};
use crate::error::{Error, Outcome, Request, TOO_LARGE};
use crate::ffi::NO_REQUEST;
use crate::transaction::Transaction;
use crate::value::Value;
use std::borrow::BorrowMut;
use std::io::{Read, Write};
use std::thread;
use std::time::Duration;

/// The fate of a transaction under a token.
///
/// Each needs a server that answers SUCCESS to COMMIT only if it has committed.
#[derive(Clone, Copy, Debug, PartialEq, Eq)]
pub enum Fate {
    /// It is committed, once. After a doubt that needs servers that keep tokens, over one ledger.
    Stands,
    /// Other writes are committed under the token. If a try was in doubt, they may be its own, from other data. Only a
    /// server that keeps tokens is believed.
    Clash,
    /// The server refuses it, and no try has committed. That needs a server that commits nothing after a FAILURE. A
    /// FAILURE of COMMIT itself is believed only if the server keeps tokens; else the fate is Open.
    Refused,
    /// It may be committed, or may yet be.
    Open,
    /// No more tries are made, and none has committed. It needs what Refused does.
    Absent,
}

/// How sending a transaction again is made harmless after a try that may have committed.
#[derive(Clone, Copy, Debug, Default, PartialEq, Eq)]
pub enum Retry {
    /// By the token, if the server [says](Connection::keeps_tokens) that it keeps tokens. Else nothing is sent again,
    /// and the fate is [`Fate::Open`] at once.
    #[default]
    Detect,
    /// By the token: the caller knows that each server that `connect` leads to keeps tokens, over one ledger.
    Tokens,
    /// Nothing is sent again: the fate is [`Fate::Open`] at once.
    Never,
}

/// The state of the transaction before the call.
#[derive(Clone, Copy, Debug, Default, PartialEq, Eq)]
pub enum Before {
    /// The token wasn't sent before, or the fate of the calls before is known.
    #[default]
    Nothing,
    /// An earlier call under the token ended [`Fate::Open`]. The fate is never [`Fate::Refused`] or [`Fate::Absent`].
    ///
    /// [`Retry::Detect`] looks at the servers of this call alone. If the earlier one was at a server that keeps no
    /// tokens, and this one may reach another, take [`Retry::Never`].
    InDoubt,
}

/// The token of a transaction, and how often it is tried.
///
/// ```
/// use bolt::{Retry, Tries};
/// use std::time::Duration;
///
/// let tries = Tries { most: 20, pause: Duration::from_millis(10), ..Tries::under("order 4711") };
/// assert_eq!(Retry::Detect, tries.retry);
/// ```
#[derive(Clone, Debug)]
pub struct Tries {
    /// The token, of 1 to 64 bytes. No other transaction may have it, also none of another program.
    pub token: String,
    /// The number of tries at most.
    pub most: u32,
    /// The pause after the first try. It doubles with each try, up to 32 times of it.
    pub pause: Duration,
    pub retry: Retry,
    pub before: Before,
}

impl Tries {
    /// Makes ten tries under the token, the second 50 ms after the first, by [`Retry::Detect`]. No earlier call may
    /// have left the token in doubt.
    pub fn under(token: impl Into<String>) -> Tries {
        let pause = Duration::from_millis(50);
        Tries { token: token.into(), most: 10, pause, retry: Retry::Detect, before: Before::Nothing }
    }

    /// Waits before the try of this number, from 0.
    fn wait(&self, tried: u32) {
        if tried > 0 && !self.pause.is_zero() {
            thread::sleep(self.pause.saturating_mul(1 << (tried - 1).min(5)));
        }
    }
}

/// The result of a transaction after its tries.
#[derive(Debug)]
pub struct Known<T> {
    pub fate: Fate,
    /// The value that the work returned in the try that ended [`Fate::Stands`]. If an earlier try was in doubt, that
    /// one may have committed. Then this try has written the same.
    pub value: Option<T>,
    /// The error of the last try that failed.
    pub error: Option<Error>,
}

const CLASH: &str = "Neo.ClientError.Transaction.TokenClash";
const FINAL: &str = "Neo.ClientError.";
const LONGEST_TOKEN: usize = 64;

/// Returns the code of the first FAILURE of the requests that are chosen.
fn refusal(error: &Error, is_chosen: impl Fn(&Request) -> bool) -> Option<&str> {
    let request = error.requests().iter().find(|it| it.outcome == Some(Outcome::Refused) && is_chosen(it))?;
    Some(request.metadata.get("code").and_then(Value::as_text).unwrap_or_default())
}

/// Sends queries as one transaction under a token until it is known what became of it, at most `tries` times. It is
/// [`until_known_with`] by [`Retry::Detect`], of a token that no earlier call left in doubt.
///
/// # Errors
///
/// Those of [`until_known_with`].
pub fn until_known<S: Read + Write>(
    connect: impl FnMut() -> Option<S>,
    login: &Login,
    token: &str,
    queries: &[Query],
    tries: u32,
) -> Result<Fate, Error> {
    until_known_with(connect, login, token, queries, tries, Retry::Detect, Before::Nothing)
}

/// Sends queries, at most 15, as one transaction under a token, each time over a new stream, until it is known what
/// became of it.
///
/// `connect` opens the streams. It returns None if it has none, which counts as a try. Nothing waits between two tries:
/// `connect` has to wait itself, or the tries are used up at once.
///
/// # Errors
///
/// `NotSent` if the token has no byte or more than 64, before a stream is opened; and if the transaction can't be
/// written, if nothing is in doubt. Then no try has committed.
pub fn until_known_with<S: Read + Write>(
    mut connect: impl FnMut() -> Option<S>,
    login: &Login,
    token: &str,
    queries: &[Query],
    tries: u32,
    retry: Retry,
    before: Before,
) -> Result<Fate, Error> {
    let tries = Tries { token: token.to_owned(), most: tries, pause: Duration::ZERO, retry, before };
    let open = || connect().map(|stream| Connection::open(stream, login));
    known(open, &tries, |it, answers| it.transact(Some(token), queries).map(|all| *answers = Some(all)))
        .map(|it| it.fate)
}

/// Does work in a transaction under a token, each time over a new stream, until it is known what became of it.
///
/// The work may read, decide and write. It has to write the same in each try: at a server that keeps tokens, other
/// writes than those that an earlier try has committed are [`Fate::Clash`]. It may be done several times, so it changes
/// data only by its transaction. The transaction is committed if the work returns Ok, else rolled back.
///
/// `connect` opens the streams. It returns None if it has none, which counts as a try. The call sleeps between tries.
///
/// # Errors
///
/// They come if nothing is in doubt, and then no try has committed:
///
/// - `NotSent` if the token has no byte or more than 64, before a stream is opened; and if a request can't be written,
///   as after work that ignored a FAILURE.
/// - `Work` and `Mismatch` if the work returns them. Another error of the work that isn't of its transaction is `Work`.
pub fn work_until_known<S: Read + Write, T>(
    mut connect: impl FnMut() -> Option<S>,
    login: &Login,
    tries: &Tries,
    work: impl FnMut(&mut Transaction<'_, S>) -> Result<T, Error>,
) -> Result<Known<T>, Error> {
    work_over(|| connect().map(|stream| Connection::open(stream, login)), tries, work)
}

/// Does the work over connections that are open.
pub(crate) fn work_over<S: Read + Write, C: BorrowMut<Connection<S>>, T>(
    open: impl FnMut() -> Option<Result<C, Error>>,
    tries: &Tries,
    mut work: impl FnMut(&mut Transaction<'_, S>) -> Result<T, Error>,
) -> Result<Known<T>, Error> {
    known(open, tries, |connection, value| {
        let mut transaction = connection.begin(Some(&tries.token))?;
        let found = work(&mut transaction).map_err(|error| own(error, transaction.connection()))?;
        *value = Some(found);
        transaction.commit().map(drop)
    })
}

/// Makes an error of another connection one of the work: its requests aren't those of the transaction.
fn own<S: Read + Write>(error: Error, connection: &Connection<S>) -> Error {
    if error.requests().is_empty() || error.requests() == connection.requests() {
        error
    } else {
        Error::work(error)
    }
}

/// Tries a transaction over connections until it is known what became of it. `attempt` does it once, and sets what it
/// found before it commits.
fn known<S: Read + Write, C: BorrowMut<Connection<S>>, T>(
    mut open: impl FnMut() -> Option<Result<C, Error>>,
    tries: &Tries,
    mut attempt: impl FnMut(&mut Connection<S>, &mut Option<T>) -> Result<(), Error>,
) -> Result<Known<T>, Error> {
    if !(1..=LONGEST_TOKEN).contains(&tries.token.len()) {
        return Err(Error::NotSent { code: NO_REQUEST, rule: "M5".to_owned(), place: 0 });
    }
    let retry = tries.retry;
    let mut is_doubtful = tries.before == Before::InDoubt;
    let mut last = None;
    for tried in 0..tries.most {
        if is_doubtful && retry == Retry::Never {
            return Ok(Known { fate: Fate::Open, value: None, error: last });
        }
        tries.wait(tried);
        let Some(mut opened) = open() else { continue };
        // It is the server of this connection that has to keep tokens, not that of the first.
        let is_harmless = match (&opened, retry) {
            (_, Retry::Tokens) | (Err(_), _) => true,
            (_, Retry::Never) => false,
            (Ok(connection), Retry::Detect) => connection.borrow().keeps_tokens(),
        };
        if is_doubtful && !is_harmless {
            return Ok(Known { fate: Fate::Open, value: None, error: last });
        }
        let mut value = None;
        let done = match &mut opened {
            Ok(connection) => attempt(connection.borrow_mut(), &mut value),
            Err(_) => Ok(()),
        };
        let Err(error) = opened.and(done) else { return Ok(Known { fate: Fate::Stands, value, error: last }) };
        if error.requests().iter().any(|it| it.outcome == Some(Outcome::Committed)) {
            return Ok(Known { fate: Fate::Stands, value, error: Some(error) });
        }
        // A FAILURE of COMMIT says that nothing was committed only if the server keeps tokens.
        let commit = refusal(&error, |it| it.text == "COMMIT");
        is_doubtful |= error.is_unknown() || commit.is_some() && !is_harmless;
        // A FAILURE counts, whether or not the connection goes on.
        let fate = match (refusal(&error, |_| true), &error) {
            _ if commit == Some(CLASH) && is_harmless => Some(Fate::Clash),
            (Some(code), _) if code.starts_with(FINAL) && !is_doubtful => Some(Fate::Refused),
            (_, Error::NotSent { .. } | Error::Work(_) | Error::Mismatch(_)) if !is_doubtful => return Err(error),
            // Another try changes none of these: a request that can't be written, an answer that is too large, and work
            // that gave up.
            (_, Error::NotSent { .. } | Error::Work(_) | Error::Mismatch(_)) => Some(Fate::Open),
            (_, Error::Broken { why: TOO_LARGE, .. }) => Some(unknown(is_doubtful)),
            _ if is_doubtful && !is_harmless => Some(Fate::Open),
            _ => None,
        };
        last = Some(error);
        if let Some(fate) = fate {
            return Ok(Known { fate, value: None, error: last });
        }
    }
    Ok(Known { fate: unknown(is_doubtful), value: None, error: last })
}

/// Returns the fate if no more tries are made.
fn unknown(is_doubtful: bool) -> Fate {
    if is_doubtful {
        Fate::Open
    } else {
        Fate::Absent
    }
}
