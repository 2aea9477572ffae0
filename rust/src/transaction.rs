//! An open transaction.

use crate::connection::{bookmark_of, Answer, Connection, Query};
use crate::error::Error;
use crate::rows::Rows;
use std::io::{Read, Write};
use std::panic::{catch_unwind, AssertUnwindSafe};

/// An open transaction of a connection. If it is dropped before [`commit`](Transaction::commit), it is rolled back.
///
/// The drop waits for the server's answer. If that doesn't come, the connection has ended, and the server drops the
/// transaction.
///
/// After a FAILURE the transaction has ended. Each further call returns `NotSent`, so no query runs outside of it.
pub struct Transaction<'a, S: Read + Write> {
    connection: &'a mut Connection<S>,
}

impl<'a, S: Read + Write> Transaction<'a, S> {
    pub(crate) fn of(connection: &'a mut Connection<S>) -> Transaction<'a, S> {
        Transaction { connection }
    }

    /// Runs a query and returns its rows.
    ///
    /// # Errors
    ///
    /// - `NotSent` if the query can't be sent, or if the transaction has ended by a FAILURE.
    /// - `Refused` if the server refuses the query. The transaction has ended.
    /// - `Broken` if the connection breaks. Nothing is committed.
    pub fn run(&mut self, query: &Query) -> Result<Answer, Error> {
        self.connection.in_transaction()?;
        self.connection.run(query)
    }

    /// Runs a query and returns an iterator over its rows, as [`Connection::rows`] does.
    ///
    /// # Errors
    ///
    /// `NotSent` and `Broken`, as [`run`](Transaction::run). A FAILURE is an item of the iterator.
    pub fn rows(&mut self, query: &Query) -> Result<Rows<'_, S>, Error> {
        self.connection.in_transaction()?;
        self.connection.rows(query)
    }

    /// Commits, and returns the bookmark if the server gives one.
    ///
    /// # Errors
    ///
    /// - `NotSent` if the transaction has ended by a FAILURE. Nothing is committed.
    /// - `Refused` if the server refuses it. A server that keeps tokens has committed nothing.
    /// - `Broken` if the connection breaks. If [`Error::is_unknown`] is true, it may be committed.
    pub fn commit(self) -> Result<Option<String>, Error> {
        self.connection.in_transaction()?;
        self.connection.ask_commit()?;
        Ok(self.connection.settle()?.first().and_then(bookmark_of))
    }

    /// Rolls back, and says if that failed, as the drop doesn't.
    ///
    /// # Errors
    ///
    /// - `NotSent` if the transaction has ended by a FAILURE.
    /// - `Broken` if the connection breaks. Nothing is committed.
    pub fn rollback(self) -> Result<(), Error> {
        self.connection.in_transaction()?;
        self.connection.ask_rollback()?;
        self.connection.settle().map(drop)
    }

    /// Returns the connection, to ask about its server and its requests.
    pub fn connection(&self) -> &Connection<S> {
        self.connection
    }
}

impl<S: Read + Write> Drop for Transaction<'_, S> {
    fn drop(&mut self) {
        // A panic of the stream ends the connection. If another panic is under way, a second would end the process.
        let _ended = catch_unwind(AssertUnwindSafe(|| {
            if self.connection.is_in_transaction() {
                let asked = self.connection.ask_rollback().map(drop);
                if asked.and_then(|_| self.connection.settle().map(drop)).is_err() {
                    self.connection.give_up("a transaction wasn't rolled back");
                }
            } else if !self.connection.is_idle() {
                // (a leaked iterator has left answers that nobody has read)
                self.connection.give_up("not all of a transaction was read");
            }
        }));
    }
}
