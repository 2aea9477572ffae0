//! The rows of a query, read while the caller uses them.

use crate::connection::{bookmark_of, Connection};
use crate::error::Error;
use crate::row::Row;
use crate::value::Value;
use std::io::{Read, Write};
use std::iter::FusedIterator;
use std::panic::{catch_unwind, AssertUnwindSafe};
use std::sync::Arc;
use std::vec::IntoIter;

/// An iterator over the rows of a query. It holds the rows of a piece of at most 4,096 bytes, and one row more.
///
/// After an error it has no more items. A row that came in the same piece as the end of the connection isn't returned.
/// The [`requests`](Connection::requests) of the connection don't have the rows.
///
/// If it is dropped early, the rest of the rows is read and dropped. So a query outside of a transaction commits,
/// unless a panic drops the iterator: then the connection has ended.
pub struct Rows<'a, S: Read + Write> {
    connection: &'a mut Connection<S>,
    columns: Arc<[String]>,
    /// The index of the PULL among the requests.
    pull: usize,
    ready: IntoIter<Vec<Value>>,
    is_over: bool,
}

impl<'a, S: Read + Write> Rows<'a, S> {
    pub(crate) fn of(connection: &'a mut Connection<S>, columns: Arc<[String]>, pull: usize) -> Rows<'a, S> {
        Rows { connection, columns, pull, ready: Vec::new().into_iter(), is_over: false }
    }

    /// Returns the names of the columns. There are none if one of them is no text, or if the query is refused.
    pub fn columns(&self) -> &[String] {
        &self.columns
    }

    /// Reads the rest of the rows, drops them, and returns the bookmark of what the query committed, if it did.
    ///
    /// # Errors
    ///
    /// `Refused` and `Broken`, as [`Connection::run`], unless the iterator has returned the error before.
    pub fn finish(mut self) -> Result<Option<String>, Error> {
        self.end()?;
        Ok(self.connection.requests().get(self.pull).and_then(bookmark_of))
    }

    /// Reads what is left, and settles the requests, once.
    fn end(&mut self) -> Result<(), Error> {
        while !self.is_over {
            self.connection.take_rows(self.pull);
            if !self.advance()? {
                break;
            }
        }
        self.settle()
    }

    /// Reads a piece. Returns false if all answers are there.
    fn advance(&mut self) -> Result<bool, Error> {
        self.connection.advance().inspect_err(|_| self.is_over = true)
    }

    fn settle(&mut self) -> Result<(), Error> {
        if std::mem::replace(&mut self.is_over, true) {
            Ok(())
        } else {
            self.connection.settle().map(drop)
        }
    }
}

impl<S: Read + Write> Iterator for Rows<'_, S> {
    type Item = Result<Row, Error>;

    fn next(&mut self) -> Option<Result<Row, Error>> {
        loop {
            if let Some(values) = self.ready.next() {
                return Some(Ok(Row::of(self.columns.clone(), values)));
            }
            if self.is_over {
                return None;
            }
            self.ready = self.connection.take_rows(self.pull).into_iter();
            if self.ready.len() == 0 {
                match self.advance() {
                    Ok(true) => {}
                    Ok(false) => return self.settle().err().map(Err),
                    Err(error) => return Some(Err(error)),
                }
            }
        }
    }
}

impl<S: Read + Write> FusedIterator for Rows<'_, S> {}

impl<S: Read + Write> Drop for Rows<'_, S> {
    fn drop(&mut self) {
        if std::thread::panicking() && !self.is_over {
            self.connection.give_up("a panic came before all rows were read");
            return;
        }
        // A panic of the stream ends the connection, and the next call says so.
        let _ended = catch_unwind(AssertUnwindSafe(|| self.end()));
    }
}
