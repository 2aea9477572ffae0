//! A pool of connections for several threads.

use crate::connection::{Connection, Login};
use crate::error::Error;
use crate::retry::{work_over, Known, Tries};
use crate::transaction::Transaction;
use std::borrow::{Borrow, BorrowMut};
use std::io::{self, Read, Write};
use std::ops::{Deref, DerefMut};
use std::sync::{Condvar, Mutex, MutexGuard, PoisonError};
use std::time::{Duration, Instant};

/// The limits of a pool.
#[derive(Clone, Copy, Debug)]
pub struct Limits {
    /// The number of connections at most, in use and idle.
    pub most: usize,
    /// How long [`Pool::get`] waits for a free connection.
    pub wait: Duration,
    /// How long a connection may be idle. An older one isn't handed out: the server may have closed it.
    pub idle: Duration,
}

impl Default for Limits {
    /// Returns 8 connections, a wait of 60 seconds and an idle time of 30 seconds.
    fn default() -> Limits {
        Limits { most: 8, wait: Duration::from_secs(60), idle: Duration::from_secs(30) }
    }
}

/// Connections that threads share. Each is used by one thread at a time.
///
/// A connection goes back to the pool when its [`Pooled`] is dropped. It is closed instead if it has ended, if a
/// transaction is open, or if something isn't settled. If it has ended, the idle connections are closed too: the cause
/// has often broken all of them.
///
/// ```no_run
/// use bolt::{Limits, Login, Pool, Query};
/// use std::net::TcpStream;
///
/// let login = Login { agent: "example/1".into(), principal: "user".into(), credentials: "pass".into() };
/// let pool = Pool::new(login, Limits::default(), || TcpStream::connect("127.0.0.1:7687"));
/// std::thread::scope(|scope| {
///     for number in 0..20 {
///         let pool = &pool;
///         scope.spawn(move || pool.get()?.run(&Query::from("PUT").param("key", "a").param("value", number)));
///     }
/// });
/// ```
pub struct Pool<S: Read + Write> {
    connect: Box<dyn Fn() -> io::Result<S> + Send + Sync>,
    login: Login,
    limits: Limits,
    places: Mutex<Places<S>>,
    /// Notified when a connection or a place becomes free.
    freed: Condvar,
}

struct Places<S> {
    /// The idle connections, each with the time since it is idle, the newest last.
    idle: Vec<(Instant, Connection<S>)>,
    /// The number of all connections, with those that are being opened.
    count: usize,
}

impl<S: Read + Write> Pool<S> {
    /// Makes a pool without connections. `connect` opens the streams; it has to set their time limits.
    pub fn new(login: Login, limits: Limits, connect: impl Fn() -> io::Result<S> + Send + Sync + 'static) -> Pool<S> {
        let places = Mutex::new(Places { idle: Vec::new(), count: 0 });
        Pool { connect: Box::new(connect), login, limits, places, freed: Condvar::new() }
    }

    /// Returns the connection that became idle last, or a new one. If all are in use, it waits for one.
    ///
    /// # Errors
    ///
    /// - `Busy` if no connection is free within [`Limits::wait`].
    /// - `Broken` with the stream's error if `connect` fails.
    /// - Those of [`Connection::open`].
    pub fn get(&self) -> Result<Pooled<'_, S>, Error> {
        let begun = Instant::now();
        let mut places = self.places();
        loop {
            let is_fresh = |since: &Instant| since.elapsed() <= self.limits.idle;
            let old = places.idle.iter().take_while(|it| !is_fresh(&it.0)).count();
            let old: Vec<_> = places.idle.drain(..old).collect();
            places.count -= old.len();
            let found = places.idle.pop().map(|it| it.1);
            if found.is_some() || places.count < self.limits.most {
                places.count += usize::from(found.is_none());
                // Nothing below may hold the lock: closing and opening streams takes time.
                drop(places);
                drop(old);
                return Pooled { pool: self, connection: found }.opened();
            }
            let left = self.limits.wait.saturating_sub(begun.elapsed());
            if left.is_zero() {
                return Err(Error::Busy);
            }
            places = self.freed.wait_timeout(places, left).unwrap_or_else(PoisonError::into_inner).0;
        }
    }

    /// Does work in a transaction under a token, over connections of the pool, until it is known what became of it.
    /// [`work_until_known`](crate::work_until_known) says the rest. A try without a free connection counts.
    ///
    /// # Errors
    ///
    /// Those of [`work_until_known`](crate::work_until_known).
    pub fn work_until_known<T>(
        &self,
        tries: &Tries,
        work: impl FnMut(&mut Transaction<'_, S>) -> Result<T, Error>,
    ) -> Result<Known<T>, Error> {
        work_over(|| Some(self.get()), tries, work)
    }

    /// Locks the places. No call panics while it holds the lock, so they are right also after a panic.
    fn places(&self) -> MutexGuard<'_, Places<S>> {
        self.places.lock().unwrap_or_else(PoisonError::into_inner)
    }
}

/// A connection of a pool. When it is dropped, the pool has it back.
pub struct Pooled<'a, S: Read + Write> {
    pool: &'a Pool<S>,
    /// None only before it is opened, and in the drop.
    connection: Option<Connection<S>>,
}

impl<S: Read + Write> Pooled<'_, S> {
    /// Opens the connection if there is none. If that fails, the drop frees its place.
    fn opened(mut self) -> Result<Self, Error> {
        if self.connection.is_none() {
            let stream = (self.pool.connect)().map_err(|error| Error::Broken {
                why: "no stream to the server",
                error: Some(error),
                requests: Vec::new(),
            })?;
            self.connection = Some(Connection::open(stream, &self.pool.login)?);
        }
        Ok(self)
    }
}

const OPENED: &str = "a connection of a pool is opened before it is handed out";

impl<S: Read + Write> Deref for Pooled<'_, S> {
    type Target = Connection<S>;

    fn deref(&self) -> &Connection<S> {
        self.connection.as_ref().expect(OPENED)
    }
}

impl<S: Read + Write> DerefMut for Pooled<'_, S> {
    fn deref_mut(&mut self) -> &mut Connection<S> {
        self.connection.as_mut().expect(OPENED)
    }
}

impl<S: Read + Write> Borrow<Connection<S>> for Pooled<'_, S> {
    fn borrow(&self) -> &Connection<S> {
        self
    }
}

impl<S: Read + Write> BorrowMut<Connection<S>> for Pooled<'_, S> {
    fn borrow_mut(&mut self) -> &mut Connection<S> {
        self
    }
}

impl<S: Read + Write> Drop for Pooled<'_, S> {
    fn drop(&mut self) {
        let is_idle = self.connection.as_mut().is_some_and(Connection::is_idle);
        let has_ended = self.connection.as_ref().is_some_and(Connection::has_ended);
        let mut places = self.pool.places();
        // They are closed after the lock is free.
        let broken = if has_ended { std::mem::take(&mut places.idle) } else { Vec::new() };
        places.count -= broken.len();
        match self.connection.take_if(|_| is_idle) {
            Some(connection) => places.idle.push((Instant::now(), connection)),
            None => places.count -= 1,
        }
        drop(places);
        if broken.is_empty() {
            self.pool.freed.notify_one();
        } else {
            self.pool.freed.notify_all();
        }
    }
}
