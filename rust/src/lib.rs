//! A driver of Bolt 4.4, 5.0 and 5.1 over the proved driver of libbolt.a, for any stream. It needs only the standard
//! library.
//!
//! ```no_run
//! use bolt::{until_known, Connection, Login, Query};
//! use std::{io, net::TcpStream, time::Duration};
//!
//! fn connect() -> io::Result<TcpStream> {
//!     let stream = TcpStream::connect("127.0.0.1:7687")?;
//!     stream.set_read_timeout(Some(Duration::from_secs(10)))?;
//!     stream.set_write_timeout(Some(Duration::from_secs(10)))?;
//!     Ok(stream)
//! }
//!
//! let login = Login { agent: "example/1".into(), principal: "user".into(), credentials: "pass".into() };
//! let put = Query::from("PUT").param("key", "a").param("value", 1);
//! let fate = until_known(|| connect().ok(), &login, "my-token", &[put], 5).unwrap();
//! println!("{fate:?}");
//! let mut connection = Connection::open(connect().unwrap(), &login).unwrap();
//! for row in connection.run(&Query::from("GET").param("key", "a")).unwrap().rows {
//!     println!("{}", row.get::<i64>("value").unwrap());
//! }
//! ```
//!
//! A [`Connection`] runs queries, whose [`Row`]s become tuples or structs. A [`Transaction`] is rolled back if it is
//! dropped. [`work_until_known`] does work in a transaction until it is known if it is committed. A [`Pool`] shares
//! connections between threads.

mod connection;
mod convert;
mod error;
mod ffi;
mod pool;
mod retry;
mod row;
mod rows;
mod transaction;
mod value;

pub use connection::{Answer, Connection, Login, Query};
pub use convert::FromValue;
pub use error::{Error, ErrorKind, Kind, Mismatch, Outcome, Request};
pub use pool::{Limits, Pool, Pooled};
pub use retry::{until_known, until_known_with, work_until_known, Before, Fate, Known, Retry, Tries};
pub use row::{Column, FromRow, Row};
pub use rows::Rows;
pub use transaction::Transaction;
pub use value::{dict, Value};
