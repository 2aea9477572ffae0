//! Both ends of Bolt 4.4, 5.0 and 5.1 in plain Rust, without unsafe code and on the standard library alone: the twin that the product is measured
//! against. It is what a good engineer writes who wants speed. A message is checked in one walk and lent to the caller, who reads rows and metadata
//! where they lie; requests are lent to the client; a server keeps a waiting request as its bytes, in one buffer that is used again; what is always
//! the same stands ready with its chunk header; the machine is a table; and the rows of a result are made as they are written.
//!
//! It refuses what the product refuses of bytes, requests and cells, and says no place of a fault. Want of memory ends the process.
pub mod chunks;
pub mod client;
pub mod codec;
pub mod cursor;
pub mod machine;
pub mod requests;
pub mod responses;
pub mod server;
mod session;
pub mod structures;
pub mod table;
pub mod walk;

pub const MAX_MESSAGE: usize = 65_536;
/// Requests that wait at an end.
pub const MAX_PLACES: usize = 32;
pub const MAX_SESSIONS: usize = 16;
pub const MAX_ROWS: usize = 1_024;
/// Writes of a transaction.
pub const MAX_WRITES: usize = 1_024;
/// Bytes of a token.
pub const MAX_TOKEN: usize = 64;
/// A step of work begins below so many bytes to go.
pub const MAX_TO_GO: usize = 65_536;
/// Containers around each other in a message, less the structure of the message and the container in it.
pub const CELL_DEPTH: usize = 30;
