//! Streams to a server that end after a number of bytes.

use crate::common::login;
use crate::server::Server;
use bolt::Connection;
use std::io::{self, Read, Write};
use std::net::{Shutdown, TcpStream};
use std::time::Duration;

/// How long a read may take on a busy machine.
const PATIENCE: Duration = Duration::from_secs(30);
/// More bytes than any test sends.
pub const WHOLE: usize = 1 << 40;

/// A stream that ends after `told` bytes of the server or `asked` bytes of the client. It counts both down.
pub struct Cut {
    pub stream: TcpStream,
    pub told: usize,
    pub asked: usize,
}

impl Read for Cut {
    fn read(&mut self, into: &mut [u8]) -> io::Result<usize> {
        let room = into.len().min(self.told);
        let count = if room == 0 { 0 } else { self.stream.read(&mut into[..room])? };
        self.told -= count;
        Ok(count)
    }
}

impl Write for Cut {
    fn write(&mut self, bytes: &[u8]) -> io::Result<usize> {
        if self.asked == 0 {
            // The server sees the end, so that the client doesn't wait for an answer.
            let _closed = self.stream.shutdown(Shutdown::Write);
            return Err(io::ErrorKind::BrokenPipe.into());
        }
        let count = self.stream.write(&bytes[..bytes.len().min(self.asked)])?;
        self.asked -= count;
        Ok(count)
    }

    fn flush(&mut self) -> io::Result<()> {
        Ok(())
    }
}

/// Returns a stream to a port of this machine that ends after so many bytes.
pub fn connect(port: u16, told: usize, asked: usize) -> io::Result<Cut> {
    let stream = TcpStream::connect(("127.0.0.1", port))?;
    stream.set_read_timeout(Some(PATIENCE))?;
    stream.set_nodelay(true)?;
    Ok(Cut { stream, told, asked })
}

impl Server {
    /// Returns a stream to the server that ends after so many bytes.
    pub fn connect(&self, told: usize, asked: usize) -> Option<Cut> {
        connect(self.port, told, asked).ok()
    }

    /// Returns a connection over a stream that doesn't end.
    pub fn open(&self) -> Connection<Cut> {
        Connection::open(self.connect(WHOLE, WHOLE).unwrap(), &login()).unwrap()
    }
}
