//! A client's connection to a server at a port of this machine, logged in.
use std::io::{Read, Write};
use std::net::TcpStream;

pub fn chunk(message: &[u8]) -> Vec<u8> { [&(message.len() as u16).to_be_bytes(), message, &[0, 0]].concat() }

/// A client's connection, with what it has read and not yet looked at.
pub struct Connection {
    stream: TcpStream,
    buffer: Vec<u8>,
    at: usize,
    end: usize,
}

impl Connection {
    pub fn open(port: u16) -> Connection {
        let stream = TcpStream::connect(("127.0.0.1", port)).expect("a server");
        stream.set_nodelay(true).expect("a socket");
        let mut connection = Connection { stream, buffer: vec![0; 1 << 20], at: 0, end: 0 };
        connection.send(b"\x60\x60\xB0\x17\0\0\x01\x05\0\0\0\0\0\0\0\0\0\0\0\0");
        connection.need(4);
        connection.at += 4;
        let logon = chunk(b"\xB1\x6A\xA3\x86scheme\x85basic\x89principal\x84user\x8Bcredentials\x84pass");
        connection.send(&[chunk(b"\xB1\x01\xA1\x8Auser_agent\x83t/1"), logon].concat());
        connection.hear(2);
        connection
    }

    pub fn send(&mut self, bytes: &[u8]) { self.stream.write_all(bytes).expect("a server that reads"); }

    /// Reads until so many bytes are there.
    fn need(&mut self, count: usize) {
        while self.end - self.at < count {
            if self.buffer.len() - self.at < 1 << 17 {
                self.buffer.copy_within(self.at..self.end, 0);
                self.end -= self.at;
                self.at = 0;
            }
            let got = self.stream.read(&mut self.buffer[self.end..]).expect("answers");
            assert!(got > 0, "the server has ended");
            self.end += got;
        }
    }

    /// Reads messages until so many are a SUCCESS.
    pub fn hear(&mut self, summaries: usize) {
        let mut left = summaries;
        while left > 0 {
            self.need(4);
            let size = u16::from_be_bytes([self.buffer[self.at], self.buffer[self.at + 1]]) as usize;
            self.need(size + 4);
            match self.buffer[self.at + 3] {
                0x71 => {}
                0x70 => left -= 1,
                tag => panic!("an answer {tag:02X}"),
            }
            self.at += size + 4;
        }
    }
}
