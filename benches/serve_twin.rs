//! `serve_twin serve PORT COUNT` serves so many connections at a port of this machine, one after the other, over the twin: the loop is that of
//! `bolt serve`. It prints `listening PORT` once it listens.
// The programs of other parts use the rest.
#[allow(dead_code)]
#[path = "reference/mod.rs"]
mod twin;
use std::io::{Read, Write};
use std::net::{TcpListener, TcpStream};
use twin::server::{Server, What, Worked};

/// Works until nothing waits or the session has ended, writes what waits to go, and answers whether it goes on.
fn answer(server: &mut Server, conn: u64, stream: &mut TcpStream) -> bool {
    loop {
        let is_full = match server.work(conn).expect("a session") {
            Worked::Row | Worked::Wrote { .. } => continue,
            Worked::Idle | Worked::Ended(_) => false,
            Worked::Full => true,
        };
        let answers = server.take_out(conn, usize::MAX).expect("a session");
        if !answers.is_empty() && stream.write_all(answers).is_err() { return false; }
        if !is_full { return server.cause(conn).is_none(); }
    }
}

/// Reads a piece, and works what it asks.
fn serve_piece(server: &mut Server, conn: u64, stream: &mut TcpStream, piece: &[u8]) -> bool {
    let mut at = 0;
    while at < piece.len() {
        let took = server.feed(conn, &piece[at..]).expect("a session");
        at += took.used;
        if took.what == What::Closed { break; }
        if took.what == What::Full && !answer(server, conn, stream) { return false; }
    }
    answer(server, conn, stream)
}

fn serve(server: &mut Server, mut stream: TcpStream) {
    let conn = server.open().expect("a place");
    let mut piece = [0; 4096];
    while let Ok(count @ 1..) = stream.read(&mut piece) {
        if !serve_piece(server, conn, &mut stream, &piece[..count]) { break; }
    }
    server.lost(conn);
}

fn main() {
    let words: Vec<String> = std::env::args().skip(1).collect();
    let [_, port, count] = &words[..] else { panic!("serve_twin serve PORT COUNT") };
    let listener = TcpListener::bind(("127.0.0.1", port.parse().expect("a port"))).expect("a free port");
    println!("listening {port}");
    let mut server = Server::new("user", "pass");
    for stream in listener.incoming().take(count.parse().expect("a count")) {
        let stream = stream.expect("a connection");
        stream.set_nodelay(true).expect("a socket");
        serve(&mut server, stream);
    }
}
