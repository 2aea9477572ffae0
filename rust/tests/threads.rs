//! Connections that move from thread to thread, over a server.
//!
//! Each test starts a `bolt_server`, or takes the one at BOLT_PORT.

mod common;
#[path = "common/server.rs"]
mod server;

use bolt::{Connection, Error, Query};
use common::{login, put};
use server::Server;
use std::net::TcpStream;
use std::thread;

fn open(server: &Server) -> Connection<TcpStream> {
    Connection::open(TcpStream::connect(("127.0.0.1", server.port)).unwrap(), &login()).unwrap()
}

#[test]
fn connection_and_error_move_to_another_thread() {
    fn moves<T: Send>() {}
    moves::<Connection<TcpStream>>();
    moves::<Error>();
}

#[test]
fn connection_is_used_by_one_thread_after_another() {
    let Some(server) = Server::start() else { return };
    let mut connection = open(&server);
    connection.run(&put("threads")).unwrap();
    for count in 0..20 {
        let used = thread::spawn(move || {
            let rows = connection.run(&Query::new("ROWS", [("n", count.into())])).unwrap().rows.len();
            (connection, rows)
        });
        let rows;
        (connection, rows) = used.join().unwrap();
        assert_eq!(count as usize, rows);
    }
    // The last thread also drops it.
    thread::spawn(move || drop(connection)).join().unwrap();
}

#[test]
fn request_is_settled_by_another_thread_than_asked_it() {
    let Some(server) = Server::start() else { return };
    let mut connection = open(&server);
    let run = connection.ask_run(&Query::new("ROWS", [("n", 3.into())]), true, None).unwrap();
    let rows = thread::scope(|scope| {
        let settle = || connection.settle().map(|requests| requests[run + 1].rows.len());
        scope.spawn(settle).join().unwrap()
    });
    assert_eq!(3, rows.unwrap());
}
