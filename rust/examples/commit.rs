//! commit ADDRESS PORT KEY: puts a key in a transaction, and prints the outcome of each of its requests.
//!
//! All requests go out in one pipeline. If the connection breaks, the first line says why.

use bolt::{Connection, Error, Login, Query, Request};
use std::io::{self, Write};
use std::net::TcpStream;
use std::process::ExitCode;
use std::time::Duration;

/// How long a read and a write may wait for the server.
const LONGEST: Duration = Duration::from_secs(10);

fn commit(stream: TcpStream, key: &str) -> Result<Vec<Request>, Error> {
    let login = Login { agent: "commit/1".into(), principal: "user".into(), credentials: "pass".into() };
    let mut connection = Connection::open(stream, &login)?;
    connection.ask_begin(true, None)?;
    connection.ask_run(&Query::new("PUT", [("key", key.into()), ("value", 1.into())]), true, None)?;
    connection.ask_commit()?;
    Ok(connection.settle()?.to_vec())
}

/// Returns a server's text on one line: characters that break or turn a line are escaped.
fn escaped(text: &str) -> String {
    let is_plain = |it: char| !it.is_control() && !matches!(it, '\u{2028}'..='\u{202E}' | '\u{2066}'..='\u{2069}');
    text.chars().map(|it| if is_plain(it) { it.into() } else { it.escape_default().to_string() }).collect()
}

fn show(told: &Result<Vec<Request>, Error>) -> io::Result<()> {
    let mut out = io::stdout().lock();
    let requests = match told {
        Ok(requests) => requests.as_slice(),
        Err(error) => {
            // The server chooses the code. After "refused: " it can't look like a line of an outcome.
            let before = if matches!(error, Error::Refused { .. }) { "refused: " } else { "" };
            writeln!(out, "{before}{}", escaped(&error.to_string()))?;
            error.requests()
        }
    };
    for request in requests {
        // Each request has an outcome after all were answered or the stream is gone.
        if let Some(outcome) = request.outcome {
            writeln!(out, "{}: {outcome:?}", request.text)?;
        }
    }
    out.flush()
}

fn connect(address: &str, port: &str) -> io::Result<TcpStream> {
    let port: u16 = port.parse().map_err(io::Error::other)?;
    let stream = TcpStream::connect((address, port))?;
    stream.set_read_timeout(Some(LONGEST))?;
    stream.set_write_timeout(Some(LONGEST))?;
    Ok(stream)
}

fn main() -> ExitCode {
    let words: Result<Vec<String>, _> = std::env::args_os().skip(1).map(|it| it.into_string()).collect();
    let Ok([address, port, key]) = words.as_deref() else {
        eprintln!("commit ADDRESS PORT KEY");
        return ExitCode::from(2);
    };
    let stream = match connect(address, port) {
        Ok(stream) => stream,
        Err(error) => {
            eprintln!("no server: {error}");
            return ExitCode::from(2);
        }
    };
    let told = commit(stream, key);
    if let Err(error) = show(&told) {
        eprintln!("standard output failed: {error}");
        return ExitCode::FAILURE;
    }
    if told.is_ok() {
        ExitCode::SUCCESS
    } else {
        ExitCode::from(3)
    }
}
