//! rounds: sends the transaction of each line of standard input until it is known, and prints its fate.
//!
//! A line is `PORT TOKEN KEY TRIES BEFORE RETRY [TEXT]`: a PUT of the key, and then a query of the text. BEFORE is
//! `InDoubt` or `Nothing`, and RETRY `Tokens`, `Never` or `Detect`. An error is printed as `NotSent`.

use bolt::{until_known_with, Before, Login, Query, Retry};
use std::io::{self, BufRead, Write};
use std::net::TcpStream;
use std::time::Duration;

/// How long a read and a write may wait for the server.
const LONGEST: Duration = Duration::from_secs(30);

fn connect(port: u16) -> io::Result<TcpStream> {
    let stream = TcpStream::connect(("127.0.0.1", port))?;
    stream.set_read_timeout(Some(LONGEST))?;
    stream.set_write_timeout(Some(LONGEST))?;
    stream.set_nodelay(true)?;
    Ok(stream)
}

fn fate(words: &[&str]) -> String {
    let [port, token, key, tries, before, retry, texts @ ..] = words else { panic!("{words:?}") };
    let login = Login { agent: "rounds/1".into(), principal: "user".into(), credentials: "pass".into() };
    let mut queries = vec![Query::new("PUT", [("key", (*key).into()), ("value", 1.into())])];
    queries.extend(texts.iter().map(|text| Query::new(text, [])));
    let before = if *before == "InDoubt" { Before::InDoubt } else { Before::Nothing };
    let retry = match *retry {
        "Tokens" => Retry::Tokens,
        "Never" => Retry::Never,
        _ => Retry::Detect,
    };
    let (port, tries) = (port.parse().unwrap(), tries.parse().unwrap());
    match until_known_with(|| connect(port).ok(), &login, token, &queries, tries, retry, before) {
        Ok(fate) => format!("{fate:?}"),
        Err(error) => format!("NotSent {error}"),
    }
}

fn main() {
    for line in io::stdin().lock().lines() {
        println!("{}", fate(&line.unwrap().split(' ').collect::<Vec<_>>()));
        io::stdout().flush().unwrap();
    }
}
