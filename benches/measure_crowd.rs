//! Measures `bolt_server` by one client alone and beside 15 silent ones, and by 16 clients at once, beside `bolt serve` and 16 one after the other, over
//! the loopback of this machine.
//!
//!   measure_crowd BOLT_SERVER BOLT ROUNDS      the least median of a round trip, and the most round trips of a second, of rounds in turn
mod connected;

use connected::{Connection, chunk};
use std::io::{BufRead, BufReader, Read};
use std::net::{TcpListener, TcpStream};
use std::process::{Child, Command, Stdio};
use std::thread;
use std::time::Instant;

const CLIENTS: usize = 16;
const TRIPS: usize = 4_000;

/// Starts a server, and answers its port. What it prints later is read and dropped.
fn start(words: &[&str]) -> (Child, u16) {
    let mut server = Command::new(words[0]).args(&words[1..]).stdout(Stdio::piped()).stderr(Stdio::null()).spawn().expect("a program");
    let mut out = BufReader::new(server.stdout.take().expect("a pipe"));
    let mut line = String::new();
    out.read_line(&mut line).expect("a line");
    let port = line.trim().strip_prefix("listening ").and_then(|it| it.parse().ok()).expect("a port");
    thread::spawn(move || out.read_to_end(&mut Vec::new()));
    (server, port)
}

/// The microseconds of each round trip of a client: RUN and PULL of a row.
fn trips(port: u16, times: usize) -> Vec<f64> {
    let asked = [chunk(b"\xB3\x10\x83ONE\xA0\xA0"), chunk(b"\xB1\x3F\xA1\x81n\xFF")].concat();
    let mut connection = Connection::open(port);
    let one = |_| {
        let begin = Instant::now();
        connection.send(&asked);
        connection.hear(2);
        begin.elapsed().as_nanos() as f64 / 1e3
    };
    (0..times).map(one).collect()
}

fn median(mut each: Vec<f64>) -> f64 {
    each.sort_by(f64::total_cmp);
    each[each.len() / 2]
}

fn main() {
    let words: Vec<String> = std::env::args().skip(1).collect();
    let [many, bolt, rounds] = words.as_slice() else { panic!("measure_crowd BOLT_SERVER BOLT ROUNDS") };
    let (mut alone, mut beside, mut at_once, mut in_turn) = (f64::MAX, f64::MAX, 0.0f64, 0.0f64);
    for _ in 0..rounds.parse().expect("a count") {
        let (mut server, port) = start(&[many, "0"]);
        alone = alone.min(median(trips(port, TRIPS)));
        let silent: Vec<_> = (1..CLIENTS).map(|_| TcpStream::connect(("127.0.0.1", port)).expect("a server")).collect();
        beside = beside.min(median(trips(port, TRIPS)));
        drop(silent);
        let begin = Instant::now();
        thread::scope(|scope| (0..CLIENTS).for_each(|_| drop(scope.spawn(|| trips(port, TRIPS)))));
        at_once = at_once.max((CLIENTS * TRIPS) as f64 / begin.elapsed().as_secs_f64());
        server.kill().and_then(|()| server.wait()).expect("an end");
        let free = TcpListener::bind(("127.0.0.1", 0)).and_then(|taken| taken.local_addr()).expect("a port").port();
        let (mut server, port) = start(&[bolt, "serve", &free.to_string(), &CLIENTS.to_string()]);
        let begin = Instant::now();
        (0..CLIENTS).for_each(|_| drop(trips(port, TRIPS)));
        in_turn = in_turn.max((CLIENTS * TRIPS) as f64 / begin.elapsed().as_secs_f64());
        server.wait().expect("an end");
    }
    println!("| alone | beside 15 silent ones | ratio | 16 at once, a second | one after the other, a second | ratio |");
    println!("|---|---|---|---|---|---|");
    println!("| {alone:.1} | {beside:.1} | {:.2} | {at_once:.0} | {in_turn:.0} | {:.2} |", beside / alone, at_once / in_turn);
}
