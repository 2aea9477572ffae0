//! Measures `bolt serve` beside a server of the same loop over the twin, each a process of its own, by a client that sends many requests at once over
//! the loopback of this machine.
//!
//!   measure_sockets times BOLT TWIN ROUNDS      the most exchanges of a second by the clock, of rounds in turn, and their median
//!   measure_sockets instructions BOLT TWIN      the server's instructions of a unit, by `valgrind --tool=callgrind`
//!
//! BOLT and TWIN are programs that are called with `serve PORT 1`.
mod connected;

use connected::{Connection, chunk};
use std::io::{BufRead, BufReader};
use std::net::TcpListener;
use std::process::{Child, Command, Stdio};
use std::time::Instant;

/// What is sent at once, and what it is answered.
struct Exchange {
    name: &'static str,
    unit: &'static str,
    units: usize,
    bytes: Vec<u8>,
    summaries: usize,
    /// How often it is timed.
    times: usize,
}

fn exchanges() -> Vec<Exchange> {
    let pull = chunk(b"\xB1\x3F\xA1\x81n\xFF");
    let one = [chunk(b"\xB3\x10\x83ONE\xA0\xA0"), pull.clone()].concat();
    let rows = [chunk(b"\xB3\x10\x84ROWS\xA1\x81n\xC9\x04\x00\xA0"), pull.clone()].concat();
    let put = chunk(b"\xB3\x10\x83PUT\xA2\x83key\x84aaaa\x85value\x07\xA0");
    let transaction = [chunk(b"\xB1\x11\xA0"), put, pull, chunk(b"\xB0\x12")].concat();
    vec![
        Exchange { name: "RUN ONE + PULL, one pair at a time", unit: "request", units: 2, bytes: one.clone(), summaries: 2, times: 4_000 },
        Exchange { name: "RUN ONE + PULL, 16 pairs at once", unit: "request", units: 32, bytes: one.repeat(16), summaries: 32, times: 2_000 },
        Exchange { name: "transactions, 8 at once", unit: "transaction", units: 8, bytes: transaction.repeat(8), summaries: 32, times: 1_000 },
        Exchange { name: "ROWS of 1,024", unit: "row", units: 1_024, bytes: rows, summaries: 2, times: 1_000 },
    ]
}

/// Does an exchange so often, and answers the nanoseconds of each.
fn work(connection: &mut Connection, exchange: &Exchange, times: usize) -> Vec<f64> {
    let one = |_| {
        let begin = Instant::now();
        connection.send(&exchange.bytes);
        connection.hear(exchange.summaries);
        begin.elapsed().as_nanos() as f64
    };
    (0..times).map(one).collect()
}

/// Starts a server of one connection, and answers its port.
fn serve(words: &[&str]) -> (Child, u16) {
    let port = TcpListener::bind(("127.0.0.1", 0)).and_then(|taken| taken.local_addr()).expect("a port").port();
    let mut command = Command::new(words[0]);
    let mut server = command.args(&words[1..]).args(["serve", &port.to_string(), "1"]).stdout(Stdio::piped()).stderr(Stdio::null()).spawn().expect("a program");
    let mut line = String::new();
    BufReader::new(server.stdout.as_mut().expect("a pipe")).read_line(&mut line).expect("a line");
    assert_eq!(line, format!("listening {port}\n"));
    (server, port)
}

/// The nanoseconds of each exchange with a server.
fn timed(words: &[&str], exchange: &Exchange, times: usize) -> Vec<f64> {
    let (mut server, port) = serve(words);
    let mut connection = Connection::open(port);
    let each = work(&mut connection, exchange, times);
    drop(connection);
    server.wait().expect("an end");
    each
}

fn times(programs: [&str; 2], rounds: usize) {
    println!("| sent at once | unit | bolt, units a second | twin, units a second | bolt / twin | bolt, median of an exchange | twin |");
    println!("|---|---|---|---|---|---|---|");
    for exchange in exchanges() {
        let mut rates = [0.0f64; 2];
        let mut medians = [f64::MAX; 2];
        for _ in 0..rounds {
            for (side, program) in programs.into_iter().enumerate() {
                let mut each = timed(&[program], &exchange, exchange.times);
                rates[side] = rates[side].max((exchange.times * exchange.units) as f64 / each.iter().sum::<f64>() * 1e9);
                each.sort_by(f64::total_cmp);
                medians[side] = medians[side].min(each[each.len() / 2] / 1e3);
            }
        }
        let ([bolt, twin], [first, second]) = (rates, medians);
        println!("| {} | {} | {bolt:.0} | {twin:.0} | {:.2} | {first:.1} us | {second:.1} us |", exchange.name, exchange.unit, bolt / twin);
    }
}

/// The instructions of a server over so many exchanges.
fn counted(program: &str, exchange: &Exchange, times: usize) -> u64 {
    let file = std::env::temp_dir().join(format!("measure_sockets.{}", std::process::id()));
    let out = format!("--callgrind-out-file={}", file.display());
    timed(&["valgrind", "--tool=callgrind", &out, program], exchange, times);
    let text = std::fs::read_to_string(&file).expect("a count");
    std::fs::remove_file(&file).expect("a file");
    let total = text.lines().find_map(|line| line.strip_prefix("totals: ").or(line.strip_prefix("summary: "))).expect("a total");
    total.trim().parse().expect("a number")
}

fn instructions(programs: [&str; 2]) {
    println!("| sent at once | unit | bolt | twin | bolt / twin |");
    println!("|---|---|---|---|---|");
    for exchange in exchanges() {
        let few = (2_000 / exchange.units).clamp(5, 200);
        let each = programs.map(|program| (counted(program, &exchange, 3 * few) - counted(program, &exchange, few)) as f64 / (2 * few * exchange.units) as f64);
        println!("| {} | {} | {:.0} | {:.0} | {:.2} |", exchange.name, exchange.unit, each[0], each[1], each[0] / each[1]);
    }
}

fn main() {
    let words: Vec<String> = std::env::args().skip(1).collect();
    let words: Vec<&str> = words.iter().map(String::as_str).collect();
    match words[..] {
        ["times", bolt, twin, rounds] => times([bolt, twin], rounds.parse().expect("a number")),
        ["instructions", bolt, twin] => instructions([bolt, twin]),
        _ => panic!("measure_sockets times BOLT TWIN ROUNDS | instructions BOLT TWIN"),
    }
}
