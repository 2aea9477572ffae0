//! Times what is to stay flat, in one run: `measure_growth [TIMES]`. Linked with the static library `bench_library` of the
//! workspace:
//!   bench_records_read(keys, turns), bench_records_written(keys, turns): a record of one dictionary, answers its bytes
//!   bench_pieces_taken(bytes, turns): a piece of small messages and no-ops, answers the messages in all
//!   bench_pieces_to_server(marker, bytes, piece, turns): a message of so many bytes with a list, or a byte string, fed to a server in pieces
//!   bench_pipelines(3, keys, count), bench_pipelines(4, keys, count): a client's transactions of one put each, over keys in turn, without tokens and under them
mod clock;
use clock::now;
use std::hint::black_box;

unsafe extern "C" {
    fn bench_records_read(keys: u32, turns: u32) -> u64;
    fn bench_records_written(keys: u32, turns: u32) -> u64;
    fn bench_pieces_taken(bytes: u32, turns: u32) -> u64;
    fn bench_pieces_to_server(marker: u8, bytes: u32, piece: u32, turns: u32) -> u64;
    fn bench_pipelines(kind: u8, keys: u32, count: u32) -> u64;
}

type Call = unsafe extern "C" fn(u32, u32) -> u64;

/// A list of small integers, in pieces of 64 bytes.
unsafe extern "C" fn integers(bytes: u32, turns: u32) -> u64 { unsafe { bench_pieces_to_server(0xD5, bytes, 64, turns) } }

/// A byte string, byte by byte.
unsafe extern "C" fn byte_string(bytes: u32, turns: u32) -> u64 { unsafe { bench_pieces_to_server(0xCD, bytes, 1, turns) } }

/// Transactions of one put each, over so many keys in turn.
unsafe extern "C" fn puts(keys: u32, count: u32) -> u64 { unsafe { bench_pipelines(3, keys, count) } }

/// The same, each under a token of its own.
unsafe extern "C" fn puts_under_tokens(keys: u32, count: u32) -> u64 { unsafe { bench_pipelines(4, keys, count) } }

/// A call at two sizes.
struct Line { name: &'static str, call: Call, small: Size, large: Size, most: f64 }

/// A size, the bytes that one turn of the call works on, and how many turns are timed.
#[derive(Clone, Copy)]
struct Size { size: u32, bytes: u64, turns: u32 }

/// The time of a byte at a size: the least of a call that repeats, less the least of one that doesn't.
#[derive(Clone, Copy)]
struct Least { many: f64, none: f64 }

fn time(call: Call, size: u32, turns: u32) -> f64 {
    let begin = now();
    let told = black_box(unsafe { call(black_box(size), turns) });
    let taken = now() - begin;
    assert!(told > 0 || turns == 0, "a call has stopped");
    taken
}

/// A record of so many keys; its call answers the bytes of its text.
fn record(call: Call, keys: u32, turns: u32) -> Size {
    Size { size: keys, bytes: unsafe { call(keys, 0) }, turns }
}

fn piece(bytes: u32, turns: u32) -> Size { Size { size: bytes, bytes: bytes as u64, turns } }

/// Sizes of a ledger: its keys, its entries, and how often a call that makes it is timed at once.
const LEDGERS: [(u32, u32, u32); 3] = [(10, 10, 1000), (1000, 1000, 10), (1000, 10_000, 1)];

/// The time of as many transactions as a ledger has already, each; the least of so many rounds.
fn transactions(times: u32) {
    println!("| what | keys | entries | ns | times that at 10 entries |");
    println!("|---|---|---|---|---|");
    let calls: [(&str, Call); 2] = [("a transaction", puts), ("a transaction under a token", puts_under_tokens)];
    let mut least = [[Least { many: f64::MAX, none: f64::MAX }; 3]; 2];
    for _ in 0..times {
        for ((_, call), least) in calls.into_iter().zip(&mut least) {
            for ((keys, entries, repeats), least) in LEDGERS.into_iter().zip(least) {
                let each = |count| (0..repeats).map(|_| time(call, keys, count)).sum::<f64>();
                least.many = least.many.min(each(2 * entries));
                least.none = least.none.min(each(entries));
            }
        }
    }
    for ((name, _), least) in calls.into_iter().zip(least) {
        let each = |at: usize| (least[at].many - least[at].none) / (LEDGERS[at].1 * LEDGERS[at].2) as f64;
        for (at, (keys, entries, _)) in LEDGERS.into_iter().enumerate() {
            println!("| {name} | {keys} | {entries} | {:.0} | {:.2} |", each(at), each(at) / each(0));
        }
    }
}

fn main() {
    let times: u32 = std::env::args().nth(1).map_or(60, |n| n.parse().expect("a number"));
    let records = |name, call| Line { name, call, small: record(call, 100, 2000), large: record(call, 9000, 20), most: 4.0 };
    let lines = [
        records("reading a record, 100 keys and 9,000", bench_records_read),
        records("writing a record, 100 keys and 9,000", bench_records_written),
        Line { name: "a list of integers at a server by 64, 16,250 and 65,000", call: integers, small: piece(16_250, 80), large: piece(65_000, 20), most: 1.2 },
        Line { name: "a byte string at a server by 1, 16,250 and 65,000", call: byte_string, small: piece(16_250, 8), large: piece(65_000, 2), most: 1.2 },
        Line { name: "small messages in a piece, 4 KB and 64 KB", call: bench_pieces_taken, small: piece(4096, 320), large: piece(65_536, 20), most: 1.5 },
    ];
    println!("| what | ns a byte, small | ns a byte, large | ratio | at most |");
    println!("|---|---|---|---|---|");
    for line in lines {
        let mut least = [Least { many: f64::MAX, none: f64::MAX }; 2];
        for _ in 0..times {
            for (at, least) in [line.small, line.large].into_iter().zip(&mut least) {
                least.many = least.many.min(time(line.call, at.size, at.turns));
                least.none = least.none.min(time(line.call, at.size, 0));
            }
        }
        let each = |at: Size, l: Least| (l.many - l.none) / (at.turns as u64 * at.bytes) as f64;
        let (small, large) = (each(line.small, least[0]), each(line.large, least[1]));
        println!("| {} | {small:.2} | {large:.2} | {:.2} | {} |", line.name, large / small, line.most);
    }
    println!();
    transactions(times / 3);
}
