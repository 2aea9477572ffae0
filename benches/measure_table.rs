//! Measures the fixed table of the product beside the twin's (measured.rs says how). A table has so many entries of one put each, over so many keys in
//! turn; then it is put to, or asked. Linked with the static library `bench_library`:
//!   bench_table_puts(keys, puts): makes a table by so many puts, each its own commit, answers the ledger's length
//!   bench_table_tokens(keys, puts): the same, each commit under a token of its own
//!   bench_table_gets(keys, puts, key, gets): then gets a key's value so many times, answers the rows read
//!   bench_table_keys(keys, puts, times): then reads all keys so many times, answers the rows read
mod clock;
mod measured;
// The programs of other parts use the rest.
#[allow(dead_code)]
#[path = "reference/mod.rs"]
mod twin;
use measured::{Line, Run, Subject};
use twin::codec::{Dict, Value};
use twin::requests::Mode;
use twin::table::{EntryId, Rows, Table};

unsafe extern "C" {
    fn bench_table_puts(keys: u32, puts: u32) -> u64;
    fn bench_table_tokens(keys: u32, puts: u32) -> u64;
    fn bench_table_gets(keys: u32, puts: u32, key: u32, gets: u32) -> u64;
    fn bench_table_keys(keys: u32, puts: u32, times: u32) -> u64;
}

/// What is done after the table is made, so many times.
#[derive(Clone, Copy, PartialEq, Eq)]
enum Ask {
    Puts,
    Tokens,
    GetsOf(u32),
    Keys,
}

#[derive(Clone, Copy)]
struct Call {
    keys: u32,
    entries: u32,
    ask: Ask,
}

fn product(Call { keys, entries, ask }: Call, times: u32) -> u64 {
    unsafe {
        match ask {
            Ask::Puts => bench_table_puts(keys, entries + times),
            Ask::Tokens => bench_table_tokens(keys, entries + times),
            Ask::GetsOf(key) => bench_table_gets(keys, entries, key, times),
            Ask::Keys => bench_table_keys(keys, entries, times),
        }
    }
}

/// A key of four letters, one for each half byte of the number, from the highest.
fn key(number: u32) -> String { (0..4).map(|at| (b'a' + (number >> (12 - 4 * at) & 15) as u8) as char).collect() }

fn put(table: &mut Table, number: u32, ordinal: u32, token: Option<String>) {
    let params: Dict = vec![("key".to_string(), Value::Text(key(number))), ("value".to_string(), Value::Int(ordinal as i64))];
    let answer = table.run(&[], "PUT", &params, Mode::Write).unwrap_or_else(|fault| panic!("{fault:?}"));
    table.commit(EntryId { conn: 0, ordinal: ordinal as u64 }, token, answer.write.into_iter().collect());
}

/// Asks so many times, and drops each row of the answers.
fn rows_read(table: &Table, text: &str, params: &Dict, times: u32) -> u64 {
    let one = |_| match table.run(&[], text, params, Mode::Read).map(|answer| answer.rows) {
        Ok(Rows::Many(all)) => all.count() as u64,
        Ok(rows) => rows.len(),
        Err(fault) => panic!("{fault:?}"),
    };
    (0..times).map(one).sum()
}

fn plain(Call { keys, entries, ask }: Call, times: u32) -> u64 {
    let mut table = Table::default();
    let puts = if matches!(ask, Ask::Puts | Ask::Tokens) { entries + times } else { entries };
    for ordinal in 0..puts { put(&mut table, ordinal % keys, ordinal, (ask == Ask::Tokens).then(|| key(ordinal))); }
    match ask {
        Ask::Puts | Ask::Tokens => table.ledger().len() as u64,
        Ask::GetsOf(number) => rows_read(&table, "GET", &vec![("key".to_string(), Value::Text(key(number)))], times),
        Ask::Keys => rows_read(&table, "KEYS", &Dict::new(), times),
    }
}

/// A line; each call is made `repeats` times at once.
fn line(name: &str, unit: &'static str, each: u32, repeats: u32, times: u32, call: Call) -> Line {
    let ready = move |times| -> Run { Box::new(move |side| (0..repeats).map(|_| if side == 0 { product(call, times) } else { plain(call, times) }).sum()) };
    let part = format!("{} keys, {} entries", call.keys, call.entries);
    Line { name: name.to_string(), part, unit, units: each * repeats, times, ready: Box::new(ready), check: Box::new(|_| {}) }
}

fn main() {
    let mut lines = Vec::new();
    for (keys, entries, repeats) in [(10, 10, 200), (1_000, 1_000, 2), (1_000, 10_000, 1)] {
        let call = |ask| Call { keys, entries, ask };
        lines.push(line("PUT and commit", "put", 1, repeats, entries, call(Ask::Puts)));
        lines.push(line("PUT and commit under a token", "put", 1, repeats, entries, call(Ask::Tokens)));
        lines.push(line("GET of the first key", "get", 1, 1, 5_000, call(Ask::GetsOf(0))));
        lines.push(line("GET of the last key", "get", 1, 1, 5_000, call(Ask::GetsOf(keys - 1))));
        lines.push(line("KEYS", "row", keys, 1, 50_000 / keys, call(Ask::Keys)));
    }
    Subject { sides: &["product", "twin"], lines }.main();
}
