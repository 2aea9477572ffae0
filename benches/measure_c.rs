//! Measures the C calls of a client beside the driver's own: both are played the answers of a recording, and ask what each request was told once its exchange is
//! over. Links with libbolt.a and the static library `bench_library`.
mod clock;
mod measured;
// The programs of other parts use the rest.
#[allow(dead_code)]
mod played;
#[allow(dead_code)]
mod sides;
#[allow(dead_code)]
#[path = "reference/mod.rs"]
mod twin;
#[allow(dead_code)]
mod workloads;
use measured::{Line, Run, Subject};
use std::ffi::c_void;
use workloads::{PIECE, Pipeline, recorded};

const ROWS: usize = 65_536;
const MESSAGE: usize = 65_536;
const INT: u32 = 2;

#[repr(C)]
struct Handle {
    at: *mut c_void,
}

#[repr(C)]
#[derive(Default)]
struct Asked {
    ordinal: u64,
    rule: u64,
    place: u64,
}

#[repr(C)]
#[derive(Default)]
struct Value {
    kind: u32,
    tag: u32,
    integer: i64,
    real: f64,
    at: usize,
    count: usize,
}

unsafe extern "C" {
    fn bench_driver_alone(kind: u8, size: u32, watch: u8, recording: *const u8, length: usize) -> u64;
    fn bolt_open(c: *mut Handle, versions: u32, rows: usize) -> u32;
    fn bolt_close(c: *mut Handle);
    fn bolt_ask(c: *mut Handle, message: *const u8, length: usize, asked: *mut Asked) -> u32;
    fn bolt_unsent(c: *mut Handle, into: *mut u8, room: usize, length: *mut usize) -> u32;
    fn bolt_sent(c: *mut Handle, count: usize) -> u32;
    fn bolt_feed(c: *mut Handle, piece: *const u8, length: usize, used: *mut usize) -> u32;
    fn bolt_outcome(c: *mut Handle, ordinal: u64, outcome: *mut u32) -> u32;
    fn bolt_rows(c: *mut Handle, ordinal: u64, held: *mut u64, left: *mut u64) -> u32;
    fn bolt_row(c: *mut Handle, ordinal: u64, index: u64, into: *mut u8, room: usize, length: *mut usize) -> u32;
    fn bolt_value_at(bytes: *const u8, length: usize, at: *mut usize, value: *mut Value) -> u32;
    fn bolt_settle(c: *mut Handle) -> u32;
}

/// What a client asks, as messages, and is answered.
struct Exchange {
    messages: Vec<Vec<u8>>,
    up: usize,
    down: Vec<u8>,
}

fn part<'a>(recording: &mut &'a [u8]) -> &'a [u8] {
    let [high, middle, low, rest @ ..] = *recording else { panic!("a length") };
    let (one, rest) = rest.split_at((*high as usize) << 16 | (*middle as usize) << 8 | *low as usize);
    *recording = rest;
    one
}

/// The exchanges of a recording, of which the first is the handshake. Each request is one chunk.
fn exchanges(mut recording: &[u8]) -> Vec<Exchange> {
    let mut all: Vec<Exchange> = Vec::new();
    while !recording.is_empty() {
        let (up, down) = (part(&mut recording), part(&mut recording).to_vec());
        let (mut messages, mut rest) = (Vec::new(), if all.is_empty() { &[] } else { up });
        while let [high, low, behind @ ..] = rest {
            let (message, behind) = behind.split_at((*high as usize) << 8 | *low as usize);
            messages.push(message.to_vec());
            rest = &behind[2..];
        }
        all.push(Exchange { messages, up: up.len(), down });
    }
    all
}

/// A client behind C calls, and what it was told: rows, the sum of their first cells, and a check number of the outcomes.
struct ByC {
    handle: Handle,
    buffer: Vec<u8>,
    rows: u64,
    cells: u64,
    outcomes: u64,
}

fn need(code: u32) { assert_eq!(code, 0, "a call was refused"); }

impl ByC {
    fn new() -> ByC {
        let mut one = ByC { handle: Handle { at: std::ptr::null_mut() }, buffer: vec![0; MESSAGE], rows: 0, cells: 0, outcomes: 0 };
        need(unsafe { bolt_open(&mut one.handle, 0, ROWS) });
        one
    }

    fn send(&mut self, wanted: usize) {
        let mut all = 0;
        while all < wanted {
            let mut left = 0;
            need(unsafe { bolt_unsent(&mut self.handle, self.buffer.as_mut_ptr(), PIECE, &mut left) });
            assert_eq!(left, wanted - all);
            need(unsafe { bolt_sent(&mut self.handle, left.min(PIECE)) });
            all += left.min(PIECE);
        }
    }

    /// Reads a row that is held, and adds its first cell.
    fn read(&mut self, ordinal: u64, index: u64) {
        let (mut length, mut at, mut value) = (0, 0, Value::default());
        need(unsafe { bolt_row(&mut self.handle, ordinal, index, self.buffer.as_mut_ptr(), MESSAGE, &mut length) });
        // (the structure, the list, its first member)
        for _ in 0..3 { need(unsafe { bolt_value_at(self.buffer.as_ptr(), length, &mut at, &mut value) }); }
        self.cells += if value.kind == INT { value.integer.unsigned_abs() } else { value.count as u64 };
    }

    fn count(&mut self, ordinal: u64, reads: bool) {
        let (mut held, mut left, mut outcome) = (0, 0, 0);
        need(unsafe { bolt_rows(&mut self.handle, ordinal, &mut held, &mut left) });
        self.rows += held;
        if reads { for index in 0..held { self.read(ordinal, index); } }
        need(unsafe { bolt_outcome(&mut self.handle, ordinal, &mut outcome) });
        self.outcomes += [1, 2][outcome as usize];
    }

    fn play(&mut self, exchange: &Exchange, reads: bool) {
        let mut asked = Asked::default();
        for message in &exchange.messages {
            need(unsafe { bolt_ask(&mut self.handle, message.as_ptr(), message.len(), &mut asked) });
        }
        self.send(exchange.up);
        for piece in exchange.down.chunks(PIECE) {
            let mut used = 0;
            need(unsafe { bolt_feed(&mut self.handle, piece.as_ptr(), piece.len(), &mut used) });
            assert_eq!(used, piece.len());
        }
        let after = if exchange.messages.is_empty() { 0 } else { asked.ordinal + 1 };
        for ordinal in after - exchange.messages.len() as u64..after { self.count(ordinal, reads); }
        need(unsafe { bolt_settle(&mut self.handle) });
    }
}

impl Drop for ByC {
    fn drop(&mut self) { unsafe { bolt_close(&mut self.handle) } }
}

/// The rows, the sum of their first cells if they are read, and the outcomes.
fn by_c(exchanges: &[Exchange], reads: bool) -> [u64; 3] {
    let mut one = ByC::new();
    for exchange in exchanges { one.play(exchange, reads); }
    [one.rows, one.cells, one.outcomes]
}

/// The driver's own calls; a product that has stopped answers 0.
fn by_driver(pipeline: Pipeline, recording: &[u8]) -> u64 {
    let (kind, size) = sides::numbered(pipeline);
    unsafe { bench_driver_alone(kind, size, 0, recording.as_ptr(), recording.len()) }
}

fn line(name: &str, unit: &'static str, units: u32, times: u32, pipeline: Pipeline, reads: bool) -> Line {
    let ready = move |times| -> Run {
        let recording = recorded(&[(pipeline, times)]);
        let all = exchanges(&recording);
        // (what isn't read where it is measured was read before)
        let cells = if reads { 0 } else { by_c(&all, true)[1] };
        Box::new(move |side| match side {
            0 => by_c(&all, reads).iter().sum::<u64>() + cells + recording.len() as u64,
            _ => by_driver(pipeline, &recording),
        })
    };
    let part = if reads { "with the bytes of each row" } else { "the rows are counted" };
    Line { name: name.to_string(), part: part.to_string(), unit, units, times, ready: Box::new(ready), check: Box::new(|_| {}) }
}

fn main() {
    let mut lines = Vec::new();
    for reads in [false, true] {
        lines.push(line("RUN ONE + PULL, one pair at a time", "request", 2, 2_000, Pipeline::Ones(1), reads));
        lines.push(line("ROWS of 1,024", "row", 1_024, 40, Pipeline::Rows(1_024), reads));
    }
    lines.push(line("a transaction of a PUT", "request", 4, 2_000, Pipeline::Put { has_token: false }, false));
    Subject { sides: &["C calls", "driver"], lines }.main()
}
