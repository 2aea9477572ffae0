//! What is measured of both ends: each workload on each side.
use crate::measured::Line;
use crate::played::{Watch, client_alone, server_alone, without};
use crate::workloads::{BYTES, Form, LIST, Long, Pipeline, pieces_to_client, pieces_to_server, pipelines, recorded, recorded_sessions, sessions};

unsafe extern "C" {
    fn bench_pipelines(kind: u8, size: u32, times: u32) -> u64;
    fn bench_gets(puts: u32, gets: u32) -> u64;
    fn bench_pieces_to_server(marker: u8, bytes: u32, piece: u32, turns: u32) -> u64;
    fn bench_pieces_to_client(marker: u8, bytes: u32, piece: u32, turns: u32) -> u64;
    fn bench_sessions(sessions: u32, requests: u32) -> u64;
    fn bench_server_alone(sessions: u32, watch: u8, recording: *const u8, length: usize) -> u64;
    fn bench_client_alone(kind: u8, size: u32, watch: u8, recording: *const u8, length: usize) -> u64;
}

#[derive(Debug, Clone, Copy, PartialEq, Eq)]
enum Side {
    Product,
    Twin(Form),
}

/// The names of the sides, and the sides.
pub const NAMES: [&str; 3] = ["product", "twin, owned", "twin, lent"];
const SIDES: [Side; 3] = [Side::Product, Side::Twin(Form::Owned), Side::Twin(Form::Lent)];

/// Which ends work.
#[derive(Debug, Clone, Copy, PartialEq, Eq)]
enum Ends {
    Both,
    Server,
    Client,
}

/// What is worked, a count of times.
#[derive(Debug, Clone, Copy)]
enum Work {
    Pipelines(Pipeline),
    /// GETs behind so many transactions.
    Gets(u32),
    Sessions(u32),
    Pieces(Long),
}

/// A workload that is ready to run: one end alone has its recording.
struct Run {
    ends: Ends,
    work: Work,
    times: u32,
    recording: Vec<u8>,
}

impl Run {
    fn ready(ends: Ends, work: Work, times: u32) -> Run {
        let put = Pipeline::Put { has_token: false };
        let recording = match work {
            Work::Pieces(_) => Vec::new(),
            _ if ends == Ends::Both => Vec::new(),
            Work::Pipelines(pipeline) => recorded(&[(pipeline, times)]),
            Work::Gets(puts) if ends == Ends::Client => without(&recorded(&[(put, puts), (Pipeline::Get, times)]), puts),
            Work::Gets(puts) => recorded(&[(put, puts), (Pipeline::Get, times)]),
            Work::Sessions(count) => recorded_sessions(count, times),
        };
        Run { ends, work, times, recording }
    }

    /// Runs it on a side, and answers its check number; a product that has stopped answers 0.
    fn on(&self, side: Side) -> u64 {
        match (self.ends, side) {
            (Ends::Both, Side::Product) => unsafe { self.product() },
            (Ends::Both, Side::Twin(form)) => self.twin(form),
            _ => self.alone(side, Watch::Lengths),
        }
    }

    /// Checks that one end alone says the bytes of the recording on each side.
    fn check(&self) {
        if self.recording.is_empty() { return; }
        for side in SIDES { assert_eq!(self.alone(side, Watch::Bytes), self.on(side), "{side:?}: {:?}", self.work); }
    }

    unsafe fn product(&self) -> u64 {
        let times = self.times;
        unsafe {
            match self.work {
                Work::Pipelines(Pipeline::Get) => panic!("no keys were put"),
                Work::Pipelines(pipeline) => {
                    let (kind, size) = numbered(pipeline);
                    bench_pipelines(kind, size, times)
                }
                Work::Gets(puts) => bench_gets(puts, times),
                Work::Sessions(count) => bench_sessions(count, 2 * times),
                Work::Pieces(long) => panic!("{long:?} goes to one end"),
            }
        }
    }

    fn twin(&self, form: Form) -> u64 {
        match self.work {
            Work::Pipelines(pipeline) => pipelines(form, &[(pipeline, self.times)]),
            Work::Gets(puts) => pipelines(form, &[(Pipeline::Put { has_token: false }, puts), (Pipeline::Get, self.times)]),
            Work::Sessions(count) => sessions(form, count, self.times),
            Work::Pieces(long) => panic!("{long:?} goes to one end"),
        }
    }

    fn alone(&self, side: Side, watch: Watch) -> u64 {
        if let Work::Pieces(long) = self.work { return self.pieces(side, long); }
        let (at, length) = (self.recording.as_ptr(), self.recording.len());
        let sessions = if let Work::Sessions(count) = self.work { count } else { 1 };
        let pipeline = if let Work::Pipelines(pipeline) = self.work { pipeline } else { Pipeline::Get };
        let (kind, size) = numbered(pipeline);
        match (self.ends, side, watch) {
            (Ends::Server, Side::Product, _) => unsafe { bench_server_alone(sessions, watch as u8, at, length) },
            (Ends::Server, Side::Twin(_), _) => server_alone(sessions, &self.recording, watch),
            (_, Side::Product, _) => unsafe { bench_client_alone(kind, size, watch as u8, at, length) },
            (_, Side::Twin(form), _) => client_alone(form, pipeline, &self.recording, watch),
        }
    }

    fn pieces(&self, side: Side, long: Long) -> u64 {
        match (self.ends, side) {
            (Ends::Server, Side::Product) => unsafe { bench_pieces_to_server(long.marker, long.bytes, long.piece, self.times) },
            (Ends::Server, Side::Twin(_)) => pieces_to_server(long, self.times),
            (_, Side::Product) => unsafe { bench_pieces_to_client(long.marker, long.bytes, long.piece, self.times) },
            (_, Side::Twin(form)) => pieces_to_client(form, long, self.times),
        }
    }
}

/// As many keys as four letters name.
const KEYS: u32 = 65_536;

/// The number and the size of a pipeline, as the library has them.
pub fn numbered(pipeline: Pipeline) -> (u8, u32) {
    match pipeline {
        Pipeline::Ones(count) => (0, count),
        Pipeline::Rows(count) => (1, count),
        Pipeline::Echo(bytes) => (2, bytes),
        Pipeline::Put { has_token: false } => (3, KEYS),
        Pipeline::Put { has_token: true } => (4, KEYS),
        Pipeline::Get => (5, 0),
    }
}

fn line(name: &str, ends: Ends, unit: &'static str, units: u32, times: u32, work: Work) -> Line {
    let ready = move |times| -> crate::measured::Run {
        let run = Run::ready(ends, work, times);
        Box::new(move |side| run.on(SIDES[side]))
    };
    let part = match ends {
        Ends::Both => "both ends",
        Ends::Server => "server",
        Ends::Client => "client",
    };
    let check = move |times| Run::ready(ends, work, times).check();
    Line { name: name.to_string(), part: part.to_string(), unit, units, times, ready: Box::new(ready), check: Box::new(check) }
}

/// All lines: each workload at both ends, at the server alone and at the client alone.
pub fn lines() -> Vec<Line> {
    let pipeline = Work::Pipelines;
    let each = [
        ("1 RUN ONE + PULL, one pair at a time", "request", 2, 2_000, pipeline(Pipeline::Ones(1))),
        ("2 RUN ONE + PULL, 8 pairs at once", "request", 16, 250, pipeline(Pipeline::Ones(8))),
        ("3 ROWS of 1,024", "row", 1_024, 40, pipeline(Pipeline::Rows(1_024))),
        ("4 ECHO of 60,000 bytes", "byte", 60_000, 40, pipeline(Pipeline::Echo(60_000))),
        ("5 a transaction of a PUT", "transaction", 1, 2_000, pipeline(Pipeline::Put { has_token: false })),
        ("6 GET + PULL", "pair", 1, 2_000, Work::Gets(2_000)),
    ];
    let mut lines = Vec::new();
    for (name, unit, units, times, work) in each {
        for ends in [Ends::Both, Ends::Server, Ends::Client] { lines.push(line(name, ends, unit, units, times, work)); }
    }
    for ends in [Ends::Both, Ends::Server] { lines.push(line("7 RUN ONE + PULL, 16 sessions", ends, "request", 32, 250, Work::Sessions(16))); }
    lines.push(line("8 the same as 5 under a token", Ends::Both, "transaction", 1, 2_000, pipeline(Pipeline::Put { has_token: true })));
    for (marker, unit, name) in [(BYTES, "byte", "9 a long byte string"), (LIST, "integer", "10 a long list of integers")] {
        for ends in [Ends::Server, Ends::Client] {
            for (piece, times) in [(1, 10), (64, 50)] {
                let long = Long { marker, bytes: 16_250, piece };
                lines.push(line(&format!("{name}, by {piece}"), ends, unit, 16_250, times, Work::Pieces(long)));
            }
        }
    }
    lines
}
