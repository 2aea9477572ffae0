//! Measures a client through the driver, which keeps what it is told until each exchange is over, beside the client's own calls: both are played the answers
//! of a recording. Links with the static library `bench_library`, as measure_sessions.rs.
mod clock;
mod measured;
// The programs of other parts use the rest.
#[allow(dead_code)]
mod played;
#[allow(dead_code)]
mod sides;
#[allow(dead_code)]
#[path = "reference/mod.rs"]
mod twin;
#[allow(dead_code)]
mod workloads;
use measured::{Line, Run, Subject};
use workloads::{Pipeline, recorded};

unsafe extern "C" {
    fn bench_driver_alone(kind: u8, size: u32, watch: u8, recording: *const u8, length: usize) -> u64;
    fn bench_client_alone(kind: u8, size: u32, watch: u8, recording: *const u8, length: usize) -> u64;
}

/// Runs a recording on a side; a product that has stopped answers 0.
fn played(side: usize, pipeline: Pipeline, watch: u8, recording: &[u8]) -> u64 {
    let ((kind, size), at, length) = (sides::numbered(pipeline), recording.as_ptr(), recording.len());
    match side {
        0 => unsafe { bench_driver_alone(kind, size, watch, at, length) },
        _ => unsafe { bench_client_alone(kind, size, watch, at, length) },
    }
}

fn line(name: &str, unit: &'static str, units: u32, times: u32, pipeline: Pipeline) -> Line {
    let ready = move |times| -> Run {
        let recording = recorded(&[(pipeline, times)]);
        Box::new(move |side| played(side, pipeline, 0, &recording))
    };
    let check = move |times| {
        let recording = recorded(&[(pipeline, times)]);
        for side in 0..2 { assert_eq!(played(side, pipeline, 1, &recording), played(side, pipeline, 0, &recording)); }
        assert_ne!(played(0, pipeline, 1, &recording), 0);
    };
    Line { name: name.to_string(), part: "client".to_string(), unit, units, times, ready: Box::new(ready), check: Box::new(check) }
}

fn main() {
    let lines = vec![
        line("1 RUN ONE + PULL, one pair at a time", "request", 2, 2_000, Pipeline::Ones(1)),
        line("3 ROWS of 1,024", "row", 1_024, 40, Pipeline::Rows(1_024)),
        line("5 a transaction of a PUT", "transaction", 1, 2_000, Pipeline::Put { has_token: false }),
    ];
    Subject { sides: &["driver", "client"], lines }.main()
}
