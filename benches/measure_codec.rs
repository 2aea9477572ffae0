//! Measures the codec of the product beside the twin's, on the same samples (measured.rs says how). Linked with the static library `bench_library`:
//!   bench_decode(bytes, turns): decodes the bytes so many times, answers how often it succeeded
//!   bench_encode(bytes, turns): decodes once, encodes so many times onto an output of its own each, answers the bytes appended in all
//!   bench_append(bytes, turns): the same onto an output that holds a byte and has room
mod clock;
mod measured;
mod samples;
// The programs of other parts use the rest.
#[allow(dead_code)]
#[path = "reference/mod.rs"]
mod twin;
use measured::{Line, Run, Subject};
use std::hint::black_box;
use std::rc::Rc;
use twin::codec::{Value, decode, encode};

unsafe extern "C" {
    fn bench_decode(bytes: *const u8, length: usize, turns: u32) -> u64;
    fn bench_encode(bytes: *const u8, length: usize, turns: u32) -> u64;
    fn bench_append(bytes: *const u8, length: usize, turns: u32) -> u64;
}

struct Sample {
    value: Value,
    bytes: Vec<u8>,
}

/// A call of the library, and the twin's, each a count of times.
type Sides = (unsafe extern "C" fn(*const u8, usize, u32) -> u64, fn(&Sample, u32) -> u64);

fn decoded(sample: &Sample, turns: u32) -> u64 { (0..turns).filter(|_| black_box(decode(black_box(&sample.bytes))).is_ok()).count() as u64 }

fn encoded(sample: &Sample, turns: u32) -> u64 {
    // The library's call decodes once.
    black_box(decode(&sample.bytes).is_ok());
    let one = |_| {
        let mut out = Vec::new();
        encode(black_box(&sample.value), &mut out);
        black_box(out).len() as u64
    };
    (0..turns).map(one).sum()
}

fn appended(sample: &Sample, turns: u32) -> u64 {
    black_box(decode(&sample.bytes).is_ok());
    let mut out = vec![0];
    let one = |_| {
        encode(black_box(&sample.value), &mut out);
        let length = black_box(&out).len() as u64 - 1;
        out.truncate(1);
        length
    };
    (0..turns).map(one).sum()
}

fn line(name: &str, sample: &Rc<Sample>, part: &str, sides: Sides) -> Line {
    let (sample, turns) = (sample.clone(), (2_000_000 / sample.bytes.len() as u32).clamp(25, 10_000));
    let ready = move |times| -> Run {
        let sample = sample.clone();
        Box::new(move |side| if side == 0 { unsafe { sides.0(sample.bytes.as_ptr(), sample.bytes.len(), times) } } else { sides.1(&sample, times) })
    };
    Line { name: name.to_string(), part: part.to_string(), unit: "value", units: 1, times: turns, ready: Box::new(ready), check: Box::new(|_| {}) }
}

fn main() {
    let calls: [(&str, Sides); 3] = [("decode", (bench_decode, decoded)), ("encode", (bench_encode, encoded)), ("append", (bench_append, appended))];
    let mut lines = Vec::new();
    for (name, value) in samples::samples() {
        let mut bytes = Vec::new();
        encode(&value, &mut bytes);
        assert_eq!(decode(&bytes).as_ref(), Ok(&value), "{name}");
        let sample = Rc::new(Sample { value, bytes });
        for (part, sides) in calls { lines.push(line(name, &sample, part, sides)); }
    }
    Subject { sides: &["product", "twin"], lines }.main();
}
