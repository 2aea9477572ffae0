//! Times the codec's twin alone, and writes the samples for msgpack-c: `measure_twin FOLDER` writes each sample as MessagePack into the folder, and prints
//! its number, its name, the bytes of its PackStream, and the least nanoseconds of reading and of writing it.
mod samples;
// The programs of other parts use the rest.
#[allow(dead_code)]
#[path = "reference/mod.rs"]
mod twin;
use std::hint::black_box;
use std::time::Instant;
use twin::codec::{Value, decode, encode};

/// Puts the head of a list or dictionary of MessagePack.
fn put_head(out: &mut Vec<u8>, small: u8, long: u8, count: usize) {
    if count < 16 {
        out.push(small | count as u8);
    } else {
        out.push(long);
        out.extend((count as u16).to_be_bytes());
    }
}

fn put_text(out: &mut Vec<u8>, text: &str) {
    match text.len() {
        length @ 0..32 => out.push(0xA0 | length as u8),
        length @ 32..256 => out.extend([0xD9, length as u8]),
        length => {
            out.push(0xDA);
            out.extend((length as u16).to_be_bytes());
        }
    }
    out.extend_from_slice(text.as_bytes());
}

fn put_int(out: &mut Vec<u8>, number: i64) {
    match number {
        -32..=127 => out.push(number as u8),
        -32_768..=32_767 => {
            out.push(0xD1);
            out.extend((number as i16).to_be_bytes());
        }
        _ => {
            out.push(0xD3);
            out.extend(number.to_be_bytes());
        }
    }
}

/// Puts a value of a sample as MessagePack; a structure is a list that begins with its tag.
fn put(out: &mut Vec<u8>, value: &Value) {
    match value {
        Value::Null => out.push(0xC0),
        Value::Bool(holds) => out.push(0xC2 + *holds as u8),
        Value::Int(number) => put_int(out, *number),
        Value::Float(bits) => {
            out.push(0xCB);
            out.extend(bits.to_be_bytes());
        }
        Value::Bytes(bytes) => {
            out.push(0xC5);
            out.extend((bytes.len() as u16).to_be_bytes());
            out.extend_from_slice(bytes);
        }
        Value::Text(text) => put_text(out, text),
        Value::List(all) => {
            put_head(out, 0x90, 0xDC, all.len());
            for one in all { put(out, one); }
        }
        Value::Dict(entries) => {
            put_head(out, 0x80, 0xDE, entries.len());
            for (key, value) in entries {
                put_text(out, key);
                put(out, value);
            }
        }
        Value::Struct(tag, fields) => {
            put_head(out, 0x90, 0xDC, fields.len() + 1);
            out.push(tag & 0x7F);
            for field in fields { put(out, field); }
        }
    }
}

/// The least time of a second's runs.
fn least(mut run: impl FnMut()) -> f64 {
    let (mut best, begin) = (f64::MAX, Instant::now());
    while begin.elapsed().as_secs() < 1 {
        let start = Instant::now();
        run();
        best = best.min(start.elapsed().as_nanos() as f64);
    }
    best
}

fn main() {
    let folder = std::env::args().nth(1).expect("a folder");
    for (at, (name, value)) in samples::samples().into_iter().enumerate() {
        let (mut bytes, mut sister) = (Vec::new(), Vec::new());
        encode(&value, &mut bytes);
        put(&mut sister, &value);
        std::fs::write(format!("{folder}/{at}.msgpack"), &sister).expect("a file");
        let reading = least(|| drop(black_box(decode(black_box(&bytes)))));
        let writing = least(|| {
            let mut out = Vec::new();
            encode(black_box(&value), &mut out);
            black_box(out);
        });
        println!("twin\t{at}\t{name}\t{}\t{reading:.0}\t{writing:.0}", bytes.len());
    }
}
