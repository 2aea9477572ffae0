//! Values of PackStream 1, read and written. Keys are lent while a dictionary is looked through for equal ones, and the numbers of a list are read
//! in its loop.
use super::cursor::{Bad, Cursor};
use std::collections::HashSet;

#[derive(Debug, Clone, PartialEq)]
pub enum Value {
    Null,
    Bool(bool),
    Int(i64),
    Float(u64),
    Bytes(Vec<u8>),
    Text(String),
    List(Vec<Value>),
    Dict(Vec<(String, Value)>),
    Struct(u8, Vec<Value>),
}

pub type Dict = Vec<(String, Value)>;

/// Containers around each other in a value.
const MAX_DEPTH: usize = 32;

/// A dictionary of at most so many keys is looked through by comparing each with those before it.
pub const FEW_KEYS: usize = 16;

impl<'a> Cursor<'a> {
    fn values(&mut self, count: usize, depth: usize) -> Result<Vec<Value>, Bad> {
        let inner = depth.checked_sub(1).ok_or(Bad)?;
        let mut values = Vec::with_capacity(count.min(self.left.len()));
        for _ in 0..count {
            let value = match self.left {
                [byte @ 0x00..=0x7F, left @ ..] => {
                    self.left = left;
                    Value::Int(*byte as i64)
                }
                [0xC9, high, low, left @ ..] => {
                    self.left = left;
                    Value::Int(i16::from_be_bytes([*high, *low]) as i64)
                }
                [0xCA, a, b, c, d, left @ ..] => {
                    self.left = left;
                    Value::Int(i32::from_be_bytes([*a, *b, *c, *d]) as i64)
                }
                _ => self.value(inner)?,
            };
            values.push(value);
        }
        Ok(values)
    }

    fn dict(&mut self, count: usize, depth: usize) -> Result<Value, Bad> {
        let inner = depth.checked_sub(1).ok_or(Bad)?;
        let mut entries: Dict = Vec::with_capacity(count.min(self.left.len() / 2));
        if count <= FEW_KEYS {
            for _ in 0..count {
                let key = self.text()?;
                if entries.iter().any(|(other, _)| other == key) { return Err(Bad); }
                entries.push((key.to_owned(), self.value(inner)?));
            }
        } else {
            let mut seen: HashSet<&str> = HashSet::with_capacity(count.min(self.left.len() / 2));
            for _ in 0..count {
                let key = self.text()?;
                if !seen.insert(key) { return Err(Bad); }
                entries.push((key.to_owned(), self.value(inner)?));
            }
        }
        Ok(Value::Dict(entries))
    }

    /// A value inside of which so many containers may be around each other.
    pub fn value(&mut self, depth: usize) -> Result<Value, Bad> {
        let marker = self.byte()?;
        Ok(match marker {
            0x00..=0x7F | 0xF0..=0xFF => Value::Int(marker as i8 as i64),
            0x80..=0x8F | 0xD0..=0xD2 => Value::Text(self.text_of(marker)?.to_owned()),
            0x90..=0x9F => Value::List(self.values((marker & 15) as usize, depth)?),
            0xA0..=0xAF => self.dict((marker & 15) as usize, depth)?,
            0xB0..=0xBF => {
                let tag = self.byte()?;
                Value::Struct(tag, self.values((marker & 15) as usize, depth)?)
            }
            0xC0 => Value::Null,
            0xC1 => Value::Float(u64::from_be_bytes(self.array()?)),
            0xC2 | 0xC3 => Value::Bool(marker == 0xC3),
            0xC8 => Value::Int(self.byte()? as i8 as i64),
            0xC9 => Value::Int(i16::from_be_bytes(self.array()?) as i64),
            0xCA => Value::Int(i32::from_be_bytes(self.array()?) as i64),
            0xCB => Value::Int(i64::from_be_bytes(self.array()?)),
            0xCC..=0xCE => {
                let length = self.size(marker - 0xCC)?;
                Value::Bytes(self.take(length)?.to_vec())
            }
            0xD4..=0xD6 => {
                let count = self.size(marker - 0xD4)?;
                Value::List(self.values(count, depth)?)
            }
            0xD8..=0xDA => {
                let count = self.size(marker - 0xD8)?;
                self.dict(count, depth)?
            }
            _ => return Err(Bad),
        })
    }
}

/// Reads one value that is all of the bytes.
pub fn decode(bytes: &[u8]) -> Result<Value, Bad> {
    let mut cursor = Cursor { left: bytes };
    let value = cursor.value(MAX_DEPTH)?;
    if cursor.left.is_empty() { Ok(value) } else { Err(Bad) }
}

/// Puts the head of a text, list or dictionary: the small marker with the length in it, or one of three long ones with the length behind it.
#[inline]
pub fn put_head(out: &mut Vec<u8>, small: u8, long: u8, length: usize) {
    if length < 16 {
        out.push(small | length as u8);
    } else if length < 256 {
        out.extend_from_slice(&[long, length as u8]);
    } else if length < 65_536 {
        let [high, low] = (length as u16).to_be_bytes();
        out.extend_from_slice(&[long + 1, high, low]);
    } else {
        let [a, b, c, d] = (length as u32).to_be_bytes();
        out.extend_from_slice(&[long + 2, a, b, c, d]);
    }
}

#[inline]
pub fn put_text(out: &mut Vec<u8>, text: &str) {
    put_head(out, 0x80, 0xD0, text.len());
    out.extend_from_slice(text.as_bytes());
}

#[inline]
pub fn put_int(out: &mut Vec<u8>, number: i64) {
    match number {
        -16..=127 => out.push(number as u8),
        -128..=-17 => out.extend_from_slice(&[0xC8, number as u8]),
        -32_768..=32_767 => {
            let [high, low] = (number as i16).to_be_bytes();
            out.extend_from_slice(&[0xC9, high, low]);
        }
        -2_147_483_648..=2_147_483_647 => {
            let [a, b, c, d] = (number as i32).to_be_bytes();
            out.extend_from_slice(&[0xCA, a, b, c, d]);
        }
        _ => {
            let [a, b, c, d, e, f, g, h] = number.to_be_bytes();
            out.extend_from_slice(&[0xCB, a, b, c, d, e, f, g, h]);
        }
    }
}

fn put_bytes(out: &mut Vec<u8>, bytes: &[u8]) {
    // A byte string has no small marker: a short one takes the first of the long ones.
    if bytes.len() < 16 { out.extend_from_slice(&[0xCC, bytes.len() as u8]) } else { put_head(out, 0, 0xCC, bytes.len()) }
    out.extend_from_slice(bytes);
}

/// Appends the shortest bytes of a value. A structure is taken to have at most 15 fields.
pub fn encode(value: &Value, out: &mut Vec<u8>) {
    match value {
        Value::Null => out.push(0xC0),
        Value::Bool(holds) => out.push(0xC2 + *holds as u8),
        Value::Int(number) => put_int(out, *number),
        Value::Float(bits) => {
            out.push(0xC1);
            out.extend_from_slice(&bits.to_be_bytes());
        }
        Value::Bytes(bytes) => put_bytes(out, bytes),
        Value::Text(text) => put_text(out, text),
        Value::List(values) => {
            put_head(out, 0x90, 0xD4, values.len());
            out.reserve(values.len());
            for value in values {
                if let Value::Int(number) = value { put_int(out, *number) } else { encode(value, out) }
            }
        }
        Value::Dict(entries) => {
            put_head(out, 0xA0, 0xD8, entries.len());
            for (key, value) in entries {
                put_text(out, key);
                encode(value, out);
            }
        }
        Value::Struct(tag, fields) => {
            out.extend_from_slice(&[0xB0 | fields.len() as u8, *tag]);
            for field in fields { encode(field, out); }
        }
    }
}
