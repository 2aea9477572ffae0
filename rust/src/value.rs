//! Values of PackStream.

/// A value. A structure is its tag and its fields, as docs/PROFILE.md has them.
#[derive(Clone, Debug, PartialEq)]
pub enum Value {
    Null,
    Bool(bool),
    Int(i64),
    Float(f64),
    Bytes(Vec<u8>),
    Text(String),
    List(Vec<Value>),
    Dict(Vec<(String, Value)>),
    Structure(u8, Vec<Value>),
}

impl Value {
    /// Returns the integer, None of a value of another type.
    pub fn as_int(&self) -> Option<i64> {
        match self {
            Value::Int(it) => Some(*it),
            _ => None,
        }
    }

    /// Returns the float, None of a value of another type, also of an integer.
    pub fn as_float(&self) -> Option<f64> {
        match self {
            Value::Float(it) => Some(*it),
            _ => None,
        }
    }

    /// Returns the text, None of a value of another type.
    pub fn as_text(&self) -> Option<&str> {
        match self {
            Value::Text(it) => Some(it),
            _ => None,
        }
    }

    /// Returns the boolean, None of a value of another type.
    pub fn as_bool(&self) -> Option<bool> {
        match self {
            Value::Bool(it) => Some(*it),
            _ => None,
        }
    }

    /// Returns the bytes, None of a value of another type.
    pub fn as_bytes(&self) -> Option<&[u8]> {
        match self {
            Value::Bytes(it) => Some(it),
            _ => None,
        }
    }

    /// Returns the members of a list, None of a value of another type.
    pub fn as_list(&self) -> Option<&[Value]> {
        match self {
            Value::List(it) => Some(it),
            _ => None,
        }
    }

    /// Returns the entries of a dictionary in their order, None of a value of another type.
    pub fn as_dict(&self) -> Option<&[(String, Value)]> {
        match self {
            Value::Dict(it) => Some(it),
            _ => None,
        }
    }

    /// Returns the value under a key of a dictionary, None if there is none.
    pub fn get(&self, key: &str) -> Option<&Value> {
        self.as_dict()?.iter().find(|(name, _)| name == key).map(|(_, value)| value)
    }
}

/// Makes a dictionary of entries.
pub fn dict<'a>(entries: impl IntoIterator<Item = (&'a str, Value)>) -> Value {
    Value::Dict(entries.into_iter().map(|(key, value)| (key.to_owned(), value)).collect())
}

/// How deep a field of a message may nest.
pub(crate) const ROOM: u8 = 31;
const NO_MARKER: u8 = 0xC4;

fn put_sized(out: &mut Vec<u8>, length: usize, tiny: Option<u8>, first: u8) {
    match (tiny, length) {
        (Some(tiny), 0..=15) => out.push(tiny | length as u8),
        (_, 0..=0xFF) => out.extend([first, length as u8]),
        (_, 0x100..=0xFFFF) => {
            out.push(first + 1);
            out.extend((length as u16).to_be_bytes());
        }
        _ => match u32::try_from(length) {
            Ok(length) => {
                out.push(first + 2);
                out.extend(length.to_be_bytes());
            }
            Err(_) => out.push(NO_MARKER),
        },
    }
}

#[test]
fn a_length_past_32_bits_has_no_marker() {
    for (tiny, first) in [(None, 0xCC), (Some(0x80), 0xD0), (Some(0x90), 0xD4), (Some(0xA0), 0xD8)] {
        let mut out = Vec::new();
        put_sized(&mut out, 1 << 32, tiny, first);
        assert_eq!(Reading(&out).value(), None, "{first}");
    }
}

fn put_int(out: &mut Vec<u8>, it: i64) {
    if (-16..128).contains(&it) {
        out.push(it as u8);
    } else if let Ok(it) = i8::try_from(it) {
        out.extend([0xC8, it as u8]);
    } else if let Ok(it) = i16::try_from(it) {
        out.push(0xC9);
        out.extend(it.to_be_bytes());
    } else if let Ok(it) = i32::try_from(it) {
        out.push(0xCA);
        out.extend(it.to_be_bytes());
    } else {
        out.push(0xCB);
        out.extend(it.to_be_bytes());
    }
}

/// Appends the bytes of a value.
///
/// A length past 32 bits and a structure of more than 15 fields have no bytes: the library refuses the marker that
/// is written for them. If a value nests deeper than `room`, nothing is appended after its head, which the library
/// refuses.
pub(crate) fn put(out: &mut Vec<u8>, value: &Value, room: u8) {
    match value {
        Value::Null => out.push(0xC0),
        Value::Bool(it) => out.push(if *it { 0xC3 } else { 0xC2 }),
        Value::Int(it) => put_int(out, *it),
        Value::Float(it) => {
            out.push(0xC1);
            out.extend(it.to_be_bytes());
        }
        Value::Bytes(it) => {
            put_sized(out, it.len(), None, 0xCC);
            out.extend(it);
        }
        Value::Text(it) => {
            put_sized(out, it.len(), Some(0x80), 0xD0);
            out.extend(it.as_bytes());
        }
        Value::List(members) => {
            put_sized(out, members.len(), Some(0x90), 0xD4);
            put_all(out, members, room);
        }
        Value::Dict(entries) => {
            put_sized(out, entries.len(), Some(0xA0), 0xD8);
            for (key, it) in entries.iter().filter(|_| room > 0) {
                put_sized(out, key.len(), Some(0x80), 0xD0);
                out.extend(key.as_bytes());
                put(out, it, room - 1);
            }
        }
        Value::Structure(_, fields) if fields.len() > 15 => out.push(NO_MARKER),
        Value::Structure(tag, fields) => {
            out.extend([0xB0 | fields.len() as u8, *tag]);
            put_all(out, fields, room);
        }
    }
}

fn put_all(out: &mut Vec<u8>, members: &[Value], room: u8) {
    members.iter().filter(|_| room > 0).for_each(|it| put(out, it, room - 1));
}

/// Reads values from the beginning of bytes. A value is None if they encode none.
pub(crate) struct Reading<'a>(pub &'a [u8]);

impl<'a> Reading<'a> {
    fn bytes(&mut self, count: usize) -> Option<&'a [u8]> {
        let (front, rest) = self.0.split_at_checked(count)?;
        self.0 = rest;
        Some(front)
    }

    fn number(&mut self, width: usize) -> Option<u64> {
        Some(self.bytes(width)?.iter().fold(0, |sum, it| sum << 8 | u64::from(*it)))
    }

    fn signed(&mut self, width: usize) -> Option<i64> {
        let shift = 64 - 8 * width as u32;
        Some((self.number(width)? << shift) as i64 >> shift)
    }

    fn text(&mut self, length: u64) -> Option<String> {
        String::from_utf8(self.bytes(usize::try_from(length).ok()?)?.to_vec()).ok()
    }

    fn list(&mut self, count: u64) -> Option<Vec<Value>> {
        (0..count).map(|_| self.value()).collect()
    }

    fn dict(&mut self, count: u64) -> Option<Vec<(String, Value)>> {
        (0..count).map(|_| Some((self.value()?.as_text()?.to_owned(), self.value()?))).collect()
    }

    pub fn structure(&mut self) -> Option<(u8, Vec<Value>)> {
        let marker = self.number(1)?;
        if marker >> 4 != 0xB {
            return None;
        }
        let tag = self.number(1)? as u8;
        Some((tag, self.list(marker & 15)?))
    }

    pub fn value(&mut self) -> Option<Value> {
        let marker = *self.0.first()?;
        if marker >> 4 == 0xB {
            let (tag, fields) = self.structure()?;
            return Some(Value::Structure(tag, fields));
        }
        self.0 = &self.0[1..];
        let tiny = u64::from(marker & 15);
        Some(match marker {
            0x00..=0x7F => Value::Int(i64::from(marker)),
            0xF0..=0xFF => Value::Int(i64::from(marker as i8)),
            0x80..=0x8F => Value::Text(self.text(tiny)?),
            0x90..=0x9F => Value::List(self.list(tiny)?),
            0xA0..=0xAF => Value::Dict(self.dict(tiny)?),
            0xC0 => Value::Null,
            0xC1 => Value::Float(f64::from_bits(self.number(8)?)),
            0xC2 | 0xC3 => Value::Bool(marker == 0xC3),
            0xC8..=0xCB => Value::Int(self.signed(1 << (marker - 0xC8))?),
            0xCC..=0xCE => {
                let length = self.number(1 << (marker - 0xCC))?;
                Value::Bytes(self.bytes(usize::try_from(length).ok()?)?.to_vec())
            }
            0xD0..=0xD2 => {
                let length = self.number(1 << (marker - 0xD0))?;
                Value::Text(self.text(length)?)
            }
            0xD4..=0xD6 => {
                let count = self.number(1 << (marker - 0xD4))?;
                Value::List(self.list(count)?)
            }
            0xD8..=0xDA => {
                let count = self.number(1 << (marker - 0xD8))?;
                Value::Dict(self.dict(count)?)
            }
            _ => return None,
        })
    }
}
