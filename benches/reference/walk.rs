//! Values that are checked where they lie, and lent.
use super::codec::{FEW_KEYS, Value, decode};
use super::cursor::{Bad, Cursor};
use std::collections::HashSet;

/// A walk over values, which keeps whether it came by a structure.
pub struct Walk<'a> {
    pub cursor: Cursor<'a>,
    pub has_structures: bool,
}

impl<'a> Walk<'a> {
    #[inline]
    pub fn over(bytes: &'a [u8]) -> Walk<'a> { Walk { cursor: Cursor { left: bytes }, has_structures: false } }

    /// Checks a value, and shows the bytes that spell it.
    #[inline]
    fn spelled(&mut self, depth: usize) -> Result<&'a [u8], Bad> {
        let from = self.cursor.left;
        self.skip(depth)?;
        Ok(&from[..from.len() - self.cursor.left.len()])
    }

    /// Checks so many entries of a dictionary, and shows each with its value as the bytes that spell it.
    #[inline]
    pub fn entries(&mut self, count: usize, depth: usize, mut see: impl FnMut(&'a str, &'a [u8])) -> Result<(), Bad> {
        if count > FEW_KEYS { return self.many_entries(count, depth, &mut see); }
        let mut seen = [""; FEW_KEYS];
        for place in 0..count {
            let key = self.cursor.text()?;
            if seen[..place].contains(&key) { return Err(Bad); }
            seen[place] = key;
            see(key, self.spelled(depth)?);
        }
        Ok(())
    }

    fn many_entries(&mut self, count: usize, depth: usize, see: &mut dyn FnMut(&'a str, &'a [u8])) -> Result<(), Bad> {
        let mut seen = HashSet::with_capacity(count.min(self.cursor.left.len() / 2));
        for _ in 0..count {
            let key = self.cursor.text()?;
            if !seen.insert(key) { return Err(Bad); }
            see(key, self.spelled(depth)?);
        }
        Ok(())
    }

    fn members(&mut self, count: usize, depth: usize) -> Result<(), Bad> {
        let inner = depth.checked_sub(1).ok_or(Bad)?;
        for _ in 0..count {
            if let [0x00..=0x7F, left @ ..] = self.cursor.left { self.cursor.left = left } else { self.skip(inner)? }
        }
        Ok(())
    }

    fn dict(&mut self, count: usize, depth: usize) -> Result<(), Bad> {
        let inner = depth.checked_sub(1).ok_or(Bad)?;
        self.entries(count, inner, |_, _| {})
    }

    /// Checks one value, inside of which so many containers may be around each other.
    pub fn skip(&mut self, depth: usize) -> Result<(), Bad> {
        let marker = self.cursor.byte()?;
        match marker {
            0x00..=0x7F | 0xF0..=0xFF | 0xC0 | 0xC2 | 0xC3 => Ok(()),
            0xC8..=0xCB => self.cursor.take(1 << (marker - 0xC8)).map(drop),
            0xC1 => self.cursor.take(8).map(drop),
            0xCC..=0xCE => {
                let length = self.cursor.size(marker - 0xCC)?;
                self.cursor.take(length).map(drop)
            }
            0x80..=0x8F | 0xD0..=0xD2 => self.cursor.text_of(marker).map(drop),
            0x90..=0x9F => self.members((marker & 15) as usize, depth),
            0xD4..=0xD6 => {
                let count = self.cursor.size(marker - 0xD4)?;
                self.members(count, depth)
            }
            0xA0..=0xAF => self.dict((marker & 15) as usize, depth),
            0xD8..=0xDA => {
                let count = self.cursor.size(marker - 0xD8)?;
                self.dict(count, depth)
            }
            0xB0..=0xBF => {
                self.cursor.byte()?;
                self.has_structures = true;
                self.members((marker & 15) as usize, depth)
            }
            _ => Err(Bad),
        }
    }
}

/// A value that lies in bytes which were checked; of containers no more than their kind is told, and the count of a list.
#[derive(Debug, Clone, Copy, PartialEq)]
pub enum Lent<'a> {
    Int(i64),
    Text(&'a str),
    Bytes(&'a [u8]),
    List(usize),
    Other,
}

/// The value at the front of bytes that were checked.
#[inline]
pub fn lent(bytes: &[u8]) -> Lent<'_> { seen(Cursor { left: bytes }).unwrap_or(Lent::Other) }

#[inline]
fn seen(mut cursor: Cursor) -> Result<Lent, Bad> {
    let marker = cursor.byte()?;
    Ok(match marker {
        0x00..=0x7F | 0xF0..=0xFF => Lent::Int(marker as i8 as i64),
        0xC8 => Lent::Int(cursor.byte()? as i8 as i64),
        0xC9 => Lent::Int(i16::from_be_bytes(cursor.array()?) as i64),
        0xCA => Lent::Int(i32::from_be_bytes(cursor.array()?) as i64),
        0xCB => Lent::Int(i64::from_be_bytes(cursor.array()?)),
        0xCC..=0xCE => {
            let length = cursor.size(marker - 0xCC)?;
            Lent::Bytes(cursor.take(length)?)
        }
        0x80..=0x8F | 0xD0..=0xD2 => Lent::Text(cursor.text_of(marker)?),
        0x90..=0x9F => Lent::List((marker & 15) as usize),
        0xD4..=0xD6 => Lent::List(cursor.size(marker - 0xD4)?),
        _ => Lent::Other,
    })
}

/// The value of bytes that were checked, as the caller's own.
#[inline]
pub fn owned(bytes: &[u8]) -> Value {
    match lent(bytes) {
        Lent::Int(number) => Value::Int(number),
        Lent::Text(text) => Value::Text(text.to_owned()),
        Lent::Bytes(bytes) => Value::Bytes(bytes.to_vec()),
        _ => decode(bytes).unwrap_or(Value::Null),
    }
}
