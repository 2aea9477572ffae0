//! Responses, read where they lie and lent.
use super::CELL_DEPTH;
use super::chunks::Version;
use super::codec::{Dict, Value, decode};
use super::cursor::Bad;
use super::structures::admit;
use super::walk::{Lent, Walk, lent, owned};

/// The tag of a record.
pub const RECORD: u8 = 0x71;

/// The cells of a row: how many, and the bytes that spell them; or, where structures stand in them, the cells.
pub enum Row<'a> {
    Plain { count: usize, bytes: &'a [u8] },
    Typed(Vec<Value>),
}

impl Row<'_> {
    /// The cells as the caller's own.
    pub fn own(self) -> Vec<Value> {
        match self {
            Row::Typed(cells) => cells,
            Row::Plain { count: 1, bytes } => vec![owned(bytes)],
            Row::Plain { count, bytes } => own_cells(count, bytes),
        }
    }

    /// The first cell, where it is a number, or the length of a byte string or list.
    pub fn first(&self) -> Lent<'_> {
        match self {
            Row::Plain { bytes, .. } => lent(bytes),
            Row::Typed(_) => Lent::Other,
        }
    }
}

fn own_cells(count: usize, bytes: &[u8]) -> Vec<Value> {
    let mut walk = Walk::over(bytes);
    (0..count).map(|_| walk.cursor.value(CELL_DEPTH).unwrap_or(Value::Null)).collect()
}

pub enum Reply<'a> {
    Success { entries: usize, bytes: &'a [u8], has_more: bool },
    Ignored,
    Failure { code: &'a str, message: &'a str },
}

impl Reply<'_> {
    /// The metadata of a SUCCESS as the caller's own.
    pub fn own(&self) -> Dict {
        let Reply::Success { entries, bytes, .. } = self else { return Dict::new() };
        let mut walk = Walk::over(bytes);
        (0..*entries).map_while(|_| Some((walk.cursor.text().ok()?.to_owned(), walk.cursor.value(CELL_DEPTH).ok()?))).collect()
    }
}

/// Reads a record of a version.
#[inline]
pub fn read_record(version: Version, message: &[u8]) -> Result<Row<'_>, Bad> {
    let [0xB1, RECORD, fields @ ..] = message else { return Err(Bad) };
    let mut walk = Walk::over(fields);
    let count = walk.cursor.list_head()?;
    let bytes = walk.cursor.left;
    for _ in 0..count { walk.skip(CELL_DEPTH)?; }
    if !walk.cursor.left.is_empty() { return Err(Bad); }
    if !walk.has_structures { return Ok(Row::Plain { count, bytes }); }
    let Value::List(cells) = admitted(version, message)? else { return Err(Bad) };
    Ok(Row::Typed(cells))
}

/// Reads a response of a version that isn't a record.
#[inline]
pub fn read_reply(version: Version, message: &[u8]) -> Result<Reply<'_>, Bad> {
    let mut walk = Walk::over(message);
    let reply = match (walk.cursor.byte()?, walk.cursor.byte()?) {
        (0xB1, 0x70) => read_success(version, message, &mut walk)?,
        (0xB1, 0x7F) => read_failure(&mut walk)?,
        (0xB0, 0x7E) => Reply::Ignored,
        _ => return Err(Bad),
    };
    if walk.cursor.left.is_empty() { Ok(reply) } else { Err(Bad) }
}

/// The field of a response, in which structures stand, as cells.
#[cold]
fn admitted(version: Version, message: &[u8]) -> Result<Value, Bad> {
    let Value::Struct(_, mut fields) = decode(message)? else { return Err(Bad) };
    let mut field = fields.pop().ok_or(Bad)?;
    admit(version, &mut field)?;
    Ok(field)
}

#[inline]
fn read_success<'a>(version: Version, message: &'a [u8], walk: &mut Walk<'a>) -> Result<Reply<'a>, Bad> {
    let entries = walk.cursor.dict_head()?;
    let bytes = walk.cursor.left;
    let mut has_more = false;
    walk.entries(entries, CELL_DEPTH, |key, value| has_more |= value == [0xC3] && key == "has_more")?;
    if walk.has_structures { admitted(version, message)?; }
    Ok(Reply::Success { entries, bytes, has_more })
}

fn read_failure<'a>(walk: &mut Walk<'a>) -> Result<Reply<'a>, Bad> {
    let count = walk.cursor.dict_head()?;
    let (mut code, mut message) = (None, None);
    walk.entries(count, CELL_DEPTH, |key, value| match (key, lent(value)) {
        ("code", Lent::Text(text)) => code = Some(text),
        ("message", Lent::Text(text)) => message = Some(text),
        _ => {}
    })?;
    Ok(Reply::Failure { code: code.ok_or(Bad)?, message: message.ok_or(Bad)? })
}
