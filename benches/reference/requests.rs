//! Requests: written onto what waits to go, and read where they lie.
use super::chunks::{Out, Version};
use super::codec::{Dict, Value, decode, encode, put_head, put_int, put_text};
use super::cursor::Bad;
use super::machine::Kind;
use super::structures::{Ids, admit, are_distinct, is_plain, lower};
use super::walk::{Lent, Walk, lent};
use super::{CELL_DEPTH, MAX_TOKEN};
use std::ops::Range;

#[derive(Debug, Clone, Copy, PartialEq, Eq)]
pub enum Mode {
    Read,
    Write,
}

#[derive(Debug, Clone, Copy, PartialEq, Eq)]
pub enum Count {
    All,
    Of(i64),
}

#[derive(Debug, Clone, Copy)]
pub struct Login<'a> {
    pub scheme: &'a str,
    pub principal: &'a str,
    pub credentials: &'a str,
}

/// Parameters of a RUN, lent key by key or as the caller's own.
#[derive(Debug, Clone, Copy)]
pub enum Pairs<'a> {
    Lent(&'a [(&'a str, &'a Value)]),
    Owned(&'a Dict),
}

impl<'a> Pairs<'a> {
    fn len(self) -> usize {
        match self {
            Pairs::Lent(pairs) => pairs.len(),
            Pairs::Owned(pairs) => pairs.len(),
        }
    }

    #[inline]
    fn at(self, place: usize) -> (&'a str, &'a Value) {
        match self {
            Pairs::Lent(pairs) => pairs[place],
            Pairs::Owned(pairs) => (&pairs[place].0, &pairs[place].1),
        }
    }
}

/// A request that is lent to a client.
#[derive(Debug, Clone, Copy)]
pub enum Ask<'a> {
    Hello { agent: &'a str, login: Option<Login<'a>> },
    Logon(Login<'a>),
    Logoff,
    Goodbye,
    Reset,
    Run { text: &'a str, params: Pairs<'a>, mode: Mode, token: Option<&'a str> },
    Begin { mode: Mode, token: Option<&'a str> },
    Commit,
    Rollback,
    Discard(Count),
    Pull(Count),
}

/// A RUN that is the caller's own.
pub struct Run {
    pub text: String,
    pub params: Dict,
    pub mode: Mode,
    pub token: Option<String>,
}

impl Run {
    pub fn ask(&self) -> Ask<'_> { Ask::Run { text: &self.text, params: Pairs::Owned(&self.params), mode: self.mode, token: self.token.as_deref() } }
}

impl Ask<'_> {
    pub fn kind(&self) -> Kind {
        match self {
            Ask::Hello { .. } => Kind::Hello,
            Ask::Logon(_) => Kind::Logon,
            Ask::Logoff => Kind::Logoff,
            Ask::Goodbye => Kind::Goodbye,
            Ask::Reset => Kind::Reset,
            Ask::Run { .. } => Kind::Run,
            Ask::Begin { .. } => Kind::Begin,
            Ask::Commit => Kind::Commit,
            Ask::Rollback => Kind::Rollback,
            Ask::Discard(_) => Kind::Discard,
            Ask::Pull(_) => Kind::Pull,
        }
    }

    /// Whether it asks for so many rows, and not for all.
    pub fn is_counted(&self) -> bool { matches!(self, Ask::Pull(Count::Of(_)) | Ask::Discard(Count::Of(_))) }
}

/// Why a request isn't written.
#[derive(Debug, Clone, Copy, PartialEq, Eq)]
pub enum Unwritten {
    Unwritable,
    Size,
}

/// Puts a request as a message of a version.
#[inline]
pub fn put_request(version: Version, ask: Ask, out: &mut Out) -> Result<(), Unwritten> {
    if let Some(bytes) = constant(version, ask) {
        out.put(bytes);
        return Ok(());
    }
    check(version, ask)?;
    out.message(|out| put_fields(version, ask, out)).map_err(|Bad| Unwritten::Size)
}

/// The bytes of a request that are always the same, in its chunk.
#[inline]
fn constant(version: Version, ask: Ask) -> Option<&'static [u8]> {
    Some(match ask {
        Ask::Pull(Count::All) => b"\0\x06\xB1\x3F\xA1\x81n\xFF\0\0",
        Ask::Discard(Count::All) => b"\0\x06\xB1\x2F\xA1\x81n\xFF\0\0",
        Ask::Begin { mode: Mode::Write, token: None } => b"\0\x03\xB1\x11\xA0\0\0",
        Ask::Commit => b"\0\x02\xB0\x12\0\0",
        Ask::Rollback => b"\0\x02\xB0\x13\0\0",
        Ask::Reset => b"\0\x02\xB0\x0F\0\0",
        Ask::Goodbye => b"\0\x02\xB0\x02\0\0",
        Ask::Logoff if version == Version::V51 => b"\0\x02\xB0\x6B\0\0",
        _ => return None,
    })
}

/// Checks that a request can be written at a version.
#[inline]
fn check(version: Version, ask: Ask) -> Result<(), Unwritten> {
    let is_token = |token: Option<&str>| token.is_none_or(|token| (1..=MAX_TOKEN).contains(&token.len()));
    let holds = match ask {
        Ask::Hello { login, .. } => login.is_none() == (version == Version::V51),
        Ask::Logon(_) | Ask::Logoff => version == Version::V51,
        Ask::Pull(Count::Of(..1)) | Ask::Discard(Count::Of(..1)) => false,
        Ask::Begin { token, .. } => is_token(token),
        Ask::Run { params, token, .. } => is_token(token) && are_writable(version, params).is_ok(),
        _ => true,
    };
    if holds { Ok(()) } else { Err(Unwritten::Unwritable) }
}

#[inline]
fn are_writable(version: Version, params: Pairs) -> Result<(), Bad> {
    if !are_distinct(params.len(), |at| params.at(at).0) { return Err(Bad); }
    for at in 0..params.len() {
        let (_, value) = params.at(at);
        if !is_plain(value, CELL_DEPTH)? { lower(version, Ids::AsTheyAre, &mut value.clone(), CELL_DEPTH)?; }
    }
    Ok(())
}

/// Puts a value that can be written.
#[inline]
fn put_value(version: Version, value: &Value, out: &mut Vec<u8>) {
    match value {
        Value::Int(number) => put_int(out, *number),
        Value::Text(text) => put_text(out, text),
        Value::List(_) | Value::Dict(_) | Value::Struct(..) if is_plain(value, CELL_DEPTH) != Ok(true) => {
            let mut lowered = value.clone();
            if lower(version, Ids::AsTheyAre, &mut lowered, CELL_DEPTH).is_ok() { encode(&lowered, out); }
        }
        _ => encode(value, out),
    }
}

fn put_login(login: Login, out: &mut Vec<u8>) {
    for (key, text) in [("scheme", login.scheme), ("principal", login.principal), ("credentials", login.credentials)] {
        put_text(out, key);
        put_text(out, text);
    }
}

/// Puts the entries of a transaction: only the mode of reading is written.
#[inline]
fn put_transaction(mode: Mode, token: Option<&str>, out: &mut Vec<u8>) {
    out.push(0xA0 + (mode == Mode::Read) as u8 + token.is_some() as u8);
    if mode == Mode::Read { out.extend_from_slice(b"\x84mode\x81r"); }
    if let Some(token) = token {
        out.extend_from_slice(b"\x8Btx_metadata\xA1\x85token");
        put_text(out, token);
    }
}

#[inline]
fn put_fields(version: Version, ask: Ask, out: &mut Vec<u8>) {
    match ask {
        Ask::Run { text, params, mode, token } => {
            out.extend_from_slice(&[0xB3, 0x10]);
            put_text(out, text);
            put_head(out, 0xA0, 0xD8, params.len());
            for at in 0..params.len() {
                let (key, value) = params.at(at);
                put_text(out, key);
                put_value(version, value, out);
            }
            put_transaction(mode, token, out);
        }
        Ask::Begin { mode, token } => {
            out.extend_from_slice(&[0xB1, 0x11]);
            put_transaction(mode, token, out);
        }
        Ask::Hello { agent, login } => {
            out.extend_from_slice(&[0xB1, 0x01, if login.is_some() { 0xA4 } else { 0xA1 }]);
            put_text(out, "user_agent");
            put_text(out, agent);
            if let Some(login) = login { put_login(login, out); }
        }
        Ask::Logon(login) => {
            out.extend_from_slice(&[0xB1, 0x6A, 0xA3]);
            put_login(login, out);
        }
        Ask::Pull(Count::Of(count)) | Ask::Discard(Count::Of(count)) => {
            out.extend_from_slice(&[0xB1, if ask.kind() == Kind::Pull { 0x3F } else { 0x2F }]);
            out.extend_from_slice(b"\xA1\x81n");
            put_int(out, count);
        }
        _ => {}
    }
}

/// What a server needs of a request that it has read: its kind, what stands in it, where its token lies, and whether its bytes are needed later.
pub struct Asked {
    pub kind: Kind,
    pub mode: Mode,
    pub count: Count,
    pub token: Range<usize>,
    pub keeps: bool,
}

/// Reads a request of a version.
#[inline]
pub fn read_request(version: Version, message: &[u8]) -> Result<Asked, Bad> {
    let mut walk = Walk::over(message);
    let head = (walk.cursor.byte()?, walk.cursor.byte()?);
    let mut asked = Asked { kind: kind_of(version, head)?, mode: Mode::Write, count: Count::All, token: 0..0, keeps: false };
    match asked.kind {
        Kind::Run => {
            walk.cursor.text()?;
            let count = walk.cursor.dict_head()?;
            walk.entries(count, CELL_DEPTH, |_, _| {})?;
            if walk.has_structures { check_params(version, message)?; }
            read_transaction(message, &mut walk, &mut asked)?;
            asked.keeps = true;
        }
        Kind::Begin => {
            read_transaction(message, &mut walk, &mut asked)?;
            asked.keeps = !asked.token.is_empty();
        }
        Kind::Pull | Kind::Discard => asked.count = read_count(&mut walk)?,
        Kind::Hello | Kind::Logon => {
            read_login(version, asked.kind, &mut walk)?;
            asked.keeps = true;
        }
        _ => {}
    }
    if walk.cursor.left.is_empty() { Ok(asked) } else { Err(Bad) }
}

#[inline]
fn kind_of(version: Version, head: (u8, u8)) -> Result<Kind, Bad> {
    Ok(match head {
        (0xB3, 0x10) => Kind::Run,
        (0xB1, 0x3F) => Kind::Pull,
        (0xB1, 0x2F) => Kind::Discard,
        (0xB1, 0x11) => Kind::Begin,
        (0xB0, 0x12) => Kind::Commit,
        (0xB0, 0x13) => Kind::Rollback,
        (0xB0, 0x0F) => Kind::Reset,
        (0xB0, 0x02) => Kind::Goodbye,
        (0xB1, 0x01) => Kind::Hello,
        (0xB1, 0x6A) if version == Version::V51 => Kind::Logon,
        (0xB0, 0x6B) if version == Version::V51 => Kind::Logoff,
        _ => return Err(Bad),
    })
}

/// Checks that the parameters of a RUN, in which structures stand, are cells.
#[cold]
fn check_params(version: Version, message: &[u8]) -> Result<(), Bad> {
    let Value::Struct(_, mut fields) = decode(message)? else { return Err(Bad) };
    admit(version, &mut fields[1])
}

/// Where the bytes of a part lie in the whole.
fn place_in(whole: &[u8], part: &[u8]) -> Range<usize> {
    let from = part.as_ptr() as usize - whole.as_ptr() as usize;
    from..from + part.len()
}

#[inline]
fn read_transaction(message: &[u8], walk: &mut Walk, asked: &mut Asked) -> Result<(), Bad> {
    if let [0xA0, left @ ..] = walk.cursor.left {
        walk.cursor.left = left;
        return Ok(());
    }
    let count = walk.cursor.dict_head()?;
    let (mut mode, mut metadata) = (None, None);
    walk.entries(count, CELL_DEPTH, |key, value| match key {
        "mode" => mode = Some(lent(value)),
        "tx_metadata" => metadata = Some(value),
        _ => {}
    })?;
    asked.mode = match mode {
        None | Some(Lent::Text("w")) => Mode::Write,
        Some(Lent::Text("r")) => Mode::Read,
        Some(_) => return Err(Bad),
    };
    if let Some(metadata) = metadata { asked.token = read_token(message, metadata)?; }
    Ok(())
}

/// Where the token of a transaction's metadata lies; nowhere where it has none.
fn read_token(message: &[u8], metadata: &[u8]) -> Result<Range<usize>, Bad> {
    let mut walk = Walk::over(metadata);
    let count = walk.cursor.dict_head()?;
    let mut token = None;
    walk.entries(count, CELL_DEPTH, |key, value| if key == "token" { token = Some(lent(value)) })?;
    match token {
        None => Ok(0..0),
        Some(Lent::Text(text)) if (1..=MAX_TOKEN).contains(&text.len()) => Ok(place_in(message, text.as_bytes())),
        Some(_) => Err(Bad),
    }
}

#[inline]
fn read_count(walk: &mut Walk) -> Result<Count, Bad> {
    if walk.cursor.left == b"\xA1\x81n\xFF" {
        walk.cursor.left = &[];
        return Ok(Count::All);
    }
    let entries = walk.cursor.dict_head()?;
    let (mut count, mut holds) = (None, true);
    walk.entries(entries, CELL_DEPTH, |key, value| match (key, lent(value)) {
        ("n", Lent::Int(-1)) => count = Some(Count::All),
        ("n", Lent::Int(rows @ 1..)) => count = Some(Count::Of(rows)),
        ("qid", Lent::Int(-1)) => {}
        _ => holds = false,
    })?;
    if holds { count.ok_or(Bad) } else { Err(Bad) }
}

/// Reads the entries of a HELLO or LOGON, and answers its login.
pub fn read_login<'a>(version: Version, kind: Kind, walk: &mut Walk<'a>) -> Result<Login<'a>, Bad> {
    let count = walk.cursor.dict_head()?;
    let (mut agent, mut scheme, mut principal, mut credentials) = (None, None, None, None);
    walk.entries(count, CELL_DEPTH, |key, value| {
        let Lent::Text(text) = lent(value) else { return };
        match key {
            "user_agent" => agent = Some(text),
            "scheme" => scheme = Some(text),
            "principal" => principal = Some(text),
            "credentials" => credentials = Some(text),
            _ => {}
        }
    })?;
    if kind == Kind::Hello && agent.is_none() { return Err(Bad); }
    if kind == Kind::Hello && version == Version::V51 { return Ok(Login { scheme: "", principal: "", credentials: "" }); }
    Ok(Login { scheme: scheme.ok_or(Bad)?, principal: principal.ok_or(Bad)?, credentials: credentials.ok_or(Bad)? })
}
