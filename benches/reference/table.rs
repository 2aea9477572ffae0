//! The fixed table: a ledger of writes, and the queries that are asked of it.
use super::chunks::Version;
use super::codec::{Dict, Value};
use super::requests::Mode;
use super::structures::admit;
use super::walk::{Lent, Walk, lent, owned};
use super::{CELL_DEPTH, MAX_ROWS};
use std::collections::{HashMap, HashSet};

#[derive(Debug, Clone, PartialEq)]
pub struct Write {
    pub key: String,
    pub value: Value,
}

#[derive(Debug, Clone, Copy, PartialEq, Eq)]
pub struct EntryId {
    pub conn: u64,
    pub ordinal: u64,
}

#[derive(Debug, Clone, PartialEq)]
pub struct Entry {
    pub id: EntryId,
    pub writes: Vec<Write>,
}

/// The parameters of a query.
pub trait Params {
    fn text(&self, key: &str) -> Option<&str>;
    fn int(&self, key: &str) -> Option<i64>;
    fn value(&self, key: &str) -> Option<Value>;
}

/// Parameters in bytes of a version that were checked.
#[derive(Clone, Copy)]
pub struct Spelled<'a> {
    pub version: Version,
    pub count: usize,
    pub bytes: &'a [u8],
}

impl<'a> Spelled<'a> {
    #[inline]
    fn get(&self, key: &str) -> Option<&'a [u8]> {
        let mut walk = Walk::over(self.bytes);
        for _ in 0..self.count {
            let name = walk.cursor.text().ok()?;
            if name == key { return Some(walk.cursor.left); }
            walk.skip(CELL_DEPTH).ok()?;
        }
        None
    }
}

impl Params for Spelled<'_> {
    #[inline]
    fn text(&self, key: &str) -> Option<&str> { if let Lent::Text(text) = lent(self.get(key)?) { Some(text) } else { None } }

    #[inline]
    fn int(&self, key: &str) -> Option<i64> { if let Lent::Int(number) = lent(self.get(key)?) { Some(number) } else { None } }

    #[inline]
    fn value(&self, key: &str) -> Option<Value> {
        let from = self.get(key)?;
        let mut walk = Walk::over(from);
        walk.skip(CELL_DEPTH).ok()?;
        let mut value = owned(&from[..from.len() - walk.cursor.left.len()]);
        // From 5.0 on a cell is spelled as it is kept.
        if self.version == Version::V44 { admit(self.version, &mut value).ok()?; }
        Some(value)
    }
}

fn named<'a>(entries: &'a Dict, key: &str) -> Option<&'a Value> { entries.iter().find(|(name, _)| name == key).map(|(_, value)| value) }

impl Params for Dict {
    fn text(&self, key: &str) -> Option<&str> { if let Value::Text(text) = named(self, key)? { Some(text) } else { None } }

    fn int(&self, key: &str) -> Option<i64> { if let Value::Int(number) = named(self, key)? { Some(*number) } else { None } }

    fn value(&self, key: &str) -> Option<Value> { named(self, key).cloned() }
}

/// The rows of a result, which are made as they are asked for.
pub enum Rows {
    One(Option<Value>),
    Ints { next: i64, last: i64 },
    Many(std::vec::IntoIter<Value>),
}

impl Rows {
    /// How many are left.
    pub fn len(&self) -> u64 {
        match self {
            Rows::One(value) => value.is_some() as u64,
            Rows::Ints { next, last } => (last + 1 - next) as u64,
            Rows::Many(all) => all.len() as u64,
        }
    }

    pub fn drop_first(&mut self, count: i64) {
        match self {
            Rows::One(value) => if count > 0 { *value = None },
            Rows::Ints { next, last } => *next = next.saturating_add(count).min(*last + 1),
            Rows::Many(all) => all.by_ref().take(count as usize).for_each(drop),
        }
    }
}

pub struct Answer {
    pub field: Option<&'static str>,
    pub rows: Rows,
    pub write: Option<Write>,
    pub mode: Mode,
}

#[derive(Debug, Clone, Copy, PartialEq, Eq)]
pub enum EngineFault {
    UnknownText,
    Parameter,
    ReadOnly,
    TooManyRows,
}

/// What became of a commit: where its entry stands, from 1, or that its token has other writes.
#[derive(Debug, Clone, Copy, PartialEq, Eq)]
pub enum Commit {
    At(u64),
    Clash,
}

/// Where a write stands in the ledger.
#[derive(Clone, Copy)]
struct Spot {
    entry: usize,
    write: usize,
}

/// The ledger is a plain list. `last` has the last write of each key, `keys` the first one, in order; `tokens` the place of each token's entry.
#[derive(Default)]
pub struct Table {
    ledger: Vec<Entry>,
    last: HashMap<String, Spot>,
    keys: Vec<Spot>,
    tokens: HashMap<String, usize>,
}

/// One path: nodes 1 (`A`) and 2 (`B`), relationship 7 `TO`.
fn path() -> Value {
    let text = |text: &str| Value::Text(text.to_string());
    let node = |id, label| Value::Struct(0x4E, vec![Value::Int(id), Value::List(vec![text(label)]), Value::Dict(vec![])]);
    let link = Value::Struct(0x72, vec![Value::Int(7), text("TO"), Value::Dict(vec![])]);
    Value::Struct(0x50, vec![Value::List(vec![node(1, "A"), node(2, "B")]), Value::List(vec![link]), Value::List(vec![Value::Int(1), Value::Int(1)])])
}

const LAST_ROW: i64 = MAX_ROWS as i64;

impl Table {
    pub fn ledger(&self) -> &[Entry] { &self.ledger }

    fn at(&self, spot: Spot) -> &Write { &self.ledger[spot.entry].writes[spot.write] }

    fn get<'a>(&'a self, own: &'a [Write], key: &str) -> Option<&'a Value> {
        let write = own.iter().rev().find(|write| write.key == key);
        write.or_else(|| self.last.get(key).map(|spot| self.at(*spot))).map(|write| &write.value)
    }

    fn keys(&self, own: &[Write]) -> Result<Rows, EngineFault> {
        let mut seen = HashSet::new();
        let own = own.iter().filter(|write| !self.last.contains_key(&write.key) && seen.insert(write.key.as_str()));
        let keys = self.keys.iter().map(|spot| self.at(*spot)).chain(own).take(MAX_ROWS + 1);
        let rows: Vec<_> = keys.map(|write| Value::Text(write.key.clone())).collect();
        if rows.len() > MAX_ROWS { Err(EngineFault::TooManyRows) } else { Ok(Rows::Many(rows.into_iter())) }
    }

    /// Answers a query, behind the writes that its transaction has made.
    #[inline]
    pub fn run(&self, own: &[Write], text: &str, params: &impl Params, mode: Mode) -> Result<Answer, EngineFault> {
        let read = |field, rows| Ok(Answer { field: Some(field), rows, write: None, mode: Mode::Read });
        let key = || params.text("key").ok_or(EngineFault::Parameter);
        let value = |name| params.value(name).ok_or(EngineFault::Parameter);
        match text {
            "ONE" => read("one", Rows::One(Some(Value::Int(1)))),
            "ROWS" => match params.int("n").ok_or(EngineFault::Parameter)? {
                last @ 0..=LAST_ROW => read("i", Rows::Ints { next: 1, last }),
                0.. => Err(EngineFault::TooManyRows),
                _ => Err(EngineFault::Parameter),
            },
            "GET" => read("value", Rows::One(self.get(own, key()?).cloned())),
            "KEYS" => read("key", self.keys(own)?),
            "PUT" if mode == Mode::Read => Err(EngineFault::ReadOnly),
            "PUT" => {
                let write = Write { key: key()?.to_owned(), value: value("value")? };
                Ok(Answer { field: None, rows: Rows::One(None), write: Some(write), mode: Mode::Write })
            }
            "ECHO" => read("x", Rows::One(Some(value("x")?))),
            "WALK" => read("p", Rows::One(Some(path()))),
            _ => Err(EngineFault::UnknownText),
        }
    }

    /// Appends one entry where no entry has its token.
    pub fn commit(&mut self, id: EntryId, token: Option<String>, writes: Vec<Write>) -> Commit {
        let entry = self.ledger.len();
        if let Some(token) = token {
            match self.tokens.get(&token) {
                Some(place) if self.ledger[*place].writes == writes => return Commit::At(*place as u64 + 1),
                Some(_) => return Commit::Clash,
                None => drop(self.tokens.insert(token, entry)),
            }
        }
        for (write, one) in writes.iter().enumerate() {
            let spot = Spot { entry, write };
            if let Some(last) = self.last.get_mut(&one.key) {
                *last = spot;
            } else {
                self.last.insert(one.key.clone(), spot);
                self.keys.push(spot);
            }
        }
        self.ledger.push(Entry { id, writes });
        Commit::At(self.ledger.len() as u64)
    }
}
