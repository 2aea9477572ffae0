//! Cells: values whose structures stand for a node, a date and so on, checked in place. A cell holds a date and time with an offset always as `49`, in
//! UTC seconds, and graph structures with or without element ids. `admit` makes a value of a version a cell, `lower` a cell the value of a version.
use super::chunks::Version;
use super::codec::{Dict, FEW_KEYS, Value};
use super::cursor::Bad;
use std::collections::HashSet;

#[derive(Clone, Copy)]
enum Field {
    Int,
    Float,
    Text,
    Texts,
    Ints,
    Dict,
    Nodes,
    Links,
}

impl Field {
    fn fits(self, value: &Value) -> bool {
        match (self, value) {
            (Field::Int, Value::Int(_)) | (Field::Float, Value::Float(_)) | (Field::Text, Value::Text(_)) | (Field::Dict, Value::Dict(_)) => true,
            (Field::Texts, Value::List(all)) => all.iter().all(|one| matches!(one, Value::Text(_))),
            (Field::Ints, Value::List(all)) => all.iter().all(|one| matches!(one, Value::Int(_))),
            (Field::Nodes, Value::List(all)) => all.iter().all(|one| matches!(one, Value::Struct(0x4E, _))),
            (Field::Links, Value::List(all)) => all.iter().all(|one| matches!(one, Value::Struct(0x72, _))),
            _ => false,
        }
    }
}

/// The fields of a structure, and how many element ids follow them from 5.0 on.
fn form(tag: u8) -> Option<(&'static [Field], usize)> {
    use Field::*;
    Some(match tag {
        0x4E => (&[Int, Texts, Dict], 1),
        0x52 => (&[Int, Int, Int, Text, Dict], 3),
        0x72 => (&[Int, Text, Dict], 1),
        0x50 => (&[Nodes, Links, Ints], 0),
        0x44 | 0x74 => (&[Int], 0),
        0x54 | 0x64 => (&[Int, Int], 0),
        0x46 | 0x49 => (&[Int, Int, Int], 0),
        0x66 | 0x69 => (&[Int, Int, Text], 0),
        0x45 => (&[Int, Int, Int, Int], 0),
        0x58 => (&[Int, Float, Float], 0),
        0x59 => (&[Int, Float, Float, Float], 0),
        _ => return None,
    })
}

fn int(value: &Value) -> i64 { if let Value::Int(number) = value { *number } else { 0 } }

fn in_range(tag: u8, fields: &[Value]) -> bool {
    let nanoseconds = |at: usize| (0..=999_999_999).contains(&int(&fields[at]));
    let of_day = |at: usize| (0..=86_399_999_999_999).contains(&int(&fields[at]));
    let offset = |at: usize| (-64_800..=64_800).contains(&int(&fields[at]));
    let utc = |seconds: i64| (-100_000_000_000_000_000..=100_000_000_000_000_000).contains(&seconds);
    match tag {
        0x54 => of_day(0) && offset(1),
        0x74 => of_day(0),
        0x64 | 0x66 | 0x69 => nanoseconds(1),
        0x46 => nanoseconds(1) && offset(2) && int(&fields[0]).checked_sub(int(&fields[2])).is_some_and(utc),
        0x49 => nanoseconds(1) && offset(2) && utc(int(&fields[0])),
        0x45 => nanoseconds(3),
        _ => true,
    }
}

/// Whether indices are a walk over so many nodes and links.
fn walks(nodes: usize, links: usize, indices: &[Value]) -> bool {
    let is_step = |pair: &[Value]| {
        let (link, node) = (int(&pair[0]), int(&pair[1]));
        link != 0 && link.unsigned_abs() <= links as u64 && node >= 0 && (node as u64) < nodes as u64
    };
    nodes > 0 && indices.len() % 2 == 0 && indices.chunks_exact(2).all(is_step)
}

/// Checks one structure of a version; what stands in its fields is checked by itself.
fn check(version: Version, tag: u8, fields: &[Value]) -> Result<(), Bad> {
    let (base, ids) = form(tag).ok_or(Bad)?;
    let is_legacy = matches!(tag, 0x46 | 0x66);
    let is_utc = matches!(tag, 0x49 | 0x69);
    if if version == Version::V44 { is_utc } else { is_legacy } { return Err(Bad); }
    let ids = if version == Version::V44 { 0 } else { ids };
    if fields.len() != base.len() + ids { return Err(Bad); }
    let (front, back) = fields.split_at(base.len());
    let fits = front.iter().zip(base).all(|(value, field)| field.fits(value)) && back.iter().all(|value| matches!(value, Value::Text(_)));
    if !fits || !in_range(tag, fields) { return Err(Bad); }
    match fields {
        [Value::List(nodes), Value::List(links), Value::List(indices)] if tag == 0x50 && !walks(nodes.len(), links.len(), indices) => Err(Bad),
        _ => Ok(()),
    }
}

/// Makes a value, as it was read at a version, a cell.
pub fn admit(version: Version, value: &mut Value) -> Result<(), Bad> {
    match value {
        Value::List(all) => all.iter_mut().try_for_each(|one| admit(version, one)),
        Value::Dict(entries) => entries.iter_mut().try_for_each(|(_, one)| admit(version, one)),
        Value::Struct(tag, fields) => {
            check(version, *tag, fields)?;
            if *tag == 0x46 {
                *tag = 0x49;
                fields[0] = Value::Int(int(&fields[0]) - int(&fields[2]));
            }
            fields.iter_mut().try_for_each(|one| admit(version, one))
        }
        _ => Ok(()),
    }
}

/// What becomes of the element ids of a cell that is written.
#[derive(Clone, Copy, PartialEq, Eq)]
pub enum Ids {
    /// They are dropped, or made of the ids, as the version wants them.
    Fitted,
    AsTheyAre,
}

/// Makes a cell the value that is written for it at a version, inside of which so many containers may be around each other.
pub fn lower(version: Version, ids: Ids, value: &mut Value, depth: usize) -> Result<(), Bad> {
    let inner = || depth.checked_sub(1).ok_or(Bad);
    match value {
        Value::List(all) => {
            let inner = inner()?;
            all.iter_mut().try_for_each(|one| lower(version, ids, one, inner))
        }
        Value::Dict(entries) => {
            let inner = inner()?;
            if !has_distinct_keys(entries) { return Err(Bad); }
            entries.iter_mut().try_for_each(|(_, one)| lower(version, ids, one, inner))
        }
        Value::Struct(tag, fields) => {
            let inner = inner()?;
            if ids == Ids::Fitted { fit(version, *tag, fields); }
            if *tag == 0x46 { return Err(Bad); }
            if version == Version::V44 && *tag == 0x49 { return lower_date(tag, fields); }
            check(version, *tag, fields)?;
            fields.iter_mut().try_for_each(|one| lower(version, ids, one, inner))
        }
        _ => Ok(()),
    }
}

/// Makes a date and time in UTC the one of 4.4, in the seconds of its place.
fn lower_date(tag: &mut u8, fields: &mut [Value]) -> Result<(), Bad> {
    check(Version::V51, 0x49, fields)?;
    *tag = 0x46;
    fields[0] = Value::Int(int(&fields[0]) + int(&fields[2]));
    Ok(())
}

/// Drops the element ids of a structure, or adds the texts of its ids.
fn fit(version: Version, tag: u8, fields: &mut Vec<Value>) {
    let Some((base, ids @ 1..)) = form(tag) else { return };
    if version == Version::V44 {
        fields.truncate(base.len());
    } else if fields.len() == base.len() {
        for at in 0..ids { fields.push(Value::Text(int(&fields[at]).to_string())); }
    }
}

fn has_distinct_keys(entries: &Dict) -> bool { are_distinct(entries.len(), |at| &entries[at].0) }

/// Whether so many keys differ.
pub fn are_distinct<'a>(count: usize, key: impl Fn(usize) -> &'a str) -> bool {
    if count <= FEW_KEYS { return (0..count).all(|at| (0..at).all(|before| key(before) != key(at))); }
    let mut seen = HashSet::with_capacity(count);
    (0..count).all(|at| seen.insert(key(at)))
}

/// Whether a value can be written as it is, since no structure is in it; or that it can't be written, since it is too deep or has equal keys.
pub fn is_plain(value: &Value, depth: usize) -> Result<bool, Bad> {
    match value {
        Value::List(all) => {
            let inner = depth.checked_sub(1).ok_or(Bad)?;
            all.iter().try_fold(true, |plain, one| Ok(plain & is_plain(one, inner)?))
        }
        Value::Dict(entries) => {
            let inner = depth.checked_sub(1).ok_or(Bad)?;
            if !has_distinct_keys(entries) { return Err(Bad); }
            entries.iter().try_fold(true, |plain, (_, one)| Ok(plain & is_plain(one, inner)?))
        }
        Value::Struct(..) => Ok(false),
        _ => Ok(true),
    }
}
