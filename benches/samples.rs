//! The trees that the codec is measured on.
use crate::twin::codec::Value;

fn text(text: &str) -> Value { Value::Text(text.to_string()) }

fn node(id: i64) -> Value {
    let properties = [
        ("name", text("Grace Brewster Hopper")),
        ("born", Value::Int(1906)),
        ("height", Value::Float(0x4004_0000_0000_0000)),
        ("active", Value::Bool(true)),
        ("note", Value::Null),
    ];
    let properties = properties.into_iter().map(|(key, value)| (key.to_string(), value)).collect();
    Value::Struct(0x4E, vec![Value::Int(id), Value::List(vec![text("Person"), text("Employee")]), Value::Dict(properties), text(&format!("4:abc:{id}"))])
}

fn record(cells: Vec<Value>) -> Value { Value::Struct(0x71, vec![Value::List(cells)]) }

fn keys(count: i64) -> Value { record(vec![Value::Dict((0..count).map(|at| (format!("k{at}"), Value::Int(at % 128))).collect())]) }

/// Each with its name.
pub fn samples() -> Vec<(&'static str, Value)> {
    let ints = (0..10_000i64).map(|at| Value::Int(at * at * 37 % 1_000_003 - 500_000)).collect();
    vec![
        ("record of one node", record(vec![node(7)])),
        ("record of 400 nodes", record((0..400).map(node).collect())),
        ("list of 10,000 ints", record(vec![Value::List(ints)])),
        ("text of 60,000 bytes", record(vec![text(&"naive text, caf\u{e9} ".repeat(3300))])),
        ("dictionary of 100 keys", keys(100)),
        ("dictionary of 9,000 keys", keys(9_000)),
    ]
}
