//! Reads rows of JSON by serde_json, and keeps them as a time and a list of cells each: the peer of a script's add.
use serde_json::{Map, Value};
use std::io::Read;
use std::process::exit;

#[allow(dead_code)]
enum Cell {
    Int(i64),
    Text(String),
}

#[allow(dead_code)]
struct Row {
    time: i64,
    cells: Vec<(String, Cell)>,
}

fn row(line: &str) -> Option<Row> {
    let members: Map<String, Value> = serde_json::from_str(line).ok()?;
    let mut time = None;
    let mut cells = Vec::with_capacity(members.len());
    for (name, value) in members {
        match value {
            Value::Number(number) if name == "time" => time = Some(number.as_i64().filter(|time| *time >= 0)?),
            Value::Number(number) => cells.push((name, Cell::Int(number.as_i64()?))),
            Value::String(text) => cells.push((name, Cell::Text(text))),
            _ => return None,
        }
    }
    Some(Row { time: time?, cells })
}

fn main() {
    let mut text = String::new();
    if std::io::stdin().read_to_string(&mut text).is_err() {
        exit(4)
    }
    match text.lines().map(row).collect::<Option<Vec<Row>>>() {
        Some(rows) => println!("rows {}", rows.len()),
        None => exit(3),
    }
}
