// The grouped query of bench/queries in plain Rust, over rows that were read once: `cells` over rows of named cells, as scuba has
// them, and `fields` over rows of fixed fields, as a program for this one question would have them.
use std::collections::HashMap;
use std::io::Read;

enum Value {
    Int(i64),
    Text(String),
}

struct CellRow {
    time: i64,
    cells: Vec<(String, Value)>,
}

impl CellRow {
    fn int(&self, name: &str) -> Option<i64> {
        match self.cells.iter().find(|cell| cell.0 == name)?.1 {
            Value::Int(n) => Some(n),
            Value::Text(_) => None,
        }
    }

    fn text(&self, name: &str) -> Option<&str> {
        match &self.cells.iter().find(|cell| cell.0 == name)?.1 {
            Value::Text(text) => Some(text),
            Value::Int(_) => None,
        }
    }
}

struct FieldRow {
    time: i64,
    host: String,
    code: i64,
    ms: i64,
}

fn put<'a>(groups: &mut HashMap<&'a str, (u64, i128)>, host: &'a str, ms: i64) {
    let group = groups.entry(host).or_insert((0, 0));
    group.0 += 1;
    group.1 += i128::from(ms);
}

fn lines(groups: HashMap<&str, (u64, i128)>) -> Vec<String> {
    let mut all: Vec<_> = groups.into_iter().collect();
    all.sort_by(|a, b| b.1 .0.cmp(&a.1 .0).then(a.0.cmp(b.0)));
    all.iter().take(10).map(|(host, (count, sum))| format!("{host} {count} {sum}")).collect()
}

fn ask_cells(rows: &[CellRow]) -> Vec<String> {
    let mut groups = HashMap::new();
    for row in rows {
        if (0..=1_000_000).contains(&row.time) && row.int("code").is_some_and(|code| code >= 100) {
            if let (Some(host), Some(ms)) = (row.text("host"), row.int("ms")) {
                put(&mut groups, host, ms);
            }
        }
    }
    lines(groups)
}

fn ask_fields(rows: &[FieldRow]) -> Vec<String> {
    let mut groups = HashMap::new();
    for row in rows {
        if (0..=1_000_000).contains(&row.time) && row.code >= 100 {
            put(&mut groups, &row.host, row.ms);
        }
    }
    lines(groups)
}

fn main() {
    let words: Vec<String> = std::env::args().collect();
    let times: usize = words[2].parse().expect("a number of queries");
    let mut text = String::new();
    std::io::stdin().read_to_string(&mut text).expect("rows");
    let fields: Vec<FieldRow> = text
        .lines()
        .map(|line| {
            let parts: Vec<&str> = line.split(',').collect();
            let number = |i: usize| parts[i].parse().expect("a number");
            FieldRow { time: number(0), host: parts[1].to_string(), code: number(2), ms: number(3) }
        })
        .collect();
    let cells: Vec<CellRow> = fields
        .iter()
        .map(|row| CellRow {
            time: row.time,
            cells: vec![
                ("code".to_string(), Value::Int(row.code)),
                ("host".to_string(), Value::Text(row.host.clone())),
                ("ms".to_string(), Value::Int(row.ms)),
            ],
        })
        .collect();
    let mut answer = Vec::new();
    for _ in 0..times {
        answer = match words[1].as_str() {
            "cells" => ask_cells(std::hint::black_box(&cells)),
            _ => ask_fields(std::hint::black_box(&fields)),
        };
    }
    println!("{}", answer.join("\n"));
}
