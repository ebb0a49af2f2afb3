//! Reads a log of adds and keeps its rows in memory, by hand in plain Rust: the peer of a start from the log. Each byte is looked at, and each name and text is tested for
//! UTF-8; rows are kept as they come, a list of cells each, and nothing is sealed.
use std::process::exit;

#[allow(dead_code)]
enum Value {
    Int(i64),
    Text(String),
    Set(Vec<String>),
}

#[allow(dead_code)]
struct Row {
    time: i64,
    cells: Vec<(String, Value)>,
}

struct Reader<'a> {
    rest: &'a [u8],
}

impl<'a> Reader<'a> {
    fn take(&mut self, count: usize) -> Option<&'a [u8]> {
        let (front, rest) = (self.rest.get(..count)?, self.rest.get(count..)?);
        self.rest = rest;
        Some(front)
    }

    fn number<const N: usize>(&mut self) -> Option<u64> {
        let mut bytes = [0; 8];
        bytes[..N].copy_from_slice(self.take(N)?);
        Some(u64::from_le_bytes(bytes))
    }

    fn text<const N: usize>(&mut self) -> Option<String> {
        let length = self.number::<N>()? as usize;
        std::str::from_utf8(self.take(length)?).ok().map(String::from)
    }

    fn set(&mut self) -> Option<Vec<String>> {
        let count = self.number::<2>()? as usize;
        let mut texts: Vec<String> = Vec::with_capacity(count.min(self.rest.len() / 2));
        for _ in 0..count {
            let text = self.text::<2>()?;
            if texts.last().is_some_and(|before| *before >= text) {
                return None;
            }
            texts.push(text);
        }
        (count <= 1024 && texts.iter().map(String::len).sum::<usize>() <= 65535).then_some(texts)
    }

    fn row(&mut self, kind: u64) -> Option<Row> {
        let time = i64::try_from(self.number::<8>()?).ok()?;
        let count = self.number::<2>()? as usize;
        let mut cells: Vec<(String, Value)> = Vec::with_capacity(count.min(self.rest.len() / 4));
        for _ in 0..count {
            let name = self.text::<1>()?;
            if name.is_empty() || name == "time" || cells.last().is_some_and(|(before, _)| *before >= name) {
                return None;
            }
            let value = match self.number::<1>()? {
                1 => Value::Int(self.number::<8>()? as i64),
                2 => Value::Text(self.text::<2>()?),
                3 if kind == 2 => Value::Set(self.set()?),
                _ => return None,
            };
            cells.push((name, value));
        }
        Some(Row { time, cells })
    }
}

/// The rows of a log up to its gate that is not open.
fn rows(log: &[u8]) -> Option<Vec<Row>> {
    let mut reader = Reader { rest: log };
    let mut rows = Vec::new();
    while reader.number::<1>()? == 1 {
        let length = reader.number::<8>()? as usize;
        let mut record = Reader { rest: reader.take(length)? };
        let kind = record.number::<1>()?;
        if kind != 1 && kind != 2 {
            return None;
        }
        let _table = record.text::<1>()?;
        for _ in 0..record.number::<8>()? {
            if record.number::<1>()? != 1 {
                return None;
            }
            for _ in 0..record.number::<4>()? {
                rows.push(record.row(kind)?);
            }
        }
    }
    Some(rows)
}

fn main() {
    let Some(log) = std::env::args().nth(1).and_then(|name| std::fs::read(name).ok()) else {
        eprintln!("replay_log: the word is the name of a log");
        exit(2)
    };
    match rows(&log) {
        Some(rows) => println!("rows {}", rows.len()),
        None => exit(3),
    }
}
