//! Counts rows as `scuba mem count FROM TO` does, by hand in plain Rust: the peer of the benchmark.
//! It checks the same grammar: one JSON object a line, with a time, integers and nulls.
use std::collections::BTreeMap;
use std::io::{Read, Write};
use std::process::exit;

struct Reader<'a> {
    text: &'a [u8],
    at: usize,
}

#[derive(Clone, Copy)]
enum Value {
    Null,
    Int(i64),
    Other,
}

impl<'a> Reader<'a> {
    fn peek(&self) -> Option<u8> {
        self.text.get(self.at).copied()
    }

    fn skip_blanks(&mut self) {
        while matches!(self.peek(), Some(b' ' | b'\t' | b'\n' | b'\r')) {
            self.at += 1;
        }
    }

    fn take(&mut self, byte: u8) -> Option<()> {
        (self.peek()? == byte).then(|| self.at += 1)
    }

    fn word(&mut self, word: &[u8]) -> Option<()> {
        self.text[self.at..].starts_with(word).then(|| self.at += word.len())
    }

    fn hex(&mut self) -> Option<u32> {
        let digits = std::str::from_utf8(self.text.get(self.at..self.at + 4)?).ok()?;
        self.at += 4;
        u32::from_str_radix(digits, 16).ok()
    }

    fn string(&mut self) -> Option<String> {
        self.take(b'"')?;
        let mut out = Vec::new();
        loop {
            match self.peek()? {
                b'"' => {
                    self.at += 1;
                    return String::from_utf8(out).ok();
                }
                b'\\' => {
                    self.at += 1;
                    let escape = self.peek()?;
                    self.at += 1;
                    match escape {
                        b'"' | b'\\' | b'/' => out.push(escape),
                        b'b' => out.push(8),
                        b'f' => out.push(12),
                        b'n' => out.push(10),
                        b'r' => out.push(13),
                        b't' => out.push(9),
                        b'u' => {
                            let mut code = self.hex()?;
                            if (0xd800..0xdc00).contains(&code) {
                                self.word(b"\\u")?;
                                let low = self.hex()?;
                                if !(0xdc00..0xe000).contains(&low) {
                                    return None;
                                }
                                code = 0x10000 + ((code - 0xd800) << 10) + (low - 0xdc00);
                            }
                            let letter = char::from_u32(code)?;
                            out.extend_from_slice(letter.encode_utf8(&mut [0; 4]).as_bytes());
                        }
                        _ => return None,
                    }
                }
                0..=31 => return None,
                byte => {
                    out.push(byte);
                    self.at += 1;
                }
            }
        }
    }

    fn digits(&mut self) -> Option<()> {
        let from = self.at;
        while self.peek().is_some_and(|byte| byte.is_ascii_digit()) {
            self.at += 1;
        }
        (self.at > from).then_some(())
    }

    fn number(&mut self) -> Option<Value> {
        let from = self.at;
        if self.peek()? == b'-' {
            self.at += 1;
        }
        if self.peek()? == b'0' {
            self.at += 1;
        } else {
            self.digits()?;
        }
        let mut whole = true;
        if self.peek() == Some(b'.') {
            self.at += 1;
            self.digits()?;
            whole = false;
        }
        if matches!(self.peek(), Some(b'e' | b'E')) {
            self.at += 1;
            if matches!(self.peek(), Some(b'+' | b'-')) {
                self.at += 1;
            }
            self.digits()?;
            whole = false;
        }
        let text = std::str::from_utf8(&self.text[from..self.at]).ok()?;
        Some(match text.parse() {
            Ok(number) if whole && text != "-0" => Value::Int(number),
            _ => Value::Other,
        })
    }

    fn value(&mut self, depth: u32) -> Option<Value> {
        self.skip_blanks();
        let value = match self.peek()? {
            b'n' => self.word(b"null").map(|()| Value::Null)?,
            b't' => self.word(b"true").map(|()| Value::Other)?,
            b'f' => self.word(b"false").map(|()| Value::Other)?,
            b'"' => self.string().map(|_| Value::Other)?,
            b'[' | b'{' if depth == 0 => return None,
            b'[' => {
                self.at += 1;
                self.skip_blanks();
                if self.take(b']').is_none() {
                    loop {
                        self.value(depth - 1)?;
                        self.skip_blanks();
                        if self.take(b',').is_none() {
                            self.take(b']')?;
                            break;
                        }
                    }
                }
                Value::Other
            }
            b'{' => self.object(depth).map(|_| Value::Other)?,
            _ => self.number()?,
        };
        Some(value)
    }

    fn object(&mut self, depth: u32) -> Option<BTreeMap<String, Value>> {
        let mut members = BTreeMap::new();
        self.take(b'{')?;
        self.skip_blanks();
        if self.take(b'}').is_some() {
            return Some(members);
        }
        loop {
            self.skip_blanks();
            let name = self.string()?;
            self.skip_blanks();
            self.take(b':')?;
            let value = self.value(depth - 1)?;
            members.insert(name, value);
            self.skip_blanks();
            if self.take(b',').is_none() {
                self.take(b'}')?;
                return Some(members);
            }
        }
    }
}

/// The time of the row that a line is, where it is one.
fn time_of(line: &[u8]) -> Option<i64> {
    std::str::from_utf8(line).ok()?;
    let mut reader = Reader { text: line, at: 0 };
    reader.skip_blanks();
    let members = reader.object(127)?;
    reader.skip_blanks();
    if reader.at != line.len() {
        return None;
    }
    let Some(Value::Int(time @ 0..)) = members.get("time").copied() else {
        return None;
    };
    let cells = members.iter().filter(|(name, value)| *name != "time" && !matches!(value, Value::Null));
    if cells.count() > 1024 {
        return None;
    }
    let fits = |name: &String, value: &Value| (1..=255).contains(&name.len()) && !matches!(value, Value::Other);
    members.iter().all(|(name, value)| name == "time" || fits(name, value)).then_some(time)
}

fn main() {
    let words: Vec<i64> = std::env::args().skip(1).map(|word| word.parse().unwrap_or_else(|_| exit(2))).collect();
    let [from, to] = words[..] else { exit(2) };
    let mut text = Vec::new();
    if std::io::stdin().read_to_end(&mut text).is_err() {
        exit(4);
    }
    let mut count = 0u64;
    for piece in text.split(|byte| *byte == b'\n') {
        let line = piece.strip_suffix(b"\r").unwrap_or(piece);
        if line.iter().all(|byte| *byte == b' ') {
            continue;
        }
        let Some(time) = time_of(line) else { exit(3) };
        if from <= time && time <= to {
            count += 1;
        }
    }
    if writeln!(std::io::stdout(), "count {count}").is_err() {
        exit(5);
    }
}
