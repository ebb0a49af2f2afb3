//! Counts rows of the plainest form by one loop over their bytes, by so many threads: what counting costs at the least. A row has no blank, no escape, no byte past 127,
//! no null and no number of more than 18 digits; anything else ends it with status 3.
use std::io::Read;
use std::process::exit;

/// The integer that begins at that place, and where it ends.
fn integer(bytes: &[u8], mut at: usize) -> Option<(i64, usize)> {
    let negative = bytes.get(at) == Some(&b'-');
    if negative {
        at += 1;
    }
    let first = at;
    let mut value = 0i64;
    while at < bytes.len() && bytes[at].is_ascii_digit() && at - first < 19 {
        value = value * 10 + i64::from(bytes[at] - b'0');
        at += 1;
    }
    let digits = at - first;
    if digits == 0 || digits > 18 || (bytes[first] == b'0' && (digits > 1 || negative)) {
        return None;
    }
    Some((if negative { -value } else { value }, at))
}

/// Where the text that begins at that place has its second quote.
fn text_end(bytes: &[u8], at: usize) -> Option<usize> {
    if bytes.get(at) != Some(&b'"') {
        return None;
    }
    let mut end = at + 1;
    while end < bytes.len() {
        match bytes[end] {
            b'"' => return Some(end),
            b'\\' | 0..=31 | 128..=255 => return None,
            _ => end += 1,
        }
    }
    None
}

/// The time of a row.
fn time(row: &[u8]) -> Option<i64> {
    if row.first() != Some(&b'{') {
        return None;
    }
    let mut time = None;
    let mut at = 1;
    loop {
        let end = text_end(row, at)?;
        let name = &row[at + 1..end];
        if name.is_empty() || name.len() > 255 || row.get(end + 1) != Some(&b':') {
            return None;
        }
        at = end + 2;
        if row.get(at) == Some(&b'"') {
            let end = text_end(row, at)?;
            if name == b"time" || end - at > 65_536 {
                return None;
            }
            at = end + 1;
        } else {
            let (value, end) = integer(row, at)?;
            if name == b"time" {
                if value < 0 {
                    return None;
                }
                time = Some(value);
            }
            at = end;
        }
        match row.get(at) {
            Some(b',') => at += 1,
            Some(b'}') if at + 1 == row.len() => return time,
            _ => return None,
        }
    }
}

/// How many rows of a part have their time in the range.
fn count(part: &[u8], from: i64, to: i64) -> Option<u64> {
    let mut rows = 0;
    for row in part.split(|byte| *byte == b'\n') {
        if !row.is_empty() {
            let time = time(row)?;
            rows += u64::from(from <= time && time <= to);
        }
    }
    Some(rows)
}

fn main() {
    let words: Vec<i64> = std::env::args().skip(1).filter_map(|word| word.parse().ok()).collect();
    let [from, to, threads] = words[..] else {
        eprintln!("count_loop: the words are the first and the last time, and how many threads");
        exit(2)
    };
    let mut text = Vec::new();
    if std::io::stdin().read_to_end(&mut text).is_err() {
        exit(4)
    }
    let mut parts = Vec::new();
    let mut rest = &text[..];
    for left in (1..=threads.max(1) as usize).rev() {
        let middle = rest.len() / left;
        let end = if left == 1 { rest.len() } else { rest[middle..].iter().position(|byte| *byte == b'\n').map_or(rest.len(), |at| middle + at + 1) };
        let (part, behind) = rest.split_at(end);
        parts.push(part);
        rest = behind;
    }
    let counts: Vec<Option<u64>> = std::thread::scope(|scope| {
        let others: Vec<_> = parts[1..].iter().map(|part| scope.spawn(move || count(part, from, to))).collect();
        let first = count(parts[0], from, to);
        std::iter::once(first).chain(others.into_iter().map(|other| other.join().unwrap_or(None))).collect()
    });
    match counts.into_iter().sum::<Option<u64>>() {
        Some(rows) => println!("count {rows}"),
        None => exit(3),
    }
}
