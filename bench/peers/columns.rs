//! Columns by hand in plain Rust: the peer of the benchmark. `encode TIMES`, `read TIMES` and `decode TIMES` do that job with the
//! column of standard input, so often; `sizes` says how many bytes it takes, and the least that the format allows for its cells.
use std::collections::HashMap;
use std::hint::black_box;
use std::io::Read;
use std::process::exit;

#[path = "columns_least.rs"]
mod columns_least;

const HEADER: usize = 40;

#[derive(Clone, Copy, PartialEq)]
enum Form {
    Offset,
    Delta,
    Dictionary,
}

enum Value {
    Int(i64),
    Text(String),
}

struct Column<'a> {
    form: Form,
    width: u32,
    count: usize,
    presence: Option<&'a [u8]>,
    codes: &'a [u8],
    extra: &'a [u8],
}

fn u32_at(bytes: &[u8], at: usize) -> u32 {
    u32::from_le_bytes(bytes[at..at + 4].try_into().unwrap())
}

fn u64_at(bytes: &[u8], at: usize) -> u64 {
    u64::from_le_bytes(bytes[at..at + 8].try_into().unwrap())
}

fn i64_at(bytes: &[u8], at: usize) -> i64 {
    u64_at(bytes, at) as i64
}

fn greatest(width: u32) -> u64 {
    if width == 64 {
        u64::MAX
    } else {
        (1 << width) - 1
    }
}

fn width_of(codes: &[u64]) -> u32 {
    64 - codes.iter().fold(0, |ones, code| ones | code).leading_zeros()
}

/// The code that begins at a bit: eight bytes, and the one behind them where the code ends in it.
fn code_at(bytes: &[u8], from: usize, width: u32) -> u64 {
    let (at, skipped) = (from / 8, (from % 8) as u32);
    let mut word = [0; 8];
    let near = &bytes[at..bytes.len().min(at + 8)];
    word[..near.len()].copy_from_slice(near);
    let mut code = u64::from_le_bytes(word) >> skipped;
    if skipped + width > 64 {
        code |= u64::from(bytes[at + 8]) << (64 - skipped);
    }
    code & greatest(width)
}

fn is_bits(bytes: &[u8], bits: usize) -> bool {
    bytes.len() == bits.div_ceil(8) && (bits % 8 == 0 || bytes[bytes.len() - 1] >> (bits % 8) == 0)
}

fn unzigzag(code: u64) -> i64 {
    (code >> 1) as i64 ^ -((code & 1) as i64)
}

fn zigzag(difference: i64) -> u64 {
    (difference << 1) as u64 ^ (difference >> 63) as u64
}

/// Writes codes of N bytes each.
fn fill_pieces<const N: usize>(bytes: &[u8], codes: &mut [u64]) {
    for (code, piece) in codes.iter_mut().zip(bytes.chunks_exact(N)) {
        let mut word = [0; 8];
        word[..N].copy_from_slice(piece);
        *code = u64::from_le_bytes(word);
    }
}

impl<'a> Column<'a> {
    fn is_there(&self, i: usize) -> bool {
        self.presence.is_none_or(|bits| bits[i / 8] >> (i % 8) & 1 == 1)
    }

    /// How many codes can be read by one load of eight bytes each.
    fn loads(&self) -> usize {
        match self.width as usize {
            width @ (1..=57 | 64) => self.count.saturating_sub(64_usize.div_ceil(width)),
            _ => 0,
        }
    }

    /// Writes all codes in order: one load of eight bytes for each, but for those near the end.
    fn fill(&self, codes: &mut [u64]) {
        match self.width {
            8 => fill_pieces::<1>(self.codes, codes),
            16 => fill_pieces::<2>(self.codes, codes),
            32 => fill_pieces::<4>(self.codes, codes),
            64 => fill_pieces::<8>(self.codes, codes),
            _ => self.fill_bits(codes),
        }
    }

    fn fill_bits(&self, codes: &mut [u64]) {
        let (width, mask) = (self.width as usize, greatest(self.width));
        let loads = self.loads();
        let (front, rest) = codes.split_at_mut(loads);
        for (i, code) in front.iter_mut().enumerate() {
            let from = i * width;
            *code = u64_at(self.codes, from / 8) >> (from % 8) & mask;
        }
        for (i, code) in rest.iter_mut().enumerate() {
            *code = code_at(self.codes, (loads + i) * width, self.width);
        }
    }

    fn fill_present(&self, present: &mut [bool]) {
        match self.presence {
            None => present.fill(true),
            Some(bits) => {
                present.iter_mut().enumerate().for_each(|(i, there)| *there = bits[i / 8] >> (i % 8) & 1 == 1)
            }
        }
    }

    fn integers(&self, codes: &mut [u64], present: &mut [bool], values: &mut [i64]) {
        self.fill(codes);
        self.fill_present(present);
        if self.form == Form::Offset {
            let base = i64_at(self.extra, 0);
            values.iter_mut().zip(codes).for_each(|(value, code)| *value = base.wrapping_add(*code as i64));
            return;
        }
        for ((values, codes), anchor) in values.chunks_mut(64).zip(codes.chunks(64)).zip(self.extra.chunks_exact(8)) {
            let mut last = i64_at(anchor, 0);
            values[0] = last;
            for (value, code) in values[1..].iter_mut().zip(&codes[1..]) {
                last = last.wrapping_add(unzigzag(*code));
                *value = last;
            }
        }
    }

    fn texts(&self, codes: &mut [u64], present: &mut [bool]) {
        self.fill(codes);
        self.fill_present(present);
    }

    fn text(&self, code: usize) -> &'a str {
        let count = u32_at(self.extra, 0) as usize;
        let from = if code == 0 { 0 } else { u32_at(self.extra, 4 * code) as usize };
        let to = u32_at(self.extra, 4 * code + 4) as usize;
        std::str::from_utf8(&self.extra[4 + 4 * count..][from..to]).unwrap()
    }

    fn cells(&self) -> Vec<Option<Value>> {
        let (mut codes, mut present, mut values) = (vec![0; self.count], vec![false; self.count], vec![0; self.count]);
        if self.form != Form::Dictionary {
            self.integers(&mut codes, &mut present, &mut values);
            return (0..self.count).map(|i| present[i].then(|| Value::Int(values[i]))).collect();
        }
        self.texts(&mut codes, &mut present);
        (0..self.count).map(|i| present[i].then(|| Value::Text(self.text(codes[i] as usize).to_string()))).collect()
    }

    fn are_codes(&self, is_code: impl Fn(u64) -> bool) -> bool {
        if is_code(0) && is_code(greatest(self.width)) {
            return true;
        }
        let (width, loads) = (self.width as usize, self.loads());
        let mask = greatest(self.width);
        let load = |i| u64_at(self.codes, i * width / 8) >> (i * width % 8) & mask;
        (0..loads).all(|i| !self.is_there(i) || is_code(load(i)))
            && (loads..self.count).all(|i| !self.is_there(i) || is_code(code_at(self.codes, i * width, self.width)))
    }

    fn has_codes(&self) -> bool {
        match self.form {
            Form::Delta => self.extra.len() == 8 * self.count.div_ceil(64),
            Form::Offset => {
                self.extra.len() == 8 && {
                    let base = i64_at(self.extra, 0);
                    self.are_codes(|code| base.checked_add_unsigned(code).is_some())
                }
            }
            Form::Dictionary => {
                is_dictionary(self.extra) && {
                    let count = u64::from(u32_at(self.extra, 0));
                    self.are_codes(|code| code < count)
                }
            }
        }
    }
}

fn is_dictionary(extra: &[u8]) -> bool {
    if extra.len() < 4 {
        return false;
    }
    let count = u32_at(extra, 0) as usize;
    let Some(texts) = extra.get(4 + 4 * count..) else { return false };
    let mut from = 0;
    for k in 0..count {
        let to = u32_at(extra, 4 + 4 * k) as usize;
        if !texts.get(from..to).is_some_and(|text| text.len() <= 65535 && std::str::from_utf8(text).is_ok()) {
            return false;
        }
        from = to;
    }
    from == texts.len()
}

/// The column that the bytes are, or None where they break a rule of the format.
fn read(bytes: &[u8]) -> Option<Column<'_>> {
    let header = bytes.get(..HEADER)?;
    let form = match header[..2] {
        [1, 1] => Form::Offset,
        [1, 2] => Form::Delta,
        [2, 1] => Form::Dictionary,
        _ => return None,
    };
    let (width, count) = (u32::from(header[2]), u32_at(header, 4) as usize);
    let [presence_at, codes_at, extra_at, whole] = [8, 16, 24, 32].map(|at| u64_at(header, at) as usize);
    let is_good = width <= 64 && header[3] <= 1 && (1..=65536).contains(&count) && presence_at == HEADER;
    if !is_good || codes_at < HEADER || extra_at < codes_at || bytes.len() < extra_at || bytes.len() != whole {
        return None;
    }
    let presence = (header[3] == 1).then_some(&bytes[HEADER..codes_at]);
    let codes = &bytes[codes_at..extra_at];
    if !presence.map_or(codes_at == HEADER, |bits| is_bits(bits, count)) || !is_bits(codes, count * width as usize) {
        return None;
    }
    let column = Column { form, width, count, presence, codes, extra: &bytes[extra_at..] };
    column.has_codes().then_some(column)
}

fn pack(codes: impl ExactSizeIterator<Item = u64>, width: u32, out: &mut Vec<u8>) {
    let whole = out.len() + (codes.len() * width as usize).div_ceil(8);
    let (mut waiting, mut count) = (0u128, 0);
    for code in codes {
        waiting |= u128::from(code) << count;
        count += width;
        if count >= 64 {
            out.extend_from_slice(&(waiting as u64).to_le_bytes());
            waiting >>= 64;
            count -= 64;
        }
    }
    out.extend_from_slice(&(waiting as u64).to_le_bytes());
    out.truncate(whole);
}

fn write(form: Form, cells: &[Option<Value>], codes: &[u64], extra: &[u8]) -> Vec<u8> {
    let all_there = cells.iter().all(Option::is_some);
    let width = width_of(codes);
    let codes_at = HEADER + if all_there { 0 } else { cells.len().div_ceil(8) };
    let extra_at = codes_at + (codes.len() * width as usize).div_ceil(8);
    let whole = extra_at + extra.len();
    let (kind, form) = match form {
        Form::Offset => (1, 1),
        Form::Delta => (1, 2),
        Form::Dictionary => (2, 1),
    };
    let mut out = Vec::with_capacity(whole + 8);
    out.extend_from_slice(&[kind, form, width as u8, u8::from(!all_there)]);
    out.extend_from_slice(&(cells.len() as u32).to_le_bytes());
    for place in [HEADER, codes_at, extra_at, whole] {
        out.extend_from_slice(&(place as u64).to_le_bytes());
    }
    if !all_there {
        pack(cells.iter().map(|cell| u64::from(cell.is_some())), 1, &mut out);
    }
    pack(codes.iter().copied(), width, &mut out);
    out.extend_from_slice(extra);
    out
}

fn encode_integers(cells: &[Option<Value>]) -> Vec<u8> {
    let first = cells.iter().flatten().next();
    let mut last = if let Some(Value::Int(first)) = first { *first } else { 0 };
    let mut integers = Vec::with_capacity(cells.len());
    for cell in cells {
        if let Some(Value::Int(integer)) = cell {
            last = *integer;
        }
        integers.push(last);
    }
    let base = *integers.iter().min().unwrap();
    let offsets: Vec<u64> = integers.iter().map(|integer| integer.wrapping_sub(base) as u64).collect();
    let anchors: Vec<u8> = integers.iter().step_by(64).flat_map(|integer| integer.to_le_bytes()).collect();
    let code = |i: usize| if i % 64 == 0 { 0 } else { zigzag(integers[i].wrapping_sub(integers[i - 1])) };
    let deltas: Vec<u64> = (0..integers.len()).map(code).collect();
    let size = |codes: &[u64], extra: usize| (codes.len() * width_of(codes) as usize).div_ceil(8) + extra;
    if size(&deltas, anchors.len()) < size(&offsets, 8) {
        write(Form::Delta, cells, &deltas, &anchors)
    } else {
        write(Form::Offset, cells, &offsets, &base.to_le_bytes())
    }
}

fn encode_texts(cells: &[Option<Value>]) -> Vec<u8> {
    let (mut numbers, mut texts) = (HashMap::new(), Vec::new());
    let mut last = 0;
    let mut codes = Vec::with_capacity(cells.len());
    for cell in cells {
        if let Some(Value::Text(text)) = cell {
            last = *numbers.entry(text.as_str()).or_insert_with(|| {
                texts.push(text.as_str());
                texts.len() as u64 - 1
            });
        }
        codes.push(last);
    }
    let mut extra = Vec::new();
    extra.extend_from_slice(&(texts.len() as u32).to_le_bytes());
    let mut end = 0;
    for text in &texts {
        end += text.len();
        extra.extend_from_slice(&(end as u32).to_le_bytes());
    }
    texts.iter().for_each(|text| extra.extend_from_slice(text.as_bytes()));
    write(Form::Dictionary, cells, &codes, &extra)
}

fn encode(form: Form, cells: &[Option<Value>]) -> Vec<u8> {
    if form == Form::Dictionary {
        encode_texts(cells)
    } else {
        encode_integers(cells)
    }
}

fn encode_often(column: &Column, times: usize) -> usize {
    let cells = column.cells();
    (0..times).map(|_| black_box(encode(column.form, black_box(&cells))).len()).sum()
}

fn read_often(bytes: &[u8], times: usize) -> usize {
    (0..times).filter_map(|_| black_box(read(black_box(bytes))).map(|column| column.count)).sum()
}

fn decode_often(column: &Column, times: usize) -> u64 {
    let (mut codes, mut present, mut values) =
        (vec![0; column.count], vec![false; column.count], vec![0; column.count]);
    let mut sum = 0u64;
    for time in 0..times {
        let i = time % column.count;
        if column.form == Form::Dictionary {
            column.texts(&mut codes, &mut present);
            sum = sum.wrapping_add(black_box(&codes)[i]);
        } else {
            column.integers(&mut codes, &mut present, &mut values);
            sum = sum.wrapping_add(black_box(&values)[i] as u64);
        }
        sum = sum.wrapping_add(u64::from(black_box(&present)[i]));
    }
    sum
}

fn print_sizes(column: &Column, bytes: &[u8]) {
    let cells = column.cells();
    if encode(column.form, &cells) != bytes {
        eprintln!("columns: these cells are encoded otherwise");
        exit(3);
    }
    println!("{} {}", bytes.len(), columns_least::least(column.form, &cells));
}

fn main() {
    let words: Vec<String> = std::env::args().skip(1).collect();
    let mut bytes = Vec::new();
    if std::io::stdin().read_to_end(&mut bytes).is_err() {
        exit(4);
    }
    let Some(column) = read(&bytes) else { exit(3) };
    let words: Vec<&str> = words.iter().map(String::as_str).collect();
    let times = || words.get(1).and_then(|word| word.parse().ok()).unwrap_or_else(|| exit(2));
    match words[..] {
        ["sizes"] => print_sizes(&column, &bytes),
        ["encode", _] => println!("{}", encode_often(&column, times())),
        ["read", _] => println!("{}", read_often(&bytes, times())),
        ["decode", _] => println!("{}", decode_often(&column, times())),
        _ => exit(2),
    }
}
