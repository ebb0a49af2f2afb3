// What a soak does, in plain Rust for this one job: 800,000 rows of eight leaves, drawn by PCG32 and spelled as a log spells them, taken apart into columns of 65,536 rows; two grouped
// queries over all; the columns of each leaf copied out into one buffer and back; and both queries again. One thread; numbers need no more than their own widths, and nothing is tested.
use std::collections::HashMap;

const RUN: usize = 65_536;

#[derive(Clone, Default)]
struct Block {
    times: Vec<i64>,
    hosts: Vec<u8>,
    codes: Vec<i16>,
    names: Vec<String>,
}

struct Pcg(u64);

impl Pcg {
    fn word(&mut self) -> u32 {
        let state = self.0;
        self.0 = state.wrapping_mul(6_364_136_223_846_793_005).wrapping_add(1);
        ((((state >> 18) ^ state) >> 27) as u32).rotate_right((state >> 59) as u32)
    }
}

/// A row behind the others: its time, its number of cells, and each cell's name, kind and value.
fn spell(out: &mut Vec<u8>, time: i64, host: &str, code: Option<i64>) {
    out.extend_from_slice(&time.to_le_bytes());
    out.extend_from_slice(&(1 + u16::from(code.is_some())).to_le_bytes());
    if let Some(code) = code {
        out.extend_from_slice(b"\x04code\x01");
        out.extend_from_slice(&code.to_le_bytes());
    }
    out.extend_from_slice(b"\x04host\x02");
    out.extend_from_slice(&(host.len() as u16).to_le_bytes());
    out.extend_from_slice(host.as_bytes());
}

/// The columns of so many rows, and what is left.
fn seal(mut rest: &[u8], count: usize) -> (Block, &[u8]) {
    let mut block = Block::default();
    let mut places: HashMap<&[u8], u8> = HashMap::new();
    for _ in 0..count {
        block.times.push(i64::from_le_bytes(rest[..8].try_into().expect("a time")));
        let cells = rest[8];
        rest = &rest[10..];
        let mut code = -1;
        if cells == 2 {
            code = i64::from_le_bytes(rest[6..14].try_into().expect("a code")) as i16;
            rest = &rest[14..];
        }
        block.codes.push(code);
        let length = usize::from(rest[6]);
        let host = &rest[8..8 + length];
        rest = &rest[8 + length..];
        let place = *places.entry(host).or_insert_with(|| {
            block.names.push(String::from_utf8(host.to_vec()).expect("a text"));
            block.names.len() as u8 - 1
        });
        block.hosts.push(place);
    }
    (block, rest)
}

fn count(blocks: &[Block], from: i64, to: i64) -> String {
    let times = || blocks.iter().flat_map(|block| &block.times).filter(|time| (from..=to).contains(*time));
    format!("{} {:?} {:?}", times().count(), times().min(), times().max())
}

fn top(blocks: &[Block], from: i64, to: i64) -> String {
    let mut groups: HashMap<&str, (u64, i64)> = HashMap::new();
    for block in blocks {
        let mut slots = vec![(0u64, 0i64); block.names.len()];
        for ((time, host), code) in block.times.iter().zip(&block.hosts).zip(&block.codes) {
            if (from..=to).contains(time) {
                let slot = &mut slots[usize::from(*host)];
                slot.0 += 1;
                slot.1 += i64::from((*code).max(0));
            }
        }
        for (name, slot) in block.names.iter().zip(slots) {
            let group = groups.entry(name).or_default();
            group.0 += slot.0;
            group.1 += slot.1;
        }
    }
    let mut all: Vec<_> = groups.into_iter().collect();
    all.sort_by(|a, b| b.1 .0.cmp(&a.1 .0).then(a.0.cmp(b.0)));
    format!("{:?}", &all[..5])
}

fn put<const N: usize, T: Copy>(out: &mut Vec<u8>, list: &[T], bytes: impl Fn(T) -> [u8; N]) {
    list.iter().for_each(|value| out.extend_from_slice(&bytes(*value)));
}

/// A block behind the others in a region, and the block that is there.
fn moved(region: &mut Vec<u8>, block: Block) -> Block {
    let (from, rows) = (region.len(), block.times.len());
    put(region, &block.times, i64::to_le_bytes);
    put(region, &block.codes, i16::to_le_bytes);
    region.extend_from_slice(&block.hosts);
    let names = block.names;
    let bytes = &region[from..];
    Block {
        times: bytes[..8 * rows].chunks_exact(8).map(|it| i64::from_le_bytes(it.try_into().expect("8 bytes"))).collect(),
        codes: bytes[8 * rows..10 * rows].chunks_exact(2).map(|it| i16::from_le_bytes(it.try_into().expect("2 bytes"))).collect(),
        hosts: bytes[10 * rows..].to_vec(),
        names,
    }
}

fn main() {
    let words: Vec<u64> = std::env::args().skip(1).filter_map(|word| word.parse().ok()).collect();
    let (seed, rows) = (words[0], words[1] as i64);
    let mut drawn = Pcg(seed.wrapping_add(1).wrapping_mul(6_364_136_223_846_793_005).wrapping_add(1));
    let mut blocks = Vec::new();
    for leaf in 0..8 {
        let (mut spelled, mut log) = (Vec::new(), Vec::new());
        let (from, to) = (leaf * rows / 8, (leaf + 1) * rows / 8);
        for time in from..to {
            let (host, code) = (drawn.word() % 50, drawn.word());
            spell(&mut spelled, time, &format!("h{host}"), (code % 4 != 0).then_some(i64::from(code % 600)));
        }
        log.extend_from_slice(&spelled);
        let (mut rest, mut left) = (&spelled[..], (to - from) as usize);
        while left > 0 {
            let (block, behind) = seal(rest, left.min(RUN));
            blocks.push(block);
            (rest, left) = (behind, left - left.min(RUN));
        }
        std::hint::black_box(log);
    }
    println!("{}\n{}", count(&blocks, 0, rows - 1), top(&blocks, 0, rows - 1));
    let mut region = Vec::new();
    let blocks: Vec<Block> = blocks.into_iter().map(|block| moved(&mut region, block)).collect();
    println!("{}\n{}", count(&blocks, 0, rows - 1), top(&blocks, 0, rows - 1));
}
