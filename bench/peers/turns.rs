//! Takes turns at tables behind a std Mutex: the peer of turns at shared tables in the benchmark.
//! A turn does the same to a table of the same rows: it is refused while the table is shut, or adds rows and the record of that write.
use std::process::exit;
use std::sync::Mutex;
use std::thread;
use std::time::Duration;

/// A row with the time 5 and no cells, and its bytes.
const AT_FIVE: &[u8] = b"\x05\0\0\0\0\0\0\0\0\0";

struct Cell {
    name: String,
    value: i64,
}

struct Row {
    time: i64,
    cells: Vec<Cell>,
}

/// A table, the record of its writes, and how many turns were taken.
struct Table {
    live: bool,
    horizon: i64,
    rows: Vec<Row>,
    writes: u64,
    pending: Vec<u8>,
    number: u64,
}

#[derive(Clone, Copy)]
struct Load {
    turns: u64,
    rows: u64,
    millis: u64,
}

enum Reply {
    Added { number: u64, kept: u64 },
    Shut { number: u64 },
}

impl Table {
    fn new(live: bool) -> Table {
        let mut pending = vec![1, 1, b't'];
        pending.extend_from_slice(&0u64.to_le_bytes());
        Table { live, horizon: 0, rows: Vec::new(), writes: 0, pending, number: 0 }
    }

    fn add(&mut self, rows: Vec<Row>) -> Reply {
        self.number += 1;
        if !self.live {
            return Reply::Shut { number: self.number };
        }
        let kept = rows.iter().filter(|row| row.time >= self.horizon).count();
        self.rows.reserve(kept);
        self.record(&rows);
        self.rows.extend(rows.into_iter().filter(|row| row.time >= self.horizon));
        Reply::Added { number: self.number, kept: kept as u64 }
    }

    /// Puts the write behind those of the record, and counts it there.
    fn record(&mut self, rows: &[Row]) {
        self.writes += 1;
        self.pending.push(1);
        self.pending.extend_from_slice(&(rows.len() as u32).to_le_bytes());
        for row in rows {
            self.pending.extend_from_slice(&row.time.to_le_bytes());
            self.pending.extend_from_slice(&(row.cells.len() as u16).to_le_bytes());
            for cell in &row.cells {
                self.pending.push(cell.name.len() as u8);
                self.pending.extend_from_slice(cell.name.as_bytes());
                self.pending.push(1);
                self.pending.extend_from_slice(&cell.value.to_le_bytes());
            }
        }
        self.pending[3..11].copy_from_slice(&self.writes.to_le_bytes());
    }
}

/// So many rows, from their bytes.
fn rows_for(count: u64) -> Vec<Row> {
    let mut rows = Vec::new();
    for _ in 0..count {
        let (time, cells) = AT_FIVE.split_at(8);
        assert_eq!(u16::from_le_bytes(cells.try_into().unwrap()), 0);
        rows.push(Row { time: i64::from_le_bytes(time.try_into().unwrap()), cells: Vec::new() });
    }
    rows
}

/// Takes the turns of one thread. How many were answered.
fn take_turns(table: &Mutex<Table>, load: Load) -> u64 {
    let mut answered = 0;
    let mut last = 0;
    for _ in 0..load.turns {
        let rows = rows_for(load.rows);
        let mut value = table.lock().unwrap();
        if load.millis > 0 {
            thread::sleep(Duration::from_millis(load.millis));
        }
        let reply = value.add(rows);
        drop(value);
        let number = match reply {
            Reply::Added { number, kept } if kept == load.rows => number,
            Reply::Shut { number } if load.rows == 0 => number,
            Reply::Added { .. } | Reply::Shut { .. } => return answered,
        };
        if number <= last {
            return answered;
        }
        last = number;
        answered += 1;
    }
    answered
}

fn main() {
    let words: Vec<u64> = std::env::args().skip(1).map(|word| word.parse().unwrap_or_else(|_| exit(2))).collect();
    let [threads, count, turns, rows, millis] = words[..] else { exit(2) };
    let load = Load { turns, rows, millis };
    let tables: Vec<Mutex<Table>> = (0..count.max(1)).map(|_| Mutex::new(Table::new(rows > 0))).collect();
    let answered: u64 = thread::scope(|scope| {
        let jobs: Vec<_> = (0..threads)
            .map(|thread| scope.spawn({ let table = &tables[(thread % count.max(1)) as usize]; move || take_turns(table, load) }))
            .collect();
        jobs.into_iter().map(|job| job.join().unwrap()).sum()
    });
    println!("answered {answered}");
}
