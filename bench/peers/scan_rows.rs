// The grouped query of bench/scan in plain Rust, over columns that were filled once, as a program for this one question would have them: numbers in lists, texts as codes
// of a dictionary, and a slot for each code.
use std::collections::HashMap;
use std::io::Read;

struct Columns {
    times: Vec<i64>,
    hosts: Vec<u32>,
    names: Vec<String>,
    codes: Vec<Option<i64>>,
}

#[derive(Clone, Copy, Default)]
struct Group {
    count: u64,
    sum: i128,
}

impl Columns {
    // Lines of time, host, code and message; where a code is missing, no number stands in its place.
    fn of(text: &str) -> Columns {
        let mut columns = Columns { times: Vec::new(), hosts: Vec::new(), names: Vec::new(), codes: Vec::new() };
        let mut places = HashMap::new();
        for line in text.lines() {
            let fields: Vec<&str> = line.split(',').collect();
            let place = *places.entry(fields[1]).or_insert_with(|| {
                columns.names.push(fields[1].to_string());
                columns.names.len() as u32 - 1
            });
            columns.times.push(fields[0].parse().expect("a time"));
            columns.hosts.push(place);
            columns.codes.push(fields[2].parse().ok());
        }
        columns
    }

    fn ask(&self, from: i64, to: i64) -> Vec<String> {
        let mut groups = vec![Group::default(); self.names.len()];
        for ((time, host), code) in self.times.iter().zip(&self.hosts).zip(&self.codes) {
            if let (true, Some(code)) = ((from..=to).contains(time), code) {
                if *code >= 500 {
                    let group = &mut groups[*host as usize];
                    group.count += 1;
                    group.sum += i128::from(*code);
                }
            }
        }
        let mut all: Vec<_> = self.names.iter().zip(groups).filter(|(_, group)| group.count > 0).collect();
        all.sort_by(|a, b| b.1.count.cmp(&a.1.count).then(a.0.cmp(b.0)));
        all.iter().take(5).map(|(name, group)| format!("{name} {} {}", group.count, group.sum)).collect()
    }
}

fn main() {
    let words: Vec<String> = std::env::args().collect();
    let number = |i: usize| words[i].parse::<i64>().expect("a number");
    let mut text = String::new();
    std::io::stdin().read_to_string(&mut text).expect("rows");
    let columns = Columns::of(&text);
    let mut answer = Vec::new();
    for _ in 0..number(3) {
        answer = std::hint::black_box(&columns).ask(number(1), number(2));
    }
    println!("{}", answer.join("\n"));
}
