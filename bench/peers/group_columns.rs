// Grouped queries of bench/goals in plain Rust, over columns that were filled once: each column has its values once and a code for each row, a group is a slot of the
// product of its keys' codes, and one thread walks over the rows. It prints how many groups there are, and the sum over all of them.
use std::collections::HashMap;
use std::io::Read;

#[derive(Default)]
struct Column {
    codes: Vec<u32>,
    values: Vec<Option<i64>>,
}

fn columns_of(text: &str) -> Vec<Column> {
    let mut columns: Vec<Column> = Vec::new();
    let mut places: Vec<HashMap<&str, u32>> = Vec::new();
    for line in text.lines() {
        for (i, field) in line.split(',').enumerate() {
            if columns.len() == i {
                columns.push(Column::default());
                places.push(HashMap::new());
            }
            let column = &mut columns[i];
            let code = *places[i].entry(field).or_insert_with(|| {
                column.values.push(field.parse().ok());
                column.values.len() as u32 - 1
            });
            column.codes.push(code);
        }
    }
    columns
}

/// The groups by these columns of the rows whose first column is in the range, each with its count and the sum of the last column.
fn ask(columns: &[Column], keys: &[usize], from: i64, to: i64) -> (usize, i128) {
    let slots = keys.iter().map(|key| columns[*key].values.len()).product();
    let mut groups = vec![(0u64, 0i128); slots];
    let (times, sums) = (&columns[0], &columns[columns.len() - 1]);
    for i in 0..times.codes.len() {
        let time = times.values[times.codes[i] as usize].unwrap_or(-1);
        if (from..=to).contains(&time) {
            let slot = keys.iter().fold(0, |slot, key| slot * columns[*key].values.len() + columns[*key].codes[i] as usize);
            groups[slot].0 += 1;
            groups[slot].1 += i128::from(sums.values[sums.codes[i] as usize].unwrap_or(0));
        }
    }
    (groups.iter().filter(|group| group.0 > 0).count(), groups.iter().map(|group| group.1).sum())
}

fn main() {
    let words: Vec<String> = std::env::args().skip(1).collect();
    let number = |i: usize| words[i].parse::<i64>().expect("a number");
    let keys: Vec<usize> = words[3..].iter().map(|word| word.parse().expect("a column")).collect();
    let mut text = String::new();
    std::io::stdin().read_to_string(&mut text).expect("rows");
    let columns = columns_of(&text);
    let mut answer = (0, 0);
    for _ in 0..number(2) {
        answer = ask(std::hint::black_box(&columns), &keys, number(0), number(1));
    }
    println!("groups {} sum {}", answer.0, answer.1);
}
