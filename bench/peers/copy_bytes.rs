//! Copies so many bytes there and back, so often: the peer of one drain and one start in the benchmark.
use std::hint::black_box;
use std::process::exit;

fn main() {
    let mut words = std::env::args().skip(1).map(|word| word.parse::<usize>());
    let (Some(Ok(bytes)), Some(Ok(times)), None) = (words.next(), words.next(), words.next()) else {
        eprintln!("copy_bytes: the words are the number of bytes and how often they go there and back");
        exit(2)
    };
    let mut here = vec![1u8; bytes];
    let mut there = vec![2u8; bytes];
    for _ in 0..times {
        there.copy_from_slice(black_box(&here));
        here.copy_from_slice(black_box(&there));
    }
    black_box(&here);
}
