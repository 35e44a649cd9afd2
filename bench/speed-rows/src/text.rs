//! Text of one megabyte, as sixteen strings of known length: both readers, and Rust's own test of UTF-8 over the same bytes.

use crate::random::Random;
use crate::readers::Reader;
use crate::shapes::Sample;
use crate::{agreed, time, Times};

const STRINGS: usize = 16;
const BYTES: usize = 65_535;

/// One stream class, one event class, a payload of one static string.
fn table() -> Vec<u8> {
    let mut table = vec![1, 2, 4];
    table.extend([0; 8]);
    table.extend([255, 5]);
    table.extend([0; 16]);
    table.extend([6, 5, 28, 1, 0, 24]);
    table.extend((BYTES as u16).to_le_bytes());
    table
}

/// Plain letters alone, or with them characters of two, three and four bytes, as often.
fn string(random: &mut Random, mixed: bool) -> Vec<u8> {
    let mut text = String::new();
    while text.len() < BYTES {
        let first = if mixed { random.pick(&['a', 'α', '一', '😀']) } else { 'a' };
        let letter =
            char::from_u32(first as u32 + random.between(0, 25) as u32).expect("a character");
        text.push(if text.len() + letter.len_utf8() <= BYTES { letter } else { '.' });
    }
    text.into_bytes()
}

pub fn rows(rounds: usize) {
    println!("| {:7} | {:>21} | {:>8} | {:>13} |", "text", "ns a byte", "by Rust", "by from_utf8");
    println!("|---|--:|--:|--:|");
    for (name, mixed) in [("plain", false), ("mixed", true)] {
        let mut random = Random(1);
        let stream: Vec<u8> = (0..STRINGS).flat_map(|_| string(&mut random, mixed)).collect();
        let sample = Sample { table: table(), stream };
        let (mut list, _) = agreed(&sample);
        let mut times = [Vec::new(), Vec::new(), Vec::new()];
        for _ in 0..rounds {
            for (reader, times) in [Reader::Proved, Reader::Rust].into_iter().zip(&mut times) {
                times.push(time::nanoseconds(|| {
                    reader.read(&sample.table, &sample.stream, &mut list);
                }));
            }
            times[2].push(time::nanoseconds(|| {
                let pieces = sample.stream.chunks_exact(BYTES);
                assert!(pieces.into_iter().all(|piece| std::str::from_utf8(piece).is_ok()));
            }));
        }
        let [proved, rust, alone] =
            times.map(|each| Times::of(each).least / (STRINGS * BYTES) as f64);
        println!(
            "| {name:7} | {proved:>5.2} / {rust:>5.2} / {alone:>5.2} | {:>8.2} | {:>13.2} |",
            proved / rust,
            proved / alone
        );
    }
}
