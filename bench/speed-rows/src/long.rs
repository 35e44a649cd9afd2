//! Streams of 150 and of 300 MB in two of the shapes, beside one of 16.7 MB: that the time goes with the bytes, and that the memory
//! is what is lent. The list has just the room that its stream needs.

use crate::readers::Reader;
use crate::shapes::{self, sample_of, Sample, Shape, PACKET_BYTES};
use crate::{memory, time, Times, PATTERN, WORDS_PER_ENTRY};

const SHAPES: [Shape; 2] = [Shape::WholeBytes, Shape::Lttng];
const CLASSES: usize = 10;
const PACKETS: [u64; 3] = [shapes::PACKETS, 2289, 4578];

pub fn rows(rounds: usize) {
    println!(
        "| {:11} | {:>5} | {:>11} | {:>15} | {:>13} | {:>5} | {:>6} | {:>7} | {:>13} |",
        "shape", "MB", "entries", "ms", "ns a byte", "ratio", "spread", "GB lent", "GB at most"
    );
    println!("|---|--:|--:|--:|--:|--:|--:|--:|--:|");
    for shape in SHAPES {
        for packets in PACKETS {
            row(shape, packets, rounds);
        }
    }
}

fn row(shape: Shape, packets: u64, rounds: usize) {
    let sample = sample_of(shape, CLASSES, CLASSES, packets);
    let entries = entries(&sample);
    let mut list = vec![PATTERN; entries * WORDS_PER_ENTRY];
    agree(&sample, &mut list);
    let lent = sample.table.len() + sample.stream.len() + list.len() * size_of::<u64>();
    let readers = [Reader::Proved, Reader::Rust];
    let mut times = [Vec::new(), Vec::new()];
    let mut peaks = [0; 2];
    for _ in 0..rounds {
        for (at, reader) in readers.into_iter().enumerate() {
            peaks[at] = memory::peak(|| {
                times[at].push(time::nanoseconds(|| {
                    reader.read(&sample.table, &sample.stream, &mut list);
                }))
            });
        }
    }
    let [proved, rust] = times.map(Times::of);
    let bytes = sample.stream.len() as f64;
    let [most, most_rust] = peaks.map(|peak| peak as f64 / 1e9);
    println!(
        "| {:11} | {:>5.1} | {:>11} | {:>15} | {:>13} | {:>5.2} | {:>5.0}% | {:>7.2} | {:>13} |",
        shape.name(),
        bytes / 1e6,
        entries,
        format!("{:.0} / {:.0}", proved.least / 1e6, rust.least / 1e6),
        format!("{:.2} / {:.2}", proved.least / bytes, rust.least / bytes),
        proved.least / rust.least,
        100.0 * proved.spread.max(rust.spread),
        lent as f64 / 1e9,
        format!("{most:.2} / {most_rust:.2}"),
    );
}

/// Packets stand on their own: each lists as many entries alone as among the others.
fn entries(sample: &Sample) -> usize {
    let mut list = vec![0; PACKET_BYTES * WORDS_PER_ENTRY];
    let packets = sample.stream.chunks(PACKET_BYTES);
    packets.map(|one| Reader::Rust.read(&sample.table, one, &mut list).entries as usize).sum()
}

/// Both readers must accept the whole stream, fill the list and list the same. Two such lists are too much memory: of each reader's
/// list a sum is held against the other's, over all words and the order in which they stand.
fn agree(sample: &Sample, list: &mut [u64]) {
    let [proved, rust] = [Reader::Proved, Reader::Rust].map(|reader| {
        list.fill(PATTERN);
        let reading = reader.read(&sample.table, &sample.stream, list);
        assert_eq!((reading.number, reading.place), (0, 8 * sample.stream.len() as u64), "refused");
        assert_eq!(reading.entries as usize * WORDS_PER_ENTRY, list.len(), "another room is due");
        list.iter()
            .fold(0u64, |sum, word| (sum.rotate_left(5) ^ word).wrapping_mul(0x9e37_79b9_7f4a_7c15))
    });
    assert_eq!(proved, rust, "the lists differ");
}
