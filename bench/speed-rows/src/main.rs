//! The proved reader against the one in ordinary Rust, on eight shapes of streams with 10 and with 500 event classes.
//!
//!     speed-rows [ROUNDS]                      a table of all rows, the least time of so many rounds (7)
//!     speed-rows text                          both readers on a megabyte of text, and Rust's own test of it
//!     speed-rows long                          both readers on streams of 150 and of 300 MB
//!     speed-rows SHAPE CLASSES READER ROUNDS   one reader (proved, rust) on one sample, for a profiler; CLASSES may be 10/500,
//!                                              the stream of 10 classes read by a table of 500

mod class;
mod long;
mod memory;
mod random;
mod readers;
mod shapes;
mod text;
mod time;

use readers::Reader;
use shapes::{Sample, Shape, PACKETS, PACKET_BYTES, SHAPES};

const CLASSES: [usize; 2] = [10, 500];
const ROUNDS: usize = 7;

/// What lies in a list before a reading.
const PATTERN: u64 = 0xa5a5_5a5a_c3c3_3c3c;

const WORDS_PER_ENTRY: usize = 5;
const EVENT_STARTS: u64 = 4;

/// Room for an entry a byte, which no sample needs.
const LIST_WORDS: usize = PACKETS as usize * PACKET_BYTES * WORDS_PER_ENTRY;

fn main() {
    let words: Vec<String> = std::env::args().skip(1).collect();
    match &words[..] {
        [] => all_rows(ROUNDS),
        [word] if word == "text" => text::rows(ROUNDS),
        [word] if word == "long" => long::rows(ROUNDS),
        [rounds] => all_rows(rounds.parse().expect("a number of rounds")),
        [shape, classes, reader, rounds] => {
            let shape = SHAPES.into_iter().find(|known| known.name() == shape).expect("a shape");
            let reader = if reader == "proved" { Reader::Proved } else { Reader::Rust };
            let (met, known) = classes.split_once('/').unwrap_or((classes, classes));
            let number = |word: &str| word.parse().expect("a number of classes");
            let sample = shapes::sample(shape, number(met), number(known));
            one_reader(&sample, reader, rounds.parse().expect("a number of rounds"));
        }
        _ => panic!("[ROUNDS], text, long, or SHAPE CLASSES READER ROUNDS"),
    }
}

fn one_reader(sample: &Sample, reader: Reader, rounds: usize) {
    let mut list = vec![0; LIST_WORDS];
    let mut times = Vec::new();
    for _ in 0..rounds {
        times.push(time::nanoseconds(|| {
            reader.read(&sample.table, &sample.stream, &mut list);
        }));
    }
    println!("{:.1} ms", times.iter().min().map_or(0.0, |&least| least as f64 / 1e6));
}

fn all_rows(rounds: usize) {
    println!(
        "| {:14} | {:>7} | {:>5} | {:>9} | {:>10} | {:>15} | {:>15} | {:>5} | {:>6} |",
        "shape",
        "classes",
        "MB",
        "events",
        "entries",
        "ns an event",
        "ns an entry",
        "ratio",
        "spread"
    );
    println!("|---|--:|--:|--:|--:|--:|--:|--:|--:|");
    for shape in SHAPES {
        for classes in CLASSES {
            row(shape, classes, rounds);
        }
    }
}

fn row(shape: Shape, classes: usize, rounds: usize) {
    let sample = shapes::sample(shape, classes, classes);
    let (mut list, events) = agreed(&sample);
    let (mut proved, mut rust) = (Vec::new(), Vec::new());
    for _ in 0..rounds {
        for (reader, times) in [(Reader::Proved, &mut proved), (Reader::Rust, &mut rust)] {
            times.push(time::nanoseconds(|| {
                reader.read(&sample.table, &sample.stream, &mut list);
            }));
        }
    }
    let (proved, rust) = (Times::of(proved), Times::of(rust));
    let entries = list.len() / WORDS_PER_ENTRY;
    let each = |count: usize| {
        format!("{:.1} / {:.1}", proved.least / count as f64, rust.least / count as f64)
    };
    println!(
        "| {:14} | {:>7} | {:>5.1} | {:>9} | {:>10} | {:>15} | {:>15} | {:>5.2} | {:>5.0}% |",
        shape.name(),
        classes,
        sample.stream.len() as f64 / 1e6,
        events,
        entries,
        each(events),
        each(entries),
        proved.least / rust.least,
        100.0 * proved.spread.max(rust.spread),
    );
}

/// Both readers must accept the whole stream and list the same, word by word. Gives a list of just the room that this needs, and the
/// number of events.
fn agreed(sample: &Sample) -> (Vec<u64>, usize) {
    let mut one = vec![PATTERN; LIST_WORDS];
    let mut other = vec![PATTERN; LIST_WORDS];
    let proved = Reader::Proved.read(&sample.table, &sample.stream, &mut one);
    let rust = Reader::Rust.read(&sample.table, &sample.stream, &mut other);
    assert_eq!(proved, rust, "the results differ");
    assert_eq!((proved.number, proved.place), (0, 8 * sample.stream.len() as u64), "not accepted");
    assert!(one == other, "the lists differ");
    one.truncate(proved.entries as usize * WORDS_PER_ENTRY);
    one.shrink_to_fit();
    let events = one.chunks_exact(WORDS_PER_ENTRY).filter(|entry| entry[0] == EVENT_STARTS).count();
    (one, events)
}

/// The least time in nanoseconds, and how far the one in the middle lies above it.
struct Times {
    least: f64,
    spread: f64,
}

impl Times {
    fn of(mut times: Vec<u64>) -> Times {
        times.sort_unstable();
        let (least, middle) = (times[0] as f64, times[times.len() / 2] as f64);
        Times { least, spread: middle / least - 1.0 }
    }
}
