//! The demand on readings with classes left out of the table: everything up to
//! the finding of the first such class stays, and there the class is unknown.

use crate::case::{Answer, LeftOut};
use crate::reader::{Entry, Reading};

const STREAM_CLASS_FOUND: u64 = 2;
const EVENT_CLASS_FOUND: u64 = 5;

/// The index of the first entry that finds a left-out class and the verdict due there.
pub fn first_left_out(full: &[Entry], left_out: &LeftOut) -> Option<(usize, Reading)> {
    let mut stream_class = 0;
    for (index, &[kind, place, _, id, _]) in full.iter().enumerate() {
        let entries = index as u64;
        match kind {
            STREAM_CLASS_FOUND => {
                stream_class = id;
                if left_out.streams.contains(&id) {
                    let reading = Reading { number: 33, entries, place, first: id, second: 0 };
                    return Some((index, reading));
                }
            }
            EVENT_CLASS_FOUND if left_out.events.contains(&(stream_class, id)) => {
                let reading =
                    Reading { number: 37, entries, place, first: stream_class, second: id };
                return Some((index, reading));
            }
            _ => {}
        }
    }
    None
}

/// Whether the short table's answer is as demanded; on success, whether a left-out
/// class was found.
pub fn demand(full: &Answer, short: &Answer, left_out: &LeftOut) -> Result<bool, String> {
    if full.check.0 != 0 {
        return Err("the full table is refused".to_string());
    }
    if short.check.0 != 0 {
        return Err("the short table is refused".to_string());
    }
    let found = first_left_out(&full.entries, left_out);
    let (kept, verdict) = found.unwrap_or((full.entries.len(), full.reading));
    if short.reading != verdict {
        return Err(format!("the short verdict is not {verdict:?}"));
    }
    if short.entries != full.entries[..kept] {
        return Err(format!("the short list is not the first {kept} entries of the full one"));
    }
    Ok(found.is_some())
}

#[cfg(test)]
mod tests {
    use super::*;
    use crate::case::Case;
    use crate::records::{Records, NO_SLOT};

    fn answers(short_bytes: usize) -> (Answer, Answer) {
        let mut records = Records::new();
        records.stream(0, 255).event(0, 0).root(5, 1).unsigned(8, NO_SLOT, 0);
        let full = Case::new(records.bytes.clone(), vec![42], 40);
        records.bytes.truncate(short_bytes);
        (full.answer(), Case::new(records.bytes, vec![42], 40).answer())
    }

    #[test]
    fn event_class_left_out() {
        let (full, mut short) = answers(12);
        let left_out = LeftOut { events: vec![(0, 0)], ..LeftOut::default() };
        assert_eq!(demand(&full, &short, &left_out), Ok(true));
        short.entries[1][1] = 9;
        assert!(demand(&full, &short, &left_out).is_err());
        assert!(demand(&full, &full, &left_out).is_err());
    }

    #[test]
    fn stream_class_left_out() {
        let (full, short) = answers(2);
        let left_out = LeftOut { streams: vec![0], ..LeftOut::default() };
        assert_eq!(demand(&full, &short, &left_out), Ok(true));
        let other = LeftOut { streams: vec![1], ..LeftOut::default() };
        assert!(demand(&full, &short, &other).is_err());
        assert_eq!(demand(&full, &full, &other), Ok(false));
    }
}
