//! The two readers that are measured, with one form.

use compare::reader::Reading;

extern "C" {
    fn trevoskel_read(
        table: *const u8,
        table_bytes: usize,
        stream: *const u8,
        stream_bytes: usize,
        list: *mut u64,
        list_words: usize,
        result: *mut u64,
        result_words: usize,
    ) -> u32;
}

#[derive(Clone, Copy)]
pub enum Reader {
    Proved,
    Rust,
}

impl Reader {
    pub fn read(self, table: &[u8], stream: &[u8], list: &mut [u64]) -> Reading {
        match self {
            Reader::Proved => read_proved(table, stream, list),
            Reader::Rust => compare::reader::read(table, stream, list),
        }
    }
}

fn read_proved(table: &[u8], stream: &[u8], list: &mut [u64]) -> Reading {
    let mut result = [0; 5];
    // SAFETY: each pointer and count is a slice's own; list and result are lent to the call alone.
    unsafe {
        trevoskel_read(
            table.as_ptr(),
            table.len(),
            stream.as_ptr(),
            stream.len(),
            list.as_mut_ptr(),
            list.len(),
            result.as_mut_ptr(),
            result.len(),
        );
    }
    let [number, entries, place, first, second] = result;
    Reading { number, entries, place, first, second }
}
