//! Writes the records of class tables.

/// A table being written, record by record.
#[derive(Clone, Default)]
pub struct Records {
    pub bytes: Vec<u8>,
}

pub const NO_SLOT: u8 = 255;

impl Records {
    /// A table that has its preamble.
    pub fn new() -> Self {
        Records { bytes: vec![1, 2] }
    }

    pub fn put(&mut self, bytes: &[u8]) -> &mut Self {
        self.bytes.extend_from_slice(bytes);
        self
    }

    pub fn trace(&mut self, uuid: Option<[u8; 16]>) -> &mut Self {
        self.put(&[2, uuid.is_some() as u8]).put(&uuid.unwrap_or_default())
    }

    pub fn clock(&mut self, id: u8, frequency: u64) -> &mut Self {
        self.put(&[3, id]).put(&frequency.to_le_bytes())
    }

    pub fn stream(&mut self, id: u64, clock: u8) -> &mut Self {
        self.put(&[4]).put(&id.to_le_bytes()).put(&[clock])
    }

    pub fn event(&mut self, stream: u64, id: u64) -> &mut Self {
        self.put(&[5]).put(&stream.to_le_bytes()).put(&id.to_le_bytes())
    }

    /// A root and its structure, whose members come next.
    pub fn root(&mut self, number: u8, members: u8) -> &mut Self {
        self.put(&[6, number]).structure(members, 0)
    }

    pub fn structure(&mut self, members: u8, align: u8) -> &mut Self {
        self.put(&[28, members, align])
    }

    /// Kind 18 in little order.
    pub fn unsigned(&mut self, length: u8, slot: u8, role: u8) -> &mut Self {
        self.put(&[18, length, 0, 0, slot, role])
    }

    pub fn range(&mut self, sign: u8, low: u64, high: u64) -> &mut Self {
        self.put(&[33, sign]).put(&low.to_le_bytes()).put(&high.to_le_bytes())
    }

    pub fn static_array(&mut self, elements: u16, align: u8) -> &mut Self {
        self.put(&[29]).put(&elements.to_le_bytes()).put(&[align])
    }

    pub fn static_string(&mut self, bytes: u16) -> &mut Self {
        self.put(&[24]).put(&bytes.to_le_bytes())
    }

    pub fn static_blob(&mut self, bytes: u16, role: u8) -> &mut Self {
        self.put(&[25]).put(&bytes.to_le_bytes()).put(&[role])
    }
}

/// The byte spans of a table's records; what cannot be split is one last span.
pub fn split(bytes: &[u8]) -> Vec<std::ops::Range<usize>> {
    let mut spans = Vec::new();
    let mut at = 0;
    while at < bytes.len() {
        let length = crate::table::body_length(bytes[at]).unwrap_or(bytes.len());
        let end = (at + 1 + length).min(bytes.len());
        spans.push(at..end);
        at = end;
    }
    spans
}

/// The byte spans of a table's fragments, each with its roots.
pub fn fragments(bytes: &[u8]) -> Vec<std::ops::Range<usize>> {
    let mut spans: Vec<std::ops::Range<usize>> = Vec::new();
    for span in split(bytes) {
        match spans.last_mut() {
            Some(last) if bytes[span.start] > 5 => last.end = span.end,
            _ => spans.push(span),
        }
    }
    spans
}

#[cfg(test)]
mod tests {
    use super::*;

    #[test]
    fn splits() {
        let mut records = Records::new();
        records.stream(0, 255).event(0, 0).root(5, 1).unsigned(8, NO_SLOT, 0);
        assert_eq!(split(&records.bytes), [0..2, 2..12, 12..29, 29..31, 31..34, 34..40]);
        assert_eq!(fragments(&records.bytes), [0..2, 2..12, 12..40]);
        assert_eq!(split(&[1, 2, 99, 4]), [0..2, 2..4]);
        assert_eq!(split(&[1, 2, 4, 4]), [0..2, 2..4]);
    }
}
