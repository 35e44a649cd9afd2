//! Well-formed UTF-8, by the numbers of its characters (RFC 3629, section 3).

/// Whether bytes are the shortest encodings of numbers up to 10FFFF that are no surrogates.
pub fn is_text(bytes: &[u8]) -> bool {
    if bytes.is_ascii() {
        return true;
    }
    let mut rest = bytes;
    while let Some((&first, behind)) = rest.split_first() {
        // The leading ones say how many bytes there are; below them stand the highest bits.
        let (more, least) = match first.leading_ones() {
            0 => (0, 0),
            2 => (1, 0x80),
            3 => (2, 0x800),
            4 => (3, 0x10000),
            _ => return false,
        };
        let Some((others, next)) = behind.split_at_checked(more) else { return false };
        let high = (first & 0x7f >> more) as u32;
        let mut number = if more == 0 { first as u32 } else { high };
        for &other in others {
            if other & 0xc0 != 0x80 {
                return false;
            }
            number = number << 6 | (other & 0x3f) as u32;
        }
        if number < least || number > 0x10ffff || (0xd800..0xe000).contains(&number) {
            return false;
        }
        rest = next;
    }
    true
}

#[cfg(test)]
mod tests {
    use super::is_text;
    use crate::random::Random;

    fn agrees(bytes: &[u8]) {
        assert_eq!(is_text(bytes), std::str::from_utf8(bytes).is_ok(), "{bytes:x?}");
    }

    #[test]
    fn short_texts_as_rust_says() {
        agrees(&[]);
        let all = 0..=255u8;
        for first in all.clone() {
            agrees(&[first]);
            for second in all.clone() {
                agrees(&[first, second]);
                for third in [0, 0x7f, 0x80, 0x8f, 0x90, 0x9f, 0xa0, 0xbf, 0xc0, 0xff] {
                    agrees(&[first, second, third]);
                    for fourth in [0x7f, 0x80, 0xbf, 0xc0] {
                        agrees(&[first, second, third, fourth]);
                    }
                }
            }
        }
    }

    #[test]
    fn long_texts_as_rust_says() {
        let mut random = Random::new(1);
        for _ in 0..20_000 {
            let mut bytes = Vec::new();
            while bytes.len() < 40 {
                bytes.extend(random.character());
            }
            agrees(&bytes);
            let at = random.below(bytes.len());
            bytes[at] = random.byte();
            agrees(&bytes);
            agrees(&bytes[..at]);
        }
    }
}
