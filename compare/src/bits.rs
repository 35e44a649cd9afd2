//! How bits and bytes become values.

use crate::class::Order;

/// The lowest `length` bits set, for 0 to 64.
pub fn mask(length: u32) -> u64 {
    if length >= 64 {
        u64::MAX
    } else {
        (1 << length) - 1
    }
}

/// The unsigned number of 1 to 64 bits at `place`, all of them within the bytes.
#[inline]
pub fn take(bytes: &[u8], place: u64, length: u32, order: Order) -> u64 {
    let first = (place / 8) as usize;
    let shift = (place % 8) as u32;
    if shift + length <= 64 {
        if let Some(Ok(eight)) = bytes.get(first..first + 8).map(<[u8; 8]>::try_from) {
            return match order {
                Order::Little => (u64::from_le_bytes(eight) >> shift) & mask(length),
                Order::Big => (u64::from_be_bytes(eight) << shift) >> (64 - length),
            };
        }
    }
    take_slowly(bytes, first, shift, length, order)
}

/// Near the end of the bytes, or where the bits touch nine of them.
#[cold]
fn take_slowly(bytes: &[u8], first: usize, shift: u32, length: u32, order: Order) -> u64 {
    let touched = ((shift + length) as usize).div_ceil(8);
    let mut window = [0; 16];
    window[..touched].copy_from_slice(&bytes[first..first + touched]);
    match order {
        Order::Little => (u128::from_le_bytes(window) >> shift) as u64 & mask(length),
        Order::Big => ((u128::from_be_bytes(window) << shift) >> (128 - length)) as u64,
    }
}

/// A number of 1 to 64 bits in two's complement, in 64 bits.
#[inline]
pub fn extend_sign(value: u64, length: u32) -> u64 {
    let unused = 64 - length;
    (((value << unused) as i64) >> unused) as u64
}

/// `place` moved up so that its offset from `packet` is a multiple of `requirement`.
#[inline]
pub fn align(place: u64, packet: u64, requirement: u64) -> u64 {
    packet + ((place - packet + requirement - 1) & !(requirement - 1))
}

/// What ends the reading of a LEB128 number early.
#[derive(Clone, Copy, Debug, PartialEq, Eq)]
pub enum LebFault {
    PastBound,
    /// Too long or too large, from the byte of this index on.
    TooLong(u64),
}

const LEB_BYTES: usize = 10;

/// An LEB128 number and its count of bytes; `bytes` ends at the bound.
#[inline]
pub fn leb(bytes: &[u8], signed: bool) -> Result<(u64, u64), LebFault> {
    let mut value = 0;
    for (index, &byte) in bytes.iter().take(LEB_BYTES).enumerate() {
        let low = byte & 0x7f;
        value |= (low as u64) << (7 * index);
        if index == LEB_BYTES - 1 {
            // Bit 63 comes from this byte; what is above must not add to 64 bits.
            let fits = if signed { low == 0 || low == 0x7f } else { low <= 1 };
            if byte >= 0x80 || !fits {
                return Err(LebFault::TooLong(index as u64));
            }
        }
        if byte < 0x80 {
            let length = 7 * (index as u32 + 1);
            if signed && length < 64 {
                value = extend_sign(value, length);
            }
            return Ok((value, index as u64 + 1));
        }
    }
    Err(LebFault::PastBound)
}

/// The clock after a timestamp of `length` bits, if it stays within 64 bits.
pub fn advance_clock(clock: u64, stamp: u64, length: u32) -> Option<u64> {
    // At 64 bits and above a stamp below the clock means a turn beyond 64 bits,
    // and the difference wrapped at 64 bits overflows the sum just the same.
    clock.checked_add(stamp.wrapping_sub(clock) & mask(length))
}

#[cfg(test)]
mod tests {
    use super::*;

    #[test]
    fn twelve_bits_twice() {
        let bytes = [0xab, 0xcd, 0xef];
        assert_eq!(take(&bytes, 0, 12, Order::Little), 3499);
        assert_eq!(take(&bytes, 12, 12, Order::Little), 3836);
        assert_eq!(take(&bytes, 0, 12, Order::Big), 2748);
        assert_eq!(take(&bytes, 12, 12, Order::Big), 3567);
    }

    /// Bit by bit, as the standard's procedure has it.
    fn take_single_bits(bytes: &[u8], place: u64, length: u32, order: Order) -> u64 {
        let bit = |at: u64| {
            let index = if order == Order::Big { 7 - at % 8 } else { at % 8 };
            (bytes[(at / 8) as usize] >> index & 1) as u64
        };
        (0..length as u64).fold(0, |value, i| match order {
            Order::Big => value << 1 | bit(place + i),
            Order::Little => value | bit(place + i) << i,
        })
    }

    #[test]
    fn every_place_and_length() {
        let bytes: Vec<u8> = (0..20u32).map(|i| (i * 167 + 91) as u8 ^ (i * i) as u8).collect();
        for order in [Order::Little, Order::Big] {
            for length in 1..=64 {
                for place in 0..=160 - length as u64 {
                    let expected = take_single_bits(&bytes, place, length, order);
                    assert_eq!(take(&bytes, place, length, order), expected);
                }
            }
        }
    }

    #[test]
    fn signs() {
        assert_eq!(extend_sign(0b1000, 4) as i64, -8);
        assert_eq!(extend_sign(0b0111, 4), 7);
        assert_eq!(extend_sign(1 << 63, 64) as i64, i64::MIN);
        assert_eq!(extend_sign(1, 1) as i64, -1);
    }

    #[test]
    fn alignment_counts_from_the_packet() {
        assert_eq!(align(1, 0, 8), 8);
        assert_eq!(align(8, 0, 8), 8);
        assert_eq!(align(8, 8, 64), 8);
        assert_eq!(align(9, 8, 64), 72);
    }

    #[test]
    fn leb_figures() {
        assert_eq!(leb(&[0xe5, 0x8e, 0x26], false), Ok((624485, 3)));
        assert_eq!(leb(&[0xc0, 0xbb, 0x78], true), Ok((-123456i64 as u64, 3)));
        assert_eq!(leb(&[0x80, 0x00], false), Ok((0, 2)));
        assert_eq!(leb(&[], false), Err(LebFault::PastBound));
        assert_eq!(leb(&[0x80], true), Err(LebFault::PastBound));
    }

    #[test]
    fn leb_near_64_bits() {
        let ten = |last: u8| [0xff, 0xff, 0xff, 0xff, 0xff, 0xff, 0xff, 0xff, 0xff, last];
        assert_eq!(leb(&ten(1), false), Ok((u64::MAX, 10)));
        assert_eq!(leb(&ten(0), false), Ok((u64::MAX >> 1, 10)));
        assert_eq!(leb(&ten(2), false), Err(LebFault::TooLong(9)));
        assert_eq!(leb(&ten(0x81), false), Err(LebFault::TooLong(9)));
        assert_eq!(leb(&ten(0x7f), true), Ok((u64::MAX, 10)));
        assert_eq!(leb(&ten(0), true), Ok((i64::MAX as u64, 10)));
        assert_eq!(leb(&ten(1), true), Err(LebFault::TooLong(9)));
        assert_eq!(leb(&ten(0x7e), true), Err(LebFault::TooLong(9)));
        assert_eq!(leb(&ten(0x40), true), Err(LebFault::TooLong(9)));
        let low = [0x80, 0x80, 0x80, 0x80, 0x80, 0x80, 0x80, 0x80, 0x80, 0x7f];
        assert_eq!(leb(&low, true), Ok((1 << 63, 10)));
        assert_eq!(leb(&ten(0x80)[..9], false), Err(LebFault::PastBound));
    }

    #[test]
    fn clock_figures() {
        assert_eq!(advance_clock(250, 5, 8), Some(261));
        assert_eq!(advance_clock(261, 5, 8), Some(261));
        assert_eq!(advance_clock(5, 4, 64), None);
        assert_eq!(advance_clock(5, 4, 70), None);
        assert_eq!(advance_clock(5, 6, 70), Some(6));
        assert_eq!(advance_clock(u64::MAX, 0, 8), None);
        assert_eq!(advance_clock(u64::MAX, 255, 8), Some(u64::MAX));
    }
}
