//! What the proved crates call of three small crates of the prover's library, and of its vectors. Those of
//! crates.io with the same names lack `write_digits`, `ascii_str` and texts whose growth may fail.

/// Finding a byte.
pub mod memchr {
    use super::simd::u8x16;

    /// Returns the place of the first such byte.
    #[inline]
    pub fn memchr(byte: u8, bytes: &[u8]) -> Option<usize> {
        let mut place = 0;
        while bytes.len() - place >= 16 {
            let found = u8x16::from_slice(&bytes[place..]).simd_eq(u8x16::splat(byte)).to_bitmask();
            if found != 0 {
                return Some(place + found.trailing_zeros() as usize);
            }
            place += 16;
        }
        bytes[place..].iter().position(|other| *other == byte).map(|rest| place + rest)
    }
}

/// Numbers as texts.
pub mod itoa {
    use super::percent_encoding::ascii_str;

    /// Room for a number's text.
    #[derive(Clone, Copy, Debug, Default)]
    pub struct Buffer([u8; 20]);

    /// A number that has a text here.
    pub trait Integer: Copy {
        /// Returns whether the number is negative, and how large it is.
        fn parts(self) -> (bool, u64);
    }

    impl Integer for usize {
        fn parts(self) -> (bool, u64) {
            (false, self as u64)
        }
    }

    impl Integer for i32 {
        fn parts(self) -> (bool, u64) {
            (self < 0, u64::from(self.unsigned_abs()))
        }
    }

    impl Buffer {
        /// Returns an empty one.
        #[inline]
        pub fn new() -> Self {
            Buffer([0; 20])
        }

        /// Returns a number's text.
        #[inline]
        pub fn format(&mut self, number: impl Integer) -> &str {
            let (is_negative, size) = number.parts();
            let mut start = write_digits(size, &mut self.0, 20);
            if is_negative {
                start -= 1;
                self.0[start] = b'-';
            }
            ascii_str(&self.0[start..])
        }
    }

    /// The digits of each number below 100.
    const PAIRS: [[u8; 2]; 100] = {
        let (mut pairs, mut number) = ([[0; 2]; 100], 0);
        while number < 100 {
            pairs[number] = [b'0' + (number / 10) as u8, b'0' + (number % 10) as u8];
            number += 1;
        }
        pairs
    };

    /// Writes the digits of a number so that they end at `end`, and returns where they start.
    #[inline]
    pub fn write_digits(number: u64, text: &mut [u8], end: usize) -> usize {
        let (mut left, mut start) = (number, end);
        while left >= 10 {
            start -= 2;
            text[start..start + 2].copy_from_slice(&PAIRS[(left % 100) as usize]);
            left /= 100;
        }
        if left > 0 || start == end {
            start -= 1;
            text[start] = b'0' + left as u8;
        }
        start
    }

    #[cfg(test)]
    mod tests {
        use super::Buffer;
        use std::string::ToString;

        #[test]
        fn numbers_are_written_as_by_rust() {
            for bits in 0..64 {
                for number in [(1u64 << bits) - 1, 1 << bits, (1 << bits) + bits, 10u64.pow(bits as u32 % 20), u64::MAX] {
                    assert_eq!(Buffer::new().format(number as usize), (number as usize).to_string());
                    assert_eq!(Buffer::new().format(number as i32), (number as i32).to_string());
                }
            }
        }
    }
}

/// Texts in which some bytes are written `%0A`.
pub mod percent_encoding {
    use super::super::{AllocError, String, Vec};

    /// ASCII bytes that are written so.
    #[derive(Clone, Copy, Debug, PartialEq, Eq)]
    pub struct AsciiSet(u128);

    /// The control characters.
    pub const CONTROLS: AsciiSet = AsciiSet((1 << 0x7f) | 0xffff_ffff);

    impl AsciiSet {
        /// Returns the set with one byte more.
        #[must_use]
        pub const fn add(self, byte: u8) -> Self {
            AsciiSet(self.0 | (1 << byte))
        }

        fn has(self, byte: u8) -> bool {
            !byte.is_ascii() || (self.0 >> byte) & 1 == 1
        }
    }

    macro_rules! ascii_set {
        ($set:expr) => {
            $set
        };
    }
    pub(crate) use ascii_set;

    /// Bytes, of which some are to be written so.
    #[derive(Clone, Copy, Debug)]
    pub struct PercentEncode<'a>(&'a str, AsciiSet);

    /// Returns a text whose bytes of this set, and those that are no ASCII, are to be written so.
    pub fn utf8_percent_encode(text: &str, set: AsciiSet) -> PercentEncode<'_> {
        PercentEncode(text, set)
    }

    impl PercentEncode<'_> {
        /// Appends the text so written.
        ///
        /// # Errors
        ///
        /// There is no memory; nothing is then appended.
        pub fn append_to(self, out: &mut String) -> Result<(), AllocError> {
            const DIGITS: &[u8; 16] = b"0123456789ABCDEF";
            let PercentEncode(text, set) = self;
            let odd = text.bytes().filter(|byte| set.has(*byte)).count();
            out.reserve(text.len() + 2 * odd)?;
            let mut kept = 0;
            for (place, byte) in text.bytes().enumerate().filter(|(_, byte)| set.has(*byte)) {
                let digits = [byte >> 4, byte & 15].map(|digit| DIGITS[usize::from(digit)]);
                out.push_str(ascii_str(&text.as_bytes()[kept..place]))?;
                out.push_str(ascii_str(&[b'%', digits[0], digits[1]]))?;
                kept = place + 1;
            }
            out.push_str(ascii_str(&text.as_bytes()[kept..]))
        }
    }

    /// Bytes in which some are written so.
    #[derive(Clone, Copy, Debug)]
    pub struct PercentDecode<'a>(&'a [u8]);

    /// Returns bytes in which each `%` with two hexadecimal digits after it stands for one.
    pub fn percent_decode(bytes: &[u8]) -> PercentDecode<'_> {
        PercentDecode(bytes)
    }

    impl PercentDecode<'_> {
        /// Appends the bytes meant.
        ///
        /// # Errors
        ///
        /// There is no memory; nothing is then appended.
        pub fn append_to(self, out: &mut Vec<u8>) -> Result<(), AllocError> {
            let mut bytes = self.0;
            out.reserve(bytes.len())?;
            while let [first, rest @ ..] = bytes {
                let digit = |byte: u8| char::from(byte).to_digit(16);
                let (byte, rest) = match bytes {
                    [b'%', high, low, rest @ ..] => match (digit(*high), digit(*low)) {
                        (Some(high), Some(low)) => ((high * 16 + low) as u8, rest),
                        _ => (*first, &bytes[1..]),
                    },
                    _ => (*first, rest),
                };
                out.push_reserved(byte);
                bytes = rest;
            }
            Ok(())
        }
    }

    /// Returns ASCII bytes as a text; of others nothing.
    #[inline]
    pub fn ascii_str(bytes: &[u8]) -> &str {
        core::str::from_utf8(bytes).unwrap_or_default()
    }
}

/// Vectors of bytes, as `std::simd` has them, which rustc doesn't offer yet.
pub mod simd {
    use core::array;
    use core::ops::{BitOr, Sub};

    /// All that is here.
    pub mod prelude {
        pub use super::{u8x16, u8x8};
    }

    /// Bytes that are looked at together.
    #[derive(Clone, Copy, Debug)]
    pub struct Bytes<const N: usize>([u8; N]);

    /// Eight bytes.
    #[allow(non_camel_case_types)]
    pub type u8x8 = Bytes<8>;

    /// Sixteen bytes.
    #[allow(non_camel_case_types)]
    pub type u8x16 = Bytes<16>;

    /// What holds of which byte: all bits are set, or none.
    #[derive(Clone, Copy, Debug)]
    pub struct Mask<const N: usize>([u8; N]);

    impl<const N: usize> Bytes<N> {
        /// Returns the first bytes, of which there are enough.
        #[inline]
        pub fn from_slice(bytes: &[u8]) -> Self {
            let (mut first, from) = ([0; N], &bytes[..N]);
            first.copy_from_slice(from);
            Bytes(first)
        }

        /// Returns a byte, so many times.
        #[inline]
        pub fn splat(byte: u8) -> Self {
            Bytes([byte; N])
        }

        /// Returns the bytes.
        #[inline]
        pub fn to_array(self) -> [u8; N] {
            self.0
        }

        /// Returns which are at least those.
        #[inline]
        pub fn simd_ge(self, other: Self) -> Mask<N> {
            Mask(array::from_fn(|lane| if self.0[lane] >= other.0[lane] { 255 } else { 0 }))
        }

        /// Returns which are the same.
        #[inline]
        pub fn simd_eq(self, other: Self) -> Mask<N> {
            Mask(array::from_fn(|lane| if self.0[lane] == other.0[lane] { 255 } else { 0 }))
        }
    }

    impl<const N: usize> Sub for Bytes<N> {
        type Output = Self;

        #[inline]
        fn sub(self, other: Self) -> Self {
            Bytes(array::from_fn(|lane| self.0[lane].wrapping_sub(other.0[lane])))
        }
    }

    impl<const N: usize> BitOr for Mask<N> {
        type Output = Self;

        #[inline]
        fn bitor(self, other: Self) -> Self {
            Mask(array::from_fn(|lane| self.0[lane] | other.0[lane]))
        }
    }

    impl<const N: usize> Mask<N> {
        /// Returns a number with a bit for each byte, from the lowest on.
        #[inline]
        pub fn to_bitmask(self) -> u64 {
            let mut bits = 0;
            for (part, eight) in self.0.chunks_exact(8).enumerate() {
                let eight: [u8; 8] = array::from_fn(|lane| eight[lane]);
                // Of each byte its own bit, and in the highest byte of the product their sum.
                let own = u64::from_le_bytes(eight) & 0x8040_2010_0804_0201;
                bits |= (own.wrapping_mul(0x0101_0101_0101_0101) >> 56) << (8 * part);
            }
            bits
        }
    }

    #[cfg(test)]
    mod tests {
        use super::prelude::*;

        /// Each pair of bytes, in each lane, beside others.
        #[test]
        fn each_pair_of_bytes_is_compared() {
            for a in 0..=255u8 {
                for b in 0..=255u8 {
                    let lane = usize::from(a ^ b) % 16;
                    let (mut left, mut right) = ([a ^ 0x80; 16], [b; 16]);
                    left[lane] = a;
                    right[(lane + 3) % 16] = 0;
                    let (x, y) = (u8x16::from_slice(&left), u8x16::from_slice(&right));
                    let mask = |holds: fn(u8, u8) -> bool| {
                        (0..16).fold(0, |bits, lane| bits | (u64::from(holds(left[lane], right[lane])) << lane))
                    };
                    assert_eq!(x.simd_ge(y).to_bitmask(), mask(|a, b| a >= b));
                    assert_eq!(x.simd_eq(y).to_bitmask(), mask(|a, b| a == b));
                    assert_eq!((x.simd_ge(y) | x.simd_eq(u8x16::splat(a))).to_bitmask(), mask(|a, b| a >= b) | (1 << lane));
                    let (x, y) = (u8x8::from_slice(&left), u8x8::from_slice(&right));
                    assert_eq!((x - y).to_array()[..], (0..8).map(|lane| left[lane].wrapping_sub(right[lane])).collect::<std::vec::Vec<_>>());
                }
            }
        }
    }
}
