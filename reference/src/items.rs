//! Items: numbers and short byte strings, each with its order.

use std::cmp::Ordering;
use std::fmt;

use crate::word::Reason;

/// The most bytes in a byte string.
pub const MOST_BYTES: usize = 11;

/// A string of 0 to 11 bytes.
///
/// The bytes past the length are zero. Then two strings compare as their full
/// arrays do, and where those are the same, as their lengths do: the bytes past
/// the end of the shorter string are the smallest there are.
#[derive(Clone, Copy, PartialEq, Eq)]
pub struct ByteString {
    bytes: [u8; MOST_BYTES],
    length: u8,
}

impl ByteString {
    pub fn new(content: &[u8]) -> Result<Self, Reason> {
        if content.len() > MOST_BYTES {
            return Err(Reason::TooLong);
        }
        let mut bytes = [0; MOST_BYTES];
        bytes[..content.len()].copy_from_slice(content);
        Ok(ByteString { bytes, length: content.len() as u8 })
    }

    pub fn as_bytes(&self) -> &[u8] {
        &self.bytes[..usize::from(self.length)]
    }

    /// Bytes and length as one number, the first byte highest, so that a single
    /// comparison gives the order.
    fn rank(&self) -> u128 {
        let mut wide = [0; 16];
        wide[..MOST_BYTES].copy_from_slice(&self.bytes);
        wide[MOST_BYTES] = self.length;
        u128::from_be_bytes(wide)
    }
}

impl Ord for ByteString {
    #[inline]
    fn cmp(&self, other: &Self) -> Ordering {
        self.rank().cmp(&other.rank())
    }
}

impl PartialOrd for ByteString {
    fn partial_cmp(&self, other: &Self) -> Option<Ordering> {
        Some(self.cmp(other))
    }
}

impl fmt::Display for ByteString {
    fn fmt(&self, formatter: &mut fmt::Formatter<'_>) -> fmt::Result {
        let content = self.as_bytes();
        let printable = |byte: &u8| matches!(byte, b' '..=b'~') && *byte != b'"';
        if content.iter().all(printable) {
            let text: String = content.iter().copied().map(char::from).collect();
            return write!(formatter, "\"{text}\"");
        }
        formatter.write_str("x")?;
        content.iter().try_for_each(|byte| write!(formatter, "{byte:02x}"))
    }
}

impl fmt::Debug for ByteString {
    fn fmt(&self, formatter: &mut fmt::Formatter<'_>) -> fmt::Result {
        fmt::Display::fmt(self, formatter)
    }
}

/// An item list of either kind.
#[derive(Clone, Debug, PartialEq, Eq)]
pub enum Items {
    Numbers(Vec<u32>),
    Bytes(Vec<ByteString>),
}

impl Items {
    pub fn len(&self) -> usize {
        match self {
            Items::Numbers(items) => items.len(),
            Items::Bytes(items) => items.len(),
        }
    }
}

/// The two kinds of items.
#[derive(Clone, Copy, Debug, PartialEq, Eq)]
pub enum ItemKind {
    Numbers,
    Bytes,
}

impl ItemKind {
    pub const ALL: [ItemKind; 2] = [ItemKind::Numbers, ItemKind::Bytes];

    pub fn name(self) -> &'static str {
        match self {
            ItemKind::Numbers => "numbers",
            ItemKind::Bytes => "bytes",
        }
    }

    pub fn named(name: &str) -> Option<Self> {
        Self::ALL.into_iter().find(|kind| kind.name() == name)
    }
}

#[cfg(test)]
mod tests {
    use super::*;
    use crate::random::Random;

    fn string(content: &[u8]) -> ByteString {
        ByteString::new(content).expect("short enough")
    }

    #[test]
    fn the_order_of_byte_strings() {
        let pairs: [(&[u8], &[u8]); 7] = [
            (b"", b"A"),
            (b"AB", b"ABC"),
            (b"\x7f", b"\x80"),
            (b"B", b"a"),
            (b"AZ", b"B"),
            (b"", b"\x00"),
            (b"A\x00", b"A\x00\x00"),
        ];
        for (smaller, greater) in pairs {
            assert_eq!(string(smaller).cmp(&string(greater)), Ordering::Less);
            assert_eq!(string(greater).cmp(&string(smaller)), Ordering::Greater);
            assert_eq!(string(smaller).cmp(&string(smaller)), Ordering::Equal);
        }
    }

    #[test]
    fn eleven_bytes_are_the_most() {
        assert_eq!(string(&[7; 11]).as_bytes(), [7; 11]);
        assert_eq!(ByteString::new(&[7; 12]), Err(Reason::TooLong));
    }

    #[test]
    fn byte_strings_compare_as_slices_do() {
        let mut random = Random::stirred(1, 1);
        let mut content = || {
            let length = random.between(0, 4);
            (0..length).map(|_| random.pick(&[0, 1, 0x7f, 0x80, 0xff])).collect::<Vec<u8>>()
        };
        for _ in 0..20_000 {
            let (one, other) = (content(), content());
            assert_eq!(string(&one).cmp(&string(&other)), one.cmp(&other));
        }
    }
}
