//! The words given to a board, its answers and its refusals.

/// A position in the item list.
#[derive(Clone, Copy, Debug, PartialEq, Eq)]
pub struct Place(pub u16);

impl Place {
    pub fn index(self) -> usize {
        usize::from(self.0)
    }
}

/// What a begin word asks for.
#[derive(Clone, Copy, Debug, PartialEq, Eq)]
pub enum Operation {
    Insert(Place),
    Delete(Place),
    Contains(Place),
    Push(Place),
    Pop,
}

impl Operation {
    pub fn place(self) -> Option<Place> {
        match self {
            Operation::Insert(place)
            | Operation::Delete(place)
            | Operation::Contains(place)
            | Operation::Push(place) => Some(place),
            Operation::Pop => None,
        }
    }

    pub fn name(self) -> &'static str {
        match self {
            Operation::Insert(_) => "insert",
            Operation::Delete(_) => "delete",
            Operation::Contains(_) => "contains",
            Operation::Push(_) => "push",
            Operation::Pop => "pop",
        }
    }
}

/// A word that says something. The session is as written, 0 to 31; whether
/// there is such a session only the board knows.
#[derive(Clone, Copy, Debug, PartialEq, Eq)]
pub enum Order {
    Step { session: u8 },
    Begin { session: u8, operation: Operation },
    Tidy,
}

const KIND_SHIFT: u32 = 29;
const SESSION_SHIFT: u32 = 24;

/// The bits that a kind does not use and that have to be zero.
const SPARE_BESIDE_SESSION: u32 = 0x00ff_ffff;
const SPARE_BESIDE_SESSION_AND_PLACE: u32 = 0x00ff_0000;
const SPARE_BESIDE_NOTHING: u32 = 0x1fff_ffff;

impl Order {
    /// Reads a word. The kind is checked before the spare bits.
    #[inline]
    pub fn read(word: u32) -> Result<Order, Reason> {
        let session = session_bits(word);
        let place = Place(word as u16);
        let begin = |operation| Order::Begin { session, operation };
        let unless = |spare: u32, order: Order| {
            if word & spare == 0 {
                Ok(order)
            } else {
                Err(Reason::SpareBits)
            }
        };
        match word >> KIND_SHIFT {
            0 => unless(SPARE_BESIDE_SESSION, Order::Step { session }),
            1 => unless(SPARE_BESIDE_SESSION_AND_PLACE, begin(Operation::Insert(place))),
            2 => unless(SPARE_BESIDE_SESSION_AND_PLACE, begin(Operation::Delete(place))),
            3 => unless(SPARE_BESIDE_SESSION_AND_PLACE, begin(Operation::Contains(place))),
            4 => unless(SPARE_BESIDE_SESSION_AND_PLACE, begin(Operation::Push(place))),
            5 => unless(SPARE_BESIDE_SESSION, begin(Operation::Pop)),
            6 => unless(SPARE_BESIDE_NOTHING, Order::Tidy),
            _ => Err(Reason::Kind),
        }
    }

    /// The word that says this order.
    #[inline]
    pub fn word(self) -> u32 {
        let (kind, session, place) = match self {
            Order::Step { session } => (0, session, None),
            Order::Begin { session, operation } => {
                let kind = match operation {
                    Operation::Insert(_) => 1,
                    Operation::Delete(_) => 2,
                    Operation::Contains(_) => 3,
                    Operation::Push(_) => 4,
                    Operation::Pop => 5,
                };
                (kind, session, operation.place())
            }
            Order::Tidy => (6, 0, None),
        };
        kind << KIND_SHIFT
            | u32::from(session) << SESSION_SHIFT
            | place.map_or(0, |place| u32::from(place.0))
    }
}

/// The session bits of any word, whatever its kind.
#[inline]
pub fn session_bits(word: u32) -> u8 {
    (word >> SESSION_SHIFT & 31) as u8
}

/// Why something is refused.
#[derive(Clone, Copy, Debug, PartialEq, Eq)]
pub enum Reason {
    Sizes,
    TooLong,
    Kind,
    SpareBits,
    NoSession,
    NoPlace,
    OtherItems,
    Inside,
    Outside,
    NoCell,
}

impl Reason {
    pub fn number(self) -> u16 {
        match self {
            Reason::Sizes => 3,
            Reason::TooLong => 4,
            Reason::Kind => 5,
            Reason::SpareBits => 6,
            Reason::NoSession => 7,
            Reason::NoPlace => 8,
            Reason::OtherItems => 9,
            Reason::Inside => 21,
            Reason::Outside => 22,
            Reason::NoCell => 23,
        }
    }
}

/// What a board answers to a word.
#[derive(Clone, Copy, Debug, PartialEq, Eq)]
pub enum Answer {
    UnderWay,
    /// The value is the place for a pop, else 0.
    Yes(u16),
    No,
    /// How many cells were given back.
    Tidied(u16),
    Refused(Reason),
}

impl Answer {
    pub fn letter(self) -> char {
        match self {
            Answer::UnderWay => 'w',
            Answer::Yes(_) => 'y',
            Answer::No => 'n',
            Answer::Tidied(_) => 't',
            Answer::Refused(_) => 'r',
        }
    }

    pub fn value(self) -> u16 {
        match self {
            Answer::UnderWay | Answer::No => 0,
            Answer::Yes(value) | Answer::Tidied(value) => value,
            Answer::Refused(reason) => reason.number(),
        }
    }
}

#[cfg(test)]
mod tests {
    use super::*;

    #[test]
    fn every_order_is_read_back_from_its_word() {
        let place = Place(0x1234);
        let operations = [
            (Operation::Insert(place), 0x3f00_1234),
            (Operation::Delete(place), 0x5f00_1234),
            (Operation::Contains(place), 0x7f00_1234),
            (Operation::Push(place), 0x9f00_1234),
            (Operation::Pop, 0xbf00_0000),
        ];
        for (operation, word) in operations {
            let order = Order::Begin { session: 31, operation };
            assert_eq!(order.word(), word);
            assert_eq!(Order::read(word), Ok(order));
        }
        assert_eq!(Order::Step { session: 5 }.word(), 0x0500_0000);
        assert_eq!(Order::read(0x0500_0000), Ok(Order::Step { session: 5 }));
        assert_eq!(Order::Tidy.word(), 0xc000_0000);
        assert_eq!(Order::read(0xc000_0000), Ok(Order::Tidy));
    }

    #[test]
    fn the_kind_is_checked_before_the_spare_bits() {
        assert_eq!(Order::read(0xe000_0000), Err(Reason::Kind));
        assert_eq!(Order::read(0xffff_ffff), Err(Reason::Kind));
    }

    #[test]
    fn every_spare_bit_has_to_be_zero() {
        let uses_place = [false, true, true, true, true, false];
        for (kind, uses_place) in uses_place.into_iter().enumerate() {
            for bit in 0..24 {
                let word = (kind as u32) << 29 | 1 << bit;
                let used = uses_place && bit < 16;
                assert_eq!(Order::read(word).is_ok(), used, "kind {kind}, bit {bit}");
            }
        }
        for bit in 0..29 {
            assert_eq!(Order::read(6 << 29 | 1 << bit), Err(Reason::SpareBits));
        }
    }
}
