//! Words, by session (0 to 31) and place. A larger session is cut to its lowest five bits.

fn of(kind: u32, session: u8, place: u16) -> u32 {
    kind << 29 | u32::from(session & 31) << 24 | u32::from(place)
}

pub fn step(session: u8) -> u32 {
    of(0, session, 0)
}

pub fn insert(session: u8, place: u16) -> u32 {
    of(1, session, place)
}

pub fn delete(session: u8, place: u16) -> u32 {
    of(2, session, place)
}

pub fn contains(session: u8, place: u16) -> u32 {
    of(3, session, place)
}

pub fn push(session: u8, place: u16) -> u32 {
    of(4, session, place)
}

pub fn pop(session: u8) -> u32 {
    of(5, session, 0)
}

pub fn tidy() -> u32 {
    of(6, 0, 0)
}
