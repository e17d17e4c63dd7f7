//! The border to the static library. Nothing checks these declarations against it, so they are kept together here.
use crate::{Answer, Error, Report};

#[repr(C)]
struct RawReport {
    error: u16,
    held: u16,
    free: u16,
    words: u64,
}

extern "C" {
    fn slotlock_play_numbers(
        scheme: u8,
        sessions: u8,
        cells: u16,
        items: *const u32,
        items_len: usize,
        words: *const u32,
        words_len: usize,
        answers: *mut Answer,
        answers_len: usize,
    ) -> RawReport;

    fn slotlock_play_bytes(
        scheme: u8,
        sessions: u8,
        cells: u16,
        bytes: *const u8,
        bytes_len: usize,
        lengths: *const u8,
        lengths_len: usize,
        words: *const u32,
        words_len: usize,
        answers: *mut Answer,
        answers_len: usize,
    ) -> RawReport;
}

fn report(raw: RawReport) -> Result<Report, Error> {
    match raw.error {
        0 => Ok(Report { held: raw.held, free: raw.free, words: raw.words }),
        number => Err(Error::numbered(number)),
    }
}

pub(crate) fn numbers(scheme: u8, sessions: u8, cells: u16, items: &[u32], words: &[u32], answers: &mut [Answer]) -> Result<Report, Error> {
    // SAFETY: each pointer and length is of one slice, and the answers are lent to nobody else.
    report(unsafe {
        slotlock_play_numbers(
            scheme,
            sessions,
            cells,
            items.as_ptr(),
            items.len(),
            words.as_ptr(),
            words.len(),
            answers.as_mut_ptr(),
            answers.len(),
        )
    })
}

pub(crate) fn bytes(
    scheme: u8,
    sessions: u8,
    cells: u16,
    bytes: &[u8],
    lengths: &[u8],
    words: &[u32],
    answers: &mut [Answer],
) -> Result<Report, Error> {
    // SAFETY: as above.
    report(unsafe {
        slotlock_play_bytes(
            scheme,
            sessions,
            cells,
            bytes.as_ptr(),
            bytes.len(),
            lengths.as_ptr(),
            lengths.len(),
            words.as_ptr(),
            words.len(),
            answers.as_mut_ptr(),
            answers.len(),
        )
    })
}

#[cfg(test)]
mod tests {
    use super::*;

    #[test]
    fn a_scheme_that_there_is_not_is_refused() {
        let mut answers = [Answer::UNDER_WAY; 1];
        assert_eq!(numbers(3, 2, 4, &[7], &[0], &mut answers), Err(Error::NoScheme));
        assert_eq!(bytes(255, 2, 4, b"a", &[1], &[0], &mut answers), Err(Error::NoScheme));
        assert_eq!(answers, [Answer::UNDER_WAY; 1]);
    }
}
