//! Misuse gets an error and leaves the answers as they were; a refused word is no error.
use slotlock::{play_bytes, play_cut, play_numbers, word, Answer, AnswerKind, Error, Report, Scheme};

const SCHEMES: [Scheme; 3] = [Scheme::Hazard, Scheme::Epoch, Scheme::Quiescent];

// Not what any of the words below is answered.
fn marked(n: usize) -> Vec<Answer> {
    let mut answers = vec![Answer::UNDER_WAY; n];
    let tidy = vec![word::tidy(); n];
    play_numbers(Scheme::Hazard, 1, 1, &[], &tidy, &mut answers).unwrap();
    answers
}

#[track_caller]
fn refused(error: Error, number: u16, call: impl FnOnce(&mut [Answer]) -> Result<Report, Error>, room: usize) {
    let mut answers = marked(room);
    assert_eq!(call(&mut answers), Err(error));
    assert_eq!(error.number(), number);
    assert_eq!(answers, marked(room));
}

#[test]
fn sizes() {
    let many = vec![0; 1025];
    for scheme in SCHEMES {
        for (sessions, cells) in [(0, 4), (9, 4), (255, 4), (2, 0), (2, 257), (2, 65535)] {
            refused(Error::Sizes, 3, |a| play_numbers(scheme, sessions, cells, &[7], &[word::pop(0)], a), 2);
        }
        refused(Error::Sizes, 3, |a| play_numbers(scheme, 2, 4, &many, &[word::pop(0)], a), 2);
        assert!(play_numbers(scheme, 8, 256, &many[1..], &[], &mut []).is_ok());
        assert!(play_numbers(scheme, 1, 1, &[], &[], &mut []).is_ok());
    }
}

#[test]
fn too_few_answers() {
    let words = [word::pop(0), word::step(0)];
    for scheme in SCHEMES {
        refused(Error::ShortAnswers, 10, |a| play_numbers(scheme, 2, 4, &[7], &words, a), 1);
        refused(Error::ShortAnswers, 10, |a| play_bytes(scheme, 2, 4, &[b"a"], &words, a), 0);
        refused(Error::ShortAnswers, 10, |a| play_numbers(scheme, 9, 4, &[7], &words, a), 1);
    }
}

#[test]
fn byte_strings() {
    let words = [word::pop(0)];
    for scheme in SCHEMES {
        refused(Error::TooLong, 4, |a| play_bytes(scheme, 2, 4, &[b"a", b"MSCU12345678"], &words, a), 1);
        refused(Error::TooLong, 4, |a| play_bytes(scheme, 2, 4, &[&[0; 300]], &words, a), 1);
        refused(Error::Lengths, 11, |a| play_cut(scheme, 2, 4, b"abc", &[1, 1], &words, a), 1);
        refused(Error::Lengths, 11, |a| play_cut(scheme, 2, 4, b"abc", &[1, 3], &words, a), 1);
        refused(Error::Lengths, 11, |a| play_cut(scheme, 2, 4, b"abc", &[], &words, a), 1);
        refused(Error::Lengths, 11, |a| play_cut(scheme, 2, 4, b"abc", &[12], &words, a), 1);
        assert!(play_bytes(scheme, 2, 4, &[b"", b"MSCU1234567"], &words, &mut marked(1)).is_ok());
    }
}

#[test]
fn refused_words_and_answers_past_the_last() {
    let words = [0xe000_0000, 0xc000_0001, word::step(2), word::insert(0, 2), word::step(0), word::push(0, 0), word::pop(0), word::push(1, 0)];
    for scheme in SCHEMES {
        let mut answers = marked(words.len() + 3);
        let report = play_bytes(scheme, 2, 1, &[b"a", b"b"], &words, &mut answers).unwrap();
        assert_eq!(report, Report { held: 0, free: 0, words: 8 });
        let values: Vec<u16> = answers.iter().map(Answer::value).collect();
        assert_eq!(values, [5, 6, 7, 8, 22, 0, 21, 23, 0, 0, 0]);
        assert_eq!(answers[5].kind(), AnswerKind::UnderWay);
        assert_eq!(answers[8..], marked(3));
    }
}
