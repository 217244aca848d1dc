//! Document 02, 2.14 by example; a short comparison; wrong windows that the comparison has to see.

use independent::window::*;
use std::panic::catch_unwind;

fn all() -> Vec<Find> {
    vec![find, trials::linked::window]
}

/// Core 0 has 3 bytes of data and RETURN, core 1 has 5 and six bytes of code.
const FILE: &[u8] = b"MCS1\x02\x03\x00\x00\x00\x01\x00\x05\x00\x00\x00\x01\x00\x00\x01\x00\x00\x06\x00\x06aa\x01z\x00";

fn asked(shown: Shown, core: u8, start: usize, count: usize) -> Asked {
    Asked { shown, core, start, count }
}

#[test]
fn by_example() {
    for find in all() {
        let data = |core, start, count| find(FILE, &[0; 8], asked(Shown::Data, core, start, count));
        let code = |core, start, count| find(FILE, &[0; 8], asked(Shown::Code, core, start, count));
        assert_eq!(data(0, 0, 3), Ok(0));
        assert_eq!(data(1, 1, 2), Ok(4));
        assert_eq!(data(1, 5, 0), Ok(8), "an empty stretch at the very end");
        assert_eq!(code(0, 0, 1), Ok(20));
        assert_eq!(code(1, 1, 2), Ok(24));
        assert_eq!(data(0, 0, 4), Err(OUTSIDE));
        assert_eq!(data(0, 4, 0), Err(OUTSIDE), "past the end");
        assert_eq!(data(1, usize::MAX, 2), Err(OUTSIDE), "the sum does not wrap");
        assert_eq!(code(2, 0, 0), Err(OUTSIDE), "no such core");
        assert_eq!(find(FILE, &[0; 7], asked(Shown::Code, 2, 0, 0)), Err(LENT), "21 before 34, for a code too");
        assert_eq!(find(&FILE[..28], &[], asked(Shown::Data, 2, 0, 0)), Err(1), "the file before 21");
    }
}

#[test]
fn short_comparison() {
    for other in all() {
        compare(find, other, 1, 1_000);
    }
}

fn with_the_length_bytes(file: &[u8], buffer: &[u8], asked: Asked) -> Result<usize, u8> {
    find(file, buffer, asked).map(|place| if asked.shown == Shown::Code { place - 2 } else { place })
}

fn empty_at_the_end_refused(file: &[u8], buffer: &[u8], asked: Asked) -> Result<usize, u8> {
    find(file, buffer, Asked { count: asked.count.max(1), ..asked })
}

fn core_before_the_buffer(file: &[u8], buffer: &[u8], asked: Asked) -> Result<usize, u8> {
    match find(file, buffer, asked) {
        Err(LENT) if file[4] <= asked.core => Err(OUTSIDE),
        answer => answer,
    }
}

#[test]
fn wrong_windows_are_seen() {
    for wrong in [with_the_length_bytes as Find, empty_at_the_end_refused, core_before_the_buffer] {
        assert!(catch_unwind(|| compare(find, wrong, 1, 1_000)).is_err());
    }
}
