//! Document 02, 2.10 by example; a short comparison; wrong loaders that the comparison has to see.

use independent::draft::{CoreRecord, Draft, Program};
use independent::profiles::*;
use independent::reference::{self, command::*, types::*, Profile};
use std::panic::catch_unwind;

fn all() -> Vec<Loader> {
    vec![REFERENCE, trials::linked::LOADER]
}

/// The number of a program under the small profile and the full one.
fn numbers(loader: Loader, data_size: u16, program: Program) -> (u8, u8) {
    let file = Draft::single(data_size, 0, 9, program).bytes();
    ((loader.check)(Profile::Small, &file), (loader.check)(Profile::Full, &file))
}

#[test]
fn by_example() {
    for loader in all() {
        let number = |size, program| numbers(loader, size, program);
        assert_eq!(number(1_024, Program::new().returns()), (0, 0));
        assert_eq!(number(1_025, Program::new().returns()), (3, 0));
        assert_eq!(number(4_097, Program::new().returns()), (3, 3));
        // every typed command with every type that it takes
        for code in ADD..=NE {
            for kind in 0..=TIME {
                if reference::takes_type(code, kind) {
                    let small = if (LINT..=LREAL).contains(&kind) { 27 } else { 0 };
                    assert_eq!(number(64, Program::new().typed(code, kind, 0, 8, 16).returns()), (small, 0), "{code} {kind}");
                }
            }
        }
        for from in SINT..=LREAL {
            for to in SINT..=LREAL {
                let small = if from >= LINT || to >= LINT { 27 } else { 0 };
                assert_eq!(number(64, Program::new().convert(from, to, 0, 8).returns()), (small, 0), "{from} to {to}");
            }
        }
        for code in [PACK, UNPACK] {
            assert_eq!(number(64, Program::new().digits(code, DWORD, 0, 8).returns()), (0, 0));
            assert_eq!(number(64, Program::new().digits(code, LWORD, 0, 8).returns()), (27, 0));
        }
        // moves of eight bytes name no type
        let moves = Program::new().constant(0, &[9; 8]).copy(0, 8, 8).element(AURD, 0, 8, 16, 8, 3).element(AUWD, 0, 8, 16, 8, 3);
        assert_eq!(number(64, moves.returns()), (0, 0));
        // the order of 6, 27 and 7
        let wide = || Program::new().typed(ADD, LINT, 0, 8, 16);
        assert_eq!(number(64, wide().raw(&[0x63])), (27, 6), "27 before a later 6");
        assert_eq!(number(64, Program::new().raw(&[0x63]).typed(ADD, LINT, 0, 8, 16)), (6, 6), "6 before a later 27");
        assert_eq!(number(64, Program::new().typed(MOD, REAL, 0, 8, 16).returns()), (6, 6), "6 of the same instruction");
        assert_eq!(number(64, wide().jump(1)), (27, 7), "27 before 7");
        assert_eq!(number(64, Program::new().jump(1)), (7, 7));
        assert_eq!(number(1_025, wide().returns()), (3, 0), "3 before 27");
    }
}

#[test]
fn core_by_core() {
    let core = || CoreRecord { data_size: 64, input_size: 0, limit: 9 };
    let wide = || Program::new().typed(ADD, LREAL, 0, 8, 16).returns().code();
    for loader in all() {
        let check = |codes| (loader.check)(Profile::Small, &Draft::new(vec![core(), core()], Vec::new(), codes).bytes());
        assert_eq!(check(vec![Program::new().jump(1).code(), wide()]), 7, "7 of core 0 before 27 of core 1");
        assert_eq!(check(vec![wide(), Program::new().raw(&[0x63]).code()]), 27, "27 of core 0 before 6 of core 1");
        let mut followed = Draft::new(vec![core(), core()], Vec::new(), vec![wide(), Program::new().returns().code()]);
        followed.rest = vec![0];
        assert_eq!((loader.check)(Profile::Small, &followed.bytes()), 27, "27 before 24");
    }
}

#[test]
fn short_comparison() {
    for other in all() {
        assert_eq!(compare(REFERENCE, other, 1, 20_000).missing(), Vec::<String>::new());
    }
}

/// The check of the file as it is after the change of its type bytes.
fn retyped(file: &[u8], change: impl Fn(u8, bool, u8) -> u8) -> u8 {
    let mut file = file.to_vec();
    for code in codes(&file) {
        retype(&mut file[code], &change);
    }
    reference::check_file_for(Profile::Small, &file)
}

fn under_small(profile: Profile, file: &[u8], wrong: impl Fn() -> u8) -> u8 {
    match profile {
        Profile::Full => reference::check_file(file),
        Profile::Small => wrong(),
    }
}

fn lint_is_small(profile: Profile, file: &[u8]) -> u8 {
    under_small(profile, file, || retyped(file, |_, _, kind| if kind == LINT { DINT } else { kind }))
}

fn only_the_source_is_small(profile: Profile, file: &[u8]) -> u8 {
    under_small(profile, file, || retyped(file, |_, second, kind| if second { narrow(kind) } else { kind }))
}

fn packed_lword_is_small(profile: Profile, file: &[u8]) -> u8 {
    under_small(profile, file, || retyped(file, |code, _, kind| if matches!(code, PACK | UNPACK) { narrow(kind) } else { kind }))
}

/// 27 after all 6, or all 7, or 24.
fn after<const NUMBER: u8>(profile: Profile, file: &[u8]) -> u8 {
    match (reference::check_file(file), reference::check_file_for(profile, file)) {
        (number, 27) if number == NUMBER => NUMBER,
        (_, number) => number,
    }
}

fn data_of_1025(profile: Profile, file: &[u8]) -> u8 {
    under_small(profile, file, || {
        let mut file = file.to_vec();
        for k in 0..file.get(4).map_or(0, |&n| n as usize) {
            if file.get(5 + 6 * k..7 + 6 * k) == Some(&[1, 4]) {
                file[5 + 6 * k] = 0;
            }
        }
        reference::check_file_for(Profile::Small, &file)
    })
}

fn profile_not_asked(_: Profile, file: &[u8]) -> u8 {
    reference::check_file(file)
}

fn told_as_6(profile: Profile, file: &[u8]) -> u8 {
    match reference::check_file_for(profile, file) {
        27 => 6,
        number => number,
    }
}

fn time_is_wide(profile: Profile, file: &[u8]) -> u8 {
    match reference::check_file_for(profile, file) {
        0 if profile == Profile::Small => retyped(file, |_, _, kind| if kind == TIME { LINT } else { kind }),
        number => number,
    }
}

#[test]
fn wrong_loaders_are_seen() {
    let wrong: [fn(Profile, &[u8]) -> u8; 10] = [
        lint_is_small,
        only_the_source_is_small,
        packed_lword_is_small,
        after::<6>,
        after::<7>,
        after::<24>,
        data_of_1025,
        profile_not_asked,
        told_as_6,
        time_is_wide,
    ];
    for check in wrong {
        assert!(catch_unwind(|| compare(REFERENCE, Loader { check, ..REFERENCE }, 1, 20_000)).is_err());
    }
    // one that starts a small file with the full profile's call
    let whole: Loader = Loader { fresh: |_, file, t, s, b, h| reference::fresh(file, t, s, b, h), ..REFERENCE };
    assert!(catch_unwind(|| compare(REFERENCE, whole, 1, 20_000)).is_err());
}
