//! Document 02, 2.11: its numbers and its sentence by example, a short comparison, and wrong implementations that the comparison has to see.

use independent::holding::*;
use std::panic::catch_unwind;

fn all() -> Vec<Lowest> {
    vec![lowest, trials::linked::lowest]
}

/// The number, and the answers as INTs; two bytes more are lent than the records need, and must stay.
fn answers(lowest: Lowest, records: &[(i32, i16)], span: u32) -> (u8, Vec<i16>) {
    let records: Vec<Record> = records.iter().map(|&(time, reading)| Record { time, reading }).collect();
    let mut lent = vec![0x55; ANSWER * records.len() + 2];
    let number = lowest(&run_of(&records), span, &mut lent);
    assert_eq!(lent[ANSWER * records.len()..], [0x55, 0x55]);
    (number, lent.chunks_exact(ANSWER).take(records.len()).map(|place| i16::from_le_bytes([place[0], place[1]])).collect())
}

fn number(lowest: Lowest, run: &[u8], span: u32, places: usize) -> u8 {
    let mut lent = vec![0x55; places];
    let number = lowest(run, span, &mut lent);
    assert!(number == NONE || lent.iter().all(|&byte| byte == 0x55));
    number
}

#[test]
fn the_sentence() {
    for lowest in all() {
        // At least its own time minus W: the edge counts, one millisecond before it does not.
        assert_eq!(answers(lowest, &[(0, 1), (1000, 2), (2000, 3)], 1000), (0, vec![1, 1, 2]));
        assert_eq!(answers(lowest, &[(0, 1), (1001, 2), (2002, 3)], 1000), (0, vec![1, 2, 3]));
        // Up to it: of equal times the later ones are not in the earlier's window.
        assert_eq!(answers(lowest, &[(7, 5), (7, 4), (7, 6), (8, 9)], 1), (0, vec![5, 4, 4, 4]));
        assert_eq!(answers(lowest, &[(0, 32767), (1, -32768), (2, 32767)], 1), (0, vec![32767, -32768, -32768]));
        // A difference beyond the TIME range counts by its true value, and so does a time minus W.
        assert_eq!(answers(lowest, &[(i32::MIN, 1), (i32::MAX, 2)], 600_000), (0, vec![1, 2]));
        assert_eq!(answers(lowest, &[(-(1 << 30), 1), (1 << 30, 2)], 600_000), (0, vec![1, 2]));
        assert_eq!(answers(lowest, &[(i32::MIN, 4), (i32::MIN, 3), (i32::MIN + 8, 5)], 600_000), (0, vec![4, 3, 3]));
        assert_eq!(answers(lowest, &[], 1), (0, vec![]));
    }
}

#[test]
fn the_refusals() {
    let run = run_of(&[Record { time: 5, reading: 1 }, Record { time: 6, reading: 2 }]);
    let fallen = run_of(&[Record { time: 5, reading: 1 }, Record { time: 4, reading: 2 }]);
    let cut = [&fallen[..], &[1]].concat();
    for lowest in all() {
        assert_eq!([1, 600_000].map(|span| number(lowest, &run, span, 4)), [NONE; 2]);
        assert_eq!([0, 600_001, u32::MAX].map(|span| number(lowest, &run, span, 4)), [SPAN; 3]);
        assert_eq!([0, 2, 3].map(|places| number(lowest, &run, 9, places)), [ANSWER_PLACES; 3]);
        assert_eq!(number(lowest, &fallen, 9, 4), RUN);
        assert_eq!(number(lowest, &run[..11], 9, 4), RUN);
        // In that order; a record that is cut counts as one more.
        assert_eq!(number(lowest, &cut, 0, 4), SPAN);
        assert_eq!(number(lowest, &cut, 9, 5), ANSWER_PLACES);
        assert_eq!(number(lowest, &cut, 9, 6), RUN);
        assert_eq!(number(lowest, &[], 9, 0), NONE);
    }
}

#[test]
fn comparisons_are_complete() {
    for other in all() {
        assert_eq!(compare(lowest, other, 5, 20_000).missing(), Vec::<String>::new());
    }
}

fn wrong(run: &[u8], span: u32, answers: &mut [u8], keeps: fn(Record, Record, u32) -> bool) -> u8 {
    let number = lowest(run, span, answers);
    if number == NONE {
        let records: Vec<Record> = run
            .chunks_exact(RECORD)
            .map(|b| Record { time: i32::from_le_bytes([b[0], b[1], b[2], b[3]]), reading: i16::from_le_bytes([b[4], b[5]]) })
            .collect();
        for (i, &last) in records.iter().enumerate() {
            let least = records[..=i].iter().filter(|&&record| keeps(record, last, span)).map(|record| record.reading).min();
            answers[ANSWER * i..][..ANSWER].copy_from_slice(&least.unwrap_or(last.reading).to_le_bytes());
        }
    }
    number
}

#[test]
fn wrong_ones_are_seen() {
    let mistakes: &[(&str, Lowest)] = &[
        ("the edge left out", |run, span, answers| {
            wrong(run, span, answers, |record, last, span| record.time as i64 > last.time as i64 - span as i64)
        }),
        ("differences modulo 2^32", |run, span, answers| {
            wrong(run, span, answers, |record, last, span| last.time.wrapping_sub(record.time) <= span as i32)
        }),
        ("a cut record needs no place", |run, span, answers| match lowest(run, span, answers) {
            ANSWER_PLACES if run.len() / RECORD <= answers.len() / ANSWER => RUN,
            number => number,
        }),
        ("30 before 29", |run, span, answers| match lowest(run, span, answers) {
            ANSWER_PLACES => match lowest(run, span, &mut vec![0; run.len()]) {
                NONE => ANSWER_PLACES,
                number => number,
            },
            number => number,
        }),
        ("the rest of the places cleared", |run, span, answers| {
            let number = lowest(run, span, answers);
            if number == NONE {
                answers[ANSWER * (run.len() / RECORD)..].fill(0);
            }
            number
        }),
    ];
    for (name, mistake) in mistakes {
        assert!(catch_unwind(|| compare(lowest, *mistake, 6, 20_000)).is_err(), "{name} went unseen");
    }
}
