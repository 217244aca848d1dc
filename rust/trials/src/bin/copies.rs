//! MEMCP's copy (document 02, 2.5) in three ways with one contract: by words as the machine does it, by single bytes, and through an array. Copies
//! of random stretches, sharing bytes or not, are held to the standard library's; then 2,000 bytes are timed, and the memory compared.
//!
//! `copies [rounds]`, after `tools/staticlib copies`

use independent::random::Random;
use std::time::{Duration, Instant};

#[link(name = "copies", kind = "static")]
extern "C" {
    fn rikzord_copy_by_words(data: *mut u8, data_len: usize, to: usize, from: usize, count: usize) -> u8;
    fn rikzord_copy_by_bytes(data: *mut u8, data_len: usize, to: usize, from: usize, count: usize) -> u8;
    fn rikzord_copy_through(data: *mut u8, data_len: usize, to: usize, from: usize, count: usize) -> u8;
}

type Way = unsafe extern "C" fn(*mut u8, usize, usize, usize, usize) -> u8;

const WAYS: [(&str, Way); 3] = [
    ("a word at a time, then single bytes", rikzord_copy_by_words),
    ("single bytes", rikzord_copy_by_bytes),
    ("through an array, the way before", rikzord_copy_through),
];

/// A core's largest data.
const SIZE: usize = 4_096;
/// A recipe block.
const BLOCK: usize = 2_000;
const CASES: usize = 100_000;
const COPIES_IN_A_CALL: usize = 1_000;
const CALLS: usize = 200;

fn main() {
    let rounds: usize = std::env::args().nth(1).map_or(15, |number| number.parse().expect("a number of rounds"));
    let mut random = Random::new(1);
    let shared = (0..CASES).filter(|_| compare(&mut random)).count();
    println!("{CASES} copies each way agree, {shared} of them of stretches that share bytes");
    assert!(shared > 0 && shared < CASES, "both kinds came");
    // Places eight bytes apart and not, in turn, so that no way is timed on its best places alone.
    for (to, from) in [(2_048, 0), (2_049, 3), (0, 2_096), (16, 2_021)] {
        let mut least = [Duration::MAX; 3];
        for _ in 0..rounds {
            let mut left = Vec::new();
            for (way, least) in WAYS.iter().zip(&mut least) {
                let mut data = pattern();
                for _ in 0..CALLS {
                    let start = Instant::now();
                    for _ in 0..COPIES_IN_A_CALL {
                        assert!(copy(way.1, std::hint::black_box(&mut data), to, from, BLOCK) == 0);
                    }
                    *least = (*least).min(start.elapsed());
                }
                left.push(data);
            }
            let mut right = pattern();
            right.copy_within(from..from + BLOCK, to);
            assert!(left.iter().all(|data| *data == right), "the ways leave different memory");
        }
        println!("{BLOCK} bytes from {from} to {to}, ns a copy; the memory is the same");
        for (way, least) in WAYS.iter().zip(least) {
            println!("{:>10.1}  {}", least.as_nanos() as f64 / COPIES_IN_A_CALL as f64, way.0);
        }
    }
}

/// One random copy each way against the standard library's; places and counts go a little past the end. Whether the stretches share bytes.
fn compare(random: &mut Random) -> bool {
    let size = random.below(80);
    let (to, from, count) = (random.below(size + 3), random.below(size + 3), random.below(size + 3));
    let before: Vec<u8> = (0..size).map(|_| random.below(256) as u8).collect();
    let inside = to + count <= size && from + count <= size;
    let mut right = before.clone();
    if inside {
        right.copy_within(from..from + count, to);
    }
    for (name, way) in WAYS {
        let mut data = before.clone();
        let answer = copy(way, &mut data, to, from, count);
        assert!(answer == u8::from(!inside) && data == right, "{name}: {count} bytes from {from} to {to} of {size}");
    }
    inside && to.abs_diff(from) < count
}

fn copy(way: Way, data: &mut [u8], to: usize, from: usize, count: usize) -> u8 {
    // The functions ask nothing of their caller but a slice that is there.
    unsafe { way(data.as_mut_ptr(), data.len(), to, from, count) }
}

fn pattern() -> Vec<u8> {
    (0..SIZE).map(|place| (place * 7 + place / 256) as u8).collect()
}
