//! How the times of the proved machine grow: of each call the time of a unit, a step, a byte, a record, against how many there are. What the same call takes with
//! no unit is left out of it. The least of many calls counts, over several passes, since other work on a machine disturbs one for a while. Prints the tables and
//! writes them as a plot.
//!
//! `growth [PLOT.svg [passes]]`

use independent::draft::{CoreRecord, Draft, Program, Variable};
use independent::holding;
use independent::holding::Record;
use independent::interface::{Machine, Next};
use independent::reference::{mode, refusal, Core, Registers, Semaphore, CALL_DEPTH, MOST_CODE, MOST_DATA};
use std::fmt::Write;
use std::hint::black_box;
use std::time::{Duration, Instant};
use trials::linked::{self, Linked};
use trials::workloads::{dint_loop, four_cores, unshared, Plant, Turns, Work, JUMPED, TURN};

fn main() {
    let mut arguments = std::env::args().skip(1);
    let plot = arguments.next();
    let passes: usize = arguments.next().map_or(5, |number| number.parse().expect("a number of passes"));
    let pass = || [runs(), files(), variables(), places(), codes(), reruns(), tasks(), windows()];
    let mut panels = pass();
    for _ in 1..passes {
        panels.iter_mut().zip(pass()).for_each(|(panel, again)| panel.keep_least(again));
    }
    for panel in &panels {
        panel.print();
    }
    if let Some(path) = plot {
        std::fs::write(&path, drawn(&panels)).unwrap_or_else(|error| panic!("{path}: {error}"));
    }
}

/// One subject: the time of a unit against a size, in one or more ways.
struct Panel {
    title: &'static str,
    /// What the size counts.
    size: &'static str,
    unit: &'static str,
    series: Vec<Series>,
}

struct Series {
    name: &'static str,
    points: Vec<Point>,
}

/// Nanoseconds of a call on work of a size.
#[derive(Clone, Copy)]
struct Point {
    size: usize,
    units: usize,
    call: f64,
    /// The same call with no unit.
    alone: f64,
}

impl Point {
    /// The nanoseconds of a unit.
    fn time(&self) -> f64 {
        (self.call - self.alone) / self.units as f64
    }
}

impl Panel {
    fn keep_least(&mut self, again: Panel) {
        for (series, again) in self.series.iter_mut().zip(again.series) {
            for (point, again) in series.points.iter_mut().zip(again.points) {
                point.call = point.call.min(again.call);
                point.alone = point.alone.min(again.alone);
            }
        }
    }

    fn print(&self) {
        println!("{}, in ns a {}", self.title, self.unit);
        for series in &self.series {
            println!("  {:36} {:>14} {:>14} {:>10}", series.name, "alone, ns", "the call, ns", "a unit");
            for point in &series.points {
                let size = format!("{} {}", grouped(point.size), self.size);
                println!("    {size:34} {:14.0} {:14.0} {:10.2}", point.alone, point.call, point.time());
            }
        }
    }
}

/// A number with its thousands apart.
fn grouped(number: usize) -> String {
    let digits = number.to_string();
    let apart = |(at, digit): (usize, char)| {
        let comma = at > 0 && (digits.len() - at).is_multiple_of(3);
        [comma.then_some(','), Some(digit)].into_iter().flatten()
    };
    digits.chars().enumerate().flat_map(apart).collect()
}

/// The least time of a call over so many, and over 20 milliseconds at the least.
fn least(calls: usize, mut call: impl FnMut() -> Duration) -> f64 {
    const LEAST: Duration = Duration::from_millis(20);
    let start = Instant::now();
    let (mut done, mut least) = (0, Duration::MAX);
    while done < calls || start.elapsed() < LEAST {
        least = least.min(call());
        done += 1;
    }
    least.as_nanos() as f64
}

/// The least time of one of so many calls made together, for calls that are short beside the clock.
fn least_together(together: usize, mut call: impl FnMut() -> u8) -> f64 {
    let timed = || {
        let start = Instant::now();
        let refused = (0..together).fold(refusal::NONE, |refused, _| refused | call());
        let time = start.elapsed();
        assert_eq!(refused, refusal::NONE);
        time
    };
    least(30, timed) / together as f64
}

// ---- the calls

/// A run against the length of its order.
fn runs() -> Panel {
    const LENGTHS: [usize; 9] = [1_000, 3_000, 10_000, 30_000, 100_000, 300_000, 1_000_000, 3_000_000, 10_000_000];
    let series = |name, draft: Draft| {
        let work = Work::new(&draft, Turns::RoundRobin, 1, LENGTHS[LENGTHS.len() - 1]);
        let fresh = Plant::new(&work, &Linked);
        let time = |length: usize| {
            let mut plant = fresh.clone();
            let call = || {
                plant.table.copy_from_slice(&fresh.table);
                plant.semaphore = fresh.semaphore;
                plant.follow(&work, &Linked, &work.order(0)[..length])
            };
            // A long call is seldom left alone.
            least(if length < 1_000_000 { 5 } else { 20 }, call)
        };
        let alone = time(0);
        let point = |length| Point { size: length, units: length, call: time(length), alone };
        Series { name, points: LENGTHS.map(point).to_vec() }
    };
    let series = vec![series("a DINT loop", dint_loop()), series("four cores exchanging", four_cores())];
    Panel { title: "A run against the length of its order", size: "steps", unit: "step", series }
}

/// The points of a call on files, one beyond the first, which has no units.
fn beyond<const POINTS: usize>(first: Draft, others: [Draft; POINTS], time: impl Fn(&[u8]) -> f64) -> Vec<Point> {
    let first = first.bytes();
    let alone = time(&first);
    let point = |draft: Draft| {
        let file = draft.bytes();
        Point { size: file.len(), units: file.len() - first.len(), call: time(&file), alone }
    };
    others.map(point).to_vec()
}

/// Turns of code of each core, up to as many as it has room for.
const TURNS: [usize; 7] = [2, 5, 10, 20, 40, 80, MOST_CODE / TURN];

/// Judging against the size of a file: one whose code grows, and one whose start values do.
fn files() -> Panel {
    let time = |file: &[u8]| least_together(20, || Linked.check_file(black_box(file)));
    let code = TURNS.map(|turns| unshared(0, turns));
    let valued = |count: u16| unshared(0, 0).with_values(vec![(0..count).map(|place| (place, 1)).collect(); 4]);
    let values = [64, 128, 256, 512, 1_024, 2_048, MOST_DATA as u16].map(valued);
    let series = vec![
        Series { name: "code", points: beyond(unshared(0, 0), code, time) },
        Series { name: "start values", points: beyond(valued(0), values, time) },
    ];
    Panel { title: "Judging a file against its size", size: "bytes", unit: "byte", series }
}

/// Judging against the number of variables of four cores, each of which every core names.
fn variables() -> Panel {
    let core = CoreRecord { data_size: 1024, input_size: 8, limit: 100 };
    let time = |count: usize, width: u8| {
        let variable = |number: u16| {
            let writer = 1 << (number % 4);
            let place = number * width as u16;
            Variable { shared: place, width, attribute: (15 & !writer) << 4 | writer, local: [8 + place; 4] }
        };
        let variables = (0..count as u16).map(variable).collect();
        let file = Draft::new(vec![core.clone(); 4], variables, vec![Program::new().returns().code(); 4]).bytes();
        least_together(100, || Linked.check_file(black_box(&file)))
    };
    let series = |name, width| {
        let alone = time(0, width);
        let point = |count| Point { size: count, units: count, call: time(count, width), alone };
        Series { name, points: [4, 8, 16, 32, 64].map(point).to_vec() }
    };
    let series = vec![series("of 8 bytes", 8), series("of 1 byte", 1)];
    Panel { title: "Judging variables against their number", size: "variables", unit: "variable", series }
}

/// The fitness of a state, by the next core to move, whose call has the judging of the file beside it: four cores, so deep in calls, whose program counters and
/// return places stand at the end of so many instructions of one byte.
fn fitness(instructions: usize, depth: usize, size: usize) -> Point {
    const CORES: usize = 4;
    let code = || (0..instructions).fold(Program::new(), |program, _| program.returns()).code();
    let record = CoreRecord { data_size: 4096, input_size: 8, limit: 65_535 };
    let file = Draft::new(vec![record; CORES], Vec::new(), (0..CORES).map(|_| code()).collect()).bytes();
    // One record for each core.
    let trace = [&[1, 0], &[0; 12][..]].concat().repeat(CORES);
    let last = instructions as u16 - 1;
    let mut core = Core::fresh();
    core.registers = Registers { mode: mode::EXECUTING, counter: last, depth: depth as u8, ..core.registers };
    core.places[..depth].fill(last);
    let table = vec![core; CORES];
    let next = || match Linked.next_core(&file, &trace, black_box(&table), &Semaphore::default(), 0) {
        Next::Core(_) => refusal::NONE,
        other => panic!("{other:?}"),
    };
    let alone = least_together(20, || Linked.check_file(black_box(&file)));
    Point { size, units: CORES * (1 + depth), call: least_together(5, next), alone }
}

/// Fitness against the places that a state has: of each core the program counter and as many return places as calls are open.
fn places() -> Panel {
    let of = |instructions| [0, 1, 2, 4, 8, CALL_DEPTH].map(|depth| fitness(instructions, depth, 4 * (1 + depth))).to_vec();
    let series = vec![Series { name: "64 instructions", points: of(64) }, Series { name: "512 instructions", points: of(512) }];
    Panel { title: "Fitness of a state against its places", size: "code places", unit: "place", series }
}

/// Fitness against the instructions in front of each place.
fn codes() -> Panel {
    let of = |depth| [16, 64, 256, 1_024, 2_048, 4_096, MOST_CODE].map(|instructions| fitness(instructions, depth, instructions)).to_vec();
    let series = vec![Series { name: "no call open", points: of(0) }, Series { name: "16 calls open", points: of(CALL_DEPTH) }];
    Panel { title: "Fitness of a state against its code", size: "instructions of a core", unit: "place", series }
}

/// A rerun against the takings of its list.
fn reruns() -> Panel {
    let work = Work::new(&four_cores(), Turns::RoundRobin, 1, 4);
    let mut lent = work.lent();
    let mut time = |takings: usize| {
        // Whole cycles of one core after another, which some order of steps produces.
        let list = [0, 16, 1, 17, 2, 18, 3, 19].repeat(takings.div_ceil(8));
        let call = || {
            let start = Instant::now();
            let number = linked::rerun(&work.file, &work.trace, black_box(&list[..takings]), &mut lent);
            let time = start.elapsed();
            assert_eq!(number, refusal::NONE);
            time
        };
        least(5, call)
    };
    let alone = time(0);
    let point = |takings| Point { size: takings, units: takings, call: time(takings), alone };
    let points = [10, 30, 100, 300, 1_000, 3_000, 10_000, 30_000, 100_000, 400_000].map(point).to_vec();
    let series = vec![Series { name: "four cores exchanging", points }];
    Panel { title: "A rerun against the takings of its list", size: "takings", unit: "taking", series }
}

/// What a task will take, against the size of its file.
fn tasks() -> Panel {
    let time = |file: &[u8]| least_together(5, || linked::takes(black_box(file), &mut [0; 3], &mut [0; 4], &mut [0; 4]));
    let files = TURNS.map(|turns| unshared(JUMPED, turns));
    let series = vec![Series { name: "four cores, jumps upward", points: beyond(unshared(0, 0), files, time) }];
    Panel { title: "What a task takes against its file's size", size: "bytes", unit: "byte", series }
}

/// The lowest reading against the records of a window.
fn windows() -> Panel {
    const RECORDS: usize = 200_000;
    let series = |name, reading: fn(usize) -> i16| {
        let records: Vec<Record> = (0..RECORDS).map(|i| Record { time: i as i32, reading: reading(i) }).collect();
        let run = holding::run_of(&records);
        let mut answers = vec![0; holding::ANSWER * RECORDS];
        let mut time = |window: usize| {
            let call = || {
                let start = Instant::now();
                let number = linked::lowest(black_box(&run), window as u32 - 1, &mut answers);
                let time = start.elapsed();
                assert_eq!(number, holding::NONE);
                time
            };
            Point { size: window, units: RECORDS, call: least(5, call), alone: 0.0 }
        };
        Series { name, points: [2, 10, 30, 100, 300, 1_000, 3_000, 10_000, 30_000, 100_000].map(&mut time).to_vec() }
    };
    let series = vec![
        series("readings at random", |i| (i.wrapping_mul(2_654_435_761) >> 7) as i16),
        series("readings that rise", |i| (i / 4) as i16),
        series("readings that fall", |i| -((i / 4) as i16)),
    ];
    Panel { title: "The lowest reading against its window", size: "records in a window", unit: "record", series }
}

// ---- the plot

const COLUMNS: usize = 2;
const PANEL: [f64; 2] = [430.0, 310.0];
/// Around the field of a panel: left, right, above, below.
const MARGINS: [f64; 4] = [62.0, 26.0, 76.0, 50.0];
/// Of each series the colour, and the dashes, so that one under another is seen.
const LINES: [(&str, &str); 3] = [("#1f5fa8", "none"), ("#c2571a", "8 6"), ("#3c8a3c", "2 6")];

fn drawn(panels: &[Panel]) -> String {
    let rows = panels.len().div_ceil(COLUMNS);
    let (width, height) = (PANEL[0] * COLUMNS as f64, PANEL[1] * rows as f64);
    let mut svg = format!(
        "<svg xmlns=\"http://www.w3.org/2000/svg\" viewBox=\"0 0 {width} {height}\" width=\"{width}\" height=\"{height}\" \
         font-family=\"sans-serif\" font-size=\"12\">\n<rect width=\"{width}\" height=\"{height}\" fill=\"#ffffff\"/>\n"
    );
    for (number, panel) in panels.iter().enumerate() {
        let (x, y) = (PANEL[0] * (number % COLUMNS) as f64, PANEL[1] * (number / COLUMNS) as f64);
        writeln!(svg, "<g transform=\"translate({x} {y})\">\n{}</g>", panel.drawn()).expect("a text takes all");
    }
    svg + "</svg>\n"
}

impl Panel {
    /// Sizes by their logarithm to the right, times upward from 0, so that what is flat looks flat.
    fn drawn(&self) -> String {
        let [left, right, above, below] = MARGINS;
        let (field_width, field_height) = (PANEL[0] - left - right, PANEL[1] - above - below);
        let points = || self.series.iter().flat_map(|series| &series.points);
        let sizes = || points().map(|point| (point.size as f64).log10());
        let (first, last) = (sizes().fold(f64::MAX, f64::min), sizes().fold(f64::MIN, f64::max));
        let longest = points().map(Point::time).fold(0.0, f64::max);
        let mark = mark_step(longest * 1.1);
        let marks = (longest * 1.1 / mark).ceil();
        let across = |size: f64| left + field_width * (size.log10() - first) / (last - first);
        let up = |time: f64| above + field_height * (1.0 - time / (mark * marks));
        let mut svg = String::new();
        let mut line = |text: String| svg.push_str(&(text + "\n"));
        line(format!("<text x=\"{left}\" y=\"18\" font-size=\"14\" font-weight=\"bold\" fill=\"#222222\">{}</text>", self.title));
        line(format!("<text x=\"{left}\" y=\"36\" fill=\"#444444\">ns a {}</text>", self.unit));
        for number in 0..=marks as usize {
            let (time, y) = (mark * number as f64, up(mark * number as f64));
            line(format!("<path d=\"M{left} {y:.1}H{:.1}\" stroke=\"#dddddd\"/>", left + field_width));
            let label = match mark {
                ..0.1 => format!("{time:.2}"),
                ..1.0 => format!("{time:.1}"),
                _ => grouped(time as usize),
            };
            line(format!("<text x=\"{:.1}\" y=\"{:.1}\" text-anchor=\"end\" fill=\"#444444\">{label}</text>", left - 6.0, y + 4.0));
        }
        let mut labelled = f64::MIN;
        for size in marked_sizes(first, last) {
            let x = across(size as f64);
            line(format!("<path d=\"M{x:.1} {:.1}v5\" stroke=\"#444444\"/>", above + field_height));
            if x - labelled > 48.0 {
                let y = above + field_height + 19.0;
                line(format!("<text x=\"{x:.1}\" y=\"{y:.1}\" text-anchor=\"middle\" fill=\"#444444\">{}</text>", short(size)));
                labelled = x;
            }
        }
        let middle = left + field_width / 2.0;
        line(format!("<text x=\"{middle:.1}\" y=\"{:.1}\" text-anchor=\"middle\" fill=\"#444444\">{}</text>", PANEL[1] - 12.0, self.size));
        line(format!(
            "<path d=\"M{left} {above}V{0:.1}H{1:.1}\" fill=\"none\" stroke=\"#444444\"/>",
            above + field_height,
            left + field_width
        ));
        for (number, (series, (colour, dashes))) in self.series.iter().zip(LINES).enumerate() {
            let places: Vec<(f64, f64)> = series.points.iter().map(|point| (across(point.size as f64), up(point.time()))).collect();
            let path: Vec<String> = places.iter().map(|(x, y)| format!("{x:.1},{y:.1}")).collect();
            let path = path.join(" ");
            let stroke = format!("stroke=\"{colour}\" stroke-width=\"2\" stroke-dasharray=\"{dashes}\"");
            line(format!("<polyline points=\"{path}\" fill=\"none\" {stroke}/>"));
            for (x, y) in places {
                line(format!("<circle cx=\"{x:.1}\" cy=\"{y:.1}\" r=\"3\" fill=\"{colour}\"/>"));
            }
            let (x, y) = (left + field_width, 36.0 + 15.0 * number as f64);
            line(format!("<text x=\"{x:.1}\" y=\"{y:.1}\" text-anchor=\"end\" fill=\"{colour}\">{}</text>", series.name));
        }
        svg
    }
}

/// A round step between marks, so that four to ten reach the top.
fn mark_step(top: f64) -> f64 {
    let power = 10f64.powf((top / 4.0).log10().floor());
    [5.0, 2.0, 1.0].into_iter().map(|digit| digit * power).find(|step| top / step >= 4.0).unwrap_or(power)
}

/// The powers of ten in a range of logarithms; twice and five times them where those are few.
fn marked_sizes(first: f64, last: f64) -> Vec<usize> {
    let digits: &[usize] = if last - first > 2.5 { &[1] } else { &[1, 2, 5] };
    let sizes = (0..9u32).flat_map(|power| digits.iter().map(move |digit| digit * 10usize.pow(power)));
    sizes.filter(|&size| (first - 1e-9..=last + 1e-9).contains(&(size as f64).log10())).collect()
}

/// A size in few letters: a power of ten from ten thousand on, else the number.
fn short(size: usize) -> String {
    let power = size.ilog10();
    if size >= 100_000 && size == 10usize.pow(power) {
        return format!("10<tspan dy=\"-5\" font-size=\"9\">{power}</tspan>");
    }
    grouped(size)
}
