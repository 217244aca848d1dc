//! The arrows of a timeline, held to the bytes that each reading brought, on random runs; and the picture, held to the arrows.

use command::timeline::sources::{readings, Reading, Source};
use command::timeline::{moments, svg};
use independent::draft::{Code, Draft, Program};
use independent::random::{self, Random};
use independent::reference::command::{ADD, DIV, NOT};
use independent::reference::types::BYTE;
use rikzord::{Exchange, Mode, State, Taking, TaskSet, Trace};
use std::collections::{BTreeMap, BTreeSet};

/// A random run; many have faults, and cores that stand in line.
struct Run {
    set: TaskSet,
    trace: Trace,
    order: Vec<u8>,
}

fn run(random: &mut Random) -> Run {
    let mut draft = random::task_set(random);
    // A core alone reads from nobody.
    while draft.cores.len() == 1 && !random.once_in(20) {
        draft = random::task_set(random);
    }
    for core in 0..draft.cores.len() {
        // Any code faults soon, mostly; this publishes something else in each cycle.
        if !random.once_in(8) {
            draft.code[core] = publishing(random, &draft, core);
            draft.cores[core].limit = draft.code[core].starts.len() as u16;
        }
    }
    let set = TaskSet::load(&draft.bytes()).expect("a sound file");
    let trace = Trace::new(&set, &random::trace(random, &draft).0).expect("a sound trace");
    let length = random.between(0, 900);
    let stretch = random.pick(&[1, 3, 12, 40]);
    let mut order = Vec::new();
    while order.len() < length {
        order.extend(vec![random.below(draft.cores.len()) as u8; random.between(1, stretch)]);
    }
    Run { set, trace, order }
}

/// Changes a byte of each variable that the core writes; now and then it divides by a byte that may be 0.
fn publishing(random: &mut Random, draft: &Draft, core: usize) -> Code {
    let written = draft.variables.iter().filter(|variable| variable.attribute >> core & 1 == 1);
    let places: Vec<(u16, u8)> = written.map(|variable| (variable.local[core], variable.width)).collect();
    let data_size = draft.cores[core].data_size as usize;
    let mut program = Program::new();
    for (place, width) in places {
        let byte = place + random.below(width as usize) as u16;
        program = program.typed(NOT, BYTE, byte, byte, 0).typed(ADD, BYTE, byte, byte, random.below(data_size) as u16);
        if random.once_in(12) {
            program = program.typed(DIV, BYTE, byte, byte, random.below(data_size) as u16);
        }
    }
    program.returns().code()
}

/// A core's data.
type Data = Vec<u8>;

/// What stood in the cores' data where it counts.
struct Kept {
    takings: Vec<Taking>,
    /// The fresh state's.
    start: Vec<Data>,
    /// Of a writer, at the release of its writing in a cycle.
    written: BTreeMap<(u8, u16), Data>,
    /// Of a reader, at the release of the reading that is this taking.
    brought: BTreeMap<usize, Data>,
    faults: usize,
}

impl Kept {
    fn new(Run { set, trace, order }: &Run) -> Kept {
        let mut state = State::fresh(set);
        let start = (0..set.cores()).map(|core| state.data(core).to_vec()).collect();
        let mut kept = Kept { takings: Vec::new(), start, written: BTreeMap::new(), brought: BTreeMap::new(), faults: 0 };
        for &core in order {
            let before = state.table()[core as usize].mode();
            kept.takings.extend(state.step(set, trace, core).expect("a core of the set"));
            let record = &state.table()[core as usize];
            let data = || state.data(core).to_vec();
            match (before, record.mode()) {
                (Mode::Reading, Mode::Executing) => _ = kept.brought.insert(kept.takings.len() - 1, data()),
                (Mode::Writing, Mode::BetweenCycles) => _ = kept.written.insert((core, record.cycles), data()),
                (Mode::Executing, Mode::Stopped) => kept.faults += 1,
                _ => {}
            }
        }
        kept
    }

    fn source(&self, source: Source) -> Option<&Data> {
        match source.cycle {
            Some(cycle) => self.written.get(&(source.core, cycle)),
            None => Some(&self.start[source.core as usize]),
        }
    }

    /// Whether a reading brought this source's bytes, of every variable that it reads from the source's core. None where the reading is not finished, or
    /// where there is no such writing.
    fn is_fed(&self, set: &TaskSet, reading: &Reading, source: Source) -> Option<bool> {
        let (brought, source_data) = (self.brought.get(&reading.taking)?, self.source(source)?);
        let mut variables = set.variables().iter().filter(|variable| variable.writer.core == source.core);
        Some(variables.all(|variable| {
            let bytes = |data: &Data, place: u16| data[place as usize..][..variable.width as usize].to_vec();
            let mut places = variable.readers.iter().filter(|reader| reader.core == reading.core);
            places.all(|reader| bytes(brought, reader.place) == bytes(source_data, variable.writer.place))
        }))
    }
}

const RUNS: usize = 800;

#[test]
fn each_reading_brought_the_bytes_of_its_sources() {
    let mut random = Random::new(32);
    let (mut from_writings, mut from_start, mut runs_with_faults) = (0, 0, 0);
    for number in 0..RUNS {
        let run = run(&mut random);
        let kept = Kept::new(&run);
        let readings = readings(&run.set, &kept.takings);
        assert_eq!(readings.len(), kept.takings.iter().filter(|taking| taking.exchange == Exchange::Reading).count());
        runs_with_faults += (kept.faults > 0) as usize;
        for reading in readings {
            // One source for each core that it reads from, and no other.
            let variables = run.set.variables().iter();
            let read = variables.filter(|variable| variable.readers.iter().any(|reader| reader.core == reading.core));
            let cores: BTreeSet<u8> = read.map(|variable| variable.writer.core).collect();
            assert!(reading.sources.iter().map(|source| source.core).eq(cores), "run {number}: {reading:?}");
            for &source in &reading.sources {
                match kept.is_fed(&run.set, &reading, source) {
                    Some(fed) => assert!(fed, "run {number}: core {}, cycle {}, did not read {source}", reading.core, reading.cycle),
                    // Nothing but a reading that the run's end cut short is without an answer.
                    None => assert!(reading.taking == kept.takings.len() - 1 && kept.source(source).is_some(), "run {number}: {reading:?}"),
                }
                *(if source.cycle.is_some() { &mut from_writings } else { &mut from_start }) += 1;
            }
        }
    }
    println!("{from_writings} arrows from writings, {from_start} from start values, {runs_with_faults} of {RUNS} runs with faults");
    assert!(from_writings > 500 && from_start > 1_000 && runs_with_faults > 150);
}

/// The comparison can fail: an arrow from the writing before, or from the one after, is seen.
#[test]
fn a_wrong_source_is_seen() {
    let mut random = Random::new(33);
    let (mut before_seen, mut after_seen) = (0, 0);
    for _ in 0..RUNS {
        let run = run(&mut random);
        let kept = Kept::new(&run);
        for reading in readings(&run.set, &kept.takings) {
            for &source in &reading.sources {
                let before = source.cycle.map(|cycle| Source { cycle: Some(cycle - 1).filter(|&cycle| cycle > 0), ..source });
                let after = Source { cycle: Some(source.cycle.unwrap_or(0) + 1), ..source };
                before_seen += (before.and_then(|before| kept.is_fed(&run.set, &reading, before)) == Some(false)) as usize;
                after_seen += (kept.is_fed(&run.set, &reading, after) == Some(false)) as usize;
            }
        }
    }
    println!("{before_seen} arrows from the writing before, {after_seen} from the one after are seen");
    assert!(before_seen > 300 && after_seen > 300);
}

/// The elements of an SVG, each with its attributes and the text that follows; every one that is opened is closed, in the right order.
fn elements(text: &str) -> Vec<(&str, &str)> {
    let mut open = Vec::new();
    let mut list = Vec::new();
    for part in text.split('<').skip(1) {
        let (tag, follows) = part.split_once('>').expect("a tag ends");
        match tag.strip_prefix('/') {
            Some(name) => assert_eq!(open.pop(), Some(name), "{tag}"),
            None => {
                assert_eq!(tag.matches('"').count() % 2, 0, "{tag}");
                list.push((tag, follows));
                if !tag.ends_with('/') {
                    open.push(tag.split(' ').next().expect("a name"));
                }
            }
        }
        for (at, _) in follows.match_indices('&') {
            assert!(["&amp;", "&lt;", "&gt;", "&quot;"].iter().any(|entity| follows[at..].starts_with(entity)), "{follows}");
        }
    }
    assert!(open.is_empty(), "{open:?}");
    list
}

#[test]
fn the_picture_has_every_arrow_and_is_whole() {
    let mut random = Random::new(34);
    let mut arrows = 0;
    for number in 0..200 {
        let Run { set, trace, order } = run(&mut random);
        let (moments, _) = moments(&set, &trace, &order).expect("a sound order");
        let takings: Vec<Taking> = moments.iter().filter_map(|moment| moment.taking).collect();
        let readings = readings(&set, &takings);
        let text = svg("task & <trace>, \"order\"", &set, &trace, &moments, &readings);
        let elements = elements(&text);
        let attribute = |tag: &str, name: &str| {
            let value = tag.split_once(&format!(" {name}=\""))?.1.split('"').next()?;
            value.parse::<f64>().ok()
        };
        let (width, height) = (attribute(elements[0].0, "width").expect("a width"), attribute(elements[0].0, "height").expect("a height"));
        assert!(width < 1_500.0 && height < 8_000.0, "run {number}: {width} by {height}");
        for (tag, _) in &elements {
            let (x, wide) = (attribute(tag, "x").unwrap_or(0.0), attribute(tag, "width").unwrap_or(0.0));
            assert!(wide >= 0.0 && x + wide <= width, "run {number}: {tag}");
        }
        let mut shown: Vec<&str> = elements.windows(2).filter(|pair| pair[0].0.ends_with(" arrow\"")).map(|pair| pair[1].1).collect();
        let of = |reading: &Reading| {
            let words = |source: &Source| format!("core {}, cycle {}, read {source}", reading.core, reading.cycle);
            reading.sources.iter().map(words).collect::<Vec<String>>()
        };
        let mut wanted: Vec<String> = readings.iter().flat_map(of).collect();
        shown.sort();
        wanted.sort();
        assert_eq!(shown, wanted, "run {number}");
        assert!(!text.contains("<script") && !text.contains("href") && !text.contains("url(http"));
        arrows += shown.len();
    }
    assert!(arrows > 500, "{arrows} arrows");
}
