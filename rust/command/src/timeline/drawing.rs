//! The picture: SVG text that stands alone, with no script and no font of its own.
//!
//! A core's lane has its bands, and at its foot a tick for each step that it took. What a writing left runs as a line beside the lane until its last reading; a core's
//! next writing comes after that, so one track on each side is enough. An arrow leaves the line at a dot for each reading that it feeds.

use super::layout::{layout, Layout, Row, MOST, ROW};
use super::page::{escaped, fitting, px, tip, width, Page};
use super::sources::{read_from, Reading, Source};
use super::{counted, Moment};
use rikzord::{flag_words, Exchange, Mode, Taking, TaskSet, Trace, MOST_CORES};
use std::collections::BTreeMap;
use std::ops::Range;

// Pixels.
const NAMES: f64 = 92.0;
const EDGE: f64 = 18.0;
const TOP: f64 = 66.0;
const AXIS: f64 = 20.0;
const BAND: f64 = 26.0;
const TICKS: f64 = 6.0;
const BAR: f64 = 11.0;
const BETWEEN_ROWS: f64 = 16.0;

const TINY: f64 = 9.0;
const SMALL: f64 = 10.0;
const PLAIN: f64 = 11.0;

/// Shades apart for every kind of colour vision; the modes are pale, the cores strong.
const STYLE: &str = "\
text{font-family:Helvetica,Arial,'Liberation Sans',sans-serif;font-size:11px;fill:#222}\
.head{font-size:16px;font-weight:bold}.says{font-size:12px}.name{font-size:13px;font-weight:bold;fill:currentColor}\
.small,.axis{font-size:10px;fill:#555}.tiny{font-size:9px}.axis{text-anchor:middle}.mid{text-anchor:middle}\
.grid{stroke:#e4e4e4}.tick{stroke:#333;stroke-width:1;fill:none}\
.m0{fill:#f3f3f3}.m1{fill:#a5d3f2}.m2{fill:#ffe889}.m3{fill:#c6c6c6}.m4{fill:#f6ad5c}.m5{fill:#4d4d4d}\
.m0,.m1,.m2,.m3,.m4,.m5{stroke:#fff;stroke-width:.6}\
.light{fill:#fff}.over{fill:#222;stroke:#fff;stroke-width:3px;paint-order:stroke;stroke-linejoin:round}\
.k0{color:#004b87}.k1{color:#b34700}.k2{color:#128a5f}.k3{color:#8f2f78}\
.hold{fill:currentColor;stroke:#fff;stroke-width:.6}.wait{fill:currentColor;opacity:.85}\
.under{fill:none;stroke:#fff;stroke-width:4.5}.line{fill:none;stroke:currentColor;stroke-width:1.7}.start{stroke-dasharray:5 3}\
.tip{fill:currentColor;stroke:#fff;stroke-width:.8;paint-order:stroke}\
.cycle{fill:currentColor;font-size:10px;font-weight:bold;stroke:#fff;stroke-width:3px;paint-order:stroke;stroke-linejoin:round}\
.fault{fill:#fff;stroke:#b00020;stroke-width:1.5}.why{fill:#b00020;font-size:10px;font-weight:bold}\
.fold{fill:#fff;opacity:.86}.zig{fill:none;stroke:#999}";

/// What a core is about during a step, as its lane shows it. A taking belongs to its exchange.
#[derive(Clone, Copy, PartialEq)]
struct Standing {
    mode: Mode,
    in_line: bool,
    /// The cycle that it is in, or that comes next.
    cycle: u16,
    /// Whether it is between cycles for good.
    spent: bool,
}

impl Standing {
    /// What is written in a band, the longest first.
    fn texts(&self) -> Vec<String> {
        let cycle = self.cycle;
        match self.mode {
            _ if self.in_line => vec!["in line".to_string()],
            Mode::BetweenCycles if self.spent => vec!["inputs spent".to_string(), "spent".to_string()],
            Mode::BetweenCycles => vec!["between cycles".to_string(), "between".to_string()],
            Mode::Reading => vec![format!("reading {cycle}"), format!("r{cycle}")],
            Mode::Executing => vec![format!("executing {cycle}"), format!("exec. {cycle}"), format!("x{cycle}")],
            Mode::WaitingToWrite => vec!["waiting to write".to_string(), "waiting".to_string()],
            Mode::Writing => vec![format!("writing {cycle}"), format!("w{cycle}")],
            Mode::Stopped => vec!["stopped".to_string()],
        }
    }

    fn words(&self) -> String {
        let mode = self.mode.words();
        match self.mode {
            _ if self.in_line => format!("{mode}, in line for the semaphore, cycle {}", self.cycle),
            Mode::BetweenCycles if self.spent => format!("{mode}, no input record left"),
            Mode::BetweenCycles => format!("{mode}, before cycle {}", self.cycle),
            _ => format!("{mode}, cycle {}", self.cycle),
        }
    }
}

/// What stays the same over a stretch of steps.
struct Span<T> {
    steps: Range<usize>,
    what: T,
}

fn spans<T: PartialEq>(each: impl Iterator<Item = T>) -> Vec<Span<T>> {
    let mut list: Vec<Span<T>> = Vec::new();
    for (step, what) in each.enumerate() {
        match list.last_mut() {
            Some(last) if last.what == what => last.steps.end = step + 1,
            _ => list.push(Span { steps: step..step + 1, what }),
        }
    }
    list
}

fn standings(trace: &Trace, moments: &[Moment], core: u8) -> Vec<Span<Standing>> {
    let records = trace.records(core).len();
    let (mut mode, mut cycles) = (Mode::BetweenCycles, 0);
    spans(moments.iter().map(|moment| {
        let own = moment.core == core;
        let shown = if own && moment.taking.is_some() { moment.after } else { mode };
        let in_line = moment.semaphore.in_line().contains(&core);
        let spent = shown == Mode::BetweenCycles && cycles as usize >= records;
        let standing = Standing { mode: shown, in_line, cycle: cycles + 1, spent };
        if own {
            (mode, cycles) = (moment.after, moment.cycles);
        }
        standing
    }))
}

/// Who holds the semaphore in each step, the one that releases it included.
fn holders(moments: &[Moment]) -> Vec<Span<Option<Taking>>> {
    let mut held = None;
    spans(moments.iter().map(|moment| {
        held = moment.taking.or(held);
        let shown = held;
        held = held.filter(|_| !moment.released);
        shown
    }))
}

/// Heights of a lane, from the top of its row.
struct Lane {
    /// The track for readers above.
    up: Option<f64>,
    band: f64,
    /// The track for readers below.
    down: Option<f64>,
}

/// Heights in a row.
struct Heights {
    lanes: Vec<Lane>,
    semaphore: f64,
    /// Of the part that lanes and semaphore take.
    end: f64,
}

impl Heights {
    fn new(reads: &[Vec<u8>], longest_line: usize) -> Heights {
        let mut y = AXIS;
        let mut lanes = Vec::new();
        for core in 0..reads.len() as u8 {
            let from = &reads[core as usize];
            let read_by = |mut readers: Range<u8>| readers.any(|reader| reads[reader as usize].contains(&core));
            let mut zone = |there: bool, before: f64, after: f64| {
                y += if there { before } else { 0.0 };
                let at = there.then_some(y);
                y += if there { after } else { 0.0 };
                at
            };
            zone(core > 0, 7.0, 0.0);
            let up = zone(read_by(0..core), 3.0, 12.0);
            zone(from.iter().any(|&writer| writer < core), 15.0, 0.0);
            let band = zone(true, 0.0, BAND + TICKS).expect("a lane");
            zone(from.iter().any(|&writer| writer > core), 15.0, 0.0);
            let down = zone(read_by(core + 1..reads.len() as u8), 13.0, 3.0);
            lanes.push(Lane { up, band, down });
        }
        let semaphore = y + 12.0;
        let line = if longest_line > 0 { 3.0 + BAR * longest_line as f64 } else { 0.0 };
        Heights { lanes, semaphore, end: semaphore + 20.0 + line }
    }
}

/// What a writing left, or a core's start values, on the way to the readings that it fed on one side.
#[derive(Clone, Copy)]
struct Published {
    source: Source,
    below: bool,
    /// The step that ended the writing; none for start values.
    from: Option<usize>,
    /// Of the last reading.
    until: usize,
}

/// A reading's arrow.
struct Arrow {
    source: Source,
    reader: u8,
    cycle: u16,
    /// The reading's taking.
    step: usize,
    /// Its place among the arrows that come from the same side, and how many there are.
    place: (usize, usize),
}

impl Arrow {
    fn is_below(&self) -> bool {
        self.reader > self.source.core
    }
}

/// Everything that a row shows a part of.
struct Picture<'r> {
    moments: &'r [Moment],
    layout: Layout,
    heights: Heights,
    reads: Vec<Vec<u8>>,
    lanes: Vec<Vec<Span<Standing>>>,
    holders: Vec<Span<Option<Taking>>>,
    line: Vec<Vec<Span<Option<u8>>>>,
    published: Vec<Published>,
    arrows: Vec<Arrow>,
}

/// The picture of a run, with an arrow for every source of every reading.
pub fn svg(caption: &str, set: &TaskSet, trace: &Trace, moments: &[Moment], readings: &[Reading]) -> String {
    let reads: Vec<Vec<u8>> = (0..set.cores()).map(|core| read_from(set, core)).collect();
    let longest_line = moments.iter().map(|moment| moment.semaphore.in_line().len()).max().unwrap_or(0);
    let arrows = arrows(moments, readings);
    let picture = Picture {
        moments,
        layout: layout(moments),
        heights: Heights::new(&reads, longest_line),
        reads,
        lanes: (0..set.cores()).map(|core| standings(trace, moments, core)).collect(),
        holders: holders(moments),
        line: (0..longest_line).map(|at| spans(moments.iter().map(|moment| moment.semaphore.in_line().get(at).copied()))).collect(),
        published: published(moments, &arrows),
        arrows,
    };
    picture.whole(caption)
}

fn arrows(moments: &[Moment], readings: &[Reading]) -> Vec<Arrow> {
    let steps: Vec<usize> = (0..moments.len()).filter(|&step| moments[step].taking.is_some()).collect();
    let of = |reading: &Reading| {
        let (step, reader, cycle) = (steps[reading.taking], reading.core, reading.cycle);
        let (above, below): (Vec<Source>, Vec<Source>) = reading.sources.iter().partition(|source| source.core < reader);
        let side = |sources: Vec<Source>| {
            let count = sources.len();
            let arrow = move |(at, source)| Arrow { source, reader, cycle, step, place: (at, count) };
            sources.into_iter().enumerate().map(arrow).collect::<Vec<Arrow>>()
        };
        [side(above), side(below)].into_iter().flatten()
    };
    readings.iter().flat_map(of).collect()
}

fn published(moments: &[Moment], arrows: &[Arrow]) -> Vec<Published> {
    let ended = |moment: &Moment| moment.released && moment.before == Mode::Writing;
    let ends: BTreeMap<(u8, u16), usize> =
        moments.iter().enumerate().filter(|(_, moment)| ended(moment)).map(|(step, moment)| ((moment.core, moment.cycles), step)).collect();
    let mut list: BTreeMap<(u8, bool, Option<u16>), Published> = BTreeMap::new();
    for arrow in arrows {
        let Source { core, cycle } = arrow.source;
        let from = cycle.map(|cycle| ends[&(core, cycle)]);
        let made = Published { source: arrow.source, below: arrow.is_below(), from, until: arrow.step };
        list.entry((core, arrow.is_below(), cycle)).or_insert(made).until = arrow.step;
    }
    list.into_values().collect()
}

/// A cycle's number, in the colour of the core that wrote.
struct Label {
    core: u8,
    x: f64,
    y: f64,
    text: String,
}

impl Picture<'_> {
    fn whole(&self, caption: &str) -> String {
        let rows = &self.layout.rows;
        let pitch = self.heights.end + BETWEEN_ROWS;
        let legend = TOP + pitch * rows.len().max(1) as f64 + 6.0;
        let (wide, high) = (NAMES + ROW + MOST + EDGE, legend + 50.0);
        let takings = self.moments.iter().filter(|moment| moment.taking.is_some()).count();
        let counts = [counted(self.moments.len(), "step"), counted(takings, "taking"), counted(self.lanes.len(), "core")].join(", ");
        let mut page = Page::default();
        let (wide, high) = (px(wide), px(high));
        page.put(format!(
            "<svg xmlns=\"http://www.w3.org/2000/svg\" width=\"{wide}\" height=\"{high}\" viewBox=\"0 0 {wide} {high}\" role=\"img\" style=\"max-width:100%;height:auto\">"
        ));
        page.put(format!("<title>Timeline of {}</title>", escaped(caption)));
        page.put(format!("<style>{STYLE}</style>"));
        page.put(
            "<defs><pattern id=\"hatch\" width=\"6\" height=\"6\" patternUnits=\"userSpaceOnUse\" patternTransform=\"rotate(45)\">\
             <path d=\"M1 0v6\" stroke=\"#555\" stroke-width=\"1.6\"/></pattern></defs>",
        );
        page.put(format!("<rect width=\"{wide}\" height=\"{high}\" fill=\"#fff\"/>"));
        page.write("head", EDGE, 26.0, &format!("Timeline: {caption}"));
        let sentence = match self.reads.iter().all(|from| from.is_empty()) {
            true => "No core reads from another.",
            false => "Every reading hangs on one writing of each core that it reads from, or on the start values.",
        };
        page.write("says", EDGE, 46.0, &format!("{counts}. {sentence}"));
        for (number, row) in rows.iter().enumerate() {
            page.put(format!("<g transform=\"translate({} {})\">", px(NAMES), px(TOP + pitch * number as f64)));
            self.row(&mut page, row, number > 0);
            page.put("</g>");
        }
        if rows.is_empty() {
            page.put(format!("<g transform=\"translate({} {})\">", px(NAMES), px(TOP)));
            self.names(&mut page);
            page.write("small", 0.0, self.heights.lanes[0].band + 17.0, "the order has no steps");
            page.put("</g>");
        }
        self.legend(&mut page, legend);
        page.put("</svg>");
        page.text
    }

    fn row(&self, page: &mut Page, row: &Row, carried: bool) {
        self.names(page);
        self.axis(page, row);
        for core in 0..self.lanes.len() {
            self.lane(page, row, core);
        }
        self.semaphore(page, row);
        self.folds(page, row);
        self.lines(page, row, carried);
        self.faults(page, row);
    }

    fn names(&self, page: &mut Page) {
        for (core, lane) in self.heights.lanes.iter().enumerate() {
            page.band(&format!("hold k{core}"), (EDGE - NAMES, EDGE - NAMES + 5.0), (lane.band, BAND), "");
            page.write(&format!("name k{core}"), EDGE - NAMES + 11.0, lane.band + 12.0, &format!("core {core}"));
            let from: Vec<String> = self.reads[core].iter().map(u8::to_string).collect();
            let reads = if from.is_empty() { "reads none".to_string() } else { format!("reads {}", from.join(", ")) };
            page.write("small", EDGE - NAMES + 11.0, lane.band + 24.0, &reads);
        }
        page.write("small", EDGE - NAMES, self.heights.semaphore + 14.0, "semaphore");
        if !self.line.is_empty() {
            page.write("small", EDGE - NAMES, self.heights.semaphore + 32.0, "its line");
        }
    }

    /// How many steps have been made, here and there; over a fold how many it hides.
    fn axis(&self, page: &mut Page, row: &Row) {
        const APART: f64 = 34.0;
        let multiple = [5, 10, 20, 50].into_iter().find(|&steps| steps as f64 * self.layout.step >= 48.0).unwrap_or(50);
        let (own, right) = (row.steps(), row.right());
        let folds: Vec<f64> = row.cells.iter().filter(|cell| cell.is_folded()).map(|cell| (cell.left + cell.right) / 2.0).collect();
        let is_free = |x: f64| folds.iter().all(|fold| (fold - x).abs() >= APART);
        let mut places = vec![(own.start, 0.0)];
        let inner = row.cells.iter().map(|cell| (cell.steps.start, cell.left));
        places.extend(inner.filter(|&(steps, x)| steps % multiple == 0 && (APART..=right - APART).contains(&x) && is_free(x)));
        places.extend((right >= APART && is_free(right)).then_some((own.end, right)));
        for (steps, x) in places {
            page.path("grid", &format!("M{} {}V{}", px(x), px(AXIS - 5.0), px(self.heights.end)));
            page.write("axis", x, AXIS - 8.0, &if steps == 0 { "step 0".to_string() } else { steps.to_string() });
        }
        for (cell, x) in row.cells.iter().filter(|cell| cell.is_folded()).zip(folds) {
            page.write("axis", x.max(24.0), AXIS - 8.0, &format!("+{}", cell.steps.len()));
        }
    }

    fn lane(&self, page: &mut Page, row: &Row, core: usize) {
        let top = self.heights.lanes[core].band;
        let crosses = |arrow: &&Arrow| {
            let (writer, reader) = (arrow.source.core as usize, arrow.reader as usize);
            row.steps().contains(&arrow.step) && (writer.min(reader) + 1..writer.max(reader)).contains(&core)
        };
        let crossing: Vec<f64> = self.arrows.iter().filter(crosses).map(|arrow| self.arrow_place(row, arrow)).collect();
        for span in &self.lanes[core] {
            let Some((left, right)) = row.stretch(&span.steps) else { continue };
            let standing = span.what;
            let title = format!("core {core}: {}, {}", standing.words(), steps_of(&span.steps));
            page.band(&format!("m{}", standing.mode.number()), (left, right), (top, BAND), &title);
            if standing.in_line {
                page.put(format!(
                    "<rect x=\"{}\" y=\"{}\" width=\"{}\" height=\"{}\" fill=\"url(#hatch)\" opacity=\".45\" pointer-events=\"none\"/>",
                    px(left),
                    px(top),
                    px(right - left),
                    px(BAND)
                ));
            }
            // The words of a fault stand at the front of the band that follows it.
            let fault =
                self.fault_at(span.steps.start).filter(|_| standing.mode == Mode::Stopped && row.steps().contains(&span.steps.start));
            let left = fault.map_or(left, |words| right.min(left + callout(&words) + 8.0));
            let (left, right) = row.widest((left, right), &crossing);
            let class = match standing.mode {
                _ if standing.in_line => "mid over",
                Mode::Stopped => "mid light",
                _ => "mid",
            };
            let (texts, middle) = (standing.texts(), (left + right) / 2.0);
            if let Some(text) = fitting(&texts, PLAIN, right - left - 4.0) {
                page.write(class, middle, top + 17.0, text);
            } else if let Some(text) = fitting(&texts, TINY, right - left - 1.0) {
                page.write(&format!("tiny {class}"), middle, top + 16.5, text);
            }
        }
        let own = |step: &usize| self.moments[*step].core as usize == core;
        let shown = row.cells.iter().filter(|cell| !cell.is_folded() && own(&cell.steps.start));
        let ticks: String = shown.map(|cell| format!("M{} {}v4", px((cell.left + cell.right) / 2.0), px(top + BAND + 1.0))).collect();
        if !ticks.is_empty() {
            page.path("tick", &ticks);
        }
    }

    fn semaphore(&self, page: &mut Page, row: &Row) {
        let top = self.heights.semaphore;
        page.band("m0", (0.0, row.right()), (top, 20.0), "the semaphore is free");
        for span in &self.holders {
            let (Some((left, right)), Some(taking)) = (row.stretch(&span.steps), span.what) else { continue };
            let Taking { core, exchange } = taking;
            let verb = if exchange == Exchange::Reading { "reads" } else { "writes" };
            let title = format!("core {core} holds the semaphore and {verb}, {}", steps_of(&span.steps));
            page.band(&format!("hold k{core}"), (left, right), (top, 20.0), &title);
            let (left, right) = row.widest((left, right), &[]);
            if let Some(text) = fitting(&[format!("core {core} {verb}"), format!("{core} {verb}")], PLAIN, right - left - 4.0) {
                page.write("mid light", (left + right) / 2.0, top + 14.0, text);
            } else if let Some(text) = fitting(&[taking.to_string(), core.to_string()], TINY, right - left) {
                page.write("tiny mid light", (left + right) / 2.0, top + 13.5, text);
            }
        }
        for (at, spans) in self.line.iter().enumerate() {
            let top = top + 23.0 + BAR * at as f64;
            for span in spans {
                let (Some((left, right)), Some(core)) = (row.stretch(&span.steps), span.what) else { continue };
                let place = if at == 0 { "first".to_string() } else { format!("place {}", at + 1) };
                let title = format!("core {core} in line, {place}, {}", steps_of(&span.steps));
                page.band(&format!("wait k{core}"), (left, right), (top, BAR - 1.5), &title);
                let (left, right) = row.widest((left, right), &[]);
                let texts = [format!("core {core} in line"), core.to_string()];
                if let Some(text) = fitting(&texts, TINY, right - left - 2.0) {
                    page.write("tiny mid light", (left + right) / 2.0, top + 8.0, text);
                }
            }
        }
    }

    fn folds(&self, page: &mut Page, row: &Row) {
        let (top, end) = (AXIS - 2.0, self.heights.end + 2.0);
        for cell in row.cells.iter().filter(|cell| cell.is_folded()) {
            let count = cell.steps.len();
            let title = format!("{count} steps that change nothing, {}", steps_of(&cell.steps));
            page.band("fold", (cell.left, cell.right), (top, end - top), &title);
            let teeth = ((end - top) / 8.0).floor() as usize;
            for x in [cell.left + 1.0, cell.right - 4.0] {
                page.path("zig", &format!("M{} {}{}", px(x), px(top), "l3 4l-3 4".repeat(teeth)));
            }
        }
    }

    /// What was published and the arrows, labels last.
    fn lines(&self, page: &mut Page, row: &Row, carried: bool) {
        let arrows: Vec<&Arrow> = self.arrows.iter().filter(|arrow| row.steps().contains(&arrow.step)).collect();
        let mut labels = Vec::new();
        for number in 0..self.published.len() {
            labels.extend(self.published_line(page, row, carried, number, &arrows));
        }
        for arrow in &arrows {
            self.arrow(page, row, arrow);
        }
        self.arrow_labels(row, &arrows, &mut labels);
        for Label { core, x, y, text } in labels {
            page.write(&format!("cycle k{core}"), x, y, &text);
        }
    }

    /// The height of a core's track for readers below or above.
    fn track(&self, core: u8, below: bool) -> f64 {
        let lane = &self.heights.lanes[core as usize];
        (if below { lane.down } else { lane.up }).expect("a track where there is a reader")
    }

    /// What a writing left, as far as this row shows it, and its label.
    fn published_line(&self, page: &mut Page, row: &Row, carried: bool, number: usize, arrows: &[&Arrow]) -> Option<Label> {
        let Published { source, below, from, until } = self.published[number];
        let (own, core) = (row.steps(), source.core);
        if until < own.start || from.is_some_and(|step| step >= own.end) {
            return None;
        }
        let y = self.track(core, below);
        let writing_end = |from: Option<usize>| from.and_then(|step| row.stretch(&(step..step + 1))).map(|(_, right)| right - 1.5);
        let begins_here = writing_end(from);
        let left = begins_here.unwrap_or(if carried { -8.0 } else { 0.0 });
        let fed = arrows.iter().filter(|arrow| arrow.source == source && arrow.is_below() == below);
        let last = fed.map(|arrow| self.arrow_place(row, arrow)).fold(left, f64::max);
        let right = if until >= own.end { row.right() + 8.0 } else { last };
        let lane = &self.heights.lanes[core as usize];
        let edge = if below { lane.band + BAND } else { lane.band };
        let stub = begins_here.map_or(String::new(), |x| format!("M{} {}V{}", px(x), px(edge), px(y)));
        page.put(format!("<g class=\"k{core}\"><title>what is published: {source}</title>"));
        page.path("under", &format!("M{} {}H{}", px(left), px(y), px(right)));
        page.path(stroke(&source), &format!("{stub}M{} {}H{}", px(left), px(y), px(right)));
        page.put("</g>");
        let next = self.published[number + 1..].iter().find(|next| next.source.core == core && next.below == below);
        let room = next.and_then(|next| writing_end(next.from)).unwrap_or(row.right() + EDGE) - left - 8.0;
        let texts = match source.cycle {
            Some(cycle) => [format!("cycle {cycle}"), cycle.to_string()],
            None => ["start values".to_string(), "start".to_string()],
        };
        let baseline = if below { y - 4.0 } else { y + 11.0 };
        fitting(&texts, SMALL, room).map(|text| Label { core, x: left.max(0.0) + 4.0, y: baseline, text: text.clone() })
    }

    fn arrow(&self, page: &mut Page, row: &Row, arrow: &Arrow) {
        let Arrow { source, reader, cycle, .. } = arrow;
        let below = arrow.is_below();
        let (x, y) = (self.arrow_place(row, arrow), self.track(source.core, below));
        let lane = &self.heights.lanes[*reader as usize];
        let end = if below { lane.band } else { lane.band + BAND + TICKS - 1.0 };
        let shaft = format!("M{} {}V{}", px(x), px(y), px(if below { end - 6.0 } else { end + 6.0 }));
        page.put(format!("<g class=\"k{} arrow\"><title>core {reader}, cycle {cycle}, read {source}</title>", source.core));
        page.path("under", &shaft);
        page.path(stroke(source), &shaft);
        page.path("tip", &tip(x, end, below));
        page.put(format!("<circle class=\"tip\" cx=\"{}\" cy=\"{}\" r=\"2.8\"/></g>", px(x), px(y)));
    }

    /// The arrows of a reading stand side by side over its band, which has a step for each byte that it reads.
    fn arrow_place(&self, row: &Row, arrow: &Arrow) -> f64 {
        let (left, _) = row.stretch(&(arrow.step..arrow.step + 1)).expect("a step of the row");
        let reading = self.lanes[arrow.reader as usize].iter().find(|span| span.steps.contains(&arrow.step));
        let (_, right) = reading.and_then(|span| row.stretch(&span.steps)).expect("a reading of the row");
        let (at, count) = arrow.place;
        let apart = if count > 1 { ((right - left - 8.0) / (count - 1) as f64).clamp(4.0, 16.0) } else { 0.0 };
        left + 4.0 + apart * at as f64
    }

    /// The cycle beside each arrow's point, or those of a reading one after another behind the last arrow where these stand close. Left out where the next reading's
    /// arrow leaves no room; the line says it too.
    fn arrow_labels(&self, row: &Row, arrows: &[&Arrow], labels: &mut Vec<Label>) {
        const BESIDE: f64 = 6.0;
        let side = |arrow: &Arrow| (arrow.reader, arrow.is_below());
        let mut rest = arrows;
        for group in arrows.chunk_by(|a, b| a.step == b.step && side(a) == side(b)) {
            rest = &rest[group.len()..];
            let lane = &self.heights.lanes[group[0].reader as usize];
            let y = if group[0].is_below() { lane.band - 4.0 } else { lane.band + BAND + TICKS + 9.0 };
            let label = |arrow: &Arrow, x: f64| {
                let text = arrow.source.cycle.map_or("start".to_string(), |cycle| cycle.to_string());
                Label { core: arrow.source.core, x, y, text }
            };
            let end = |label: &Label| label.x + width(&label.text, SMALL) + 3.0;
            let next = rest.iter().find(|next| side(next) == side(group[0])).map(|next| self.arrow_place(row, next));
            let limit = next.unwrap_or(row.right() + EDGE);
            let beside: Vec<Label> = group.iter().map(|arrow| label(arrow, self.arrow_place(row, arrow) + BESIDE)).collect();
            let ends = group[1..].iter().map(|arrow| self.arrow_place(row, arrow)).chain([limit]);
            if beside.iter().zip(ends).all(|(label, limit)| end(label) <= limit) {
                labels.extend(beside);
                continue;
            }
            // Start values are told once.
            let told = if group.iter().all(|arrow| arrow.source.cycle.is_none()) { &group[group.len() - 1..] } else { group };
            let mut x = beside[beside.len() - 1].x;
            let mut behind = Vec::new();
            for arrow in told {
                behind.push(label(arrow, x));
                x = end(&behind[behind.len() - 1]) + 1.0;
            }
            if x <= limit {
                labels.extend(behind);
            }
        }
    }

    /// The words of a fault that happened just before a step.
    fn fault_at(&self, step: usize) -> Option<String> {
        let moment = &self.moments[step.checked_sub(1)?];
        (moment.raised != 0).then(|| flag_words(moment.raised).join(", "))
    }

    fn faults(&self, page: &mut Page, row: &Row) {
        for step in row.steps() {
            let Some(words) = self.fault_at(step + 1) else { continue };
            let Some((_, x)) = row.stretch(&(step..step + 1)) else { continue };
            let Moment { core, cycles, .. } = self.moments[step];
            let top = self.heights.lanes[core as usize].band;
            let wide = callout(&words);
            // To the left where the page ends before the words do.
            let left = if x + wide > ROW + MOST { x - wide } else { x };
            page.put(format!("<g><title>core {core}, cycle {}: fault at step {}: {words}</title>", cycles + 1, step + 1));
            page.put(format!(
                "<rect class=\"fault\" x=\"{}\" y=\"{}\" width=\"{}\" height=\"{}\" rx=\"3\"/>",
                px(left),
                px(top + 4.0),
                px(wide),
                px(BAND - 8.0)
            ));
            page.write("why", left + 5.0, top + 17.0, &format!("\u{d7} {words}"));
            page.put("</g>");
        }
    }

    fn legend(&self, page: &mut Page, top: f64) {
        let mut x = EDGE;
        let modes = [Mode::BetweenCycles, Mode::Reading, Mode::Executing, Mode::WaitingToWrite, Mode::Writing, Mode::Stopped];
        for mode in modes {
            page.band(&format!("m{}", mode.number()), (x, x + 22.0), (top, 14.0), "");
            if mode == Mode::BetweenCycles {
                page.put(format!("<rect x=\"{}\" y=\"{}\" width=\"22\" height=\"14\" fill=\"none\" stroke=\"#ccc\"/>", px(x), px(top)));
            }
            page.write("", x + 28.0, top + 11.0, mode.words());
            x += 46.0 + 0.84 * width(mode.words(), PLAIN);
        }
        page.put(format!("<rect x=\"{}\" y=\"{}\" width=\"22\" height=\"14\" fill=\"url(#hatch)\" opacity=\".45\"/>", px(x), px(top)));
        page.write("", x + 28.0, top + 11.0, "in line for the semaphore");
        x += 48.0 + 0.84 * width("in line for the semaphore", PLAIN);
        page.path("tick", &format!("M{} {}v5m4 -5v5m4 -5v5", px(x), px(top + 5.0)));
        page.write("", x + 15.0, top + 11.0, "a step of the core");
        x += 34.0 + 0.84 * width("a step of the core", PLAIN);
        page.write("", x, top + 11.0, "r1, x1, w1: reading, executing, writing of cycle 1");
        let (mut x, top) = (EDGE, top + 24.0);
        page.put("<g class=\"k0\">");
        page.path("line", &format!("M{} {}h26v10", px(x), px(top)));
        page.path("tip", &tip(x + 26.0, top + 14.0, true));
        page.put("</g>");
        let words = "from the end of a writing to each reading that it fed, with the writing core's cycle";
        page.write("", x + 38.0, top + 10.0, words);
        x += 58.0 + 0.84 * width(words, PLAIN);
        page.put("<g class=\"k0\">");
        page.path("line start", &format!("M{} {}h26v10", px(x), px(top)));
        page.path("tip", &tip(x + 26.0, top + 14.0, true));
        page.put("</g>");
        page.write("", x + 38.0, top + 10.0, "from the start values");
        x += 58.0 + 0.84 * width("from the start values", PLAIN);
        page.put(format!("<rect class=\"fault\" x=\"{}\" y=\"{}\" width=\"16\" height=\"15\" rx=\"3\"/>", px(x), px(top - 1.0)));
        page.write("why", x + 5.0, top + 10.0, "\u{d7}");
        page.write("", x + 22.0, top + 10.0, "a fault");
        x += 40.0 + 0.84 * width("a fault", PLAIN);
        page.path("zig", &format!("M{} {}l3 4l-3 4l3 4l-3 4m9 -16l3 4l-3 4l3 4l-3 4", px(x), px(top - 1.0)));
        page.write("", x + 20.0, top + 10.0, "+n: so many steps that change nothing, folded");
    }
}

/// Start values are dashed.
fn stroke(source: &Source) -> &'static str {
    if source.cycle.is_none() {
        "line start"
    } else {
        "line"
    }
}

/// The width of a fault's words in their frame.
fn callout(words: &str) -> f64 {
    width(words, SMALL) + 24.0
}

/// Steps, the first being 1.
fn steps_of(steps: &Range<usize>) -> String {
    match steps.len() {
        1 => format!("step {}", steps.end),
        _ => format!("steps {} to {}", steps.start + 1, steps.end),
    }
}

const _: () = assert!(MOST_CORES == 4, "a colour for each core");
