//! Where the steps of a run stand in the picture: rows like the lines of a score, each step as wide as the next, stretches of idle steps folded.

use super::Moment;
use std::ops::Range;

/// The pixels of a row that is full.
pub const ROW: f64 = 1_180.0;
/// The pixels of a folded stretch.
pub const FOLD: f64 = 18.0;
/// The pixels of a step.
const LEAST: f64 = 3.0;
pub const MOST: f64 = 14.0;
/// The longest stretch of idle steps that is shown step by step.
const UNFOLDED: usize = 6;

/// A step, or a stretch of idle steps that is folded.
pub struct Cell {
    pub steps: Range<usize>,
    pub left: f64,
    pub right: f64,
}

impl Cell {
    pub fn is_folded(&self) -> bool {
        self.steps.len() > 1
    }
}

/// Cells that stand beside each other; never none.
pub struct Row {
    pub cells: Vec<Cell>,
}

impl Row {
    pub fn steps(&self) -> Range<usize> {
        self.cells[0].steps.start..self.cells[self.cells.len() - 1].steps.end
    }

    pub fn right(&self) -> f64 {
        self.cells[self.cells.len() - 1].right
    }

    fn cell(&self, step: usize) -> &Cell {
        &self.cells[self.cells.partition_point(|cell| cell.steps.end <= step)]
    }

    /// Where a stretch of steps stands in this row, as far as it does.
    pub fn stretch(&self, steps: &Range<usize>) -> Option<(f64, f64)> {
        let own = self.steps();
        let (first, end) = (steps.start.max(own.start), steps.end.min(own.end));
        (first < end).then(|| (self.cell(first).left, self.cell(end - 1).right))
    }

    /// The widest part of a stretch that no fold covers, and none of some upright lines crosses.
    pub fn widest(&self, (left, right): (f64, f64), lines: &[f64]) -> (f64, f64) {
        const HALF_A_LINE: f64 = 3.0;
        let folds = self.cells.iter().filter(|cell| cell.is_folded()).map(|cell| (cell.left, cell.right));
        let mut covered: Vec<(f64, f64)> = folds.chain(lines.iter().map(|x| (x - HALF_A_LINE, x + HALF_A_LINE))).collect();
        covered.retain(|part| part.1 > left && part.0 < right);
        covered.sort_by(|a, b| a.0.total_cmp(&b.0));
        let begins = [left].into_iter().chain(covered.iter().map(|part| part.1));
        let ends = covered.iter().map(|part| part.0).chain([right]);
        let width = |part: &(f64, f64)| part.1 - part.0;
        begins.zip(ends).max_by(|a, b| width(a).total_cmp(&width(b))).expect("at least one part")
    }
}

/// The rows of a run; no row of a run without steps.
pub struct Layout {
    /// The pixels of a step.
    pub step: f64,
    pub rows: Vec<Row>,
}

pub fn layout(moments: &[Moment]) -> Layout {
    let stretches = stretches(moments);
    let folds = stretches.iter().filter(|steps| steps.len() > 1).count();
    let step = step_width(stretches.len() - folds, folds);
    let mut rows: Vec<Row> = Vec::new();
    for steps in stretches {
        let width = if steps.len() > 1 { FOLD } else { step };
        // A row may end with a part of a step, so that rows which are filled evenly are enough.
        match rows.last_mut().filter(|row| row.right() + width <= ROW + step) {
            Some(row) => {
                let left = row.right();
                row.cells.push(Cell { steps, left, right: left + width });
            }
            None => rows.push(Row { cells: vec![Cell { steps, left: 0.0, right: width }] }),
        }
    }
    Layout { step, rows }
}

/// Single steps, and stretches of idle ones.
fn stretches(moments: &[Moment]) -> Vec<Range<usize>> {
    let mut list = Vec::new();
    let mut at = 0;
    while at < moments.len() {
        let idle = moments[at..].iter().take_while(|moment| moment.idle).count();
        if idle > UNFOLDED {
            list.push(at..at + idle);
            at += idle;
        } else {
            let count = idle.max(1);
            list.extend((at..at + count).map(|step| step..step + 1));
            at += count;
        }
    }
    list
}

/// One row where its steps have six pixels or more. Of longer runs there are the more rows, the longer they are, and these are filled evenly.
fn step_width(steps: usize, folds: usize) -> f64 {
    let in_rows = |rows: f64| {
        let room = rows * ROW - FOLD * folds as f64;
        (10.0 * room / steps.max(1) as f64).floor() / 10.0
    };
    if in_rows(1.0) >= 6.0 {
        return in_rows(1.0).min(MOST);
    }
    let wanted = match steps {
        0..=1_000 => 7.0,
        1_001..=2_500 => 6.0,
        _ => 5.0,
    };
    let rows = ((wanted * steps as f64 + FOLD * folds as f64) / ROW).ceil();
    in_rows(rows).clamp(LEAST, MOST)
}
