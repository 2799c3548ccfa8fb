//! Holds a cross approximation to the rule, with all that is lent to it, and to the facts of every run.

use bbfmm::{Buffers, Mode, Refusal, Report, Stop, aca_partial_pivoting};

use crate::draw::Draw;
use crate::held::{Tally, bits, same_floats};
use crate::rule::cross::{Block, Floats, Lists, Run, run};

pub const MODES: [Mode; 2] = [Mode::Old, Mode::Restart];

/// A block, and how it is approximated.
#[derive(Clone, Copy)]
pub struct Asked<'a> {
    pub block: Block<'a>,
    pub epsilon: f64,
    pub mode: Mode,
}

/// What is lent to a call.
#[derive(Clone)]
pub struct Lent {
    pub floats: Floats,
    pub lists: Lists,
}

impl Asked<'_> {
    pub fn call(self, lent: &mut Lent) -> Result<Report, Refusal> {
        let Lent {
            floats: [u, v, row, column],
            lists: [row_list, column_list],
        } = lent;
        let mut buffers = Buffers {
            u,
            v,
            row_list,
            column_list,
            row,
            column,
        };
        let Block {
            rows,
            columns,
            samples,
        } = self.block;
        aca_partial_pivoting(
            rows,
            columns,
            samples,
            self.epsilon,
            self.mode,
            &mut buffers,
        )
    }

    pub fn rule(self, lent: &Lent) -> Result<(Run, u8), u8> {
        let restart = self.mode == Mode::Restart;
        run(self.block, self.epsilon, restart, &lent.floats, &lent.lists)
    }

    /// Draws what is lent, now and then of another length than it should be. Too large a block is
    /// refused whatever the buffers are: no need for large ones.
    pub fn lend(self, draw: &mut Draw) -> Lent {
        let (rows, columns) = (self.block.rows.min(1_025), self.block.columns.min(1_025));
        let block = Block::new(rows, columns, &[]);
        let lesser = block.lesser();
        let rows_listed = block.rows_listed(self.mode == Mode::Restart);
        let floats = [rows * lesser, columns * lesser, columns, rows];
        Lent {
            floats: floats.map(|size| draw.lent(size)),
            lists: [rows_listed, lesser].map(|size| draw.lent_list(size)),
        }
    }
}

/// A list that was lent, with its first entries replaced.
fn begun<T: Clone>(lent: &[T], start: Vec<T>) -> Vec<T> {
    let rest = lent[start.len()..].to_vec();
    [start, rest].concat()
}

/// What the buffers become: beyond what was found they stay as lent.
fn left(run: &Run, before: &Lent) -> Lent {
    let places = |list: &[usize]| list.iter().map(|&place| place as u16).collect();
    let Lent { floats, lists } = before;
    Lent {
        floats: [
            begun(&floats[0], run.u.concat()),
            begun(&floats[1], run.v.concat()),
            begun(&floats[2], run.row.clone()),
            begun(&floats[3], run.column.clone()),
        ],
        lists: [
            begun(&lists[0], places(&run.rows)),
            begun(&lists[1], places(&run.columns)),
        ],
    }
}

fn report_is_ruled(report: Report, run: &Run, stop: u8) {
    assert_eq!(report.rank, run.u.len());
    assert_eq!(report.stop.number(), stop);
    assert_eq!(report.rows_read, run.rows.len());
    assert!(
        same_floats(
            &[report.estimate, report.smallest],
            &[run.estimate, run.smallest.unwrap_or(0.0)]
        ),
        "{report:?}"
    );
}

/// Whether no place of a list is named twice.
pub fn all_differ(list: &[u16]) -> bool {
    let mut sorted = list.to_vec();
    sorted.sort_unstable();
    sorted.windows(2).all(|pair| pair[0] < pair[1])
}

/// What holds of every run of its mode. The rule is not asked for it.
fn facts_hold(asked: Asked, report: Report, lists: &Lists) {
    let Block { rows, columns, .. } = asked.block;
    let lesser = asked.block.lesser();
    let rows_read = &lists[0][..report.rows_read];
    let columns_read = &lists[1][..report.rank];
    let are_below = |list: &[u16], bound| list.iter().all(|&place| usize::from(place) < bound);
    assert!(are_below(rows_read, rows) && are_below(columns_read, columns));
    assert!(report.rank <= rows_read.len(), "a term without a row");
    match report.stop {
        Stop::Tolerable => assert!(report.rank > 0),
        Stop::Spent => assert_eq!(rows_read.len(), report.rank + 1),
        Stop::UsedUp => assert_eq!(report.rank, lesser),
        Stop::AllTried => assert!(report.rank < lesser && rows_read.len() == rows),
    }
    match asked.mode {
        Mode::Old => {
            assert_ne!(report.stop, Stop::AllTried);
            assert!(rows_read.len() <= lesser);
        }
        Mode::Restart => {
            assert_ne!(report.stop, Stop::Spent);
            assert!(rows_read.len() <= rows);
            assert!(all_differ(rows_read), "a row is read twice: {rows_read:?}");
            assert!(all_differ(columns_read), "a column is used twice");
        }
    }
}

fn bits_of(floats: &Floats) -> Vec<Vec<u64>> {
    floats.iter().map(|list| bits(list)).collect()
}

/// How often each number was answered, and each stop met.
#[derive(Default)]
pub struct Met {
    pub tally: Tally,
    stops: [usize; 4],
}

impl Met {
    /// Holds a call to the rule: the report and all that is lent, or after a refusal that all is kept.
    pub fn lent_is_ruled(&mut self, asked: Asked, before: &Lent) {
        let mut after = before.clone();
        let answer = asked.call(&mut after);
        let (block, mode) = (asked.block, asked.mode);
        let case = (
            block.rows,
            block.columns,
            block.samples,
            asked.epsilon,
            mode,
        );
        let Some((run, stop)) = self.tally.number(&case, &answer, asked.rule(before)) else {
            assert_eq!(bits_of(&after.floats), bits_of(&before.floats), "{case:?}");
            assert_eq!(after.lists, before.lists, "{case:?}");
            return;
        };
        let report = answer.expect("it is no refusal");
        report_is_ruled(report, &run, stop);
        facts_hold(asked, report, &after.lists);
        self.stops[usize::from(stop) - 1] += 1;
        let ruled = left(&run, before);
        for (place, expected) in ruled.floats.iter().enumerate() {
            let holds = same_floats(&after.floats[place], expected);
            assert!(holds, "floats {place} of {case:?}");
        }
        assert_eq!(after.lists, ruled.lists, "{case:?}");
    }

    /// The same, with drawn buffers.
    pub fn is_ruled(&mut self, draw: &mut Draw, block: Block, epsilon: f64, mode: Mode) {
        let asked = Asked {
            block,
            epsilon,
            mode,
        };
        let before = asked.lend(draw);
        self.lent_is_ruled(asked, &before);
    }

    /// Sees that these stops were met at least so often, and no other.
    pub fn stopped(&self, least: usize, numbers: &[usize]) {
        println!("stops: {:?}", self.stops);
        for (place, &count) in self.stops.iter().enumerate() {
            let holds = match numbers.contains(&(place + 1)) {
                true => count >= least,
                false => count == 0,
            };
            assert!(holds, "stop {} was met {count} times", place + 1);
        }
    }
}
