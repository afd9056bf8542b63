//! The report over a list of maps: one map's flow counts and LS are added, or another report is joined. A pass over the
//! counts finds the largest one, a second counts the cells, and one over LS finds the rest. docs/RULES.md, 12 The report.

use crate::cells::Shape;
use crate::length::channel_bound;
use crate::map::judge_marks;
use crate::settings::{judge, judge_farms, Rules};
use crate::{refuse, Refusal, Settings, TOO_LONG};

/// The classes of LS begin at 1, 5 and 10, in hundred-thousandths.
const BOUNDS: [u32; 3] = [100_000, 500_000, 1_000_000];

/// The greatest LS, the first map that has it, and the first cell there.
#[derive(Clone, Copy, Debug, PartialEq, Eq)]
pub struct Greatest {
    pub factor: u64,
    pub map: u64,
    pub cell: u64,
}

/// The totals in the order of the report's lines: maps, valid, channel, zero, long, sum, under 1, from 1, from 5, from 10.
#[derive(Clone, Copy, Debug, Default, PartialEq, Eq)]
pub struct Report {
    pub totals: [u64; 10],
    pub greatest: Option<Greatest>,
}

/// The greatest count that is no channel's, of all counts there are.
fn bound(rules: &Rules, count: &[u32]) -> u32 {
    channel_bound(rules.threshold, count).map_or(u32::MAX, |bound| bound.min(u64::from(u32::MAX)) as u32)
}

/// Valid cells and channel cells; `bound` is the greatest count that is no channel's. Cells fit 32 bits here and below, and
/// none takes a branch, so that the loops can work on several cells at once.
#[inline(never)]
fn by_counts(bound: u32, count: &[u32]) -> [u32; 2] {
    let [mut valid, mut channel] = [0; 2];
    for &count in count {
        valid += u32::from(count != 0);
        channel += u32::from(count > bound);
    }
    [valid, channel]
}

/// The same of two farms with a bound each.
#[inline(never)]
fn by_farms_counts(bounds: [u32; 2], marks: &[u8], count: &[u32]) -> [u32; 2] {
    let [mut valid, mut channel] = [0; 2];
    for (&mark, &count) in marks.iter().zip(count) {
        valid += u32::from(count != 0);
        channel += u32::from(count > if mark == 0 { bounds[0] } else { bounds[1] });
    }
    [valid, channel]
}

/// The report of one map by its valid cells, channel cells and LS.
#[inline(never)]
fn of_map([valid, channel]: [u32; 2], factors: &[u32]) -> Report {
    let [mut zero, mut long, mut known] = [0; 3];
    let (mut under, mut most, mut sum) = ([0; 3], 0, 0);
    for &factor in factors {
        zero += u32::from(factor == 0);
        long += u32::from(factor == TOO_LONG);
        known += u32::from(factor < TOO_LONG);
        for (under, bound) in under.iter_mut().zip(BOUNDS) {
            *under += u32::from(factor < bound);
        }
        let factor = if factor < TOO_LONG { factor } else { 0 };
        most = most.max(factor);
        sum += u64::from(factor);
    }
    let cell = if known > 0 { factors.iter().position(|&factor| factor == most) } else { None };
    let greatest = cell.map(|cell| Greatest { factor: most.into(), map: 0, cell: cell as u64 });
    let [one, five, ten] = under;
    let [valid, channel, zero, long] = [valid, channel, zero, long].map(u64::from);
    let [under_1, from_1, from_5, from_10] = [one, five - one, ten - five, known - ten].map(u64::from);
    Report { totals: [1, valid, channel, zero, long, sum, under_1, from_1, from_5, from_10], greatest }
}

/// Makes the tests of refusals 1 and 2; `lent` has the lengths of the grids and of the marks.
fn judge_sizes(rows: usize, columns: usize, lent: &[usize]) -> Result<(), Refusal> {
    let sizes = 1..=1_024;
    if !sizes.contains(&rows) || !sizes.contains(&columns) {
        return refuse(1, 0);
    }
    let cells = Shape::of(rows, columns).cells();
    if lent.iter().any(|&length| length != cells) { refuse(2, 0) } else { Ok(()) }
}

/// Adds a map to a report; refused with 1, 2, 4 or 16, it is left as it was.
pub fn add(
    report: &mut Report,
    rows: usize,
    columns: usize,
    settings: Settings,
    count: &[u32],
    factors: &[u32],
) -> Result<(), Refusal> {
    judge_sizes(rows, columns, &[count.len(), factors.len()])?;
    let rules = judge(settings)?;
    join(report, &of_map(by_counts(bound(&rules, count), count), factors))
}

/// Adds a map of two farms to a report; refused with 1, 2, 4, 19 or 16, it is left as it was.
pub fn add_farms(
    report: &mut Report,
    rows: usize,
    columns: usize,
    settings: [Settings; 2],
    marks: &[u8],
    count: &[u32],
    factors: &[u32],
) -> Result<(), Refusal> {
    judge_sizes(rows, columns, &[marks.len(), count.len(), factors.len()])?;
    let rules = judge_farms(settings)?;
    judge_marks(marks)?;
    let bounds = [bound(&rules[0], count), bound(&rules[1], count)];
    join(report, &of_map(by_farms_counts(bounds, marks, count), factors))
}

/// Joins a report of later maps to a first one; refused with 16, that is left as it was.
pub fn join(report: &mut Report, other: &Report) -> Result<(), Refusal> {
    let mut whole = *report;
    for (total, more) in whole.totals.iter_mut().zip(other.totals) {
        *total = total.checked_add(more).ok_or(Refusal { number: 16, place: 0 })?;
    }
    if let Some(later) = other.greatest {
        if report.greatest.is_none_or(|earlier| later.factor > earlier.factor) {
            let map = later.map.checked_add(report.totals[0]).ok_or(Refusal { number: 16, place: 0 })?;
            whole.greatest = Some(Greatest { map, ..later });
        }
    }
    *report = whole;
    Ok(())
}
