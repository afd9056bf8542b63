//! The map call: from ground heights and settings, of one farm or of two, and directions if they are given, to the five
//! grids. States docs/RULES.md, 7.2 The map call.

use super::direction::{self, Flow, NO_DIRECTION};
use super::factor::{Factors, NO_FACTOR};
use super::farms::{Accepted, Farms};
use super::fill;
use super::given;
use super::grid::{Shape, HIGHEST, LARGEST_SIDE, LOWEST, MOST_ROWS, NODATA};
use super::length::Terrain;
use super::refusal::{self, refuse, Refusal};
use super::settings::Settings;
use super::trail;

/// From heights and settings come five grids: filled height, direction, flow count, slope length, LS.
pub struct Map {
    pub filled: Vec<i32>,
    pub flow: Flow,
    pub count: Vec<u32>,
    pub length: Vec<u64>,
    pub factor: Vec<u32>,
    pub valid: usize,
    pub longest: usize,
}

/// 1: rows or columns 0 or above 1,024.
pub fn judge_shape(shape: Shape) -> Result<(), Refusal> {
    let good = 1..=MOST_ROWS;
    if good.contains(&shape.rows) && good.contains(&shape.columns) { Ok(()) } else { refuse(refusal::SHAPE, 0) }
}

/// The map call tests 1, 2, 3, 4, 19, 5 in that order, 5 at the first bad cell in row order. 2 covers the ground, the
/// given directions if there are some, and the farm marks.
pub fn judge<'a>(
    shape: Shape,
    side: i64,
    ground: &[i32],
    given: Option<&[u8]>,
    farms: &'a Farms,
) -> Result<Accepted<'a>, Refusal> {
    judge_shape(shape)?;
    if ground.len() != shape.cells() || given.is_some_and(|given| given.len() != shape.cells()) || !farms.fit(shape) {
        return refuse(refusal::LENT, 0);
    }
    if side < 1 || side > LARGEST_SIDE {
        return refuse(refusal::SIDE, 0);
    }
    let accepted = farms.accepted()?;
    let bad = |&height: &i32| height != NODATA && !(LOWEST..=HIGHEST).contains(&i64::from(height));
    ground.iter().position(bad).map_or(Ok(accepted), |cell| refuse(refusal::HEIGHT, cell))
}

/// LS of every cell by the formula of its farm; NoData cells have none.
fn factors(farms: &Accepted, side: i64, flow: &Flow, length: &[u64]) -> Vec<u32> {
    let mut factors = Factors::default();
    let factor = |cell: usize| match flow.direction[cell] {
        NO_DIRECTION => NO_FACTOR,
        _ => factors.factor(farms.of(cell).formula, length[cell], flow.steepness[cell], side),
    };
    (0..length.len()).map(factor).collect()
}

/// What follows from the directions, whoever drew them.
fn downhill(shape: Shape, side: i64, farms: &Accepted, filled: Vec<i32>, flow: Flow) -> Map {
    let trails = trail::trails(shape, &flow.direction);
    let length = Terrain { shape, side, flow: &flow, count: &trails.count, farms }.lengths();
    let factor = factors(farms, side, &flow, &length);
    let valid = filled.iter().filter(|&&height| height != NODATA).count();
    Map { filled, flow, count: trails.count, length, factor, valid, longest: trails.longest }
}

/// The map of a ground, of one farm or of two, under given directions if there are some, or the refusal: 17 and 18, of the
/// given directions, come after 5.
pub fn map_by(
    shape: Shape,
    side: i64,
    ground: &[i32],
    given: Option<&[u8]>,
    farms: &Farms,
) -> Result<Map, Refusal> {
    let accepted = judge(shape, side, ground, given, farms)?;
    let filled = fill::filled(shape, ground);
    let flow = match given {
        None => direction::flow(shape, ground, &filled),
        Some(given) => {
            given::judge(shape, ground, &filled, given)?;
            given::flow(shape, &filled, given)
        }
    };
    Ok(downhill(shape, side, &accepted, filled, flow))
}

/// The map of a ground of one farm, or the refusal.
pub fn map(shape: Shape, side: i64, ground: &[i32], settings: Settings) -> Result<Map, Refusal> {
    map_by(shape, side, ground, None, &Farms::One(settings))
}

/// The same under given directions.
pub fn map_given(
    shape: Shape,
    side: i64,
    ground: &[i32],
    given: &[u8],
    settings: Settings,
) -> Result<Map, Refusal> {
    map_by(shape, side, ground, Some(given), &Farms::One(settings))
}

#[cfg(test)]
mod tests {
    use super::super::settings::{Channel, Formula, PRINTER};
    use super::*;

    /// The map of heights in metres, side 10 m.
    fn map_of(heights: &str, columns: usize, settings: Settings) -> Map {
        let cm = |height: &str| (height.parse::<f64>().unwrap() * 100.0).round() as i32;
        let ground: Vec<i32> = heights.split(' ').map(cm).collect();
        let shape = Shape { rows: ground.len() / columns, columns };
        map(shape, 1_000, &ground, settings).expect("an example is accepted")
    }

    /// Settings without channels.
    fn cutoffs(low: f64, high: f64) -> Settings {
        Settings { low, high, ..PRINTER }
    }

    /// docs/RULES.md, 8 Small fields.
    #[test]
    fn small_fields() {
        let one = map_of("0", 1, PRINTER);
        assert_eq!((one.flow.direction[0], one.count[0], one.length[0], one.longest), (0, 1, 5_000, 0));
        assert_eq!(map_of("9 8 7 5", 4, PRINTER).length, [5_000, 15_000, 25_000, 0]);
        assert_eq!(map_of("9 8 7 5", 4, cutoffs(1.0, 1.0)).length, [5_000, 15_000, 25_000, 35_000]);
        assert_eq!(map_of("9 7 6", 3, PRINTER).length, [5_000, 0, 0]);
        assert_eq!(map_of("9 7 6", 3, cutoffs(0.5, 0.51)).length, [5_000, 15_000, 0]);
        assert_eq!(map_of("9 8 9 7.59", 2, PRINTER).flow.direction[0], 1);
        assert_eq!(map_of("9 8 9 7.58", 2, PRINTER).flow.direction[0], 2);
    }

    #[test]
    fn ties_go_to_the_first_code() {
        assert_eq!(map_of("8 9 8", 3, PRINTER).flow.direction, [0, 1, 0]);
        assert_eq!(map_of("5 5 5 5 5 5 5 5 5", 3, PRINTER).flow.direction, [0, 0, 0, 0, 1, 0, 0, 0, 0]);
    }

    /// A ridge that drains E, one that drains SE, and a single cell, which drains off the map.
    #[test]
    fn ridges_start_by_their_own_direction() {
        let ridge = |heights: &str, columns| {
            let map = map_of(heights, columns, PRINTER);
            (map.flow.direction[0], map.length[0])
        };
        assert_eq!(ridge("9 8 9 7.59", 2), (1, 5_000));
        assert_eq!(ridge("9 8 9 7.58", 2), (2, 7_071));
        assert_eq!(ridge("9", 1), (0, 5_000));
    }

    /// A basin of two flat cells and its outlet. All inflows of the first flat cell are cut, so it has 0. It points E at
    /// the second one, which starts afresh by its own direction: SE in the first field, E in the second. The outlet
    /// starts afresh with direction 0.
    #[test]
    fn flat_cells_start_by_their_own_direction() {
        let basin = |heights: &str| {
            let map = map_of(heights, 4, PRINTER);
            (map.flow.direction, map.length)
        };
        let (direction, length) = basin("9 9 9 9 9 5 5 9 9 9 9 5");
        assert_eq!(direction, [2, 4, 4, 8, 1, 1, 2, 4, 128, 64, 1, 0]);
        assert_eq!(length, [7_071, 5_000, 5_000, 7_071, 5_000, 0, 7_071, 5_000, 7_071, 5_000, 5_000, 5_000]);
        let (direction, length) = basin("9 9 9 9 9 5 5 5 9 9 9 9");
        assert_eq!(direction, [2, 4, 4, 4, 1, 1, 1, 0, 128, 64, 64, 64]);
        assert_eq!(length, [7_071, 5_000, 5_000, 5_000, 5_000, 0, 5_000, 5_000, 7_071, 5_000, 5_000, 5_000]);
    }

    /// A second drop of 50 cm is half of the first, and not under 5 percent.
    #[test]
    fn cuts_at_their_bounds() {
        assert_eq!(map_of("9 8 7.5", 3, cutoffs(0.5, 1.0)).length[1], 15_000);
        assert_eq!(map_of("9 8 7.5", 3, cutoffs(1.0, 0.5)).length[1], 0);
        assert_eq!(map_of("9 8 7.51", 3, cutoffs(1.0, 0.5)).length[1], 15_000);
        assert_eq!(map_of("9 8 7 6", 4, cutoffs(0.0, 0.0)).length, [5_000, 15_000, 25_000, 0]);
        assert_eq!(map_of("9 8 9 7.58", 2, cutoffs(1.0, 1.0)).length[3], 21_213);
    }

    /// A count equal to the bound is no channel's.
    #[test]
    fn channels_at_their_bounds() {
        let cells = Settings { channel: Channel::Cells(2), ..cutoffs(1.0, 1.0) };
        assert_eq!(map_of("9 8 7 5", 4, cells).length, [5_000, 15_000, 0, 0]);
        let percentage = Settings { channel: Channel::Percentage(75.0), ..cells };
        assert_eq!(map_of("9 8 7 5", 4, percentage).length, [5_000, 15_000, 25_000, 0]);
    }

    /// The formula moves LS alone. The drops of the second strip are ten, nine and eight percent.
    #[test]
    fn formulas_move_the_factor_alone() {
        let both = |heights, columns| {
            let settings = Settings { low: 1.0, high: 1.0, ..PRINTER };
            let [older, newer] = Formula::ALL.map(|formula| map_of(heights, columns, Settings { formula, ..settings }));
            assert_eq!((&older.length, &older.count), (&newer.length, &newer.count));
            (older.factor, newer.factor)
        };
        assert_eq!(both("9", 1), (vec![74 * 65], vec![74 * 40]));
        let (older, newer) = both("9 8 7.1 6.3", 4);
        assert_eq!(older, [47 * 1_157, 82 * 988, 106 * 833, 109 * 65]);
        assert_eq!(newer, [47 * 1_163, 82 * 995, 106 * 883, 109 * 40]);
    }

    /// The map call tests 1, 2, 3, 4, 5 in that order.
    #[test]
    fn refusals_in_their_order() {
        let bad = Settings { low: 2.0, ..PRINTER };
        let refusal = |rows, columns, side, ground: &[i32], settings| {
            let answer = map(Shape { rows, columns }, side, ground, settings).map(|_| ());
            answer.map_err(|Refusal { number, place }| (number, place))
        };
        assert_eq!(refusal(0, 1, 0, &[], bad), Err((1, 0)));
        assert_eq!(refusal(1, 1_025, 0, &[], bad), Err((1, 0)));
        assert_eq!(refusal(1, 2, 0, &[1_000_000], bad), Err((2, 0)));
        assert_eq!(refusal(1, 2, 0, &[0, 1_000_000], bad), Err((3, 0)));
        assert_eq!(refusal(1, 2, 100_001, &[0, 1_000_000], bad), Err((3, 0)));
        assert_eq!(refusal(1, 2, 1, &[0, 1_000_000], bad), Err((4, 1)));
        assert_eq!(refusal(1, 2, 1, &[NODATA, 900_001], PRINTER), Err((5, 1)));
        assert_eq!(refusal(1, 2, 1, &[NODATA, 900_000], PRINTER), Ok(()));
    }

    /// With given directions it tests 1, 2, 3, 4, 5, 17, 18 in that order.
    #[test]
    fn refusals_of_given_directions_in_their_order() {
        let bad = Settings { low: 2.0, ..PRINTER };
        let refusal = |rows, side, ground: &[i32], given: &[u8], settings| {
            let answer = map_given(Shape { rows, columns: 3 }, side, ground, given, settings).map(|_| ());
            answer.map_err(|Refusal { number, place }| (number, place))
        };
        let high = [0, 0, 900_001];
        assert_eq!(refusal(0, 0, &[], &[3], bad), Err((1, 0)));
        assert_eq!(refusal(1, 0, &high, &[1, 16], bad), Err((2, 0)));
        assert_eq!(refusal(1, 0, &high[1..], &[1, 16, 3], bad), Err((2, 0)));
        assert_eq!(refusal(1, 0, &high, &[1, 16, 3], bad), Err((3, 0)));
        assert_eq!(refusal(1, 1, &high, &[1, 16, 3], bad), Err((4, 1)));
        assert_eq!(refusal(1, 1, &high, &[1, 16, 3], PRINTER), Err((5, 2)));
        assert_eq!(refusal(1, 1, &[0; 3], &[1, 16, 3], PRINTER), Err((17, 2)));
        assert_eq!(refusal(1, 1, &[0; 3], &[1, 16, 16], PRINTER), Err((18, 0)));
        assert_eq!(refusal(1, 1, &[0; 3], &[0, 16, 16], PRINTER), Ok(()));
    }

    /// The strip 9 8 7 5 with a bank after its second cell: both parts start afresh, and the steepness is that of the given
    /// directions.
    #[test]
    fn what_follows_from_given_directions() {
        let shape = Shape { rows: 1, columns: 4 };
        let map = map_given(shape, 1_000, &[900, 800, 700, 500], &[1, 0, 1, 0], PRINTER).expect("it is accepted");
        assert_eq!(map.flow.steepness, [20_000, 0, 80_000, 0]);
        assert_eq!((map.count, map.longest, map.valid), (vec![1, 2, 1, 2], 1, 4));
        assert_eq!(map.length, [5_000, 0, 5_000, 0]);
    }

    /// Settings without channels, and with a channel at every cell.
    const OPEN: Settings = PRINTER;
    const CHANNELS: Settings = Settings { channel: Channel::Cells(0), ..PRINTER };

    /// The map of two farms of heights in cm, side 10 m.
    fn farms_of(heights: &[i32], columns: usize, marks: &[u8], settings: [Settings; 2]) -> Map {
        let shape = Shape { rows: heights.len() / columns, columns };
        let farms = Farms::Two { marks: marks.to_vec(), settings };
        map_by(shape, 1_000, heights, None, &farms).expect("an example is accepted")
    }

    /// An inflow from a channel cell of the other farm brings its length, 0, and the step: east, south-east, and further on.
    /// A cut still brings 0, and a flat pair still a start.
    #[test]
    fn channels_of_the_other_farm() {
        let strip = [900, 800, 700, 600];
        let lengths = |marks: [u8; 4], settings| farms_of(&strip, 4, &marks, settings).length;
        assert_eq!(lengths([0, 0, 1, 1], [CHANNELS, OPEN]), [0, 0, 10_000, 0]);
        assert_eq!(lengths([0, 0, 1, 1], [CHANNELS, cutoffs(1.0, 1.0)]), [0, 0, 10_000, 20_000]);
        assert_eq!(lengths([1, 0, 1, 1], [CHANNELS, cutoffs(1.0, 1.0)]), [5_000, 0, 10_000, 20_000]);
        assert_eq!(lengths([1, 1, 0, 0], [OPEN, CHANNELS]), [0, 0, 10_000, 0]);
        assert_eq!(lengths([1, 1, 0, 0], [CHANNELS, OPEN]), [5_000, 15_000, 0, 0]);
        let corner = farms_of(&[900, 800, 900, 758], 2, &[0, 0, 0, 1], [CHANNELS, cutoffs(1.0, 1.0)]);
        assert_eq!((corner.flow.direction[0], corner.length), (2, vec![0, 0, 0, 14_142]));
        let given = Farms::Two { marks: vec![0, 1], settings: [CHANNELS, cutoffs(1.0, 1.0)] };
        let flat = map_by(Shape { rows: 1, columns: 2 }, 1_000, &[500, 500], Some(&[1, 0]), &given);
        assert_eq!(flat.map(|map| map.length).ok(), Some(vec![0, 5_000]));
    }

    /// The receiving cell's farm has the cutoff, not the inflow's: the second drop is half of the first.
    #[test]
    fn cutoffs_of_the_receiving_farm() {
        let settings = [PRINTER, cutoffs(0.5, 0.51)];
        let lengths = |marks: [u8; 3]| farms_of(&[900, 700, 600], 3, &marks, settings).length;
        assert_eq!(lengths([0, 1, 1]), [5_000, 15_000, 0]);
        assert_eq!(lengths([1, 0, 0]), [5_000, 0, 0]);
        let settings = [cutoffs(1.0, 0.0), cutoffs(0.0, 1.0)];
        let lengths = |marks: [u8; 4]| farms_of(&[900, 800, 760, 740], 4, &marks, settings).length;
        assert_eq!(lengths([0, 0, 0, 0]), [5_000, 15_000, 25_000, 35_000]);
        assert_eq!(lengths([0, 1, 0, 1]), [5_000, 0, 10_000, 0]);
    }

    /// Counts 1, 2, 3, 4. The percentage is of the whole map's largest count, 4, where farm 0's own largest is 2.
    #[test]
    fn percentage_of_the_whole_map() {
        let share = |percent| Settings { channel: Channel::Percentage(percent), ..cutoffs(1.0, 1.0) };
        let lengths = |percent, marks: [u8; 4]| {
            farms_of(&[900, 800, 700, 600], 4, &marks, [share(percent), cutoffs(1.0, 1.0)]).length
        };
        assert_eq!(lengths(50.0, [0, 0, 1, 1]), [5_000, 15_000, 25_000, 35_000]);
        assert_eq!(lengths(49.9, [0, 0, 1, 1]), [5_000, 0, 10_000, 20_000]);
        assert_eq!(lengths(25.0, [0, 1, 1, 0]), [5_000, 15_000, 25_000, 0]);
    }

    /// Both formulas side by side; the length of a cell does not go by the formula.
    #[test]
    fn formulas_side_by_side() {
        let settings = Formula::ALL.map(|formula| Settings { formula, ..cutoffs(1.0, 1.0) });
        let map = farms_of(&[900, 800, 710, 630], 4, &[0, 1, 0, 1], settings);
        assert_eq!(map.length, [5_000, 15_000, 25_000, 35_000]);
        assert_eq!(map.factor, [47 * 1_157, 82 * 995, 106 * 833, 109 * 40]);
        let map = farms_of(&[900, 800, 710, 630], 4, &[1, 0, 1, 0], settings);
        assert_eq!(map.factor, [47 * 1_163, 82 * 988, 106 * 883, 109 * 65]);
    }

    /// With two farms it tests 1, 2, 3, 4, 19, 5, 17, 18 in that order. A farm that no cell names has its settings judged,
    /// a NoData cell its mark.
    #[test]
    fn refusals_of_two_farms_in_their_order() {
        let bad = Settings { channel: Channel::Percentage(0.05), ..PRINTER };
        let refusal = |rows, side, ground: &[i32], given: &[u8], marks: &[u8], second| {
            let farms = Farms::Two { marks: marks.to_vec(), settings: [PRINTER, second] };
            let answer = map_by(Shape { rows, columns: 3 }, side, ground, Some(given), &farms).map(|_| ());
            answer.map_err(|Refusal { number, place }| (number, place))
        };
        let high = [NODATA, 0, 900_001];
        assert_eq!(refusal(0, 0, &[], &[], &[2], bad), Err((1, 0)));
        assert_eq!(refusal(1, 0, &high, &[3; 3], &[2; 2], bad), Err((2, 0)));
        assert_eq!(refusal(1, 0, &high, &[3; 3], &[2; 4], bad), Err((2, 0)));
        assert_eq!(refusal(1, 0, &high, &[3; 3], &[2; 3], bad), Err((3, 0)));
        assert_eq!(refusal(1, 1, &high, &[3; 3], &[2; 3], bad), Err((4, 6)));
        assert_eq!(refusal(1, 1, &[0; 3], &[0; 3], &[0; 3], bad), Err((4, 6)));
        assert_eq!(refusal(1, 1, &high, &[3; 3], &[2, 0, 3], PRINTER), Err((19, 0)));
        assert_eq!(refusal(1, 1, &high, &[3; 3], &[1, 0, 3], PRINTER), Err((19, 2)));
        assert_eq!(refusal(1, 1, &high, &[3; 3], &[1, 0, 1], PRINTER), Err((5, 2)));
        assert_eq!(refusal(1, 1, &[0; 3], &[1, 16, 3], &[1; 3], PRINTER), Err((17, 2)));
        assert_eq!(refusal(1, 1, &[0; 3], &[1, 16, 16], &[1; 3], PRINTER), Err((18, 0)));
        assert_eq!(refusal(1, 1, &[0; 3], &[0, 16, 16], &[1; 3], PRINTER), Ok(()));
    }
}
