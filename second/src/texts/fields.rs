//! Fields from a seed: grounds of every kind that docs/RULES.md, 4 Filling and directions and 5 Length, tells apart.

use super::seed::Seed;
use crate::rules::grid::{Shape, HIGHEST, LOWEST};

/// A field before it is written as a text: heights in cm, none for NoData; the NoData number as the header gives it.
#[derive(Clone)]
pub struct Field {
    pub shape: Shape,
    pub side: i64,
    pub nodata: Option<i64>,
    pub heights: Vec<Option<i64>>,
}

/// The heights of a shape's cells from a seed.
type Relief = fn(&mut Seed, Shape) -> Vec<i64>;

/// The kinds of relief, each with its name.
pub const RELIEFS: [(&str, Relief); 15] = [
    ("flat", flat),
    ("ties", ties),
    ("rough", rough),
    ("plane", plane),
    ("pit", pit),
    ("nested pits", nested_pits),
    ("plateaus", plateaus),
    ("spiral", spiral),
    ("comb", comb),
    ("serpentine", serpentine),
    ("slope classes", slope_classes),
    ("cutoffs", cutoffs),
    ("steep ties", steep_ties),
    ("cliffs", cliffs),
    ("cone", cone),
];

/// Heights by row and column.
pub fn relief(shape: Shape, mut height: impl FnMut(i64, i64) -> i64) -> Vec<i64> {
    (0..shape.cells()).map(|cell| height(shape.row(cell) as i64, shape.column(cell) as i64)).collect()
}

/// The number of rings around a cell up to the grid's edge: 0 on the edge.
fn ring(shape: Shape, row: i64, column: i64) -> i64 {
    row.min(column).min(shape.rows as i64 - 1 - row).min(shape.columns as i64 - 1 - column)
}

fn flat(seed: &mut Seed, shape: Shape) -> Vec<i64> {
    let height = seed.between(LOWEST, HIGHEST);
    relief(shape, |_, _| height)
}

fn ties(seed: &mut Seed, shape: Shape) -> Vec<i64> {
    let (levels, unit) = (seed.between(1, 4), *seed.pick(&[1, 50, 100, 3_000]));
    relief(shape, |_, _| unit * seed.between(0, levels))
}

fn rough(seed: &mut Seed, shape: Shape) -> Vec<i64> {
    let most = *seed.pick(&[30, 1_000, 50_000, HIGHEST]);
    relief(shape, |_, _| seed.between(LOWEST.max(-most), most))
}

fn plane(seed: &mut Seed, shape: Shape) -> Vec<i64> {
    let (south, east, noise) = (seed.between(-300, 300), seed.between(-300, 300), *seed.pick(&[0, 0, 5, 100]));
    relief(shape, |row, column| 400_000 + south * row + east * column + seed.between(-noise, noise))
}

fn pit(seed: &mut Seed, shape: Shape) -> Vec<i64> {
    let (step, sill) = (seed.between(1, 200), seed.between(0, 300));
    let mut heights = relief(shape, |row, column| 50_000 - step * ring(shape, row, column));
    let gap = seed.below(shape.cells());
    heights[gap] -= sill;
    heights
}

/// Rings of walls and floors inside one another, some cells of them lower.
fn nested_pits(seed: &mut Seed, shape: Shape) -> Vec<i64> {
    let rings = shape.rows.min(shape.columns) / 2 + 1;
    let levels: Vec<i64> = (0..rings).map(|_| 1_000 + 100 * seed.between(0, 8)).collect();
    let mut heights = relief(shape, |row, column| levels[ring(shape, row, column) as usize]);
    for _ in 0..rings {
        let gap = seed.below(shape.cells());
        heights[gap] -= 100 * seed.between(0, 4);
    }
    heights
}

fn plateaus(seed: &mut Seed, shape: Shape) -> Vec<i64> {
    let (width, rise) = (seed.between(2, 5), *seed.pick(&[1, 100, 5_000]));
    let (south, east) = (seed.between(-2, 2), seed.between(-2, 2));
    relief(shape, |row, column| 300_000 + rise * (south * row + east * column).div_euclid(width))
}

/// A corridor wound inwards between walls, its floor flat, falling or rising.
fn spiral(seed: &mut Seed, shape: Shape) -> Vec<i64> {
    let (wall, fall) = (10_000, seed.between(-3, 3));
    let mut heights = vec![wall; shape.cells()];
    for (step, &cell) in wound(shape).iter().enumerate() {
        heights[cell] = wall - 5_000 - fall * step as i64 / 2;
    }
    heights
}

/// The cells of a walk that turns right before the edge and before its own track, one cell of wall between.
pub fn wound(shape: Shape) -> Vec<usize> {
    let (rows, columns) = (shape.rows as i64, shape.columns as i64);
    let mut free = vec![true; shape.cells()];
    let on_grid = |row: i64, column: i64| 0 <= row && row < rows && 0 <= column && column < columns;
    let open = |free: &[bool], row: i64, column: i64| !on_grid(row, column) || free[(row * columns + column) as usize];
    let (mut row, mut column, mut south, mut east, mut turns) = (0, 0, 0, 1, 0);
    let mut walk = vec![0];
    free[0] = false;
    while turns < 2 {
        let (ahead, beside) = (row + south, column + east);
        let free_ahead = on_grid(ahead, beside) && open(&free, ahead, beside);
        if free_ahead && open(&free, ahead + south, beside + east) {
            (row, column, turns) = (ahead, beside, 0);
            let cell = (row * columns + column) as usize;
            free[cell] = false;
            walk.push(cell);
        } else {
            (south, east, turns) = (east, -south, turns + 1);
        }
    }
    walk
}

/// Corridors beside one another, open to the north or closed at both ends.
fn comb(seed: &mut Seed, shape: Shape) -> Vec<i64> {
    let (first, fall) = (*seed.pick(&[0, 1]), seed.between(-20, 20));
    let corridor = first..shape.rows as i64 - 1;
    relief(shape, |row, column| if column % 2 == 1 && corridor.contains(&row) { 2_000 + fall * row } else { 4_000 })
}

/// Corridors joined at alternate ends: one long trail over flat or slightly falling ground.
fn serpentine(seed: &mut Seed, shape: Shape) -> Vec<i64> {
    let (fall, last) = (seed.between(0, 2), shape.columns as i64 - 1);
    relief(shape, |row, column| {
        let (pass, joint) = (row / 2, row % 2);
        let along = if pass % 2 == 0 { column } else { last - column };
        if joint == 1 && along != last { 90_000 } else { 50_000 - fall * (pass * (last + 2) + along + joint) }
    })
}

/// How far the ground has fallen at a column, by the drops from each one to the next.
pub fn fallen(drops: &[i64], column: i64) -> i64 {
    drops[..column as usize].iter().sum()
}

/// Falls east by drops on both sides of the bounds between exponents (at side 10 m: 50, 30 and 10 cm).
fn slope_classes(seed: &mut Seed, shape: Shape) -> Vec<i64> {
    let drops: Vec<i64> = (0..shape.columns).map(|_| *seed.pick(&[50, 49, 31, 30, 29, 10, 9, 0, 51])).collect();
    let south = *seed.pick(&[0, 0, 1, 50]);
    relief(shape, |row, column| 90_000 - fallen(&drops, column) - south * row)
}

/// Falls east by drops that halve and double, so that cuts are met exactly, just missed and just passed.
fn cutoffs(seed: &mut Seed, shape: Shape) -> Vec<i64> {
    let near = |seed: &mut Seed| *seed.pick(&[16, 32, 64, 128, 256, 512]) + seed.between(-1, 1) * seed.between(0, 1);
    let drops: Vec<i64> = (0..shape.columns).map(|_| near(seed)).collect();
    let south = *seed.pick(&[0, 8, 64]);
    relief(shape, |row, column| 600_000 - fallen(&drops, column) - south * row * (row % 3))
}

/// Drops in the ratio of a diagonal to a side, to the cm.
fn steep_ties(seed: &mut Seed, shape: Shape) -> Vec<i64> {
    relief(shape, |_, _| 1_000 - *seed.pick(&[0, 0, 100, 141, 142, 200, 282, 283]))
}

fn cliffs(seed: &mut Seed, shape: Shape) -> Vec<i64> {
    relief(shape, |_, _| *seed.pick(&[LOWEST, HIGHEST, LOWEST + 1, HIGHEST - 1, 0]))
}

fn cone(seed: &mut Seed, shape: Shape) -> Vec<i64> {
    let (top, left) = (seed.below(shape.rows) as i64, seed.below(shape.columns) as i64);
    let (step, sign) = (seed.between(1, 400), *seed.pick(&[1, -1]));
    relief(shape, |row, column| {
        let (south, east) = (row - top, column - left);
        400_000 - sign * step * (south * south + east * east) / 8
    })
}

/// Sides at the bounds, at the house limit for some number of steps, and any.
fn side(seed: &mut Seed) -> i64 {
    let any = seed.between(1, 100_000);
    let house_limit = [4_425, 4_426, 6_096, 12_192, 12_193, 20_320, 20_321, 60_960, 60_961];
    let bound = *seed.pick(&[[1, 2, 10, 100, 250, 999, 2_500, 10_000, 100_000], house_limit].concat());
    *seed.pick(&[1_000, 1_000, bound, bound, any])
}

/// NoData numbers: absent, zero, a height that occurs, and far outside of every range.
fn nodata(seed: &mut Seed, heights: &[i64]) -> Option<i64> {
    let occurs = *seed.pick(heights);
    let numbers = [-999_900, -999_900, 0, 0, 1_250, occurs, 900_001, 99_999_999_999, -99_999_999_999];
    let number = *seed.pick(&numbers);
    (!seed.once_in(3)).then_some(number)
}

/// Which cells have no data: mostly none, else some, an island, a frame or all.
fn holes(seed: &mut Seed, shape: Shape) -> Vec<bool> {
    let kind = seed.below(16);
    let island = seed.below(shape.cells());
    let share = 2 + seed.below(20);
    let framed = shape.rows.min(shape.columns) > 2;
    let near = |a: usize, b: usize| a.abs_diff(b) < 2;
    let hole = |cell: usize, seed: &mut Seed| match kind {
        0..=3 => seed.once_in(share),
        4 | 5 => near(shape.row(cell), shape.row(island)) && near(shape.column(cell), shape.column(island)),
        6 => framed && shape.on_edge(cell),
        7 => share < 8,
        _ => false,
    };
    (0..shape.cells()).map(|cell| hole(cell, seed)).collect()
}

/// Shapes: mostly small, some to 45 by 45, some strips to 1,024.
pub fn shape(seed: &mut Seed) -> Shape {
    let most = if seed.once_in(40) { 45 } else { *seed.pick(&[3, 4, 5, 6, 7, 8, 9, 10, 11, 12, 14, 20]) };
    let least = *seed.pick(&[1, most / 2 + 1]);
    let strip = *seed.pick(&[20, 60, 60, 700, 1_024]);
    match seed.below(40) {
        0 => Shape { rows: 1, columns: strip },
        1 => Shape { rows: strip, columns: 1 },
        _ => Shape { rows: least + seed.below(most - least + 1), columns: least + seed.below(most - least + 1) },
    }
}

/// The NoData number and the heights of a ground, some of its cells without data.
pub fn with_holes(seed: &mut Seed, shape: Shape, ground: &[i64]) -> (Option<i64>, Vec<Option<i64>>) {
    let nodata = nodata(seed, ground);
    let holes = holes(seed, shape);
    let number = nodata.unwrap_or(-999_900);
    let height = |(&ground, &hole): (&i64, &bool)| {
        let height = ground.clamp(LOWEST, HIGHEST);
        (!hole && height != number).then_some(height)
    };
    (nodata, ground.iter().zip(&holes).map(height).collect())
}

/// A field of the given kind of relief and shape.
pub fn field(seed: &mut Seed, kind: usize, shape: Shape) -> Field {
    let ground = RELIEFS[kind].1(seed, shape);
    let (nodata, heights) = with_holes(seed, shape, &ground);
    Field { shape, side: side(seed), nodata, heights }
}
