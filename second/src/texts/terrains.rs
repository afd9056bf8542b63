//! The seven terrains of full size, from a seed and for any size: rough, flat and hostile ones, each with NoData.
//! Serves docs/RULES.md, 4 to 6, at full size.

use super::fields::{wound, Field};
use super::seed::Seed;
use super::spelling::{text, Manner};
use crate::rules::grid::{Shape, HIGHEST, LOWEST};

/// The heights of a square of this size.
type Relief = fn(&mut Seed, usize) -> Vec<i64>;

/// Which cells have no data.
type Holes = fn(&mut Seed, usize) -> Vec<bool>;

/// The terrains, each with its name.
pub const TERRAINS: [(&str, Relief, Holes); 7] = [
    ("fractal", fractal, lakes),
    ("noise", noise, lakes),
    ("flat", flat, lakes),
    ("plane", plane, lakes),
    ("pit", pit, sea),
    ("spiral", spiral, sea),
    ("comb", comb, sea),
];

/// The cell side in cm: 10 m.
const SIDE: i64 = 1_000;

/// Heights by row and column.
fn relief(size: usize, mut height: impl FnMut(i64, i64) -> i64) -> Vec<i64> {
    (0..size * size).map(|cell| height((cell / size) as i64, (cell % size) as i64)).collect()
}

/// The mean of the points around one that lie on a square of this width, at these four distances.
fn mean(points: &[i64], width: usize, row: usize, column: usize, reach: &[(i64, i64); 4], half: i64) -> i64 {
    let inside = |at: i64| 0 <= at && at < width as i64;
    let around = reach.iter().map(|(south, east)| (row as i64 + south * half, column as i64 + east * half));
    let (mut sum, mut number) = (0, 0);
    for (row, column) in around.filter(|&(row, column)| inside(row) && inside(column)) {
        sum += points[row as usize * width + column as usize];
        number += 1;
    }
    sum / number
}

/// One round of diamond-square (Fournier, Fussell and Carpenter 1982): centres of squares, then midpoints of edges.
fn refine(seed: &mut Seed, points: &mut [i64], width: usize, step: usize, rough: i64) {
    let half = step / 2;
    for row in (half..width).step_by(step) {
        for column in (half..width).step_by(step) {
            let diagonal = [(-1, -1), (-1, 1), (1, -1), (1, 1)];
            let middle = mean(points, width, row, column, &diagonal, half as i64);
            points[row * width + column] = middle + seed.between(-rough, rough);
        }
    }
    for row in (0..width).step_by(half) {
        for column in ((row / half + 1) % 2 * half..width).step_by(step) {
            let cardinal = [(-1, 0), (0, -1), (0, 1), (1, 0)];
            let middle = mean(points, width, row, column, &cardinal, half as i64);
            points[row * width + column] = middle + seed.between(-rough, rough);
        }
    }
}

/// Points of a square with edges of `step` cells, refined to single cells; each round is as rough as the last times
/// `share` of 100.
fn diamond_square(seed: &mut Seed, size: usize, mut rough: i64, share: i64) -> Vec<i64> {
    let mut step = size.next_power_of_two();
    let width = step + 1;
    let mut points = vec![0; width * width];
    for corner in [0, step, step * width, step * width + step] {
        points[corner] = seed.between(-rough, rough);
    }
    while step > 1 {
        refine(seed, &mut points, width, step, rough);
        (step, rough) = (step / 2, rough * share / 100);
    }
    relief(size, |row, column| points[row as usize * width + column as usize])
}

/// Mountains: 400 m of relief at large, about 1 m from cell to cell.
fn fractal(seed: &mut Seed, size: usize) -> Vec<i64> {
    let heights = diamond_square(seed, size, 40_000, 55);
    heights.iter().map(|height| 100_000 + height).collect()
}

fn noise(seed: &mut Seed, size: usize) -> Vec<i64> {
    relief(size, |_, _| seed.between(0, 100_000))
}

/// Plateaus one cm above one another, a cell in a hundred one cm lower or higher.
fn flat(seed: &mut Seed, size: usize) -> Vec<i64> {
    let heights = diamond_square(seed, size, 800, 45);
    let step = |seed: &mut Seed| if seed.once_in(100) { seed.between(-1, 1) } else { 0 };
    heights.iter().map(|height| 5_000 + height.div_euclid(100) + step(seed)).collect()
}

fn plane(seed: &mut Seed, size: usize) -> Vec<i64> {
    let (south, east) = (seed.between(20, 60), seed.between(20, 60));
    relief(size, |row, column| 400_000 - south * row - east * column)
}

/// Rows of sea in the north of the pit, the spiral and the comb.
fn coast(size: usize) -> usize {
    size / 16
}

/// One pit down to the middle with one low gap in its edge.
fn pit(seed: &mut Seed, size: usize) -> Vec<i64> {
    let (last, shore) = (size as i64 - 1, coast(size) as i64);
    let ring = |row: i64, column: i64| (row - shore).min(column).min(last - row).min(last - column).max(0);
    let gap = seed.between(last / 4, 3 * last / 4);
    relief(size, |row, column| match (row, column) {
        _ if row == last && column == gap => 200_000,
        _ => 300_000 - 300 * ring(row, column),
    })
}

/// One corridor wound inwards between walls, rising one cm every other step.
fn spiral(seed: &mut Seed, size: usize) -> Vec<i64> {
    let shape = Shape { rows: size - coast(size), columns: size };
    let mut heights = vec![HIGHEST; size * size];
    let start = seed.between(0, 50_000);
    for (step, &cell) in wound(shape).iter().enumerate() {
        heights[coast(size) * size + cell] = start + step as i64 / 2;
    }
    heights
}

/// Corridors beside one another that fall south into one that falls east, with shallow pits in them.
fn comb(seed: &mut Seed, size: usize) -> Vec<i64> {
    let (last, shore) = (size as i64 - 1, coast(size) as i64);
    relief(size, |row, column| {
        let spine = 10_000 + (last - column);
        match (row, column) {
            _ if row == last - 1 => spine,
            _ if row > shore && row < last && column % 2 == 1 => spine + 3 * (last - row) + seed.between(0, 4),
            _ => 60_000,
        }
    })
}

/// Six round lakes, and a corner cut off.
fn lakes(seed: &mut Seed, size: usize) -> Vec<bool> {
    let (size_signed, most) = (size as i64, (size as i64 / 24).max(1));
    let lake = |seed: &mut Seed| (seed.below(size) as i64, seed.below(size) as i64, seed.between(0, most));
    let lakes: Vec<(i64, i64, i64)> = (0..6).map(|_| lake(seed)).collect();
    let inside = |row: i64, column: i64| {
        let within = |&(south, east, radius): &(i64, i64, i64)| {
            (row - south) * (row - south) + (column - east) * (column - east) <= radius * radius
        };
        row + column < size_signed / 8 || lakes.iter().any(within)
    };
    (0..size * size).map(|cell| inside((cell / size) as i64, (cell % size) as i64)).collect()
}

/// Sea in the north.
fn sea(_: &mut Seed, size: usize) -> Vec<bool> {
    (0..size * size).map(|cell| cell / size < coast(size)).collect()
}

/// Which terrain has this name.
pub fn kind(name: &str) -> Option<usize> {
    TERRAINS.iter().position(|&(known, ..)| known == name)
}

/// The terrain of a kind.
pub fn terrain(kind: usize, size: usize, seed: u64) -> Field {
    let (_, relief, holes) = TERRAINS[kind];
    let mut seed = Seed::of(seed, kind as u64);
    let ground = relief(&mut seed, size);
    let holes = holes(&mut seed, size);
    let height = |(&height, &hole): (&i64, &bool)| (!hole).then_some(height.clamp(LOWEST, HIGHEST));
    let heights = ground.iter().zip(&holes).map(height).collect();
    Field { shape: Shape { rows: size, columns: size }, side: SIDE, nodata: Some(-999_900), heights }
}

/// A terrain's text.
pub fn terrain_text(kind: usize, size: usize, seed: u64) -> Vec<u8> {
    let field = terrain(kind, size, seed);
    text(&mut Seed::of(seed, 0), Manner::Plain, &field).bytes
}
