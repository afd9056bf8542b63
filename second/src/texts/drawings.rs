//! Drawings: small fields of a seed with directions drawn by someone else, as texts: legal ones, rings, faults, and texts
//! that are bad themselves. Serves docs/RULES.md, 4.7 Given directions.

use super::fields::{self, Field};
use super::hostile;
use super::seed::Seed;
use super::spelling::{any_text, header_words, join, words, Manner};
use super::valleys::spoiled;
use crate::rules::direction::{flow, LEAVES, NO_DIRECTION};
use crate::rules::fill::{filled, rim};
use crate::rules::grid::{bearing_of, Shape, BEARINGS, NODATA};
use crate::rules::grid_texts::Sources;
use crate::rules::settings::Settings;

/// The text of a field, that of the codes drawn on it, and the settings of the map.
pub struct Drawing {
    pub field: Vec<u8>,
    pub codes: Vec<u8>,
    pub settings: Settings,
}

impl Drawing {
    pub fn sources(&self) -> Sources<'_> {
        Sources { codes: Some(&self.codes), ..Sources::alone(&self.field, self.settings) }
    }
}

/// A ground and its filled heights, which a drawing goes by.
pub struct Land {
    pub shape: Shape,
    pub ground: Vec<i32>,
    filled: Vec<i32>,
}

impl Land {
    pub fn of(field: &Field) -> Land {
        let height = |height: &Option<i64>| height.map_or(NODATA, |height| height as i32);
        let ground: Vec<i32> = field.heights.iter().map(height).collect();
        Land { shape: field.shape, filled: filled(field.shape, &ground), ground }
    }

    fn valid(&self) -> Vec<usize> {
        (0..self.shape.cells()).filter(|&cell| self.ground[cell] != NODATA).collect()
    }

    fn rim(&self, cell: usize) -> bool {
        rim(self.shape, &self.ground, cell)
    }

    /// The code of each neighbour that is not higher, and the neighbour.
    fn ways(&self, cell: usize) -> Vec<(u8, usize)> {
        let way = |next: usize| self.ground[next] != NODATA && self.filled[next] <= self.filled[cell];
        let around = self.shape.neighbours(cell).filter(|&(_, next)| way(next));
        around.map(|(bearing, next)| (bearing.code, next)).collect()
    }

    /// The neighbours of the same filled height.
    fn level(&self, cell: usize) -> Vec<usize> {
        let ways = self.ways(cell).into_iter().map(|(_, next)| next);
        ways.filter(|&next| self.filled[next] == self.filled[cell]).collect()
    }

    /// The directions that the rules give.
    pub fn own(&self) -> Vec<u8> {
        flow(self.shape, &self.ground, &self.filled).direction
    }
}

/// A legal drawing: cell by cell in any order, each to a neighbour that is drawn already and not higher, some of the rim
/// cells off the map.
fn legal(seed: &mut Seed, land: &Land) -> Vec<u8> {
    let mut codes = vec![NO_DIRECTION; land.shape.cells()];
    let mut waiting = land.valid();
    while !waiting.is_empty() {
        let all = waiting.iter().flat_map(|&cell| land.ways(cell).into_iter().map(move |(code, next)| (cell, code, next)));
        let drawn = all.filter(|&(_, _, next)| codes[next] != NO_DIRECTION);
        let ways: Vec<(usize, u8)> = drawn.map(|(cell, code, _)| (cell, code)).collect();
        let rims = waiting.iter().filter(|&&cell| land.rim(cell));
        let leaving: Vec<(usize, u8)> = rims.map(|&cell| (cell, LEAVES)).collect();
        let leaves = ways.is_empty() || !leaving.is_empty() && seed.once_in(8);
        let (cell, code) = *seed.pick(if leaves { &leaving } else { &ways });
        codes[cell] = code;
        waiting.retain(|&other| other != cell);
    }
    codes
}

/// The kinds of rings, none where the land has no level cells for one.
const RINGS: [fn(&mut Seed, &Land) -> Option<Vec<usize>>; 3] = [pair, walked, rectangle];

/// A cell that has a neighbour of the same filled height.
fn on_level(seed: &mut Seed, land: &Land) -> Option<usize> {
    let mut cells = land.valid();
    cells.retain(|&cell| !land.level(cell).is_empty());
    if cells.is_empty() { None } else { Some(*seed.pick(&cells)) }
}

/// A ring of two cells.
fn pair(seed: &mut Seed, land: &Land) -> Option<Vec<usize>> {
    let cell = on_level(seed, land)?;
    Some(vec![cell, *seed.pick(&land.level(cell))])
}

/// The ring of a walk over level cells that does not turn back, up to where it meets itself.
fn walked(seed: &mut Seed, land: &Land) -> Option<Vec<usize>> {
    let mut track = vec![on_level(seed, land)?];
    loop {
        let at = track[track.len() - 1];
        let before = track.len().checked_sub(2).map(|last| track[last]);
        let mut onward = land.level(at);
        onward.retain(|&next| Some(next) != before);
        if onward.is_empty() {
            return before.map(|before| vec![before, at]);
        }
        let next = *seed.pick(&onward);
        match track.iter().position(|&cell| cell == next) {
            Some(from) => return Some(track.split_off(from)),
            None => track.push(next),
        }
    }
}

/// The cells around a rectangle, from its north-western corner on to the east.
fn around(shape: Shape, [north, south]: [usize; 2], [west, east]: [usize; 2]) -> Vec<usize> {
    let cell = |row: usize, column: usize| row * shape.columns + column;
    let mut cells: Vec<usize> = (west..east).map(|column| cell(north, column)).collect();
    cells.extend((north..south).map(|row| cell(row, east)));
    cells.extend((west + 1..=east).rev().map(|column| cell(south, column)));
    cells.extend((north + 1..=south).rev().map(|row| cell(row, west)));
    cells
}

/// The longest ring around some rectangles, the whole grid first.
fn rectangle(seed: &mut Seed, land: &Land) -> Option<Vec<usize>> {
    let Shape { rows, columns } = land.shape;
    let mut span = |most: usize| {
        let [one, other] = [0; 2].map(|_| seed.below(most));
        [one.min(other), one.max(other)]
    };
    let mut rings = vec![([0, rows - 1], [0, columns - 1])];
    rings.extend((0..60).map(|_| (span(rows), span(columns))));
    rings.retain(|(rows, columns)| rows[0] < rows[1] && columns[0] < columns[1]);
    let level = |ring: &Vec<usize>| {
        land.ground[ring[0]] != NODATA && ring.iter().all(|&cell| land.filled[cell] == land.filled[ring[0]])
    };
    let rings = rings.into_iter().map(|(rows, columns)| around(land.shape, rows, columns)).filter(level);
    rings.max_by_key(Vec::len)
}

/// Draws a ring, either way round.
fn lay(seed: &mut Seed, shape: Shape, mut ring: Vec<usize>, codes: &mut [u8]) {
    if seed.once_in(2) {
        ring.reverse();
    }
    for (at, &cell) in ring.iter().enumerate() {
        let next = ring[(at + 1) % ring.len()];
        let bearing = BEARINGS.iter().find(|bearing| shape.neighbour(cell, bearing) == Some(next));
        codes[cell] = bearing.expect("the cells of a ring are neighbours").code;
    }
}

/// Draws so many rings of a kind, or of any kind.
fn rings(seed: &mut Seed, land: &Land, kind: Option<usize>, number: usize, codes: &mut [u8]) {
    for _ in 0..number {
        let kind = kind.unwrap_or(seed.below(RINGS.len()));
        if let Some(ring) = RINGS[kind](seed, land) {
            lay(seed, land.shape, ring, codes);
        }
    }
}

/// The kinds of faults.
const FAULTS: usize = 7;

/// Whether a code on a cell is a fault of a kind.
fn is_fault(land: &Land, kind: usize, cell: usize, code: u8) -> bool {
    let valid = land.ground[cell] != NODATA;
    let next = bearing_of(code).map(|bearing| land.shape.neighbour(cell, bearing));
    match kind {
        0 => valid && next == Some(None),
        1 => valid && next.flatten().is_some_and(|next| land.ground[next] == NODATA),
        2 => valid && next.flatten().is_some_and(|next| land.filled[next] > land.filled[cell]),
        3 => valid && code == LEAVES && !land.rim(cell),
        4 => valid && code == NO_DIRECTION,
        5 => !valid && code != NO_DIRECTION,
        _ => valid && code != LEAVES && code != NO_DIRECTION && next.is_none(),
    }
}

/// Puts a fault of a kind into some cell, if there can be one.
fn spoil(seed: &mut Seed, land: &Land, kind: usize, codes: &mut [u8]) {
    let all = (0..land.shape.cells()).flat_map(|cell| (0..=255).map(move |code| (cell, code)));
    let faults: Vec<(usize, u8)> = all.filter(|&(cell, code)| is_fault(land, kind, cell, code)).collect();
    if !faults.is_empty() {
        let (cell, code) = *seed.pick(&faults);
        codes[cell] = code;
    }
}

/// The kinds of drawings.
pub const KINDS: usize = 12;

/// The codes of a kind of drawing: the rules' own, legal ones, rings, faults.
pub fn codes(seed: &mut Seed, kind: usize, land: &Land) -> Vec<u8> {
    let mut codes = if kind == 0 || kind > 2 && seed.once_in(3) { land.own() } else { legal(seed, land) };
    let (few, fault) = (1 + seed.below(3), seed.below(FAULTS));
    match kind {
        3..=5 => rings(seed, land, Some(kind - 3), 1, &mut codes),
        6 => rings(seed, land, None, 1 + few, &mut codes),
        7 | 8 => spoil(seed, land, fault, &mut codes),
        9 => {
            (0..few).for_each(|_| {
                let fault = seed.below(FAULTS);
                spoil(seed, land, fault, &mut codes);
            });
            rings(seed, land, None, few - 1, &mut codes);
        }
        10 if few == 1 => rings(seed, land, None, 1, &mut codes),
        _ => (),
    }
    codes
}

/// NoData numbers of a text of codes, none of them a code but 255.
const NUMBERS: [Option<i64>; 8] =
    [None, None, Some(-999_900), Some(25_500), Some(-100), Some(30_000), Some(1), Some(99_999_999_999)];

/// A field with the codes as heights in metres; a NoData code is written as the NoData number or as 255.
pub fn as_field(seed: &mut Seed, shape: Shape, codes: &[u8]) -> Field {
    let spelled = seed.once_in(4);
    let height = |&code: &u8| (code != NO_DIRECTION || spelled).then_some(100 * i64::from(code));
    let heights = codes.iter().map(height).collect();
    Field { shape, side: 1 + seed.below(100_000) as i64, nodata: *seed.pick(&NUMBERS), heights }
}

/// How far from a code in cm a number lies that is no byte, but may be taken for that code; and words that the reader of
/// texts refuses.
const BESIDE: [i64; 9] = [25_600, 25_600, -25_600, 51_200, 50, 1, -1, 99, -50];
const REFUSED: [&str; 12] =
    ["0,5", "1,", ",5", "1,0,0", "9001", "-500.01", "1.001", "x", "+1", "1e0", "1.", "9000.01"];

/// A text of codes that is wrong itself: a word, its shape, its length, its NoData number, or all of it.
pub fn bad_text(seed: &mut Seed, mut field: Field, codes: &[u8]) -> Vec<u8> {
    let (shape, kind, cell) = (field.shape, seed.below(10), seed.below(codes.len()));
    let code = 100 * i64::from(codes[cell]);
    match kind {
        0 => field.nodata = Some(code),
        1 if shape.rows == shape.columns => field.shape = Shape { rows: 1, columns: shape.cells() },
        1 => field.shape = Shape { rows: shape.columns, columns: shape.rows },
        2 => {
            field.shape.rows += 1;
            field.heights.extend(vec![Some(0); shape.columns]);
        }
        3 => return seed.pick(&hostile::KINDS[..14])(seed).bytes,
        4 | 5 => field.heights[cell] = Some(code + *seed.pick(&BESIDE)),
        _ => (),
    }
    let mut words = words(seed, Manner::Mixed, &field);
    let header = header_words(&field);
    match kind {
        6 => words.truncate(seed.below(words.len())),
        7 => words.push(b"0".to_vec()),
        8 | 9 => words[header + cell] = seed.pick(&REFUSED).as_bytes().to_vec(),
        _ => (),
    }
    join(seed, Manner::Mixed, &words, header, field.shape.columns).bytes
}

/// The kinds of relief that have level ground.
const LEVEL: [usize; 9] = [0, 0, 1, 4, 5, 6, 7, 8, 9];

/// The field of a drawing: one of level ground for rings, else of every kind in turn; some are strips.
pub fn field(seed: &mut Seed, number: usize) -> Field {
    let kind = number % KINDS;
    let most = *seed.pick(&[1, 2, 3, 3, 5, 8, 8, 12]);
    let [one, other] = [0; 2].map(|_| 1 + seed.below(most));
    let shape = match seed.below(10) {
        0 => Shape { rows: 1, columns: 1 + seed.below(40) },
        1 => Shape { rows: 1 + seed.below(40), columns: 1 },
        _ => Shape { rows: one, columns: other },
    };
    let any = number / KINDS % fields::RELIEFS.len();
    let relief = if (3..=6).contains(&kind) { *seed.pick(&LEVEL) } else { any };
    fields::field(seed, relief, shape)
}

/// The drawing of a number, under these settings where they are not spoiled: each kind in turn.
pub fn drawing(seed: &mut Seed, number: usize, settings: Settings) -> Drawing {
    let (field, kind) = (field(seed, number), number % KINDS);
    let land = Land::of(&field);
    let codes = codes(seed, kind, &land);
    let bad = kind == 10 || kind == 11;
    let drawn = as_field(seed, land.shape, &codes);
    let text = if bad { bad_text(seed, drawn, &codes) } else { any_text(seed, &drawn) };
    let hostile = bad && seed.once_in(6);
    let field = if hostile { seed.pick(&hostile::KINDS[..14])(seed).bytes } else { any_text(seed, &field) };
    Drawing { field, codes: text, settings: spoiled(seed, settings) }
}

#[cfg(test)]
mod tests {
    use super::*;
    use crate::rules::grid_texts::mapped;
    use crate::rules::refusal::Refusal;
    use crate::rules::settings::PRINTER;
    use std::collections::BTreeSet;

    /// The refusals of the first drawings of a kind.
    fn refusals(kind: usize) -> Vec<Option<Refusal>> {
        let drawn = |number: usize| drawing(&mut Seed::of(1, number as u64), number, PRINTER);
        let drawings = (0..100).map(|number| drawn(kind + KINDS * number));
        drawings.map(|drawing| mapped(drawing.sources()).err()).collect()
    }

    fn numbers(kind: usize) -> BTreeSet<u32> {
        refusals(kind).into_iter().map(|refusal| refusal.map_or(0, |refusal| refusal.number)).collect()
    }

    /// But for a spoiled setting the first kinds are accepted; rings are 18 where there is level ground; one fault is 17.
    #[test]
    fn kinds_have_their_answers() {
        (0..3).for_each(|kind| assert!(numbers(kind).is_subset(&[0, 4].into())));
        (3..7).for_each(|kind| assert!(numbers(kind).is_superset(&[0, 18].into()) && !numbers(kind).contains(&17)));
        (7..10).for_each(|kind| assert!(numbers(kind).contains(&17)));
        assert!(numbers(9).contains(&18));
        let bad = &numbers(10) | &numbers(11);
        assert!(bad.is_superset(&[0, 1, 2, 3, 5, 6, 7, 8, 9, 10, 12, 17].into()), "{bad:?}");
    }

    /// Each kind of fault comes up on some field, and is refused alone.
    #[test]
    fn every_fault_is_refused() {
        for kind in 0..FAULTS {
            let refused = |number: u64| {
                let mut seed = Seed::of(2, number);
                let field = field(&mut seed, number as usize);
                let land = Land::of(&field);
                let mut given = land.own();
                spoil(&mut seed, &land, kind, &mut given);
                let place = (0..given.len()).find(|&cell| given[cell] != land.own()[cell]);
                let judged = crate::rules::given::judge(land.shape, &land.ground, &land.filled, &given);
                assert_eq!(judged.err(), place.map(|place| Refusal { number: 17, place }));
                place.is_some()
            };
            assert!((0..80).filter(|&number| refused(number)).count() > 2, "fault {kind}");
        }
    }

    /// Rings around the whole grid, and of two cells.
    #[test]
    fn rings_of_all_sizes() {
        let sizes = |kind: usize| {
            let ring = |number: u64| {
                let mut seed = Seed::of(3, number);
                let field = field(&mut seed, 3);
                RINGS[kind](&mut seed, &Land::of(&field)).map_or(0, |ring| ring.len())
            };
            (0..300).map(ring).collect::<BTreeSet<usize>>()
        };
        assert_eq!(sizes(0), [0, 2].into());
        assert!(sizes(1).is_superset(&[0, 2, 3, 4, 5].into()));
        assert!(sizes(2).is_superset(&[0, 4, 6, 8].into()) && sizes(2).last() > Some(&20));
        assert_eq!(around(Shape { rows: 3, columns: 3 }, [0, 2], [0, 2]), [0, 1, 2, 5, 8, 7, 6, 3]);
    }
}
