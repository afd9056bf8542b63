//! Neighbours: small fields of a seed that two farms share, with marks and the settings of both, as files: some under given
//! directions, some as floats, some with marks, settings or texts that are refused. Serves docs/RULES.md, 7.1 Settings and
//! 7.2 The map call, for two farms.

use super::drawings::{self, Land};
use super::fields::Field;
use super::hostile;
use super::lone_headers;
use super::seed::Seed;
use super::spelling::{any_text, header_words, join, words, Manner};
use crate::rules::farms::{Asked, Farms};
use crate::rules::float::nearest;
use crate::rules::grid::Shape;
use crate::rules::grid_texts::{mapped, Mapped, Sources};
use crate::rules::length::Terrain;
use crate::rules::settings::{Channel, Settings, LIBRARY};
use crate::rules::trail::onward;

/// The text of a field, or its header with the floats; those of the marks and of codes; and the settings of both farms.
#[derive(Clone)]
pub struct Neighbours {
    pub field: Vec<u8>,
    pub floats: Option<Vec<u8>>,
    pub marks: Vec<u8>,
    pub codes: Option<Vec<u8>>,
    pub settings: [Settings; 2],
}

impl Neighbours {
    pub fn farms(&self) -> Asked<'_> {
        Asked::Two { marks: &self.marks, settings: self.settings }
    }

    pub fn sources(&self) -> Sources<'_> {
        let [floats, codes] = [&self.floats, &self.codes].map(|bytes| bytes.as_deref());
        Sources { text: &self.field, floats, codes, farms: self.farms() }
    }
}

/// The patterns of marks.
const PATTERNS: usize = 9;

/// Marks in a pattern: stripes of rows or columns, a lone cell, a chessboard, halves, any, one farm only.
pub fn marks(seed: &mut Seed, pattern: usize, shape: Shape) -> Vec<u8> {
    let (width, lone, first) = (1 + seed.below(3), seed.below(shape.cells()), seed.below(2) as u8);
    let mark = |cell: usize| {
        let (row, column) = (shape.row(cell), shape.column(cell));
        match pattern {
            0 => (row / width % 2) as u8 ^ first,
            1 => (column / width % 2) as u8 ^ first,
            2 => u8::from(cell == lone) ^ first,
            3 => ((row + column) % 2) as u8 ^ first,
            4 => u8::from(row + column < (shape.rows + shape.columns) / 2) ^ first,
            5 | 6 => seed.below(2) as u8,
            7 => 0,
            _ => 1,
        }
    };
    (0..shape.cells()).map(mark).collect()
}

/// Numbers in cm that are no marks: bytes above 1, and what is no byte, some of it 0 or 1 in its lowest bits.
const NO_MARKS: [i64; 14] =
    [200, 200, 300, 25_500, 25_400, 25_600, 25_700, 51_300, -100, -200, 50, 101, 1, 899_900];

/// NoData numbers of a text of marks, none of them a mark.
const NUMBERS: [Option<i64>; 6] = [None, None, Some(-999_900), Some(25_500), Some(-100), Some(99_999_999_999)];

/// A field with the marks as heights in metres.
fn as_field(seed: &mut Seed, shape: Shape, marks: &[u8]) -> Field {
    let heights = marks.iter().map(|&mark| Some(100 * i64::from(mark))).collect();
    Field { shape, side: 1 + seed.below(100_000) as i64, nodata: *seed.pick(&NUMBERS), heights }
}

/// Puts what is no mark into a cell, NoData now and then.
fn spoil(seed: &mut Seed, cell: usize, marks: &mut Field) {
    let number = *seed.pick(&NO_MARKS);
    marks.heights[cell] = (!seed.once_in(5)).then_some(number);
}

/// Words that the reader of texts refuses.
const REFUSED: [&str; 11] = ["0,5", "1,", ",1", "0,0,0", "9001", "-500.01", "1.001", "x", "+1", "1e0", "1."];

/// A text of marks that is wrong itself: its NoData number, its shape, with as many cells or not, a word, its length, or all
/// of it.
fn bad_text(seed: &mut Seed, mut marks: Field) -> Vec<u8> {
    let (shape, kind, cell) = (marks.shape, seed.below(9), seed.below(marks.heights.len()));
    match kind {
        0 => marks.nodata = Some(*seed.pick(&[0, 100])),
        1 | 2 if shape.rows == shape.columns => marks.shape = Shape { rows: 1, columns: shape.cells() },
        1 | 2 => marks.shape = Shape { rows: shape.columns, columns: shape.rows },
        3 => {
            marks.shape.columns += 1;
            marks.heights.extend(vec![Some(0); shape.rows]);
        }
        4 => return seed.pick(&hostile::KINDS[..14])(seed).bytes,
        _ => (),
    }
    let (mut words, header) = (words(seed, Manner::Mixed, &marks), header_words(&marks));
    match kind {
        5 => words.truncate(seed.below(words.len())),
        6 => words.push(b"1".to_vec()),
        7 | 8 => words[header + cell] = seed.pick(&REFUSED).as_bytes().to_vec(),
        _ => (),
    }
    join(seed, Manner::Mixed, &words, header, marks.shape.columns).bytes
}

/// Settings with one that is refused.
fn bad_settings(seed: &mut Seed, settings: Settings) -> Settings {
    match seed.below(5) {
        0 => Settings { low: 0.505, ..settings },
        1 => Settings { high: 1.01, ..settings },
        2 => Settings { channel: Channel::Percentage(0.05), ..settings },
        3 => Settings { low: -0.01, high: 2.0, ..settings },
        _ => Settings { high: 0.001, channel: Channel::Percentage(100.1), ..settings },
    }
}

/// Settings under which most cells of one farm are channels and few of the other's, so that channels flow into that one.
pub fn with_channels(seed: &mut Seed, mut settings: [Settings; 2]) -> [Settings; 2] {
    let (farm, few) = (seed.below(2), seed.below(3));
    let (tenths, cells) = ([0.0, 1.0, 10.0, 25.0][seed.below(4)], 4 + seed.below(20) as u32);
    settings[farm].channel = *seed.pick(&[Channel::Cells(few as u32), Channel::Percentage(tenths)]);
    settings[1 - farm].channel = *seed.pick(&[Channel::None, Channel::Cells(cells), Channel::Percentage(75.0)]);
    settings
}

/// The settings of farm 1, some of them the library's.
fn with_defaults(seed: &mut Seed, settings: Settings) -> Settings {
    Settings {
        low: if seed.once_in(4) { LIBRARY.low } else { settings.low },
        high: if seed.once_in(4) { LIBRARY.high } else { settings.high },
        channel: if seed.once_in(6) { LIBRARY.channel } else { settings.channel },
        formula: if seed.once_in(4) { LIBRARY.formula } else { settings.formula },
    }
}

/// The kinds of neighbours.
pub const KINDS: usize = 16;

/// The settings of a kind: every other kind has channels that flow into the other farm, as far as the field has them.
/// Farm 1 of one kind has the library's settings but for the channels, of which those would be all cells. Some are spoiled:
/// of a farm that no cell names, of one that cells do, or of both.
pub fn settings(seed: &mut Seed, kind: usize, any: [Settings; 2]) -> [Settings; 2] {
    let [first, second] = if kind % 2 == 0 { with_channels(seed, any) } else { any };
    let settings = [first, with_defaults(seed, second)];
    match (kind, seed.below(3)) {
        (5, _) => [settings[0], Settings { channel: Channel::None, ..LIBRARY }],
        (11, _) | (14, 0) => [settings[0], bad_settings(seed, settings[1])],
        (12, _) | (14, 1) => [bad_settings(seed, settings[0]), settings[1]],
        (13, 0) => settings.map(|settings| bad_settings(seed, settings)),
        _ => settings,
    }
}

/// The pattern of marks of a kind: farm 0 only where farm 1's settings are spoiled, and the other way round.
fn pattern(seed: &mut Seed, kind: usize) -> usize {
    match kind {
        11 if seed.once_in(2) => 7,
        12 if seed.once_in(2) => 8,
        11 | 12 => seed.below(7),
        _ if kind % 2 == 0 => seed.below(7),
        _ => seed.below(PATTERNS),
    }
}

/// The text of marks of a kind.
fn marks_text(seed: &mut Seed, kind: usize, field: &Field) -> Vec<u8> {
    let pattern = pattern(seed, kind);
    let marks = marks(seed, pattern, field.shape);
    let mut marks = as_field(seed, field.shape, &marks);
    let cells: Vec<usize> = (0..field.heights.len()).collect();
    let holes: Vec<usize> = cells.iter().copied().filter(|&cell| field.heights[cell].is_none()).collect();
    match kind {
        7..=9 | 13 | 14 => {
            let some = if kind == 8 && !holes.is_empty() { &holes } else { &cells };
            for _ in 0..if kind == 9 { 2 + seed.below(3) } else { 1 } {
                let cell = *seed.pick(some);
                spoil(seed, cell, &mut marks);
            }
        }
        10 | 15 => return bad_text(seed, marks),
        _ => (),
    }
    any_text(seed, &marks)
}

/// Codes on a field as a text, one that is bad itself, or else a third of them of any kind and the others good.
fn codes_text(seed: &mut Seed, bad: bool, field: &Field) -> Vec<u8> {
    let land = Land::of(field);
    let kind = if seed.once_in(3) { seed.below(drawings::KINDS) } else { seed.below(3) };
    let kind = if bad { 11 } else { kind };
    let codes = drawings::codes(seed, kind, &land);
    let drawn = drawings::as_field(seed, field.shape, &codes);
    if kind == 11 { drawings::bad_text(seed, drawn, &codes) } else { any_text(seed, &drawn) }
}

/// The floats nearest to a field's heights.
fn floats(field: &Field) -> Vec<u8> {
    let nodata = field.nodata.unwrap_or(-999_900);
    field.heights.iter().flat_map(|height| nearest(height.unwrap_or(nodata)).to_le_bytes()).collect()
}

/// Whether a channel cell of one farm flows into a cell of the other that is no channel.
pub fn channels_cross(mapped: &Mapped) -> bool {
    let Mapped { header, farms, map, .. } = mapped;
    let Farms::Two { marks, .. } = farms else { return false };
    let accepted = farms.accepted().expect("a map was made");
    let (shape, side) = (header.shape, header.side);
    let terrain = Terrain { shape, side, flow: &map.flow, count: &map.count, farms: &accepted };
    let channel = |cell: usize| terrain.is_channel(terrain.largest(), cell);
    let crosses = |cell: usize| {
        onward(shape, &map.flow.direction, cell)
            .is_some_and(|next| marks[cell] != marks[next] && channel(cell) && !channel(next))
    };
    (0..shape.cells()).any(crosses)
}

/// A strip that falls east by drops of 25 to 75 percent of the one before, under five percent or steeper, so that cutoffs
/// about one half decide.
fn shrinking(seed: &mut Seed) -> Field {
    let mut drop = *seed.pick(&[49, 400]) * seed.between(80, 100);
    let mut heights = vec![Some(90_000)];
    for at in 0..1 + seed.below(4) {
        heights.push(heights[at].map(|height| height - drop / 100));
        drop = drop * seed.between(25, 75) / 100;
    }
    Field { shape: Shape { rows: 1, columns: heights.len() }, side: 1_000, nodata: None, heights }
}

/// One try at the neighbours of a number.
fn candidate(seed: &mut Seed, number: usize, any: [Settings; 2]) -> Neighbours {
    let kind = number % KINDS;
    let field = if kind == 5 { shrinking(seed) } else { drawings::field(seed, number) };
    let settings = settings(seed, kind, any);
    let marks = marks_text(seed, kind, &field);
    let codes = (kind == 10 || seed.once_in(3)).then(|| codes_text(seed, kind == 10, &field));
    let (as_floats, hostile) = (seed.once_in(5), kind == 15 && seed.once_in(2));
    let (text, floats) = match (as_floats, hostile) {
        (_, true) => (seed.pick(&hostile::KINDS[..14])(seed).bytes, None),
        (true, false) => (lone_headers::good(seed, &field), Some(floats(&field))),
        (false, false) => (any_text(seed, &field), None),
    };
    Neighbours { field: text, floats, marks, codes, settings }
}

/// The neighbours of a number, under any settings where they are not spoiled: each kind in turn. Every other one has a
/// channel that flows into the other farm, if one of some tries has. A third of them are under given directions, and a fifth
/// of the fields are floats.
pub fn neighbours(seed: &mut Seed, number: usize, any: [Settings; 2]) -> Neighbours {
    let mut made = candidate(seed, number, any);
    for _ in 0..20 {
        if number % 2 == 1 || !mapped(made.sources()).is_ok_and(|mapped| !channels_cross(&mapped)) {
            break;
        }
        made = candidate(seed, number, any);
    }
    made
}

/// A list of up to four fields for one report, all under the same settings, none with floats or codes.
pub fn list(seed: &mut Seed, number: usize, any: [Settings; 2]) -> Vec<Neighbours> {
    let settings = settings(seed, number % KINDS, any);
    let one = |seed: &mut Seed| {
        let kind = if seed.once_in(8) { seed.below(KINDS) } else { seed.below(7) };
        let any_relief = seed.below(1_000);
        let field = drawings::field(seed, any_relief);
        let (marks, text) = (marks_text(seed, kind, &field), any_text(seed, &field));
        Neighbours { field: text, floats: None, marks, codes: None, settings }
    };
    (0..1 + seed.below(4)).map(|_| one(seed)).collect()
}

#[cfg(test)]
mod tests {
    use super::*;
    use crate::checks::any_settings;
    use crate::rules::refusal::Refusal;
    use std::collections::BTreeSet;

    fn case(number: usize) -> Neighbours {
        let mut seed = Seed::of(1, number as u64);
        let any = [any_settings(&mut seed), any_settings(&mut seed)];
        neighbours(&mut seed, number, any)
    }

    /// The numbers of the refusals of the first neighbours of a kind, 0 for those that are accepted.
    fn numbers(kind: usize) -> BTreeSet<u32> {
        let number = |at: usize| {
            let case = case(kind + KINDS * at);
            let answer = mapped(case.sources()).map(|_| ());
            answer.map_or_else(|Refusal { number, .. }| number, |()| 0)
        };
        (0..60).map(number).collect()
    }

    /// The first kinds are accepted but for their codes; the others get what they are made for.
    #[test]
    fn kinds_have_their_answers() {
        let codes: BTreeSet<u32> = [0, 1, 2, 3, 5, 6, 7, 8, 9, 10, 12, 17, 18].into();
        (0..7).for_each(|kind| assert!(numbers(kind).contains(&0) && numbers(kind).is_subset(&codes)));
        (7..10).for_each(|kind| assert!(numbers(kind).contains(&19) && !numbers(kind).contains(&4)));
        (11..15).for_each(|kind| assert!(numbers(kind).contains(&4)));
        assert!(numbers(14).contains(&19));
        let texts = &numbers(10) | &numbers(15);
        assert!(texts.is_superset(&[1, 2, 5, 7, 8, 9, 10, 12, 19].into()), "{texts:?}");
    }

    /// Each place of a bad setting comes up, each of farm 1's on a field that is all farm 0's too.
    #[test]
    fn every_setting_is_refused() {
        let place = |number: usize| {
            let refusal = mapped(case(number).sources()).err()?;
            (refusal.number == 4).then_some(refusal.place)
        };
        let places = |kind: usize| (0..300).filter_map(|at| place(kind + KINDS * at)).collect::<BTreeSet<usize>>();
        assert_eq!((places(12), places(11)), ([1, 2, 3].into(), [4, 5, 6].into()));
    }

    /// Patterns as they are drawn on three rows of four.
    #[test]
    fn patterns_of_marks() {
        let shape = Shape { rows: 3, columns: 4 };
        let drawn = |pattern: usize| {
            let marks = |number: u64| marks(&mut Seed::of(2, number), pattern, shape);
            (0..60).map(marks).collect::<BTreeSet<Vec<u8>>>()
        };
        assert!(drawn(0).contains(&vec![0, 0, 0, 0, 1, 1, 1, 1, 0, 0, 0, 0]));
        assert!(drawn(1).contains(&vec![1, 1, 0, 0, 1, 1, 0, 0, 1, 1, 0, 0]));
        assert!(drawn(2).iter().all(|marks| [1, 11].contains(&marks.iter().sum::<u8>())));
        assert!(drawn(3).contains(&vec![0, 1, 0, 1, 1, 0, 1, 0, 0, 1, 0, 1]));
        assert_eq!((drawn(7), drawn(8)), ([vec![0; 12]].into(), [vec![1; 12]].into()));
    }

    /// About half of the maps that are accepted have a channel that flows into the other farm.
    #[test]
    fn channels_flow_into_the_other_farm() {
        let cases: Vec<Neighbours> = (0..400).map(case).collect();
        let maps: Vec<Mapped> = cases.iter().filter_map(|case| mapped(case.sources()).ok()).collect();
        let crossing = maps.iter().filter(|mapped| channels_cross(mapped)).count();
        assert!(crossing * 5 >= maps.len() * 2, "{crossing} of {}", maps.len());
    }
}
