//! The rules in a second way, over seeded fields: filled heights by thresholds, flats by a search from each cell,
//! counts by sums, lengths by sweeps, L in words of 128 bits, given directions by the codes that a cell may have and by
//! peeling, two farms by maps of each alone. Serves the self-check.

use crate::rules::direction::NO_DIRECTION;
use crate::rules::factor::{slope_length_factor, Factors};
use crate::rules::farms::Farms;
use crate::rules::fill::rim;
use crate::rules::float::nearest;
use crate::rules::float_grid::read_floats;
use crate::rules::grid::{Shape, NODATA};
use crate::rules::length::Terrain;
use crate::rules::map::{map, map_by, map_given, Map};
use crate::rules::settings::{Channel, Formula, Settings};
use crate::rules::text::{read_grid, read_header};
use crate::rules::refusal::{refuse, Refusal};
use crate::rules::trail::onward;
use crate::rules::write::{room, write, Frame, Numbers};
use crate::texts::drawings::{self, Land};
use crate::texts::fields::{self, Field};
use crate::texts::neighbours;
use crate::texts::seed::Seed;
use crate::texts::spelling::{text, Manner};

/// L without powers above the fifth, where both sides are the same power, and else in 128 bits where they fit.
fn reaches_in_words(t: u128, k: u32, mm: u128) -> Option<bool> {
    // 2,212,848 and 100·mm in lowest terms.
    let (left, right) = (553_212_u128, 25 * mm);
    let (power, of_t) = match k {
        5 => (1, 2),
        4 => (2, 5),
        3 => (3, 10),
        _ => (1, 5),
    };
    let t_side = t.pow(of_t).checked_mul(left.pow(power))?;
    Some(t_side <= right.pow(power).checked_mul(100_u128.pow(of_t))?)
}

/// The factor L by big numbers against words of 128 bits, every so many mm.
pub fn factors_in_words() {
    for mm in (0..304_800).step_by(97).chain([22_128, 22_129, 88_513, 88_514, 304_800]) {
        for k in 2..=5 {
            let t = slope_length_factor(k, mm);
            let [reached, next] = [t, t + 1].map(|t| reaches_in_words(t.into(), k, mm.into()));
            assert!(reached != Some(false) && next != Some(true), "t = {t} at {mm} mm for k = {k}");
        }
    }
}

/// The filled height by thresholds: the least height up to which the ground can be walked from a rim cell.
fn filled_by_thresholds(shape: Shape, ground: &[i32]) -> Vec<i32> {
    let mut levels: Vec<i32> = ground.iter().copied().filter(|&height| height != NODATA).collect();
    levels.sort();
    levels.dedup();
    let mut filled = vec![NODATA; shape.cells()];
    for level in levels {
        let open = |cell: usize| ground[cell] != NODATA && ground[cell] <= level;
        let mut seen: Vec<bool> = (0..shape.cells()).map(|cell| open(cell) && rim(shape, ground, cell)).collect();
        let mut waiting: Vec<usize> = (0..shape.cells()).filter(|&cell| seen[cell]).collect();
        while let Some(cell) = waiting.pop() {
            filled[cell] = if filled[cell] == NODATA { level } else { filled[cell] };
            let around = shape.neighbours(cell).map(|(_, next)| next);
            let fresh: Vec<usize> = around.filter(|&next| open(next) && !seen[next]).collect();
            fresh.iter().for_each(|&next| seen[next] = true);
            waiting.extend(fresh);
        }
    }
    filled
}

/// The count of a cell is 1 and the counts of its inflows, and the counts of the cells where trails leave add up.
fn counts_by_inflows(shape: Shape, map: &Map) {
    let mut sums: Vec<u32> = map.flow.direction.iter().map(|&code| u32::from(code != NO_DIRECTION)).collect();
    for cell in 0..shape.cells() {
        if let Some(next) = onward(shape, &map.flow.direction, cell) {
            sums[next] += map.count[cell];
        }
    }
    assert_eq!(sums, map.count);
    let leaving = (0..shape.cells()).filter(|&cell| map.flow.direction[cell] == 0);
    assert_eq!(leaving.map(|cell| map.count[cell] as usize).sum::<usize>(), map.valid);
}

/// The fewest steps from one cell over its own filled height to a rim cell or a cell with a lower neighbour, by a
/// search from that cell.
fn steps_by_search(shape: Shape, ground: &[i32], map: &Map, from: usize) -> usize {
    let ends = |&cell: &usize| rim(shape, ground, cell) || map.flow.steepness[cell] > 0;
    let (mut reached, mut steps) = (vec![from], 0);
    while !reached.iter().any(ends) {
        let around = reached.iter().flat_map(|&cell| shape.neighbours(cell)).map(|(_, next)| next);
        reached = around.filter(|&next| map.filled[next] == map.filled[from]).chain([from]).collect();
        reached.sort();
        reached.dedup();
        steps += 1;
    }
    steps
}

/// A cell without a lower neighbour, not on the rim, points at the first equal one that is one step nearer.
fn flats_by_search(shape: Shape, ground: &[i32], map: &Map) {
    let flat = |cell: usize| map.count[cell] > 0 && map.flow.steepness[cell] == 0 && !rim(shape, ground, cell);
    for cell in (0..shape.cells()).filter(|&cell| flat(cell)) {
        let steps = steps_by_search(shape, ground, map, cell);
        let equal = |next: usize| map.filled[next] == map.filled[cell];
        let nearer = |next: usize| equal(next) && steps_by_search(shape, ground, map, next) + 1 == steps;
        let first = shape.neighbours(cell).find(|&(_, next)| nearer(next)).map(|(bearing, _)| bearing.code);
        assert_eq!(Some(map.flow.direction[cell]), first);
    }
}

/// The longest trail is the greatest number of rounds in which some cell still has an onward cell.
fn longest_by_rounds(shape: Shape, map: &Map) {
    let mut walkers: Vec<usize> = (0..shape.cells()).filter(|&cell| map.count[cell] > 0).collect();
    let mut rounds = 0;
    loop {
        walkers = walkers.iter().filter_map(|&cell| onward(shape, &map.flow.direction, cell)).collect();
        if walkers.is_empty() {
            return assert_eq!(rounds, map.longest);
        }
        rounds += 1;
    }
}

/// Lengths by sweeps from zeros until nothing changes.
fn lengths_by_sweeps(shape: Shape, side: i64, map: &Map, farms: &Farms) -> Vec<u64> {
    let farms = &farms.accepted().expect("accepted before");
    let terrain = Terrain { shape, side, flow: &map.flow, count: &map.count, farms };
    let largest = terrain.largest();
    let mut length = vec![0; shape.cells()];
    loop {
        let measured = |cell| if map.count[cell] == 0 { 0 } else { terrain.measured(&length, largest, cell) };
        let swept: Vec<u64> = (0..shape.cells()).map(measured).collect();
        if swept == length {
            return length;
        }
        length = swept;
    }
}

/// The codes that a cell may have by every rule but the last.
fn codes_of(shape: Shape, ground: &[i32], filled: &[i32], cell: usize) -> Vec<u8> {
    if ground[cell] == NODATA {
        return vec![NO_DIRECTION];
    }
    let lower = shape.neighbours(cell).filter(|&(_, next)| filled[next] != NODATA && filled[next] <= filled[cell]);
    lower.map(|(bearing, _)| bearing.code).chain(rim(shape, ground, cell).then_some(0)).collect()
}

/// The cells on rings by peeling: of the cells that point at one, those at which no cell that is left points are taken away
/// until there are none.
fn rings_by_peeling(shape: Shape, given: &[u8]) -> Vec<usize> {
    let mut left: Vec<usize> = (0..shape.cells()).filter(|&cell| onward(shape, given, cell).is_some()).collect();
    loop {
        let pointed: Vec<usize> = left.iter().filter_map(|&cell| onward(shape, given, cell)).collect();
        let kept: Vec<usize> = left.iter().copied().filter(|cell| pointed.contains(cell)).collect();
        if kept.len() == left.len() {
            return left;
        }
        left = kept;
    }
}

/// What the map call has to say to given directions of a good ground.
fn judged_by_peeling(shape: Shape, ground: &[i32], given: &[u8]) -> Result<(), Refusal> {
    let filled = filled_by_thresholds(shape, ground);
    let bad = (0..shape.cells()).find(|&cell| !codes_of(shape, ground, &filled, cell).contains(&given[cell]));
    match (bad, rings_by_peeling(shape, given).first()) {
        (Some(cell), _) => refuse(17, cell),
        (None, Some(&cell)) => refuse(18, cell),
        (None, None) => Ok(()),
    }
}

/// Both maps are the same in every grid and number.
fn same(one: &Map, other: &Map) {
    assert_eq!((&one.filled, &one.flow.direction), (&other.filled, &other.flow.direction));
    assert_eq!(one.flow.steepness, other.flow.steepness);
    assert_eq!((&one.count, &one.length, &one.factor), (&other.count, &other.length, &other.factor));
    assert_eq!((one.valid, one.longest), (other.valid, other.longest));
}

/// A field's own directions, given back, give its map; a drawing on it is judged the same in the second way, and what
/// follows from it holds in the second way too.
pub fn drawing(number: usize) {
    let mut seed = Seed::of(4, number as u64);
    let field = drawings::field(&mut seed, number);
    let (land, settings) = (Land::of(&field), any_settings(&mut seed));
    let Land { shape, ground, .. } = &land;
    let own = map(*shape, field.side, ground, settings).expect("a field is accepted");
    let back = map_given(*shape, field.side, ground, &own.flow.direction, settings);
    same(&own, &back.expect("the rules' own directions are accepted"));
    let given = drawings::codes(&mut seed, number % drawings::KINDS, &land);
    let mapped = map_given(*shape, field.side, ground, &given, settings);
    assert_eq!(mapped.as_ref().map(|_| ()).map_err(|&refusal| refusal), judged_by_peeling(*shape, ground, &given));
    if let Ok(map) = mapped {
        assert_eq!((&map.flow.direction, &map.filled), (&given, &own.filled));
        counts_by_inflows(*shape, &map);
        longest_by_rounds(*shape, &map);
        assert_eq!(map.length, lengths_by_sweeps(*shape, field.side, &map, &Farms::One(settings)));
    }
}

/// The cells that a cell of a farm lies on a trail into: those that the trails of its cells pass.
fn reached_from(shape: Shape, map: &Map, marks: &[u8], farm: u8) -> Vec<bool> {
    let mut reached = vec![false; shape.cells()];
    for start in (0..shape.cells()).filter(|&cell| map.count[cell] > 0 && marks[cell] == farm) {
        let mut at = Some(start);
        while let Some(cell) = at {
            reached[cell] = true;
            at = onward(shape, &map.flow.direction, cell);
        }
    }
    reached
}

/// Each cell of a map of two farms is, by the lengths of its inflows, that of a map of its farm alone.
fn cells_by_their_farms(shape: Shape, side: i64, map: &Map, marks: &[u8], settings: [Settings; 2]) {
    let mut factors = Factors::default();
    for (farm, settings) in settings.into_iter().enumerate() {
        let alone = Farms::One(settings);
        let farms = &alone.accepted().expect("accepted before");
        let terrain = Terrain { shape, side, flow: &map.flow, count: &map.count, farms };
        let own = |cell: &usize| map.count[*cell] > 0 && usize::from(marks[*cell]) == farm;
        for cell in (0..shape.cells()).filter(own) {
            assert_eq!(map.length[cell], terrain.measured(&map.length, terrain.largest(), cell));
            let factor = factors.factor(settings.formula, map.length[cell], map.flow.steepness[cell], side);
            assert_eq!(map.factor[cell], factor);
        }
    }
}

/// What came up in the fields of two farms: cells that keep length and LS since the farm that changes its settings has no
/// cell on a trail into them, and cells that another farm's change moves.
#[derive(Default)]
pub struct Kept {
    pub kept: usize,
    pub moved: usize,
}

/// Two farms on a field, under its own directions or a drawing that is accepted. Filled heights, directions, counts and the
/// longest trail are those of one farm. All marks 0 are farm 0's map and all marks 1 farm 1's. When one farm changes its
/// settings, cells of the other keep length and LS, unless a cell of the first lies on a trail into them.
pub fn farms(number: usize, seen: &mut Kept) {
    let mut seed = Seed::of(5, number as u64);
    let field = drawings::field(&mut seed, number);
    let (land, any) = (Land::of(&field), [any_settings(&mut seed), any_settings(&mut seed)]);
    let (shape, side, ground) = (land.shape, field.side, &land.ground);
    let settings = neighbours::with_channels(&mut seed, any);
    let drawn = seed.once_in(3).then(|| drawings::codes(&mut seed, number % 3, &land));
    let mapped = |marks: &[u8], settings| {
        let farms = Farms::Two { marks: marks.to_vec(), settings };
        map_by(shape, side, ground, drawn.as_deref(), &farms).expect("a field is accepted")
    };
    let marks = neighbours::marks(&mut seed, number % 7, shape);
    let map = mapped(&marks, settings);
    cells_by_their_farms(shape, side, &map, &marks, settings);
    assert_eq!(map.length, lengths_by_sweeps(shape, side, &map, &Farms::Two { marks: marks.clone(), settings }));
    for farm in [0, 1] {
        let one = map_by(shape, side, ground, drawn.as_deref(), &Farms::One(settings[farm])).expect("accepted before");
        same(&one, &mapped(&vec![farm as u8; shape.cells()], settings));
        assert_eq!((&one.filled, &one.flow.direction, &one.count), (&map.filled, &map.flow.direction, &map.count));
        assert_eq!((one.valid, one.longest), (map.valid, map.longest));
        let mut others = settings;
        others[farm] = any_settings(&mut seed);
        let other = mapped(&marks, others);
        let reached = reached_from(shape, &map, &marks, farm as u8);
        for cell in (0..shape.cells()).filter(|&cell| map.count[cell] > 0 && usize::from(marks[cell]) != farm) {
            let equal = (map.length[cell], map.factor[cell]) == (other.length[cell], other.factor[cell]);
            assert!(equal || reached[cell]);
            seen.kept += usize::from(!reached[cell]);
            seen.moved += usize::from(!equal);
        }
    }
}

/// Settings of every kind.
pub fn any_settings(seed: &mut Seed) -> Settings {
    let (tenths, cells) = (seed.below(1_001) as f64 / 10.0, seed.below(20) as u32);
    let channel = *seed.pick(&[Channel::None, Channel::Percentage(tenths), Channel::Cells(cells)]);
    let [low, high] = [0; 2].map(|_| seed.below(101) as f64 / 100.0);
    Settings { low, high, channel, formula: *seed.pick(&Formula::ALL) }
}

/// The readers give a field back, the writer its ground, and the map's grids hold in the second way too.
pub fn field(number: usize) {
    let mut seed = Seed::of(1, number as u64);
    let shape = Shape { rows: 1 + seed.below(12), columns: 1 + seed.below(12) };
    let field = fields::field(&mut seed, number % fields::RELIEFS.len(), shape);
    let ground: Vec<i32> = field.heights.iter().map(|height| height.map_or(NODATA, |height| height as i32)).collect();
    read_back(&mut seed, &field, &ground);
    read_floats_back(&mut seed, &field, &ground);
    let settings = any_settings(&mut seed);
    let map = map(shape, field.side, &ground, settings).expect("a field is accepted");
    assert_eq!(map.filled, filled_by_thresholds(shape, &ground));
    flats_by_search(shape, &ground, &map);
    counts_by_inflows(shape, &map);
    longest_by_rounds(shape, &map);
    assert_eq!(map.length, lengths_by_sweeps(shape, field.side, &map, &Farms::One(settings)));
}

/// A field's text is read as that field.
fn read_back(seed: &mut Seed, field: &Field, ground: &[i32]) {
    let bytes = text(seed, Manner::Mixed, field).bytes;
    let mut lent = vec![0; ground.len()];
    let header = read_grid(&bytes, &mut lent).expect("a field's text is accepted");
    let (alone, corners) = read_header(&bytes).expect("a field's header is accepted");
    assert_eq!(alone, header);
    assert_eq!((header.shape, header.side, header.nodata), (field.shape, field.side, field.nodata.unwrap_or(-999_900)));
    assert_eq!(lent, ground);
    let corners = corners.map(|span| span.of(&bytes));
    written_back(Frame { shape: header.shape, side: header.side, corners }, ground);
}

/// A field's header alone and the floats nearest to its heights are read as that field.
fn read_floats_back(seed: &mut Seed, field: &Field, ground: &[i32]) {
    let nodata = field.nodata.unwrap_or(-999_900);
    let header = text(seed, Manner::Mixed, &Field { heights: Vec::new(), ..field.clone() }).bytes;
    let floats = field.heights.iter().map(|height| nearest(height.unwrap_or(nodata)));
    let floats: Vec<u8> = floats.flat_map(u32::to_le_bytes).collect();
    let mut lent = vec![0; ground.len()];
    let read = read_floats(&header, &floats, &mut lent).expect("a field's floats are accepted");
    assert_eq!((read.shape, read.side, read.nodata, &lent[..]), (field.shape, field.side, nodata, ground));
}

/// A ground that is written and read again is the same, and so are its shape, side and corner words.
fn written_back(frame: Frame, ground: &[i32]) {
    let mut text = vec![0; room(frame.shape)];
    let length = write(frame, Numbers::Heights(ground), &mut text).expect("a field's heights are accepted");
    text.truncate(length);
    let mut lent = vec![0; ground.len()];
    let header = read_grid(&text, &mut lent).expect("a text that was written is accepted");
    let (_, corners) = read_header(&text).expect("a text that was written is accepted");
    assert_eq!((header.shape, header.side), (frame.shape, frame.side));
    assert_eq!((corners.map(|span| span.of(&text)), &lent[..]), (frame.corners, ground));
}
