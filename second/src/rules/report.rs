//! The report over a list of maps: each number counted by its definition over all cells of all maps; and reports joined.
//! States docs/RULES.md, 12 The report.

use super::factor::{NO_FACTOR, TOO_LONG};
use super::farms::{Accepted, Asked, Farms};
use super::grid::Shape;
use super::length::channel;
use super::map::{judge_shape, map_by};
use super::refusal::{self, refuse, Refusal};
use super::text::{read_grid, read_header};

/// What a report takes of a map: shape, settings, with the marks of two farms, flow counts and LS.
#[derive(Clone)]
pub struct Mapped {
    pub shape: Shape,
    pub farms: Farms,
    pub count: Vec<u32>,
    pub factor: Vec<u32>,
}

/// The greatest LS, with the first map and cell that has it, counted from 0.
#[derive(Clone, Copy, Debug, PartialEq, Eq)]
pub struct Greatest {
    pub factor: u128,
    pub map: u128,
    pub cell: u128,
}

/// The numbers of a report, exact whatever their size. LS are in hundred-thousandths.
#[derive(Clone, Copy, Debug, PartialEq, Eq)]
pub struct Report {
    pub maps: u128,
    pub valid: u128,
    pub channel: u128,
    pub zero: u128,
    pub long: u128,
    pub sum: u128,
    pub under_1: u128,
    pub from_1: u128,
    pub from_5: u128,
    pub from_10: u128,
    pub greatest: Option<Greatest>,
}

/// A cell of a list of maps.
#[derive(Clone, Copy)]
struct Cell {
    map: usize,
    cell: usize,
    count: u32,
    channel: bool,
    factor: u32,
}

impl Cell {
    /// The LS, where there is one: neither NoData nor too long.
    fn known(self) -> Option<u128> {
        (self.factor != NO_FACTOR && self.factor != TOO_LONG).then_some(self.factor.into())
    }

    /// Whether the LS is there and from one bound on, below another.
    fn within(self, from: u128, below: u128) -> bool {
        self.known().is_some_and(|factor| from <= factor && factor < below)
    }
}

/// Adding tests 1, 2, 4, 19 in that order.
fn judge(map: &Mapped) -> Result<Accepted<'_>, Refusal> {
    judge_shape(map.shape)?;
    let cells = map.shape.cells();
    if map.count.len() != cells || map.factor.len() != cells || !map.farms.fit(map.shape) {
        return refuse(refusal::LENT, 0);
    }
    map.farms.accepted()
}

/// The cells of a map that has this number in its list. A cell's channel rule is that of its own farm; the largest flow
/// count is the largest of the counts given, over both farms.
fn cells(number: usize, map: &Mapped) -> Result<Vec<Cell>, Refusal> {
    let farms = judge(map)?;
    let largest = u64::from(map.count.iter().copied().max().unwrap_or(0));
    let cell = |cell: usize| {
        let (count, factor) = (map.count[cell], map.factor[cell]);
        Cell { map: number, cell, count, channel: channel(farms.of(cell).rule, count.into(), largest), factor }
    };
    Ok((0..map.shape.cells()).map(cell).collect())
}

/// The report of a list of maps, counted over all of its cells, or the refusal of the first map that is no good.
pub fn report(maps: &[Mapped]) -> Result<Report, Refusal> {
    let all: Result<Vec<Vec<Cell>>, Refusal> =
        maps.iter().enumerate().map(|(number, map)| cells(number, map)).collect();
    let all: Vec<Cell> = all?.concat();
    let number = |holds: &dyn Fn(&Cell) -> bool| all.iter().filter(|cell| holds(cell)).count() as u128;
    let most = all.iter().filter_map(|cell| cell.known()).max();
    let first = all.iter().find(|cell| most.is_some() && cell.known() == most);
    let [one, five, ten] = [100_000, 500_000, 1_000_000];
    Report {
        maps: maps.len() as u128,
        valid: number(&|cell| cell.count != 0),
        channel: number(&|cell| cell.channel),
        zero: number(&|cell| cell.factor == 0),
        long: number(&|cell| cell.factor == TOO_LONG),
        sum: all.iter().filter_map(|cell| cell.known()).sum(),
        under_1: number(&|cell| cell.within(0, one)),
        from_1: number(&|cell| cell.within(one, five)),
        from_5: number(&|cell| cell.within(five, ten)),
        from_10: number(&|cell| cell.within(ten, u128::MAX)),
        greatest: first.map(|cell| Greatest {
            factor: cell.factor.into(),
            map: cell.map as u128,
            cell: cell.cell as u128,
        }),
    }
    .fitting()
}

/// The report of two lists, one after the other: refused with 16 where a number that it keeps would not fit.
pub fn join(first: Report, other: Report) -> Result<Report, Refusal> {
    let later = other.greatest.map(|greatest| Greatest { map: first.maps + greatest.map, ..greatest });
    let exceeds = |greatest: &Greatest| first.greatest.is_none_or(|earlier| greatest.factor > earlier.factor);
    Report {
        maps: first.maps + other.maps,
        valid: first.valid + other.valid,
        channel: first.channel + other.channel,
        zero: first.zero + other.zero,
        long: first.long + other.long,
        sum: first.sum + other.sum,
        under_1: first.under_1 + other.under_1,
        from_1: first.from_1 + other.from_1,
        from_5: first.from_5 + other.from_5,
        from_10: first.from_10 + other.from_10,
        greatest: later.filter(exceeds).or(first.greatest),
    }
    .fitting()
}

/// Adds a map: the list of it alone comes after the report's.
pub fn add(report: Report, map: &Mapped) -> Result<Report, Refusal> {
    join(report, self::report(std::slice::from_ref(map))?)
}

impl Report {
    /// The numbers that add up, with the names of their lines.
    fn totals(&self) -> [(&'static str, u128); 10] {
        [
            ("maps", self.maps),
            ("valid", self.valid),
            ("channel", self.channel),
            ("zero", self.zero),
            ("long", self.long),
            ("sum", self.sum),
            ("under_1", self.under_1),
            ("from_1", self.from_1),
            ("from_5", self.from_5),
            ("from_10", self.from_10),
        ]
    }

    /// 16: a total, the number of maps or the greatest's map would no longer fit 64 bits, unsigned.
    fn fitting(self) -> Result<Report, Refusal> {
        let map = self.greatest.map_or(0, |greatest| greatest.map);
        let fits = |number: u128| number < 1 << 64;
        if fits(map) && self.totals().iter().all(|&(_, total)| fits(total)) {
            return Ok(self);
        }
        refuse(refusal::FULL, 0)
    }

    /// The report as lines.
    pub fn lines(&self) -> String {
        let total = |(name, total): (&str, u128)| format!("{name} {total}\n");
        let totals: String = self.totals().map(total).concat();
        let Some(Greatest { factor, map, cell }) = self.greatest else {
            return totals + "greatest none\ngreatest_map none\ngreatest_cell none\n";
        };
        format!("{totals}greatest {factor}\ngreatest_map {map}\ngreatest_cell {cell}\n")
    }
}

/// What a report takes of a text's map.
pub fn mapped(text: &[u8], asked: Asked) -> Result<Mapped, Refusal> {
    let (header, _) = read_header(text)?;
    let mut ground = vec![0; header.shape.cells()];
    read_grid(text, &mut ground)?;
    let farms = asked.read(header.shape)?;
    let map = map_by(header.shape, header.side, &ground, None, &farms)?;
    Ok(Mapped { shape: header.shape, farms, count: map.count, factor: map.factor })
}

#[cfg(test)]
mod tests {
    use super::super::settings::{Channel, Settings, PRINTER};
    use super::*;

    const MOST: u128 = u64::MAX as u128;

    /// A strip with these LS, every count 1.
    fn strip(factor: &[u32]) -> Mapped {
        counted(&vec![1; factor.len()], factor, Channel::None)
    }

    fn counted(count: &[u32], factor: &[u32], channel: Channel) -> Mapped {
        let shape = Shape { rows: 1, columns: factor.len() };
        let farms = Farms::One(Settings { channel, ..PRINTER });
        Mapped { shape, farms, count: count.to_vec(), factor: factor.to_vec() }
    }

    fn good(maps: &[Mapped]) -> Report {
        report(maps).expect("the maps are good")
    }

    fn greatest(factor: u128, map: u128, cell: u128) -> Option<Greatest> {
        Some(Greatest { factor, map, cell })
    }

    fn number(answer: Result<Report, Refusal>) -> (u32, usize) {
        answer.map_or_else(|refusal| (refusal.number, refusal.place), |_| (0, 0))
    }

    #[test]
    fn no_map_has_no_greatest() {
        let empty = good(&[]);
        assert!(empty.totals().iter().all(|&(_, total)| total == 0) && empty.greatest.is_none());
        let zeros = "maps 0\nvalid 0\nchannel 0\nzero 0\nlong 0\nsum 0\nunder_1 0\nfrom_1 0\nfrom_5 0\nfrom_10 0\n";
        assert_eq!(empty.lines(), format!("{zeros}greatest none\ngreatest_map none\ngreatest_cell none\n"));
    }

    /// A map of NoData alone counts as a map; LS that are too long make no greatest either.
    #[test]
    fn cells_without_an_ls() {
        let none = good(&[counted(&[0; 3], &[NO_FACTOR; 3], Channel::Percentage(0.0))]);
        assert_eq!(none, Report { maps: 1, ..good(&[]) });
        let long = good(&[counted(&[0, 7], &[NO_FACTOR, TOO_LONG], Channel::None)]);
        assert_eq!(long, Report { maps: 1, valid: 1, long: 1, ..good(&[]) });
        let zero = good(&[counted(&[0, 7], &[0, TOO_LONG], Channel::None)]);
        assert_eq!((zero.zero, zero.under_1, zero.greatest), (1, 1, greatest(0, 0, 0)));
    }

    #[test]
    fn classes_at_their_bounds() {
        let factor = [0, 99_999, 100_000, 499_999, 500_000, 999_999, 1_000_000, TOO_LONG - 1, TOO_LONG, NO_FACTOR];
        let all = good(&[strip(&factor)]);
        assert_eq!([all.under_1, all.from_1, all.from_5, all.from_10], [2; 4]);
        assert_eq!((all.zero, all.long, all.valid), (1, 1, 10));
        assert_eq!(all.sum, 99_999 + 100_000 + 499_999 + 500_000 + 999_999 + 1_000_000 + 4_294_967_293);
        assert_eq!(all.greatest, greatest(4_294_967_293, 0, 7));
    }

    /// Valid and channel cells go by the counts alone, whatever the LS are and however large the counts.
    #[test]
    fn channels_by_the_counts_given() {
        let number = |count: &[u32], channel| good(&[counted(count, &vec![NO_FACTOR; count.len()], channel)]).channel;
        assert_eq!(number(&[0, 1, 750, 751, 1_000], Channel::Percentage(75.0)), 2);
        assert_eq!(number(&[0, 1, u32::MAX], Channel::Percentage(0.0)), 2);
        assert_eq!(number(&[u32::MAX - 1, u32::MAX], Channel::Percentage(99.9)), 2);
        assert_eq!(number(&[u32::MAX - 1, u32::MAX], Channel::Percentage(100.0)), 0);
        assert_eq!(number(&[4_294_967_294, 4_290_672_327, 4_290_672_328, u32::MAX], Channel::Percentage(99.9)), 3);
        assert_eq!(number(&[0, 1, 2, 3], Channel::Cells(1)), 2);
        assert_eq!(number(&[u32::MAX], Channel::Cells(u32::MAX)), 0);
        assert_eq!(number(&[1, 2, 3], Channel::None), 0);
        assert_eq!(good(&[counted(&[0, 5, 0], &[1, NO_FACTOR, 1], Channel::None)]).valid, 1);
    }

    /// Each map has its own settings and its own largest count.
    #[test]
    fn maps_have_their_own_channels() {
        let half = Channel::Percentage(50.0);
        let maps = [counted(&[1, 2, 4], &[1; 3], half), counted(&[10, 20, 40], &[1; 3], half)];
        assert_eq!(good(&maps).channel, 2);
        assert_eq!(good(&[maps[0].clone(), counted(&[10, 20, 40], &[1; 3], Channel::Cells(9))]).channel, 4);
    }

    /// Two farms of one map: a strip whose counts and marks are given, every LS 1.
    fn shared(count: &[u32], marks: &[u8], channels: [Channel; 2]) -> Mapped {
        let settings = channels.map(|channel| Settings { channel, ..PRINTER });
        let map = counted(count, &vec![1; count.len()], Channel::None);
        Mapped { farms: Farms::Two { marks: marks.to_vec(), settings }, ..map }
    }

    /// A cell's channel rule is its own farm's; the percentage is of the largest count over both farms.
    #[test]
    fn channels_of_two_farms() {
        let number = |count: &[u32], marks: &[u8], channels| good(&[shared(count, marks, channels)]).channel;
        let (half, none) = (Channel::Percentage(50.0), Channel::None);
        assert_eq!(number(&[1, 2, 3, 4], &[0, 0, 1, 1], [half, none]), 0);
        assert_eq!(number(&[1, 2, 3, 4], &[0, 0, 1, 1], [none, half]), 2);
        assert_eq!(number(&[1, 2, 3, 4], &[1, 1, 0, 0], [none, half]), 0);
        assert_eq!(number(&[4, 3, 3, 0], &[0, 1, 0, 1], [half, Channel::Cells(0)]), 3);
        assert_eq!(number(&[7, 7, 7], &[0, 1, 0], [Channel::Cells(6), Channel::Cells(7)]), 2);
        let one = [counted(&[1, 2, 3, 4], &[1; 4], half)];
        assert_eq!(good(&[shared(&[1, 2, 3, 4], &[1; 4], [none, half])]), good(&one));
    }

    /// Adding a map of two farms tests 1, 2, 4, 19, then 16.
    #[test]
    fn refusals_of_two_farms_in_their_order() {
        let full = Report { maps: MOST, ..good(&[]) };
        let bad = Channel::Percentage(0.05);
        let refusal = |rows, marks: &[u8], channels| {
            let map = shared(&[1, 2], marks, channels);
            number(add(full, &Mapped { shape: Shape { rows, columns: 2 }, ..map }))
        };
        let none = Channel::None;
        assert_eq!(refusal(0, &[2], [bad, bad]), (1, 0));
        assert_eq!(refusal(1, &[2], [bad, bad]), (2, 0));
        assert_eq!(refusal(1, &[0, 2], [bad, bad]), (4, 3));
        assert_eq!(refusal(1, &[0, 2], [none, bad]), (4, 6));
        assert_eq!(refusal(1, &[0, 0], [none, bad]), (4, 6));
        assert_eq!(refusal(1, &[0, 2], [none, none]), (19, 1));
        assert_eq!(refusal(1, &[0, 1], [none, none]), (16, 0));
    }

    #[test]
    fn ties_keep_the_first() {
        assert_eq!(good(&[strip(&[3, 9, 9])]).greatest, greatest(9, 0, 1));
        let maps = [strip(&[NO_FACTOR]), strip(&[3, 9]), strip(&[9, 9]), strip(&[8])];
        assert_eq!(good(&maps).greatest, greatest(9, 1, 1));
        let joined = join(good(&maps[1..2]), good(&maps[2..]));
        assert_eq!(joined.map(|report| report.greatest), Ok(greatest(9, 0, 1)));
        let joined = join(good(&maps[3..]), good(&maps[..3]));
        assert_eq!(joined.map(|report| report.greatest), Ok(greatest(9, 2, 1)));
    }

    /// Joining is the report of one list after the other, wherever it is cut, and adding is joining a list of one.
    #[test]
    fn joined_lists() {
        let maps = [
            counted(&[1, 3, 0], &[5, 700_000, NO_FACTOR], Channel::Cells(2)),
            strip(&[TOO_LONG]),
            counted(&[9, 1], &[700_000, 0], Channel::Percentage(50.0)),
            strip(&[2_000_000, 700_001]),
        ];
        for cut in 0..=maps.len() {
            assert_eq!(join(good(&maps[..cut]), good(&maps[cut..])), report(&maps));
        }
        let added = maps.iter().try_fold(good(&[]), add);
        assert_eq!(added, report(&maps));
    }

    /// A record that no list could give is taken as it is: each total fits up to the last number of 64 bits.
    #[test]
    fn totals_at_the_edge() {
        let channel = counted(&[1], &[0], Channel::Percentage(0.0));
        let one = good(&[channel, strip(&[TOO_LONG, 1, 100_000, 500_000, 1_000_000])]);
        assert_eq!(one.totals().map(|(_, total)| total), [2, 6, 1, 1, 1, 1_600_001, 2, 1, 1, 1]);
        let sets: [fn(&mut Report, u128); 10] = [
            |report, number| report.maps = number,
            |report, number| report.valid = number,
            |report, number| report.channel = number,
            |report, number| report.zero = number,
            |report, number| report.long = number,
            |report, number| report.sum = number,
            |report, number| report.under_1 = number,
            |report, number| report.from_1 = number,
            |report, number| report.from_5 = number,
            |report, number| report.from_10 = number,
        ];
        for (place, set) in sets.iter().enumerate() {
            let more = one.totals()[place].1;
            let mut record = Report { greatest: greatest(MOST, 0, 0), ..good(&[]) };
            set(&mut record, MOST - more);
            assert_eq!(join(record, one).map(|report| report.totals()[place].1), Ok(MOST));
            set(&mut record, MOST - more + 1);
            assert_eq!(number(join(record, one)), (16, 0));
        }
        let full = Report { sum: MOST, ..good(&[]) };
        assert_eq!((number(add(full, &strip(&[0]))), number(add(full, &strip(&[1])))), ((0, 0), (16, 0)));
    }

    /// The greatest's map is tested where the joined report keeps that greatest, and only there.
    #[test]
    fn the_map_of_the_greatest_at_the_edge() {
        let record = |factor, map| Report { greatest: greatest(factor, map, MOST), ..good(&[]) };
        let first = |factor| Report { maps: 7, ..record(factor, MOST) };
        assert_eq!(join(first(5), record(6, MOST - 7)).map(|report| report.greatest), Ok(greatest(6, MOST, MOST)));
        assert_eq!(number(join(first(5), record(6, MOST - 6))), (16, 0));
        assert_eq!(join(first(6), record(6, MOST - 6)).map(|report| report.greatest), Ok(greatest(6, MOST, MOST)));
        assert_eq!(number(join(Report { greatest: None, ..first(0) }, record(0, MOST - 6))), (16, 0));
        assert_eq!(join(good(&[]), first(1)), Ok(first(1)));
    }

    /// Adding tests 1, 2, 4, then 16.
    #[test]
    fn refusals_in_their_order() {
        let full = Report { maps: MOST, ..good(&[]) };
        let bad = Settings { low: 2.0, high: 2.0, channel: Channel::Percentage(0.05), ..PRINTER };
        let refusal = |rows, columns, count: usize, factor: usize, settings| {
            let (count, factor) = (vec![0; count], vec![0; factor]);
            number(add(full, &Mapped { shape: Shape { rows, columns }, farms: Farms::One(settings), count, factor }))
        };
        assert_eq!(refusal(0, 1, 1, 0, bad), (1, 0));
        assert_eq!(refusal(1, 1_025, 0, 0, bad), (1, 0));
        assert_eq!(refusal(1, 2, 1, 2, bad), (2, 0));
        assert_eq!(refusal(1, 2, 2, 3, bad), (2, 0));
        assert_eq!(refusal(1, 2, 2, 2, bad), (4, 1));
        assert_eq!(refusal(1, 2, 2, 2, Settings { low: 0.5, ..bad }), (4, 2));
        assert_eq!(refusal(1, 2, 2, 2, Settings { low: 0.5, high: 0.5, ..bad }), (4, 3));
        assert_eq!(refusal(1, 2, 2, 2, PRINTER), (16, 0));
    }

    #[test]
    fn the_pit_as_a_report() {
        let pit = b"ncols 3 nrows 3 xllcorner 0 yllcorner 0 cellsize 10\n5 5 5\n5 2 4\n5 5 5\n";
        let pits = [0, 1].map(|_| mapped(pit, Asked::One(PRINTER)).expect("the pit is accepted"));
        let all = good(&pits);
        assert_eq!((all.maps, all.valid, all.channel, all.zero, all.long), (2, 18, 0, 2, 0));
        assert_eq!((all.sum, all.under_1), (2 * (2 * 39_424 + 5 * 54_379 + 4_810), 18));
        assert_eq!(all.greatest, greatest(54_379, 0, 1));
    }
}
