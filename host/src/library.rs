//! The calls of crates/fullsize, with each `&[T]` as a pointer and a length, and each array as itself. The declarations
//! here have to agree with crates/fullsize/src/lib.rt.

unsafe extern "C" {
    fn lsmap_read_header(
        text: *const u8,
        text_len: usize,
        place: &mut usize,
        rows: &mut usize,
        columns: &mut usize,
        side: &mut u32,
        no_data: &mut i64,
        x_first: &mut usize,
        x_length: &mut usize,
        y_first: &mut usize,
        y_length: &mut usize,
    ) -> u32;

    fn lsmap_read_grid(
        text: *const u8,
        text_len: usize,
        heights: *mut i32,
        heights_len: usize,
        place: &mut usize,
        rows: &mut usize,
        columns: &mut usize,
        side: &mut u32,
        no_data: &mut i64,
    ) -> u32;

    fn lsmap_read_floats(
        header: *const u8,
        header_len: usize,
        floats: *const u8,
        floats_len: usize,
        heights: *mut i32,
        heights_len: usize,
        place: &mut usize,
        rows: &mut usize,
        columns: &mut usize,
        side: &mut u32,
        no_data: &mut i64,
    ) -> u32;

    fn lsmap_default_settings(
        low: &mut f64,
        high: &mut f64,
        kind: &mut u32,
        cells: &mut u32,
        percentage: &mut f64,
        formula: &mut u32,
    );

    fn lsmap_map(
        rows: usize,
        columns: usize,
        side: u32,
        low: f64,
        high: f64,
        kind: u32,
        cells: u32,
        percentage: f64,
        formula: u32,
        given: bool,
        elevation: *const i32,
        elevation_len: usize,
        filled: *mut i32,
        filled_len: usize,
        direction: *mut u8,
        direction_len: usize,
        count: *mut u32,
        count_len: usize,
        lengths: *mut u64,
        lengths_len: usize,
        factors: *mut u32,
        factors_len: usize,
        workspace: *mut u32,
        workspace_len: usize,
        place: &mut usize,
        valid: &mut u32,
        longest: &mut u32,
    ) -> u32;

    fn lsmap_map_farms(
        rows: usize,
        columns: usize,
        side: u32,
        low: f64,
        high: f64,
        kind: u32,
        cells: u32,
        percentage: f64,
        formula: u32,
        low1: f64,
        high1: f64,
        kind1: u32,
        cells1: u32,
        percentage1: f64,
        formula1: u32,
        marks: *const u8,
        marks_len: usize,
        given: bool,
        elevation: *const i32,
        elevation_len: usize,
        filled: *mut i32,
        filled_len: usize,
        direction: *mut u8,
        direction_len: usize,
        count: *mut u32,
        count_len: usize,
        lengths: *mut u64,
        lengths_len: usize,
        factors: *mut u32,
        factors_len: usize,
        workspace: *mut u32,
        workspace_len: usize,
        place: &mut usize,
        valid: &mut u32,
        longest: &mut u32,
    ) -> u32;

    fn lsmap_room(rows: usize, columns: usize) -> usize;

    fn lsmap_write_heights(
        rows: usize,
        columns: usize,
        side: u32,
        x_corner: *const u8,
        x_corner_len: usize,
        y_corner: *const u8,
        y_corner_len: usize,
        heights: *const i32,
        heights_len: usize,
        room: *mut u8,
        room_len: usize,
        place: &mut usize,
        length: &mut usize,
    ) -> u32;

    fn lsmap_write_counts(
        rows: usize,
        columns: usize,
        side: u32,
        x_corner: *const u8,
        x_corner_len: usize,
        y_corner: *const u8,
        y_corner_len: usize,
        counts: *const u32,
        counts_len: usize,
        room: *mut u8,
        room_len: usize,
        place: &mut usize,
        length: &mut usize,
    ) -> u32;

    fn lsmap_write_directions(
        rows: usize,
        columns: usize,
        side: u32,
        x_corner: *const u8,
        x_corner_len: usize,
        y_corner: *const u8,
        y_corner_len: usize,
        directions: *const u8,
        directions_len: usize,
        room: *mut u8,
        room_len: usize,
        place: &mut usize,
        length: &mut usize,
    ) -> u32;

    fn lsmap_write_factors(
        rows: usize,
        columns: usize,
        side: u32,
        x_corner: *const u8,
        x_corner_len: usize,
        y_corner: *const u8,
        y_corner_len: usize,
        factors: *const u32,
        factors_len: usize,
        room: *mut u8,
        room_len: usize,
        place: &mut usize,
        length: &mut usize,
    ) -> u32;

    fn lsmap_report_empty(report: &mut [u64; 14]);

    fn lsmap_report_add(
        rows: usize,
        columns: usize,
        low: f64,
        high: f64,
        kind: u32,
        cells: u32,
        percentage: f64,
        formula: u32,
        count: *const u32,
        count_len: usize,
        factors: *const u32,
        factors_len: usize,
        report: &mut [u64; 14],
        place: &mut usize,
    ) -> u32;

    fn lsmap_report_add_farms(
        rows: usize,
        columns: usize,
        low: f64,
        high: f64,
        kind: u32,
        cells: u32,
        percentage: f64,
        formula: u32,
        low1: f64,
        high1: f64,
        kind1: u32,
        cells1: u32,
        percentage1: f64,
        formula1: u32,
        marks: *const u8,
        marks_len: usize,
        count: *const u32,
        count_len: usize,
        factors: *const u32,
        factors_len: usize,
        report: &mut [u64; 14],
        place: &mut usize,
    ) -> u32;

    fn lsmap_report_join(report: &mut [u64; 14], other: &[u64; 14], place: &mut usize) -> u32;
}

/// A refusal's number and place.
#[derive(Clone, Copy)]
pub struct Refusal {
    pub number: u32,
    pub place: usize,
}

/// What the header says; the side is in cm.
#[derive(Clone, Copy, Default)]
pub struct Header {
    pub rows: usize,
    pub columns: usize,
    pub side: u32,
    pub no_data: i64,
}

/// The words of the two corners, as the text has them.
#[derive(Clone, Copy)]
pub struct Corners<'a> {
    pub x: &'a [u8],
    pub y: &'a [u8],
}

/// The two cutoffs, the channel rule and the steepness formula as the library takes them: kind 0 is none, 1 cells, 2 a
/// percentage; formula 0 is the older one, 1 the newer.
#[derive(Clone, Copy, Default)]
pub struct Settings {
    pub low: f64,
    pub high: f64,
    pub kind: u32,
    pub cells: u32,
    pub percentage: f64,
    pub formula: u32,
}

/// What makes two farms of a map beside the settings of farm 0: those of farm 1, and the farm of each cell, 0 or 1.
#[derive(Clone, Copy)]
pub struct SecondFarm<'a> {
    pub settings: Settings,
    pub marks: &'a [u8],
}

/// The grids of a map, one value per cell in row order.
pub struct Grids {
    pub filled: Vec<i32>,
    pub direction: Vec<u8>,
    pub count: Vec<u32>,
    pub lengths: Vec<u64>,
    pub factors: Vec<u32>,
    pub workspace: Vec<u32>,
}

/// A grid that is to be written as a text.
#[derive(Clone, Copy)]
pub enum Numbers<'a> {
    Heights(&'a [i32]),
    Directions(&'a [u8]),
    Counts(&'a [u32]),
    Factors(&'a [u32]),
}

/// The number of valid cells and the steps of the longest trail.
#[derive(Clone, Copy, Default)]
pub struct Totals {
    pub valid: u32,
    pub longest: u32,
}

/// A report over a list of maps: its totals, which are maps, valid, channel, zero and long cells, the sum of LS, and
/// the cells under 1, from 1, from 5 and from 10; and where there is an LS the greatest, its map and its cell.
#[derive(Clone, Copy, Debug, PartialEq, Eq)]
pub struct Report {
    pub totals: [u64; 10],
    pub greatest: Option<[u64; 3]>,
}

impl Report {
    /// The report of the library's numbers: the totals, whether there is a greatest, and the three numbers of it.
    fn of(numbers: [u64; 14]) -> Report {
        let [totals @ .., some, factor, map, cell] = numbers;
        Report { totals, greatest: (some != 0).then_some([factor, map, cell]) }
    }

    /// The library's numbers of a report.
    fn numbers(&self) -> [u64; 14] {
        let [a, b, c, d, e, f, g, h, i, j] = self.totals;
        let [factor, map, cell] = self.greatest.unwrap_or_default();
        [a, b, c, d, e, f, g, h, i, j, u64::from(self.greatest.is_some()), factor, map, cell]
    }
}

impl Grids {
    /// Grids for so many cells, to be lent.
    pub fn new(cells: usize) -> Grids {
        Grids {
            filled: vec![0; cells],
            direction: vec![0; cells],
            count: vec![0; cells],
            lengths: vec![0; cells],
            factors: vec![0; cells],
            workspace: vec![0; cells],
        }
    }
}

fn answer<T>(number: u32, place: usize, value: T) -> Result<T, Refusal> {
    if number == 0 { Ok(value) } else { Err(Refusal { number, place }) }
}

/// The header call.
pub fn read_header(text: &[u8]) -> Result<(Header, Corners<'_>), Refusal> {
    let (mut place, mut h) = (0, Header::default());
    let (mut x_first, mut x_length, mut y_first, mut y_length) = (0, 0, 0, 0);
    #[rustfmt::skip]
    let number = unsafe {
        lsmap_read_header(
            text.as_ptr(), text.len(), &mut place, &mut h.rows, &mut h.columns, &mut h.side, &mut h.no_data,
            &mut x_first, &mut x_length, &mut y_first, &mut y_length,
        )
    };
    let corners = Corners { x: &text[x_first..x_first + x_length], y: &text[y_first..y_first + y_length] };
    answer(number, place, (h, corners))
}

/// The grid call: reads the whole text into the heights, in cm.
pub fn read_grid(text: &[u8], heights: &mut [i32]) -> Result<Header, Refusal> {
    let (mut place, mut h) = (0, Header::default());
    #[rustfmt::skip]
    let number = unsafe {
        lsmap_read_grid(
            text.as_ptr(), text.len(), heights.as_mut_ptr(), heights.len(),
            &mut place, &mut h.rows, &mut h.columns, &mut h.side, &mut h.no_data,
        )
    };
    answer(number, place, h)
}

/// The call for floats: reads a header that stands alone and the bytes of floats into the heights, in cm.
pub fn read_floats(header: &[u8], floats: &[u8], heights: &mut [i32]) -> Result<Header, Refusal> {
    let (mut place, mut h) = (0, Header::default());
    #[rustfmt::skip]
    let number = unsafe {
        lsmap_read_floats(
            header.as_ptr(), header.len(), floats.as_ptr(), floats.len(), heights.as_mut_ptr(), heights.len(),
            &mut place, &mut h.rows, &mut h.columns, &mut h.side, &mut h.no_data,
        )
    };
    answer(number, place, h)
}

/// The library's default settings.
pub fn default_settings() -> Settings {
    let mut s = Settings::default();
    #[rustfmt::skip]
    unsafe {
        lsmap_default_settings(
            &mut s.low, &mut s.high, &mut s.kind, &mut s.cells, &mut s.percentage, &mut s.formula,
        )
    };
    s
}

/// Maps the ground into the grids, by our own directions.
pub fn map(h: Header, s: Settings, ground: &[i32], g: &mut Grids) -> Result<Totals, Refusal> {
    map_by(false, h, s, ground, g)
}

/// Maps the ground into the grids, by the directions that stand there.
pub fn map_given(h: Header, s: Settings, ground: &[i32], g: &mut Grids) -> Result<Totals, Refusal> {
    map_by(true, h, s, ground, g)
}

/// The map call, with the directions given or not.
fn map_by(given: bool, h: Header, s: Settings, ground: &[i32], g: &mut Grids) -> Result<Totals, Refusal> {
    let (mut place, mut t) = (0, Totals::default());
    #[rustfmt::skip]
    let number = unsafe {
        lsmap_map(
            h.rows, h.columns, h.side, s.low, s.high, s.kind, s.cells, s.percentage, s.formula, given,
            ground.as_ptr(), ground.len(),
            g.filled.as_mut_ptr(), g.filled.len(),
            g.direction.as_mut_ptr(), g.direction.len(),
            g.count.as_mut_ptr(), g.count.len(),
            g.lengths.as_mut_ptr(), g.lengths.len(),
            g.factors.as_mut_ptr(), g.factors.len(),
            g.workspace.as_mut_ptr(), g.workspace.len(),
            &mut place, &mut t.valid, &mut t.longest,
        )
    };
    answer(number, place, t)
}

/// Maps the ground of two farms into the grids, by our own directions.
pub fn map_farms(h: Header, s: Settings, f: SecondFarm, ground: &[i32], g: &mut Grids) -> Result<Totals, Refusal> {
    map_farms_by(false, h, s, f, ground, g)
}

/// Maps the ground of two farms into the grids, by the directions that stand there.
pub fn map_farms_given(
    h: Header,
    s: Settings,
    f: SecondFarm,
    ground: &[i32],
    g: &mut Grids,
) -> Result<Totals, Refusal> {
    map_farms_by(true, h, s, f, ground, g)
}

/// The map call for two farms, with the directions given or not.
fn map_farms_by(
    given: bool,
    h: Header,
    s: Settings,
    SecondFarm { settings: t, marks }: SecondFarm,
    ground: &[i32],
    g: &mut Grids,
) -> Result<Totals, Refusal> {
    let (mut place, mut totals) = (0, Totals::default());
    #[rustfmt::skip]
    let number = unsafe {
        lsmap_map_farms(
            h.rows, h.columns, h.side, s.low, s.high, s.kind, s.cells, s.percentage, s.formula,
            t.low, t.high, t.kind, t.cells, t.percentage, t.formula,
            marks.as_ptr(), marks.len(), given,
            ground.as_ptr(), ground.len(),
            g.filled.as_mut_ptr(), g.filled.len(),
            g.direction.as_mut_ptr(), g.direction.len(),
            g.count.as_mut_ptr(), g.count.len(),
            g.lengths.as_mut_ptr(), g.lengths.len(),
            g.factors.as_mut_ptr(), g.factors.len(),
            g.workspace.as_mut_ptr(), g.workspace.len(),
            &mut place, &mut totals.valid, &mut totals.longest,
        )
    };
    answer(number, place, totals)
}

/// The bytes in which every text of a shape has room.
pub fn room(h: Header) -> usize {
    unsafe { lsmap_room(h.rows, h.columns) }
}

/// Writes a grid as a text into the room: the text's length.
pub fn write(h: Header, c: Corners, grid: Numbers, room: &mut [u8]) -> Result<usize, Refusal> {
    let (mut place, mut length) = (0, 0);
    let (x, x_len, y, y_len) = (c.x.as_ptr(), c.x.len(), c.y.as_ptr(), c.y.len());
    let (start, end) = (room.as_mut_ptr(), room.len());
    #[rustfmt::skip]
    let number = unsafe {
        match grid {
            Numbers::Heights(g) => lsmap_write_heights(
                h.rows, h.columns, h.side, x, x_len, y, y_len, g.as_ptr(), g.len(), start, end, &mut place, &mut length,
            ),
            Numbers::Directions(g) => lsmap_write_directions(
                h.rows, h.columns, h.side, x, x_len, y, y_len, g.as_ptr(), g.len(), start, end, &mut place, &mut length,
            ),
            Numbers::Counts(g) => lsmap_write_counts(
                h.rows, h.columns, h.side, x, x_len, y, y_len, g.as_ptr(), g.len(), start, end, &mut place, &mut length,
            ),
            Numbers::Factors(g) => lsmap_write_factors(
                h.rows, h.columns, h.side, x, x_len, y, y_len, g.as_ptr(), g.len(), start, end, &mut place, &mut length,
            ),
        }
    };
    answer(number, place, length)
}

/// The report of no map.
pub fn empty_report() -> Report {
    let mut numbers = [0; 14];
    unsafe { lsmap_report_empty(&mut numbers) };
    Report::of(numbers)
}

/// Adds a map's flow counts and LS to a report.
pub fn add(r: &mut Report, h: Header, s: Settings, count: &[u32], factors: &[u32]) -> Result<(), Refusal> {
    let (mut place, mut numbers) = (0, r.numbers());
    #[rustfmt::skip]
    let number = unsafe {
        lsmap_report_add(
            h.rows, h.columns, s.low, s.high, s.kind, s.cells, s.percentage, s.formula,
            count.as_ptr(), count.len(), factors.as_ptr(), factors.len(), &mut numbers, &mut place,
        )
    };
    *r = Report::of(numbers);
    answer(number, place, ())
}

/// Adds the flow counts and LS of a map of two farms to a report.
pub fn add_farms(
    r: &mut Report,
    h: Header,
    s: Settings,
    SecondFarm { settings: t, marks }: SecondFarm,
    count: &[u32],
    factors: &[u32],
) -> Result<(), Refusal> {
    let (mut place, mut numbers) = (0, r.numbers());
    #[rustfmt::skip]
    let number = unsafe {
        lsmap_report_add_farms(
            h.rows, h.columns, s.low, s.high, s.kind, s.cells, s.percentage, s.formula,
            t.low, t.high, t.kind, t.cells, t.percentage, t.formula, marks.as_ptr(), marks.len(),
            count.as_ptr(), count.len(), factors.as_ptr(), factors.len(), &mut numbers, &mut place,
        )
    };
    *r = Report::of(numbers);
    answer(number, place, ())
}

/// Joins a second report to a first, whose maps come before its own.
pub fn join(r: &mut Report, other: &Report) -> Result<(), Refusal> {
    let (mut place, mut numbers) = (0, r.numbers());
    let number = unsafe { lsmap_report_join(&mut numbers, &other.numbers(), &mut place) };
    *r = Report::of(numbers);
    answer(number, place, ())
}
