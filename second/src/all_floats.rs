//! all-floats NODATA: a reader of grids of floats held to the exact arithmetic of rules/ for each of the 2^32 floats. Those
//! that have a height are read 1024 x 1024 at a time, the others one by one. The reader is the proved library's
//! (crates/fullsize) where `rattle` is set, else the plain program's. Serves docs/RULES.md, 11 Grids of floats.

#[cfg(rattle)]
#[path = "../../host/src/library.rs"]
#[allow(dead_code, reason = "the other calls are the host's")]
mod library;
#[path = "rules/mod.rs"]
#[allow(dead_code, reason = "the map, the sheet and the writer are the other program's")]
mod rules;

use rules::float::nearest;
use rules::float_grid::height;
use rules::grid::NODATA;
use rules::refusal::{HEIGHT, NOT_FINITE};
use rules::text::read_lone_header;
use std::process::ExitCode;
use std::sync::atomic::{AtomicU32, Ordering};
use std::sync::Mutex;
use std::thread::{available_parallelism, scope};

/// Rows and columns of a block of floats, and how many blocks have them all.
const SIZE: usize = 1_024;
const BLOCKS: u32 = 4_096;

/// What stands in the lent heights before a call; no height is that low.
const UNTOUCHED: i32 = i32::MIN;

/// Rows, columns, cell side and NoData number; or number and place of a refusal.
type Answer = Result<(usize, usize, u32, i64), (u32, usize)>;

#[cfg(rattle)]
fn read(header: &[u8], floats: &[u8], heights: &mut [i32]) -> Answer {
    let read = library::read_floats(header, floats, heights);
    read.map(|h| (h.rows, h.columns, h.side, h.no_data)).map_err(|refusal| (refusal.number, refusal.place))
}

#[cfg(not(rattle))]
fn read(header: &[u8], floats: &[u8], heights: &mut [i32]) -> Answer {
    let read = plain::read_floats(header, floats, heights);
    read.map(|h| (h.rows, h.columns, h.side, h.no_data)).map_err(|refusal| (refusal.number, refusal.place))
}

/// The NoData number in cm and as a float's bits, and the headers of a block and of one cell.
struct Case {
    cm: i64,
    bits: u32,
    block: Vec<u8>,
    one: Vec<u8>,
}

impl Case {
    /// The case of a NoData number as a header has it, if it is one.
    fn of(word: &str) -> Option<Case> {
        let header = |size: usize| {
            let shape = format!("ncols {size}\nnrows {size}\n");
            format!("{shape}xllcorner 0\nyllcorner 0\ncellsize 1\nnodata_value {word}\n").into_bytes()
        };
        let (block, one) = (header(SIZE), header(1));
        let cm = read_lone_header(&one).ok()?.nodata;
        Some(Case { cm, bits: nearest(cm), block, one })
    }
}

/// How many floats have a height, are NoData, are refused with 5 and with 15.
#[derive(Clone, Copy, Default)]
struct Counts {
    heights: u64,
    nodata: u64,
    range: u64,
    not_finite: u64,
}

impl Counts {
    fn count(&mut self, judged: Result<i32, u32>) {
        match judged {
            Ok(NODATA) => self.nodata += 1,
            Ok(_) => self.heights += 1,
            Err(HEIGHT) => self.range += 1,
            Err(NOT_FINITE) => self.not_finite += 1,
            Err(number) => unreachable!("a cell has no refusal {number}"),
        }
    }

    fn plus(self, other: Counts) -> Counts {
        Counts {
            heights: self.heights + other.heights,
            nodata: self.nodata + other.nodata,
            range: self.range + other.range,
            not_finite: self.not_finite + other.not_finite,
        }
    }
}

/// A float's bits, and what differs.
type Difference = (u32, String);

/// Compares one float that is refused, as a grid of one cell.
fn same_refusal(case: &Case, bits: u32, number: u32) -> Result<(), Difference> {
    let mut heights = [UNTOUCHED];
    let answer = read(&case.one, &bits.to_le_bytes(), &mut heights);
    if answer == Err((number, 0)) && heights == [UNTOUCHED] {
        return Ok(());
    }
    Err((bits, format!("answered {answer:?} with height {}, expected refusal {number} at 0", heights[0])))
}

/// Compares the floats of a block that have a height or are NoData; zero stands in the place of the others.
fn same_heights(case: &Case, first: u32, judged: &[Result<i32, u32>]) -> Result<(), Difference> {
    let bits = |cell: usize| judged[cell].map_or(0, |_| first + cell as u32);
    let floats: Vec<u8> = (0..judged.len()).flat_map(|cell| bits(cell).to_le_bytes()).collect();
    let mut heights = vec![UNTOUCHED; judged.len()];
    let answer = read(&case.block, &floats, &mut heights);
    if answer != Ok((SIZE, SIZE, 100, case.cm)) {
        let cell = answer.map_or_else(|(_, place)| place.min(judged.len() - 1), |_| 0);
        return Err((bits(cell), format!("answered {answer:?} as cell {cell} of a block, expected {:?}", judged[cell])));
    }
    let differs = |&cell: &usize| judged[cell].is_ok_and(|height| height != heights[cell]);
    let different = |cell: usize| Err((bits(cell), format!("became {}, expected {:?}", heights[cell], judged[cell])));
    (0..judged.len()).find(differs).map_or(Ok(()), different)
}

/// Compares the floats of one block.
fn same_block(case: &Case, block: u32) -> Result<Counts, Difference> {
    let first = block * (SIZE * SIZE) as u32;
    let judged: Vec<Result<i32, u32>> = (0..(SIZE * SIZE) as u32).map(|cell| height(first + cell, case.bits)).collect();
    let mut counts = Counts::default();
    judged.iter().for_each(|&judged| counts.count(judged));
    let some = counts.heights + counts.nodata > 0;
    let read = if some { same_heights(case, first, &judged) } else { Ok(()) };
    let refused = judged.iter().enumerate().filter_map(|(cell, judged)| Some((first + cell as u32, judged.err()?)));
    let refused = refused.map(|(bits, number)| same_refusal(case, bits, number)).collect();
    [read, refused].into_iter().filter_map(Result::err).min().map_or(Ok(counts), Err)
}

/// Compares every float, on all processors; the least float that differs. Blocks are begun in order and each one that is
/// begun is finished, so no block before the one with that float is left out.
fn same(case: &Case) -> Result<Counts, Difference> {
    let next = AtomicU32::new(0);
    let found = Mutex::new(Ok(Counts::default()));
    let work = || loop {
        let block = next.fetch_add(1, Ordering::Relaxed);
        if block >= BLOCKS {
            return;
        }
        let compared = same_block(case, block);
        if compared.is_err() {
            next.store(BLOCKS, Ordering::Relaxed);
        }
        let mut found = found.lock().expect("no thread fails");
        *found = match (found.clone(), compared) {
            (Ok(one), Ok(other)) => Ok(one.plus(other)),
            (Err(one), Err(other)) => Err(one.min(other)),
            (Err(one), _) | (_, Err(one)) => Err(one),
        };
    };
    scope(|threads| {
        for _ in 0..available_parallelism().map_or(1, |number| number.get()) {
            threads.spawn(work);
        }
    });
    found.into_inner().expect("no thread fails")
}

fn main() -> ExitCode {
    let words: Vec<String> = std::env::args().skip(1).collect();
    let Some((word, case)) = words.first().and_then(|word| Some((word, Case::of(word)?))) else {
        eprintln!("usage: all-floats NODATA, a number as a header has it");
        return ExitCode::from(2);
    };
    match same(&case) {
        Ok(Counts { heights, nodata, range, not_finite }) => {
            print!("all floats, NoData {word}: {heights} accepted, {nodata} NoData, ");
            println!("{range} refused with 5, {not_finite} with 15, no difference");
            ExitCode::SUCCESS
        }
        Err((bits, why)) => {
            println!("all floats, NoData {word}: the float with the bits {bits:#010x} {why}");
            ExitCode::FAILURE
        }
    }
}
