//! stack FIELD.asc HEIGHTS.flt FIELD.hdr: makes the library's calls, of a text and of floats with as many cells, on a
//! thread that has 64 KiB of stack, its own bookkeeping included, and says what they answered. A call that needs more
//! ends the program by a signal.

mod library;

use library::{Grids, Numbers, Refusal, SecondFarm, Settings};

const STACK: usize = 64 * 1024;

/// What is lent: the ground, the farm of each cell, the grids of the map, and the room for a text.
struct Lent {
    ground: Vec<i32>,
    marks: Vec<u8>,
    grids: Grids,
    room: Vec<u8>,
}

/// Reads, maps, writes and reports a field; before it the floats are read into the same ground, and after the map its own
/// directions are given back; the same of two farms.
fn calls([text, floats, alone]: &[Vec<u8>; 3], settings: Settings, lent: &mut Lent) -> Result<(), Refusal> {
    let Lent { ground, marks, grids, room } = lent;
    let farm = SecondFarm { settings, marks };
    library::read_floats(alone, floats, ground)?;
    let (_, corners) = library::read_header(text)?;
    let header = library::read_grid(text, ground)?;
    library::map(header, settings, ground, grids)?;
    library::map_given(header, settings, ground, grids)?;
    library::map_farms(header, settings, farm, ground, grids)?;
    library::map_farms_given(header, settings, farm, ground, grids)?;
    library::write(header, corners, Numbers::Heights(&grids.filled), room)?;
    library::write(header, corners, Numbers::Directions(&grids.direction), room)?;
    library::write(header, corners, Numbers::Counts(&grids.count), room)?;
    library::write(header, corners, Numbers::Factors(&grids.factors), room)?;
    let mut report = library::empty_report();
    library::add(&mut report, header, settings, &grids.count, &grids.factors)?;
    library::add_farms(&mut report, header, settings, farm, &grids.count, &grids.factors)?;
    let other = report;
    library::join(&mut report, &other)
}

fn main() {
    let file = |number| {
        let name = std::env::args_os().nth(number).expect("stack FIELD.asc HEIGHTS.flt FIELD.hdr");
        std::fs::read(name).expect("a file that can be read")
    };
    let files = [1, 2, 3].map(file);
    let header = library::read_header(&files[0]).map(|(header, _)| header).unwrap_or_default();
    let cells = header.rows * header.columns;
    let (ground, grids, room) = (vec![0; cells], Grids::new(cells), vec![0; library::room(header)]);
    let marks = (0..cells).map(|cell| (cell % 2) as u8).collect();
    let mut lent = Lent { ground, marks, grids, room };
    let settings = library::default_settings();
    let thread = std::thread::Builder::new().stack_size(STACK);
    let running = thread.spawn(move || calls(&files, settings, &mut lent));
    match running.expect("a thread").join().expect("an answer") {
        Ok(()) => println!("accepted within {STACK} bytes of stack"),
        Err(r) => println!("refused {} at {} within {STACK} bytes of stack", r.number, r.place),
    }
}
