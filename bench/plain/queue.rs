//! The flood's words, one for each cell, and lists of the cells that wait in the order of their levels: a two-level
//! bucket queue whose links stand in the words themselves. A word is
//!
//!     a level                     the cell is done (NoData is 0)
//!     2^30 + level                fresh: the flood has not come here yet, and this is the level of its ground
//!     2^31 + low * 2^21 + link    queued: the last ten bits of its level, and the next cell of its list plus one, or 0

const FRESH: u32 = 1 << 30;
const QUEUED: u32 = 1 << 31;
const LINKS: u32 = 1 << 21;

/// How many bands there are, and how many levels in each.
pub const BANDS: u32 = 1_024;

/// The band of 949,900, the lowest level of a valid cell; bands are counted from it.
const FIRST_BAND: u32 = 927;

/// The word that a cell with this level of ground starts from.
pub fn start_word(level: u32) -> u32 {
    if level == 0 { 0 } else { FRESH + level }
}

/// The level of the ground of a fresh cell.
#[inline]
pub fn fresh_level(word: u32) -> Option<u32> {
    (word / FRESH == 1).then_some(word % FRESH)
}

/// A list's head is its first cell plus one, or 0. There is a list for each band of 1,024 levels, and one for each
/// level of the band that is being emptied.
pub struct Queue {
    bands: [u32; BANDS as usize],
    levels: [u32; BANDS as usize],
    band: u32,
}

impl Queue {
    /// No cells, and no band that is being emptied.
    pub fn new() -> Queue {
        Queue { bands: [0; BANDS as usize], levels: [0; BANDS as usize], band: BANDS }
    }

    /// Puts a cell at the front of the list of its level. Its word.
    #[inline]
    pub fn push(&mut self, level: u32, cell: usize) -> u32 {
        let (band, low) = ((level / BANDS - FIRST_BAND) % BANDS, level % BANDS);
        let head = if band == self.band { &mut self.levels[low as usize] } else { &mut self.bands[band as usize] };
        let link = std::mem::replace(head, cell as u32 + 1);
        QUEUED + low * LINKS + link
    }

    /// Takes the first cell off a list of the opened band, and gives its level too.
    #[inline]
    pub fn pop(&mut self, words: &[u32], low: u32) -> Option<(usize, u32)> {
        let cell = self.levels[low as usize].checked_sub(1)? as usize;
        self.levels[low as usize] = words[cell] % LINKS;
        Some((cell, (FIRST_BAND + self.band) * BANDS + low))
    }

    /// Moves the cells of a band to the lists of their levels.
    pub fn open(&mut self, words: &mut [u32], band: u32) {
        self.band = band;
        let mut head = std::mem::take(&mut self.bands[band as usize]);
        while let Some(cell) = head.checked_sub(1) {
            let word = &mut words[cell as usize];
            head = *word % LINKS;
            let low = *word / LINKS % BANDS;
            *word = QUEUED + std::mem::replace(&mut self.levels[low as usize], cell + 1);
        }
    }

    /// Whether a band has cells that wait.
    pub fn waits(&self, band: u32) -> bool {
        self.bands[band as usize] > 0
    }
}
