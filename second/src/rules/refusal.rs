//! A refusal: its number and its place. States docs/RULES.md, 3 Numbers of refusal.

/// What a refused call returns.
#[derive(Clone, Copy, Debug, PartialEq, Eq)]
pub struct Refusal {
    pub number: u32,
    pub place: usize,
}

impl std::fmt::Display for Refusal {
    fn fmt(&self, f: &mut std::fmt::Formatter) -> std::fmt::Result {
        write!(f, "refused {} at {}", self.number, self.place)
    }
}

/// The answer of a call that refuses.
pub fn refuse<T>(number: u32, place: usize) -> Result<T, Refusal> {
    Err(Refusal { number, place })
}

pub const SHAPE: u32 = 1;
pub const LENT: u32 = 2;
pub const SIDE: u32 = 3;
pub const SETTING: u32 = 4;
pub const HEIGHT: u32 = 5;
pub const NAME: u32 = 6;
pub const FORM: u32 = 7;
pub const FINE: u32 = 8;
pub const ENDS: u32 = 9;
pub const AFTER: u32 = 10;
pub const PRINTER: u32 = 11;
pub const COMMA: u32 = 12;
pub const ROOM: u32 = 13;
pub const BYTES: u32 = 14;
pub const NOT_FINITE: u32 = 15;
pub const FULL: u32 = 16;
pub const CODE: u32 = 17;
pub const RING: u32 = 18;
pub const MARK: u32 = 19;
