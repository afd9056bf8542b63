//! A field as it was read: its text, or its header with floats beside it, and perhaps the marks of two farms and given
//! directions; and its map.

use crate::beside::Beside;
use crate::farms::Farms;
use crate::faults::Judged;
use crate::flags::{Field, Flags};
use crate::floats::Floats;
use crate::given::Given;
use crate::library::{self, Corners, Grids, Header, Refusal, SecondFarm, Settings};
use crate::messages::{self, Text};
use crate::{Map, Stop};

/// What a field's files hold.
pub struct Files {
    name: String,
    text: Vec<u8>,
    floats: Option<Floats>,
    farms: Option<Farms>,
    given: Option<Given>,
}

impl Files {
    /// Reads a text alone.
    pub fn of_text(field: &Field) -> Result<Files, Stop> {
        Ok(Files { name: field.name(), text: crate::read(field)?, floats: None, farms: None, given: None })
    }

    /// Reads the marks of two farms beside a field, if there are any.
    pub fn with_farms(self, file: Option<&Field>) -> Result<Files, Stop> {
        let farms = file.map(|file| Beside::read(file, Text::Marks).map(Farms)).transpose()?;
        Ok(Files { farms, ..self })
    }

    /// Reads a field and what the flags name beside it.
    pub fn of_flags(field: &Field, flags: &Flags) -> Result<Files, Stop> {
        let alone = Files::of_text(field)?;
        let floats = |file: &Field| crate::read(file).map(|bytes| Floats { name: file.name(), bytes });
        let floats = flags.floats.as_ref().map(floats).transpose()?;
        let farmed = Files { floats, ..alone }.with_farms(flags.farms.as_ref())?;
        let given = |file: &Field| Beside::read(file, Text::Codes).map(Given);
        let given = flags.directions.as_ref().map(given).transpose()?;
        Ok(Files { given, ..farmed })
    }

    /// Has the library read the heights.
    fn ground(&self) -> Result<(Header, Corners<'_>, Vec<i32>), Stop> {
        let kind = if self.floats.is_none() { Text::Grid } else { Text::Header };
        let of_text = |r, h| Stop::Refused(r, format!("{}: {}", self.name, messages::of_text(&self.text, r, h, kind)));
        let (header, corners) = library::read_header(&self.text).map_err(|r| of_text(r, None))?;
        let mut ground = vec![0; header.rows * header.columns];
        let header = match &self.floats {
            None => library::read_grid(&self.text, &mut ground).map_err(|r| of_text(r, Some(header)))?,
            Some(floats) => {
                library::read_floats(&self.text, &floats.bytes, &mut ground).map_err(|r| match r.number {
                    10 => of_text(r, Some(header)),
                    _ => Stop::Refused(r, floats.message(r, header)),
                })?
            }
        };
        Ok((header, corners, ground))
    }

    /// Has the library read and map the field, under the settings of farm 0 and of farm 1; one farm has the first.
    pub fn map(&self, [first, second]: [Settings; 2]) -> Result<Map<'_>, Stop> {
        let (header, corners, ground) = self.ground()?;
        let marks = self.farms.as_ref().map(|farms| farms.marks(header)).transpose()?;
        let codes = self.given.as_ref().map(|given| given.codes(header)).transpose()?;
        let mut grids = Grids::new(ground.len());
        if let Some(codes) = &codes {
            grids.direction.copy_from_slice(codes);
        }
        let farm = marks.as_deref().map(|marks| SecondFarm { settings: second, marks });
        let answer = match (farm, codes.is_some()) {
            (None, false) => library::map(header, first, &ground, &mut grids),
            (None, true) => library::map_given(header, first, &ground, &mut grids),
            (Some(farm), false) => library::map_farms(header, first, farm, &ground, &mut grids),
            (Some(farm), true) => library::map_farms_given(header, first, farm, &ground, &mut grids),
        };
        let codes = codes.unwrap_or_default();
        let totals = answer.map_err(|r| self.refusal(r, header, first, &ground, &codes, &mut grids))?;
        Ok(Map { header, corners, totals, ground, grids, marks })
    }

    fn of_map(&self, refusal: Refusal, header: Header) -> Stop {
        let message = messages::of_map(refusal, header, self.farms.is_some());
        Stop::Refused(refusal, format!("{}: {message}", self.name))
    }

    /// The refusal of a map call in words. Where it refuses given directions, ground and settings were accepted, and the
    /// map by our own directions, of one farm too, has the filled heights that the message tells.
    fn refusal(
        &self,
        refusal: Refusal,
        header: Header,
        settings: Settings,
        ground: &[i32],
        codes: &[u8],
        grids: &mut Grids,
    ) -> Stop {
        match (refusal.number, &self.farms, &self.given) {
            (17 | 18, _, Some(given)) => match library::map(header, settings, ground, grids) {
                Ok(_) => given.refusal(refusal, &Judged { header, codes, filled: &grids.filled }),
                Err(refusal) => self.of_map(refusal, header),
            },
            (19, Some(farms), _) => farms.refusal(refusal, header),
            _ => self.of_map(refusal, header),
        }
    }
}
