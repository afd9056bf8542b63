//! The line for a person at a terminal, after a sheet.

use crate::Map;
use crate::sheet::TOO_LONG;

/// The greatest LS, and how many cells have none because their slope is too long.
fn greatest(factors: &[u32]) -> String {
    let (known, other): (Vec<u32>, Vec<u32>) = factors.iter().partition(|ls| **ls < TOO_LONG);
    let long = other.iter().filter(|ls| **ls == TOO_LONG).count();
    let most = known.iter().max().map_or("none".to_string(), |ls| format!("{}.{:05}", ls / 100_000, ls % 100_000));
    if long == 0 { most } else { format!("{most} ({long} cells too long)") }
}

/// Cells, valid cells, longest trail in steps, greatest LS and seconds.
pub fn line(map: &Map, seconds: f64) -> String {
    format!(
        "{} cells, {} valid, longest trail {}, greatest LS {}, {seconds:.2} s",
        map.ground.len(),
        map.totals.valid,
        map.totals.longest,
        greatest(&map.grids.factors)
    )
}

#[cfg(test)]
mod tests {
    use super::greatest;

    #[test]
    fn the_greatest_is_of_the_cells_that_have_one() {
        assert_eq!(greatest(&[54_379, 1_200_007, u32::MAX]), "12.00007");
        assert_eq!(greatest(&[0, u32::MAX - 1, u32::MAX - 1]), "0.00000 (2 cells too long)");
        assert_eq!(greatest(&[u32::MAX]), "none");
    }
}
