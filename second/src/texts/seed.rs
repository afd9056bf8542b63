//! Numbers from a seed (splitmix64, Steele, Lea and Flood 2014), so that every field and text can be made again.

#[derive(Clone)]
pub struct Seed(u64);

impl Seed {
    /// The seed of one case of a stream.
    pub fn of(seed: u64, case: u64) -> Seed {
        let mut start = Seed(seed);
        Seed(start.next() ^ case.wrapping_mul(0xD134_2543_DE82_EF95))
    }

    fn next(&mut self) -> u64 {
        self.0 = self.0.wrapping_add(0x9E37_79B9_7F4A_7C15);
        let mut mixed = self.0;
        mixed = (mixed ^ (mixed >> 30)).wrapping_mul(0xBF58_476D_1CE4_E5B9);
        mixed = (mixed ^ (mixed >> 27)).wrapping_mul(0x94D0_49BB_1331_11EB);
        mixed ^ (mixed >> 31)
    }

    /// A number from 0 to `bound` - 1.
    pub fn below(&mut self, bound: usize) -> usize {
        (self.next() % bound as u64) as usize
    }

    /// A number from `least` to `most`.
    pub fn between(&mut self, least: i64, most: i64) -> i64 {
        least + self.below((most - least + 1) as usize) as i64
    }

    /// True once in `times`.
    pub fn once_in(&mut self, times: usize) -> bool {
        self.below(times) == 0
    }

    /// One of the choices.
    pub fn pick<'a, T>(&mut self, choices: &'a [T]) -> &'a T {
        &choices[self.below(choices.len())]
    }
}

#[cfg(test)]
mod tests {
    use super::*;

    /// The first numbers of splitmix64 from 1234567, as its authors' code gives them.
    #[test]
    fn numbers_of_a_known_seed() {
        let mut seed = Seed(1_234_567);
        assert_eq!([seed.next(), seed.next()], [6_457_827_717_110_365_317, 3_203_168_211_198_807_973]);
    }

    #[test]
    fn numbers_stay_within_bounds() {
        let mut seed = Seed::of(1, 2);
        assert!((0..1_000).all(|_| (-3..=4).contains(&seed.between(-3, 4)) && seed.below(7) < 7));
    }
}
