//! The loops of one function in a callgrind profile (--dump-instr=yes --collect-jumps=yes, uncompressed), in the order
//! of the code. The library's stages are inlined into one function, and this tells them apart.

use std::collections::BTreeMap;

/// A jump that was taken so many times or fewer closes no loop that matters.
const FEW: u64 = 8;

/// What a profile has of one function: the instructions at each address, and the jumps back with their ends.
#[derive(Default)]
struct Profile {
    costs: BTreeMap<u64, u64>,
    back: Vec<(u64, u64)>,
    all: u64,
}

fn hex(word: &str) -> Option<u64> {
    u64::from_str_radix(word.strip_prefix("0x")?, 16).ok()
}

/// How often a line `jump=N TO LINE` or `jcnd=TAKEN/ALL TO LINE` was taken, and where it goes.
fn jump(line: &str) -> Option<(u64, u64)> {
    let rest = line.strip_prefix("jump=").or_else(|| line.strip_prefix("jcnd="))?;
    let mut words = rest.split_whitespace();
    let taken = words.next()?.split('/').next()?.parse().ok()?;
    Some((taken, hex(words.next()?)?))
}

impl Profile {
    /// Reads a profile; a line after `calls=` has the cost of the function called, and one after a jump its place.
    fn of(text: &str, function: &str) -> Profile {
        let (mut profile, mut here, mut called, mut jumped) = (Profile::default(), false, false, None);
        for line in text.lines() {
            let mut words = line.split_whitespace();
            let place = words.next().and_then(hex);
            let cost = words.nth(1).and_then(|word| word.parse::<u64>().ok());
            if let Some(name) = line.strip_prefix("fn=") {
                here = name == function;
            } else if line.starts_with("calls=") {
                called = true;
            } else if let Some(to) = jump(line) {
                jumped = Some(to);
            } else if let Some(from) = place {
                match (called, jumped) {
                    (true, _) => {}
                    (_, Some((taken, to))) if here && taken > FEW && to < from => profile.back.push((to, from)),
                    (_, Some(_)) => {}
                    _ => profile.add(here, from, cost.unwrap_or(0)),
                }
                (called, jumped) = (false, None);
            }
        }
        profile
    }

    fn add(&mut self, here: bool, place: u64, cost: u64) {
        self.all += cost;
        if here {
            *self.costs.entry(place).or_insert(0) += cost;
        }
    }

    /// The outermost loops: jumps back that overlap are one.
    fn loops(mut self) -> Vec<(u64, u64, u64)> {
        self.back.sort();
        let mut loops: Vec<(u64, u64, u64)> = Vec::new();
        for (start, end) in self.back {
            match loops.last_mut() {
                Some(last) if start <= last.1 => last.1 = last.1.max(end),
                _ => loops.push((start, end, 0)),
            }
        }
        loops.iter_mut().for_each(|one| one.2 = self.costs.range(one.0..=one.1).map(|(_, cost)| cost).sum());
        loops
    }
}

/// Prints the loops of a function that have half a percent or more of all instructions.
pub fn print(text: &str, function: &str) {
    let profile = Profile::of(text, function);
    let (all, first) = (profile.all as f64, profile.costs.keys().next().copied().unwrap_or(0));
    for (start, end, cost) in profile.loops() {
        let share = 100.0 * cost as f64 / all;
        if share >= 0.5 {
            println!("{share:5.2} {function}, loop from +{:#x} to +{:#x}", start - first, end - first);
        }
    }
}
