//! Headers that stand alone in their text, good and hostile ones, for grids of floats. Serves docs/RULES.md, 11 Grids of
//! floats.

use super::fields::Field;
use super::hostile::{fault, mutate, Fault, AFTER, LETTERS};
use super::seed::Seed;
use super::spelling::{header_words, join, text, words, Manner};

fn manner(seed: &mut Seed) -> Manner {
    *seed.pick(&[Manner::Plain, Manner::Mixed])
}

/// The words of a field's header.
fn alone(seed: &mut Seed, manner: Manner, field: &Field) -> Vec<Vec<u8>> {
    words(seed, manner, &Field { heights: Vec::new(), ..field.clone() })
}

fn joined(seed: &mut Seed, manner: Manner, words: &[Vec<u8>], field: &Field) -> Vec<u8> {
    join(seed, manner, words, header_words(field), field.shape.columns).bytes
}

/// The header of a field.
pub fn good(seed: &mut Seed, field: &Field) -> Vec<u8> {
    let manner = manner(seed);
    let words = alone(seed, manner, field);
    joined(seed, manner, &words, field)
}

/// A fault of one of the header's words.
fn header_fault(seed: &mut Seed, field: &Field) -> Fault {
    loop {
        let fault = fault(seed, field);
        if fault.index < header_words(field) {
            return fault;
        }
    }
}

/// The header with one or two of its words spoiled.
fn spoiled(seed: &mut Seed, field: &Field) -> Vec<u8> {
    let manner = manner(seed);
    let mut words = alone(seed, manner, field);
    for _ in 0..1 + seed.below(2) {
        let fault = header_fault(seed, field);
        words[fault.index] = fault.word.to_vec();
    }
    joined(seed, manner, &words, field)
}

/// The header after some of its words, perhaps all ten that it must have.
fn cut(seed: &mut Seed, field: &Field) -> Vec<u8> {
    let manner = manner(seed);
    let words = alone(seed, manner, field);
    let kept = seed.below(words.len());
    joined(seed, manner, &words[..kept], field)
}

/// Words after the header, whatever they are.
pub fn followed(seed: &mut Seed, field: &Field) -> Vec<u8> {
    let manner = manner(seed);
    let mut words = alone(seed, manner, field);
    let some = *seed.pick(&[&AFTER, &AFTER, &LETTERS]);
    for _ in 0..1 + seed.below(3) {
        words.push(seed.pick(some).to_vec());
    }
    joined(seed, manner, &words, field)
}

/// The field's whole text in place of its header.
fn whole(seed: &mut Seed, field: &Field) -> Vec<u8> {
    let manner = manner(seed);
    text(seed, manner, field).bytes
}

/// The header with a few bytes changed.
fn mutated(seed: &mut Seed, field: &Field) -> Vec<u8> {
    let mut header = good(seed, field);
    mutate(seed, &mut header);
    header
}

/// A hostile header of any kind.
pub fn hostile(seed: &mut Seed, field: &Field) -> Vec<u8> {
    let kinds: [fn(&mut Seed, &Field) -> Vec<u8>; 8] =
        [spoiled, spoiled, spoiled, cut, cut, whole, mutated, mutated];
    seed.pick(&kinds)(seed, field)
}
