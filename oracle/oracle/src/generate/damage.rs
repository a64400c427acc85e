//! Valid inputs with bytes flipped, cut, inserted and appended.

use super::{edges, pages};
use crate::command::code;
use crate::header;
use crate::random::Random;

#[must_use]
pub fn input(random: &mut Random) -> Vec<u8> {
    let mut input = match random.below(3) {
        0 => edges::input(random),
        _ => pages::input(random),
    };
    for _ in 0..=random.below(2) {
        damage(&mut input, header::LENGTH, random);
    }
    input
}

/// One piece of damage, often at the first byte of a command. Commands begin at
/// `start`.
pub fn damage(input: &mut Vec<u8>, start: usize, random: &mut Random) {
    if input.is_empty() {
        return;
    }
    let place = match random.below(3) {
        0 => random.below(input.len()),
        _ => {
            let commands = commands(input, start);
            commands[random.below(commands.len())]
        }
    };
    match random.below(14) {
        0 | 1 => input[place] = random.below(10) as u8,
        2 => input.truncate(place),
        3 => input.insert(place, random.below(10) as u8),
        4 => input.extend((0..=random.below(3)).map(|_| random.below(9) as u8)),
        5 => {
            input.remove(place);
        }
        6 => {
            // The high bytes of a float: infinities and NaNs.
            let end = (place + 7).min(input.len() - 1);
            input[end] = random.pick(&[0x7F, 0xFF]);
            input[end.saturating_sub(1)] = random.pick(&[0xF0, 0xFF, 0xEF]);
        }
        7 => {
            let part = input[place..].to_vec();
            input.extend(part.iter().take(1 + random.below(200)));
        }
        _ => input[place] ^= 1 << random.below(8),
    }
}

/// Where commands begin, as far as the bytes can be followed; at least one place.
fn commands(input: &[u8], start: usize) -> Vec<usize> {
    let mut places = vec![0];
    let mut at = start;
    while let Some(length) = input.get(at).and_then(|byte| code::length(*byte)) {
        places.push(at);
        at += length;
    }
    places
}
