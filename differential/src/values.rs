//! Writes of values: to the slots of a counter segment and to the roll-back counter.

use crate::aim::View;
use crate::commands::Command;
use crate::map::{self, COUNTER, SEGMENT};
use crate::random::Random;
use std::ops::Range;

fn put(at: usize, value: u64) -> Command {
    Command::Write {
        address: at,
        data: value.to_be_bytes().to_vec(),
    }
}

/// The next value of the eight bytes at `at`; at its end 0, which must be refused.
pub fn count_up(view: View, at: usize) -> Command {
    put(at, map::number(view.tag, at).wrapping_add(1))
}

/// The value that is stored, or what one might take for it or for the next.
fn other_value(random: &mut Random, view: View, at: usize) -> Command {
    let stored = map::number(view.tag, at);
    let next = stored.wrapping_add(1);
    let near = [stored.wrapping_add(2), stored.wrapping_sub(1), 0];
    let alike = [next.swap_bytes(), next ^ (1 << 32), stored ^ (1 << 32)];
    let value = match random.below(3) {
        0 => stored,
        1 => random.pick(&near),
        _ => random.pick(&alike),
    };
    put(at, value)
}

/// Not just the eight bytes at `at`, but within their place: what is stored there, or that and one added.
fn other_shape(random: &mut Random, view: View, at: usize, place: Range<usize>) -> Command {
    let (address, count) = match random.below(3) {
        0 => (random.pick(&[at - 4, at - 1, at + 1, at + 4, at + 7]), 8),
        1 => (at + random.pick(&[0, 0, 1]), random.pick(&[1, 4, 7])),
        _ => (at, random.pick(&[9, 12, 16])),
    };
    let address = address.clamp(place.start, place.end - count);
    let mut data = view.tag[address..address + count].to_vec();
    if random.percent(50) {
        let last = random.pick(&[count.min(8), count]) - 1;
        data[last] = data[last].wrapping_add(1);
    }
    Command::Write { address, data }
}

/// A slot of the segment that begins at `start`, half of the time counted up.
pub fn slot_write(random: &mut Random, view: View, start: usize) -> Command {
    let any = random.below(512);
    let slot = start + 8 * random.pick(&[0, 1, 2, 3, 511, any]);
    match random.below(10) {
        0..2 => other_shape(random, view, slot, start..start + SEGMENT),
        2..5 => other_value(random, view, slot),
        _ => count_up(view, slot),
    }
}

/// A slot of the segment that was just written to.
pub fn next_slot(random: &mut Random, view: View, last: &Command) -> Command {
    match last {
        Command::Write { address, .. } => slot_write(random, view, address - address % SEGMENT),
        _ => last.clone(),
    }
}

/// A header write: of the roll-back counter, and of other places and lengths.
pub fn counter_write(random: &mut Random, view: View) -> Command {
    match random.below(6) {
        0..3 => other_shape(random, view, COUNTER, 0..16),
        3..5 => other_value(random, view, COUNTER),
        _ => count_up(view, COUNTER),
    }
}
