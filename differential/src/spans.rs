//! Commands chosen by place and by length alone: in every place, at every border, and far outside.

use crate::commands::Command;
use crate::map::{self, Map, Place, ALL_REGISTERS, SEGMENT, SEGMENTS};
use crate::random::Random;
use std::ops::Range;

/// Lengths at which something changes.
const COUNTS: [usize; 14] = [1, 2, 7, 8, 9, 15, 16, 17, 31, 32, 33, 4095, 4096, 4097];
const LONG: [usize; 4] = [4097, 4098, 5000, 8192];
/// Lengths that only a read can ask for.
const ENDLESS: [usize; 4] = [65536, 1 << 32, 1 << 63, usize::MAX];
/// The longest output and the most data of any command.
pub const LONGEST: usize = 8256;

pub fn some_count(random: &mut Random) -> usize {
    match random.below(40) {
        0..4 => 0,
        4 | 5 => random.pick(&LONG),
        6..10 => 1 + random.below(SEGMENT),
        _ => random.pick(&COUNTS),
    }
}

/// A read into an output that is mostly long enough.
pub fn read(random: &mut Random, address: usize, count: usize) -> Command {
    let fits = count.min(LONGEST - 64);
    let room = match random.below(24) {
        0 => fits.saturating_sub(1),
        1 => random.below(fits + 1),
        2..6 => fits + 1 + random.below(63),
        _ => fits,
    };
    Command::Read { address, count, room }
}

pub fn write(random: &mut Random, address: usize, count: usize) -> Command {
    Command::Write {
        address,
        data: random.bytes(count.min(LONGEST)),
    }
}

fn either(random: &mut Random, address: usize, count: usize) -> Command {
    if random.percent(50) {
        read(random, address, count)
    } else {
        write(random, address, count)
    }
}

/// Any place, small ones and large ones alike often.
pub fn some_place(random: &mut Random, map: Map) -> Place {
    match random.below(16) {
        0 => Place::Header,
        1 => Place::Hidden,
        i @ 2..9 => Place::Register(ALL_REGISTERS[i - 2]),
        9 => Place::Pins,
        10 => Place::Readers,
        11 | 12 => Place::Unit(map::some_number(random, map.segments)),
        13 if map.segments < 128 => Place::Spare,
        14 if map.publics > 0 => Place::Public(map::some_number(random, map.publics)),
        _ => Place::Segment(map::some_number(random, map.segments)),
    }
}

/// Some bytes of a place: its first, its last, all of it, or any.
pub fn part(random: &mut Random, bounds: Range<usize>) -> (usize, usize) {
    let count = some_count(random).min(bounds.len());
    let address = match random.below(4) {
        0 | 1 => bounds.start,
        2 => bounds.end - count.max(1),
        _ => bounds.start + random.below(bounds.len() - count + 1).min(bounds.len() - 1),
    };
    (address, count)
}

fn inside(random: &mut Random, map: Map) -> Command {
    let place = some_place(random, map);
    let (address, count) = part(random, map.bounds(place));
    either(random, address, count)
}

/// Bytes of a place and one byte or more before or behind it.
fn across(random: &mut Random, map: Map) -> Command {
    let place = some_place(random, map);
    let bounds = map.bounds(place);
    let more = random.pick(&[1, 1, 1, 2, 16]);
    let count = match random.below(3) {
        0 => more + 1,
        1 => some_count(random),
        _ => bounds.len() + more,
    };
    let address = match random.below(3) {
        0 => bounds.start.saturating_sub(more),
        1 => (bounds.end + more).saturating_sub(count),
        _ => bounds.start,
    };
    either(random, address, count)
}

/// Behind the tag's end, and where an address and a count have no sum.
fn far(random: &mut Random, map: Map) -> Command {
    let end = map.length();
    let ends = [
        end,
        end + 1,
        1 << 31,
        1 << 32,
        (1 << 32) + SEGMENTS,
        1 << 63,
        usize::MAX,
    ];
    let address = random.pick(&ends).saturating_sub(random.below(3));
    let count = some_count(random);
    let address = random.pick(&[address, address, address.saturating_sub(count), usize::MAX - count]);
    either(random, address, count)
}

fn endless(random: &mut Random, map: Map) -> Command {
    let place = some_place(random, map);
    let count = random.pick(&ENDLESS);
    read(random, map.bounds(place).start, count)
}

/// The number of a segment that is there or is not.
fn some_segment(random: &mut Random, map: Map) -> usize {
    let end = map.segments + map.publics;
    let far = [65535, 65536, 1 << 32, 1 << 52, 1 << 63, usize::MAX];
    match random.below(6) {
        0 => map.segments + random.below(2),
        1 => map.segments + random.below(map.publics.max(1)),
        2 => end + random.below(2),
        // Also numbers that a multiplication by a segment's size would bring back into the tag.
        3 => random.pick(&far) - random.below(2),
        4 => (1usize << 52) + random.below(map.segments),
        _ => map::some_number(random, map.segments),
    }
}

fn some_insertion(random: &mut Random, map: Map) -> Command {
    let segment = some_segment(random, map);
    let mut id = [0; 16];
    random.fill(&mut id);
    Command::Insert { segment, id }
}

pub fn some_span(random: &mut Random, map: Map) -> Command {
    match random.below(38) {
        0..6 => Command::Advance {
            segment: some_segment(random, map),
        },
        6..10 => some_insertion(random, map),
        10..12 => far(random, map),
        12 => endless(random, map),
        13..20 => across(random, map),
        _ => inside(random, map),
    }
}
