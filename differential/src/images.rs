//! Images to start from: sound ones, and ones damaged in each way that soundness names.

use crate::hosts;
use crate::lists;
use crate::map::{self, Map, Place, FLAG, MOST, PINS, SEGMENT, SEGMENTS, UNIT, UNITS};
use crate::random::Random;
use crate::units::{self, Kind, Unit, NE, PN, RDPIN, WRPIN};

/// An image with what the generator knows of it.
#[derive(Clone, Debug)]
pub struct Image {
    pub bytes: Vec<u8>,
    /// The map it was made with; a damaged image does not bear it out.
    pub map: Map,
    /// Below `DAMAGES`.
    pub damage: Option<usize>,
    /// For each unit that is ill formed, its place in `units::WAYS`.
    pub ill_formed: Vec<Option<usize>>,
}

/// How many ways of damage there are: those with a name, and one for each byte of PIN 0.
pub const DAMAGES: usize = NAMED.len() + 16;

const NAMED: [&str; 17] = [
    "length one less",
    "length one more",
    "a segment more",
    "a segment less",
    "empty",
    "shorter than a header",
    "a header, and no room for units",
    "A = 0",
    "A = 129",
    "P = 129",
    "A and the length do not match",
    "P and the length do not match",
    "A or P over 255",
    "flag over 1",
    "byte 13 not 0",
    "byte 14 not 0",
    "byte 15 not 0",
];

pub fn damage_name(way: usize) -> String {
    match NAMED.get(way) {
        Some(name) => name.to_string(),
        None => format!("PIN 0, byte {} not 0", way - NAMED.len()),
    }
}

/// The largest map. Its images are slow, so that they are not drawn by `some_image`.
pub const LARGEST: Map = Map {
    segments: MOST,
    publics: MOST,
};

/// The maps at the limits: the largest, and with the most segments of one sort.
pub const LIMITS: [&str; 3] = ["A = P = 128", "A = 128, P below 3", "A below 4, P = 128"];

/// In which of `LIMITS` a map is.
pub fn limit(map: Map) -> Option<usize> {
    match (map.segments, map.publics) {
        (MOST, MOST) => Some(0),
        (MOST, 0..3) => Some(1),
        (1..4, MOST) => Some(2),
        _ => None,
    }
}

/// The last places of the largest map; there is no spare one behind the units.
pub const LAST: [(&str, Place); 3] = [
    ("unit 127 of A = P = 128", Place::Unit(MOST - 1)),
    ("segment 127 of A = P = 128", Place::Segment(MOST - 1)),
    ("public segment 127 of A = P = 128", Place::Public(MOST - 1)),
];

/// Mostly few segments; now and then the most, so that there is no spare place, or enough for a full list of hosts.
fn some_map(random: &mut Random) -> Map {
    let (segments, publics) = match random.below(200) {
        0 => (MOST, random.below(3)),
        1 => (MOST - 1, 0),
        2 => (1 + random.below(3), MOST),
        3 => (1 + random.below(MOST), random.below(MOST + 1)),
        4..9 => (86 + random.below(8), 0),
        9..14 => (10 + random.below(30), 0),
        14..60 => (5 + random.below(4), random.below(3)),
        _ => (1 + random.below(4), random.below(4)),
    };
    Map { segments, publics }
}

pub fn some_image(random: &mut Random, may_be_damaged: bool) -> Image {
    let map = some_map(random);
    let mut image = of_map(random, map);
    if may_be_damaged {
        let way = random.below(DAMAGES);
        damage(random, &mut image, way);
    }
    image
}

/// A sound image.
pub fn of_map(random: &mut Random, map: Map) -> Image {
    let mut bytes = vec![0; map.length()];
    if random.percent(70) {
        random.fill(&mut bytes);
    }
    fill_header(random, &mut bytes, map);
    fill_pins(random, &mut bytes);
    let ill_formed = (0..map.segments).map(|k| fill_segment(random, &mut bytes, k)).collect();
    let mut image = Image {
        bytes,
        map,
        damage: None,
        ill_formed,
    };
    lists::fill(random, &mut image);
    if random.percent(50) {
        lock_a_counter(random, &mut image);
    }
    image
}

fn put_number(bytes: &mut [u8], at: usize, number: u64) {
    bytes[at..at + 8].copy_from_slice(&number.to_be_bytes());
}

fn put_two(bytes: &mut [u8], at: usize, number: usize) {
    bytes[at..at + 2].copy_from_slice(&(number as u16).to_be_bytes());
}

fn fill_header(random: &mut Random, bytes: &mut [u8], map: Map) {
    bytes[..16].fill(0);
    put_two(bytes, 0, map.segments);
    put_two(bytes, 2, map.publics);
    // Mostly with values to come, so that more than one response can be given.
    let counter = if random.percent(70) {
        random.number() >> 8
    } else {
        random.counter()
    };
    put_number(bytes, 4, counter);
    bytes[FLAG] = random.below(2) as u8;
}

/// PIN 0 is zeros; others are any, all zeros, or alike; owner PINs too.
fn fill_pins(random: &mut Random, bytes: &mut [u8]) {
    bytes[PINS..PINS + 16].fill(0);
    let any = random.bytes(16);
    for at in (16..80).step_by(16).chain([1, 2, 7, 255].map(|pin| PINS + 16 * pin)) {
        match random.below(5) {
            0 => bytes[at..at + 16].fill(0),
            1 => bytes[at..at + 16].copy_from_slice(&any),
            _ => random.fill(&mut bytes[at..at + 16]),
        }
    }
}

/// The unit of segment `k`, and counter values in the segment's slots if it has them.
fn fill_segment(random: &mut Random, bytes: &mut [u8], k: usize) -> Option<usize> {
    let way = random.percent(12).then(|| random.below(units::WAYS.len()));
    let unit = match way {
        Some(way) => units::ill_formed(random, way),
        None => units::well_formed(random),
    };
    put_unit(random, bytes, k, &unit);
    way
}

fn put_unit(random: &mut Random, bytes: &mut [u8], k: usize, unit: &Unit) {
    bytes[UNITS + UNIT * k..][..UNIT].copy_from_slice(unit);
    if units::kind(unit) == Kind::Model2 {
        let start = SEGMENTS + SEGMENT * k;
        for slot in (0..16).chain([510, 511]) {
            let value = random.counter();
            put_number(bytes, start + 8 * slot, value);
        }
    }
}

/// Lets a segment count, with a locked unit that often asks for no rights: demand 3 speaks of these. It is one that no
/// row names, since the list would be flawed by it.
fn lock_a_counter(random: &mut Random, image: &mut Image) {
    let k = map::some_number(random, image.map.segments);
    if hosts::is_listed(&image.bytes, k) {
        return;
    }
    let mut unit = units::of_kind(random, Kind::Model2);
    unit[0] |= NE;
    match random.below(4) {
        0 | 1 => unit[0] &= !(RDPIN | WRPIN | PN),
        2 => unit[0] = unit[0] & !WRPIN | PN,
        _ => unit[0] |= WRPIN,
    }
    put_unit(random, &mut image.bytes, k, &unit);
    image.ill_formed[k] = None;
}

/// Damages a sound image in this way, below `DAMAGES`, and in no other.
pub fn damage(random: &mut Random, image: &mut Image, way: usize) {
    image.damage = Some(way);
    let bytes = &mut image.bytes;
    let length = bytes.len();
    match way {
        0 => bytes.truncate(length - 1),
        1 => bytes.push(0),
        2 => bytes.resize(length + SEGMENT, 0),
        3 => bytes.truncate(length - SEGMENT),
        4 => bytes.clear(),
        5 => bytes.truncate(1 + random.below(15)),
        6 => bytes.truncate(16 + random.below(SEGMENTS - 16)),
        7..10 => out_of_range(bytes, image.map, way),
        10 => put_two(
            bytes,
            0,
            random.pick(&[image.map.segments % MOST + 1, image.map.segments + MOST]),
        ),
        11 => put_two(bytes, 2, (image.map.publics + 1) % (MOST + 1)),
        12 => bytes[random.pick(&[0, 2])] = random.not_zero(),
        13 => bytes[FLAG] = random.not_zero().max(2),
        14..17 => bytes[way - 1] = random.not_zero(),
        _ => bytes[PINS + way - NAMED.len()] = random.not_zero(),
    }
}

/// A or P just out of range, with a length that matches.
fn out_of_range(bytes: &mut Vec<u8>, map: Map, way: usize) {
    let (segments, publics) = match way {
        7 => (0, map.publics.max(1)),
        8 => (MOST + 1, 0),
        _ => (map.segments, MOST + 1),
    };
    bytes.resize(Map { segments, publics }.length(), 0);
    put_two(bytes, 0, segments);
    put_two(bytes, 2, publics);
}

#[cfg(test)]
mod tests {
    use super::*;

    #[test]
    fn images_are_sound_until_damaged() {
        let mut random = Random::new(1);
        for round in 0..20 {
            for way in 0..DAMAGES {
                let mut image = some_image(&mut random, false);
                assert_eq!(Map::of(&image.bytes), Some(image.map));
                damage(&mut random, &mut image, way);
                assert_eq!(Map::of(&image.bytes), None, "{}, round {round}", damage_name(way));
            }
        }
    }

    #[test]
    fn the_largest_image_has_no_spare_place() {
        let image = of_map(&mut Random::new(1), LARGEST);
        assert_eq!((image.bytes.len(), limit(image.map)), (1_064_960, Some(0)));
        assert_eq!(Map::of(&image.bytes), Some(LARGEST));
        assert!(LARGEST.bounds(Place::Spare).is_empty());
        for (name, place) in LAST {
            assert_eq!(LARGEST.place(LARGEST.bounds(place).end - 1, 1), Some(place), "{name}");
        }
    }
}
