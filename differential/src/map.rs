//! The map of a tag as the generator knows it: enough to aim commands and to name the place each one is at.

use crate::random::Random;
use std::ops::Range;

pub const SEGMENT: usize = 4096;
pub const REGISTERS: usize = 3984;
pub const PINS: usize = 4096;
pub const READERS: usize = 8192;
pub const UNITS: usize = 12288;
pub const UNIT: usize = 32;
pub const SEGMENTS: usize = 16384;
pub const MOST: usize = 128;
pub const COUNTER: usize = 4;
pub const FLAG: usize = 12;

#[derive(Clone, Copy, Debug, PartialEq, Eq)]
pub enum Register {
    Read,
    Write,
    Edit,
    Name,
    Id,
    Commit,
    Pa,
}

pub const ALL_REGISTERS: [Register; 7] = [
    Register::Read,
    Register::Write,
    Register::Edit,
    Register::Name,
    Register::Id,
    Register::Commit,
    Register::Pa,
];

impl Register {
    pub fn address(self) -> usize {
        REGISTERS + 16 * self as usize
    }
}

/// A place; `Public` carries its number among the public segments alone.
#[derive(Clone, Copy, Debug, PartialEq, Eq)]
pub enum Place {
    Header,
    Hidden,
    Register(Register),
    Pins,
    Readers,
    Unit(usize),
    Spare,
    Segment(usize),
    Public(usize),
}

#[derive(Clone, Copy, Debug, PartialEq, Eq)]
pub struct Map {
    pub segments: usize,
    pub publics: usize,
}

fn two(tag: &[u8], at: usize) -> usize {
    usize::from(u16::from_be_bytes([tag[at], tag[at + 1]]))
}

impl Map {
    /// The map of a sound tag; none of another.
    pub fn of(tag: &[u8]) -> Option<Map> {
        if tag.len() < SEGMENTS {
            return None;
        }
        let map = Map {
            segments: two(tag, 0),
            publics: two(tag, 2),
        };
        let in_range = (1..=MOST).contains(&map.segments) && map.publics <= MOST;
        let zeros = tag[13..16] == [0; 3] && tag[PINS..PINS + 16] == [0; 16];
        (in_range && tag.len() == map.length() && tag[FLAG] <= 1 && zeros).then_some(map)
    }

    pub fn length(&self) -> usize {
        SEGMENT * (4 + self.segments + self.publics)
    }

    pub fn bounds(&self, place: Place) -> Range<usize> {
        let (start, size) = match place {
            Place::Header => (0, 16),
            Place::Hidden => (16, REGISTERS - 16),
            Place::Register(register) => (register.address(), 16),
            Place::Pins => (PINS, SEGMENT),
            Place::Readers => (READERS, SEGMENT),
            Place::Unit(k) => (UNITS + UNIT * k, UNIT),
            Place::Spare => (UNITS + UNIT * self.segments, SEGMENT - UNIT * self.segments),
            Place::Segment(k) => (SEGMENTS + SEGMENT * k, SEGMENT),
            Place::Public(k) => (SEGMENTS + SEGMENT * (self.segments + k), SEGMENT),
        };
        start..start + size
    }

    fn at(&self, address: usize) -> Option<Place> {
        Some(match address {
            0..16 => Place::Header,
            16..REGISTERS => Place::Hidden,
            REGISTERS..PINS => Place::Register(ALL_REGISTERS[(address - REGISTERS) / 16]),
            PINS..READERS => Place::Pins,
            READERS..UNITS => Place::Readers,
            UNITS..SEGMENTS => match (address - UNITS) / UNIT {
                k if k < self.segments => Place::Unit(k),
                _ => Place::Spare,
            },
            _ => match (address - SEGMENTS) / SEGMENT {
                k if k < self.segments => Place::Segment(k),
                k if k < self.segments + self.publics => Place::Public(k - self.segments),
                _ => return None,
            },
        })
    }

    /// The place that holds all `count` bytes at `address`; for no bytes the one that holds the address.
    pub fn place(&self, address: usize, count: usize) -> Option<Place> {
        let place = self.at(address)?;
        (count <= self.bounds(place).end - address).then_some(place)
    }
}

/// The number of one of so many segments; of the most that there can be, mostly one of the last two.
pub fn some_number(random: &mut Random, count: usize) -> usize {
    let any = random.below(count);
    match count {
        MOST => random.pick(&[MOST - 1, MOST - 1, MOST - 2, any]),
        _ => any,
    }
}

/// The eight bytes at `at` as a number.
pub fn number(tag: &[u8], at: usize) -> u64 {
    u64::from_be_bytes(tag[at..at + 8].try_into().expect("eight bytes"))
}

pub fn unit(tag: &[u8], k: usize) -> &[u8; 32] {
    let at = UNITS + UNIT * k;
    tag[at..at + UNIT].try_into().expect("32 bytes")
}
