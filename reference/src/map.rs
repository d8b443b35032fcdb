//! The memory map: when a tag is sound, and which place a command lies in.

use crate::refusal::Refusal;

/// The bytes of a segment, and the most that one command may move.
pub(crate) const SEGMENT: usize = 4096;
/// The bytes of a unit.
pub(crate) const UNIT: usize = 32;
/// The bytes of a register, a PIN, a name and a cipher block.
pub(crate) const BLOCK: usize = 16;

/// Where the roll-back counter and the usage flag stand in the header.
pub(crate) const COUNTER: usize = 4;
pub(crate) const FLAG: usize = 12;

const HIDDEN: usize = 16;
const REGISTERS: usize = 3984;
const PINS: usize = 4096;
/// Where the reader ID segment stands.
pub(crate) const READER_IDS: usize = 8192;
const UNITS: usize = 12288;
const SEGMENTS: usize = 16384;

/// The registers, in the order of their addresses.
#[derive(Clone, Copy, Debug, PartialEq, Eq)]
pub(crate) enum Register {
    Read,
    Write,
    Edit,
    Name,
    Id,
    Commit,
    Pa,
}

/// A place of the map. A command lies wholly inside one of them.
#[derive(Clone, Copy, Debug, PartialEq, Eq)]
pub(crate) enum Place {
    Header,
    Hidden,
    Register(Register),
    Pins,
    ReaderIds,
    Unit(usize),
    Spare,
    Segment(usize),
    Public,
}

/// How many segments of each sort a sound tag has. A `Map` is had only from a sound tag, and no command makes a
/// sound tag unsound or changes these numbers, so one map serves a whole run.
#[derive(Clone, Copy, Debug, PartialEq, Eq)]
pub(crate) struct Map {
    access: usize,
    public: usize,
}

impl Map {
    /// The map of a tag, or the refusal of one that is not sound.
    pub(crate) fn of(tag: &[u8]) -> Result<Map, Refusal> {
        let header: &[u8; 16] = tag.first_chunk().ok_or(Refusal::Unsound)?;
        let access = usize::from(u16::from_be_bytes([header[0], header[1]]));
        let public = usize::from(u16::from_be_bytes([header[2], header[3]]));
        let sound = (1..=128).contains(&access)
            && public <= 128
            && tag.len() == SEGMENTS + SEGMENT * (access + public)
            && header[FLAG] <= 1
            && header[FLAG + 1..] == [0; 3]
            && bytes_at(tag, PINS) == [0; BLOCK];
        sound.then_some(Map { access, public }).ok_or(Refusal::Unsound)
    }

    /// The place that the `count` bytes at `address` lie in.
    #[inline]
    pub(crate) fn place(self, address: usize, count: usize) -> Result<Place, Refusal> {
        match self.place_at(address) {
            Some((place, end)) if count <= end - address => Ok(place),
            _ => Err(Refusal::OutsidePlace),
        }
    }

    /// The number of an access-controlled segment, if the tag has it.
    pub(crate) fn segment(self, number: usize) -> Result<usize, Refusal> {
        (number < self.access).then_some(number).ok_or(Refusal::OutsidePlace)
    }

    /// The place of one address, and the address where that place ends.
    #[inline]
    fn place_at(self, address: usize) -> Option<(Place, usize)> {
        match address {
            ..HIDDEN => Some((Place::Header, HIDDEN)),
            HIDDEN..REGISTERS => Some((Place::Hidden, REGISTERS)),
            REGISTERS..PINS => Some((Place::Register(register_at(address)), end_of(address, BLOCK))),
            PINS..READER_IDS => Some((Place::Pins, READER_IDS)),
            READER_IDS..UNITS => Some((Place::ReaderIds, UNITS)),
            UNITS..SEGMENTS => Some(self.unit_or_spare(address)),
            SEGMENTS.. => self.segment_or_public(address),
        }
    }

    fn unit_or_spare(self, address: usize) -> (Place, usize) {
        let number = (address - UNITS) / UNIT;
        if number < self.access {
            (Place::Unit(number), end_of(address, UNIT))
        } else {
            (Place::Spare, SEGMENTS)
        }
    }

    #[inline]
    fn segment_or_public(self, address: usize) -> Option<(Place, usize)> {
        let number = (address - SEGMENTS) / SEGMENT;
        if number < self.access {
            Some((Place::Segment(number), end_of(address, SEGMENT)))
        } else if number < self.access + self.public {
            Some((Place::Public, end_of(address, SEGMENT)))
        } else {
            None
        }
    }
}

/// Where the part of `size` bytes around an address ends; such parts stand at multiples of their size.
fn end_of(address: usize, size: usize) -> usize {
    address - address % size + size
}

fn register_at(address: usize) -> Register {
    match (address - REGISTERS) / BLOCK {
        0 => Register::Read,
        1 => Register::Write,
        2 => Register::Edit,
        3 => Register::Name,
        4 => Register::Id,
        5 => Register::Commit,
        _ => Register::Pa,
    }
}

/// The address of a unit.
pub(crate) fn unit_address(number: usize) -> usize {
    UNITS + UNIT * number
}

/// The address of a segment.
pub(crate) fn segment_address(number: usize) -> usize {
    SEGMENTS + SEGMENT * number
}

/// The address of a PIN in the PIN segment.
pub(crate) fn pin_address(index: u16) -> usize {
    PINS + BLOCK * usize::from(index)
}

/// The address of an owner PIN in the hidden part.
pub(crate) fn owner_pin_address(index: u16) -> usize {
    HIDDEN + BLOCK * usize::from(index)
}

/// The `N` bytes at an address that is known to lie in the tag.
#[inline]
pub(crate) fn bytes_at<const N: usize>(tag: &[u8], address: usize) -> [u8; N] {
    let mut bytes = [0; N];
    bytes.copy_from_slice(&tag[address..address + N]);
    bytes
}

/// The roll-back counter.
#[inline]
pub(crate) fn counter(tag: &[u8]) -> u64 {
    u64::from_be_bytes(bytes_at(tag, COUNTER))
}

#[cfg(test)]
mod tests {
    use super::*;

    const SMALL: Map = Map { access: 2, public: 1 };

    #[test]
    fn each_place_has_its_bounds() {
        let end = SEGMENTS + 3 * SEGMENT;
        let places = [
            (0, 16, Place::Header),
            (16, 3984, Place::Hidden),
            (3984, 4000, Place::Register(Register::Read)),
            (4000, 4016, Place::Register(Register::Write)),
            (4016, 4032, Place::Register(Register::Edit)),
            (4032, 4048, Place::Register(Register::Name)),
            (4048, 4064, Place::Register(Register::Id)),
            (4064, 4080, Place::Register(Register::Commit)),
            (4080, 4096, Place::Register(Register::Pa)),
            (4096, 8192, Place::Pins),
            (8192, 12288, Place::ReaderIds),
            (12288, 12320, Place::Unit(0)),
            (12320, 12352, Place::Unit(1)),
            (12352, 16384, Place::Spare),
            (16384, 20480, Place::Segment(0)),
            (20480, 24576, Place::Segment(1)),
            (24576, end, Place::Public),
        ];
        for (start, end, place) in places {
            assert_eq!(SMALL.place(start, end - start), Ok(place));
            assert_eq!(SMALL.place(end - 1, 1), Ok(place));
            assert_eq!(SMALL.place(start, end - start + 1), Err(Refusal::OutsidePlace));
            assert_eq!(SMALL.place(end - 1, 2), Err(Refusal::OutsidePlace));
        }
        assert_eq!(SMALL.place(end, 1), Err(Refusal::OutsidePlace));
        assert_eq!(SMALL.place(usize::MAX, 1), Err(Refusal::OutsidePlace));
        assert_eq!(SMALL.place(0, usize::MAX), Err(Refusal::OutsidePlace));
    }

    #[test]
    fn no_spare_behind_128_units() {
        let map = Map { access: 128, public: 0 };
        assert_eq!(map.place(16383, 1), Ok(Place::Unit(127)));
        assert_eq!(unit_address(127) + UNIT, SEGMENTS);
    }
}
