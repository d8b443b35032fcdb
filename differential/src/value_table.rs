//! The answers that request L1 allows to a write in a counter segment or in the header, by how what it holds stands to
//! what is stored.

use crate::commands::Command;
use crate::map::{self, Map, Place, COUNTER, FLAG};
use crate::seats::{List, Seat};
use crate::table::{place_of, Row};
use crate::units::{self, Kind};
use std::cmp::Ordering;

/// The answers that are counted here: 2, 7 and 8 come before them.
pub const COUNTED: [u8; 4] = [0, 4, 12, 18];

/// Writes in a segment of model 2: of one slot, and of what is stored in another shape.
pub const SLOT_WRITES: [Row; 9] = [
    ("next", &[0]),
    ("repeated", &[18]),
    ("repeated, full", &[18]),
    ("full to 0", &[12]),
    ("gap above", &[12]),
    ("below", &[12]),
    ("as stored, not aligned", &[12]),
    ("as stored, under 8 bytes", &[12]),
    ("as stored, over 8 bytes", &[12]),
];

/// Writes in the header: of the roll-back counter, and of what is stored in another shape.
pub const COUNTER_WRITES: [Row; 6] = [
    ("next", &[0]),
    ("repeated, flag 0", &[18]),
    ("repeated, flag 1", &[18]),
    ("full to 0", &[12]),
    ("other value", &[12]),
    ("as stored, not the counter", &[4]),
];

/// How a value stands to the one stored, in the order of the first rows for slots.
#[derive(Clone, Copy, Debug, PartialEq, Eq)]
enum Standing {
    Next,
    Repeated,
    RepeatedFull,
    FullToZero,
    Above,
    Below,
}

fn standing(stored: u64, value: u64) -> Standing {
    match value.cmp(&stored) {
        Ordering::Equal if stored == u64::MAX => Standing::RepeatedFull,
        Ordering::Equal => Standing::Repeated,
        Ordering::Greater if value - stored == 1 => Standing::Next,
        Ordering::Greater => Standing::Above,
        Ordering::Less if (stored, value) == (u64::MAX, 0) => Standing::FullToZero,
        Ordering::Less => Standing::Below,
    }
}

fn is_stored(tag: &[u8], address: usize, data: &[u8]) -> bool {
    tag[address..address + data.len()] == *data
}

fn slot_row(tag: &[u8], address: usize, data: &[u8]) -> Option<usize> {
    match data.len() {
        8 if address.is_multiple_of(8) => Some(standing(map::number(tag, address), map::number(data, 0)) as usize),
        _ if !is_stored(tag, address, data) => None,
        8 => Some(6),
        0..8 => Some(7),
        _ => Some(8),
    }
}

fn counter_row(tag: &[u8], address: usize, data: &[u8]) -> Option<usize> {
    if (address, data.len()) != (COUNTER, 8) {
        return is_stored(tag, address, data).then_some(5);
    }
    Some(match standing(map::number(tag, COUNTER), map::number(data, 0)) {
        Standing::Next => 0,
        Standing::Repeated | Standing::RepeatedFull => 1 + usize::from(tag[FLAG]),
        Standing::FullToZero => 3,
        Standing::Above | Standing::Below => 4,
    })
}

/// Where a command on this tag is counted, if it is a write of a value, or of what is stored, where values are.
pub fn seat_of(tag: &[u8], command: &Command) -> Option<Seat> {
    let map = Map::of(tag)?;
    let Command::Write { address, data } = command else {
        return None;
    };
    match place_of(map, command)? {
        Place::Header => Some((List::CounterWrites, counter_row(tag, *address, data)?)),
        Place::Segment(k) if units::kind(map::unit(tag, k)) == Kind::Model2 => {
            Some((List::SlotWrites, slot_row(tag, *address, data)?))
        }
        _ => None,
    }
}

#[cfg(test)]
mod tests {
    use super::*;
    use crate::map::{SEGMENT, SEGMENTS, UNITS};

    /// A counter segment with slots that hold 5 and the highest number; the roll-back counter holds 7.
    fn tag() -> Vec<u8> {
        let mut tag = vec![0; SEGMENT * 5];
        tag[1] = 1;
        tag[COUNTER + 7] = 7;
        tag[UNITS..][..2].copy_from_slice(&[0xA5, 0x02]);
        tag[SEGMENTS + 7] = 5;
        tag[SEGMENTS + 8..][..8].fill(0xFF);
        tag
    }

    fn row(tag: &[u8], address: usize, data: &[u8]) -> Option<&'static str> {
        let data = data.to_vec();
        let (list, row) = seat_of(tag, &Command::Write { address, data })?;
        let rows: &[Row] = if address < 16 { &COUNTER_WRITES } else { &SLOT_WRITES };
        assert_eq!(list == List::CounterWrites, address < 16);
        Some(rows[row].0)
    }

    #[test]
    fn values_of_slots() {
        let tag = tag();
        for (slot, value, name) in [
            (0, 6, "next"),
            (0, 5, "repeated"),
            (0, 7, "gap above"),
            (0, u64::MAX, "gap above"),
            (0, 4, "below"),
            (0, 0, "below"),
            (1, u64::MAX, "repeated, full"),
            (1, 0, "full to 0"),
            (1, 1, "below"),
            (2, 0, "repeated"),
        ] {
            assert_eq!(row(&tag, SEGMENTS + 8 * slot, &value.to_be_bytes()), Some(name));
        }
    }

    #[test]
    fn values_of_the_counter() {
        let mut tag = tag();
        for (flag, value, name) in [
            (0, 8u64, "next"),
            (0, 7, "repeated, flag 0"),
            (1, 7, "repeated, flag 1"),
            (1, 0, "other value"),
            (1, 9, "other value"),
        ] {
            tag[FLAG] = flag;
            assert_eq!(row(&tag, COUNTER, &value.to_be_bytes()), Some(name));
        }
        tag[COUNTER..COUNTER + 8].fill(0xFF);
        assert_eq!(row(&tag, COUNTER, &[0; 8]), Some("full to 0"));
        assert_eq!(row(&tag, COUNTER, &[0xFF; 8]), Some("repeated, flag 1"));
    }

    #[test]
    fn other_shapes_are_counted_where_they_hold_what_is_stored() {
        let tag = tag();
        for (address, count, name) in [
            (SEGMENTS + 4, 8, "as stored, not aligned"),
            (SEGMENTS, 7, "as stored, under 8 bytes"),
            (SEGMENTS, 16, "as stored, over 8 bytes"),
            (COUNTER, 4, "as stored, not the counter"),
            (COUNTER + 1, 8, "as stored, not the counter"),
            (0, 16, "as stored, not the counter"),
        ] {
            let mut data = tag[address..address + count].to_vec();
            assert_eq!(row(&tag, address, &data), Some(name));
            data[0] ^= 1;
            assert_eq!(row(&tag, address, &data), None);
        }
    }

    #[test]
    fn nothing_else_is_counted() {
        let mut tag = tag();
        tag[UNITS + 1] = 0;
        assert_eq!(row(&tag, SEGMENTS, &[0, 0, 0, 0, 0, 0, 0, 5]), None);
        assert_eq!(row(&tag, UNITS, &[0; 8]), None);
    }
}
