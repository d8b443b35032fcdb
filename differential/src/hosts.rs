//! The list of hosts as the generator knows it: its rows, what speaks against an insertion, and what a read of shared
//! keys touches.

use crate::cipher::Block;
use crate::map::{self, Map, READERS, SEGMENT, SEGMENTS};
use crate::units::{self, Kind};

const ROW: usize = 18;
/// The most rows of a list, and the slots of a segment.
pub const ROWS: usize = 85;
pub const SLOT: usize = 48;

/// A row; `field` is the number of its segment plus one.
#[derive(Clone, Copy, Debug, PartialEq, Eq)]
pub struct Row {
    pub id: Block,
    pub field: u16,
}

impl Row {
    pub fn names(&self, segment: usize) -> bool {
        usize::from(self.field) == segment + 1
    }
}

/// The row at a place of the reader ID segment, in the list or not.
pub fn row(tag: &[u8], i: usize) -> Row {
    let bytes = &tag[READERS + ROW * i..][..ROW];
    Row {
        id: bytes[..16].try_into().expect("16 bytes"),
        field: u16::from_be_bytes([bytes[16], bytes[17]]),
    }
}

pub fn put_row(tag: &mut [u8], i: usize, row: Row) {
    let bytes = &mut tag[READERS + ROW * i..][..ROW];
    bytes[..16].copy_from_slice(&row.id);
    bytes[16..].copy_from_slice(&row.field.to_be_bytes());
}

/// The rows before the first id of zeros, at most 85.
pub fn list(tag: &[u8]) -> Vec<Row> {
    let rows = (0..ROWS).map(|i| row(tag, i));
    rows.take_while(|row| row.id != [0; 16]).collect()
}

pub fn is_listed(tag: &[u8], segment: usize) -> bool {
    list(tag).iter().any(|row| row.names(segment))
}

/// What can speak against an insertion into a segment of model 4 at stage 0.
#[derive(Clone, Copy, Debug, PartialEq, Eq)]
pub enum Cause {
    ZeroId,
    ListedId,
    /// Its own row then does not name a segment at stage 1 either, which is not counted twice.
    ListedSegment,
    FullList,
    RepeatedId,
    RepeatedSegment,
    NamesNothing,
    NamesTooHigh,
    NamesOther,
    NamesIllFormed,
}

fn repeats<T: Ord>(items: impl Iterator<Item = T>) -> bool {
    let mut items = Vec::from_iter(items);
    items.sort_unstable();
    items.windows(2).any(|two| two[0] == two[1])
}

/// What is wrong with a row alone.
fn fault_of(tag: &[u8], map: Map, row: &Row) -> Option<Cause> {
    let Some(segment) = usize::from(row.field).checked_sub(1) else {
        return Some(Cause::NamesNothing);
    };
    if segment >= map.segments {
        return Some(Cause::NamesTooHigh);
    }
    match units::kind(map::unit(tag, segment)) {
        Kind::Shared => None,
        Kind::IllFormed => Some(Cause::NamesIllFormed),
        _ => Some(Cause::NamesOther),
    }
}

/// Everything that speaks against inserting the id with this segment, each cause once.
pub fn causes(tag: &[u8], map: Map, segment: usize, id: &Block) -> Vec<Cause> {
    let list = list(tag);
    let tests = [
        (*id == [0; 16], Cause::ZeroId),
        (list.iter().any(|row| row.id == *id), Cause::ListedId),
        (list.iter().any(|row| row.names(segment)), Cause::ListedSegment),
        (list.len() == ROWS, Cause::FullList),
        (repeats(list.iter().map(|row| row.id)), Cause::RepeatedId),
        (repeats(list.iter().map(|row| row.field)), Cause::RepeatedSegment),
    ];
    let mut causes = Vec::from_iter(tests.iter().filter(|test| test.0).map(|test| test.1));
    for row in list.iter().filter(|row| !row.names(segment)) {
        let fault = fault_of(tag, map, row);
        causes.extend(fault.filter(|fault| !causes.contains(fault)));
    }
    causes
}

/// What a read of one byte or more in a segment of model 4 at stage 1 touches.
#[derive(Clone, Copy, Debug, Default, PartialEq, Eq)]
pub struct Touched {
    /// Slots of other hosts.
    pub open: usize,
    pub own: bool,
    pub past_list: bool,
    pub last_bytes: bool,
}

pub fn touched(list: &[Row], segment: usize, address: usize, count: usize) -> Touched {
    let offset = address - SEGMENTS - SEGMENT * segment;
    let mut touched = Touched::default();
    for slot in offset / SLOT..=(offset + count - 1) / SLOT {
        match list.get(slot) {
            _ if slot == ROWS => touched.last_bytes = true,
            None => touched.past_list = true,
            Some(row) if row.names(segment) => touched.own = true,
            Some(_) => touched.open += 1,
        }
    }
    touched
}

#[cfg(test)]
mod tests {
    use super::*;

    /// Two access-controlled segments: segment 0 at stage 1 in row 1, segment 1 at stage 0.
    fn tag() -> Vec<u8> {
        let mut tag = vec![0; SEGMENT * 6];
        tag[1] = 2;
        tag[READERS..READERS + ROW].fill(1);
        tag[READERS + 16] = 0;
        tag[map::UNITS..][..2].copy_from_slice(&[0x81, 0x14]);
        tag[map::UNITS + map::UNIT..][..2].copy_from_slice(&[0x21, 0x04]);
        tag
    }

    fn against(tag: &[u8], id: u8) -> Vec<Cause> {
        causes(tag, Map::of(tag).expect("sound"), 1, &[id; 16])
    }

    #[test]
    fn the_list_ends_at_the_first_zero_id() {
        let mut tag = tag();
        assert_eq!(list(&tag), [Row { id: [1; 16], field: 1 }]);
        tag[READERS + 2 * ROW..READERS + SEGMENT].fill(2);
        assert_eq!(list(&tag).len(), 1);
        tag[READERS + ROW + 15] = 1;
        assert_eq!(list(&tag).len(), ROWS);
    }

    #[test]
    fn each_cause_is_told_alone() {
        let mut tag = tag();
        assert_eq!(against(&tag, 2), []);
        assert_eq!(against(&tag, 0), [Cause::ZeroId]);
        assert_eq!(against(&tag, 1), [Cause::ListedId]);
        for (field, cause) in [
            (0, Cause::NamesNothing),
            (3, Cause::NamesTooHigh),
            (2, Cause::ListedSegment),
        ] {
            tag[READERS + 17] = field;
            assert_eq!(against(&tag, 2), [cause]);
        }
        tag[READERS + 17] = 1;
        for (byte, cause) in [(0x24, Cause::NamesIllFormed), (0x00, Cause::NamesOther)] {
            tag[map::UNITS + 1] = byte;
            assert_eq!(against(&tag, 2), [cause]);
        }
    }

    #[test]
    fn a_read_touches_slots() {
        let list = list(&tag());
        let touched = |offset, count| touched(&list, 0, SEGMENTS + offset, count);
        let none = Touched::default();
        assert_eq!(touched(47, 1), Touched { own: true, ..none });
        assert_eq!(
            touched(48, 4032),
            Touched {
                past_list: true,
                ..none
            }
        );
        assert_eq!(
            touched(4080, 16),
            Touched {
                last_bytes: true,
                ..none
            }
        );
    }
}
