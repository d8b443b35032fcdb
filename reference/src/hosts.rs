//! The hosts that share keys: their list in the reader ID segment, and the slots of their segments.

use crate::map::{bytes_at, segment_address, Map, BLOCK, READER_IDS};
use crate::refusal::{require, Answer, Refusal};
use crate::unit::{KeyStage, Model, Unit};

/// The most hosts of a tag, which is also the number of slots in a segment.
const HOSTS: usize = 85;

/// The bytes of a row: id (16), segment number plus one (2).
const ROW: usize = BLOCK + 2;

/// The bytes of a slot: id, key and mask. Slot j of a segment is for the host of row j.
const SLOT: usize = 3 * BLOCK;
const KEY: usize = BLOCK;
const MASK: usize = 2 * BLOCK;

type Id = [u8; BLOCK];
type Row = [u8; ROW];

/// The rows of the list: those before the first zero id, 85 at most.
fn rows(tag: &[u8]) -> &[Row] {
    let (rows, _) = tag[READER_IDS..READER_IDS + HOSTS * ROW].as_chunks();
    let count = rows.iter().position(|row| id(row) == [0; BLOCK]);
    &rows[..count.unwrap_or(HOSTS)]
}

fn id(row: &Row) -> Id {
    bytes_at(row, 0)
}

/// The segment number plus one, as it stands in the row; it may name no segment.
fn segment_field(row: &Row) -> usize {
    usize::from(u16::from_be_bytes(bytes_at(row, BLOCK)))
}

fn names(row: &Row, number: usize) -> bool {
    segment_field(row) == number + 1
}

/// The segment that a row names, if the tag has it.
fn segment(map: Map, row: &Row) -> Option<usize> {
    map.segment(segment_field(row).checked_sub(1)?).ok()
}

/// Whether a row of the list names the segment.
pub(crate) fn is_listed(tag: &[u8], number: usize) -> bool {
    rows(tag).iter().any(|row| names(row, number))
}

/// Whether these bytes of a segment at stage 1 may be read. The segment must be listed, and each slot touched must
/// have a row and not be the segment's own: the others still hold a stream that nobody but its host may know.
pub(crate) fn is_shown(tag: &[u8], number: usize, offset: usize, count: usize) -> bool {
    let (rows, own) = (rows(tag), |row: &Row| names(row, number));
    let touched = rows.get(offset / SLOT..=(offset + count - 1) / SLOT);
    rows.iter().any(own) && touched.is_some_and(|touched| !touched.iter().any(own))
}

/// Whether the list takes a host with this id and segment.
pub(crate) fn allow_insertion(map: Map, tag: &[u8], number: usize, new: &Id) -> Answer {
    let rows = rows(tag);
    let fresh = |row: &Row| id(row) != *new && !names(row, number);
    require(
        *new != [0; BLOCK] && rows.len() < HOSTS && rows.iter().all(fresh) && in_order(map, tag, rows),
        Refusal::BadInsertion,
    )
}

/// Whether no two rows have the same id or segment, and each names a segment whose host was inserted.
fn in_order(map: Map, tag: &[u8], rows: &[Row]) -> bool {
    let differ = |one: &Row, other: &Row| id(one) != id(other) && segment_field(one) != segment_field(other);
    let differs_from_earlier = |at: usize| rows[..at].iter().all(|other| differ(&rows[at], other));
    rows.iter().all(|row| is_inserted(map, tag, row)) && (0..rows.len()).all(differs_from_earlier)
}

/// Whether the row's segment has a well-formed unit of model 4 at stage 1.
fn is_inserted(map: Map, tag: &[u8], row: &Row) -> bool {
    let unit = segment(map, row).and_then(|number| Unit::of(tag, number).ok());
    unit.is_some_and(|unit| unit.model == Model::SharedKey(KeyStage::Read))
}

/// Makes the keys of the new host with each host of the list, then adds its row. The list has room and names other
/// segments only. Bytes behind the new row stay, so rows may join the list with it.
pub(crate) fn join(tag: &mut [u8], number: usize, new: &Id) {
    let count = rows(tag).len();
    for at in 0..count {
        let row: Row = bytes_at(tag, row_address(at));
        let theirs = slot_address(segment_field(&row) - 1, count);
        make_key(tag, (theirs, new), (slot_address(number, at), &id(&row)));
    }
    let row = row_address(count);
    tag[row..row + BLOCK].copy_from_slice(new);
    tag[row + BLOCK..row + ROW].copy_from_slice(&(number as u16 + 1).to_be_bytes());
}

fn row_address(row: usize) -> usize {
    READER_IDS + ROW * row
}

fn slot_address(number: usize, slot: usize) -> usize {
    segment_address(number) + SLOT * slot
}

/// Uses up a pair of slots, each given with the other host's id: both masks go into both keys.
fn make_key(tag: &mut [u8], one: (usize, &Id), other: (usize, &Id)) {
    let masks = [one.0, other.0].map(|slot| bytes_at(tag, slot + MASK));
    for (slot, id) in [one, other] {
        xor_into(tag, slot, id);
        masks.iter().for_each(|mask| xor_into(tag, slot + KEY, mask));
        tag[slot + MASK..slot + SLOT].fill(0);
    }
}

fn xor_into(tag: &mut [u8], address: usize, with: &Id) {
    let block = &mut tag[address..address + BLOCK];
    block.iter_mut().zip(with).for_each(|(byte, with)| *byte ^= with);
}
