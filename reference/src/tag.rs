//! The host commands: read, write, advance and insert.

use crate::hosts::{allow_insertion, is_listed, is_shown, join};
use crate::map::{bytes_at, counter, unit_address, Map, Place, BLOCK, COUNTER, FLAG, SEGMENT, UNIT};
use crate::refusal::{require, Answer, Refusal};
use crate::register::write_register;
use crate::session::Session;
use crate::unit::{KeyStage, Model, Stage, Unit, RD, WR};

/// The bytes of a slot in a counter segment.
const SLOT: usize = 8;

/// Reads `count` bytes into the front of the output.
pub fn read(tag: &[u8], session: &Session, address: usize, count: usize, output: &mut [u8]) -> Answer {
    let map = Map::of(tag)?;
    let output = output.get_mut(..count).ok_or(Refusal::BadCount)?;
    read_sound(map, tag, session, address, output)
}

/// Writes the data.
pub fn write(tag: &mut [u8], session: &mut Session, address: usize, data: &[u8]) -> Answer {
    let map = Map::of(tag)?;
    write_sound(map, tag, session, address, data)
}

/// Takes a segment of model 3 to its next stage.
pub fn advance(tag: &mut [u8], session: &Session, segment: usize) -> Answer {
    let map = Map::of(tag)?;
    advance_sound(map, tag, session, segment)
}

/// Inserts a host with this id, whose stream is in a segment of model 4: the tag makes the keys that the host shares
/// with those inserted before it.
pub fn insert(tag: &mut [u8], session: &Session, segment: usize, id: &[u8; 16]) -> Answer {
    let map = Map::of(tag)?;
    insert_sound(map, tag, session, segment, id)
}

/// Reads as many bytes as the output holds, from a tag that has this map.
#[inline]
pub(crate) fn read_sound(map: Map, tag: &[u8], session: &Session, address: usize, output: &mut [u8]) -> Answer {
    let count = output.len();
    check_count(count)?;
    match map.place(address, count)? {
        Place::Header | Place::ReaderIds | Place::Public => {}
        Place::Hidden | Place::Pins | Place::Spare | Place::Register(_) => return Err(Refusal::NeverTaken),
        Place::Unit(number) => Unit::of(tag, number)?.allow_unit_read(address % UNIT + count)?,
        Place::Segment(number) => {
            let unit = Unit::of(tag, number)?;
            if unit.model == Model::SharedKey(KeyStage::Read) {
                return read_keys(tag, session, number, address, output);
            }
            unit.allow_read(session)?;
        }
    }
    output.copy_from_slice(&tag[address..address + count]);
    Ok(())
}

/// Writes to a tag that has this map.
#[inline]
pub(crate) fn write_sound(map: Map, tag: &mut [u8], session: &mut Session, address: usize, data: &[u8]) -> Answer {
    check_count(data.len())?;
    match map.place(address, data.len())? {
        Place::Header => write_header(tag, address, data),
        Place::Hidden | Place::Pins | Place::ReaderIds | Place::Spare => Err(Refusal::NeverTaken),
        Place::Register(register) => write_register(tag, session, register, data),
        Place::Unit(number) => edit(tag, session, number, address % UNIT, data),
        Place::Segment(number) => write_segment(tag, session, number, address, data),
        Place::Public => {
            store(&mut tag[address..address + data.len()], data);
            Ok(())
        }
    }
}

/// Advances a segment of a tag that has this map.
pub(crate) fn advance_sound(map: Map, tag: &mut [u8], session: &Session, segment: usize) -> Answer {
    let number = map.segment(segment)?;
    let unit = Unit::of(tag, number)?;
    unit.allow_advance(session)?;
    let next = match unit.model {
        Model::Staged(Stage::Store) => Stage::Xor,
        Model::Staged(Stage::Xor) => Stage::Read,
        _ => return Err(Refusal::NoNextStage),
    };
    tag[unit_address(number) + 1] = next.model_byte();
    if next == Stage::Read {
        make_read_only(tag, number);
    }
    Ok(())
}

/// Inserts the host of a segment of a tag that has this map.
pub(crate) fn insert_sound(map: Map, tag: &mut [u8], session: &Session, segment: usize, id: &[u8; BLOCK]) -> Answer {
    let number = map.segment(segment)?;
    let unit = Unit::of(tag, number)?;
    unit.allow_advance(session)?;
    require(unit.model == Model::SharedKey(KeyStage::Store), Refusal::NoNextStage)?;
    allow_insertion(map, tag, number, id)?;
    join(tag, number, id);
    tag[unit_address(number) + 1] = KeyStage::Read.model_byte();
    make_read_only(tag, number);
    Ok(())
}

fn check_count(count: usize) -> Answer {
    require((1..=SEGMENT).contains(&count), Refusal::BadCount)
}

/// Reads a segment of model 4 at stage 1, where some slots are hidden. It stands apart so that no other read pays for
/// the look at the list.
#[cold]
fn read_keys(tag: &[u8], session: &Session, number: usize, address: usize, output: &mut [u8]) -> Answer {
    let count = output.len();
    require(is_shown(tag, number, address % SEGMENT, count), Refusal::NoRight)?;
    Unit::of(tag, number)?.allow_read(session)?;
    output.copy_from_slice(&tag[address..address + count]);
    Ok(())
}

/// The header takes one write: the next value of the roll-back counter, which clears the flag. "18 at the roll-back
/// counter leaves the flag as it is: a repeated counter write does not make the value usable again."
fn write_header(tag: &mut [u8], address: usize, data: &[u8]) -> Answer {
    let written: [u8; 8] = data.try_into().map_err(|_| Refusal::NeverTaken)?;
    require(address == COUNTER, Refusal::NeverTaken)?;
    check_value(counter(tag), written)?;
    store(&mut tag[COUNTER..COUNTER + 8], &written);
    tag[FLAG] = 0;
    Ok(())
}

/// Edits part of a unit, if the unit that results is allowed. The unit of a listed segment stays as it is, since the
/// other hosts' keys depend on it.
fn edit(tag: &mut [u8], session: &Session, number: usize, offset: usize, data: &[u8]) -> Answer {
    let address = unit_address(number);
    let mut result: [u8; UNIT] = bytes_at(tag, address);
    store(&mut result[offset..offset + data.len()], data);
    Unit::of(tag, number)?.allow_edit(session, &result)?;
    require(!is_listed(tag, number), Refusal::BadEdit)?;
    store(&mut tag[address..address + UNIT], &result);
    Ok(())
}

#[inline]
fn write_segment(tag: &mut [u8], session: &Session, number: usize, address: usize, data: &[u8]) -> Answer {
    let unit = Unit::of(tag, number)?;
    unit.allow_write(session)?;
    let model = unit.model;
    let target = &mut tag[address..address + data.len()];
    match model {
        Model::Default | Model::Staged(Stage::Store) | Model::SharedKey(KeyStage::Store) => store(target, data),
        Model::WriteOnce => {
            store(target, data);
            make_read_only(tag, number);
        }
        Model::Counter => write_slot(target, address, data)?,
        Model::Staged(Stage::Xor) => xor_into(target, data),
        // WR is clear at these stages, so the write was refused above.
        Model::Staged(Stage::Read) | Model::SharedKey(KeyStage::Read) => return Err(Refusal::NoRight),
    }
    Ok(())
}

/// A slot takes the value after its own. Slots stand at multiples of 8, and so do segments. The shape is looked at
/// first: "A bad shape stays 12 (at the header 4), also when the bytes equal what is stored."
#[inline]
fn write_slot(target: &mut [u8], address: usize, data: &[u8]) -> Answer {
    let slot: &mut [u8; SLOT] = target.try_into().map_err(|_| Refusal::NotNextValue)?;
    let written: [u8; SLOT] = data.try_into().map_err(|_| Refusal::NotNextValue)?;
    require(address.is_multiple_of(SLOT), Refusal::NotNextValue)?;
    check_value(u64::from_be_bytes(*slot), written)?;
    *slot = written;
    Ok(())
}

/// "When a well-shaped slot or roll-back write holds the very value now stored, give new refusal 18; 12 remains for
/// the rest." Compared as whole numbers: nothing comes after the largest value.
#[inline]
fn check_value(stored: u64, written: [u8; 8]) -> Answer {
    let written = u64::from_be_bytes(written);
    require(written != stored, Refusal::Repeated)?;
    require(stored.checked_add(1) == Some(written), Refusal::NotNextValue)
}

/// Clears WR and sets RD, the move that models 1, 3 and 4 make themselves, whatever nE says.
fn make_read_only(tag: &mut [u8], number: usize) {
    let control = &mut tag[unit_address(number)];
    *control = *control & !WR | RD;
}

fn store(target: &mut [u8], data: &[u8]) {
    target.copy_from_slice(data);
}

fn xor_into(target: &mut [u8], data: &[u8]) {
    for (byte, with) in target.iter_mut().zip(data) {
        *byte ^= with;
    }
}
