//! Edits of a unit, with good and bad results.

use crate::commands::Command;
use crate::map::{UNIT, UNITS};
use crate::random::Random;
use crate::units::{self, Kind, Unit, M, NAME, NE, PN, RD, RDPIN, RFU, WR, WRPIN};

/// What the unit is to become; whether that is allowed is for the two sides to say.
fn changed(random: &mut Random, unit: &Unit) -> Unit {
    let mut new = *unit;
    match random.below(22) {
        0 => {}
        1..4 => new[0] ^= random.pick(&[RDPIN, WRPIN, PN]),
        4 => new[0] ^= random.pick(&[NE, RFU]),
        5 => new[0] ^= M,
        6 => new[0] ^= random.pick(&[RD, WR, RD | WR]),
        7 => new[1] = some_model(random),
        8 => new[random.pick(&[2, 3, 10, 11, 12, 13, 14, 15])] = random.byte(),
        9..12 => change_index(random, &mut new),
        12 => new[NAME..].copy_from_slice(&units::some_name(random)),
        13..17 => new = units::well_formed(random),
        17 | 18 => new = keeping_model(random, unit),
        19 => new = some_ill_formed(random),
        20 => enter(
            random,
            &mut new,
            &[Kind::Stage0, Kind::Stage0, Kind::Stage1, Kind::Stage2],
        ),
        _ => enter(random, &mut new, &[Kind::Stream, Kind::Stream, Kind::Shared]),
    }
    new
}

fn some_model(random: &mut Random) -> u8 {
    let any = random.byte();
    random.pick(&[
        0x00, 0x01, 0x02, 0x03, 0x04, 0x14, 0x24, 0x10, 0x13, 0x23, 0x33, 0x83, any,
    ])
}

fn change_index(random: &mut Random, unit: &mut Unit) {
    let at = random.pick(&[units::READ_INDEX, units::WRITE_INDEX, units::EDIT_INDEX]);
    let low = units::some_index(random);
    let index = random.pick(&[low, low, low, low, 256, 0xFFFF]);
    unit[at..at + 2].copy_from_slice(&index.to_be_bytes());
}

/// Another unit with M, RD, WR and byte 1 as they are.
fn keeping_model(random: &mut Random, unit: &Unit) -> Unit {
    let kept = M | RD | WR;
    let mut new = units::well_formed(random);
    new[0] = (new[0] & !kept) | (unit[0] & kept);
    new[1] = unit[1];
    new
}

fn some_ill_formed(random: &mut Random) -> Unit {
    let way = random.below(units::WAYS.len());
    units::ill_formed(random, way)
}

/// The bits and byte 1 of model 3 or 4 at some stage; only stage 0 may be entered.
fn enter(random: &mut Random, unit: &mut Unit, stages: &[Kind]) {
    let stage = random.pick(stages);
    let new = units::of_kind(random, stage);
    unit[..2].copy_from_slice(&new[..2]);
}

/// The bytes that change, or more of the unit, or all of it.
fn span(random: &mut Random, old: &Unit, new: &Unit) -> (usize, usize) {
    let first = (0..UNIT).find(|&i| old[i] != new[i]);
    let last = (0..UNIT).rfind(|&i| old[i] != new[i]);
    let (Some(first), Some(last)) = (first, last) else {
        let start = random.below(UNIT);
        return (start, start + 1 + random.below(UNIT - start));
    };
    match random.below(4) {
        0 => (0, UNIT),
        1 => (random.below(first + 1), last + 1 + random.below(UNIT - last)),
        // Only a part of the change.
        2 => (first, first + 1),
        _ => (first, last + 1),
    }
}

pub fn some_edit(random: &mut Random, k: usize, old: &Unit) -> Command {
    let new = changed(random, old);
    let (start, end) = if random.percent(4) {
        (0, 0)
    } else {
        span(random, old, &new)
    };
    Command::Write {
        address: UNITS + UNIT * k + start,
        data: new[start..end].to_vec(),
    }
}
