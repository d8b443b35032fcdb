//! Units as the generator knows them: well-formed ones, and ones ill formed in each way.

use crate::random::Random;

pub const RD: u8 = 0x80;
pub const RDPIN: u8 = 0x40;
pub const WR: u8 = 0x20;
pub const WRPIN: u8 = 0x10;
pub const PN: u8 = 0x08;
pub const NE: u8 = 0x04;
pub const RFU: u8 = 0x02;
pub const M: u8 = 0x01;

/// Where the indexes and the name stand in a unit.
pub const READ_INDEX: usize = 4;
pub const WRITE_INDEX: usize = 6;
pub const EDIT_INDEX: usize = 8;
pub const NAME: usize = 16;

pub type Unit = [u8; 32];

/// What governs a segment. `Clear`: M is clear, so that the default model holds. The stages are model 3's; model 4
/// takes a host's `Stream` at stage 0 and holds `Shared` keys at stage 1.
#[derive(Clone, Copy, Debug, PartialEq, Eq)]
pub enum Kind {
    Clear,
    Model0,
    Model1,
    Model2,
    Stage0,
    Stage1,
    Stage2,
    Stream,
    Shared,
    IllFormed,
}

pub const KINDS: [(Kind, &str); 10] = [
    (Kind::Clear, "default, M clear"),
    (Kind::Model0, "default, model 0"),
    (Kind::Model1, "model 1"),
    (Kind::Model2, "model 2"),
    (Kind::Stage0, "model 3, stage 0"),
    (Kind::Stage1, "model 3, stage 1"),
    (Kind::Stage2, "model 3, stage 2"),
    (Kind::Stream, "model 4, stage 0"),
    (Kind::Shared, "model 4, stage 1"),
    (Kind::IllFormed, "ill-formed unit"),
];

pub fn index(unit: &Unit, at: usize) -> u16 {
    u16::from_be_bytes([unit[at], unit[at + 1]])
}

fn set_index(unit: &mut Unit, at: usize, index: u16) {
    unit[at..at + 2].copy_from_slice(&index.to_be_bytes());
}

pub fn kind(unit: &Unit) -> Kind {
    let zeros = [2, 3, 10, 11, 12, 13, 14, 15].iter().all(|&at| unit[at] == 0);
    let indexes = [4, 6, 8].iter().all(|&at| unit[at] == 0);
    if unit[0] & RFU != 0 || !zeros || !indexes {
        return Kind::IllFormed;
    }
    match (unit[0] & M, unit[1], unit[0] & (RD | WR)) {
        (0, ..) => Kind::Clear,
        (_, 0x00, _) => Kind::Model0,
        (_, 0x01, RD | WR) => Kind::Model1,
        (_, 0x02, 0xA0) => Kind::Model2,
        (_, 0x03, WR) => Kind::Stage0,
        (_, 0x13, WR) => Kind::Stage1,
        (_, 0x23, RD) => Kind::Stage2,
        (_, 0x04, WR) => Kind::Stream,
        (_, 0x14, RD) => Kind::Shared,
        _ => Kind::IllFormed,
    }
}

/// The PIN indexes that units of one image share, so that a validated one is often of use again.
pub fn some_index(random: &mut Random) -> u16 {
    let any = random.below(256) as u16;
    random.pick(&[0, 0, 0, 1, 2, 3, 7, 254, 255, any])
}

/// A name out of few, so that two units often share one.
pub fn some_name(random: &mut Random) -> [u8; 16] {
    let mut name = [0; 16];
    match random.below(5) {
        0 => {}
        1 => name = *b"sixteen letters.",
        2 => name[15] = random.byte(),
        _ => random.fill(&mut name),
    }
    name
}

/// Byte 0 and byte 1 for a kind, with RD and WR as it wants them.
fn model_bytes(random: &mut Random, kind: Kind) -> (u8, u8) {
    let any = random.byte();
    let bits = random.pick(&[0, RD, WR, RD | WR, RD | WR]);
    match kind {
        Kind::Clear => (bits, random.pick(&[0, 0x03, 0x13, 0x02, 0x01, 0x04, 0x14, any])),
        Kind::Model0 => (bits | M, 0),
        Kind::Model1 => (random.pick(&[RD, WR, WR]) | M, 1),
        Kind::Model2 => (RD | WR | M, 2),
        Kind::Stage0 => (WR | M, 0x03),
        Kind::Stage1 => (WR | M, 0x13),
        Kind::Stage2 => (RD | M, 0x23),
        Kind::Stream => (WR | M, 0x04),
        Kind::Shared => (RD | M, 0x14),
        Kind::IllFormed => (M, 0x0F),
    }
}

/// The bits of byte 0 that every model leaves free.
fn free_bits(random: &mut Random) -> u8 {
    let mut bits = 0;
    for (bit, chance) in [(RDPIN, 35), (WRPIN, 35), (PN, 25), (NE, 15)] {
        if random.percent(chance) {
            bits |= bit;
        }
    }
    bits
}

pub fn of_kind(random: &mut Random, kind: Kind) -> Unit {
    let (bits, model) = model_bytes(random, kind);
    let mut unit = [0; 32];
    unit[0] = bits | free_bits(random);
    unit[1] = model;
    for at in [READ_INDEX, WRITE_INDEX, EDIT_INDEX] {
        set_index(&mut unit, at, some_index(random));
    }
    unit[NAME..].copy_from_slice(&some_name(random));
    unit
}

pub fn well_formed(random: &mut Random) -> Unit {
    let kind = KINDS[random.below(9)].0;
    of_kind(random, kind)
}

/// Each way of being ill formed that document 01 and request L4 name.
pub const WAYS: [&str; 35] = [
    "RFU set",
    "byte 2 not 0",
    "byte 3 not 0",
    "byte 10 not 0",
    "byte 11 not 0",
    "byte 12 not 0",
    "byte 13 not 0",
    "byte 14 not 0",
    "byte 15 not 0",
    "read index over 255",
    "write index over 255",
    "edit index over 255",
    "RFU set, M clear",
    "a zero byte not 0, M clear",
    "an index over 255, M clear",
    "model 5 to 15",
    "model 0, stage not 0",
    "model 1, stage not 0",
    "model 1, RD and WR clear",
    "model 1, RD and WR set",
    "model 2, stage not 0",
    "model 2, RD alone",
    "model 2, WR alone",
    "model 2, RD and WR clear",
    "model 3, stage 3 to 15",
    "model 3, stage 0, RD alone",
    "model 3, stage 0 or 1, RD and WR alike",
    "model 3, stage 1, RD alone",
    "model 3, stage 2, WR alone",
    "model 3, stage 2, RD and WR alike",
    "model 4, stage 2 to 15",
    "model 4, stage 0, RD alone",
    "model 4, stage 0, RD and WR alike",
    "model 4, stage 1, WR alone",
    "model 4, stage 1, RD and WR alike",
];

/// A unit that is ill formed in this way (its place in `WAYS`) and in no other.
pub fn ill_formed(random: &mut Random, way: usize) -> Unit {
    let base = random.below(KINDS.len() - 2) + 1;
    ill_formed_of(random, KINDS[base].0, way)
}

/// The same, otherwise of this kind where the way leaves the kind open.
pub fn ill_formed_of(random: &mut Random, base: Kind, way: usize) -> Unit {
    let mut unit = of_kind(random, if (12..15).contains(&way) { Kind::Clear } else { base });
    match way {
        0 | 12 => unit[0] |= RFU,
        1 | 2 => unit[1 + way] = random.not_zero(),
        3..=8 => unit[7 + way] = random.not_zero(),
        9..=11 => unit[2 * way - 14] = random.not_zero(),
        13 => unit[random.pick(&[2, 3, 10, 15])] = random.not_zero(),
        14 => unit[random.pick(&[4, 6, 8])] = random.not_zero(),
        _ => spoil_model(random, &mut unit, way),
    }
    unit
}

fn spoil_model(random: &mut Random, unit: &mut Unit, way: usize) {
    let free = unit[0] & (RDPIN | WRPIN | PN | NE);
    let stage = 16 * (1 + random.below(15) as u8);
    let alike = random.pick(&[0, RD | WR]);
    let (bits, model) = match way {
        15 => (RD | WR, 5 + random.below(11) as u8),
        16 => (RD | WR, stage),
        17 => (random.pick(&[RD, WR]), stage | 1),
        18 => (0, 1),
        19 => (RD | WR, 1),
        20 => (RD | WR, stage | 2),
        21 => (RD, 2),
        22 => (WR, 2),
        23 => (0, 2),
        24 => (random.pick(&[RD, WR]), (16 * (3 + random.below(13) as u8)) | 3),
        25 => (RD, 0x03),
        26 => (alike, random.pick(&[0x03, 0x13])),
        27 => (RD, 0x13),
        28 => (WR, 0x23),
        29 => (alike, 0x23),
        30 => (random.pick(&[RD, WR]), (16 * (2 + random.below(14) as u8)) | 4),
        31 => (RD, 0x04),
        32 => (alike, 0x04),
        33 => (WR, 0x14),
        _ => (alike, 0x14),
    };
    unit[0] = bits | free | M;
    unit[1] = model;
}

#[cfg(test)]
mod tests {
    use super::*;

    #[test]
    fn units_are_of_the_kind_asked_for() {
        let mut random = Random::new(1);
        for _ in 0..200 {
            for (wanted, name) in KINDS {
                assert_eq!(kind(&of_kind(&mut random, wanted)), wanted, "{name}");
            }
            for (way, name) in WAYS.iter().enumerate() {
                assert_eq!(kind(&ill_formed(&mut random, way)), Kind::IllFormed, "{name}");
            }
        }
    }
}
