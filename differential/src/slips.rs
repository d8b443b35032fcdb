//! What a host gets wrong at the header and at the registers.

use crate::aim::View;
use crate::cipher::{self, Block};
use crate::commands::Command;
use crate::map::{Register, ALL_REGISTERS};
use crate::random::Random;
use crate::spans;
use crate::units;
use crate::values;

const FLAGGED: [Register; 5] = [
    Register::Read,
    Register::Write,
    Register::Edit,
    Register::Name,
    Register::Commit,
];

/// Near the right response, or what else one might take for it.
pub fn wrong_response(random: &mut Random, view: View, index: u16) -> Block {
    let pin = view.pin(index);
    let mut data = cipher::response(&pin, view.counter());
    match random.below(8) {
        0 => cipher::response(&pin, view.counter().wrapping_add(1)),
        1 => cipher::response(&pin, view.counter().wrapping_sub(1)),
        2 => cipher::response(&view.pin(index ^ 1), view.counter()),
        // The PIN itself, of which document 002 speaks.
        3 => pin,
        4 => [0; 16],
        _ => {
            random.spoil(&mut data);
            data
        }
    }
}

/// A register's 16 bytes: a response where PA names a PIN, and it is right now and then.
fn flagged(random: &mut Random, view: View) -> Command {
    let mut data = [0; 16];
    random.fill(&mut data);
    if view.pin_index() <= 255 && random.percent(60) {
        data = cipher::response(&view.pin(view.pin_index()), view.counter());
    }
    Command::write_register(random.pick(&FLAGGED), &data)
}

/// PA with indexes on both sides of each limit.
fn odd_pa(random: &mut Random) -> Command {
    let mut pa = random.bytes(16);
    let index = units::some_index(random);
    let index = random.pick(&[0, index, 255, 256, 263, 0xFF00, 0xFFFF]);
    let owner = random.pick(&[0, 1, 2, 3, 4, 256, 0xFFFF]);
    pa[..2].copy_from_slice(&index.to_be_bytes());
    pa[2..4].copy_from_slice(&u16::to_be_bytes(owner));
    Command::write_register(Register::Pa, &pa)
}

/// A register write of a wrong length or from within the register.
fn odd_length(random: &mut Random) -> Command {
    let register = random.pick(&ALL_REGISTERS);
    let offset = random.pick(&[0, 0, 1, 8, 15]);
    let count = random.pick(&[1, 2, 8, 15, 16 - offset, 17, 32]);
    spans::write(random, register.address() + offset, count)
}

pub fn some_slip(random: &mut Random, view: View) -> Command {
    match random.below(10) {
        0..4 => flagged(random, view),
        4..6 => odd_pa(random),
        6 => odd_length(random),
        7 => Command::write_register(Register::Id, &random.bytes(16)),
        _ => values::counter_write(random, view),
    }
}

/// While PA holds an index out of range, often a command that must look at it.
pub fn after_odd_pa(random: &mut Random, view: View) -> Option<Command> {
    let odd = view.pin_index() > 255 || view.owner_index() > 3 && random.percent(10);
    (odd && random.percent(40)).then(|| flagged(random, view))
}
