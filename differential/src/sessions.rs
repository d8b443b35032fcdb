//! Sessions as 54 bytes, as both sides are given them: three indexes, name, ID, PA.

use crate::random::Random;
use crate::units::{self, Unit};

pub type Session = [u8; 54];
pub const POWER_UP: Session = [0; 54];

pub const READ: usize = 0;
pub const WRITE: usize = 2;
pub const EDIT: usize = 4;
pub const NAME: usize = 6;
pub const ID: usize = 22;
pub const PA: usize = 38;

/// The parts, for reports and for shrinking.
pub const PARTS: [(&str, usize, usize); 6] = [
    ("read index", READ, 2),
    ("write index", WRITE, 2),
    ("edit index", EDIT, 2),
    ("name", NAME, 16),
    ("ID", ID, 16),
    ("PA", PA, 16),
];

/// The index, or one of PA's two, that stands at `at`.
pub fn index(session: &Session, at: usize) -> u16 {
    u16::from_be_bytes([session[at], session[at + 1]])
}

fn set_index(session: &mut Session, at: usize, index: u16) {
    session[at..at + 2].copy_from_slice(&index.to_be_bytes());
}

/// Power-up, or indexes and a name that a unit asks for or does not, and PA prepared.
pub fn some_session(random: &mut Random, unit: &Unit) -> Session {
    let mut session = POWER_UP;
    if random.percent(40) {
        return session;
    }
    for (at, of) in [
        (READ, units::READ_INDEX),
        (WRITE, units::WRITE_INDEX),
        (EDIT, units::EDIT_INDEX),
    ] {
        let other = units::some_index(random);
        let far = random.pick(&[256, 263, 0xFF00, 0xFFFF]);
        let wanted = units::index(unit, of);
        set_index(&mut session, at, random.pick(&[wanted, wanted, 0, other, far]));
    }
    if random.percent(50) {
        session[NAME..ID].copy_from_slice(&unit[units::NAME..]);
    }
    if random.percent(50) {
        random.fill(&mut session[ID..]);
        set_index(&mut session, PA, random.pick(&[0, 1, 7, 255, 256, 0xFFFF]));
        set_index(&mut session, PA + 2, random.pick(&[0, 1, 3, 4, 256, 0xFFFF]));
    }
    session
}
