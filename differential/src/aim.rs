//! Chooses the next command from what the tag and the session hold, so that many are granted.

use crate::cipher::{self, Block};
use crate::commands::Command;
use crate::demand;
use crate::edits;
use crate::map::{self, Map, Place, Register, COUNTER, FLAG, PINS, SEGMENT, SEGMENTS};
use crate::random::Random;
use crate::sessions::{self, Session};
use crate::slips;
use crate::slots;
use crate::spans;
use crate::units::{self, Kind, Unit, PN, RDPIN, WRPIN};
use crate::values;

/// What a host is working towards. A commit keeps the PA and the bytes it was prepared with.
#[derive(Clone, Debug)]
enum Goal {
    Read(usize),
    Write(usize),
    Edit(usize),
    Advance(usize),
    Insert(usize),
    Commit { pa: Block, data: Block },
}

/// One host over one case.
pub struct Aim {
    map: Map,
    goal: Goal,
    /// Steps left before another goal is taken: a full counter can keep this one out of reach.
    patience: usize,
}

/// What is looked at when a command is chosen.
#[derive(Clone, Copy)]
pub struct View<'a> {
    pub tag: &'a [u8],
    pub session: &'a Session,
}

impl View<'_> {
    pub fn counter(&self) -> u64 {
        map::number(self.tag, COUNTER)
    }

    /// The PIN at an index of at most 255.
    pub fn pin(&self, index: u16) -> Block {
        self.block(PINS + 16 * usize::from(index))
    }

    pub fn block(&self, at: usize) -> Block {
        self.tag[at..at + 16].try_into().expect("16 bytes")
    }

    pub fn pin_index(&self) -> u16 {
        sessions::index(self.session, sessions::PA)
    }

    pub fn owner_index(&self) -> u16 {
        sessions::index(self.session, sessions::PA + 2)
    }

    fn flag_is_set(&self) -> bool {
        self.tag[FLAG] != 0
    }
}

impl Aim {
    pub fn new(map: Map) -> Aim {
        Aim {
            map,
            goal: Goal::Read(0),
            patience: 0,
        }
    }

    /// The next command on a sound tag; `last` is the one before.
    pub fn next(&mut self, random: &mut Random, view: View, last: Option<&Command>) -> Command {
        match (random.below(100), last) {
            (0..3, Some(last)) => last.clone(),
            (3, _) => Command::PowerUp,
            (4..20, _) => spans::some_span(random, self.map),
            (20..26, _) => slips::some_slip(random, view),
            (26..36, _) => open_place(random, self.map),
            (36..66, Some(last)) if demand::writes_slot(view.tag, last) => values::next_slot(random, view, last),
            _ => slips::after_odd_pa(random, view).unwrap_or_else(|| self.step(random, view)),
        }
    }

    fn step(&mut self, random: &mut Random, view: View) -> Command {
        if self.patience == 0 {
            self.goal = some_goal(random, view, self.map);
            self.patience = 8;
        }
        self.patience -= 1;
        let goal = self.goal.clone();
        // Now and then without what is asked for.
        if random.percent(85) {
            if let Some(command) = prepare(random, view, &goal) {
                return command;
            }
        }
        self.patience = 0;
        reach(random, view, goal)
    }
}

/// Places that grant without any preparation.
fn open_place(random: &mut Random, map: Map) -> Command {
    let place = match random.below(6) {
        0 => Place::Header,
        1 => Place::Readers,
        2 => Place::Unit(map::some_number(random, map.segments)),
        _ if map.publics > 0 => Place::Public(map::some_number(random, map.publics)),
        _ => Place::Segment(map::some_number(random, map.segments)),
    };
    let (address, count) = spans::part(random, map.bounds(place));
    match place {
        Place::Public(_) | Place::Segment(_) if random.percent(50) => spans::write(random, address, count),
        _ => spans::read(random, address, count),
    }
}

/// Mostly a segment of this kind, if there is one.
fn mostly_of(random: &mut Random, view: View, map: Map, kind: Kind) -> usize {
    let any = map::some_number(random, map.segments);
    let is_of_kind = |k: &usize| units::kind(map::unit(view.tag, *k)) == kind;
    let mut from_any = (any..map.segments).chain(0..any);
    if random.percent(80) {
        from_any.find(is_of_kind).unwrap_or(any)
    } else {
        any
    }
}

fn some_goal(random: &mut Random, view: View, map: Map) -> Goal {
    let segment = map::some_number(random, map.segments);
    match random.below(24) {
        0..6 => Goal::Read(segment),
        6..9 => Goal::Write(segment),
        9..12 => Goal::Write(mostly_of(random, view, map, Kind::Model2)),
        12..16 => Goal::Edit(segment),
        16..18 => Goal::Advance(segment),
        18..22 => Goal::Insert(mostly_of(random, view, map, Kind::Stream)),
        _ => some_commit(random, view),
    }
}

/// A commit with a guard that is mostly right; where it is not, often in one byte alone.
fn some_commit(random: &mut Random, view: View) -> Goal {
    let mut data = [0; 16];
    random.fill(&mut data);
    let owner = random.below(4);
    let index = units::some_index(random).max(1);
    let sealed = cipher::enciphered(&view.block(16 + 16 * owner), &data);
    let mut pa = [0; 16];
    pa[..2].copy_from_slice(&index.to_be_bytes());
    pa[3] = owner as u8;
    pa[4..].copy_from_slice(&sealed[4..]);
    if random.percent(30) {
        random.spoil(&mut pa[4..]);
    }
    Goal::Commit { pa, data }
}

/// The next command still wanted before the goal's own, if one is.
fn prepare(random: &mut Random, view: View, goal: &Goal) -> Option<Command> {
    let (k, register, at, pin_bit, name) = match *goal {
        Goal::Read(k) => (k, Register::Read, units::READ_INDEX, RDPIN, true),
        Goal::Write(k) | Goal::Advance(k) | Goal::Insert(k) => (k, Register::Write, units::WRITE_INDEX, WRPIN, true),
        Goal::Edit(k) => (k, Register::Edit, units::EDIT_INDEX, 0, false),
        Goal::Commit { pa, .. } => return prepare_commit(view, &pa),
    };
    let unit = map::unit(view.tag, k);
    let wanted = units::index(unit, at);
    let asked = pin_bit == 0 || unit[0] & pin_bit != 0;
    let held = sessions::index(view.session, 2 * register as usize);
    if asked && held != wanted && wanted <= 255 {
        return Some(validate(random, view, register, wanted));
    }
    if name && unit[0] & PN != 0 && view.session[sessions::NAME..sessions::ID] != unit[units::NAME..] {
        return Some(give_name(random, view, unit));
    }
    None
}

fn validate(random: &mut Random, view: View, register: Register, index: u16) -> Command {
    if view.pin_index() != index {
        return write_pa(random, index);
    }
    if view.flag_is_set() {
        return values::count_up(view, COUNTER);
    }
    let right = cipher::response(&view.pin(index), view.counter());
    let data = if random.percent(12) {
        slips::wrong_response(random, view, index)
    } else {
        right
    };
    Command::write_register(register, &data)
}

fn give_name(random: &mut Random, view: View, unit: &Unit) -> Command {
    if view.pin_index() > 255 {
        let index = units::some_index(random);
        return write_pa(random, index);
    }
    if view.flag_is_set() {
        return values::count_up(view, COUNTER);
    }
    let name: &Block = unit[units::NAME..].try_into().expect("16 bytes");
    let mask = cipher::response(&view.pin(view.pin_index()), view.counter());
    Command::write_register(Register::Name, &cipher::xor(name, &mask))
}

fn prepare_commit(view: View, pa: &Block) -> Option<Command> {
    if view.session[sessions::PA..] != *pa {
        Some(Command::write_register(Register::Pa, pa))
    } else if view.flag_is_set() {
        Some(values::count_up(view, COUNTER))
    } else {
        None
    }
}

fn write_pa(random: &mut Random, index: u16) -> Command {
    let mut pa = [0; 16];
    random.fill(&mut pa[2..]);
    pa[..2].copy_from_slice(&index.to_be_bytes());
    Command::write_register(Register::Pa, &pa)
}

fn reach(random: &mut Random, view: View, goal: Goal) -> Command {
    match goal {
        Goal::Read(k) => read_segment(random, view, k),
        Goal::Write(k) => write_segment(random, view, k),
        Goal::Edit(k) => edits::some_edit(random, k, map::unit(view.tag, k)),
        Goal::Advance(segment) => Command::Advance { segment },
        Goal::Insert(k) => slots::some_insertion(random, view, k),
        Goal::Commit { data, .. } => Command::write_register(Register::Commit, &data),
    }
}

fn segment(k: usize) -> std::ops::Range<usize> {
    SEGMENTS + SEGMENT * k..SEGMENTS + SEGMENT * (k + 1)
}

fn read_segment(random: &mut Random, view: View, k: usize) -> Command {
    if units::kind(map::unit(view.tag, k)) == Kind::Shared && random.percent(90) {
        return slots::some_read(random, view, k);
    }
    let (address, count) = spans::part(random, segment(k));
    spans::read(random, address, count)
}

fn write_segment(random: &mut Random, view: View, k: usize) -> Command {
    if units::kind(map::unit(view.tag, k)) == Kind::Model2 && random.percent(95) {
        return values::slot_write(random, view, segment(k).start);
    }
    let (address, count) = spans::part(random, segment(k));
    spans::write(random, address, count)
}
