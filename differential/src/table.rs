//! The answers that document 01 and requests L1 and L4 let each place give, and the place that a command is at.

use crate::commands::{Command, LogKind, LOG_COUNTS};
use crate::logs::{Unreadable, ROOMS};
use crate::map::{self, Map, Place};
use crate::units;

pub const PLACES: usize = 35;
pub const LOG_KINDS: usize = 16;

/// A place and the answers it can give; 0 is granted.
pub type Row = (&'static str, &'static [u8]);

/// A tag that is not sound gives 1 before its map is looked at, and a sound one never does.
/// 2 can be had at each place: a count of 0 (the place is then that of the address), or too short an output.
pub const READS: [Row; PLACES] = [
    ("tag not sound", &[1]),
    ("header", &[0, 2]),
    ("hidden", &[2, 4]),
    ("register READ", &[2, 4]),
    ("register WRITE", &[2, 4]),
    ("register EDIT", &[2, 4]),
    ("register NAME", &[2, 4]),
    ("register ID", &[2, 4]),
    ("register COMMIT", &[2, 4]),
    ("register PA", &[2, 4]),
    ("PINs", &[2, 4]),
    ("reader IDs", &[0, 2]),
    ("unit: default, M clear", &[0, 2, 6]),
    ("unit: default, model 0", &[0, 2, 6]),
    ("unit: model 1", &[0, 2, 6]),
    ("unit: model 2", &[0, 2, 6]),
    ("unit: model 3, stage 0", &[0, 2, 6]),
    ("unit: model 3, stage 1", &[0, 2, 6]),
    ("unit: model 3, stage 2", &[0, 2, 6]),
    ("unit: model 4, stage 0", &[0, 2, 6]),
    ("unit: model 4, stage 1", &[0, 2, 6]),
    ("unit: ill formed", &[2, 5]),
    ("spare", &[2, 4]),
    ("segment: default, M clear", &[0, 2, 6, 7, 8]),
    ("segment: default, model 0", &[0, 2, 6, 7, 8]),
    ("segment: model 1", &[0, 2, 6, 7, 8]),
    // Well formed only with RD set, so never 6.
    ("segment: model 2", &[0, 2, 7, 8]),
    // Well formed only with RD clear, so 6 before 7 and 8.
    ("segment: model 3, stage 0", &[2, 6]),
    ("segment: model 3, stage 1", &[2, 6]),
    ("segment: model 3, stage 2", &[0, 2, 7, 8]),
    ("segment: model 4, stage 0", &[2, 6]),
    // RD is set, and 6 is a slot that may not be read.
    ("segment: model 4, stage 1", &[0, 2, 6, 7, 8]),
    ("segment: ill-formed unit", &[2, 5]),
    ("public segment", &[0, 2]),
    ("outside one place", &[2, 3]),
];

pub const WRITES: [Row; PLACES] = [
    ("tag not sound", &[1]),
    ("header", &[0, 2, 4, 12, 18]),
    ("hidden", &[2, 4]),
    ("register READ", &[0, 2, 9, 10, 11]),
    ("register WRITE", &[0, 2, 9, 10, 11]),
    ("register EDIT", &[0, 2, 9, 10, 11]),
    // A name is not compared with anything when it is written.
    ("register NAME", &[0, 2, 9, 10]),
    // ID and PA take no part in the flag; 9 is a length other than 16.
    ("register ID", &[0, 2, 9]),
    ("register COMMIT", &[0, 2, 9, 10, 11]),
    ("register PA", &[0, 2, 9]),
    ("PINs", &[2, 4]),
    ("reader IDs", &[2, 4]),
    // No 8: an edit does not ask for the name.
    ("unit: default, M clear", &[0, 2, 6, 7, 13]),
    ("unit: default, model 0", &[0, 2, 6, 7, 13]),
    ("unit: model 1", &[0, 2, 6, 7, 13]),
    ("unit: model 2", &[0, 2, 6, 7, 13]),
    ("unit: model 3, stage 0", &[0, 2, 6, 7, 13]),
    ("unit: model 3, stage 1", &[0, 2, 6, 7, 13]),
    ("unit: model 3, stage 2", &[0, 2, 6, 7, 13]),
    ("unit: model 4, stage 0", &[0, 2, 6, 7, 13]),
    ("unit: model 4, stage 1", &[0, 2, 6, 7, 13]),
    ("unit: ill formed", &[2, 5]),
    ("spare", &[2, 4]),
    ("segment: default, M clear", &[0, 2, 6, 7, 8]),
    ("segment: default, model 0", &[0, 2, 6, 7, 8]),
    ("segment: model 1", &[0, 2, 6, 7, 8]),
    // Well formed only with WR set, so never 6; the slot's rules are 12 and 18.
    ("segment: model 2", &[0, 2, 7, 8, 12, 18]),
    ("segment: model 3, stage 0", &[0, 2, 7, 8]),
    ("segment: model 3, stage 1", &[0, 2, 7, 8]),
    // Well formed only with WR clear, so 6 before 7 and 8.
    ("segment: model 3, stage 2", &[2, 6]),
    ("segment: model 4, stage 0", &[0, 2, 7, 8]),
    ("segment: model 4, stage 1", &[2, 6]),
    ("segment: ill-formed unit", &[2, 5]),
    ("public segment", &[0, 2]),
    ("outside one place", &[2, 3]),
];

/// An advance has no count and no address, so never 2 and 4; it does not look at WR and nE, so never 6.
pub const ADVANCES: [Row; PLACES] = {
    let mut rows: [Row; PLACES] = [("", &[]); PLACES];
    rows[0] = ("tag not sound", &[1]);
    rows[SEGMENT_ROW] = ("segment: default, M clear", &[7, 8, 14]);
    rows[SEGMENT_ROW + 1] = ("segment: default, model 0", &[7, 8, 14]);
    rows[SEGMENT_ROW + 2] = ("segment: model 1", &[7, 8, 14]);
    rows[SEGMENT_ROW + 3] = ("segment: model 2", &[7, 8, 14]);
    rows[SEGMENT_ROW + 4] = ("segment: model 3, stage 0", &[0, 7, 8]);
    rows[SEGMENT_ROW + 5] = ("segment: model 3, stage 1", &[0, 7, 8]);
    rows[SEGMENT_ROW + 6] = ("segment: model 3, stage 2", &[7, 8, 14]);
    rows[SEGMENT_ROW + 7] = ("segment: model 4, stage 0", &[7, 8, 14]);
    rows[SEGMENT_ROW + 8] = ("segment: model 4, stage 1", &[7, 8, 14]);
    rows[SEGMENT_ROW + 9] = ("segment: ill-formed unit", &[5]);
    rows[PUBLIC_ROW] = ("public segment", &[3]);
    rows[OUTSIDE_ROW] = ("no such segment", &[3]);
    rows
};

/// An insertion is asked what an advance is, and 14 everywhere but at model 4, stage 0; there 19 may follow.
pub const INSERTS: [Row; PLACES] = {
    let mut rows = ADVANCES;
    rows[SEGMENT_ROW + 4].1 = &[7, 8, 14];
    rows[SEGMENT_ROW + 5].1 = &[7, 8, 14];
    rows[SEGMENT_ROW + 7].1 = &[0, 7, 8, 19];
    rows
};

const REGISTER_ROW: usize = 3;
const UNIT_ROW: usize = 12;
const SPARE_ROW: usize = 22;
const SEGMENT_ROW: usize = 23;
const PUBLIC_ROW: usize = 33;
const OUTSIDE_ROW: usize = 34;

/// A read in a log always has a good count and room, so never 2. Only 16 bytes can be right at a register, so only a
/// write of 16 gives 10 and 11; 32 bytes leave a register, so never 9. 18 is for the eight bytes of a slot or of the
/// counter. 14 is an advance's or an insertion's, 19 an insertion's alone.
pub const IN_LOGS: [Row; LOG_KINDS] = [
    ("00 power-up", &[0, 16]),
    ("11 read 1", &[0, 1, 3, 4, 5, 6, 7, 8, 16]),
    ("12 read 8", &[0, 1, 3, 4, 5, 6, 7, 8, 16]),
    ("13 read 16", &[0, 1, 3, 4, 5, 6, 7, 8, 16]),
    ("14 read 32", &[0, 1, 3, 4, 5, 6, 7, 8, 16]),
    ("21 write 1", &[0, 1, 3, 4, 5, 6, 7, 8, 9, 12, 13, 16]),
    ("22 write 8", &[0, 1, 3, 4, 5, 6, 7, 8, 9, 12, 13, 16, 18]),
    ("23 write 16", &[0, 1, 3, 4, 5, 6, 7, 8, 9, 10, 11, 12, 13, 16]),
    ("24 write 32", &[0, 1, 3, 4, 5, 6, 7, 8, 12, 13, 16]),
    ("31 advance", &[0, 1, 3, 5, 7, 8, 14, 16]),
    ("32 insert", &[0, 1, 3, 5, 7, 8, 14, 16, 19]),
    ("unknown kind", &[15, 16]),
    ("short body of a read", &[15, 16]),
    ("short body of a write", &[15, 16]),
    ("short body of an advance", &[15, 16]),
    ("short body of an insertion", &[15, 16]),
];

/// Every reply needs two bytes or more, so that with less a run ends only over an empty log.
pub const STOPS: [Row; ROOMS.len() + 1] = [
    (ROOMS[0], &[0, 16]),
    (ROOMS[1], &[0, 16]),
    (ROOMS[2], &[0, 15, 16]),
    (ROOMS[3], &[0, 15, 16]),
    (ROOMS[4], &[16]),
    (ROOMS[5], &[0, 15]),
    (ROOMS[6], &[0, 15]),
    ("gone on after a 16", &[0, 15]),
];

/// The row of a read or a write, by the generator's own map.
fn place_row(tag: &[u8], place: Option<Place>) -> usize {
    let kind = |k| units::kind(map::unit(tag, k)) as usize;
    match place {
        Some(Place::Header) => 1,
        Some(Place::Hidden) => 2,
        Some(Place::Register(register)) => REGISTER_ROW + register as usize,
        Some(Place::Pins) => 10,
        Some(Place::Readers) => 11,
        Some(Place::Unit(k)) => UNIT_ROW + kind(k),
        Some(Place::Spare) => SPARE_ROW,
        Some(Place::Segment(k)) => SEGMENT_ROW + kind(k),
        Some(Place::Public(_)) => PUBLIC_ROW,
        None => OUTSIDE_ROW,
    }
}

/// The place that a command is at before it is carried out; an advance and an insertion are at their segment.
pub fn place_of(map: Map, command: &Command) -> Option<Place> {
    match command {
        Command::PowerUp => None,
        Command::Read { address, count, .. } => map.place(*address, *count),
        Command::Write { address, data } => map.place(*address, data.len()),
        Command::Advance { segment } | Command::Insert { segment, .. } => match segment.checked_sub(map.segments) {
            None => Some(Place::Segment(*segment)),
            Some(public) => (public < map.publics).then_some(Place::Public(public)),
        },
    }
}

/// The row of a command on a tag.
pub fn row_of(tag: &[u8], command: &Command) -> usize {
    Map::of(tag).map_or(0, |map| place_row(tag, place_of(map, command)))
}

pub fn log_row(kind: Result<LogKind, Unreadable>) -> usize {
    let by_count = |count| LOG_COUNTS.iter().position(|&c| c == count).unwrap_or(0);
    match kind {
        Ok(LogKind::PowerUp) => 0,
        Ok(LogKind::Read(count)) => 1 + by_count(count),
        Ok(LogKind::Write(count)) => 5 + by_count(count),
        Ok(LogKind::Advance) => 9,
        Ok(LogKind::Insert) => 10,
        Err(Unreadable::UnknownKind) => 11,
        Err(Unreadable::ShortBody(LogKind::PowerUp | LogKind::Read(_))) => 12,
        Err(Unreadable::ShortBody(LogKind::Write(_))) => 13,
        Err(Unreadable::ShortBody(LogKind::Advance)) => 14,
        Err(Unreadable::ShortBody(LogKind::Insert)) => 15,
    }
}

#[cfg(test)]
mod tests {
    use super::*;
    use crate::units::KINDS;
    use dringoleth::Refusal;

    fn answers(rows: &[Row]) -> Vec<u8> {
        let mut all: Vec<u8> = rows.iter().flat_map(|row| row.1).copied().collect();
        all.sort_unstable();
        all.dedup();
        all
    }

    fn numbers(refusals: &[Refusal]) -> Vec<u8> {
        let refused = refusals.iter().map(|refusal| refusal.number());
        [0].into_iter().chain(refused).collect()
    }

    #[test]
    fn each_refusal_is_in_the_set_where_the_wrapper_lists_it() {
        assert_eq!(answers(&READS), numbers(Refusal::OF_READ));
        assert_eq!(answers(&WRITES), numbers(Refusal::OF_WRITE));
        assert_eq!(answers(&ADVANCES), numbers(Refusal::OF_ADVANCE));
        assert_eq!(answers(&INSERTS), numbers(Refusal::OF_INSERT));
        let calls: Vec<Row> = [READS, WRITES, ADVANCES, INSERTS].concat();
        assert_eq!(answers(&calls), Vec::from_iter((0..=14).chain([18, 19])));
    }

    #[test]
    fn a_log_gives_what_calls_give_and_15_and_16() {
        let mut due = answers(&[READS, WRITES, ADVANCES, INSERTS].concat());
        due.retain(|&answer| answer != 2);
        due.extend([15, 16]);
        due.sort_unstable();
        assert_eq!(answers(&IN_LOGS), due);
    }

    #[test]
    fn rows_stand_in_the_order_of_the_kinds() {
        for (i, (kind, name)) in KINDS.iter().enumerate() {
            assert_eq!(*kind as usize, i);
            assert!(READS[SEGMENT_ROW + i].0.ends_with(name), "{name}");
        }
        for rows in [READS, WRITES] {
            assert!(rows.iter().all(|row| row.1.is_sorted() && !row.1.is_empty()));
        }
    }
}
