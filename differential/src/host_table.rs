//! The answers that request L4 allows by what a command meets beside its place: the list of hosts, the slots that a
//! read touches, and what an edit makes of a unit.

use crate::commands::Command;
use crate::hosts::{self, Cause};
use crate::map::{self, Map, Place, UNIT};
use crate::seats::{List, Seat};
use crate::table::{place_of, Row};
use crate::units::{self, Kind};

/// The answers that are counted here.
pub const COUNTED: [u8; 4] = [0, 6, 13, 19];

/// Well-formed kinds of unit.
const FORMED: usize = 9;

/// Insertions into a segment of model 4 at stage 0, by what speaks against them. A listed segment's own row does not
/// name a stage 1 either: "alone" leaves that out.
pub const INSERTIONS: [Row; 17] = [
    ("nothing, no host yet", &[0]),
    ("nothing, 1 host", &[0]),
    ("nothing, 2 to 9 hosts", &[0]),
    ("nothing, 10 to 39 hosts", &[0]),
    ("nothing, 40 to 83 hosts", &[0]),
    ("nothing, 84 hosts", &[0]),
    ("zero id alone", &[19]),
    ("listed id alone", &[19]),
    ("listed segment alone", &[19]),
    ("full list alone", &[19]),
    ("repeated id alone", &[19]),
    ("repeated segment alone", &[19]),
    ("a row names 0, alone", &[19]),
    ("a row names over A, alone", &[19]),
    ("a row: other model, alone", &[19]),
    ("a row: ill formed, alone", &[19]),
    ("several of these", &[19]),
];
const FIRST_CAUSE: usize = 6;

/// Reads in a segment of model 4 at stage 1.
pub const SLOT_READS: [Row; 10] = [
    ("segment not listed", &[6]),
    ("in another's slot", &[0]),
    ("in several others' slots", &[0]),
    ("in the own slot", &[6]),
    ("in slots past the list", &[6]),
    ("in the last 16 bytes", &[6]),
    ("another's and the own", &[6]),
    ("another's and past the list", &[6]),
    ("another's and the last bytes", &[6]),
    ("other", &[6]),
];

/// Edits of units that a row of the list names: never granted.
pub const LISTED_EDITS: [Row; FORMED] = [
    ("default, M clear", &[6, 13]),
    ("default, model 0", &[6, 13]),
    ("model 1", &[6, 13]),
    ("model 2", &[6, 13]),
    ("model 3, stage 0", &[6, 13]),
    ("model 3, stage 1", &[6, 13]),
    ("model 3, stage 2", &[6, 13]),
    ("model 4, stage 0", &[6, 13]),
    ("model 4, stage 1", &[6, 13]),
];

/// Edits of other units by their result. Model 3 past stage 0 is granted where it was so before, model 4 never.
pub const RESULTS: [Row; FORMED + 1] = [
    ("default, M clear", &[0, 6, 13]),
    ("default, model 0", &[0, 6, 13]),
    ("model 1", &[0, 6, 13]),
    ("model 2", &[0, 6, 13]),
    ("model 3, stage 0", &[0, 6, 13]),
    ("model 3, stage 1", &[0, 6, 13]),
    ("model 3, stage 2", &[0, 6, 13]),
    ("model 4, stage 0", &[0, 6, 13]),
    ("model 4, stage 1", &[6, 13]),
    ("ill formed", &[6, 13]),
];

fn by_hosts(hosts: usize) -> usize {
    match hosts {
        0 | 1 => hosts,
        2..10 => 2,
        10..40 => 3,
        40..84 => 4,
        _ => 5,
    }
}

fn insertion_row(tag: &[u8], causes: &[Cause]) -> usize {
    match causes {
        [] => by_hosts(hosts::list(tag).len()),
        [cause] => FIRST_CAUSE + *cause as usize,
        _ => INSERTIONS.len() - 1,
    }
}

fn read_row(tag: &[u8], k: usize, address: usize, count: usize) -> usize {
    let list = hosts::list(tag);
    if !list.iter().any(|row| row.names(k)) {
        return 0;
    }
    let touched = hosts::touched(&list, k, address, count);
    match (touched.open, touched.own, touched.past_list, touched.last_bytes) {
        (1, false, false, false) => 1,
        (_, false, false, false) => 2,
        (0, true, false, false) => 3,
        (0, false, true, false) => 4,
        (0, false, false, true) => 5,
        (_, true, false, false) => 6,
        (_, false, true, false) => 7,
        (_, false, false, true) => 8,
        _ => 9,
    }
}

fn edit_seat(tag: &[u8], k: usize, offset: usize, data: &[u8]) -> Seat {
    let mut result = *map::unit(tag, k);
    if hosts::is_listed(tag, k) {
        return (List::ListedEdits, units::kind(&result) as usize);
    }
    result[offset..offset + data.len()].copy_from_slice(data);
    (List::Results, units::kind(&result) as usize)
}

/// Where a command on this tag is counted, if the command concerns the hosts or is an edit of a well-formed unit.
pub fn seat_of(tag: &[u8], command: &Command) -> Option<Seat> {
    let map = Map::of(tag)?;
    let place = place_of(map, command)?;
    let (Place::Unit(k) | Place::Segment(k)) = place else {
        return None;
    };
    match (command, place, units::kind(map::unit(tag, k))) {
        (Command::Insert { id, .. }, _, Kind::Stream) => {
            let causes = hosts::causes(tag, map, k, id);
            Some((List::Insertions, insertion_row(tag, &causes)))
        }
        (Command::Read { address, count, .. }, Place::Segment(_), Kind::Shared) if *count > 0 => {
            Some((List::SlotReads, read_row(tag, k, *address, *count)))
        }
        (_, _, Kind::IllFormed) => None,
        (Command::Write { address, data }, Place::Unit(_), _) => Some(edit_seat(tag, k, address % UNIT, data)),
        _ => None,
    }
}

#[cfg(test)]
mod tests {
    use super::*;
    use crate::units::KINDS;

    #[test]
    fn rows_stand_in_the_order_of_causes_and_kinds() {
        assert_eq!(INSERTIONS[FIRST_CAUSE + Cause::ZeroId as usize].0, "zero id alone");
        assert_eq!(
            INSERTIONS[FIRST_CAUSE + Cause::NamesIllFormed as usize].0,
            "a row: ill formed, alone"
        );
        for (i, (_, name)) in KINDS[..FORMED].iter().enumerate() {
            assert_eq!((LISTED_EDITS[i].0, RESULTS[i].0), (*name, *name));
        }
    }
}
