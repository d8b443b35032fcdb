//! Where a command is counted beside its place: in a row of one of the lists of `host_table` and `value_table`.

use crate::commands::Command;
use crate::host_table::{self, INSERTIONS, LISTED_EDITS, RESULTS, SLOT_READS};
use crate::table::Row;
use crate::value_table::{self, COUNTER_WRITES, SLOT_WRITES};

#[derive(Clone, Copy, Debug, PartialEq, Eq)]
pub enum List {
    Insertions,
    SlotReads,
    ListedEdits,
    Results,
    SlotWrites,
    CounterWrites,
}

/// A list and the number of a row in it.
pub type Seat = (List, usize);

/// A heading, the rows, and the answers that are counted in them. Others come before these, and the places' table has
/// those.
type Rows = (&'static str, &'static [Row], &'static [u8]);

/// What stands in each list, in the order of `List`.
pub const LISTS: [Rows; 6] = [
    ("insert: what is against it", &INSERTIONS, &host_table::COUNTED),
    ("read at model 4, stage 1", &SLOT_READS, &host_table::COUNTED),
    ("edit of a listed unit", &LISTED_EDITS, &host_table::COUNTED),
    ("edit of another, by result", &RESULTS, &host_table::COUNTED),
    ("write at model 2, by value", &SLOT_WRITES, &value_table::COUNTED),
    ("write at header, by value", &COUNTER_WRITES, &value_table::COUNTED),
];

/// Where a command on this tag is counted, if a list has it.
pub fn seat_of(tag: &[u8], command: &Command) -> Option<Seat> {
    host_table::seat_of(tag, command).or_else(|| value_table::seat_of(tag, command))
}

#[cfg(test)]
mod tests {
    use super::*;

    #[test]
    fn only_counted_answers_are_asked_for() {
        for (_, rows, counted) in LISTS {
            assert!(rows.iter().flat_map(|row| row.1).all(|answer| counted.contains(answer)));
        }
    }

    #[test]
    fn lists_stand_in_their_order() {
        assert_eq!(LISTS[List::Insertions as usize].1, INSERTIONS);
        assert_eq!(LISTS[List::SlotReads as usize].1, SLOT_READS);
        assert_eq!(LISTS[List::ListedEdits as usize].1, LISTED_EDITS);
        assert_eq!(LISTS[List::Results as usize].1, RESULTS);
        assert_eq!(LISTS[List::SlotWrites as usize].1, SLOT_WRITES);
        assert_eq!(LISTS[List::CounterWrites as usize].1, COUNTER_WRITES);
    }
}
