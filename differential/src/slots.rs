//! Commands at segments of model 4: insertions of hosts, and reads of the slots that they share.

use crate::aim::View;
use crate::cipher::Block;
use crate::commands::Command;
use crate::hosts::{self, Row, ROWS, SLOT};
use crate::lists;
use crate::map::{SEGMENT, SEGMENTS};
use crate::random::Random;
use crate::sessions;
use crate::spans;

/// An id that is mostly new; else zeros, one of the list or from behind it, or nearly one of the list.
fn some_id(random: &mut Random, view: View, list: &[Row]) -> Block {
    let listed = (!list.is_empty()).then(|| random.pick(list).id);
    match (random.below(20), listed) {
        (0 | 1, _) => [0; 16],
        (2..4, Some(id)) => id,
        (4..6, Some(mut id)) => {
            random.spoil(&mut id);
            id
        }
        (6, _) => hosts::row(view.tag, (list.len() + random.below(3)).min(ROWS)).id,
        (7, _) => view.session[sessions::ID..sessions::PA].try_into().expect("16 bytes"),
        _ => lists::some_id(random),
    }
}

pub fn some_insertion(random: &mut Random, view: View, segment: usize) -> Command {
    let id = some_id(random, view, &hosts::list(view.tag));
    Command::Insert { segment, id }
}

/// A slot where something changes: the own one, the list's last and the next, the last, what is behind it, or any.
fn some_slot(random: &mut Random, list: &[Row], k: usize) -> usize {
    let end = list.len();
    let own = list.iter().position(|row| row.names(k)).unwrap_or(0);
    let open = random.below(end.max(1));
    let any = random.below(ROWS);
    random.pick(&[
        own,
        end.saturating_sub(1),
        end.min(ROWS),
        ROWS - 1,
        ROWS,
        open,
        open,
        open,
        any,
    ])
}

/// Reads in one slot, from one into the next, or of several slots.
pub fn some_read(random: &mut Random, view: View, k: usize) -> Command {
    let slot = some_slot(random, &hosts::list(view.tag), k);
    let start = SLOT * slot;
    let (offset, count) = match random.below(10) {
        0 | 1 => (start, SLOT),
        2 => (start + 16 * random.below(3), 16),
        3 => (start + random.pick(&[0, 8, SLOT - 1]), 1),
        4 => (start, SLOT + 1),
        5 => (start.saturating_sub(1), random.pick(&[1, 2, 8, 16])),
        6 => (start.saturating_sub(8), random.pick(&[8, 9, 16])),
        7 => (start + SLOT - 1, random.pick(&[2, 8, 32, SLOT + 1])),
        8 => (start, SLOT * (1 + random.below(ROWS))),
        _ => (start + random.below(SLOT), spans::some_count(random)),
    };
    // Within the segment: what leaves it is tried elsewhere.
    let offset = offset.min(SEGMENT - 1);
    spans::read(random, SEGMENTS + SEGMENT * k + offset, count.min(SEGMENT - offset))
}
