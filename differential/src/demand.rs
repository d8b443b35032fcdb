//! What demand 3 speaks of: slots that count, writes whose copies are refused, and neighbours that may change places.

use crate::commands::{plural, Command};
use crate::map::{self, Map, Place};
use crate::outcome::Outcome;
use crate::table::place_of;
use crate::units::{self, Kind, NE};
use std::collections::BTreeMap;

const SLOT: usize = 8;

/// A read or a write wholly inside one segment, as that is just before it.
#[derive(Clone, Copy, Debug, PartialEq, Eq)]
pub struct Spot {
    place: Place,
    /// Whether the segment is a counter segment.
    counts: bool,
    /// The address, where it is a write of one whole slot.
    slot: Option<usize>,
}

fn slot_of(command: &Command) -> Option<usize> {
    match command {
        Command::Write { address, data } if data.len() == SLOT && address.is_multiple_of(SLOT) => Some(*address),
        _ => None,
    }
}

/// None where it is another command, or not inside one segment.
pub fn spot_of(tag: &[u8], command: &Command) -> Option<Spot> {
    let (Command::Read { .. } | Command::Write { .. }) = command else {
        return None;
    };
    let place = place_of(Map::of(tag)?, command)?;
    let counts = match place {
        Place::Segment(k) => units::kind(map::unit(tag, k)) == Kind::Model2,
        Place::Public(_) => false,
        _ => return None,
    };
    let slot = slot_of(command);
    Some(Spot { place, counts, slot })
}

/// Whether it writes one whole slot of a counter segment.
pub fn writes_slot(tag: &[u8], command: &Command) -> bool {
    spot_of(tag, command).is_some_and(|spot| spot.counts && spot.slot.is_some())
}

/// The sorts of neighbours that may change places: by how many of two segments are public, or two slots of one.
pub const SORTS: [&str; 4] = [
    "two access-controlled ones",
    "one of each sort",
    "two public segments",
    "slots of a counter segment",
];
const TWO_SLOTS: usize = 3;

/// In which of `SORTS` two neighbours are, the first of them judged just before the two; none if they must stay.
pub fn sort_of(first: Spot, second: Spot) -> Option<usize> {
    if first.place != second.place {
        let is_public = |spot: &&Spot| matches!(spot.place, Place::Public(_));
        return Some([first, second].iter().filter(is_public).count());
    }
    let slots = first.slot.is_some() && second.slot.is_some() && first.slot != second.slot;
    (first.counts && slots).then_some(TWO_SLOTS)
}

fn is_locked_counter(tag: &[u8], k: usize) -> bool {
    let unit = map::unit(tag, k);
    units::kind(unit) == Kind::Model2 && unit[0] & NE != 0
}

/// The slot that command `i` counts in: it was granted, and the segment was a counter segment with a locked unit at
/// the start.
pub fn counted_in(start: &[u8], list: &Outcome, i: usize) -> Option<usize> {
    let spot = list.spots[i].filter(|_| list.replies[i].answer == 0)?;
    match spot.place {
        Place::Segment(k) if is_locked_counter(start, k) => spot.slot,
        _ => None,
    }
}

/// Each slot of these segments holds what it held at the start and one for each write to it that was granted.
pub fn check_counts(start: &[u8], list: &Outcome) -> Result<(), String> {
    let Some(map) = Map::of(start) else {
        return Ok(());
    };
    let mut grants = BTreeMap::new();
    for slot in (0..list.replies.len()).filter_map(|i| counted_in(start, list, i)) {
        *grants.entry(slot).or_default() += 1;
    }
    let locked = (0..map.segments).filter(|&k| is_locked_counter(start, k));
    for at in locked.flat_map(|k| map.bounds(Place::Segment(k)).step_by(SLOT)) {
        let granted: usize = grants.get(&at).copied().unwrap_or(0);
        let (held, holds) = (map::number(start, at), map::number(&list.end.0, at));
        if u128::from(held) + granted as u128 != u128::from(holds) {
            let writes = plural(granted, "granted write");
            return Err(format!(
                "both sides: the slot at {at} ({at:X}) holds {holds} after {held} and {writes}"
            ));
        }
    }
    Ok(())
}

#[cfg(test)]
mod tests {
    use super::*;
    use crate::map::{SEGMENT, SEGMENTS, UNIT, UNITS};
    use crate::outcome::Reply;
    use crate::sessions::POWER_UP;

    /// Segment 0 counts and is locked, segment 1 counts; two public segments.
    fn tag() -> Vec<u8> {
        let mut tag = vec![0; SEGMENT * 8];
        tag[1] = 2;
        tag[3] = 2;
        tag[UNITS..][..2].copy_from_slice(&[0xA5, 0x02]);
        tag[UNITS + UNIT..][..2].copy_from_slice(&[0xA1, 0x02]);
        tag
    }

    fn write(address: usize, count: usize) -> Command {
        let data = vec![0; count];
        Command::Write { address, data }
    }

    fn read(address: usize) -> Command {
        let (count, room) = (SLOT, SLOT);
        Command::Read { address, count, room }
    }

    fn sort(first: Command, second: Command) -> Option<&'static str> {
        let [first, second] = [first, second].map(|command| spot_of(&tag(), &command));
        sort_of(first?, second?).map(|sort| SORTS[sort])
    }

    #[test]
    fn neighbours_that_may_change_places() {
        let [other, public] = [SEGMENTS + SEGMENT, SEGMENTS + 2 * SEGMENT];
        for (first, second, name) in [
            (read(SEGMENTS), write(other + 4, 8), SORTS[0]),
            (write(public, 1), write(SEGMENTS, 8), SORTS[1]),
            (write(public, 4096), read(public + SEGMENT), SORTS[2]),
            (write(SEGMENTS, 8), write(SEGMENTS + 8, 8), SORTS[3]),
            (write(other + 16, 8), write(other, 8), SORTS[3]),
        ] {
            assert_eq!(sort(first.clone(), second.clone()), Some(name));
            assert_eq!(sort(second, first), Some(name));
        }
    }

    #[test]
    fn neighbours_that_must_stay() {
        let public = SEGMENTS + 2 * SEGMENT;
        for other in [
            write(SEGMENTS, 8),
            write(SEGMENTS + 4, 8),
            write(SEGMENTS + 8, 16),
            write(SEGMENTS + SEGMENT - 4, 8),
            read(SEGMENTS + 8),
            read(0),
            Command::PowerUp,
            Command::Advance { segment: 1 },
        ] {
            assert_eq!(sort(write(SEGMENTS, 8), other), None);
        }
        assert_eq!(sort(write(public, 8), write(public + 8, 8)), None);
        assert_eq!(sort(read(SEGMENTS), read(SEGMENTS + 8)), None);
    }

    #[test]
    fn a_count_too_many_or_too_few_is_told() {
        let start = tag();
        let writes = [(SEGMENTS, 0), (SEGMENTS, 12), (SEGMENTS + SEGMENT, 0)];
        let reply = |answer| Reply {
            answer,
            bytes: Vec::new(),
        };
        let mut list = Outcome {
            replies: writes.map(|(_, answer)| reply(answer)).to_vec(),
            spots: writes.map(|(address, _)| spot_of(&start, &write(address, 8))).to_vec(),
            end: (start.clone(), POWER_UP),
        };
        for (holds, is_due) in [(0, false), (2, false), (1, true)] {
            list.end.0[SEGMENTS + 7] = holds;
            assert_eq!(check_counts(&start, &list).is_ok(), is_due);
        }
        list.end.0[SEGMENTS + 15] = 1;
        let wrong = check_counts(&start, &list).expect_err("a slot that was not written");
        assert_eq!(
            wrong,
            "both sides: the slot at 16392 (4008) holds 1 after 0 and 0 granted writes"
        );
    }
}
