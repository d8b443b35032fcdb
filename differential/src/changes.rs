//! Changes that make a case smaller or plainer. Whether it still fails is for `shrink` to see.

use crate::cases::{Case, Log};
use crate::commands::Command;
use crate::hosts;
use crate::map::{Map, Place, SEGMENT, SEGMENTS, UNIT, UNITS};
use crate::table::place_of;
use std::ops::Range;

pub fn drop_commands(case: &mut Case, commands: Range<usize>) {
    case.commands.drain(commands.clone());
    if let Some(variation) = &mut case.variation {
        variation.follow(commands);
    }
}

/// Drops commands, and of a log as much room as their replies took.
pub fn drop_with_room(case: &mut Case, commands: Range<usize>, replies: usize) {
    drop_commands(case, commands);
    change_log(case, |log| log.room = log.room.saturating_sub(replies));
}

pub fn change_log(case: &mut Case, change: impl FnOnce(&mut Log)) {
    if let Some(log) = &mut case.log {
        change(log);
    }
}

/// The data or the id of command `i`; of one without, nothing.
pub fn data(case: &mut Case, i: usize) -> &mut [u8] {
    match &mut case.commands[i] {
        Command::Write { data, .. } => data,
        Command::Insert { id, .. } => id,
        _ => &mut [],
    }
}

pub fn shorten(command: &mut Command, to: usize) {
    match command {
        Command::Read { count, room, .. } if to < *count => (*count, *room) = (to, to),
        Command::Write { data, .. } => data.truncate(to),
        _ => {}
    }
}

/// An output of just the count.
pub fn fit_room(command: &mut Command) {
    if let Command::Read { count, room, .. } = command {
        *room = *count;
    }
}

/// The access-controlled segment that a command is at or whose unit it is at.
pub fn segment_of(map: Map, command: &Command) -> Option<usize> {
    match place_of(map, command)? {
        Place::Unit(k) | Place::Segment(k) => Some(k),
        _ => None,
    }
}

/// Lets the rows of the list that name one of two segments name the other.
fn exchange_in_list(image: &mut [u8], a: usize, b: usize) {
    for (i, mut row) in hosts::list(image).into_iter().enumerate() {
        if let Some(k) = [a, b].into_iter().find(|&k| row.names(k)) {
            row.field = (a + b - k + 1) as u16;
            hosts::put_row(image, i, row);
        }
    }
}

/// Lets two access-controlled segments change places, with their units, their rows and the commands at them.
pub fn exchange(case: &mut Case, map: Map, a: usize, b: usize) {
    for (start, size) in [(UNITS, UNIT), (SEGMENTS, SEGMENT)] {
        for i in 0..size {
            case.image.swap(start + size * a + i, start + size * b + i);
        }
    }
    exchange_in_list(&mut case.image, a, b);
    for command in &mut case.commands {
        let Some(k) = segment_of(map, command).filter(|k| [a, b].contains(k)) else {
            continue;
        };
        let to = a + b - k;
        let place = |address: usize| if address < SEGMENTS { UNIT } else { SEGMENT };
        match command {
            Command::Read { address, .. } | Command::Write { address, .. } => {
                *address = *address + to * place(*address) - k * place(*address);
            }
            Command::Advance { segment } | Command::Insert { segment, .. } => *segment = to,
            Command::PowerUp => {}
        }
    }
}

/// The address of the first public segment.
fn publics(map: Map) -> usize {
    SEGMENTS + SEGMENT * map.segments
}

/// An address behind what is taken away follows its place.
fn moved(address: usize, old: Map, new: Map) -> usize {
    if address >= old.length() {
        address - old.length() + new.length()
    } else if address >= publics(old) {
        address - publics(old) + publics(new)
    } else {
        address
    }
}

/// Takes segments away at the end of either sort.
pub fn fit(case: &mut Case, old: Map, new: Map) {
    let kept = publics(old)..publics(old) + SEGMENT * new.publics;
    case.image.copy_within(kept, publics(new));
    case.image.truncate(new.length());
    case.image[..2].copy_from_slice(&(new.segments as u16).to_be_bytes());
    case.image[2..4].copy_from_slice(&(new.publics as u16).to_be_bytes());
    for command in &mut case.commands {
        match command {
            Command::Read { address, .. } | Command::Write { address, .. } => *address = moved(*address, old, new),
            Command::Advance { segment } | Command::Insert { segment, .. } if *segment >= old.segments => {
                *segment = *segment - old.segments + new.segments;
            }
            _ => {}
        }
    }
}
