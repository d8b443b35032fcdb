//! Makes a failing case small, by changes after each of which it still fails.

use crate::cases::{Case, Failure, Log};
use crate::changes::{self, change_log, data, drop_commands, fit_room, segment_of, shorten};
use crate::compare::Pair;
use crate::hosts;
use crate::map::{Map, SEGMENTS, UNITS};
use crate::sessions::{Session, PARTS, POWER_UP};
use crate::variations::Variation;
use std::ops::Range;
use std::time::{Duration, Instant};

/// So many commands may stay if they start from power-up.
const FEW: usize = 4;

struct Shrinker<'s, 'a> {
    pair: &'s mut Pair<'a>,
    deadline: Instant,
    case: Case,
    failure: Failure,
}

/// The smallest failing case that is found in this time.
pub fn smallest(pair: &mut Pair, case: Case, failure: Failure, limit: Duration) -> (Case, Failure) {
    let mut shrinker = Shrinker {
        pair,
        deadline: Instant::now() + limit,
        case,
        failure,
    };
    while shrinker.pass() {}
    (shrinker.case, shrinker.failure)
}

impl Shrinker<'_, '_> {
    /// Keeps a change if the case still fails with it.
    fn attempt(&mut self, change: impl FnOnce(&mut Case)) -> bool {
        if Instant::now() > self.deadline {
            return false;
        }
        let mut case = self.case.clone();
        change(&mut case);
        if case == self.case {
            return false;
        }
        let Some(failure) = case.failure(self.pair) else {
            return false;
        };
        self.case = case;
        self.failure = failure;
        true
    }

    /// All changes once. Each makes the case smaller or plainer, so that passes come to an end.
    fn pass(&mut self) -> bool {
        let mut changed = self.join_parts();
        changed |= self.drop_commands();
        changed |= self.start_later();
        changed |= self.shrink_log();
        changed |= self.shrink_variation();
        changed |= self.attempt(|case| case.session.fill(0));
        for (_, at, length) in PARTS {
            changed |= self.attempt(|case| case.session[at..at + length].fill(0));
        }
        changed |= self.move_segments();
        while self.shrink_map() {
            changed = true;
        }
        let end = self.case.image.len();
        changed |= self.clear_image(end.min(4)..end);
        changed |= self.ask_for_less();
        changed |= self.simplify_commands();
        changed
    }

    /// One run in place of one that goes on after a 16: with room for the replies before some command, and a little.
    fn join_parts(&mut self) -> bool {
        if self.case.log.as_ref().is_none_or(|log| log.then.is_empty()) {
            return false;
        }
        let mut rooms = vec![2];
        for length in self.case.reply_lengths(self.pair) {
            rooms.push(rooms[rooms.len() - 1] + length);
        }
        let one_run = |case: &mut Case, room| {
            change_log(case, |log| {
                log.room = room;
                log.then.clear();
            });
        };
        rooms.into_iter().any(|room| self.attempt(|case| one_run(case, room)))
    }

    /// Half of the commands, a quarter, .. one: whatever can go.
    fn drop_commands(&mut self) -> bool {
        let mut changed = false;
        if self.case.log.is_none() {
            let end = self.case.commands.len();
            let start = end.min(self.failure.command + 1);
            changed |= self.attempt(|case| drop_commands(case, start..end));
        }
        let mut size = self.case.commands.len();
        while size > 0 {
            let mut start = 0;
            while start < self.case.commands.len() {
                let end = (start + size).min(self.case.commands.len());
                if self.drop_range(start..end) {
                    changed = true;
                } else {
                    start = end;
                }
            }
            size /= 2;
        }
        changed
    }

    fn drop_range(&mut self, range: Range<usize>) -> bool {
        if self.attempt(|case| drop_commands(case, range.clone())) {
            return true;
        }
        let replies = self.case.reply_lengths(self.pair)[range.clone()].iter().sum();
        self.case.log.is_some() && self.attempt(|case| changes::drop_with_room(case, range, replies))
    }

    /// Starts from what the first commands leave: after power-up, or with their session where nothing is lost by that.
    fn start_later(&mut self) -> bool {
        let states = self.case.states(self.pair);
        let lengths = self.case.reply_lengths(self.pair);
        let later = || states.iter().enumerate().skip(1).rev();
        let with_session = self.case.commands.len() > FEW || self.case.session != POWER_UP;
        let from = |case: &mut Case, k: usize, tag: &[u8], session: &Session| {
            case.image.copy_from_slice(tag);
            case.session = *session;
            changes::drop_with_room(case, 0..k, lengths[..k].iter().sum());
        };
        later().any(|(k, (tag, _))| self.attempt(|case| from(case, k, tag, &POWER_UP)))
            || with_session && later().any(|(k, (tag, session))| self.attempt(|case| from(case, k, tag, session)))
    }

    /// Without the tail, with its first half; with the least room of a few.
    fn shrink_log(&mut self) -> bool {
        let Some(Log { tail, room, then }) = &self.case.log else {
            return false;
        };
        let (tail, room, then) = (tail.len(), *room, then.len());
        let mut changed = false;
        for most in [0, then.min(1), then / 2] {
            changed |= self.attempt(|case| change_log(case, |log| log.then.truncate(most)));
        }
        for most in [0, tail / 2, tail.saturating_sub(1)] {
            changed |= self.attempt(|case| change_log(case, |log| log.tail.truncate(most)));
        }
        for most in [0, 1, 2, room / 2, room.saturating_sub(8), room.saturating_sub(1)] {
            changed |= self.attempt(|case| change_log(case, |log| log.room = log.room.min(most)));
        }
        changed
    }

    /// Without the copies and exchanges that can go.
    fn shrink_variation(&mut self) -> bool {
        let mut smaller = self
            .case
            .variation
            .iter()
            .flat_map(Variation::smaller)
            .collect::<Vec<_>>()
            .into_iter();
        smaller.any(|variation| self.attempt(|case| case.variation = Some(variation)))
    }

    /// Uses the first segments in place of later ones.
    fn move_segments(&mut self) -> bool {
        let Some(map) = Map::of(&self.case.image) else {
            return false;
        };
        let mut used: Vec<usize> = self.case.commands.iter().filter_map(|c| segment_of(map, c)).collect();
        let listed = |k: &usize| hosts::is_listed(&self.case.image, *k);
        used.extend((0..map.segments).filter(listed));
        used.sort_unstable();
        used.dedup();
        let mut changed = false;
        for (to, from) in used.into_iter().enumerate().filter(|(to, from)| to < from) {
            changed |= self.attempt(|case| changes::exchange(case, map, from, to));
        }
        changed
    }

    fn shrink_map(&mut self) -> bool {
        let Some(old) = Map::of(&self.case.image) else {
            return false;
        };
        let mut fits = |new| self.attempt(|case| changes::fit(case, old, new));
        (1..old.segments).any(|segments| fits(Map { segments, ..old }))
            || (0..old.publics).any(|publics| fits(Map { publics, ..old }))
    }

    /// Zeros in a part of the image, or else in its halves.
    fn clear_image(&mut self, part: Range<usize>) -> bool {
        if self.case.image[part.clone()].iter().all(|&byte| byte == 0) {
            return false;
        }
        if self.attempt(|case| case.image[part.clone()].fill(0)) {
            return true;
        }
        let middle = part.start + part.len() / 2;
        part.len() > 1 && self.clear_image(part.start..middle) | self.clear_image(middle..part.end)
    }

    /// Clears what the units may ask for, and with that the session and what prepared the last command.
    fn ask_for_less(&mut self) -> bool {
        let end = self.case.image.len().min(SEGMENTS);
        let asking = Vec::from_iter((UNITS.min(end)..end).filter(|&at| self.case.image[at] != 0));
        let mut changed = false;
        for at in asking {
            let clear = |case: &mut Case| {
                case.image[at] = 0;
                case.session = POWER_UP;
            };
            changed |= self.attempt(|case| {
                clear(case);
                drop_commands(case, 0..case.commands.len().saturating_sub(1));
            });
            changed |= self.attempt(clear);
            for bit in 0..8 {
                changed |= self.attempt(|case| case.image[at] &= !(1 << bit));
            }
        }
        changed
    }

    fn simplify_commands(&mut self) -> bool {
        let mut changed = false;
        for i in 0..self.case.commands.len() {
            for count in [1, 8, 16, 32] {
                changed |= self.attempt(|case| shorten(&mut case.commands[i], count));
            }
            changed |= self.attempt(|case| fit_room(&mut case.commands[i]));
            let length = data(&mut self.case, i).len();
            changed |= self.clear_data(i, 0..length);
        }
        changed
    }

    fn clear_data(&mut self, i: usize, part: Range<usize>) -> bool {
        if data(&mut self.case, i)[part.clone()].iter().all(|&byte| byte == 0) {
            return false;
        }
        if self.attempt(|case| data(case, i)[part.clone()].fill(0)) {
            return true;
        }
        let middle = part.start + part.len() / 2;
        part.len() > 1 && self.clear_data(i, part.start..middle) | self.clear_data(i, middle..part.end)
    }
}
