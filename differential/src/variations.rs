//! A list of commands carried out once more with something of demand 3 changed in it: copies of granted writes put in,
//! or neighbours exchanged. Answers and end state must stay.

use crate::cases::Case;
use crate::compare::{first_difference, in_words, Pair};
use crate::demand;
use crate::outcome::{self, Calls, Outcome};
use crate::random::Random;
use crate::table::Row;
use std::iter::once;
use std::ops::Range;

/// What is changed, with an entry for each command. Where demand 3 does not speak of it, the list stays as it is.
#[derive(Clone, Debug, PartialEq, Eq)]
pub enum Variation {
    /// Copies of the command: for each, how many commands of the list stand between the two, if there are so many.
    Copies(Vec<Vec<usize>>),
    /// Whether the command and the next one change places.
    Exchanges(Vec<bool>),
}

/// A command of the changed list, by its number in the list as it was.
#[derive(Clone, Copy, Debug, PartialEq, Eq)]
pub struct Entry {
    pub of: usize,
    pub is_copy: bool,
}

impl Entry {
    fn own(of: usize) -> Entry {
        Entry { of, is_copy: false }
    }
}

/// The list as it is.
pub fn plain(commands: usize) -> Vec<Entry> {
    (0..commands).map(Entry::own).collect()
}

/// Some copies of most writes that count: right behind them, anywhere, at the end.
pub fn some_copies(random: &mut Random, start: &[u8], list: &Outcome) -> Option<Variation> {
    let end = list.replies.len();
    let mut copies = vec![Vec::new(); end];
    for i in (0..end).filter(|&i| demand::counted_in(start, list, i).is_some()) {
        let count = random.pick(&[0, 1, 1, 2, 3, 5]);
        copies[i].extend((0..count).map(|_| match random.below(4) {
            0 => 0,
            1 => end,
            _ => random.below(end - i),
        }));
    }
    let any = copies.iter().any(|copies| !copies.is_empty());
    any.then_some(Variation::Copies(copies))
}

/// Half of the neighbours that may change places.
pub fn some_exchanges(random: &mut Random, list: &Outcome) -> Option<Variation> {
    let mut exchanged = vec![false; list.replies.len()];
    for i in (1..exchanged.len()).filter(|&i| sort_at(list, i - 1).is_some()) {
        exchanged[i - 1] = random.percent(50);
    }
    let any = exchanged.contains(&true);
    any.then_some(Variation::Exchanges(exchanged))
}

/// The sort of neighbours that command `i` and the next are, if they may change places.
pub fn sort_at(list: &Outcome, i: usize) -> Option<usize> {
    demand::sort_of(list.spots[i]?, (*list.spots.get(i + 1)?)?)
}

fn with_copies(copies: &[Vec<usize>], start: &[u8], list: &Outcome) -> Vec<Entry> {
    let mut behind = vec![Vec::new(); copies.len()];
    for i in (0..copies.len()).filter(|&i| demand::counted_in(start, list, i).is_some()) {
        for between in &copies[i] {
            let at = (i + between).min(copies.len() - 1);
            behind[at].push(Entry { of: i, is_copy: true });
        }
    }
    let own_and_copies = |(i, copies): (usize, Vec<Entry>)| once(Entry::own(i)).chain(copies);
    behind.into_iter().enumerate().flat_map(own_and_copies).collect()
}

fn with_exchanges(exchanged: &[bool], list: &Outcome) -> Vec<Entry> {
    let mut entries = plain(exchanged.len());
    let mut i = 0;
    while i < exchanged.len() {
        if exchanged[i] && sort_at(list, i).is_some() {
            entries.swap(i, i + 1);
            i += 1;
        }
        i += 1;
    }
    entries
}

impl Variation {
    /// The changed list.
    pub fn entries(&self, start: &[u8], list: &Outcome) -> Vec<Entry> {
        match self {
            Variation::Copies(copies) => with_copies(copies, start, list),
            Variation::Exchanges(exchanged) => with_exchanges(exchanged, list),
        }
    }

    /// Follows the list when commands are dropped from it.
    pub fn follow(&mut self, dropped: Range<usize>) {
        match self {
            Variation::Copies(copies) => drop(copies.drain(dropped)),
            Variation::Exchanges(exchanged) => drop(exchanged.drain(dropped)),
        }
    }

    /// What of it can be left out, one by one, to make it smaller.
    pub fn smaller(&self) -> Vec<Variation> {
        let mut all = Vec::new();
        match self {
            Variation::Copies(copies) => {
                for (i, at) in copies.iter().enumerate() {
                    for j in 0..at.len() {
                        let mut fewer = copies.clone();
                        fewer[i].remove(j);
                        all.push(Variation::Copies(fewer));
                    }
                }
            }
            Variation::Exchanges(exchanged) => {
                for i in (0..exchanged.len()).filter(|&i| exchanged[i]) {
                    let mut fewer = exchanged.clone();
                    fewer[i] = false;
                    all.push(Variation::Exchanges(fewer));
                }
            }
        }
        all
    }

    /// In words; commands are counted from 1.
    pub fn words(&self) -> String {
        match self {
            Variation::Copies(copies) => format!("with copies: {}", copies_in_words(copies)),
            Variation::Exchanges(exchanged) => {
                let all = (0..exchanged.len()).filter(|&i| exchanged[i]);
                let words = all.map(|i| format!("{} and {}", i + 1, i + 2));
                format!("with neighbours exchanged: {}", Vec::from_iter(words).join(", "))
            }
        }
    }
}

fn copies_in_words(copies: &[Vec<usize>]) -> String {
    let mut words = Vec::new();
    for (i, all) in copies.iter().enumerate() {
        let behind = |between: &usize| copies.len().min(i + 1 + between);
        words.extend(
            all.iter()
                .map(|between| format!("of {} behind {}", i + 1, behind(between))),
        );
    }
    words.join(", ")
}

/// How a copy stands to its write, and the answers that it can get: 7 or 8 when the rights are lost, 12 when another
/// write was granted since.
pub const COPIES: [Row; 6] = [
    ("call, right behind", &[18]),
    ("call, among later ones", &[7, 8, 12, 18]),
    ("call, at the end", &[7, 8, 12, 18]),
    ("log, right behind", &[18]),
    ("log, among later ones", &[7, 8, 12, 18]),
    ("log, at the end", &[7, 8, 12, 18]),
];

/// The copies among the entries: the row of each in the first or the second half of `COPIES`, and its answer.
pub fn copies(entries: &[Entry], met: &Outcome) -> Vec<(usize, u8)> {
    let mut found = Vec::new();
    for (i, entry) in entries.iter().enumerate().filter(|(_, entry)| entry.is_copy) {
        let own_before = entries[..i].iter().rfind(|other| !other.is_copy);
        let row = match own_before {
            Some(own) if own.of == entry.of => 0,
            _ if entries[i..].iter().any(|other| !other.is_copy) => 1,
            _ => 2,
        };
        found.push((row, met.replies[i].answer));
    }
    found
}

/// The exchanged neighbours among the entries: the sort of each two, and whether both are granted.
pub fn exchanges(entries: &[Entry], list: &Outcome) -> Vec<(usize, bool)> {
    let is_pair = |two: &&[Entry]| !two[0].is_copy && !two[1].is_copy && two[0].of == two[1].of + 1;
    let told = |two: &[Entry]| {
        let granted = two.iter().all(|entry| list.replies[entry.of].answer == 0);
        sort_at(list, two[1].of).map(|sort| (sort, granted))
    };
    entries.windows(2).filter(is_pair).filter_map(told).collect()
}

/// The commands of the entries, as calls or in one log as the case has them.
pub fn carried_out(case: &Case, pair: &mut Pair, entries: &[Entry]) -> Result<Outcome, String> {
    pair.start(&case.image, &case.session);
    let mut commands = entries.iter().map(|entry| &case.commands[entry.of]);
    if case.log.is_some() {
        return outcome::of_log(pair, commands);
    }
    let mut calls = Calls::default();
    commands.try_for_each(|command| calls.call(pair, command).map(drop))?;
    Ok(calls.outcome(pair))
}

/// Each copy is refused; every other answer and the end state are those of the list as it was.
pub fn compare(entries: &[Entry], due: &Outcome, met: &Outcome) -> Result<(), String> {
    for (entry, reply) in entries.iter().zip(&met.replies) {
        let (number, old) = (entry.of + 1, &due.replies[entry.of]);
        if entry.is_copy && reply.answer == 0 {
            return Err(format!("both sides: a copy of command {number} is granted"));
        }
        if !entry.is_copy && reply.answer != old.answer {
            let [new, old] = [reply, old].map(|reply| in_words(reply.answer));
            return Err(format!(
                "both sides: command {number} is {new}, and {old} in the list as it was"
            ));
        }
        if !entry.is_copy && reply.bytes != old.bytes {
            return Err(format!(
                "both sides: command {number} reads other bytes than in the list as it was"
            ));
        }
    }
    let names = ["the changed list", "the list as it was"];
    first_difference("session", &met.end.1, &due.end.1, names)?;
    first_difference("tag", &met.end.0, &due.end.0, names)
}
