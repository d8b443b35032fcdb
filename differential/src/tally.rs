//! How often each answer was met at each place and seat, and what of the sets in `table` and `seats` was not.

use crate::cases::Ran;
use crate::commands::Command;
use crate::demand::SORTS;
use crate::images::{self, damage_name, Image, DAMAGES, LAST, LIMITS};
use crate::logs::ROOMS;
use crate::map::Place;
use crate::outcome::Outcome;
use crate::seats::{Seat, LISTS};
use crate::table::{log_row, Row, ADVANCES, INSERTS, IN_LOGS, LOG_KINDS, PLACES, READS, STOPS, WRITES};
use crate::units::WAYS;
use crate::variations::{self, Entry, COPIES};

/// 0 is granted, then the refusals 1 to 14, the stops 15 and 16, and the refusals 18 and 19.
const ANSWERS: usize = 20;

type Counts = [u64; ANSWERS];

/// The heading of the part whose first column is the end of the log.
const ENDS: &str = "log runs: end or stop";

/// The columns of exchanged neighbours.
const EXCHANGED: [&str; 4] = ["calls", "granted", "in logs", "granted"];

/// Power-ups stand apart: they have no place and are always granted.
pub struct Tally {
    reads: [Counts; PLACES],
    writes: [Counts; PLACES],
    advances: [Counts; PLACES],
    inserts: [Counts; PLACES],
    seats: [Vec<Counts>; LISTS.len()],
    logs: [Counts; LOG_KINDS],
    rooms: [Counts; STOPS.len()],
    copies: [Counts; COPIES.len()],
    /// By sort: in calls and in logs, each all and those with both granted.
    exchanges: [[u64; EXCHANGED.len()]; SORTS.len()],
    damages: [u64; DAMAGES],
    limits: [u64; LIMITS.len()],
    last: [u64; LAST.len()],
    ill_formed: [u64; WAYS.len()],
    power_ups: u64,
}

/// A part of the table: its heading, its rows, and their counts.
type Part<'a> = (&'static str, &'a [Row], &'a [Counts]);

/// A heading, and names with their counts, of which none may be 0 in the end.
type List = (&'static str, Vec<(String, u64)>);

impl Default for Tally {
    fn default() -> Self {
        Tally {
            reads: [[0; ANSWERS]; PLACES],
            writes: [[0; ANSWERS]; PLACES],
            advances: [[0; ANSWERS]; PLACES],
            inserts: [[0; ANSWERS]; PLACES],
            seats: LISTS.map(|(_, rows, _)| vec![[0; ANSWERS]; rows.len()]),
            logs: [[0; ANSWERS]; LOG_KINDS],
            rooms: [[0; ANSWERS]; STOPS.len()],
            copies: [[0; ANSWERS]; COPIES.len()],
            exchanges: [[0; EXCHANGED.len()]; SORTS.len()],
            damages: [0; DAMAGES],
            limits: [0; LIMITS.len()],
            last: [0; LAST.len()],
            ill_formed: [0; WAYS.len()],
            power_ups: 0,
        }
    }
}

impl Tally {
    /// Counts a command; the row is that of `table::row_of` on the tag as it was before.
    pub fn call(&mut self, command: &Command, row: usize, answer: u8) {
        let rows = match command {
            Command::PowerUp => {
                self.power_ups += 1;
                return;
            }
            Command::Read { .. } => &mut self.reads,
            Command::Write { .. } => &mut self.writes,
            Command::Advance { .. } => &mut self.advances,
            Command::Insert { .. } => &mut self.inserts,
        };
        rows[row][usize::from(answer)] += 1;
    }

    /// Counts a command at its seat too, which is that of `seats::seat_of` on the tag as it was before.
    pub fn seat(&mut self, (list, row): Seat, answer: u8) {
        let (_, _, counted) = LISTS[list as usize];
        if counted.contains(&answer) {
            self.seats[list as usize][row][usize::from(answer)] += 1;
        }
    }

    pub fn run(&mut self, room: usize, ran: &Ran) {
        self.rooms[room][usize::from(ran.stop)] += 1;
        for step in &ran.walk.steps {
            self.logs[log_row(step.kind)][usize::from(step.answer)] += 1;
        }
        if let Some(stop) = ran.in_the_end {
            self.rooms[ROOMS.len()][usize::from(stop)] += 1;
        }
    }

    /// Counts a changed list by the copies and the exchanged neighbours in it.
    pub fn changed(&mut self, in_log: bool, entries: &[Entry], list: &Outcome, met: &Outcome) {
        for (row, answer) in variations::copies(entries, met) {
            let first = if in_log { COPIES.len() / 2 } else { 0 };
            self.copies[first + row][usize::from(answer)] += 1;
        }
        for (sort, granted) in variations::exchanges(entries, list) {
            let first = if in_log { EXCHANGED.len() / 2 } else { 0 };
            self.exchanges[sort][first] += 1;
            self.exchanges[sort][first + 1] += u64::from(granted);
        }
    }

    pub fn image(&mut self, image: &Image) {
        match (image.damage, images::limit(image.map)) {
            (Some(way), _) => self.damages[way] += 1,
            (None, Some(limit)) => self.limits[limit] += 1,
            _ => {}
        }
    }

    /// Counts a granted command on an image with the largest map.
    pub fn in_largest(&mut self, place: Option<Place>) {
        let last = LAST.iter().position(|(_, last)| place == Some(*last));
        last.inspect(|&last| self.last[last] += 1);
    }

    pub fn ill_formed(&mut self, way: usize) {
        self.ill_formed[way] += 1;
    }

    fn parts(&self) -> Vec<Part<'_>> {
        let mut parts: Vec<Part> = vec![
            ("read", &READS, &self.reads),
            ("write", &WRITES, &self.writes),
            ("advance", &ADVANCES, &self.advances),
            ("insert", &INSERTS, &self.inserts),
        ];
        for ((heading, rows, _), counts) in LISTS.iter().zip(&self.seats) {
            parts.push((heading, rows, counts));
        }
        parts.push(("log runs: commands", &IN_LOGS, &self.logs));
        parts.push((ENDS, &STOPS, &self.rooms));
        parts.push(("copy of a granted write", &COPIES, &self.copies));
        parts
    }

    /// Commands granted and all commands, power-ups among both.
    pub fn grants(&self) -> (u64, u64) {
        let parts = [&self.reads, &self.writes, &self.advances, &self.inserts];
        let rows = || parts.into_iter().flatten();
        let granted: u64 = rows().map(|counts| counts[0]).sum();
        let all: u64 = rows().flatten().sum();
        (granted + self.power_ups, all + self.power_ups)
    }

    /// What was met and is not in the set.
    pub fn outside_the_set(&self) -> Vec<String> {
        self.cells(|count, reachable| count > 0 && !reachable)
    }

    /// What is in the set and was not met.
    pub fn not_met(&self) -> Vec<String> {
        let mut missing = self.cells(|count, reachable| count == 0 && reachable);
        for (heading, rows) in self.lists() {
            let none = rows.iter().filter(|(_, count)| *count == 0);
            missing.extend(none.map(|(name, _)| format!("{heading}: {name}")));
        }
        let sorts = (0..SORTS.len()).filter(|&sort| self.exchanges[sort].contains(&0));
        let named = |sort: usize| format!("exchanged as calls and in logs, granted too: {}", SORTS[sort]);
        missing.extend(sorts.map(named));
        let (granted, all) = self.grants();
        if 3 * granted < all {
            missing.push("a grant for a third of the commands".into());
        }
        missing
    }

    fn cells(&self, wanted: impl Fn(u64, bool) -> bool) -> Vec<String> {
        let mut found = Vec::new();
        for (heading, rows, counts) in self.parts() {
            for ((place, answers), counts) in rows.iter().zip(counts) {
                let hit = (0..ANSWERS).filter(|&i| wanted(counts[i], answers.contains(&(i as u8))));
                found.extend(hit.map(|answer| format!("{heading}, {place}: {}", column(heading, answer))));
            }
        }
        found
    }

    /// The whole table. A dot is an answer outside the set.
    pub fn text(&self) -> String {
        let mut text = String::new();
        for (heading, rows, counts) in self.parts() {
            let columns = Vec::from_iter((0..ANSWERS).filter(|&i| rows.iter().any(|row| row.1.contains(&(i as u8)))));
            line(&mut text, heading, columns.iter().map(|&i| column(heading, i)));
            for (row, counts) in rows.iter().zip(counts).filter(|(row, _)| !row.1.is_empty()) {
                line(&mut text, row.0, columns.iter().map(|&i| cell(row, counts, i)));
            }
            text.push('\n');
        }
        line(
            &mut text,
            "exchanged neighbours",
            EXCHANGED.map(String::from).into_iter(),
        );
        for (name, counts) in SORTS.iter().zip(&self.exchanges) {
            line(&mut text, name, counts.iter().map(u64::to_string));
        }
        text.push('\n');
        for (heading, rows) in self.lists() {
            list(&mut text, heading, rows);
        }
        let (granted, all) = self.grants();
        text += &format!("power-ups {}; {granted} of {all} commands granted\n", self.power_ups);
        text
    }

    /// What is counted without answers.
    fn lists(&self) -> [List; 4] {
        let damaged = (0..DAMAGES).map(|way| (damage_name(way), self.damages[way]));
        let limits = LIMITS.iter().zip(self.limits).map(named);
        let last = LAST.iter().map(|(name, _)| name).zip(self.last).map(named);
        let ill_formed = WAYS.iter().zip(self.ill_formed).map(named);
        [
            ("images that are not sound", damaged.collect()),
            ("sound images at the limits", limits.collect()),
            ("commands granted in the last places", last.collect()),
            ("commands at units that are not well formed", ill_formed.collect()),
        ]
    }
}

fn named((name, count): (&&str, u64)) -> (String, u64) {
    (name.to_string(), count)
}

fn column(heading: &str, answer: usize) -> String {
    match answer {
        0 if heading == ENDS => "end".into(),
        0 => "granted".into(),
        number => number.to_string(),
    }
}

fn cell(row: &Row, counts: &Counts, answer: usize) -> String {
    let count = counts[answer];
    if count == 0 && !row.1.contains(&(answer as u8)) {
        ".".into()
    } else {
        count.to_string()
    }
}

fn line(text: &mut String, first: &str, cells: impl Iterator<Item = String>) {
    *text += &format!("{first:<28}");
    for cell in cells {
        *text += &format!(" {cell:>7}");
    }
    text.push('\n');
}

fn list(text: &mut String, heading: &str, rows: Vec<(String, u64)>) {
    *text += &format!("{heading}\n");
    for (name, count) in rows {
        *text += &format!("  {name:<42} {count:>7}\n");
    }
    text.push('\n');
}

#[cfg(test)]
mod tests {
    use super::*;

    #[test]
    fn what_was_never_met_is_told() {
        let missing = Tally::default().not_met();
        for due in [
            "read, header: granted",
            "log runs: end or stop, gone on after a 16: 15",
            "copy of a granted write, call, right behind: 18",
            "copy of a granted write, log, at the end: 12",
            "exchanged as calls and in logs, granted too: two public segments",
            "exchanged as calls and in logs, granted too: slots of a counter segment",
            "images that are not sound: A = 129",
            "sound images at the limits: A = P = 128",
            "commands granted in the last places: unit 127 of A = P = 128",
        ] {
            assert!(missing.iter().any(|line| line == due), "{due}: {missing:#?}");
        }
    }
}
