//! Log runs: what stands behind the commands, how much room a run gets, and whether what it returned fits its replies.

use crate::commands::{log_kind, Command, LogKind};
use crate::random::Random;
use crate::sides::Run;
use std::ops::Range;

#[derive(Clone, Copy, Debug, PartialEq, Eq)]
pub enum Unreadable {
    UnknownKind,
    ShortBody(LogKind),
}

/// One step of a run: what stands in the log, and 0, a refusal, 15 or 16.
#[derive(Clone, Copy, Debug, PartialEq, Eq)]
pub struct Step {
    pub kind: Result<LogKind, Unreadable>,
    pub answer: u8,
}

/// The steps of a run, where the replies of commands stand, and the least room with which it would have come as far.
#[derive(Clone, Debug, Default, PartialEq, Eq)]
pub struct Walk {
    pub steps: Vec<Step>,
    pub replies: Vec<Range<usize>>,
    pub enough: usize,
    read: usize,
    written: usize,
}

fn first_kind(log: &[u8]) -> Result<LogKind, Unreadable> {
    let kind = log_kind(log[0]).ok_or(Unreadable::UnknownKind)?;
    if kind.length() > log.len() {
        return Err(Unreadable::ShortBody(kind));
    }
    Ok(kind)
}

/// The answer and the length of the reply at the front of the output.
fn reply(kind: LogKind, output: &[u8]) -> Option<(u8, usize)> {
    let (code, length) = kind.granted();
    match *output {
        [first, ..] if first == code && output.len() >= length => Some((0, length)),
        [0x51, number @ (1..=14 | 18 | 19), ..] => Some((number, 2)),
        _ => None,
    }
}

impl Walk {
    /// The answers of the commands that were carried out.
    pub fn answers(&self) -> impl Iterator<Item = u8> + '_ {
        let carried_out = |answer: &u8| ![15, 16].contains(answer);
        self.steps.iter().map(|step| step.answer).filter(carried_out)
    }

    /// Takes one command that has room; an error where the output has no reply to it.
    fn take(&mut self, kind: LogKind, output: &[u8]) -> Result<(), String> {
        let (answer, length) = reply(kind, &output[self.written..])
            .ok_or_else(|| format!("both sides: no reply to the command at log byte {}", self.read))?;
        self.steps.push(Step { kind: Ok(kind), answer });
        self.read += kind.length();
        self.replies.push(self.written..self.written + length);
        self.written += length;
        Ok(())
    }

    /// Goes to the end or to what stops the run; returns the stop.
    fn go(&mut self, log: &[u8], output: &[u8]) -> Result<u8, String> {
        while self.read < log.len() {
            let kind = first_kind(&log[self.read..]);
            let need = self.written + kind.map_or(2, LogKind::room);
            if output.len() < need {
                self.steps.push(Step { kind, answer: 16 });
                return Ok(16);
            }
            self.enough = self.enough.max(need);
            let Ok(known) = kind else {
                self.steps.push(Step { kind, answer: 15 });
                self.written += 2;
                return Ok(15);
            };
            self.take(known, output)?;
        }
        Ok(0)
    }
}

/// Goes through the log and the output together. An error says what a run has returned wrongly.
pub fn walk(log: &[u8], run: Run, output: &[u8]) -> Result<Walk, String> {
    let mut walk = Walk::default();
    let stop = walk.go(log, output)?;
    let due = Run {
        read: walk.read,
        written: walk.written,
        stop,
    };
    if due != run {
        return Err(format!(
            "both sides return {run:?}; the log and the replies make it {due:?}"
        ));
    }
    if stop == 15 && output[..run.written].last_chunk() != Some(&[0x51, 15]) {
        return Err("both sides: a 15 without its reply".into());
    }
    Ok(walk)
}

/// A command without the end of its body, if it has one.
fn cut(random: &mut Random, mut bytes: Vec<u8>) -> Vec<u8> {
    bytes.truncate(1 + random.below(bytes.len()).min(bytes.len().saturating_sub(2)));
    bytes
}

/// Nothing, an unknown kind with commands behind it, a cut command, or any bytes.
pub fn some_tail(random: &mut Random, command: Command) -> Vec<u8> {
    let mut bytes = command.for_log().log_bytes().expect("made for a log");
    match random.below(11) {
        0..3 => {
            let any = random.byte();
            bytes.insert(
                0,
                random.pick(&[0x01, 0x10, 0x15, 0x20, 0x25, 0x30, 0x33, 0x41, 0x50, 0xFF, any]),
            );
            bytes
        }
        3..6 => cut(random, bytes),
        // Else a cut advance would be rare.
        6 => cut(random, vec![0x31, 0, 0]),
        7 => {
            let count = random.below(40);
            random.bytes(count)
        }
        _ => Vec::new(),
    }
}

pub const ROOMS: [&str; 7] = [
    "no room",
    "room for 1 byte",
    "room for 2 bytes",
    "little room",
    "one less than enough",
    "exactly enough",
    "much room",
];
pub const MUCH: usize = 6;

/// Room for any one reply.
pub const ANY_REPLY: usize = 33;

/// Room for any run over a log of this length: 33 bytes are the most for five.
pub fn enough_for(log: usize) -> usize {
    7 * log + 2
}

pub fn much_room(random: &mut Random, log: usize) -> usize {
    enough_for(log) + random.below(100)
}

/// Rooms for the runs that go on after a 16, too small ones among them.
pub fn some_rooms(random: &mut Random) -> Vec<usize> {
    let count = 1 + random.below(4);
    (0..count)
        .map(|_| {
            let any = random.below(80);
            random.pick(&[0, 1, 2, 3, 9, 17, ANY_REPLY, any, any, any])
        })
        .collect()
}

/// The room for a class of `ROOMS` other than the last, where `enough` is just enough; none where there is no such.
pub fn some_room(random: &mut Random, class: usize, enough: usize) -> Option<usize> {
    match class {
        0..3 => Some(class),
        3 => Some(3 + random.below(enough.saturating_sub(3).max(1))),
        4 => enough.checked_sub(1),
        _ => Some(enough),
    }
}
