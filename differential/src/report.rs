//! Tells a failing case so that it can be tried by hand: image, session, and commands in words and as a log.

use crate::cases::{Case, Failure, Log};
use crate::commands::{hex, plural};
use crate::runs::Found;
use crate::sessions::{PARTS, POWER_UP};
use std::ops::Range;

/// Zeros between two other bytes that do not begin a new line of a patch.
const GAP: usize = 4;
const ON_A_LINE: usize = 32;

/// A and P, and where the bytes other than 0 stand, in parts of at most one line.
fn parts(image: &[u8]) -> Vec<Range<usize>> {
    let mut parts: Vec<Range<usize>> = std::iter::once(0..image.len().min(4)).collect();
    for at in (4..image.len()).filter(|&at| image[at] != 0) {
        match parts.last_mut() {
            Some(part) if at < part.end + GAP && at < part.start + ON_A_LINE => part.end = at + 1,
            _ => parts.push(at..at + 1),
        }
    }
    parts
}

fn image(case: &Case) -> String {
    let mut text = format!(
        "image: length {}; zeros, except (addresses in hexadecimal)\n",
        case.image.len()
    );
    for part in parts(&case.image).into_iter().filter(|part| !part.is_empty()) {
        text += &format!("  at {:X}: {}\n", part.start, hex(&case.image[part.clone()]));
    }
    text
}

fn session(case: &Case) -> String {
    if case.session == POWER_UP {
        return "session: power-up\n".into();
    }
    let mut text = String::from("session: zeros, except\n");
    for (name, at, length) in PARTS {
        let bytes = &case.session[at..at + length];
        if bytes.iter().any(|&byte| byte != 0) {
            text += &format!("  {name}: {}\n", hex(bytes));
        }
    }
    text
}

fn commands(case: &Case) -> String {
    let mut text = String::new();
    for (i, command) in case.commands.iter().enumerate() {
        text += &format!("  {}. {}\n", i + 1, command.words());
    }
    if let Some(bytes) = case.log_bytes() {
        text += &format!("as a log: {}\n", hex(&bytes));
    }
    match (&case.log, &case.variation) {
        (Some(_), Some(variation)) => text += &format!("run over that log, and once more {}\n", variation.words()),
        (None, Some(variation)) => text += &format!("and once more {}\n", variation.words()),
        (Some(log), None) => text += &run(log),
        (None, None) => {}
    }
    text
}

fn run(log: &Log) -> String {
    let room = plural(log.room, "byte");
    let then = match log.then.as_slice() {
        [] => String::new(),
        rooms => format!(", and after a 16 on with others, of {rooms:?} in turn"),
    };
    format!("run over that log into an output of {room}{then}\n")
}

/// How many commands a case has, its tail counted as one.
pub fn size(case: &Case) -> usize {
    case.commands.len() + usize::from(case.log.as_ref().is_some_and(|log| !log.tail.is_empty()))
}

pub fn case(case: &Case) -> String {
    image(case) + &session(case) + &commands(case)
}

/// The whole report of a difference: where it was met, and the smallest case found.
pub fn difference(seed: u64, found: &Found, small: &Case, failure: &Failure) -> String {
    let mut text = format!("difference: seed {seed}, case {}", found.number);
    match found.case.commands.get(found.failure.command) {
        Some(command) => text += &format!(", command {}: {}", found.failure.command + 1, command.words()),
        None if found.case.variation.is_some() => text += ", the list changed",
        None if found.case.log.is_some() => text += ", run over a log",
        None => text += ", after the list",
    }
    text += &format!("\n  {}\n", found.failure.what);
    text += &format!(
        "smallest case found: {}\n  {}\n",
        plural(size(small), "command"),
        failure.what
    );
    text + &case(small)
}
