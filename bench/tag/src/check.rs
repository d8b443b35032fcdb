//! What must hold of a case before it is measured: both sides do the same, and the commands are answered as they are
//! meant to be. A figure for other work than the other side's, or for refusals alone, would mislead.

use crate::cases::{Bench, Case, Left};
use crate::commands::{hex, replies};
use crate::sides::{Proved, Reference};

/// How many commands are granted; or in words what is wrong with the case.
pub fn granted(bench: &mut Bench, case: &Case) -> Result<usize, String> {
    let checked = same(bench, case).and_then(|()| {
        let left = bench.left::<Proved>(case);
        as_due(case, &answers(&left))
    });
    checked.map_err(|wrong| format!("{}: {wrong}", case.name()))
}

/// An error tells the first command after which the two differ, and in what.
fn same(bench: &mut Bench, case: &Case) -> Result<(), String> {
    let Some(at_the_end) = difference(bench, case) else {
        return Ok(());
    };
    let all = case.commands.len();
    let first = (1..=all).find_map(|count| Some((count, difference(bench, &case.first(count))?)));
    let (count, what) = first.unwrap_or((all, at_the_end));
    let command = case.commands[count - 1].words();
    Err(format!("the two differ after command {count}, {command}: {what}"))
}

/// What differs when a case has been carried out; of the replies, that of the last command.
fn difference(bench: &mut Bench, case: &Case) -> Option<String> {
    let (proved, reference) = (bench.left::<Proved>(case), bench.left::<Reference>(case));
    if proved.replies != reference.replies {
        let [ours, theirs] = [proved, reference].map(|left| reply(&left, case.commands.len()));
        return Some(format!("the proved library replies {ours}, the reference {theirs}"));
    }
    first_byte("session", &proved.session, &reference.session)
        .or_else(|| first_byte("tag", &proved.tag, &reference.tag))
}

/// The reply to a command; commands count from 1.
fn reply(left: &Left, command: usize) -> String {
    match replies(&left.replies).get(command - 1) {
        Some([0x51, number]) => format!("51 {number:02X} (refused {number})"),
        Some(reply) => hex(reply),
        None => "nothing".into(),
    }
}

fn first_byte(of: &str, proved: &[u8], reference: &[u8]) -> Option<String> {
    let at = proved.iter().zip(reference).position(|(ours, theirs)| ours != theirs)?;
    let (ours, theirs) = (proved[at], reference[at]);
    Some(format!(
        "{of} byte {at} ({at:X}) is {ours:02X} by the proved library, {theirs:02X} by the reference"
    ))
}

fn answers(left: &Left) -> Vec<u8> {
    let answer = |reply: &[u8]| match *reply {
        [0x51, number] => number,
        _ => 0,
    };
    replies(&left.replies).into_iter().map(answer).collect()
}

/// Every command has a reply, every answer is one that is due, each of those is met, and half of them at least are
/// grants. Returns how many are.
fn as_due(case: &Case, answers: &[u8]) -> Result<usize, String> {
    let (due, commands) = (case.workload.due, &case.commands);
    if answers.len() != commands.len() {
        return Err(format!("{} commands and {} replies", commands.len(), answers.len()));
    }
    if let Some(at) = answers.iter().position(|answer| !due.contains(answer)) {
        let (count, command) = (at + 1, commands[at].words());
        return Err(format!("command {count}, {command}: refused {}", answers[at]));
    }
    if let Some(missing) = due.iter().find(|answer| !answers.contains(answer)) {
        return Err(format!("no command is answered {missing}"));
    }
    let granted = answers.iter().filter(|&&answer| answer == 0).count();
    if 2 * granted < commands.len() {
        return Err(format!("only {granted} of {} commands are granted", commands.len()));
    }
    Ok(granted)
}
