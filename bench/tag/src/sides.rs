//! The two sides under one set of functions. Answers are numbers: 0 for granted, else the refusal.

use crate::commands::Command;

pub trait Side {
    type Session;

    fn power_up() -> Self::Session;
    fn read(tag: &[u8], session: &Self::Session, address: usize, count: usize, output: &mut [u8]) -> u8;
    fn write(tag: &mut [u8], session: &mut Self::Session, address: usize, data: &[u8]) -> u8;
    fn advance(tag: &mut [u8], session: &Self::Session, segment: usize) -> u8;
    /// Runs a log and returns the bytes of the replies.
    fn run(tag: &mut [u8], session: &mut Self::Session, log: &[u8], output: &mut [u8]) -> usize;
    /// The session as the proved library keeps it.
    fn bytes(session: &Self::Session) -> [u8; 54];
}

pub struct Proved;

fn of_proved(answer: dringoleth::Answer) -> u8 {
    answer.map_or_else(dringoleth::Refusal::number, |()| 0)
}

impl Side for Proved {
    type Session = dringoleth::Session;

    fn power_up() -> Self::Session {
        dringoleth::Session::power_up()
    }

    fn read(tag: &[u8], session: &Self::Session, address: usize, count: usize, output: &mut [u8]) -> u8 {
        of_proved(dringoleth::read(tag, session, address, count, output))
    }

    fn write(tag: &mut [u8], session: &mut Self::Session, address: usize, data: &[u8]) -> u8 {
        of_proved(dringoleth::write(tag, session, address, data))
    }

    fn advance(tag: &mut [u8], session: &Self::Session, segment: usize) -> u8 {
        of_proved(dringoleth::advance(tag, session, segment))
    }

    fn run(tag: &mut [u8], session: &mut Self::Session, log: &[u8], output: &mut [u8]) -> usize {
        dringoleth::run(tag, session, log, output).written
    }

    fn bytes(session: &Self::Session) -> [u8; 54] {
        *session.as_bytes()
    }
}

/// Its functions are called, as those of a library are. Merged into what calls them they would depend on it.
pub struct Reference;

fn of_reference(answer: reference::Answer) -> u8 {
    answer.map_or_else(reference::Refusal::number, |()| 0)
}

impl Side for Reference {
    type Session = reference::Session;

    fn power_up() -> Self::Session {
        reference::Session::default()
    }

    #[inline(never)]
    fn read(tag: &[u8], session: &Self::Session, address: usize, count: usize, output: &mut [u8]) -> u8 {
        of_reference(reference::read(tag, session, address, count, output))
    }

    #[inline(never)]
    fn write(tag: &mut [u8], session: &mut Self::Session, address: usize, data: &[u8]) -> u8 {
        of_reference(reference::write(tag, session, address, data))
    }

    #[inline(never)]
    fn advance(tag: &mut [u8], session: &Self::Session, segment: usize) -> u8 {
        of_reference(reference::advance(tag, session, segment))
    }

    #[inline(never)]
    fn run(tag: &mut [u8], session: &mut Self::Session, log: &[u8], output: &mut [u8]) -> usize {
        reference::run(tag, session, log, output).written
    }

    fn bytes(session: &Self::Session) -> [u8; 54] {
        let mut bytes = [0; 54];
        bytes[..2].copy_from_slice(&session.read.to_be_bytes());
        bytes[2..4].copy_from_slice(&session.write.to_be_bytes());
        bytes[4..6].copy_from_slice(&session.edit.to_be_bytes());
        bytes[6..22].copy_from_slice(&session.name);
        bytes[22..38].copy_from_slice(&session.id);
        bytes[38..].copy_from_slice(&session.pa);
        bytes
    }
}

/// Carries out commands with one call for each and puts the replies that a run gives into the output, which has the
/// room. Returns their bytes. The loop is the same for both sides.
#[inline(never)]
pub fn single_calls<S: Side>(
    tag: &mut [u8],
    session: &mut S::Session,
    commands: &[Command],
    output: &mut [u8],
) -> usize {
    let mut written = 0;
    for command in commands {
        written += single_call::<S>(tag, session, command, &mut output[written..]);
    }
    written
}

fn single_call<S: Side>(tag: &mut [u8], session: &mut S::Session, command: &Command, space: &mut [u8]) -> usize {
    let (answer, code, length) = match *command {
        Command::PowerUp => {
            *session = S::power_up();
            (0, 0x50, 1)
        }
        Command::Read { code, address, count } => {
            let answer = S::read(tag, session, address, count, &mut space[1..]);
            (answer, code, 1 + count)
        }
        Command::Write { address, data } => (S::write(tag, session, address, data), 0x50, 1),
        Command::Advance { segment } => (S::advance(tag, session, segment), 0x50, 1),
    };
    if answer == 0 {
        space[0] = code;
        return length;
    }
    space[..2].copy_from_slice(&[0x51, answer]);
    2
}
