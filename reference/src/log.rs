//! The command log: running a list of commands over a tag and writing down the replies.

use crate::map::{Map, BLOCK};
use crate::refusal::{Answer, Refusal};
use crate::session::Session;
use crate::tag::{advance_sound, insert_sound, read_sound, write_sound};

/// The reply code of anything granted that is not a read.
const DONE: u8 = 0x50;
/// The reply code of a refusal; the number follows.
const REFUSED: u8 = 0x51;

/// The counts of reads and writes by their kind's low digit, which starts at 1.
const COUNTS: [usize; 4] = [1, 8, 16, 32];

/// Why a run ended.
#[derive(Clone, Copy, Debug, PartialEq, Eq)]
pub enum Stop {
    /// The log is at its end.
    End,
    /// Refusal 15: unknown kind or short body.
    BadCommand,
    /// Refusal 16: no room for the next reply.
    OutputFull,
}

impl Stop {
    /// The refusal number, or 0 at the end of the log.
    pub fn number(self) -> u8 {
        match self {
            Stop::End => 0,
            Stop::BadCommand => 15,
            Stop::OutputFull => 16,
        }
    }
}

/// What a run did: the bytes it read of the log and wrote of the output, and why it ended.
#[derive(Clone, Copy, Debug, PartialEq, Eq)]
pub struct Run {
    pub read: usize,
    pub written: usize,
    pub stop: Stop,
}

enum Command<'a> {
    PowerUp,
    Read { code: u8, address: usize, count: usize },
    Write { address: usize, data: &'a [u8] },
    Advance { segment: usize },
    Insert { segment: usize, id: &'a [u8; BLOCK] },
}

impl Command<'_> {
    /// The room its reply must have, whatever the answer will be.
    fn room(&self) -> usize {
        match self {
            Command::Read { count, .. } => 1 + count,
            _ => 2,
        }
    }
}

/// Runs the commands of the log from the given session and leaves the session as the last command left it.
pub fn run(tag: &mut [u8], session: &mut Session, log: &[u8], output: &mut [u8]) -> Run {
    // No command changes whether the tag is sound, so it is tested once for the whole run.
    let map = Map::of(tag);
    let mut rest = log;
    let mut written = 0;
    let stop = loop {
        if rest.is_empty() {
            break Stop::End;
        }
        let space = &mut output[written..];
        let Some((command, tail)) = first_command(rest) else {
            let (stop, length) = reply_bad_command(space);
            written += length;
            break stop;
        };
        if space.len() < command.room() {
            break Stop::OutputFull;
        }
        written += carry_out(map, tag, session, command, space);
        rest = tail;
    };
    Run {
        read: log.len() - rest.len(),
        written,
        stop,
    }
}

/// The first command of a log and what follows it; nothing if the kind is unknown or the body short.
#[inline]
fn first_command(log: &[u8]) -> Option<(Command<'_>, &[u8])> {
    let (&kind, body) = log.split_first()?;
    match kind {
        0x00 => Some((Command::PowerUp, body)),
        0x11..=0x14 => {
            let (address, rest) = split_address(body)?;
            let (code, count) = (kind + 0x30, COUNTS[usize::from(kind - 0x11)]);
            Some((Command::Read { code, address, count }, rest))
        }
        0x21..=0x24 => {
            let (address, rest) = split_address(body)?;
            let (data, rest) = rest.split_at_checked(COUNTS[usize::from(kind - 0x21)])?;
            Some((Command::Write { address, data }, rest))
        }
        0x31 => {
            let (segment, rest) = split_segment(body)?;
            Some((Command::Advance { segment }, rest))
        }
        0x32 => {
            let (segment, rest) = split_segment(body)?;
            let (id, rest) = rest.split_first_chunk()?;
            Some((Command::Insert { segment, id }, rest))
        }
        _ => None,
    }
}

#[inline]
fn split_address(body: &[u8]) -> Option<(usize, &[u8])> {
    let (address, rest) = body.split_first_chunk()?;
    Some((u32::from_be_bytes(*address) as usize, rest))
}

fn split_segment(body: &[u8]) -> Option<(usize, &[u8])> {
    let (segment, rest) = body.split_first_chunk()?;
    Some((usize::from(u16::from_be_bytes(*segment)), rest))
}

/// Carries out a command and writes its reply at the front of the space, which has the room. Returns the reply's
/// length.
#[inline]
fn carry_out(
    map: Result<Map, Refusal>,
    tag: &mut [u8],
    session: &mut Session,
    command: Command,
    space: &mut [u8],
) -> usize {
    match command {
        Command::PowerUp => {
            *session = Session::default();
            reply(Ok(()), DONE, 1, space)
        }
        Command::Read { code, address, count } => {
            let answer = map.and_then(|map| read_sound(map, tag, session, address, &mut space[1..=count]));
            reply(answer, code, 1 + count, space)
        }
        Command::Write { address, data } => {
            let answer = map.and_then(|map| write_sound(map, tag, session, address, data));
            reply(answer, DONE, 1, space)
        }
        Command::Advance { segment } => {
            let answer = map.and_then(|map| advance_sound(map, tag, session, segment));
            reply(answer, DONE, 1, space)
        }
        Command::Insert { segment, id } => {
            let answer = map.and_then(|map| insert_sound(map, tag, session, segment, id));
            reply(answer, DONE, 1, space)
        }
    }
}

/// Writes the code of a granted command, whose data is in the space already, or a refusal. Returns the reply's
/// length.
#[inline]
fn reply(answer: Answer, code: u8, length: usize, space: &mut [u8]) -> usize {
    match answer {
        Ok(()) => {
            space[0] = code;
            length
        }
        Err(refusal) => {
            space[..2].copy_from_slice(&[REFUSED, refusal.number()]);
            2
        }
    }
}

/// The reply to something that is not a command, if there is room for one; how the run stops; the reply's length.
fn reply_bad_command(space: &mut [u8]) -> (Stop, usize) {
    match space.first_chunk_mut() {
        Some(reply) => {
            *reply = [REFUSED, Stop::BadCommand.number()];
            (Stop::BadCommand, 2)
        }
        None => (Stop::OutputFull, 0),
    }
}
