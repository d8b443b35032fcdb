//! The proved tag, safe to call from Rust: a thin wrapper over the static library that include/dringoleth.h declares.
//! The library requires nothing, so that there is nothing to test before a call, and no call panics.

mod c;
mod refusal;
mod session;

pub use refusal::Refusal;
pub use session::Session;

/// Granted, or the lowest refusal that applies.
pub type Answer = Result<(), Refusal>;

/// Reads `count` bytes into the front of the output. A refused read ([`Refusal::OF_READ`]) leaves the output as it was.
pub fn read(tag: &[u8], session: &Session, address: usize, count: usize, output: &mut [u8]) -> Answer {
    // SAFETY: each pointer and length is one slice's, lent for the call; the two that are lent to be read may overlap
    // nothing that is lent to be written, since that is borrowed mutably.
    Refusal::answer(unsafe {
        c::dringoleth_read(
            tag.as_ptr(),
            tag.len(),
            session.as_bytes(),
            address,
            count,
            output.as_mut_ptr(),
            output.len(),
        )
    })
}

/// Writes the data at the address, unless it is refused ([`Refusal::OF_WRITE`]). A register write changes the session.
pub fn write(tag: &mut [u8], session: &mut Session, address: usize, data: &[u8]) -> Answer {
    // SAFETY: as above.
    Refusal::answer(unsafe {
        c::dringoleth_write(
            tag.as_mut_ptr(),
            tag.len(),
            session.as_mut_bytes(),
            address,
            data.as_ptr(),
            data.len(),
        )
    })
}

/// Takes a segment of model 3 to its next stage, unless it is refused ([`Refusal::OF_ADVANCE`]).
pub fn advance(tag: &mut [u8], session: &Session, segment: usize) -> Answer {
    // SAFETY: as above.
    Refusal::answer(unsafe { c::dringoleth_advance(tag.as_mut_ptr(), tag.len(), session.as_bytes(), segment) })
}

/// Inserts the host with this id, whose stream is in the segment: it shares a key with each host before it, and its
/// segment can then be read. It may be refused ([`Refusal::OF_INSERT`]); include/dringoleth.h says when.
pub fn insert(tag: &mut [u8], session: &Session, segment: usize, id: &[u8; 16]) -> Answer {
    // SAFETY: as above.
    Refusal::answer(unsafe { c::dringoleth_insert(tag.as_mut_ptr(), tag.len(), session.as_bytes(), segment, id) })
}

/// Why a run over a log ended.
#[derive(Clone, Copy, Debug, PartialEq, Eq)]
pub enum Stop {
    /// The log is at its end.
    End,
    /// A command of unknown kind or with too short a body; it is replied 51 0F.
    BadCommand,
    /// No room for the reply to the next command, which is not carried out.
    OutputFull,
}

/// What a run did: the bytes that it read of the log and wrote of the output, and why it ended.
#[derive(Clone, Copy, Debug, PartialEq, Eq)]
pub struct Run {
    pub read: usize,
    pub written: usize,
    pub stop: Stop,
}

/// Runs the commands of a log from the given session, and leaves the session as the last command left it.
pub fn run(tag: &mut [u8], session: &mut Session, log: &[u8], output: &mut [u8]) -> Run {
    let (mut read, mut written) = (0, 0);
    // SAFETY: as above; the two numbers are locals.
    let stop = unsafe {
        c::dringoleth_run(
            tag.as_mut_ptr(),
            tag.len(),
            session.as_mut_bytes(),
            log.as_ptr(),
            log.len(),
            output.as_mut_ptr(),
            output.len(),
            &mut read,
            &mut written,
        )
    };
    let stop = match stop {
        0 => Stop::End,
        15 => Stop::BadCommand,
        16 => Stop::OutputFull,
        other => unreachable!("a run stops with 0, 15 or 16, and not with {other}"),
    };
    Run { read, written, stop }
}
