//! A command, how it is said in a log, and how it is told in words.

use crate::cipher::Block;
use crate::map::Register;

/// `room` is the length of the output that a read is given.
#[derive(Clone, Debug, PartialEq, Eq)]
pub enum Command {
    PowerUp,
    Read { address: usize, count: usize, room: usize },
    Write { address: usize, data: Vec<u8> },
    Advance { segment: usize },
    Insert { segment: usize, id: Block },
}

/// How many bytes the kinds 11 to 14 read and the kinds 21 to 24 write.
pub const LOG_COUNTS: [usize; 4] = [1, 8, 16, 32];

/// The kind of a log command; reads and writes with their count.
#[derive(Clone, Copy, Debug, PartialEq, Eq)]
pub enum LogKind {
    PowerUp,
    Read(usize),
    Write(usize),
    Advance,
    Insert,
}

pub fn log_kind(byte: u8) -> Option<LogKind> {
    match byte {
        0x00 => Some(LogKind::PowerUp),
        0x11..=0x14 => Some(LogKind::Read(LOG_COUNTS[usize::from(byte - 0x11)])),
        0x21..=0x24 => Some(LogKind::Write(LOG_COUNTS[usize::from(byte - 0x21)])),
        0x31 => Some(LogKind::Advance),
        0x32 => Some(LogKind::Insert),
        _ => None,
    }
}

impl LogKind {
    /// The kind's byte and the body behind it.
    pub fn length(self) -> usize {
        match self {
            LogKind::PowerUp => 1,
            LogKind::Read(_) => 5,
            LogKind::Write(count) => 5 + count,
            LogKind::Advance => 3,
            LogKind::Insert => 19,
        }
    }

    /// The room that a whole command of this kind needs.
    pub fn room(self) -> usize {
        match self {
            LogKind::Read(count) => 1 + count,
            _ => 2,
        }
    }

    /// The first byte and the length of the reply if it is granted.
    pub fn granted(self) -> (u8, usize) {
        match self {
            LogKind::Read(count) => (0x41 + said(count).unwrap_or(0), 1 + count),
            _ => (0x50, 1),
        }
    }
}

/// The place of a count among those that a log can say.
fn said(count: usize) -> Option<u8> {
    LOG_COUNTS.iter().position(|&c| c == count).map(|i| i as u8)
}

/// The nearest count that a log can say.
fn near(count: usize) -> usize {
    LOG_COUNTS.into_iter().rev().find(|&c| c <= count).unwrap_or(1)
}

impl Command {
    pub fn write_register(register: Register, data: &[u8]) -> Command {
        Command::Write {
            address: register.address(),
            data: data.to_vec(),
        }
    }

    /// The nearest command that can be said in a log.
    pub fn for_log(self) -> Command {
        match self {
            Command::PowerUp => Command::PowerUp,
            Command::Read { address, count, .. } => Command::Read {
                address: address & 0xFFFF_FFFF,
                count: near(count),
                room: near(count),
            },
            Command::Write { address, mut data } => {
                data.resize(near(data.len()), 0);
                Command::Write {
                    address: address & 0xFFFF_FFFF,
                    data,
                }
            }
            Command::Advance { segment } => Command::Advance {
                segment: segment & 0xFFFF,
            },
            Command::Insert { segment, id } => Command::Insert {
                segment: segment & 0xFFFF,
                id,
            },
        }
    }

    /// The bytes that say it in a log, if a log can say it. A log gives a read an output of its own length.
    pub fn log_bytes(&self) -> Option<Vec<u8>> {
        let mut bytes = vec![0];
        match self {
            Command::PowerUp => {}
            Command::Read { address, count, room } => {
                bytes[0] = 0x11 + said(*count)?;
                bytes.extend(u32::try_from(*address).ok()?.to_be_bytes());
                (room == count).then_some(())?;
            }
            Command::Write { address, data } => {
                bytes[0] = 0x21 + said(data.len())?;
                bytes.extend(u32::try_from(*address).ok()?.to_be_bytes());
                bytes.extend(data);
            }
            Command::Advance { segment } => {
                bytes[0] = 0x31;
                bytes.extend(u16::try_from(*segment).ok()?.to_be_bytes());
            }
            Command::Insert { segment, id } => {
                bytes[0] = 0x32;
                bytes.extend(u16::try_from(*segment).ok()?.to_be_bytes());
                bytes.extend(id);
            }
        }
        Some(bytes)
    }

    pub fn words(&self) -> String {
        match self {
            Command::PowerUp => "power-up".into(),
            Command::Read { address, count, room } => {
                let read = format!("read {} at {address} ({address:X})", plural(*count, "byte"));
                if room == count {
                    read
                } else {
                    format!("{read} into an output of {room}")
                }
            }
            Command::Write { address, data } => {
                format!(
                    "write {} at {address} ({address:X}): {}",
                    plural(data.len(), "byte"),
                    hex(data)
                )
            }
            Command::Advance { segment } => format!("advance segment {segment}"),
            Command::Insert { segment, id } => format!("insert host, segment {segment}, id {}", hex(id)),
        }
    }
}

pub fn plural(count: usize, of: &str) -> String {
    let s = if count == 1 { "" } else { "s" };
    format!("{count} {of}{s}")
}

/// Bytes in hexadecimal, with a space between two.
pub fn hex(bytes: &[u8]) -> String {
    let mut text = String::new();
    for byte in bytes {
        let space = if text.is_empty() { "" } else { " " };
        text += &format!("{space}{byte:02X}");
    }
    text
}
