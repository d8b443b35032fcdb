//! The commands and the replies of a log, one by one. The commands are read before the clock starts, so that the single
//! calls do not pay for it.

/// How many bytes the kinds 11 to 14 read and the kinds 21 to 24 write.
pub const COUNTS: [usize; 4] = [1, 8, 16, 32];

/// `code` begins the reply to a read that is granted.
#[derive(Clone, Copy)]
pub enum Command<'a> {
    PowerUp,
    Read { code: u8, address: usize, count: usize },
    Write { address: usize, data: &'a [u8] },
    Advance { segment: usize },
}

impl Command<'_> {
    /// The bytes that say it in a log.
    pub fn log_length(&self) -> usize {
        match self {
            Command::PowerUp => 1,
            Command::Read { .. } => 5,
            Command::Write { data, .. } => 5 + data.len(),
            Command::Advance { .. } => 3,
        }
    }

    pub fn words(&self) -> String {
        match self {
            Command::PowerUp => "power-up".into(),
            Command::Read { address, count, .. } => format!("read of {count} at {address} ({address:X})"),
            Command::Write { address, data } => format!("write at {address} ({address:X}) of {}", hex(data)),
            Command::Advance { segment } => format!("advance of segment {segment}"),
        }
    }
}

/// The first command of a log. The host writes whole commands, and none of other kinds.
fn first(log: &[u8]) -> Command<'_> {
    let address = || u32::from_be_bytes([log[1], log[2], log[3], log[4]]) as usize;
    match log[0] {
        0x00 => Command::PowerUp,
        kind @ 0x11..=0x14 => Command::Read {
            code: kind + 0x30,
            address: address(),
            count: COUNTS[usize::from(kind - 0x11)],
        },
        kind @ 0x21..=0x24 => Command::Write {
            address: address(),
            data: &log[5..5 + COUNTS[usize::from(kind - 0x21)]],
        },
        0x31 => Command::Advance {
            segment: usize::from(u16::from_be_bytes([log[1], log[2]])),
        },
        kind => unreachable!("the host writes no command of kind {kind:02X}"),
    }
}

pub fn commands(mut log: &[u8]) -> Vec<Command<'_>> {
    let mut commands = Vec::new();
    while !log.is_empty() {
        let command = first(log);
        log = &log[command.log_length()..];
        commands.push(command);
    }
    commands
}

/// The replies in an output. A byte that begins no reply is taken as one, and the last one may be cut off.
pub fn replies(mut output: &[u8]) -> Vec<&[u8]> {
    let mut replies = Vec::new();
    while let Some(&code) = output.first() {
        let length = match code {
            0x41..=0x44 => 1 + COUNTS[usize::from(code - 0x41)],
            0x51 => 2,
            _ => 1,
        };
        let (reply, rest) = output.split_at(length.min(output.len()));
        replies.push(reply);
        output = rest;
    }
    replies
}

/// Bytes in hexadecimal, with a space between two.
pub fn hex(bytes: &[u8]) -> String {
    let bytes: Vec<String> = bytes.iter().map(|byte| format!("{byte:02X}")).collect();
    bytes.join(" ")
}
