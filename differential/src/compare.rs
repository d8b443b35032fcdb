//! One call or one log run on both sides, and every byte compared afterwards.

use crate::commands::{plural, Command};
use crate::map::FLAG;
use crate::sessions::{Session, POWER_UP};
use crate::sides::{Run, Side};
use std::ops::Range;
use std::panic::{catch_unwind, AssertUnwindSafe};

/// Bytes before and behind each buffer, which no call may change.
const MARGIN: [u8; 64] = [0xC7; 64];

/// How buffers are lent.
#[derive(Clone, Copy, Debug, Default, PartialEq, Eq)]
pub enum Lending {
    /// Between two margins.
    #[default]
    Margins,
    /// Each an allocation of its own of just its length: memcheck sees reads outside of it, which no margin shows.
    Exact,
}
/// What an output holds before a call.
const UNTOUCHED: u8 = 0x5A;
/// Stands for the answer of a side that panicked.
const PANICKED: u8 = 255;

/// A buffer, with its margins if it has them.
#[derive(Default)]
struct Buffer {
    bytes: Vec<u8>,
    length: usize,
    lending: Lending,
}

impl Buffer {
    fn new(lending: Lending) -> Self {
        Buffer {
            lending,
            ..Buffer::default()
        }
    }

    fn margin(&self) -> &'static [u8] {
        match self.lending {
            Lending::Margins => &MARGIN,
            Lending::Exact => &[],
        }
    }

    fn resize(&mut self, length: usize) {
        let margin = self.margin();
        let whole = length + 2 * margin.len();
        if self.lending == Lending::Exact {
            self.bytes = vec![0; length];
        } else if self.bytes.len() < whole {
            self.bytes.resize(whole, 0);
        }
        self.length = length;
        self.bytes[..margin.len()].copy_from_slice(margin);
        self.bytes[margin.len() + length..whole].copy_from_slice(margin);
    }

    fn load(&mut self, content: &[u8]) {
        self.resize(content.len());
        self.part_mut().copy_from_slice(content);
    }

    fn bounds(&self) -> Range<usize> {
        let start = self.margin().len();
        start..start + self.length
    }

    fn part(&self) -> &[u8] {
        &self.bytes[self.bounds()]
    }

    fn part_mut(&mut self) -> &mut [u8] {
        let bounds = self.bounds();
        &mut self.bytes[bounds]
    }

    fn margins_hold(&self) -> bool {
        let (margin, bounds) = (self.margin(), self.bounds());
        self.bytes[..bounds.start] == *margin && self.bytes[bounds.end..][..margin.len()] == *margin
    }
}

/// One side with all that it is lent; `input` is the data of a write, the id of an insertion, or a log.
struct Lent<'a> {
    side: &'a dyn Side,
    tag: Buffer,
    session: Session,
    output: Buffer,
    input: Buffer,
}

impl<'a> Lent<'a> {
    fn new(side: &'a dyn Side, lending: Lending) -> Self {
        Lent {
            side,
            tag: Buffer::new(lending),
            session: POWER_UP,
            output: Buffer::new(lending),
            input: Buffer::new(lending),
        }
    }

    fn lend(&mut self, input: &[u8], room: usize) {
        self.input.load(input);
        self.output.resize(room);
        self.output.part_mut().fill(UNTOUCHED);
    }

    fn call(&mut self, command: &Command) -> u8 {
        let (side, session) = (self.side, &mut self.session);
        let (tag, output) = (self.tag.part_mut(), self.output.part_mut());
        let data = self.input.part();
        catch_unwind(AssertUnwindSafe(|| match *command {
            Command::PowerUp => {
                side.power_up(session);
                0
            }
            Command::Read { address, count, .. } => side.read(tag, session, address, count, output),
            Command::Write { address, .. } => side.write(tag, session, address, data),
            Command::Advance { segment } => side.advance(tag, session, segment),
            Command::Insert { segment, .. } => {
                side.insert(tag, session, segment, data.try_into().expect("an id is lent"))
            }
        }))
        .unwrap_or(PANICKED)
    }

    fn run(&mut self) -> Run {
        let (side, session) = (self.side, &mut self.session);
        let (tag, output) = (self.tag.part_mut(), self.output.part_mut());
        let log = self.input.part();
        let panicked = Run {
            read: 0,
            written: 0,
            stop: PANICKED,
        };
        catch_unwind(AssertUnwindSafe(|| side.run(tag, session, log, output))).unwrap_or(panicked)
    }

    /// Nothing outside what was lent to be written has changed.
    fn check(&self, input: &[u8]) -> Result<(), String> {
        let name = self.side.name();
        for (buffer, of) in [
            (&self.tag, "tag"),
            (&self.output, "output"),
            (&self.input, "data, id or log"),
        ] {
            if !buffer.margins_hold() {
                return Err(format!("{name} writes outside the {of}"));
            }
        }
        if self.input.part() != input {
            return Err(format!("{name} changes the data, id or log"));
        }
        Ok(())
    }
}

pub fn in_words(answer: u8) -> String {
    match answer {
        0 => "granted".into(),
        PANICKED => "a panic".into(),
        number => format!("refused {number}"),
    }
}

fn run_in_words(run: Run) -> String {
    let stop = match run.stop {
        0 => "end of the log".into(),
        PANICKED => return "a panic".into(),
        number => format!("stop {number}"),
    };
    format!("{stop}, {} read, {} written", plural(run.read, "byte"), run.written)
}

/// Where two byte lists of one length first differ, in words.
pub fn first_difference(of: &str, left: &[u8], right: &[u8], names: [&str; 2]) -> Result<(), String> {
    if left == right {
        return Ok(());
    }
    let at = left.iter().zip(right).position(|(a, b)| a != b);
    let at = at.unwrap_or(left.len().min(right.len()));
    let [a, b] = [left.get(at), right.get(at)].map(|byte| byte.map_or("nothing".into(), |byte| format!("{byte:02X}")));
    Err(format!(
        "{of} byte {at} ({at:X}): {a} by {}, {b} by {}",
        names[0], names[1]
    ))
}

/// Both sides, and the tag and session as they were before the call.
pub struct Pair<'a> {
    left: Lent<'a>,
    right: Lent<'a>,
    tag_before: Vec<u8>,
    session_before: Session,
}

impl<'a> Pair<'a> {
    pub fn new(left: &'a dyn Side, right: &'a dyn Side, lending: Lending) -> Self {
        Pair {
            left: Lent::new(left, lending),
            right: Lent::new(right, lending),
            tag_before: Vec::new(),
            session_before: POWER_UP,
        }
    }

    pub fn start(&mut self, image: &[u8], session: &Session) {
        for lent in [&mut self.left, &mut self.right] {
            lent.side.begin();
            lent.tag.load(image);
            lent.session = *session;
        }
        self.tag_before.clear();
        self.tag_before.extend_from_slice(image);
        self.session_before = *session;
    }

    /// The tag after the commands so far.
    pub fn tag(&self) -> &[u8] {
        &self.tag_before
    }

    pub fn session(&self) -> &Session {
        &self.session_before
    }

    /// What the first side holds, and after a comparison both.
    pub fn now(&self) -> (Vec<u8>, Session) {
        (self.left.tag.part().to_vec(), self.left.session)
    }

    fn names(&self) -> [&'static str; 2] {
        [self.left.side.name(), self.right.side.name()]
    }

    /// The answer both give, or in words what differs or is wrong on both.
    pub fn call(&mut self, command: &Command) -> Result<u8, String> {
        let data = match command {
            Command::Write { data, .. } => data.as_slice(),
            Command::Insert { id, .. } => id,
            _ => &[],
        };
        let room = match command {
            Command::Read { room, .. } => *room,
            _ => 0,
        };
        self.left.lend(data, room);
        self.right.lend(data, room);
        let answers = [self.left.call(command), self.right.call(command)];
        if answers[0] != answers[1] {
            let [a, b] = self.names();
            return Err(format!("{a}: {}; {b}: {}", in_words(answers[0]), in_words(answers[1])));
        }
        self.same_bytes(data)?;
        self.rules_of_a_call(command, answers[0])?;
        self.keep(command, answers[0]);
        Ok(answers[0])
    }

    /// What both return of a log run, or in words what differs or is wrong on both.
    pub fn run(&mut self, log: &[u8], room: usize) -> Result<Run, String> {
        self.left.lend(log, room);
        self.right.lend(log, room);
        let runs = [self.left.run(), self.right.run()];
        if runs[0] != runs[1] {
            let [a, b] = self.names();
            return Err(format!(
                "{a}: {}; {b}: {}",
                run_in_words(runs[0]),
                run_in_words(runs[1])
            ));
        }
        self.same_bytes(log)?;
        if runs[0].written > room || runs[0].read > log.len() {
            return Err(format!(
                "both sides: {} of {} and {room}",
                run_in_words(runs[0]),
                log.len()
            ));
        }
        self.untouched_from(runs[0].written)?;
        Ok(runs[0])
    }

    /// The output that a run wrote.
    pub fn output(&self) -> &[u8] {
        self.left.output.part()
    }

    fn same_bytes(&self, input: &[u8]) -> Result<(), String> {
        let (a, b) = (&self.left, &self.right);
        first_difference("session", &a.session, &b.session, self.names())?;
        first_difference("tag", a.tag.part(), b.tag.part(), self.names())?;
        first_difference("output", a.output.part(), b.output.part(), self.names())?;
        a.check(input)?;
        b.check(input)
    }

    fn untouched_from(&self, start: usize) -> Result<(), String> {
        match self.left.output.part()[start..]
            .iter()
            .position(|&byte| byte != UNTOUCHED)
        {
            None => Ok(()),
            Some(at) => Err(format!(
                "both sides write output byte {}, past the {start} due",
                start + at
            )),
        }
    }

    /// What holds of every answer alone: a refusal changes nothing, except 11, which sets the flag; a granted read fills
    /// the first bytes of its output with the tag's and changes nothing else.
    fn rules_of_a_call(&mut self, command: &Command, answer: u8) -> Result<(), String> {
        let rules = ["both sides", "the rules"];
        match *command {
            _ if answer == PANICKED => return Err("both sides: a panic".into()),
            Command::Read { address, count, .. } if answer == 0 => {
                let end = address.saturating_add(count);
                let (Some(read), Some(due)) = (self.output().get(..count), self.tag_before.get(address..end)) else {
                    return Err("both sides: granted, and no such bytes or no room for them".into());
                };
                first_difference("output", read, due, rules)?;
                self.untouched_from(count)?;
            }
            _ if answer == 0 => return self.untouched_from(0),
            _ => self.untouched_from(0)?,
        }
        if let (11, Some(flag)) = (answer, self.tag_before.get_mut(FLAG)) {
            *flag = 1;
        }
        first_difference("session", &self.left.session, &self.session_before, rules)?;
        first_difference("tag", self.left.tag.part(), &self.tag_before, rules)
    }

    /// A command that may have changed something becomes what was before the next one.
    fn keep(&mut self, command: &Command, answer: u8) {
        if answer == 0 && !matches!(command, Command::Read { .. }) {
            self.tag_before.copy_from_slice(self.left.tag.part());
            self.session_before = self.left.session;
        }
    }
}
