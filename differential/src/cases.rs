//! A case: an image, a session, and commands carried out as calls or as one log.

use crate::commands::Command;
use crate::compare::Pair;
use crate::demand;
use crate::logs::{self, Walk, ANY_REPLY};
use crate::outcome::{Calls, Outcome};
use crate::sessions::Session;
use crate::sides::Run;
use crate::variations::{self, Entry, Variation};

/// What stands in a log behind its commands, and the length of the output.
#[derive(Clone, Debug, Default, PartialEq, Eq)]
pub struct Log {
    pub tail: Vec<u8>,
    pub room: usize,
    /// The lengths of the outputs with which it goes on after a 16, in turn. If there are none, it does not.
    pub then: Vec<usize>,
}

/// A run over a log.
pub struct Ran {
    pub stop: u8,
    pub walk: Walk,
    /// What stopped the runs that went on after a 16 in the end.
    pub in_the_end: Option<u8>,
}

#[derive(Clone, Debug, PartialEq, Eq)]
pub struct Case {
    pub image: Vec<u8>,
    pub session: Session,
    pub commands: Vec<Command>,
    /// None where the commands are calls.
    pub log: Option<Log>,
    /// With it the list is carried out as it is and changed.
    pub variation: Option<Variation>,
}

/// Which command it was (of a log run: how many there are), and what is wrong, in words.
#[derive(Clone, Debug, PartialEq, Eq)]
pub struct Failure {
    pub command: usize,
    pub what: String,
}

impl Case {
    /// All commands and the tail as one log, if a log can say them.
    pub fn log_bytes(&self) -> Option<Vec<u8>> {
        let mut bytes = Vec::new();
        for command in &self.commands {
            bytes.extend(command.log_bytes()?);
        }
        if let Some(log) = &self.log {
            bytes.extend(&log.tail);
        }
        Some(bytes)
    }

    /// Carries the case out on both sides. A log that cannot be said does not fail.
    pub fn failure(&self, pair: &mut Pair) -> Option<Failure> {
        match self.log {
            Some(_) if self.log_bytes().is_none() => None,
            _ => self.carry_out(pair).err(),
        }
    }

    fn carry_out(&self, pair: &mut Pair) -> Result<(), Failure> {
        let list = self.calls(pair)?;
        let result = match (&self.variation, &self.log) {
            (Some(variation), _) => self.changed(variation, pair, &list).map(drop),
            (None, Some(log)) => self.run_log(log, pair, &list).map(drop),
            (None, None) => Ok(()),
        };
        result.map_err(|what| self.at_the_end(what))
    }

    /// A failure that is of no one command.
    pub fn at_the_end(&self, what: String) -> Failure {
        let command = self.commands.len();
        Failure { command, what }
    }

    /// The commands as calls, which must count right.
    fn calls(&self, pair: &mut Pair) -> Result<Outcome, Failure> {
        pair.start(&self.image, &self.session);
        let mut calls = Calls::default();
        for (command, said) in self.commands.iter().enumerate() {
            calls.call(pair, said).map_err(|what| Failure { command, what })?;
        }
        let list = calls.outcome(pair);
        demand::check_counts(&self.image, &list).map_err(|what| self.at_the_end(what))?;
        Ok(list)
    }

    /// Carries out the changed list, as calls or in a log. It must come to what the list as it is does.
    pub fn changed(
        &self,
        variation: &Variation,
        pair: &mut Pair,
        list: &Outcome,
    ) -> Result<(Vec<Entry>, Outcome), String> {
        let in_log = match self.log {
            Some(_) => Some(self.in_log(pair, list)?),
            None => None,
        };
        let entries = variation.entries(&self.image, list);
        let met = variations::carried_out(self, pair, &entries)?;
        variations::compare(&entries, in_log.as_ref().unwrap_or(list), &met)?;
        Ok((entries, met))
    }

    /// What the list as it is comes to in a log, which must count right too.
    fn in_log(&self, pair: &mut Pair, list: &Outcome) -> Result<Outcome, String> {
        let mut in_log = variations::carried_out(self, pair, &variations::plain(self.commands.len()))?;
        in_log.spots.clone_from(&list.spots);
        demand::check_counts(&self.image, &in_log)?;
        Ok(in_log)
    }

    /// What stands before each command as a call, up to one that fails.
    pub fn states(&self, pair: &mut Pair) -> Vec<(Vec<u8>, Session)> {
        pair.start(&self.image, &self.session);
        let mut states = vec![pair.now()];
        for command in &self.commands {
            if pair.call(command).is_err() {
                break;
            }
            states.push(pair.now());
        }
        states
    }

    /// How long the reply to each command is in a log, by its answer as a call; 0 where a call fails.
    pub fn reply_lengths(&self, pair: &mut Pair) -> Vec<usize> {
        pair.start(&self.image, &self.session);
        let mut length = |command: &Command| match (pair.call(command), command) {
            (Ok(0), Command::Read { count, .. }) => 1 + count,
            (Ok(0), _) => 1,
            (Ok(_), _) => 2,
            (Err(_), _) => 0,
        };
        self.commands.iter().map(&mut length).collect()
    }

    /// Runs the log. The replies must be what the same commands get as calls, and if it is to the end of these, tag and
    /// session must be what the calls leave.
    pub fn run_log(&self, log: &Log, pair: &mut Pair, list: &Outcome) -> Result<Ran, String> {
        let bytes = self.log_bytes().ok_or("not a log")?;
        pair.start(&self.image, &self.session);
        let run = pair.run(&bytes, log.room)?;
        let walk = logs::walk(&bytes, run, pair.output())?;
        let answered = list.replies.iter().map(|reply| reply.answer);
        if !walk
            .answers()
            .zip(answered)
            .all(|(replied, answered)| replied == answered)
        {
            return Err("both sides: the replies are not the answers of the same commands as calls".into());
        }
        if log.tail.is_empty() && run.stop == 0 && pair.now() != list.end {
            return Err("both sides: tag or session are not what the same commands leave as calls".into());
        }
        let goes_on = run.stop == 16 && !log.then.is_empty();
        let in_the_end = if goes_on {
            Some(self.go_on(pair, &bytes, log)?)
        } else {
            None
        };
        Ok(Ran {
            stop: run.stop,
            walk,
            in_the_end,
        })
    }

    /// The run in parts: after each 16 the next goes on from what is left with another output, until the end or a 15.
    /// Together they must be the run with room enough. Returns what stopped them in the end.
    fn go_on(&self, pair: &mut Pair, bytes: &[u8], log: &Log) -> Result<u8, String> {
        pair.start(&self.image, &self.session);
        let due = pair.run(bytes, logs::enough_for(bytes.len()))?;
        let (due_output, due_end) = (pair.output()[..due.written].to_vec(), pair.now());
        pair.start(&self.image, &self.session);
        let (met, output) = parts(pair, bytes, log)?;
        if met != due {
            return Err(format!(
                "both sides: the parts of a run are together {met:?}, and the whole is {due:?}"
            ));
        }
        if output != due_output || pair.now() != due_end {
            return Err("both sides: the parts of a run do not come to what the whole run does".into());
        }
        Ok(met.stop)
    }
}

/// The parts of a run one behind another: what they return together, and their outputs.
fn parts(pair: &mut Pair, bytes: &[u8], log: &Log) -> Result<(Run, Vec<u8>), String> {
    let mut rooms = log.then.iter().cycle();
    let (mut read, mut output, mut room) = (0, Vec::new(), log.room);
    loop {
        let run = pair.run(&bytes[read..], room)?;
        read += run.read;
        output.extend_from_slice(&pair.output()[..run.written]);
        if run.stop != 16 {
            let (written, stop) = (output.len(), run.stop);
            return Ok((Run { read, written, stop }, output));
        }
        if run.read == 0 && room >= ANY_REPLY {
            return Err("both sides: a 16 with room for any reply".into());
        }
        // What got nothing done gets room for any reply.
        room = rooms
            .next()
            .map_or(ANY_REPLY, |&room| if run.read == 0 { ANY_REPLY } else { room });
    }
}
