//! What a list of commands comes to, as calls or in a run over a log: each answer, and what is left.

use crate::commands::Command;
use crate::compare::Pair;
use crate::demand::{self, Spot};
use crate::logs;
use crate::sessions::Session;
use std::ops::Range;

/// An answer with the bytes read; of a log run, with the whole reply.
#[derive(Clone, Debug, PartialEq, Eq)]
pub struct Reply {
    pub answer: u8,
    pub bytes: Vec<u8>,
}

#[derive(Clone, Debug, PartialEq, Eq)]
pub struct Outcome {
    pub replies: Vec<Reply>,
    /// Where each command stood; only calls tell it.
    pub spots: Vec<Option<Spot>>,
    /// The tag and the session after the list.
    pub end: (Vec<u8>, Session),
}

/// The calls of a list so far.
#[derive(Default)]
pub struct Calls {
    replies: Vec<Reply>,
    spots: Vec<Option<Spot>>,
}

impl Calls {
    /// The next call of the list.
    pub fn call(&mut self, pair: &mut Pair, command: &Command) -> Result<u8, String> {
        let spot = demand::spot_of(pair.tag(), command);
        let answer = pair.call(command)?;
        let bytes = match command {
            Command::Read { count, .. } if answer == 0 => pair.output()[..*count].to_vec(),
            _ => Vec::new(),
        };
        self.spots.push(spot);
        self.replies.push(Reply { answer, bytes });
        Ok(answer)
    }

    pub fn outcome(self, pair: &Pair) -> Outcome {
        Outcome {
            replies: self.replies,
            spots: self.spots,
            end: pair.now(),
        }
    }
}

/// A run over these commands with room enough, so that nothing stops it.
pub fn of_log<'c>(pair: &mut Pair, commands: impl Iterator<Item = &'c Command>) -> Result<Outcome, String> {
    let log = Vec::from_iter(commands.flat_map(|command| command.log_bytes().expect("made for a log")));
    let run = pair.run(&log, logs::enough_for(log.len()))?;
    let walk = logs::walk(&log, run, pair.output())?;
    if run.stop != 0 {
        return Err(format!(
            "both sides: stop {} over whole commands with room enough",
            run.stop
        ));
    }
    let reply = |(answer, at): (u8, Range<usize>)| Reply {
        answer,
        bytes: pair.output()[at].to_vec(),
    };
    Ok(Outcome {
        replies: walk.answers().zip(walk.replies.clone()).map(reply).collect(),
        spots: Vec::new(),
        end: pair.now(),
    })
}
