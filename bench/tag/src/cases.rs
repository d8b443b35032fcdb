//! A case is a workload as one run over its log or as single calls. The bench carries it out on a fresh tag.

use crate::commands::{self, Command};
use crate::image::image;
use crate::sides::{single_calls, Proved, Reference, Side};
use crate::workloads::Workload;
use std::hint::black_box;
use std::time::{Duration, Instant};

#[derive(Clone, Copy)]
enum How {
    Run,
    Calls,
}

pub struct Case<'a> {
    pub workload: &'a Workload,
    pub commands: Vec<Command<'a>>,
    log: &'a [u8],
    how: How,
}

pub fn all(workloads: &[Workload]) -> Vec<Case<'_>> {
    let both = |workload| [How::Run, How::Calls].map(|how| Case::new(workload, how));
    workloads.iter().flat_map(both).collect()
}

impl<'a> Case<'a> {
    fn new(workload: &'a Workload, how: How) -> Self {
        Case {
            workload,
            commands: commands::commands(&workload.log),
            log: &workload.log,
            how,
        }
    }

    pub fn name(&self) -> String {
        let how = match self.how {
            How::Run => "run",
            How::Calls => "calls",
        };
        format!("{}, {how}", self.workload.name)
    }

    /// The case with its first commands alone.
    pub fn first(&self, count: usize) -> Self {
        let commands = self.commands[..count].to_vec();
        let length = commands.iter().map(Command::log_length).sum();
        Case {
            log: &self.log[..length],
            commands,
            ..*self
        }
    }
}

/// What a side leaves.
pub struct Left {
    pub replies: Vec<u8>,
    pub session: [u8; 54],
    pub tag: Vec<u8>,
}

/// The memory that both sides work in, one after the other.
pub struct Bench {
    image: Vec<u8>,
    tag: Vec<u8>,
    output: Vec<u8>,
}

impl Bench {
    pub fn new(workloads: &[Workload]) -> Self {
        let longest = workloads.iter().map(|workload| workload.log.len()).max();
        Bench {
            image: image(),
            tag: image(),
            // Room for any run: 33 bytes, the longest reply, are for 5 of the log.
            output: vec![0; 7 * longest.unwrap_or(0) + 2],
        }
    }

    /// The time that a case takes, the session that it leaves and the bytes of its replies.
    pub fn carry_out<S: Side>(&mut self, case: &Case) -> (Duration, S::Session, usize) {
        self.tag.copy_from_slice(&self.image);
        let mut session = S::power_up();
        let start = Instant::now();
        let written = match case.how {
            How::Run => S::run(&mut self.tag, &mut session, case.log, &mut self.output),
            How::Calls => single_calls::<S>(&mut self.tag, &mut session, &case.commands, &mut self.output),
        };
        (start.elapsed(), black_box(session), written)
    }

    /// The output is filled first, so that a side cannot seem to have read what the other left there.
    pub fn left<S: Side>(&mut self, case: &Case) -> Left {
        self.output.fill(0x5A);
        let (_, session, written) = self.carry_out::<S>(case);
        Left {
            replies: self.output[..written].to_vec(),
            session: S::bytes(&session),
            tag: self.tag.clone(),
        }
    }

    /// The best time of each side for a command, in nanoseconds. They take turns, so that what slows the machine down
    /// for a while slows both.
    pub fn best_times(&mut self, case: &Case, time: Duration) -> [f64; 2] {
        let mut best = [Duration::MAX; 2];
        let start = Instant::now();
        while start.elapsed() < time {
            best[0] = best[0].min(self.carry_out::<Proved>(case).0);
            best[1] = best[1].min(self.carry_out::<Reference>(case).0);
        }
        best.map(|time| time.as_nanos() as f64 / case.commands.len() as f64)
    }
}
