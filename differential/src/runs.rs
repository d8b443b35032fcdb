//! Many cases one after another: each made from the seed and its number, carried out on both sides, and counted.

use crate::aim::{Aim, View};
use crate::cases::{Case, Failure, Log};
use crate::commands::Command;
use crate::compare::{Lending, Pair};
use crate::demand;
use crate::images::{self, Image, LARGEST};
use crate::logs;
use crate::map::{self, Place};
use crate::outcome::{Calls, Outcome};
use crate::random::Random;
use crate::seats;
use crate::sessions::{self, Session, POWER_UP};
use crate::sides::Side;
use crate::spans;
use crate::table;
use crate::tally::Tally;
use crate::variations;

/// Which cases get the largest image: few, since it is slow, but surely some.
const LARGEST_EVERY: u64 = 500;
const LARGEST_FIRST: u64 = 100;

/// A case that failed, up to the command that did.
#[derive(Debug)]
pub struct Found {
    pub number: u64,
    pub case: Case,
    pub failure: Failure,
}

pub struct Runs<'a> {
    seed: u64,
    /// The case that is carried out.
    number: u64,
    pub pair: Pair<'a>,
    pub tally: Tally,
    pub commands: u64,
    pub log_runs: u64,
    pub changed_lists: u64,
}

/// One case in the making: what it starts from, and the commands so far.
struct Making {
    random: Random,
    image: Image,
    session: Session,
    aim: Aim,
    commands: Vec<Command>,
    calls: Calls,
}

impl Making {
    fn new(seed: u64, number: u64) -> Making {
        let mut random = Random::of_case(seed, number);
        let damaged = random.percent(12);
        let image = match number % LARGEST_EVERY {
            LARGEST_FIRST => images::of_map(&mut random, LARGEST),
            _ => images::some_image(&mut random, damaged),
        };
        let session = start_session(&mut random, &image);
        Making {
            aim: Aim::new(image.map),
            random,
            image,
            session,
            commands: Vec::new(),
            calls: Calls::default(),
        }
    }

    /// Few commands where all are refused, many on the largest image.
    fn length(&mut self, most: usize) -> usize {
        match &self.image {
            image if image.damage.is_some() => self.random.below(12),
            image if image.map == LARGEST => most + self.random.below(most),
            _ => self.random.below(most),
        }
    }

    fn next(&mut self, pair: &Pair) -> Command {
        if self.image.damage.is_some() {
            return match self.random.below(16) {
                0 => Command::PowerUp,
                _ => spans::some_span(&mut self.random, self.image.map),
            };
        }
        let view = View {
            tag: pair.tag(),
            session: pair.session(),
        };
        self.aim.next(&mut self.random, view, self.commands.last())
    }

    fn case(self) -> Case {
        Case {
            image: self.image.bytes,
            session: self.session,
            commands: self.commands,
            log: None,
            variation: None,
        }
    }
}

fn start_session(random: &mut Random, image: &Image) -> Session {
    if image.damage.is_some() {
        let mut session = POWER_UP;
        random.fill(&mut session);
        return session;
    }
    let unit = map::unit(&image.bytes, random.below(image.map.segments));
    sessions::some_session(random, unit)
}

impl<'a> Runs<'a> {
    pub fn new(seed: u64, left: &'a dyn Side, right: &'a dyn Side) -> Self {
        Runs::lending(seed, left, right, Lending::Margins)
    }

    pub fn lending(seed: u64, left: &'a dyn Side, right: &'a dyn Side, lending: Lending) -> Self {
        Runs {
            seed,
            number: 0,
            pair: Pair::new(left, right, lending),
            tally: Tally::default(),
            commands: 0,
            log_runs: 0,
            changed_lists: 0,
        }
    }

    /// Cases from number 0 on, until this many commands have been carried out as calls.
    pub fn many(&mut self, commands: u64) -> Result<(), Box<Found>> {
        let mut number = 0;
        while self.commands < commands {
            self.case(number, commands - self.commands)?;
            number += 1;
        }
        Ok(())
    }

    /// One case with at most this many commands: every third is said in a log too, and each is carried out changed.
    pub fn case(&mut self, number: u64, most: u64) -> Result<(), Box<Found>> {
        self.number = number;
        let mut making = Making::new(self.seed, number);
        self.tally.image(&making.image);
        self.pair.start(&making.image.bytes, &making.session);
        let for_log = number % 3 == 2;
        let length = match for_log {
            true if making.random.percent(25) => making.length(3),
            _ => 1 + making.length(80),
        };
        let length = length.min(most.try_into().unwrap_or(usize::MAX));
        for _ in 0..length {
            if let Err(failure) = self.command(&mut making, for_log) {
                let case = making.case();
                return Err(Box::new(Found { number, case, failure }));
            }
        }
        let list = std::mem::take(&mut making.calls).outcome(&self.pair);
        match demand::check_counts(&making.image.bytes, &list) {
            Err(what) => Err(self.found(&making.case(), what)),
            Ok(()) if for_log => self.logs(making, &list),
            Ok(()) => {
                let mut random = Random::new(making.random.number());
                self.changed(&mut random, making.case(), &list)
            }
        }
    }

    fn command(&mut self, making: &mut Making, for_log: bool) -> Result<(), Failure> {
        let command = making.next(&self.pair);
        let command = if for_log { command.for_log() } else { command };
        self.count_ill_formed(making, &command);
        let row = table::row_of(self.pair.tag(), &command);
        let seat = seats::seat_of(self.pair.tag(), &command);
        let answer = making.calls.call(&mut self.pair, &command);
        let index = making.commands.len();
        making.commands.push(command);
        let answer = answer.map_err(|what| Failure { command: index, what })?;
        self.tally.call(&making.commands[index], row, answer);
        seat.inspect(|seat| self.tally.seat(*seat, answer));
        if making.image.map == LARGEST && answer == 0 {
            self.tally.in_largest(table::place_of(LARGEST, &making.commands[index]));
        }
        self.commands += 1;
        Ok(())
    }

    fn count_ill_formed(&mut self, making: &Making, command: &Command) {
        if making.image.damage.is_some() {
            return;
        }
        if let Some(Place::Unit(k) | Place::Segment(k)) = table::place_of(making.image.map, command) {
            // An ill-formed unit stays as it is: no edit of it is granted.
            if let Some(way) = making.image.ill_formed[k] {
                self.tally.ill_formed(way);
            }
        }
    }

    /// The commands once more as a log, with something behind them, in outputs of several lengths; and as logs that are
    /// changed, with nothing behind them.
    fn logs(&mut self, mut making: Making, list: &Outcome) -> Result<(), Box<Found>> {
        let last = making.next(&self.pair);
        let tail = logs::some_tail(&mut making.random, last);
        let mut random = Random::new(making.random.number());
        let mut case = making.case();
        let commands = case.log_bytes().expect("made for a log").len();
        let room = logs::much_room(&mut random, commands + tail.len());
        let then = Vec::new();
        let mut log = Log { tail, room, then };
        let enough = self.log_run(&mut case, &log, list, logs::MUCH)?;
        for _ in 0..2 {
            let class = random.below(logs::MUCH);
            let Some(room) = logs::some_room(&mut random, class, enough) else {
                continue;
            };
            log.room = room;
            log.then = logs::some_rooms(&mut random);
            self.log_run(&mut case, &log, list, class)?;
        }
        case.log = Some(Log::default());
        self.changed(&mut random, case, list)
    }

    /// The commands once more with something of demand 3 changed, as the case has them: as calls or in a log.
    fn changed(&mut self, random: &mut Random, mut case: Case, list: &Outcome) -> Result<(), Box<Found>> {
        let copies = variations::some_copies(random, &case.image, list);
        let exchanges = variations::some_exchanges(random, list);
        for variation in copies.into_iter().chain(exchanges) {
            let changed = case.changed(&variation, &mut self.pair, list);
            case.variation = Some(variation);
            let (entries, met) = changed.map_err(|what| self.found(&case, what))?;
            self.tally.changed(case.log.is_some(), &entries, list, &met);
            self.changed_lists += 1;
        }
        Ok(())
    }

    /// Returns the least room with which the run would have come as far.
    fn log_run(&mut self, case: &mut Case, log: &Log, list: &Outcome, class: usize) -> Result<usize, Box<Found>> {
        case.log = Some(log.clone());
        let ran = case.run_log(log, &mut self.pair, list);
        let ran = ran.map_err(|what| self.found(case, what))?;
        self.tally.run(class, &ran);
        self.log_runs += 1;
        Ok(ran.walk.enough)
    }

    /// What is found in the case as a whole.
    fn found(&self, case: &Case, what: String) -> Box<Found> {
        Box::new(Found {
            number: self.number,
            case: case.clone(),
            failure: case.at_the_end(what),
        })
    }
}
