//! The two sides under one set of functions. Answers are numbers: 0 for granted, else the refusal.

use crate::cipher::Block;
use crate::sessions::{self, Session, EDIT, ID, NAME, PA, READ, WRITE};

/// What a log run returns.
#[derive(Clone, Copy, Debug, PartialEq, Eq)]
pub struct Run {
    pub read: usize,
    pub written: usize,
    pub stop: u8,
}

pub trait Side {
    fn name(&self) -> &'static str;
    /// Another list of commands begins. A side that keeps nothing between calls need not know.
    fn begin(&self) {}
    fn power_up(&self, session: &mut Session);
    fn read(&self, tag: &[u8], session: &Session, address: usize, count: usize, output: &mut [u8]) -> u8;
    fn write(&self, tag: &mut [u8], session: &mut Session, address: usize, data: &[u8]) -> u8;
    fn advance(&self, tag: &mut [u8], session: &Session, segment: usize) -> u8;
    fn insert(&self, tag: &mut [u8], session: &Session, segment: usize, id: &Block) -> u8;
    fn run(&self, tag: &mut [u8], session: &mut Session, log: &[u8], output: &mut [u8]) -> Run;
}

pub struct Reference;

fn opened(session: &Session) -> reference::Session {
    let block = |at: usize| session[at..at + 16].try_into().expect("16 bytes");
    reference::Session {
        read: sessions::index(session, READ),
        write: sessions::index(session, WRITE),
        edit: sessions::index(session, EDIT),
        name: block(NAME),
        id: block(ID),
        pa: block(PA),
    }
}

fn closed(session: &reference::Session) -> Session {
    let mut bytes = sessions::POWER_UP;
    bytes[READ..WRITE].copy_from_slice(&session.read.to_be_bytes());
    bytes[WRITE..EDIT].copy_from_slice(&session.write.to_be_bytes());
    bytes[EDIT..NAME].copy_from_slice(&session.edit.to_be_bytes());
    bytes[NAME..ID].copy_from_slice(&session.name);
    bytes[ID..PA].copy_from_slice(&session.id);
    bytes[PA..].copy_from_slice(&session.pa);
    bytes
}

fn of_reference(answer: reference::Answer) -> u8 {
    answer.map_or_else(reference::Refusal::number, |()| 0)
}

impl Side for Reference {
    fn name(&self) -> &'static str {
        "the reference"
    }

    fn power_up(&self, session: &mut Session) {
        *session = closed(&reference::Session::default());
    }

    fn read(&self, tag: &[u8], session: &Session, address: usize, count: usize, output: &mut [u8]) -> u8 {
        of_reference(reference::read(tag, &opened(session), address, count, output))
    }

    fn write(&self, tag: &mut [u8], session: &mut Session, address: usize, data: &[u8]) -> u8 {
        let mut own = opened(session);
        let answer = of_reference(reference::write(tag, &mut own, address, data));
        *session = closed(&own);
        answer
    }

    fn advance(&self, tag: &mut [u8], session: &Session, segment: usize) -> u8 {
        of_reference(reference::advance(tag, &opened(session), segment))
    }

    fn insert(&self, tag: &mut [u8], session: &Session, segment: usize, id: &Block) -> u8 {
        of_reference(reference::insert(tag, &opened(session), segment, id))
    }

    fn run(&self, tag: &mut [u8], session: &mut Session, log: &[u8], output: &mut [u8]) -> Run {
        let mut own = opened(session);
        let run = reference::run(tag, &mut own, log, output);
        *session = closed(&own);
        Run {
            read: run.read,
            written: run.written,
            stop: run.stop.number(),
        }
    }
}

/// The session is lent from the heap, so that memcheck sees a byte outside of it.
pub struct Proved;

fn of_proved(answer: Result<(), dringoleth::Refusal>) -> u8 {
    answer.map_or_else(dringoleth::Refusal::number, |()| 0)
}

fn stop_number(stop: dringoleth::Stop) -> u8 {
    match stop {
        dringoleth::Stop::End => 0,
        dringoleth::Stop::BadCommand => 15,
        dringoleth::Stop::OutputFull => 16,
    }
}

impl Side for Proved {
    fn name(&self) -> &'static str {
        "the proved code"
    }

    fn power_up(&self, session: &mut Session) {
        *session = *dringoleth::Session::power_up().as_bytes();
    }

    fn read(&self, tag: &[u8], session: &Session, address: usize, count: usize, output: &mut [u8]) -> u8 {
        let own = Box::new(dringoleth::Session::from_bytes(*session));
        of_proved(dringoleth::read(tag, &own, address, count, output))
    }

    fn write(&self, tag: &mut [u8], session: &mut Session, address: usize, data: &[u8]) -> u8 {
        let mut own = Box::new(dringoleth::Session::from_bytes(*session));
        let answer = of_proved(dringoleth::write(tag, &mut own, address, data));
        *session = *own.as_bytes();
        answer
    }

    fn advance(&self, tag: &mut [u8], session: &Session, segment: usize) -> u8 {
        let own = Box::new(dringoleth::Session::from_bytes(*session));
        of_proved(dringoleth::advance(tag, &own, segment))
    }

    fn insert(&self, tag: &mut [u8], session: &Session, segment: usize, id: &Block) -> u8 {
        let own = Box::new(dringoleth::Session::from_bytes(*session));
        of_proved(dringoleth::insert(tag, &own, segment, id))
    }

    fn run(&self, tag: &mut [u8], session: &mut Session, log: &[u8], output: &mut [u8]) -> Run {
        let mut own = Box::new(dringoleth::Session::from_bytes(*session));
        let run = dringoleth::run(tag, &mut own, log, output);
        *session = *own.as_bytes();
        Run {
            read: run.read,
            written: run.written,
            stop: stop_number(run.stop),
        }
    }
}
