//! Faults that both sides have alike, so that no comparison of the two shows them: in what slots count, in copies of
//! granted writes, in the order of neighbours, and in runs made in parts.

use differential::cases::{Case, Failure, Log};
use differential::cipher::Block;
use differential::commands::{log_kind, Command, LogKind};
use differential::compare::{Lending, Pair};
use differential::demand;
use differential::map::{number, SEGMENT, SEGMENTS, UNITS};
use differential::sessions::{Session, NAME, POWER_UP};
use differential::sides::{Reference, Run, Side};
use differential::variations::Variation;
use std::cell::Cell;
use told::found;

mod told;

/// What a faulty side makes of a write to a slot of a counter segment, or to any segment: it may change the tag after the
/// write, and returns the answer.
type Fault = fn(&Wrong, &mut [u8], usize, u8) -> u8;

/// The reference with a fault, and a memory of its own that outlasts a call, but not the list of commands. Its runs are
/// made of its calls.
struct Wrong {
    fault: Fault,
    at_slots_alone: bool,
    after_run: fn(&mut Session, Run),
    in_runs_alone: bool,
    memory: Cell<usize>,
}

fn wrong(fault: Fault) -> Wrong {
    Wrong {
        fault,
        at_slots_alone: true,
        after_run: |_, _| {},
        in_runs_alone: false,
        memory: Cell::new(0),
    }
}

impl Wrong {
    fn is_at_fault(&self, tag: &[u8], address: usize, data: &[u8]) -> bool {
        let data = data.to_vec();
        let is_slot = || demand::writes_slot(tag, &Command::Write { address, data });
        address >= SEGMENTS && (!self.at_slots_alone || is_slot())
    }

    fn faulty_write(&self, tag: &mut [u8], session: &mut Session, address: usize, data: &[u8]) -> u8 {
        let is_at_fault = self.is_at_fault(tag, address, data);
        let before = tag.to_vec();
        let mut answer = Reference.write(tag, session, address, data);
        if is_at_fault {
            answer = (self.fault)(self, tag, address, answer);
        }
        // A fault that refuses what the reference grants leaves the tag as it was.
        if is_at_fault && answer != 0 {
            tag.copy_from_slice(&before);
        }
        answer
    }

    /// One write of a log, with its reply.
    fn logged_write(&self, tag: &mut [u8], session: &mut Session, said: &[u8], output: &mut [u8]) -> Run {
        let address = u32::from_be_bytes(said[1..5].try_into().expect("four bytes")) as usize;
        let reply = match self.faulty_write(tag, session, address, &said[5..]) {
            0 => vec![0x50],
            number => vec![0x51, number],
        };
        output[..reply.len()].copy_from_slice(&reply);
        let (read, written) = (said.len(), reply.len());
        Run { read, written, stop: 0 }
    }

    /// The first command of a log, or what stops the run there.
    fn first(&self, tag: &mut [u8], session: &mut Session, log: &[u8], output: &mut [u8]) -> Run {
        let length = log_kind(log[0]).map_or(1, LogKind::length);
        match log_kind(log[0]) {
            Some(LogKind::Write(_)) if length <= log.len() && output.len() >= 2 => {
                self.logged_write(tag, session, &log[..length], output)
            }
            _ => Reference.run(tag, session, &log[..length.min(log.len())], output),
        }
    }
}

impl Side for Wrong {
    fn name(&self) -> &'static str {
        "the faulty side"
    }

    fn begin(&self) {
        self.memory.set(0);
    }

    fn power_up(&self, session: &mut Session) {
        Reference.power_up(session);
    }

    fn read(&self, tag: &[u8], session: &Session, address: usize, count: usize, output: &mut [u8]) -> u8 {
        Reference.read(tag, session, address, count, output)
    }

    fn write(&self, tag: &mut [u8], session: &mut Session, address: usize, data: &[u8]) -> u8 {
        if self.in_runs_alone {
            return Reference.write(tag, session, address, data);
        }
        self.faulty_write(tag, session, address, data)
    }

    fn advance(&self, tag: &mut [u8], session: &Session, segment: usize) -> u8 {
        Reference.advance(tag, session, segment)
    }

    fn insert(&self, tag: &mut [u8], session: &Session, segment: usize, id: &Block) -> u8 {
        Reference.insert(tag, session, segment, id)
    }

    fn run(&self, tag: &mut [u8], session: &mut Session, log: &[u8], output: &mut [u8]) -> Run {
        let (mut read, mut written, mut stop) = (0, 0, 0);
        while read < log.len() && stop == 0 {
            let run = self.first(tag, session, &log[read..], &mut output[written..]);
            (read, written, stop) = (read + run.read, written + run.written, run.stop);
        }
        let run = Run { read, written, stop };
        (self.after_run)(session, run);
        run
    }
}

fn put(tag: &mut [u8], at: usize, value: u64) {
    tag[at..at + 8].copy_from_slice(&value.to_be_bytes());
}

/// A repeated value is granted, and counts once more.
fn counts_a_copy(_: &Wrong, tag: &mut [u8], at: usize, answer: u8) -> u8 {
    if answer != 18 {
        return answer;
    }
    let next = number(tag, at).wrapping_add(1);
    put(tag, at, next);
    0
}

/// After a repeat the next write to a slot is refused.
fn refuses_after_a_copy(side: &Wrong, _: &mut [u8], _: usize, answer: u8) -> u8 {
    let repeated = side.memory.replace(usize::from(answer == 18));
    match answer {
        0 if repeated == 1 => 6,
        _ => answer,
    }
}

/// A slot is not written right after a later slot of its segment.
fn asks_for_order(side: &Wrong, _: &mut [u8], at: usize, answer: u8) -> u8 {
    let before = side.memory.replace(at);
    let is_later = before / SEGMENT == at / SEGMENT && before > at;
    match answer {
        0 if is_later => 12,
        _ => answer,
    }
}

/// A write is not granted right after one to a later segment.
fn asks_for_order_of_segments(side: &Wrong, _: &mut [u8], at: usize, answer: u8) -> u8 {
    let before = side.memory.replace(at);
    match answer {
        0 if before / SEGMENT > at / SEGMENT => 6,
        _ => answer,
    }
}

/// A write to a slot is granted, and every second value is not stored.
fn loses_a_count(_: &Wrong, tag: &mut [u8], at: usize, answer: u8) -> u8 {
    let value = number(tag, at);
    if answer == 0 && value.is_multiple_of(2) {
        put(tag, at, value.wrapping_sub(1));
    }
    answer
}

fn found_alike(side: impl Fn() -> Wrong, most: usize, due: &[&str]) {
    let (commands, told) = found(&side(), &side());
    assert!(commands <= most, "{told}");
    assert!(due.iter().any(|due| told.contains(due)), "{told}");
}

#[test]
fn a_copy_that_counts() {
    found_alike(|| wrong(counts_a_copy), 1, &["1 is granted\n"]);
}

#[test]
fn another_answer_after_a_copy() {
    let due = ["refused 6, and granted in the list as it was"];
    found_alike(|| wrong(refuses_after_a_copy), 2, &due);
}

#[test]
fn slots_that_depend_on_the_order() {
    let due = [
        "refused 12, and granted in the list",
        "granted, and refused 12 in the list",
    ];
    found_alike(|| wrong(asks_for_order), 3, &due);
}

#[test]
fn segments_that_depend_on_the_order() {
    let side = || Wrong {
        at_slots_alone: false,
        ..wrong(asks_for_order_of_segments)
    };
    let due = [
        "refused 6, and granted in the list",
        "granted, and refused 6 in the list",
    ];
    found_alike(side, 3, &due);
}

#[test]
fn a_count_that_is_lost() {
    found_alike(|| wrong(loses_a_count), 1, &[" and 1 granted write\n"]);
}

#[test]
fn a_run_that_forgets_the_name_at_a_16() {
    let forgets = || Wrong {
        after_run: |session, run| {
            if run.stop == 16 {
                session[NAME..NAME + 16].fill(0);
            }
        },
        ..wrong(|_, _, _, answer| answer)
    };
    let (commands, told) = found(&forgets(), &forgets());
    assert!(commands <= 2, "{told}");
    assert!(
        told.contains("the parts of a run do not come to what the whole run does"),
        "{told}"
    );
}

fn slot(slot: usize, value: u64) -> Command {
    Command::Write {
        address: SEGMENTS + 8 * slot,
        data: value.to_be_bytes().to_vec(),
    }
}

/// A locked counter segment and a public one, and writes to its first two slots.
fn case(variation: Variation, log: Option<Log>) -> Case {
    let mut image = vec![0; SEGMENT * 6];
    image[1] = 1;
    image[3] = 1;
    image[UNITS..UNITS + 2].copy_from_slice(&[0xA5, 0x02]);
    Case {
        image,
        session: POWER_UP,
        commands: vec![slot(0, 1), slot(1, 1), slot(0, 2)],
        log,
        variation: Some(variation),
    }
}

fn failure(case: &Case, side: impl Fn() -> Wrong) -> Option<Failure> {
    let (left, right) = (side(), side());
    case.failure(&mut Pair::new(&left, &right, Lending::Margins))
}

/// Copies of the first two, and the first two exchanged.
fn variations() -> [Variation; 2] {
    [
        Variation::Copies(vec![vec![0, 2], vec![0], vec![]]),
        Variation::Exchanges(vec![true, false, false]),
    ]
}

#[test]
fn what_is_right_passes_as_calls_and_in_a_log() {
    for (variation, log) in variations()
        .into_iter()
        .flat_map(|v| [(v.clone(), None), (v, Some(Log::default()))])
    {
        assert_eq!(failure(&case(variation, log), || wrong(|_, _, _, answer| answer)), None);
    }
}

#[test]
fn each_fault_is_found_in_runs_alone() {
    let [copies, exchanges] = variations();
    for (fault, variation, what) in [
        (
            counts_a_copy as Fault,
            &copies,
            "both sides: a copy of command 1 is granted",
        ),
        (
            refuses_after_a_copy,
            &copies,
            "both sides: command 2 is refused 6, and granted in the list as it was",
        ),
        (
            asks_for_order,
            &exchanges,
            "both sides: command 1 is refused 12, and granted in the list as it was",
        ),
        (
            loses_a_count,
            &exchanges,
            "both sides: the slot at 16384 (4000) holds 1 after 0 and 2 granted writes",
        ),
    ] {
        let case = case(variation.clone(), Some(Log::default()));
        let side = || Wrong {
            in_runs_alone: true,
            ..wrong(fault)
        };
        let failure = failure(&case, side).expect("a fault");
        assert_eq!(failure.what, what);
    }
}
