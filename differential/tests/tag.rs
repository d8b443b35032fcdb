//! The comparison itself: it repeats, it agrees, and it finds faults and makes them small.

use differential::cipher::Block;
use differential::runs::Runs;
use differential::sessions::Session;
use differential::sides::{Proved, Reference, Run, Side};
use std::cell::RefCell;
use told::found;

mod told;

/// May answer a write itself: tag, data, address.
type Before = fn(&mut [u8], &[u8], usize) -> Option<u8>;

/// The reference with one thing changed: whatever a test wants to happen at a write, a read, an advance, an
/// insertion or a run.
#[derive(Default)]
struct Changed {
    before: Option<Before>,
    after: Option<fn(&mut [u8], u8)>,
    read: Option<fn(&mut [u8], u8)>,
    advance: Option<fn(usize)>,
    insert: Option<fn(&mut [u8], u8)>,
    run: Option<fn(&mut [u8], Run)>,
    seen: RefCell<Vec<(usize, Vec<u8>)>>,
}

impl Side for Changed {
    fn name(&self) -> &'static str {
        "the changed side"
    }

    fn power_up(&self, session: &mut Session) {
        Reference.power_up(session);
    }

    fn read(&self, tag: &[u8], session: &Session, address: usize, count: usize, output: &mut [u8]) -> u8 {
        self.seen.borrow_mut().push((address, count.to_be_bytes().to_vec()));
        let answer = Reference.read(tag, session, address, count, output);
        self.read.inspect(|change| change(output, answer));
        answer
    }

    fn write(&self, tag: &mut [u8], session: &mut Session, address: usize, data: &[u8]) -> u8 {
        self.seen.borrow_mut().push((address, data.to_vec()));
        if let Some(answer) = self.before.and_then(|change| change(tag, data, address)) {
            return answer;
        }
        let answer = Reference.write(tag, session, address, data);
        self.after.inspect(|change| change(tag, answer));
        answer
    }

    fn advance(&self, tag: &mut [u8], session: &Session, segment: usize) -> u8 {
        self.seen.borrow_mut().push((segment, Vec::new()));
        self.advance.inspect(|change| change(segment));
        Reference.advance(tag, session, segment)
    }

    fn insert(&self, tag: &mut [u8], session: &Session, segment: usize, id: &Block) -> u8 {
        self.seen.borrow_mut().push((segment, id.to_vec()));
        let answer = Reference.insert(tag, session, segment, id);
        self.insert.inspect(|change| change(tag, answer));
        answer
    }

    fn run(&self, tag: &mut [u8], session: &mut Session, log: &[u8], output: &mut [u8]) -> Run {
        let run = Reference.run(tag, session, log, output);
        self.run.inspect(|change| change(output, run));
        run
    }
}

fn seen(seed: u64, cases: std::ops::Range<u64>) -> Vec<(usize, Vec<u8>)> {
    let recorder = Changed::default();
    let mut runs = Runs::new(seed, &Reference, &recorder);
    for case in cases {
        runs.case(case, u64::MAX).expect("no difference");
    }
    recorder.seen.take()
}

#[test]
fn the_same_seed_gives_the_same_commands() {
    let commands = seen(7, 0..20);
    assert!(commands.len() > 400);
    assert!(commands == seen(7, 0..20));
    assert!(commands != seen(8, 0..20));
}

#[test]
fn a_case_can_be_repeated_alone() {
    assert!(seen(7, 0..20).ends_with(&seen(7, 19..20)));
}

#[test]
fn both_sides_agree() {
    let mut runs = Runs::new(2, &Reference, &Proved);
    let result = runs.many(10_000).map_err(|found| found.failure);
    assert_eq!(result, Ok(()));
    assert_eq!((runs.commands, runs.tally.outside_the_set()), (10_000, Vec::new()));
    let (granted, all) = runs.tally.grants();
    assert!(all == 10_000 && 3 * granted > all);
}

#[test]
fn a_full_counter_that_goes_to_0() {
    let wraps = Changed {
        before: Some(|tag, data, address| {
            let full = address == 4 && data == [0; 8] && tag.get(4..12) == Some(&[0xFF; 8]);
            full.then(|| tag[4..13].fill(0)).map(|()| 0)
        }),
        ..Changed::default()
    };
    let (commands, told) = found(&Reference, &wraps);
    assert_eq!(commands, 1, "{told}");
    assert!(
        told.contains("the reference: refused 12; the changed side: granted"),
        "{told}"
    );
    assert!(
        told.contains("as a log: 22 00 00 00 04 00 00 00 00 00 00 00 00\n"),
        "{told}"
    );
    assert!(told.contains("image: length 20480;"), "{told}");
}

#[test]
fn a_refused_read_that_writes() {
    let refused_read_writes = Changed {
        read: Some(|output, answer| {
            if let ([first, ..], 6) = (output, answer) {
                *first = 0;
            }
        }),
        ..Changed::default()
    };
    let (commands, told) = found(&Reference, &refused_read_writes);
    assert!(
        commands == 1 && told.contains("output byte 0 (0): 5A by the reference, 00 by"),
        "{told}"
    );
}

#[test]
fn a_run_that_writes_behind_its_replies() {
    let clears = Changed {
        run: Some(|output, run| output[run.written..].iter_mut().take(1).for_each(|byte| *byte = 0)),
        ..Changed::default()
    };
    let (commands, told) = found(&Reference, &clears);
    assert!(
        commands <= 1 && told.contains("run over that log into an output of"),
        "{told}"
    );
}

#[test]
fn a_panic_is_an_answer() {
    let panics = Changed {
        advance: Some(|segment| assert!(segment < 65536)),
        ..Changed::default()
    };
    let (commands, told) = found(&Reference, &panics);
    assert!(commands == 1 && told.contains("the changed side: a panic"), "{told}");
}

#[test]
fn an_insertion_that_keeps_wr() {
    let keeps_wr = Changed {
        insert: Some(|tag, answer| {
            if answer == 0 {
                tag[12288] |= 0x20;
            }
        }),
        ..Changed::default()
    };
    let (commands, told) = found(&Reference, &keeps_wr);
    assert_eq!(commands, 1, "{told}");
    assert!(told.contains("1. insert host, segment 0, id "), "{told}");
    assert!(told.contains("as a log: 32 00 00 "), "{told}");
}

#[test]
fn a_fault_that_both_sides_share() {
    let sets_the_flag = || Changed {
        after: Some(|tag, answer| {
            if answer == 12 {
                tag[12] = 1;
            }
        }),
        ..Changed::default()
    };
    let (commands, told) = found(&sets_the_flag(), &sets_the_flag());
    assert_eq!(commands, 1, "{told}");
    assert!(
        told.contains("tag byte 12 (C): 01 by both sides, 00 by the rules"),
        "{told}"
    );
}

#[test]
fn a_repeat_that_both_sides_call_a_gap() {
    let call_it_a_gap = || Changed {
        before: Some(|tag, data, address| (address == 4 && tag.get(4..12) == Some(data)).then_some(12)),
        ..Changed::default()
    };
    let (left, right) = (call_it_a_gap(), call_it_a_gap());
    let mut runs = Runs::new(1, &left, &right);
    // Without logs: the runs over them are the reference's own.
    for case in (0..1000).filter(|case| case % 3 != 2) {
        runs.case(case, u64::MAX).expect("no difference");
    }
    assert_eq!(
        runs.tally.outside_the_set(),
        [
            "write at header, by value, repeated, flag 0: 12",
            "write at header, by value, repeated, flag 1: 12"
        ]
    );
}
