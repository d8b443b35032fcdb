//! One log of a megabyte of mixed commands over an image of 65,536 bytes, the most that the program takes: as calls, as
//! one run by the library and by the reference, and by the program.

use differential::aim::{Aim, View};
use differential::commands::Command;
use differential::compare::{Lending, Pair};
use differential::demand;
use differential::hosts;
use differential::images;
use differential::map::{self, Map, Place, COUNTER, READERS, SEGMENT, UNIT, UNITS};
use differential::outcome::{self, Calls, Outcome, Reply};
use differential::random::Random;
use differential::sessions::POWER_UP;
use differential::sides::{Proved, Reference};
use differential::table::place_of;
use differential::units::{self, Kind, NE, PN, RDPIN, WRPIN};
use std::collections::BTreeMap;
use std::fs;
use std::path::{Path, PathBuf};

const SEED: u64 = 1;
const LOG: usize = 1_048_576;
const MAP: Map = Map {
    segments: 10,
    publics: 2,
};

/// What the segments are at first. The first three are locked.
const KINDS: [Kind; MAP.segments] = [
    Kind::Model2,
    Kind::Model2,
    Kind::Clear,
    Kind::Stage0,
    Kind::Stream,
    Kind::Stream,
    Kind::Model0,
    Kind::Model1,
    Kind::Model2,
    Kind::IllFormed,
];
const LOCKED: usize = 3;
/// From this segment on, units stay open to edits: nothing takes back a lock, model 3 or the insertion of a host.
const OPEN: usize = 6;

/// The first segment counts for everybody; no host is listed, and the roll-back counter is far from its end.
fn image(random: &mut Random) -> Vec<u8> {
    let mut image = images::of_map(random, MAP).bytes;
    image[COUNTER..COUNTER + 8].copy_from_slice(&1000u64.to_be_bytes());
    image[READERS..READERS + SEGMENT].fill(0);
    for (k, kind) in KINDS.into_iter().enumerate() {
        let mut unit = units::of_kind(random, kind);
        match k {
            0 => unit[0] = unit[0] & !(RDPIN | WRPIN | PN) | NE,
            1..LOCKED => unit[0] |= NE,
            _ => unit[0] &= !NE,
        }
        image[UNITS + UNIT * k..][..UNIT].copy_from_slice(&unit);
    }
    image
}

/// Whether the command would leave less to be granted after it, for good.
fn uses_up(tag: &[u8], command: &Command) -> bool {
    match (command, place_of(MAP, command)) {
        (Command::Insert { id, .. }, Some(Place::Segment(k))) if k >= OPEN => hosts::causes(tag, MAP, k, id).is_empty(),
        (Command::Write { address, data }, Some(Place::Unit(k))) if k >= OPEN => {
            let mut unit = *map::unit(tag, k);
            unit[address % UNIT..][..data.len()].copy_from_slice(data);
            unit[0] & NE != 0 || units::kind(&unit) == Kind::Stage0
        }
        _ => false,
    }
}

/// What a command is counted as.
fn sort(tag: &[u8], command: &Command) -> &'static str {
    match (command, place_of(MAP, command)) {
        (Command::PowerUp, _) => "power-up",
        (Command::Read { .. }, _) => "read",
        (Command::Advance { .. }, _) => "advance",
        (Command::Insert { .. }, _) => "insertion",
        (_, Some(Place::Header)) => "counter",
        (_, Some(Place::Register(_))) => "register",
        (_, Some(Place::Unit(_))) => "edit",
        (_, Some(Place::Public(_))) => "public segment",
        _ if demand::writes_slot(tag, command) => "slot",
        _ => "other write",
    }
}

/// The commands, as calls so far, and how often each sort got each answer.
#[derive(Default)]
struct Made {
    commands: Vec<Command>,
    length: usize,
    calls: Calls,
    met: BTreeMap<(&'static str, u8), usize>,
}

impl Made {
    fn add(&mut self, pair: &mut Pair, command: Command) {
        let sort = sort(pair.tag(), &command);
        let answer = self.calls.call(pair, &command).expect("no difference");
        *self.met.entry((sort, answer)).or_default() += 1;
        self.length += command.log_bytes().expect("made for a log").len();
        self.commands.push(command);
    }

    /// Each sort is granted, slots and right responses often, and each refusal is met that a log on a sound tag can give.
    fn is_mixed(&self) {
        for (sort, least) in [
            ("power-up", 300),
            ("read", 3000),
            ("slot", 1000),
            ("public segment", 1000),
            ("other write", 300),
            ("counter", 3000),
            ("register", 3000),
            ("edit", 300),
            ("advance", 2),
            ("insertion", 2),
        ] {
            let granted = self.met.get(&(sort, 0)).copied().unwrap_or(0);
            assert!(granted >= least, "{sort}: {:?}", self.met);
        }
        for number in (3..=14).chain([18, 19]) {
            assert!(self.met.keys().any(|key| key.1 == number), "{number}: {:?}", self.met);
        }
    }
}

/// Commands chosen one by one from what those before left, until the log is full; power-ups fill it to the last byte.
fn make(random: &mut Random, pair: &mut Pair) -> Made {
    let mut made = Made::default();
    let mut aim = Aim::new(MAP);
    while made.length < LOG {
        let view = View {
            tag: pair.tag(),
            session: pair.session(),
        };
        let command = aim.next(random, view, made.commands.last()).for_log();
        let length = command.log_bytes().expect("made for a log").len();
        if made.length + length > LOG {
            made.add(pair, Command::PowerUp);
        } else if !uses_up(pair.tag(), &command) {
            made.add(pair, command);
        }
    }
    made
}

/// A reply as the program prints it.
fn line(reply: &Reply) -> String {
    let hex = |bytes: &[u8]| bytes.iter().map(|byte| format!("{byte:02X}")).collect::<String>();
    match reply.bytes.split_at(1) {
        (code, []) => hex(code),
        (code, data) => format!("{} {}", hex(code), hex(data)),
    }
}

/// A folder with nothing in it, whatever a run that failed has left there.
fn empty_folder() -> PathBuf {
    let folder = Path::new(env!("CARGO_TARGET_TMPDIR")).join("megabyte");
    if folder.exists() {
        fs::remove_dir_all(&folder).expect("the old folder goes");
    }
    fs::create_dir_all(&folder).expect("a folder");
    folder
}

/// Runs the program and compares the lines that it prints and the image that it leaves.
fn replay(image: &[u8], log: &[u8], due: &Outcome) {
    let folder = empty_folder();
    fs::write(folder.join("image"), image).expect("the image is written");
    fs::write(folder.join("log"), log).expect("the log is written");
    let program = Path::new(env!("CARGO_MANIFEST_DIR")).join("../replay");
    let mut command = std::process::Command::new(program);
    let output = command.current_dir(&folder).args(["image", "log", "out"]).output();
    let output = output.expect("the program starts");
    let said = String::from_utf8_lossy(&output.stderr);
    assert!(output.status.success() && said.contains("end of the log"), "{said}");
    let printed = String::from_utf8(output.stdout).expect("text");
    for (i, (line, due)) in printed.lines().zip(due.replies.iter().map(line)).enumerate() {
        assert_eq!(line, due, "line {}", i + 1);
    }
    assert_eq!(printed.lines().count(), due.replies.len());
    let left = fs::read(folder.join("out")).expect("the program leaves an image");
    assert!(left == due.end.0, "the image that the program leaves is another");
}

#[test]
fn the_library_the_reference_and_the_program_agree() {
    let mut random = Random::new(SEED);
    let image = image(&mut random);
    assert_eq!(image.len(), 65_536);
    let mut pair = Pair::new(&Reference, &Proved, Lending::Margins);
    pair.start(&image, &POWER_UP);
    let made = make(&mut random, &mut pair);
    made.is_mixed();
    let list = made.calls.outcome(&pair);
    demand::check_counts(&image, &list).expect("each granted write counts once");

    pair.start(&image, &POWER_UP);
    let due = outcome::of_log(&mut pair, made.commands.iter()).expect("no difference");
    let answers = |replies: &[Reply]| Vec::from_iter(replies.iter().map(|reply| reply.answer));
    assert!(
        answers(&due.replies) == answers(&list.replies),
        "the replies are not the answers"
    );
    assert!(
        due.end == list.end,
        "the run leaves another tag or session than the calls"
    );

    let log = Vec::from_iter(made.commands.iter().filter_map(Command::log_bytes).flatten());
    assert_eq!(log.len(), LOG);
    replay(&image, &log, &due);
}
