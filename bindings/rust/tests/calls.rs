//! The wrapper hands everything over as it is: answers, bytes, and the parts of the session.

use dringoleth::{advance, insert, read, run, write, Refusal, Run, Session, Stop};

const PA: usize = 4080;
const ID: usize = 4048;
const UNIT: usize = 12288;

/// One access-controlled segment, whose unit is all zeros.
fn tag() -> Vec<u8> {
    let mut tag = vec![0; 20480];
    tag[1] = 1;
    tag
}

#[test]
fn power_up_is_zeros() {
    assert_eq!(Session::power_up().as_bytes(), &[0; 54]);
    assert_eq!(Session::default(), Session::power_up());
}

#[test]
fn a_register_write_is_in_the_session() {
    let (mut tag, mut session) = (tag(), Session::power_up());
    let block: [u8; 16] = std::array::from_fn(|i| i as u8 + 1);
    assert_eq!(write(&mut tag, &mut session, PA, &block), Ok(()));
    assert_eq!(session.pa(), block);
    assert_eq!(
        write(&mut tag, &mut session, ID, &block[..15]),
        Err(Refusal::BadRegister)
    );
    assert_eq!(session.id(), [0; 16]);
    assert_eq!(write(&mut tag, &mut session, ID, &block), Ok(()));
    assert_eq!(session.id(), block);
    assert_eq!(session.name(), [0; 16]);
}

#[test]
fn the_parts_of_a_session_stand_in_order() {
    let session = Session::from_bytes(std::array::from_fn(|i| i as u8));
    let indexes = [session.read_index(), session.write_index(), session.edit_index()];
    assert_eq!(indexes, [0x0001, 0x0203, 0x0405]);
    assert_eq!((session.name()[0], session.id()[0], session.pa()[0]), (6, 22, 38));
    assert_eq!(
        (session.name().len(), session.id().len(), session.pa().len()),
        (16, 16, 16)
    );
}

#[test]
fn anything_is_answered() {
    let (mut none, mut session) = ([], Session::power_up());
    assert_eq!(
        read(&none, &session, usize::MAX, usize::MAX, &mut []),
        Err(Refusal::Unsound)
    );
    assert_eq!(write(&mut none, &mut session, 0, &[]), Err(Refusal::Unsound));
    assert_eq!(advance(&mut none, &session, usize::MAX), Err(Refusal::Unsound));
    assert_eq!(insert(&mut none, &session, usize::MAX, &[1; 16]), Err(Refusal::Unsound));
    let nothing = Run {
        read: 0,
        written: 0,
        stop: Stop::End,
    };
    assert_eq!(run(&mut none, &mut session, &[], &mut []), nothing);
    assert_eq!(advance(&mut tag(), &session, 0), Err(Refusal::OtherModel));
}

#[test]
fn an_insertion_lists_the_id_and_changes_the_unit() {
    const LIST: usize = 8192;
    let (mut tag, session) = (tag(), Session::power_up());
    let id: [u8; 16] = std::array::from_fn(|i| i as u8 + 1);
    assert_eq!(insert(&mut tag, &session, 0, &id), Err(Refusal::OtherModel));
    tag[UNIT..UNIT + 2].copy_from_slice(&[0x21, 0x04]);
    assert_eq!(insert(&mut tag, &session, 1, &id), Err(Refusal::Outside));
    assert_eq!(insert(&mut tag, &session, 0, &[0; 16]), Err(Refusal::BadInsertion));
    assert_eq!(insert(&mut tag, &session, 0, &id), Ok(()));
    assert_eq!(tag[LIST..LIST + 16], id);
    assert_eq!(tag[LIST + 16..LIST + 18], [0, 1]);
    assert_eq!(tag[UNIT..UNIT + 2], [0x81, 0x14]);
}

#[test]
fn a_repeat_is_told_from_a_gap_and_changes_nothing() {
    const COUNTER: usize = 4;
    const FLAG: usize = 12;
    const SLOT: usize = 16384;
    let (mut tag, mut session) = (tag(), Session::power_up());
    tag[UNIT..UNIT + 2].copy_from_slice(&[0xA5, 0x02]);
    for address in [SLOT, COUNTER] {
        let mut count = |tag: &mut [u8], value: u64| write(tag, &mut session, address, &value.to_be_bytes());
        assert_eq!(count(&mut tag, 1), Ok(()));
        tag[FLAG] = 1;
        let before = tag.clone();
        assert_eq!(count(&mut tag, 1), Err(Refusal::Repeated));
        assert_eq!(count(&mut tag, 3), Err(Refusal::NotNext));
        assert_eq!(tag, before);
    }
    assert_eq!(session, Session::power_up());
}

#[test]
fn a_read_fills_its_count_and_no_more() {
    let mut output = [0xEE; 4];
    assert_eq!(read(&tag(), &Session::power_up(), 0, 2, &mut output), Ok(()));
    assert_eq!(output, [0, 1, 0xEE, 0xEE]);
    assert_eq!(
        read(&tag(), &Session::power_up(), 0, 5, &mut output),
        Err(Refusal::Count)
    );
    assert_eq!(output, [0, 1, 0xEE, 0xEE]);
}

#[test]
fn a_run_tells_how_far_it_came() {
    let (mut tag, mut session) = (tag(), Session::power_up());
    let log = [0x00, 0x11, 0, 0, 0, 1, 0x99];
    let mut output = [0xEE; 6];
    let ran = run(&mut tag, &mut session, &log, &mut output);
    assert_eq!(
        ran,
        Run {
            read: 6,
            written: 5,
            stop: Stop::BadCommand
        }
    );
    assert_eq!(output, [0x50, 0x41, 1, 0x51, 15, 0xEE]);
    let full = Run {
        read: 1,
        written: 1,
        stop: Stop::OutputFull,
    };
    assert_eq!(run(&mut tag, &mut session, &log, &mut output[..2]), full);
}

#[test]
fn a_refusal_says_what_is_wrong() {
    assert_eq!(
        Refusal::NotNext.to_string(),
        "refusal 12: not one aligned slot, or neither the next value nor the one stored"
    );
    assert_eq!(
        Refusal::BadInsertion.to_string(),
        "refusal 19: the id is zeros or listed, the segment is listed, or the list of hosts is full or damaged"
    );
}

/// The numbers that the header says a function returns.
fn returned(function: &str) -> Vec<u8> {
    let header = include_str!("../../../include/dringoleth.h");
    let (before, _) = header
        .split_once(&format!("uint8_t dringoleth_{function}("))
        .expect("a declaration");
    let (_, words) = before.rsplit_once("Returns ").expect("what it returns");
    let (list, _) = words.split_once('.').expect("the end of the list");
    list.split([',', ' ']).filter_map(|word| word.parse().ok()).collect()
}

#[test]
fn the_header_has_the_refusals_of_each_command() {
    let lists = [
        ("read", Refusal::OF_READ),
        ("write", Refusal::OF_WRITE),
        ("advance", Refusal::OF_ADVANCE),
        ("insert", Refusal::OF_INSERT),
    ];
    for (function, refusals) in lists {
        let due: Vec<u8> = [0].into_iter().chain(refusals.iter().map(|r| r.number())).collect();
        assert_eq!(returned(function), due, "{function}");
    }
}
