//! Log runs.

use crate::host::*;
use reference::{run, Run, Session, Stop};

/// Runs a log into so much room; checks what is written and that nothing behind it is touched.
fn check(host: &mut Host, log: &str, room: usize, reply: &str, read: usize, stop: Stop) {
    let (mut output, reply) = (vec![0xEE; room], hex(reply));
    let result = run(&mut host.tag, &mut host.session, &hex(log), &mut output);
    assert_eq!(
        result,
        Run {
            read,
            written: reply.len(),
            stop
        }
    );
    assert_eq!(output[..reply.len()], reply);
    assert!(output[reply.len()..].iter().all(|&byte| byte == 0xEE));
}

/// A whole log with room enough.
fn check_all(host: &mut Host, log: &str, reply: &str) {
    check(host, log, 100, reply, hex(log).len(), Stop::End);
}

#[test]
fn slot_log() {
    let log = "22 00004000 0000000000000001 22 00004000 0000000000000001 12 00004000";
    check_all(&mut Host::unit(0xA5, 0x02), log, "50 51 12 42 0000000000000001");
}

#[test]
fn repeats_and_gaps_do_not_stop_a_run() {
    for address in ["00004000", "00000004"] {
        let write = |value: u64| format!("22 {address} {value:016X} ");
        let log: String = [0, 2, 1, 1, 0, u64::MAX, 2].map(write).concat();
        check_all(
            &mut Host::unit(0xA5, 0x02),
            &format!("{log} 12 {address}"),
            "5112 510C 50 5112 510C 510C 50 42 0000000000000002",
        );
    }
}

#[test]
fn reads_and_writes_of_each_length() {
    let mut host = Host::unit(RD | WR, 0).with(SEGMENT, &[0x11; 40]);
    let row = |byte: &str, count| byte.repeat(count);
    check_all(&mut host, "21 00004000 22", "50");
    check_all(&mut host, "11 00004000", "41 22");
    check_all(&mut host, "12 00004000", &format!("42 22 {}", row("11", 7)));
    check_all(&mut host, &format!("23 00004001 {}", row("33", 16)), "50");
    check_all(&mut host, "13 00004000", &format!("43 22 {}", row("33", 15)));
    check_all(&mut host, &format!("24 00004002 {}", row("44", 32)), "50");
    check_all(&mut host, "14 00004000", &format!("44 22 33 {}", row("44", 30)));
    check_all(
        &mut host,
        "14 00004020",
        &format!("44 4444 {}{}", row("11", 6), row("00", 24)),
    );
}

#[test]
fn advance_log() {
    let mut host = Host::unit(M | WR, 0x03);
    check_all(
        &mut host,
        "31 0000 31 0000 31 0000 31 0001 31 FFFF",
        "50 50 510E 5103 5103",
    );
    assert_eq!(host.tag[UNIT..UNIT + 2], [M | RD, 0x23]);
}

#[test]
fn insertion_log() {
    let (id, other) = ("000102030405060708090A0B0C0D0E0F", "AA".repeat(16));
    let mut host = Host::new(2, 1)
        .with(UNIT, &[M | WR, 0x04])
        .with(UNIT + 32, &[M | WR, 0x04]);
    check_all(
        &mut host,
        &format!("32 0001 {id} 32 0001 {id} 32 0000 {id} 32 0002 {id} 32 FFFF {id} 32 0000 {other}"),
        "50 510E 5113 5103 5103 50",
    );
    check_all(&mut host, "14 00002000", &format!("44 {id} 0002 {}", "AA".repeat(14)));
    check_all(&mut host, "12 00002020", "42 AAAA 0001 00000000");
    check_all(
        &mut host,
        "13 00004000 13 00005000 13 00005030",
        &format!("43 {id} 5106 43 {other}"),
    );
}

#[test]
fn refused_reads_touch_no_room_behind_the_reply() {
    check_all(
        &mut Host::new(1, 0),
        "14 00004000 14 FFFFFFFF 14 00000010",
        "5106 5103 5104",
    );
}

#[test]
fn power_up_clears_the_session() {
    let mut host = Host::new(1, 0);
    host.session = Session {
        read: 300,
        write: 2,
        edit: 3,
        name: [4; 16],
        id: [5; 16],
        pa: [6; 16],
    };
    check_all(&mut host, "00", "50");
    assert_eq!(host.session, Session::default());
}

#[test]
fn unsound_tags_refuse_all_but_power_up() {
    for length in [0, 1, 4112, 20_479, 20_481] {
        let mut host = Host::new(1, 0);
        host.tag.resize(length, 0);
        host.session.read = 7;
        let insertion = "32 0000 000102030405060708090A0B0C0D0E0F";
        check_all(&mut host, "14 00000000 21 00004000 00 31 0000", "5101 5101 5101");
        check_all(&mut host, insertion, "5101");
        assert_eq!(host.session.read, 7);
        check_all(&mut host, "00", "50");
        assert_eq!(host.session.read, 0);
    }
}

#[test]
fn empty_log() {
    check(&mut Host::new(1, 0), "", 0, "", 0, Stop::End);
}

#[test]
fn unknown_kinds_end_the_run() {
    for kind in (0x01..=0xFFu8).filter(|kind| !matches!(kind, 0x11..=0x14 | 0x21..=0x24 | 0x31 | 0x32)) {
        check(
            &mut Host::new(1, 0),
            &format!("00 {kind:02X} 00"),
            9,
            "50 510F",
            1,
            Stop::BadCommand,
        );
    }
}

#[test]
fn short_bodies_end_the_run() {
    for short in [
        "11 000040",
        "14",
        "21 00004000",
        "24 00004000 00",
        "22 00004000 00000000000000",
        "31 00",
        "31",
        "32",
        "32 00",
        "32 0000",
        "32 0000 000102030405060708090A0B0C0D0E",
    ] {
        check(
            &mut Host::new(1, 0),
            &format!("00 {short}"),
            3,
            "50 510F",
            1,
            Stop::BadCommand,
        );
        check(
            &mut Host::new(1, 0),
            &format!("00 {short}"),
            2,
            "50",
            1,
            Stop::OutputFull,
        );
        check(&mut Host::new(1, 0), short, 0, "", 0, Stop::OutputFull);
    }
}

#[test]
fn a_bad_command_comes_before_room() {
    check(&mut Host::new(1, 0), "14 00", 2, "510F", 0, Stop::BadCommand);
    check(&mut Host::new(1, 0), "99", 1, "", 0, Stop::OutputFull);
}

#[test]
fn room_for_reads() {
    for (kind, count) in [(0x11, 1), (0x12, 8), (0x13, 16), (0x14, 32)] {
        let granted = format!("{kind:02X} 00002000");
        let reply = format!("{:02X} {}", kind + 0x30, "00".repeat(count));
        check(&mut Host::new(1, 0), &granted, 1 + count, &reply, 5, Stop::End);
        check(&mut Host::new(1, 0), &granted, count, "", 0, Stop::OutputFull);
        let refused = format!("{kind:02X} 00004000");
        check(&mut Host::new(1, 0), &refused, 1 + count, "5106", 5, Stop::End);
        check(&mut Host::new(1, 0), &refused, count, "", 0, Stop::OutputFull);
    }
}

#[test]
fn commands_without_room_are_not_carried_out() {
    let mut host = Host::unit(M | WR, 0x03);
    host.session.id = [1; 16];
    let before = host.clone();
    for log in ["00", "21 00004000 05", "31 0000"] {
        check(&mut host, log, 1, "", 0, Stop::OutputFull);
        assert!(host.tag == before.tag && host.session == before.session);
        check(&mut host.clone(), log, 2, "50", hex(log).len(), Stop::End);
    }
}

#[test]
fn an_insertion_without_room_is_not_carried_out() {
    let mut host = Host::unit(M | WR, 0x04);
    let before = host.clone();
    let log = "32 0000 000102030405060708090A0B0C0D0E0F";
    check(&mut host, log, 1, "", 0, Stop::OutputFull);
    assert!(host.tag == before.tag);
    check(&mut host, log, 2, "50", 19, Stop::End);
}

#[test]
fn what_a_stopped_run_did_stands() {
    let mut host = Host::unit(RD | WR, 0);
    check(
        &mut host,
        "21 00004000 05 11 00004000 00",
        4,
        "50 4105",
        11,
        Stop::OutputFull,
    );
    check(&mut host, "21 00004000 06 FF", 4, "50 510F", 6, Stop::BadCommand);
    assert_eq!(host.tag[SEGMENT], 6);
}

#[test]
fn stops_have_numbers() {
    assert_eq!(
        [Stop::End, Stop::BadCommand, Stop::OutputFull].map(Stop::number),
        [0, 15, 16]
    );
}

#[test]
fn pin_log() {
    let mut host = Host::unit(RD | RDPIN, 0).with(UNIT + 5, &[9]).with_pin(9, PIN);
    let log = "11 00004000
        23 00000FF0 00090000000000000000000000000000
        22 00000004 0000000000000001
        23 00000F90 45002CDB6910E3DC861857C7204041FA
        11 00004000";
    check_all(&mut host, log, "5107 50 50 50 4100");
}
