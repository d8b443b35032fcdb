//! Reads and writes by place and model, and advances.

use crate::host::*;
use reference::Refusal;

#[test]
fn count_comes_before_place() {
    let mut host = Host::new(1, 1);
    assert_eq!(host.read(SEGMENT, 0), Err(2));
    assert_eq!(host.read(SEGMENT, 4097), Err(2));
    assert_eq!(host.read(usize::MAX, 0), Err(2));
    assert_eq!(host.write(READ, &[]), Err(2));
    assert_eq!(host.write(usize::MAX, &[0; 4097]), Err(2));
    assert_eq!(host.read(20480, 4096), Ok(vec![0; 4096]));
    assert_eq!(host.write(20480, &[7; 4096]), Ok(()));
}

#[test]
fn short_output_comes_before_place() {
    let host = Host::new(1, 1);
    let mut output = [0xEE; 7];
    for address in [0, 20480, 3983, usize::MAX] {
        let answer = reference::read(&host.tag, &host.session, address, 8, &mut output);
        assert_eq!(answer, Err(Refusal::BadCount));
    }
    assert_eq!(output, [0xEE; 7]);
}

#[test]
fn a_command_lies_in_one_place() {
    let mut host = Host::new(2, 2);
    for edge in [
        16, 3984, 4000, 4080, 4096, 8192, 12288, 12320, 12352, 16384, 20480, 24576, 28672, 32768,
    ] {
        assert_eq!(host.read(edge - 1, 2), Err(3), "edge {edge}");
        assert_eq!(host.write(edge - 1, &[0; 2]), Err(3), "edge {edge}");
    }
    for address in [32768, usize::MAX - 1, usize::MAX] {
        assert_eq!(host.read(address, 2), Err(3));
        assert_eq!(host.write(address, &[0; 2]), Err(3));
        assert_eq!(host.advance(address), Err(3));
    }
    assert_eq!(Host::new(1, 0).read(16383, 2), Err(3));
}

#[test]
fn places_that_never_take_it() {
    let mut host = Host::new(1, 0);
    for address in [16, 3983, 4096, 8191, 12320, 16383] {
        assert_eq!(host.read(address, 1), Err(4), "address {address}");
        assert_eq!(host.write(address, &[0]), Err(4), "address {address}");
    }
    for register in [READ, WRITE, EDIT, NAME, ID, COMMIT, PA] {
        assert_eq!(host.read(register, 16), Err(4));
        assert_eq!(host.read(register + 15, 1), Err(4));
    }
    assert_eq!(host.write(8192, &[0]), Err(4));
}

#[test]
fn no_spare_with_128_units() {
    let mut host = Host::new(128, 0).with(16352, &[RD]);
    assert_eq!(host.read(16352, 32).unwrap()[0], RD);
    assert_eq!(host.write(16352, &[WR]), Ok(()));
    assert_eq!(host.read(16383, 1), Ok(vec![0]));
    assert_eq!(Host::new(127, 0).read(16352, 32), Err(4));
}

#[test]
fn reader_ids_and_public_segments_are_free_to_read() {
    let mut host = Host::new(1, 1).with(8192, &[5; 4096]).with(20480, &[6; 4096]);
    assert_eq!(host.read(8192, 4096), Ok(vec![5; 4096]));
    assert_eq!(host.read(20480, 4096), Ok(vec![6; 4096]));
    assert_eq!(host.write(20483, &[1, 2]), Ok(()));
    assert_eq!(host.read(20482, 4), Ok(vec![6, 1, 2, 6]));
}

#[test]
fn last_segment_of_the_largest_tag() {
    let mut host = Host::new(128, 128);
    assert_eq!(host.write(1_064_959, &[9]), Ok(()));
    assert_eq!(host.read(1_064_959, 1), Ok(vec![9]));
    assert_eq!(host.read(1_064_960, 1), Err(3));
    assert_eq!(host.read(SEGMENT + 127 * 4096, 1), Err(6));
    assert_eq!(host.read(SEGMENT + 128 * 4096, 1), Ok(vec![0]));
}

#[test]
fn header_takes_the_next_counter_only() {
    let mut host = Host::new(1, 0).with(FLAG, &[1]);
    assert_eq!(host.read(0, 16), Ok(hex("0001 0000 0000000000000000 01 000000")));
    assert_eq!(host.write(3, &1u64.to_be_bytes()), Err(4));
    assert_eq!(host.write(4, &[0; 7]), Err(4));
    assert_eq!(host.write(4, &[0; 9]), Err(4));
    assert_eq!(host.write(FLAG, &[0]), Err(4));
    assert_eq!(host.write(COUNTER, &0u64.to_be_bytes()), Err(18));
    assert_eq!(host.write(COUNTER, &2u64.to_be_bytes()), Err(12));
    assert_eq!(host.write(COUNTER, &1u64.to_be_bytes()), Ok(()));
    assert_eq!(host.read(0, 16), Ok(hex("0001 0000 0000000000000001 00 000000")));
}

#[test]
fn full_counter_does_not_go_back_to_0() {
    let mut host = Host::new(1, 0).with(COUNTER, &[0xFF; 8]);
    assert_eq!(host.write(COUNTER, &[0; 8]), Err(12));
    assert_eq!(host.write(COUNTER, &[0xFF; 8]), Err(18));
}

#[test]
fn slots() {
    let slot = |value: u64| Host::unit(0xA5, 0x02).with(SEGMENT + 8, &value.to_be_bytes());
    let write = |old: u64, new: u64| slot(old).write(SEGMENT + 8, &new.to_be_bytes());
    assert_eq!(write(0, 1), Ok(()));
    assert_eq!(write(255, 256), Ok(()));
    assert_eq!(write(255, 257), Err(12));
    assert_eq!(write(255, 255), Err(18));
    assert_eq!(write(u64::MAX, 0), Err(12));
    assert_eq!(write(u64::MAX - 1, u64::MAX), Ok(()));
    let mut host = slot(0);
    assert_eq!(host.write(SEGMENT + 4, &1u64.to_be_bytes()), Err(12));
    assert_eq!(host.write(SEGMENT + 15, &[1]), Err(12));
    assert_eq!(host.write(SEGMENT, &[0; 16]), Err(12));
    assert_eq!(host.write(SEGMENT + 4088, &1u64.to_be_bytes()), Ok(()));
    assert_eq!(host.read(SEGMENT + 4095, 1), Ok(vec![1]));
}

#[test]
fn default_model_stores() {
    for (control, model) in [(RD | WR, 0x00), (RD | WR, 0xFF), (RD | WR | M, 0x00)] {
        let mut host = Host::unit(control, model);
        for _ in 0..2 {
            assert_eq!(host.write(SEGMENT + 1, &[1, 2, 3]), Ok(()));
        }
        assert_eq!(host.read(SEGMENT, 5), Ok(vec![0, 1, 2, 3, 0]));
        assert_eq!(host.tag[UNIT..UNIT + 2], [control, model]);
    }
}

#[test]
fn model_1_is_written_once() {
    for control in [M | WR, M | WR | NE] {
        let mut host = Host::unit(control, 0x01);
        assert_eq!(host.read(SEGMENT, 1), Err(6));
        assert_eq!(host.write(SEGMENT, &[0x5A]), Ok(()));
        assert_eq!(host.tag[UNIT], control & !WR | RD);
        assert_eq!(host.read(SEGMENT, 1), Ok(vec![0x5A]));
        assert_eq!(host.write(SEGMENT, &[0x5A]), Err(6));
    }
}

#[test]
fn model_3_stores_then_combines_then_reads() {
    let mut host = Host::unit(M | WR | NE, 0x03);
    assert_eq!(host.write(SEGMENT, &[1, 2]), Ok(()));
    assert_eq!(host.write(SEGMENT, &[0xF0, 0x0F]), Ok(()));
    assert_eq!(host.read(SEGMENT, 2), Err(6));
    assert_eq!(host.advance(0), Ok(()));
    assert_eq!(host.tag[UNIT..UNIT + 2], [M | WR | NE, 0x13]);
    assert_eq!(host.write(SEGMENT, &[0xFF, 0xFF]), Ok(()));
    assert_eq!(host.write(SEGMENT + 1, &[0x01]), Ok(()));
    assert_eq!(host.read(SEGMENT, 2), Err(6));
    assert_eq!(host.advance(0), Ok(()));
    assert_eq!(host.tag[UNIT..UNIT + 2], [M | RD | NE, 0x23]);
    assert_eq!(host.read(SEGMENT, 2), Ok(vec![0x0F, 0xF1]));
    assert_eq!(host.write(SEGMENT, &[0]), Err(6));
    assert_eq!(host.advance(0), Err(14));
}

#[test]
fn advance_on_other_models() {
    for (control, model) in [(0, 0x03), (WR, 0x03), (M, 0x00), (M | WR, 0x01), (M | RD | WR, 0x02)] {
        assert_eq!(Host::unit(control, model).advance(0), Err(14));
    }
    assert_eq!(Host::unit(M | RD, 0x03).advance(0), Err(5));
    assert_eq!(Host::new(1, 1).advance(1), Err(3), "a public segment");
}

#[test]
fn advance_asks_for_index_and_name() {
    for (control, model, otherwise) in [(M | WR, 0x03, Ok(())), (M | RD, 0x23, Err(14)), (0, 0, Err(14))] {
        let mut host = Host::unit(control | WRPIN | PN, model)
            .with(UNIT + 7, &[7])
            .with(UNIT + 16, &[1]);
        assert_eq!(host.advance(0), Err(7));
        host.session.write = 7;
        assert_eq!(host.advance(0), Err(8));
        host.session.name[0] = 1;
        assert_eq!(host.advance(0), otherwise);
    }
}

#[test]
fn rights_in_ascending_order() {
    let pinned = |control| {
        Host::unit(control, 0)
            .with(UNIT + 4, &[0, 3, 0, 4])
            .with(UNIT + 16, &PIN)
    };
    let mut host = pinned(RDPIN | WRPIN | PN);
    assert_eq!((host.read(SEGMENT, 1), host.write(SEGMENT, &[1])), (Err(6), Err(6)));
    host = pinned(RD | WR | RDPIN | WRPIN | PN);
    assert_eq!((host.read(SEGMENT, 1), host.write(SEGMENT, &[1])), (Err(7), Err(7)));
    (host.session.read, host.session.write) = (3, 4);
    assert_eq!((host.read(SEGMENT, 1), host.write(SEGMENT, &[1])), (Err(8), Err(8)));
    host.session.name = PIN;
    assert_eq!(
        (host.write(SEGMENT, &[1]), host.read(SEGMENT, 1)),
        (Ok(()), Ok(vec![1]))
    );
    host.session.read = 0x0103;
    assert_eq!(
        host.read(SEGMENT, 1),
        Err(7),
        "a session index over 255 is compared as a number"
    );
}

#[test]
fn the_right_of_one_does_not_serve_the_other() {
    let mut host = Host::unit(RD | WR | RDPIN | WRPIN, 0).with(UNIT + 4, &[0, 3, 0, 3]);
    host.session.read = 3;
    assert_eq!(
        (host.read(SEGMENT, 1), host.write(SEGMENT, &[1])),
        (Ok(vec![0]), Err(7))
    );
    (host.session.read, host.session.write) = (0, 3);
    assert_eq!((host.write(SEGMENT, &[1]), host.read(SEGMENT, 1)), (Ok(()), Err(7)));
}

#[test]
fn rights_come_before_slot_rules() {
    let mut host = Host::unit(0xA5 | WRPIN, 0x02).with(UNIT + 7, &[1]);
    assert_eq!(host.write(SEGMENT + 1, &[1]), Err(7));
    host = Host::unit(0xA5, 0x02).with(UNIT + 2, &[1]);
    assert_eq!(host.write(SEGMENT + 1, &[1]), Err(5));
}

#[test]
fn index_0_is_an_index() {
    let mut host = Host::unit(RD | RDPIN, 0).with_pin(7, PIN);
    assert_eq!(host.read(SEGMENT, 1), Ok(vec![0]));
    assert_eq!(host.present(READ, 7, &PIN), Ok(()));
    assert_eq!(host.read(SEGMENT, 1), Err(7));
    let mut restarted = host.clone();
    restarted.power_up();
    assert_eq!(restarted.read(SEGMENT, 1), Ok(vec![0]));
    assert_eq!(host.present(READ, 0, &[0; 16]), Ok(()));
    assert_eq!(host.read(SEGMENT, 1), Ok(vec![0]));
}

#[test]
fn each_segment_has_its_own_unit() {
    let mut host = Host::new(3, 0).with(UNIT + 32, &[RD | WR]);
    assert_eq!(host.write(SEGMENT + 4096, &[1]), Ok(()));
    assert_eq!(host.write(SEGMENT, &[1]), Err(6));
    assert_eq!(host.write(SEGMENT + 8192, &[1]), Err(6));
}
