//! Request L1: a repeat of a slot or of the roll-back counter is told from a gap.

use crate::host::*;

/// The first two slots of a segment, its last, and the roll-back counter.
const PLACES: [usize; 4] = [SEGMENT, SEGMENT + 8, SEGMENT + 4088, COUNTER];

/// A tag with a counter segment and this value at an address.
fn holding(address: usize, value: u64) -> Host {
    Host::unit(0xA5, 0x02).with(address, &value.to_be_bytes())
}

/// The answer to a write over a stored value, which is the same in each of the places.
fn answer(stored: u64, written: u64) -> Result<(), u8> {
    let answers = PLACES.map(|address| holding(address, stored).write(address, &written.to_be_bytes()));
    assert_eq!(answers, [answers[0]; 4], "{stored} to {written}");
    answers[0]
}

/// Writes what is stored already.
fn repeat(host: &mut Host, address: usize, count: usize) -> Result<(), u8> {
    let data = host.tag[address..address + count].to_vec();
    host.write(address, &data)
}

#[test]
fn the_very_value_now_stored() {
    for value in [0, 1, 255, 256, 1 << 32, 1 << 63, u64::MAX - 1] {
        assert_eq!(answer(value, value), Err(18));
        assert_eq!(answer(value, value + 1), Ok(()));
    }
    for bit in 1..64 {
        assert_eq!(answer(0, 1 << bit), Err(12), "one bit makes it another value");
        assert_eq!(answer(u64::MAX - 1, u64::MAX - 1 - (1 << bit)), Err(12));
    }
}

#[test]
fn gaps_and_lower_values_remain_12() {
    for (stored, gap) in [
        (0, 2),
        (255, 257),
        (1, 1 << 56),
        (0, u64::MAX),
        (u64::MAX - 2, u64::MAX),
    ] {
        assert_eq!(answer(stored, gap), Err(12));
    }
    for (stored, lower) in [(1, 0), (256, 255), (1 << 56, 1), (u64::MAX, u64::MAX - 1)] {
        assert_eq!(answer(stored, lower), Err(12));
    }
}

#[test]
fn a_full_value_repeated_and_to_0() {
    assert_eq!(answer(u64::MAX, u64::MAX), Err(18));
    assert_eq!(answer(u64::MAX, 0), Err(12));
}

#[test]
fn the_next_value_is_granted_after_a_repeat() {
    for address in PLACES {
        let mut host = holding(address, 7);
        let before = host.clone();
        for _ in 0..2 {
            assert_eq!(repeat(&mut host, address, 8), Err(18));
            assert!(host.tag == before.tag && host.session == before.session);
        }
        assert_eq!(host.write(address, &8u64.to_be_bytes()), Ok(()));
        assert!(host.tag == holding(address, 8).tag);
        assert_eq!(repeat(&mut host, address, 8), Err(18));
        assert_eq!(host.write(address, &7u64.to_be_bytes()), Err(12), "no longer stored");
    }
}

#[test]
fn a_neighbours_value_is_no_repeat() {
    let mut host = holding(SEGMENT, 5).with(SEGMENT + 8, &9u64.to_be_bytes());
    assert_eq!(host.write(SEGMENT, &9u64.to_be_bytes()), Err(12));
    assert_eq!(host.write(SEGMENT + 8, &5u64.to_be_bytes()), Err(12));
}

#[test]
fn bad_shapes_in_a_segment_remain_12() {
    for fill in [0x00, 0x5A, 0xFF] {
        let mut host = Host::unit(0xA5, 0x02).with(SEGMENT, &[fill; 4096]);
        for offset in [1, 4, 7, 4087] {
            assert_eq!(repeat(&mut host, SEGMENT + offset, 8), Err(12), "not aligned");
        }
        for count in [1, 4, 7, 9, 16, 32, 4096] {
            assert_eq!(repeat(&mut host, SEGMENT, count), Err(12), "{count} bytes");
        }
        assert_eq!(repeat(&mut host, SEGMENT + 1, 7), Err(12));
        assert_eq!(repeat(&mut host, SEGMENT + 7, 9), Err(12));
        assert_eq!(repeat(&mut host, SEGMENT + 15, 1), Err(12));
        assert_eq!(repeat(&mut host, SEGMENT, 8), Err(18));
    }
}

#[test]
fn bad_shapes_at_the_header_remain_4() {
    for value in [0, u64::MAX] {
        let mut host = holding(COUNTER, value);
        for address in [0, 3, 5, 8] {
            assert_eq!(repeat(&mut host, address, 8), Err(4), "address {address}");
        }
        for count in [1, 4, 7, 9, 12] {
            assert_eq!(repeat(&mut host, COUNTER, count), Err(4), "{count} bytes");
        }
        assert_eq!(repeat(&mut host, 0, 16), Err(4));
        assert_eq!(repeat(&mut host, FLAG, 1), Err(4));
        assert_eq!(repeat(&mut host, COUNTER, 8), Err(18));
    }
}

#[test]
fn a_repeated_counter_leaves_the_flag() {
    for flag in [0, 1] {
        let mut host = holding(COUNTER, 7).with(FLAG, &[flag]);
        assert_eq!(repeat(&mut host, COUNTER, 8), Err(18));
        assert_eq!(host.tag[FLAG], flag);
        assert_eq!(host.count(), Ok(()));
        assert_eq!((host.counter(), host.tag[FLAG]), (8, 0), "the next value clears it");
    }
}

#[test]
fn a_repeated_counter_does_not_make_the_value_usable_again() {
    let mut host = holding(COUNTER, 7).with_pin(9, PIN);
    host.session.pa = pa(9, 0);
    let response = host.response(&PIN);
    assert_eq!(repeat(&mut host, COUNTER, 8), Err(18));
    assert_eq!(host.write(READ, &[0; 16]), Err(11));
    assert_eq!(repeat(&mut host, COUNTER, 8), Err(18));
    assert_eq!(host.write(READ, &response), Err(10));
}

#[test]
fn unit_index_and_name_come_first() {
    let mut host = Host::unit(0xA5 | WRPIN | PN, 0x02)
        .with(UNIT + 2, &[1])
        .with(UNIT + 7, &[7])
        .with(UNIT + 16, &PIN);
    assert_eq!(repeat(&mut host, SEGMENT, 8), Err(5));
    host = host.with(UNIT + 2, &[0]);
    assert_eq!(repeat(&mut host, SEGMENT, 8), Err(7));
    host.session.write = 7;
    assert_eq!(repeat(&mut host, SEGMENT, 8), Err(8));
    host.session.name = PIN;
    assert_eq!(repeat(&mut host, SEGMENT, 8), Err(18));
}

#[test]
fn other_segments_do_not_tell_repeats() {
    for (control, model) in [(RD | WR, 0x02), (M | RD | WR, 0x00), (M | WR, 0x01), (M | WR, 0x03)] {
        assert_eq!(repeat(&mut Host::unit(control, model), SEGMENT, 8), Ok(()));
    }
    assert_eq!(repeat(&mut Host::new(1, 1), SEGMENT + 4096, 8), Ok(()), "public");
}
