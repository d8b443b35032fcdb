//! Reads and edits of units.

use crate::host::*;

#[test]
fn malformed_units_give_5_to_all() {
    for (offset, byte) in [(0, 0x02), (2, 1), (3, 1), (4, 1), (6, 1), (8, 1), (10, 1), (15, 1)] {
        let mut host = Host::unit(RD | WR, 0).with(UNIT + offset, &[byte]);
        assert_eq!(host.read(SEGMENT, 1), Err(5));
        assert_eq!(host.write(SEGMENT, &[0]), Err(5));
        assert_eq!(host.read(UNIT, 1), Err(5));
        assert_eq!(host.write(UNIT + offset, &[0]), Err(5), "no edit repairs it");
        assert_eq!(host.advance(0), Err(5));
    }
}

#[test]
fn covered_name() {
    let open = Host::unit(0, 0).with(UNIT + 16, &PIN);
    assert_eq!(open.read(UNIT, 32).unwrap()[16..], PIN);
    let mut covered = Host::unit(PN, 0).with(UNIT + 16, &PIN);
    covered.session.name = PIN;
    assert_eq!(covered.read(UNIT, 16).unwrap()[0], PN);
    assert_eq!(covered.read(UNIT + 8, 8), Ok(vec![0; 8]));
    assert_eq!(covered.read(UNIT, 17), Err(6));
    assert_eq!(covered.read(UNIT + 15, 2), Err(6));
    assert_eq!(covered.read(UNIT + 16, 1), Err(6));
    assert_eq!(covered.read(UNIT + 31, 1), Err(6));
    assert_eq!(
        covered.write(UNIT + 16, &[1]),
        Ok(()),
        "an edit does not ask for the name"
    );
}

#[test]
fn edit_order() {
    let mut host = Host::unit(NE, 0).with(UNIT + 9, &[7]);
    assert_eq!(host.write(UNIT, &[0x02]), Err(6));
    host = host.with(UNIT, &[0]);
    assert_eq!(host.write(UNIT, &[0x02]), Err(7));
    host.session.edit = 7;
    assert_eq!(host.write(UNIT, &[0x02]), Err(13));
    assert_eq!(host.write(UNIT, &[RD | WR]), Ok(()));
    assert_eq!(host.write(SEGMENT, &[1]), Ok(()));
}

#[test]
fn edit_index_is_the_one_before() {
    let mut host = Host::unit(0, 0);
    assert_eq!(host.write(UNIT + 8, &[0, 7]), Ok(()));
    assert_eq!(host.write(UNIT + 8, &[0, 0]), Err(7));
    host.session.edit = 7;
    assert_eq!(host.write(UNIT + 8, &[0, 0]), Ok(()));
    assert_eq!(host.write(UNIT, &[RD]), Err(7), "index 0 is for nobody now");
    host.power_up();
    assert_eq!(host.write(UNIT, &[RD]), Ok(()));
}

#[test]
fn edit_results() {
    let edit = |from: [u8; 2], to: [u8; 2]| Host::unit(from[0], from[1]).write(UNIT, &to);
    assert_eq!(edit([0, 0], [M | RD | WR, 0x02]), Ok(()));
    assert_eq!(edit([0, 0], [M | RD, 0x02]), Err(13));
    assert_eq!(edit([0, 0], [M | RD, 0x04]), Err(13));
    assert_eq!(edit([0, 0], [RD, 0xFF]), Ok(()), "byte 1 is free with M clear");
    assert_eq!(edit([0, 0], [M | WR, 0x03]), Ok(()));
    assert_eq!(edit([0, 0], [M | WR, 0x13]), Err(13));
    assert_eq!(edit([WR, 0x13], [M | WR, 0x13]), Err(13), "byte 1 meant nothing before");
    assert_eq!(edit([M | RD | WR, 0x02], [M | RD, 0x23]), Err(13));
    assert_eq!(edit([M | RD, 0x01], [M | WR, 0x01]), Ok(()));
    for (at, byte) in [(2, 1), (4, 1), (8, 1), (15, 1)] {
        assert_eq!(Host::unit(0, 0).write(UNIT + at, &[byte]), Err(13));
    }
    assert_eq!(Host::unit(0, 0).write(UNIT, &[0; 32]), Ok(()));
}

#[test]
fn staged_units_keep_model_and_rights() {
    for staged in [[M | WR, 0x03], [M | WR, 0x13], [M | RD, 0x23]] {
        let host = Host::unit(staged[0], staged[1]);
        let edit = |to: [u8; 2]| host.clone().write(UNIT, &to);
        assert_eq!(edit(staged), Ok(()));
        assert_eq!(edit([staged[0] | RDPIN | WRPIN | PN | NE, staged[1]]), Ok(()));
        assert_eq!(edit([staged[0] & !M, staged[1]]), Err(13));
        assert_eq!(edit([RD | WR | M, 0x02]), Err(13));
        assert_eq!(edit([M | WR, 0x00]), Err(13));
        for other in [[M | WR, 0x03], [M | WR, 0x13], [M | RD, 0x23]] {
            assert_eq!(edit(other).is_ok(), other == staged);
        }
        assert_eq!(host.clone().write(UNIT + 4, &[0, 255, 0, 255, 0, 255]), Ok(()));
        assert_eq!(host.clone().write(UNIT + 16, &PIN), Ok(()));
    }
}
