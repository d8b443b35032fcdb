//! Model 4: inserting hosts, the keys that come of it, hidden slots, and edits.

use crate::host::*;

/// The first two bytes of a unit of model 4 before and after its host's insertion.
const NEW: [u8; 2] = [M | WR, 0x04];
const INSERTED: [u8; 2] = [M | RD, 0x14];

const COUNTING: [u8; 2] = [M | RD | WR, 0x02];

const ROW: usize = 18;
const SLOT: usize = 48;

/// A tag with a segment for each of these units, and a public segment behind them.
fn tag_of(units: &[[u8; 2]]) -> Host {
    let host = Host::new(units.len() as u16, 1);
    (units.iter().enumerate()).fold(host, |host, (number, unit)| host.with(unit_at(number), unit))
}

fn unit_at(number: usize) -> usize {
    UNIT + 32 * number
}

fn slot_at(number: usize, slot: usize) -> usize {
    SEGMENT + 4096 * number + SLOT * slot
}

/// The same tag with rows in its reader ID segment: the byte that the id repeats, and the segment field.
fn with_rows(host: Host, rows: &[(u8, u16)]) -> Host {
    let bytes: Vec<u8> = rows.iter().flat_map(|&(id, field)| row(id, field)).collect();
    host.with(READER_IDS, &bytes)
}

fn row(id: u8, field: u16) -> Vec<u8> {
    [vec![id; 16], field.to_be_bytes().to_vec()].concat()
}

/// Each byte of the text sixteen times: id, key and mask of one slot after another.
fn stream(text: &str) -> Vec<u8> {
    hex(text).into_iter().flat_map(|byte| [byte; 16]).collect()
}

/// The same tag with the first slots of its first segments as the texts say.
fn with_streams(host: Host, streams: &[&str]) -> Host {
    (streams.iter().enumerate()).fold(host, |host, (number, text)| {
        host.with(slot_at(number, 0), &stream(text))
    })
}

#[test]
fn insertion_order() {
    let mut host = tag_of(&[[RD | WR | WRPIN | PN, 0x04]])
        .with(UNIT + 2, &[1])
        .with(UNIT + 7, &[7])
        .with(UNIT + 16, &[1]);
    assert_eq!(host.insert(1, &[0; 16]), Err(3), "a public segment");
    assert_eq!(host.insert(usize::MAX, &[0; 16]), Err(3));
    assert_eq!(host.insert(0, &[0; 16]), Err(5));
    host = host.with(UNIT + 2, &[0]);
    assert_eq!(host.insert(0, &[0; 16]), Err(7));
    host.session.write = 7;
    assert_eq!(host.insert(0, &[0; 16]), Err(8));
    host.session.name[0] = 1;
    assert_eq!(host.insert(0, &[0; 16]), Err(14));
    host = host.with(UNIT, &[NEW[0] | WRPIN | PN]);
    assert_eq!(host.insert(0, &[0; 16]), Err(19));
    assert_eq!(host.insert(0, &PIN), Ok(()));
    assert_eq!(host.insert(0, &PIN), Err(14), "listed, but no longer at stage 0");
}

#[test]
fn insertion_is_for_model_4_at_stage_0() {
    let rights = [M | WR, M | RD, M | RD | WR];
    let others = [[0, 0x04], [WR, 0x04], [RD, 0x14], [M | WR, 0x00], COUNTING, INSERTED];
    let staged = [
        [M | WR, 0x01],
        [M | RD, 0x01],
        [M | WR, 0x03],
        [M | WR, 0x13],
        [M | RD, 0x23],
    ];
    for unit in others.into_iter().chain(staged) {
        assert_eq!(tag_of(&[unit]).insert(0, &PIN), Err(14), "{unit:02X?}");
        assert_eq!(tag_of(&[unit]).insert(0, &[0; 16]), Err(14), "14 comes before 19");
    }
    for control in rights {
        assert_eq!(tag_of(&[[control, 0x24]]).insert(0, &PIN), Err(5));
        assert_eq!(tag_of(&[[control, 0x04]]).insert(0, &PIN).is_ok(), control == M | WR);
        assert_eq!(
            tag_of(&[[control, 0x14]]).insert(0, &PIN),
            Err(if control == M | RD { 14 } else { 5 })
        );
    }
}

#[test]
fn insertion_moves_rights_and_stage_whatever_ne_says() {
    for more in [0, NE, RDPIN, WRPIN, PN, NE | RDPIN | WRPIN | PN] {
        let mut host = tag_of(&[[NEW[0] | more, 0x04]])
            .with(UNIT + 4, &[0, 5, 0, 6, 0, 7])
            .with(UNIT + 16, &PIN);
        (host.session.write, host.session.name) = (6, PIN);
        let expected = with_rows(host.clone(), &[(9, 1)]).with(UNIT, &[INSERTED[0] | more, 0x14]);
        assert_eq!(host.insert(0, &[9; 16]), Ok(()));
        assert!(host.tag == expected.tag);
    }
}

#[test]
fn the_id_is_the_commands() {
    let mut host = tag_of(&[NEW]);
    host.session.id = [5; 16];
    assert_eq!(host.insert(0, &PIN), Ok(()));
    assert_eq!(
        host.tag[READER_IDS..READER_IDS + ROW],
        hex("000102030405060708090A0B0C0D0E0F 0001")
    );
}

/// Three inserted hosts in the first segments and a new one in the fourth, with such rows.
fn three_hosts(rows: &[(u8, u16)]) -> Host {
    with_rows(tag_of(&[INSERTED, INSERTED, INSERTED, NEW]), rows)
}

const IN_ORDER: [(u8, u16); 3] = [(1, 3), (2, 1), (3, 2)];

#[test]
fn ids_that_are_refused() {
    let insert = |id| three_hosts(&IN_ORDER).insert(3, &id);
    assert_eq!(insert([4; 16]), Ok(()));
    for id in 0..4 {
        assert_eq!(insert([id; 16]), Err(19), "id {id}");
    }
    for at in [0, 15] {
        let (mut near_zero, mut near_listed) = ([0; 16], [2; 16]);
        (near_zero[at], near_listed[at]) = (1, 3);
        assert_eq!((insert(near_zero), insert(near_listed)), (Ok(()), Ok(())));
    }
}

#[test]
fn rows_that_are_refused() {
    let insert = |rows: &[(u8, u16)]| three_hosts(rows).insert(3, &[9; 16]);
    assert_eq!(insert(&IN_ORDER), Ok(()));
    assert_eq!(insert(&[]), Ok(()));
    for at in 0..3 {
        let with = |id, field| {
            let mut rows = IN_ORDER;
            rows[at] = (id, field);
            insert(&rows)
        };
        let (id, field) = IN_ORDER[at];
        let (next_id, next_field) = IN_ORDER[(at + 1) % 3];
        assert_eq!(with(8, field), Ok(()));
        assert_eq!(with(next_id, field), Err(19), "a repeated id");
        assert_eq!(with(id, next_field), Err(19), "a repeated segment");
        assert_eq!(with(id, 4), Err(19), "the new segment is listed");
        for none in [0, 5, 6, 0x0101, 0xFFFF] {
            assert_eq!(with(id, none), Err(19), "a row that names no segment");
        }
    }
}

#[test]
fn units_of_rows_that_are_refused() {
    let insert = |unit: [u8; 3]| three_hosts(&IN_ORDER).with(unit_at(1), &unit).insert(3, &[9; 16]);
    assert_eq!(insert([M | RD, 0x14, 0]), Ok(()));
    assert_eq!(insert([M | RD | NE | PN | RDPIN | WRPIN, 0x14, 0]), Ok(()));
    assert_eq!(insert([M | RD, 0x14, 1]), Err(19), "not well formed");
    assert_eq!(insert([M | WR, 0x14, 0]), Err(19), "not well formed");
    assert_eq!(insert([M | WR, 0x04, 0]), Err(19));
    assert_eq!(insert([RD, 0x14, 0]), Err(19), "M clear is the default model");
    assert_eq!(insert([M | RD, 0x23, 0]), Err(19));
    assert_eq!(insert([M | RD | WR, 0x02, 0]), Err(19), "no counter is ever touched");
}

/// Four segments for hosts, each byte standing for a field of 16, a counter segment, and other bytes behind the slots.
fn four_streams() -> Host {
    let host = tag_of(&[NEW, NEW, NEW, NEW, COUNTING]).with(SEGMENT, &[0xEE; 6 * 4096]);
    let streams = [
        "305090 040506 315295 325498",
        "B0C0E0 B1C2E4 B2C4E8 0A0B0C",
        "010203 102040 112244 122448",
        "7060A0 7162A4 070809 7264A8",
    ];
    with_streams(host, &streams)
}

#[test]
fn insertions_byte_by_byte() {
    let mut host = four_streams();
    let mut expected = with_rows(host.clone(), &[(0xA1, 3)]).with(unit_at(2), &INSERTED);
    assert_eq!(host.insert(2, &[0xA1; 16]), Ok(()));
    assert!(host.tag == expected.tag, "nothing is shared yet");

    expected = with_rows(expected, &[(0xA1, 3), (0xB2, 1)])
        .with(unit_at(0), &INSERTED)
        .with(slot_at(2, 1), &stream("A2F000"))
        .with(slot_at(0, 0), &stream("918000"));
    assert_eq!(host.insert(0, &[0xB2; 16]), Ok(()));
    assert!(host.tag == expected.tag);

    expected = with_rows(expected, &[(0xA1, 3), (0xB2, 1), (0xC3, 4)])
        .with(unit_at(3), &INSERTED)
        .with(slot_at(2, 2), &stream("D2C600"))
        .with(slot_at(0, 2), &stream("F26300"))
        .with(slot_at(3, 0), &stream("D18400 C35300"));
    assert_eq!(host.insert(3, &[0xC3; 16]), Ok(()));
    assert!(host.tag == expected.tag);

    expected = with_rows(expected, &[(0xA1, 3), (0xB2, 1), (0xC3, 4), (0xD4, 2)])
        .with(unit_at(1), &INSERTED)
        .with(slot_at(2, 3), &stream("C68C00"))
        .with(slot_at(0, 3), &stream("E62800"))
        .with(slot_at(3, 3), &stream("A62400"))
        .with(slot_at(1, 0), &stream("116800 03BE00 718400"));
    assert_eq!(host.insert(1, &[0xD4; 16]), Ok(()));
    assert!(
        host.tag == expected.tag,
        "the counter and public segments too are as they were"
    );
}

#[test]
fn bytes_inside_the_fields_keep_their_order() {
    let ascending = |from: u8| -> Block { std::array::from_fn(|at| from + at as u8) };
    let mut host = tag_of(&[NEW, NEW])
        .with(slot_at(0, 1) + 32, &ascending(0x10))
        .with(slot_at(1, 0) + 16, &[0x80; 16]);
    assert_eq!(host.insert(0, &ascending(0x20)), Ok(()));
    assert_eq!(host.insert(1, &PIN), Ok(()));
    assert_eq!(
        host.tag[slot_at(0, 1)..slot_at(0, 2)],
        [PIN, ascending(0x10), [0; 16]].concat()
    );
    assert_eq!(
        host.tag[slot_at(1, 0)..slot_at(1, 1)],
        [ascending(0x20), ascending(0x90), [0; 16]].concat()
    );
}

/// The mask that the host of one row has for another, in the test of the full list.
fn mask(of: usize, with: usize) -> u8 {
    (3 * of + 7 * with + 1) as u8
}

/// 87 segments, whose last 85 are the hosts' in falling order; each slot has its mask. A row stands behind the most
/// that a list takes.
fn unlisted_85() -> Host {
    let mut host = tag_of(&[NEW; 87]).with(READER_IDS + 85 * ROW, &row(0x99, 1));
    for (of, with) in (0..85).flat_map(|of| (0..85).map(move |with| (of, with))) {
        host = host.with(slot_at(86 - of, with) + 32, &[mask(of, with); 16]);
    }
    host
}

fn id_of(row: usize) -> Block {
    [row as u8 + 1; 16]
}

#[test]
fn a_full_list() {
    let mut host = unlisted_85();
    let mut expected = host.clone();
    for of in 0..85 {
        assert_eq!(host.insert(86 - of, &id_of(of)), Ok(()), "host {of}");
        expected = expected
            .with(unit_at(86 - of), &INSERTED)
            .with(READER_IDS + ROW * of, &row(of as u8 + 1, 87 - of as u16));
        for with in (0..85).filter(|&with| with != of) {
            let key = [mask(of, with) ^ mask(with, of); 16];
            expected = expected.with(slot_at(86 - of, with), &[id_of(with), key, [0; 16]].concat());
        }
    }
    assert!(host.tag == expected.tag);
    assert_eq!(host.insert(1, &[0xAA; 16]), Err(19), "no room for an 86th");
    for own in 0..85 {
        for slot in 0..85 {
            assert_eq!(host.read(slot_at(86 - own, slot), SLOT).is_ok(), slot != own);
        }
        assert_eq!(host.read(slot_at(86 - own, 85), 1), Err(6));
    }
    assert_eq!(host.read(slot_at(86, 1), 84 * SLOT).unwrap().len(), 4032);
    assert_eq!(host.read(slot_at(86, 1), 84 * SLOT + 1), Err(6));
    assert_eq!(
        host.write(unit_at(0), &[0, 0]),
        Ok(()),
        "the row behind the list does not count"
    );
}

#[test]
fn stale_rows_join_the_list() {
    let units = [INSERTED, INSERTED, NEW, INSERTED, NEW];
    let mut host = with_rows(tag_of(&units), &[(1, 1), (0, 9), (3, 2), (0, 0), (5, 4)]);
    assert_eq!(host.read(slot_at(1, 0), 1), Err(6));
    assert_eq!(host.clone().write(unit_at(1), &[0]), Ok(()));
    let expected = with_rows(host.clone(), &[(1, 1), (7, 3)])
        .with(unit_at(2), &INSERTED)
        .with(slot_at(0, 1), &stream("070000"))
        .with(slot_at(2, 0), &stream("010000"));
    assert_eq!(host.insert(2, &[7; 16]), Ok(()));
    assert!(
        host.tag == expected.tag,
        "a row behind the end shares nothing and stays"
    );
    assert_eq!(host.read(slot_at(1, 0), 2 * SLOT), Ok(vec![0; 96]));
    assert_eq!(host.read(slot_at(1, 2), 1), Err(6), "its own slot");
    assert_eq!(host.read(slot_at(0, 2), 1), Ok(vec![0]));
    assert_eq!(host.read(slot_at(3, 0), 1), Err(6), "the next zero id ends the list");
    assert_eq!(host.write(unit_at(1), &[0]), Err(13));
    assert_eq!(host.insert(4, &[8; 16]), Ok(()));
    assert_eq!(
        host.tag[READER_IDS + 3 * ROW..READER_IDS + 5 * ROW],
        [row(8, 5), row(5, 4)].concat()
    );
    assert_eq!(host.read(slot_at(3, 0), 4 * SLOT).unwrap()[..], [0; 192]);
}

#[test]
fn stale_rows_count_from_when_they_join() {
    let with_stale = |id, field| with_rows(tag_of(&[NEW, NEW]), &[(0, 0), (id, field)]);
    for (id, field) in [(7, 2), (8, 1), (8, 2), (8, 0)] {
        let mut host = with_stale(id, field);
        assert_eq!(host.insert(0, &[7; 16]), Ok(()), "it does not count yet");
        assert_eq!(host.insert(1, &[9; 16]), Err(19));
    }
}

#[test]
fn each_byte_is_shown_or_hidden_by_its_slot() {
    let host = three_hosts(&IN_ORDER).with(SEGMENT, &[0xCC; 3 * 4096]);
    for (segment, shown) in [(2, [1, 2]), (0, [0, 2]), (1, [0, 1])] {
        for offset in 0..4096 {
            let answer = if shown.contains(&(offset / SLOT)) {
                Ok(vec![0xCC])
            } else {
                Err(6)
            };
            assert_eq!(
                host.read(slot_at(segment, 0) + offset, 1),
                answer,
                "{segment} at {offset}"
            );
        }
    }
}

#[test]
fn spans_of_slots() {
    let host = three_hosts(&IN_ORDER);
    let shown = |segment, offset, count| match host.read(slot_at(segment, 0) + offset, count) {
        Err(number) => number != 6,
        Ok(_) => true,
    };
    assert!(shown(0, 0, 48) && shown(0, 96, 48) && shown(0, 10, 38));
    assert!(!shown(0, 0, 49) && !shown(0, 47, 2) && !shown(0, 95, 2) && !shown(0, 143, 2));
    assert!(!shown(0, 0, 144) && !shown(0, 0, 4096), "the hidden slot is inside");
    assert!(shown(2, 48, 96) && shown(2, 95, 2) && shown(2, 143, 1));
    assert!(!shown(2, 47, 96) && !shown(2, 48, 97) && !shown(2, 47, 1));
    assert!(shown(1, 0, 96) && !shown(1, 0, 97) && !shown(1, 95, 2));
    for segment in 0..3 {
        assert!(!shown(segment, 4080, 16) && !shown(segment, 4095, 1) && !shown(segment, 4032, 48));
    }
}

#[test]
fn rows_without_a_segment_still_have_slots() {
    let host = three_hosts(&[(1, 0), (2, 1), (3, 5), (4, 0xFFFF)]);
    assert_eq!(host.read(slot_at(0, 0), 48), Ok(vec![0; 48]));
    assert_eq!(host.read(slot_at(0, 2), 96), Ok(vec![0; 96]));
    assert_eq!(host.read(slot_at(0, 1), 1), Err(6));
    assert_eq!(host.read(slot_at(0, 4), 1), Err(6));
}

#[test]
fn every_row_that_names_a_segment_hides_its_slot() {
    let host = three_hosts(&[(1, 1), (2, 2), (1, 1)]);
    let shown = |segment| [0, 1, 2].map(|slot| host.read(slot_at(segment, slot), 1).is_ok());
    assert_eq!((shown(0), shown(1)), ([false, true, false], [true, false, true]));
}

#[test]
fn an_unlisted_segment_shows_nothing() {
    for rows in [
        &[][..],
        &[(1, 3), (2, 1)],
        &[(1, 3), (0, 2)],
        &[(1, 3), (0, 0), (2, 2)],
        &[(1, 0x0102)],
    ] {
        let host = three_hosts(rows);
        assert!((0..4096).all(|offset| host.read(slot_at(1, 0) + offset, 1) == Err(6)));
    }
}

#[test]
fn hidden_comes_before_index_and_name() {
    let mut host = three_hosts(&IN_ORDER)
        .with(UNIT, &[INSERTED[0] | RDPIN | PN])
        .with(UNIT + 5, &[7])
        .with(UNIT + 16, &PIN);
    let reads = |host: &Host| [0, 1].map(|slot| host.read(slot_at(0, slot), 1).err());
    assert_eq!(reads(&host), [Some(7), Some(6)]);
    host.session.read = 7;
    assert_eq!(reads(&host), [Some(8), Some(6)]);
    host.session.name = PIN;
    assert_eq!(reads(&host), [None, Some(6)]);
    host = host.with(UNIT + 3, &[1]);
    assert_eq!(reads(&host), [Some(5), Some(5)]);
}

#[test]
fn only_model_4_hides_slots() {
    for unit in [
        [RD, 0x14],
        [RD, 0x04],
        [M | RD, 0x00],
        [M | RD, 0x01],
        COUNTING,
        [M | RD, 0x23],
    ] {
        let host = with_rows(tag_of(&[unit]), &[(1, 1)]);
        assert_eq!(host.read(SEGMENT, 4096), Ok(vec![0; 4096]));
        assert_eq!(with_rows(host, &[(0, 0)]).read(SEGMENT, 4096), Ok(vec![0; 4096]));
    }
}

#[test]
fn stage_0_stores_and_stage_1_takes_no_write() {
    let mut host = tag_of(&[NEW]);
    for data in [[1, 2, 3], [9, 8, 7]] {
        assert_eq!(host.write(SEGMENT + 47, &data), Ok(()));
        assert_eq!(host.tag[SEGMENT + 46..SEGMENT + 51], [0, data[0], data[1], data[2], 0]);
    }
    assert_eq!(host.tag[UNIT..UNIT + 2], NEW);
    assert_eq!(host.write(SEGMENT, &[5; 4096]), Ok(()));
    assert_eq!(host.read(SEGMENT, 1), Err(6));
    assert_eq!(host.advance(0), Err(14));
    assert_eq!(host.insert(0, &PIN), Ok(()));
    assert_eq!(host.write(SEGMENT, &[5]), Err(6));
    assert_eq!(host.advance(0), Err(14));
    let mut asking = tag_of(&[[NEW[0] | WRPIN | PN, 0x04]])
        .with(UNIT + 7, &[7])
        .with(UNIT + 16, &PIN);
    assert_eq!(asking.write(SEGMENT, &[5]), Err(7));
    asking.session.write = 7;
    assert_eq!(asking.write(SEGMENT, &[5]), Err(8));
    asking.session.name = PIN;
    assert_eq!(asking.write(SEGMENT, &[5]), Ok(()));
}

#[test]
fn edits_reach_model_4_at_stage_0_only() {
    let edit = |from: [u8; 2], to: [u8; 2]| tag_of(&[from]).write(UNIT, &to);
    for from in [[0, 0], [RD, 0x14], COUNTING, [M | RD, 0x01], NEW, INSERTED] {
        assert_eq!(edit(from, NEW), Ok(()));
        assert_eq!(edit(from, [NEW[0] | RDPIN | WRPIN | PN | NE, 0x04]), Ok(()));
        assert_eq!(edit(from, INSERTED), Err(13));
        for ill_formed in [
            [M | RD, 0x04],
            [M | RD | WR, 0x04],
            [M, 0x04],
            [M | WR, 0x14],
            [M | WR, 0x24],
        ] {
            assert_eq!(edit(from, ill_formed), Err(13));
        }
        for to in [
            [0, 0x04],
            [RD, 0x14],
            [M | WR, 0x00],
            [M | WR, 0x01],
            COUNTING,
            [M | WR, 0x03],
        ] {
            assert_eq!(edit(from, to), Ok(()));
        }
        assert_eq!(edit(from, [M | WR, 0x13]), Err(13));
    }
    for from in [[M | WR, 0x03], [M | WR, 0x13], [M | RD, 0x23]] {
        assert_eq!(
            (edit(from, NEW), edit(from, INSERTED)),
            (Err(13), Err(13)),
            "model 3 stays"
        );
    }
}

#[test]
fn other_bytes_of_units_of_model_4() {
    let edit = |unit, at: usize, bytes: &[u8]| tag_of(&[unit]).write(UNIT + at, bytes);
    assert_eq!(edit(NEW, 16, &PIN), Ok(()));
    assert_eq!(edit(NEW, 4, &[0, 255, 0, 255, 0, 255]), Ok(()));
    assert_eq!(edit(INSERTED, 16, &PIN), Err(13), "the result is still at stage 1");
    assert_eq!(edit(INSERTED, 4, &[0, 255]), Err(13));
    assert_eq!(edit(INSERTED, 0, &[RD]), Ok(()), "M clear");
}

#[test]
fn units_of_listed_segments_stay() {
    for unit in [INSERTED, NEW, [0, 0], [RD | WR, 0x14], COUNTING, [M | WR, 0x03]] {
        let host = with_rows(tag_of(&[unit, NEW]), &[(1, 9), (1, 1)]);
        let edit = |at: usize, bytes: &[u8]| host.clone().write(UNIT + at, bytes);
        assert_eq!(edit(0, &unit), Err(13), "even if nothing changes");
        assert_eq!(edit(0, &NEW), Err(13));
        assert_eq!(edit(0, &[0, 0]), Err(13));
        assert_eq!(edit(16, &PIN), Err(13));
        assert_eq!(host.clone().write(unit_at(1), &[0]), Ok(()), "not listed");
        assert_eq!(
            with_rows(host.clone(), &[(0, 0)]).write(UNIT + 2, &[0, 0]).is_ok(),
            unit != INSERTED
        );
    }
}

#[test]
fn edits_of_listed_units_in_order() {
    let mut host = with_rows(tag_of(&[[INSERTED[0] | NE, 0x14]]), &[(1, 1)])
        .with(UNIT + 2, &[1])
        .with(UNIT + 9, &[7]);
    assert_eq!(host.write(UNIT, &[0]), Err(5));
    host = host.with(UNIT + 2, &[0]);
    assert_eq!(host.write(UNIT, &[0]), Err(6));
    host = host.with(UNIT, &INSERTED);
    assert_eq!(host.write(UNIT, &[0]), Err(7));
    host.session.edit = 7;
    assert_eq!(host.write(UNIT, &[0]), Err(13));
}

#[test]
fn units_of_model_4_are_read_as_others() {
    let mut host = three_hosts(&IN_ORDER).with(UNIT + 16, &PIN);
    assert_eq!(host.read(UNIT, 32).unwrap()[..2], INSERTED);
    host = host.with(UNIT, &[INSERTED[0] | PN]);
    assert_eq!((host.read(UNIT, 16).is_ok(), host.read(UNIT, 17)), (true, Err(6)));
}

#[test]
fn two_hosts_learn_each_others_mask() {
    let mut host = four_streams();
    for (segment, id) in [(3, 1), (1, 2)] {
        assert_eq!(host.insert(segment, &[id; 16]), Ok(()));
    }
    // Each takes its own key and mask away from what it reads, and has the other's mask.
    let read = |segment, slot| host.read(slot_at(segment, slot) + 16, 16).unwrap()[0];
    assert_eq!(read(3, 1) ^ 0x62 ^ 0xA4, 0xE0);
    assert_eq!(read(1, 0) ^ 0xC0 ^ 0xE0, 0xA4);
}
