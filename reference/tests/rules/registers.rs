//! Register writes: responses, names and new PINs.

use crate::host::*;
use reference::xxtea::encipher_block;

const FLAGGED: [usize; 5] = [READ, WRITE, EDIT, NAME, COMMIT];

#[test]
fn writes_are_of_16_bytes() {
    for register in [READ, WRITE, EDIT, NAME, ID, COMMIT, PA] {
        let mut host = Host::new(1, 0).with(FLAG, &[1]);
        assert_eq!(host.write(register, &[0; 15]), Err(9));
        assert_eq!(host.write(register + 15, &[0]), Err(9));
        assert_eq!(host.write(register, &[0; 17]), Err(3));
        assert_eq!(host.write(register + 1, &[0; 16]), Err(3));
        assert_eq!(host.write(register, &[]), Err(2));
    }
}

#[test]
fn id_and_pa_are_kept_whatever_the_flag() {
    for flag in [0, 1] {
        let mut host = Host::new(1, 0).with(FLAG, &[flag]);
        let before = host.tag.clone();
        assert_eq!(host.write(ID, &[0xAA; 16]), Ok(()));
        assert_eq!(host.write(PA, &[0xBB; 16]), Ok(()));
        assert_eq!((host.session.id, host.session.pa), ([0xAA; 16], [0xBB; 16]));
        assert!(host.tag == before);
    }
}

#[test]
fn index_comes_before_flag() {
    for register in FLAGGED {
        for flag in [0, 1] {
            let mut host = Host::new(1, 0).with(FLAG, &[flag]);
            host.session.pa = pa(256, 0);
            assert_eq!(host.write(register, &[0; 16]), Err(9));
        }
        let mut host = Host::new(1, 0).with(FLAG, &[1]);
        host.session.pa = pa(255, 0);
        assert_eq!(host.write(register, &[0; 16]), Err(10));
    }
}

#[test]
fn each_register_validates_its_own_index() {
    for (register, expected) in [(READ, (9, 2, 3)), (WRITE, (1, 9, 3)), (EDIT, (1, 2, 9))] {
        let mut host = Host::new(1, 0).with_pin(9, PIN);
        (host.session.read, host.session.write, host.session.edit) = (1, 2, 3);
        assert_eq!(host.present(register, 9, &PIN), Ok(()));
        assert_eq!((host.session.read, host.session.write, host.session.edit), expected);
        assert_eq!(host.tag[FLAG], 1);
    }
}

#[test]
fn known_response() {
    let mut host = Host::new(1, 0).with_pin(255, PIN).with(COUNTER, &1u64.to_be_bytes());
    host.session.pa = pa(255, 0xFFFF);
    assert_eq!(host.write(READ, &hex("45002CDB6910E3DC861857C7204041FA")), Ok(()));
    assert_eq!(host.session.read, 255);
}

#[test]
fn one_guess_for_each_counter() {
    let mut host = Host::new(1, 0).with_pin(9, PIN);
    host.session.read = 4;
    assert_eq!(host.present(READ, 9, &[1; 16]), Err(11));
    assert_eq!((host.tag[FLAG], host.session.read), (1, 4));
    let response = host.response(&PIN);
    for register in FLAGGED {
        assert_eq!(host.write(register, &response), Err(10));
    }
    assert_eq!(host.present(READ, 9, &PIN), Ok(()));
    assert_eq!(host.session.read, 9);
    assert_eq!(
        host.write(READ, &host.response(&PIN)),
        Err(10),
        "nor is a right one taken twice"
    );
}

#[test]
fn the_pin_itself_is_no_response() {
    let mut host = Host::new(1, 0).with_pin(9, PIN);
    host.session.pa = pa(9, 0);
    assert_eq!(host.write(READ, &PIN), Err(11));
}

#[test]
fn a_host_that_knows_the_pin_reads() {
    let mut host = Host::unit(RD | RDPIN, 0)
        .with(UNIT + 5, &[200])
        .with_pin(200, PIN)
        .with(FLAG, &[1]);
    assert_eq!(host.read(SEGMENT, 32), Err(7));
    assert_eq!(host.write(PA, &pa(200, 0)), Ok(()));
    assert_eq!(host.count(), Ok(()));
    assert_eq!(host.write(READ, &host.response(&PIN)), Ok(()));
    assert_eq!(host.read(SEGMENT, 32), Ok(vec![0; 32]));
}

#[test]
fn names_are_sent_covered() {
    let name = [0xC3; 16];
    let mut host = Host::unit(RD | PN, 0).with(UNIT + 16, &name).with_pin(1, PIN);
    assert_eq!(host.read(SEGMENT, 1), Err(8));
    host.session.pa = pa(1, 0xFFFF);
    assert_eq!(host.write(NAME, &xor(name, host.response(&PIN))), Ok(()));
    assert_eq!((host.session.name, host.tag[FLAG]), (name, 1));
    assert_eq!(host.read(SEGMENT, 1), Ok(vec![0]));
    assert_eq!(host.write(NAME, &[0; 16]), Err(10));
    assert_eq!(host.count(), Ok(()));
    assert_eq!(host.write(NAME, &[0; 16]), Ok(()), "no name is a wrong response");
    assert_eq!(host.read(SEGMENT, 1), Err(8));
}

/// Has an owner's guard in PA and returns the bytes that store `pin` at `index`.
fn prepare(host: &mut Host, index: u16, owner: u16, key: &Block, pin: Block) -> Block {
    let written = xor(pin, host.response(key));
    let mut bytes = pa(index, owner);
    bytes[4..].copy_from_slice(&encipher_block(&written, key)[4..]);
    host.session.pa = bytes;
    written
}

#[test]
fn commit_stores_a_pin() {
    for (index, owner, pin) in [(1, 0, PIN), (255, 3, PIN), (7, 1, [0; 16])] {
        let key = [0x77; 16];
        let mut host = Host::new(1, 0)
            .with_pin(7, PIN)
            .with(16 + 16 * usize::from(owner), &key);
        let mut expected = host.clone().with_pin(usize::from(index), pin);
        expected.tag[FLAG] = 1;
        let written = prepare(&mut host, index, owner, &key, pin);
        assert_eq!(host.write(COMMIT, &written), Ok(()));
        assert!(host.tag == expected.tag);
        assert_eq!(host.write(COMMIT, &written), Err(10));
        assert_eq!(host.present(READ, index, &pin), Ok(()));
    }
}

#[test]
fn commit_under_an_owner_pin_of_zeros() {
    let mut host = Host::new(1, 0);
    let written = prepare(&mut host, 1, 2, &[0; 16], PIN);
    assert_eq!(host.write(COMMIT, &written), Ok(()));
    assert_eq!(host.tag[4112..4128], PIN);
}

#[test]
fn commit_with_a_wrong_guard() {
    for wrong in [4, 15] {
        let mut host = Host::new(1, 0).with(16, &PIN);
        let written = prepare(&mut host, 1, 0, &PIN, [0x42; 16]);
        host.session.pa[wrong] ^= 1;
        assert_eq!(host.write(COMMIT, &written), Err(11));
        host.session.pa[wrong] ^= 1;
        assert_eq!(host.write(COMMIT, &written), Err(10));
    }
}

#[test]
fn commit_indexes() {
    for (index, owner) in [(0, 0), (256, 0), (1, 4), (1, 0x0100), (0xFFFF, 0xFFFF)] {
        for flag in [0, 1] {
            let mut host = Host::new(1, 0).with(FLAG, &[flag]);
            let written = prepare(&mut host, index, owner, &[0; 16], PIN);
            assert_eq!(host.write(COMMIT, &written), Err(9));
        }
    }
}
