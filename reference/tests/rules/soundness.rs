//! Refusal 1: every way in which a tag can be unsound.

use crate::host::*;

/// A tag that is sound or not answers so to every command, before anything else is looked at.
fn sound(mut host: Host) -> bool {
    let answers = [
        host.read(0, 16).err(),
        host.read(0, 0).err(),
        host.write(0, &[]).err(),
        host.advance(usize::MAX).err(),
        host.insert(usize::MAX, &[0; 16]).err(),
    ];
    assert!(answers == [Some(1); 5] || answers == [None, Some(2), Some(2), Some(3), Some(3)]);
    answers[0].is_none()
}

fn resized(access: u16, public: u16, length: usize) -> Host {
    let mut host = Host::new(access, public);
    host.tag.resize(length, 0);
    host
}

#[test]
fn lengths() {
    assert!(sound(resized(1, 0, 20_480)));
    assert!(sound(resized(128, 128, 1_064_960)));
    for length in [0, 1, 15, 16, 4112, 16_384, 20_479, 20_481, 24_576] {
        assert!(!sound(resized(1, 0, length)), "length {length}");
    }
}

#[test]
fn segment_numbers() {
    assert!(sound(Host::new(128, 0)));
    assert!(sound(Host::new(1, 128)));
    assert!(!sound(Host::new(129, 0)));
    assert!(!sound(Host::new(1, 129)));
    assert!(!sound(Host::new(0, 0)));
    assert!(!sound(Host::new(0, 1)));
    assert!(!sound(Host::new(257, 0)));
    assert!(!sound(Host::new(1, 0).with(0, &[0xFF; 4])));
}

#[test]
fn flag_zeros_and_pin_0() {
    assert!(sound(Host::new(1, 0).with(FLAG, &[1])));
    assert!(!sound(Host::new(1, 0).with(FLAG, &[2])));
    for address in [13, 14, 15, 4096, 4103, 4111] {
        assert!(!sound(Host::new(1, 0).with(address, &[1])), "address {address}");
    }
    assert!(sound(Host::new(1, 0).with(16, &[1; 64])), "owner PIN 0 is free");
    assert!(sound(Host::new(1, 0).with(4112, &[1])), "PIN 1 is free");
}
