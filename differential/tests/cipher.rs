//! The proved cipher and the reference, both directions, on blocks of every length from 0 to 1,030 words.

use differential::{proved, random::Random};
use reference::xxtea;

const SEED: u64 = 1;
const LENGTHS: usize = 1031;
const RUNS: usize = 20;
const PAST: u32 = 0xA5A5_A5A5;

type Cipher = fn(&mut [u32], [u32; 4]) -> Result<(), u8>;

/// What a cipher answers and leaves, with eight words past the end of what is lent.
fn run(cipher: Cipher, words: &[u32], key: [u32; 4]) -> (Result<(), u8>, Vec<u32>) {
    let mut room = words.to_vec();
    room.extend([PAST; 8]);
    let answer = cipher(&mut room[..words.len()], key);
    (answer, room)
}

fn compare(name: &str, proved: Cipher, reference: Cipher) {
    let mut random = Random::new(SEED);
    for case in 0..RUNS * LENGTHS {
        let n = case % LENGTHS;
        let key = [(); 4].map(|()| random.word());
        let words: Vec<u32> = (0..n).map(|_| random.word()).collect();
        let ours = run(proved, &words, key);
        assert_eq!(
            ours,
            run(reference, &words, key),
            "{name}, seed {SEED}, case {case}: {n} words, key {key:x?}"
        );
        if !(2..=1024).contains(&n) {
            assert_eq!(ours.0, Err(17), "{n} words");
            assert_eq!(ours.1[..n], words, "{n} words are refused and change");
        }
        assert_eq!(ours.1[n..], [PAST; 8], "{n} words: a word past the end changes");
    }
}

#[test]
fn enciphering_agrees() {
    compare("encipher", proved::encipher, xxtea::encipher);
}

#[test]
fn deciphering_agrees() {
    compare("decipher", proved::decipher, xxtea::decipher);
}
