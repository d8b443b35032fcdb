//! What crates/vectors must print, as stored beside it, is what the reference makes of the same blocks.

use reference::xxtea;

const STORED: &str = include_str!("../../crates/vectors/stdout");
const KEY: [u32; 4] = [0x0804_0201, 0x8040_2010, 0xF8FC_FEFF, 0x80C0_E0F0];
const WORD: u32 = 0x89AB_CDEF;

fn hex(words: &[u32]) -> String {
    words.iter().map(|w| format!("{:08x}", w.swap_bytes())).collect()
}

fn vector(key: [u32; 4], data: [u32; 2]) -> String {
    let mut words = data;
    xxtea::encipher(&mut words, key).unwrap();
    let enciphered = hex(&words);
    xxtea::decipher(&mut words, key).unwrap();
    format!(
        "key {} data {} enciphered {enciphered} deciphered {}\n",
        hex(&key),
        hex(&data),
        hex(&words)
    )
}

fn block(n: usize) -> String {
    let mut words = vec![WORD; n];
    match xxtea::encipher(&mut words, KEY) {
        Ok(()) => {
            let rounds = xxtea::rounds(n).unwrap();
            format!("words {n} rounds {rounds} enciphered {} restored\n", hex(&words))
        }
        Err(_) => format!("words {n} rounds 0 refused restored\n"),
    }
}

#[test]
fn stored_output_is_the_references() {
    let mut lines = vector([0; 4], [0; 2]);
    lines += &vector(KEY, [0; 2]);
    lines += &vector(KEY, [0xF8FC_FEFF, 0x80C0_E0F0]);
    lines += &vector([0xB979_379E, 0xE973_979B, 0x9E37_79B9, 0x5651_696B], [u32::MAX; 2]);
    for n in [1, 2, 4, 52, 53, 1024, 1025] {
        lines += &block(n);
    }
    lines += "first deciphering sum for 4 words be1e08bb\n";
    assert_eq!(STORED, lines);
}
