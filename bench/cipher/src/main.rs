//! Times the published C routine in two forms, the proved cipher and the reference on the same blocks, in turns, and
//! prints the best time of each and the ratios to the faster C form. Each carries its block from call to call.

use differential::proved;
use reference::xxtea;
use std::time::Instant;

#[link(name = "published", kind = "static")]
extern "C" {
    fn published_encipher_u32(words: *mut u32, n: u32, key: *const u32);
    fn published_decipher_u32(words: *mut u32, n: u32, key: *const u32);
    fn published_encipher_size(words: *mut u32, n: usize, key: *const u32);
    fn published_decipher_size(words: *mut u32, n: usize, key: *const u32);
}

type Cipher = fn(&mut [u32], [u32; 4]);

const KEY: [u32; 4] = [0x0804_0201, 0x8040_2010, 0xF8FC_FEFF, 0x80C0_E0F0];
const TURNS: usize = 300;
const WORDS_A_TURN: usize = 2_000_000;

// SAFETY, of the four calls of C: the pointers are to a block of the given length and to a key of four words.
const ENCIPHERS: [Cipher; 4] = [
    |w, k| unsafe { published_encipher_u32(w.as_mut_ptr(), w.len() as u32, k.as_ptr()) },
    |w, k| unsafe { published_encipher_size(w.as_mut_ptr(), w.len(), k.as_ptr()) },
    |w, k| _ = proved::encipher(w, k),
    |w, k| _ = xxtea::encipher(w, k),
];
const DECIPHERS: [Cipher; 4] = [
    |w, k| unsafe { published_decipher_u32(w.as_mut_ptr(), w.len() as u32, k.as_ptr()) },
    |w, k| unsafe { published_decipher_size(w.as_mut_ptr(), w.len(), k.as_ptr()) },
    |w, k| _ = proved::decipher(w, k),
    |w, k| _ = xxtea::decipher(w, k),
];

fn nanoseconds(cipher: Cipher, words: &mut [u32], calls: usize) -> f64 {
    let start = Instant::now();
    for _ in 0..calls {
        cipher(words, KEY);
    }
    start.elapsed().as_nanos() as f64 / calls as f64
}

fn measure(name: &str, n: usize, ciphers: [Cipher; 4]) {
    let calls = WORDS_A_TURN / (n * (6 + 52 / n));
    let mut blocks = [(); 4].map(|()| vec![1; n]);
    let mut best = [f64::INFINITY; 4];
    for _ in 0..TURNS {
        for (i, cipher) in ciphers.into_iter().enumerate() {
            best[i] = best[i].min(nanoseconds(cipher, &mut blocks[i], calls));
        }
    }
    assert!(blocks.iter().all(|b| *b == blocks[0]), "the four differ");
    let [c_u32, c_size, proved, reference] = best;
    let c = c_u32.min(c_size);
    println!(
        "{name:<9}{n:>6}{c_u32:>12.1}{c_size:>12.1}{proved:>12.1}{reference:>12.1}{:>10.2}{:>13.2}",
        proved / c,
        reference / c
    );
}

fn main() {
    println!(
        "{:<9}{:>6}{:>12}{:>12}{:>12}{:>12}{:>10}{:>13}",
        "", "words", "C, 32-bit", "C, size_t", "proved", "reference", "proved/C", "reference/C"
    );
    for n in [2, 4, 52, 1024] {
        measure("encipher", n, ENCIPHERS);
        measure("decipher", n, DECIPHERS);
    }
}
