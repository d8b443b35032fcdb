//! XXTEA, from the formula in document 01.

const D: u32 = 0x9E37_79B9;

/// The refusal number of a word count outside 2 to 1,024.
pub const WORD_COUNT: u8 = 17;

/// How many rounds a block of `n` words takes, if the cipher takes it.
pub fn rounds(n: usize) -> Option<u32> {
    (2..=1024).contains(&n).then(|| 6 + 52 / n as u32)
}

fn mix(y: u32, z: u32, sum: u32, key: &[u32; 4], p: usize) -> u32 {
    let e = (sum >> 2 & 3) as usize;
    let neighbours = ((z >> 5) ^ (y << 2)).wrapping_add((y >> 3) ^ (z << 4));
    neighbours ^ (sum ^ y).wrapping_add(key[(p & 3) ^ e] ^ z)
}

/// Enciphers in place, or refuses with nothing changed.
pub fn encipher(words: &mut [u32], key: [u32; 4]) -> Result<(), u8> {
    let rounds = rounds(words.len()).ok_or(WORD_COUNT)?;
    encipher_rounds(words, rounds, &key);
    Ok(())
}

/// Enciphers a block of 16 bytes. Block and key are split into four words each, low byte first.
pub fn encipher_block(block: &[u8; 16], key: &[u8; 16]) -> [u8; 16] {
    let mut words = split(block);
    encipher_rounds(&mut words, 6 + 52 / 4, &split(key));
    join(words)
}

/// The rounds themselves, in line so that a block of known length needs no inner loop.
#[inline(always)]
fn encipher_rounds(words: &mut [u32], rounds: u32, key: &[u32; 4]) {
    let n = words.len();
    let mut z = words[n - 1];
    let mut sum = 0u32;
    for _ in 0..rounds {
        sum = sum.wrapping_add(D);
        for p in 0..n {
            let y = words[if p + 1 == n { 0 } else { p + 1 }];
            z = words[p].wrapping_add(mix(y, z, sum, key, p));
            words[p] = z;
        }
    }
}

fn split(bytes: &[u8; 16]) -> [u32; 4] {
    let mut words = [0; 4];
    for (word, part) in words.iter_mut().zip(bytes.chunks_exact(4)) {
        *word = u32::from_le_bytes([part[0], part[1], part[2], part[3]]);
    }
    words
}

fn join(words: [u32; 4]) -> [u8; 16] {
    let mut bytes = [0; 16];
    for (part, word) in bytes.chunks_exact_mut(4).zip(words) {
        part.copy_from_slice(&word.to_le_bytes());
    }
    bytes
}

/// Deciphers in place, or refuses with nothing changed.
pub fn decipher(words: &mut [u32], key: [u32; 4]) -> Result<(), u8> {
    let n = words.len();
    let rounds = rounds(n).ok_or(WORD_COUNT)?;
    let mut y = words[0];
    let mut sum = rounds.wrapping_mul(D);
    for _ in 0..rounds {
        for p in (0..n).rev() {
            let z = words[if p == 0 { n - 1 } else { p - 1 }];
            y = words[p].wrapping_sub(mix(y, z, sum, &key, p));
            words[p] = y;
        }
        sum = sum.wrapping_sub(D);
    }
    Ok(())
}

#[cfg(test)]
mod tests {
    use super::*;

    fn words<const N: usize>(hex: &str) -> [u32; N] {
        std::array::from_fn(|i| u32::from_str_radix(&hex[8 * i..8 * i + 8], 16).unwrap().swap_bytes())
    }

    #[test]
    fn published_vectors() {
        for (key, data, result) in [
            (
                "00000000000000000000000000000000",
                "0000000000000000",
                "ab043705808c5d57",
            ),
            (
                "0102040810204080fffefcf8f0e0c080",
                "0000000000000000",
                "d1e78be2c746728a",
            ),
            (
                "0102040810204080fffefcf8f0e0c080",
                "fffefcf8f0e0c080",
                "8c3707c01c7fccc4",
            ),
            (
                "9e3779b99b9773e9b979379e6b695156",
                "ffffffffffffffff",
                "67ed0ea8e8973fc5",
            ),
        ] {
            let mut block = words::<2>(data);
            assert_eq!(encipher(&mut block, words(key)), Ok(()));
            assert_eq!(block, words::<2>(result));
            assert_eq!(decipher(&mut block, words(key)), Ok(()));
            assert_eq!(block, words::<2>(data));
        }
    }

    #[test]
    fn block_of_counter_1() {
        let key = std::array::from_fn(|i| i as u8);
        let block = 1u128.to_be_bytes();
        let result = 0x4500_2CDB_6910_E3DC_8618_57C7_2040_41FA_u128.to_be_bytes();
        assert_eq!(encipher_block(&block, &key), result);
        let mut words = split(&block);
        assert_eq!(encipher(&mut words, split(&key)), Ok(()));
        assert_eq!(join(words), result);
        assert_eq!(decipher(&mut words, split(&key)), Ok(()));
        assert_eq!(join(words), block);
    }

    #[test]
    fn other_word_counts_are_refused() {
        for n in [0, 1, 1025] {
            let mut words = vec![5; n];
            assert_eq!(encipher(&mut words, [1; 4]), Err(WORD_COUNT));
            assert_eq!(decipher(&mut words, [1; 4]), Err(WORD_COUNT));
            assert_eq!(words, vec![5; n]);
        }
    }

    #[test]
    fn rounds_by_length() {
        let lengths = [0, 1, 2, 4, 52, 53, 1024, 1025];
        assert_eq!(
            lengths.map(rounds),
            [None, None, Some(32), Some(19), Some(7), Some(6), Some(6), None]
        );
        assert_eq!(19u32.wrapping_mul(D), 0xBE1E_08BB);
    }
}
