//! The proved cipher, through the static library of `crates/xxtea_c`.
//! Its functions require nothing, so that these wrappers have nothing to test first.

mod c {
    #[link(name = "xxtea_c", kind = "static")]
    extern "C" {
        pub fn xxtea_c_encipher(words: *mut u32, len: usize, k0: u32, k1: u32, k2: u32, k3: u32) -> u8;
        pub fn xxtea_c_decipher(words: *mut u32, len: usize, k0: u32, k1: u32, k2: u32, k3: u32) -> u8;
    }
}

fn answer(number: u8) -> Result<(), u8> {
    if number == 0 {
        Ok(())
    } else {
        Err(number)
    }
}

pub fn encipher(words: &mut [u32], [k0, k1, k2, k3]: [u32; 4]) -> Result<(), u8> {
    // SAFETY: the pointer and the length are one slice's, lent for the call.
    answer(unsafe { c::xxtea_c_encipher(words.as_mut_ptr(), words.len(), k0, k1, k2, k3) })
}

pub fn decipher(words: &mut [u32], [k0, k1, k2, k3]: [u32; 4]) -> Result<(), u8> {
    // SAFETY: as above.
    answer(unsafe { c::xxtea_c_decipher(words.as_mut_ptr(), words.len(), k0, k1, k2, k3) })
}
