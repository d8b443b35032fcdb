//! What a host works out with a PIN: responses, names to be written, and guards.

use reference::xxtea::encipher_block;

pub type Block = [u8; 16];

pub fn enciphered(key: &Block, block: &Block) -> Block {
    encipher_block(block, key)
}

/// The counter enciphered with a PIN.
pub fn response(pin: &Block, counter: u64) -> Block {
    let mut block = [0; 16];
    block[8..].copy_from_slice(&counter.to_be_bytes());
    enciphered(pin, &block)
}

pub fn xor(a: &Block, b: &Block) -> Block {
    std::array::from_fn(|i| a[i] ^ b[i])
}
