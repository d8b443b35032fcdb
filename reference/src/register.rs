//! Writes to the registers: presenting a PIN, a name or a new PIN.

use crate::map::{bytes_at, counter, owner_pin_address, pin_address, Register, BLOCK, FLAG};
use crate::refusal::{require, Answer, Refusal};
use crate::session::Session;
use crate::xxtea::encipher_block;

type Block = [u8; BLOCK];

/// Writes to a register. The bytes themselves are not kept in the memory.
#[inline]
pub(crate) fn write_register(tag: &mut [u8], session: &mut Session, register: Register, data: &[u8]) -> Answer {
    let written: &Block = data.try_into().map_err(|_| Refusal::BadRegisterWrite)?;
    match register {
        Register::Id => session.id = *written,
        Register::Pa => session.pa = *written,
        Register::Read => session.read = validate(tag, session, written)?,
        Register::Write => session.write = validate(tag, session, written)?,
        Register::Edit => session.edit = validate(tag, session, written)?,
        Register::Name => session.name = uncover(tag, session, written)?,
        Register::Commit => commit(tag, session, written)?,
    }
    Ok(())
}

/// The PIN index in PA, if the written bytes are the response of its PIN.
#[inline]
fn validate(tag: &mut [u8], session: &Session, written: &Block) -> Result<u16, Refusal> {
    let index = pin_index(session)?;
    raise_flag(tag)?;
    let response = encipher_counter(tag, pin_address(index));
    require(*written == response, Refusal::WrongResponse)?;
    Ok(index)
}

/// The name that was sent covered by the response of the PIN that PA names.
fn uncover(tag: &mut [u8], session: &Session, written: &Block) -> Result<Block, Refusal> {
    let index = pin_index(session)?;
    raise_flag(tag)?;
    Ok(xor(written, &encipher_counter(tag, pin_address(index))))
}

/// Stores a new PIN that was sent covered by the owner's response, if the guard shows that the owner sent it.
fn commit(tag: &mut [u8], session: &Session, written: &Block) -> Answer {
    let index = pin_index(session)?;
    let owner = session.owner_index();
    require(index != 0 && owner <= 3, Refusal::BadRegisterWrite)?;
    raise_flag(tag)?;
    let owner_pin = owner_pin_address(owner);
    let proof = encipher_block(written, &bytes_at(tag, owner_pin));
    require(proof[4..] == *session.guard(), Refusal::WrongResponse)?;
    let pin = xor(written, &encipher_counter(tag, owner_pin));
    tag[pin_address(index)..][..BLOCK].copy_from_slice(&pin);
    Ok(())
}

fn pin_index(session: &Session) -> Result<u16, Refusal> {
    let index = session.pin_index();
    require(index <= 255, Refusal::BadRegisterWrite)?;
    Ok(index)
}

/// Sets the flag before anything is compared, so that one counter value allows one guess.
fn raise_flag(tag: &mut [u8]) -> Answer {
    require(tag[FLAG] == 0, Refusal::FlagSet)?;
    tag[FLAG] = 1;
    Ok(())
}

/// The counter's block enciphered under the PIN at an address.
fn encipher_counter(tag: &[u8], pin: usize) -> Block {
    let block = u128::from(counter(tag)).to_be_bytes();
    encipher_block(&block, &bytes_at(tag, pin))
}

fn xor(left: &Block, right: &Block) -> Block {
    std::array::from_fn(|i| left[i] ^ right[i])
}
