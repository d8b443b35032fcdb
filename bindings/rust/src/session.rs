//! The session: 54 bytes that the host must not reach.

use crate::c;

/// What a powered tag knows beside its memory: three validated indexes, and the name, ID and PA arrays.
#[derive(Clone, Copy, Debug, PartialEq, Eq)]
pub struct Session([u8; 54]);

impl Session {
    /// The session after power-up: all zeros.
    pub fn power_up() -> Self {
        let mut bytes = [0xFF; 54];
        // SAFETY: the 54 bytes are a local, lent for the call.
        unsafe { c::dringoleth_power_up(&mut bytes) };
        Session(bytes)
    }

    /// A session that was kept: read index, write index, edit index (2 bytes each), name, ID, PA (16 each).
    pub fn from_bytes(bytes: [u8; 54]) -> Self {
        Session(bytes)
    }

    pub fn as_bytes(&self) -> &[u8; 54] {
        &self.0
    }

    pub(crate) fn as_mut_bytes(&mut self) -> &mut [u8; 54] {
        &mut self.0
    }

    /// The validated read index.
    pub fn read_index(&self) -> u16 {
        self.index(0)
    }

    /// The validated write index.
    pub fn write_index(&self) -> u16 {
        self.index(2)
    }

    /// The validated edit index.
    pub fn edit_index(&self) -> u16 {
        self.index(4)
    }

    fn index(&self, at: usize) -> u16 {
        u16::from_be_bytes([self.0[at], self.0[at + 1]])
    }

    pub fn name(&self) -> &[u8] {
        &self.0[6..22]
    }

    pub fn id(&self) -> &[u8] {
        &self.0[22..38]
    }

    /// PIN index (2), owner index (2), guard (12).
    pub fn pa(&self) -> &[u8] {
        &self.0[38..]
    }
}

impl Default for Session {
    fn default() -> Self {
        Session::power_up()
    }
}
