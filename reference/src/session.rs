//! The session: what a powered tag holds beside its memory.

/// Three validated indexes and three arrays; `Session::default()` is the session after power-up.
#[derive(Clone, Debug, Default, PartialEq, Eq)]
pub struct Session {
    /// The validated read index.
    pub read: u16,
    /// The validated write index.
    pub write: u16,
    /// The validated edit index.
    pub edit: u16,
    /// The name that units with PN set ask for.
    pub name: [u8; 16],
    /// What was last written to the ID register.
    pub id: [u8; 16],
    /// What was last written to the PA register: PIN index (2), owner index (2), guard (12).
    pub pa: [u8; 16],
}

impl Session {
    /// The PIN index in PA.
    pub(crate) fn pin_index(&self) -> u16 {
        u16::from_be_bytes([self.pa[0], self.pa[1]])
    }

    /// The owner index in PA.
    pub(crate) fn owner_index(&self) -> u16 {
        u16::from_be_bytes([self.pa[2], self.pa[3]])
    }

    /// The guard in PA.
    pub(crate) fn guard(&self) -> &[u8] {
        &self.pa[4..]
    }
}
