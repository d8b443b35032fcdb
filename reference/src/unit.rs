//! The management unit of a segment: decoding, well-formedness, and the rights it gives a session.

use crate::map::{unit_address, UNIT};
use crate::refusal::{require, Answer, Refusal};
use crate::session::Session;

/// Bits of byte 0. The bit 0x02 is RFU.
pub(crate) const RD: u8 = 0x80;
const RDPIN: u8 = 0x40;
pub(crate) const WR: u8 = 0x20;
const WRPIN: u8 = 0x10;
const PN: u8 = 0x08;
const NE: u8 = 0x04;
const M: u8 = 0x01;
/// Both rights.
const BOTH: u8 = RD | WR;

/// The offset of the name, which takes the second half of the unit.
const NAME: usize = 16;

/// The bits of the first half that are 0 in every well-formed unit: RFU, bytes 2-3, the high byte of each index
/// (so that none is above 255) and bytes 10-15.
const ZEROS: u128 = 0x0200_FFFF_FF00_FF00_FF00_FFFF_FFFF_FFFF;

/// What a unit of model 3 does with a write.
#[derive(Clone, Copy, Debug, PartialEq, Eq)]
pub(crate) enum Stage {
    /// Stage 0: writes are stored.
    Store,
    /// Stage 1: writes are XORed into what is there.
    Xor,
    /// Stage 2: reads only.
    Read,
}

impl Stage {
    /// Byte 1 of a unit of model 3 at this stage.
    pub(crate) fn model_byte(self) -> u8 {
        match self {
            Stage::Store => 0x03,
            Stage::Xor => 0x13,
            Stage::Read => 0x23,
        }
    }
}

/// What a unit of model 4 allows.
#[derive(Clone, Copy, Debug, PartialEq, Eq)]
pub(crate) enum KeyStage {
    /// Stage 0: writes are stored, until the segment's host is inserted.
    Store,
    /// Stage 1: reads only, and only of slots that hold a key shared with another host.
    Read,
}

impl KeyStage {
    /// Byte 1 of a unit of model 4 at this stage.
    pub(crate) fn model_byte(self) -> u8 {
        match self {
            KeyStage::Store => 0x04,
            KeyStage::Read => 0x14,
        }
    }
}

/// The model of a segment.
#[derive(Clone, Copy, Debug, PartialEq, Eq)]
pub(crate) enum Model {
    /// M clear, or model 0.
    Default,
    /// Model 1.
    WriteOnce,
    /// Model 2.
    Counter,
    /// Model 3.
    Staged(Stage),
    /// Model 4.
    SharedKey(KeyStage),
}

impl Model {
    /// The model by bytes 0 and 1, if they go together.
    #[inline(always)]
    fn decode(control: u8, model_byte: u8) -> Option<Model> {
        if control & M == 0 {
            return Some(Model::Default);
        }
        match (model_byte, control & BOTH) {
            (0x00, _) => Some(Model::Default),
            (0x01, RD) | (0x01, WR) => Some(Model::WriteOnce),
            (0x02, BOTH) => Some(Model::Counter),
            (0x03, WR) => Some(Model::Staged(Stage::Store)),
            (0x13, WR) => Some(Model::Staged(Stage::Xor)),
            (0x23, RD) => Some(Model::Staged(Stage::Read)),
            (0x04, WR) => Some(Model::SharedKey(KeyStage::Store)),
            (0x14, RD) => Some(Model::SharedKey(KeyStage::Read)),
            _ => None,
        }
    }
}

/// A well-formed unit. The name stays where it is, since most commands do not look at it.
#[derive(Clone, Copy, Debug, PartialEq, Eq)]
pub(crate) struct Unit<'a> {
    control: u8,
    pub(crate) model: Model,
    read: u16,
    write: u16,
    edit: u16,
    name: &'a [u8],
}

impl<'a> Unit<'a> {
    /// The unit of a segment that the tag has, if it is well formed.
    #[inline(always)]
    pub(crate) fn of(tag: &'a [u8], number: usize) -> Result<Unit<'a>, Refusal> {
        let address = unit_address(number);
        Unit::decode(&tag[address..address + UNIT])
    }

    /// The unit in these 32 bytes, if they are well formed.
    #[inline(always)]
    pub(crate) fn decode(bytes: &'a [u8]) -> Result<Unit<'a>, Refusal> {
        let (first, name) = bytes.split_first_chunk::<NAME>().ok_or(Refusal::MalformedUnit)?;
        require(u128::from_be_bytes(*first) & ZEROS == 0, Refusal::MalformedUnit)?;
        let model = Model::decode(first[0], first[1]).ok_or(Refusal::MalformedUnit)?;
        Ok(Unit {
            control: first[0],
            model,
            read: u16::from(first[5]),
            write: u16::from(first[7]),
            edit: u16::from(first[9]),
            name,
        })
    }

    fn has(&self, bit: u8) -> bool {
        self.control & bit != 0
    }

    /// Whether the session may read the segment.
    pub(crate) fn allow_read(&self, session: &Session) -> Answer {
        require(self.has(RD), Refusal::NoRight)?;
        require(!self.has(RDPIN) || session.read == self.read, Refusal::WrongIndex)?;
        self.allow_name(session)
    }

    /// Whether the session may write the segment.
    #[inline]
    pub(crate) fn allow_write(&self, session: &Session) -> Answer {
        require(self.has(WR), Refusal::NoRight)?;
        self.allow_advance(session)
    }

    /// Whether the session may advance the segment or insert its host: as for a write, but WR is not asked for.
    #[inline]
    pub(crate) fn allow_advance(&self, session: &Session) -> Answer {
        require(!self.has(WRPIN) || session.write == self.write, Refusal::WrongIndex)?;
        self.allow_name(session)
    }

    /// Whether the unit's own bytes up to the offset `end` may be read: with PN set the name is covered.
    pub(crate) fn allow_unit_read(&self, end: usize) -> Answer {
        require(!self.has(PN) || end <= NAME, Refusal::NoRight)
    }

    /// Whether the session may turn this unit into the one in `result`. There is no PIN bit for edits, so the
    /// index is always compared.
    pub(crate) fn allow_edit(&self, session: &Session, result: &[u8]) -> Answer {
        require(!self.has(NE), Refusal::NoRight)?;
        require(session.edit == self.edit, Refusal::WrongIndex)?;
        let result = Unit::decode(result).map_err(|_| Refusal::BadEdit)?;
        require(self.may_become(&result), Refusal::BadEdit)
    }

    /// A unit of model 3 keeps its model, stage and rights. A result of model 3 that was another model, and every
    /// result of model 4, is at the first stage, since edits do not do what the later stages stand for.
    fn may_become(&self, result: &Unit) -> bool {
        match (self.model, result.model) {
            (Model::Staged(_), _) => self.model == result.model && (self.control ^ result.control) & (M | BOTH) == 0,
            (_, Model::Staged(stage)) => stage == Stage::Store,
            (_, Model::SharedKey(stage)) => stage == KeyStage::Store,
            _ => true,
        }
    }

    #[inline]
    fn allow_name(&self, session: &Session) -> Answer {
        require(!self.has(PN) || session.name == self.name, Refusal::WrongName)
    }
}

#[cfg(test)]
mod tests {
    use super::*;

    fn decode(control: u8, model_byte: u8) -> Option<Model> {
        let mut bytes = [0; UNIT];
        bytes[..2].copy_from_slice(&[control, model_byte]);
        Unit::decode(&bytes).ok().map(|unit| unit.model)
    }

    #[test]
    fn models_by_rights_and_byte_1() {
        let rights = [M, M | WR, M | RD, M | RD | WR];
        let models = |byte| rights.map(|control| decode(control, byte));
        let (once, counter) = (Some(Model::WriteOnce), Some(Model::Counter));
        assert_eq!(models(0x00), [Some(Model::Default); 4]);
        assert_eq!(models(0x01), [None, once, once, None]);
        assert_eq!(models(0x02), [None, None, None, counter]);
        assert_eq!(models(0x03), [None, Some(Model::Staged(Stage::Store)), None, None]);
        assert_eq!(models(0x13), [None, Some(Model::Staged(Stage::Xor)), None, None]);
        assert_eq!(models(0x23), [None, None, Some(Model::Staged(Stage::Read)), None]);
        assert_eq!(
            models(0x04),
            [None, Some(Model::SharedKey(KeyStage::Store)), None, None]
        );
        assert_eq!(models(0x14), [None, None, Some(Model::SharedKey(KeyStage::Read)), None]);
        for byte in (0..=255).filter(|byte| ![0x00, 0x01, 0x02, 0x03, 0x13, 0x23, 0x04, 0x14].contains(byte)) {
            assert_eq!(models(byte), [None; 4]);
        }
    }

    #[test]
    fn byte_1_means_nothing_with_m_clear() {
        assert!((0..=255).all(|byte| decode(RD | WR, byte) == Some(Model::Default)));
    }

    #[test]
    fn each_zero_byte_counts() {
        for at in (2..UNIT).filter(|at| ![5, 7, 9].contains(at)) {
            let mut bytes = [0; UNIT];
            bytes[at] = 1;
            assert_eq!(Unit::decode(&bytes).is_ok(), at >= NAME, "byte {at}");
        }
        assert_eq!(decode(0x02, 0), None);
    }

    #[test]
    fn indexes_and_name_are_found() {
        let mut bytes: [u8; UNIT] = std::array::from_fn(|at| if at < NAME { 0 } else { at as u8 });
        (bytes[5], bytes[7], bytes[9]) = (255, 7, 9);
        let unit = Unit::decode(&bytes).unwrap();
        assert_eq!((unit.read, unit.write, unit.edit), (255, 7, 9));
        assert_eq!(unit.name, &bytes[NAME..]);
    }
}
