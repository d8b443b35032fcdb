//! The refusals and the answer of a command.

/// Why a command was refused. The discriminant is the number that the documents give it: 1 to 14, 18 and 19. The
/// numbers between are not given by commands on a tag.
#[derive(Clone, Copy, Debug, PartialEq, Eq)]
#[repr(u8)]
pub enum Refusal {
    /// The tag is not sound.
    Unsound = 1,
    /// The count is 0 or above 4,096, or the output is shorter than the count.
    BadCount = 2,
    /// The command is not inside one place, or there is no such segment.
    OutsidePlace = 3,
    /// The place never takes such a command.
    NeverTaken = 4,
    /// The unit is not well formed.
    MalformedUnit = 5,
    /// RD or WR is clear, nE is set, the name is covered, or a slot is hidden.
    NoRight = 6,
    /// The validated PIN index is not the unit's.
    WrongIndex = 7,
    /// The session's name is not the unit's.
    WrongName = 8,
    /// A register write that is not 16 bytes, or an index in PA that is out of range.
    BadRegisterWrite = 9,
    /// The usage flag is already 1.
    FlagSet = 10,
    /// The response or the guard is wrong. This alone of the refusals sets the flag.
    WrongResponse = 11,
    /// Not one aligned slot, or a value of the slot or counter that is neither the next nor the one now stored.
    NotNextValue = 12,
    /// The result of the edit is not allowed.
    BadEdit = 13,
    /// There is no further stage to advance to, or the segment to insert is not model 4 at stage 0.
    NoNextStage = 14,
    /// The very value now stored in the slot or counter.
    Repeated = 18,
    /// The list of hosts does not take the id or the segment, or is itself in disorder.
    BadInsertion = 19,
}

impl Refusal {
    /// The number that stands in a reply.
    pub fn number(self) -> u8 {
        self as u8
    }
}

/// Granted, or refused with a reason.
pub type Answer = Result<(), Refusal>;

/// Granted if the condition holds.
#[inline]
pub(crate) fn require(condition: bool, otherwise: Refusal) -> Answer {
    if condition {
        Ok(())
    } else {
        Err(otherwise)
    }
}

#[cfg(test)]
mod tests {
    use super::*;

    #[test]
    fn numbers_are_the_documents() {
        let all = [
            Refusal::Unsound,
            Refusal::BadCount,
            Refusal::OutsidePlace,
            Refusal::NeverTaken,
            Refusal::MalformedUnit,
            Refusal::NoRight,
            Refusal::WrongIndex,
            Refusal::WrongName,
            Refusal::BadRegisterWrite,
            Refusal::FlagSet,
            Refusal::WrongResponse,
            Refusal::NotNextValue,
            Refusal::BadEdit,
            Refusal::NoNextStage,
        ];
        assert!(all.iter().zip(1..).all(|(refusal, number)| refusal.number() == number));
        assert_eq!(
            [Refusal::Repeated, Refusal::BadInsertion].map(Refusal::number),
            [18, 19]
        );
    }
}
