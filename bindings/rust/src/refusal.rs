//! The refusals of a command: 1 to 14, 18 and 19.

use std::fmt;

/// Why a command was refused. The discriminant is the refusal's number.
#[derive(Clone, Copy, Debug, PartialEq, Eq)]
#[repr(u8)]
pub enum Refusal {
    Unsound = 1,
    Count = 2,
    Outside = 3,
    NeverTaken = 4,
    Malformed = 5,
    Forbidden = 6,
    OtherPin = 7,
    OtherName = 8,
    BadRegister = 9,
    FlagUsed = 10,
    WrongResponse = 11,
    NotNext = 12,
    BadEdit = 13,
    OtherModel = 14,
    Repeated = 18,
    BadInsertion = 19,
}

/// Each refusal with its meaning, in the order of the numbers.
const REFUSALS: [(Refusal, &str); 16] = [
    (Refusal::Unsound, "the tag is not sound"),
    (
        Refusal::Count,
        "count 0 or above 4,096, or an output shorter than the count",
    ),
    (Refusal::Outside, "not inside one place of the map, or no such segment"),
    (Refusal::NeverTaken, "the place never takes such a command"),
    (Refusal::Malformed, "the unit is not well formed"),
    (
        Refusal::Forbidden,
        "RD or WR is clear, the unit is locked, the name is covered, or a slot is not to be read",
    ),
    (Refusal::OtherPin, "the validated PIN index is not the unit's"),
    (Refusal::OtherName, "the session's name is not the unit's"),
    (
        Refusal::BadRegister,
        "a register write that is not 16 bytes, an index in PA that is too high, or a COMMIT to PIN index 0",
    ),
    (
        Refusal::FlagUsed,
        "this value of the roll-back counter was used already",
    ),
    (Refusal::WrongResponse, "the response or the guard is wrong"),
    (
        Refusal::NotNext,
        "not one aligned slot, or neither the next value nor the one stored",
    ),
    (Refusal::BadEdit, "the result of the edit is not allowed"),
    (
        Refusal::OtherModel,
        "another model, or not at the stage that the command is for",
    ),
    (Refusal::Repeated, "the slot or counter holds this value already"),
    (
        Refusal::BadInsertion,
        "the id is zeros or listed, the segment is listed, or the list of hosts is full or damaged",
    ),
];

impl Refusal {
    /// What a read can be refused, and so for the other commands.
    pub const OF_READ: &'static [Refusal] = &[
        Refusal::Unsound,
        Refusal::Count,
        Refusal::Outside,
        Refusal::NeverTaken,
        Refusal::Malformed,
        Refusal::Forbidden,
        Refusal::OtherPin,
        Refusal::OtherName,
    ];
    pub const OF_WRITE: &'static [Refusal] = &[
        Refusal::Unsound,
        Refusal::Count,
        Refusal::Outside,
        Refusal::NeverTaken,
        Refusal::Malformed,
        Refusal::Forbidden,
        Refusal::OtherPin,
        Refusal::OtherName,
        Refusal::BadRegister,
        Refusal::FlagUsed,
        Refusal::WrongResponse,
        Refusal::NotNext,
        Refusal::BadEdit,
        Refusal::Repeated,
    ];
    pub const OF_ADVANCE: &'static [Refusal] = &[
        Refusal::Unsound,
        Refusal::Outside,
        Refusal::Malformed,
        Refusal::OtherPin,
        Refusal::OtherName,
        Refusal::OtherModel,
    ];
    pub const OF_INSERT: &'static [Refusal] = &[
        Refusal::Unsound,
        Refusal::Outside,
        Refusal::Malformed,
        Refusal::OtherPin,
        Refusal::OtherName,
        Refusal::OtherModel,
        Refusal::BadInsertion,
    ];

    pub fn number(self) -> u8 {
        self as u8
    }

    /// The answer that the library gives by its number.
    pub(crate) fn answer(number: u8) -> Result<(), Refusal> {
        if number == 0 {
            return Ok(());
        }
        match REFUSALS.iter().find(|(refusal, _)| refusal.number() == number) {
            Some((refusal, _)) => Err(*refusal),
            None => unreachable!("no command answers {number}"),
        }
    }

    fn meaning(self) -> &'static str {
        let row = REFUSALS.iter().find(|(refusal, _)| *refusal == self);
        row.map_or("", |(_, meaning)| meaning)
    }
}

impl fmt::Display for Refusal {
    fn fmt(&self, f: &mut fmt::Formatter<'_>) -> fmt::Result {
        write!(f, "refusal {}: {}", self.number(), self.meaning())
    }
}

impl std::error::Error for Refusal {}

#[cfg(test)]
mod tests {
    use super::*;

    #[test]
    fn each_number_is_its_refusals() {
        assert_eq!(Refusal::answer(0), Ok(()));
        for number in (1..=14).chain([18, 19]) {
            let refusal = Refusal::answer(number).unwrap_err();
            assert_eq!(refusal.number(), number);
            assert!(!refusal.meaning().is_empty());
        }
    }
}
