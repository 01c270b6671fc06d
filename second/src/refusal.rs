//! The refusals of documents 01 and 02: a numbered reason and a place.

/// Why a request is refused; the value of each reason is its number in those documents.
#[derive(Clone, Copy, Debug, PartialEq, Eq)]
pub enum Reason {
    RuleEmpty = 1,
    RuleTooLong = 2,
    RuleByte = 3,
    NotASentence = 4,
    TooManyNodes = 5,
    TooManySpecialNodes = 6,
    WordTooLong = 7,
    WordByte = 8,
    TableTooShort = 9,
    CountAboveLimit = 10,
    DayTooLong = 11,
    LineForm = 12,
    LineSecond = 13,
    TooManyLines = 14,
    BufferTooShort = 15,
    /// Of a job's first line, or of a line of a rule file.
    RuleLineForm = 16,
    UnknownName = 17,
    NameTaken = 18,
    TooManyRuleLines = 19,
    /// Of a letter in brackets and the one before it.
    LetterNotAbove = 20,
    StarAfterStar = 21,
    /// Of two days that are merged, together.
    TooManyEvents = 22,
}

/// A reason with the place it names.
#[derive(Clone, Copy, Debug, PartialEq, Eq)]
pub struct Refusal {
    pub reason: Reason,
    pub place: usize,
}

impl Refusal {
    /// A refusal whose place is named.
    pub fn at(reason: Reason, place: usize) -> Self {
        Refusal { reason, place }
    }

    /// A refusal whose place is not named, which makes it 0.
    pub fn without_place(reason: Reason) -> Self {
        Refusal { reason, place: 0 }
    }

    /// The number of the reason.
    pub fn number(self) -> u32 {
        self.reason as u32
    }
}
