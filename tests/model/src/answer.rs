//! Why a record is turned back.

#[derive(Clone, Copy, Debug, PartialEq, Eq)]
pub enum Refusal {
    Damaged,
    Header,
    Record,
    TimeBelow,
    Defaulted(u64),
    NotOpen(u64),
    PriceOutside,
    SixthSubmit,
    AboveLimit,
    TeyeUnmatched,
    BookFull,
    NoSuchOrder,
    Proposal,
    NoReferencePrice,
    NoDefaultedLots,
    NoWeight,
    CountsPassed,
    NoLaterDay,
}

impl Refusal {
    pub fn number(self) -> u64 {
        match self {
            Refusal::Damaged => 1,
            Refusal::Header => 2,
            Refusal::Record => 3,
            Refusal::TimeBelow => 4,
            Refusal::Defaulted(_) => 5,
            Refusal::NotOpen(_) => 6,
            Refusal::PriceOutside => 7,
            Refusal::SixthSubmit => 8,
            Refusal::AboveLimit => 9,
            Refusal::TeyeUnmatched => 10,
            Refusal::BookFull => 11,
            Refusal::NoSuchOrder => 12,
            Refusal::Proposal => 13,
            Refusal::NoReferencePrice => 14,
            Refusal::NoDefaultedLots => 15,
            Refusal::NoWeight => 16,
            Refusal::CountsPassed => 17,
            Refusal::NoLaterDay => 18,
        }
    }
}

/// The number of deal lines of an accepted record, or why it was turned back.
pub type Answer = Result<u64, Refusal>;

/// An answer as the C entries give it: the number (0 = accepted) and the value that goes with it.
pub fn told(answer: Answer) -> (u64, u64) {
    match answer {
        Ok(lines) => (0, lines),
        Err(refusal) => match refusal {
            Refusal::Defaulted(member) => (refusal.number(), member),
            Refusal::NotOpen(contract) => (refusal.number(), contract),
            _ => (refusal.number(), 0),
        },
    }
}

/// Turns a record back where the cause holds.
pub fn refuse_if(cause: bool, refusal: Refusal) -> Result<(), Refusal> {
    if cause {
        Err(refusal)
    } else {
        Ok(())
    }
}
