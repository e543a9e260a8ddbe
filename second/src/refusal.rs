//! The reasons for which a single record is turned down while the replay goes on.

#[derive(Clone, Copy, PartialEq, Eq, Debug)]
pub enum Refusal {
    UnknownKind,
    FieldNotAllowed,
    NoStrike,
    StrikeOutsidePicture,
    NoCellFits,
    SeveralCellsFit,
}

impl Refusal {
    /// The number that stands in the answer's second byte (table of refusals,
    /// section "Records and what comes back"). Numbers 3 and 4 end a replay and
    /// are kept with the endings, 10 and 11 with the counts, 12 with the line, 13
    /// to 17 with the setup.
    pub fn number(self) -> u8 {
        match self {
            Refusal::UnknownKind => 1,
            Refusal::FieldNotAllowed => 2,
            Refusal::NoStrike => 5,
            Refusal::StrikeOutsidePicture => 6,
            Refusal::NoCellFits => 7,
            Refusal::SeveralCellsFit => 8,
        }
    }
}
