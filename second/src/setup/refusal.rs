//! The reasons for which a setup is neither read nor written.

#[derive(Clone, Copy, PartialEq, Eq, Debug)]
pub enum SetupRefusal {
    /// Bytes of the contents are missing, or there are not 1 to 3 entries. To
    /// the writer: no part at all.
    Contents,
    /// A kind that is not known, or not above the one before it.
    Kinds,
    /// A body is not where it should be or not as long as it should be.
    Places,
    /// A register's byte has a bit that the register lacks.
    ForbiddenBit,
    /// The file is longer than the output.
    TooLittleRoom,
}

impl SetupRefusal {
    pub fn number(self) -> u8 {
        match self {
            SetupRefusal::Contents => 13,
            SetupRefusal::Kinds => 14,
            SetupRefusal::Places => 15,
            SetupRefusal::ForbiddenBit => 16,
            SetupRefusal::TooLittleRoom => 17,
        }
    }

    /// All that the program says of a refused setup.
    pub fn line(self) -> String {
        format!("refused {}\n", self.number())
    }
}
