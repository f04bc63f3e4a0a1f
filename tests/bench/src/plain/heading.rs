//! Codes and kinds, by the numbers that a heading gives them.

#[derive(Clone, Copy, PartialEq, Eq)]
pub enum Code {
    Gamma,
    Delta,
    Rice(u32),
    VariableByte,
    Interpolative,
}

impl Code {
    /// A parameter counts for Rice alone.
    pub fn numbered(number: u32, parameter: u32) -> Option<Code> {
        match number {
            1 => Some(Code::Gamma),
            2 => Some(Code::Delta),
            3 if parameter <= 31 => Some(Code::Rice(parameter)),
            4 => Some(Code::VariableByte),
            5 => Some(Code::Interpolative),
            _ => None,
        }
    }

    pub fn number(self) -> u32 {
        match self {
            Code::Gamma => 1,
            Code::Delta => 2,
            Code::Rice(_) => 3,
            Code::VariableByte => 4,
            Code::Interpolative => 5,
        }
    }

    pub fn parameter(self) -> u32 {
        if let Code::Rice(k) = self {
            k
        } else {
            0
        }
    }

    pub fn takes(self, kind: Kind) -> bool {
        self != Code::Interpolative || kind == Kind::Instants
    }
}

#[derive(Clone, Copy, PartialEq, Eq)]
pub enum Kind {
    Plain = 0,
    Instants = 1,
    Corrections = 2,
}

impl Kind {
    pub fn numbered(number: u32) -> Option<Kind> {
        [Kind::Plain, Kind::Instants, Kind::Corrections].into_iter().find(|&kind| kind as u32 == number)
    }
}

/// |B(number)|, and 0 for 0.
pub fn length(number: u32) -> u32 {
    u32::BITS - number.leading_zeros()
}
