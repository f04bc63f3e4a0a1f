//! The three kinds of list: their ranges, and their values as words.

#[derive(Clone, Copy, Debug, PartialEq, Eq)]
pub enum Kind {
    Plain,
    Instants,
    Corrections,
}

impl Kind {
    pub fn number(self) -> u32 {
        match self {
            Kind::Plain => 0,
            Kind::Instants => 1,
            Kind::Corrections => 2,
        }
    }

    pub fn in_range(self, value: i64) -> bool {
        match self {
            Kind::Plain => (1..=4_294_967_295).contains(&value),
            Kind::Instants => (0..=4_294_967_294).contains(&value),
            Kind::Corrections => (-2_147_483_647..=2_147_483_647).contains(&value) && value != 0,
        }
    }

    /// The words of a list without faults.
    pub fn words(self, values: &[i64]) -> Vec<u64> {
        (0..values.len()).map(|place| self.word(values, place) as u64).collect()
    }

    fn word(self, values: &[i64], place: usize) -> i64 {
        let value = values[place];
        match self {
            Kind::Plain => value,
            Kind::Instants if place == 0 => value + 1,
            Kind::Instants => value - values[place - 1] + 1,
            Kind::Corrections if value > 0 => 2 * value,
            Kind::Corrections => -2 * value + 1,
        }
    }

    /// The value that this word forms behind these values, in range or not.
    pub fn value(self, before: &[i64], word: u64) -> i64 {
        let word = word as i64;
        match self {
            Kind::Plain => word,
            Kind::Instants => before.last().unwrap_or(&0) + word - 1,
            Kind::Corrections if word % 2 == 0 => word / 2,
            Kind::Corrections => -(word / 2),
        }
    }
}

#[derive(Clone, Copy, Debug, PartialEq, Eq)]
pub enum Fault {
    OutsideRange,
    BelowTheOneBefore,
}

/// The first place with a fault; at one place the range is judged first.
pub fn first_fault(kind: Kind, values: &[i64]) -> Option<(Fault, usize)> {
    for (place, &value) in values.iter().enumerate() {
        if !kind.in_range(value) {
            return Some((Fault::OutsideRange, place));
        }
        if kind == Kind::Instants && place > 0 && value < values[place - 1] {
            return Some((Fault::BelowTheOneBefore, place));
        }
    }
    None
}
