//! Units, and the ten numbers that stand for each in a table.

/// Numbers of an entry: type, three vertical and three horizontal Wiener coefficients, set, w0, w1.
pub const ENTRY: usize = 10;

/// How one unit is restored. The numbers may be any: the calls test them ([`Refusal::BadUnit`](crate::Refusal::BadUnit)).
#[derive(Clone, Copy, Debug, PartialEq, Eq, Hash)]
pub enum Unit {
    None,
    /// Coefficients within −5..=10, −23..=8, −17..=46.
    Wiener {
        vertical: [i32; 3],
        horizontal: [i32; 3],
    },
    /// Set within 0..=15, w0 within −96..=31, w1 within −32..=95.
    SelfGuided {
        set: i32,
        w0: i32,
        w1: i32,
    },
}

impl Unit {
    /// The ten numbers; those that the type does not use are 0.
    pub fn entry(self) -> [i32; ENTRY] {
        match self {
            Unit::None => [0; ENTRY],
            Unit::Wiener { vertical: [v0, v1, v2], horizontal: [h0, h1, h2] } => {
                [1, v0, v1, v2, h0, h1, h2, 0, 0, 0]
            }
            Unit::SelfGuided { set, w0, w1 } => [2, 0, 0, 0, 0, 0, 0, set, w0, w1],
        }
    }

    /// The unit that an entry stands for, if its type is one of the three. Numbers that the type does
    /// not use are left out.
    pub fn from_entry(entry: [i32; ENTRY]) -> Option<Unit> {
        let [kind, v0, v1, v2, h0, h1, h2, set, w0, w1] = entry;
        match kind {
            0 => Some(Unit::None),
            1 => Some(Unit::Wiener { vertical: [v0, v1, v2], horizontal: [h0, h1, h2] }),
            2 => Some(Unit::SelfGuided { set, w0, w1 }),
            _ => None,
        }
    }

    /// The unit table of a plane: its units row after row.
    pub fn table(units: &[Unit]) -> Vec<i32> {
        units.iter().flat_map(|unit| unit.entry()).collect()
    }
}
