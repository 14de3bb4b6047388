//! The refusal table.

#[derive(Clone, Copy, Debug, PartialEq, Eq)]
pub enum Refusal {
    Cut = 1,
    Surplus = 2,
    Tag = 3,
    Length = 4,
    Beyond = 5,
    Unsorted = 6,
    Idle = 7,
    Limit = 8,
    Cramped = 9,
    Unsound = 10,
    Stranger = 11,
    Moves = 12,
    Seconds = 13,
}

impl Refusal {
    pub fn number(self) -> u32 {
        self as u32
    }
}

/// `Ok` where the condition holds, else the refusal.
pub fn need(condition: bool, refusal: Refusal) -> Result<(), Refusal> {
    if condition {
        Ok(())
    } else {
        Err(refusal)
    }
}
