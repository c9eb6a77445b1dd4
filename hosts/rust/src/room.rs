//! The room figures, and what a call needs for them.

/// How many variable pairs, compounds and goals a run may use, each 1 to 65,535. Other figures are answered by
/// [`Refusal::OutOfRange`](crate::Refusal::OutOfRange).
#[derive(Clone, Copy, Debug, PartialEq, Eq, Hash)]
pub struct Room {
    /// The pairs that queries and reductions are charged.
    pub pairs: usize,
    /// The compounds that they are charged.
    pub compounds: usize,
    /// The goals at any one time, active, waiting and failed ones together.
    pub goals: usize,
}

impl Room {
    /// The largest room.
    pub const LARGEST: Room = Room { pairs: 65_535, compounds: 65_535, goals: 65_535 };

    fn in_range(&self) -> bool {
        [self.pairs, self.compounds, self.goals].iter().all(|figure| (1..=65_535).contains(figure))
    }

    /// How many 64-bit words of scratch a call needs; `None` if a figure is out of range, where any scratch will do.
    ///
    /// ```
    /// assert_eq!(troscunel::Room::LARGEST.need(), Some(1_418_859));
    /// ```
    pub fn need(&self) -> Option<usize> {
        self.in_range().then(|| 42_624 + 7 * self.pairs + 8 * self.compounds + 6 * self.goals)
    }

    /// How many bytes of stack are enough for a call: 1 MiB, and 256 for each compound, since a value may be nested as
    /// deep as there are compounds. The compiled call takes 128 a level on x86-64 (docs/LIMITS.md), so half of it is
    /// reserve. Of a thread's stack only what is touched takes memory.
    pub fn stack(&self) -> usize {
        (1 << 20) + 256 * self.compounds.min(65_535)
    }
}

impl Default for Room {
    /// The program's: 1,024 pairs, 1,024 compounds, 128 goals.
    fn default() -> Self {
        Room { pairs: 1_024, compounds: 1_024, goals: 128 }
    }
}
