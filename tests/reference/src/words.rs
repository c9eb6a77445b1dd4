//! Words: one term is one 32-bit word, its kind in the low two bits and an index in the others.
//!
//! A constant's index is its place in the job's table of constants, so two constants are equal exactly if their words
//! are. A compound's index is the place of its functor word; its arguments follow there, one word each:
//!
//! ```text
//!   functor word | argument 1 | .. | argument n        functor word = closed bit, number, n (3 bits), 00
//! ```

/// A term, or a functor word in front of a compound's arguments.
#[derive(Clone, Copy, PartialEq, Eq, Hash, Debug)]
pub struct Word(u32);

/// The four kinds of term.
#[derive(Clone, Copy, PartialEq, Eq, Debug)]
pub enum Kind {
    Constant,
    Compound,
    Writer,
    Reader,
}

/// The value of a pair that has none.
pub const UNASSIGNED: Word = Word(u32::MAX);
/// The constant `[]`, always the first of a job.
pub const EMPTY_LIST: Word = Word::new(Kind::Constant, 0);
/// The list cell's functor, 'a compound of two arguments with a functor of its own': always the first of a job.
pub const LIST_CELL: Word = Word::functor(0, 2);

/// Set in the functor word of a compound from which no unassigned pair can be reached any more: it is ground.
const CLOSED: u32 = 1 << 31;

impl Word {
    pub const fn new(kind: Kind, index: u32) -> Word {
        Word(index << 2 | kind as u32)
    }

    pub const fn functor(number: u32, arity: u32) -> Word {
        Word(number << 5 | arity << 2)
    }

    #[inline]
    pub fn kind(self) -> Kind {
        match self.0 & 3 {
            0 => Kind::Constant,
            1 => Kind::Compound,
            2 => Kind::Writer,
            _ => Kind::Reader,
        }
    }

    #[inline]
    pub fn index(self) -> usize {
        (self.0 >> 2) as usize
    }

    #[inline]
    pub fn is_variable(self) -> bool {
        self.0 & 2 != 0
    }

    /// The writer of the pair whose reader this is.
    #[inline]
    pub fn writer_of_reader(self) -> Word {
        Word(self.0 ^ 1)
    }

    /// This compound, moved by `distance` places (which may be negative, wrapped around).
    #[inline]
    pub fn moved(self, distance: u32) -> Word {
        Word(self.0.wrapping_add(distance << 2))
    }

    // Of functor words.

    #[inline]
    pub fn functor_number(self) -> usize {
        ((self.0 & !CLOSED) >> 5) as usize
    }

    #[inline]
    pub fn arity(self) -> usize {
        (self.0 >> 2 & 7) as usize
    }

    #[inline]
    pub fn is_closed(self) -> bool {
        self.0 & CLOSED != 0
    }

    #[inline]
    pub fn closed(self) -> Word {
        Word(self.0 | CLOSED)
    }

    #[inline]
    pub fn same_functor(self, other: Word) -> bool {
        (self.0 ^ other.0) & !CLOSED == 0
    }
}
