//! A checked job: its constants, functors, clauses and queries, and the flat code that their terms stand in.
//!
//! A compound's parts stand in the code before the compound itself, and nothing else stands between. So each term of an
//! item is one stretch of code, its block, and to copy the term is to copy the block from front to back. A variable's
//! index in the code is its place among the item's variables, in order of first occurrence.

use crate::words::{Word, EMPTY_LIST, LIST_CELL};

/// A job that reading has accepted.
#[derive(Debug)]
pub struct Job {
    pub(crate) constants: Constants,
    pub(crate) functors: Vec<Functor>,
    pub(crate) code: Vec<Word>,
    /// For the place of each functor word in the code: where the compound's block begins.
    pub(crate) block_begins: Vec<u32>,
    /// The clauses, one procedure after the other, each procedure's in text order.
    pub(crate) clauses: Vec<Clause>,
    pub(crate) queries: Vec<Query>,
    /// The functor word of each body and query goal in the code, one item's after the other.
    pub(crate) goals: Vec<u32>,
}

/// A name with a number of arguments; 'together they select the procedure'.
#[derive(Debug)]
pub(crate) struct Functor {
    pub name: Word,
    pub clauses: std::ops::Range<usize>,
}

#[derive(Debug)]
pub(crate) struct Clause {
    /// Which one it is of the clauses of the whole text, from 1.
    pub number: u32,
    /// The head's functor word in the code.
    pub head: usize,
    pub guards: Vec<Guard>,
    pub body: Goals,
}

/// A guard of a clause: what it asks of its arguments, terms of the code.
#[derive(Debug)]
pub(crate) struct Guard {
    pub test: Test,
    pub arguments: Vec<Word>,
}

#[derive(Clone, Copy, PartialEq, Eq, Debug)]
pub(crate) enum Test {
    Integer,
    Constant,
    Compound,
    Ground,
    Known,
    Equal,
    Otherwise,
}

/// 'A fixed table of names and argument counts' (document 02, T-02), and whether the argument's reader 'may stand
/// several times in that clause's body': this is said of ground, integer and constant alone, not of `==`, though two
/// terms that it finds equal are ground.
pub(crate) const GUARDS: [(&str, usize, Test, bool); 7] = [
    ("integer", 1, Test::Integer, true),
    ("constant", 1, Test::Constant, true),
    ("compound", 1, Test::Compound, false),
    ("ground", 1, Test::Ground, true),
    ("known", 1, Test::Known, false),
    ("==", 2, Test::Equal, false),
    ("otherwise", 0, Test::Otherwise, false),
];

#[derive(Debug)]
pub(crate) struct Query {
    pub body: Goals,
    /// The names of the query's pairs, in order of first occurrence of either half.
    pub variables: Vec<Box<[u8]>>,
}

/// The goals of an item, and what 'the whole item counted' charges.
#[derive(Debug, Default)]
pub(crate) struct Goals {
    pub block: std::ops::Range<usize>,
    /// Where the item's goals stand in the job's list of them.
    pub places: std::ops::Range<usize>,
    pub pairs: usize,
    pub compounds: usize,
}

impl Job {
    pub(crate) fn new(text_length: usize) -> Job {
        Job {
            constants: Constants::new(text_length),
            functors: vec![Functor { name: EMPTY_LIST, clauses: 0..0 }],
            code: Vec::with_capacity(text_length / 2),
            block_begins: Vec::with_capacity(text_length / 2),
            clauses: Vec::new(),
            queries: Vec::new(),
            goals: Vec::new(),
        }
    }

    /// The functor of this name and number of arguments, entered if it is new.
    pub(crate) fn functor(&mut self, name: Word, arity: usize) -> Word {
        let number = &mut self.constants.entries[name.index()].functors[arity];
        if *number == LIST_CELL.functor_number() as u32 {
            *number = self.functors.len() as u32;
            self.functors.push(Functor { name, clauses: 0..0 });
        }
        Word::functor(*number, arity as u32)
    }

    /// Bring each procedure's clauses together. 'Its clauses keep text order and need not be adjacent.'
    pub(crate) fn gather_procedures(&mut self) {
        let code = &self.code;
        self.clauses.sort_by_key(|clause| code[clause.head].functor_number());
        for (place, clause) in self.clauses.iter().enumerate() {
            let range = &mut self.functors[self.code[clause.head].functor_number()].clauses;
            let begin = if range.start == range.end { place } else { range.start };
            *range = begin..place + 1;
        }
    }
}

/// The constants of a job and their spellings, found by a hash of the spelling. An integer has one spelling only, so
/// names, integers and `[]` share the table.
#[derive(Debug)]
pub(crate) struct Constants {
    spellings: Vec<u8>,
    entries: Vec<Entry>,
    /// The number of a constant plus one, or 0: at most half full, since two constants never stand side by side.
    slots: Vec<u16>,
}

#[derive(Debug)]
struct Entry {
    begin: u32,
    end: u32,
    /// The functors of this name by number of arguments; the list cell's number stands for none.
    functors: [u32; 7],
}

impl Constants {
    fn new(text_length: usize) -> Constants {
        let slots = vec![0; (text_length + 16).next_power_of_two()];
        let mut constants = Constants { spellings: Vec::new(), entries: Vec::new(), slots };
        constants.find_or_enter(b"[]");
        constants
    }

    pub fn spelling(&self, constant: Word) -> &[u8] {
        let entry = &self.entries[constant.index()];
        &self.spellings[entry.begin as usize..entry.end as usize]
    }

    /// Whether the constant is an integer: no name and not `[]` begins as one.
    pub fn is_integer(&self, constant: Word) -> bool {
        matches!(self.spelling(constant)[0], b'-' | b'0'..=b'9')
    }

    /// The constant of this spelling, and whether it is new.
    pub fn find_or_enter(&mut self, spelling: &[u8]) -> (Word, bool) {
        let mut slot = hash(spelling) as usize & (self.slots.len() - 1);
        while self.slots[slot] != 0 {
            let found = constant(self.slots[slot] as usize - 1);
            if self.spelling(found) == spelling {
                return (found, false);
            }
            slot = (slot + 1) & (self.slots.len() - 1);
        }
        self.slots[slot] = self.entries.len() as u16 + 1;
        let begin = self.spellings.len() as u32;
        self.spellings.extend_from_slice(spelling);
        self.entries.push(Entry { begin, end: self.spellings.len() as u32, functors: [0; 7] });
        (constant(self.entries.len() - 1), true)
    }
}

fn constant(index: usize) -> Word {
    Word::new(crate::words::Kind::Constant, index as u32)
}

/// FNV-1a.
fn hash(bytes: &[u8]) -> u32 {
    bytes.iter().fold(0x811c_9dc5, |sum: u32, byte| (sum ^ *byte as u32).wrapping_mul(0x0100_0193))
}
