//! Reading: a job text becomes a checked job, or is refused with 3, 4, 5, 6, 9, 10 or 11, a line and an offset.
//!
//! 'The first refused item decides.' Inside an item the reading stops at the first token that cannot stand where it
//! stands (4) or that passes a figure (6); the former is asked first, so one token that does both is 4. The guards (11)
//! and then the occurrence rules (5, 9 and 10) are judged at the item's full stop, see `rules`. Functions recurse only
//! over brackets, of which 16 are open at most.

use crate::job::{Clause, Goals, Job, Query};
use crate::rules::Occurrence;
use crate::text::{line, token, Sort, Token};
use crate::words::{Kind, Word, EMPTY_LIST, LIST_CELL};

// 'Figures: text 16,384 bytes; 128 clauses; 1 to 8 queries; 256 distinct names; per item 16 variable pairs, 32
// compounds and 8 body or query goals; 16 brackets open at once', and compounds with 1 to 6 arguments; '1 to 8 guards'.
const TEXT_BYTES: usize = 16_384;
const CLAUSES: usize = 128;
const QUERIES: usize = 8;
const NAMES: usize = 256;
const PAIRS: usize = 16;
const COMPOUNDS: usize = 32;
const GOALS: usize = 8;
const MOST_GUARDS: usize = 8;
const BRACKETS: usize = 16;
const ARGUMENTS: usize = 6;

/// Why a text is no job: number 3, 4, 5, 6, 9, 10 or 11, and its line; '4, 5, 9 and 10 also return a byte offset, 0
/// with every other number' (document 02, T-01).
#[derive(Clone, Copy, Debug, PartialEq, Eq)]
pub struct Refusal {
    pub number: u8,
    pub line: u32,
    pub offset: u32,
}

/// Read and check a job text.
pub fn read(text: &[u8]) -> Result<Job, Refusal> {
    if text.len() > TEXT_BYTES {
        return Err(Refusal { number: 3, line: 0, offset: 0 });
    }
    let mut items = Items::new(text);
    while items.token.sort != Sort::End {
        items.item()?;
    }
    if items.job.queries.is_empty() {
        return Err(Refusal { number: 6, line: 0, offset: 0 });
    }
    items.job.gather_procedures();
    Ok(items.job)
}

/// The reading of a text: the token in front, the job so far and the counts of the item at hand.
pub(crate) struct Items<'t> {
    text: &'t [u8],
    token: Token,
    pub job: Job,
    names: usize,
    /// Arguments and elements read, but not yet put into their compound; with each, where its block begins.
    parts: Vec<(Word, usize)>,
    pub item: Item<'t>,
}

/// What is counted per item.
#[derive(Default)]
pub(crate) struct Item<'t> {
    begin: usize,
    variables: Vec<&'t [u8]>,
    /// Each occurrence of a half in head and body, in text order, and how many of them are in the head.
    pub occurrences: Vec<Occurrence>,
    pub in_head: usize,
    /// Those in the guards, and the pairs (a bit for each) whose readers a guard lets stand several times in the body.
    pub in_guards: Vec<Occurrence>,
    pub licensed: u32,
    compounds: usize,
    brackets: usize,
    goals: usize,
}

/// What stands between commas behind `:-`. It is a guard or a goal, and only the bar or the full stop tells which.
#[derive(Clone, Copy)]
pub(crate) enum Conjunct {
    Name(Word),
    Compound(Word),
    Equal(Word, Word),
}

pub(crate) type Reading<T> = Result<T, Refusal>;

impl<'t> Items<'t> {
    fn new(text: &'t [u8]) -> Self {
        Items {
            text,
            token: token(text, 0),
            job: Job::new(text.len()),
            names: 0,
            parts: Vec::new(),
            item: Item::default(),
        }
    }

    fn advance(&mut self) {
        self.token = token(self.text, self.token.end);
    }

    /// 4, its line 'of the first token that cannot continue; at the end of the text, of its last byte', its offset 'the
    /// token's start (the text's length at its end)'.
    fn cannot_continue<T>(&self) -> Reading<T> {
        let place = match self.token.sort {
            Sort::End => self.text.len() - 1,
            _ => self.token.begin,
        };
        Err(Refusal { number: 4, line: line(self.text, place), offset: self.token.begin as u32 })
    }

    /// 5, 6, 9, 10 or 11, its line 'where the item begins'.
    pub fn refuse_item<T>(&self, number: u8, offset: usize) -> Reading<T> {
        Err(Refusal { number, line: line(self.text, self.item.begin), offset: offset as u32 })
    }

    /// 6 if one more than `count` is above the figure.
    fn within(&self, count: usize, figure: usize) -> Reading<()> {
        if count >= figure {
            return self.refuse_item(6, 0);
        }
        Ok(())
    }

    /// 'An item is `head.`, `head :- goal,..,goal.` or `?- goal,..,goal.`', and 'a clause may read
    /// `head :- guard,..,guard | goal,..,goal.`' (document 02, T-02).
    fn item(&mut self) -> Reading<()> {
        self.begin_item();
        match self.token.sort {
            Sort::Ask => self.query(),
            Sort::Name => self.clause(),
            _ => self.cannot_continue(),
        }
    }

    /// 'Each item has its own variables', and begins at its first token.
    fn begin_item(&mut self) {
        let mut variables = std::mem::take(&mut self.item.variables);
        let mut occurrences = std::mem::take(&mut self.item.occurrences);
        variables.clear();
        occurrences.clear();
        self.item = Item { begin: self.token.begin, variables, occurrences, ..Item::default() };
    }

    fn query(&mut self) -> Reading<()> {
        self.within(self.job.queries.len(), QUERIES)?;
        self.advance();
        let body = self.goals()?;
        self.judge_occurrences(false)?;
        self.advance();
        let variables = self.item.variables.iter().map(|name| (*name).into()).collect();
        self.job.queries.push(Query { body, variables });
        Ok(())
    }

    fn clause(&mut self) -> Reading<()> {
        self.within(self.job.clauses.len(), CLAUSES)?;
        let head = self.named_compound()?.index();
        self.item.in_head = self.item.occurrences.len();
        let (guards, body) = match self.token.sort {
            Sort::Stop => (Vec::new(), self.whole_item(self.job.code.len())),
            Sort::If => {
                self.advance();
                self.guards_and_goals()?
            }
            _ => return self.cannot_continue(),
        };
        let guards = self.judge_guards(guards)?;
        self.judge_occurrences(true)?;
        self.advance();
        let number = self.job.clauses.len() as u32 + 1;
        self.job.clauses.push(Clause { number, head, guards, body });
        Ok(())
    }

    /// What follows `:-`, up to the item's full stop, which is left in front. The full stop can stand behind goals
    /// alone, the bar behind any conjuncts: so each is read as what it can still be.
    fn guards_and_goals(&mut self) -> Reading<(Vec<Conjunct>, Goals)> {
        let begin = self.job.code.len();
        let mut conjuncts = Vec::new();
        loop {
            if !self.token.sort.begins_term() {
                return self.cannot_continue();
            }
            self.within(conjuncts.len(), MOST_GUARDS)?;
            conjuncts.push(self.conjunct()?);
            match self.token.sort {
                Sort::Comma => self.advance(),
                Sort::Bar => break,
                Sort::Stop => return self.all_goals(&conjuncts, begin).map(|goals| (Vec::new(), goals)),
                _ => return self.cannot_continue(),
            }
        }
        self.advance();
        // 'Occurrences in guards don't count for the pairing.'
        self.item.in_guards = self.item.occurrences.split_off(self.item.in_head);
        let goals = match self.token.sort {
            Sort::Stop => self.whole_item(self.job.code.len()),
            _ => self.goals()?,
        };
        Ok((conjuncts, goals))
    }

    /// A bare name, a compound with a name, or `T == T`; a variable, an integer or a list needs its `==`.
    fn conjunct(&mut self) -> Reading<Conjunct> {
        let named = self.token.sort == Sort::Name;
        let left = self.term()?;
        if self.token.sort == Sort::Equal {
            // '`==`' stands in the table with two arguments, and is a compound as `known(X?)` is.
            self.within(self.item.compounds, COMPOUNDS)?;
            self.item.compounds += 1;
            self.advance();
            return Ok(Conjunct::Equal(left, self.term()?));
        }
        match left.kind() {
            Kind::Compound if named => Ok(Conjunct::Compound(left)),
            Kind::Constant if named => Ok(Conjunct::Name(left)),
            _ => self.cannot_continue(),
        }
    }

    /// The conjuncts are body goals: 'goals are compounds with a name'. The full stop in front cannot stand otherwise.
    fn all_goals(&mut self, conjuncts: &[Conjunct], begin: usize) -> Reading<Goals> {
        for conjunct in conjuncts {
            let Conjunct::Compound(goal) = conjunct else {
                return self.cannot_continue();
            };
            self.job.goals.push(goal.index() as u32);
        }
        self.item.goals = conjuncts.len();
        Ok(self.whole_item(begin))
    }

    /// Goals up to the item's full stop, which is left in front.
    fn goals(&mut self) -> Reading<Goals> {
        let begin = self.job.code.len();
        loop {
            if self.token.sort != Sort::Name {
                return self.cannot_continue();
            }
            self.within(self.item.goals, GOALS)?;
            self.item.goals += 1;
            let goal = self.named_compound()?;
            self.job.goals.push(goal.index() as u32);
            match self.token.sort {
                Sort::Comma => self.advance(),
                Sort::Stop => return Ok(self.whole_item(begin)),
                _ => return self.cannot_continue(),
            }
        }
    }

    /// The goals of the item, with what the whole item charges.
    fn whole_item(&self, begin: usize) -> Goals {
        Goals {
            block: begin..self.job.code.len(),
            places: self.job.goals.len() - self.item.goals..self.job.goals.len(),
            pairs: self.item.variables.len(),
            compounds: self.item.compounds,
        }
    }

    /// A head or goal, its name in front. 'Heads and goals are compounds with a name.'
    fn named_compound(&mut self) -> Reading<Word> {
        let begin = self.job.code.len();
        let name = self.name()?;
        if self.token.sort != Sort::OpenRound {
            return self.cannot_continue();
        }
        self.compound(name, begin)
    }

    fn term(&mut self) -> Reading<Word> {
        let begin = self.job.code.len();
        match self.token.sort {
            Sort::Writer | Sort::Reader => self.variable(),
            Sort::Integer => Ok(self.integer()),
            Sort::OpenSquare => self.list(),
            Sort::Name => {
                let name = self.name()?;
                match self.token.sort {
                    Sort::OpenRound => self.compound(name, begin),
                    _ => Ok(name),
                }
            }
            _ => self.cannot_continue(),
        }
    }

    /// '256 distinct names (constants and all functors together, heads and goals too, told apart by spelling alone).'
    fn name(&mut self) -> Reading<Word> {
        let (name, new) = self.job.constants.find_or_enter(self.token.spelling(self.text));
        if new {
            self.within(self.names, NAMES)?;
            self.names += 1;
        }
        self.advance();
        Ok(name)
    }

    fn integer(&mut self) -> Word {
        let (integer, _) = self.job.constants.find_or_enter(self.token.spelling(self.text));
        self.advance();
        integer
    }

    fn variable(&mut self) -> Reading<Word> {
        let spelling = self.token.spelling(self.text);
        let known = self.item.variables.iter().position(|name| *name == spelling);
        let index = match known {
            Some(index) => index,
            None => {
                self.within(self.item.variables.len(), PAIRS)?;
                self.item.variables.push(spelling);
                self.item.variables.len() - 1
            }
        };
        let kind = if self.token.sort == Sort::Reader { Kind::Reader } else { Kind::Writer };
        self.item.occurrences.push(Occurrence { kind, pair: 1 << index, offset: self.token.begin });
        self.advance();
        Ok(Word::new(kind, index as u32))
    }

    /// One more open bracket, in front now.
    fn open(&mut self) -> Reading<()> {
        self.within(self.item.brackets, BRACKETS)?;
        self.item.brackets += 1;
        self.advance();
        Ok(())
    }

    fn close(&mut self) {
        self.item.brackets -= 1;
        self.advance();
    }

    /// The arguments of a compound, its opening parenthesis in front: there the compound is counted.
    fn compound(&mut self, name: Word, begin: usize) -> Reading<Word> {
        self.within(self.item.compounds, COMPOUNDS)?;
        self.item.compounds += 1;
        self.open()?;
        let first = self.parts.len();
        loop {
            // The seventh argument's first token passes the figure, if it can stand there at all.
            if self.token.sort.begins_term() {
                self.within(self.parts.len() - first, ARGUMENTS)?;
            }
            let argument = self.term()?;
            self.parts.push((argument, 0));
            match self.token.sort {
                Sort::Comma => self.advance(),
                Sort::CloseRound => break,
                _ => return self.cannot_continue(),
            }
        }
        self.close();
        let functor = self.job.functor(name, self.parts.len() - first);
        let place = self.enter_functor(functor, begin);
        for part in first..self.parts.len() {
            self.enter_argument(self.parts[part].0);
        }
        self.parts.truncate(first);
        Ok(place)
    }

    /// A list, its `[` in front. '`[]` is two tokens, and its `[` opens a bracket.'
    fn list(&mut self) -> Reading<Word> {
        self.open()?;
        if self.token.sort == Sort::CloseSquare {
            self.close();
            return Ok(EMPTY_LIST);
        }
        let first = self.parts.len();
        let tail = loop {
            self.element()?;
            match self.token.sort {
                Sort::Comma => self.advance(),
                Sort::CloseSquare => break EMPTY_LIST,
                Sort::Bar => {
                    self.advance();
                    break self.term()?;
                }
                _ => return self.cannot_continue(),
            }
        };
        if self.token.sort != Sort::CloseSquare {
            return self.cannot_continue();
        }
        self.close();
        Ok(self.cells(first, tail))
    }

    /// 'Each element of a list makes one list cell', counted at the element's first token.
    fn element(&mut self) -> Reading<()> {
        if !self.token.sort.begins_term() {
            return self.cannot_continue();
        }
        self.within(self.item.compounds, COMPOUNDS)?;
        self.item.compounds += 1;
        let begin = self.job.code.len();
        let element = self.term()?;
        self.parts.push((element, begin));
        Ok(())
    }

    /// The cells of the elements read, the last one first, so that each cell's block holds the cells behind it.
    fn cells(&mut self, first: usize, tail: Word) -> Word {
        let mut list = tail;
        for part in (first..self.parts.len()).rev() {
            let (element, begin) = self.parts[part];
            let cell = self.enter_functor(LIST_CELL, begin);
            self.enter_argument(element);
            self.enter_argument(list);
            list = cell;
        }
        self.parts.truncate(first);
        list
    }

    fn enter_functor(&mut self, functor: Word, begin: usize) -> Word {
        let place = self.job.code.len() as u32;
        self.job.code.push(functor);
        self.job.block_begins.push(begin as u32);
        Word::new(Kind::Compound, place)
    }

    fn enter_argument(&mut self, argument: Word) {
        self.job.code.push(argument);
        self.job.block_begins.push(0);
    }
}
