//! What is judged at an item's full stop: the guards, with number 11, and then the occurrence rules, with 5, 9 and 10.

use crate::items::{Conjunct, Items, Reading};
use crate::job::{Guard, GUARDS};
use crate::words::Kind;

/// An occurrence of a pair's writer or its reader; the pair is one bit, the offset is where it begins.
#[derive(Clone, Copy)]
pub(crate) struct Occurrence {
    pub kind: Kind,
    pub pair: u32,
    pub offset: usize,
}

/// The pairs, a bit for each, whose halves of this kind occur.
fn pairs_of(occurrences: &[Occurrence], kind: Kind) -> u32 {
    occurrences.iter().filter(|own| own.kind == kind).fold(0, |pairs, own| pairs | own.pair)
}

impl Items<'_> {
    /// '11 for a guard not in the table or with another variable': 'a guard's arguments are terms whose only variables
    /// are readers of writers in the head'.
    pub fn judge_guards(&mut self, conjuncts: Vec<Conjunct>) -> Reading<Vec<Guard>> {
        let writers = pairs_of(&self.item.occurrences[..self.item.in_head], Kind::Writer);
        let other = |own: &Occurrence| own.kind == Kind::Writer || writers & own.pair == 0;
        if self.item.in_guards.iter().any(other) {
            return self.refuse_item(11, 0);
        }
        conjuncts.into_iter().map(|conjunct| self.guard(conjunct)).collect()
    }

    fn guard(&mut self, conjunct: Conjunct) -> Reading<Guard> {
        let (job, equal) = (&self.job, "==".as_bytes());
        let (name, arguments) = match conjunct {
            Conjunct::Name(name) => (job.constants.spelling(name), Vec::new()),
            Conjunct::Equal(left, right) => (equal, vec![left, right]),
            Conjunct::Compound(compound) => {
                let functor = job.code[compound.index()];
                let arguments = &job.code[compound.index() + 1..][..functor.arity()];
                (job.constants.spelling(job.functors[functor.functor_number()].name), arguments.to_vec())
            }
        };
        let in_table = |row: &&(&str, usize, _, _)| row.0.as_bytes() == name && row.1 == arguments.len();
        let Some(&(_, _, test, licenses)) = GUARDS.iter().find(in_table) else {
            return self.refuse_item(11, 0);
        };
        // 'A reader that is itself the argument of a ground, integer or constant guard.'
        if licenses && arguments[0].kind() == Kind::Reader {
            self.item.licensed |= 1 << arguments[0].index();
        }
        Ok(Guard { test, arguments })
    }

    /// 'In a clause no writer and no reader occurs twice, and a writer occurs exactly if its reader does. In a query
    /// nothing occurs twice; either half may be missing.' The offset is 'for 5 the second occurrence, for 9 and 10 the
    /// first occurrence of the lone half; where several apply to an item, the smallest offset decides': so the first
    /// occurrence in text order that breaks a rule. A licensed reader 'may stand several times in that clause's body,
    /// and once in its head as well' (document 02, T-02).
    pub fn judge_occurrences(&self, clause: bool) -> Reading<()> {
        let all = &self.item.occurrences;
        let (writers, readers) = (pairs_of(all, Kind::Writer), pairs_of(all, Kind::Reader));
        let (mut writers_seen, mut readers_seen) = (0, 0);
        for (place, &Occurrence { kind, pair, offset }) in all.iter().enumerate() {
            let (seen, others, lone) = match kind {
                Kind::Reader => (&mut readers_seen, writers, 10),
                _ => (&mut writers_seen, readers, 9),
            };
            let licensed = kind == Kind::Reader && self.item.licensed & pair != 0 && place >= self.item.in_head;
            if *seen & pair != 0 && !licensed {
                return self.refuse_item(5, offset);
            }
            if clause && others & pair == 0 {
                return self.refuse_item(lone, offset);
            }
            *seen |= pair;
        }
        Ok(())
    }
}
