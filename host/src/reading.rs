//! Reading a rule file: forward, record by record; the first fault counts.
//!
//! Within a record: kind missing (4), kind (5), body short (4), level (8),
//! numbers (6), variables (7). The same reader checks a file, keeping nothing,
//! and turns it into rules.

use crate::end::Refusal;
use crate::record::*;
use crate::rules::{Applied, Call, Clause, ClauseNumber, Goal, Query, Range};
use crate::rules::{Rules, Term, TermNumber, VariableSet};

// The most that a rule file may have; of clauses and variables by request 2026-01.
pub const FUNCTIONS: usize = 1_024;
pub const PREDICATES: usize = 1_024;
pub const CLAUSES: usize = 8_192;
pub const ARITY: usize = 8;
pub const VARIABLES: usize = 64;
pub const GOALS: usize = 16;
pub const LEVELS: usize = 32;

// A set has a bit for each variable.
const _: () = assert!(VARIABLES <= VariableSet::BITS as usize);

/// Reads a rule file into rules.
pub fn read(file: &[u8]) -> Result<Rules, Refusal> {
    let mut rules = Rules::default();
    read_into(file, &mut rules)?;
    Ok(rules)
}

/// Reads a rule file into rules whose memory is used again.
pub fn read_into(file: &[u8], rules: &mut Rules) -> Result<(), Refusal> {
    rules.clear();
    Reader::new(file, rules).file()?;
    rules.group();
    Ok(())
}

/// Checks a rule file and keeps nothing of it.
pub fn check(file: &[u8]) -> Result<(), Refusal> {
    Reader::new(file, &mut Nothing).file()
}

/// What is kept of the records that were found good.
trait Keep {
    fn predicate(&mut self);
    fn clause(&mut self, clause: Clause);
    fn query(&mut self, query: Query);
    fn goal(&mut self, goal: Goal);
    fn goals(&self) -> u32;
    /// Numbers for so many terms, side by side.
    fn side_by_side(&mut self, terms: u8) -> TermNumber;
    fn term(&mut self, number: TermNumber, term: Term, variables: VariableSet);
}

struct Nothing;

impl Keep for Nothing {
    fn predicate(&mut self) {}
    fn clause(&mut self, _: Clause) {}
    fn query(&mut self, _: Query) {}
    fn goal(&mut self, _: Goal) {}
    fn goals(&self) -> u32 {
        0
    }
    fn side_by_side(&mut self, _: u8) -> TermNumber {
        TermNumber(0)
    }
    fn term(&mut self, _: TermNumber, _: Term, _: VariableSet) {}
}

impl Keep for Rules {
    fn predicate(&mut self) {
        self.predicates.push(Range::default());
    }
    fn clause(&mut self, clause: Clause) {
        self.push(clause);
    }
    fn query(&mut self, query: Query) {
        self.query = query;
    }
    fn goal(&mut self, goal: Goal) {
        self.goals.push(goal);
    }
    fn goals(&self) -> u32 {
        self.goals.len() as u32
    }
    #[inline]
    fn side_by_side(&mut self, terms: u8) -> TermNumber {
        self.terms.side_by_side(terms)
    }
    #[inline]
    fn term(&mut self, number: TermNumber, term: Term, variables: VariableSet) {
        self.terms.set(number, term, variables);
    }
}

/// A record whose kind was due and whose body is whole.
struct Record<'a> {
    kind: u8,
    place: usize,
    body: &'a [u8],
}

impl Record<'_> {
    /// The two-byte number at the start of the body.
    #[inline(always)]
    fn number(&self) -> u16 {
        number(self.body[0], self.body[1])
    }

    /// Refusal 6 unless all numbers of the record are in range.
    #[inline(always)]
    fn in_range(&self, good: bool) -> Result<(), Refusal> {
        if good {
            Ok(())
        } else {
            refuse(6, self.place)
        }
    }
}

/// Whether a clause or query may have so many variables and goals.
fn counts_in_range(variables: u8, goals: u8) -> bool {
    variables as usize <= VARIABLES && goals as usize <= GOALS
}

#[cold]
fn refuse<T>(number: u32, place: usize) -> Result<T, Refusal> {
    Err(Refusal { number, place })
}

struct Reader<'a, K> {
    file: &'a [u8],
    /// The place of the next record.
    at: usize,
    functions: usize,
    predicates: usize,
    clauses: usize,
    /// Variables declared by the clause or query that is being read.
    declared: u8,
    /// Those of them that have appeared.
    seen: u8,
    keep: &'a mut K,
}

impl<'a, K: Keep> Reader<'a, K> {
    fn new(file: &'a [u8], keep: &'a mut K) -> Self {
        Reader {
            file,
            at: 0,
            functions: 0,
            predicates: 0,
            clauses: 0,
            declared: 0,
            seen: 0,
            keep,
        }
    }

    /// Functions, predicates, clauses, exactly one query, end.
    fn file(&mut self) -> Result<(), Refusal> {
        let mut earliest = FUNCTION;
        while earliest != QUERY {
            let record = self.record(|kind| {
                kind >= earliest && matches!(kind, FUNCTION | PREDICATE | CLAUSE | QUERY)
            })?;
            earliest = record.kind;
            match record.kind {
                FUNCTION => self.function(record)?,
                PREDICATE => self.predicate(record)?,
                CLAUSE => self.clause(record)?,
                _ => self.query(record)?,
            }
        }
        self.record(|kind| kind == END)?;
        if self.at < self.file.len() {
            return refuse(9, self.at);
        }
        Ok(())
    }

    /// The next record, if its kind is due and its body whole.
    #[inline(always)]
    fn record(&mut self, due: impl Fn(u8) -> bool) -> Result<Record<'a>, Refusal> {
        let place = self.at;
        let Some(&kind) = self.file.get(place) else {
            return refuse(4, place);
        };
        if !due(kind) {
            return refuse(5, place);
        }
        let after = place + size(kind);
        let Some(body) = self.file.get(place + 1..after) else {
            return refuse(4, place);
        };
        self.at = after;
        Ok(Record { kind, place, body })
    }

    fn function(&mut self, record: Record) -> Result<(), Refusal> {
        record.in_range(record.body[0] as usize <= ARITY && self.functions < FUNCTIONS)?;
        self.functions += 1;
        Ok(())
    }

    fn predicate(&mut self, record: Record) -> Result<(), Refusal> {
        record.in_range(record.body[0] as usize <= ARITY && self.predicates < PREDICATES)?;
        self.predicates += 1;
        self.keep.predicate();
        Ok(())
    }

    /// The arity of a function stands at a place that its number gives.
    #[inline(always)]
    fn function_arity(&self, function: u16) -> u8 {
        self.file[2 * function as usize + 1]
    }

    #[inline(always)]
    fn predicate_arity(&self, predicate: u16) -> u8 {
        self.file[2 * (self.functions + predicate as usize) + 1]
    }

    fn clause(&mut self, record: Record) -> Result<(), Refusal> {
        let (predicate, variables, goals) = (record.number(), record.body[2], record.body[3]);
        record.in_range(
            self.clauses < CLAUSES
                && (predicate as usize) < self.predicates
                && counts_in_range(variables, goals),
        )?;
        let number = ClauseNumber(self.clauses as u16);
        self.clauses += 1;
        self.declare(variables);
        let arity = self.predicate_arity(predicate);
        let (head, _) = self.arguments(arity, LEVELS)?;
        let body = self.goals(goals)?;
        self.all_appeared(record.place)?;
        self.keep.clause(Clause {
            number,
            predicate,
            variables,
            arity,
            head,
            body,
        });
        Ok(())
    }

    fn query(&mut self, record: Record) -> Result<(), Refusal> {
        let (variables, goals) = (record.body[0], record.body[1]);
        record.in_range(counts_in_range(variables, goals))?;
        self.declare(variables);
        let goals = self.goals(goals)?;
        self.all_appeared(record.place)?;
        let shown = self.keep.side_by_side(variables);
        for variable in 0..variables {
            let number = TermNumber(shown.0 + variable as u32);
            self.keep
                .term(number, Term::Variable(variable), 1 << variable);
        }
        self.keep.query(Query {
            variables,
            shown,
            goals,
        });
        Ok(())
    }

    fn declare(&mut self, variables: u8) {
        self.declared = variables;
        self.seen = 0;
    }

    fn all_appeared(&self, place: usize) -> Result<(), Refusal> {
        if self.seen < self.declared {
            return refuse(7, place);
        }
        Ok(())
    }

    /// So many goals, and the mark that closes them.
    fn goals(&mut self, count: u8) -> Result<u32, Refusal> {
        let first = self.keep.goals();
        for _ in 0..count {
            let record = self.record(|kind| kind == GOAL || kind == CUT)?;
            let goal = match record.kind {
                GOAL => self.call(record)?,
                _ => Goal::Cut,
            };
            self.keep.goal(goal);
        }
        self.keep.goal(Goal::Done);
        Ok(first)
    }

    fn call(&mut self, record: Record) -> Result<Goal, Refusal> {
        let predicate = record.number();
        record.in_range((predicate as usize) < self.predicates)?;
        let (arguments, _) = self.arguments(self.predicate_arity(predicate), LEVELS)?;
        Ok(Goal::Call(Call {
            predicate,
            arguments,
        }))
    }

    /// So many terms, side by side, and the set of variables in them.
    fn arguments(
        &mut self,
        arity: u8,
        levels: usize,
    ) -> Result<(TermNumber, VariableSet), Refusal> {
        let first = self.keep.side_by_side(arity);
        let mut all = 0;
        for argument in 0..arity as u32 {
            let (term, variables) = self.term(levels)?;
            all |= variables;
            self.keep
                .term(TermNumber(first.0 + argument), term, variables);
        }
        Ok((first, all))
    }

    /// A term, with so many levels left for it and what is inside it; and the
    /// set of variables in it.
    fn term(&mut self, levels: usize) -> Result<(Term, VariableSet), Refusal> {
        let record = self.record(|kind| kind == VARIABLE || kind == APPLIED)?;
        if levels == 0 {
            return refuse(8, record.place);
        }
        match record.kind {
            VARIABLE => self.variable(record),
            _ => self.applied(record, levels - 1),
        }
    }

    /// Variables are declared, and numbered by first appearance.
    #[inline(always)]
    fn variable(&mut self, record: Record) -> Result<(Term, VariableSet), Refusal> {
        let variable = record.body[0];
        if variable >= self.declared || variable > self.seen {
            return refuse(7, record.place);
        }
        self.seen = self.seen.max(variable + 1);
        Ok((Term::Variable(variable), 1 << variable))
    }

    #[inline(always)]
    fn applied(&mut self, record: Record, levels: usize) -> Result<(Term, VariableSet), Refusal> {
        let function = record.number();
        record.in_range((function as usize) < self.functions)?;
        let arity = self.function_arity(function);
        let (arguments, variables) = self.arguments(arity, levels)?;
        let applied = Applied {
            arity,
            function,
            arguments,
        };
        Ok((Term::Applied(applied), variables))
    }
}
