//! The rules of a good file, laid out for the run.
//!
//! A term is known by its number in the table of terms. The arguments of one
//! function, head or goal stand side by side there, so an argument is found
//! without walking over its neighbours.

/// A clause's number in file order.
#[derive(Clone, Copy, Debug, Default, PartialEq, Eq, PartialOrd, Ord)]
pub struct ClauseNumber(pub u16);

/// A term's number in the table of terms.
#[derive(Clone, Copy, Debug, Default, PartialEq, Eq)]
pub struct TermNumber(pub u32);

/// A set of variables of a clause or query: bit v for variable v.
pub type VariableSet = u64;

/// A term of the file: a variable, or a function applied.
#[derive(Clone, Copy, Debug)]
pub enum Term {
    Variable(u8),
    Applied(Applied),
}

/// A function applied to the terms that start at `arguments`.
#[derive(Clone, Copy, Debug)]
pub struct Applied {
    pub arity: u8,
    pub function: u16,
    pub arguments: TermNumber,
}

/// The table of terms.
#[derive(Debug, Default)]
pub struct Terms {
    terms: Vec<Term>,
    /// For each term the set of variables in it.
    variables: Vec<VariableSet>,
}

impl Terms {
    #[inline(always)]
    pub fn term(&self, number: TermNumber) -> &Term {
        &self.terms[number.0 as usize]
    }

    /// The set of variables that appear in a term.
    #[inline(always)]
    pub fn variables(&self, number: TermNumber) -> VariableSet {
        self.variables[number.0 as usize]
    }

    pub(crate) fn clear(&mut self) {
        self.terms.clear();
        self.variables.clear();
    }

    /// Numbers for so many terms, side by side.
    #[inline]
    pub(crate) fn side_by_side(&mut self, count: u8) -> TermNumber {
        let first = self.terms.len();
        let after = first + count as usize;
        self.terms.resize(after, Term::Variable(0));
        self.variables.resize(after, 0);
        TermNumber(first as u32)
    }

    #[inline]
    pub(crate) fn set(&mut self, number: TermNumber, term: Term, variables: VariableSet) {
        self.terms[number.0 as usize] = term;
        self.variables[number.0 as usize] = variables;
    }
}

/// A predicate goal: which predicate, and where its arguments start.
#[derive(Clone, Copy, Debug)]
pub struct Call {
    pub predicate: u16,
    pub arguments: TermNumber,
}

/// A goal of a body or of the query. `Done` closes each list of goals.
#[derive(Clone, Copy, Debug)]
pub enum Goal {
    Call(Call),
    Cut,
    Done,
}

/// A clause: its head's arguments start at `head`, its goals at `body`.
#[derive(Clone, Copy, Debug, Default)]
pub struct Clause {
    pub number: ClauseNumber,
    pub predicate: u16,
    pub variables: u8,
    pub arity: u8,
    pub head: TermNumber,
    pub body: u32,
}

/// The query: its variables stand side by side from `shown` on, as the terms
/// that an answer shows; its goals start at `goals`.
#[derive(Clone, Copy, Debug, Default)]
pub struct Query {
    pub variables: u8,
    pub shown: TermNumber,
    pub goals: u32,
}

/// Where a predicate's clauses stand among the grouped clauses.
#[derive(Clone, Copy, Debug, Default)]
pub struct Range {
    pub first: u32,
    pub after: u32,
}

/// All rules of a file.
#[derive(Debug, Default)]
pub struct Rules {
    pub terms: Terms,
    pub goals: Vec<Goal>,
    /// Clauses by predicate, in number order; each keeps its own number.
    pub clauses: Vec<Clause>,
    pub predicates: Vec<Range>,
    pub query: Query,
    /// Clauses in file order, as they were read.
    read: Vec<Clause>,
}

impl Rules {
    pub(crate) fn clear(&mut self) {
        self.terms.clear();
        self.goals.clear();
        self.clauses.clear();
        self.predicates.clear();
        self.read.clear();
    }

    pub(crate) fn push(&mut self, clause: Clause) {
        self.predicates[clause.predicate as usize].after += 1;
        self.read.push(clause);
    }

    /// Groups the clauses by predicate, each group in number order.
    pub(crate) fn group(&mut self) {
        let mut first = 0;
        for range in &mut self.predicates {
            let count = range.after;
            *range = Range {
                first,
                after: first,
            };
            first += count;
        }
        self.clauses.resize(self.read.len(), Clause::default());
        for clause in &self.read {
            let range = &mut self.predicates[clause.predicate as usize];
            self.clauses[range.after as usize] = *clause;
            range.after += 1;
        }
    }
}
