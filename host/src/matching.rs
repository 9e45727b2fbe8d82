//! Matching: a list of pairs (goal side, head side), taken from the front.
//!
//! Arguments that stand side by side are held as one row of pairs; the list is
//! the front row and the rows behind it.

use crate::cells::{CellNumber, Cells, Found, Value};
use crate::end::End;
use crate::machine::Watch;
use crate::rules::Terms;

/// So many pairs, side by side.
#[derive(Clone, Copy, Debug)]
pub struct Row {
    pub goal: Value,
    pub head: Value,
    pub pairs: u32,
}

/// What a pair asks for.
enum Pair {
    Done,
    Differ,
    Arguments(Row),
}

/// One matching of a goal with a head.
pub struct Matching<'a, W> {
    pub terms: &'a Terms,
    pub cells: &'a mut Cells,
    /// The rows behind the front row; empty at the start.
    pub behind: &'a mut Vec<Row>,
    /// The first of the clause's fresh cells.
    pub fresh: CellNumber,
    /// Whether a cell that is not fresh was bound in this matching.
    pub older_bound: bool,
    pub units_left: u32,
    /// W: how many pairs the list may hold.
    pub work: u32,
    pub watch: &'a mut W,
}

impl<W: Watch> Matching<'_, W> {
    /// Whether all pairs match.
    #[inline(always)]
    pub fn run(&mut self, mut front: Row) -> Result<bool, End> {
        let mut length = front.pairs;
        self.behind.clear();
        loop {
            if front.pairs == 0 {
                match self.behind.pop() {
                    Some(row) => front = row,
                    None => return Ok(true),
                }
            }
            spend(&mut self.units_left)?;
            length -= 1;
            let pair = self.pair(front.goal, front.head);
            front = front.without_first();
            match pair {
                Pair::Done => {}
                Pair::Differ => return Ok(false),
                Pair::Arguments(row) => {
                    length += row.pairs;
                    self.watch.work(length);
                    if length > self.work {
                        return Err(End::Work);
                    }
                    if front.pairs > 0 {
                        self.behind.push(front);
                    }
                    front = row;
                }
            }
        }
    }

    #[inline(always)]
    fn pair(&mut self, goal: Value, head: Value) -> Pair {
        let (head, found_head) = self.cells.follow(self.terms, head);
        let (goal, found_goal) = self.cells.follow(self.terms, goal);
        match (found_goal, found_head) {
            (Found::Free(one), Found::Free(other)) if one == other => Pair::Done,
            (Found::Free(_), Found::Free(cell)) => self.bind(cell, goal),
            (_, Found::Free(cell)) => self.bind_checked(cell, goal),
            (Found::Free(cell), _) => self.bind_checked(cell, head),
            (Found::Applied(one), Found::Applied(other)) => {
                if one.function != other.function {
                    Pair::Differ
                } else if one.arity == 0 {
                    Pair::Done
                } else {
                    Pair::Arguments(Row {
                        goal: Value {
                            term: one.arguments,
                            base: goal.base,
                        },
                        head: Value {
                            term: other.arguments,
                            base: head.base,
                        },
                        pairs: one.arity as u32,
                    })
                }
            }
        }
    }

    #[inline(always)]
    fn bind(&mut self, cell: CellNumber, value: Value) -> Pair {
        self.older_bound |= cell < self.fresh;
        self.cells.bind(cell, value);
        Pair::Done
    }

    /// Binds unless the variable occurs inside its new value. As long as only
    /// fresh cells have been bound, the goal side leads to no fresh cell, so a
    /// fresh one is bound without a search.
    #[inline(always)]
    fn bind_checked(&mut self, cell: CellNumber, value: Value) -> Pair {
        let unreached = cell >= self.fresh && !self.older_bound;
        if !unreached && self.cells.occurs(self.terms, cell, value) {
            return Pair::Differ;
        }
        self.bind(cell, value)
    }
}

impl Row {
    #[inline(always)]
    fn without_first(self) -> Row {
        Row {
            goal: self.goal.beside(1),
            head: self.head.beside(1),
            pairs: self.pairs - 1,
        }
    }
}

/// Spends one unit: end 22 if none is left.
#[inline(always)]
pub fn spend(units_left: &mut u32) -> Result<(), End> {
    if *units_left == 0 {
        return Err(End::Budget);
    }
    *units_left -= 1;
    Ok(())
}
