//! Cells: free or bound, followed, bound, undone, and the inner check.
//!
//! A bound cell holds a term of the file with the cells its variables are
//! counted from, so a value is never copied and values share their parts.

use crate::rules::{Applied, Term, TermNumber, Terms};

/// The number of a cell.
#[derive(Clone, Copy, Debug, PartialEq, Eq, PartialOrd, Ord)]
pub struct CellNumber(pub u32);

/// A term of the file with the cells its variables are counted from.
#[derive(Clone, Copy, Debug)]
pub struct Value {
    pub term: TermNumber,
    pub base: CellNumber,
}

impl Value {
    /// The value that stands so many places to the right of this one.
    #[inline(always)]
    pub fn beside(self, places: u32) -> Value {
        Value {
            term: TermNumber(self.term.0 + places),
            base: self.base,
        }
    }
}

/// A cell, free or bound. A free one names a term that no file has.
#[derive(Clone, Copy, Debug)]
struct Cell(Value);

impl Cell {
    const FREE: Cell = Cell(Value {
        term: TermNumber(u32::MAX),
        base: CellNumber(0),
    });

    #[inline(always)]
    fn bound(self) -> Option<Value> {
        (self.0.term.0 != u32::MAX).then_some(self.0)
    }
}

/// What stands at the end of a chain of bound variables.
#[derive(Clone, Copy, Debug)]
pub enum Found<'a> {
    Free(CellNumber),
    Applied(&'a Applied),
}

/// How far cells and bindings had grown at some moment.
#[derive(Clone, Copy, Debug, Default)]
pub struct Mark {
    pub cells: u32,
    bindings: u32,
}

/// The taken cells and the bindings made in them.
#[derive(Debug, Default)]
pub struct Cells {
    /// The cells; those that are not taken are free.
    cells: Vec<Cell>,
    /// The bound cells, in the order in which they were bound.
    trail: Vec<CellNumber>,
    now: Mark,
    check: InnerCheck,
}

/// The memory of the inner check.
#[derive(Debug, Default)]
struct InnerCheck {
    /// A cell is visited in this check if its mark is the check's number.
    marks: Vec<u64>,
    number: u64,
    to_visit: Vec<Value>,
}

impl Cells {
    pub fn clear(&mut self) {
        self.back_to(Mark::default());
    }

    #[inline(always)]
    pub fn taken(&self) -> u32 {
        self.now.cells
    }

    /// Takes so many fresh cells, all free.
    #[inline(always)]
    pub fn take(&mut self, count: u8) {
        self.now.cells += count as u32;
        if self.now.cells as usize > self.cells.len() {
            self.grow();
        }
    }

    /// Twice the cells that are taken; each may be bound once.
    #[cold]
    #[inline(never)]
    fn grow(&mut self) {
        let cells = 2 * self.now.cells as usize;
        self.cells.resize(cells, Cell::FREE);
        self.trail.resize(cells, CellNumber(0));
    }

    #[inline(always)]
    pub fn mark(&self) -> Mark {
        self.now
    }

    /// Goes back: bindings made since the mark are undone, cells taken since
    /// are free again.
    #[inline(always)]
    pub fn back_to(&mut self, mark: Mark) {
        let since = mark.bindings as usize..self.now.bindings as usize;
        for cell in &self.trail[since] {
            self.cells[cell.0 as usize] = Cell::FREE;
        }
        self.now = mark;
    }

    /// Follows bound variables to a free one or to a function applied.
    #[inline(always)]
    pub fn follow<'a>(&self, terms: &'a Terms, mut value: Value) -> (Value, Found<'a>) {
        loop {
            match terms.term(value.term) {
                Term::Applied(applied) => return (value, Found::Applied(applied)),
                Term::Variable(variable) => {
                    let cell = CellNumber(value.base.0 + *variable as u32);
                    match self.cells[cell.0 as usize].bound() {
                        Some(next) => value = next,
                        None => return (value, Found::Free(cell)),
                    }
                }
            }
        }
    }

    /// Binds a free cell.
    #[inline(always)]
    pub fn bind(&mut self, cell: CellNumber, value: Value) {
        self.cells[cell.0 as usize] = Cell(value);
        self.trail[self.now.bindings as usize] = cell;
        self.now.bindings += 1;
    }

    /// Whether a free cell occurs inside a value, through all bindings. Each
    /// bound cell is visited at most once, however often values share it.
    pub fn occurs(&mut self, terms: &Terms, cell: CellNumber, mut value: Value) -> bool {
        if terms.variables(value.term) == 0 {
            return false;
        }
        let check = &mut self.check;
        check.begin(self.now.cells as usize);
        loop {
            let mut variables = terms.variables(value.term);
            while variables != 0 {
                let inner = CellNumber(value.base.0 + variables.trailing_zeros());
                variables &= variables - 1;
                if inner == cell {
                    return true;
                }
                if let Some(bound) = self.cells[inner.0 as usize].bound() {
                    check.visit(inner, bound);
                }
            }
            match check.to_visit.pop() {
                Some(next) => value = next,
                None => return false,
            }
        }
    }
}

impl InnerCheck {
    #[inline(always)]
    fn begin(&mut self, cells: usize) {
        self.number += 1;
        self.to_visit.clear();
        if self.marks.len() < cells {
            self.marks.resize(cells, 0);
        }
    }

    #[inline(always)]
    fn visit(&mut self, cell: CellNumber, value: Value) {
        let mark = &mut self.marks[cell.0 as usize];
        if *mark != self.number {
            *mark = self.number;
            self.to_visit.push(value);
        }
    }
}
