//! Writing an answer: one term for each query variable, one record for each
//! step of the derivation. An answer that does not fit leaves no byte.

use crate::cells::{CellNumber, Cells, Found, Value};
use crate::end::End;
use crate::machine::{Step, Watch};
use crate::record::{size, ANSWER, ANSWER_END, ANSWER_VARIABLE, APPLIED, STEP};
use crate::rules::{Applied, Rules, TermNumber};

/// A derivation without open goals: what an answer tells of.
pub struct Derivation<'a> {
    pub rules: &'a Rules,
    pub cells: &'a Cells,
    pub steps: &'a [Step],
}

/// The memory of the writer.
#[derive(Debug, Default)]
pub struct Writer {
    /// The answer so far; never longer than the room left.
    draft: Vec<u8>,
    room: usize,
    /// W: how many nodes of a value may be due.
    work: u32,
    /// The rows of nodes due behind the front row.
    behind: Vec<Row>,
    free: FreeVariables,
}

/// So many nodes, side by side.
#[derive(Clone, Copy, Debug)]
struct Row {
    first: Value,
    nodes: u32,
}

impl Writer {
    /// Writes an answer into the front of the unused output. Gives its size,
    /// or end 26 or 25, whichever comes first in written order.
    pub fn write(
        &mut self,
        derivation: &Derivation,
        work: u32,
        unused: &mut [u8],
        watch: &mut impl Watch,
    ) -> Result<usize, End> {
        self.begin(derivation, work, unused.len());
        self.record(ANSWER, &[0; 4])?;
        let query = derivation.rules.query;
        for variable in 0..query.variables {
            let term = TermNumber(query.shown.0 + variable as u32);
            let base = CellNumber(0);
            self.value(derivation, Value { term, base }, watch)?;
        }
        for step in derivation.steps {
            self.record(STEP, &step.clause.0.to_be_bytes())?;
        }
        self.record(ANSWER_END, &[])?;
        let steps = derivation.steps.len() as u16;
        self.draft[1..3].copy_from_slice(&self.free.count.to_be_bytes());
        self.draft[3..5].copy_from_slice(&steps.to_be_bytes());
        unused[..self.draft.len()].copy_from_slice(&self.draft);
        Ok(self.draft.len())
    }

    fn begin(&mut self, derivation: &Derivation, work: u32, room: usize) {
        self.draft.clear();
        self.room = room;
        self.work = work;
        self.free.begin(derivation.cells.taken() as usize);
    }

    /// One record: end 26 if the answer's size passes the room left.
    #[inline(always)]
    fn record(&mut self, kind: u8, body: &[u8]) -> Result<(), End> {
        if self.draft.len() + size(kind) > self.room {
            return Err(End::OutputFull);
        }
        self.draft.push(kind);
        self.draft.extend_from_slice(body);
        Ok(())
    }

    /// A value, front first: a node's record, then its arguments are due. End
    /// 25 if the nodes due exceed W.
    fn value(
        &mut self,
        derivation: &Derivation,
        value: Value,
        watch: &mut impl Watch,
    ) -> Result<(), End> {
        let terms = &derivation.rules.terms;
        let mut front = Row {
            first: value,
            nodes: 1,
        };
        let mut due = 1;
        self.behind.clear();
        loop {
            if front.nodes == 0 {
                match self.behind.pop() {
                    Some(row) => front = row,
                    None => return Ok(()),
                }
            }
            let (value, found) = derivation.cells.follow(terms, front.first);
            front = front.without_first();
            due -= 1;
            match found {
                Found::Free(cell) => self.free_variable(cell)?,
                Found::Applied(applied) => {
                    self.record(APPLIED, &applied.function.to_be_bytes())?;
                    due += applied.arity as u32;
                    watch.work(due);
                    if due > self.work {
                        return Err(End::Work);
                    }
                    self.behind.extend((front.nodes > 0).then_some(front));
                    front = Row::arguments(applied, value.base);
                }
            }
        }
    }

    fn free_variable(&mut self, cell: CellNumber) -> Result<(), End> {
        let number = self.free.number(cell);
        self.record(ANSWER_VARIABLE, &number.to_be_bytes())
    }
}

impl Row {
    fn arguments(applied: &Applied, base: CellNumber) -> Row {
        Row {
            first: Value {
                term: applied.arguments,
                base,
            },
            nodes: applied.arity as u32,
        }
    }

    fn without_first(self) -> Row {
        Row {
            first: self.first.beside(1),
            nodes: self.nodes - 1,
        }
    }
}

/// The free variables of an answer, numbered by first appearance.
#[derive(Debug, Default)]
struct FreeVariables {
    count: u16,
    /// A cell's number counts if the answer's own number stands beside it.
    numbers: Vec<(u64, u16)>,
    answer: u64,
}

impl FreeVariables {
    fn begin(&mut self, cells: usize) {
        self.count = 0;
        self.answer += 1;
        if self.numbers.len() < cells {
            self.numbers.resize(cells, (0, 0));
        }
    }

    fn number(&mut self, cell: CellNumber) -> u16 {
        let (answer, number) = &mut self.numbers[cell.0 as usize];
        if *answer != self.answer {
            *answer = self.answer;
            *number = self.count;
            self.count += 1;
        }
        *number
    }
}
