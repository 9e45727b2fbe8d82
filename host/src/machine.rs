//! The run: goals are taken from the front, clauses tried in number order,
//! and failure goes back to the latest goal with untried clauses.

use std::convert::Infallible;

use crate::answer::{Derivation, Writer};
use crate::call::Limits;
use crate::cells::{CellNumber, Cells, Mark, Value};
use crate::end::End;
use crate::matching::{spend, Matching, Row};
use crate::rules::{Call, Clause, ClauseNumber, Goal, Rules};

/// Sees what a run asks of its limits.
pub trait Watch {
    fn cells(&mut self, _asked: u32) {}
    fn steps(&mut self, _asked: u32) {}
    fn work(&mut self, _asked: u32) {}
    /// An answer was written: the units spent and the bytes written so far.
    fn answer(&mut self, _units: u32, _bytes: usize) {}
}

/// Sees nothing.
impl Watch for () {}

/// A step of the derivation, or, as step 0, the query itself.
#[derive(Clone, Copy, Debug)]
pub struct Step {
    pub clause: ClauseNumber,
    base: CellNumber,
    /// The choices that were open before the step's goal was called.
    choices: u32,
    /// What is open once the clause's body is done.
    then: Open,
}

/// The first open goal, and the step whose clause holds it.
#[derive(Clone, Copy, Debug)]
struct Open {
    goal: u32,
    step: u32,
}

/// A goal with untried clauses, and what to go back to.
#[derive(Clone, Copy, Debug)]
struct Choice {
    open: Open,
    untried: u32,
    steps: u32,
    mark: Mark,
}

/// The step that stands for the query.
const QUERY: u32 = 0;

/// The memory of a run. It is used again by later runs and changes no result.
#[derive(Debug, Default)]
pub struct Machine {
    cells: Cells,
    steps: Vec<Step>,
    choices: Vec<Choice>,
    rows: Vec<Row>,
    writer: Writer,
}

/// How a run ended.
#[derive(Clone, Copy, Debug, PartialEq, Eq)]
pub struct Ended {
    pub end: End,
    pub answers: u32,
    pub units: u32,
    pub bytes: usize,
}

impl Machine {
    /// Runs the query of the rules, and lets someone watch.
    pub fn run<W: Watch>(
        &mut self,
        rules: &Rules,
        limits: Limits,
        budget: u32,
        wanted: u32,
        out: &mut [u8],
        watch: &mut W,
    ) -> Ended {
        self.cells.clear();
        self.steps.clear();
        self.choices.clear();
        let mut run = Run {
            rules,
            limits,
            machine: self,
            open: Open {
                goal: rules.query.goals,
                step: QUERY,
            },
            units_left: budget,
            wanted,
            answers: 0,
            out,
            bytes: 0,
            watch,
            budget,
        };
        let Err(end) = run.search();
        Ended {
            end,
            answers: run.answers,
            units: run.units(),
            bytes: run.bytes,
        }
    }
}

/// One run under way.
struct Run<'a, W> {
    rules: &'a Rules,
    limits: Limits,
    machine: &'a mut Machine,
    open: Open,
    budget: u32,
    units_left: u32,
    wanted: u32,
    answers: u32,
    out: &'a mut [u8],
    bytes: usize,
    watch: &'a mut W,
}

impl<W: Watch> Run<'_, W> {
    /// The moves, until an end.
    fn search(&mut self) -> Result<Infallible, End> {
        self.begin()?;
        loop {
            match self.rules.goals[self.open.goal as usize] {
                Goal::Call(call) => self.call(call)?,
                Goal::Cut => self.cut()?,
                Goal::Done if self.open.step == QUERY => self.answer()?,
                Goal::Done => self.open = self.step().then,
            }
        }
    }

    /// End 21 is tested first; then the query's variables take their cells.
    fn begin(&mut self) -> Result<(), End> {
        self.enough()?;
        let query = self.rules.query;
        self.watch.cells(query.variables as u32);
        if query.variables as u32 > self.limits.cells {
            return Err(End::Cells);
        }
        self.machine.cells.take(query.variables);
        self.machine.steps.push(Step {
            clause: ClauseNumber(0),
            base: CellNumber(0),
            choices: 0,
            then: self.open,
        });
        Ok(())
    }

    fn enough(&self) -> Result<(), End> {
        if self.answers == self.wanted {
            return Err(End::WantedReached);
        }
        Ok(())
    }

    /// The step whose clause holds the first open goal.
    #[inline(always)]
    fn step(&self) -> &Step {
        &self.machine.steps[self.open.step as usize]
    }

    fn units(&self) -> u32 {
        self.budget - self.units_left
    }

    /// Calls a goal: its clauses are tried from the first.
    #[inline(always)]
    fn call(&mut self, call: Call) -> Result<(), End> {
        let first = self.rules.predicates[call.predicate as usize].first;
        if self.tries(call, first)? {
            return Ok(());
        }
        self.fail()
    }

    /// Goes back to the latest goal with untried clauses, until a head matches.
    fn fail(&mut self) -> Result<(), End> {
        while let Some(choice) = self.machine.choices.pop() {
            self.machine.cells.back_to(choice.mark);
            self.machine.steps.truncate(choice.steps as usize);
            self.open = choice.open;
            if let Goal::Call(call) = self.rules.goals[choice.open.goal as usize] {
                if self.tries(call, choice.untried)? {
                    return Ok(());
                }
            }
        }
        Err(End::NoMoreAnswers)
    }

    /// Tries the goal's clauses in number order, from this one on. At the
    /// first match the derivation gains a step, and the untried are a choice.
    #[inline(always)]
    fn tries(&mut self, call: Call, first: u32) -> Result<bool, End> {
        let rules = self.rules;
        let after = rules.predicates[call.predicate as usize].after;
        let mark = self.machine.cells.mark();
        for tried in first..after {
            let clause = &rules.clauses[tried as usize];
            if self.trial(call, clause)? {
                let choices = self.machine.choices.len() as u32;
                if tried + 1 < after {
                    self.machine.choices.push(Choice {
                        open: self.open,
                        untried: tried + 1,
                        steps: self.machine.steps.len() as u32,
                        mark,
                    });
                }
                self.enter(clause, CellNumber(mark.cells), choices);
                return Ok(true);
            }
            self.machine.cells.back_to(mark);
        }
        Ok(false)
    }

    /// Tries a head: one unit, the cells, the step, then the arguments.
    #[inline(always)]
    fn trial(&mut self, call: Call, clause: &Clause) -> Result<bool, End> {
        spend(&mut self.units_left)?;
        let fresh = self.machine.cells.taken();
        let cells = fresh + clause.variables as u32;
        self.watch.cells(cells);
        if cells > self.limits.cells {
            return Err(End::Cells);
        }
        let steps = self.machine.steps.len() as u32;
        self.watch.steps(steps);
        if steps > self.limits.steps {
            return Err(End::Steps);
        }
        let base = self.step().base;
        let fresh = CellNumber(fresh);
        self.machine.cells.take(clause.variables);
        let mut matching = Matching {
            terms: &self.rules.terms,
            cells: &mut self.machine.cells,
            behind: &mut self.machine.rows,
            fresh,
            older_bound: false,
            units_left: self.units_left,
            work: self.limits.work,
            watch: self.watch,
        };
        let matched = matching.run(Row {
            goal: Value {
                term: call.arguments,
                base,
            },
            head: Value {
                term: clause.head,
                base: fresh,
            },
            pairs: clause.arity as u32,
        });
        self.units_left = matching.units_left;
        matched
    }

    /// Puts the goals of the clause's body in front of the open ones.
    #[inline(always)]
    fn enter(&mut self, clause: &Clause, base: CellNumber, choices: u32) {
        let step = self.machine.steps.len() as u32;
        let then = self.after_this_goal();
        self.machine.steps.push(Step {
            clause: clause.number,
            base,
            choices,
            then,
        });
        self.open = Open {
            goal: clause.body,
            step,
        };
    }

    /// What is open behind the first open goal. A body that ends with this
    /// goal is passed over, so that a long chain of last goals stays short.
    #[inline(always)]
    fn after_this_goal(&self) -> Open {
        let Open { goal, step } = self.open;
        let done = matches!(self.rules.goals[goal as usize + 1], Goal::Done);
        if done && step != QUERY {
            self.step().then
        } else {
            Open {
                goal: goal + 1,
                step,
            }
        }
    }

    /// A cut drops the untried clauses of the goal whose clause holds it, and
    /// of every goal called since; in the query those of every goal.
    fn cut(&mut self) -> Result<(), End> {
        spend(&mut self.units_left)?;
        let choices = self.step().choices as usize;
        self.machine.choices.truncate(choices);
        self.open.goal += 1;
        Ok(())
    }

    /// No open goal: an answer is written, then the machine fails on purpose.
    #[inline(never)]
    fn answer(&mut self) -> Result<(), End> {
        let machine = &mut *self.machine;
        let derivation = Derivation {
            rules: self.rules,
            cells: &machine.cells,
            steps: &machine.steps[1..],
        };
        let unused = &mut self.out[self.bytes..];
        let work = self.limits.work;
        self.bytes += machine
            .writer
            .write(&derivation, work, unused, self.watch)?;
        self.answers += 1;
        self.watch.answer(self.units(), self.bytes);
        self.enough()?;
        self.fail()
    }
}
