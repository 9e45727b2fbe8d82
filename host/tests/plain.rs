//! The moves of document 01 as plainly as they can be written: every choice
//! keeps a whole copy, bindings are a list of trees, nothing is undone.
//! Compared with the machine at every kind of stop.

mod common;

use std::collections::{HashSet, VecDeque};

use common::*;
use second::assemble::{program, variables, Program, Tree, TreeClause, TreeGoal};
use second::call::{Limits, Outcome};
use second::examples;
use second::random::Random;
use second::random_programs::*;

/// An open goal, and how many choices a cut there leaves.
type Open = (TreeGoal, usize);

#[derive(Clone)]
struct State {
    open: VecDeque<Open>,
    cells: Vec<Option<Tree>>,
    steps: Vec<u16>,
}

struct Plain<'a> {
    program: &'a Program,
    settings: Settings,
    units: u32,
    answers: u32,
    out: Vec<u8>,
    /// States with the clause from which to go on.
    choices: Vec<(State, usize)>,
}

fn use_of(tree: &Tree, names: &[usize], base: usize) -> Tree {
    match tree {
        Tree::Variable(variable) => {
            Tree::Variable(base + names.iter().position(|name| name == variable).unwrap())
        }
        Tree::Applied(function, arguments) => {
            Tree::Applied(*function, use_of_all(arguments, names, base))
        }
    }
}

fn use_of_all(trees: &[Tree], names: &[usize], base: usize) -> Vec<Tree> {
    trees.iter().map(|tree| use_of(tree, names, base)).collect()
}

fn use_of_goal(goal: &TreeGoal, names: &[usize], base: usize) -> TreeGoal {
    match goal {
        TreeGoal::Cut => TreeGoal::Cut,
        TreeGoal::Call(predicate, arguments) => {
            TreeGoal::Call(*predicate, use_of_all(arguments, names, base))
        }
    }
}

impl State {
    fn followed(&self, tree: &Tree) -> Tree {
        match tree {
            Tree::Variable(cell) => match &self.cells[*cell] {
                Some(value) => self.followed(value),
                None => tree.clone(),
            },
            _ => tree.clone(),
        }
    }

    fn inside(&self, cell: usize, tree: &Tree, seen: &mut HashSet<usize>) -> bool {
        match tree {
            Tree::Variable(other) if *other == cell => true,
            Tree::Variable(other) => match &self.cells[*other] {
                Some(value) if seen.insert(*other) => self.inside(cell, value, seen),
                _ => false,
            },
            Tree::Applied(_, arguments) => arguments.iter().any(|t| self.inside(cell, t, seen)),
        }
    }

    /// Whether the variable could take the value.
    fn bound(&mut self, cell: usize, value: Tree) -> bool {
        let good = !self.inside(cell, &value, &mut HashSet::new());
        self.cells[cell] = Some(value);
        good
    }
}

impl Plain<'_> {
    fn spend(&mut self) -> Result<(), u32> {
        if self.units == self.settings.budget {
            return Err(22);
        }
        self.units += 1;
        Ok(())
    }

    fn run(&mut self) -> Result<(), u32> {
        if self.settings.wanted == 0 {
            return Err(21);
        }
        let names = variables(&[], &self.program.query);
        if names.len() > self.settings.limits.cells as usize {
            return Err(23);
        }
        let goals = self.program.query.iter();
        let mut state = State {
            open: goals
                .map(|goal| (use_of_goal(goal, &names, 0), 0))
                .collect(),
            cells: vec![None; names.len()],
            steps: Vec::new(),
        };
        let mut from = 0;
        loop {
            let next = match state.open.front().cloned() {
                None => {
                    self.answer(&state, names.len())?;
                    None
                }
                Some((TreeGoal::Cut, barrier)) => {
                    self.spend()?;
                    self.choices.truncate(barrier);
                    state.open.pop_front();
                    Some(state)
                }
                Some((TreeGoal::Call(predicate, arguments), _)) => {
                    self.tries(&state, predicate, &arguments, from)?
                }
            };
            (state, from) = match next {
                Some(state) => (state, 0),
                None => self.choices.pop().ok_or(20_u32)?,
            };
        }
    }

    /// The state after the first clause that matches, from this one on.
    fn tries(
        &mut self,
        state: &State,
        predicate: u16,
        arguments: &[Tree],
        from: usize,
    ) -> Result<Option<State>, u32> {
        let program = self.program;
        for (number, clause) in program.clauses.iter().enumerate().skip(from) {
            if clause.predicate != predicate {
                continue;
            }
            if let Some(mut next) = self.trial(state, arguments, clause)? {
                next.steps.push(number as u16);
                self.choices.push((state.clone(), number + 1));
                return Ok(Some(next));
            }
        }
        Ok(None)
    }

    fn trial(
        &mut self,
        state: &State,
        arguments: &[Tree],
        clause: &TreeClause,
    ) -> Result<Option<State>, u32> {
        self.spend()?;
        let names = variables(&clause.head, &clause.body);
        let base = state.cells.len();
        if base + names.len() > self.settings.limits.cells as usize {
            return Err(23);
        }
        if state.steps.len() + 1 > self.settings.limits.steps as usize {
            return Err(24);
        }
        let mut next = state.clone();
        next.cells.resize(base + names.len(), None);
        let head = use_of_all(&clause.head, &names, base);
        let pairs = arguments.iter().cloned().zip(head).collect();
        if !self.matched(&mut next, pairs)? {
            return Ok(None);
        }
        next.open.pop_front();
        let barrier = self.choices.len();
        for goal in clause.body.iter().rev() {
            next.open
                .push_front((use_of_goal(goal, &names, base), barrier));
        }
        Ok(Some(next))
    }

    fn matched(
        &mut self,
        state: &mut State,
        mut pairs: VecDeque<(Tree, Tree)>,
    ) -> Result<bool, u32> {
        while let Some((goal, head)) = pairs.front().cloned() {
            self.spend()?;
            pairs.pop_front();
            let same = match (state.followed(&goal), state.followed(&head)) {
                (Tree::Variable(one), Tree::Variable(other)) if one == other => true,
                (value, Tree::Variable(cell)) | (Tree::Variable(cell), value) => {
                    state.bound(cell, value)
                }
                (Tree::Applied(f, goals), Tree::Applied(g, heads)) => {
                    if f == g {
                        for pair in goals.into_iter().zip(heads).rev() {
                            pairs.push_front(pair);
                        }
                    }
                    f == g
                }
            };
            if !same {
                return Ok(false);
            }
            if pairs.len() > self.settings.limits.work as usize {
                return Err(25);
            }
        }
        Ok(true)
    }

    fn answer(&mut self, state: &State, shown: usize) -> Result<(), u32> {
        let room = self.settings.room - self.out.len();
        let mut text = Text {
            bytes: Vec::new(),
            room,
            free: Vec::new(),
        };
        text.record(0x0A, &[0; 4])?;
        for cell in 0..shown {
            let work = self.settings.limits.work as usize;
            text.value(state, Tree::Variable(cell), work)?;
        }
        for step in &state.steps {
            text.record(0x0C, &step.to_be_bytes())?;
        }
        text.record(0x0D, &[])?;
        text.bytes[2] = text.free.len() as u8;
        text.bytes[3..5].copy_from_slice(&(state.steps.len() as u16).to_be_bytes());
        self.out.extend(text.bytes);
        self.answers += 1;
        match self.answers == self.settings.wanted {
            true => Err(21),
            false => Ok(()),
        }
    }
}

struct Text {
    bytes: Vec<u8>,
    room: usize,
    free: Vec<usize>,
}

impl Text {
    fn record(&mut self, kind: u8, body: &[u8]) -> Result<(), u32> {
        self.bytes.push(kind);
        self.bytes.extend(body);
        match self.bytes.len() > self.room {
            true => Err(26),
            false => Ok(()),
        }
    }

    fn value(&mut self, state: &State, value: Tree, work: usize) -> Result<(), u32> {
        let mut due = vec![value];
        while let Some(node) = due.pop() {
            match state.followed(&node) {
                Tree::Variable(cell) => {
                    if !self.free.contains(&cell) {
                        self.free.push(cell);
                    }
                    let number = self.free.iter().position(|seen| *seen == cell).unwrap();
                    self.record(0x0B, &[0, number as u8])?;
                }
                Tree::Applied(function, arguments) => {
                    self.record(0x05, &function.to_be_bytes())?;
                    due.extend(arguments.into_iter().rev());
                    if due.len() > work {
                        return Err(25);
                    }
                }
            }
        }
        Ok(())
    }
}

fn plain(program: &Program, settings: Settings) -> (Outcome, Vec<u8>) {
    let mut plain = Plain {
        program,
        settings,
        units: 0,
        answers: 0,
        out: Vec::new(),
        choices: Vec::new(),
    };
    let end = plain.run().unwrap_err();
    let Plain {
        answers,
        units,
        out,
        ..
    } = plain;
    (
        Outcome::Ended {
            end,
            answers,
            units,
            bytes: out.len(),
        },
        out,
    )
}

fn random_settings(random: &mut Random) -> Settings {
    let mut up_to = |small: usize, large: usize| match random.percent(60) {
        true => random.between(0, large),
        false => random.between(0, small),
    };
    Settings {
        limits: Limits {
            cells: 1 + up_to(12, 200) as u32,
            steps: 1 + up_to(6, 100) as u32,
            work: 8 + up_to(4, 100) as u32,
        },
        budget: up_to(60, 600) as u32,
        wanted: up_to(3, 50) as u32,
        room: up_to(60, 1_000),
    }
}

/// Programs whose shared values stay small enough for plain writing.
fn some_program(random: &mut Random) -> Program {
    let few = random.between(0, 4);
    let mut chosen = match random.below(14) {
        0 => program(&examples::split(few)),
        1 => program(&examples::naive_reverse(few)),
        2 => program(&examples::permutations(few)),
        3 => program(&examples::walks(&[(0, 1), (1, 2), (0, 2), (2, few)])),
        4 => program(&examples::numbers()),
        5 => program(&examples::shared_answer(1 + few)),
        6 => program(&examples::shared_inside_itself(1 + few)),
        7 => program(&examples::bars(few)),
        10 => program(&examples::shared_by_two(1 + few)),
        8 => wide_and_deep(random, 2 + few * 3),
        9 => random_program(random, LARGE),
        11 => meeting_variables(random),
        _ => random_program(random, SMALL),
    };
    if random.percent(50) {
        add_cuts(random, &mut chosen);
    }
    if random.percent(30) {
        shuffle_clauses(random, &mut chosen);
    }
    chosen
}

#[test]
fn the_machine_does_what_the_plain_moves_do() {
    let mut ends = [0; 27];
    for seed in 0..60_000 {
        let mut random = Random::new(seed);
        let program = some_program(&mut random);
        let settings = random_settings(&mut random);
        let expected = plain(&program, settings);
        let found = run(&program.bytes(), settings);
        assert_eq!(found, expected, "seed {seed}: {program:?}");
        if let Outcome::Ended { end, .. } = found.0 {
            ends[end as usize] += 1;
        }
    }
    assert!(ends[20..].iter().all(|&count| count > 200), "{ends:?}");
}
