//! Completeness, without search and without the machine's matching.
//!
//! All step lists are listed in dictionary order up to some length. Each is
//! decided by collecting the equations it asks for and solving them at once,
//! over terms as trees. A list that has a solution is a proof, and its most
//! general values are the answer.

mod common;

use common::*;
use second::assemble::{variables, Program, Tree, TreeGoal};
use second::call::{Limits, Outcome};
use second::cases::answer;
use second::random::Random;
use second::random_programs::{add_cuts, random_program, Size, SMALL};

/// A proof: its step list, and the answer's bytes.
#[derive(Debug, PartialEq)]
struct Proof {
    steps: Vec<u16>,
    bytes: Vec<u8>,
}

type Equation = (Tree, Tree);

/// Replaces variables by trees.
type Substitution = Vec<(usize, Tree)>;

fn renamed(tree: &Tree, offset: usize) -> Tree {
    match tree {
        Tree::Variable(variable) => Tree::Variable(variable + offset),
        Tree::Applied(function, arguments) => {
            let inner = arguments.iter().map(|term| renamed(term, offset));
            Tree::Applied(*function, inner.collect())
        }
    }
}

fn replaced(tree: &Tree, variable: usize, by: &Tree) -> Tree {
    match tree {
        Tree::Variable(other) if *other == variable => by.clone(),
        Tree::Variable(_) => tree.clone(),
        Tree::Applied(function, arguments) => {
            let inner = arguments.iter().map(|term| replaced(term, variable, by));
            Tree::Applied(*function, inner.collect())
        }
    }
}

fn has(tree: &Tree, variable: usize) -> bool {
    let mut list = Vec::new();
    tree.add_variables(&mut list);
    list.contains(&variable)
}

/// Solves equations by replacing one variable everywhere, again and again.
fn solved(mut equations: Vec<Equation>) -> Option<Substitution> {
    let mut solution: Substitution = Vec::new();
    while let Some(equation) = equations.pop() {
        match equation {
            (one, other) if one == other => {}
            (Tree::Variable(variable), tree) | (tree, Tree::Variable(variable)) => {
                if has(&tree, variable) {
                    return None;
                }
                for (one, other) in &mut equations {
                    *one = replaced(one, variable, &tree);
                    *other = replaced(other, variable, &tree);
                }
                for (_, value) in &mut solution {
                    *value = replaced(value, variable, &tree);
                }
                solution.push((variable, tree));
            }
            (Tree::Applied(f, arguments), Tree::Applied(g, others)) => {
                if f != g {
                    return None;
                }
                equations.extend(arguments.into_iter().zip(others));
            }
        }
    }
    Some(solution)
}

/// All step lists of a program, up to a length.
struct Lists<'a> {
    program: &'a Program,
    longest: usize,
    /// How many lists may still be looked at.
    patience: usize,
    proofs: Vec<Proof>,
}

/// Each use of a clause has this many variables to itself.
const APART: usize = 100;

impl Lists<'_> {
    /// Lists the ways to go on from these steps; false if there are too many.
    fn extend(&mut self, open: &[TreeGoal], steps: &[u16], equations: &[Equation]) -> bool {
        if self.patience == 0 {
            return false;
        }
        self.patience -= 1;
        let Some((TreeGoal::Call(predicate, arguments), behind)) = open.split_first() else {
            self.decide(steps, equations);
            return true;
        };
        if steps.len() == self.longest {
            return true;
        }
        let offset = APART * (steps.len() + 1);
        let clauses = self.program.clauses.iter().enumerate();
        clauses
            .filter(|(_, clause)| clause.predicate == *predicate)
            .all(|(number, clause)| {
                let mut equations = equations.to_vec();
                let head = clause.head.iter().map(|term| renamed(term, offset));
                equations.extend(arguments.iter().cloned().zip(head));
                let mut goals: Vec<_> = clause
                    .body
                    .iter()
                    .map(|g| renamed_goal(g, offset))
                    .collect();
                goals.extend_from_slice(behind);
                let mut steps = steps.to_vec();
                steps.push(number as u16);
                self.extend(&goals, &steps, &equations)
            })
    }

    fn decide(&mut self, steps: &[u16], equations: &[Equation]) {
        if let Some(solution) = solved(equations.to_vec()) {
            let steps = steps.to_vec();
            let bytes = answered(&self.program.query, &steps, &solution);
            self.proofs.push(Proof { steps, bytes });
        }
    }
}

fn renamed_goal(goal: &TreeGoal, offset: usize) -> TreeGoal {
    match goal {
        TreeGoal::Cut => TreeGoal::Cut,
        TreeGoal::Call(predicate, arguments) => TreeGoal::Call(
            *predicate,
            arguments.iter().map(|t| renamed(t, offset)).collect(),
        ),
    }
}

/// The bytes of the answer to a query.
fn answered(query: &[TreeGoal], steps: &[u16], solution: &Substitution) -> Vec<u8> {
    let mut free = Vec::new();
    let mut values = Vec::new();
    for variable in variables(&[], query) {
        let value = solution.iter().find(|(solved, _)| *solved == variable);
        let value = value.map_or(Tree::Variable(variable), |(_, tree)| tree.clone());
        write(&value, &mut free, &mut values);
    }
    answer(free.len() as u16, &values, steps)
}

fn write(value: &Tree, free: &mut Vec<usize>, bytes: &mut Vec<u8>) {
    match value {
        Tree::Applied(function, arguments) => {
            bytes.push(0x05);
            bytes.extend(function.to_be_bytes());
            arguments.iter().for_each(|term| write(term, free, bytes));
        }
        Tree::Variable(variable) => {
            let known = free.iter().position(|seen| seen == variable);
            let number = known.unwrap_or_else(|| {
                free.push(*variable);
                free.len() - 1
            });
            bytes.push(0x0B);
            bytes.extend((number as u16).to_be_bytes());
        }
    }
}

/// The proofs of a program up to a length, or nothing if they are too many to
/// look at.
fn proofs(program: &Program, longest: usize) -> Option<Vec<Proof>> {
    let mut lists = Lists {
        program,
        longest,
        patience: 3_000,
        proofs: Vec::new(),
    };
    let all = lists.extend(&program.query, &[], &[]);
    all.then_some(lists.proofs)
}

/// What the machine lists, and the end of its run.
fn listed(program: &Program) -> (u32, Vec<Proof>) {
    let limits = Limits {
        cells: 5_000,
        steps: 2_000,
        work: 2_000,
    };
    let settings = Settings {
        limits,
        budget: 3_000,
        wanted: 500,
        room: 20_000,
    };
    let (outcome, mut out) = run(&program.bytes(), settings);
    let Outcome::Ended { end, .. } = outcome else {
        panic!("{outcome:?}");
    };
    let mut answers = Vec::new();
    for steps in step_lists(&out) {
        let size = answer_size(&out);
        let rest = out.split_off(size);
        answers.push(Proof { steps, bytes: out });
        out = rest;
    }
    (end, answers)
}

/// The size of the first answer: its end is the first record 0D.
fn answer_size(out: &[u8]) -> usize {
    let mut at = 5;
    while out[at] != 0x0D {
        at += 3;
    }
    at + 1
}

const LONGEST: usize = 7;

fn short(mut proofs: Vec<Proof>) -> Vec<Proof> {
    proofs.retain(|proof| proof.steps.len() <= LONGEST);
    proofs
}

const TINY: Size = Size {
    clauses: 6,
    goals: 2,
    variables: 3,
    arity: 2,
    ..SMALL
};

#[test]
fn without_cuts_all_proofs_are_listed_in_dictionary_order() {
    let (mut compared, mut with_answers, mut with_free) = (0, 0, 0);
    for seed in 0..20_000 {
        let size = if seed % 2 == 0 { TINY } else { SMALL };
        let program = random_program(&mut Random::new(seed), size);
        let (20, listed) = listed(&program) else {
            continue;
        };
        let Some(expected) = proofs(&program, LONGEST) else {
            continue;
        };
        compared += 1;
        with_answers += usize::from(expected.len() > 1);
        with_free += usize::from(expected.iter().any(|proof| proof.bytes[2] > 0));
        assert!(expected.windows(2).all(|two| two[0].steps < two[1].steps));
        assert_eq!(short(listed), expected, "seed {seed}: {program:?}");
    }
    assert!(compared > 5_000, "{compared}");
    assert!(with_answers > 500, "{with_answers}");
    assert!(with_free > 500, "{with_free}");
}

#[test]
fn whatever_the_end_each_answer_is_a_proof() {
    let mut stopped = 0;
    for seed in 0..5_000 {
        let program = random_program(&mut Random::new(seed), SMALL);
        let (end, listed) = listed(&program);
        let Some(expected) = proofs(&program, LONGEST) else {
            continue;
        };
        stopped += usize::from(end != 20 && !listed.is_empty());
        assert!(short(listed).iter().all(|proof| expected.contains(proof)));
    }
    assert!(stopped > 50, "{stopped}");
}

#[test]
fn with_cuts_each_answer_is_a_proof_of_the_rules_without_them() {
    let (mut fewer, mut all) = (0, 0);
    for seed in 0..10_000 {
        let mut random = Random::new(seed);
        let mut program = random_program(&mut random, TINY);
        add_cuts(&mut random, &mut program);
        let (end, listed) = listed(&program);
        let Some(expected) = proofs(&program.without_cuts(), LONGEST) else {
            continue;
        };
        assert!(listed.windows(2).all(|two| two[0].steps < two[1].steps));
        let listed = short(listed);
        assert!(
            listed.iter().all(|proof| expected.contains(proof)),
            "seed {seed}"
        );
        if end == 20 {
            fewer += usize::from(listed.len() < expected.len());
            all += usize::from(listed.len() == expected.len());
        }
    }
    assert!(fewer > 100, "{fewer}");
    assert!(all > 100, "{all}");
}

#[test]
fn a_cut_in_the_query_keeps_the_first_proof_of_the_goals_before_it() {
    let (mut fewer, mut all) = (0, 0);
    for seed in 0..20_000 {
        let mut random = Random::new(seed);
        let mut program = random_program(&mut random, TINY);
        let Some(mut expected) = proofs(&program, LONGEST) else {
            continue;
        };
        let at = random.between(0, program.query.len());
        let mut before = program.clone();
        before.query.truncate(at);
        program.query.insert(at, TreeGoal::Cut);
        let ((20, found), (20, listed)) = (listed(&before), listed(&program)) else {
            continue;
        };
        let Some(first) = proofs(&before, LONGEST) else {
            continue;
        };
        if found.len() > first.len() {
            continue; // some are too long for this test, maybe the first
        }
        let without = expected.len();
        let first = first.first().map(|proof| &proof.steps);
        expected.retain(|proof| first.is_some_and(|first| proof.steps.starts_with(first)));
        assert_eq!(short(listed), expected, "seed {seed}: {program:?}");
        fewer += usize::from(expected.len() < without);
        all += usize::from(expected.len() == without && without > 1);
    }
    assert!(fewer > 1_500, "{fewer}");
    assert!(all > 1_000, "{all}");
}
