//! The generator: the same case for the same seed, and every end and refusal,
//! large rule sets and cuts in queries often enough.

mod common;

use std::collections::HashSet;

use common::*;
use second::call::{Case, Memory, Outcome};
use second::damage::{counts, places};
use second::generate::case;
use second::record::{CLAUSE, CUT, QUERY};

#[test]
fn a_seed_gives_one_case_and_other_seeds_others() {
    let mut files = HashSet::new();
    for seed in 0..2_000 {
        assert_eq!(case(seed), case(seed));
        files.insert(case(seed).file);
    }
    assert!(files.len() > 1_200, "{}", files.len());
}

#[test]
fn every_end_and_every_refusal_comes_often() {
    let mut memory = Memory::default();
    let mut counts = [0; 27];
    for seed in 0..50_000 {
        let case = case(seed);
        let mut scratch = vec![1; case.scratch_len];
        let mut out = vec![1; case.room];
        let [number, ..] = case.call(&mut memory, &mut scratch, &mut out).words();
        counts[number as usize] += 1;
    }
    for number in (1..=9).chain(20..=26) {
        assert!(counts[number] >= 100, "{number}: {counts:?}");
    }
}

/// How often a good file has more of something than document 01 allowed.
#[derive(Debug, Default)]
struct Larger {
    /// Its run takes a unit at least.
    runs: usize,
    /// What is more stands in an answer.
    answers: usize,
}

impl Larger {
    fn add(&mut self, runs: bool, answers: bool) {
        self.runs += usize::from(runs);
        self.answers += usize::from(runs && answers);
    }
}

#[test]
fn larger_rule_sets_than_document_01_allowed_are_run() {
    let (mut clauses, mut in_clause, mut in_query) = <(Larger, Larger, Larger)>::default();
    for seed in 0..50_000 {
        let case = case(seed);
        let (Outcome::Ended { units: 1.., .. }, out) = called(&case) else {
            continue;
        };
        let counts = counts(&case.file);
        let mut places = places(&case.file);
        places.retain(|&place| case.file[place] == CLAUSE);
        let variables = |step: u16| case.file[places[step as usize] + 3];
        let steps = step_lists(&out).concat();
        let late_step = steps.iter().any(|&step| step >= 4_096);
        let large_step = steps.iter().any(|&step| variables(step) > 32);
        clauses.add(counts.clauses > 4_096, late_step);
        in_clause.add(counts.clause_variables > 32, large_step);
        in_query.add(counts.query_variables > 32, !out.is_empty());
    }
    for (larger, runs, answers) in [
        (clauses, 120, 25),
        (in_clause, 500, 35),
        (in_query, 600, 110),
    ] {
        assert!(larger.runs >= runs, "{larger:?}");
        assert!(larger.answers >= answers, "{larger:?}");
    }
}

/// The file with the cuts of its query left out, if there are any.
fn without_query_cuts(file: &[u8]) -> Option<Vec<u8>> {
    let places = places(file);
    let query = places.iter().position(|&place| file[place] == QUERY)?;
    let (query, goals) = (places[query], &places[query + 1..]);
    let mut shorter = file.to_vec();
    for &goal in goals.iter().rev().filter(|&&goal| file[goal] == CUT) {
        shorter.remove(goal);
        shorter[query + 2] -= 1;
    }
    (shorter.len() < file.len()).then_some(shorter)
}

#[test]
fn cuts_in_queries_are_made_and_drop_answers() {
    let (mut made, mut dropped, mut none_dropped) = (0, 0, 0);
    for seed in 0..50_000 {
        let case = case(seed);
        let (Outcome::Ended { units: 1.., .. }, _) = called(&case) else {
            continue;
        };
        let Some(without) = without_query_cuts(&case.file) else {
            continue;
        };
        made += 1;
        let (outcome, out) = run(&case.file, SETTINGS);
        let (_, all) = run(&without, SETTINGS);
        if matches!(outcome, Outcome::Ended { end: 20, .. }) {
            dropped += usize::from(all.len() > out.len());
            none_dropped += usize::from(all == out);
        }
    }
    assert!(made >= 3_000, "{made}");
    assert!(dropped >= 500, "{dropped}");
    assert!(none_dropped >= 2_000, "{none_dropped}");
}

#[test]
fn many_budgets_stand_one_below_a_threshold() {
    // With one unit more the end changes.
    let mut memory = Memory::default();
    let mut changes = 0;
    for seed in 0..5_000 {
        let mut case = case(seed);
        let mut scratch = vec![1; case.scratch_len];
        let mut out = vec![1; case.room];
        let mut ending = |case: &Case| case.call(&mut memory, &mut scratch, &mut out);
        if let Outcome::Ended { end: 22, .. } = ending(&case) {
            case.budget += 1;
            let more = ending(&case);
            changes += usize::from(!matches!(more, Outcome::Ended { end: 22, .. }));
        }
    }
    assert!(changes >= 50, "{changes}");
}
