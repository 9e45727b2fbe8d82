//! Damaged rule files, and files at and beyond each limit.

use crate::assemble::{program, Program, Tree, TreeClause, TreeGoal};
use crate::call::FILE;
use crate::random::Random;
use crate::reading::{ARITY, CLAUSES, FUNCTIONS, GOALS, LEVELS, PREDICATES, VARIABLES};
use crate::record::*;

/// The places of the records of a file, as far as its kinds are known.
pub fn places(file: &[u8]) -> Vec<usize> {
    let mut places = Vec::new();
    let mut at = 0;
    while at < file.len() && (file[at] as usize) < BODY.len() {
        places.push(at);
        at += size(file[at]);
    }
    places
}

/// How large a rule set is.
#[derive(Clone, Copy, Debug, Default)]
pub struct Counts {
    pub clauses: usize,
    /// The most that a clause declares.
    pub clause_variables: u8,
    pub query_variables: u8,
}

/// What the records of a file say, whether it is good or not.
pub fn counts(file: &[u8]) -> Counts {
    let mut counts = Counts::default();
    for place in places(file) {
        match file[record(file, place)] {
            [CLAUSE, _, _, variables, _] => {
                counts.clauses += 1;
                counts.clause_variables = counts.clause_variables.max(variables);
            }
            [QUERY, variables, _] => counts.query_variables = variables,
            _ => {}
        }
    }
    counts
}

/// One random damage.
pub fn damage(random: &mut Random, file: &mut Vec<u8>) {
    if file.is_empty() {
        return;
    }
    let at = random.below(file.len());
    match random.below(12) {
        0 => file[at] ^= 1 << random.below(8),
        1 => file[at] = random.below(16) as u8,
        2 => file.truncate(at),
        3 => file.insert(at, random.below(16) as u8),
        4 => drop(file.drain(at..(at + random.between(1, 4)).min(file.len()))),
        5 => file.extend((0..random.between(1, 5)).map(|_| random.bits() as u8)),
        6 => swap_records(random, file),
        7 => drop_or_repeat_record(random, file),
        8 => change_body(random, file, |kind| matches!(kind, CLAUSE | QUERY)),
        9 => change_body(random, file, |kind| matches!(kind, APPLIED | GOAL)),
        10 => change_body(random, file, |kind| kind == VARIABLE),
        _ => change_body(random, file, |kind| matches!(kind, FUNCTION | PREDICATE)),
    }
}

/// The bytes of the record at a place.
fn record(file: &[u8], place: usize) -> std::ops::Range<usize> {
    place..(place + size(file[place])).min(file.len())
}

fn swap_records(random: &mut Random, file: &mut Vec<u8>) {
    let places = places(file);
    if places.len() < 2 {
        return;
    }
    let first = random.below(places.len() - 1);
    let second = random.between(first + 1, places.len() - 1);
    let (one, other) = (record(file, places[first]), record(file, places[second]));
    let mut swapped = file[..one.start].to_vec();
    swapped.extend(&file[other.clone()]);
    swapped.extend(&file[one.end..other.start]);
    swapped.extend(&file[one]);
    swapped.extend(&file[other.end..]);
    *file = swapped;
}

fn drop_or_repeat_record(random: &mut Random, file: &mut Vec<u8>) {
    let places = places(file);
    if places.is_empty() {
        return;
    }
    let record = record(file, *random.one_of(&places));
    if random.percent(50) {
        file.drain(record);
    } else {
        let again = file[record.clone()].to_vec();
        file.splice(record.end..record.end, again);
    }
}

/// Changes a byte in the body of a record of some kind, mostly by one.
fn change_body(random: &mut Random, file: &mut [u8], kind: impl Fn(u8) -> bool) {
    let mut places = places(file);
    places.retain(|&place| kind(file[place]));
    if places.is_empty() {
        return;
    }
    let place = *random.one_of(&places);
    let at = place + random.between(1, BODY[file[place] as usize]);
    if let Some(byte) = file.get_mut(at) {
        *byte = match random.below(4) {
            0 => byte.wrapping_sub(1),
            1 => random.bits() as u8,
            _ => byte.wrapping_add(1),
        };
    }
}

/// A file at a limit, or `over` beyond it.
pub fn at_limit(random: &mut Random, over: usize) -> Vec<u8> {
    match random.below(9) {
        0 => functions(FUNCTIONS + over),
        1 => predicates(PREDICATES + over),
        2 => clauses(CLAUSES + over),
        3 => arity(ARITY + over),
        4 => variables(VARIABLES + over),
        5 => clause_variables(VARIABLES + over),
        6 => goals(GOALS + over),
        7 => levels(LEVELS + over),
        _ => length(FILE + over),
    }
}

/// A file with so many functions.
pub fn functions(count: usize) -> Vec<u8> {
    let functions = vec![0; count];
    Program {
        functions,
        ..Program::default()
    }
    .bytes()
}

/// A file with so many predicates.
pub fn predicates(count: usize) -> Vec<u8> {
    let predicates = vec![0; count];
    Program {
        predicates,
        ..Program::default()
    }
    .bytes()
}

/// A file with so many clauses, each of them an answer.
pub fn clauses(count: usize) -> Vec<u8> {
    Program {
        predicates: vec![0],
        clauses: vec![TreeClause::fact(0, Vec::new()); count],
        query: vec![TreeGoal::Call(0, Vec::new())],
        ..Program::default()
    }
    .bytes()
}

/// A file with a function of this arity.
pub fn arity(arity: usize) -> Vec<u8> {
    Program {
        functions: vec![arity as u8],
        ..Program::default()
    }
    .bytes()
}

/// So many variables in rows of eight; the last one fills its row.
fn rows(count: usize) -> impl Iterator<Item = Vec<Tree>> {
    let variable = move |place: usize| Tree::Variable(place.min(count - 1));
    let row = move |row: usize| (row * ARITY..(row + 1) * ARITY).map(variable);
    (0..count.div_ceil(ARITY)).map(move |number| row(number).collect())
}

/// A file whose query has so many variables. A fact of eight others meets its
/// goals and leaves them free.
pub fn variables(count: usize) -> Vec<u8> {
    Program {
        predicates: vec![ARITY as u8],
        clauses: rows(ARITY).map(|row| TreeClause::fact(0, row)).collect(),
        query: rows(count).map(|row| TreeGoal::Call(0, row)).collect(),
        ..Program::default()
    }
    .bytes()
}

/// A file with a clause of so many variables: eight in its head, the others in
/// its goals. A constant becomes the value of each.
pub fn clause_variables(count: usize) -> Vec<u8> {
    let constants = vec![Tree::Applied(0, Vec::new()); ARITY];
    let mut rows = rows(count);
    let head = rows.next().expect("a variable");
    let body = rows.map(|row| TreeGoal::Call(1, row)).collect();
    let clause = TreeClause {
        predicate: 0,
        head,
        body,
    };
    Program {
        functions: vec![0],
        predicates: vec![ARITY as u8; 2],
        clauses: vec![clause, TreeClause::fact(1, constants.clone())],
        query: vec![TreeGoal::Call(0, constants)],
    }
    .bytes()
}

/// A file whose query has so many goals.
pub fn goals(count: usize) -> Vec<u8> {
    Program {
        query: vec![TreeGoal::Cut; count],
        ..Program::default()
    }
    .bytes()
}

/// A file with a term of so many levels.
pub fn levels(count: usize) -> Vec<u8> {
    let mut tree = Tree::Applied(0, Vec::new());
    for _ in 1..count {
        tree = Tree::Applied(1, vec![tree]);
    }
    Program {
        functions: vec![0, 1],
        predicates: vec![1],
        query: vec![TreeGoal::Call(0, vec![tree])],
        ..Program::default()
    }
    .bytes()
}

/// A good file of exactly this length, if that is 100 or more: the same
/// clause again and again, and cuts for the bytes that are missing.
pub fn length(bytes: usize) -> Vec<u8> {
    let clause = "p(f(X,f(Y,a)),g(X),Z,a,f(Z,Y)) :- p(X,Y,a,Z,g(f(X,a))).";
    let mut program = program(&format!("{clause} ?- p(a,X,X,Y,a)."));
    let clause = program.clauses[0].clone();
    let one = program.bytes().len();
    program.clauses.push(clause.clone());
    let size = program.bytes().len() - one;
    let more = (bytes - one) / size;
    program.clauses.resize(1 + more, clause);
    let mut missing = (bytes - one) % size;
    for clause in &mut program.clauses {
        let cuts = missing.min(GOALS - clause.body.len());
        clause.body.extend(vec![TreeGoal::Cut; cuts]);
        missing -= cuts;
    }
    program.bytes()
}
