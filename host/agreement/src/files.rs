//! Rule files to compare on: from seeds, and long ones of several kinds.

use second::assemble::{program, TreeGoal};
use second::call::FILE;
use second::generate::case;
use second::reading::{CLAUSES, GOALS};

/// The files of the seeds from one on, good and damaged, each with its seed.
/// Files that would not be read are left out.
pub fn from_seed(first: u64) -> impl Iterator<Item = (u64, Vec<u8>)> {
    (first..)
        .map(|seed| (seed, case(seed).file))
        .filter(|(_, file)| file.len() <= FILE)
}

/// A kind of long file: one clause again and again.
pub struct Kind {
    pub name: &'static str,
    clause: String,
}

pub fn kinds() -> [Kind; 4] {
    let variables = "p(X,X,X,X,X,X,X,X)";
    let (open, closed) = ("s(".repeat(31), ")".repeat(31));
    let kind = |name, clause| Kind { name, clause };
    [
        kind(
            "mixed terms",
            "p(f(X,f(Y,a)),g(X),Z,a,f(Z,Y)) :- p(X,Y,a,Z,g(f(X,a))).".to_string(),
        ),
        kind(
            "only variables",
            format!("{variables} :- {}.", [variables; 8].join(",")),
        ),
        kind("32-level chains", format!("p({open}a{closed}).")),
        kind("8,192 clauses", "p(X).".to_string()),
    ]
}

impl Kind {
    /// A good file of exactly this length: as many clauses as go into it, at
    /// most 8,192 for the longest and fewer in proportion, and cuts in their
    /// bodies for the bytes that are missing.
    pub fn file(&self, bytes: usize) -> Vec<u8> {
        let mut program = program(&format!("{} ?- !.", self.clause));
        let clause = program.clauses[0].clone();
        let one = program.bytes().len();
        program.clauses.push(clause.clone());
        let size = program.bytes().len() - one;
        let most = CLAUSES * bytes / FILE;
        let clauses = most.min(1 + (bytes - one) / size);
        program.clauses.resize(clauses, clause);
        let mut missing = bytes - program.bytes().len();
        let room = GOALS - program.clauses[0].body.len();
        let share = missing.div_ceil(clauses).min(room);
        for clause in &mut program.clauses {
            let cuts = missing.min(share);
            clause.body.extend(vec![TreeGoal::Cut; cuts]);
            missing -= cuts;
        }
        program.bytes()
    }
}
