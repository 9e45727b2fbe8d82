//! Random programs as trees, and random changes to programs that keep them
//! good.

use crate::assemble::{Program, Tree, TreeClause, TreeGoal};
use crate::random::Random;
use crate::reading::{ARITY, GOALS, VARIABLES};

/// How large a random program may be.
#[derive(Clone, Copy, Debug)]
pub struct Size {
    pub functions: usize,
    pub predicates: usize,
    pub arity: usize,
    pub clauses: usize,
    pub goals: usize,
    pub variables: usize,
    pub levels: usize,
}

pub const SMALL: Size = Size {
    functions: 4,
    predicates: 4,
    arity: 3,
    clauses: 10,
    goals: 3,
    variables: 4,
    levels: 3,
};

pub const LARGE: Size = Size {
    functions: 8,
    predicates: 8,
    arity: ARITY,
    clauses: 20,
    goals: GOALS,
    variables: VARIABLES,
    levels: 4,
};

/// A random program, without cuts. Function 0 is a constant.
pub fn random_program(random: &mut Random, size: Size) -> Program {
    let mut program = Program {
        functions: arities(random, size.functions, size.arity),
        predicates: arities(random, size.predicates, size.arity),
        ..Program::default()
    };
    program.functions[0] = 0;
    for _ in 0..random.between(0, size.clauses) {
        let clause = random_clause(random, &program, size);
        program.clauses.push(clause);
    }
    let goals = random.between(1, size.goals);
    program.query = random_goals(random, &program, size, goals, 0);
    program
}

fn arities(random: &mut Random, most: usize, arity: usize) -> Vec<u8> {
    let count = random.between(1, most);
    (0..count).map(|_| random.between(0, arity) as u8).collect()
}

/// Most bodies are short, and most call only later predicates, so that most
/// programs come to an end.
fn random_clause(random: &mut Random, program: &Program, size: Size) -> TreeClause {
    let predicate = random.below(program.predicates.len());
    let head = random_trees(random, program, size, program.predicates[predicate]);
    let last = predicate + 1 == program.predicates.len();
    let (goals, from) = match random.below(10) {
        0..=3 => (0, 0),
        4..=8 if last => (0, 0),
        4..=8 => (random.between(1, size.goals), predicate + 1),
        _ => (random.between(1, size.goals), 0),
    };
    TreeClause {
        predicate: predicate as u16,
        head,
        body: random_goals(random, program, size, goals, from),
    }
}

/// So many goals for predicates from this one on.
fn random_goals(
    random: &mut Random,
    program: &Program,
    size: Size,
    goals: usize,
    from: usize,
) -> Vec<TreeGoal> {
    let goal = |random: &mut Random| {
        let predicate = random.between(from, program.predicates.len() - 1);
        let arity = program.predicates[predicate];
        TreeGoal::Call(predicate as u16, random_trees(random, program, size, arity))
    };
    (0..goals).map(|_| goal(random)).collect()
}

fn random_trees(random: &mut Random, program: &Program, size: Size, arity: u8) -> Vec<Tree> {
    let tree = |random: &mut Random| {
        let levels = random.between(1, size.levels);
        random_tree(random, program, size.variables, levels)
    };
    (0..arity).map(|_| tree(random)).collect()
}

fn random_tree(random: &mut Random, program: &Program, variables: usize, levels: usize) -> Tree {
    if random.percent(45) {
        return Tree::Variable(random.below(variables));
    }
    let function = random.below(program.functions.len());
    let arity = program.functions[function];
    if levels == 1 && arity > 0 {
        return Tree::Applied(0, Vec::new());
    }
    let inner = |_| random_tree(random, program, variables, levels - 1);
    Tree::Applied(function as u16, (0..arity).map(inner).collect())
}

/// Puts a few cuts anywhere: in bodies and, every third or more, in the query.
pub fn add_cuts(random: &mut Random, program: &mut Program) {
    for _ in 0..random.between(1, 3) {
        let which = random.below(program.clauses.len() + 1);
        let goals = match program.clauses.get_mut(which) {
            Some(clause) if random.percent(67) => &mut clause.body,
            _ => &mut program.query,
        };
        if goals.len() < GOALS {
            goals.insert(random.between(0, goals.len()), TreeGoal::Cut);
        }
    }
}

/// Puts the clauses in another order, so that predicates are interleaved.
pub fn shuffle_clauses(random: &mut Random, program: &mut Program) {
    for last in (1..program.clauses.len()).rev() {
        program.clauses.swap(last, random.between(0, last));
    }
}

/// Two terms of so many levels, with wide functions, that meet; or one that
/// becomes an answer's value.
pub fn wide_and_deep(random: &mut Random, levels: usize) -> Program {
    let arity = random.between(1, ARITY);
    let position = random.below(arity);
    let nested = |random: &mut Random| {
        let mut tree = leaf(random);
        for _ in 1..levels {
            let mut arguments: Vec<_> = (0..arity).map(|_| leaf(random)).collect();
            arguments[position] = tree;
            tree = Tree::Applied(1, arguments);
        }
        tree
    };
    let head = vec![nested(random)];
    let asked = match random.percent(40) {
        true => Tree::Variable(0),
        false => nested(random),
    };
    Program {
        functions: vec![0, arity as u8],
        predicates: vec![1],
        clauses: vec![TreeClause::fact(0, head)],
        query: vec![TreeGoal::Call(0, vec![asked])],
    }
}

fn leaf(random: &mut Random) -> Tree {
    match random.percent(30) {
        true => Tree::Variable(random.below(3)),
        false => Tree::Applied(0, Vec::new()),
    }
}

/// A table of so many facts over a few constants, with a goal that meets some.
pub fn fact_table(random: &mut Random, facts: usize) -> Program {
    let constants = random.between(1, 40);
    let constant = |random: &mut Random| Tree::Applied(random.below(constants) as u16, Vec::new());
    let fact = |random: &mut Random| {
        let predicate = random.below(2) as u16;
        TreeClause::fact(predicate, vec![constant(random), constant(random)])
    };
    let clauses = (0..facts).map(|_| fact(random)).collect();
    let middle = Tree::Variable(1);
    Program {
        functions: vec![0; constants],
        predicates: vec![2, 2],
        clauses,
        query: vec![
            TreeGoal::Call(0, vec![constant(random), middle.clone()]),
            TreeGoal::Call(1, vec![middle, Tree::Variable(2)]),
        ],
    }
}

/// So many facts, more than a file has room for with two constants each: most
/// have no argument, few have one, and the query joins two predicates of those.
pub fn large_table(random: &mut Random, facts: usize) -> Program {
    let constants = random.between(1, 4);
    let argument = |random: &mut Random| match random.percent(5) {
        true => Tree::Variable(0),
        false => Tree::Applied(random.below(constants) as u16, Vec::new()),
    };
    let one_in = *random.one_of(&[2, 400, 400]);
    let fact = |random: &mut Random| match random.below(one_in) {
        0 => TreeClause::fact(random.between(1, 2) as u16, vec![argument(random)]),
        _ => TreeClause::fact(0, Vec::new()),
    };
    let clauses = (0..facts).map(|_| fact(random)).collect();
    let asked = match random.percent(50) {
        true => Tree::Variable(0),
        false => argument(random),
    };
    Program {
        functions: vec![0; constants],
        predicates: vec![0, 1, 1],
        clauses,
        query: vec![
            TreeGoal::Call(1, vec![asked.clone()]),
            TreeGoal::Call(2, vec![asked]),
        ],
    }
}

/// A query or a clause of up to 64 variables: all of them appear first, and
/// then a few of them meet each other and terms that hold them.
pub fn meeting_variables(random: &mut Random) -> Program {
    let rows = random.between(1, VARIABLES / ARITY);
    let mut goals: Vec<_> = (0..rows)
        .map(|number| TreeGoal::Call(0, row(number * ARITY)))
        .collect();
    let few: Vec<_> = (0..random.between(2, 6))
        .map(|_| Tree::Variable(random.below(rows * ARITY)))
        .collect();
    let term = |random: &mut Random| {
        let arity = random.below(3);
        let inner = |_| random.one_of(&few).clone();
        match arity {
            0 => random.one_of(&few).clone(),
            _ => Tree::Applied(arity as u16 - 1, (0..arity).map(inner).collect()),
        }
    };
    for _ in 0..random.between(1, GOALS - rows) {
        goals.push(TreeGoal::Call(1, vec![term(random), term(random)]));
    }
    let mut program = Program {
        functions: vec![1, 2],
        predicates: vec![ARITY as u8, 2, 0],
        clauses: vec![
            TreeClause::fact(0, row(0)),
            TreeClause::fact(1, vec![Tree::Variable(0); 2]),
        ],
        query: goals,
    };
    if random.percent(50) {
        // The clause's variables have the cells of another goal before them.
        let before = TreeGoal::Call(1, vec![Tree::Variable(0); 2]);
        let query = vec![before, TreeGoal::Call(2, Vec::new())];
        program.clauses.push(TreeClause {
            predicate: 2,
            head: Vec::new(),
            body: std::mem::replace(&mut program.query, query),
        });
    }
    program
}

/// Eight variables, from this one on.
fn row(first: usize) -> Vec<Tree> {
    (first..first + ARITY).map(Tree::Variable).collect()
}

/// A program with much of nothing, or as much as is allowed.
pub fn bare_or_full(random: &mut Random) -> Program {
    let mut program = Program::default();
    match random.below(5) {
        0 => {}
        1 => program.query = vec![TreeGoal::Cut; random.between(0, GOALS)],
        2 => {
            program.predicates = vec![0];
            program.query = vec![TreeGoal::Call(0, Vec::new()); random.between(1, GOALS)];
        }
        _ => full(random, &mut program),
    }
    program
}

/// Arity 8, 64 variables and 8 to 16 goals in the query; clauses with as many.
fn full(random: &mut Random, program: &mut Program) {
    let rows = VARIABLES / ARITY;
    let goals = |count: usize, predicates: usize| {
        let call = |goal| TreeGoal::Call((goal % predicates) as u16, row(goal % rows * ARITY));
        (0..count).map(call).collect()
    };
    program.functions = vec![ARITY as u8];
    program.predicates = vec![ARITY as u8; 2];
    program.query = goals(random.between(rows, GOALS), 2);
    program.clauses = (0..2)
        .map(|predicate| TreeClause::fact(predicate, row(0)))
        .collect();
    if random.percent(50) {
        let mut head = row(0);
        let inner = row(random.between(0, VARIABLES - ARITY));
        head[random.below(ARITY)] = Tree::Applied(0, inner);
        // It calls itself, or not.
        let body = goals(random.between(1, GOALS), random.between(1, 2));
        program.clauses.insert(
            0,
            TreeClause {
                predicate: 1,
                head,
                body,
            },
        );
    }
}
