//! Making rule files: programs as trees, their bytes, and a small text form
//! in which the examples are written.
//!
//! Variables in a tree have any numbers; the bytes number them by first
//! appearance, as a rule file must.

use crate::record::*;

/// A term as a tree.
#[derive(Clone, Debug, PartialEq, Eq)]
pub enum Tree {
    Variable(usize),
    Applied(u16, Vec<Tree>),
}

/// A goal of a body or of the query.
#[derive(Clone, Debug, PartialEq, Eq)]
pub enum TreeGoal {
    Call(u16, Vec<Tree>),
    Cut,
}

/// A clause.
#[derive(Clone, Debug, PartialEq, Eq)]
pub struct TreeClause {
    pub predicate: u16,
    pub head: Vec<Tree>,
    pub body: Vec<TreeGoal>,
}

/// A whole program: arities of functions and predicates, clauses, the query.
#[derive(Clone, Debug, Default, PartialEq, Eq)]
pub struct Program {
    pub functions: Vec<u8>,
    pub predicates: Vec<u8>,
    pub clauses: Vec<TreeClause>,
    pub query: Vec<TreeGoal>,
}

impl Tree {
    /// Adds the tree's variables that are not yet in the list.
    pub fn add_variables(&self, list: &mut Vec<usize>) {
        match self {
            Tree::Variable(variable) if list.contains(variable) => {}
            Tree::Variable(variable) => list.push(*variable),
            Tree::Applied(_, arguments) => {
                arguments.iter().for_each(|term| term.add_variables(list))
            }
        }
    }

    fn put(&self, variables: &[usize], bytes: &mut Vec<u8>) {
        match self {
            Tree::Variable(variable) => {
                let number = variables.iter().position(|seen| seen == variable);
                bytes.extend([VARIABLE, number.expect("all variables are listed") as u8]);
            }
            Tree::Applied(function, arguments) => {
                bytes.push(APPLIED);
                bytes.extend(function.to_be_bytes());
                put_all(arguments, variables, bytes);
            }
        }
    }
}

fn put_all(terms: &[Tree], variables: &[usize], bytes: &mut Vec<u8>) {
    terms.iter().for_each(|term| term.put(variables, bytes));
}

impl TreeGoal {
    fn arguments(&self) -> &[Tree] {
        match self {
            TreeGoal::Call(_, arguments) => arguments,
            TreeGoal::Cut => &[],
        }
    }

    fn put(&self, variables: &[usize], bytes: &mut Vec<u8>) {
        match self {
            TreeGoal::Cut => bytes.push(CUT),
            TreeGoal::Call(predicate, arguments) => {
                bytes.push(GOAL);
                bytes.extend(predicate.to_be_bytes());
                put_all(arguments, variables, bytes);
            }
        }
    }
}

/// The variables of a head and its goals, by first appearance.
pub fn variables(head: &[Tree], goals: &[TreeGoal]) -> Vec<usize> {
    let mut list = Vec::new();
    let arguments = goals.iter().flat_map(TreeGoal::arguments);
    for term in head.iter().chain(arguments) {
        term.add_variables(&mut list);
    }
    list
}

impl TreeClause {
    /// A clause without goals.
    pub fn fact(predicate: u16, head: Vec<Tree>) -> TreeClause {
        TreeClause {
            predicate,
            head,
            body: Vec::new(),
        }
    }

    fn put(&self, bytes: &mut Vec<u8>) {
        let variables = variables(&self.head, &self.body);
        bytes.push(CLAUSE);
        bytes.extend(self.predicate.to_be_bytes());
        bytes.extend([variables.len() as u8, self.body.len() as u8]);
        put_all(&self.head, &variables, bytes);
        self.body
            .iter()
            .for_each(|goal| goal.put(&variables, bytes));
    }
}

impl Program {
    /// The rule file.
    pub fn bytes(&self) -> Vec<u8> {
        let mut bytes = Vec::new();
        bytes.extend(self.functions.iter().flat_map(|&arity| [FUNCTION, arity]));
        bytes.extend(self.predicates.iter().flat_map(|&arity| [PREDICATE, arity]));
        self.clauses
            .iter()
            .for_each(|clause| clause.put(&mut bytes));
        let variables = variables(&[], &self.query);
        bytes.extend([QUERY, variables.len() as u8, self.query.len() as u8]);
        self.query
            .iter()
            .for_each(|goal| goal.put(&variables, &mut bytes));
        bytes.push(END);
        bytes
    }

    /// The same rules with the cuts left out.
    pub fn without_cuts(&self) -> Program {
        let mut program = self.clone();
        let bodies = program.clauses.iter_mut().map(|clause| &mut clause.body);
        for goals in bodies.chain([&mut program.query]) {
            goals.retain(|goal| *goal != TreeGoal::Cut);
        }
        program
    }
}

/// The program of a text such as `app([],L,L). p :- q(X), !. ?- p.` Functions
/// and predicates are numbered by first appearance, inner ones before outer
/// ones; `[]` and `[H|T]` stand for nil/0 and cons/2.
pub fn program(text: &str) -> Program {
    let mut parser = Parser {
        rest: text.trim(),
        functions: Vec::new(),
        predicates: Vec::new(),
        variables: Vec::new(),
        program: Program::default(),
    };
    while !parser.rest.is_empty() {
        parser.sentence();
    }
    parser.program
}

/// The rule file of a text.
pub fn file(text: &str) -> Vec<u8> {
    program(text).bytes()
}

type Names = Vec<(String, usize)>;

struct Parser<'a> {
    rest: &'a str,
    functions: Names,
    predicates: Names,
    variables: Vec<String>,
    program: Program,
}

/// The number of a name with an arity; a new name gets the next number.
fn numbered(names: &mut Names, arities: &mut Vec<u8>, name: &str, arity: usize) -> u16 {
    let known = names.iter().position(|(n, a)| n == name && *a == arity);
    let number = known.unwrap_or_else(|| {
        names.push((name.to_string(), arity));
        arities.push(arity as u8);
        names.len() - 1
    });
    number as u16
}

impl<'a> Parser<'a> {
    /// Takes a mark if it comes next.
    fn taken(&mut self, mark: &str) -> bool {
        match self.rest.strip_prefix(mark) {
            Some(rest) => {
                self.rest = rest.trim_start();
                true
            }
            None => false,
        }
    }

    fn expect(&mut self, mark: &str) {
        assert!(self.taken(mark), "{mark} is due before {}", self.rest);
    }

    fn word(&mut self) -> &'a str {
        let other = |c: char| !c.is_alphanumeric() && c != '_';
        let length = self.rest.find(other).unwrap_or(self.rest.len());
        assert!(length > 0, "a word is due before {}", self.rest);
        let (word, rest) = self.rest.split_at(length);
        self.rest = rest.trim_start();
        word
    }

    /// A clause or the query, with its full stop.
    fn sentence(&mut self) {
        self.variables.clear();
        if self.taken("?-") {
            self.program.query = self.goals();
            return;
        }
        let TreeGoal::Call(predicate, head) = self.goal() else {
            panic!("a head is due before {}", self.rest);
        };
        let body = match self.taken(":-") {
            true => self.goals(),
            false => {
                self.expect(".");
                Vec::new()
            }
        };
        self.program.clauses.push(TreeClause {
            predicate,
            head,
            body,
        });
    }

    /// Goals up to and with the full stop.
    fn goals(&mut self) -> Vec<TreeGoal> {
        let mut goals = Vec::new();
        while !self.taken(".") {
            goals.push(self.goal());
            self.taken(",");
        }
        goals
    }

    fn goal(&mut self) -> TreeGoal {
        if self.taken("!") {
            return TreeGoal::Cut;
        }
        let name = self.word();
        let arguments = self.arguments();
        let arities = &mut self.program.predicates;
        let predicate = numbered(&mut self.predicates, arities, name, arguments.len());
        TreeGoal::Call(predicate, arguments)
    }

    fn arguments(&mut self) -> Vec<Tree> {
        let mut arguments = Vec::new();
        if self.taken("(") {
            while !self.taken(")") {
                arguments.push(self.term());
                self.taken(",");
            }
        }
        arguments
    }

    fn term(&mut self) -> Tree {
        if self.taken("[") {
            return self.list();
        }
        let name = self.word();
        if name.starts_with(|c: char| c.is_uppercase()) {
            return self.variable(name);
        }
        let arguments = self.arguments();
        Tree::Applied(self.function(name, arguments.len()), arguments)
    }

    fn function(&mut self, name: &str, arity: usize) -> u16 {
        let arities = &mut self.program.functions;
        numbered(&mut self.functions, arities, name, arity)
    }

    fn variable(&mut self, name: &str) -> Tree {
        let known = self.variables.iter().position(|seen| seen == name);
        Tree::Variable(known.unwrap_or_else(|| {
            self.variables.push(name.to_string());
            self.variables.len() - 1
        }))
    }

    /// The rest of a list, after its opening mark or a comma.
    fn list(&mut self) -> Tree {
        if self.taken("]") {
            return Tree::Applied(self.function("nil", 0), Vec::new());
        }
        if self.taken("|") {
            let tail = self.term();
            self.expect("]");
            return tail;
        }
        let cons = self.function("cons", 2);
        let first = self.term();
        self.taken(",");
        Tree::Applied(cons, vec![first, self.list()])
    }
}
