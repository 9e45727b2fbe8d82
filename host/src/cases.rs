//! The stored table of the programs run by hand, cases.txt: those of documents
//! 01 and 02, and some beside them.

use crate::call::{Case, EMBEDDED, EMBEDDED_FILE};

const TABLE: &str = include_str!("../cases.txt");

/// A program: its rule file, its answers in order, and its runs.
#[derive(Clone, Debug)]
pub struct Program {
    pub name: String,
    pub file: Vec<u8>,
    pub answers: Vec<Vec<u8>>,
    pub runs: Vec<Run>,
}

/// A run: what it gets, and the line that it has to come to.
#[derive(Clone, Debug)]
pub struct Run {
    pub case: Case,
    pub line: String,
}

impl Run {
    /// A run with limits and settings of the small program, except where these
    /// words say others.
    pub(crate) fn new(file: &[u8], settings: &str, line: &str) -> Run {
        let mut case = Case::new(file, EMBEDDED);
        let words: Vec<_> = settings.split_whitespace().collect();
        for setting in words.chunks(2) {
            let value = number(setting[1]);
            match setting[0] {
                "budget" => case.budget = value as u32,
                "wanted" => case.wanted = value as u32,
                "room" => case.room = value,
                "cells" => case.limits.cells = value as u32,
                "steps" => case.limits.steps = value as u32,
                "work" => case.limits.work = value as u32,
                _ => panic!("{settings} is no setting"),
            }
        }
        case.scratch_len = case.limits.scratch(file.len());
        let line = line.to_string();
        Run { case, line }
    }

    /// Whether the small program can carry it out.
    pub fn is_plain(&self) -> bool {
        self.is_embedded() && self.case == Case::new(&self.case.file, EMBEDDED)
    }

    /// Whether the embedded form can carry it out.
    pub fn is_embedded(&self) -> bool {
        self.case.limits == EMBEDDED && self.case.file.len() <= EMBEDDED_FILE
    }

    /// The number that follows a word in the line; 0 where the word is missing.
    pub fn number(&self, word: &str) -> usize {
        let words = self.line.split_whitespace();
        let mut words = words.skip_while(|other| *other != word).skip(1);
        words.next().map_or(0, number)
    }

    /// The bytes that the run writes.
    pub fn bytes(&self, program: &Program) -> Vec<u8> {
        program.answers[..self.number("answers")].concat()
    }
}

fn number(word: &str) -> usize {
    word.parse().expect("a number")
}

/// Bytes from their two-digit form.
pub fn bytes(text: &str) -> Vec<u8> {
    let byte = |word| u8::from_str_radix(word, 16).expect("two digits");
    text.split_whitespace().map(byte).collect()
}

/// The bytes of an answer as document 01 writes them: with so many free
/// variables, these values and these steps.
pub fn answer(free: u16, values: &[u8], steps: &[u16]) -> Vec<u8> {
    let mut bytes = vec![0x0A];
    bytes.extend(free.to_be_bytes());
    bytes.extend((steps.len() as u16).to_be_bytes());
    bytes.extend(values);
    for step in steps {
        bytes.push(0x0C);
        bytes.extend(step.to_be_bytes());
    }
    bytes.push(0x0D);
    bytes
}

/// All programs of the table.
pub fn programs() -> Vec<Program> {
    let mut programs: Vec<Program> = Vec::new();
    let whole = TABLE.replace("\n ", " ");
    let lines = whole.lines();
    for line in lines.filter(|line| !line.is_empty() && !line.starts_with('#')) {
        if let Some(name) = line.strip_prefix("program ") {
            programs.push(Program {
                name: name.to_string(),
                file: Vec::new(),
                answers: Vec::new(),
                runs: Vec::new(),
            });
            continue;
        }
        let program = programs.last_mut().expect("a program comes first");
        if let Some(file) = line.strip_prefix("file ") {
            program.file = bytes(file);
        } else if let Some(answer) = line.strip_prefix("answer ") {
            program.answers.push(bytes(answer));
        } else if let Some((settings, line)) = line.split_once(": ") {
            let settings = settings.strip_prefix("run").expect("a run");
            program.runs.push(Run::new(&program.file, settings, line));
        } else {
            panic!("{line} is no line of the table");
        }
    }
    programs
}
