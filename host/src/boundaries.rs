//! Good files at the limits of clauses and variables that request 2026-01
//! raises, and what comes of them, worked out by hand from document 01.

use crate::assemble::file;
use crate::cases::{answer, Program, Run};
use crate::damage::{clause_variables, clauses, variables};

/// All of them: files that document 01 refused, files one below the limits and
/// at them, and files in which late variables matter.
pub fn boundaries() -> Vec<Program> {
    let mut programs = Vec::new();
    programs.extend([4_097, 8_191, 8_192].map(facts));
    programs.extend([33, 63, 64].map(in_query));
    programs.extend([33, 63, 64].map(in_clause));
    for (earlier, variable) in [(30, 31), (0, 32), (8, 40), (31, 63)] {
        programs.extend(inside_itself(variable));
        programs.extend(inside_another(variable));
        programs.extend(not_inside(earlier, variable));
    }
    programs.extend(compared());
    programs
}

/// A program with its runs, each of them settings and a line.
fn program(
    name: String,
    file: Vec<u8>,
    answers: Vec<Vec<u8>>,
    runs: &[(String, String)],
) -> Program {
    let run = |(settings, line): &(String, String)| Run::new(&file, settings, line);
    Program {
        name,
        runs: runs.iter().map(run).collect(),
        file,
        answers,
    }
}

/// A free variable as a value.
fn free(number: u16) -> Vec<u8> {
    let [high, low] = number.to_be_bytes();
    vec![0x0B, high, low]
}

/// So many facts: each takes one unit and is an answer of nine bytes.
fn facts(count: u16) -> Program {
    let answers = (0..count).map(|clause| answer(0, &[], &[clause])).collect();
    let count = u32::from(count);
    let (less, bytes) = (count - 1, 9 * count);
    let runs = [
        (
            format!("budget {count} wanted {} room {bytes}", count + 1),
            format!("end 20 answers {count} units {count} bytes {bytes}"),
        ),
        (
            format!("budget {count} wanted {count} room {bytes}"),
            format!("end 21 answers {count} units {count} bytes {bytes}"),
        ),
        (
            format!("budget {less} wanted {count} room {bytes}"),
            format!("end 22 answers {less} units {less} bytes {}", bytes - 9),
        ),
        (
            format!("budget {count} wanted {count} room {}", bytes - 1),
            format!("end 26 answers {less} units {count} bytes {}", bytes - 9),
        ),
    ];
    let name = format!("{count} clauses");
    program(name, clauses(count as usize), answers, &runs)
}

/// The line of a run that fewer cells than it asks for have stopped.
fn too_few_cells(units: u16) -> String {
    format!("end 23 answers 0 units {units} bytes 0 limits too small")
}

/// A query of so many variables, all of them free in its answer. Each goal has
/// eight: it takes a unit, one for each pair, and a cell for each variable of
/// the fact.
fn in_query(count: u16) -> Program {
    let goals = count.div_ceil(8);
    let values: Vec<_> = (0..count).flat_map(free).collect();
    let bytes = 5 + 3 * count + 3 * goals + 1;
    let whole = format!("end 20 answers 1 units {} bytes {bytes}", 9 * goals);
    let all = count + 8 * goals;
    let cells = |cells| format!("cells {cells}");
    let runs = [
        (String::new(), whole.clone()),
        (cells(all), whole),
        (cells(all - 1), too_few_cells(9 * (goals - 1) + 1)),
        (cells(count), too_few_cells(1)),
        (cells(count - 1), too_few_cells(0)),
    ];
    let answers = vec![answer(count, &values, &vec![0; goals.into()])];
    let name = format!("{count} variables of a query");
    program(name, variables(count.into()), answers, &runs)
}

/// A clause of so many variables, eight of them in its head, and a fact without
/// any for each of its goals.
fn in_clause(count: u16) -> Program {
    let goals = count.div_ceil(8) - 1;
    let steps = [vec![0], vec![1; goals.into()]].concat();
    let (units, bytes) = (9 + 9 * goals, 5 + 3 * (1 + goals) + 1);
    let whole = format!("end 20 answers 1 units {units} bytes {bytes}");
    let runs = [
        (String::new(), whole.clone()),
        (format!("cells {count}"), whole),
        (format!("cells {}", count - 1), too_few_cells(1)),
    ];
    let answers = vec![answer(0, &[], &steps)];
    let name = format!("{count} variables of a clause");
    program(name, clause_variables(count.into()), answers, &runs)
}

/// Eight variables as arguments, from this one on.
fn eight(first: u16) -> String {
    let names: Vec<_> = (first..first + 8).map(|v| format!("X{v}")).collect();
    names.join(",")
}

/// A program with one run, which has this answer or none.
fn one_run(name: String, text: &str, units: u16, answer: Option<Vec<u8>>) -> Program {
    let answers = Vec::from_iter(answer);
    let (count, bytes) = (answers.len(), answers.concat().len());
    let line = format!("end 20 answers {count} units {units} bytes {bytes}");
    program(name, file(text), answers, &[(String::new(), line)])
}

/// Goals `eq` that take so many units, behind eight goals in which 64 variables
/// appear and which take 72: as a query, and as the body of a clause. The free
/// variables and values that the query shows, where it has an answer.
fn late(goals: &str, units: u16, shown: Option<(u16, Vec<u8>)>) -> [Program; 2] {
    let rules = "seen(A,B,C,D,E,F,G,H). eq(V,V).";
    let appear: String = (0..8)
        .map(|row| format!("seen({}), ", eight(8 * row)))
        .collect();
    let query = format!("{rules} ?- {appear}{goals}.");
    // The clause's variables have two cells before them. The goal in front takes
    // 3 units, and the clause one.
    let clause = format!("{rules} go :- {appear}{goals}. ?- eq(Y,Y), go.");
    let steps = [vec![0; 8], vec![1; goals.matches("eq(").count()]].concat();
    let by_query = shown.map(|(count, values)| answer(count, &values, &steps));
    let by_clause = by_query.as_ref().map(|_| {
        let steps = [&[1, 2], &steps[..]].concat();
        answer(1, &free(0), &steps)
    });
    [
        one_run(format!("query {goals}"), &query, 72 + units, by_query),
        one_run(format!("clause {goals}"), &clause, 76 + units, by_clause),
    ]
}

/// A variable inside its own value.
fn inside_itself(variable: u16) -> [Program; 2] {
    late(&format!("eq(X{variable},f(X{variable}))"), 3, None)
}

/// X1 inside its own value, through the value of another variable.
fn inside_another(variable: u16) -> [Program; 2] {
    let goals = format!("eq(X{variable},f(X1)), eq(X1,f(X{variable}))");
    late(&goals, 6, None)
}

/// A variable inside the value of an earlier one, whose number it then has.
fn not_inside(earlier: u16, variable: u16) -> [Program; 2] {
    let value = |other| match other {
        _ if other == earlier => [vec![0x05, 0, 0], free(earlier)].concat(),
        _ if other == variable => free(earlier),
        _ if other > variable => free(other - 1),
        _ => free(other),
    };
    let values = (0..64).flat_map(value).collect();
    let goals = format!("eq(X{earlier},f(X{variable}))");
    late(&goals, 3, Some((63, values)))
}

/// The last 32 variables are bound, and the last eight of them compared: with
/// their values, and with others from the last one on. A goal takes a unit, two
/// pairs, and eight more.
fn compared() -> Vec<Program> {
    let row = |first, values: &str| format!("eq(g({}),g({values}))", eight(first));
    let bound: Vec<_> = (4..8)
        .map(|number| row(8 * number, "a,a,a,a,a,a,a,a"))
        .collect();
    let goals = |values| format!("{}, {}", bound.join(", "), row(56, values));
    let constants = [0x05, 0, 1].repeat(32);
    let values = (0..32).flat_map(free).chain(constants).collect();
    let same = late(&goals("a,a,a,a,a,a,a,a"), 5 * 11, Some((32, values)));
    let other = late(&goals("a,a,a,a,a,a,a,b"), 5 * 11, None);
    same.into_iter().chain(other).collect()
}
