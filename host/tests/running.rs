//! Runs worked out by hand: the order of stops, cut, shared values, work, and
//! the ways a Prolog machine goes astray.

mod common;

use std::time::{Duration, Instant};

use common::*;
use second::assemble::file;
use second::call::Limits;
use second::cases::bytes;
use second::examples;

/// The end, answers and units of a text's program.
fn text(text: &str, settings: Settings) -> (u32, u32, u32) {
    ended(&file(text), settings)
}

/// The step lists of all answers of a program that ends with 20.
fn steps(text: &str) -> Vec<Vec<u16>> {
    let file = file(text);
    assert_eq!(ended(&file, SETTINGS).0, 20);
    step_lists(&run(&file, SETTINGS).1)
}

fn limits(limits: Limits) -> Settings {
    Settings { limits, ..SETTINGS }
}

fn wanted(wanted: u32) -> Settings {
    Settings { wanted, ..SETTINGS }
}

/// 4^15 is 2^30: no check may walk such a value as a tree.
#[test]
fn values_of_2_to_the_30_leaves_come_back_at_once() {
    let start = Instant::now();
    // A goal `twice` costs 3 units, and 3 for each `double` it calls.
    let shared = file(&examples::shared(15));
    assert!(shared.len() < 200);
    assert_eq!(ended(&shared, SETTINGS), (20, 1, 1 + 15 * 9));
    assert_eq!(
        text(&examples::shared_answer(15), SETTINGS),
        (26, 0, 15 * 9)
    );
    // The last goal finds the variable inside its value at its second pair.
    let inside = examples::shared_inside_itself(15);
    assert_eq!(text(&inside, SETTINGS), (20, 0, 1 + 15 * 9 + 3));
    // Each `double` calls `eq` for 3 units more.
    let by_two = examples::shared_by_two(15);
    assert_eq!(text(&by_two, SETTINGS), (20, 1, 1 + 15 * 15));
    assert!(start.elapsed() < Duration::from_secs(1));
}

#[test]
fn values_deeper_than_32_levels_are_written() {
    // 2^9 is 512 times s; 3 bytes each, and z.
    let file = file(&examples::powers_of_two(9));
    let limits = Limits {
        cells: 5_000,
        steps: 2_000,
        work: 8,
    };
    let settings = Settings {
        limits,
        budget: 100_000,
        ..SETTINGS
    };
    assert_eq!(ended(&file, settings).0, 20);
    let (_, out) = run(&file, settings);
    let successor = &out[5..8];
    assert!(out[5..5 + 3 * 512]
        .chunks(3)
        .all(|record| record == successor));
    assert_ne!(&out[5 + 3 * 512..8 + 3 * 512], successor);
}

#[test]
fn the_wanted_number_is_tested_before_anything_else() {
    let one_cell = Limits { cells: 1, ..AMPLE };
    let two_variables = "p(a,b). ?- p(X,Y).";
    assert_eq!(text(two_variables, limits(one_cell)), (23, 0, 0));
    let none = Settings {
        wanted: 0,
        ..limits(one_cell)
    };
    assert_eq!(text(two_variables, none), (21, 0, 0));
    assert_eq!(text(two_variables, wanted(1)), (21, 1, 3));
    assert_eq!(text(two_variables, wanted(2)), (20, 1, 3));
    assert_eq!(text("p(a). p(b). p(c). ?- p(X).", wanted(2)), (21, 2, 4));
}

#[test]
fn inside_a_trial_units_come_first_then_cells_then_steps() {
    // The head differs, but its cell and its step are asked for all the same.
    let differs = "p(a,X). ?- p(b,c), p(a,a).";
    let with = |cells, steps, budget| Settings {
        limits: Limits {
            cells,
            steps,
            work: 8,
        },
        budget,
        ..SETTINGS
    };
    assert_eq!(text("p. ?- p, p.", with(1, 1, 1)), (22, 0, 1));
    assert_eq!(text("p. ?- p, p.", with(1, 1, 2)), (24, 0, 2));
    assert_eq!(text("p(X,Y). ?- p(a,b).", with(1, 1, 0)), (22, 0, 0));
    assert_eq!(text("p(X,Y). ?- p(a,b).", with(1, 1, 9)), (23, 0, 1));
    assert_eq!(text(differs, with(1, 1, 1)), (22, 0, 1));
    assert_eq!(text(differs, with(1, 1, 2)), (20, 0, 2));
    let second = "q. p(a,X,Y). ?- q, p(b,c,c).";
    assert_eq!(text(second, with(1, 1, 9)), (23, 0, 2));
    assert_eq!(text(second, with(2, 1, 9)), (24, 0, 2));
    assert_eq!(text(second, with(2, 2, 9)), (20, 0, 3));
}

#[test]
fn a_goal_without_clauses_costs_nothing() {
    assert_eq!(text("p :- q. ?- q.", SETTINGS), (20, 0, 0));
    assert_eq!(text("p :- q. p :- q. ?- p.", SETTINGS), (20, 0, 2));
}

#[test]
fn one_and_the_same_free_variable_still_costs_its_pair() {
    assert_eq!(text("eq(V,V). ?- eq(X,X).", SETTINGS), (20, 1, 3));
}

const EIGHT: &str = "a,a,a,a,a,a,a,a";

#[test]
fn the_pair_that_is_taken_is_off_the_list() {
    let least = limits(Limits { work: 8, ..AMPLE });
    let nine = limits(Limits { work: 9, ..AMPLE });
    let one = format!("p(f({EIGHT})). ?- p(f({EIGHT})).");
    assert_eq!(text(&one, least), (20, 1, 1 + 1 + 8));
    let two = format!("p(f({EIGHT}),a). ?- p(f({EIGHT}),a).");
    assert_eq!(text(&two, least), (25, 0, 2));
    assert_eq!(text(&two, nine), (20, 1, 1 + 2 + 8));
}

#[test]
fn functions_are_compared_before_the_list_is_counted() {
    let least = limits(Limits { work: 8, ..AMPLE });
    let differ = format!("p(g({EIGHT}),a). ?- p(f({EIGHT}),a).");
    assert_eq!(text(&differ, least), (20, 0, 2));
}

#[test]
fn an_answer_tests_its_room_and_then_its_work() {
    let value = format!("p(f(f({EIGHT}),a,a,a,a,a,a,a)). ?- p(X).");
    let with = |work, room| Settings {
        limits: Limits { work, ..AMPLE },
        room,
        ..SETTINGS
    };
    // 5 bytes, then 3 for each f: the second f makes 8 - 1 + 8 nodes due.
    assert_eq!(text(&value, with(8, 11)), (25, 0, 2));
    assert_eq!(text(&value, with(14, 11)), (25, 0, 2));
    assert_eq!(text(&value, with(15, 11)), (26, 0, 2));
    assert_eq!(text(&value, with(8, 10)), (26, 0, 2));
    // 5 bytes, 17 nodes, one step and the end.
    assert_eq!(text(&value, with(15, 5 + 17 * 3 + 3 + 1)), (20, 1, 2));
    assert_eq!(text(&value, with(15, 5 + 17 * 3 + 3)), (26, 0, 2));
}

#[test]
fn nodes_due_are_counted_afresh_for_each_value() {
    let two = format!("p(f({EIGHT}),f({EIGHT})). ?- p(X,Y).");
    assert_eq!(text(&two, limits(Limits { work: 8, ..AMPLE })), (20, 1, 3));
}

#[test]
fn free_variables_are_numbered_across_the_answer() {
    let out = run(&file("p(f(U,V),V,W). ?- p(X,Y,Z)."), SETTINGS).1;
    let expected = "0A 00 03 00 01 05 00 00 0B 00 00 0B 00 01 0B 00 01 0B 00 02 0C 00 00 0D";
    assert_eq!(out, bytes(expected));
}

#[test]
fn two_uses_of_a_clause_have_their_own_variables() {
    let out = run(&file("p(f(U)). ?- p(X), p(Y)."), SETTINGS).1;
    let expected = "0A 00 02 00 02 05 00 00 0B 00 00 05 00 00 0B 00 01 0C 00 00 0C 00 00 0D";
    assert_eq!(out, bytes(expected));
}

#[test]
fn bindings_of_clause_variables_are_undone_too() {
    assert_eq!(
        steps("p :- q(Y), r(Y). q(a). q(b). r(b). ?- p."),
        [[0, 2, 3]]
    );
}

#[test]
fn a_mismatch_undoes_its_bindings() {
    assert_eq!(steps("p(a,b,c). p(X,X,d). ?- p(Y,b,d)."), [[1]]);
}

#[test]
fn clauses_keep_their_numbers_when_predicates_are_interleaved() {
    let all = steps("p(a). q(a). p(b). q(b). ?- p(X), q(X).");
    assert_eq!(all, [[0, 1], [2, 3]]);
}

#[test]
fn a_cut_drops_its_own_goal_and_the_goals_called_since() {
    let rules = "p(X) :- q(X), r(X), !. p(c). q(a). q(b). r(b). r(b).";
    assert_eq!(steps(&format!("{rules} ?- p(X).")), [[0, 3, 4]]);
}

#[test]
fn a_cut_spares_the_goals_before_its_own() {
    let rules = "p(X) :- q(X), once. q(a). q(b). once :- r, !. once. r. r.";
    assert_eq!(
        steps(&format!("{rules} ?- p(X).")),
        [[0, 1, 3, 5], [0, 2, 3, 5]]
    );
    let callee = "p :- q. p. q :- !. q. ?- p.";
    assert_eq!(steps(callee), [vec![0, 2], vec![1]]);
}

#[test]
fn goals_after_a_cut_may_leave_choices() {
    assert_eq!(
        steps("p(X) :- !, q(X). p(c). q(a). q(b). ?- p(X)."),
        [[0, 2], [0, 3]]
    );
    assert_eq!(
        steps("p(X) :- q(X), !, q(Y). q(a). q(b). ?- p(X)."),
        [[0, 1, 1], [0, 1, 2]]
    );
}

#[test]
fn a_cut_as_last_goal_of_a_last_goal_is_its_own_clauses() {
    let rules = "p :- q. p. q :- r. q. r :- s, !. r. s. s.";
    assert_eq!(
        steps(&format!("{rules} ?- p.")),
        [vec![0, 2, 4, 6], vec![0, 3], vec![1]]
    );
}

#[test]
fn a_cut_in_the_query_drops_all_untried_clauses() {
    let rules = "p(a). p(b). q(X) :- p(X). q(c).";
    let ended = |query| text(&format!("{rules} ?- {query}."), SETTINGS);
    let all = |query| steps(&format!("{rules} ?- {query}."));
    assert_eq!(all("p(X), !"), [[0]]);
    assert_eq!(ended("p(X), !"), (20, 1, 2 + 1));
    // Of the goals below a goal too, and of every goal before it.
    assert_eq!(all("q(X), !"), [[2, 0]]);
    assert_eq!(all("p(X), q(Y), p(Z), !"), [[0, 2, 0, 0]]);
    // What fails behind it goes back to nothing.
    assert_eq!(ended("p(X), !, p(c)"), (20, 0, 2 + 1 + 2 * 2));
    // It costs its unit where there is nothing to drop.
    assert_eq!(ended("!, p(X)"), (20, 2, 1 + 2 * 2));
    assert_eq!(text("?- !, !.", SETTINGS), (20, 1, 2));
    let budget = |budget| Settings { budget, ..SETTINGS };
    assert_eq!(text("?- !, !.", budget(1)), (22, 0, 1));
}

#[test]
fn goals_behind_a_cut_in_the_query_leave_choices_again() {
    let rules = "p(a). p(b). p(c).";
    let all = |query| steps(&format!("{rules} ?- {query}."));
    assert_eq!(all("p(X), !, p(Y)"), [[0, 0], [0, 1], [0, 2]]);
    assert_eq!(
        all("p(X), !, p(Y), !, p(Z)"),
        [[0, 0, 0], [0, 0, 1], [0, 0, 2]]
    );
    let callee = "q(X) :- p(X), !. p(a). p(b). ?- q(X), p(Y), !, q(Z), p(W).";
    assert_eq!(steps(callee), [[0, 1, 1, 0, 1, 1], [0, 1, 1, 0, 1, 2]]);
}

#[test]
fn cells_stay_taken_after_a_cut() {
    // One cell for each finished goal: the third use needs a third cell.
    let rules = "p :- q(a), q(a), q(a). q(X) :- !. ?- p.";
    let cells = |cells| limits(Limits { cells, ..AMPLE });
    assert_eq!(text(rules, cells(3)), (20, 1, 1 + 3 * 3));
    assert_eq!(text(rules, cells(2)), (23, 0, 1 + 2 * 3 + 1));
}

#[test]
fn going_back_frees_cells_and_steps() {
    let rules = "p(a). p(b). p(c). q(X). ?- p(Y), q(Y).";
    let tight = Limits {
        cells: 2,
        steps: 2,
        work: 8,
    };
    assert_eq!(text(rules, limits(tight)), (20, 3, 3 * 2 + 3 * 2));
}

/// Naive reverse of 30 elements takes 496 inferences.
#[test]
fn naive_reverse_takes_496_steps() {
    let file = file(&examples::naive_reverse(30));
    let limits = Limits {
        cells: 4_000,
        steps: 496,
        work: 8,
    };
    let (outcome, out) = run(&file, Settings { limits, ..SETTINGS });
    assert_eq!(step_lists(&out)[0].len(), 496);
    assert_eq!(
        ended(&file, Settings { limits, ..SETTINGS }).0,
        20,
        "{outcome:?}"
    );
    let fewer = Limits {
        steps: 495,
        ..limits
    };
    assert_eq!(
        ended(
            &file,
            Settings {
                limits: fewer,
                ..SETTINGS
            }
        )
        .0,
        24
    );
}
