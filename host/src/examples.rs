//! Example programs in the text form, each with a size.
//!
//! Append, reverse and permutations come from the sources; the others are
//! made to use much of one thing: bindings, shared values, cells or steps.

/// A list of so many elements, taken in turn from four constants.
pub fn list(length: usize) -> String {
    let elements: Vec<_> = (0..length).map(|i| ["a", "b", "c", "d"][i % 4]).collect();
    format!("[{}]", elements.join(","))
}

/// So many times s around z.
pub fn successors(count: usize) -> String {
    format!("{}z{}", "s(".repeat(count), ")".repeat(count))
}

const APPEND: &str = "app([],L,L). app([H|T],L,[H|R]) :- app(T,L,R).";

/// All ways to split a list.
pub fn split(length: usize) -> String {
    format!("{APPEND} ?- app(X,Y,{}).", list(length))
}

/// All ways to split a list in three.
pub fn split_in_three(length: usize) -> String {
    format!("{APPEND} ?- app(X,Y,Z), app(Z,W,{}).", list(length))
}

/// Naive reverse: (n+1)(n+2)/2 inferences.
pub fn naive_reverse(length: usize) -> String {
    format!(
        "{APPEND} rev([],[]). rev([H|T],R) :- rev(T,S), app(S,[H],R). ?- rev({},R).",
        list(length)
    )
}

/// Naive reverse of so many times ten elements. A term nests to 32 levels, so
/// the list comes from goals.
pub fn long_reverse(tens: usize) -> String {
    let rest = |i| {
        if i == tens {
            "[]".to_string()
        } else {
            format!("L{i}")
        }
    };
    let goals: String = (0..tens)
        .map(|i| format!("ten({},{}), ", rest(i), rest(i + 1)))
        .collect();
    format!(
        "{APPEND} rev([],[]). rev([H|T],R) :- rev(T,S), app(S,[H],R).
         ten([a,b,c,d,a,b,c,d,a,b|T],T). ?- {goals}rev(L0,R)."
    )
}

/// All permutations of a list.
pub fn permutations(length: usize) -> String {
    format!(
        "sel(X,[X|T],T). sel(X,[H|T],[H|R]) :- sel(X,T,R).
         perm([],[]). perm(L,[X|P]) :- sel(X,L,R), perm(R,P). ?- perm({},P).",
        list(length)
    )
}

/// Walks in a graph whose nodes have numbers, from node 0.
pub fn walks(edges: &[(usize, usize)]) -> String {
    let edges: String = edges
        .iter()
        .map(|(a, b)| format!("edge(n{a},n{b}). "))
        .collect();
    format!("{edges} walk(X,X,[X]). walk(X,Z,[X|P]) :- edge(X,Y), walk(Y,Z,P). ?- walk(n0,Z,P).")
}

/// Two tables of one column, joined: a row has a number on the left and one on
/// the right, and stands with a fact beside both.
pub fn joined(rows: &[(usize, usize)]) -> String {
    let rows: String = rows
        .iter()
        .map(|(a, b)| format!("left(n{a}). beside. right(n{b}). "))
        .collect();
    format!("{rows} both(X) :- left(X), right(X), once. once :- beside, !. ?- both(X).")
}

/// The numbers, without end.
pub fn numbers() -> String {
    "nat(z). nat(s(N)) :- nat(N). ?- nat(X).".to_string()
}

/// All sums that give a number.
pub fn sums(number: usize) -> String {
    format!(
        "add(z,Y,Y). add(s(X),Y,s(Z)) :- add(X,Y,Z). ?- add(X,Y,{}).",
        successors(number)
    )
}

/// A number is doubled so many times: values deeper than any file term.
pub fn powers_of_two(times: usize) -> String {
    format!(
        "add(z,Y,Y). add(s(X),Y,s(Z)) :- add(X,Y,Z).
         pow(z,s(z)). pow(s(N),P) :- pow(N,M), add(M,M,P). ?- pow({},P).",
        successors(times)
    )
}

/// A chain of goals; each doubles a value twice by sharing it.
fn doublings(goals: usize, first: &str) -> String {
    let name = |i| {
        if i == 0 {
            first.to_string()
        } else {
            format!("B{i}")
        }
    };
    let chain: Vec<_> = (0..goals)
        .map(|i| format!("twice({},{})", name(i), name(i + 1)))
        .collect();
    chain.join(", ")
}

const TWICE: &str = "double(X,f(X,X)). twice(X,Z) :- double(X,Y), double(Y,Z).";

/// A value of 4^goals leaves is built and thrown away.
pub fn shared(goals: usize) -> String {
    format!("{TWICE} go :- {}. ?- go.", doublings(goals, "a"))
}

/// A value of 4^goals leaves is an answer's value.
pub fn shared_answer(goals: usize) -> String {
    format!("{TWICE} ?- {}.", doublings(goals, "a"))
}

/// A variable meets a value of 4^goals leaves, each of them itself.
pub fn shared_inside_itself(goals: usize) -> String {
    format!(
        "{TWICE} eq(V,V). go :- {}, eq(X,B{goals}). ?- go.",
        doublings(goals, "X")
    )
}

/// As `shared`, but two variables share each value: not one variable twice.
pub fn shared_by_two(goals: usize) -> String {
    format!(
        "double(X,f(X,Y)) :- eq(X,Y). twice(X,Z) :- double(X,Y), double(Y,Z). eq(V,V).
         go :- {}. ?- go.",
        doublings(goals, "a")
    )
}

/// Bars that notes and rests fill, of so many quarters.
pub fn bars(quarters: usize) -> String {
    format!(
        "bar(B) :- fill({},B). fill(z,[]). fill(N,[E|R]) :- event(E,D), less(N,D,M), fill(M,R).
         event(note(quarter),s(z)). less(N,z,N). event(rest(quarter),s(z)).
         less(s(N),s(D),M) :- less(N,D,M). event(note(half),s(s(z))). ?- bar(B).",
        successors(quarters)
    )
}

/// Bars in a row: no rest follows a rest.
pub fn bars_without_two_rests(length: usize) -> String {
    let unknown: Vec<_> = (0..length).map(|i| format!("E{i}")).collect();
    format!(
        "good([]). good([E]) :- event(E). good([E,F|R]) :- event(E), event(F), !, pair(E,F),
         good([F|R]). event(note). event(rest). pair(note,F). pair(rest,note).
         ?- good([{}]).",
        unknown.join(",")
    )
}
