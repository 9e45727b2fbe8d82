//! Calls of the library: its limits, and agreement with the second program on
//! many calls.

use std::time::{Duration, Instant};

use agreement::calls::{compare, from_seed, thresholds, Both, Call, Tally};
use agreement::library::{call, run};
use second::assemble::file;
use second::call::{Case, Limits, Outcome};
use second::damage::{counts, length};
use second::end::is_end;
use second::examples::{naive_reverse, shared, shared_answer, shared_by_two, shared_inside_itself};
use second::generate::good_program;
use second::random::Random;
use second::random_programs::{large_table, wide_and_deep};

const APPEND: &[u8] = include_bytes!("../../../examples/append.rules");

/// A call of a file that no small program brings to a stop.
fn ample(file: &[u8]) -> Case {
    let limits = Limits {
        cells: 500,
        steps: 300,
        work: 100,
    };
    Case {
        budget: 10_000,
        room: 10_000,
        ..Case::new(file, limits)
    }
}

/// End or refusal, place, answers and units of a library call, and the bytes
/// it wrote.
fn library(case: &Case) -> ([u64; 4], Vec<u8>) {
    let mut scratch = vec![0xABCD_1234; case.scratch_len];
    let mut out = vec![0x5A; case.room];
    let mut result = [7; 12];
    call(case, &mut scratch, &mut out, &mut result);
    let [number, place, answers, units, written, ..] = result;
    assert_eq!(result[5..], [0; 7]);
    let rest = out.split_off(written as usize);
    assert!(rest.iter().all(|&byte| byte == 0x5A));
    ([number, place, answers, units], out)
}

#[test]
fn refusals_before_and_in_the_file() {
    let refused = |number, place| ([number, place, 0, 0], vec![]);
    for (cells, steps, work) in [(0, 9, 9), (9, 60_001, 9), (9, 9, 7)] {
        let limits = Limits { cells, steps, work };
        assert_eq!(library(&Case::new(APPEND, limits)), refused(1, 0));
    }
    assert_eq!(library(&ample(&[9; 60_001])), refused(2, 0));
    assert_eq!(library(&ample(&[9; 60_000])), refused(5, 0));
    assert_eq!(library(&ample(&APPEND[..69])), refused(4, 69));
    let longer = [APPEND, &[9]].concat();
    assert_eq!(library(&ample(&longer)), refused(9, 70));
}

/// 4^15 is 2^30: no value is walked as a tree. A goal `twice` costs 3 units, and
/// 3 for each `double` that it calls; each `eq` costs 3 more.
#[test]
fn values_of_2_to_the_30_leaves_come_back_at_once() {
    let start = Instant::now();
    let ended = |text: String| library(&ample(&file(&text))).0;
    assert_eq!(ended(shared(15)), [20, 0, 1, 1 + 15 * 9]);
    assert_eq!(ended(shared_answer(15)), [26, 0, 0, 15 * 9]);
    assert_eq!(ended(shared_inside_itself(15)), [20, 0, 0, 1 + 15 * 9 + 3]);
    assert_eq!(ended(shared_by_two(15)), [20, 0, 1, 1 + 15 * 15]);
    assert!(start.elapsed() < Duration::from_secs(1));
}

#[test]
fn naive_reverse_of_thirty() {
    let reverse = file(&naive_reverse(30));
    // The list stands before the query's variable and the end record: for each
    // element a cons and the element itself, and then nil.
    let list = &reverse[reverse.len() - 3 - (30 * 6 + 3)..reverse.len() - 3];
    // The clauses in file order are both of append, then both of reverse.
    let mut steps = vec![3; 30];
    steps.push(2);
    for length in 0..30 {
        steps.extend(vec![1; length]);
        steps.push(0);
    }
    assert_eq!(steps.len(), 496);
    let mut answer = vec![0x0A, 0, 0, (496 >> 8) as u8, (496 & 255) as u8];
    for element in list[..180].chunks(6).rev() {
        answer.extend(element);
    }
    answer.extend(&list[180..]);
    answer.extend(steps.iter().flat_map(|&clause| [0x0C, 0, clause]));
    answer.push(0x0D);
    let with_steps = |steps| {
        let limits = Limits {
            cells: 4_000,
            steps,
            work: 100,
        };
        library(&Case {
            budget: 10_000,
            room: 10_000,
            ..Case::new(&reverse, limits)
        })
    };
    let ([end, _, answers, _], out) = with_steps(496);
    assert_eq!((end, answers), (20, 1));
    assert_eq!(out, answer);
    // With one step less there is no answer.
    let ([end, _, answers, _], out) = with_steps(495);
    assert_eq!((end, answers, out), (24, 0, vec![]));
}

/// Counts the files with more clauses, variables of a clause and variables of
/// the query than document 01 allowed.
fn count_larger(larger: &mut [usize; 3], file: &[u8]) {
    let counts = counts(file);
    larger[0] += usize::from(counts.clauses > 4_096);
    larger[1] += usize::from(counts.clause_variables > 32);
    larger[2] += usize::from(counts.query_variables > 32);
}

#[test]
fn twenty_thousand_calls() {
    let mut larger = [0; 3];
    let calls = from_seed(0).take(20_000);
    let calls = calls.inspect(|(_, call)| count_larger(&mut larger, &call.case.file));
    let tally = compare(calls).expect("no difference");
    assert_eq!(tally.calls(), 20_000);
    assert!(larger[0] >= 50, "{larger:?}");
    assert!(larger[1] >= 300 && larger[2] >= 300, "{larger:?}");
    for number in (1..=9).chain(20..=26) {
        assert!(tally.by_number[number] >= 20, "{number}: {tally:?}");
    }
}

#[test]
fn good_files_at_all_thresholds() {
    let mut random = Random::new(20_000);
    let mut both = Both::default();
    let mut tally = Tally::default();
    let mut larger = [0; 3];
    for _ in 0..600 {
        let file = match random.below(100) {
            0..=19 => wide_and_deep(&mut random, 20),
            20..=21 => large_table(&mut random, 8_192),
            _ => good_program(&mut random),
        };
        let file = file.bytes();
        count_larger(&mut larger, &file);
        let budget = *random.one_of(&[50, 500, 2_000]);
        let wanted = *random.one_of(&[1, 3, 1_000]);
        for call in thresholds(&file, budget, wanted) {
            let agreed = both.agreed(&call);
            tally.add(&agreed.unwrap_or_else(|difference| panic!("{difference}: {call:?}")));
        }
    }
    for number in 20..=26 {
        assert!(tally.by_number[number] >= 100, "{number}: {tally:?}");
    }
    assert!(larger.iter().all(|&count| count >= 5), "{larger:?}");
}

#[test]
fn every_length_of_scratch_output_and_result_near_what_is_needed() {
    let limits = Limits {
        cells: 10,
        steps: 2,
        work: 8,
    };
    let needed = 64 + 2 * 70 + 4 * 10 + 8 * 2 + 4 * 8;
    let mut both = Both::default();
    for scratch_len in [0, 1, needed - 1, needed, needed + 1, needed + 100] {
        for room in [0, 20, 21, 44, 45, 46, 100] {
            for words in 0..=14 {
                let case = Case {
                    file: APPEND.to_vec(),
                    limits,
                    budget: 18,
                    wanted: 3,
                    scratch_len,
                    room,
                };
                let call = Call {
                    words,
                    ..Call::new(case)
                };
                let due = match (scratch_len < needed, room) {
                    (true, _) => (3, 0),
                    (_, ..=20) => (26, 0),
                    (_, ..=44) => (26, 21),
                    _ => (20, 45),
                };
                let found = match both.agreed(&call).expect("no difference") {
                    Outcome::Refused { number, .. } => (number, 0),
                    Outcome::Ended { end, bytes, .. } => (end, bytes),
                };
                assert_eq!(found, due, "{call:?}");
            }
        }
    }
}

#[test]
fn a_call_twice_and_with_other_contents_of_its_buffers() {
    let mut both = Both::default();
    for (seed, mut call) in from_seed(30_000).take(2_000) {
        let mut said = Vec::new();
        for pattern in [call.pattern, call.pattern, !call.pattern] {
            call.pattern = pattern;
            said.push(both.agreed(&call).expect("no difference"));
        }
        assert!(said[0] == said[1] && said[1] == said[2], "{seed}: {said:?}");
    }
}

#[test]
fn the_embedded_form_takes_files_up_to_4000_bytes() {
    let mut both = Both::default();
    for (bytes, number) in [(3_999, None), (4_000, None), (4_001, Some(2 << 32))] {
        let file = length(bytes);
        assert_eq!(file.len(), bytes);
        let said = both.agreed_embedded(&file, 5_000, 9, 1_000);
        let said = said.expect("no difference");
        match number {
            Some(number) => assert_eq!(said, number),
            None => assert!(is_end(said >> 32), "{said:016X}"),
        }
    }
}

#[test]
fn the_embedded_form_agrees() {
    let mut both = Both::default();
    let mut by_number = [0; 27];
    for (seed, call) in from_seed(80_000).take(5_000) {
        let case = call.case;
        for _ in 0..2 {
            let agreed = both.agreed_embedded(&case.file, case.budget, case.wanted, case.room);
            let said = agreed.unwrap_or_else(|difference| panic!("{seed}: {difference}"));
            by_number[(said >> 32) as usize] += 1;
        }
    }
    for number in [2, 4, 5, 6, 7, 9, 20, 21, 22, 26] {
        assert!(by_number[number] >= 20, "{number}: {by_number:?}");
    }
}

#[test]
fn the_embedded_form_has_400_steps() {
    // The answer with so many steps has as many nodes in its value.
    let bytes: u64 = (1..=400).map(|steps| 6 + 3 * steps + 3 * steps).sum();
    let numbers = file("nat(z). nat(s(N)) :- nat(N). ?- nat(X).");
    let mut out = vec![0; 600_000];
    let most = 1_000_000;
    assert_eq!(run(&numbers, most, 400, &mut out), 21 << 32 | bytes);
    assert_eq!(run(&numbers, most, 401, &mut out), 24 << 32 | bytes);
}

#[test]
fn the_embedded_form_has_1000_cells() {
    // Each fact takes 8 cells, and there are 8 times 15 and 5 of them.
    let fact = |first| format!("f({first},a,a,a,a,a,a,a)");
    let query = |first| {
        let h = vec![fact("a"); 15].join(",");
        let rest = [vec!["h".to_string(); 8], vec![fact("a"); 4]].concat();
        let rest = rest.join(",");
        let clauses = format!("f(A,B,C,D,E,F,G,H). h :- {h}.");
        file(&format!("{clauses} ?- {},{rest}.", fact(first)))
    };
    // An answer of 133 steps, and one variable of the query more.
    let mut out = [0; 1_000];
    let ended = 20 << 32 | (6 + 3 * 133);
    assert_eq!(run(&query("a"), 10_000, 9, &mut out), ended);
    assert_eq!(run(&query("X"), 10_000, 9, &mut out), 23 << 32);
}

#[test]
fn the_embedded_form_has_room_for_200_pairs() {
    // Each of the 28 nodes takes one pair from the front and puts 8 there.
    let value = format!("{}a{}", "g(".repeat(28), ",a,a,a,a,a,a,a)".repeat(28));
    let fact = |others| file(&format!("p({value}{others}). ?- p({value}{others})."));
    let mut out = [0; 1_000];
    // Three arguments more make 200 pairs in all, four make 201.
    let ended = 20 << 32 | (6 + 3);
    assert_eq!(run(&fact(",a,a,a"), 10_000, 9, &mut out), ended);
    assert_eq!(run(&fact(",a,a,a,a"), 10_000, 9, &mut out), 25 << 32);
}
