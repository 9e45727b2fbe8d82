//! Pairs of calls: where the library is given no less, it writes what it wrote
//! and goes on from there.

use agreement::pairs::{Form, Pair};
use second::damage::places;
use second::end::is_end;
use second::record::CUT;

/// Counts of pairs whose first call ended.
#[derive(Debug, Default)]
struct Tally {
    /// By the end of the first: those where both ended.
    ended: [usize; 27],
    /// By the refusal of the second: the others.
    refused: [usize; 10],
    /// By the part that was raised alone: those where the second wrote more.
    grown: [usize; 6],
    /// Those where the second wrote more and the file has a cut.
    grown_with_cut: usize,
}

/// Checks so many pairs that both end, and those between them, from a seed on.
fn check(form: Form, count: usize, first_seed: u64) -> Tally {
    let mut tally = Tally::default();
    let mut seeds = first_seed..;
    while tally.ended.iter().sum::<usize>() < count {
        let seed = seeds.next().expect("seeds");
        let pair = Pair::from_seed(seed);
        let (first, second) = (form.call(&pair.first), form.call(&pair.second));
        if let Some(what) = form.broken(&first, &second) {
            panic!("seed {seed}: {what}: {first:?}, {second:?}, {pair:?}");
        }
        match (is_end(first.number), is_end(second.number)) {
            (true, true) => tally.ended[first.number as usize] += 1,
            (true, false) => {
                tally.refused[second.number as usize] += 1;
                continue;
            }
            _ => continue,
        }
        if second.bytes.len() > first.bytes.len() {
            // The other way round nothing is promised, and it does not hold.
            assert!(form.broken(&second, &first).is_some(), "seed {seed}");
            let file = &pair.first.file;
            let cut = places(file).iter().any(|&place| file[place] == CUT);
            tally.grown_with_cut += usize::from(cut);
            if let [part] = pair.raised[..] {
                tally.grown[part as usize] += 1;
            }
        }
    }
    tally
}

#[test]
fn twenty_thousand_pairs() {
    let tally = check(Form::Whole, 20_000, 200_000);
    assert!(
        tally.ended[20..].iter().all(|&count| count >= 200),
        "{tally:?}"
    );
    assert!(
        tally.refused[1] >= 100 && tally.refused[3] >= 100,
        "{tally:?}"
    );
    let [cells, steps, work, others @ ..] = tally.grown;
    assert!(cells >= 100 && steps >= 100 && work >= 20, "{tally:?}");
    assert!(others.iter().all(|&count| count >= 200), "{tally:?}");
    assert!(tally.grown_with_cut >= 200, "{tally:?}");
}

#[test]
fn twenty_thousand_pairs_by_the_embedded_form() {
    let tally = check(Form::Embedded, 20_000, 300_000);
    for end in [20, 21, 22, 26] {
        assert!(tally.ended[end] >= 1_000, "{end}: {tally:?}");
    }
    let [.., budget, wanted, room] = tally.grown;
    assert!(budget >= 100 && wanted >= 100 && room >= 100, "{tally:?}");
    assert!(tally.grown_with_cut >= 200, "{tally:?}");
}
