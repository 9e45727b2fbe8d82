//! The time of a check, by the library and by the second program, for long
//! good files of several kinds. It fails where the library's time for a byte
//! grows with the length.

use std::hint::black_box;
use std::time::Instant;

use agreement::compare::agreed;
use agreement::files::kinds;
use agreement::library;
use second::reading;

const LENGTHS: [usize; 3] = [15_000, 30_000, 60_000];
const ROUNDS: usize = 40;
const CHECKS: usize = 10;

/// The time of one check in microseconds, over a few.
fn time(mut check: impl FnMut()) -> f64 {
    let start = Instant::now();
    (0..CHECKS).for_each(|_| check());
    start.elapsed().as_secs_f64() * 1e6 / CHECKS as f64
}

/// The least times of the library and of the second program, in turn.
fn least(file: &[u8]) -> (f64, f64) {
    let mut least = (f64::INFINITY, f64::INFINITY);
    for _ in 0..ROUNDS {
        let library = time(|| _ = black_box(library::check(black_box(file))));
        let second = time(|| _ = black_box(reading::check(black_box(file))));
        least = (least.0.min(library), least.1.min(second));
    }
    least
}

fn main() {
    println!("kind             bytes   library us  ns a byte  second us  library / second");
    let mut linear = true;
    for kind in kinds() {
        let mut each_byte = Vec::new();
        for bytes in LENGTHS {
            let file = kind.file(bytes);
            assert_eq!(file.len(), bytes);
            assert_eq!(agreed(&file), Ok(Ok(())));
            let (library, second) = least(&file);
            let byte = library * 1e3 / bytes as f64;
            let (name, ratio) = (kind.name, library / second);
            println!("{name:16} {bytes:6} {library:10.1} {byte:10.2} {second:10.1} {ratio:10.2}");
            each_byte.push(byte);
        }
        linear &= each_byte[2] < 1.5 * each_byte[0];
    }
    match linear {
        true => println!("linear: four times the length costs less than 1.5 times as much a byte"),
        false => {
            eprintln!("not linear: a byte of a long file costs 1.5 times as much, or more");
            std::process::exit(1);
        }
    }
}
