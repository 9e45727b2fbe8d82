//! Many calls at once, on buffers of their own, agree with one at a time.

use std::sync::Barrier;

use agreement::calls::{from_seed, Call};
use agreement::library::{call, check, run};
use second::end::is_end;

const THREADS: usize = 8;

/// All that the library says of a call and of its file, with the bytes written.
#[derive(PartialEq, Debug)]
struct Said {
    checked: u64,
    packed: u64,
    embedded_out: Vec<u8>,
    result: [u64; 12],
    scratch: Vec<u32>,
    out: Vec<u8>,
}

fn said(Call { case, .. }: &Call) -> Said {
    let mut embedded_out = vec![0x5A; case.room];
    let mut scratch = vec![0xABCD_1234; case.scratch_len];
    let mut out = vec![0x5A; case.room];
    let mut result = [7; 12];
    let packed = run(&case.file, case.budget, case.wanted, &mut embedded_out);
    call(case, &mut scratch, &mut out, &mut result);
    Said {
        checked: check(&case.file),
        packed,
        embedded_out,
        result,
        scratch,
        out,
    }
}

#[test]
fn many_calls_at_once_agree_with_one_at_a_time() {
    let calls = from_seed(500_000).filter(|(_, call)| call.case.scratch_len < 100_000);
    let calls: Vec<_> = calls.take(2_000).collect();
    let one_at_a_time: Vec<_> = calls.iter().map(|(_, call)| said(call)).collect();
    let start = Barrier::new(THREADS);
    let compared = std::thread::scope(|scope| {
        let thread = |number: usize| {
            let (calls, one_at_a_time, start) = (&calls, &one_at_a_time, &start);
            scope.spawn(move || {
                start.wait();
                // Two threads each have the same calls at the same time.
                let first = (number / 2) * calls.len() / THREADS;
                for place in (first..calls.len()).chain(0..first) {
                    let (seed, call) = &calls[place];
                    assert!(said(call) == one_at_a_time[place], "seed {seed}");
                }
                calls.len()
            })
        };
        let threads: Vec<_> = (0..THREADS).map(thread).collect();
        let ended = threads.into_iter().map(|thread| thread.join());
        ended.map(|count| count.expect("it agrees")).sum::<usize>()
    });
    assert_eq!(compared, THREADS * 2_000);
    let ends = one_at_a_time.iter().filter(|said| is_end(said.result[0]));
    assert!(ends.count() > 1_000);
}
