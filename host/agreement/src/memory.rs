//! Calls by another process, tests/memory.c, whose buffers lie between walls.

use std::io::{BufRead, BufReader, BufWriter, Write};
use std::process::{Command, Stdio};

use second::call::{embedded, Memory, Outcome};
use second::end::is_end;
use second::reading::check;

use crate::calls::{told, Call, Tally, WORDS};

/// A call as the process reads it.
fn put(call: &Call, stream: &mut impl Write) -> std::io::Result<()> {
    let case = &call.case;
    let lengths = [case.file.len(), case.scratch_len, case.room, call.words];
    let limits = [case.limits.cells, case.limits.steps, case.limits.work];
    let words = lengths.map(|length| length as u32).into_iter();
    for word in words.chain(limits).chain([case.budget, case.wanted]) {
        stream.write_all(&word.to_ne_bytes())?;
    }
    stream.write_all(&case.file)
}

/// The sum over bytes, as the process takes it.
fn sum(bytes: &[u8]) -> u64 {
    let add = |sum: u64, &byte: &u8| sum.wrapping_mul(257).wrapping_add(u64::from(byte) + 1);
    bytes.iter().fold(0, add)
}

/// The line that has to come for a call, by the second program.
fn line(call: &Call, memory: &mut Memory) -> (Outcome, String) {
    let case = &call.case;
    let mut scratch = vec![0; case.scratch_len];
    let mut out = vec![0; case.room];
    let outcome = case.call(memory, &mut scratch, &mut out);
    let told = told(&outcome);
    let told_sum = match call.words {
        0..=4 => 0,
        _ => sum(&out[..told[4] as usize]),
    };
    let checked = check(&case.file).map_or_else(
        |refusal| u64::from(refusal.number) << 32 | refusal.place as u64,
        |()| 0,
    );
    let run = embedded(&case.file, case.budget, case.wanted, &mut out);
    let bytes = if is_end(run >> 32) { run as u32 } else { 0 };
    let words = told[..call.words.min(WORDS)].iter();
    let numbers = [checked].into_iter().chain(words.copied());
    let numbers = numbers.chain([run, sum(&out[..bytes as usize]), told_sum]);
    let numbers: Vec<_> = numbers.map(|number| number.to_string()).collect();
    (outcome, numbers.join(" "))
}

/// Compares on calls, each with its seed; the error names the seed, or says how
/// the process ended.
pub fn compare(command: &mut Command, calls: Vec<(u64, Call)>) -> Result<Tally, String> {
    let mut child = command
        .stdin(Stdio::piped())
        .stdout(Stdio::piped())
        .spawn()
        .map_err(|error| format!("{command:?}: {error}"))?;
    let mut stream = BufWriter::new(child.stdin.take().expect("its input"));
    let lines = BufReader::new(child.stdout.take().expect("its output")).lines();
    let mut memory = Memory::default();
    let mut tally = Tally::default();
    let mut difference = None;
    std::thread::scope(|scope| {
        // The process may end before it has read all.
        let calls = &calls;
        scope.spawn(move || calls.iter().all(|(_, call)| put(call, &mut stream).is_ok()));
        for ((seed, call), found) in calls.iter().zip(lines) {
            let (outcome, due) = line(call, &mut memory);
            let found = found.unwrap_or_default();
            tally.add(&outcome);
            if found != due && difference.is_none() {
                difference = Some(format!("seed {seed}: {found}, not {due}"));
            }
        }
    });
    let status = child.wait().map_err(|error| error.to_string())?;
    match difference {
        Some(difference) => Err(difference),
        None if !status.success() => Err(format!("{command:?}: {status}")),
        None if tally.calls() != calls.len() => Err(format!("{} lines", tally.calls())),
        None => Ok(tally),
    }
}
