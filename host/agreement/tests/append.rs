//! Case A, and every file that is one byte away from it.

use agreement::compare::Tally;
use agreement::library::{check, check_part, said};
use second::damage::places;
use second::end::Refusal;

const APPEND: &[u8] = include_bytes!("../../../examples/append.rules");

fn refused(number: u32, place: usize) -> Result<(), Refusal> {
    Err(Refusal { number, place })
}

#[test]
fn it_is_good() {
    assert_eq!(APPEND.len(), 70);
    assert_eq!(check(APPEND), 0);
}

#[test]
fn every_change_of_one_byte() {
    let mut tally = Tally::default();
    for place in 0..APPEND.len() {
        for change in 1..=255 {
            let mut file = APPEND.to_vec();
            file[place] ^= change;
            let added = tally.add(&file);
            added.unwrap_or_else(|difference| panic!("{:02X?}: {difference}", file));
        }
    }
    assert_eq!(tally.files(), 70 * 255);
    // A good file has a byte for the end, and nothing else can stand there.
    let mut file = APPEND.to_vec();
    file[69] = 8;
    assert_eq!(said(check(&file)), refused(5, 69));
}

#[test]
fn every_truncation_is_4_at_its_last_record() {
    // The missing bytes stand after the part that is checked.
    let mut buffer = APPEND.to_vec();
    let places = places(APPEND);
    for length in 0..APPEND.len() {
        let last = *places.iter().rfind(|&&place| place <= length).unwrap();
        let number = check_part(&mut buffer, 0..length);
        assert_eq!(said(number), refused(4, last), "{length} bytes");
        assert_eq!(number, check(&APPEND[..length]));
    }
    assert_eq!(buffer, APPEND);
}

#[test]
fn every_byte_after_it_is_9() {
    for byte in 0..=255 {
        let file = [APPEND, &[byte]].concat();
        assert_eq!(said(check(&file)), refused(9, 70));
    }
}

#[test]
fn an_empty_file_is_4_at_0() {
    assert_eq!(check(&[]), 4 << 32);
}
