//! Through the linked library: each field where the layout says, each answer of each call, and what a refusal leaves.
use super::*;

/// LA XR1, XR2, WR4 to WR7, L ARR from 0080, CLI 0080 against 00, SVC A1 A2.
const LOADS: [u8; 35] = [
    0xC2, 0x01, 0x11, 0x12, 0xC2, 0x02, 0x21, 0x22, 0xC2, 0x44, 0x31, 0x32, 0xC2, 0x45, 0x41, 0x42, 0xC2, 0x46, 0x51, 0x52, 0xC2, 0x47, 0x61, 0x62, 0x35, 0x08,
    0x00, 0x81, 0x3D, 0x00, 0x00, 0x80, 0xF4, 0xA1, 0xA2,
];

const LOADED: Machine = Machine { iar: 0x20, arr: 0x7172, xr1: 0x1112, xr2: 0x2122, wr: [0x3132, 0x4142, 0x5152, 0x6162], status: HIGH };

const DISTINCT: Machine = Machine { iar: 0, arr: 1, xr1: 2, xr2: 3, wr: [4, 5, 6, 7], status: EQUAL };

fn lent(code: &[u8]) -> [u8; 512] {
    let mut storage = [0; 512];
    storage[..code.len()].copy_from_slice(code);
    storage[0x80] = 0x71;
    storage[0x81] = 0x72;
    storage
}

/// One step of this code over a machine whose index registers are 0.
fn step_of(code: &[u8]) -> Answer {
    let mut machine = Machine { status: EQUAL, ..Machine::default() };
    let mut storage = lent(code);
    let answer = machine.step(&mut storage);
    if answer != Answer::Executed {
        assert_eq!((machine, storage), (Machine { status: EQUAL, ..Machine::default() }, lent(code)));
    }
    answer
}

fn deck() -> Vec<u8> {
    let storage = lent(&LOADS);
    let mut deck = vec![0; LOADED.deck_length(&storage).expect("two pages are allowed")];
    assert_eq!(LOADED.write(&storage, &mut deck), Ok(deck.len()));
    deck
}

/// What this deck is refused with: the machine zeroed, the storage as lent.
fn refusal_of(deck: &[u8], size: usize) -> ReadError {
    let mut machine = LOADED;
    let mut storage = vec![0xEE; size];
    let refused = machine.read(deck, &mut storage).expect_err("the deck has a fault");
    assert_eq!(machine, Machine::default());
    assert!(storage.iter().all(|b| *b == 0xEE));
    refused
}

/// The deck with one byte changed.
fn with(at: usize, byte: u8) -> Vec<u8> {
    let mut deck = deck();
    deck[at] = byte;
    deck
}

#[test]
fn every_register_comes_back_in_its_field() {
    let mut machine = DISTINCT;
    let mut storage = lent(&LOADS);
    assert_eq!(machine.step(&mut storage), Answer::Executed);
    assert_eq!(machine, Machine { iar: 4, xr1: 0x1112, ..DISTINCT });
    let ran = machine.run(&mut storage, 100);
    assert_eq!(ran, Ran { answer: Answer::Stopped(Stop::Supervisor { q: 0xA1, r: 0xA2 }), steps: 7 });
    assert_eq!(machine, LOADED);
    assert_eq!(machine.step(&mut storage), ran.answer);
}

#[test]
fn each_number_of_a_step() {
    assert_eq!(step_of(&[0x3C, 0xF1, 0x00, 0x10]), Answer::Executed);
    assert_eq!(step_of(&[0x00]), Answer::Stopped(Stop::OpcodeUnknown));
    assert_eq!(step_of(&[0x35, 0x99, 0x00, 0x10]), Answer::Stopped(Stop::QRefused));
    assert_eq!(step_of(&[0x35, 0x01, 0x00, 0x00]), Answer::Stopped(Stop::OperandOutside));
    assert_eq!(step_of(&[0x06, 0x00, 0x00, 0x20, 0x00, 0x00]), Answer::Executed);
    assert_eq!(step_of(&[0x06, 0x00, 0x00, 0x20, 0x00, 0x06, 0x0A]), Answer::Stopped(Stop::DigitRefused));
    assert_eq!(step_of(&[0xF4, 0x12, 0x34]), Answer::Stopped(Stop::Supervisor { q: 0x12, r: 0x34 }));
    let mut machine = Machine { iar: 512, ..DISTINCT };
    assert_eq!(machine.step(&mut lent(&[])), Answer::Stopped(Stop::CutShort));
    assert_eq!(machine.step(&mut [0; 255]), Answer::Refused(Refusal::Size));
    assert_eq!(machine.step(&mut []), Answer::Refused(Refusal::Size));
    machine.status = 0x40;
    assert_eq!(machine.step(&mut lent(&[])), Answer::Refused(Refusal::Status));
    assert_eq!(machine, Machine { iar: 512, status: 0x40, ..DISTINCT });
}

#[test]
fn a_run_counts_its_steps() {
    let mut machine = DISTINCT;
    let mut storage = lent(&LOADS);
    assert_eq!(machine.run(&mut storage, BUDGET_LIMIT + 1), Ran { answer: Answer::Refused(Refusal::Budget), steps: 0 });
    assert_eq!(machine.run(&mut storage, 0), Ran { answer: Answer::Executed, steps: 0 });
    assert_eq!(machine, DISTINCT);
    assert_eq!(machine.run(&mut storage, 3), Ran { answer: Answer::Executed, steps: 3 });
    assert_eq!(machine, Machine { iar: 12, xr1: 0x1112, xr2: 0x2122, wr: [0x3132, 5, 6, 7], ..DISTINCT });
    let mut jump = lent(&[0xC0, 0x00, 0x00, 0x00]);
    let mut machine = DISTINCT;
    assert_eq!(machine.run(&mut jump, BUDGET_LIMIT), Ran { answer: Answer::Executed, steps: BUDGET_LIMIT });
}

#[test]
fn a_machine_written_and_read_again_is_that_machine() {
    let deck = deck();
    assert_eq!(deck.len(), 20 + 258);
    assert_eq!(storage_size(&deck), 512);
    let mut machine = DISTINCT;
    let mut storage = [0xEE; 512];
    assert_eq!(machine.read(&deck, &mut storage), Ok(()));
    assert_eq!((machine, storage), (LOADED, lent(&LOADS)));
}

#[test]
fn each_number_of_the_reader() {
    let whole = deck();
    assert_eq!(refusal_of(&whole, 256), ReadError::Size);
    assert_eq!(refusal_of(&with(18, 0x80), 512), ReadError::Status);
    assert_eq!(refusal_of(&whole[..whole.len() - 1], 512), ReadError::EndsEarly);
    assert_eq!(refusal_of(&[], 0), ReadError::EndsEarly);
    assert_eq!(refusal_of(&with(19, 0x04), 512), ReadError::KindUnknown);
    assert_eq!(refusal_of(&with(0, 0x02), 512), ReadError::OutOfOrder);
    assert_eq!(refusal_of(&with(20, 0x02), 512), ReadError::PageBeyond);
    let mut zeros = whole.clone();
    zeros[21..277].fill(0);
    assert_eq!(refusal_of(&zeros, 512), ReadError::PageOfZeros);
    let mut longer = whole;
    longer.push(0);
    assert_eq!(refusal_of(&longer, 512), ReadError::BytesAfterEnd);
}

#[test]
fn each_number_of_the_writer() {
    let storage = lent(&LOADS);
    let mut out = [0xEE; 300];
    assert_eq!(LOADED.write(&storage[..300], &mut out), Err(WriteError::Size));
    assert_eq!(Machine { status: 0x80, ..LOADED }.write(&storage, &mut out), Err(WriteError::Status));
    assert_eq!(LOADED.write(&storage, &mut out[..277]), Err(WriteError::OutputShort));
    assert_eq!(out, [0xEE; 300]);
    assert_eq!(LOADED.write(&storage, &mut out), Ok(278));
    assert_eq!((&out[..278], &out[278..]), (&deck()[..], &[0xEE; 22][..]));
    assert_eq!(LOADED.deck_length(&storage[..300]), None);
    assert_eq!(LOADED.deck_length(&[0; STORAGE_LIMIT]), Some(20));
}

#[test]
fn numbers_and_enums_agree() {
    for number in 0..=9 {
        assert_eq!(answer_of(number, 0, 0).number(), number);
    }
    for number in [1, 3, 11, 12, 13, 14, 15, 16] {
        assert_eq!(read_of(number).unwrap_err().number(), number);
    }
    for number in [1, 3, 17] {
        assert_eq!(written_of(number, 0).unwrap_err().number(), number);
    }
}

#[test]
#[should_panic(expected = "no number 10")]
fn a_number_of_no_step_is_named() {
    answer_of(10, 0, 0);
}
