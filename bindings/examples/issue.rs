//! An example host: reads a deck, runs it, prints what its supervisor calls ask for, and writes the deck of the machine that is left.
//! issue DECK OUTPUT. The calls are those of examples/issue.deck: R 01 prints the WR4 bytes of storage from XR1 on, R 02 ends.
use aqtovmesh::{storage_size, Answer, Machine, Stop};
use std::process::ExitCode;
use std::{env, fs};

const CALL_PRINT: u8 = 0x01;
const CALL_END: u8 = 0x02;
const CALL_LENGTH: u16 = 3;
const BUDGET: u32 = 1_000_000;

/// Code page 037: blank, digits, capitals and a few signs; '?' for the rest.
fn letter(b: u8) -> char {
    match b {
        0xF0..=0xF9 => (b'0' + (b - 0xF0)) as char,
        0xC1..=0xC9 => (b'A' + (b - 0xC1)) as char,
        0xD1..=0xD9 => (b'J' + (b - 0xD1)) as char,
        0xE2..=0xE9 => (b'S' + (b - 0xE2)) as char,
        0x40 => ' ',
        0x4B => '.',
        0x6B => ',',
        0x60 => '-',
        0x61 => '/',
        0x5C => '*',
        _ => '?',
    }
}

/// A line that doesn't lie in storage is the program's fault: nothing is printed.
fn line(machine: &Machine, storage: &[u8]) -> Option<String> {
    let at = usize::from(machine.xr1);
    let bytes = storage.get(at..at + usize::from(machine.wr[0]))?;
    Some(bytes.iter().map(|b| letter(*b)).collect())
}

fn issue(from: &str, to: &str) -> Result<String, String> {
    let deck = fs::read(from).map_err(|_| "no deck to read: 0")?;
    let mut storage = vec![0; storage_size(&deck)];
    let mut machine = Machine::default();
    machine.read(&deck, &mut storage).map_err(|e| e.to_string())?;

    let mut steps = 0u64;
    loop {
        let ran = machine.run(&mut storage, BUDGET);
        steps += u64::from(ran.steps);
        let Answer::Stopped(Stop::Supervisor { r, .. }) = ran.answer else {
            return Err(format!("stopped: {}", ran.answer.number()));
        };
        match r {
            CALL_END => break,
            CALL_PRINT => println!("{}", line(&machine, &storage).ok_or_else(|| format!("line outside storage: {r}"))?),
            _ => return Err(format!("unknown call: {r}")),
        }
        machine.iar = machine.iar.wrapping_add(CALL_LENGTH);
    }

    let mut out = vec![0; machine.deck_length(&storage).unwrap_or(0)];
    let length = machine.write(&storage, &mut out).map_err(|e| e.to_string())?;
    fs::write(to, &out[..length]).map_err(|_| "no file to write: 0")?;
    Ok(format!("{steps} steps, a deck of {length} bytes"))
}

fn main() -> ExitCode {
    let words: Vec<String> = env::args().skip(1).collect();
    let [from, to] = words.as_slice() else {
        println!("usage: issue DECK OUTPUT, not words: {}", words.len());
        return ExitCode::FAILURE;
    };
    match issue(from, to) {
        Ok(told) => {
            println!("{told}");
            ExitCode::SUCCESS
        }
        Err(fault) => {
            println!("{fault}");
            ExitCode::FAILURE
        }
    }
}
