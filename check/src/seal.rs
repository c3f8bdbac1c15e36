//! Demand 3 on the compiled library: two runs from storages that differ in sealed bytes alone.
//!
//! The model's lists of reads and writes decide whether the premise holds for the first run: "If
//! no step of the first run, a stopped one included, reads a byte still sealed". Where it does,
//! what the library answers has to meet the conclusion.

use crate::faults::Fault;
use crate::gen::{self, Case, Rng};
use crate::lib_under_test as library;
use crate::model::{instruction_length, Machine, Model};
use std::fmt::Write;

/// What the trials came to.
#[derive(Default)]
pub struct Counts {
    pub trials: u64,
    /// The premise held, and a sealed byte did differ between the storages.
    pub held: u64,
    /// The premise held, with nothing that differed.
    pub held_idle: u64,
    /// Of `held`: a sealed byte was opened by a step's write.
    pub opened: u64,
    pub opened_bytes: u64,
    /// Sealed bytes that differed and were still sealed at the end.
    pub kept_bytes: u64,
    /// The premise failed; and of these, the runs did come out differently.
    pub failed: u64,
    pub failed_and_differed: u64,
    /// Of `held`: how the first run ended, and which opcodes it executed.
    pub ends: [u64; 19],
    pub executed: Vec<u64>,
    pub steps: u64,
}

impl Counts {
    pub fn missing(&self) -> Vec<String> {
        let mut missing = vec![];
        for number in [0, 1, 2, 3, 4, 5, 6, 7, 8, 9] {
            if self.ends[number] == 0 {
                missing.push(format!("the premise never held with number {number}"));
            }
        }
        for opcode in gen::known_opcodes() {
            if self.executed[opcode as usize] == 0 {
                missing.push(format!("the premise never held with opcode {opcode:02X}"));
            }
        }
        if self.opened == 0 || self.failed == 0 || self.failed_and_differed * 4 < self.failed {
            missing.push("too few opened, or too few runs that differed where the premise failed".into());
        }
        missing
    }
}

/// One step of the first run: what it read and wrote.
struct Touched {
    opcode: Option<u8>,
    number: u8,
    reads: Vec<usize>,
    writes: Vec<usize>,
}

pub struct Sealer {
    model: Model,
    rng: Rng,
    known: Vec<u8>,
    pub counts: Counts,
}

impl Sealer {
    pub fn new(seed: u64, model: Model) -> Sealer {
        let counts = Counts { executed: vec![0; 256], ..Counts::default() };
        Sealer { model, rng: Rng::new(seed), known: gen::known_opcodes(), counts }
    }

    /// One trial; a conclusion that doesn't hold comes back as a report.
    pub fn trial(&mut self) -> Result<(), String> {
        self.counts.trials += 1;
        let case = self.case();
        let touched = self.first_run(&case);
        let sealed = self.choose(&case, &touched);
        let other = self.differing(&case.storage, &sealed);
        let (premise, still) = self.premise(&sealed, &touched);
        let first = self.library_run(&case, &case.storage);
        let second = self.library_run(&case, &other);
        let conclusion = concluded(&case.storage, &other, &first, &second, &still);
        if !premise {
            self.counts.failed += 1;
            self.counts.failed_and_differed += conclusion.is_err() as u64;
            return Ok(());
        }
        self.count_held(&case.storage, &other, &still, &touched, first.0);
        conclusion.map_err(|what| self.report(&case, &other, &sealed, &what))
    }

    fn case(&mut self) -> Case {
        let rng = &mut self.rng;
        let size = gen::small_size(rng);
        if rng.one_in(3) {
            let opcode = if rng.one_in(16) { rng.byte() } else { rng.pick(&self.known) };
            let q = gen::q_for(rng, opcode);
            let mut case = gen::aimed(rng, opcode, q, size);
            case.budget = 1 + rng.below(3) as u32;
            return case;
        }
        let mut case = gen::program(rng, &self.known, size, false);
        case.budget = rng.below(32) as u32;
        match rng.below(128) {
            0 => case.m.status |= 0x80,
            1 => case.budget = 16_777_217,
            2 => {
                case.storage.pop();
            }
            _ => (),
        }
        case
    }

    fn first_run(&self, case: &Case) -> Vec<Touched> {
        let (mut m, mut storage) = (case.m, case.storage.clone());
        let mut touched = vec![];
        self.model.run_watched(&mut m, &mut storage, case.budget, &mut |t, stepped| {
            touched.push(Touched {
                opcode: t.opcode,
                number: stepped.number,
                reads: t.reads.clone(),
                writes: t.writes.clone(),
            });
        });
        touched
    }

    /// A set of sealed bytes: all that the first run doesn't need, some of them, one more, any.
    fn choose(&mut self, case: &Case, touched: &[Touched]) -> Vec<bool> {
        let size = case.storage.len();
        let mut sealed = vec![false; size];
        let manner = self.rng.below(8);
        if manner == 0 {
            let rate = 1 + self.rng.below(64);
            sealed.iter_mut().for_each(|s| *s = self.rng.one_in(rate));
            return sealed;
        }
        let mut needed = vec![false; size];
        let mut written = vec![false; size];
        for step in touched {
            self.in_order(step, |address, is_read| {
                if !is_read {
                    written[address] = true;
                } else if !written[address] {
                    needed[address] = true;
                }
            });
        }
        let rate = if manner < 4 { 1 } else { 1 + self.rng.below(8) };
        for (seal, need) in sealed.iter_mut().zip(&needed) {
            *seal = !need && self.rng.one_in(rate);
        }
        if manner >= 6 {
            // one byte too many
            let all: Vec<usize> = (0..size).filter(|a| needed[*a]).collect();
            if !all.is_empty() {
                sealed[self.rng.pick(&all)] = true;
            }
        }
        sealed
    }

    /// "A byte read and written by one step counts as read first."
    fn in_order(&self, step: &Touched, mut touch: impl FnMut(usize, bool)) {
        if self.model.fault == Fault::ReadAndWrittenCountsAsWritten {
            step.writes.iter().for_each(|a| touch(*a, false));
        }
        step.reads.iter().for_each(|a| touch(*a, true));
        step.writes.iter().for_each(|a| touch(*a, false));
    }

    /// The other storage: sealed bytes changed, nearly all of them.
    fn differing(&mut self, storage: &[u8], sealed: &[bool]) -> Vec<u8> {
        let mut other = storage.to_vec();
        for (byte, seal) in other.iter_mut().zip(sealed) {
            if *seal && !self.rng.one_in(16) {
                *byte = match self.rng.below(4) {
                    0 => *byte ^ (1 << self.rng.below(8)),
                    1 => self.rng.pick(&[0x20, 0xF0, 0xF5, 0xD3, 0x00, 0xFF]),
                    _ => self.rng.byte(),
                };
            }
        }
        other
    }

    /// Whether no step reads a byte still sealed, and what is still sealed at the end: "A sealed
    /// byte opens once an earlier step has written it."
    fn premise(&self, sealed: &[bool], touched: &[Touched]) -> (bool, Vec<bool>) {
        let mut still = sealed.to_vec();
        let mut held = true;
        for step in touched {
            self.in_order(step, |address, is_read| {
                if is_read {
                    held &= !still[address];
                } else {
                    still[address] = false;
                }
            });
        }
        (held, still)
    }

    fn library_run(&self, case: &Case, storage: &[u8]) -> Outcome {
        let (mut m, mut bytes) = (case.m, storage.to_vec());
        let ended = library::run(&mut m, &mut bytes, case.budget);
        ((ended.number, ended.q, ended.r, ended.steps), m, bytes)
    }

    fn count_held(&mut self, one: &[u8], other: &[u8], still: &[bool], touched: &[Touched], end: (u8, u8, u8, u32)) {
        let counts = &mut self.counts;
        let differing: Vec<usize> = (0..one.len()).filter(|a| one[*a] != other[*a]).collect();
        if differing.is_empty() {
            counts.held_idle += 1;
            return;
        }
        counts.held += 1;
        let kept = differing.iter().filter(|a| still[**a]).count() as u64;
        counts.kept_bytes += kept;
        counts.opened_bytes += differing.len() as u64 - kept;
        counts.opened += (kept < differing.len() as u64) as u64;
        counts.ends[end.0 as usize % 19] += 1;
        counts.steps += end.3 as u64;
        for step in touched {
            let executed = step.number == 0 || step.number == 9;
            if let (Some(opcode), true) = (step.opcode, executed) {
                counts.executed[opcode as usize] += 1;
            }
        }
    }

    fn report(&self, case: &Case, other: &[u8], sealed: &[bool], what: &str) -> String {
        let mut text = format!("sealed trial {}: {what}\n", self.counts.trials);
        let _ = writeln!(text, "machine {:X?} budget {}", case.m, case.budget);
        let iar = case.m.iar as usize;
        let length = case.storage.get(iar).and_then(|o| instruction_length(*o)).unwrap_or(1);
        let shown: Vec<u8> = case.storage.iter().copied().skip(iar).take(length).collect();
        let _ = writeln!(text, "first instruction {shown:02X?}");
        for (address, byte) in case.storage.iter().enumerate() {
            let mark = if sealed[address] { format!("/{:02X}", other[address]) } else { String::new() };
            let gap = if address % 32 == 31 { "\n" } else { " " };
            let _ = write!(text, "{byte:02X}{mark}{gap}");
        }
        text
    }
}

type Outcome = ((u8, u8, u8, u32), Machine, Vec<u8>);

/// "then both runs give the same stop, registers and step count, and the same status and call
/// bytes. Their storages end equal at every byte not still sealed, and each byte still sealed
/// keeps its own starting value."
fn concluded(one: &[u8], other: &[u8], first: &Outcome, second: &Outcome, still: &[bool]) -> Result<(), String> {
    if first.0 != second.0 {
        return Err(format!("ended {:?} and {:?}", first.0, second.0));
    }
    if first.1 != second.1 {
        return Err(format!("machines {:X?} and {:X?}", first.1, second.1));
    }
    for address in 0..one.len() {
        if still[address] {
            if first.2[address] != one[address] || second.2[address] != other[address] {
                return Err(format!("sealed byte {address:04X} didn't keep its value"));
            }
        } else if first.2[address] != second.2[address] {
            return Err(format!("byte {address:04X} differs and isn't sealed"));
        }
    }
    Ok(())
}
