//! The harness: trials that give the library and the model the same input and compare number,
//! call bytes, steps, the whole record, every byte lent and the bytes beside what was lent.

use crate::fast;
use crate::gen::{self, Case, Rng};
use crate::lib_under_test as library;
use crate::model::{instruction_length, Machine, Model, Stepped, Trace, BUDGET_LIMIT};
use std::fmt::Write;

/// The kinds of trial, and how often each comes in a round of the schedule.
#[derive(Clone, Copy, PartialEq, Eq, Debug)]
pub enum Kind {
    StepRandom,
    StepEveryQ,
    StepAimed,
    StepZoned,
    StepEdit,
    StepInsert,
    StepEntry,
    StepWide,
    RunProgram,
    RunRandom,
    RunLong,
    RunEntry,
    RunFull,
    ReadValid,
    ReadDamaged,
    ReadTruncated,
    ReadNoise,
    Write,
    WriteEntry,
    RoundTrip,
    FastStep,
    FastSums,
    FastRun,
}

const SCHEDULE: &[(Kind, usize)] = &[
    (Kind::StepRandom, 10),
    (Kind::StepEveryQ, 50),
    (Kind::StepAimed, 80),
    (Kind::StepZoned, 50),
    (Kind::StepEdit, 20),
    (Kind::StepInsert, 10),
    (Kind::StepEntry, 4),
    (Kind::StepWide, 6),
    (Kind::RunProgram, 40),
    (Kind::RunRandom, 6),
    (Kind::RunLong, 6),
    (Kind::RunEntry, 4),
    (Kind::ReadValid, 6),
    (Kind::ReadDamaged, 24),
    (Kind::ReadTruncated, 6),
    (Kind::ReadNoise, 4),
    (Kind::Write, 8),
    (Kind::WriteEntry, 3),
    (Kind::RoundTrip, 5),
    (Kind::FastStep, 30),
    (Kind::FastSums, 30),
    (Kind::FastRun, 20),
];

pub const KINDS: &[(Kind, &str)] = &[
    (Kind::StepRandom, "step, storage and registers at random"),
    (Kind::StepEveryQ, "step, every opcode byte with every Q"),
    (Kind::StepAimed, "step, known opcodes, operands aimed"),
    (Kind::StepZoned, "step, ZAZ AZ SZ on zoned fields"),
    (Kind::StepEdit, "step, ED"),
    (Kind::StepInsert, "step, ITC"),
    (Kind::StepEntry, "step, sizes and status not allowed"),
    (Kind::StepWide, "step, 256 pages, many at the top"),
    (Kind::RunProgram, "run, programs, small budgets"),
    (Kind::RunRandom, "run, storage at random"),
    (Kind::RunLong, "run, programs that stop, budgets to 16,777,216"),
    (Kind::RunEntry, "run, sizes, budgets, status not allowed"),
    (Kind::RunFull, "run, the whole budget of 16,777,216"),
    (Kind::ReadValid, "read, valid decks"),
    (Kind::ReadDamaged, "read, damaged decks"),
    (Kind::ReadTruncated, "read, decks cut at each place"),
    (Kind::ReadNoise, "read, bytes at random"),
    (Kind::Write, "write, room exact, short and more"),
    (Kind::WriteEntry, "write, sizes and status not allowed"),
    (Kind::RoundTrip, "write and read again"),
    (Kind::FastStep, "both yardsticks against the model, one step"),
    (Kind::FastSums, "both yardsticks against the model, AZ SZ ALC SLC"),
    (Kind::FastRun, "both yardsticks against the model, runs"),
];

/// Bytes kept on both sides of what is lent, to see that they stay.
const GUARD: usize = 16;
const GUARD_BYTE: u8 = 0xA5;

/// A lent buffer between guards.
#[derive(Default)]
struct Lent {
    bytes: Vec<u8>,
}

impl Lent {
    fn lend(&mut self, from: &[u8]) -> &mut [u8] {
        self.bytes.clear();
        self.bytes.resize(GUARD, GUARD_BYTE);
        self.bytes.extend_from_slice(from);
        self.bytes.resize(GUARD + from.len() + GUARD, GUARD_BYTE);
        self.inside()
    }

    fn inside(&mut self) -> &mut [u8] {
        let end = self.bytes.len() - GUARD;
        &mut self.bytes[GUARD..end]
    }

    fn guards_stay(&self) -> bool {
        let end = self.bytes.len() - GUARD;
        self.bytes[..GUARD].iter().chain(&self.bytes[end..]).all(|byte| *byte == GUARD_BYTE)
    }
}

pub const MNEMONICS: [&str; 25] = [
    "ZAZ", "AZ", "SZ", "MVX", "ED", "ITC", "MVC", "CLC", "ALC", "SLC", "ST", "L", "A", "S", "TBN", "TBF", "SBN", "SBF",
    "MVI", "CLI", "SLI", "BC", "JC", "LA", "SVC",
];

/// The row of a known opcode in `MNEMONICS`.
pub fn row_of(opcode: u8) -> Option<usize> {
    instruction_length(opcode)?;
    let right = opcode & 0x0F;
    let name = match opcode >> 4 {
        0xC..=0xE => ["BC", "", "LA"][right as usize],
        0xF => ["BC", "JC", "JC", "", "SVC"][right as usize],
        3 | 7 | 0xB => ["ST", "L", "A", "S", "TBN", "TBF", "SBN", "SBF", "MVI", "CLI", "", "SLI"][right as usize - 4],
        _ => ["ZAZ", "", "AZ", "SZ", "MVX", "", "ED", "ITC", "MVC", "CLC", "ALC", "SLC"][right as usize - 4],
    };
    MNEMONICS.iter().position(|m| *m == name)
}

/// How operands lie: columns of the table of relations.
pub const APART_LEFT: usize = 0;
pub const APART_RIGHT: usize = 1;
pub const SAME: usize = 2;
pub const NESTED: usize = 3;
/// Operand 2 ends 1 to 15 bytes to the right, overlapping; then 1 to 15 to the left.
pub const SHIFT_RIGHT: usize = 4;
pub const SHIFT_LEFT: usize = 19;
pub const BOTTOM1: usize = 34;
pub const BELOW1: usize = 35;
pub const TOP1: usize = 36;
pub const BEYOND1: usize = 37;
pub const BOTTOM2: usize = 38;
pub const BELOW2: usize = 39;
pub const TOP2: usize = 40;
pub const BEYOND2: usize = 41;
pub const ITSELF1: usize = 42;
pub const ITSELF2: usize = 43;
pub const WRAP1: usize = 44;
pub const WRAP2: usize = 45;
pub const AT_END: usize = 46;
pub const NEXT_WRAPS: usize = 47;
pub const CUT_SHORT: usize = 48;
pub const NO_OPERAND2: usize = 49;
pub const COLUMNS: usize = 50;

pub fn column_name(column: usize) -> String {
    let names = [
        "bottom exactly, 1",
        "one below, 1",
        "top exactly, 1",
        "one beyond, 1",
        "bottom exactly, 2",
        "one below, 2",
        "top exactly, 2",
        "one beyond, 2",
        "operand 1 on the instruction",
        "operand 2 on the instruction",
        "base wraps, 1",
        "base wraps, 2",
        "instruction ends the storage",
        "next address wraps",
        "instruction cut short",
        "no operand 2",
    ];
    match column {
        APART_LEFT => "apart, 1 left of 2".into(),
        APART_RIGHT => "apart, 1 right of 2".into(),
        SAME => "equal".into(),
        NESTED => "2 inside 1".into(),
        SHIFT_RIGHT..=18 => format!("2 right by {}", column - SHIFT_RIGHT + 1),
        SHIFT_LEFT..=33 => format!("2 left by {}", column - SHIFT_LEFT + 1),
        _ => names[column - BOTTOM1].into(),
    }
}

/// Whether a run of the harness has to meet the relation for the instruction.
fn required(row: usize, column: usize) -> bool {
    let name = MNEMONICS[row];
    let jump = matches!(name, "BC" | "JC" | "LA" | "SVC");
    let two = row < 10;
    match column {
        AT_END | CUT_SHORT => true,
        NEXT_WRAPS => name != "SVC",
        NO_OPERAND2 => name == "ED",
        WRAP1 => name != "SVC",
        _ if jump => false,
        BOTTOM1 | TOP1 | BEYOND1 | ITSELF1 => true,
        BELOW1 => !matches!(name, "MVX" | "ITC") && (two || row < 14),
        _ if !two => false,
        BELOW2 => !matches!(name, "MVX" | "ITC"),
        NESTED => matches!(name, "ZAZ" | "AZ" | "SZ" | "ED" | "ITC"),
        SHIFT_RIGHT..=33 => !matches!(name, "MVX" | "ITC"),
        _ => true,
    }
}

/// What a run of the harness has met.
pub struct Coverage {
    pub trials: Vec<u64>,
    pub step: [u64; 19],
    pub run: [u64; 19],
    pub read: [u64; 19],
    pub write: [u64; 19],
    pub executed: [u64; 256],
    pub fetched: [u64; 256],
    pub q_seen: Vec<bool>,
    pub relations: Vec<[u64; COLUMNS]>,
}

impl Coverage {
    fn new() -> Coverage {
        Coverage {
            trials: vec![0; KINDS.len()],
            step: [0; 19],
            run: [0; 19],
            read: [0; 19],
            write: [0; 19],
            executed: [0; 256],
            fetched: [0; 256],
            q_seen: vec![false; 65_536],
            relations: vec![[0; COLUMNS]; MNEMONICS.len()],
        }
    }

    fn note(&mut self, t: &Trace, stepped: Stepped, size: usize) {
        let Some(opcode) = t.opcode else {
            return;
        };
        self.fetched[opcode as usize] += 1;
        if stepped.number == 0 || stepped.number == 9 {
            self.executed[opcode as usize] += 1;
        }
        let Some(row) = row_of(opcode) else {
            return;
        };
        let seen = &mut self.relations[row];
        let Some((iar, length)) = t.instruction else {
            seen[CUT_SHORT] += 1;
            return;
        };
        self.q_seen[opcode as usize * 256 + t.q.unwrap_or(0) as usize] = true;
        seen[AT_END] += (iar + length == size) as u64;
        seen[NEXT_WRAPS] += (iar + length == 65_536 && stepped.number == 0) as u64;
        seen[WRAP1] += t.wrapped1 as u64;
        seen[WRAP2] += t.wrapped2 as u64;
        let size = size as i64;
        let (begin, end) = (iar as i64, (iar + length) as i64 - 1);
        if let Some((first, last)) = t.operand1 {
            seen[BOTTOM1] += (first == 0) as u64;
            seen[BELOW1] += (first == -1) as u64;
            seen[TOP1] += (last == size - 1) as u64;
            seen[BEYOND1] += (last == size) as u64;
            seen[ITSELF1] += (first <= end && begin <= last) as u64;
        }
        let Some((first2, last2)) = t.operand2 else {
            seen[NO_OPERAND2] += (stepped.number == 0) as u64;
            return;
        };
        seen[BOTTOM2] += (first2 == 0) as u64;
        seen[BELOW2] += (first2 == -1) as u64;
        seen[TOP2] += (last2 == size - 1) as u64;
        seen[BEYOND2] += (last2 == size) as u64;
        seen[ITSELF2] += (first2 <= end && begin <= last2) as u64;
        let Some((first1, last1)) = t.operand1 else {
            return;
        };
        // how the operands lie to each other counts where the instruction was executed
        if stepped.number != 0 {
            return;
        }
        if last1 < first2 {
            seen[APART_LEFT] += 1;
            return;
        }
        if last2 < first1 {
            seen[APART_RIGHT] += 1;
            return;
        }
        let same = (first1, last1) == (first2, last2);
        seen[SAME] += same as u64;
        seen[NESTED] += (!same && first1 <= first2 && last2 <= last1) as u64;
        let shift = last2 - last1;
        if (1..=15).contains(&shift) {
            seen[SHIFT_RIGHT + shift as usize - 1] += 1;
        }
        if (1..=15).contains(&-shift) {
            seen[SHIFT_LEFT + (-shift) as usize - 1] += 1;
        }
    }

    /// What the run should have met and didn't.
    pub fn missing(&self) -> Vec<String> {
        let mut missing = vec![];
        let mut numbers = |name: &str, seen: &[u64; 19], wanted: &[usize]| {
            for n in wanted.iter().filter(|n| seen[**n] == 0) {
                missing.push(format!("{name}: number {n}"));
            }
        };
        numbers("step", &self.step, &[0, 1, 3, 4, 5, 6, 7, 8, 9]);
        numbers("run", &self.run, &[0, 1, 2, 3, 4, 5, 6, 7, 8, 9]);
        numbers("read", &self.read, &[0, 1, 3, 11, 12, 13, 14, 15, 16]);
        numbers("write", &self.write, &[0, 1, 3, 17]);
        for opcode in 0..=255u8 {
            if self.fetched[opcode as usize] == 0 {
                missing.push(format!("opcode {opcode:02X} never fetched"));
            }
            if instruction_length(opcode).is_none() {
                continue;
            }
            if self.executed[opcode as usize] == 0 {
                missing.push(format!("opcode {opcode:02X} never executed"));
            }
            for q in 0..=255u8 {
                if !self.q_seen[opcode as usize * 256 + q as usize] {
                    missing.push(format!("opcode {opcode:02X} never with Q {q:02X}"));
                }
            }
        }
        for (row, seen) in self.relations.iter().enumerate() {
            for column in (0..COLUMNS).filter(|column| required(row, *column) && seen[*column] == 0) {
                missing.push(format!("{}: {}", MNEMONICS[row], column_name(column)));
            }
        }
        for (kind, count) in KINDS.iter().zip(&self.trials) {
            if *count == 0 {
                missing.push(format!("kind of trial: {}", kind.1));
            }
        }
        missing
    }
}

pub struct Harness {
    model: Model,
    rng: Rng,
    known: Vec<u8>,
    round: Vec<Kind>,
    every_q: usize,
    truncated_at: usize,
    number: u64,
    pub coverage: Coverage,
    lent: Lent,
    lent_out: Lent,
    copy: Vec<u8>,
    trace: Trace,
}

impl Harness {
    pub fn new(seed: u64, model: Model) -> Harness {
        let mut rng = Rng::new(seed);
        let mut round = vec![];
        for (kind, times) in SCHEDULE {
            round.extend(std::iter::repeat_n(*kind, *times));
        }
        // shuffled, so that a short run meets every kind
        for i in (1..round.len()).rev() {
            round.swap(i, rng.below(i + 1));
        }
        Harness {
            model,
            rng,
            known: gen::known_opcodes(),
            round,
            every_q: 0,
            truncated_at: 0,
            number: 0,
            coverage: Coverage::new(),
            lent: Lent::default(),
            lent_out: Lent::default(),
            copy: vec![],
            trace: Trace::default(),
        }
    }

    /// The next trial of the schedule; a difference comes back as its report.
    pub fn trial(&mut self) -> Result<(), String> {
        let kind = self.round[self.number as usize % self.round.len()];
        self.number += 1;
        self.trial_of(kind)
    }

    pub fn trial_of(&mut self, kind: Kind) -> Result<(), String> {
        let place = KINDS.iter().position(|k| k.0 == kind).unwrap_or(0);
        self.coverage.trials[place] += 1;
        let outcome = self.run_trial(kind);
        outcome.map_err(|report| format!("trial {} ({})\n{report}", self.number, KINDS[place].1))
    }

    fn run_trial(&mut self, kind: Kind) -> Result<(), String> {
        match kind {
            Kind::StepRandom => self.step_random(),
            Kind::StepEveryQ => self.step_every_q(),
            Kind::StepAimed => self.step_aimed(),
            Kind::StepZoned => self.step_among(&[4, 6, 7]),
            Kind::StepEdit => self.step_among(&[0xA]),
            Kind::StepInsert => self.step_among(&[0xB]),
            Kind::StepEntry => self.step_entry(),
            Kind::StepWide => self.step_wide(),
            Kind::RunProgram => self.run_program(),
            Kind::RunRandom => self.run_random(),
            Kind::RunLong => self.run_long(),
            Kind::RunEntry => self.run_entry(),
            Kind::RunFull => self.run_full(),
            Kind::ReadValid => self.read_valid(),
            Kind::ReadDamaged => self.read_damaged(),
            Kind::ReadTruncated => self.read_truncated(),
            Kind::ReadNoise => self.read_noise(),
            Kind::Write => self.write_room(),
            Kind::WriteEntry => self.write_entry(),
            Kind::RoundTrip => self.round_trip(),
            Kind::FastStep => self.fast_step(),
            Kind::FastSums => self.fast_sums(),
            Kind::FastRun => self.fast_run(),
        }
    }

    // ------------------------------------------------------------ generators of the kinds

    fn step_random(&mut self) -> Result<(), String> {
        let size = gen::small_size(&mut self.rng);
        let m = gen::machine(&mut self.rng, size);
        let mut storage = vec![0; size];
        storage.iter_mut().for_each(|byte| *byte = self.rng.byte());
        self.compare_step(&Case { m, storage, budget: 1 })
    }

    fn step_every_q(&mut self) -> Result<(), String> {
        let (opcode, q) = ((self.every_q / 256) as u8, self.every_q as u8);
        self.every_q = (self.every_q + 1) % 65_536;
        let size = gen::small_size(&mut self.rng);
        let mut case = gen::aimed(&mut self.rng, opcode, q, size);
        while case.m.iar as usize + instruction_length(opcode).unwrap_or(1) > size {
            case = gen::aimed(&mut self.rng, opcode, q, size);
        }
        self.compare_step(&case)
    }

    fn aimed_case(&mut self) -> Case {
        let opcode = self.rng.pick(&self.known);
        let q = gen::q_for(&mut self.rng, opcode);
        let size = gen::size(&mut self.rng);
        gen::aimed(&mut self.rng, opcode, q, size)
    }

    fn step_aimed(&mut self) -> Result<(), String> {
        let case = self.aimed_case();
        self.compare_step(&case)
    }

    fn case_among(&mut self, rights: &[u8]) -> Case {
        let left = self.rng.pick(&[0, 1, 2, 4, 5, 6, 8, 9, 0xA]);
        let opcode = left * 16 + self.rng.pick(rights);
        let q = gen::q_for(&mut self.rng, opcode);
        let size = gen::size(&mut self.rng);
        gen::aimed(&mut self.rng, opcode, q, size)
    }

    fn step_among(&mut self, rights: &[u8]) -> Result<(), String> {
        let case = self.case_among(rights);
        self.compare_step(&case)
    }

    /// Sizes that aren't allowed, status with bits 0 and 1, both, neither.
    fn entry_case(&mut self) -> Case {
        let mut case = self.aimed_case();
        let odd = self.rng.one_in(2);
        if odd {
            let size = gen::odd_size(&mut self.rng);
            case.storage.resize(size, 0x3C);
        }
        if self.rng.one_in(2) || !odd {
            case.m.status |= self.rng.pick(&[0x40, 0x80, 0xC0]);
        }
        case
    }

    fn step_entry(&mut self) -> Result<(), String> {
        let case = self.entry_case();
        self.compare_step(&case)
    }

    fn step_wide(&mut self) -> Result<(), String> {
        let row = self.rng.below(MNEMONICS.len());
        let opcodes: Vec<u8> = self.known.iter().copied().filter(|o| row_of(*o) == Some(row)).collect();
        let opcode = self.rng.pick(&opcodes);
        let q = gen::q_for(&mut self.rng, opcode);
        let mut case = gen::aimed(&mut self.rng, opcode, q, 65_536);
        let length = instruction_length(opcode).unwrap_or(3);
        if self.rng.one_in(2) {
            // the same instruction at the very top, or cut short there
            let cut = if self.rng.one_in(4) { 1 + self.rng.below(length - 1) } else { 0 };
            let from = case.m.iar as usize;
            let to = 65_536 - length + cut;
            let text: Vec<u8> = case.storage[from..65_536.min(from + length)].to_vec();
            for (i, byte) in text.iter().enumerate().take(65_536 - to) {
                case.storage[to + i] = *byte;
            }
            case.m.iar = to as u16;
        }
        self.compare_step(&case)
    }

    fn program_case(&mut self, straight: bool) -> Case {
        let size = if self.rng.one_in(40) { 65_536 } else { gen::small_size(&mut self.rng) };
        gen::program(&mut self.rng, &self.known, size, straight)
    }

    fn run_program(&mut self) -> Result<(), String> {
        let case = self.program_case(false);
        self.compare_run(&case)
    }

    fn run_random(&mut self) -> Result<(), String> {
        let size = gen::small_size(&mut self.rng);
        let m = gen::machine(&mut self.rng, size);
        let storage = gen::storage(&mut self.rng, size);
        let budget = self.rng.below(8) as u32;
        self.compare_run(&Case { m, storage, budget })
    }

    fn run_long(&mut self) -> Result<(), String> {
        let mut case = self.program_case(true);
        // the sound model tells whether the program stops soon
        let (mut m, mut storage) = (case.m, case.storage.clone());
        let soon = Model::sound().run(&mut m, &mut storage, 1000);
        let budget = self.rng.pick(&[BUDGET_LIMIT, BUDGET_LIMIT - 1, 1_000_000, 65_536, 65_535]);
        case.budget = if soon.number == 0 { 1000 } else { budget };
        self.compare_run(&case)
    }

    fn run_entry(&mut self) -> Result<(), String> {
        let mut case = self.entry_case();
        let over = [BUDGET_LIMIT + 1, BUDGET_LIMIT + 2, u32::MAX, 1 << 31, 1 << 25];
        let within = [0, 1, 2, 3];
        case.budget = if self.rng.one_in(2) { self.rng.pick(&over) } else { self.rng.pick(&within) };
        if self.rng.one_in(4) {
            case.m.status &= 0x3F;
        }
        self.compare_run(&case)
    }

    /// A jump to itself, for the whole budget and one that is refused.
    fn run_full(&mut self) -> Result<(), String> {
        let mut case = Case { m: Machine::default(), storage: vec![0; 256], budget: BUDGET_LIMIT };
        case.m.status = 1;
        case.storage[..7].copy_from_slice(&[0x3D, 0x40, 0x00, 0x01, 0xF1, 0x81, 0x07]);
        self.compare_run(&case)
    }

    fn deck_size(&mut self) -> usize {
        match self.rng.below(64) {
            0 => 65_536,
            1 => 256 * (1 + self.rng.below(256)),
            _ => 256 * (1 + self.rng.below(5)),
        }
    }

    /// The storage that a deck is read into: its own size mostly, else another.
    fn read_size(&mut self, size: usize) -> usize {
        match self.rng.below(16) {
            0 => gen::odd_size(&mut self.rng),
            1 => size + 256,
            2 => size - 1,
            _ => size,
        }
    }

    fn read_valid(&mut self) -> Result<(), String> {
        let size = self.deck_size();
        let deck = gen::valid_deck(&mut self.rng, size);
        let into = self.read_size(size);
        self.compare_read(&deck, into)
    }

    fn read_damaged(&mut self) -> Result<(), String> {
        let size = self.deck_size();
        let mut deck = gen::valid_deck(&mut self.rng, size);
        for _ in 0..1 + self.rng.below(2) {
            gen::damage(&mut self.rng, &mut deck);
        }
        let into = self.read_size(size);
        self.compare_read(&deck, into)
    }

    /// One after another every length of a deck of three pages.
    fn read_truncated(&mut self) -> Result<(), String> {
        let mut deck = gen::valid_deck(&mut self.rng, 768);
        self.truncated_at = (self.truncated_at + 1) % 800;
        deck.truncate(self.truncated_at);
        self.compare_read(&deck, 768)
    }

    fn read_noise(&mut self) -> Result<(), String> {
        let length = self.rng.below(64);
        let mut deck = vec![0; length];
        deck.iter_mut().for_each(|byte| *byte = self.rng.byte() & 0x43);
        let into = 256 * self.rng.below(4);
        self.compare_read(&deck, into)
    }

    fn write_room(&mut self) -> Result<(), String> {
        let size = self.deck_size();
        let (m, storage) = gen::for_deck(&mut self.rng, size);
        let length = Model::sound().deck_length(&m, &storage);
        let room = match self.rng.below(8) {
            0 => length - 1,
            1 => length + 1,
            2 => length + self.rng.below(600),
            3 => self.rng.below(length),
            4 => 0,
            _ => length,
        };
        self.compare_write(m, &storage, room)
    }

    fn write_entry(&mut self) -> Result<(), String> {
        let odd = self.rng.one_in(2);
        let size = if odd { gen::odd_size(&mut self.rng) } else { gen::small_size(&mut self.rng) };
        let (mut m, storage) = gen::for_deck(&mut self.rng, size);
        if self.rng.one_in(2) || !odd {
            m.status |= self.rng.pick(&[0x40, 0x80, 0xC0]);
        }
        let room = self.rng.below(2000);
        self.compare_write(m, &storage, room)
    }

    /// "A machine written as a deck and read again is that machine."
    fn round_trip(&mut self) -> Result<(), String> {
        let size = self.deck_size();
        let (m, storage) = gen::for_deck(&mut self.rng, size);
        let mut lent = m;
        let mut out = vec![0x77; 20 + 258 * (size / 256)];
        let written = library::write(&mut lent, &storage, &mut out);
        self.coverage.write[written.number as usize % 19] += 1;
        let mut again = gen::machine(&mut self.rng, size);
        let mut filled = vec![0x55; size];
        let number = library::read(&mut again, &out[..written.length], &mut filled);
        self.coverage.read[number as usize % 19] += 1;
        if written.number == 0 && number == 0 && again == m && lent == m && filled == storage {
            return Ok(());
        }
        Err(format!(
            "written {written:?}, read {number}\nmachine {m:?}\nread    {again:?}\n{}",
            dump(&storage, &filled)
        ))
    }

    fn fast_step(&mut self) -> Result<(), String> {
        let case = if self.rng.one_in(8) { self.entry_case() } else { self.aimed_case() };
        self.compare_fast(&case)
    }

    /// AZ, SZ, ALC and SLC, in which the yardsticks differ.
    fn fast_sums(&mut self) -> Result<(), String> {
        let case = self.case_among(&[6, 7, 0xE, 0xF]);
        self.compare_fast(&case)
    }

    fn fast_run(&mut self) -> Result<(), String> {
        let mut case = self.program_case(false);
        if self.rng.one_in(16) {
            case.budget = BUDGET_LIMIT + 1 + self.rng.below(2) as u32;
        }
        self.compare_fast(&case)
    }

    // ------------------------------------------------------------ comparisons

    fn compare_step(&mut self, case: &Case) -> Result<(), String> {
        let mut got = case.m;
        let answer = library::step(&mut got, self.lent.lend(&case.storage));
        self.copy.clear();
        self.copy.extend_from_slice(&case.storage);
        let mut wanted = case.m;
        let expected = self.model.step(&mut wanted, &mut self.copy, &mut self.trace);
        self.coverage.step[expected.number as usize % 19] += 1;
        self.coverage.note(&self.trace, expected, case.storage.len());
        let same = answer == expected && got == wanted && *self.lent.inside() == self.copy;
        if same && self.lent.guards_stay() {
            return Ok(());
        }
        let answers = format!("library {answer:?}\nmodel   {expected:?}");
        Err(self.report(case, &answers, &got, &wanted))
    }

    fn compare_run(&mut self, case: &Case) -> Result<(), String> {
        let mut got = case.m;
        let answer = library::run(&mut got, self.lent.lend(&case.storage), case.budget);
        self.copy.clear();
        self.copy.extend_from_slice(&case.storage);
        let mut wanted = case.m;
        let coverage = &mut self.coverage;
        let size = case.storage.len();
        let mut watch = |t: &Trace, stepped: Stepped| coverage.note(t, stepped, size);
        let expected = self.model.run_watched(&mut wanted, &mut self.copy, case.budget, &mut watch);
        self.coverage.run[expected.number as usize % 19] += 1;
        let same = answer == expected && got == wanted && *self.lent.inside() == self.copy;
        if same && self.lent.guards_stay() {
            return Ok(());
        }
        let answers = format!("library {answer:?}\nmodel   {expected:?}");
        Err(self.report(case, &answers, &got, &wanted))
    }

    /// Both yardsticks against the sound model.
    fn compare_fast(&mut self, case: &Case) -> Result<(), String> {
        self.copy.clear();
        self.copy.extend_from_slice(&case.storage);
        let mut wanted = case.m;
        let expected = Model::sound().run(&mut wanted, &mut self.copy, case.budget);
        for (name, run) in fast::YARDSTICKS {
            let mut got = case.m;
            let answer = run(&mut got, self.lent.lend(&case.storage), case.budget);
            let same = answer == expected && got == wanted && *self.lent.inside() == self.copy;
            if !same || !self.lent.guards_stay() {
                let answers = format!("yardstick by {name} {answer:?}\nmodel {expected:?}");
                return Err(self.report(case, &answers, &got, &wanted));
            }
        }
        Ok(())
    }

    fn compare_read(&mut self, deck: &[u8], size: usize) -> Result<(), String> {
        let mut old = vec![0; size];
        gen::fill(&mut self.rng, &mut old);
        let before = gen::machine(&mut self.rng, 256);
        let mut got = before;
        let lent_deck = deck.to_vec();
        let answer = library::read(&mut got, &lent_deck, self.lent.lend(&old));
        self.copy.clear();
        self.copy.extend_from_slice(&old);
        let (expected, wanted) = self.model.read(deck, &mut self.copy);
        self.coverage.read[expected as usize % 19] += 1;
        let same = answer == expected && got == wanted && *self.lent.inside() == self.copy && lent_deck == deck;
        if same && self.lent.guards_stay() {
            return Ok(());
        }
        let answers = format!("library {answer}\nmodel   {expected}\nthe deck, {} bytes:\n{}", deck.len(), hex(deck));
        Err(self.report(&Case { m: before, storage: old, budget: 0 }, &answers, &got, &wanted))
    }

    fn compare_write(&mut self, m: Machine, storage: &[u8], room: usize) -> Result<(), String> {
        let mut out = vec![0; room];
        gen::fill(&mut self.rng, &mut out);
        let mut got = m;
        let lent_storage = storage.to_vec();
        let answer = library::write(&mut got, &lent_storage, self.lent_out.lend(&out));
        let expected = self.model.write(&m, storage, &mut out);
        self.coverage.write[expected.number as usize % 19] += 1;
        let length = library::deck_length(&mut got, &lent_storage);
        let needed = self.model.deck_length(&m, storage);
        let same = answer == expected && got == m && length == needed && lent_storage == storage;
        if same && *self.lent_out.inside() == out && self.lent_out.guards_stay() {
            return Ok(());
        }
        let mut report = format!("library {answer:?} length {length}\nmodel   {expected:?} length {needed}\n");
        let _ = writeln!(report, "machine {m:X?}\nafter   {got:X?}\nroom {room}, storage of {} bytes:", storage.len());
        report += &hex(storage);
        report += "out, the library's against the model's:\n";
        report += &dump(self.lent_out.inside(), &out);
        Err(report)
    }

    fn report(&mut self, case: &Case, answers: &str, got: &Machine, wanted: &Machine) -> String {
        let mut report = String::new();
        let iar = case.m.iar as usize;
        let text: Vec<u8> = case.storage.iter().copied().skip(iar).take(6).collect();
        let _ = writeln!(report, "machine before {:X?}", case.m);
        let _ = writeln!(report, "bytes at IAR {text:02X?}, budget {}", case.budget);
        let _ = writeln!(report, "storage before, {} bytes:\n{}", case.storage.len(), hex(&case.storage));
        let _ = writeln!(report, "{answers}");
        let _ = writeln!(report, "under test: {got:X?}\nmodel:      {wanted:X?}");
        if !self.lent.guards_stay() {
            let _ = writeln!(report, "bytes beside the lent storage were changed");
        }
        report + &dump(self.lent.inside(), &self.copy)
    }
}

/// Rows of 32 bytes; rows of zeros are left out.
fn hex(bytes: &[u8]) -> String {
    let mut text = String::new();
    for (row, chunk) in bytes.chunks(32).enumerate() {
        if chunk.iter().all(|byte| *byte == 0) {
            continue;
        }
        let _ = write!(text, "  {:05X}:", row * 32);
        for byte in chunk {
            let _ = write!(text, " {byte:02X}");
        }
        text.push('\n');
    }
    text
}

/// The bytes in which two buffers differ.
fn dump(got: &[u8], wanted: &[u8]) -> String {
    let mut text = String::new();
    let differing = got.iter().zip(wanted).enumerate().filter(|(_, (a, b))| a != b);
    for (at, (a, b)) in differing.take(64) {
        let _ = writeln!(text, "  byte {at:05X}: {a:02X} against {b:02X}");
    }
    text
}
