//! `differ SEED COUNT`: the library against the model.

use check::examples;
use check::harness::{column_name, Coverage, Harness, Kind, COLUMNS, KINDS, MNEMONICS};
use check::model::{instruction_length, Model};
use std::process::exit;
use std::time::Instant;

fn argument(n: usize, default: u64) -> u64 {
    std::env::args().nth(n).map_or(default, |a| a.replace([',', '_'], "").parse().expect("a number"))
}

fn main() {
    let (seed, count) = (argument(1, 36), argument(2, 1_000_000));
    let begun = Instant::now();
    match examples::check() {
        Ok(examples) => println!("{examples:>9}  examples of the papers, model and library"),
        Err(report) => {
            println!("DIFFERENCE in an example: {report}");
            exit(1);
        }
    }
    let mut harness = Harness::new(seed, Model::sound());
    let full = harness.trial_of(Kind::RunFull);
    let outcome = full.and_then(|()| (0..count).try_for_each(|_| harness.trial()));
    if let Err(report) = outcome {
        println!("DIFFERENCE at seed {seed}\n{report}");
        exit(1);
    }
    print(&harness.coverage);
    let missing = harness.coverage.missing();
    for gap in missing.iter().take(50) {
        println!("not met: {gap}");
    }
    println!("{count} trials of seed {seed} in {:.1} s, {} gaps", begun.elapsed().as_secs_f64(), missing.len());
    if !missing.is_empty() {
        exit(1);
    }
    println!("no difference");
}

fn print(coverage: &Coverage) {
    for (kind, count) in KINDS.iter().zip(&coverage.trials) {
        println!("{count:>9}  {}", kind.1);
    }
    let functions =
        [("step", &coverage.step), ("run", &coverage.run), ("read", &coverage.read), ("write", &coverage.write)];
    for (name, seen) in functions {
        let met = seen.iter().enumerate().filter(|(_, count)| **count > 0);
        let line: Vec<String> = met.map(|(number, count)| format!("{number}: {count}")).collect();
        println!("{name:>9}  {}", line.join(", "));
    }
    println!("opcodes executed (F4: called):");
    for left in 0..16u8 {
        let line: Vec<String> = (0..16u8)
            .map(|right| left * 16 + right)
            .filter(|opcode| instruction_length(*opcode).is_some())
            .map(|opcode| format!("{opcode:02X} {}", coverage.executed[opcode as usize]))
            .collect();
        println!("    {}", line.join("  "));
    }
    let unknown = (0..=255u8).filter(|opcode| instruction_length(*opcode).is_none());
    let least = unknown.map(|opcode| coverage.fetched[opcode as usize]).min();
    println!("each unknown opcode fetched at least {} times", least.unwrap_or(0));
    println!("how operands lay, how often:");
    for (row, seen) in coverage.relations.iter().enumerate() {
        let met = (0..COLUMNS).filter(|column| seen[*column] > 0);
        let line: Vec<String> = met.map(|column| format!("{} {}", column_name(column), seen[column])).collect();
        println!("    {}: {}", MNEMONICS[row], line.join("; "));
    }
}
