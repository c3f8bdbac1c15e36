//! `faults SEED COUNT`: the harness with each deliberate fault in the model; all must be noticed.

use check::faults::{in_lists, Fault, ALL};
use check::harness::{Harness, Kind};
use check::model::Model;
use check::seal::Sealer;
use std::process::exit;
use std::time::Instant;

fn argument(n: usize, default: u64) -> u64 {
    std::env::args().nth(n).map_or(default, |a| a.replace([',', '_'], "").parse().expect("a number"))
}

fn main() {
    let (seed, count) = (argument(1, 36), argument(2, 300_000));
    let begun = Instant::now();
    if let Some(report) = first_report(Fault::None, seed, count.min(20_000)) {
        println!("the sound model differs already: run differ\n{}", first_line(&report.1));
        exit(1);
    }
    let mut unnoticed = 0;
    for fault in ALL {
        match first_report(*fault, seed, count) {
            Some((trial, report)) => println!("{trial:>9}  {fault:?}: {}", first_line(&report)),
            None => {
                println!("  NOTHING  {fault:?}");
                unnoticed += 1;
            }
        }
    }
    let seconds = begun.elapsed().as_secs_f64();
    println!("{} faults, {} unnoticed, seed {seed}, {seconds:.1} s", ALL.len(), unnoticed);
    if unnoticed > 0 {
        exit(1);
    }
    println!("all noticed");
}

/// The number of the trial that notices the fault, and its report.
fn first_report(fault: Fault, seed: u64, count: u64) -> Option<(u64, String)> {
    let model = Model { fault };
    if in_lists(fault) {
        let mut sealer = Sealer::new(seed, model);
        return (1..=count).find_map(|trial| sealer.trial().err().map(|report| (trial, report)));
    }
    let mut harness = Harness::new(seed, model);
    let by_schedule = (1..=count).find_map(|trial| harness.trial().err().map(|report| (trial, report)));
    by_schedule.or_else(|| harness.trial_of(Kind::RunFull).err().map(|report| (count + 1, report)))
}

fn first_line(report: &str) -> &str {
    report.lines().next().unwrap_or("")
}
