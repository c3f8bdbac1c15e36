//! `sealed SEED COUNT`: demand 3 on the compiled library.

use check::model::Model;
use check::seal::Sealer;
use std::process::exit;
use std::time::Instant;

fn argument(n: usize, default: u64) -> u64 {
    std::env::args().nth(n).map_or(default, |a| a.replace([',', '_'], "").parse().expect("a number"))
}

fn main() {
    let (seed, count) = (argument(1, 36), argument(2, 300_000));
    let begun = Instant::now();
    let mut sealer = Sealer::new(seed, Model::sound());
    for _ in 0..count {
        if let Err(report) = sealer.trial() {
            println!("the conclusion fails at seed {seed}\n{report}");
            exit(1);
        }
    }
    let c = &sealer.counts;
    println!("{:>9}  trials", c.trials);
    println!("{:>9}  premise held, sealed bytes differing", c.held);
    println!("{:>9}      steps of these first runs", c.steps);
    println!("{:>9}      with a sealed byte opened ({} such bytes)", c.opened, c.opened_bytes);
    println!("{:>9}      bytes that differed and stayed sealed", c.kept_bytes);
    println!("{:>9}  premise held, nothing differing", c.held_idle);
    println!("{:>9}  premise failed", c.failed);
    let share = 100.0 * c.failed_and_differed as f64 / c.failed.max(1) as f64;
    println!("{:>9}      and the runs came out differently ({share:.0} %)", c.failed_and_differed);
    let ends: Vec<String> = (0..19).filter(|n| c.ends[*n] > 0).map(|n| format!("{n}: {}", c.ends[n])).collect();
    println!("ends where the premise held: {}", ends.join(", "));
    let missing = c.missing();
    for gap in &missing {
        println!("not met: {gap}");
    }
    println!("seed {seed} in {:.1} s, {} gaps", begun.elapsed().as_secs_f64(), missing.len());
    if !missing.is_empty() {
        exit(1);
    }
    println!("no leak");
}
