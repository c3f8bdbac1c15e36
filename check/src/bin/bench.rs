//! `bench [REPEATS]`: the library's run beside both yardsticks', by CPU time.
//! `bench --only GUEST SIDE STEPS`: one side (library, bytes or words) of one guest, once.
//! `bench --count-only GUEST`: all sides once, no times; tells what the guest executes.
//! `bench --stack`: how many bytes of stack the library's run takes.

use check::fast::{Run, YARDSTICKS};
#[cfg(target_arch = "x86_64")]
use check::gen::{self, Rng};
use check::guests::{all, Guest};
use check::harness::{row_of, MNEMONICS};
use check::lib_under_test;
use check::model::{Ended, Machine, Model};
#[cfg(target_arch = "x86_64")]
use check::stack::Stack;

#[repr(C)]
struct Timespec {
    seconds: i64,
    nanoseconds: i64,
}

extern "C" {
    fn clock_gettime(clock: i32, time: *mut Timespec) -> i32;
}

/// Linux's CLOCK_PROCESS_CPUTIME_ID
const PROCESS_CPU_TIME: i32 = 2;

fn cpu_seconds() -> f64 {
    let mut time = Timespec { seconds: 0, nanoseconds: 0 };
    let answer = unsafe { clock_gettime(PROCESS_CPU_TIME, &mut time) };
    assert_eq!(answer, 0, "no CPU clock");
    time.seconds as f64 + time.nanoseconds as f64 * 1e-9
}

/// The library, then the yardsticks: by bytes, by words.
const SIDES: [(&str, Run); 3] = [("library", lib_under_test::run), YARDSTICKS[0], YARDSTICKS[1]];

/// The seconds of one run from the guest's start, and what it came to.
fn timed(guest: &Guest, run: Run, budget: u32) -> (f64, (Ended, Machine, Vec<u8>)) {
    let (mut m, mut storage) = (guest.m, guest.storage.clone());
    let begun = cpu_seconds();
    let ended = run(&mut m, &mut storage, budget);
    let seconds = cpu_seconds() - begun;
    (seconds, (ended, m, storage))
}

/// Each side once from the guest's start: the seconds. All must come to the same end.
fn once(guest: &Guest) -> [f64; 3] {
    let (first, end) = timed(guest, SIDES[0].1, guest.budget);
    assert_eq!((end.0.number, end.0.steps), (0, guest.budget), "{}: the guest stopped", guest.name);
    let mut seconds = [first; 3];
    for (seconds, (side, run)) in seconds.iter_mut().zip(SIDES).skip(1) {
        let (taken, other_end) = timed(guest, run, guest.budget);
        assert!(end == other_end, "{}: library and {side} end differently", guest.name);
        *seconds = taken;
    }
    seconds
}

/// The library's ratio to each yardstick, best of the repeats; above 1 the library is the faster.
fn measure(guest: &Guest, repeats: u32) -> [f64; 2] {
    let mut best = [f64::MAX; 3];
    for _ in 0..repeats {
        for (best, seconds) in best.iter_mut().zip(once(guest)) {
            *best = best.min(seconds);
        }
    }
    let [ours, bytes, words] = best.map(|seconds| guest.budget as f64 / seconds / 1e6);
    let ratios = [ours / bytes, ours / words];
    println!(
        "{:<11} library {ours:8.2}  bytes {bytes:8.2}  words {words:8.2} M steps/s  ratio {:.3}, to words {:.3}",
        guest.name, ratios[0], ratios[1]
    );
    ratios
}

fn geometric_mean(ratios: impl ExactSizeIterator<Item = f64>) -> f64 {
    let count = ratios.len() as f64;
    (ratios.map(f64::ln).sum::<f64>() / count).exp()
}

fn find<'a>(guests: &'a [Guest], name: &str) -> &'a Guest {
    let names: Vec<&str> = guests.iter().map(|g| g.name).collect();
    guests.iter().find(|g| g.name == name).unwrap_or_else(|| panic!("the guests are {names:?}"))
}

fn only(guests: &[Guest], arguments: &[String]) {
    let [name, side, steps] = arguments else { panic!("--only GUEST SIDE STEPS") };
    let sides = SIDES.map(|(name, _)| name);
    let found = SIDES.iter().find(|(name, _)| name == side);
    let (_, run) = *found.unwrap_or_else(|| panic!("the sides are {sides:?}"));
    let steps = steps.parse().expect("a number of steps");
    let (seconds, (ended, ..)) = timed(find(guests, name), run, steps);
    println!("{name} {side}: {} steps, number {}, {seconds:.6} s", ended.steps, ended.number);
}

/// How many steps `count_only` watches, at the run's beginning and at its end.
const WATCHED: u32 = 10_000;

fn count_only(guest: &Guest) {
    once(guest);
    let mut counts = [[0; 2]; MNEMONICS.len()];
    for (column, skipped) in [0, guest.budget - WATCHED].into_iter().enumerate() {
        let (_, (_, mut m, mut storage)) = timed(guest, lib_under_test::run, skipped);
        Model::sound().run_watched(&mut m, &mut storage, WATCHED, &mut |t, _| {
            if let Some(row) = t.opcode.and_then(row_of) {
                counts[row][column] += 1;
            }
        });
    }
    println!("{}: {} steps, all sides end alike; of the first and last {WATCHED}:", guest.name, guest.budget);
    for (name, [first, last]) in MNEMONICS.iter().zip(counts).filter(|(_, count)| *count != [0; 2]) {
        println!("{first:>7} {last:>7}  {name}");
    }
}

/// The deepest that one run goes, by two patterns: a byte that one hides the other shows.
#[cfg(target_arch = "x86_64")]
fn depth(stacks: &mut [Stack; 2], m: Machine, storage: &[u8], budget: u32) -> usize {
    let (mut end_m, mut end) = (m, storage.to_vec());
    let ended = lib_under_test::run(&mut end_m, &mut end, budget);
    let depths = stacks.each_mut().map(|stack| {
        let (mut m, mut storage) = (m, storage.to_vec());
        let deepest = stack.run(&mut m, &mut storage, budget);
        assert!((deepest.ended, m, &storage) == (ended, end_m, &end), "the run on the painted stack ends differently");
        deepest.bytes
    });
    depths[0].max(depths[1])
}

/// Guests, then every opcode byte with every Q and programs at random.
#[cfg(target_arch = "x86_64")]
fn stack(guests: &[Guest]) {
    let mut stacks = [Stack::new(0xA5), Stack::new(0x5A)];
    let mut largest = 0;
    let mut tell = |name: &str, bytes: usize| {
        println!("{name:<11} {bytes:>6} bytes of stack");
        largest = largest.max(bytes);
    };
    for guest in guests {
        tell(guest.name, depth(&mut stacks, guest.m, &guest.storage, guest.budget));
    }
    let mut rng = Rng::new(36);
    let mut deepest = 0;
    for opcode in 0..=255 {
        for q in 0..=255 {
            let size = gen::small_size(&mut rng);
            let case = gen::aimed(&mut rng, opcode, q, size);
            deepest = deepest.max(depth(&mut stacks, case.m, &case.storage, 1));
        }
    }
    tell("every Q", deepest);
    let known = gen::known_opcodes();
    let mut deepest = 0;
    for _ in 0..20_000 {
        let size = gen::small_size(&mut rng);
        let case = gen::program(&mut rng, &known, size, false);
        deepest = deepest.max(depth(&mut stacks, case.m, &case.storage, case.budget));
    }
    tell("programs", deepest);
    println!("largest: {largest} bytes");
}

#[cfg(not(target_arch = "x86_64"))]
fn stack(_: &[Guest]) {
    panic!("the stack is measured on x86-64 alone");
}

fn main() {
    let guests = all();
    let arguments: Vec<String> = std::env::args().skip(1).collect();
    match arguments.first().map(String::as_str) {
        Some("--only") => only(&guests, &arguments[1..]),
        Some("--stack") => stack(&guests),
        Some("--count-only") => count_only(find(&guests, arguments.get(1).map_or("", |a| a))),
        first => {
            let repeats = first.map_or(7, |a| a.parse().expect("a number of repeats"));
            let ratios: Vec<[f64; 2]> = guests.iter().map(|guest| measure(guest, repeats)).collect();
            println!("ratio to sums by words: {:.3}", geometric_mean(ratios.iter().map(|r| r[1])));
            println!("ratio: {:.3}", geometric_mean(ratios.iter().map(|r| r[0])));
        }
    }
}
