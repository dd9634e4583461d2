//! The commands that call the archive.

use crate::trouble;
use differential::call::Call;
use differential::generate;
use differential::run::{self, Tally};
use differential::texts;
use std::process::ExitCode;
use std::time::{Duration, Instant, SystemTime};

const QUICK_SEED: u64 = 2_021_003;
const QUICK_RANDOM_CASES: u64 = 825_000;
/// Several threads then run so many cases each at the same time.
const THREADS: u64 = 3;
const THREAD_CASES: u64 = 10_000;

pub fn quick() -> ExitCode {
    let show = announced_show();
    let fixed = generate::fixed_cases();
    println!("seed {QUICK_SEED}: {fixed} fixed and {QUICK_RANDOM_CASES} random cases");
    trouble::watch(QUICK_SEED);
    let mut tally = Tally::default();
    let result = quick_cases(fixed, show.as_deref(), &mut tally);
    if let Err(report) = result {
        return failed(&report);
    }
    let holes = tally.holes(show.is_some());
    if !holes.is_empty() {
        return failed(&format!("not reached: {}", holes.join(", ")));
    }
    println!("and {THREADS} threads at the same time, {THREAD_CASES} cases each");
    ExitCode::SUCCESS
}

/// The fixed and random cases, the short texts, and the threads.
fn quick_cases(fixed: u64, show: Option<&str>, tally: &mut Tally) -> Result<(), String> {
    let started = Instant::now();
    let result = range(QUICK_SEED, 0..fixed + QUICK_RANDOM_CASES, show, tally);
    tally.print();
    result?;
    println!("{} calls as the oracle says, {} s", tally.calls(), started.elapsed().as_secs());
    let started = Instant::now();
    let counts = texts::all(QUICK_SEED)?;
    let seconds = started.elapsed().as_secs();
    println!("{} short texts accepted and {} refused, as the oracle says, {seconds} s", counts.accepted, counts.refused);
    threads()
}

pub fn long(seconds: &str, seed: Option<&str>) -> ExitCode {
    let (Some(seconds), Some(seed)) = (number(seconds), seed.map_or_else(seed_of_now, number)) else {
        return ExitCode::from(2);
    };
    let show = announced_show();
    println!("seed {seed}");
    trouble::watch(seed);
    let mut tally = Tally::default();
    let result = for_seconds(seconds, seed, show.as_deref(), &mut tally);
    tally.print();
    match result {
        Ok(cases) => {
            println!("seed {seed}: {cases} cases, {} calls as the oracle says", tally.calls());
            ExitCode::SUCCESS
        }
        Err(report) => failed(&report),
    }
}

pub fn one(seed: &str, case: &str) -> ExitCode {
    let (Some(seed), Some(case)) = (number(seed), number(case)) else {
        return ExitCode::from(2);
    };
    let show = announced_show();
    trouble::watch(seed);
    generate::case(seed, case).iter().for_each(tell);
    let mut tally = Tally::default();
    match run::case(seed, case, show.as_deref(), &mut tally) {
        Ok(()) => {
            println!("{} calls compared, all as the oracle says", tally.calls());
            ExitCode::SUCCESS
        }
        Err(report) => failed(&report),
    }
}

/// Prints a call and what the oracle says of it.
fn tell(call: &Call) {
    let answer = call.expected(&vec![0; call.room()]);
    print!("{}", call.describe());
    match call {
        Call::Show { .. } => print!("  oracle:\n{}", String::from_utf8_lossy(&answer.out)),
        _ => println!("  oracle: refusal {} place {} results {:?}", answer.refusal, answer.place, answer.results),
    }
    if let Call::Write { .. } = call {
        println!("  oracle: state {:?}", answer.state);
    }
}

fn range(seed: u64, cases: std::ops::Range<u64>, show: Option<&str>, tally: &mut Tally) -> Result<(), String> {
    for case in cases {
        run::case(seed, case, show, tally)?;
    }
    Ok(())
}

/// Several threads call the library at the same time, each with its own cases.
fn threads() -> Result<(), String> {
    let work = |thread: u64| {
        let first = generate::fixed_cases() + thread * THREAD_CASES;
        range(QUICK_SEED, first..first + THREAD_CASES, None, &mut Tally::default())
    };
    let handles: Vec<_> = (0..THREADS).map(|thread| std::thread::spawn(move || work(thread))).collect();
    for handle in handles {
        handle.join().map_err(|_| "a thread stopped".to_string())??;
    }
    Ok(())
}

fn for_seconds(seconds: u64, seed: u64, show: Option<&str>, tally: &mut Tally) -> Result<u64, String> {
    let started = Instant::now();
    let mut told = 0;
    let first = generate::fixed_cases();
    let mut case = first;
    while started.elapsed() < Duration::from_secs(seconds) {
        run::case(seed, case, show, tally)?;
        case += 1;
        let now = started.elapsed().as_secs();
        if now >= told + 10 {
            told = now;
            println!("{now} s: {} cases, {} calls", case - first, tally.calls());
        }
    }
    Ok(case - first)
}

fn announced_show() -> Option<String> {
    let show = run::show_program();
    match &show {
        Some(path) => println!("show is {path}"),
        None => println!("SHOW is not set: the program show is left out"),
    }
    show
}

fn failed(report: &str) -> ExitCode {
    println!("FAILED\n{report}");
    ExitCode::FAILURE
}

fn number(word: &str) -> Option<u64> {
    let number = word.parse().ok();
    if number.is_none() {
        eprintln!("{word} is not a number");
    }
    number
}

fn seed_of_now() -> Option<u64> {
    let now = SystemTime::now().duration_since(SystemTime::UNIX_EPOCH).ok()?;
    Some(now.as_secs())
}
