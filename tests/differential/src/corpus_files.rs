//! Writes generated inputs as files for the fuzz harness.

use differential::generate::{self, corpus::octets};
use std::path::Path;
use std::process::ExitCode;

const SEED: u64 = 7;
const RANDOM_CASES: u64 = 1_500;
/// Of the small inputs in full, one of so many is written.
const STEP: u64 = 509;
/// Most of the inputs are kept small, since a fuzzer is faster on these.
const SMALL: usize = 2_048;

pub fn write(directory: &str) -> ExitCode {
    match write_files(Path::new(directory)) {
        Ok(count) => {
            println!("{count} files in {directory}");
            ExitCode::SUCCESS
        }
        Err(error) => {
            eprintln!("{directory}: {error}");
            ExitCode::FAILURE
        }
    }
}

fn write_files(directory: &Path) -> std::io::Result<u64> {
    std::fs::create_dir_all(directory)?;
    let (samples, fixed) = (generate::samples(), generate::fixed_cases());
    let small = (samples..fixed).filter(|case| case % STEP == 0);
    let mut count = 0;
    for case in (0..samples).chain(small).chain(fixed..fixed + RANDOM_CASES) {
        for (index, call) in generate::case(SEED, case).iter().enumerate() {
            let Some(octets) = octets(call) else {
                continue;
            };
            if octets.len() > SMALL && case >= samples {
                continue;
            }
            std::fs::write(directory.join(format!("{case:05}-{index}")), octets)?;
            count += 1;
        }
    }
    Ok(count)
}
