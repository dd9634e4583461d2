//! Compares the C library behind `include/crudvim.h` with the oracle.
//!
//! Build with CRUDVIM_LIB set to the directory of the archive. If SHOW is set to the path of the program `show`, it is compared too.

#[cfg(crudvim_archive)]
mod commands;
#[cfg(not(crudvim_archive))]
#[path = "no_archive.rs"]
mod commands;
mod corpus_files;
#[cfg(crudvim_archive)]
mod trouble;

use std::process::ExitCode;

const USAGE: &str = "commands:
  quick                a fixed seed and number of cases, and the short texts in full; fails too if a refusal number or a kind of
                       answer was not reached
  long SECONDS [SEED]  random cases for so long
  one SEED CASE        one case again, with its calls
  corpus DIR           writes inputs for the fuzz harness as files
Build with CRUDVIM_LIB set to the directory of the archive. SHOW is the path of the program `show`; without it, it is left out.";

fn main() -> ExitCode {
    let words: Vec<String> = std::env::args().skip(1).collect();
    let words: Vec<&str> = words.iter().map(String::as_str).collect();
    match words[..] {
        ["corpus", directory] => corpus_files::write(directory),
        ["quick"] => commands::quick(),
        ["long", seconds] => commands::long(seconds, None),
        ["long", seconds, seed] => commands::long(seconds, Some(seed)),
        ["one", seed, case] => commands::one(seed, case),
        _ => {
            eprintln!("{USAGE}");
            ExitCode::from(2)
        }
    }
}
