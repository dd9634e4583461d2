//! Takes the place of the commands in a build without the archive.

use std::process::ExitCode;

fn missing() -> ExitCode {
    eprintln!("built without the archive: set CRUDVIM_LIB to its directory and build again");
    ExitCode::from(2)
}

pub fn quick() -> ExitCode {
    missing()
}

pub fn long(_seconds: &str, _seed: Option<&str>) -> ExitCode {
    missing()
}

pub fn one(_seed: &str, _case: &str) -> ExitCode {
    missing()
}
