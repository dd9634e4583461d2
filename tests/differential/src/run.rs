//! Makes the calls of cases through C, compares them with the oracle and counts what was reached.

mod writer;

use crate::call::{hex, Call, Outcome, ENTRIES};
use crate::oracle::decimals::{rounding, Rounding};
use crate::oracle::{writer::fault, STATE};
use crate::rng::Rng;
use crate::{entries, generate};
use std::io::Write;
use std::process::{Command, Stdio};
use std::sync::atomic::{AtomicU64, Ordering};

/// Stands for no case at all.
pub const NO_CASE: u64 = u64::MAX;

/// The case that is being run, for the reports of a stop or a stand-still.
pub static CURRENT_CASE: AtomicU64 = AtomicU64::new(NO_CASE);

/// The refusal numbers are below this; 0 is for accepted.
const NUMBERS: usize = 21;
const PATHS: usize = 32;
/// The check's number among the entries, and what is added to the depth of a short message for its kind of answer.
const CHECK: usize = 0;
const SHORT: usize = 9;
/// Kinds of answers for a field of QForm whose type is not looked at: it has no data, or the message ends with its padding octet. The
/// types are below these.
const EMPTY: usize = 22;
const PADDED_AT_THE_END: usize = 23;
/// Kinds of answers in decimals. Down and up are those of the size.
const DECIMALS: [&str; 14] = [
    "above 0 exact",
    "above 0 down",
    "above 0 up",
    "above 0 tie down",
    "above 0 tie up",
    "0",
    "0 from above",
    "below 0 exact",
    "below 0 down",
    "below 0 up",
    "below 0 tie down",
    "below 0 tie up",
    "minus 0",
    "0 from below",
];

/// The numbers below `PATHS`.
static ALL: [usize; PATHS] = {
    let mut all = [0; PATHS];
    let mut index = 0;
    while index < PATHS {
        all[index] = index;
        index += 1;
    }
    all
};

/// Counts per entry: of each refusal number, of each kind of accepted answer, and of each cause for which the writer refused a state.
#[derive(Clone, Default)]
pub struct Tally {
    numbers: [[u64; NUMBERS]; ENTRIES.len()],
    paths: [[u64; PATHS]; ENTRIES.len()],
    faults: [[u64; writer::FAULTS.len()]; ENTRIES.len()],
}

impl Tally {
    pub fn calls(&self) -> u64 {
        self.numbers.iter().flatten().sum()
    }

    fn note(&mut self, call: &Call, outcome: &Outcome) {
        let number = match call {
            Call::Show { .. } => shown_number(&outcome.out),
            _ => outcome.refusal,
        };
        self.numbers[call.entry()][number as usize] += 1;
        if number == 0 {
            self.paths[call.entry()][path(call, outcome)] += 1;
        }
        if let (STATE, Call::Write { on, step }) = (number, call) {
            let fault = fault(step, &on.state, on.room).expect("it is refused");
            let cause = writer::FAULTS.iter().position(|known| known.0 == fault).expect("a known cause");
            self.faults[call.entry()][cause] += 1;
        }
    }

    pub fn print(&self) {
        for (entry, name) in ENTRIES.iter().enumerate() {
            let counts = &self.numbers[entry];
            let total: u64 = counts.iter().sum();
            print!("{name:12} calls {total:9}  accepted {:9}  refused", counts[0]);
            for (number, count) in counts.iter().enumerate().skip(1).filter(|(_, count)| **count > 0) {
                print!("  {number}: {count}");
            }
            println!();
        }
        println!("accepted answers by kind:");
        for (entry, name) in ENTRIES.iter().enumerate() {
            print!("{name:12}");
            for (index, count) in self.paths[entry].iter().enumerate().filter(|(_, count)| **count > 0) {
                print!("  {}: {count}", path_name(entry, index));
            }
            println!();
        }
        println!("states refused by cause:");
        for (entry, name) in ENTRIES.iter().enumerate().filter(|(entry, _)| self.faults[*entry].iter().sum::<u64>() > 0) {
            print!("{name:12}");
            for (cause, count) in self.faults[entry].iter().enumerate().filter(|(_, count)| **count > 0) {
                print!("  {}: {count}", writer::FAULTS[cause].1);
            }
            println!();
        }
        let [longer, short] = self.short_messages();
        println!("accepted messages that the check called short: {short}, that it did not: {longer}");
    }

    /// How many messages that the check accepts could be shortened, and how many were short.
    fn short_messages(&self) -> [u64; 2] {
        let counts = &self.paths[CHECK];
        [counts[..SHORT].iter().sum(), counts[SHORT..].iter().sum()]
    }

    /// What has to be reached and was not.
    pub fn holes(&self, with_show: bool) -> Vec<String> {
        let mut holes = Vec::new();
        for (entry, name) in ENTRIES.iter().enumerate() {
            if *name == "show" && !with_show {
                continue;
            }
            let (numbers, paths) = wanted(name);
            let missing = numbers.iter().filter(|number| self.numbers[entry][**number] == 0);
            holes.extend(missing.map(|number| format!("{name}: refusal {number}")));
            let missing = paths.iter().filter(|index| self.paths[entry][**index] == 0);
            holes.extend(missing.map(|index| format!("{name}: {}", path_name(entry, *index))));
            let missing = writer::FAULTS.iter().zip(&self.faults[entry]).filter(|(_, count)| **count == 0);
            let missing = missing.filter(|((fault, _), _)| writer::refuses_for(name, *fault));
            holes.extend(missing.map(|((_, cause), _)| format!("{name}: refusal {STATE} for {cause}")));
        }
        holes
    }
}

/// The refusal numbers (0 for accepted) and the kinds of accepted answers that an entry has to reach.
fn wanted(entry: &str) -> (&'static [usize], &'static [usize]) {
    match entry {
        "check" => (&[0, 1, 2, 3, 4, 5, 6, 7, 20], &[1, 2, 3, 4, 5, 6, 7, 8, 10, 11, 12, 13, 14, 15, 16, 17]),
        "shorten" => (&[0, 1, 2, 3, 4, 5, 6, 7, 9, 20], &[0, 1]),
        "lookup" | "lookup_last" => (&[0, 1, 2, 3, 4, 5, 6, 7, 18, 20], &[0, 1, 2, 3, 4, 5]),
        "frame_read" => (&[0, 1, 3, 4], &[1, 2, 3, 5, 9]),
        "frame_write" => (&[0, 1, 9], &[1, 2, 3, 5]),
        "tibmsg_check" => (&[0, 1, 3, 4, 13, 14, 15, 16], &[0, 1, 2]),
        "tibmsg_field" => {
            (&[0, 1, 3, 4, 13, 14, 15, 16, 18], &[0, 1, 2, 3, 4, 5, 6, 7, 8, 9, 10, 11, 12, 13, 14, 15, 17, 19, 20, 21, 22])
        }
        "tibrv_check" => (&[0, 1, 3, 4, 5, 13, 14, 15, 16], &[1, 2, 3, 4, 5, 6, 7, 8]),
        "tibrv_field" => (&[0, 1, 3, 4, 5, 13, 14, 15, 16, 18], &[0, 1, 3, 5]),
        "qform_check" => (&[0, 1, 2, 3, 4, 13, 14, 16, 19], &[0, 1, 2]),
        "qform_field" => (
            &[0, 1, 2, 3, 4, 13, 14, 16, 18, 19],
            &[0, 1, 2, 3, 4, 5, 6, 7, 8, 9, 10, 11, 12, 13, 14, 15, 16, 17, 18, 19, 20, 21, 22, 23],
        ),
        "fractions" => (&[0, 17], &[0, 1, 2]),
        "decimals" => (&[0, 17], &[0, 1, 2, 3, 4, 5, 6, 7, 8, 9, 10, 11, 12, 13]),
        "start" => (&[0, 1, 2, 10], &ALL[..writer::kinds(entry)]),
        "put_uint" | "put_int" => (&[0, 2, 8, 9, 10, 20], &ALL[..writer::kinds(entry)]),
        "put_octets" => (&[0, 2, 7, 8, 9, 10, 20], &ALL[..writer::kinds(entry)]),
        "open" => (&[0, 2, 5, 8, 10, 20], &ALL[..writer::kinds(entry)]),
        "close" => (&[0, 2, 9, 10, 11], &ALL[..writer::kinds(entry)]),
        "finish" => (&[0, 10, 12], &ALL[..writer::kinds(entry)]),
        "build" => (&[0], &[1, 2, 3, 4, 5, 6, 7, 8]),
        _ => (&[0, 1, 2, 3, 4, 5, 6, 7, 14, 20], &[]),
    }
}

/// Which kind of accepted answer this is.
fn path(call: &Call, outcome: &Outcome) -> usize {
    let results = &outcome.results;
    let path = match call {
        Call::Check(_) => results[1] + results[2] * SHORT as u64,
        Call::TibrvCheck { .. } | Call::Build(_) => results[1],
        Call::Shorten { on, .. } => u64::from(results[0] < on.message.len() as u64),
        Call::Lookup { .. } | Call::LookupLast { .. } => results[0],
        Call::FrameRead { .. } => results[0],
        Call::FrameWrite { message, .. } => results[0] - message.len() as u64,
        Call::TibmsgCheck { .. } | Call::QformCheck(_) => results[0].min(2),
        Call::TibmsgField { .. } if results[2] == 7 && results[4] == 4 => 22,
        Call::TibmsgField { .. } => 2 * results[2] + results[5],
        Call::TibrvField { .. } if results[2] == 1 => 0,
        Call::TibrvField { .. } => results[3] - results[0] - results[1] - 1,
        Call::QformField { .. } if results[3] == 0 => EMPTY as u64,
        Call::QformField { on, .. } if results[2] + results[3] + 1 == on.message.len() as u64 && results[3] % 2 == 1 => {
            PADDED_AT_THE_END as u64
        }
        Call::QformField { .. } => results[1],
        Call::Fractions { .. } => ((results[0] as i64).signum() + 1) as u64,
        Call::Decimals { bits, hint, .. } => decimals_path(*bits, *hint, results[0] as i64),
        Call::Write { on, step } => writer::kind(on, step, &outcome.state) as u64,
        Call::Show { .. } => 0,
    };
    path as usize
}

/// The sign of the real, what rounding did, and whether the answer is 0.
fn decimals_path(bits: u64, hint: u64, whole: i64) -> u64 {
    let kind = match (whole, rounding(bits, hint, whole)) {
        (0, Rounding::Exact) => 5,
        (0, _) => 6,
        (_, rounding) => rounding as u64,
    };
    7 * (bits >> 63) + kind
}

fn path_name(entry: usize, index: usize) -> String {
    match ENTRIES[entry] {
        "check" if index >= SHORT => format!("depth {} short", index - SHORT),
        "check" | "tibrv_check" | "build" => format!("depth {index}"),
        "shorten" => ["same length", "shorter"][index].to_string(),
        "lookup" | "lookup_last" => ["raw", "uint", "int", "string", "text", "message"][index].to_string(),
        "frame_read" | "frame_write" => format!("prefix of {index}"),
        "tibmsg_check" | "qform_check" => ["no fields", "one field", "more fields"][index].to_string(),
        "tibmsg_field" if index == 22 => "real of four octets".to_string(),
        "tibmsg_field" => format!("type {}{}", index / 2, ["", " hinted"][index % 2]),
        "tibrv_field" if index == 0 => "message".to_string(),
        "tibrv_field" => format!("size of {index}"),
        "qform_field" if index == EMPTY => "no data".to_string(),
        "qform_field" if index == PADDED_AT_THE_END => "padded at the end".to_string(),
        "qform_field" => format!("type {index}"),
        "fractions" => ["below 0", "0", "above 0"][index].to_string(),
        "decimals" => DECIMALS[index].to_string(),
        "show" => "shown".to_string(),
        entry => writer::kind_name(entry, index),
    }
}

/// The refusal number in the text of `show`, or 0.
fn shown_number(text: &[u8]) -> u64 {
    let text = String::from_utf8_lossy(text);
    let number = text.strip_prefix("refused ").and_then(|rest| rest.split(' ').next());
    number.map_or(0, |number| number.parse().expect("the oracle writes a number"))
}

/// The path of the program `show`, if the environment names it.
pub fn show_program() -> Option<String> {
    std::env::var("SHOW").ok().filter(|path| !path.is_empty())
}

/// Runs the calls of a case. The error is a report of the first difference.
pub fn case(seed: u64, number: u64, show: Option<&str>, tally: &mut Tally) -> Result<(), String> {
    CURRENT_CASE.store(number, Ordering::Relaxed);
    let mut rng = Rng::new(!seed, number);
    for (index, call) in generate::case(seed, number).iter().enumerate() {
        if matches!(call, Call::Show { .. }) && show.is_none() {
            continue;
        }
        let poison = rng.octets(call.room());
        let expected = call.expected(&poison);
        tally.note(call, &expected);
        let got = match call {
            Call::Show { input } => run_show(show.expect("looked at above"), input),
            _ => entries::call(call, &poison, &mut rng),
        };
        let complaint = match got {
            Ok(got) if got == expected => continue,
            Ok(got) => compared(&expected, &got),
            Err(complaint) => complaint,
        };
        return Err(difference(seed, number, index, call, &complaint));
    }
    Ok(())
}

/// The report of a difference.
pub fn difference(seed: u64, number: u64, index: usize, call: &Call, complaint: &str) -> String {
    let inputs = call.describe();
    format!("DIFFERENCE: seed {seed} case {number} call {index} (again: one {seed} {number})\n{inputs}{complaint}")
}

pub fn compared(expected: &Outcome, got: &Outcome) -> String {
    let line = |name: &str, outcome: &Outcome| {
        let Outcome { refusal, place, results, .. } = outcome;
        format!("  {name} refusal {refusal} place {place} results {results:?}\n")
    };
    let mut text = line("expected", expected) + &line("got     ", got);
    if expected.state != got.state {
        text += &format!("  expected state {:?}\n  got      state {:?}\n", expected.state, got.state);
    }
    if expected.out != got.out {
        let same = expected.out.iter().zip(&got.out).take_while(|(one, other)| one == other).count();
        text += &format!("  the octets after the call differ from {same} on\n");
        text += &format!("  expected {} octets {}\n", expected.out.len(), hex(&expected.out));
        text += &format!("  got      {} octets {}\n", got.out.len(), hex(&got.out));
    }
    text
}

/// What the program prints to standard output for an input.
fn run_show(program: &str, input: &[u8]) -> Result<Outcome, String> {
    let mut child = Command::new(program)
        .stdin(Stdio::piped())
        .stdout(Stdio::piped())
        .spawn()
        .map_err(|error| format!("{program} does not start: {error}"))?;
    let mut stdin = child.stdin.take().expect("it was asked for");
    let octets = input.to_vec();
    // The program may stop reading early, so a failed write is no fault of its own.
    let writer = std::thread::spawn(move || drop(stdin.write_all(&octets)));
    let output = child.wait_with_output().map_err(|error| error.to_string())?;
    writer.join().map_err(|_| "the writer of the input stopped".to_string())?;
    Ok(Outcome { out: output.stdout, ..Outcome::default() })
}
