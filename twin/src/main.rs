//! A second program for lamps in halls, written from the rules alone: the programs `lamp`, `hall` and
//! `judge`, their comparison with others of the same names, a benchmark, and tests of the promise.

mod bench;
mod cases;
mod compare;
mod draws;
mod frame;
mod hall_file;
mod judge;
mod lamp;
mod net;
mod promise;
mod rules;
mod script;
mod shapes;
mod text;

use std::env;
use std::ffi::OsString;
use std::process::ExitCode;

use text::Failure;

const USAGE: &str = "\
twin lamp MOST PLACE NAME NEIGHBOUR..
    one lamp, with its memory in the file `memory` of the current folder; lines on standard input
twin hall [--progress] FILE
    carries out the script on standard input on the hall of that file
twin judge FILE
    says whether the `show` on standard input is right for the hall of that file
twin compare [--hall PATH] [--lamp PATH] [--judge PATH] [--cases N] [--seed S]
    runs the programs named and this one on the same random inputs, and tells where they differ
twin bench --hall PATH [--lamps N] [--rounds N]
    runs the program named and this one on one large hall, and tells times and memory
twin promise [--cases N] [--seed S]
    tests on small halls that every net is right after 12 x most rounds, and stays so
";

fn main() -> ExitCode {
    let args: Vec<OsString> = env::args_os().skip(1).collect();
    let (command, rest) = match args.split_first() {
        Some((command, rest)) => (command.to_string_lossy().into_owned(), rest),
        None => (String::new(), &[][..]),
    };
    let run: fn(&[OsString]) -> Result<bool, Failure> = match command.as_str() {
        "lamp" => lamp::main,
        "hall" => script::main,
        "judge" => judge::main,
        "compare" => compare::main,
        "bench" => bench::main,
        "promise" => promise::main,
        _ => {
            eprint!("{USAGE}");
            return ExitCode::FAILURE;
        }
    };
    match run(rest) {
        Ok(true) => ExitCode::SUCCESS,
        Ok(false) => ExitCode::FAILURE,
        Err(failure) => {
            match failure {
                Failure::Refused { .. } => eprintln!("{failure}"),
                Failure::Io { .. } => eprintln!("{command}: {failure}"),
            }
            ExitCode::FAILURE
        }
    }
}
