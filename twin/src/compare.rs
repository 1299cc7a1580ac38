//! Runs other programs and this one on the same inputs, and tells where they differ.

use std::env;
use std::ffi::OsString;
use std::fs;
use std::io::{self, Write};
use std::path::{Path, PathBuf};
use std::process::{self, Command, Output, Stdio};
use std::thread;
use std::time::{Duration, Instant};

use crate::cases::{Case, KINDS, Kind, Program};
use crate::draws::Random;
use crate::lamp::MEMORY;
use crate::text::{Failure, Options};

/// What became of a run.
struct Outcome {
    output: Output,
    memory: Option<Vec<u8>>,
}

impl Outcome {
    /// What is not the same, in words. Of standard error it is only the refusal: reasons are free.
    fn differences(&self, other: &Outcome) -> Vec<&'static str> {
        let (a, b) = (&self.output, &other.output);
        let is_refusal = |output: &Output| output.stderr.starts_with(b"4 ");
        let all = [
            (a.status == b.status, "exit status"),
            (a.stdout == b.stdout, "standard output"),
            (is_refusal(a) == is_refusal(b), "refusal on standard error"),
            (refused_line(&a.stderr) == refused_line(&b.stderr), "line that is refused"),
            (self.memory == other.memory, "memory left"),
        ];
        all.iter().filter(|(same, _)| !same).map(|&(_, what)| what).collect()
    }

    fn keep(&self, folder: &Path, who: &str) -> io::Result<()> {
        let write = |what: &str, bytes: &[u8]| fs::write(folder.join(format!("{who}.{what}")), bytes);
        write("stdout", &self.output.stdout)?;
        write("stderr", &self.output.stderr)?;
        write("status", format!("{}\n", self.output.status).as_bytes())?;
        self.memory.as_ref().map_or(Ok(()), |memory| write("memory", memory))
    }
}

/// The number of the line that a refusal names.
fn refused_line(errors: &[u8]) -> Option<Vec<u8>> {
    let rest = errors.strip_prefix(b"4 line ")?;
    let end = rest.iter().position(|byte| !byte.is_ascii_digit())?;
    (rest[end] == b':').then(|| rest[..end].to_vec())
}

/// Puts the file there that a case has, and none where it has none.
fn prepare(case: &Case, folder: &Path) -> io::Result<()> {
    match &case.file {
        Some((name, bytes)) => fs::write(folder.join(name), bytes),
        None => fs::remove_file(folder.join(MEMORY)).or_else(|error| match error.kind() {
            io::ErrorKind::NotFound => Ok(()),
            _ => Err(error),
        }),
    }
}

fn run(mut command: Command, case: &Case, folder: &Path) -> io::Result<Outcome> {
    prepare(case, folder)?;
    command.args(&case.args).current_dir(folder);
    command.stdin(Stdio::piped()).stdout(Stdio::piped()).stderr(Stdio::piped());
    let mut child = command.spawn()?;
    let input = child.stdin.take();
    let output = thread::scope(|scope| {
        // A program that refuses its arguments ends before it has read anything, so this may fail.
        scope.spawn(move || input.map(|mut input| input.write_all(&case.input)));
        child.wait_with_output()
    })?;
    Ok(Outcome { output, memory: fs::read(folder.join(MEMORY)).ok() })
}

struct Comparison {
    twin: PathBuf,
    folder: PathBuf,
    cases: usize,
    failed: usize,
    shown: Instant,
}

impl Comparison {
    /// Runs one case by both; its folder is kept if they differ.
    fn compare(&mut self, kind: &Kind, path: &Path, case: &Case) -> io::Result<()> {
        let folder = self.folder.join(self.cases.to_string());
        let name = kind.program.name();
        fs::create_dir_all(&folder)?;
        let other = run(Command::new(path), case, &folder)?;
        let mut twin = Command::new(&self.twin);
        twin.arg(name);
        let twin = run(twin, case, &folder)?;
        self.cases += 1;
        let differences = other.differences(&twin);
        if differences.is_empty() {
            return fs::remove_dir_all(&folder);
        }
        self.failed += 1;
        other.keep(&folder, "other")?;
        twin.keep(&folder, "twin")?;
        prepare(case, &folder)?;
        fs::write(folder.join("stdin"), &case.input)?;
        fs::write(folder.join("arguments"), format!("{:?}\n", case.args))?;
        println!("{name}, {}: another {}: {}", kind.name, differences.join(", "), folder.display());
        Ok(())
    }

    fn all_of_a_kind(&mut self, kind: &Kind, path: &Path, count: usize, seed: usize) -> io::Result<()> {
        let mut random = Random::new(seed);
        let failed = self.failed;
        for case in 0..count {
            if self.shown.elapsed() >= Duration::from_secs(3) {
                eprintln!("compare: {}, {}: {case} of {count}", kind.program.name(), kind.name);
                self.shown = Instant::now();
            }
            self.compare(kind, path, &(kind.make)(&mut random))?;
        }
        let failed = self.failed - failed;
        println!("{}, {}: {count} cases, {failed} differ", kind.program.name(), kind.name);
        Ok(())
    }
}

/// `compare [--hall PATH] [--lamp PATH] [--judge PATH] [--cases N] [--seed S]`
pub fn main(args: &[OsString]) -> Result<bool, Failure> {
    let options = Options::parse(args, &["--hall", "--lamp", "--judge", "--cases", "--seed"])?;
    let (cases, seed) = (options.number("--cases", 4000)?, options.number("--seed", 1)?);
    let mut paths: Vec<(Program, PathBuf)> = Vec::new();
    for program in Program::ALL {
        if let Some(path) = options.value(&format!("--{}", program.name())) {
            // Programs are run in other folders.
            let path = fs::canonicalize(path).map_err(Failure::io(path.to_string_lossy()))?;
            paths.push((program, path));
        }
    }
    let path_of = |kind: &Kind| paths.iter().find(|(program, _)| *program == kind.program);
    let chosen: Vec<(&Kind, &Path)> =
        KINDS.iter().filter_map(|kind| Some((kind, path_of(kind)?.1.as_path()))).collect();
    if chosen.is_empty() {
        return Err(Failure::refused("none of --hall, --lamp and --judge is there"));
    }
    let shares: usize = chosen.iter().map(|(kind, _)| kind.share).sum();
    let mut comparison = Comparison {
        twin: env::current_exe().map_err(Failure::io("this program"))?,
        folder: env::temp_dir().join(format!("twin-compare-{}", process::id())),
        cases: 0,
        failed: 0,
        shown: Instant::now(),
    };
    for (index, (kind, path)) in chosen.into_iter().enumerate() {
        let count = (cases * kind.share).div_ceil(shares);
        let done = comparison.all_of_a_kind(kind, path, count, seed * KINDS.len() + index);
        done.map_err(Failure::io(path.to_string_lossy()))?;
    }
    if comparison.failed == 0 {
        fs::remove_dir_all(&comparison.folder).map_err(Failure::io("the folder for cases"))?;
    }
    println!("{} passed, {} failed", comparison.cases - comparison.failed, comparison.failed);
    Ok(comparison.failed == 0)
}

#[cfg(test)]
mod tests {
    use super::*;

    #[test]
    fn the_line_of_a_refusal() {
        assert_eq!(refused_line(b"4 line 12: why\n"), Some(b"12".to_vec()));
        assert_eq!(refused_line(b"4 lines 12: why\n"), None);
        assert_eq!(refused_line(b"4 line 12 why\n"), None);
        assert_eq!(refused_line(b"4 line 12"), None);
    }
}
