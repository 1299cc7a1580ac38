//! Another `hall` and this one on the same large hall: times, memory, and whether they print the same.

use std::env;
use std::ffi::OsString;
use std::fs::{self, File};
use std::path::{Path, PathBuf};
use std::process::{self, Command};
use std::sync::atomic::{AtomicBool, Ordering};
use std::thread;
use std::time::{Duration, Instant};

use crate::draws::Random;
use crate::shapes::{Plan, Shape};
use crate::text::{Failure, Options};

struct Measured {
    time: Duration,
    seen: Seen,
    printed: Vec<u8>,
    ended_well: bool,
}

/// What was last seen of a process while it ran.
#[derive(Clone, Copy, Default)]
struct Seen {
    /// The most memory that it had in use, in KiB.
    peak: Option<u64>,
    /// How long it had a processor: unlike the time, this is nearly the same on a busy machine.
    processor: Option<Duration>,
}

impl Seen {
    fn look(&mut self, process: u32) {
        let read = |file: &str| fs::read_to_string(format!("/proc/{process}/{file}")).ok();
        let first = |text: &str| text.split_whitespace().next()?.parse::<u64>().ok();
        let status = read("status").unwrap_or_default();
        let peak = status.lines().find_map(|line| line.strip_prefix("VmHWM:"));
        let nanoseconds = read("schedstat").as_deref().and_then(first);
        self.peak = self.peak.max(peak.and_then(first));
        self.processor = self.processor.max(nanoseconds.map(Duration::from_nanos));
    }
}

fn measure(command: &mut Command, folder: &Path, name: &str) -> std::io::Result<Measured> {
    let printed = folder.join(name);
    command.arg(folder.join("hall")).stdin(File::open(folder.join("script"))?);
    let start = Instant::now();
    let mut child = command.stdout(File::create(&printed)?).spawn()?;
    let process = child.id();
    let has_ended = AtomicBool::new(false);
    let (ended, time, seen) = thread::scope(|scope| {
        let watch = scope.spawn(|| {
            let mut seen = Seen::default();
            while !has_ended.load(Ordering::Relaxed) {
                seen.look(process);
                thread::sleep(Duration::from_millis(5));
            }
            seen
        });
        let ended = child.wait();
        let time = start.elapsed();
        has_ended.store(true, Ordering::Relaxed);
        (ended, time, watch.join().unwrap_or_default())
    });
    Ok(Measured { time, seen, printed: fs::read(printed)?, ended_well: ended?.success() })
}

fn row(name: &str, it: &Measured) {
    let seconds = |time: Duration| format!("{:.3} s", time.as_secs_f64());
    let processor = it.seen.processor.map_or("?".into(), seconds);
    let peak = it.seen.peak.map_or("?".into(), |kib| format!("{kib} KiB"));
    println!("{name:<12}{:>12}{processor:>12}{peak:>14}", seconds(it.time));
}

/// How many times as long the first took.
fn ratio(one: Duration, other: Duration) -> f64 {
    one.as_secs_f64() / other.as_secs_f64()
}

fn bench(hall: &Path, lamps: usize, rounds: usize, folder: &Path) -> std::io::Result<bool> {
    fs::create_dir_all(folder)?;
    let plan = Plan::of_shape(Shape::Dense, lamps, lamps, &mut Random::new(1));
    fs::write(folder.join("hall"), plan.to_text())?;
    let seeds = (1..=rounds as u32).map(|round| round.wrapping_mul(2_654_435_761));
    let rounds: String = seeds.map(|seed| format!("round {seed}\n")).collect();
    fs::write(folder.join("script"), format!("fill 1\n{rounds}show\n"))?;

    let other = measure(&mut Command::new(hall), folder, "printed-by-other")?;
    let twin = measure(Command::new(env::current_exe()?).arg("hall"), folder, "printed-by-twin")?;
    println!("{:<12}{:>12}{:>12}{:>14}", "program", "time", "processor", "peak memory");
    row("hall", &other);
    row("twin hall", &twin);
    let busy = other.seen.processor.zip(twin.seen.processor);
    let busy = busy.map_or("?".into(), |(one, other)| format!("{:.2}", ratio(one, other)));
    println!("{:<12}{:>12.2}{busy:>12}", "ratio", ratio(other.time, twin.time));
    let equal = other.printed == twin.printed && other.ended_well && twin.ended_well;
    println!("{}", if equal { "both printed the same" } else { "they differ" });
    Ok(equal)
}

/// `bench --hall PATH [--lamps N] [--rounds N]`
pub fn main(args: &[OsString]) -> Result<bool, Failure> {
    let options = Options::parse(args, &["--hall", "--lamps", "--rounds"])?;
    let Some(hall) = options.value("--hall").map(PathBuf::from) else {
        return Err(Failure::refused("--hall PATH is missing"));
    };
    let (lamps, rounds) = (options.number("--lamps", 1024)?, options.number("--rounds", 12288)?);
    if !(1..=1024).contains(&lamps) {
        return Err(Failure::refused("--lamps is not from 1 to 1024"));
    }
    println!("{lamps} lamps with up to 16 wires each, {rounds} rounds");
    let folder = env::temp_dir().join(format!("twin-bench-{}", process::id()));
    let equal = bench(&hall, lamps, rounds, &folder);
    // What they printed is kept only where there is something to look at.
    match &equal {
        Ok(false) => println!("input and output: {}", folder.display()),
        _ => drop(fs::remove_dir_all(&folder)),
    }
    equal.map_err(Failure::io(hall.to_string_lossy()))
}
