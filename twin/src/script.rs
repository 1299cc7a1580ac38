//! The program `hall`: carries out a script on a whole hall.

use std::ffi::OsString;
use std::io::{self, BufRead, BufWriter, Write};
use std::time::{Duration, Instant};

use crate::hall_file::Hall;
use crate::net::{Net, Rounds};
use crate::rules::{FIELDS, Numbers, Telling};
use crate::text::{Failure, Refusal, each_line, number, words};

/// What a line asks for. A field is an index into `FIELDS`.
enum Order {
    Fill(u32),
    SetMemory { lamp: u32, of: u32, field: usize, to: u32 },
    SetWire { from: u32, told: u32, field: usize, to: u32 },
    SetNoise { from: u32, told: u32 },
    SetLamp { lamp: u32, field: usize, to: u32 },
    Work(u32),
    Hear { lamp: u32, of: u32 },
    Round(u32),
    Show,
}

impl Order {
    /// `None` for a line that is not of the format.
    fn parse(line: &[u8]) -> Option<Self> {
        Some(match *words(line).take(7).collect::<Vec<_>>() {
            [b"fill", seed] => Order::Fill(number(seed)?),
            [b"set", b"memory", lamp, of, field, to] => Order::SetMemory {
                lamp: number(lamp)?,
                of: number(of)?,
                field: field_of(field)?,
                to: number(to)?,
            },
            [b"set", b"wire", from, told, b"noise"] => {
                Order::SetNoise { from: number(from)?, told: number(told)? }
            }
            [b"set", b"wire", from, told, field, to] => Order::SetWire {
                from: number(from)?,
                told: number(told)?,
                field: field_of(field)?,
                to: number(to)?,
            },
            [b"set", b"lamp", lamp, field, to] => Order::SetLamp {
                lamp: number(lamp)?,
                // The last field, given, is not one of a lamp.
                field: field_of(field).filter(|&field| field < 6)?,
                to: number(to)?,
            },
            [b"work", lamp] => Order::Work(number(lamp)?),
            [b"hear", lamp, of] => Order::Hear { lamp: number(lamp)?, of: number(of)? },
            [b"round", seed] => Order::Round(number(seed)?),
            [b"show"] => Order::Show,
            _ => return None,
        })
    }
}

fn field_of(word: &[u8]) -> Option<usize> {
    FIELDS.iter().position(|field| field.as_bytes() == word)
}

struct Run<'h, W> {
    hall: &'h Hall,
    net: Net<'h>,
    rounds: Rounds,
    output: W,
}

impl<W: Write> Run<'_, W> {
    /// Changes nothing where it refuses.
    fn carry_out(&mut self, order: Order) -> io::Result<Result<(), Refusal>> {
        let hall = self.hall;
        let place = |place| hall.place(place).ok_or(Refusal::Format);
        let way = |from, to| hall.way(from, to).ok_or(Refusal::NoWire);
        let done = match order {
            Order::Fill(seed) => {
                self.net.fill(seed);
                Ok(())
            }
            Order::SetMemory { lamp, of, field, to } => way(lamp, of).map(|way| {
                set(&mut self.net.memories[way], field, to);
            }),
            Order::SetWire { from, told, field, to } => way(from, told).map(|way| {
                // Noise wiped out what lay there before.
                let telling = self.net.wires[way].get_or_insert_default();
                set(telling, field, to);
            }),
            Order::SetNoise { from, told } => way(from, told).map(|way| self.net.wires[way] = None),
            Order::SetLamp { lamp, field, to } => place(lamp).map(|lamp| {
                let mut words = self.net.lamps[lamp].to_words();
                words[field] = to;
                self.net.lamps[lamp] = Numbers::from_words(words);
            }),
            Order::Work(lamp) => place(lamp).map(|lamp| self.net.work(lamp)),
            Order::Hear { lamp, of } => way(lamp, of).map(|way| self.net.hear(way)),
            Order::Round(seed) => {
                for &doing in self.rounds.shuffle(seed) {
                    self.net.carry_out(doing);
                }
                Ok(())
            }
            Order::Show => {
                for (place, numbers) in self.net.lamps.iter().enumerate() {
                    let [best, distance, parent, size, total, number] = numbers.to_words();
                    let out = &mut self.output;
                    writeln!(out, "{place}: {best} {distance} {parent} {size} {total} {number}")?;
                }
                Ok(())
            }
        };
        Ok(done)
    }

    fn take(&mut self, line: &[u8]) -> io::Result<()> {
        let done = match Order::parse(line) {
            Some(order) => self.carry_out(order)?,
            None => Err(Refusal::Format),
        };
        match done {
            Ok(()) => Ok(()),
            Err(refusal) => writeln!(self.output, "{refusal}"),
        }
    }
}

fn set(telling: &mut Telling, field: usize, to: u32) {
    let mut words = telling.to_words();
    words[field] = to;
    *telling = Telling::from_words(words);
}

/// Says every other second how far the script is.
struct Progress {
    lines: u64,
    last: Instant,
}

impl Progress {
    fn line(&mut self) {
        self.lines += 1;
        if self.last.elapsed() >= Duration::from_secs(2) {
            eprintln!("hall: {} lines carried out", self.lines);
            self.last = Instant::now();
        }
    }
}

/// Carries out a whole script and writes out what it prints.
pub fn run(hall: &Hall, input: impl BufRead, output: impl Write, progress: bool) -> Result<(), Failure> {
    let mut run = Run { hall, net: Net::new(hall), rounds: Rounds::new(hall), output };
    let mut progress = progress.then(|| Progress { lines: 0, last: Instant::now() });
    each_line(input, |line| {
        if let Some(progress) = &mut progress {
            progress.line();
        }
        run.take(line).map_err(Failure::io("standard output"))
    })?;
    run.output.flush().map_err(Failure::io("standard output"))
}

/// `hall [--progress] FILE`
pub fn main(args: &[OsString]) -> Result<bool, Failure> {
    let (progress, file) = match args {
        [file] if file != "--progress" => (false, file),
        [option, file] if option == "--progress" => (true, file),
        _ => return Err(Failure::refused("the arguments are [--progress] FILE")),
    };
    let hall = Hall::open(file)?;
    let output = BufWriter::with_capacity(1 << 16, io::stdout().lock());
    run(&hall, io::stdin().lock(), output, progress)?;
    Ok(true)
}

#[cfg(test)]
mod tests {
    use super::*;

    fn printed(script: &str) -> String {
        let hall = Hall::parse(b"most 3\nlamp 5\nlamp 3\nlamp 8\nwire 0 1\nwire 1 2\n").unwrap();
        let mut output = Vec::new();
        run(&hall, script.as_bytes(), &mut output, false).unwrap();
        String::from_utf8(output).unwrap()
    }

    #[test]
    fn refusals_by_number() {
        assert_eq!(printed("hear 0 2\nhear 9 0\nset memory 3 0 best 1\nset wire 0 0 noise"), "2\n2\n2\n2\n");
        assert_eq!(printed("work 3\nset lamp 3 best 0\nset lamp 0 given 0\nhear 0 2 \n"), "4\n4\n4\n4\n");
        assert_eq!(printed("\nwork  0\nround 4294967296\nset wire 0 2 noise 1\nshow\r"), "4\n4\n4\n4\n4\n");
        assert_eq!(printed("set wire 0 2 colour 1\nset memory 0 1 noise\n"), "4\n4\n");
    }

    #[test]
    fn noise_wipes_what_lay_there() {
        let script = "set wire 1 0 best 7\nset wire 1 0 noise\nset wire 1 0 size 4\nhear 0 1\nwork 0\nshow\n";
        assert_eq!(printed(script), "0: 0 1 1 1 0 0\n1: 0 0 0 0 0 0\n2: 0 0 0 0 0 0\n");
    }

    #[test]
    fn fill_goes_by_memories_wires_lamps() {
        let mut draws = crate::draws::Draws::new(5);
        let before: Vec<u32> = (0..2 * 4 * 7).map(|_| draws.number()).collect();
        let lamp: Vec<String> = (0..6).map(|_| draws.number().to_string()).collect();
        assert!(printed("fill 5\nshow\n").starts_with(&format!("0: {}\n", lamp.join(" "))));
        // Lamp 2 has the last of the four memories.
        let [.., number, given] = before[21..28] else { unreachable!() };
        assert_ne!(number, given);
        let script = "fill 5\nset memory 2 1 best 0\nset memory 2 1 distance 0\nwork 2\nshow";
        let numbers = format!("2: 0 1 1 1 {} {}\n", before[25].min(3), given.min(3));
        assert!(printed(script).ends_with(&numbers));
    }
}
