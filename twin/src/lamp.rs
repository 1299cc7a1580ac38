//! The program `lamp`: one lamp that is talked to line by line.

use std::ffi::OsString;
use std::fmt::Write as _;
use std::fs;
use std::io::{self, BufWriter, Write};

use crate::frame::{self, PART};
use crate::hall_file::{MOST, WIRES};
use crate::rules::{Numbers, Site, Telling, work};
use crate::text::{Failure, Refusal, each_line, number, words};

pub const MEMORY: &str = "memory";

/// What the last work came to: the numbers, and what lies on each wire.
struct Worked {
    numbers: Numbers,
    tellings: Vec<Telling>,
}

pub struct Lamp {
    site: Site,
    /// By rising place, each once.
    neighbours: Vec<u32>,
    heard: Vec<Telling>,
    worked: Option<Worked>,
}

impl Lamp {
    /// `None` where the arguments are not `MOST PLACE NAME NEIGHBOUR..` of a lamp that there can be.
    fn from_args(args: &[OsString]) -> Option<Self> {
        let numbers: Option<Vec<u32>> = args.iter().map(|arg| number(arg.as_encoded_bytes())).collect();
        let [most, place, name, ref neighbours @ ..] = *numbers? else {
            return None;
        };
        let mut neighbours = neighbours.to_vec();
        neighbours.sort_unstable();
        neighbours.dedup();
        let is_sound = (1..=MOST).contains(&most)
            && place < most
            && neighbours.iter().all(|&n| n < most && n != place)
            && neighbours.len() <= WIRES;
        is_sound.then(|| Lamp {
            site: Site { most, place, name },
            heard: vec![Telling::default(); neighbours.len()],
            neighbours,
            worked: None,
        })
    }

    fn recall(&mut self, memory: &[u8]) -> Result<(), Refusal> {
        let (parts, rest) = memory.as_chunks::<PART>();
        if parts.len() != self.heard.len() || !rest.is_empty() {
            return Err(Refusal::Memory);
        }
        self.heard = parts.iter().map(frame::from_part).collect();
        Ok(())
    }

    fn memory(&self) -> Vec<u8> {
        self.heard.iter().copied().flat_map(frame::to_part).collect()
    }

    fn wire(&self, place: u32) -> Result<usize, Refusal> {
        self.neighbours.binary_search(&place).map_err(|_| Refusal::NoWire)
    }

    fn work(&mut self) -> &Worked {
        let mut tellings = Vec::with_capacity(self.heard.len());
        let numbers = work(self.site, &self.neighbours, &self.heard, |_, telling| tellings.push(telling));
        self.worked.insert(Worked { numbers, tellings })
    }

    /// What is printed for a line, refusals apart.
    fn answer(&mut self, line: &[u8]) -> Result<String, Refusal> {
        match *words(line).take(4).collect::<Vec<_>>() {
            [b"work"] => {
                let tellings = self.work().tellings.clone();
                let wires = self.neighbours.iter().zip(tellings);
                Ok(wires.map(|(&place, telling)| frame_line(place, telling)).collect())
            }
            [b"hear", place, digits] => {
                let place = number(place).ok_or(Refusal::Format)?;
                let bytes = frame::from_hex(digits).ok_or(Refusal::Frame)?;
                let telling = frame::read(&bytes).ok_or(Refusal::Frame)?;
                let wire = self.wire(place)?;
                self.heard[wire] = telling;
                Ok(String::new())
            }
            [b"tell", place] => {
                let place = number(place).ok_or(Refusal::Format)?;
                let wire = self.wire(place)?;
                let told = self.worked.as_ref().map(|worked| worked.tellings[wire]);
                Ok(told.map_or("none\n".into(), |telling| frame_line(place, telling)))
            }
            [b"show"] => Ok(self.worked.as_ref().map_or("none\n".into(), |worked| {
                let [best, distance, parent, size, total, number] = worked.numbers.to_words();
                format!("{best} {distance} {parent} {size} {total} {number}\n")
            })),
            _ => Err(Refusal::Format),
        }
    }
}

fn frame_line(place: u32, telling: Telling) -> String {
    format!("{place} {}\n", frame::to_hex(&frame::write(telling)))
}

/// `lamp MOST PLACE NAME NEIGHBOUR..`
pub fn main(args: &[OsString]) -> Result<bool, Failure> {
    let reason = "the arguments are MOST PLACE NAME NEIGHBOUR..: MOST from 1 to 1024, places below MOST, \
                  at most 16 neighbours and none of them PLACE";
    let mut lamp = Lamp::from_args(args).ok_or_else(|| Failure::refused(reason))?;
    let mut output = BufWriter::new(io::stdout().lock());
    // Every answer is written out before the next line is read. One whose reader has gone fails here
    // too, and leaves the memory as it was.
    let mut say = |answer: Result<String, Refusal>| {
        let mut text = String::new();
        match answer {
            Ok(lines) => text = lines,
            Err(refusal) => writeln!(text, "{refusal}").expect("a string takes anything"),
        }
        let written = output.write_all(text.as_bytes()).and_then(|()| output.flush());
        written.map_err(Failure::io("standard output"))
    };
    // A memory that cannot be read is as good as none.
    let recalled = match fs::read(MEMORY) {
        Ok(memory) => lamp.recall(&memory),
        Err(_) => Err(Refusal::Memory),
    };
    say(recalled.map(|()| String::new()))?;
    each_line(io::stdin().lock(), |line| say(lamp.answer(line)))?;
    fs::write(MEMORY, lamp.memory()).map_err(Failure::io(MEMORY))?;
    Ok(true)
}

#[cfg(test)]
mod tests {
    use super::*;

    fn lamp(args: &str) -> Option<Lamp> {
        Lamp::from_args(&args.split(' ').map(OsString::from).collect::<Vec<_>>())
    }

    #[test]
    fn arguments_of_lamps_that_cannot_be_are_refused() {
        for args in ["4 1", "0 0 1", "1025 0 1", "4 4 1", "4 1 1 4", "4 1 1 0 1", "4 1 -1", "4 1 1 "] {
            assert!(lamp(args).is_none(), "{args}");
        }
        let wires: Vec<String> = (1..=17).map(|n| n.to_string()).collect();
        assert!(lamp(&format!("20 0 1 {}", wires.join(" "))).is_none());
        assert!(lamp(&format!("20 0 1 {} 3", wires[..16].join(" "))).is_some());
        assert_eq!(lamp("4 1 1 3 0 3").unwrap().neighbours, [0, 3]);
    }

    #[test]
    fn a_short_talk() {
        let mut lamp = lamp("4 1 7 2").unwrap();
        let mut say = |line: &str| lamp.answer(line.as_bytes());
        assert_eq!(say("show"), Ok("none\n".into()));
        assert_eq!(say("tell 2"), Ok("none\n".into()));
        assert_eq!(say("tell 3"), Err(Refusal::NoWire));
        let frame = "4c0000000300000000000000020000000100000002000000000000000155";
        assert_eq!(say(&format!("hear 2 {frame}")), Ok(String::new()));
        let told = "2 4c0000000300000001000000020000000100000002000000010000000056\n";
        assert_eq!(say("work"), Ok(told.into()));
        assert_eq!(say("tell 02"), Ok(told.into()));
        assert_eq!(say("show"), Ok("3 1 2 1 2 1\n".into()));
        assert_eq!(say(&format!("hear 3 {frame}")), Err(Refusal::NoWire));
        assert_eq!(say(&format!("hear 3 {frame}0")), Err(Refusal::Frame));
        assert_eq!(say("hear 2 "), Err(Refusal::Frame));
        for line in ["hear 2", "hear x 4c", "hear 2  4c", "work ", "", "Show", "tell 2 "] {
            assert_eq!(say(line), Err(Refusal::Format), "{line}");
        }
    }
}
