//! Hall files, and the hall that one describes.

use std::collections::HashSet;
use std::ffi::OsStr;
use std::fs;
use std::ops::Range;

use crate::text::{Failure, lines, number, words};

pub const MOST: u32 = 1024;
pub const WIRES: usize = 16;

/// A sound hall. Its ways (each wire is two, one from either end) stand in one list, by rising place
/// of the lamp, then of its neighbour.
#[derive(Debug)]
pub struct Hall {
    pub most: u32,
    pub names: Vec<u32>,
    /// Where each lamp's ways begin; one more, for the end of the last.
    starts: Vec<usize>,
    /// The place at the other end of each way.
    neighbours: Vec<u32>,
    /// The way back of each way.
    back: Vec<u32>,
}

/// A number and the line that it came from.
struct NameLine {
    name: u32,
    line: usize,
}

struct WireLine {
    ends: [u32; 2],
    line: usize,
}

/// A hall file whose lines have the right form, and no more.
struct Draft {
    most: u32,
    lamps: Vec<NameLine>,
    wires: Vec<WireLine>,
}

impl Draft {
    fn read(bytes: &[u8]) -> Result<Self, Failure> {
        let mut numbered = (1..).zip(lines(bytes));
        let first: Option<Vec<&[u8]>> = numbered.next().map(|(_, line)| words(line).collect());
        let most = match first.as_deref() {
            Some([b"most", most]) => number(most),
            _ => None,
        };
        let most = most.ok_or_else(|| Failure::at_line(1, "there is no `most N`"))?;
        let mut draft = Draft { most, lamps: Vec::new(), wires: Vec::new() };
        for (line, bytes) in numbered {
            draft
                .take(line, bytes)
                .ok_or_else(|| Failure::at_line(line, "neither `lamp NAME` nor `wire A B` here"))?;
        }
        Ok(draft)
    }

    fn take(&mut self, line: usize, bytes: &[u8]) -> Option<()> {
        match *words(bytes).collect::<Vec<_>>() {
            [b"lamp", name] if self.wires.is_empty() => {
                let name = number(name)?;
                self.lamps.push(NameLine { name, line });
            }
            [b"wire", a, b] => {
                let ends = [number(a)?, number(b)?];
                self.wires.push(WireLine { ends, line });
            }
            _ => return None,
        }
        Some(())
    }

    fn check(&self) -> Result<(), Failure> {
        if !(1..=MOST).contains(&self.most) {
            return Err(Failure::at_line(1, "`most` is not from 1 to 1024"));
        }
        if self.lamps.is_empty() {
            return Err(Failure::refused("there is no lamp"));
        }
        if self.lamps.len() > self.most as usize {
            return Err(Failure::refused("there are more lamps than `most`"));
        }
        let mut names = HashSet::new();
        if let Some(lamp) = self.lamps.iter().find(|lamp| !names.insert(lamp.name)) {
            let reason = format!("another lamp has the name {}", lamp.name);
            return Err(Failure::at_line(lamp.line, reason));
        }
        for &WireLine { ends: [a, b], line } in &self.wires {
            if a.max(b) as usize >= self.lamps.len() {
                return Err(Failure::at_line(line, "there is no such place"));
            }
            if a == b {
                return Err(Failure::at_line(line, "a lamp is wired to itself"));
            }
        }
        Ok(())
    }
}

impl Hall {
    pub fn open(file: &OsStr) -> Result<Self, Failure> {
        let bytes = fs::read(file).map_err(Failure::io(file.to_string_lossy()))?;
        Hall::parse(&bytes)
    }

    pub fn parse(bytes: &[u8]) -> Result<Self, Failure> {
        let draft = Draft::read(bytes)?;
        draft.check()?;
        let both = draft.wires.iter().flat_map(|&WireLine { ends: [a, b], .. }| [(a, b), (b, a)]);
        let mut ways: Vec<(u32, u32)> = both.collect();
        ways.sort_unstable();
        ways.dedup();
        let back = ways.iter().map(|&(a, b)| ways.partition_point(|&way| way < (b, a)) as u32);
        let count = draft.lamps.len() as u32;
        let hall = Hall {
            most: draft.most,
            names: draft.lamps.iter().map(|lamp| lamp.name).collect(),
            starts: (0..=count).map(|place| ways.partition_point(|&(a, _)| a < place)).collect(),
            neighbours: ways.iter().map(|&(_, b)| b).collect(),
            back: back.collect(),
        };
        if (0..hall.count()).any(|place| hall.ways(place).len() > WIRES) {
            return Err(Failure::refused("a lamp is wired to more than 16 others"));
        }
        if hall.distances(0).contains(&None) {
            return Err(Failure::refused("the lamps don't hang together"));
        }
        Ok(hall)
    }

    pub fn count(&self) -> usize {
        self.names.len()
    }

    /// How many ways there are in all.
    pub fn way_count(&self) -> usize {
        self.neighbours.len()
    }

    /// The ways from this place, as a part of the list of all ways.
    #[inline]
    pub fn ways(&self, place: usize) -> Range<usize> {
        self.starts[place]..self.starts[place + 1]
    }

    #[inline]
    pub fn neighbours(&self, place: usize) -> &[u32] {
        &self.neighbours[self.ways(place)]
    }

    #[inline]
    pub fn back(&self, way: usize) -> usize {
        self.back[way] as usize
    }

    /// The way from one place to another, if there is a wire and if there are such places at all.
    pub fn way(&self, from: u32, to: u32) -> Option<usize> {
        let from = self.place(from)?;
        let wire = self.neighbours(from).binary_search(&to).ok()?;
        Some(self.starts[from] + wire)
    }

    /// The two ends of a way.
    pub fn ends(&self, way: usize) -> (usize, usize) {
        (self.neighbours[self.back(way)] as usize, self.neighbours[way] as usize)
    }

    pub fn place(&self, place: u32) -> Option<usize> {
        let place = place as usize;
        (place < self.count()).then_some(place)
    }

    /// The fewest wires from one lamp to each.
    pub fn distances(&self, from: usize) -> Vec<Option<u32>> {
        let mut distances = vec![None; self.count()];
        distances[from] = Some(0);
        let mut edge = vec![from];
        for distance in 1.. {
            let mut next = Vec::new();
            for &neighbour in edge.iter().flat_map(|&place| self.neighbours(place)) {
                let known = &mut distances[neighbour as usize];
                if known.is_none() {
                    *known = Some(distance);
                    next.push(neighbour as usize);
                }
            }
            if next.is_empty() {
                break;
            }
            edge = next;
        }
        distances
    }
}

#[cfg(test)]
mod tests {
    use super::*;

    #[track_caller]
    fn refused(text: &str, at: &str) {
        let reason = Hall::parse(text.as_bytes()).unwrap_err().to_string();
        assert!(reason.starts_with(at), "{reason}");
        assert_eq!(at.contains("line"), reason.contains("line"), "{reason}");
    }

    #[test]
    fn wires_named_again_are_the_same() {
        let hall = Hall::parse(b"most 9\nlamp 5\nlamp 3\nlamp 8\nwire 1 0\nwire 1 2\nwire 0 1");
        let hall = hall.unwrap();
        assert_eq!(hall.way_count(), 4);
        assert_eq!(hall.neighbours(1), [0, 2]);
        assert_eq!((hall.way(2, 1), hall.way(0, 2), hall.way(3, 0)), (Some(3), None, None));
        assert_eq!(hall.ends(hall.back(3)), (1, 2));
    }

    #[test]
    fn bad_halls_are_refused_in_order() {
        refused("", "4 line 1:");
        refused("most 0\nlamp 1\n\n", "4 line 3:");
        refused("most 0\n", "4 line 1:");
        refused("most 1025\nlamp 1\n", "4 line 1:");
        refused("most 1\n", "4 ");
        refused("most 1\nlamp 1\nlamp 1\n", "4 ");
        refused("most 3\nlamp 1\nlamp 2\nlamp 1\nwire 0 3\n", "4 line 4:");
        refused("most 3\nlamp 1\nlamp 2\nwire 0 1\nwire 1 1\nwire 0 3\n", "4 line 5:");
        refused("most 3\nlamp 1\nwire 0 0\nlamp 1\n", "4 line 4:");
        refused("most 3\nlamp 1\nlamp 2\n", "4 ");
        let lamps: String = (0..18).map(|name| format!("lamp {name}\n")).collect();
        let star = |ends: u32| -> String { (1..=ends).map(|b| format!("wire 0 {b}\n")).collect() };
        refused(&format!("most 18\n{lamps}{}", star(17)), "4 ");
        assert!(Hall::parse(format!("most 18\n{lamps}{}wire 1 17", star(16)).as_bytes()).is_ok());
    }
}
