//! The state of a whole hall, and what doings do to it.

use crate::draws::Draws;
use crate::hall_file::Hall;
use crate::rules::{Numbers, Site, Telling, work};

/// Flat tables; those by way go by the hall's list of ways.
#[derive(Clone)]
pub struct Net<'h> {
    hall: &'h Hall,
    /// What each lamp worked out last, by place.
    pub lamps: Vec<Numbers>,
    /// What lies on each wire, by the way from the teller to the one told; `None` is noise.
    pub wires: Vec<Option<Telling>>,
    /// What is remembered, by the way from the one that remembers to the one heard.
    pub memories: Vec<Telling>,
}

/// One work, or one hearing: the lamp that the way comes from hears the one it goes to. Places and ways
/// of any hall fit into 16 bits, and a short list of doings is a fast one.
#[derive(Clone, Copy, Debug, PartialEq, Eq)]
pub enum Doing {
    Work(u16),
    Hear(u16),
}

/// All works by rising place, then all hearings by rising place of the hearer, then of the one heard.
pub fn all_doings(hall: &Hall) -> Vec<Doing> {
    let works = (0..hall.count() as u16).map(Doing::Work);
    works.chain((0..hall.way_count() as u16).map(Doing::Hear)).collect()
}

/// The doings of a round in the order that its seed gives.
pub struct Rounds {
    all: Vec<Doing>,
    shuffled: Vec<Doing>,
}

impl Rounds {
    pub fn new(hall: &Hall) -> Self {
        let all = all_doings(hall);
        let shuffled = all.clone();
        Rounds { all, shuffled }
    }

    pub fn shuffle(&mut self, seed: u32) -> &[Doing] {
        let mut draws = Draws::new(seed);
        self.shuffled.copy_from_slice(&self.all);
        for last in (0..self.shuffled.len()).rev() {
            // Index 0 takes a draw like any other.
            let other = draws.draw() % (last as u32 + 1);
            self.shuffled.swap(last, other as usize);
        }
        &self.shuffled
    }
}

impl<'h> Net<'h> {
    /// All numbers are 0.
    pub fn new(hall: &'h Hall) -> Self {
        Net {
            hall,
            lamps: vec![Numbers::default(); hall.count()],
            wires: vec![Some(Telling::default()); hall.way_count()],
            memories: vec![Telling::default(); hall.way_count()],
        }
    }

    pub fn fill(&mut self, seed: u32) {
        let mut draws = Draws::new(seed);
        self.memories.fill_with(|| Telling::from_words(draws.numbers()));
        self.wires.fill_with(|| Some(Telling::from_words(draws.numbers())));
        self.lamps.fill_with(|| Numbers::from_words(draws.numbers()));
    }

    #[inline]
    pub fn work(&mut self, place: usize) {
        let hall = self.hall;
        let site = Site { most: hall.most, place: place as u32, name: hall.names[place] };
        let ways = hall.ways(place);
        let heard = &self.memories[ways.clone()];
        let wires = &mut self.wires[ways];
        self.lamps[place] = work(site, hall.neighbours(place), heard, |wire, telling| {
            wires[wire] = Some(telling);
        });
    }

    #[inline]
    pub fn hear(&mut self, way: usize) {
        if let Some(telling) = self.wires[self.hall.back(way)] {
            self.memories[way] = telling;
        }
    }

    #[inline]
    pub fn carry_out(&mut self, doing: Doing) {
        match doing {
            Doing::Work(place) => self.work(place.into()),
            Doing::Hear(way) => self.hear(way.into()),
        }
    }
}

#[cfg(test)]
mod tests {
    use super::*;

    fn everyone(net: &Net, number: impl Fn(&Numbers) -> u32) -> Vec<u32> {
        net.lamps.iter().map(number).collect()
    }

    /// All lamps work, then all wires are heard.
    fn rounds(net: &mut Net, count: usize) {
        let doings = all_doings(net.hall);
        (0..count).for_each(|_| doings.iter().for_each(|&doing| net.carry_out(doing)));
    }

    #[test]
    fn a_row_of_three() {
        let hall = b"most 3\nlamp 5\nlamp 3\nlamp 8\nwire 0 1\nwire 1 2\n";
        let hall = Hall::parse(hall).unwrap();
        let mut net = Net::new(&hall);
        net.fill(1);
        rounds(&mut net, 36);
        assert_eq!(everyone(&net, |n| n.best), [3, 3, 3]);
        assert_eq!(everyone(&net, |n| n.distance), [1, 0, 1]);
        assert_eq!(everyone(&net, |n| n.total), [3, 3, 3]);
        assert_eq!(everyone(&net, |n| n.number), [1, 0, 2]);
    }

    #[test]
    fn a_name_that_no_lamp_has_expires() {
        let hall = b"most 3\nlamp 5\nlamp 3\nlamp 8\nwire 0 1\nwire 1 2\n";
        let hall = Hall::parse(hall).unwrap();
        let mut net = Net::new(&hall);
        net.memories.fill(Telling::from_words([1, 0, 0, 0, 0, 0, 0]));
        for distance in [1, 2] {
            rounds(&mut net, 1);
            assert_eq!(everyone(&net, |n| n.best), [1; 3]);
            assert_eq!(everyone(&net, |n| n.distance), [distance; 3]);
        }
        rounds(&mut net, 1);
        assert!(net.lamps.iter().all(|n| n.best != 1));
    }

    #[test]
    fn in_a_square_the_lower_place_is_the_parent() {
        let hall = b"most 4\nlamp 1\nlamp 2\nlamp 3\nlamp 4\nwire 0 1\nwire 1 2\nwire 2 3\nwire 3 0";
        let hall = Hall::parse(hall).unwrap();
        let mut net = Net::new(&hall);
        rounds(&mut net, 48);
        assert_eq!(net.lamps[2].parent, 1);
        assert_eq!(everyone(&net, |n| n.number), [0, 1, 2, 3]);
    }

    #[test]
    fn noise_is_not_heard_and_ends_with_a_work() {
        let hall = Hall::parse(b"most 2\nlamp 1\nlamp 2\nwire 0 1").unwrap();
        let mut net = Net::new(&hall);
        let kept = Telling::from_words([7; 7]);
        net.memories[1] = kept;
        net.wires[0] = None;
        net.hear(1);
        assert_eq!(net.memories[1], kept);
        net.work(0);
        net.hear(1);
        assert_eq!(net.memories[1].numbers, net.lamps[0]);
    }
}
