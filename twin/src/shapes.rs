//! Halls made up for tests and for the benchmark.

use std::collections::HashSet;
use std::fmt::Write;

use crate::draws::Random;
use crate::hall_file::WIRES;

#[derive(Clone, Copy, Debug)]
pub enum Shape {
    Row,
    Ring,
    Tree,
    /// Each lamp takes as many others as it can.
    Star,
    /// A ring in which each lamp is wired to the eight nearest on either side.
    Dense,
    /// A tree and some more wires.
    Tangle,
}

impl Shape {
    pub const ALL: [Shape; 6] =
        [Shape::Row, Shape::Ring, Shape::Tree, Shape::Star, Shape::Dense, Shape::Tangle];
}

/// What a hall file says, sound or not.
#[derive(Clone, Debug)]
pub struct Plan {
    pub most: usize,
    pub names: Vec<u32>,
    pub wires: Vec<(usize, usize)>,
}

/// Wires that keep within the bounds.
#[derive(Default)]
struct Wiring {
    wires: Vec<(usize, usize)>,
    known: HashSet<(usize, usize)>,
    used: Vec<usize>,
}

impl Wiring {
    fn is_free(&self, place: usize) -> bool {
        self.used[place] < WIRES
    }

    /// Wires two lamps, unless that would be one wire too many.
    fn join(&mut self, a: usize, b: usize) {
        if a != b && self.is_free(a) && self.is_free(b) && self.known.insert((a.min(b), a.max(b))) {
            self.wires.push((a, b));
            self.used[a] += 1;
            self.used[b] += 1;
        }
    }
}

impl Plan {
    /// Names at places as they come; wires as the shape has them.
    pub fn of_shape(shape: Shape, count: usize, most: usize, random: &mut Random) -> Plan {
        let mut wiring = Wiring { used: vec![0; count], ..Wiring::default() };
        for place in 1..count {
            let earlier = match shape {
                Shape::Row | Shape::Ring | Shape::Dense => place - 1,
                Shape::Star => (0..place).find(|&p| wiring.is_free(p)).unwrap_or(place - 1),
                Shape::Tree | Shape::Tangle => {
                    let start = random.below(place);
                    let mut others = (start..place).chain(0..start);
                    others.find(|&p| wiring.is_free(p)).unwrap_or(place - 1)
                }
            };
            wiring.join(earlier, place);
        }
        match shape {
            Shape::Ring => wiring.join(0, count - 1),
            Shape::Dense => {
                for step in 1..=WIRES / 2 {
                    (0..count).for_each(|place| wiring.join(place, (place + step) % count));
                }
            }
            Shape::Tangle => {
                for _ in 0..random.below(count + 1) {
                    wiring.join(random.below(count), random.below(count));
                }
            }
            Shape::Row | Shape::Tree | Shape::Star => {}
        }
        // The factor is odd, so no two names are the same; the lowest may be at any place.
        let offset = random.word();
        let names = (0..count as u32).map(|place| offset.wrapping_add(place.wrapping_mul(0x9e37_79b1)));
        Plan { most, names: names.collect(), wires: wiring.wires }
    }

    /// Any shape, at any places, with names of any kind.
    pub fn random(shape: Shape, count: usize, most: usize, random: &mut Random) -> Plan {
        let mut plan = Plan::of_shape(shape, count, most, random);
        let lowest = random.pick(&[0, 1, 7, u32::MAX - count as u32 + 1]);
        if random.one_in(2) {
            plan.names = (lowest..=u32::MAX).take(count).collect();
        }
        if random.one_in(2) {
            random.shuffle(&mut plan.names);
        }
        if random.one_in(2) {
            let mut places: Vec<usize> = (0..count).collect();
            random.shuffle(&mut places);
            plan.wires = plan.wires.iter().map(|&(a, b)| (places[a], places[b])).collect();
            random.shuffle(&mut plan.wires);
        }
        for again in 0..random.below(3).min(plan.wires.len()) {
            let (a, b) = plan.wires[again];
            plan.wires.push(random.pick(&[(a, b), (b, a)]));
        }
        plan
    }

    pub fn to_text(&self) -> String {
        let mut text = format!("most {}\n", self.most);
        let lamps = self.names.iter().map(|name| writeln!(text, "lamp {name}"));
        lamps.collect::<Result<(), _>>().expect("a string takes anything");
        let wires = self.wires.iter().map(|(a, b)| writeln!(text, "wire {a} {b}"));
        wires.collect::<Result<(), _>>().expect("a string takes anything");
        text
    }
}

#[cfg(test)]
mod tests {
    use super::*;
    use crate::hall_file::Hall;
    use crate::judge::right_numbers;

    #[test]
    fn all_shapes_are_halls_with_numbers_of_their_own() {
        let mut random = Random::new(1);
        for (shape, count) in Shape::ALL.into_iter().flat_map(|shape| (1..60).map(move |n| (shape, n))) {
            let plan = Plan::random(shape, count, count + random.below(3), &mut random);
            let hall = Hall::parse(plan.to_text().as_bytes()).expect("a sound hall");
            let right = right_numbers(&hall);
            let numbers: HashSet<u32> = right.iter().map(|n| n.number).collect();
            assert_eq!(numbers, (0..count as u32).collect());
            let root = right.iter().find(|n| n.distance == 0).expect("a root");
            assert_eq!((root.size, root.best), (count as u32, *hall.names.iter().min().unwrap()));
        }
    }
}
