//! What one lamp works out from what it remembers, and what it then tells.

/// The names of a telling's seven numbers, in their order. The first six are also a lamp's own.
pub const FIELDS: [&str; 7] = ["best", "distance", "parent", "size", "total", "number", "given"];

/// The six numbers that a lamp works out.
#[derive(Clone, Copy, Debug, Default, PartialEq, Eq)]
pub struct Numbers {
    pub best: u32,
    pub distance: u32,
    pub parent: u32,
    pub size: u32,
    pub total: u32,
    pub number: u32,
}

/// What a lamp tells a neighbour: its numbers, and the number that it gives to that neighbour.
#[derive(Clone, Copy, Debug, Default, PartialEq, Eq)]
pub struct Telling {
    pub numbers: Numbers,
    pub given: u32,
}

impl Numbers {
    pub fn to_words(self) -> [u32; 6] {
        [self.best, self.distance, self.parent, self.size, self.total, self.number]
    }

    pub fn from_words([best, distance, parent, size, total, number]: [u32; 6]) -> Self {
        Numbers { best, distance, parent, size, total, number }
    }
}

impl Telling {
    pub fn to_words(self) -> [u32; 7] {
        let [best, distance, parent, size, total, number] = self.numbers.to_words();
        [best, distance, parent, size, total, number, self.given]
    }

    pub fn from_words([best, distance, parent, size, total, number, given]: [u32; 7]) -> Self {
        let numbers = Numbers::from_words([best, distance, parent, size, total, number]);
        Telling { numbers, given }
    }
}

/// What a lamp knows of itself from the start.
#[derive(Clone, Copy, Debug)]
pub struct Site {
    pub most: u32,
    pub place: u32,
    pub name: u32,
}

/// Works everything out from what was heard from the neighbours (by rising place), puts the telling
/// for each neighbour on its wire by `put`, and gives the lamp's new numbers.
#[inline]
pub fn work(
    site: Site,
    neighbours: &[u32],
    heard: &[Telling],
    mut put: impl FnMut(usize, Telling),
) -> Numbers {
    let Site { most, place, name } = site;
    let cut = |number: u32| number.min(most);

    let (mut best, mut distance) = (name, 0);
    let mut from = None;
    for (wire, told) in heard.iter().enumerate() {
        // 'Plus one is below most', said without a sum that could wrap.
        if told.numbers.distance < most - 1 {
            let offer = (told.numbers.best, told.numbers.distance + 1);
            if offer < (best, distance) {
                (best, distance) = offer;
                from = Some(wire);
            }
        }
    }

    let is_child = |told: &Telling| {
        let its = &told.numbers;
        its.parent == place && its.best == best && its.distance == distance + 1
    };
    // Sizes are cut before they are added up too, so that no sum can wrap.
    let children = heard.iter().filter(|told| is_child(told));
    let size = cut(1 + children.map(|told| cut(told.numbers.size)).sum::<u32>());
    let (parent, total, number) = match from {
        None => (place, size, 0),
        Some(wire) => {
            let told = &heard[wire];
            (neighbours[wire], cut(told.numbers.total), cut(told.given))
        }
    };
    let numbers = Numbers { best, distance, parent, size, total, number };

    let mut next = number + 1;
    for (wire, told) in heard.iter().enumerate() {
        let mut given = 0;
        if is_child(told) {
            given = cut(next);
            next += cut(told.numbers.size);
        }
        put(wire, Telling { numbers, given });
    }
    numbers
}

#[cfg(test)]
mod tests {
    use super::*;

    fn site(most: u32, place: u32, name: u32) -> Site {
        Site { most, place, name }
    }

    /// The numbers, and the numbers given.
    fn worked(site: Site, neighbours: &[u32], heard: &[[u32; 7]]) -> ([u32; 6], Vec<u32>) {
        let heard: Vec<Telling> = heard.iter().copied().map(Telling::from_words).collect();
        let mut given = Vec::new();
        let numbers = work(site, neighbours, &heard, |wire, telling| {
            assert_eq!(wire, given.len());
            given.push(telling.given);
        });
        (numbers.to_words(), given)
    }

    #[test]
    fn a_lamp_alone_is_its_own_root() {
        assert_eq!(worked(site(1, 0, 9), &[], &[]).0, [9, 0, 0, 1, 1, 0]);
    }

    #[test]
    fn the_first_of_equal_offers_is_taken() {
        let heard = [[1, 1, 0, 1, 4, 1, 2], [1, 1, 0, 1, 4, 3, 0]];
        let (numbers, _) = worked(site(4, 2, 3), &[1, 3], &heard);
        assert_eq!(numbers, [1, 2, 1, 1, 4, 2]);
    }

    #[test]
    fn a_distance_at_the_bound_is_not_taken() {
        for far in [2, 3, u32::MAX - 1, u32::MAX] {
            let (numbers, _) = worked(site(3, 0, 9), &[1], &[[1, far, 1, 1, 1, 1, 1]]);
            assert_eq!(numbers, [9, 0, 0, 1, 1, 0], "{far}");
        }
        let (numbers, _) = worked(site(3, 0, 9), &[1], &[[1, 1, 1, 1, 1, 1, 1]]);
        assert_eq!(numbers, [1, 2, 1, 1, 1, 1]);
    }

    #[test]
    fn large_sizes_are_cut() {
        let child = [3, 1, 5, u32::MAX, 0, 0, 0];
        let (numbers, given) = worked(site(1024, 5, 3), &[2, 8], &[child, child]);
        assert_eq!(numbers, [3, 0, 5, 1024, 1024, 0]);
        assert_eq!(given, [1, 1024]);
    }

    #[test]
    fn only_children_count_and_are_given_numbers() {
        let heard = [
            [1, 0, 0, 9, 9, 0, 4], // the parent
            [1, 2, 2, 3, 9, 0, 0], // a child
            [1, 2, 4, 5, 9, 0, 0], // hangs elsewhere
            [1, 3, 2, 5, 9, 0, 0], // at another distance
            [5, 2, 2, 5, 9, 0, 0], // has another best
            [1, 2, 2, 2, 9, 0, 0], // a child
        ];
        let (numbers, given) = worked(site(20, 2, 7), &[0, 1, 3, 4, 5, 6], &heard);
        assert_eq!(numbers, [1, 1, 0, 6, 9, 4]);
        assert_eq!(given, [0, 5, 0, 0, 0, 8]);
    }
}
