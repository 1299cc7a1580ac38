//! The program `judge`: the right numbers of every lamp, worked out from the hall alone.

use std::ffi::OsString;
use std::io::{self, Read, Write};

use crate::hall_file::Hall;
use crate::rules::{FIELDS, Numbers};
use crate::text::{Failure, lines, number, words};

/// Shortest ways from the lowest name, then a walk of the tree from its root, children by rising place.
pub fn right_numbers(hall: &Hall) -> Vec<Numbers> {
    let count = hall.count();
    let root = (0..count).min_by_key(|&place| hall.names[place]);
    let root = root.expect("a hall has a lamp");
    let distances = hall.distances(root);
    let parent_of = |place: usize| {
        let nearer = |&&n: &&u32| distances[n as usize] < distances[place];
        let neighbour = hall.neighbours(place).iter().find(nearer);
        neighbour.map_or(place, |&n| n as usize)
    };
    let parents: Vec<usize> = (0..count).map(parent_of).collect();
    let mut children = vec![Vec::new(); count];
    for place in (0..count).filter(|&place| place != root) {
        children[parents[place]].push(place);
    }

    let mut walk = Vec::with_capacity(count);
    let mut ahead = vec![root];
    while let Some(place) = ahead.pop() {
        walk.push(place);
        ahead.extend(children[place].iter().rev());
    }
    // From the last of the walk to the first, so that children come before their parents.
    let mut sizes = vec![1; count];
    for &place in walk[1..].iter().rev() {
        sizes[parents[place]] += sizes[place];
    }

    let mut right = vec![Numbers::default(); count];
    for (number, &place) in walk.iter().enumerate() {
        right[place] = Numbers {
            best: hall.names[root],
            distance: distances[place].expect("a hall hangs together"),
            parent: parents[place] as u32,
            size: sizes[place],
            total: count as u32,
            number: number as u32,
        };
    }
    right
}

/// One line of a `show`, of that place.
fn parse(line: &[u8], place: usize) -> Option<Numbers> {
    let mut words = words(line);
    let first = words.next()?.strip_suffix(b":")?;
    if number(first)? as usize != place {
        return None;
    }
    let numbers: Vec<u32> = words.map(number).collect::<Option<_>>()?;
    Some(Numbers::from_words(numbers.try_into().ok()?))
}

/// The verdict, and whether it is `right`.
pub fn judge(hall: &Hall, show: &[u8]) -> Result<(String, bool), Failure> {
    let mut lines = lines(show);
    let mut shown = Vec::new();
    for place in 0..hall.count() {
        let numbers = lines.next().and_then(|line| parse(line, place));
        let reason = || Failure::at_line(place + 1, format!("not what `show` prints of lamp {place}"));
        shown.push(numbers.ok_or_else(reason)?);
    }
    if lines.next().is_some() {
        return Err(Failure::at_line(hall.count() + 1, "there are no more lamps"));
    }
    let right = right_numbers(hall);
    let Some(place) = (0..hall.count()).find(|&place| shown[place] != right[place]) else {
        return Ok(("right".into(), true));
    };
    let numbers = shown[place].to_words().into_iter().zip(right[place].to_words());
    let wrong: String = FIELDS
        .iter()
        .zip(numbers)
        .filter(|(_, (shown, right))| shown != right)
        .map(|(field, _)| format!(" {field}"))
        .collect();
    Ok((format!("lamp {place}:{wrong}"), false))
}

/// `judge FILE`
pub fn main(args: &[OsString]) -> Result<bool, Failure> {
    let [file] = args else {
        return Err(Failure::refused("the argument is FILE"));
    };
    let hall = Hall::open(file)?;
    let mut show = Vec::new();
    let read = io::stdin().lock().read_to_end(&mut show);
    read.map_err(Failure::io("standard input"))?;
    let (verdict, is_right) = judge(&hall, &show)?;
    writeln!(io::stdout(), "{verdict}").map_err(Failure::io("standard output"))?;
    Ok(is_right)
}

#[cfg(test)]
mod tests {
    use super::*;

    fn verdict(show: &str) -> String {
        let hall = Hall::parse(b"most 3\nlamp 5\nlamp 3\nlamp 8\nwire 0 1\nwire 1 2\n").unwrap();
        judge(&hall, show.as_bytes()).map_or_else(|failure| failure.to_string(), |(text, _)| text)
    }

    #[test]
    fn says_right_or_the_first_wrong_lamp() {
        assert_eq!(verdict("0: 3 1 1 1 3 1\n1: 3 0 1 3 3 0\n2: 3 1 1 1 3 2\n"), "right");
        assert_eq!(verdict("0: 3 1 1 1 3 1\n1: 3 0 0 3 3 4\n2: 0 0 0 0 0 0"), "lamp 1: parent number");
    }

    #[test]
    fn refuses_what_is_no_show() {
        assert!(verdict("").starts_with("4 line 1:"));
        assert!(verdict("0: 3 1 1 1 3 1\n2: 3 0 1 3 3 0\n").starts_with("4 line 2:"));
        assert!(verdict("0: 0 0 0 0 0 0\n1: 0 0 0 0 0 0\n2: 0 0 0 0 0 0\n\n").starts_with("4 line 4:"));
        assert!(verdict("0: 3 1 1 1 3 1\n1: 3 0 1 3 3 0 0\n").starts_with("4 line 2:"));
    }
}
