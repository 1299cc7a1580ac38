//! Tests of the promise: after 12 x most rounds, from any state and in any order, every lamp has the
//! right six numbers, and every further doing leaves them.

use std::ffi::OsString;
use std::time::{Duration, Instant};

use crate::draws::Random;
use crate::hall_file::Hall;
use crate::judge::right_numbers;
use crate::net::{Doing, Net, all_doings};
use crate::rules::{FIELDS, Numbers, Telling};
use crate::shapes::{Plan, Shape};
use crate::text::{Failure, Options};

const LARGEST: usize = 8;

/// The promised number of rounds.
fn promised(hall: &Hall) -> usize {
    12 * hall.most as usize
}

#[derive(Clone, Copy, Debug)]
enum Start {
    Zeros,
    AnyWords,
    SmallNumbers,
    /// Every memory and every wire tells of a name lower than any, right next to the teller.
    LowName,
    /// Of the lowest name or one just below it, at any distance.
    NearlyTheLowest,
    /// All is as it will be in the end, but for a few numbers.
    NearlyRight,
}

const STARTS: [Start; 6] = {
    use Start::*;
    [Zeros, AnyWords, SmallNumbers, LowName, NearlyTheLowest, NearlyRight]
};

/// In which order each round is carried out.
#[derive(Clone, Copy, Debug)]
enum Orders {
    Shuffled,
    WorksFirst,
    HearingsFirst,
    /// All works by falling place, each before the hearings of what it told.
    FallingWorks,
    /// Hearings first in every odd round, works first in every even one: a telling gets on by one wire
    /// in two rounds, which is as slow as it goes.
    Alternating,
    /// The other way round.
    AlternatingBack,
    /// Any of those before, drawn anew for each round.
    Mixed,
    /// With any further doings in between.
    Crowded,
    /// Of several orders, the one that leaves most that is wrong.
    Greedy,
}

const ORDERS: [Orders; 9] = {
    use Orders::*;
    [Shuffled, WorksFirst, HearingsFirst, FallingWorks, Alternating, AlternatingBack, Mixed, Crowded, Greedy]
};

fn is_work(doing: &Doing) -> bool {
    matches!(doing, Doing::Work(_))
}

/// What the end must look like: every lamp's numbers, and what each tells on each way.
struct End {
    lamps: Vec<Numbers>,
    tellings: Vec<Telling>,
}

impl End {
    fn of(hall: &Hall) -> Self {
        let lamps = right_numbers(hall);
        let telling = |way| {
            let (from, to) = hall.ends(way);
            let is_child = lamps[to].parent as usize == from && from != to;
            Telling { numbers: lamps[from], given: if is_child { lamps[to].number } else { 0 } }
        };
        let tellings = (0..hall.way_count()).map(telling).collect();
        End { lamps, tellings }
    }
}

/// One case while it runs.
struct Trial<'h> {
    hall: &'h Hall,
    end: &'h End,
    net: Net<'h>,
    random: Random,
    /// All that was done so far.
    done: Vec<Doing>,
}

impl<'h> Trial<'h> {
    fn new(hall: &'h Hall, end: &'h End, start: Start, random: Random) -> Self {
        let mut trial = Trial { hall, end, net: Net::new(hall), random, done: Vec::new() };
        trial.begin(start);
        trial
    }

    fn any_telling(&mut self, start: Start, way: usize) -> Telling {
        let random = &mut self.random;
        let most = self.hall.most as usize;
        let lowest = self.end.lamps[0].best;
        let mut words: [u32; 7] = std::array::from_fn(|_| match start {
            Start::AnyWords => random.word(),
            _ => random.below(most + 2) as u32,
        });
        match start {
            Start::LowName => words[..2].copy_from_slice(&[lowest.saturating_sub(1), 0]),
            Start::NearlyTheLowest => words[0] = lowest.saturating_sub(random.below(3) as u32),
            Start::Zeros => words = [0; 7],
            Start::NearlyRight => words = self.end.tellings[way].to_words(),
            Start::AnyWords | Start::SmallNumbers => {}
        }
        Telling::from_words(words)
    }

    fn begin(&mut self, start: Start) {
        for way in 0..self.hall.way_count() {
            self.net.memories[way] = self.any_telling(start, self.hall.back(way));
            self.net.wires[way] = Some(self.any_telling(start, way));
        }
        for place in 0..self.hall.count() {
            self.net.lamps[place] = match start {
                Start::NearlyRight => self.end.lamps[place],
                _ => Numbers::from_words(std::array::from_fn(|_| self.random.word())),
            };
        }
        let ways = self.hall.way_count();
        if ways == 0 {
            return;
        }
        if let Start::NearlyRight = start {
            for _ in 0..=self.random.below(2) {
                let telling = &mut self.net.memories[self.random.below(ways)];
                let mut words = telling.to_words();
                let limit = self.hall.most as usize + 2;
                words[self.random.below(7)] = self.random.below(limit) as u32;
                *telling = Telling::from_words(words);
            }
        }
        if self.random.one_in(2) {
            for _ in 0..=self.random.below(ways) {
                self.net.wires[self.random.below(ways)] = None;
            }
        }
    }

    fn wrong_lamps(&self, net: &Net) -> usize {
        net.lamps.iter().zip(&self.end.lamps).filter(|(is, must)| is != must).count()
    }

    /// Wrong lamps first; where they are as many, wrong memories and wires.
    fn badness(&self, net: &Net) -> (usize, usize) {
        let tellings = &self.end.tellings;
        let wires = net.wires.iter().zip(tellings).filter(|(is, must)| **is != Some(**must)).count();
        let is_wrong = |&way: &usize| net.memories[way] != tellings[self.hall.back(way)];
        let memories = (0..self.hall.way_count()).filter(is_wrong).count();
        (self.wrong_lamps(net), wires + memories)
    }

    fn order(&mut self, orders: Orders, round: usize) -> Vec<Doing> {
        let mut list = all_doings(self.hall);
        self.random.shuffle(&mut list);
        match orders {
            Orders::Shuffled => {}
            Orders::WorksFirst => list.sort_by_key(|doing| !is_work(doing)),
            Orders::HearingsFirst => list.sort_by_key(is_work),
            Orders::FallingWorks => list.sort_by_key(|&doing| match doing {
                Doing::Work(place) => (!place, 0),
                Doing::Hear(way) => (!(self.hall.ends(way.into()).1 as u16), 1),
            }),
            Orders::Alternating => list.sort_by_key(|doing| is_work(doing) == (round % 2 == 1)),
            Orders::AlternatingBack => list.sort_by_key(|doing| is_work(doing) != (round % 2 == 1)),
            Orders::Mixed => {
                let kind = ORDERS[self.random.below(6)];
                return self.order(kind, round);
            }
            Orders::Crowded => {
                for _ in 0..self.random.below(list.len() + 1) {
                    let again = self.random.pick(&list);
                    list.insert(self.random.below(list.len() + 1), again);
                }
            }
            Orders::Greedy => {
                let kinds = [Orders::HearingsFirst, Orders::WorksFirst, Orders::Shuffled, Orders::Crowded];
                let lists = kinds.map(|kind| self.order(kind, round));
                let after = |list: &Vec<Doing>| {
                    let mut net = self.net.clone();
                    list.iter().for_each(|&doing| net.carry_out(doing));
                    self.badness(&net)
                };
                let worst = lists.into_iter().max_by_key(after);
                return worst.expect("there are some kinds");
            }
        }
        list
    }

    /// Does all of a list, and tells whether anything was wrong in between, and how much is at the end.
    fn carry_out(&mut self, list: &[Doing], mut wrong: usize) -> (bool, usize) {
        let mut was_wrong = false;
        for &doing in list {
            self.net.carry_out(doing);
            if is_work(&doing) {
                wrong = self.wrong_lamps(&self.net);
                was_wrong |= wrong > 0;
            }
        }
        self.done.extend_from_slice(list);
        (was_wrong, wrong)
    }

    /// The least number of rounds after which all was right and stayed so; `None` if there is none.
    fn rounds_needed(&mut self, orders: Orders) -> Option<usize> {
        let mut wrong = self.wrong_lamps(&self.net);
        let mut needed = usize::from(wrong > 0);
        for round in 1..=promised(self.hall) {
            let list = self.order(orders, round);
            let was_wrong;
            (was_wrong, wrong) = self.carry_out(&list, wrong);
            if was_wrong {
                // Wrong at its end too: not even this round was enough.
                needed = round + usize::from(wrong > 0);
            }
        }
        let list = all_doings(self.hall);
        let further: Vec<Doing> = (0..4 * list.len()).map(|_| self.random.pick(&list)).collect();
        let (was_wrong, wrong) = self.carry_out(&further, wrong);
        (!was_wrong && wrong == 0).then_some(needed)
    }

    /// A script for `hall` that sets everything to what it is now.
    fn to_script(&self) -> String {
        let set = |what: String, words: &[u32]| -> String {
            let lines = FIELDS.iter().zip(words);
            lines.map(|(field, word)| format!("set {what} {field} {word}\n")).collect()
        };
        let ways = (0..self.hall.way_count()).map(|way| (way, self.hall.ends(way)));
        let mut script = String::new();
        for (way, (a, b)) in ways {
            script += &set(format!("memory {a} {b}"), &self.net.memories[way].to_words());
            script += &match self.net.wires[way] {
                Some(telling) => set(format!("wire {a} {b}"), &telling.to_words()),
                None => format!("set wire {a} {b} noise\n"),
            };
        }
        let lamps = self.net.lamps.iter().enumerate();
        script
            + &lamps.map(|(place, lamp)| set(format!("lamp {place}"), &lamp.to_words())).collect::<String>()
    }

    /// What was done, as lines of a script.
    fn done_to_script(&self) -> String {
        let line = |&doing: &Doing| match doing {
            Doing::Work(place) => format!("work {place}\n"),
            Doing::Hear(way) => {
                let (hearer, heard) = self.hall.ends(way.into());
                format!("hear {hearer} {heard}\n")
            }
        };
        self.done.iter().map(line).collect()
    }
}

#[derive(Clone, Copy, Default)]
struct Row {
    cases: usize,
    worst: usize,
    failed: usize,
}

/// `promise [--cases N] [--seed S]`
pub fn main(args: &[OsString]) -> Result<bool, Failure> {
    let options = Options::parse(args, &["--cases", "--seed"])?;
    let cases = options.number("--cases", 200_000)?;
    let mut random = Random::new(options.number("--seed", 1)?);
    let mut rows = [Row::default(); LARGEST + 1];
    let mut shown = Instant::now();
    for case in 0..cases {
        if shown.elapsed() >= Duration::from_secs(3) {
            eprintln!("promise: {case} of {cases} cases");
            shown = Instant::now();
        }
        // All of `most` in turn, and of the counts below it; every other hall is as large as it may be.
        let most = case % LARGEST + 1;
        let count = if case / LARGEST % 2 == 1 { most } else { case / (2 * LARGEST) % most + 1 };
        let plan = Plan::random(random.pick(&Shape::ALL), count, most, &mut random);
        let hall = Hall::parse(plan.to_text().as_bytes())?;
        let end = End::of(&hall);
        let (start, orders) = (random.pick(&STARTS), random.pick(&ORDERS));
        let seed = Random::new(random.word() as usize);
        let mut trial = Trial::new(&hall, &end, start, seed.clone());
        let needed = trial.rounds_needed(orders);
        let row = &mut rows[most];
        row.cases += 1;
        match needed.filter(|&needed| needed <= promised(&hall)) {
            Some(needed) => row.worst = row.worst.max(needed),
            None => {
                row.failed += 1;
                if rows.iter().map(|row| row.failed).sum::<usize>() == 1 {
                    println!("A counterexample ({start:?}, {orders:?}). The hall:\n{}", plan.to_text());
                    println!("The start:\n{}", Trial::new(&hall, &end, start, seed).to_script());
                    println!("What was done:\n{}", trial.done_to_script());
                }
            }
        }
    }
    println!("most   cases   worst rounds   12 x most");
    for (most, row) in rows.iter().enumerate().skip(1) {
        println!("{most:>4}{:>8}{:>15}{:>12}", row.cases, row.worst, 12 * most);
    }
    let failed: usize = rows.iter().map(|row| row.failed).sum();
    println!("{} passed, {failed} failed", cases - failed);
    Ok(failed == 0)
}
