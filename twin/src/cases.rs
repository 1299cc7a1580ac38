//! Random inputs for the programs: good ones, damaged ones, and arguments.

use std::ffi::OsString;
use std::os::unix::ffi::OsStringExt;

use crate::draws::Random;
use crate::frame;
use crate::hall_file::{Hall, MOST, WIRES};
use crate::judge::right_numbers;
use crate::lamp::MEMORY;
use crate::rules::{FIELDS, Telling};
use crate::shapes::{Plan, Shape};

#[derive(Clone, Copy, Debug, PartialEq, Eq)]
pub enum Program {
    Hall,
    Lamp,
    Judge,
}

impl Program {
    pub const ALL: [Program; 3] = [Program::Hall, Program::Lamp, Program::Judge];

    pub fn name(self) -> &'static str {
        match self {
            Program::Hall => "hall",
            Program::Lamp => "lamp",
            Program::Judge => "judge",
        }
    }
}

/// What a program is run on.
pub struct Case {
    pub args: Vec<OsString>,
    /// The file that the program opens, by its name in the current folder.
    pub file: Option<(&'static str, Vec<u8>)>,
    pub input: Vec<u8>,
}

/// A kind of case; of each hundred or so, `share` are of it.
pub struct Kind {
    pub program: Program,
    pub name: &'static str,
    pub share: usize,
    pub make: fn(&mut Random) -> Case,
}

pub const KINDS: [Kind; 11] = [
    Kind { program: Program::Hall, name: "scripts on small halls", share: 20, make: script_case },
    Kind { program: Program::Hall, name: "damaged scripts", share: 20, make: damaged_script_case },
    Kind { program: Program::Hall, name: "large halls", share: 2, make: large_case },
    Kind { program: Program::Hall, name: "damaged hall files", share: 20, make: damaged_hall_case },
    Kind { program: Program::Hall, name: "arguments", share: 2, make: hall_argument_case },
    Kind { program: Program::Lamp, name: "talks", share: 12, make: talk_case },
    Kind { program: Program::Lamp, name: "damaged lines and frames", share: 12, make: damaged_talk_case },
    Kind { program: Program::Lamp, name: "arguments", share: 6, make: lamp_argument_case },
    Kind { program: Program::Judge, name: "shows", share: 6, make: show_case },
    Kind { program: Program::Judge, name: "damaged shows", share: 6, make: damaged_show_case },
    Kind { program: Program::Judge, name: "damaged hall files", share: 3, make: damaged_judged_case },
];

const HALL: &str = "hall";

fn small_plan(random: &mut Random) -> Plan {
    let count = if random.one_in(8) { 1 + random.below(40) } else { 1 + random.below(9) };
    let most = if random.one_in(2) { count } else { count + random.below(MOST as usize + 1 - count) };
    Plan::random(random.pick(&Shape::ALL), count, most, random)
}

fn large_plan(random: &mut Random) -> Plan {
    let most = MOST as usize;
    let count = if random.one_in(2) { most } else { 100 + random.below(most - 99) };
    Plan::random(random.pick(&Shape::ALL), count, most, random)
}

/// Numbers near all the bounds.
fn any_number(random: &mut Random, near: u32) -> u32 {
    match random.below(7) {
        0 => 0,
        1 => random.below(4) as u32,
        2 => random.below(near as usize + 3) as u32,
        3 => near.saturating_sub(random.below(3) as u32),
        4 => random.pick(&[u32::MAX, u32::MAX - 1, 1 << 31, 1023, 1024, 1025]),
        5 => random.word(),
        _ => near,
    }
}

/// Two ends of a wire as a rule, and now and then any two places.
fn two_places(plan: &Plan, random: &mut Random) -> (usize, usize) {
    if plan.wires.is_empty() || random.one_in(20) {
        let limit = plan.names.len() + 2;
        return (random.below(limit), random.below(limit));
    }
    let (a, b) = random.pick(&plan.wires);
    random.pick(&[(a, b), (b, a)])
}

fn script_line(plan: &Plan, random: &mut Random) -> String {
    let (a, b) = two_places(plan, random);
    let name = random.pick(&plan.names);
    let near = random.pick(&[plan.most as u32, a as u32, b as u32, name, plan.names.len() as u32]);
    let (field, to) = (random.pick(&FIELDS), any_number(random, near));
    match random.below(20) {
        0 => format!("fill {to}"),
        1 | 2 => format!("set memory {a} {b} {field} {to}"),
        3 | 4 => format!("set wire {a} {b} {field} {to}"),
        5 => format!("set wire {a} {b} noise"),
        6 => format!("set lamp {a} {field} {to}"),
        7..=10 => format!("work {a}"),
        11..=14 => format!("hear {a} {b}"),
        15..=16 => format!("round {to}"),
        _ => "show".into(),
    }
}

fn script(plan: &Plan, lines: usize, random: &mut Random) -> Vec<Vec<u8>> {
    let mut script: Vec<Vec<u8>> = Vec::new();
    if random.one_in(2) {
        script.push(format!("fill {}", random.word()).into());
    }
    for _ in 0..lines {
        script.push(script_line(plan, random).into());
        if random.one_in(30) {
            script.extend(noise_lines(plan, random).map(String::into_bytes));
        }
    }
    script.push(b"show".to_vec());
    script
}

/// Noise, what may end it, and what shows whether it has.
fn noise_lines(plan: &Plan, random: &mut Random) -> [String; 5] {
    let (a, b) = two_places(plan, random);
    let (field, to) = (random.pick(&FIELDS), any_number(random, plan.most as u32));
    let end = match random.below(4) {
        0 => format!("fill {to}"),
        1 => format!("set wire {a} {b} {field} {to}"),
        2 => format!("work {a}"),
        _ => format!("set memory {b} {a} {field} {to}"),
    };
    let noise = format!("set wire {a} {b} noise");
    [noise, end, format!("hear {b} {a}"), format!("work {b}"), "show".into()]
}

/// The last line feed is missing now and then.
fn joined(lines: &[Vec<u8>], random: &mut Random) -> Vec<u8> {
    let mut bytes = lines.join(&b'\n');
    if !lines.is_empty() && !random.one_in(6) {
        bytes.push(b'\n');
    }
    bytes
}

/// Words at the wrong place, and no words or numbers at all. Two spaces are an empty word between.
const ODD_WORDS: &str = "0  00 007 -1 +1 1.0 0x1 1e1 4294967295 4294967296 1024 1025 00000000004294967295 \
    99999999999999999999999 18446744073709551616 show work hear set memory wire lamp noise given best most \
    round fill tell 0: colour \u{661} 1\r \t1 1\0";

/// Changes a line a little; it may stay a good one.
fn damage(line: &mut Vec<u8>, random: &mut Random) {
    let mut words: Vec<Vec<u8>> = line.split(|&byte| byte == b' ').map(<[u8]>::to_vec).collect();
    let which = random.below(words.len());
    let odd_words: Vec<&str> = ODD_WORDS.split(' ').collect();
    let odd = random.pick(&odd_words).as_bytes().to_vec();
    match random.below(12) {
        0..=3 => words[which] = odd,
        4 => words.insert(which, odd),
        5 => drop(words.remove(which)),
        6 => words.insert(which, Vec::new()),
        7 => words.push(Vec::new()),
        8 => words[which].make_ascii_uppercase(),
        9 => words[which].insert(0, b'0'),
        10 => {
            let last = words.last_mut().expect("there is a word");
            last.push(random.pick(b"\r\t\0 0:\xff"));
        }
        _ => {
            let count = random.below(12);
            words = vec![random.bytes(count)];
        }
    }
    *line = words.join(&b' ');
    if !line.is_empty() && random.one_in(8) {
        let place = random.below(line.len());
        line[place] = random.word() as u8;
    }
}

fn damage_some(lines: &mut [Vec<u8>], one_in: usize, random: &mut Random) {
    for line in lines {
        if random.one_in(one_in) {
            damage(line, random);
        }
    }
}

fn hall_case(plan: &Plan, script: &[Vec<u8>], random: &mut Random) -> Case {
    let file = Some((HALL, plan.to_text().into_bytes()));
    Case { args: vec![HALL.into()], file, input: joined(script, random) }
}

fn script_case(random: &mut Random) -> Case {
    let plan = small_plan(random);
    let lines = random.below(60);
    let script = script(&plan, lines, random);
    hall_case(&plan, &script, random)
}

fn damaged_script_case(random: &mut Random) -> Case {
    let plan = small_plan(random);
    let lines = random.below(60);
    let mut script = script(&plan, lines, random);
    damage_some(&mut script, 3, random);
    script.push(b"show".to_vec());
    hall_case(&plan, &script, random)
}

fn large_case(random: &mut Random) -> Case {
    let plan = large_plan(random);
    let mut script: Vec<Vec<u8>> = vec![format!("fill {}", random.word()).into()];
    for _ in 0..1 + random.below(20) {
        let line = match random.below(4) {
            0 => format!("round {}", random.word()),
            _ => script_line(&plan, random),
        };
        // Each line of a `show` is a long one here.
        if line != "show" || random.one_in(4) {
            script.push(line.into());
        }
    }
    script.push(b"show".to_vec());
    hall_case(&plan, &script, random)
}

/// Puts one thing or some into a hall file that may be refused.
fn damaged_hall(random: &mut Random) -> Vec<u8> {
    let mut plan = match random.below(10) {
        0 => large_plan(random),
        1..=3 => {
            let count = WIRES + random.pick(&[1, 2, 2, 2, 3, 4]);
            Plan::random(random.pick(&Shape::ALL), count, count, random)
        }
        _ => small_plan(random),
    };
    let damages = random.pick(&[(1, 0), (1, 0), (2, 0), (0, 1), (0, 1), (0, 2), (1, 1)]);
    for _ in 0..damages.0 {
        let (count, limit) = (plan.names.len(), plan.wires.len() + 1);
        match random.below(9) {
            0 => plan.most = random.pick(&[0, 1, 1023, 1024, 1025, 5000, u32::MAX as usize]),
            1 => plan.names.clear(),
            2 => plan.most = count.saturating_sub(random.below(2)),
            3 if count > 0 => plan.names[random.below(count)] = plan.names[random.below(count)],
            4 => plan.wires.insert(random.below(limit), (random.below(count + 2), random.below(count + 2))),
            5 => {
                let place = random.below(count + 1);
                plan.wires.insert(random.below(limit), (place, place));
            }
            6 => {
                // As many as may be, or one too many.
                let hub = random.below(count + 1);
                let others = (0..count).filter(|&n| n != hub).take(random.pick(&[WIRES, WIRES + 1]));
                plan.wires.extend(others.map(|n| (hub, n)));
            }
            7 => plan.wires.truncate(random.below(limit)),
            _ => plan.wires.extend_from_within(..),
        }
    }
    let text = plan.to_text();
    let mut lines: Vec<Vec<u8>> = text.lines().map(|line| line.as_bytes().to_vec()).collect();
    for _ in 0..damages.1 {
        let which = random.below(lines.len());
        let other = random.below(lines.len());
        match random.below(7) {
            0..=2 => damage(&mut lines[which], random),
            3 => lines.swap(which, other),
            4 => lines.insert(which, lines[other].clone()),
            5 => lines.insert(which, Vec::new()),
            _ => drop(lines.remove(which)),
        }
        if lines.is_empty() {
            break;
        }
    }
    let mut bytes = joined(&lines, random);
    match random.below(40) {
        0 => bytes.clear(),
        1 => bytes.truncate(random.below(bytes.len() + 1)),
        2 => bytes.push(b'\n'),
        3 => bytes = random.bytes(30),
        _ => {}
    }
    bytes
}

fn damaged_hall_case(random: &mut Random) -> Case {
    let file = Some((HALL, damaged_hall(random)));
    let input = b"fill 3\nround 1\nround 2\nwork 0\nhear 0 1\nnonsense\nshow\n".to_vec();
    Case { args: vec![HALL.into()], file, input }
}

fn hall_argument_case(random: &mut Random) -> Case {
    let all = "hall|hall hall|missing|.||--progress|--progress hall|--progress missing|--progress --progress|\
        hall --progress|--progress hall hall|--other hall";
    let all: Vec<&str> = all.split('|').collect();
    let args = random.pick(&all);
    let mut case = script_case(random);
    // The empty text is one empty argument; no arguments at all come as often.
    case.args = args.split(' ').map(OsString::from).collect();
    if random.one_in(12) {
        case.args.clear();
    }
    case
}

/// A lamp, as the arguments tell of it.
struct LampPlan {
    most: u32,
    place: u32,
    name: u32,
    neighbours: Vec<u32>,
}

impl LampPlan {
    fn random(random: &mut Random) -> Self {
        let most = random.pick(&[1, 2, 3, 4, 5, 8, 18, 100, 1023, 1024]);
        let place = random.below(most) as u32;
        let mut others: Vec<u32> = (0..most as u32).filter(|&n| n != place).collect();
        random.shuffle(&mut others);
        others.truncate(random.below(WIRES + 1));
        if !others.is_empty() && random.one_in(4) {
            others.push(others[0]);
        }
        LampPlan { most: most as u32, place, name: any_number(random, 5), neighbours: others }
    }

    /// How many there are, each counted once.
    fn wires(&self) -> usize {
        let mut places = self.neighbours.clone();
        places.sort_unstable();
        places.dedup();
        places.len()
    }

    fn args(&self) -> Vec<OsString> {
        let own = [self.most, self.place, self.name];
        own.iter().chain(&self.neighbours).map(|n| n.to_string().into()).collect()
    }

    /// Often one that makes the teller a parent or a child.
    fn telling(&self, random: &mut Random) -> Telling {
        let low = self.name.saturating_sub(random.below(3) as u32);
        let mut words: [u32; 7] = std::array::from_fn(|_| any_number(random, self.most));
        if !random.one_in(4) {
            words[..3].copy_from_slice(&[low, random.below(4) as u32, self.place]);
        }
        Telling::from_words(words)
    }

    fn line(&self, random: &mut Random) -> String {
        let place = if self.neighbours.is_empty() || random.one_in(12) {
            any_number(random, self.place)
        } else {
            random.pick(&self.neighbours)
        };
        match random.below(9) {
            0..=3 => format!("hear {place} {}", frame::to_hex(&frame::write(self.telling(random)))),
            4 | 5 => "work".into(),
            6 => format!("tell {place}"),
            _ => "show".into(),
        }
    }

    /// Often missing, sometimes of another size.
    fn memory(&self, random: &mut Random) -> Option<(&'static str, Vec<u8>)> {
        let tellings = (0..self.wires()).map(|_| self.telling(random));
        let mut memory: Vec<u8> = tellings.flat_map(frame::to_part).collect();
        match random.below(8) {
            0 => return None,
            1 => memory.extend(random.bytes(1)),
            2 => memory.truncate(random.below(memory.len() + 1)),
            3 => memory.extend(random.bytes(28)),
            _ => {}
        }
        Some((MEMORY, memory))
    }

    fn case(&self, lines: &[Vec<u8>], random: &mut Random) -> Case {
        Case { args: self.args(), file: self.memory(random), input: joined(lines, random) }
    }

    fn talk(&self, random: &mut Random) -> Vec<Vec<u8>> {
        (0..random.below(40)).map(|_| self.line(random).into_bytes()).collect()
    }
}

fn talk_case(random: &mut Random) -> Case {
    let lamp = LampPlan::random(random);
    let talk = lamp.talk(random);
    lamp.case(&talk, random)
}

/// Changes the digits of a frame; some changes leave it readable.
fn damage_frame(line: &mut Vec<u8>, random: &mut Random) {
    let start = line.iter().rposition(|&byte| byte == b' ').map_or(0, |space| space + 1);
    let mut digits = line.split_off(start);
    let length = digits.len();
    match random.below(8) {
        0 => digits.make_ascii_uppercase(),
        1 => digits.clear(),
        2 => digits.truncate(random.below(length + 1)),
        3 => digits.extend_from_slice(random.pick(&[&b"0"[..], b"00", b" ", b" 00", b"\r", b"g", b"\xff"])),
        4 => digits.splice(..2.min(length), *b"4d").for_each(drop),
        5 => drop(line.pop()),
        _ if digits.is_empty() => {}
        6 => digits[random.below(length)] = random.pick(b"0fFgG :/@\x00\xe9"),
        _ => digits[random.below(length)] = random.pick(b"0123456789abcdefABCDEF"),
    }
    line.extend(digits);
}

fn damaged_talk_case(random: &mut Random) -> Case {
    let lamp = LampPlan::random(random);
    let mut talk = lamp.talk(random);
    for line in &mut talk {
        if line.starts_with(b"hear") && random.one_in(2) {
            damage_frame(line, random);
        } else if random.one_in(4) {
            damage(line, random);
        }
    }
    talk.extend([b"work".to_vec(), b"show".to_vec()]);
    lamp.case(&talk, random)
}

fn lamp_argument_case(random: &mut Random) -> Case {
    let lamp = LampPlan::random(random);
    let mut case = lamp.case(&[b"work".to_vec(), b"show".to_vec()], random);
    let mut words: Vec<Vec<u8>> = case.args.into_iter().map(OsString::into_vec).collect();
    match random.below(8) {
        0 => words.truncate(random.below(words.len() + 1)),
        1 => words[0] = random.pick(&["0", "1", "1024", "1025", "4294967295"]).into(),
        2 => words.push(lamp.place.to_string().into()),
        3 => words.push(lamp.most.to_string().into()),
        4 => words.extend((0..18u32).map(|n| n.to_string().into_bytes())),
        5 => words[1] = lamp.most.to_string().into(),
        _ => {
            let which = random.below(words.len());
            damage(&mut words[which], random);
        }
    }
    // No argument can hold a zero byte.
    words.iter_mut().for_each(|word| word.retain(|&byte| byte != 0));
    case.args = words.into_iter().map(OsString::from_vec).collect();
    case
}

fn show(plan: &Plan, random: &mut Random) -> Vec<Vec<u8>> {
    let hall = Hall::parse(plan.to_text().as_bytes()).expect("the plan of a sound hall");
    let mut lines = Vec::new();
    let damage_one_in = random.pick(&[1, 4, 1_000_000]);
    for (place, numbers) in right_numbers(&hall).into_iter().enumerate() {
        let mut words = numbers.to_words();
        if random.one_in(damage_one_in * 2) {
            let which = random.below(6);
            words[which] = any_number(random, words[which]);
        }
        let words = words.map(|word| word.to_string());
        lines.push(format!("{place}: {}", words.join(" ")).into_bytes());
    }
    lines
}

fn show_case(random: &mut Random) -> Case {
    let plan = if random.one_in(10) { large_plan(random) } else { small_plan(random) };
    let lines = show(&plan, random);
    hall_case(&plan, &lines, random)
}

fn damaged_show_case(random: &mut Random) -> Case {
    let plan = small_plan(random);
    let mut lines = show(&plan, random);
    damage_some(&mut lines, 6, random);
    match random.below(6) {
        0 => drop(lines.pop()),
        1 => lines.push(Vec::new()),
        2 => lines.extend_from_within(..1),
        3 => random.shuffle(&mut lines),
        _ => {}
    }
    hall_case(&plan, &lines, random)
}

fn damaged_judged_case(random: &mut Random) -> Case {
    let input = b"0: 0 0 0 1 1 0\n".to_vec();
    Case { args: vec![HALL.into()], file: Some((HALL, damaged_hall(random))), input }
}
