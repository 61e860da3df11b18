//! Halls of random programs, with random seats, words and orders of single steps. After each step every clause of the law is computed.
//! The number of a case gives all of it.

use crate::cases::source_of;
use crate::command::accepted;
use crate::depth_first::depth_first;
use crate::good_trail::Setting;
use crate::hall::{Answer, End, Hall, Stop, Told, LIST};
use crate::hall_calls::{Call, Refusal};
use crate::hall_machine::{must, Checked, Law};
use crate::hall_seats::{closed, is_in, receipt, seats_stand};
use crate::machine::{Rules, Stop as RuleStop};
use crate::random::Random;
use crate::resolve::resolve;
use crate::thread::{Code, Item};
use crate::world::Finish;
use std::collections::BTreeMap;

/// The shortest and the longest depth-first list of a case, how many programs are tried for it, and the most single steps of one.
const LEAST_ACTIONS: usize = 10;
const MOST_ACTIONS: u64 = 300;
const TRIES: u64 = 40;
const MOST_STEPS: u64 = 60_000;
const KINDS: [&str; 6] = ["good", "blocks", "faulty", "deep", "tiny", "prints"];
const FORKING: &str =
    "fn f(n) { if n > 0 { alloc b = 20; par { call f(n - 1); } and { call f(n - 1); } free b; } } fn main() { call f(3); }";

#[derive(Default)]
struct Tally {
    halls: u64,
    /// How many of them ran the program that forks.
    forking: u64,
    steps: u64,
    events: u64,
    cut_short: u64,
    most_seats: usize,
    /// How often each call was answered so.
    answers: BTreeMap<String, u64>,
    ends: BTreeMap<String, u64>,
}

/// The exit status: 0 where every clause held, 1 at the first that did not, 2 where the words are wrong.
pub fn hall_check(words: &[String]) -> u8 {
    let Some((count, from)) = read_numbers(words) else {
        eprintln!("usage: reference/out/reference hall-check [--count N] [--from SEED]");
        return 2;
    };
    let mut tally = Tally::default();
    for number in from..from.saturating_add(count) {
        if let Err(clause) = check_one(number, &mut tally) {
            println!("hall-check: seed {number}: does not hold: {clause}");
            return 1;
        }
    }
    tally.print();
    0
}

fn read_numbers(words: &[String]) -> Option<(u64, u64)> {
    let (mut count, mut from) = (1_000, 1);
    for pair in words.chunks(2) {
        let [name, value] = pair else { return None };
        match name.as_str() {
            "--count" => count = value.parse().ok()?,
            "--from" => from = value.parse().ok()?,
            _ => return None,
        }
    }
    Some((count, from))
}

/// One hall, from its beginning to its close.
fn check_one(number: u64, tally: &mut Tally) -> Checked {
    let mut random = Random(number.wrapping_mul(0xa076_1d64_78bd_642f));
    let quota = 16 * *random.pick(&[1, 1, 2, 3, 4, 16]);
    let rules = Rules { quota, workers: random.between(1, 6) as usize, arena: 1 << 40, steps: MOST_ACTIONS, deques: 64 };
    let code = code_of(&mut random, rules, tally);
    let Some(mut setting) = Setting::new(&code, rules) else { return Ok(()) };
    narrow(&mut random, &mut setting);
    tally.halls += 1;
    drive(&code, &setting, &mut random, tally)
}

/// The first of some random programs that is accepted and has a list neither short nor long, or a program that forks.
fn code_of(random: &mut Random, rules: Rules, tally: &mut Tally) -> Code {
    for _ in 0..TRIES {
        let kind = *random.pick(&KINDS);
        let source = source_of(random, kind);
        let Ok(program) = accepted(&source) else { continue };
        let code = resolve(&program);
        if Setting::new(&code, rules).is_some_and(|setting| setting.list.len() >= LEAST_ACTIONS) {
            return code;
        }
    }
    tally.forking += 1;
    resolve(&accepted(FORKING.as_bytes()).unwrap_or_else(|it| unreachable!("{}", it.text)))
}

/// Some halls have little room: an arena, a limit of actions or of deques that may be met.
fn narrow(random: &mut Random, setting: &mut Setting) {
    let (peak, actions) = (setting.peak() as u64, setting.list.len() as u64);
    if random.once_in(4) {
        setting.rules.arena = 16 * random.between(1, peak / 16 + 4);
    }
    if random.once_in(2) {
        setting.rules.steps = if random.once_in(2) { actions } else { random.between(1, actions) };
    }
    if random.once_in(4) {
        setting.rules.deques = random.between(1, 6) as usize;
    }
}

fn drive(code: &Code, setting: &Setting, random: &mut Random, tally: &mut Tally) -> Checked {
    let (mut hall, mut law) = (Hall::new(code, setting.rules), Law::new(setting));
    seats_stand(&hall, &law)?;
    let has_little_memory = random.once_in(4);
    let (mut seat, mut steps) = (0, 0);
    while steps < MOST_STEPS {
        if random.once_in(3) {
            seat = random.below(hall.seats.len() as u64) as usize;
        }
        let answer = if hall.seats[seat].running.is_some() {
            let (single, answer) = hall.step(seat);
            steps += 1;
            law.after(&hall, single)?;
            answer
        } else {
            let Some(call) = choose(&hall, seat, random) else {
                seat = random.below(hall.seats.len() as u64) as usize;
                continue;
            };
            hall.begin(seat, call, has_little_memory && random.once_in(100))
        };
        seats_stand(&hall, &law)?;
        let Some(answer) = answer else { continue };
        tally.note(answer);
        receipt(&hall, seat, answer)?;
        if matches!(answer, Answer::Refused(Refusal::Busy { .. })) {
            seat = random.below(hall.seats.len() as u64) as usize;
        }
        if answer == Answer::Closed {
            tally.close(&hall, steps);
            closed(&hall, &law, &hall.seats[seat].view)?;
            return prints(code, &hall);
        }
    }
    tally.cut_short += 1;
    tally.close(&hall, steps);
    Ok(())
}

/// A call that the seat may make, or none if it has to wait.
fn choose(hall: &Hall, seat: usize, random: &mut Random) -> Option<Call> {
    let (own, workers) = (&hall.seats[seat], hall.rules.workers);
    let view = &own.view;
    if !is_in(view) || own.is_lent {
        return None;
    }
    let is_over = view.answered.is_some();
    if random.once_in(50) || (is_over && view.places == workers) {
        return Some(Call::Close);
    }
    if is_over || random.once_in(if view.found.is_some() { 4 } else { 50 }) {
        let others = (0..hall.seats.len()).filter(|it| *it != seat && is_free(hall, *it));
        let others: Vec<usize> = others.collect();
        return random.pick_some(&others).map(|into| Call::Leave { into: *into });
    }
    if view.found.is_some() && !random.once_in(4) {
        return Some(Call::Halt);
    }
    if random.once_in(if view.places >= 2 { 6 } else { 100 }) {
        return Some(Call::Enter);
    }
    Some(match view.deque {
        None => Call::Steal(random.word() >> 32),
        Some(_) if random.once_in(40) => Call::GiveUp,
        Some(_) => Call::Act,
    })
}

fn is_free(hall: &Hall, seat: usize) -> bool {
    let it = &hall.seats[seat];
    is_in(&it.view) && it.running.is_none() && !it.is_lent
}

/// The root's result has the lines and the finish of the depth-first run.
fn prints(code: &Code, hall: &Hall) -> Checked {
    let list = hall.shown(LIST).list();
    if list.kept != Some(End::Finished) {
        return Ok(());
    }
    let Some(serial) = depth_first(code, hall.rules.quota, MOST_ACTIONS) else { return Ok(()) };
    let (mut lines, mut finish) = (Vec::new(), Finish::Done);
    for item in &list.results[0].items {
        match item {
            Item::Printed(value) => lines.push(*value),
            Item::Faulted(fault, line) => {
                finish = Finish::Faulted(*fault, *line);
                break;
            }
            Item::Child(_) => return must(false, "no child of an ended root is open"),
        }
    }
    must((lines, finish) == (serial.lines, serial.finish), "the root's result is that of the depth-first run")
}

impl Tally {
    fn note(&mut self, answer: Answer) {
        let name = match answer {
            Answer::Done(Told::Stole { .. }) => "Stole",
            Answer::Done(Told::Did(_)) => "Did",
            Answer::Done(Told::Suspended(_)) => "Suspended",
            Answer::Done(Told::GaveUp(_)) => "GaveUp",
            Answer::Done(Told::Halted(_)) => "Halted",
            Answer::Entered(_) => "Entered",
            Answer::Left => "Left",
            Answer::Closed => "Closed",
            Answer::Refused(Refusal::Busy { .. }) => "Busy",
            Answer::Refused(Refusal::Nothing) => "Nothing",
            Answer::Refused(Refusal::Over(_)) => "Over",
            Answer::Refused(Refusal::Stopped(_)) => "Stopped",
            Answer::Refused(Refusal::Crowded) => "Crowded",
            Answer::Refused(Refusal::NoMemory) => "OutOfMemory",
            Answer::Refused(Refusal::StillIn { .. }) => "StillIn",
            Answer::Refused(Refusal::NotOver) => "NotOver",
        };
        *self.answers.entry(name.to_string()).or_default() += 1;
    }

    fn close(&mut self, hall: &Hall, steps: u64) {
        self.steps += steps;
        self.events += hall.steps.len() as u64;
        self.most_seats = self.most_seats.max(hall.seats.len());
        let end = match hall.shown(LIST).list().kept {
            None => "none",
            Some(End::Finished) => "Finished",
            Some(End::Stopped(Stop::NoMemory)) => "OutOfMemory",
            Some(End::Stopped(Stop::ByRule(RuleStop::ArenaFull { .. }))) => "ArenaFull",
            Some(End::Stopped(Stop::ByRule(RuleStop::DequesFull))) => "DequesFull",
            Some(End::Stopped(Stop::ByRule(RuleStop::StepsSpent))) => "StepsSpent",
        };
        *self.ends.entry(end.to_string()).or_default() += 1;
    }

    fn print(&self) {
        let listed = |it: &BTreeMap<String, u64>| {
            it.iter().map(|(name, count)| format!("{name} {count}")).collect::<Vec<_>>().join(", ")
        };
        println!("answers: {}", listed(&self.answers));
        println!("ends: {}", listed(&self.ends));
        println!(
            "hall-check: {} halls of at most {} seats ({} over one program that forks), {} single steps, {} events; every clause held after each \
             step; {} halls were cut short",
            self.halls, self.most_seats, self.forking, self.steps, self.events, self.cut_short
        );
    }
}
