//! Each event of a run, with what is done of the depth-first list after it: once with the deques, and once with the bound on the words in
//! use.

use crate::ahead::{Ahead, Places};
use crate::choices::{Choices, Listed};
use crate::evaluate::words_of;
use crate::machine::{Deque, Event, Machine, PlayReport, Rules, Stop, What};
use crate::ready_list::ReadyList;
use crate::thread::{Code, Next};
use std::fmt::Write;

pub const TRACE_HEAD: &str =
    "event worker period deque thread action words prefix ahead-now | deque:owner:threads from the top ..\n";
pub const BOUND_HEAD: &str = "event words prefix ahead-now bound\n";

/// Runs a program by the words of choice, and puts a line for each event into the text, with the deques after it.
pub fn trace(code: &Code, rules: Rules, choices: &mut impl Choices, text: &mut String) -> Result<PlayReport, Stop> {
    let mut labels = Labels { forks: vec![0], labels: vec![Vec::new()] };
    text.push_str(TRACE_HEAD);
    each_event(code, rules, choices, |number, event, machine, ahead| {
        let words = machine.world.live;
        let what = labels.what(event);
        let (worker, period, deque, thread) = (event.worker, event.period, event.deque, labels.shown(event.thread));
        let (prefix, ahead) = (ahead.prefix, ahead.periods);
        let deques: String = machine.deques.iter().map(|it| labels.deque(it)).collect();
        writeln!(text, "{number} {worker} {period} {deque} {thread} {what} {words} {prefix} {ahead} |{deques}")
            .expect("a text takes all");
    })
}

/// Runs a program by the words of choice, and puts a line for each event into the text, with the bound on the words in use after it.
pub fn bound(code: &Code, rules: Rules, choices: &mut impl Choices, text: &mut String) -> Result<PlayReport, Stop> {
    text.push_str(BOUND_HEAD);
    each_event(code, rules, choices, |number, _, machine, ahead| {
        let (words, bound) = (machine.world.live, ahead.bound(rules.quota));
        writeln!(text, "{number} {words} {} {} {bound}", ahead.prefix, ahead.periods).expect("a text takes all");
    })
}

/// Runs a program by the words of choice, and shows each event with its number, the machine after it, and what is done of the list then.
/// Where the depth-first list has more actions than the limit, nothing is run.
pub fn each_event(
    code: &Code,
    rules: Rules,
    choices: &mut impl Choices,
    mut show: impl FnMut(u64, &Event, &Machine, &Ahead),
) -> Result<PlayReport, Stop> {
    let mut ahead = Ahead::new(Places::new(code, rules.quota, rules.steps).ok_or(Stop::StepsSpent)?);
    let mut machine = Machine::new(code, rules);
    for number in 1_u64.. {
        if machine.has_ended() {
            break;
        }
        let event = machine.turn(choices)?;
        ahead.note(&event);
        show(number, &event, &machine, &ahead);
    }
    Ok(machine.report())
}

/// What there is after these workers have moved, one after another; one that cannot move does not, and an idle one steals from the first
/// deque that has a thread for it: the labels of the threads in the deques, the prefix, the periods ahead, the words in use, and how many
/// are left below the bound.
pub fn moment(code: &Code, rules: Rules, workers: &[usize]) -> Result<String, Stop> {
    let mut ahead = Ahead::new(Places::new(code, rules.quota, rules.steps).ok_or(Stop::StepsSpent)?);
    let mut machine = Machine::new(code, rules);
    let mut labels = Labels { forks: vec![0], labels: vec![Vec::new()] };
    for worker in workers {
        if machine.can_move(*worker) {
            let event = machine.step(*worker, &mut Listed(&[]))?;
            labels.what(&event);
            ahead.note(&event);
        }
    }
    let threads = machine.deques.iter().flat_map(|deque| deque.threads.iter().rev().copied());
    Ok(shown_moment(&labels, threads, &ahead, machine.world.live, rules.quota))
}

/// The same of a ready list: an idle worker takes the leftmost ready entry.
pub fn async_moment(code: &Code, rules: Rules, workers: &[usize]) -> Result<String, Stop> {
    let mut ahead = Ahead::new(Places::new(code, rules.quota, rules.steps).ok_or(Stop::StepsSpent)?);
    let mut list = ReadyList::new(code, rules);
    let mut labels = Labels { forks: vec![0], labels: vec![Vec::new()] };
    for worker in workers {
        if list.can_move(*worker) {
            let event = list.step(*worker)?;
            labels.what(&event);
            ahead.note(&event);
        }
    }
    Ok(shown_moment(&labels, list.entries.iter().map(|entry| entry.thread), &ahead, list.world.live, rules.quota))
}

/// The text of a moment.
fn shown_moment(labels: &Labels, threads: impl Iterator<Item = usize>, ahead: &Ahead, live: u64, quota: u64) -> String {
    let shown: String = threads.map(|thread| format!("{:?} ", labels.labels[thread])).collect();
    let margin = ahead.bound(quota) - live;
    format!("{shown}prefix {}, ahead {}, live {live}, margin {margin}", ahead.prefix, ahead.periods)
}

/// The labels of threads, and how often each has forked.
struct Labels {
    forks: Vec<u32>,
    labels: Vec<Vec<u32>>,
}

impl Labels {
    fn shown(&self, thread: usize) -> String {
        let ordinals: Vec<String> = self.labels[thread].iter().map(u32::to_string).collect();
        format!("[{}]", ordinals.join(","))
    }

    fn deque(&self, deque: &Deque) -> String {
        let owner = deque.owner.map_or("-".to_string(), |owner| owner.to_string());
        let threads: String = deque.threads.iter().rev().map(|thread| self.shown(*thread)).collect();
        format!(" {}:{owner}:{threads}", deque.id)
    }

    /// The action of an event. A forked child gets its label.
    fn what(&mut self, event: &Event) -> String {
        match event.what {
            What::Stole { from, .. } => format!("steal:{from}"),
            What::GaveUp => "give-up".to_string(),
            What::Suspended => "suspend".to_string(),
            What::Forked(child) => {
                self.forks[event.thread] += 1;
                let label = [self.labels[event.thread].as_slice(), &[self.forks[event.thread]]].concat();
                self.labels.push(label);
                self.forks.push(0);
                format!("fork:{}", self.shown(child))
            }
            What::Did(Next::Join(child)) => format!("join:{}", self.shown(child)),
            What::Did(Next::Alloc { numbers, .. }) => format!("alloc:{}", words_of(numbers)),
            What::Did(Next::Release(_)) => "release".to_string(),
            What::Did(Next::Dummy) => "dummy".to_string(),
            What::Did(Next::Fault(fault, _)) => format!("fault:{fault:?}"),
            What::Did(Next::End) => "end".to_string(),
            What::Did(Next::Fork(_)) => unreachable!("a fork has its child"),
        }
    }
}
