//! The events of a trail, each with the moment after it: in the lines of `trace`, with the deques, and in those of `bound`.

use crate::good_trail::{fork_of, Action, Deed, Label, Moment, Setting};
use crate::trace::{BOUND_HEAD, TRACE_HEAD};
use crate::trail::{Kind, TrailEvent};
use std::collections::HashMap;
use std::fmt::Write;

/// Puts a line for each event of a trail into the text, up to the first that may not come.
pub fn replay(setting: &Setting, events: &[TrailEvent], text: &mut String) {
    text.push_str(TRACE_HEAD);
    let (mut moment, mut shown) = (setting.opening(), Shown { numbers: HashMap::from([(0, 0)]) });
    for (at, event) in events.iter().enumerate() {
        let before = shown.before(setting, &moment, *event);
        if !setting.lead(&mut moment, *event) {
            break;
        }
        let what = shown.what(&moment, *event, before);
        let (number, worker, words, prefix, ahead) = (at + 1, event.worker, moment.live, moment.prefix, moment.periods_ahead());
        let deques: String = moment.deques.iter().map(|deque| shown.deque(deque.id, deque.owner, &deque.threads)).collect();
        writeln!(text, "{number} {worker} {what} {words} {prefix} {ahead} |{deques}").expect("a text takes all");
    }
}

/// Puts a line for each event of a trail into the text, up to the first that may not come, with the bound on the words in use after it.
pub fn replay_bound(setting: &Setting, events: &[TrailEvent], text: &mut String) {
    text.push_str(BOUND_HEAD);
    let (mut moment, peak) = (setting.opening(), setting.peak());
    for (at, event) in events.iter().enumerate() {
        if !setting.lead(&mut moment, *event) {
            break;
        }
        let (words, prefix, ahead) = (moment.live, moment.prefix, moment.periods_ahead());
        let bound = peak + 2 * setting.rules.quota as i64 * ahead as i64;
        writeln!(text, "{} {words} {prefix} {ahead} {bound}", at + 1).expect("a text takes all");
    }
}

/// What an event is about: the deque that is stolen from, or the deque, the period, the thread and the action of an owner.
enum Before {
    Steal(u64),
    Own { deque: u64, period: usize, thread: Label, action: String },
}

/// A moment's ids are used again; shown are numbers that no two deques of a play have.
struct Shown {
    numbers: HashMap<u64, u64>,
}

impl Shown {
    fn before(&self, setting: &Setting, moment: &Moment, event: TrailEvent) -> Before {
        if let Kind::Steal(place) = event.kind {
            return Before::Steal(moment.deques.get(place).map_or(0, |deque| self.number(deque.id)));
        }
        let Some((at, book)) = moment.owns(event.worker) else { return Before::Steal(0) };
        let deque = &moment.deques[at];
        let thread = deque.threads[0].clone();
        let action = match event.kind {
            Kind::Suspend => "suspend".to_string(),
            Kind::GiveUp => "give-up".to_string(),
            _ => setting.next(moment, &thread).map_or(String::new(), |place| action_shown(&setting.list[place])),
        };
        Before::Own { deque: self.number(deque.id), period: book + 1, thread, action }
    }

    /// The period, the deque, the thread and the action of an event, after it. A new deque has the number of its period.
    fn what(&mut self, moment: &Moment, event: TrailEvent, before: Before) -> String {
        match before {
            Before::Own { deque, period, thread, action } => format!("{period} {deque} {} {action}", label_shown(&thread)),
            Before::Steal(from) => {
                let period = moment.books.len() as u64;
                let Some((at, _)) = moment.owns(event.worker) else { return String::new() };
                let deque = &moment.deques[at];
                let is_new = event.kind != Kind::Steal(at);
                if is_new {
                    self.numbers.insert(deque.id, period);
                }
                format!("{period} {} {} steal:{from}", self.number(deque.id), label_shown(&deque.threads[0]))
            }
        }
    }

    fn number(&self, id: u64) -> u64 {
        self.numbers.get(&id).copied().unwrap_or(id)
    }

    fn deque(&self, id: u64, owner: Option<usize>, threads: &[Label]) -> String {
        let owner = owner.map_or("-".to_string(), |owner| owner.to_string());
        let threads: String = threads.iter().map(label_shown).collect();
        format!(" {}:{owner}:{threads}", self.number(id))
    }
}

fn label_shown(label: &Label) -> String {
    let ordinals: Vec<String> = label.iter().map(u32::to_string).collect();
    format!("[{}]", ordinals.join(","))
}

fn action_shown(action: &Action) -> String {
    match action.deed {
        Deed::Fork(child) => format!("fork:{}", label_shown(&fork_of(&action.label, child))),
        Deed::Join(child) => format!("join:{}", label_shown(&fork_of(&action.label, child))),
        Deed::Alloc => format!("alloc:{}", action.words),
        Deed::Release => "release".to_string(),
        Deed::Dummy => "dummy".to_string(),
        Deed::Fault(fault) => format!("fault:{fault:?}"),
        Deed::End => "end".to_string(),
    }
}
