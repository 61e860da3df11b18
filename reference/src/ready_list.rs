//! The scheduler of one ready list: the threads that run and those that are ready are in one list in depth-first order, and an idle worker
//! takes the leftmost ready one. Quota, dummies and records are those of the machine of deques.

use crate::ahead::{Ahead, Places};
use crate::choices::Choices;
use crate::machine::{around, charge, Event, PlayReport, Rules, Stop, What};
use crate::thread::{Code, Next};
use crate::world::{Done, World};
use std::collections::HashMap;

pub struct Entry {
    pub thread: usize,
    /// The worker that runs it, or none where it is ready.
    pub runs_it: Option<usize>,
}

/// The period of a worker that runs an entry, and what it has used of the quota.
#[derive(Clone, Copy)]
struct Period {
    number: u64,
    used: u64,
}

pub struct ReadyList<'a> {
    rules: Rules,
    pub world: World<'a>,
    /// From left to right.
    pub entries: Vec<Entry>,
    /// The last period of each worker.
    last: Vec<Period>,
    /// The thread that waits for a child, by the child.
    waiting: HashMap<usize, usize>,
    periods: u64,
    /// How many periods had an entry to their left as they began: these are marked.
    pub ahead: u64,
}

/// Runs a program by the words of choice, one word a turn, and gives its report or the stop.
pub fn play_async(code: &Code, rules: Rules, choices: &mut impl Choices) -> Result<PlayReport, Stop> {
    let mut list = ReadyList::new(code, rules);
    while !list.has_ended() {
        list.turn(choices)?;
    }
    Ok(list.report())
}

/// The same, and shows the list after each event, with what is done of the depth-first list then. Where that has more actions than the limit,
/// nothing is run.
pub fn each_async_event(
    code: &Code,
    rules: Rules,
    choices: &mut impl Choices,
    mut show: impl FnMut(&ReadyList, &Ahead),
) -> Result<PlayReport, Stop> {
    let mut ahead = Ahead::new(Places::new(code, rules.quota, rules.steps).ok_or(Stop::StepsSpent)?);
    let mut list = ReadyList::new(code, rules);
    while !list.has_ended() {
        let event = list.turn(choices)?;
        ahead.note(&event);
        show(&list, &ahead);
    }
    Ok(list.report())
}

impl<'a> ReadyList<'a> {
    pub fn new(code: &'a Code, rules: Rules) -> Self {
        ReadyList {
            rules,
            world: World::new(code, rules.quota),
            entries: vec![Entry { thread: 0, runs_it: None }],
            last: vec![Period { number: 0, used: 0 }; rules.workers],
            waiting: HashMap::new(),
            periods: 0,
            ahead: 0,
        }
    }

    pub fn has_ended(&self) -> bool {
        self.entries.is_empty()
    }

    pub fn report(&self) -> PlayReport {
        let (lines, finish) = self.world.lines_and_finish();
        let World { actions, high, .. } = self.world;
        PlayReport { lines, finish, actions, periods: self.periods, ahead: self.ahead, high }
    }

    fn place_of(&self, worker: usize) -> Option<usize> {
        self.entries.iter().position(|entry| entry.runs_it == Some(worker))
    }

    fn first_ready(&self) -> Option<usize> {
        self.entries.iter().position(|entry| entry.runs_it.is_none())
    }

    /// Who runs an entry can always move, and an idle worker if some entry is ready.
    pub fn can_move(&self, worker: usize) -> bool {
        self.place_of(worker).is_some() || self.first_ready().is_some()
    }

    /// The first of the workers from this word on that can move does its event.
    pub fn turn(&mut self, choices: &mut impl Choices) -> Result<Event<'a>, Stop> {
        let worker = around(choices.word(), self.rules.workers)
            .find(|worker| self.can_move(*worker))
            .expect("there is always a worker that can move");
        self.step(worker)
    }

    /// A worker that can move does its event.
    pub fn step(&mut self, worker: usize) -> Result<Event<'a>, Stop> {
        match self.place_of(worker) {
            Some(place) => self.act(worker, place),
            None => Ok(self.take(worker)),
        }
    }

    fn take(&mut self, worker: usize) -> Event<'a> {
        let place = self.first_ready().expect("an idle worker moves only where an entry is ready");
        self.periods += 1;
        self.ahead += u64::from(place > 0);
        self.last[worker] = Period { number: self.periods, used: 0 };
        self.entries[place].runs_it = Some(worker);
        self.event(worker, self.entries[place].thread, What::Stole { from: 0, place })
    }

    fn event(&self, worker: usize, thread: usize, what: What<'a>) -> Event<'a> {
        Event { worker, period: self.last[worker].number, deque: 0, thread, what }
    }

    fn act(&mut self, worker: usize, place: usize) -> Result<Event<'a>, Stop> {
        let thread = self.entries[place].thread;
        let next = self.world.next(thread);
        let what = self.do_next(next, thread, worker, place)?;
        Ok(self.event(worker, thread, what))
    }

    fn do_next(&mut self, next: Next<'a>, thread: usize, worker: usize, place: usize) -> Result<What<'a>, Stop> {
        if let Next::Join(child) = next {
            if !self.world.has_ended(child) {
                self.entries.remove(place);
                self.waiting.insert(child, thread);
                return Ok(What::Suspended);
            }
        }
        let charged = charge(next, self.rules.quota);
        if self.last[worker].used + charged > self.rules.quota {
            self.entries[place].runs_it = None;
            return Ok(What::GaveUp);
        }
        self.rules.refuse(&self.world, next)?;
        self.last[worker].used += charged;
        Ok(self.after(next, thread, worker, place))
    }

    fn after(&mut self, next: Next<'a>, thread: usize, worker: usize, place: usize) -> What<'a> {
        match self.world.act(thread) {
            Done::Forked(child) => {
                self.entries[place].runs_it = None;
                self.entries.insert(place, Entry { thread: child, runs_it: Some(worker) });
                return What::Forked(child);
            }
            Done::Ended => match self.waiting.remove(&thread) {
                Some(parent) => self.entries[place].thread = parent,
                None => drop(self.entries.remove(place)),
            },
            Done::Other if matches!(next, Next::Dummy) => self.entries[place].runs_it = None,
            Done::Other => {}
        }
        What::Did(next)
    }
}
