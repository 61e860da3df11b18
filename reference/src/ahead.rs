//! The prefix of a run, and the periods ahead of it.
//!
//! The actions of a run are those of the depth-first run in another order, so each has a place in the depth-first list. The prefix is how
//! many first actions of the list are done without a gap. A period is ahead if it ran an action that is not among them.

use crate::machine::{Event, What};
use crate::thread::Code;
use crate::world::{Done, World};

/// The place in the depth-first list of each action of each thread. A thread has the number that the depth-first run gives it.
pub struct Places {
    of_thread: Vec<Vec<usize>>,
    children: Vec<Vec<usize>>,
    length: usize,
    pub peak: u64,
}

impl Places {
    /// The places in the list of a program, or none where the list is longer than the limit.
    pub fn new(code: &Code, quota: u64, limit: u64) -> Option<Self> {
        let mut world = World::new(code, quota);
        let mut places = Places { of_thread: vec![Vec::new()], children: vec![Vec::new()], length: 0, peak: 0 };
        let mut stack = vec![0];
        while let Some(thread) = stack.last().copied() {
            world.next(thread);
            if world.actions == limit {
                return None;
            }
            places.of_thread[thread].push(places.length);
            places.length += 1;
            match world.act(thread) {
                Done::Forked(child) => {
                    places.children[thread].push(child);
                    places.of_thread.push(Vec::new());
                    places.children.push(Vec::new());
                    stack.push(child);
                }
                Done::Ended => drop(stack.pop()),
                Done::Other => {}
            }
        }
        places.peak = world.high;
        Some(places)
    }
}

/// A thread of a run: its number in the depth-first run, and how many actions and forks it has done.
struct Ran {
    serial: usize,
    actions: usize,
    forks: usize,
}

impl Ran {
    fn new(serial: usize) -> Self {
        Ran { serial, actions: 0, forks: 0 }
    }
}

/// What is done of the depth-first list at a moment of a run.
pub struct Ahead {
    pub places: Places,
    threads: Vec<Ran>,
    is_done: Vec<bool>,
    /// The greatest place that each period ran, by the number of the period.
    furthest: Vec<Option<usize>>,
    /// Whether a place is the greatest one of some period.
    is_furthest: Vec<bool>,
    /// How many first actions of the list are done without a gap.
    pub prefix: usize,
    /// How many periods ran an action that is not among them.
    pub periods: u64,
}

impl Ahead {
    pub fn new(places: Places) -> Self {
        let (is_done, is_furthest) = (vec![false; places.length], vec![false; places.length]);
        Ahead { places, threads: vec![Ran::new(0)], is_done, furthest: Vec::new(), is_furthest, prefix: 0, periods: 0 }
    }

    /// Takes the next event of the run in.
    pub fn note(&mut self, event: &Event) {
        match event.what {
            What::Forked(_) => {
                self.act(event.thread, event.period);
                let parent = &mut self.threads[event.thread];
                let child = self.places.children[parent.serial][parent.forks];
                parent.forks += 1;
                self.threads.push(Ran::new(child));
            }
            What::Did(_) => self.act(event.thread, event.period),
            What::Stole { .. } | What::GaveUp | What::Suspended => {}
        }
    }

    fn act(&mut self, thread: usize, period: u64) {
        let ran = &mut self.threads[thread];
        let place = self.places.of_thread[ran.serial][ran.actions];
        ran.actions += 1;
        self.is_done[place] = true;
        self.go_further(period as usize, place);
        self.grow_prefix();
    }

    /// A period ran the action at a place, which is not in the prefix yet.
    fn go_further(&mut self, period: usize, place: usize) {
        if self.furthest.len() <= period {
            self.furthest.resize(period + 1, None);
        }
        let before = self.furthest[period];
        if before > Some(place) {
            return;
        }
        if let Some(before) = before {
            self.is_furthest[before] = false;
            self.periods -= u64::from(before >= self.prefix);
        }
        self.furthest[period] = Some(place);
        self.is_furthest[place] = true;
        self.periods += 1;
    }

    fn grow_prefix(&mut self) {
        while self.is_done.get(self.prefix) == Some(&true) {
            self.periods -= u64::from(self.is_furthest[self.prefix]);
            self.prefix += 1;
        }
    }

    /// The most words that may be in use now: the peak of the depth-first run, and two quotas for each period ahead.
    pub fn bound(&self, quota: u64) -> u64 {
        self.places.peak + 2 * quota * self.periods
    }
}
