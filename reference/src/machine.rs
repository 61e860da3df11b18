//! The scheduler: deques in one list from left to right, a quota between two steals, and the rules of who moves.

use crate::choices::Choices;
use crate::thread::{Code, Next};
use crate::world::{Done, Finish, World};
use std::collections::HashMap;

/// A run has at most so many words in use, actions and deques.
#[derive(Clone, Copy)]
pub struct Rules {
    pub quota: u64,
    pub workers: usize,
    pub arena: u64,
    pub steps: u64,
    pub deques: usize,
}

#[derive(Clone, Copy, Debug, PartialEq, Eq)]
pub enum Stop {
    ArenaFull { live: u64, asked: u64 },
    DequesFull,
    StepsSpent,
}

pub struct PlayReport {
    pub lines: Vec<i64>,
    pub finish: Finish,
    pub actions: u64,
    pub periods: u64,
    pub ahead: u64,
    pub high: u64,
}

pub struct Deque {
    /// No other deque of the run has this number.
    pub id: u64,
    pub owner: Option<usize>,
    /// From the bottom to the top.
    pub threads: Vec<usize>,
    /// The last period that began in this deque.
    period: u64,
    /// What this period has used of the quota.
    used: u64,
}

/// What happened: who did it, in which period, in which deque, and by which thread.
pub struct Event<'a> {
    pub worker: usize,
    pub period: u64,
    pub deque: u64,
    pub thread: usize,
    pub what: What<'a>,
}

pub enum What<'a> {
    /// The thread was stolen from this deque, which was at this place of the list.
    Stole {
        from: u64,
        place: usize,
    },
    /// The thread forked this child.
    Forked(usize),
    /// The thread did another action.
    Did(Next<'a>),
    GaveUp,
    Suspended,
}

impl Deque {
    fn is_ready(&self) -> bool {
        self.owner.is_none() || self.threads.len() >= 2
    }
}

pub struct Machine<'a> {
    rules: Rules,
    pub world: World<'a>,
    /// From left to right.
    pub deques: Vec<Deque>,
    /// The place of each worker's deque in the list; none while it is idle.
    places: Vec<Option<usize>>,
    /// The thread that waits for a child, by the child.
    waiting: HashMap<usize, usize>,
    periods: u64,
    /// How many periods had a deque to their left as they began: these are marked.
    pub ahead: u64,
}

/// Runs a program by the words of choice, and gives its report or the stop.
pub fn play(code: &Code, rules: Rules, choices: &mut impl Choices) -> Result<PlayReport, Stop> {
    let mut machine = Machine::new(code, rules);
    while !machine.has_ended() {
        machine.turn(choices)?;
    }
    Ok(machine.report())
}

impl<'a> Machine<'a> {
    pub fn new(code: &'a Code, rules: Rules) -> Self {
        Machine {
            rules,
            world: World::new(code, rules.quota),
            deques: vec![Deque { id: 0, owner: None, threads: vec![0], period: 0, used: 0 }],
            places: vec![None; rules.workers],
            waiting: HashMap::new(),
            periods: 0,
            ahead: 0,
        }
    }

    pub fn has_ended(&self) -> bool {
        self.deques.is_empty()
    }

    pub fn report(&self) -> PlayReport {
        let (lines, finish) = self.world.lines_and_finish();
        let World { actions, high, .. } = self.world;
        PlayReport { lines, finish, actions, periods: self.periods, ahead: self.ahead, high }
    }

    fn leftmost(&self) -> usize {
        self.rules.workers.min(self.deques.len())
    }

    fn is_any_ready(&self) -> bool {
        self.deques[..self.leftmost()].iter().any(Deque::is_ready)
    }

    /// An owner can always move, and an idle worker if there is something to steal.
    pub fn can_move(&self, worker: usize) -> bool {
        self.places[worker].is_some() || self.is_any_ready()
    }

    /// The first of the workers from this word on that can move does its event.
    pub fn turn(&mut self, choices: &mut impl Choices) -> Result<Event<'a>, Stop> {
        let word = choices.word();
        let is_any_ready = self.is_any_ready();
        let worker = around(word, self.rules.workers)
            .find(|worker| is_any_ready || self.places[*worker].is_some())
            .expect("there is always a worker that can move");
        self.step(worker, choices)
    }

    /// A worker that can move does its event.
    pub fn step(&mut self, worker: usize, choices: &mut impl Choices) -> Result<Event<'a>, Stop> {
        match self.places[worker] {
            Some(place) => self.act(worker, place),
            None => self.steal(worker, choices.word()),
        }
    }

    fn steal(&mut self, worker: usize, word: u64) -> Result<Event<'a>, Stop> {
        let victim = around(word, self.leftmost())
            .find(|place| self.deques[*place].is_ready())
            .expect("an idle worker moves only where a deque is ready");
        let is_taken_over = self.deques[victim].threads.len() == 1;
        if !is_taken_over && self.deques.len() == self.rules.deques {
            return Err(Stop::DequesFull);
        }
        self.periods += 1;
        let from = self.deques[victim].id;
        let thread = self.deques[victim].threads.remove(0);
        let (place, id) = if is_taken_over {
            self.deques.remove(victim);
            (victim, from)
        } else {
            self.move_places(victim + 1, 1);
            (victim + 1, self.periods)
        };
        self.deques.insert(place, Deque { id, owner: Some(worker), threads: vec![thread], period: self.periods, used: 0 });
        self.places[worker] = Some(place);
        self.ahead += u64::from(place > 0);
        Ok(Event { worker, period: self.periods, deque: id, thread, what: What::Stole { from, place: victim } })
    }

    /// The deques from this place on move by one to the right or to the left.
    fn move_places(&mut self, from: usize, by: isize) {
        for place in self.places.iter_mut().flatten().filter(|place| **place >= from) {
            *place = place.wrapping_add_signed(by);
        }
    }

    fn give_up(&mut self, worker: usize, place: usize) {
        self.deques[place].owner = None;
        self.places[worker] = None;
    }

    /// The deque, which is empty, leaves the list.
    fn leave(&mut self, worker: usize, place: usize) {
        self.places[worker] = None;
        self.deques.remove(place);
        self.move_places(place + 1, -1);
    }

    fn act(&mut self, worker: usize, place: usize) -> Result<Event<'a>, Stop> {
        let Deque { id, period, .. } = self.deques[place];
        let thread = *self.deques[place].threads.last().expect("no deque is empty");
        let what = self.do_next(thread, worker, place)?;
        Ok(Event { worker, period, deque: id, thread, what })
    }

    fn do_next(&mut self, thread: usize, worker: usize, place: usize) -> Result<What<'a>, Stop> {
        let next = self.world.next(thread);
        if let Next::Join(child) = next {
            if !self.world.has_ended(child) {
                self.suspend(worker, place, child);
                return Ok(What::Suspended);
            }
        }
        let charged = charge(next, self.rules.quota);
        if self.deques[place].used + charged > self.rules.quota {
            self.give_up(worker, place);
            return Ok(What::GaveUp);
        }
        self.rules.refuse(&self.world, next)?;
        self.deques[place].used += charged;
        Ok(self.after(next, thread, worker, place))
    }

    fn suspend(&mut self, worker: usize, place: usize, child: usize) {
        if let Some(thread) = self.deques[place].threads.pop() {
            self.waiting.insert(child, thread);
        }
        self.leave(worker, place);
    }

    fn after(&mut self, next: Next<'a>, thread: usize, worker: usize, place: usize) -> What<'a> {
        match self.world.act(thread) {
            Done::Forked(child) => {
                self.deques[place].threads.push(child);
                return What::Forked(child);
            }
            Done::Ended => self.ended(thread, worker, place),
            Done::Other if matches!(next, Next::Dummy) => self.give_up(worker, place),
            Done::Other => {}
        }
        What::Did(next)
    }

    fn ended(&mut self, thread: usize, worker: usize, place: usize) {
        let threads = &mut self.deques[place].threads;
        threads.pop();
        if let Some(parent) = self.waiting.remove(&thread) {
            threads.push(parent);
        }
        if threads.is_empty() {
            self.leave(worker, place);
        }
    }
}

impl Rules {
    /// The stop that an action meets, if it does.
    pub fn refuse(&self, world: &World, next: Next) -> Result<(), Stop> {
        let (live, asked) = (world.live, World::asked(next));
        let takes = matches!(next, Next::Fork(_) | Next::Alloc { .. });
        if takes && live + asked > self.arena {
            return Err(Stop::ArenaFull { live, asked });
        }
        if world.actions == self.steps {
            Err(Stop::StepsSpent)
        } else {
            Ok(())
        }
    }
}

/// What an action takes of the quota: an allocation that is larger than the quota takes nothing.
pub fn charge(next: Next, quota: u64) -> u64 {
    let asked = World::asked(next);
    let is_large = matches!(next, Next::Alloc { .. }) && asked > quota;
    if is_large {
        0
    } else {
        asked
    }
}

/// The numbers below a count, once round, from a word on.
pub fn around(word: u64, count: usize) -> impl Iterator<Item = usize> {
    let first = (word % count.max(1) as u64) as usize;
    (0..count).map(move |step| (first + step) % count)
}
