//! All threads of a run, its live words, and what it printed. An action changes nothing but these.

use crate::evaluate::{words_of, Block, Cause, Fault};
use crate::thread::{Code, Item, Next, Thread};

pub const RECORD_WORDS: u64 = 16;

pub const NO_QUOTA: u64 = u64::MAX;

enum Life<'a> {
    Running(Thread<'a>),
    Ended(Thread<'a>),
    Joined,
}

pub struct World<'a> {
    quota: u64,
    lives: Vec<Life<'a>>,
    items: Vec<Vec<Item>>,
    pub live: u64,
    /// The greatest number of live words so far.
    pub high: u64,
    pub actions: u64,
}

/// What an action came to, for the order of threads.
pub enum Done {
    Forked(usize),
    Ended,
    Other,
}

/// How a run ended.
#[derive(Clone, Copy, Debug, PartialEq, Eq)]
pub enum Finish {
    Done,
    Faulted(Fault, u32),
}

impl<'a> World<'a> {
    /// The world whose thread 0 is the root.
    pub fn new(code: &'a Code, quota: u64) -> Self {
        World { quota, lives: vec![Life::Running(Thread::root(code))], items: vec![Vec::new()], live: 0, high: 0, actions: 0 }
    }

    pub fn next(&mut self, thread: usize) -> Next<'a> {
        let Life::Running(running) = &mut self.lives[thread] else { unreachable!("only a thread that runs has an action") };
        running.next(self.quota, &mut self.items[thread])
    }

    /// How many statements a thread that runs has begun.
    pub fn statements(&self, thread: usize) -> u64 {
        if let Life::Running(running) = &self.lives[thread] {
            running.statements
        } else {
            0
        }
    }

    /// The function in which a thread that runs is, and what its fault was met with.
    pub fn met_by(&self, thread: usize) -> (usize, Option<Cause>) {
        let Life::Running(running) = &self.lives[thread] else { unreachable!("only a thread that runs meets a fault") };
        (running.function(), running.cause)
    }

    /// All blocks of threads that run or wait to be joined, and parts of blocks.
    pub fn blocks(&self) -> impl Iterator<Item = &Block> {
        let threads = self.lives.iter().filter_map(|life| match life {
            Life::Running(thread) | Life::Ended(thread) => Some(thread),
            Life::Joined => None,
        });
        threads.flat_map(Thread::blocks)
    }

    /// How many threads were forked and have not ended.
    pub fn forked_threads(&self) -> u64 {
        self.lives[1..].iter().filter(|life| matches!(life, Life::Running(_))).count() as u64
    }

    pub fn has_ended(&self, thread: usize) -> bool {
        matches!(self.lives[thread], Life::Ended(_))
    }

    /// The words that the next action takes.
    pub fn asked(next: Next) -> u64 {
        match next {
            Next::Fork(_) => RECORD_WORDS,
            Next::Alloc { numbers, .. } => words_of(numbers),
            _ => 0,
        }
    }

    /// Does the next action of a thread.
    pub fn act(&mut self, thread: usize) -> Done {
        let next = self.next(thread);
        self.actions += 1;
        self.live += Self::asked(next);
        self.high = self.high.max(self.live);
        let Life::Running(running) = &mut self.lives[thread] else { return Done::Other };
        match next {
            Next::Fork(branch) => {
                let number = self.items.len();
                let child = running.do_fork(branch, number);
                self.lives.push(Life::Running(child));
                self.items[thread].push(Item::Child(number));
                self.items.push(Vec::new());
                return Done::Forked(number);
            }
            Next::Alloc { slot, numbers, site } => running.do_alloc(slot, numbers, site),
            Next::Release(slot) => self.live -= running.do_release(slot),
            Next::Dummy => running.do_dummy(),
            Next::Fault(fault, line) => {
                self.items[thread].push(Item::Faulted(fault, line));
                self.live -= running.do_fault();
            }
            Next::Join(child) => self.join(thread, child),
            Next::End => {
                self.end(thread);
                return Done::Ended;
            }
        }
        Done::Other
    }

    fn join(&mut self, thread: usize, child: usize) {
        let ended = std::mem::replace(&mut self.lives[child], Life::Joined);
        if let (Life::Ended(ended), Life::Running(running)) = (ended, &mut self.lives[thread]) {
            self.live -= running.do_join(ended);
        }
    }

    /// The root, thread 0, has no record block.
    fn end(&mut self, thread: usize) {
        if let Life::Running(ended) = std::mem::replace(&mut self.lives[thread], Life::Joined) {
            self.lives[thread] = Life::Ended(ended);
        }
        if thread != 0 {
            self.live -= RECORD_WORDS;
        }
    }

    /// The lines before the first fault in depth-first order, and the finish.
    pub fn lines_and_finish(&self) -> (Vec<i64>, Finish) {
        let mut lines = Vec::new();
        let mut places = vec![self.items[0].iter()];
        while let Some(items) = places.last_mut() {
            match items.next() {
                None => drop(places.pop()),
                Some(Item::Printed(value)) => lines.push(*value),
                Some(Item::Faulted(fault, line)) => return (lines, Finish::Faulted(*fault, *line)),
                Some(Item::Child(child)) => places.push(self.items[*child].iter()),
            }
        }
        (lines, Finish::Done)
    }
}
