//! Plain work stealing, for comparison: each worker runs its own deque from the top, and an idle one steals the bottom of a
//! random other one. There is no quota and no dummy.

use crate::choices::Choices;
use crate::machine::{around, Stop};
use crate::thread::{Code, Next};
use crate::world::{Done, Finish, World, NO_QUOTA};
use std::collections::HashMap;

pub struct StealReport {
    pub lines: Vec<i64>,
    pub finish: Finish,
    pub actions: u64,
    pub steals: u64,
    pub high: u64,
}

struct Crew<'a> {
    world: World<'a>,
    steps: u64,
    /// The threads of each worker from the bottom to the top. The top one runs.
    threads: Vec<Vec<usize>>,
    /// The thread that waits for a child, by the child.
    waiting: HashMap<usize, usize>,
    steals: u64,
}

/// Runs a program by the words of choice. The root begins with worker 0.
pub fn steal(code: &Code, workers: usize, steps: u64, choices: &mut impl Choices) -> Result<StealReport, Stop> {
    let mut threads = vec![Vec::new(); workers];
    threads[0].push(0);
    let mut crew = Crew { world: World::new(code, NO_QUOTA), steps, threads, waiting: HashMap::new(), steals: 0 };
    while crew.threads.iter().any(|own| !own.is_empty()) {
        crew.turn(choices)?;
    }
    let (lines, finish) = crew.world.lines_and_finish();
    Ok(StealReport { lines, finish, actions: crew.world.actions, steals: crew.steals, high: crew.world.high })
}

impl Crew<'_> {
    fn turn(&mut self, choices: &mut impl Choices) -> Result<(), Stop> {
        let has_any_to_steal = self.threads.iter().any(|own| own.len() >= 2);
        let worker = around(choices.word(), self.threads.len())
            .find(|worker| has_any_to_steal || !self.threads[*worker].is_empty())
            .expect("there is always a worker that can move");
        if self.threads[worker].is_empty() {
            self.steal(worker, choices.word());
            return Ok(());
        }
        self.act(worker)
    }

    fn steal(&mut self, worker: usize, word: u64) {
        let victim = around(word, self.threads.len())
            .find(|other| self.threads[*other].len() >= 2)
            .expect("an idle worker moves only where there is something to steal");
        let thread = self.threads[victim].remove(0);
        self.threads[worker].push(thread);
        self.steals += 1;
    }

    fn act(&mut self, worker: usize) -> Result<(), Stop> {
        let thread = *self.threads[worker].last().expect("a worker that acts has a thread");
        if let Next::Join(child) = self.world.next(thread) {
            if !self.world.has_ended(child) {
                self.threads[worker].pop();
                self.waiting.insert(child, thread);
                return Ok(());
            }
        }
        if self.world.actions == self.steps {
            return Err(Stop::StepsSpent);
        }
        match self.world.act(thread) {
            Done::Forked(child) => self.threads[worker].push(child),
            Done::Ended => {
                self.threads[worker].pop();
                self.threads[worker].extend(self.waiting.remove(&thread));
            }
            Done::Other => {}
        }
        Ok(())
    }
}
