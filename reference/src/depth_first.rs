//! The depth-first run: a forked child runs to its end before its parent goes on.

use crate::thread::{Code, Next};
use crate::world::{Done, Finish, World};

pub struct PeakReport {
    pub lines: Vec<i64>,
    pub finish: Finish,
    pub actions: u64,
    pub peak: u64,
}

/// What a run shows: the thread and its next action before it is done, and the world after it.
pub enum Turn<'w, 'a> {
    Next((&'w World<'a>, usize, Next<'a>)),
    Done(&'w World<'a>),
}

/// The report, or none where the run has more actions than the limit.
pub fn depth_first(code: &Code, quota: u64, limit: u64) -> Option<PeakReport> {
    let mut world = World::new(code, quota);
    if !run_serially(&mut world, limit, |_| true) {
        return None;
    }
    let (lines, finish) = world.lines_and_finish();
    Some(PeakReport { lines, finish, actions: world.actions, peak: world.high })
}

/// Runs the root to its end while `goes_on` says so of what it is shown. Answers whether the limit was kept.
pub fn run_serially<'a>(world: &mut World<'a>, limit: u64, mut goes_on: impl FnMut(Turn<'_, 'a>) -> bool) -> bool {
    let mut stack = vec![0];
    while let Some(thread) = stack.last().copied() {
        let next = world.next(thread);
        if world.actions == limit {
            return false;
        }
        if !goes_on(Turn::Next((world, thread, next))) {
            break;
        }
        match world.act(thread) {
            Done::Forked(child) => stack.push(child),
            Done::Ended => drop(stack.pop()),
            Done::Other => {}
        }
        if !goes_on(Turn::Done(world)) {
            break;
        }
    }
    true
}
