//! How much of a program can run at once: its work, and the longest chain of what has to come one after another.

use crate::thread::{Code, Next};
use crate::world::{Done, World};

/// Both count statements and actions: each is one step.
pub struct Span {
    pub work: u64,
    pub span: u64,
}

/// How far each thread is: its last step on the longest chain that leads to it, and how many statements of it are counted.
#[derive(Clone, Copy, Default)]
struct At {
    step: u64,
    statements: u64,
}

/// The work and the span of a program, or none where the run has more actions than the limit.
pub fn span(code: &Code, quota: u64, limit: u64) -> Option<Span> {
    let mut world = World::new(code, quota);
    let (mut threads, mut stack, mut work) = (vec![At::default()], vec![0], 0);
    while let Some(thread) = stack.last().copied() {
        let next = world.next(thread);
        if world.actions == limit {
            return None;
        }
        let statements = world.statements(thread);
        let steps = statements - threads[thread].statements + 1;
        let after_child = if let Next::Join(child) = next { threads[child].step } else { 0 };
        threads[thread] = At { step: (threads[thread].step + steps - 1).max(after_child) + 1, statements };
        work += steps;
        match world.act(thread) {
            Done::Forked(child) => {
                threads.push(At { step: threads[thread].step, statements: 0 });
                stack.push(child);
            }
            Done::Ended => drop(stack.pop()),
            Done::Other => {}
        }
    }
    Some(Span { work, span: threads[0].step })
}
