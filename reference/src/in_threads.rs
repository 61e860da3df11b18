//! The machine, run by threads of the system: a lock holds it, and whoever gets the lock does its event. So the order of events
//! is the system's, and each of them is one of the orders that the rules allow.

use crate::choices::Pcg;
use crate::machine::{Machine, PlayReport, Rules, Stop};
use crate::thread::Code;
use std::sync::{Mutex, PoisonError};

struct Hall<'a> {
    machine: Machine<'a>,
    stop: Option<Stop>,
}

/// Runs a program by as many threads as there are workers. Worker i draws from whom it steals from the generator of seed + i.
pub fn run(code: &Code, rules: Rules, seed: u64) -> Result<PlayReport, Stop> {
    let hall = Mutex::new(Hall { machine: Machine::new(code, rules), stop: None });
    std::thread::scope(|scope| {
        for worker in 0..rules.workers {
            let (hall, mut choices) = (&hall, Pcg::from_seed(seed.wrapping_add(worker as u64)));
            scope.spawn(move || while moves(hall, worker, &mut choices) {});
        }
    });
    let hall = hall.into_inner().unwrap_or_else(PoisonError::into_inner);
    hall.stop.map_or_else(|| Ok(hall.machine.report()), Err)
}

/// Does one event of a worker, or lets others go on where it cannot move. Answers whether the run goes on.
fn moves(hall: &Mutex<Hall>, worker: usize, choices: &mut Pcg) -> bool {
    // A lock is poisoned where a worker broke off; then the others end too.
    let Ok(mut held) = hall.lock() else { return false };
    if held.machine.has_ended() || held.stop.is_some() {
        return false;
    }
    if held.machine.can_move(worker) {
        held.stop = held.machine.step(worker, choices).err();
    } else {
        drop(held);
        std::thread::yield_now();
    }
    true
}
