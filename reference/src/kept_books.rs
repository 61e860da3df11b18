//! A play that keeps what the product keeps of each event, so that both do the same work where their cost is compared.

use crate::choices::Choices;
use crate::machine::{Event, Machine, PlayReport, Rules, Stop, What};
use crate::thread::Code;

/// One period: the actions that it ran, and the threads that it forked.
#[derive(Default)]
struct Book {
    ran: Vec<(u32, u32)>,
    births: Vec<u32>,
}

/// The books of all periods, and by how much each action changed the words in use.
#[derive(Default)]
struct Books {
    periods: Vec<Book>,
    moves: Vec<i64>,
    /// How many actions each thread has done.
    done: Vec<u32>,
}

impl Books {
    fn note(&mut self, event: &Event, change: i64) {
        match event.what {
            What::Stole { .. } => self.periods.push(Book::default()),
            What::GaveUp | What::Suspended => {}
            What::Did(_) => self.note_action(event, change),
            What::Forked(child) => {
                self.note_action(event, change);
                self.book(event.period).births.push(child as u32);
            }
        }
    }

    fn note_action(&mut self, event: &Event, change: i64) {
        if self.done.len() <= event.thread {
            self.done.resize(event.thread + 1, 0);
        }
        let action = (event.thread as u32, self.done[event.thread]);
        self.done[event.thread] += 1;
        self.book(event.period).ran.push(action);
        if change != 0 {
            self.moves.push(change);
        }
    }

    /// Periods have numbers from 1.
    fn book(&mut self, period: u64) -> &mut Book {
        &mut self.periods[period as usize - 1]
    }

    fn actions(&self) -> u64 {
        self.periods.iter().map(|it| it.ran.len() as u64).sum()
    }
}

/// Plays a program, and keeps books and moves. The report is that of a play; its actions are counted in the books.
pub fn play_with_books(code: &Code, rules: Rules, choices: &mut impl Choices) -> Result<PlayReport, Stop> {
    let mut machine = Machine::new(code, rules);
    let mut books = Books::default();
    while !machine.has_ended() {
        let before = machine.world.live as i64;
        let event = machine.turn(choices)?;
        let change = machine.world.live as i64 - before;
        books.note(&event, change);
    }
    let report = machine.report();
    assert_eq!(report.actions, books.actions(), "each action is in the books once");
    Ok(report)
}
