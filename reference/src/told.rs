//! What a hall has told, as `order` reads it: what each of its seats was told, one thing after the other, and the books and the moves that the
//! closed hall gave.

use crate::good_trail::{fork_of, Deed, Label, Setting};
use crate::trail::{line_at, natural, Numbers};
use std::collections::HashMap;

/// The number of the period in which a thread was born, and which birth of it that was; both 0 for the root.
pub type ThreadName = (u64, u64);

/// The thread of an action, and which of its actions it is, from 0.
pub type ActionName = (ThreadName, usize);

/// What a seat was told of one event. A steal says which period began and which deque it is, and a give up which deque was left.
#[derive(Clone, Copy)]
pub enum Event {
    Stole { period: u64, deque: u64 },
    Did(ActionName),
    Suspended(ThreadName),
    GaveUp { deque: u64 },
}

/// One seat: its worker, and what it was told in order, with the tickets before and after each call.
pub struct Seat {
    pub worker: usize,
    pub events: Vec<Event>,
    pub tickets: Vec<(u64, u64)>,
}

/// The book of one period: whether it is marked, and what it ran.
pub struct Book {
    pub marked: bool,
    pub ran: Vec<ActionName>,
}

/// What a hall has told. The books are in the order of their periods, the moves in the order in which the words in use changed, and the
/// seats of one worker in the order in which they had it.
pub struct Told {
    pub seats: Vec<Seat>,
    pub books: Vec<Book>,
    pub moves: Vec<(ActionName, i64)>,
}

impl Event {
    /// The thread of an event of an owner.
    pub fn thread(&self) -> Option<ThreadName> {
        match self {
            Event::Did((name, _)) | Event::Suspended(name) => Some(*name),
            Event::Stole { .. } | Event::GaveUp { .. } => None,
        }
    }
}

impl Seat {
    fn first_period(&self) -> Option<u64> {
        self.events.iter().find_map(|it| if let Event::Stole { period, .. } = it { Some(*period) } else { None })
    }
}

impl Told {
    /// Reads lines up to the end of the text.
    pub fn read(text: &[u8], mut at: usize) -> Option<Told> {
        let (mut seats, mut books, mut moves) = (Vec::<Seat>::new(), Vec::<(u64, Book)>::new(), Vec::new());
        while at < text.len() {
            let (words, next) = line_at(text, at)?;
            match words.as_slice() {
                [b"book", number, b"marked"] => books.push((natural(number)?, Book { marked: true, ran: Vec::new() })),
                [b"book", number, b"unmarked"] => books.push((natural(number)?, Book { marked: false, ran: Vec::new() })),
                [b"ran", words @ ..] => books.last_mut()?.1.ran.push(action_of(words)?),
                [b"took", words @ .., change] => moves.push((action_of(words)?, natural(change)? as i64)),
                [b"gave", words @ .., change] => moves.push((action_of(words)?, -(natural(change)? as i64))),
                [b"seat", worker] => {
                    seats.push(Seat { worker: natural(worker)? as usize, events: Vec::new(), tickets: Vec::new() })
                }
                [before, after, words @ ..] => {
                    let seat = seats.last_mut()?;
                    seat.tickets.push((natural(before)?, natural(after)?));
                    seat.events.push(event_of(words)?);
                }
                [] | [_] => return None,
            }
            at = next;
        }
        seats.retain(|seat| !seat.events.is_empty());
        seats.sort_by_key(|seat| (seat.worker, seat.first_period()));
        books.sort_by_key(|(number, _)| *number);
        let is_each_there = books.iter().zip(1..).all(|((number, _), wanted)| *number == wanted);
        is_each_there.then(|| Told { seats, books: books.into_iter().map(|(_, book)| book).collect(), moves })
    }

    /// The periods, those that are marked, and the greatest sum of the moves.
    pub fn numbers(&self) -> Numbers {
        let marked = self.books.iter().filter(|book| book.marked).count();
        let (mut live, mut high) = (0, 0);
        for (_, change) in &self.moves {
            live += change;
            high = high.max(live);
        }
        Numbers { periods: self.books.len() as u64, ahead: marked as u64, high: high as u64 }
    }

    /// The labels of the threads that have names: the n-th Fork of a period has made its n-th thread. None if a thread has no Fork.
    pub fn labels(&self, setting: &Setting) -> Option<HashMap<ThreadName, Label>> {
        let mut labels = HashMap::from([((0, 0), Label::new())]);
        let mut known = 0;
        while known < labels.len() {
            known = labels.len();
            for (number, book) in (1..).zip(&self.books) {
                name_children(setting, number, book, &mut labels);
            }
        }
        let ran = self.books.iter().flat_map(|book| &book.ran).map(|(name, _)| *name);
        let told = self.seats.iter().flat_map(|seat| &seat.events).filter_map(Event::thread);
        ran.chain(told).all(|name| labels.contains_key(&name)).then_some(labels)
    }
}

/// Names the threads that were forked in a period, as far as the threads that forked them have labels.
fn name_children(setting: &Setting, number: u64, book: &Book, labels: &mut HashMap<ThreadName, Label>) {
    let mut nth = 0;
    for (name, index) in &book.ran {
        let Some(label) = labels.get(name).cloned() else { return };
        let place = setting.places_of(&label).get(*index);
        if let Some(Deed::Fork(ordinal)) = place.map(|place| setting.list[*place].deed) {
            labels.insert((number, nth), fork_of(&label, ordinal));
            nth += 1;
        }
    }
}

fn thread_of(words: &[&[u8]]) -> Option<ThreadName> {
    let [period, nth] = words else { return None };
    Some((natural(period)?, natural(nth)?))
}

fn action_of(words: &[&[u8]]) -> Option<ActionName> {
    let [thread @ .., index] = words else { return None };
    Some((thread_of(thread)?, natural(index)? as usize))
}

fn event_of(words: &[&[u8]]) -> Option<Event> {
    match words {
        [b"stole", period, deque] => Some(Event::Stole { period: natural(period)?, deque: natural(deque)? }),
        [b"did", action @ ..] => action_of(action).map(Event::Did),
        [b"suspended", thread @ ..] => thread_of(thread).map(Event::Suspended),
        [b"gaveup", deque] => Some(Event::GaveUp { deque: natural(deque)? }),
        _ => None,
    }
}
