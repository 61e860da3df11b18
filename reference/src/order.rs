//! An order of what the seats of a hall were told: each seat knows what it did one after the other, and not what the others did meanwhile.
//! `order` looks for one order of all of it in which each event is a case of the machine, and writes it as a trail.
//!
//! Each event has the tickets that were drawn before its call and after it: it comes before each other one whose call began after its own had
//! ended. The moves of the hall say in which order the words in use changed, and the books in which order the periods began, which of them
//! are marked, and what each ran. The order has to agree with all of that, and each deque has to have the id that its seat was told.
//!
//! What changes no deque but its own, and of that only the upper end, may come at once: whatever could come before it can come after it. So
//! the search has a choice only between a steal, an End and a suspension that overlap.

use crate::command::accepted;
use crate::good_trail::{self, fork_of, Action, Deed, Label, Moment, Setting};
use crate::resolve::resolve;
use crate::told::{self, ActionName, Event, Seat, ThreadName, Told};
use crate::trail::{line_at, rules_of, source_at, trail_text, Kind, Trail, TrailEvent};
use std::collections::{HashMap, HashSet};
use std::rc::Rc;

/// The trail that the seats of a run can have made, or why there is none.
pub fn order(text: &[u8]) -> Result<Vec<u8>, String> {
    let (rules, second) = line_at(text, 0).and_then(|(words, next)| Some((rules_of(&words)?, next))).ok_or("no numbers")?;
    let (source, at) = source_at(text, second).ok_or("no source")?;
    let told = Told::read(text, at).ok_or("no books, moves and seats")?;
    let program = accepted(&source).map_err(|_| "the source is refused")?;
    let setting = Setting::new(&resolve(&program), rules).ok_or("too many actions")?;
    let labels = told.labels(&setting).ok_or("a thread that nobody forked")?;
    let moving = told.moves.iter().map(|(name, _)| *name).collect();
    let search = Search { setting: &setting, told: &told, labels: &labels, moving };
    let (events, end) = search.run().ok_or("no order of these is a run of the machine")?;
    if !setting.has_ended(&end, &Label::new()) {
        return Err("the root has not ended".to_string());
    }
    if !search.has_books(&end) {
        return Err("the books have other actions than the seats were told".to_string());
    }
    Ok(trail_text(&Trail { rules, source, events, numbers: told.numbers() }))
}

struct Search<'a> {
    setting: &'a Setting,
    told: &'a Told,
    labels: &'a HashMap<ThreadName, Label>,
    /// The actions of the moves.
    moving: HashSet<ActionName>,
}

/// A moment on the way, how many events of each seat have come, and how many of the moves.
#[derive(Clone)]
struct State {
    moment: Moment,
    counts: Vec<usize>,
    moved: usize,
}

/// An event that a seat may have done next.
#[derive(Clone, Copy)]
struct Next {
    seat: usize,
    event: TrailEvent,
}

/// What is still to be tried: an event after so many others, which led to a state.
struct Branch {
    from: Rc<State>,
    came: usize,
    next: Next,
}

impl Search<'_> {
    /// The events in an order in which each of them may come, and the moment after them.
    fn run(&self) -> Option<(Vec<TrailEvent>, Moment)> {
        let counts = vec![0; self.told.seats.len()];
        let mut state = State { moment: self.setting.opening(), counts, moved: 0 };
        let (mut came, mut branches, mut seen) = (Vec::new(), Vec::new(), HashSet::new());
        loop {
            let may_go_on = self.settle(&mut state, &mut came);
            if may_go_on && self.is_whole(&state) {
                return Some((came, state.moment));
            }
            if may_go_on && seen.insert((state.counts.clone(), shape_of(&state.moment))) {
                let nexts = self.nexts(&state);
                let from = Rc::new(state);
                branches.extend(nexts.into_iter().map(|next| Branch { from: Rc::clone(&from), came: came.len(), next }));
            }
            state = self.follow(&mut branches, &mut came)?;
        }
    }

    /// Goes on with the last branch whose event may come.
    fn follow(&self, branches: &mut Vec<Branch>, came: &mut Vec<TrailEvent>) -> Option<State> {
        while let Some(Branch { from, came: count, next }) = branches.pop() {
            came.truncate(count);
            let mut state = Rc::unwrap_or_clone(from);
            if self.lead(&mut state, next, came) {
                return Some(state);
            }
        }
        None
    }

    /// Lets all come that may come at once. Answers whether the rules allow it: if they do not now, they never will.
    fn settle(&self, state: &mut State, came: &mut Vec<TrailEvent>) -> bool {
        loop {
            let next = self.ready_seats(state).find_map(|(_, seat)| self.at_once(state, seat));
            match next {
                None => return true,
                Some(next) if self.lead(state, next, came) => {}
                Some(_) => return false,
            }
        }
    }

    /// Lets an event come. Answers whether it may and agrees with what the hall told.
    fn lead(&self, state: &mut State, next: Next, came: &mut Vec<TrailEvent>) -> bool {
        let event = self.told.seats[next.seat].events[state.counts[next.seat]];
        if let Event::Did(name) = event {
            state.moved += usize::from(self.moving.contains(&name));
        }
        state.counts[next.seat] += 1;
        came.push(next.event);
        self.setting.lead(&mut state.moment, next.event) && self.agrees(&state.moment, next.event.worker, event)
    }

    /// Whether a steal began the period and got the deque that its seat was told.
    fn agrees(&self, moment: &Moment, worker: usize, event: Event) -> bool {
        let Event::Stole { period, deque } = event else { return true };
        let told = self.told.books.get(moment.books.len() - 1).map(|book| book.marked);
        let has = moment.owns(worker).map(|(place, book)| (moment.deques[place].id, moment.books[book].marked));
        moment.books.len() as u64 == period && told.is_some_and(|marked| has == Some((deque, marked)))
    }

    fn is_whole(&self, state: &State) -> bool {
        let counts = state.counts.iter().zip(&self.told.seats);
        counts.into_iter().all(|(count, seat)| *count == seat.events.len()) && state.moved == self.told.moves.len()
    }

    /// Whether the books of a moment have the marks and the actions that the hall gave.
    fn has_books(&self, moment: &Moment) -> bool {
        let place = |(name, index): &ActionName| self.setting.places_of(&self.labels[name]).get(*index).copied();
        let is_same = |(book, told): (&good_trail::Book, &told::Book)| {
            book.marked == told.marked && book.ran.iter().map(|it| Some(*it)).eq(told.ran.iter().map(place))
        };
        moment.books.len() == self.told.books.len() && moment.books.iter().zip(&self.told.books).all(is_same)
    }

    /// The seats whose next event may come by the tickets, each with the ticket after it. Of the seats of one worker an earlier one
    /// comes first.
    fn ready_seats<'b>(&'b self, state: &'b State) -> impl Iterator<Item = (u64, usize)> + 'b {
        let (seats, counts) = (&self.told.seats, &state.counts);
        let first_end =
            seats.iter().zip(counts).filter_map(|(seat, count)| seat.tickets.get(*count)).map(|(_, after)| *after).min();
        let is_in = move |at: usize| {
            at == 0 || seats[at - 1].worker != seats[at].worker || counts[at - 1] == seats[at - 1].events.len()
        };
        let ticket = move |at: usize| seats[at].tickets.get(counts[at]).filter(|(before, _)| Some(*before) < first_end);
        (0..seats.len()).filter(move |at| is_in(*at)).filter_map(move |at| ticket(at).map(|(_, after)| (*after, at)))
    }

    /// The next event of a seat, if it may come at once: it gives its deque up, or does an action after which its deque still has the
    /// threads that it had.
    fn at_once(&self, state: &State, seat: usize) -> Option<Next> {
        let of = &self.told.seats[seat];
        let kind = match of.events[state.counts[seat]] {
            Event::GaveUp { deque } => {
                let is_its = state.moment.owns(of.worker).is_some_and(|(place, _)| state.moment.deques[place].id == deque);
                is_its.then_some(Kind::GiveUp)
            }
            Event::Did(name) => {
                let action = self.may_act(state, of, name)?;
                let is_join = |child| self.setting.has_ended(&state.moment, &fork_of(&action.label, child));
                let comes = match action.deed {
                    Deed::Fork(_) | Deed::Alloc | Deed::Release | Deed::Dummy | Deed::Fault(_) => true,
                    Deed::Join(child) => is_join(child),
                    Deed::End => false,
                };
                comes.then_some(Kind::Act)
            }
            Event::Stole { .. } | Event::Suspended(_) => None,
        }?;
        Some(Next { seat, event: TrailEvent { worker: of.worker, kind } })
    }

    /// The steals, Ends and suspensions that may come next. The last one is to be tried first: the one whose call ended first.
    fn nexts(&self, state: &State) -> Vec<Next> {
        let mut ready: Vec<(u64, usize)> = self.ready_seats(state).collect();
        ready.sort_by_key(|(after, _)| std::cmp::Reverse(*after));
        let mut nexts = Vec::new();
        for (_, seat) in ready {
            let worker = self.told.seats[seat].worker;
            nexts.extend(self.kinds_of(state, seat).into_iter().map(|kind| Next { seat, event: TrailEvent { worker, kind } }));
        }
        nexts
    }

    /// What the next event of a seat can be in a trail, if it may come.
    fn kinds_of(&self, state: &State, seat: usize) -> Vec<Kind> {
        let (of, at) = (&self.told.seats[seat], state.counts[seat]);
        match of.events[at] {
            Event::GaveUp { .. } => vec![],
            Event::Suspended(name) => self.owned(&state.moment, of, name).map(|_| Kind::Suspend).into_iter().collect(),
            Event::Did(name) => {
                let action = self.may_act(state, of, name).filter(|action| self.may_end(&state.moment, of, at, action));
                action.map(|_| Kind::Act).into_iter().collect()
            }
            Event::Stole { period, .. } if period == state.moment.books.len() as u64 + 1 => {
                let wanted = of.events.get(at + 1).and_then(Event::thread).map(|name| &self.labels[&name]);
                let deques = &state.moment.deques;
                let is_wanted = |place: &usize| wanted.is_none_or(|it| deques[*place].threads.last() == Some(it));
                (0..deques.len()).filter(is_wanted).map(Kind::Steal).collect()
            }
            Event::Stole { .. } => vec![],
        }
    }

    /// The label of a thread, if it is the top one of the seat's deque.
    fn owned(&self, moment: &Moment, seat: &Seat, name: ThreadName) -> Option<&Label> {
        let (at, _) = moment.owns(seat.worker)?;
        let label = self.labels.get(&name)?;
        (moment.deques[at].threads[0] == *label).then_some(label)
    }

    /// The action of a name, if it is the next one of the top thread of the seat's deque, and the next move if it changes the words in use.
    fn may_act(&self, state: &State, seat: &Seat, name: ActionName) -> Option<&Action> {
        let label = self.owned(&state.moment, seat, name.0)?;
        let place = self.setting.next(&state.moment, label)?;
        let action = &self.setting.list[place];
        let is_this = self.setting.places_of(label).get(name.1) == Some(&place);
        let may_move = match self.moving.contains(&name) {
            true => self.told.moves.get(state.moved) == Some(&(name, action.weight())),
            false => action.weight() == 0,
        };
        (is_this && may_move).then_some(action)
    }

    /// Whether an End may come now by what the seat did after it. It goes on in its deque with the parent exactly if that is below, or waits
    /// for the child; otherwise it has no deque.
    fn may_end(&self, moment: &Moment, seat: &Seat, at: usize, action: &Action) -> bool {
        let (Some((place, _)), Some((ordinal, parent))) = (moment.owns(seat.worker), action.label.split_last()) else {
            return true;
        };
        let is_below = moment.deques[place].threads.len() > 1;
        let waits = moment.waiting.iter().any(|it| it.thread == parent && it.child == *ordinal);
        let goes_on = match seat.events.get(at + 1) {
            Some(event @ (Event::Did(_) | Event::Suspended(_))) => {
                event.thread().is_some_and(|name| self.labels[&name] == parent)
            }
            Some(Event::GaveUp { .. }) => true,
            Some(Event::Stole { .. }) | None => false,
        };
        (is_below || waits) == goes_on
    }
}

/// The deques from left to right: the id of each, who owns it, and its threads.
fn shape_of(moment: &Moment) -> Vec<(u64, Option<usize>, Vec<Label>)> {
    moment.deques.iter().map(|deque| (deque.id, deque.owner, deque.threads.to_vec())).collect()
}
