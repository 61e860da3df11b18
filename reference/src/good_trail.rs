//! Which trails are good: a checker that uses no thread and no machine, but labels, the depth-first list, and books of what each period ran
//! of it. It says the rules again, one by one, and is not fast.

use crate::evaluate::Fault;
use crate::machine::Rules;
use crate::thread::{Code, Next};
use crate::trail::{Kind, Numbers, TrailEvent};
use crate::world::{World, RECORD_WORDS};
use std::collections::HashMap;

/// The name of a thread: the ordinals of the forks from the root down to it.
pub type Label = Vec<u32>;

/// What an action does. A Fork and a Join say which child of the thread, from 1.
#[derive(Clone, Copy, Debug, PartialEq, Eq)]
pub enum Deed {
    Fork(u32),
    Join(u32),
    Alloc,
    Release,
    Dummy,
    Fault(Fault),
    End,
}

/// An action of the depth-first list, with the words that it takes or gives back.
pub struct Action {
    pub label: Label,
    pub deed: Deed,
    pub words: u64,
}

/// What is fixed for a play: its depth-first list, the places in it of each thread, and its rules.
pub struct Setting {
    pub list: Vec<Action>,
    places: HashMap<Label, Vec<usize>>,
    pub rules: Rules,
}

#[derive(Clone)]
pub struct Deque {
    pub id: u64,
    pub owner: Option<usize>,
    /// From the top to the bottom.
    pub threads: Vec<Label>,
}

/// A thread that waits for one of its children.
#[derive(Clone)]
pub struct Waiting {
    pub thread: Label,
    pub child: u32,
}

/// What one period ran, by places in the list; whether it is marked; and for which worker it is open.
#[derive(Clone)]
pub struct Book {
    pub marked: bool,
    pub owner: Option<usize>,
    pub ran: Vec<usize>,
    /// The greatest place of these.
    furthest: Option<usize>,
}

/// The state of a play after some of its events: the deques from left to right, the waiting threads, and the books of all periods.
#[derive(Clone)]
pub struct Moment {
    pub deques: Vec<Deque>,
    pub waiting: Vec<Waiting>,
    pub books: Vec<Book>,
    /// Whether the action at a place is in a book.
    pub done: Vec<bool>,
    /// How many actions are in the books.
    pub booked: usize,
    /// How many first actions of the list are done.
    pub prefix: usize,
    /// The sum of the weights of all that is in the books.
    pub live: i64,
    /// The greatest such sum so far.
    pub high: i64,
}

#[derive(Clone, Copy, Debug, PartialEq, Eq)]
pub enum Verdict {
    /// So many actions are in the books.
    Accepted(usize),
    /// The number of the first event that may not come, from 1.
    BadEvent(usize),
    /// So many events may come, and the root has not ended.
    NotEnded(usize),
    /// The right numbers.
    WrongNumbers(Numbers),
}

pub fn fork_of(parent: &Label, child: u32) -> Label {
    [parent.as_slice(), &[child]].concat()
}

/// The depth-first list of a program, or none if it has more actions than the limit.
fn depth_first_list(code: &Code, quota: u64, limit: u64) -> Option<Vec<Action>> {
    let (mut world, mut list) = (World::new(code, quota), Vec::new());
    let (mut labels, mut forks, mut stack) = (vec![Label::new()], vec![0], vec![0]);
    while let Some(thread) = stack.last().copied() {
        let next = world.next(thread);
        if world.actions == limit {
            return None;
        }
        let live = world.live;
        world.act(thread);
        let deed = match next {
            Next::Fork(_) => {
                forks[thread] += 1;
                stack.push(labels.len());
                labels.push(fork_of(&labels[thread], forks[thread]));
                forks.push(0);
                Deed::Fork(forks[thread])
            }
            Next::Join(child) => Deed::Join(labels[child].last().copied().unwrap_or(0)),
            Next::Alloc { .. } => Deed::Alloc,
            Next::Release(_) => Deed::Release,
            Next::Dummy => Deed::Dummy,
            Next::Fault(fault, _) => Deed::Fault(fault),
            Next::End => {
                stack.pop();
                Deed::End
            }
        };
        list.push(Action { label: labels[thread].clone(), deed, words: world.live.abs_diff(live) });
    }
    Some(list)
}

impl Action {
    /// By how much the words in use rise.
    pub fn weight(&self) -> i64 {
        let words = self.words as i64;
        match self.deed {
            Deed::Fork(_) | Deed::Alloc => words,
            Deed::Join(_) | Deed::Release | Deed::Dummy | Deed::Fault(_) | Deed::End => -words,
        }
    }

    /// What it takes of the quota of its period.
    pub fn charge(&self, quota: u64) -> u64 {
        match self.deed {
            Deed::Fork(_) => RECORD_WORDS,
            Deed::Alloc if self.words <= quota => self.words,
            _ => 0,
        }
    }
}

impl Setting {
    /// None if the depth-first list has more actions than the rules allow.
    pub fn new(code: &Code, rules: Rules) -> Option<Self> {
        let list = depth_first_list(code, rules.quota, rules.steps)?;
        let mut places: HashMap<Label, Vec<usize>> = HashMap::new();
        for (place, action) in list.iter().enumerate() {
            places.entry(action.label.clone()).or_default().push(place);
        }
        Some(Setting { list, places, rules })
    }

    /// The most words in use of the depth-first run.
    pub fn peak(&self) -> i64 {
        let (mut live, mut peak) = (0, 0);
        for action in &self.list {
            live += action.weight();
            peak = peak.max(live);
        }
        peak
    }

    pub fn places_of(&self, label: &Label) -> &[usize] {
        self.places.get(label).map_or(&[], Vec::as_slice)
    }

    /// The first place of a thread that is not done.
    pub fn next(&self, moment: &Moment, label: &Label) -> Option<usize> {
        self.places_of(label).iter().copied().find(|place| !moment.done[*place])
    }

    /// Whether the End of a thread is done.
    pub fn has_ended(&self, moment: &Moment, label: &Label) -> bool {
        self.places_of(label).iter().any(|place| self.list[*place].deed == Deed::End && moment.done[*place])
    }

    /// What a period has taken of its quota.
    pub fn charged(&self, book: &Book) -> u64 {
        book.ran.iter().map(|place| self.list[*place].charge(self.rules.quota)).sum()
    }

    /// One deque without an owner, which holds the root, and no book.
    pub fn opening(&self) -> Moment {
        Moment {
            deques: vec![Deque { id: 0, owner: None, threads: vec![Label::new()] }],
            waiting: Vec::new(),
            books: Vec::new(),
            done: vec![false; self.list.len()],
            booked: 0,
            prefix: 0,
            live: 0,
            high: 0,
        }
    }

    /// Whether a moment keeps the limits.
    fn is_within(&self, moment: &Moment) -> bool {
        let (live, booked) = (moment.live, moment.booked as u64);
        live <= self.rules.arena as i64 && booked <= self.rules.steps && moment.deques.len() <= self.rules.deques
    }

    /// Leads from a moment to the next by an event of a trail. Answers whether it may come. If it may not, nothing is said of the moment
    /// after it.
    pub fn lead(&self, moment: &mut Moment, event: TrailEvent) -> bool {
        let may_come = match event.kind {
            Kind::Steal(place) => self.steal(moment, event.worker, place),
            Kind::Act => self.act(moment, event.worker),
            Kind::Suspend => self.suspend(moment, event.worker),
            Kind::GiveUp => moment.give_up(event.worker),
        };
        may_come && self.is_within(moment)
    }

    /// An idle worker takes the bottom thread of a deque. A deque that keeps other threads stays, and the worker's new one is directly
    /// to the right of it. One with a single thread and no owner is taken over.
    fn steal(&self, moment: &mut Moment, worker: usize, place: usize) -> bool {
        let is_idle = moment.deques.iter().all(|deque| deque.owner != Some(worker));
        if !is_idle || worker >= self.rules.workers || place >= self.rules.workers.min(moment.deques.len()) {
            return false;
        }
        let new_id = moment.least_free_id();
        let victim = &mut moment.deques[place];
        match (victim.threads.len(), victim.owner) {
            (2.., _) => {
                let bottom = victim.threads.pop().into_iter().collect();
                moment.deques.insert(place + 1, Deque { id: new_id, owner: Some(worker), threads: bottom });
                moment.begin_book(worker, true);
            }
            (1, None) => {
                victim.owner = Some(worker);
                moment.begin_book(worker, place > 0);
            }
            _ => return false,
        }
        true
    }

    /// The top thread of a worker's deque does its next action.
    fn act(&self, moment: &mut Moment, worker: usize) -> bool {
        let Some((at, book)) = moment.owns(worker) else { return false };
        let top = moment.deques[at].threads[0].clone();
        let Some(place) = self.next(moment, &top) else { return false };
        let action = &self.list[place];
        if self.charged(&moment.books[book]) + action.charge(self.rules.quota) > self.rules.quota {
            return false;
        }
        let may_come = match action.deed {
            Deed::Fork(child) => {
                moment.deques[at].threads.insert(0, fork_of(&top, child));
                true
            }
            Deed::Join(child) => self.has_ended(moment, &fork_of(&top, child)),
            Deed::Alloc | Deed::Release | Deed::Fault(_) => true,
            Deed::Dummy => moment.give_up(worker),
            Deed::End => moment.end(worker, at, &top),
        };
        if may_come {
            moment.run(book, place, action.weight());
        }
        may_come
    }

    /// The top thread of a worker's deque is at a Join of a child that has not ended: it waits, and its deque, which has no other thread,
    /// leaves the list.
    fn suspend(&self, moment: &mut Moment, worker: usize) -> bool {
        let Some((at, _)) = moment.owns(worker) else { return false };
        let [top] = moment.deques[at].threads.as_slice() else { return false };
        let Some(place) = self.next(moment, top) else { return false };
        let Deed::Join(child) = self.list[place].deed else { return false };
        if self.has_ended(moment, &fork_of(top, child)) {
            return false;
        }
        let waits = Waiting { thread: top.clone(), child };
        moment.waiting.push(waits);
        moment.close_book(worker);
        moment.deques.remove(at);
        true
    }
}

impl Moment {
    /// The place of the deque that a worker owns, which has a thread, and that of the book that is open for it.
    pub fn owns(&self, worker: usize) -> Option<(usize, usize)> {
        let at = self.deques.iter().position(|deque| deque.owner == Some(worker) && !deque.threads.is_empty())?;
        Some((at, self.open_book(worker)?))
    }

    fn open_book(&self, worker: usize) -> Option<usize> {
        self.books.iter().rposition(|book| book.owner == Some(worker))
    }

    fn least_free_id(&self) -> u64 {
        (0..).find(|id| self.deques.iter().all(|deque| deque.id != *id)).unwrap_or(0)
    }

    fn begin_book(&mut self, worker: usize, marked: bool) {
        self.books.push(Book { marked, owner: Some(worker), ran: Vec::new(), furthest: None });
    }

    fn close_book(&mut self, worker: usize) {
        if let Some(book) = self.open_book(worker) {
            self.books[book].owner = None;
        }
    }

    /// The action at a place is written into a book.
    fn run(&mut self, book: usize, place: usize, weight: i64) {
        let book = &mut self.books[book];
        book.ran.push(place);
        book.furthest = book.furthest.max(Some(place));
        self.done[place] = true;
        self.booked += 1;
        while self.done.get(self.prefix) == Some(&true) {
            self.prefix += 1;
        }
        self.live += weight;
        self.high = self.high.max(self.live);
    }

    /// A worker leaves its deque, which stays without an owner.
    fn give_up(&mut self, worker: usize) -> bool {
        let Some((at, _)) = self.owns(worker) else { return false };
        self.deques[at].owner = None;
        self.close_book(worker);
        true
    }

    /// The top thread ends. The thread below it runs next if it is its parent. In a deque without another thread the parent runs next if it
    /// waits for it; otherwise the deque leaves the list.
    fn end(&mut self, worker: usize, at: usize, top: &Label) -> bool {
        let is_child_of = |parent: &Label| top.split_last().is_some_and(|(_, above)| above == parent.as_slice());
        if let Some(below) = self.deques[at].threads.get(1) {
            let is_parent = is_child_of(below);
            self.deques[at].threads.remove(0);
            return is_parent;
        }
        match self.waiting.iter().position(|waits| *top == fork_of(&waits.thread, waits.child)) {
            Some(waits) => self.deques[at].threads = vec![self.waiting.remove(waits).thread],
            None => {
                self.deques.remove(at);
                self.close_book(worker);
            }
        }
        true
    }

    /// The periods, those of them that are marked, and the high-water mark.
    pub fn numbers(&self) -> Numbers {
        let marked = self.books.iter().filter(|book| book.marked).count();
        Numbers { periods: self.books.len() as u64, ahead: marked as u64, high: self.high as u64 }
    }

    /// How many periods ran an action that is not among the first ones that are done.
    pub fn periods_ahead(&self) -> usize {
        self.books.iter().filter(|book| book.furthest.is_some_and(|place| place >= self.prefix)).count()
    }
}

/// What there is to say of the events and the numbers of a trail.
pub fn verdict(setting: &Setting, events: &[TrailEvent], numbers: Numbers) -> Verdict {
    let mut moment = setting.opening();
    for (at, event) in events.iter().enumerate() {
        if !setting.lead(&mut moment, *event) {
            return Verdict::BadEvent(at + 1);
        }
    }
    let right = moment.numbers();
    if !setting.has_ended(&moment, &Label::new()) {
        Verdict::NotEnded(events.len())
    } else if right != numbers {
        Verdict::WrongNumbers(right)
    } else {
        Verdict::Accepted(moment.booked)
    }
}
