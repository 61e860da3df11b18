//! A hall: the parts of the scheduler in slots that seats take turns on, as plain values. A call of a seat is a row of single steps on the
//! table of slots; between two of them other seats may step. Here are the table, the seats, and the single steps.

use crate::good_trail::Label;
use crate::hall_calls::{next_of, Call, Move, Refusal, Verdict};
use crate::machine::{Rules, Stop as RuleStop};
use crate::thread::{Code, Item, Thread};
use crate::trail::Kind;
use std::collections::VecDeque;
use std::rc::Rc;

pub const LIST: usize = 0;
pub const POOL: usize = 1;

/// The slot of the lane of a deque.
pub fn lane_slot(deque: usize) -> usize {
    deque + 2
}

/// The period in which a thread was forked, and how many were forked in it before. The root is 0, 0.
pub type ThreadId = (u64, usize);
/// A thread, and how many actions it did before.
pub type ActionName = (ThreadId, usize);

#[derive(Clone, Copy, Debug, PartialEq, Eq)]
pub enum Stop {
    ByRule(RuleStop),
    NoMemory,
}

#[derive(Clone, Copy, Debug, PartialEq, Eq)]
pub enum End {
    Finished,
    Stopped(Stop),
}

#[derive(Clone)]
pub struct Child<'a> {
    pub id: ThreadId,
    pub ordinal: u32,
    /// The result, once it was handed over.
    pub result: Option<Ended<'a>>,
}

/// What an ended thread leaves: its blocks and what it printed.
#[derive(Clone)]
pub struct Ended<'a> {
    pub id: ThreadId,
    pub body: Thread<'a>,
    pub items: Vec<Item>,
}

#[derive(Clone)]
pub struct HallThread<'a> {
    pub id: ThreadId,
    pub label: Label,
    pub done: usize,
    pub forks: u32,
    /// The open ones, the newest last.
    pub children: Vec<Child<'a>>,
    pub body: Thread<'a>,
    pub items: Vec<Item>,
}

#[derive(Clone, PartialEq)]
pub struct Period {
    pub number: u64,
    pub marked: bool,
    pub used: u64,
    pub ran: Vec<ActionName>,
    /// The parent of each thread that was forked in it, and which child of it this is.
    pub born: Vec<(ThreadId, u32)>,
}

#[derive(Clone, Copy, Debug, PartialEq, Eq)]
pub struct Place {
    pub deque: usize,
    pub owner: Option<usize>,
}

#[derive(Clone)]
pub struct ListShown<'a> {
    /// From left to right.
    pub places: Vec<Place>,
    pub crew: Vec<usize>,
    pub waiting: Vec<HallThread<'a>>,
    pub results: Vec<Ended<'a>>,
    pub closed: Vec<Period>,
    pub begun: u64,
    pub kept: Option<End>,
}

#[derive(Clone)]
pub struct PoolShown {
    pub live: u64,
    pub moves: Vec<(ActionName, i64)>,
}

#[derive(Clone)]
pub struct LaneShown<'a> {
    /// From top to bottom.
    pub threads: Vec<HallThread<'a>>,
    pub period: Option<Period>,
}

pub enum Value<'a> {
    List(ListShown<'a>),
    Pool(PoolShown),
    Lane(LaneShown<'a>),
}

impl<'a> Value<'a> {
    pub fn list(&self) -> &ListShown<'a> {
        let Value::List(list) = self else { unreachable!("the first slot holds the list") };
        list
    }

    pub fn pool(&self) -> &PoolShown {
        let Value::Pool(pool) = self else { unreachable!("the second slot holds the pool") };
        pool
    }

    pub fn lane(&self) -> &LaneShown<'a> {
        let Value::Lane(lane) = self else { unreachable!("each further slot holds a lane") };
        lane
    }
}

/// A slot: its turn word, and its value unless this was taken out.
pub struct Slot<'a> {
    pub turn: u8,
    pub home: Option<Rc<Value<'a>>>,
}

/// A slot whose turn a seat holds: what it shows, and what is to be put back.
pub struct Held<'a> {
    pub slot: usize,
    pub is_out: bool,
    pub shows: Rc<Value<'a>>,
    pub value: Rc<Value<'a>>,
}

#[derive(Clone)]
pub enum Look<'a> {
    Took(usize, Rc<Value<'a>>),
    Held { slot: usize, seen: u8 },
    Counted(u64),
}

#[derive(Clone, Copy, Debug, PartialEq, Eq)]
pub enum Told {
    Stole { deque: usize, period: u64 },
    Did(ActionName),
    Suspended(ThreadId),
    GaveUp(usize),
    Halted(End),
}

/// An event of the run, with the seat that did it, the number of its period, and what the seat was told.
pub struct Step {
    pub seat: usize,
    pub worker: usize,
    pub period: u64,
    pub event: Kind,
    pub told: Told,
}

/// What a seat notes.
#[derive(Clone, Default, PartialEq)]
pub struct View {
    pub worker: usize,
    pub places: usize,
    pub left: bool,
    pub deque: Option<usize>,
    pub found: Option<Stop>,
    pub answered: Option<End>,
    pub counting: bool,
    pub yielded: bool,
    /// The worker for whom it enters, whom the list names and who has no seat yet.
    pub enters: Option<usize>,
    pub mine: Vec<Told>,
}

#[derive(Default)]
pub struct Seat<'a> {
    pub view: View,
    pub hand: Vec<Held<'a>>,
    pub looks: Vec<Look<'a>>,
    pub running: Option<Running<'a>>,
    /// The call that answered last.
    pub finished: Option<Running<'a>>,
    /// Another seat leaves into it.
    pub is_lent: bool,
}

/// A call that has begun.
pub struct Running<'a> {
    pub call: Call,
    /// How many looks and told events there were before.
    pub looks_before: usize,
    pub told_before: usize,
    /// Where it asks for memory there is none.
    pub has_no_memory: bool,
    pub counted: Option<u64>,
    /// The slots of the lanes that a steal tried and put back.
    pub tried: Vec<usize>,
    todo: VecDeque<Single>,
    verdict: Option<Verdict>,
    is_decided: bool,
    /// The slots as they were when it settled, for the receipts.
    pub settled: Vec<Rc<Value<'a>>>,
}

/// A single step on the table.
#[derive(Clone, Copy, Debug, PartialEq, Eq)]
pub enum Single {
    TakeTurn(usize),
    TakeValue(usize),
    PutValue(usize),
    GiveTurn(usize),
    Count,
    Split,
    Join,
}

#[derive(Clone, Copy, Debug, PartialEq, Eq)]
pub enum Answer {
    Done(Told),
    Entered(usize),
    Left,
    Closed,
    Refused(Refusal),
}

pub struct Hall<'a> {
    pub rules: Rules,
    pub slots: Vec<Slot<'a>>,
    pub count: u64,
    pub seats: Vec<Seat<'a>>,
    pub steps: Vec<Step>,
}

impl<'a> Hall<'a> {
    /// A hall whose one seat, of worker 0, has all places.
    pub fn new(code: &'a Code, rules: Rules) -> Self {
        let root = HallThread {
            id: (0, 0),
            label: Label::new(),
            done: 0,
            forks: 0,
            children: Vec::new(),
            body: Thread::root(code),
            items: Vec::new(),
        };
        let list = ListShown {
            places: vec![Place { deque: 0, owner: None }],
            crew: vec![0],
            waiting: Vec::new(),
            results: Vec::new(),
            closed: Vec::new(),
            begun: 0,
            kept: None,
        };
        let mut values = vec![Value::List(list), Value::Pool(PoolShown { live: 0, moves: Vec::new() })];
        values.push(Value::Lane(LaneShown { threads: vec![root], period: None }));
        values.extend((1..rules.deques).map(|_| Value::Lane(LaneShown { threads: Vec::new(), period: None })));
        let slots = values.into_iter().map(|value| Slot { turn: 0, home: Some(Rc::new(value)) }).collect();
        let first = Seat { view: View { places: rules.workers, ..View::default() }, ..Seat::default() };
        Hall { rules, slots, count: 0, seats: vec![first], steps: Vec::new() }
    }

    /// Begins a call of a seat that has none. Answers at once if the call needs no step.
    pub fn begin(&mut self, seat: usize, call: Call, has_no_memory: bool) -> Option<Answer> {
        let own = &mut self.seats[seat];
        own.running = Some(Running {
            call,
            looks_before: own.looks.len(),
            told_before: own.view.mine.len(),
            has_no_memory,
            counted: None,
            tried: Vec::new(),
            todo: VecDeque::new(),
            verdict: None,
            is_decided: false,
            settled: Vec::new(),
        });
        if let Call::Leave { into } = call {
            self.seats[into].is_lent = true;
        }
        self.prepare(seat)
    }

    /// The call's next single step is made ready. Answers if there is none.
    fn prepare(&mut self, seat: usize) -> Option<Answer> {
        let own = &mut self.seats[seat];
        let running = own.running.as_mut()?;
        if !running.todo.is_empty() {
            return None;
        }
        if running.verdict.is_none() {
            match next_of(&self.rules, &own.view, &own.hand, running) {
                Move::Take(slot) => running.todo.extend([Single::TakeTurn(slot), Single::TakeValue(slot)]),
                Move::PutTried(slot) => {
                    running.tried.push(slot);
                    running.todo.extend([Single::PutValue(slot), Single::GiveTurn(slot)]);
                }
                Move::Count => running.todo.push_back(Single::Count),
                Move::Settle(verdict, values) => self.settle(seat, verdict, values),
            }
        }
        let running = self.seats[seat].running.as_ref()?;
        if running.todo.is_empty() {
            self.decide(seat);
            return Some(self.answer(seat));
        }
        None
    }

    /// The seat has what it is to put back, in this order; the slots without a new value go back as they were.
    fn settle(&mut self, seat: usize, verdict: Verdict, values: Vec<(usize, Value<'a>)>) {
        let own = &mut self.seats[seat];
        let Some(running) = own.running.as_mut() else { return };
        let unchanged = own.hand.iter().rev().map(|held| held.slot).filter(|slot| values.iter().all(|(it, _)| it != slot));
        let order: Vec<usize> = values.iter().map(|(slot, _)| *slot).chain(unchanged).collect();
        running.todo.extend(order.into_iter().flat_map(|slot| [Single::PutValue(slot), Single::GiveTurn(slot)]));
        match verdict {
            Verdict::Entered(_) => running.todo.push_back(Single::Split),
            Verdict::Left | Verdict::Did { leaves: true, .. } => running.todo.push_back(Single::Join),
            _ => {}
        }
        running.verdict = Some(verdict);
        running.settled = own.hand.iter().map(|held| held.shows.clone()).collect();
        for (slot, value) in values {
            if let Some(held) = own.hand.iter_mut().find(|held| held.slot == slot) {
                held.value = Rc::new(value);
            }
        }
    }

    /// Does the next single step of a seat's call. Answers the step, and the call's answer if it was the last.
    pub fn step(&mut self, seat: usize) -> (Single, Option<Answer>) {
        let running = self.seats[seat].running.as_mut().expect("a seat that steps has begun a call");
        let single = running.todo.pop_front().expect("a call that has not answered has a step");
        match single {
            Single::TakeTurn(slot) => self.take_turn(seat, slot),
            Single::TakeValue(slot) => self.take_value(seat, slot),
            Single::PutValue(slot) => self.put_value(seat, slot),
            Single::GiveTurn(slot) => self.give_turn(seat, slot),
            Single::Count => self.count_one(seat),
            Single::Split => self.split(seat),
            Single::Join => self.join(seat),
        }
        (single, self.prepare(seat))
    }

    fn take_turn(&mut self, seat: usize, slot: usize) {
        let own = &mut self.seats[seat];
        let seen = self.slots[slot].turn;
        match &self.slots[slot].home {
            Some(home) if seen == 0 => {
                let (shows, value) = (home.clone(), home.clone());
                own.looks.push(Look::Took(slot, shows.clone()));
                own.hand.push(Held { slot, is_out: false, shows, value });
                self.slots[slot].turn = 1;
            }
            _ => {
                own.looks.push(Look::Held { slot, seen });
                if let Some(running) = &mut own.running {
                    running.todo.clear();
                }
                self.settle(seat, Verdict::Refused(Refusal::Busy { slot, seen }), Vec::new());
            }
        }
    }

    fn held(&mut self, seat: usize, slot: usize) -> &mut Held<'a> {
        self.seats[seat].hand.iter_mut().find(|held| held.slot == slot).expect("the seat holds the slot")
    }

    fn take_value(&mut self, seat: usize, slot: usize) {
        self.slots[slot].home = None;
        self.held(seat, slot).is_out = true;
    }

    fn put_value(&mut self, seat: usize, slot: usize) {
        let held = self.held(seat, slot);
        held.is_out = false;
        let value = held.value.clone();
        self.slots[slot].home = Some(value);
    }

    /// The first turn that a settled call gives back decides it.
    fn give_turn(&mut self, seat: usize, slot: usize) {
        if self.seats[seat].running.as_ref().is_some_and(|running| running.verdict.is_some()) {
            self.decide(seat);
        }
        self.seats[seat].hand.retain(|held| held.slot != slot);
        self.slots[slot].turn = 0;
    }

    fn count_one(&mut self, seat: usize) {
        let own = &mut self.seats[seat];
        own.looks.push(Look::Counted(self.count));
        if let Some(running) = &mut own.running {
            running.counted = Some(self.count);
        }
        if self.count < self.rules.steps {
            own.view.counting = true;
        } else {
            own.view.found = Some(Stop::ByRule(RuleStop::StepsSpent));
        }
        self.count += 1;
    }

    /// A seat that entered for a worker gives one place to a new seat of it.
    fn split(&mut self, seat: usize) {
        let view = &mut self.seats[seat].view;
        view.places -= 1;
        let worker = view.enters.take().unwrap_or_default();
        self.seats.push(Seat { view: View { worker, places: 1, ..View::default() }, ..Seat::default() });
    }

    /// A seat that has left gives its places away, and is none any more.
    fn join(&mut self, seat: usize) {
        let Some(Running { call: Call::Leave { into }, .. }) = self.seats[seat].running else { return };
        let gone = std::mem::replace(&mut self.seats[seat].view, View { left: true, ..View::default() });
        self.seats[into].view.places += gone.places;
        self.seats[into].view.yielded |= gone.yielded;
    }

    /// From now on the slots in hand show what is to be put back, and the seat notes what it did or was refused.
    fn decide(&mut self, seat: usize) {
        let own = &mut self.seats[seat];
        let Some(running) = own.running.as_mut() else { return };
        if std::mem::replace(&mut running.is_decided, true) {
            return;
        }
        for held in &mut own.hand {
            held.shows = held.value.clone();
        }
        let view = &mut own.view;
        match running.verdict {
            Some(Verdict::Did { event, told, deque, period, yields, leaves }) => {
                self.steps.push(Step { seat, worker: view.worker, period, event, told });
                view.deque = deque;
                view.counting = false;
                view.yielded |= yields;
                view.left |= leaves;
                view.mine.push(told);
            }
            Some(Verdict::Entered(worker)) => view.enters = Some(worker),
            Some(Verdict::Left) => view.left = true,
            Some(Verdict::Halted(end)) => {
                view.answered = Some(end);
                view.mine.push(Told::Halted(end));
            }
            Some(Verdict::Refused(Refusal::Stopped(stop))) => view.found = Some(stop),
            Some(Verdict::Refused(Refusal::Over(end))) => view.answered = Some(end),
            Some(Verdict::Refused(_) | Verdict::Closed) | None => {}
        }
    }

    fn answer(&mut self, seat: usize) -> Answer {
        let running = self.seats[seat].running.take().expect("a seat that answers has begun a call");
        if let Call::Leave { into } = running.call {
            self.seats[into].is_lent = false;
        }
        let verdict = running.verdict;
        let call = running.call;
        self.seats[seat].finished = Some(running);
        match verdict {
            Some(Verdict::Did { .. }) if call == Call::Close => Answer::Closed,
            Some(Verdict::Did { leaves: true, .. } | Verdict::Left) => Answer::Left,
            Some(Verdict::Did { told, .. }) => Answer::Done(told),
            Some(Verdict::Halted(end)) => Answer::Done(Told::Halted(end)),
            Some(Verdict::Entered(_)) => Answer::Entered(self.seats.len() - 1),
            Some(Verdict::Closed) | None => Answer::Closed,
            Some(Verdict::Refused(refusal)) => Answer::Refused(refusal),
        }
    }

    /// What a slot shows: its value if its turn is free, and otherwise what the one who holds it says.
    pub fn shown(&self, slot: usize) -> &Rc<Value<'a>> {
        let held = self.seats.iter().flat_map(|seat| &seat.hand).find(|held| held.slot == slot);
        held.map(|held| &held.shows).or(self.slots[slot].home.as_ref()).expect("a free slot has its value")
    }
}
