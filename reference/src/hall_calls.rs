//! What a call of a seat does next, as a function of what the seat notes and of the values of the slots in its hand.

use crate::hall::{
    lane_slot, End, Held, LaneShown, ListShown, Period, Place, PoolShown, Running, Stop, Told, Value, View, LIST, POOL,
};
use crate::hall_acts::act;
use crate::machine::{around, Rules, Stop as RuleStop};
use crate::trail::Kind;

#[derive(Clone, Copy, Debug, PartialEq, Eq)]
pub enum Call {
    Enter,
    Steal(u64),
    Act,
    GiveUp,
    Halt,
    Leave { into: usize },
    Close,
}

/// The next thing of a call: it takes a slot, puts a lane back that it only tried, draws a count, or puts all back, these values first.
pub enum Move<'a> {
    Take(usize),
    PutTried(usize),
    Count,
    Settle(Verdict, Vec<(usize, Value<'a>)>),
}

#[derive(Clone, Copy)]
pub enum Verdict {
    /// An event of the machine: what is told of it, the seat's deque after it, and whether the seat yields or leaves with it.
    Did {
        event: Kind,
        told: Told,
        deque: Option<usize>,
        period: u64,
        yields: bool,
        leaves: bool,
    },
    Entered(usize),
    Halted(End),
    Left,
    Closed,
    Refused(Refusal),
}

#[derive(Clone, Copy, Debug, PartialEq, Eq)]
pub enum Refusal {
    Busy { slot: usize, seen: u8 },
    Nothing,
    Over(End),
    Stopped(Stop),
    Crowded,
    NoMemory,
    StillIn { places: usize },
    NotOver,
}

/// The values of the slots in a seat's hand.
pub struct Hand<'h, 'a>(pub &'h [Held<'a>]);

impl<'h, 'a> Hand<'h, 'a> {
    fn value(&self, slot: usize) -> Option<&'h Value<'a>> {
        self.0.iter().find(|held| held.slot == slot).map(|held| &*held.value)
    }

    pub fn list(&self) -> Option<&'h ListShown<'a>> {
        self.value(LIST).map(Value::list)
    }

    pub fn pool(&self) -> Option<&'h PoolShown> {
        self.value(POOL).map(Value::pool)
    }

    pub fn lane(&self, deque: usize) -> Option<&'h LaneShown<'a>> {
        self.value(lane_slot(deque)).map(Value::lane)
    }

    pub fn holds(&self, slot: usize) -> bool {
        self.value(slot).is_some()
    }
}

pub fn refused<'a>(refusal: Refusal) -> Move<'a> {
    Move::Settle(Verdict::Refused(refusal), Vec::new())
}

/// The end that is kept if a stop is to be kept: the one that was kept before, and otherwise the stop.
pub fn end_with(kept: Option<End>, stop: Stop) -> End {
    kept.unwrap_or(End::Stopped(stop))
}

pub fn next_of<'a>(rules: &Rules, view: &View, hand: &[Held<'a>], running: &Running<'a>) -> Move<'a> {
    let hand = Hand(hand);
    match running.call {
        Call::Enter => enter(rules, view, &hand, running),
        Call::Halt => halt(view, &hand),
        Call::Leave { .. } => leave(view, &hand, running),
        Call::Close => close(rules, view, &hand, running),
        Call::Steal(_) | Call::Act | Call::GiveUp => match (view.found, running.counted) {
            (Some(stop), None) => refused(Refusal::Stopped(stop)),
            _ => event(rules, view, &hand, running),
        },
    }
}

fn event<'a>(rules: &Rules, view: &View, hand: &Hand<'_, 'a>, running: &Running<'a>) -> Move<'a> {
    match running.call {
        Call::Steal(word) => steal(rules, view, hand, running, word),
        Call::GiveUp => give_up(view, hand, running),
        _ => act(rules, view, hand, running),
    }
}

fn enter<'a>(rules: &Rules, view: &View, hand: &Hand<'_, 'a>, running: &Running<'a>) -> Move<'a> {
    if view.places == 1 {
        return refused(Refusal::Crowded);
    }
    let Some(list) = hand.list() else { return Move::Take(LIST) };
    if let Some(end) = list.kept {
        return refused(Refusal::Over(end));
    }
    if running.has_no_memory {
        return refused(Refusal::NoMemory);
    }
    let worker =
        (0..rules.workers).find(|worker| !list.crew.contains(worker)).expect("a worker is missing while a seat has two places");
    let mut list = list.clone();
    list.crew.push(worker);
    Move::Settle(Verdict::Entered(worker), vec![(LIST, Value::List(list))])
}

fn halt<'a>(view: &View, hand: &Hand<'_, 'a>) -> Move<'a> {
    let Some(list) = hand.list() else { return Move::Take(LIST) };
    let end = end_with(list.kept, view.found.expect("a seat halts that has found a stop"));
    Move::Settle(Verdict::Halted(end), vec![(LIST, Value::List(ListShown { kept: Some(end), ..list.clone() }))])
}

/// The list with a stop that is kept unless an end is.
fn keeping<'a>(list: &ListShown<'a>, stop: Stop) -> Vec<(usize, Value<'a>)> {
    vec![(LIST, Value::List(ListShown { kept: Some(end_with(list.kept, stop)), ..list.clone() }))]
}

/// The list and the lane after a deque was given up.
pub fn unowned<'a>(list: &ListShown<'a>, lane: &LaneShown<'a>, deque: usize) -> (ListShown<'a>, LaneShown<'a>) {
    let (mut list, mut lane) = (list.clone(), lane.clone());
    for place in list.places.iter_mut().filter(|place| place.deque == deque) {
        place.owner = None;
    }
    list.closed.extend(lane.period.take());
    (list, lane)
}

fn number_of(lane: &LaneShown) -> u64 {
    lane.period.as_ref().map_or(0, |period| period.number)
}

/// A give up as an event.
pub fn gave_up(deque: usize, lane: &LaneShown, yields: bool) -> Verdict {
    Verdict::Did { event: Kind::GiveUp, told: Told::GaveUp(deque), deque: None, period: number_of(lane), yields, leaves: false }
}

fn give_up<'a>(view: &View, hand: &Hand<'_, 'a>, running: &Running<'a>) -> Move<'a> {
    let deque = view.deque.expect("a seat gives up what it owns");
    let Some(lane) = hand.lane(deque) else { return Move::Take(lane_slot(deque)) };
    let Some(list) = hand.list() else { return Move::Take(LIST) };
    if let Some(end) = list.kept {
        return refused(Refusal::Over(end));
    }
    if running.has_no_memory {
        return Move::Settle(Verdict::Refused(Refusal::Stopped(Stop::NoMemory)), keeping(list, Stop::NoMemory));
    }
    let (list, after) = unowned(list, lane, deque);
    Move::Settle(gave_up(deque, lane, true), vec![(LIST, Value::List(list)), (lane_slot(deque), Value::Lane(after))])
}

fn leave<'a>(view: &View, hand: &Hand<'_, 'a>, running: &Running<'a>) -> Move<'a> {
    if let Some(deque) = view.deque.filter(|deque| !hand.holds(lane_slot(*deque))) {
        return Move::Take(lane_slot(deque));
    }
    let Some(list) = hand.list() else { return Move::Take(LIST) };
    let mut left = list.clone();
    left.crew.retain(|worker| *worker != view.worker);
    left.kept = view.found.map_or(list.kept, |stop| Some(end_with(list.kept, stop)));
    let Some((deque, lane)) = view.deque.and_then(|deque| Some((deque, hand.lane(deque)?))) else {
        return Move::Settle(Verdict::Left, vec![(LIST, Value::List(left))]);
    };
    if running.has_no_memory {
        let stop = view.found.unwrap_or(Stop::NoMemory);
        return Move::Settle(Verdict::Refused(Refusal::NoMemory), keeping(list, stop));
    }
    let (left, after) = unowned(&left, lane, deque);
    let verdict = match gave_up(deque, lane, true) {
        Verdict::Did { event, told, deque, period, yields, .. } => {
            Verdict::Did { event, told, deque, period, yields, leaves: true }
        }
        other => other,
    };
    Move::Settle(verdict, vec![(LIST, Value::List(left)), (lane_slot(deque), Value::Lane(after))])
}

fn close<'a>(rules: &Rules, view: &View, hand: &Hand<'_, 'a>, running: &Running<'a>) -> Move<'a> {
    if view.places < rules.workers {
        return refused(Refusal::StillIn { places: view.places });
    }
    if let Some(deque) = view.deque.filter(|deque| !hand.holds(lane_slot(*deque))) {
        return Move::Take(lane_slot(deque));
    }
    let Some(list) = hand.list() else { return Move::Take(LIST) };
    if list.kept.is_none() {
        return refused(Refusal::NotOver);
    }
    let Some((deque, lane)) = view.deque.and_then(|deque| Some((deque, hand.lane(deque)?))) else {
        return Move::Settle(Verdict::Closed, Vec::new());
    };
    if running.has_no_memory {
        return refused(Refusal::NoMemory);
    }
    let (list, after) = unowned(list, lane, deque);
    Move::Settle(gave_up(deque, lane, true), vec![(LIST, Value::List(list)), (lane_slot(deque), Value::Lane(after))])
}

fn is_ready(place: Place, lane: Option<&LaneShown>) -> bool {
    place.owner.is_none() || lane.is_some_and(|lane| lane.threads.len() >= 2)
}

/// The list is held from the beginning on, and each lane that is tried is held until the next is.
fn steal<'a>(rules: &Rules, view: &View, hand: &Hand<'_, 'a>, running: &Running<'a>, word: u64) -> Move<'a> {
    let Some(list) = hand.list() else { return Move::Take(LIST) };
    if let Some(end) = list.kept {
        return refused(Refusal::Over(end));
    }
    for place in around(word, rules.workers.min(list.places.len())) {
        let slot = lane_slot(list.places[place].deque);
        if running.tried.contains(&slot) {
            continue;
        }
        let Some(lane) = hand.lane(list.places[place].deque) else { return Move::Take(slot) };
        if is_ready(list.places[place], Some(lane)) {
            return steal_from(rules, view, hand, running, place);
        }
        return Move::PutTried(slot);
    }
    refused(Refusal::Nothing)
}

fn steal_from<'a>(rules: &Rules, view: &View, hand: &Hand<'_, 'a>, running: &Running<'a>, place: usize) -> Move<'a> {
    let (Some(list), from) = (hand.list(), hand.list().map_or(0, |list| list.places[place].deque)) else {
        return Move::Take(LIST);
    };
    let Some(victim) = hand.lane(from) else { return Move::Take(lane_slot(from)) };
    let stays = list.places[place].owner.is_some() || victim.threads.len() >= 2;
    let stopped = |stop| Move::Settle(Verdict::Refused(Refusal::Stopped(stop)), keeping(list, stop));
    if running.has_no_memory {
        return stopped(Stop::NoMemory);
    }
    if !stays {
        return take_over(view, list, victim, place);
    }
    if list.places.len() >= rules.deques {
        return stopped(Stop::ByRule(RuleStop::DequesFull));
    }
    let free = (0..rules.deques).find(|deque| list.places.iter().all(|it| it.deque != *deque));
    let new = free.expect("there is a free lane while there are fewer deques than lanes");
    if !hand.holds(lane_slot(new)) {
        return Move::Take(lane_slot(new));
    }
    steal_beside(view, list, victim, place, new)
}

fn begins(list: &ListShown, marked: bool) -> Option<Period> {
    Some(Period { number: list.begun + 1, marked, used: 0, ran: Vec::new(), born: Vec::new() })
}

fn stole(place: usize, deque: usize, period: u64) -> Verdict {
    let told = Told::Stole { deque, period };
    Verdict::Did { event: Kind::Steal(place), told, deque: Some(deque), period, yields: false, leaves: false }
}

/// A deque without an owner that has one thread becomes the thief's.
fn take_over<'a>(view: &View, list: &ListShown<'a>, victim: &LaneShown<'a>, place: usize) -> Move<'a> {
    let deque = list.places[place].deque;
    let lane = LaneShown { threads: victim.threads.clone(), period: begins(list, place > 0) };
    let mut after = list.clone();
    after.begun += 1;
    after.places[place].owner = Some(view.worker);
    let values = vec![(LIST, Value::List(after)), (lane_slot(deque), Value::Lane(lane))];
    Move::Settle(stole(place, deque, list.begun + 1), values)
}

/// The bottom thread goes into a new deque directly to the right.
fn steal_beside<'a>(view: &View, list: &ListShown<'a>, victim: &LaneShown<'a>, place: usize, new: usize) -> Move<'a> {
    let (mut after, mut left) = (list.clone(), victim.clone());
    let lane = LaneShown { threads: left.threads.pop().into_iter().collect(), period: begins(list, true) };
    after.begun += 1;
    after.places.insert(place + 1, Place { deque: new, owner: Some(view.worker) });
    let victim_slot = lane_slot(list.places[place].deque);
    let values = vec![(LIST, Value::List(after)), (victim_slot, Value::Lane(left)), (lane_slot(new), Value::Lane(lane))];
    Move::Settle(stole(place, new, list.begun + 1), values)
}
