//! The event of a seat that owns a deque: which slots it takes, and what it puts back.

use crate::good_trail::fork_of;
use crate::hall::{
    lane_slot, ActionName, Child, End, Ended, HallThread, LaneShown, ListShown, PoolShown, Running, Stop, Told, Value, View,
    LIST, POOL,
};
use crate::hall_calls::{gave_up, refused, unowned, Hand, Move, Refusal, Verdict};
use crate::machine::{Rules, Stop as RuleStop};
use crate::thread::{Branch, Item, Next};
use crate::trail::Kind;
use crate::world::{World, RECORD_WORDS};

/// What the top thread of a lane is about to do, as far as the values in hand say.
enum Need {
    /// A slot that is not in hand.
    Slot(usize),
    Suspend,
    GiveUp,
    Action,
}

pub fn act<'a>(rules: &Rules, view: &View, hand: &Hand<'_, 'a>, running: &Running<'a>) -> Move<'a> {
    let deque = view.deque.expect("a seat acts in the deque that it owns");
    let Some(lane) = hand.lane(deque) else { return Move::Take(lane_slot(deque)) };
    if let Some(end) = hand.list().and_then(|list| list.kept) {
        return refused(Refusal::Over(end));
    }
    let mut lane = lane.clone();
    let next = lane.threads[0].next(rules.quota);
    match need(rules, &lane, next, hand) {
        Need::Slot(slot) => Move::Take(slot),
        _ if running.has_no_memory => refused(Refusal::Stopped(Stop::NoMemory)),
        Need::Suspend => suspend(hand, lane, deque),
        Need::GiveUp => give_up(hand, &lane, deque),
        Need::Action => act_within(rules, hand, running, Scene::new(hand, lane, deque), next),
    }
}

fn need<'a>(rules: &Rules, lane: &LaneShown<'a>, next: Next<'a>, hand: &Hand<'_, 'a>) -> Need {
    let without = |slot: usize| if hand.holds(slot) { None } else { Some(Need::Slot(slot)) };
    let used = lane.period.as_ref().map_or(0, |period| period.used);
    match next {
        Next::Join(_) => return need_of_join(lane, hand),
        Next::Fork(_) | Next::Alloc { .. } if used + charge(rules, next) > rules.quota => {
            return without(LIST).unwrap_or(Need::GiveUp);
        }
        Next::Dummy => without(LIST),
        Next::End if lane.threads.len() == 1 => {
            let is_root = lane.threads[0].label.is_empty();
            without(LIST).or_else(|| if is_root { None } else { without(POOL) })
        }
        _ => without(POOL),
    }
    .unwrap_or(Need::Action)
}

/// A result that was handed over is in the lane; the list is asked for any other.
fn need_of_join<'a>(lane: &LaneShown<'a>, hand: &Hand<'_, 'a>) -> Need {
    let Some(child) = lane.threads[0].children.last() else { return Need::Suspend };
    let result = match (&child.result, hand.list()) {
        (Some(result), _) => result,
        (None, None) => return Need::Slot(LIST),
        (None, Some(list)) => match list.results.iter().find(|result| result.id == child.id) {
            Some(result) => result,
            None => return Need::Suspend,
        },
    };
    let releases = lane.threads[0].body.clone().do_join(result.body.clone()) > 0;
    if releases && !hand.holds(POOL) {
        Need::Slot(POOL)
    } else {
        Need::Action
    }
}

/// What an action takes of the quota.
fn charge(rules: &Rules, next: Next) -> u64 {
    let asked = World::asked(next);
    if matches!(next, Next::Alloc { .. }) && asked > rules.quota {
        0
    } else {
        asked
    }
}

fn suspend<'a>(hand: &Hand<'_, 'a>, mut lane: LaneShown<'a>, deque: usize) -> Move<'a> {
    let Some(mut list) = hand.list().cloned() else { return Move::Take(LIST) };
    let thread = lane.threads.remove(0);
    let period = lane.period.as_ref().map_or(0, |period| period.number);
    let told = Told::Suspended(thread.id);
    list.waiting.push(thread);
    list.places.retain(|place| place.deque != deque);
    list.closed.extend(lane.period.take());
    let verdict = Verdict::Did { event: Kind::Suspend, told, deque: None, period, yields: false, leaves: false };
    Move::Settle(verdict, vec![(LIST, Value::List(list)), (lane_slot(deque), Value::Lane(lane))])
}

/// The quota asks for it, so the seat has not yielded by it.
fn give_up<'a>(hand: &Hand<'_, 'a>, lane: &LaneShown<'a>, deque: usize) -> Move<'a> {
    let Some(list) = hand.list() else { return Move::Take(LIST) };
    let (list, after) = unowned(list, lane, deque);
    Move::Settle(gave_up(deque, lane, false), vec![(LIST, Value::List(list)), (lane_slot(deque), Value::Lane(after))])
}

/// An action is refused by a full arena before its count is drawn, and by its count.
fn act_within<'a>(rules: &Rules, hand: &Hand<'_, 'a>, running: &Running<'a>, mut scene: Scene<'a>, next: Next<'a>) -> Move<'a> {
    let asked = World::asked(next);
    let live = scene.pool.as_ref().map_or(0, |pool| pool.live);
    if asked > 0 && live + asked > rules.arena {
        return refused(Refusal::Stopped(Stop::ByRule(RuleStop::ArenaFull { live, asked })));
    }
    match running.counted {
        None => return Move::Count,
        Some(counted) if counted >= rules.steps => return refused(Refusal::Stopped(Stop::ByRule(RuleStop::StepsSpent))),
        Some(_) => {}
    }
    let (name, period) = scene.do_next(rules, next);
    let verdict =
        Verdict::Did { event: Kind::Act, told: Told::Did(name), deque: scene.owned, period, yields: false, leaves: false };
    let pool = scene.pool.filter(|_| hand.holds(POOL)).map(|pool| (POOL, Value::Pool(pool)));
    let list = scene.list.filter(|_| hand.holds(LIST)).map(|list| (LIST, Value::List(list)));
    let lane = (lane_slot(scene.deque), Value::Lane(scene.lane));
    Move::Settle(verdict, pool.into_iter().chain(list).chain([lane]).collect())
}

/// Copies of what an action changes.
struct Scene<'a> {
    lane: LaneShown<'a>,
    list: Option<ListShown<'a>>,
    pool: Option<PoolShown>,
    deque: usize,
    /// The deque of the seat after the action.
    owned: Option<usize>,
}

impl<'a> HallThread<'a> {
    /// Runs plain statements up to the next action.
    pub fn next(&mut self, quota: u64) -> Next<'a> {
        self.body.next(quota, &mut self.items)
    }

    /// One of its open children has ended with this.
    fn be_handed(&mut self, result: Ended<'a>) {
        if let Some(child) = self.children.iter_mut().find(|child| child.id == result.id) {
            child.result = Some(result);
        }
    }

    /// Takes the newest child's result in, and what this printed. Answers the words that are given back.
    fn join(&mut self) -> u64 {
        let Some(Child { ordinal, result: Some(result), .. }) = self.children.pop() else { return 0 };
        let place = self.items.iter().position(|item| matches!(item, Item::Child(child) if *child == ordinal as usize));
        if let Some(place) = place {
            self.items.splice(place..=place, result.items);
        }
        self.body.do_join(result.body)
    }
}

impl<'a> Scene<'a> {
    fn new(hand: &Hand<'_, 'a>, lane: LaneShown<'a>, deque: usize) -> Self {
        Scene { lane, list: hand.list().cloned(), pool: hand.pool().cloned(), deque, owned: Some(deque) }
    }

    /// Answers the name of the action and the number of its period.
    fn do_next(&mut self, rules: &Rules, next: Next<'a>) -> (ActionName, u64) {
        let top = &mut self.lane.threads[0];
        let name = (top.id, top.done);
        top.done += 1;
        let number = self.lane.period.as_mut().map_or(0, |period| {
            period.ran.push(name);
            period.used += charge(rules, next);
            period.number
        });
        if let (Some(change), Some(pool)) = (self.do_action(next), &mut self.pool) {
            pool.live = pool.live.wrapping_add_signed(change);
            pool.moves.push((name, change));
        }
        (name, number)
    }

    /// Answers by how much the words in use change, if the action is a move.
    fn do_action(&mut self, next: Next<'a>) -> Option<i64> {
        let top = &mut self.lane.threads[0];
        match next {
            Next::Fork(branch) => {
                self.fork(branch);
                Some(RECORD_WORDS as i64)
            }
            Next::Alloc { slot, numbers, site } => {
                top.body.do_alloc(slot, numbers, site);
                Some(World::asked(next) as i64)
            }
            Next::Release(slot) => Some(-(top.body.do_release(slot) as i64)),
            Next::Fault(fault, line) => {
                top.items.push(Item::Faulted(fault, line));
                Some(-(top.body.do_fault() as i64))
            }
            Next::Dummy => {
                top.body.do_dummy();
                self.be_unowned();
                None
            }
            Next::Join(_) => self.join(),
            Next::End => self.end(),
        }
    }

    /// The child is on top, and its id is its birth in the period.
    fn fork(&mut self, branch: Branch<'a>) {
        let top = &mut self.lane.threads[0];
        let Some(period) = &mut self.lane.period else { return };
        top.forks += 1;
        let (id, ordinal) = ((period.number, period.born.len()), top.forks);
        period.born.push((top.id, ordinal));
        top.items.push(Item::Child(ordinal as usize));
        top.children.push(Child { id, ordinal, result: None });
        let body = top.body.do_fork(branch, ordinal as usize);
        let label = fork_of(&top.label, ordinal);
        let child = HallThread { id, label, done: 0, forks: 0, children: Vec::new(), body, items: Vec::new() };
        self.lane.threads.insert(0, child);
    }

    /// A result that was not handed over is taken from the list.
    fn join(&mut self) -> Option<i64> {
        let top = &mut self.lane.threads[0];
        let newest = top.children.last().map(|child| child.id);
        if let Some(list) = &mut self.list {
            if let Some(at) = list.results.iter().position(|result| Some(result.id) == newest) {
                top.be_handed(list.results.remove(at));
            }
        }
        let released = top.join() as i64;
        (released > 0).then_some(-released)
    }

    fn be_unowned(&mut self) {
        if let Some(list) = &self.list {
            let (list, lane) = unowned(list, &self.lane, self.deque);
            self.list = Some(list);
            self.lane = lane;
        }
        self.owned = None;
    }

    /// The top thread ends. Its parent is below it, or waits for it, or finds the result in the list some time.
    fn end(&mut self) -> Option<i64> {
        let ended = self.lane.threads.remove(0);
        let is_root = ended.label.is_empty();
        let result = Ended { id: ended.id, body: ended.body, items: ended.items };
        match self.lane.threads.first_mut() {
            Some(parent) => parent.be_handed(result),
            None => self.end_alone(result, is_root),
        }
        (!is_root).then_some(-(RECORD_WORDS as i64))
    }

    fn end_alone(&mut self, result: Ended<'a>, is_root: bool) {
        let Some(list) = &mut self.list else { return };
        let waits = |thread: &HallThread| thread.children.last().is_some_and(|child| child.id == result.id);
        if let Some(at) = list.waiting.iter().position(waits) {
            let mut parent = list.waiting.remove(at);
            parent.be_handed(result);
            self.lane.threads.push(parent);
            return;
        }
        list.results.push(result);
        list.places.retain(|place| place.deque != self.deque);
        list.closed.extend(self.lane.period.take());
        self.owned = None;
        if is_root {
            list.kept = Some(End::Finished);
        }
    }
}
