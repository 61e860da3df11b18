//! The law of the hall: what its slots show is a moment of the machine, and each step on the table is one event of it or leaves the moment
//! as it was. The machine is the one over labels and books that trails are checked with. Each clause is computed after each single step.

use crate::good_trail::{fork_of, Deed, Label, Moment, Setting};
use crate::hall::{
    lane_slot, ActionName, End, Hall, HallThread, LaneShown, ListShown, Period, Single, Step, Stop, ThreadId, Told, LIST, POOL,
};
use crate::hall_calls::Call;
use crate::hall_order::lawful;
use crate::machine::Stop as RuleStop;
use crate::thread::Next;
use crate::trail::{Kind, TrailEvent};
use crate::world::World;
use std::collections::BTreeSet;

pub type Checked = Result<(), String>;

/// An error that names the clause, unless it holds.
pub fn must(holds: bool, clause: &str) -> Checked {
    if holds {
        Ok(())
    } else {
        Err(clause.to_string())
    }
}

pub struct Law<'s> {
    pub setting: &'s Setting,
    /// The moment to which the events so far lead.
    pub moment: Moment,
    pub peak: i64,
    /// How many steps of the hall led here.
    followed: usize,
    /// The moves of the run, by places in the depth-first list.
    moves: Vec<(usize, i64)>,
    /// The stops that the rules met at some moment of the run.
    met: Vec<RuleStop>,
    /// Whether some give up of the run was free.
    pub has_free: bool,
    pub kept: Option<End>,
    /// The place of the last action.
    last: Option<usize>,
}

/// Which thread an id names, by the births of the periods.
struct Names<'h> {
    periods: Vec<&'h Period>,
}

impl Names<'_> {
    fn label(&self, id: ThreadId) -> Option<Label> {
        if id == (0, 0) {
            return Some(Label::new());
        }
        let (parent, ordinal) = *self.periods.get(id.0.checked_sub(1)? as usize)?.born.get(id.1)?;
        Some(fork_of(&self.label(parent)?, ordinal))
    }

    fn place(&self, setting: &Setting, name: ActionName) -> Option<usize> {
        setting.places_of(&self.label(name.0)?).get(name.1).copied()
    }
}

impl<'s> Law<'s> {
    pub fn new(setting: &'s Setting) -> Self {
        let (moment, peak) = (setting.opening(), setting.peak());
        let mut law = Law {
            setting,
            moment,
            peak,
            followed: 0,
            moves: Vec::new(),
            met: Vec::new(),
            has_free: false,
            kept: None,
            last: None,
        };
        law.note_stops();
        law
    }

    /// Checks every clause about the slots after a single step.
    pub fn after(&mut self, hall: &Hall, single: Single) -> Checked {
        let news = hall.steps.len() - self.followed;
        must(news <= usize::from(matches!(single, Single::GiveTurn(_))), "an event is decided where a turn is given back")?;
        if news == 1 {
            self.follow(hall, &hall.steps[self.followed])?;
            self.followed += 1;
            self.note_stops();
            lawful(self.setting, &self.moment, self.peak)?;
        }
        turns(hall)?;
        self.shows_the_moment(hall)?;
        self.shows_the_moves(hall)?;
        if news == 1 {
            self.threads_are_at_their_points(hall)?;
            self.results_are_kept(hall)?;
        }
        self.keeps_its_end(hall)
    }

    /// The step is an event of the machine, which it tells.
    fn follow(&mut self, hall: &Hall, step: &Step) -> Checked {
        let (worker, before) = (step.worker, self.next_place(step.worker));
        if step.event == Kind::GiveUp {
            let is_forced = self.is_forced(worker);
            self.has_free |= !is_forced;
            let is_act = hall.seats[step.seat].running.as_ref().is_some_and(|it| it.call == Call::Act);
            must(is_forced || !is_act, "an act gives up only if the quota asks for it")?;
        }
        let event = TrailEvent { worker, kind: step.event };
        must(self.setting.lead(&mut self.moment, event), "the event is one of the machine, within its limits")?;
        if let (Kind::Act, Some(place)) = (step.event, before) {
            self.last = Some(place);
            let action = &self.setting.list[place];
            let is_move = match action.deed {
                Deed::Fork(_) | Deed::Alloc | Deed::Release | Deed::Fault(_) => true,
                Deed::Join(_) => action.words > 0,
                Deed::End => !action.label.is_empty(),
                Deed::Dummy => false,
            };
            self.moves.extend(is_move.then_some((place, action.weight())));
        }
        self.tells(hall, step, before)
    }

    /// What the seat was told is the event.
    fn tells(&self, hall: &Hall, step: &Step, before: Option<usize>) -> Checked {
        let names = names_of(hall);
        let told_before = hall.steps[..self.followed].iter().rev().filter(|it| it.seat == step.seat);
        let last =
            told_before.filter_map(|it| if let Told::Stole { period, .. } = it.told { Some(period) } else { None }).next();
        let is_told = match (step.event, step.told) {
            (Kind::Steal(_), Told::Stole { deque, period }) => {
                let owned = self.moment.deques.iter().find(|it| it.owner == Some(step.worker));
                period == self.moment.books.len() as u64
                    && step.period == period
                    && owned.is_some_and(|it| it.id == deque as u64)
            }
            (Kind::Act, Told::Did(name)) => {
                before.is_some() && names.place(self.setting, name) == before && last == Some(step.period)
            }
            (Kind::Suspend, Told::Suspended(_)) | (Kind::GiveUp, Told::GaveUp(_)) => last == Some(step.period),
            _ => false,
        };
        must(is_told, "the seat is told of the event, which is in the period of its last theft")
    }

    /// The place of the next action of a worker's top thread.
    fn next_place(&self, worker: usize) -> Option<usize> {
        let (at, _) = self.moment.owns(worker)?;
        self.setting.next(&self.moment, &self.moment.deques[at].threads[0])
    }

    fn is_forced(&self, worker: usize) -> bool {
        let (Some((_, book)), Some(place)) = (self.moment.owns(worker), self.next_place(worker)) else { return false };
        let quota = self.setting.rules.quota;
        self.setting.charged(&self.moment.books[book]) + self.setting.list[place].charge(quota) > quota
    }

    /// The stops that what the rules want of some worker meets at this moment.
    fn note_stops(&mut self) {
        for worker in 0..self.setting.rules.workers {
            let met = if self.moment.owns(worker).is_some() { self.stop_of_owner(worker) } else { self.stop_of_thief() };
            self.met.extend(met.filter(|stop| !self.met.contains(stop)));
        }
    }

    fn stop_of_owner(&self, worker: usize) -> Option<RuleStop> {
        let action = &self.setting.list[self.next_place(worker)?];
        let takes = matches!(action.deed, Deed::Fork(_) | Deed::Alloc) && action.words > 0;
        let live = self.moment.live;
        let is_full = takes && !self.is_forced(worker) && live + action.words as i64 > self.setting.rules.arena as i64;
        is_full.then_some(RuleStop::ArenaFull { live: live as u64, asked: action.words })
    }

    fn stop_of_thief(&self) -> Option<RuleStop> {
        let reach = self.setting.rules.workers.min(self.moment.deques.len());
        let stays = |it: &crate::good_trail::Deque| it.threads.len() >= 2;
        let is_full = self.moment.deques.len() >= self.setting.rules.deques;
        (is_full && self.moment.deques[..reach].iter().any(stays)).then_some(RuleStop::DequesFull)
    }

    /// What the last action of the run did.
    pub fn last_deed(&self) -> String {
        self.last.map_or("did nothing".to_string(), |place| format!("did {:?}", self.setting.list[place].deed))
    }

    /// A stop has its cause at a moment of the run.
    pub fn has_cause(&self, stop: Stop) -> bool {
        match stop {
            Stop::NoMemory => true,
            Stop::ByRule(RuleStop::StepsSpent) => self.setting.list.len() as u64 > self.setting.rules.steps,
            Stop::ByRule(stop) => self.met.contains(&stop),
        }
    }

    /// The deques, the waiting threads and the books that the slots show are those of the moment.
    fn shows_the_moment(&self, hall: &Hall) -> Checked {
        let (shown, names) = (hall.shown(LIST).list(), names_of(hall));
        must(shown.places.len() == self.moment.deques.len(), "as many deques are shown as the moment has")?;
        for (place, deque) in shown.places.iter().zip(&self.moment.deques) {
            let lane = hall.shown(lane_slot(place.deque)).lane();
            let is_same = place.deque as u64 == deque.id && place.owner == deque.owner;
            must(is_same, "each deque has the id and the owner of the moment")?;
            must(lane.threads.iter().map(|it| &it.label).eq(&deque.threads), "each lane has the threads of the moment")?;
            must(lane.period.is_some() == place.owner.is_some(), "a period runs in the lanes of owners alone")?;
            must(
                lane.threads.iter().all(|it| names.label(it.id).as_ref() == Some(&it.label)),
                "ids name the threads of lanes",
            )?;
        }
        must(shown.waiting.iter().all(|it| names.label(it.id).as_ref() == Some(&it.label)), "ids name the threads that wait")?;
        must(waiting_in(shown) == waiting_at(&self.moment), "the threads that wait are those of the moment")?;
        self.shows_the_books(shown, &names)
    }

    fn shows_the_books(&self, shown: &ListShown, names: &Names) -> Checked {
        let are_all = names.periods.len() == self.moment.books.len() && shown.begun == names.periods.len() as u64;
        must(are_all, "the periods are those of the moment")?;
        for (at, (period, book)) in names.periods.iter().zip(&self.moment.books).enumerate() {
            must(period.number == at as u64 + 1 && period.marked == book.marked, "numbers and marks are those of the moment")?;
            must(shown.closed.contains(period) == book.owner.is_none(), "the periods of the list are the closed ones")?;
            must(period.used == self.setting.charged(book), "a period has used what its actions take")?;
            let ran = period.ran.iter().map(|name| names.place(self.setting, *name));
            must(ran.eq(book.ran.iter().map(|place| Some(*place))), "a period ran what its book has")?;
        }
        Ok(())
    }

    /// The moves in the pool are those of the run, and the words in use are their sum.
    fn shows_the_moves(&self, hall: &Hall) -> Checked {
        let (pool, names) = (hall.shown(POOL).pool(), names_of(hall));
        must(pool.live as i64 == self.moment.live, "the words in use are those of the moment")?;
        let moves = pool.moves.iter().map(|(name, change)| names.place(self.setting, *name).map(|place| (place, *change)));
        must(moves.eq(self.moves.iter().map(|it| Some(*it))), "the moves are those of the run")
    }

    /// Each thread of a lane, or that waits, goes on with the action that the depth-first list has for it.
    fn threads_are_at_their_points(&self, hall: &Hall) -> Checked {
        let list = hall.shown(LIST).list();
        let lanes = list.places.iter().flat_map(|it| &hall.shown(lane_slot(it.deque)).lane().threads);
        lanes.chain(&list.waiting).try_for_each(|thread| must(self.is_at_its_point(thread), "each thread is at its point"))
    }

    fn is_at_its_point(&self, thread: &HallThread) -> bool {
        let Some(place) = self.setting.next(&self.moment, &thread.label) else { return false };
        let (mut body, action) = (thread.body.clone(), &self.setting.list[place]);
        let next = body.next(self.setting.rules.quota, &mut Vec::new());
        let is_same = match (next, action.deed) {
            (Next::Fork(_), Deed::Fork(child)) => thread.forks + 1 == child,
            (Next::Join(newest), Deed::Join(child)) => newest == child as usize,
            (Next::Fault(fault, _), Deed::Fault(due)) => fault == due,
            (Next::Alloc { .. }, Deed::Alloc) => World::asked(next) == action.words,
            (Next::Release(_), Deed::Release) | (Next::Dummy, Deed::Dummy) | (Next::End, Deed::End) => true,
            _ => false,
        };
        is_same && self.setting.places_of(&thread.label).get(thread.done) == Some(&place)
    }

    /// The result of each child that has ended and was not joined is in the list, or was handed to its parent; and only these.
    fn results_are_kept(&self, hall: &Hall) -> Checked {
        let (list, names) = (hall.shown(LIST).list(), names_of(hall));
        let lanes = list.places.iter().flat_map(|it| &hall.shown(lane_slot(it.deque)).lane().threads);
        let handed = lanes.chain(&list.waiting).flat_map(|it| &it.children).filter_map(|it| it.result.as_ref());
        let mut kept: Vec<Option<Label>> = handed.chain(&list.results).map(|it| names.label(it.id)).collect();
        kept.sort();
        let mut due = BTreeSet::new();
        let done = self.setting.list.iter().zip(&self.moment.done).filter(|(_, is_done)| **is_done);
        for (action, _) in done.clone().filter(|(action, _)| action.deed == Deed::End) {
            due.insert(Some(action.label.clone()));
        }
        for (action, _) in done {
            if let Deed::Join(child) = action.deed {
                due.remove(&Some(fork_of(&action.label, child)));
            }
        }
        must(kept.into_iter().eq(due), "the results are those of the children that ended and were not joined, each once")
    }

    /// A kept end is never replaced, and has its cause.
    fn keeps_its_end(&mut self, hall: &Hall) -> Checked {
        let list = hall.shown(LIST).list();
        must(self.kept.is_none() || list.kept == self.kept, "a kept end stays")?;
        self.kept = list.kept;
        match list.kept {
            Some(End::Stopped(stop)) => must(self.has_cause(stop), "a kept stop has its cause"),
            Some(End::Finished) => {
                let has_ended = self.setting.has_ended(&self.moment, &Label::new());
                must(has_ended && list.places.is_empty(), "a run has finished if the root has ended and no deque is left")
            }
            None => must(!list.places.is_empty(), "an end is kept if no deque is left"),
        }
    }
}

/// A turn word is 1 exactly if one seat holds the turn, and no two hold one.
fn turns(hall: &Hall) -> Checked {
    let mut held = vec![0; hall.slots.len()];
    for it in hall.seats.iter().flat_map(|seat| &seat.hand) {
        held[it.slot] += 1;
        must(
            it.is_out == hall.slots[it.slot].home.is_none(),
            "a value is in its slot or in the hand of the one who holds the turn",
        )?;
    }
    must(held.iter().zip(&hall.slots).all(|(count, slot)| *count == slot.turn), "no two seats hold one turn")?;
    let are_home = hall.slots.iter().all(|slot| slot.turn == 1 || slot.home.is_some());
    must(are_home, "a slot whose turn is free has its value")?;
    let placed: Vec<usize> = hall.shown(LIST).list().places.iter().map(|it| lane_slot(it.deque)).collect();
    let is_empty = |lane: &LaneShown| lane.threads.is_empty() && lane.period.is_none();
    let others = (lane_slot(0)..hall.slots.len()).filter(|slot| !placed.contains(slot));
    must(others.into_iter().all(|slot| is_empty(hall.shown(slot).lane())), "a lane without a deque is empty")
}

/// All periods by their numbers: the closed ones of the list, and those that run in lanes.
fn names_of<'h>(hall: &'h Hall) -> Names<'h> {
    let list = hall.shown(LIST).list();
    let running = list.places.iter().filter_map(|it| hall.shown(lane_slot(it.deque)).lane().period.as_ref());
    let mut periods: Vec<&Period> = list.closed.iter().chain(running).collect();
    periods.sort_by_key(|period| period.number);
    Names { periods }
}

fn waiting_in(list: &ListShown) -> BTreeSet<(Label, u32)> {
    list.waiting.iter().map(|it| (it.label.clone(), it.children.last().map_or(0, |child| child.ordinal))).collect()
}

fn waiting_at(moment: &Moment) -> BTreeSet<(Label, u32)> {
    moment.waiting.iter().map(|it| (it.thread.clone(), it.child)).collect()
}
