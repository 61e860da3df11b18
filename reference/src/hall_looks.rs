//! What the looks of a call have to show of its answer: which slots a thief and an owner try, in which order, and why they do what they do.

use crate::hall::{lane_slot, LaneShown, ListShown, Look, Place, PoolShown, Stop, Told, LIST, POOL};
use crate::hall_calls::Refusal;
use crate::hall_machine::{must, Checked};
use crate::machine::{around, Rules, Stop as RuleStop};
use crate::thread::Next;
use crate::world::World;

pub fn list_seen<'l, 'a>(looks: &'l [Look<'a>]) -> Option<&'l ListShown<'a>> {
    looks.iter().find_map(|look| if let Look::Took(LIST, value) = look { Some(value.list()) } else { None })
}

fn pool_seen<'l>(looks: &'l [Look]) -> Option<&'l PoolShown> {
    looks.iter().find_map(|look| if let Look::Took(POOL, value) = look { Some(value.pool()) } else { None })
}

fn lane_seen<'l, 'a>(looks: &'l [Look<'a>], slot: usize) -> Option<&'l LaneShown<'a>> {
    looks.iter().find_map(|look| match look {
        Look::Took(it, value) if *it == slot => Some(value.lane()),
        _ => None,
    })
}

fn counts_drawn(looks: &[Look]) -> Vec<u64> {
    looks.iter().filter_map(|look| if let Look::Counted(it) = look { Some(*it) } else { None }).collect()
}

/// The deque at a place has no thread to steal, by these looks.
pub fn shows_unready(looks: &[Look], place: Place) -> bool {
    place.owner.is_some() && lane_seen(looks, lane_slot(place.deque)).is_some_and(|lane| lane.threads.len() < 2)
}

fn shows_ready(looks: &[Look], place: Place) -> bool {
    lane_seen(looks, lane_slot(place.deque)).is_some_and(|lane| place.owner.is_none() || lane.threads.len() >= 2)
}

/// The victim was ready by these looks, and each place that its word tries before it was not.
pub fn shows_victim(rules: &Rules, word: u64, looks: &[Look], victim: usize) -> bool {
    let Some(list) = list_seen(looks) else { return false };
    let tried = around(word, rules.workers.min(list.places.len()));
    let before: Vec<usize> = tried.take_while(|place| *place != victim).collect();
    let Some(place) = list.places.get(victim) else { return false };
    let is_ready = shows_ready(looks, *place);
    is_ready && victim < rules.workers && before.iter().all(|it| shows_unready(looks, list.places[*it]))
}

/// A thief tries the list, then the lanes in reach in the order of its word up to the first ready one, then one that is free.
pub fn thief_tried(rules: &Rules, word: u64, looks: &[Look]) -> Checked {
    let tried: Vec<usize> = looks
        .iter()
        .filter_map(|look| match look {
            Look::Took(slot, _) | Look::Held { slot, .. } => Some(*slot),
            Look::Counted(_) => None,
        })
        .collect();
    let (mut due, mut is_ready) = (vec![LIST], false);
    let places = list_seen(looks).map_or(&[][..], |list| &list.places);
    for place in around(word, rules.workers.min(places.len())) {
        due.push(lane_slot(places[place].deque));
        is_ready = shows_ready(looks, places[place]);
        if is_ready {
            break;
        }
    }
    let (in_turn, more) = tried.split_at(due.len().min(tried.len()));
    must(due.starts_with(in_turn), "a thief tries the list, and then the lanes in reach in their turn")?;
    let is_free = |slot: &usize| *slot > POOL && places.iter().all(|it| lane_slot(it.deque) != *slot);
    let are_right = more.is_empty() || (is_ready && more.len() == 1 && more.iter().all(is_free));
    must(are_right && counts_drawn(looks).is_empty(), "after its victim a thief tries one free lane, and it draws no count")
}

/// What an owner needs besides its lane, by this and by the list if it saw it, and the words that its action asks for.
struct Needs {
    list: bool,
    pool: bool,
    asked: u64,
}

impl Needs {
    fn by(rules: &Rules, lane: &LaneShown, list: Option<&ListShown>) -> Self {
        let top = &lane.threads[0];
        let mut body = top.body.clone();
        let next = body.next(rules.quota, &mut Vec::new());
        let asked = World::asked(next);
        let used = lane.period.as_ref().map_or(0, |period| period.used);
        let is_spent = asked <= rules.quota && used + asked > rules.quota;
        let (list, pool) = match next {
            _ if is_spent => (true, false),
            Next::Join(_) => {
                let newest = top.children.last();
                let handed = newest.and_then(|child| child.result.as_ref());
                let kept = list.zip(newest).and_then(|(list, child)| list.results.iter().find(|it| it.id == child.id));
                let releases = handed.or(kept).is_some_and(|it| body.do_join(it.body.clone()) > 0);
                (handed.is_none(), releases)
            }
            Next::Dummy => (true, false),
            Next::End => (lane.threads.len() == 1, !top.label.is_empty()),
            _ => (false, true),
        };
        Needs { list, pool, asked }
    }
}

/// An act does the next action of the thread that it saw on top, or suspends this thread, or gives up its own deque. It takes turns on just the
/// slots that its event needs.
pub fn owner_acted(rules: &Rules, looks: &[Look], told: Told) -> Checked {
    let Some(Look::Took(own, value)) = looks.first() else { return must(false, "an act first takes its own lane") };
    let lane = value.lane();
    let top = &lane.threads[0];
    let is_its_own = match told {
        Told::Did(name) => name == (top.id, top.done),
        Told::Suspended(thread) => thread == top.id,
        Told::GaveUp(deque) => lane_slot(deque) == *own,
        Told::Stole { .. } | Told::Halted(_) => false,
    };
    must(is_its_own, "an act tells of the thread that it saw on top, or of its own deque")?;
    let (list, pool) = (list_seen(looks), pool_seen(looks));
    let needs = Needs::by(rules, lane, list);
    let others = looks.iter().any(|look| matches!(look, Look::Took(it, _) if ![LIST, POOL, *own].contains(it)));
    let has_its_slots = list.is_some() == needs.list && pool.is_some() == needs.pool;
    must(!others && has_its_slots, "an act takes turns on just the slots of its event")?;
    must(pool.is_none_or(|pool| pool.live + needs.asked <= rules.arena), "the words of an action fit the pool that was seen")?;
    let counts = counts_drawn(looks);
    let is_drawn = if matches!(told, Told::Did(_)) { counts.len() == 1 && counts[0] < rules.steps } else { counts.is_empty() };
    must(is_drawn, "an action draws one count below the limit, and nothing else does")
}

/// Why an owner did nothing, by its looks: a slot that it needs was held, an end is kept in the list that it needs, or it found a stop there.
pub fn owner_refused(rules: &Rules, own: usize, looks: &[Look], refusal: Refusal) -> Checked {
    let Some(Look::Took(first, value)) = looks.first() else {
        let is_own = matches!(refusal, Refusal::Busy { slot, .. } if slot == own) || looks.is_empty();
        return must(is_own, "an act that took no lane was refused its own");
    };
    let (list, pool, counts) = (list_seen(looks), pool_seen(looks), counts_drawn(looks));
    let needs = Needs::by(rules, value.lane(), list);
    let takes_only_its = (needs.list || list.is_none()) && (needs.pool || pool.is_none());
    must(*first == own && takes_only_its, "an act that is refused took turns on slots that it needs alone")?;
    let has_its_slots = list.is_some() == needs.list && pool.is_some() == needs.pool;
    let is_shown = match refusal {
        Refusal::Busy { slot: LIST, .. } => needs.list && list.is_none() && pool.is_none(),
        Refusal::Busy { slot: POOL, .. } => needs.pool && pool.is_none() && list.is_some() == needs.list,
        Refusal::Over(_) => needs.list && pool.is_none(),
        Refusal::Stopped(Stop::ByRule(RuleStop::ArenaFull { live, asked })) => {
            let is_full = pool.is_some_and(|pool| pool.live == live && live + asked > rules.arena);
            is_full && has_its_slots && asked == needs.asked
        }
        Refusal::Stopped(Stop::ByRule(RuleStop::StepsSpent)) => {
            return must(
                has_its_slots && counts.len() == 1 && counts[0] >= rules.steps,
                "a spent limit comes of a count at it",
            );
        }
        Refusal::Stopped(Stop::NoMemory) => true,
        _ => false,
    };
    must(is_shown && counts.is_empty(), "why an act does nothing is shown by its looks")
}
