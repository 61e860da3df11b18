//! The law of the seats: their places and workers, the count word, the stops that they found, and what they were told.

use crate::hall::{lane_slot, Answer, End, Hall, ListShown, Look, Running, Seat, Stop, Told, View, LIST};
use crate::hall_calls::{Call, Refusal};
use crate::hall_looks::{list_seen, owner_acted, owner_refused, shows_unready, shows_victim, thief_tried};
use crate::hall_machine::{must, Checked, Law};
use crate::machine::Stop as RuleStop;
use crate::trail::Kind;

const SPENT: Option<Stop> = Some(Stop::ByRule(RuleStop::StepsSpent));

pub fn is_in(view: &View) -> bool {
    view.places > 0 && !view.left
}

/// Checks every clause about the seats and the count word after a single step.
pub fn seats_stand(hall: &Hall, law: &Law) -> Checked {
    crew(hall)?;
    counts(hall, law)?;
    let views = || hall.seats.iter().map(|seat| &seat.view);
    must(
        views().all(|it| it.places > 0 || *it == View { left: true, ..View::default() }),
        "a seat without a place was joined",
    )?;
    must(!law.has_free || views().any(|it| it.yielded), "no give up was free if no seat has yielded")?;
    must(hall.steps.iter().all(|step| step.seat < hall.seats.len()), "each event is of a seat that there is")?;
    for (number, seat) in hall.seats.iter().enumerate().filter(|(_, seat)| seat.view.places > 0) {
        seat_stands(hall, law, &seat.view)?;
        told(hall, number, &seat.view)?;
    }
    let joined = hall.seats.iter().filter(|seat| seat.view.places == 0);
    must(joined.into_iter().all(|seat| seat.hand.is_empty()), "a seat that was joined holds nothing")
}

/// The list names each worker for whom a seat stands, and nobody twice, and only these own deques.
fn crew(hall: &Hall) -> Checked {
    let (list, views) = (hall.shown(LIST).list(), || hall.seats.iter().map(|seat| &seat.view));
    let workers = hall.rules.workers;
    must(views().map(|view| view.places).sum::<usize>() == workers, "the places of all seats are those of the workers")?;
    let of_seats = views().filter(|view| is_in(view)).map(|view| view.worker);
    let mut stand: Vec<usize> = of_seats.chain(views().filter_map(|view| view.enters)).collect();
    let mut named = list.crew.clone();
    stand.sort_unstable();
    named.sort_unstable();
    must(stand == named, "the list names just the workers for whom a seat stands")?;
    must(named.windows(2).all(|it| it[0] != it[1]), "seats that are in have different workers")?;
    must(named.iter().all(|worker| *worker < workers), "each worker is one of the hall")?;
    let mut owners = list.places.iter().filter_map(|place| place.owner);
    must(owners.all(|owner| list.crew.contains(&owner)), "a worker that is not named owns no deque")
}

/// The count word up to the limit is what is done and the counts that are held, and it is above the limit only so far.
fn counts(hall: &Hall, law: &Law) -> Checked {
    let views = || hall.seats.iter().map(|seat| &seat.view);
    let (limit, list) = (hall.rules.steps, hall.shown(LIST).list());
    let counting = views().filter(|view| view.counting).count();
    must(
        hall.count.min(limit) == (law.moment.booked + counting) as u64,
        "the count is what is done and the counts that are held",
    )?;
    let late = views().filter(|view| is_in(view) && view.found == SPENT).count();
    let missing = if list.kept.is_some() { hall.rules.workers - list.crew.len() } else { 0 };
    must(hall.count <= limit + (late + missing) as u64, "the count is above the limit by the seats that found it spent")?;
    must(hall.count <= limit + 2 * hall.rules.workers as u64, "the count is at most the limit and two for each worker")
}

fn seat_stands(hall: &Hall, law: &Law, view: &View) -> Checked {
    let list = hall.shown(LIST).list();
    let owned = list.places.iter().find(|place| place.owner == Some(view.worker)).map(|place| place.deque);
    must(view.left || view.deque == owned, "a seat owns the deque that the list gives to its worker")?;
    must(!view.left || view.deque.is_none(), "a seat that has left owns none")?;
    must(
        !view.counting || (view.deque.is_some() && view.found.is_none()),
        "a seat that holds a count owns a deque and found no stop",
    )?;
    let entering = view.enters.is_none_or(|it| view.places >= 2 && list.places.iter().all(|place| place.owner != Some(it)));
    must(entering, "whom a seat enters for owns no deque, and the seat has a place for it")?;
    must(view.found.is_none_or(|stop| law.has_cause(stop)), "a found stop has its cause")?;
    let is_lost = view.left && view.found.is_some() && list.kept.is_none();
    must(!is_lost, "a stop of a seat that leaves is kept unless an end is")?;
    must(view.answered.is_none() || view.answered == list.kept, "an answered end is kept")
}

/// What a seat was told of events is what it did, and stands in the books of its periods.
fn told(hall: &Hall, number: usize, view: &View) -> Checked {
    let of_events = view.mine.iter().filter(|it| !matches!(it, Told::Halted(_)));
    let did = hall.steps.iter().filter(|step| step.seat == number).map(|step| &step.told);
    must(of_events.eq(did), "a seat was told just what it did")?;
    let list = hall.shown(LIST).list();
    let running = list.places.iter().filter_map(|it| hall.shown(lane_slot(it.deque)).lane().period.as_ref());
    let periods: Vec<_> = list.closed.iter().chain(running).collect();
    let mut last = None;
    for (at, told) in view.mine.iter().enumerate() {
        let Told::Stole { period, .. } = *told else { continue };
        last = Some(period);
        let until = view.mine[at + 1..].iter().take_while(|it| !matches!(it, Told::Stole { .. }));
        let names = until.filter_map(|it| if let Told::Did(name) = it { Some(name) } else { None });
        let book = periods.iter().find(|it| it.number == period);
        must(book.is_some_and(|it| it.ran.iter().eq(names)), "the book of a period is what its seat was told")?;
    }
    let runs = view.deque.and_then(|deque| hall.shown(lane_slot(deque)).lane().period.as_ref()).map(|it| it.number);
    must(view.deque.is_none() || runs == last, "the period in a seat's lane is that of its last theft")
}

/// Checks what a call answered by the looks that it had.
pub fn receipt(hall: &Hall, number: usize, answer: Answer) -> Checked {
    let seat = &hall.seats[number];
    let Some(running) = &seat.finished else { return must(false, "a call that answered has begun") };
    if answer == Answer::Left {
        return Ok(());
    }
    let (looks, news) = (&seat.looks[running.looks_before..], &seat.view.mine[running.told_before..]);
    match answer {
        Answer::Done(told) => {
            must(news == [told], "a call adds just its event to what the seat was told")?;
            event_shown(hall, number, running, looks, told)
        }
        Answer::Refused(refusal) => {
            must(news.is_empty(), "a refusal adds nothing to what the seat was told")?;
            refusal_shown(hall, seat, running, looks, refusal)
        }
        _ => Ok(()),
    }
}

fn event_shown(hall: &Hall, number: usize, running: &Running, looks: &[Look], told: Told) -> Checked {
    if running.call != Call::Halt {
        let is_open = list_seen(looks).is_none_or(|list| list.kept.is_none());
        must(is_open, "an event comes of no look at a kept end")?;
        must(hall.seats[number].view.found.is_none(), "a seat that found a stop does no event")?;
    }
    match (running.call, told) {
        (Call::Steal(word), _) => {
            let step = hall.steps.iter().rev().find(|step| step.seat == number);
            let Some(Kind::Steal(place)) = step.map(|step| step.event) else { return must(false, "a steal is told as one") };
            must(shows_victim(&hall.rules, word, looks, place), "the looks show the thief's choice")?;
            thief_tried(&hall.rules, word, looks)
        }
        (Call::Act, _) => owner_acted(&hall.rules, looks, told),
        (Call::GiveUp, Told::GaveUp(deque)) => {
            let took_both = matches!(looks, [Look::Took(own, _), Look::Took(LIST, _)] if *own == lane_slot(deque));
            must(took_both, "a give up looks at its own lane and the list")
        }
        (Call::GiveUp, _) => must(false, "a give up is told as one"),
        (Call::Halt, _) => must(matches!(looks, [Look::Took(LIST, _)]), "a halt looks at the list"),
        _ => Ok(()),
    }
}

fn refusal_shown(hall: &Hall, seat: &Seat, running: &Running, looks: &[Look], refusal: Refusal) -> Checked {
    let view = &seat.view;
    if matches!(running.call, Call::Enter | Call::Steal(_) | Call::Act | Call::GiveUp) {
        let is_open = list_seen(looks).is_none_or(|list| list.kept.is_none());
        must(is_open || matches!(refusal, Refusal::Over(_)), "a look at a kept end is answered by it")?;
    }
    match running.call {
        Call::Steal(word) => thief_tried(&hall.rules, word, looks)?,
        Call::Act => owner_refused(&hall.rules, view.deque.map_or(LIST, lane_slot), looks, refusal)?,
        _ => {}
    }
    match refusal {
        Refusal::Busy { slot, seen } => {
            let is_last = matches!(looks.last(), Some(Look::Held { slot: it, seen: word }) if *it == slot && *word == seen);
            must(is_last && seen == 1, "Busy comes of the last look")?;
            must(view.places < hall.rules.workers, "Busy never comes to a seat that has all places")
        }
        Refusal::Nothing => {
            let list = list_seen(looks);
            let reach = |list: &ListShown| list.places[..hall.rules.workers.min(list.places.len())].to_vec();
            let is_shown =
                list.is_some_and(|list| list.kept.is_none() && reach(list).iter().all(|it| shows_unready(looks, *it)));
            must(is_shown && matches!(running.call, Call::Steal(_)), "Nothing comes of looks without a ready thread")
        }
        Refusal::Over(end) => {
            must(list_seen(looks).is_some_and(|list| list.kept == Some(end)), "Over comes of a list with this end")
        }
        Refusal::Stopped(stop) => {
            let keeps = matches!(running.call, Call::Steal(_) | Call::GiveUp) && !looks.is_empty();
            must(view.found == Some(stop), "a stop that is answered was found")?;
            must(!keeps || hall.shown(LIST).list().kept.is_some(), "a steal and a give up keep the stop that they find")
        }
        Refusal::Crowded => must(view.places == 1 && looks.is_empty(), "Crowded comes to a seat with one place"),
        Refusal::StillIn { places } => must(view.places == places && places < hall.rules.workers, "StillIn has the places"),
        Refusal::NotOver => {
            must(list_seen(looks).is_some_and(|list| list.kept.is_none()), "NotOver comes of a list without an end")
        }
        Refusal::NoMemory => Ok(()),
    }
}

/// What a hall that was closed has to give.
pub fn closed(hall: &Hall, law: &Law, last: &View) -> Checked {
    let list = hall.shown(LIST).list();
    must(list.places.iter().all(|place| place.owner.is_none()), "nobody owns a deque of a closed hall")?;
    must(list.closed.len() as u64 == list.begun, "all periods of a closed hall are closed")?;
    must(last.places == hall.rules.workers, "the seat that closes has all places")?;
    must(last.yielded || !law.has_free, "no give up of the run was free if the last seat has not yielded")?;
    match list.kept {
        Some(End::Finished) => {
            must(law.moment.booked == law.setting.list.len(), "each action was done once if the run has finished")?;
            must(list.results.len() == 1 && list.results[0].id == (0, 0), "the root's result is kept if the run has finished")
        }
        Some(End::Stopped(stop)) => {
            must(law.has_cause(stop), "the stop of a closed hall has its cause")?;
            must(list.results.iter().all(|it| it.id != (0, 0)), "a stopped run has no result of the root")
        }
        None => must(false, "a hall is closed where an end is kept"),
    }
}
