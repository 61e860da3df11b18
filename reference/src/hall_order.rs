//! What holds at each moment of the machine: the threads are in depth-first order, the books are lawful, and the words in use are within
//! the bound. It is said here of the moments that a hall shows.

use crate::good_trail::{fork_of, Deed, Label, Moment, Setting};
use crate::hall_machine::{must, Checked};
use std::cmp::Ordering;
use std::collections::BTreeSet;

pub fn lawful(setting: &Setting, moment: &Moment, peak: i64) -> Checked {
    order(moment)?;
    placed(setting, moment)?;
    children_above(setting, moment)?;
    books(setting, moment)?;
    births(setting, moment)?;
    ahead(moment)?;
    bound(setting, moment, peak)
}

/// A child comes before its parent, and after the children that were forked before it.
fn before(a: &Label, b: &Label) -> bool {
    match a.iter().zip(b).map(|(x, y)| x.cmp(y)).find(|it| *it != Ordering::Equal) {
        Some(it) => it == Ordering::Less,
        None => a.len() > b.len(),
    }
}

fn is_child_of(thread: &Label, parent: &Label) -> bool {
    thread.split_last().is_some_and(|(_, above)| above == parent.as_slice())
}

fn order(moment: &Moment) -> Checked {
    let threads: Vec<&Label> = moment.deques.iter().flat_map(|deque| &deque.threads).collect();
    must(threads.windows(2).all(|it| before(it[0], it[1])), "the threads of the deques are in depth-first order")?;
    for (at, deque) in moment.deques.iter().enumerate() {
        must(!deque.threads.is_empty(), "no deque is empty")?;
        must(deque.threads.windows(2).all(|it| is_child_of(&it[0], &it[1])), "each thread is above the one that forked it")?;
        let others = &moment.deques[at + 1..];
        let is_twice = |it: &crate::good_trail::Deque| it.id == deque.id || (it.owner.is_some() && it.owner == deque.owner);
        must(!others.iter().any(is_twice), "ids differ, and a worker owns one deque")?;
    }
    Ok(())
}

fn live_threads(setting: &Setting, moment: &Moment) -> BTreeSet<Label> {
    let mut live = BTreeSet::from([Label::new()]);
    let done = || setting.list.iter().zip(&moment.done).filter(|(_, is_done)| **is_done).map(|(action, _)| action);
    for action in done() {
        if let Deed::Fork(child) = action.deed {
            live.insert(fork_of(&action.label, child));
        }
    }
    for action in done().filter(|action| action.deed == Deed::End) {
        live.remove(&action.label);
    }
    live
}

/// Each live thread is in a deque or waits for a live child, and no other is.
fn placed(setting: &Setting, moment: &Moment) -> Checked {
    let live = live_threads(setting, moment);
    let in_deques = moment.deques.iter().flat_map(|deque| &deque.threads);
    let mut all: Vec<Label> = in_deques.chain(moment.waiting.iter().map(|it| &it.thread)).cloned().collect();
    all.sort();
    must(all.iter().eq(&live), "each live thread is in one deque or waits, once")?;
    for it in &moment.waiting {
        let next = setting.next(moment, &it.thread).map(|place| setting.list[place].deed);
        let is_live = live.contains(&fork_of(&it.thread, it.child));
        must(next == Some(Deed::Join(it.child)) && is_live, "a thread waits at the Join of a live child")?;
    }
    Ok(())
}

/// A live child of a thread is directly above it, unless the thread is the bottom one.
fn children_above(setting: &Setting, moment: &Moment) -> Checked {
    let live = live_threads(setting, moment);
    for deque in &moment.deques {
        for (at, thread) in deque.threads.iter().enumerate().take(deque.threads.len() - 1) {
            let above = at.checked_sub(1).map(|at| &deque.threads[at]);
            let children = live.iter().filter(|it| is_child_of(it, thread));
            must(children.into_iter().all(|it| Some(it) == above), "a live child is directly above its parent")?;
        }
    }
    Ok(())
}

fn books(setting: &Setting, moment: &Moment) -> Checked {
    let mut ran: Vec<usize> = moment.books.iter().flat_map(|book| book.ran.clone()).collect();
    ran.sort_unstable();
    must(ran.windows(2).all(|it| it[0] != it[1]), "no action is done twice")?;
    must(ran.len() == moment.booked && ran.iter().all(|place| moment.done[*place]), "what is done is in the books")?;
    for place in ran {
        let action = &setting.list[place];
        let mut earlier = setting.places_of(&action.label).iter().take_while(|it| **it < place);
        must(earlier.all(|it| moment.done[*it]), "the earlier actions of a thread are done")?;
        if let Deed::Join(child) = action.deed {
            must(setting.has_ended(moment, &fork_of(&action.label, child)), "a child has ended before its Join")?;
        }
    }
    for book in &moment.books {
        must(setting.charged(book) <= setting.rules.quota, "a period keeps within the quota")?;
        let dummy = book.ran.iter().position(|place| setting.list[*place].deed == Deed::Dummy);
        let is_last = dummy.is_none_or(|at| at + 1 == book.ran.len() && book.owner.is_none());
        must(is_last, "a Dummy is the last action of its period, which is closed")?;
    }
    Ok(())
}

/// Whoever forks is the root or was born before, in the order of the periods; so are the threads of an owner's deque.
fn births(setting: &Setting, moment: &Moment) -> Checked {
    let mut born = BTreeSet::from([Label::new()]);
    for book in &moment.books {
        for action in book.ran.iter().map(|place| &setting.list[*place]) {
            if let Deed::Fork(child) = action.deed {
                must(born.contains(&action.label), "whoever forks is the root or was born before")?;
                born.insert(fork_of(&action.label, child));
            }
        }
        let own = moment.deques.iter().filter(|deque| book.owner.is_some() && deque.owner == book.owner);
        let are_born = own.flat_map(|deque| &deque.threads).all(|thread| born.contains(thread));
        must(are_born, "the threads of a worker were born in no newer period than its own")?;
    }
    Ok(())
}

/// Each period that is ahead is marked; an open one that is not marked is of the owner of the first deque; each owner has one open period.
fn ahead(moment: &Moment) -> Checked {
    for book in &moment.books {
        let is_ahead = book.ran.iter().any(|place| *place >= moment.prefix);
        must(!is_ahead || book.marked, "a period that is ahead is marked")?;
        let is_first = moment.deques.first().is_some_and(|deque| deque.owner == book.owner);
        must(
            book.owner.is_none() || book.marked || is_first,
            "an open period without a mark is of the owner of the first deque",
        )?;
    }
    let sorted = |mut it: Vec<usize>| {
        it.sort_unstable();
        it
    };
    let owners = sorted(moment.deques.iter().filter_map(|deque| deque.owner).collect());
    let open = sorted(moment.books.iter().filter_map(|book| book.owner).collect());
    must(owners == open, "each owner of a deque has one open period")
}

fn bound(setting: &Setting, moment: &Moment, peak: i64) -> Checked {
    let each = 2 * setting.rules.quota as i64;
    let marked = moment.books.iter().filter(|book| book.marked).count() as i64;
    must(moment.live <= peak + each * moment.periods_ahead() as i64, "the words in use are within the bound")?;
    must(moment.high <= peak + each * marked, "the high-water mark is within the bound of the marked periods")
}
