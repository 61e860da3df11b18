//! What the reference's own runs by workers have to keep, one event at a time, with one ready list, and in threads: they print what the
//! depth-first run prints, and their words in use are at most its peak and twice the quota for each marked period. Of a run one event at a
//! time this holds at each moment with the periods that are ahead then, of which there are at most as many as are marked; and the trail of
//! one over deques is good.

use crate::choices::Pcg;
use crate::depth_first::{depth_first, PeakReport};
use crate::good_trail::{verdict, Setting, Verdict};
use crate::in_threads;
use crate::machine::{PlayReport, Rules, Stop};
use crate::random::Random;
use crate::ready_list::each_async_event;
use crate::replay::replay;
use crate::resolve::resolve;
use crate::stealing::steal;
use crate::thread::Code;
use crate::trace::{each_event, trace};
use crate::trail::{record, Numbers};
use crate::tree::Program;

const STEPS: u64 = 200_000;
const ARENA: u64 = 1 << 40;
/// The checker of trails is slow, so it sees no longer ones.
const STEPS_OF_TRAIL: u64 = 2_000;

/// The promise that a run breaks, or none.
pub fn broken_promise(program: &Program<String>, number: u64) -> Option<String> {
    let mut random = Random(number);
    let code = resolve(program);
    let quota = 16 * *random.pick(&[1, 1, 2, 3, 4, 16, 256]);
    let serial = depth_first(&code, quota, STEPS)?;
    let workers = random.between(1, 64) as usize;
    let rules = Rules { quota, workers, arena: ARENA, steps: STEPS, deques: usize::MAX };
    broken_at_a_moment(&code, rules, &serial, random.word())
        .or_else(|| broken_by_ready_list(&code, rules, &serial, random.word()))
        .or_else(|| broken_by_theft(&code, rules, &serial, random.word()))
        .or_else(|| broken_by_workers(in_threads::run(&code, rules, number), rules, &serial))
        .or_else(|| broken_by_trail(&code, rules, &serial, random.word()))
}

/// Whether a run one event at a time breaks a promise, at the first moment that does or at its end.
fn broken_at_a_moment(code: &Code, rules: Rules, serial: &PeakReport, seed: u64) -> Option<String> {
    let mut broken = None;
    let played = each_event(code, rules, &mut Pcg::from_seed(seed), |number, _, machine, ahead| {
        let (words, bound, periods) = (machine.world.live, ahead.bound(rules.quota), ahead.periods);
        if broken.is_none() && (words > bound || periods > machine.ahead) {
            broken = Some(format!(
                "after event {number}: {words} words, bound {bound}, {periods} periods ahead, {} marked",
                machine.ahead
            ));
        }
    });
    broken.or_else(|| broken_by_workers(played, rules, serial))
}

/// The same of a run with one ready list.
fn broken_by_ready_list(code: &Code, rules: Rules, serial: &PeakReport, seed: u64) -> Option<String> {
    let mut broken = None;
    let played = each_async_event(code, rules, &mut Pcg::from_seed(seed), |list, ahead| {
        let (words, bound, periods) = (list.world.live, ahead.bound(rules.quota), ahead.periods);
        if broken.is_none() && (words > bound || periods > list.ahead) {
            broken = Some(format!("in a ready list: {words} words, bound {bound}, {periods} periods ahead, {} marked", list.ahead));
        }
    });
    broken.or_else(|| broken_by_workers(played, rules, serial))
}

fn broken_by_workers(played: Result<PlayReport, Stop>, rules: Rules, serial: &PeakReport) -> Option<String> {
    let Ok(played) = played else {
        return Some("a run by workers stops where the depth-first run does not".to_string());
    };
    if (&played.lines, played.finish) != (&serial.lines, serial.finish) {
        return Some("a run by workers prints something else than the depth-first run".to_string());
    }
    let bound = serial.peak + 2 * rules.quota * played.ahead;
    (played.high > bound).then(|| format!("{} words are in use, above the bound of {bound}", played.high))
}

fn broken_by_theft(code: &Code, rules: Rules, serial: &PeakReport, seed: u64) -> Option<String> {
    match steal(code, rules.workers, STEPS, &mut Pcg::from_seed(seed)) {
        Ok(stolen) if (&stolen.lines, stolen.finish) == (&serial.lines, serial.finish) => None,
        _ => Some("plain work stealing prints something else than the depth-first run".to_string()),
    }
}

/// A recorded play is a good trail with its numbers, and each moment of it is the one that the machine had.
fn broken_by_trail(code: &Code, rules: Rules, serial: &PeakReport, seed: u64) -> Option<String> {
    if serial.actions > STEPS_OF_TRAIL {
        return None;
    }
    let (mut traced, mut replayed) = (String::new(), String::new());
    let Ok((events, report)) = record(code, rules, &mut Pcg::from_seed(seed)) else {
        return Some("a recorded play stops where the depth-first run does not".to_string());
    };
    let numbers = Numbers { periods: report.periods, ahead: report.ahead, high: report.high };
    let setting = Setting::new(code, rules)?;
    let said = verdict(&setting, &events, numbers);
    if said != Verdict::Accepted(serial.actions as usize) {
        return Some(format!("the trail of a play is not accepted: {said:?}"));
    }
    replay(&setting, &events, &mut replayed);
    let is_same = trace(code, rules, &mut Pcg::from_seed(seed), &mut traced).is_ok() && traced == replayed;
    (!is_same).then(|| "the moments of a trail are not those of its play".to_string())
}
