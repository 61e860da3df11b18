//! Trails that were recorded and then changed a little: a byte, a line or a number, or nothing.

use crate::cases::short_play;
use crate::command::answer_to;
use crate::random::Random;
use crate::trail::{read_trail, trail_text, Kind, Trail, TrailEvent};

const MOST_TRIES: u32 = 6;
const ANY_BYTES: [u8; 14] = *b"0123459 -\n\tsax";
/// A trail for where no play at hand finishes.
const SMALL: &[u8] =
    b"trail k 16 p 1 arena 16 steps 9 deques 1\nsource 13\nfn main() { }\n0 steal 0\n0 act\nend periods 1 ahead 0 high 0\n";

pub fn mended_trail(random: &mut Random) -> Vec<u8> {
    let text = recorded(random);
    let Ok(mut trail) = read_trail(&text) else { return text };
    match random.below(8) {
        0 => text,
        1 | 2 => with_other_byte(random, text),
        3..=5 => {
            change_line(random, &mut trail);
            trail_text(&trail)
        }
        _ => {
            change_number(random, &mut trail);
            trail_text(&trail)
        }
    }
}

/// The trail of the first play that finishes.
fn recorded(random: &mut Random) -> Vec<u8> {
    for _ in 0..MOST_TRIES {
        let (options, source) = short_play(random);
        let answer = answer_to(&[vec!["trail".to_string()], options].concat(), &source);
        if matches!(answer.status, 0 | 6) {
            return answer.text.into_bytes();
        }
    }
    SMALL.to_vec()
}

/// A byte is replaced, left out or put in, or the text ends early.
fn with_other_byte(random: &mut Random, mut text: Vec<u8>) -> Vec<u8> {
    let place = random.below(text.len() as u64) as usize;
    let byte = *random.pick(&ANY_BYTES);
    match random.below(8) {
        0 => text.truncate(place),
        1 | 2 => drop(text.remove(place)),
        3 | 4 => text.insert(place, byte),
        _ => text[place] = byte,
    }
    text
}

/// The line of an event is left out, doubled, exchanged with another one, or replaced; or the lines end early.
fn change_line(random: &mut Random, trail: &mut Trail) {
    let place = random.below(trail.events.len() as u64) as usize;
    match random.below(8) {
        0 => drop(trail.events.remove(place)),
        1 => trail.events.insert(place, trail.events[place]),
        2 | 3 => {
            let other = (place + 1 + random.below(3) as usize).min(trail.events.len() - 1);
            trail.events.swap(place, other);
        }
        4 => trail.events.truncate(place),
        5 => trail.events.insert(place, any_event(random, trail.rules.workers)),
        _ => trail.events[place] = any_event(random, trail.rules.workers),
    }
}

fn any_event(random: &mut Random, workers: usize) -> TrailEvent {
    let worker = random.below(workers as u64) as usize;
    let kind = match random.below(6) {
        0 => Kind::Act,
        1 => Kind::Suspend,
        2 | 3 => Kind::GiveUp,
        _ => Kind::Steal(random.below(4) as usize),
    };
    TrailEvent { worker, kind }
}

/// A number of the first line, of an event or of the last line becomes another one.
fn change_number(random: &mut Random, trail: &mut Trail) {
    let place = random.below(trail.events.len() as u64) as usize;
    let up = random.once_in(2);
    match random.below(14) {
        0 => trail.rules.quota = near(trail.rules.quota, 16, up).max(16),
        1 => trail.rules.workers = near(trail.rules.workers as u64, 1, up).clamp(1, 64) as usize,
        2 => trail.rules.arena = 16 * random.between(1, 12),
        3 => trail.rules.steps = random.between(1, 40),
        4 => trail.rules.deques = random.between(1, 4) as usize,
        5 => trail.numbers.periods = near(trail.numbers.periods, 1, up),
        6 => trail.numbers.ahead = near(trail.numbers.ahead, 1, up),
        7 => trail.numbers.high = near(trail.numbers.high, 16, up),
        8..=10 => trail.events[place].worker = random.below(trail.rules.workers as u64) as usize,
        _ => {
            let steals: Vec<usize> =
                (0..trail.events.len()).filter(|at| matches!(trail.events[*at].kind, Kind::Steal(_))).collect();
            if let Some(at) = random.pick_some(&steals) {
                trail.events[*at].kind = Kind::Steal(random.below(5) as usize);
            }
        }
    }
}

fn near(number: u64, by: u64, up: bool) -> u64 {
    if up {
        number.saturating_add(by)
    } else {
        number.saturating_sub(by)
    }
}
