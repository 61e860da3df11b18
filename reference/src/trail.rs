//! A trail: one recorded play, as a text that can be checked apart from the machine that made it. Here are the recorder, the text and its
//! reader.

use crate::choices::Choices;
use crate::machine::{Event, Machine, PlayReport, Rules, Stop, What};
use crate::thread::Code;
use std::ops::RangeInclusive;

/// The most bytes of a trail.
pub const MOST_TRAIL: usize = 33_554_432;
const MOST_SOURCE: usize = 1_048_576;
const MOST_DEQUES: u64 = 4_096;
const PIECE: u64 = 16;

pub struct Trail {
    pub rules: Rules,
    pub source: Vec<u8>,
    pub events: Vec<TrailEvent>,
    pub numbers: Numbers,
}

#[derive(Clone, Copy, Debug, PartialEq, Eq)]
pub struct TrailEvent {
    pub worker: usize,
    pub kind: Kind,
}

#[derive(Clone, Copy, Debug, PartialEq, Eq)]
pub enum Kind {
    /// It took the bottom thread of the deque at this place, from 0 at the left.
    Steal(usize),
    /// Its top thread did its next action.
    Act,
    /// Its top thread began to wait for a child.
    Suspend,
    /// It left its deque.
    GiveUp,
}

/// What a play ended with.
#[derive(Clone, Copy, Debug, PartialEq, Eq)]
pub struct Numbers {
    pub periods: u64,
    /// How many of these were marked.
    pub ahead: u64,
    pub high: u64,
}

/// Runs a program by the words of choice, and returns its events with its report, or the stop.
pub fn record(code: &Code, rules: Rules, choices: &mut impl Choices) -> Result<(Vec<TrailEvent>, PlayReport), Stop> {
    let (mut machine, mut events) = (Machine::new(code, rules), Vec::new());
    while !machine.has_ended() {
        events.push(recorded(&machine.turn(choices)?));
    }
    Ok((events, machine.report()))
}

fn recorded(event: &Event) -> TrailEvent {
    let kind = match event.what {
        What::Stole { place, .. } => Kind::Steal(place),
        What::Forked(_) | What::Did(_) => Kind::Act,
        What::Suspended => Kind::Suspend,
        What::GaveUp => Kind::GiveUp,
    };
    TrailEvent { worker: event.worker, kind }
}

/// The text of a trail, each line with its line feed.
pub fn trail_text(trail: &Trail) -> Vec<u8> {
    let Rules { quota, workers, arena, steps, deques } = trail.rules;
    let head =
        format!("trail k {quota} p {workers} arena {arena} steps {steps} deques {deques}\nsource {}\n", trail.source.len());
    let events: String = trail.events.iter().map(event_line).collect();
    let Numbers { periods, ahead, high } = trail.numbers;
    let end = format!("\n{events}end periods {periods} ahead {ahead} high {high}\n");
    [head.as_bytes(), &trail.source, end.as_bytes()].concat()
}

fn event_line(event: &TrailEvent) -> String {
    let worker = event.worker;
    match event.kind {
        Kind::Steal(place) => format!("{worker} steal {place}\n"),
        Kind::Act => format!("{worker} act\n"),
        Kind::Suspend => format!("{worker} suspend\n"),
        Kind::GiveUp => format!("{worker} giveup\n"),
    }
}

/// The trail whose text this is. Otherwise the place at which it is none: the first byte of the first line that breaks the form, or the end
/// of the text if a line is missing. The bytes of the source are a part of the second line.
pub fn read_trail(text: &[u8]) -> Result<Trail, usize> {
    if text.len() > MOST_TRAIL {
        return Err(MOST_TRAIL);
    }
    let (rules, second) = line_at(text, 0).and_then(|(words, next)| Some((rules_of(&words)?, next))).ok_or(0_usize)?;
    let (source, mut at) = source_at(text, second).ok_or(second)?;
    let mut events = Vec::new();
    while let Some((event, next)) = line_at(text, at).and_then(|(words, next)| Some((event_of(&words, rules.workers)?, next))) {
        events.push(event);
        at = next;
    }
    let (numbers, end) = line_at(text, at).and_then(|(words, next)| Some((numbers_of(&words)?, next))).ok_or(at)?;
    if end < text.len() {
        return Err(end);
    }
    Ok(Trail { rules, source, events, numbers })
}

/// The words of the line that begins at a place, between single blanks, and where the next one begins; none if the line has no end.
pub fn line_at(text: &[u8], at: usize) -> Option<(Vec<&[u8]>, usize)> {
    let length = text[at..].iter().position(|byte| *byte == b'\n')?;
    Some((text[at..at + length].split(|byte| *byte == b' ').collect(), at + length + 1))
}

/// The number that decimal digits without leading zeros write.
pub fn natural(word: &[u8]) -> Option<u64> {
    let is_number = !word.is_empty() && word.iter().all(u8::is_ascii_digit) && (word[0] != b'0' || word.len() == 1);
    let digits = if is_number { std::str::from_utf8(word).ok()? } else { return None };
    digits.parse().ok()
}

fn number_in(word: &[u8], range: RangeInclusive<u64>) -> Option<u64> {
    natural(word).filter(|number| range.contains(number))
}

/// A number of whole pieces.
fn pieces_in(word: &[u8], range: RangeInclusive<u64>) -> Option<u64> {
    number_in(word, range).filter(|number| number % PIECE == 0)
}

pub fn rules_of(words: &[&[u8]]) -> Option<Rules> {
    let [b"trail", b"k", quota, b"p", workers, b"arena", arena, b"steps", steps, b"deques", deques] = words else {
        return None;
    };
    Some(Rules {
        quota: pieces_in(quota, PIECE..=1_048_576)?,
        workers: number_in(workers, 1..=64)? as usize,
        arena: pieces_in(arena, PIECE..=67_108_864)?,
        steps: number_in(steps, 1..=400_000)?,
        deques: number_in(deques, 1..=MOST_DEQUES)? as usize,
    })
}

/// The source, whose line begins at a place, and where the next line begins.
pub fn source_at(text: &[u8], at: usize) -> Option<(Vec<u8>, usize)> {
    let (words, from) = line_at(text, at)?;
    let [b"source", length] = words.as_slice() else { return None };
    let end = from + number_in(length, 0..=MOST_SOURCE as u64)? as usize;
    (text.get(end) == Some(&b'\n')).then(|| (text[from..end].to_vec(), end + 1))
}

fn event_of(words: &[&[u8]], workers: usize) -> Option<TrailEvent> {
    let (worker, kind) = words.split_first()?;
    let kind = match kind {
        [b"steal", place] => Kind::Steal(number_in(place, 0..=MOST_DEQUES - 1)? as usize),
        [b"act"] => Kind::Act,
        [b"suspend"] => Kind::Suspend,
        [b"giveup"] => Kind::GiveUp,
        _ => return None,
    };
    Some(TrailEvent { worker: number_in(worker, 0..=workers as u64 - 1)? as usize, kind })
}

fn numbers_of(words: &[&[u8]]) -> Option<Numbers> {
    let [b"end", b"periods", periods, b"ahead", ahead, b"high", high] = words else { return None };
    Some(Numbers { periods: natural(periods)?, ahead: natural(ahead)?, high: natural(high)? })
}
