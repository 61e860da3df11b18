//! What a command answers: its status and its text.

use crate::canonical::canonical_text;
use crate::choices::Pcg;
use crate::depth_first::{depth_first, PeakReport};
use crate::good_trail::{verdict, Setting, Verdict};
use crate::held::{first_fault, held};
use crate::in_threads;
use crate::kept_books::play_with_books;
use crate::loops::expand;
use crate::machine::{play, PlayReport, Rules, Stop};
use crate::made::made_source;
use crate::ownership::check;
use crate::parse::parse;
use crate::ready_list::play_async;
use crate::replay::{replay, replay_bound};
use crate::resolve::resolve;
use crate::span::{span, Span};
use crate::stealing::{steal, StealReport};
use crate::thread::Code;
use crate::tokens::{SyntaxRefusal, MOST_BYTES};
use crate::trace::{bound, trace};
use crate::trail::{read_trail, record, trail_text, Numbers, Trail, MOST_TRAIL};
use crate::tree::Program;
use crate::words::{read_words, Command};
use crate::world::Finish;
use std::fmt::Write;

pub const USAGE: &str = "usage: dfd play|run|peak|check|make|async|trail|verify|loops|expand [options]\n";
pub const READ_FAULT: &str = "read fault\n";
/// The status of a trail that is refused for another cause than its source.
const TRAIL_REFUSED: i32 = 11;

#[derive(Clone, Debug, PartialEq, Eq)]
pub struct Answer {
    pub status: i32,
    pub text: String,
}

pub fn answer(status: i32, text: impl Into<String>) -> Answer {
    Answer { status, text: text.into() }
}

/// What the words come to before a source is read.
pub fn command_of(words: &[String]) -> Result<Command, Answer> {
    read_words(words).ok_or_else(|| answer(1, USAGE))
}

pub fn answer_to(words: &[String], source: &[u8]) -> Answer {
    match command_of(words) {
        Err(refusal) => refusal,
        Ok(command) if command.name == "make" => make(&command),
        Ok(command) => serve(&command, source),
    }
}

/// Plays the made source. It reads nothing.
pub fn make(command: &Command) -> Answer {
    let source = made_source(command.groups);
    match accepted(source.as_bytes()) {
        Err(refusal) => refusal,
        Ok(program) => {
            let rules = rules_of(command);
            let played = play(&resolve(&program), rules, &mut Pcg::from_seed(command.number("seed")));
            played.map_or_else(|stop| stop_answer(stop, rules), |report| summary_answer(source.len(), &report))
        }
    }
}

fn syntax_answer(it: SyntaxRefusal) -> Answer {
    answer(4, format!("syntax {} at {}\n", it.reason, it.at))
}

pub fn accepted(source: &[u8]) -> Result<Program<String>, Answer> {
    let program = parse(source).map_err(syntax_answer)?;
    check(&program).map_err(|it| answer(5, format!("check {} line {} name {}\n", it.rule, it.line, it.name)))?;
    Ok(program)
}

/// The most bytes that a command may read.
pub fn most_read(command: &Command) -> usize {
    if reads_trail(command) {
        MOST_TRAIL
    } else {
        MOST_BYTES
    }
}

fn reads_trail(command: &Command) -> bool {
    matches!(command.name, "verify" | "replay" | "replay-bound")
}

/// Serves a command that reads a source or a trail.
pub fn serve(command: &Command, source: &[u8]) -> Answer {
    match command.name {
        "loops" | "expand" => serve_loops(command, source),
        _ if reads_trail(command) => serve_trail(command, source),
        _ => serve_source(command, source),
    }
}

/// `loops` serves the expansion as `play` serves a source.
fn serve_loops(command: &Command, source: &[u8]) -> Answer {
    match expand(source) {
        Err(refusal) => syntax_answer(refusal),
        Ok(text) if command.name == "expand" => answer(0, String::from_utf8_lossy(&text)),
        Ok(text) => serve_source(command, &text),
    }
}

/// The refusals of the source in a trail come after those of its form, and before those of its events.
fn serve_trail(command: &Command, text: &[u8]) -> Answer {
    let trail = match read_trail(text) {
        Err(at) => return answer(TRAIL_REFUSED, format!("trail NotTrail at {at}\n")),
        Ok(trail) => trail,
    };
    let program = match accepted(&trail.source) {
        Err(refusal) => return refusal,
        Ok(program) => program,
    };
    let Some(setting) = Setting::new(&resolve(&program), trail.rules) else {
        return answer(TRAIL_REFUSED, format!("trail LongRun limit {}\n", trail.rules.steps));
    };
    let said = verdict_answer(verdict(&setting, &trail.events, trail.numbers), trail.numbers);
    if command.name == "verify" {
        return said;
    }
    let mut events = String::new();
    let put = if command.name == "replay" { replay } else { replay_bound };
    put(&setting, &trail.events, &mut events);
    answer(said.status, format!("{events}--\n{}peak {}\n", said.text, setting.peak()))
}

fn verdict_answer(verdict: Verdict, numbers: Numbers) -> Answer {
    let Numbers { periods, ahead, high } = numbers;
    match verdict {
        Verdict::Accepted(actions) => {
            answer(0, format!("trail ok\nperiods {periods}\nahead {ahead}\nhigh {high}\nactions {actions}\n"))
        }
        Verdict::BadEvent(event) => answer(TRAIL_REFUSED, format!("trail BadEvent event {event}\n")),
        Verdict::NotEnded(events) => answer(TRAIL_REFUSED, format!("trail NotEnded events {events}\n")),
        Verdict::WrongNumbers(Numbers { periods, ahead, high }) => {
            answer(TRAIL_REFUSED, format!("trail WrongNumbers periods {periods} ahead {ahead} high {high}\n"))
        }
    }
}

fn serve_source(command: &Command, source: &[u8]) -> Answer {
    match accepted(source) {
        Err(refusal) => refusal,
        Ok(program) if command.name == "check" => answer(0, canonical_text(&program)),
        Ok(program) if command.name == "trail" => trail_answer(command, source, &resolve(&program)),
        Ok(program) => run(command, &resolve(&program)),
    }
}

fn run(command: &Command, code: &Code) -> Answer {
    let (rules, seed) = (rules_of(command), command.number("seed"));
    let mut choices = Pcg::from_seed(seed);
    if command.is_where {
        return held(code, command.name, rules, seed).map_or_else(|stop| stop_answer(stop, rules), |text| answer(0, text));
    }
    match command.name {
        "fault" => first_fault(code, rules).map_or_else(|stop| stop_answer(stop, rules), |text| answer(0, text)),
        "peak" => peak_answer(depth_first(code, rules.quota, rules.steps), rules),
        "span" => span(code, rules.quota, rules.steps).map_or_else(|| stop_answer(Stop::StepsSpent, rules), span_answer),
        "steal" => {
            let stolen = steal(code, rules.workers, rules.steps, &mut choices);
            stolen.map_or_else(|stop| stop_answer(stop, rules), steal_answer)
        }
        "async" => play_answer(play_async(code, rules, &mut choices), rules),
        "run" => play_answer(in_threads::run(code, rules, seed), rules),
        "play-books" => play_answer(play_with_books(code, rules, &mut choices), rules),
        "trace" | "bound" => {
            let mut events = String::new();
            let run = if command.name == "trace" { trace } else { bound };
            let Answer { status, text } = play_answer(run(code, rules, &mut choices, &mut events), rules);
            answer(status, events + &text)
        }
        _ => play_answer(play(code, rules, &mut choices), rules),
    }
}

/// Plays a program, and writes the trail of a play that finishes.
fn trail_answer(command: &Command, source: &[u8], code: &Code) -> Answer {
    let rules = rules_of(command);
    match record(code, rules, &mut Pcg::from_seed(command.number("seed"))) {
        Err(stop) => stop_answer(stop, rules),
        Ok((events, report)) => {
            let numbers = Numbers { periods: report.periods, ahead: report.ahead, high: report.high };
            let trail = Trail { rules, source: source.to_vec(), events, numbers };
            answer(status_of(report.finish), String::from_utf8_lossy(&trail_text(&trail)))
        }
    }
}

pub fn rules_of(command: &Command) -> Rules {
    Rules {
        quota: command.number("k"),
        workers: command.number("p") as usize,
        arena: command.number("arena"),
        steps: command.number("steps"),
        deques: command.number("deques") as usize,
    }
}

pub fn play_answer(played: Result<PlayReport, Stop>, rules: Rules) -> Answer {
    match played {
        Err(stop) => stop_answer(stop, rules),
        Ok(report) => {
            let numbers = [("periods", report.periods), ("ahead", report.ahead), ("high", report.high)];
            report_answer(&report.lines, report.finish, &numbers)
        }
    }
}

fn peak_answer(report: Option<PeakReport>, rules: Rules) -> Answer {
    match report {
        None => stop_answer(Stop::StepsSpent, rules),
        Some(it) => report_answer(&it.lines, it.finish, &[("actions", it.actions), ("peak", it.peak)]),
    }
}

/// The parallelism has one digit after the point.
fn span_answer(it: Span) -> Answer {
    let tenths = 10 * it.work / it.span;
    answer(0, format!("work {}\nspan {}\nparallelism {}.{}\n", it.work, it.span, tenths / 10, tenths % 10))
}

fn steal_answer(it: StealReport) -> Answer {
    report_answer(&it.lines, it.finish, &[("actions", it.actions), ("steals", it.steals), ("high", it.high)])
}

fn stop_answer(stop: Stop, rules: Rules) -> Answer {
    match stop {
        Stop::StepsSpent => answer(7, format!("stop StepsSpent limit {}\n", rules.steps)),
        Stop::ArenaFull { live, asked } => answer(8, format!("stop ArenaFull live {live} asked {asked}\n")),
        Stop::DequesFull => answer(9, format!("stop DequesFull deques {}\n", rules.deques)),
    }
}

/// The text of `make`: the lines are counted and added up.
fn summary_answer(bytes: usize, it: &PlayReport) -> Answer {
    let total = it.lines.iter().fold(0_i64, |sum, line| sum.wrapping_add(*line));
    let text = format!(
        "bytes {bytes}\nlines {}\ntotal {total}\nactions {}\nperiods {}\nahead {}\nhigh {}\n",
        it.lines.len(),
        it.actions,
        it.periods,
        it.ahead,
        it.high
    );
    answer(0, text)
}

fn report_answer(lines: &[i64], finish: Finish, numbers: &[(&str, u64)]) -> Answer {
    let mut text = String::new();
    let mut put = |words: std::fmt::Arguments| {
        text.write_fmt(words).expect("a text takes what is written");
        text.push('\n');
    };
    for line in lines {
        put(format_args!("{line}"));
    }
    put(format_args!("--"));
    match finish {
        Finish::Done => put(format_args!("end done")),
        Finish::Faulted(fault, line) => put(format_args!("end fault {fault:?} line {line}")),
    }
    for (name, number) in numbers {
        put(format_args!("{name} {number}"));
    }
    answer(status_of(finish), text)
}

fn status_of(finish: Finish) -> i32 {
    match finish {
        Finish::Done => 0,
        Finish::Faulted(..) => 6,
    }
}
