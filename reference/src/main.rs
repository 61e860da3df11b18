//! A second implementation of the language and of its scheduler, to compare the program with. It is written for being
//! read: where it could be faster or shorter of words, it is not.

mod ahead;
mod author;
mod canonical;
mod cases;
mod choices;
mod command;
mod compare;
mod depth_first;
mod edges;
mod edits;
mod evaluate;
mod good_trail;
mod hall;
mod hall_acts;
mod hall_calls;
mod hall_check;
mod hall_looks;
mod hall_machine;
mod hall_order;
mod hall_rows;
mod hall_seats;
mod held;
mod in_threads;
mod kept_books;
mod looped;
mod loops;
mod machine;
mod made;
mod mended;
mod mentions;
mod order;
mod order_rows;
mod ownership;
mod parse;
mod random;
mod ready_list;
mod replay;
mod resolve;
mod rows;
mod selfcheck;
mod smaller;
mod span;
mod stealing;
mod thread;
mod tiny;
mod tokens;
mod told;
mod trace;
mod trail;
mod trail_rows;
mod tree;
mod words;
mod world;

use command::{answer, command_of, make, most_read, serve, Answer, READ_FAULT};
use std::io::{Read, Write};
use std::process::ExitCode;

fn main() -> ExitCode {
    let words: Vec<String> = std::env::args_os().skip(1).map(|word| word.to_string_lossy().into_owned()).collect();
    match words.first().map(String::as_str) {
        Some("rows") => ExitCode::from(rows::rows()),
        Some("hall-check") => ExitCode::from(hall_check::hall_check(&words[1..])),
        Some("order") => write_out(&ordered()),
        Some("compare") => ExitCode::from(compare::compare(&words[1..])),
        _ => write_out(&run(&words)),
    }
}

fn run(words: &[String]) -> Answer {
    let command = match command_of(words) {
        Ok(command) => command,
        Err(refusal) => return refusal,
    };
    if command.name == "make" {
        return make(&command);
    }
    let mut source = Vec::new();
    match std::io::stdin().take(most_read(&command) as u64 + 1).read_to_end(&mut source) {
        Ok(_) => serve(&command, &source),
        Err(_) => answer(2, READ_FAULT),
    }
}

/// The trail that seats can have made, or why there is none.
fn ordered() -> Answer {
    let mut told = Vec::new();
    match std::io::stdin().read_to_end(&mut told) {
        Err(_) => answer(2, READ_FAULT),
        Ok(_) => match order::order(&told) {
            Ok(trail) => answer(0, String::from_utf8_lossy(&trail)),
            Err(why) => answer(1, format!("order: {why}\n")),
        },
    }
}

fn write_out(answer: &Answer) -> ExitCode {
    let mut out = std::io::stdout();
    let written = out.write_all(answer.text.as_bytes()).and_then(|()| out.flush());
    ExitCode::from(if written.is_ok() { answer.status as u8 } else { 3 })
}
