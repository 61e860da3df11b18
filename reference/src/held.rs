//! What a run holds at the first moment of its high-water mark, by the line of the `alloc`; and what the first fault of the depth-first run
//! was met with.

use crate::choices::Pcg;
use crate::depth_first::{run_serially, Turn};
use crate::evaluate::{words_of, Cause, Fault, Site};
use crate::machine::{Machine, Rules, Stop};
use crate::ready_list::ReadyList;
use crate::thread::{Code, Next};
use crate::world::{World, RECORD_WORDS};
use std::collections::BTreeMap;
use std::fmt::Write;

/// The blocks of one `alloc` that are held: how many, and their words.
#[derive(Clone, Copy, Default)]
struct Sum {
    blocks: u64,
    words: u64,
}

/// The text for a command: how many actions were done, the blocks by their sites, the records of forked threads, and the sum of their words.
pub fn held(code: &Code, command: &str, rules: Rules, seed: u64) -> Result<String, Stop> {
    let (mut most, mut actions) = (0, 0);
    each_moment(code, command, rules, seed, &mut |world| {
        if world.live > most {
            (most, actions) = (world.live, world.actions);
        }
        true
    })?;
    let mut text = String::new();
    if most == 0 {
        put_moment(&World::new(code, rules.quota), code, command, &mut text);
    }
    each_moment(code, command, rules, seed, &mut |world| {
        let is_there = most > 0 && world.actions == actions;
        if is_there {
            put_moment(world, code, command, &mut text);
        }
        !is_there
    })?;
    Ok(text)
}

/// Runs a program by a command, and shows the world after each event while `goes_on` says so.
fn each_moment(
    code: &Code,
    command: &str,
    rules: Rules,
    seed: u64,
    goes_on: &mut dyn FnMut(&World) -> bool,
) -> Result<(), Stop> {
    let mut choices = Pcg::from_seed(seed);
    match command {
        "peak" => {
            let is_whole = run_serially(&mut World::new(code, rules.quota), rules.steps, |turn| match turn {
                Turn::Next(_) => true,
                Turn::Done(world) => goes_on(world),
            });
            return if is_whole { Ok(()) } else { Err(Stop::StepsSpent) };
        }
        "async" => {
            let mut list = ReadyList::new(code, rules);
            while !list.has_ended() {
                list.turn(&mut choices)?;
                if !goes_on(&list.world) {
                    break;
                }
            }
        }
        _ => {
            let mut machine = Machine::new(code, rules);
            while !machine.has_ended() {
                machine.turn(&mut choices)?;
                if !goes_on(&machine.world) {
                    break;
                }
            }
        }
    }
    Ok(())
}

/// Puts the lines of a moment into the text. The words of a line are added up here, and do not come from the world's count.
fn put_moment(world: &World, code: &Code, command: &str, text: &mut String) {
    let mut sums: BTreeMap<Site, Sum> = BTreeMap::new();
    for block in world.blocks() {
        let sum = sums.entry(block.site).or_default();
        sum.blocks += u64::from(block.is_front);
        sum.words += words_of(block.numbers.len() as u64);
    }
    let mut rows: Vec<(Site, Sum)> = sums.into_iter().collect();
    rows.sort_by_key(|(_, sum)| std::cmp::Reverse(sum.words));
    let mut put = |words: String| writeln!(text, "{words}").expect("a text takes what is written");
    put(format!("action {}", world.actions));
    for (site, Sum { blocks, words }) in &rows {
        put(format!("alloc {} blocks {blocks} words {words}", site_text(code, site)));
    }
    let threads = world.forked_threads();
    put(format!("records threads {threads} words {}", RECORD_WORDS * threads));
    let total = RECORD_WORDS * threads + rows.iter().map(|(_, sum)| sum.words).sum::<u64>();
    put(format!("{} {total}", if command == "peak" { "peak" } else { "high" }));
}

fn site_text(code: &Code, site: &Site) -> String {
    let function = &code.functions[site.function];
    format!("line {} function {} name {}", site.line, function.name, function.names[site.slot])
}

/// The text on the first fault of the depth-first run, or that it ends well.
pub fn first_fault(code: &Code, rules: Rules) -> Result<String, Stop> {
    let mut found = None;
    let is_whole = run_serially(&mut World::new(code, rules.quota), rules.steps, |turn| {
        if let Turn::Next((world, thread, Next::Fault(fault, line))) = turn {
            found = Some(fault_text(code, fault, line, world.met_by(thread)));
        }
        found.is_none()
    });
    match found {
        Some(text) => Ok(text),
        None if is_whole => Ok("end done\n".to_string()),
        None => Err(Stop::StepsSpent),
    }
}

fn fault_text(code: &Code, fault: Fault, line: u32, (function, cause): (usize, Option<Cause>)) -> String {
    let function = &code.functions[function];
    let met = cause.map_or(String::new(), |Cause { slot, numbers: (first, second) }| {
        let name = slot.map_or("", |slot| &function.names[slot]);
        match fault {
            Fault::Divide => format!(" left {first} right {second}"),
            Fault::Size => format!(" name {name} size {first}"),
            _ => format!(" name {name} place {first} length {second}"),
        }
    });
    format!("fault {fault:?} line {line} function {}{met}\n", function.name)
}
