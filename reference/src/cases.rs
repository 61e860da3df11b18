//! Random cases: the words of a command and a source, by kinds. There are five series: one of what the program can do on a whole source of
//! every kind, one of the machine, one of parallel loops, one of trails, and one of ready lists.

use crate::author::{program, Style};
use crate::edges::edge;
use crate::edits::{break_form, break_rule, lay_out};
use crate::looped::{looped, looped_at_limits, Care};
use crate::mended::mended_trail;
use crate::random::Random;
use crate::tiny::tiny;

pub struct Case {
    pub kind: &'static str,
    pub words: Vec<String>,
    pub source: Vec<u8>,
}

pub const KINDS: [&str; 9] = ["good", "faulty", "blocks", "deep", "ill-formed", "ill-typed", "tiny", "prints", "words"];
pub const KINDS_OF_MACHINE: [&str; 5] = ["played", "in threads", "made", "printed", "words of the machine"];
/// The place of `run` among the kinds of the machine.
const IN_THREADS: u64 = 1;
pub const KINDS_OF_TRAILS: [&str; 3] = ["mended trails", "trailed", "words of trails"];
pub const KINDS_OF_READY: [&str; 2] = ["with a ready list", "words of ready lists"];
pub const KINDS_OF_LOOPS: [&str; 5] = ["looped", "mistaken loops", "broken loops", "loops at limits", "words of loops"];

/// The case of a number. The same number gives the same case.
pub fn case(number: u64) -> Case {
    let mut random = Random(number.wrapping_mul(0x2545_f491_4f6c_dd1d));
    let kind = KINDS[(number % KINDS.len() as u64) as usize];
    let source = source_of(&mut random, kind);
    let words = if kind == "words" { any_words(&mut random) } else { words_of(&mut random, kind) };
    Case { kind, words, source }
}

/// The case of a number that has the machine run: `play` with all its options, `run` and `make`.
pub fn machine_case(number: u64) -> Case {
    let mut random = Random(number.wrapping_mul(0x9e6c_63d0_876a_68de));
    let kind = KINDS_OF_MACHINE[(number % KINDS_OF_MACHINE.len() as u64) as usize];
    let source = match kind {
        "made" => Vec::new(),
        "printed" => source_of(&mut random, "prints"),
        _ => {
            let of_source = source_kind(&mut random);
            source_of(&mut random, of_source)
        }
    };
    let words = match kind {
        "words of the machine" => any_words_of(&mut random, &["play", "play", "run", "make", "make", "Play", "--p", "plays"]),
        _ => machine_words(&mut random, kind),
    };
    Case { kind, words, source }
}

/// How many numbers of a series may belong to one number of a command.
const NUMBERS_A_COMMAND: u64 = 64;

/// The first case of a series, from a place on that the number names, whose words begin with a command.
fn first_of(command: &str, series: fn(u64) -> Case, number: u64) -> Case {
    let first = number.wrapping_mul(NUMBERS_A_COMMAND);
    let of_command = |it: &Case| it.words.first().is_some_and(|word| word == command);
    (0..NUMBERS_A_COMMAND).map(|at| series(first.wrapping_add(at))).find(of_command).unwrap_or_else(|| series(first))
}

/// The case of a number whose command is `peak`.
pub fn peak_case(number: u64) -> Case {
    first_of("peak", case, number)
}

/// The case of a number whose command is `trail`.
pub fn recorded_case(number: u64) -> Case {
    first_of("trail", trail_case, number)
}

/// The case of a number whose command is `verify`.
pub fn verified_case(number: u64) -> Case {
    first_of("verify", trail_case, number)
}

/// The case of a number that runs in threads.
pub fn run_case(number: u64) -> Case {
    let kinds = KINDS_OF_MACHINE.len() as u64;
    machine_case(number.wrapping_mul(kinds).wrapping_add(IN_THREADS))
}

/// The case of a number that has parallel loops: `expand`, and `loops` with all its options.
pub fn loop_case(number: u64) -> Case {
    let mut random = Random(number.wrapping_mul(0xd1b5_4a32_d192_ed03));
    let kind = KINDS_OF_LOOPS[(number % KINDS_OF_LOOPS.len() as u64) as usize];
    let mistake_one_in = if kind == "mistaken loops" { *random.pick(&[3, 8, 20]) } else { 0 };
    let text = match kind {
        "loops at limits" => looped_at_limits(&mut random),
        _ => looped(&mut random, Care { mistake_one_in }),
    };
    let source = match kind {
        "broken loops" => break_form(&mut random, &text),
        "loops at limits" => text.into_bytes(),
        _ if random.once_in(2) => lay_out(&mut random, &text).into_bytes(),
        _ => text.into_bytes(),
    };
    let words = match kind {
        "words of loops" => any_words_of(&mut random, &["loops", "loops", "expand", "expand", "loop", "Expand", "--k"]),
        _ if random.once_in(3) => vec!["expand".to_string()],
        _ => [vec!["loops".to_string()], machine_options(&mut random, true).concat()].concat(),
    };
    Case { kind, words, source }
}

/// The case of a number that has trails: `trail` with all its options, and `verify` of a trail that was mended.
pub fn trail_case(number: u64) -> Case {
    let mut random = Random(number.wrapping_mul(0xa24b_aed4_963e_e407));
    let kind = KINDS_OF_TRAILS[[0, 0, 0, 1, 1, 2][(number % 6) as usize]];
    let source = match kind {
        "mended trails" => mended_trail(&mut random),
        _ => {
            let of_source = source_kind(&mut random);
            source_of(&mut random, of_source)
        }
    };
    let words = match kind {
        "mended trails" => vec!["verify".to_string()],
        "words of trails" => {
            any_words_of(&mut random, &["trail", "trail", "trail", "verify", "verify", "Trail", "trails", "--k"])
        }
        _ => [vec!["trail".to_string()], machine_options(&mut random, true).concat()].concat(),
    };
    Case { kind, words, source }
}

/// The case of a number that has a ready list: `async` with all its options.
pub fn ready_case(number: u64) -> Case {
    let mut random = Random(number.wrapping_mul(0xc2b2_ae3d_27d4_eb4f));
    let kind = KINDS_OF_READY[usize::from(number.is_multiple_of(6))];
    let of_source = source_kind(&mut random);
    let source = source_of(&mut random, of_source);
    let words = if kind == "words of ready lists" {
        any_words_of(&mut random, &["async", "async", "async", "Async", "asyn", "--deques"])
    } else {
        let mut options = machine_options(&mut random, true);
        options.retain(|option| !option[0].starts_with("--deques"));
        [vec!["async".to_string()], options.concat()].concat()
    };
    Case { kind, words, source }
}

/// The words and the source of a play that a trail may be made of: a short one, or one that stops.
pub fn short_play(random: &mut Random) -> (Vec<String>, Vec<u8>) {
    let of_source = *random.pick(&["good", "faulty", "blocks", "prints", "tiny"]);
    let source = source_of(random, of_source);
    let mut options = machine_options(random, true);
    options.retain(|option| option[0] != "--steps");
    options.push(option("steps", 400));
    (options.concat(), source)
}

/// The kind of a source that is played: most are accepted, and some are refused.
fn source_kind(random: &mut Random) -> &'static str {
    if random.once_in(12) {
        *random.pick(&["ill-formed", "ill-typed"])
    } else {
        *random.pick(&["good", "faulty", "blocks", "deep", "tiny", "prints"])
    }
}

/// A source of a kind.
pub fn source_of(random: &mut Random, kind: &str) -> Vec<u8> {
    let text = match kind {
        "good" => sized_program(random, false, false),
        "faulty" => sized_program(random, true, true),
        "deep" => edge(random),
        "prints" => prints(random),
        "tiny" => tiny(random),
        "ill-formed" => {
            let text = any_program(random, 14);
            return break_form(random, &text);
        }
        "ill-typed" if random.once_in(2) => careless_program(random),
        "ill-typed" => {
            let text = any_program(random, 24);
            break_rule(random, &text)
        }
        "words" => any_program(random, 6),
        _ => sized_program(random, true, false),
    };
    if random.once_in(3) {
        lay_out(random, &text).into_bytes()
    } else {
        text.into_bytes()
    }
}

fn style(statements: u64, has_blocks: bool, is_faulty: bool) -> Style {
    Style { has_blocks, is_faulty, careless: 0, statements }
}

fn careless_program(random: &mut Random) -> String {
    let careless = *random.pick(&[4, 10, 25]);
    let statements = random.between(2, 40);
    program(random, Style { has_blocks: true, is_faulty: false, careless, statements })
}

fn sized_program(random: &mut Random, has_blocks: bool, is_faulty: bool) -> String {
    let statements = random_size(random);
    program(random, style(statements, has_blocks, is_faulty))
}

fn random_size(random: &mut Random) -> u64 {
    if random.once_in(3) {
        random.between(20, 120)
    } else {
        random.between(1, 30)
    }
}

fn any_program(random: &mut Random, most: u64) -> String {
    if random.once_in(12) {
        return edge(random);
    }
    let statements = random.between(1, most);
    let has_blocks = !random.once_in(4);
    program(random, style(statements, has_blocks, false))
}

/// A program that only prints numbers and forks.
fn prints(random: &mut Random) -> String {
    let mut text = String::from("fn main() {\n");
    print_list(random, &mut text, 0);
    text + "}\n"
}

fn print_list(random: &mut Random, text: &mut String, level: u64) {
    for _ in 0..random.below(4) {
        if level < 8 && random.once_in(2) {
            text.push_str("par {\n");
            print_list(random, text, level + 1);
            text.push_str("} and {\n");
            print_list(random, text, level + 1);
            text.push_str("}\n");
        } else {
            text.push_str(&format!("print {};\n", random.below(1_000)));
        }
    }
}

fn words_of(random: &mut Random, kind: &str) -> Vec<String> {
    let is_checked = matches!(kind, "ill-formed" | "ill-typed" | "tiny");
    let command = match random.below(8) {
        0 if !is_checked => "check",
        1..=5 if is_checked => "check",
        6 | 7 if kind == "prints" => "play",
        7 if is_checked => "play",
        _ => "peak",
    };
    let mut words = vec![command.to_string()];
    if command != "check" && random.once_in(2) {
        let most = *random.pick(&[1, 1, 2, 4, 16, 256, 65_536]);
        words.extend(option("k", 16 * random.between(1, most)));
    }
    if command == "peak" && random.once_in(5) {
        words.extend(option("steps", random.between(1, 200)));
    }
    if command == "play" && random.once_in(2) {
        words.extend(option("p", random.between(1, 64)));
    }
    words
}

/// A run in threads gets no limits: which of them it meets may depend on the order of its events.
fn machine_words(random: &mut Random, kind: &str) -> Vec<String> {
    let command = *random.pick(match kind {
        "in threads" => &["run"],
        "made" => &["make"],
        _ => &["play"],
    });
    let mut options = machine_options(random, kind != "in threads");
    if kind == "made" {
        let most = *random.pick(&[1, 4, 70, 200, 200, 200, 1_000]);
        let at = random.below(options.len() as u64 + 1) as usize;
        options.insert(at, vec![random.between(1, most).to_string()]);
    }
    [vec![command.to_string()], options.concat()].concat()
}

fn machine_options(random: &mut Random, has_limits: bool) -> Vec<Vec<String>> {
    let mut options = Vec::new();
    let mut put = |random: &mut Random, name, one_in, value| {
        if random.once_in(one_in) {
            let at = random.below(options.len() as u64 + 1) as usize;
            options.insert(at, option(name, value));
        }
    };
    let most = *random.pick(&[1, 1, 2, 4, 16, 256]);
    let (quota, workers) = (16 * random.between(1, most), random.between(1, 64));
    let seed = random.word() >> random.below(64);
    put(random, "k", 1, quota);
    put(random, "p", 1, workers);
    put(random, "seed", 2, seed);
    if has_limits {
        let (arena, steps, deques) = (16 * random.between(1, 200), random.between(1, 200), random.between(1, 8));
        put(random, "arena", 6, arena);
        put(random, "steps", 6, steps);
        put(random, "deques", 6, deques);
    }
    options
}

fn option(name: &str, value: u64) -> Vec<String> {
    vec![format!("--{name}"), value.to_string()]
}

const ANY_NAMES: [&str; 12] = ["k", "k", "k", "steps", "steps", "p", "K", "", "kk", "ste", "check", "-k"];
const ANY_VALUES: [&str; 24] = [
    "16",
    "32",
    "4096",
    "016",
    "1048576",
    "1048592",
    "0",
    "1",
    "24",
    "",
    "-16",
    "+16",
    "16.0",
    "4000000",
    "4000001",
    "00000000000000000016",
    "000000000000000000016",
    "18446744073709551616",
    "18446744073709551632",
    "x",
    " 16",
    "16 ",
    "=16",
    "1",
];

/// Words that may be a command or none.
fn any_words(random: &mut Random) -> Vec<String> {
    let commands = ["check", "check", "peak", "peak", "peak", "peak", "Peak", "", "--k", "help", "--", "pea"];
    words_like(random, &commands, &ANY_NAMES)
}

/// The same of the commands that run the machine, with all its options.
fn any_words_of(random: &mut Random, commands: &[&str]) -> Vec<String> {
    let mut names = ANY_NAMES.to_vec();
    names.extend(["p", "p", "arena", "seed", "seed", "deques", "n", "groups"]);
    words_like(random, commands, &names)
}

fn words_like(random: &mut Random, commands: &[&str], names: &[&str]) -> Vec<String> {
    let command = *random.pick(commands);
    let mut words = vec![command.to_string()];
    for _ in 0..random.below(4) {
        let (name, value) = (*random.pick(names), *random.pick(&ANY_VALUES));
        match random.below(8) {
            0 => words.push(format!("--{name}")),
            1 => words.push(value.to_string()),
            2..=4 => words.push(format!("--{name}={value}")),
            _ => words.extend([format!("--{name}"), value.to_string()]),
        }
    }
    if random.once_in(24) {
        Vec::new()
    } else {
        words
    }
}
