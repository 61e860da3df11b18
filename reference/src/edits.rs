//! Small random edits of a source: of its bytes and tokens, which mostly end in no text, and of its names, words and lines,
//! which mostly end in a text that breaks a rule of ownership.

use crate::random::Random;

const ANY_TOKENS: [&str; 44] = [
    "fn",
    "let",
    "alloc",
    "free",
    "if",
    "else",
    "while",
    "call",
    "print",
    "par",
    "and",
    "split",
    "at",
    "into",
    "return",
    "use",
    "own",
    "len",
    "(",
    ")",
    "{",
    "}",
    "[",
    "]",
    ",",
    ";",
    "=",
    "+",
    "-",
    "*",
    "/",
    "%",
    "<",
    "<=",
    ">",
    ">=",
    "==",
    "!=",
    "!",
    "0",
    "17",
    "n0",
    "12ab",
    "9223372036854775808",
];
const ANY_BYTES: [u8; 16] = *b"#;{}()[]-\n\t\r\x00\x7f\xfc$";

/// The pieces of a source: names and numbers, single other bytes, and blanks.
fn pieces(text: &str) -> Vec<String> {
    let mut all: Vec<String> = Vec::new();
    let mut goes_on = false;
    for letter in text.chars() {
        let is_word = letter.is_ascii_alphanumeric() || letter == '_';
        match all.last_mut() {
            Some(last) if goes_on && is_word => last.push(letter),
            _ => all.push(letter.to_string()),
        }
        goes_on = is_word;
    }
    all
}

fn place_of_token(random: &mut Random, all: &[String]) -> usize {
    let places: Vec<usize> = (0..all.len()).filter(|place| !all[*place].trim().is_empty()).collect();
    random.pick_some(&places).copied().unwrap_or(0)
}

/// Breaks the form of a text, or leaves it by chance.
pub fn break_form(random: &mut Random, text: &str) -> Vec<u8> {
    let mut all = pieces(text);
    for _ in 0..random.between(1, 2) {
        if all.is_empty() {
            break;
        }
        let place = place_of_token(random, &all);
        match random.below(6) {
            0 => drop(all.remove(place)),
            1 => all.insert(place, format!(" {} ", random.pick(&ANY_TOKENS))),
            2 => all[place] = format!(" {} ", random.pick(&ANY_TOKENS)),
            3 => all.swap(place, random_place(random, text, place)),
            4 => all.truncate(place),
            _ => all.insert(place, all[place].clone()),
        }
    }
    let mut bytes = all.concat().into_bytes();
    if random.once_in(4) && !bytes.is_empty() {
        let place = random.below(bytes.len() as u64) as usize;
        bytes.insert(place, *random.pick(&ANY_BYTES));
    }
    bytes
}

fn random_place(random: &mut Random, text: &str, place: usize) -> usize {
    let near = place + random.below(4) as usize;
    near.min(pieces(text).len().saturating_sub(3)).min(place.max(1))
}

fn is_name(piece: &str) -> bool {
    let is_short = piece.starts_with('n') || piece.starts_with('f') || piece == "main";
    is_short && piece.len() > 1 && (piece == "main" || piece[1..].bytes().all(|byte| byte.is_ascii_digit()))
}

/// Leaves a text of the grammar, mostly, but breaks a rule of ownership.
pub fn break_rule(random: &mut Random, text: &str) -> String {
    let mut text = text.to_string();
    for _ in 0..random.between(1, 3) {
        text = match random.below(7) {
            0 | 1 => with_other_name(random, &text),
            2 => with_lines(
                random,
                &text,
                |random, lines, place| {
                    if random.once_in(2) {
                        lines.remove(place)
                    } else {
                        String::new()
                    }
                },
            ),
            3 => with_lines(random, &text, |_, lines, place| {
                let line = lines[place].clone();
                lines.insert(place, line);
                String::new()
            }),
            4 => with_lines(random, &text, |random, lines, place| {
                let line = lines.remove(place);
                let to = random.below(lines.len() as u64 + 1) as usize;
                lines.insert(to, line);
                String::new()
            }),
            5 => with_other_word(random, &text),
            _ => with_new_line(random, &text),
        };
    }
    text
}

fn with_other_name(random: &mut Random, text: &str) -> String {
    let mut all = pieces(text);
    let names: Vec<usize> = (0..all.len()).filter(|place| is_name(&all[*place])).collect();
    if let Some(place) = random.pick_some(&names).copied() {
        let other = *random.pick(&names);
        all[place] = if random.once_in(8) { "unknown".to_string() } else { all[other].clone() };
    }
    all.concat()
}

/// Changes whole lines that are statements without a body.
fn with_lines(random: &mut Random, text: &str, change: impl Fn(&mut Random, &mut Vec<String>, usize) -> String) -> String {
    let mut lines: Vec<String> = text.lines().map(String::from).collect();
    let simple: Vec<usize> =
        (0..lines.len()).filter(|place| lines[*place].ends_with(';') && !lines[*place].starts_with("return")).collect();
    if let Some(place) = random.pick_some(&simple).copied() {
        change(random, &mut lines, place);
    }
    lines.join("\n") + "\n"
}

fn with_other_word(random: &mut Random, text: &str) -> String {
    let mut all = pieces(text);
    let words: Vec<usize> = (0..all.len()).filter(|place| all[*place] == "use" || all[*place] == "own").collect();
    if let Some(place) = random.pick_some(&words).copied() {
        all[place] = match random.below(4) {
            0 => String::new(),
            _ if all[place] == "use" => "own".to_string(),
            _ => "use".to_string(),
        };
    }
    all.concat()
}

fn with_new_line(random: &mut Random, text: &str) -> String {
    let name = format!("n{}", random.below(8));
    let other = format!("n{}", random.below(8));
    let line = match random.below(9) {
        0 => format!("free {name};"),
        1 => format!("let {name} = {other};"),
        2 => format!("alloc {name} = 1;"),
        3 => format!("{name} = {other};"),
        4 => format!("{name}[{other}] = len({other});"),
        5 => format!("call f{}({name});", random.below(3)),
        6 => format!("call f{}(use {name}, own {other});", random.below(3)),
        7 => format!("call own {name} = f{}();", random.below(3)),
        _ => format!("split {name} at 0 into {other}, {other} {{ }}"),
    };
    let mut lines: Vec<String> = text.lines().map(String::from).collect();
    let inner: Vec<usize> = (1..lines.len()).filter(|place| !lines[*place].starts_with("fn")).collect();
    if let Some(place) = random.pick_some(&inner).copied() {
        lines.insert(place, line);
    }
    lines.join("\n") + "\n"
}

/// Another layout of the same text: other blanks, and comments.
pub fn lay_out(random: &mut Random, text: &str) -> String {
    let mut laid = String::new();
    for letter in text.chars() {
        match letter {
            '\n' if random.once_in(4) => laid.push(' '),
            '\n' if random.once_in(10) => laid.push_str(" # a note; { \n"),
            '\n' if random.once_in(10) => laid.push_str("\r\n\n"),
            ' ' if random.once_in(12) => laid.push_str("\t \n"),
            _ => laid.push(letter),
        }
    }
    laid
}
