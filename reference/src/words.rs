//! The command line.

use std::collections::HashMap;

#[derive(Clone, Debug, PartialEq, Eq)]
pub struct Command {
    pub name: &'static str,
    /// Whether what the run holds at its high-water mark is asked for.
    pub is_where: bool,
    numbers: HashMap<&'static str, u64>,
    /// The plain word of `make`: how many groups the made source has.
    pub groups: u64,
}

struct Rule {
    name: &'static str,
    least: u64,
    most: u64,
    factor: u64,
    default: u64,
}

const fn rule(name: &'static str, least: u64, most: u64, factor: u64, default: u64) -> Rule {
    Rule { name, least, most, factor, default }
}

const RULES: [Rule; 6] = [
    rule("k", 16, 1_048_576, 16, 4_096),
    rule("p", 1, 64, 1, 4),
    rule("arena", 16, 67_108_864, 16, 1_048_576),
    rule("steps", 1, 4_000_000, 1, 4_000_000),
    rule("deques", 1, 4_096, 1, 4_096),
    rule("seed", 0, u64::MAX, 1, 1),
];

const GROUPS: Rule = rule("groups", 1, 8_000, 1, 0);
/// A trail has fewer actions than a play may have.
const STEPS_OF_TRAIL: Rule = rule("steps", 1, 400_000, 1, 400_000);

/// The options of the commands that run the machine.
const OF_MACHINE: &[&str] = &["k", "p", "arena", "steps", "deques", "seed"];

/// The ready list has no limit of its own.
const OF_READY_LIST: &[&str] = &["k", "p", "arena", "steps", "seed"];

/// The commands that may come after `where`.
const OF_WHERE: [&str; 3] = ["peak", "play", "async"];

const COMMANDS: [(&str, &[&str]); 18] = [
    ("check", &[]),
    ("peak", &["k", "steps"]),
    ("play", OF_MACHINE),
    ("async", OF_READY_LIST),
    ("run", OF_MACHINE),
    ("make", OF_MACHINE),
    ("loops", OF_MACHINE),
    ("expand", &[]),
    ("trail", OF_MACHINE),
    ("verify", &[]),
    ("replay", &[]),
    ("replay-bound", &[]),
    ("play-books", OF_MACHINE),
    ("trace", OF_MACHINE),
    ("bound", OF_MACHINE),
    ("span", &["k", "steps"]),
    ("steal", &["p", "steps", "seed"]),
    ("fault", &["k", "steps"]),
];

const MOST_DIGITS: usize = 20;

impl Command {
    /// The number of an option, as it was given or by default.
    pub fn number(&self, name: &str) -> u64 {
        self.numbers.get(name).copied().unwrap_or(rule_of(self.name, name).map_or(0, |rule| rule.default))
    }
}

/// The rule of an option of a command.
fn rule_of(command: &str, option: &str) -> Option<&'static Rule> {
    if (command, option) == ("trail", "steps") {
        return Some(&STEPS_OF_TRAIL);
    }
    RULES.iter().find(|rule| rule.name == option)
}

/// The command that the words give, or none.
pub fn read_words(words: &[String]) -> Option<Command> {
    let (first, rest) = words.split_first()?;
    if first == "where" {
        let command = read_words(rest).filter(|it| !it.is_where && OF_WHERE.contains(&it.name))?;
        return Some(Command { is_where: true, ..command });
    }
    let (name, options) = COMMANDS.iter().find(|(name, _)| name == first)?;
    let (mut numbers, mut groups) = (HashMap::new(), Vec::new());
    let mut rest = rest.iter();
    while let Some(word) = rest.next() {
        let Some(item) = word.strip_prefix("--") else {
            groups.push(number(word, &GROUPS)?);
            continue;
        };
        let (option, value) = match item.split_once('=') {
            Some(pair) => pair,
            None => (item, rest.next()?.as_str()),
        };
        let rule = rule_of(name, option).filter(|rule| options.contains(&rule.name))?;
        if numbers.insert(rule.name, number(value, rule)?).is_some() {
            return None;
        }
    }
    let plain_words = usize::from(*name == "make");
    (groups.len() == plain_words).then(|| Command {
        name,
        is_where: false,
        numbers,
        groups: groups.first().copied().unwrap_or(0),
    })
}

fn number(text: &str, rule: &Rule) -> Option<u64> {
    let is_number = (1..=MOST_DIGITS).contains(&text.len()) && text.bytes().all(|byte| byte.is_ascii_digit());
    let value = if is_number { text.parse::<u64>().ok()? } else { return None };
    ((rule.least..=rule.most).contains(&value) && value % rule.factor == 0).then_some(value)
}
