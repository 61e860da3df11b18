//! Runs the program and the reference on random cases, and prints where they differ with the smallest source that shows it.

use crate::cases::{
    case, loop_case, machine_case, peak_case, ready_case, recorded_case, run_case, trail_case, verified_case, Case, KINDS,
    KINDS_OF_LOOPS, KINDS_OF_MACHINE, KINDS_OF_READY, KINDS_OF_TRAILS,
};
use crate::command::{accepted, answer_to, command_of, Answer};
use crate::depth_first::depth_first;
use crate::resolve::resolve;
use crate::selfcheck;
use crate::smaller::smallest;
use std::collections::BTreeMap;
use std::io::Write;
use std::panic::catch_unwind;
use std::path::Path;
use std::process::{Command, Stdio};
use std::time::Instant;

struct Plan {
    product: String,
    count: u64,
    from: u64,
    /// The one series that is compared, if not all are: then each number has a case of it.
    only: Option<fn(u64) -> Case>,
}

const MOST_DIFFERENCES: u64 = 10;
const SHOWN_BYTES: usize = 400;
/// One number in so many has a case of the machine too, one of parallel loops, and one of trails.
const MACHINE_ONE_IN: u64 = 4;

/// The exit status: 0 where nothing differs, 1 where something does, 2 where the words are wrong.
pub fn compare(words: &[String]) -> u8 {
    let Some(plan) = read_plan(words) else {
        eprintln!(
            "usage: reference/compare [--product FILE] [--count N] [--from N] \
             [--only machine|run|loops|trails|async|peak|trail|verify]"
        );
        return 2;
    };
    if !Path::new(&plan.product).exists() {
        eprintln!("compare: there is no program {}", plan.product);
        return 2;
    }
    std::panic::set_hook(Box::new(|_| {}));
    let (began, mut tally) = (Instant::now(), Tally::default());
    for number in plan.from..plan.from + plan.count {
        if let Some(only) = plan.only {
            one_case(&plan, number, &only(number), &mut tally);
        } else {
            all_of(&plan, number, &mut tally);
        }
        if tally.differences >= MOST_DIFFERENCES {
            println!("compare: stopped at {MOST_DIFFERENCES} differences");
            break;
        }
    }
    tally.print(began.elapsed().as_secs());
    u8::from(tally.differences > 0)
}

/// Compares the cases of a number.
fn all_of(plan: &Plan, number: u64, tally: &mut Tally) {
    let case = case(number);
    one_case(plan, number, &case, tally);
    check_own_runs(number, &case, tally);
    if number.is_multiple_of(MACHINE_ONE_IN) {
        one_case(plan, number, &machine_case(number), tally);
        one_case(plan, number, &loop_case(number / MACHINE_ONE_IN), tally);
        one_case(plan, number, &trail_case(number / MACHINE_ONE_IN), tally);
        one_case(plan, number, &ready_case(number / MACHINE_ONE_IN), tally);
    }
}

fn read_plan(words: &[String]) -> Option<Plan> {
    let mut plan = Plan { product: String::new(), count: 1_000, from: 1, only: None };
    for pair in words.chunks(2) {
        let [name, value] = pair else { return None };
        match name.as_str() {
            "--product" => plan.product = value.clone(),
            "--count" => plan.count = value.parse().ok()?,
            "--from" => plan.from = value.parse().ok()?,
            "--only" if value == "machine" => plan.only = Some(machine_case),
            "--only" if value == "run" => plan.only = Some(run_case),
            "--only" if value == "loops" => plan.only = Some(loop_case),
            "--only" if value == "trails" => plan.only = Some(trail_case),
            "--only" if value == "async" => plan.only = Some(ready_case),
            "--only" if value == "peak" => plan.only = Some(peak_case),
            "--only" if value == "trail" => plan.only = Some(recorded_case),
            "--only" if value == "verify" => plan.only = Some(verified_case),
            _ => return None,
        }
    }
    Some(plan)
}

#[derive(Default)]
struct Tally {
    /// By kind, command and status.
    compared: BTreeMap<(&'static str, String, i32), u64>,
    /// By what is answered: a refusal, a fault, a stop, or that the work was done.
    answers: BTreeMap<String, u64>,
    left_open: u64,
    played: u64,
    differences: u64,
}

impl Tally {
    fn compared_of(&self, kinds: &[&str]) -> u64 {
        self.compared.iter().filter(|((kind, _, _), _)| kinds.contains(kind)).map(|(_, count)| count).sum()
    }

    /// How many cases of each command were compared. Those whose words are no command are under `words`.
    fn by_command(&self) -> BTreeMap<&str, u64> {
        let mut counts = BTreeMap::new();
        for ((_, command, _), count) in &self.compared {
            *counts.entry(command.as_str()).or_default() += count;
        }
        counts
    }

    fn print(&self, seconds: u64) {
        for kind in KINDS.iter().chain(&KINDS_OF_MACHINE).chain(&KINDS_OF_LOOPS).chain(&KINDS_OF_TRAILS).chain(&KINDS_OF_READY) {
            let of_kind = self.compared.iter().filter(|((it, _, _), _)| it == kind);
            let counts: Vec<String> =
                of_kind.map(|((_, command, status), count)| format!("{command} with status {status}: {count}")).collect();
            println!("{kind}: {}", counts.join(", "));
        }
        let answers: Vec<String> = self.answers.iter().map(|(answer, count)| format!("{answer} {count}")).collect();
        println!("answers: {}", answers.join(", "));
        let counts: Vec<String> = self.by_command().iter().map(|(command, count)| format!("{command} {count}")).collect();
        println!("commands: {}", counts.join(", "));
        println!(
            "compare: {} cases, {} of the machine, {} of parallel loops, {} of trails, {} of ready lists, {} differences, {seconds} s; \
             {} runs in threads whose end depends on the order of events; \
             {} programs run by the reference's own workers, all within the bound if nothing differs",
            self.compared_of(&KINDS),
            self.compared_of(&KINDS_OF_MACHINE),
            self.compared_of(&KINDS_OF_LOOPS),
            self.compared_of(&KINDS_OF_TRAILS),
            self.compared_of(&KINDS_OF_READY),
            self.differences,
            self.left_open,
            self.played
        );
    }
}

enum Verdict {
    Same,
    Different,
    /// The order in which threads came decides.
    Open,
}

fn one_case(plan: &Plan, number: u64, case: &Case, tally: &mut Tally) {
    let got = product_answer(&plan.product, &case.words, &case.source);
    let due = reference_answer(&case.words, &case.source);
    match verdict(&case.words, &case.source, &due, &got) {
        Verdict::Open => tally.left_open += 1,
        Verdict::Different => {
            tally.differences += 1;
            tell_difference(plan, number, case);
        }
        Verdict::Same => {
            let command = if got.status == 1 { "words" } else { command_name(&case.words) };
            *tally.compared.entry((case.kind, command.to_string(), got.status)).or_default() += 1;
            *tally.answers.entry(word_of(&due)).or_default() += 1;
        }
    }
}

/// The word of a refusal, a fault or a stop.
fn word_of(answer: &Answer) -> String {
    let mark = if answer.status == 6 { "end fault " } else { "" };
    let line = answer.text.lines().find(|line| !mark.is_empty() && line.starts_with(mark));
    let line = line.or_else(|| answer.text.lines().next()).unwrap_or("");
    match answer.status {
        0 => "done".to_string(),
        1 => "usage".to_string(),
        6 => line.strip_prefix(mark).map_or("trail of a fault", |it| it.split(' ').next().unwrap_or("")).to_string(),
        _ => line.split(' ').nth(1).unwrap_or("").to_string(),
    }
}

/// Every fourth accepted program is run by the reference's own workers too.
fn check_own_runs(number: u64, case: &Case, tally: &mut Tally) {
    if !(number / KINDS.len() as u64).is_multiple_of(4) {
        return;
    }
    let outcome = catch_unwind(|| accepted(&case.source).ok().map(|program| selfcheck::broken_promise(&program, number)));
    match outcome {
        Ok(None) => {}
        Ok(Some(None)) => tally.played += 1,
        Ok(Some(Some(words))) => tell_broken(number, case, &words, tally),
        Err(_) => tell_broken(number, case, "the reference broke off", tally),
    }
}

fn tell_broken(number: u64, case: &Case, words: &str, tally: &mut Tally) {
    tally.differences += 1;
    println!("DIFFERENT: case {number}, within the reference: {words}\nsource:\n{}", String::from_utf8_lossy(&case.source));
}

fn reference_answer(words: &[String], source: &[u8]) -> Answer {
    let broken = Answer { status: -2, text: "the reference broke off".to_string() };
    catch_unwind(|| answer_to(words, source)).unwrap_or(broken)
}

fn product_answer(product: &str, words: &[String], source: &[u8]) -> Answer {
    let run = || -> std::io::Result<Answer> {
        let mut child =
            Command::new(product).args(words).stdin(Stdio::piped()).stdout(Stdio::piped()).stderr(Stdio::null()).spawn()?;
        if let Some(mut input) = child.stdin.take() {
            // Where the words are wrong, the source is not read.
            let _ = input.write_all(source);
        }
        let out = child.wait_with_output()?;
        let text = String::from_utf8_lossy(&out.stdout).into_owned();
        Ok(Answer { status: out.status.code().unwrap_or(-1), text })
    };
    run().unwrap_or_else(|error| Answer { status: -3, text: error.to_string() })
}

fn command_name(words: &[String]) -> &str {
    words.first().map_or("", String::as_str)
}

fn verdict(words: &[String], source: &[u8], due: &Answer, got: &Answer) -> Verdict {
    let depends_on_order = |it: &Answer| command_name(words) == "run" && matches!(it.status, 8 | 9);
    if agree(words, source, due, got) {
        Verdict::Same
    } else if depends_on_order(due) || depends_on_order(got) {
        Verdict::Open
    } else {
        Verdict::Different
    }
}

/// Answers are the same to the byte. But of a run in threads the numbers after the finish depend on the order of its events, and
/// have to be within the bound.
fn agree(words: &[String], source: &[u8], due: &Answer, got: &Answer) -> bool {
    if due.status != got.status || due.text == got.text {
        return due.status == got.status;
    }
    let is_report = due.status == 0 || due.status == 6;
    match command_name(words) {
        "run" => is_report && front(&got.text) == front(&due.text) && is_within_bound(words, source, &got.text),
        _ => false,
    }
}

/// A report up to its finish.
fn front(text: &str) -> &str {
    text.split("periods ").next().unwrap_or("")
}

/// Whether the high-water mark of a report is at most the peak and twice the quota for each marked period.
fn is_within_bound(words: &[String], source: &[u8], text: &str) -> bool {
    let (Ok(command), Ok(program)) = (command_of(words), accepted(source)) else { return false };
    let quota = command.number("k");
    let Some(serial) = depth_first(&resolve(&program), quota, command.number("steps")) else { return false };
    let number = |name: &str| text.lines().find_map(|line| line.strip_prefix(name)?.parse::<u64>().ok());
    match (number("periods "), number("ahead "), number("high ")) {
        (Some(periods), Some(ahead), Some(high)) => ahead <= periods && high <= serial.peak + 2 * quota * ahead,
        _ => text == front(text),
    }
}

fn differ(plan: &Plan, words: &[String], source: &[u8]) -> bool {
    let got = product_answer(&plan.product, words, source);
    matches!(verdict(words, source, &reference_answer(words, source), &got), Verdict::Different)
}

fn shown(text: &str) -> String {
    match text.char_indices().nth(SHOWN_BYTES) {
        Some((end, _)) => format!("{}[..]\n", &text[..end]),
        None => text.to_string(),
    }
}

fn tell_difference(plan: &Plan, number: u64, case: &Case) {
    let source = smallest(&case.source, |source| differ(plan, &case.words, source));
    let got = product_answer(&plan.product, &case.words, &source);
    let due = reference_answer(&case.words, &source);
    println!("DIFFERENT: case {number}, {}, words: {}", case.kind, case.words.join(" "));
    println!("source, {} bytes:\n{}", source.len(), shown(&String::from_utf8_lossy(&source)));
    println!("the program: status {}, {}", got.status, shown(&got.text));
    println!("the reference: status {}, {}", due.status, shown(&due.text));
}
