//! Worked rows of halls: scripts of calls by seats, and what each call has to answer. The answers were worked out by hand from the rules,
//! and not by this program. After each single step the law of the hall is checked too.

use crate::command::accepted;
use crate::good_trail::Setting;
use crate::hall::{Answer, End, Hall, Stop, Told, LIST};
use crate::hall_calls::{Call, Refusal};
use crate::hall_machine::{Checked, Law};
use crate::hall_seats::{closed, receipt, seats_stand};
use crate::machine::{Rules, Stop as RuleStop};
use crate::resolve::resolve;

/// A row: its name, the source, the quota, the workers, the arena, the deques, the calls, and the answers.
///
/// A call is the number of a seat and `enter`, `steal WORD`, `act`, `give-up`, `halt`, `leave INTO`, `close`, or `some TRIES`: so many tries
/// with words of 0. `hold WORD` is a steal that stops once it holds the list; `go` is the rest of it.
pub struct HallRow(pub &'static str, &'static str, u64, usize, u64, usize, &'static str, pub &'static str);

const THREE_LINES: &str = "fn main() { par { print 1; } and { print 2; } print 3; }";
const TWO_BLOCKS: &str = "fn main() { par { alloc a = 16; free a; } and { alloc b = 16; free b; } }";
const LARGE: &str = "fn main() { alloc b = 40; free b; }";
const TWO_SIZES: &str = "fn main() { par { alloc a = 16; free a; } and { alloc b = 32; free b; } }";
const FAULTED_CHILD: &str = "fn f(use u) { alloc n = 2; par { n[2] = 1; } and { u[0] = 1; } free n; } \
    fn main() { alloc a = 1; alloc c = 1; call f(use a); free a; free c; }";
const FAULTED_ROOT: &str = "fn main() { alloc a = 16; par { a[0] = 1; print 7; } and { print 1 / 0; } free a; }";
const ARENA: u64 = 1_048_576;

pub const HALL_ROWS: &[HallRow] = &[
    HallRow(
        "a held list, and an owner that acts beside it",
        THREE_LINES,
        16,
        2,
        ARENA,
        64,
        "0 steal 0/0 enter/1 hold 0/0 act/0 act/0 act/0 act/1 go/0 act/0 enter/0 close/1 leave 0/0 enter/0 close",
        "stole 0 period 1/entered 1/holds/did Fork(1)/did End/did Join(1)/busy slot 0 seen 1/nothing/did End/crowded/\
         still in 1/left/over finished/closed finished periods 1 ahead 0 root",
    ),
    HallRow(
        "one seat that gives up and suspends",
        THREE_LINES,
        16,
        1,
        ARENA,
        64,
        "0 steal 0/0 act/0 give-up/0 steal 0/0 act/0 steal 0/0 act/0 act/0 act/0 steal 0/0 close",
        "stole 0 period 1/did Fork(1)/gave up 0/stole 1 period 2/suspended 0 0/stole 0 period 3/did End/did Join(1)/did End/\
         over finished/closed finished periods 3 ahead 1 root",
    ),
    HallRow(
        "an owner that needs the pool and not the list",
        TWO_BLOCKS,
        64,
        2,
        ARENA,
        64,
        "0 steal 0/0 enter/1 hold 0/0 act/0 act/0 act/0 act/0 act/0 act/0 act/0 act",
        "stole 0 period 1/entered 1/holds/did Fork(1)/did Alloc/did Release/did End/did Alloc/did Release/did Join(1)/\
         busy slot 0 seen 1",
    ),
    HallRow(
        "a seat that leaves its deque to another",
        THREE_LINES,
        16,
        2,
        ARENA,
        64,
        "0 steal 0/0 act/0 enter/0 leave 1/1 steal 0/1 act/1 steal 0/1 act/1 act/1 act/1 close",
        "stole 0 period 1/did Fork(1)/entered 1/left/stole 1 period 2/suspended 0 0/stole 0 period 3/did End/did Join(1)/did End/\
         closed finished periods 3 ahead 1 root",
    ),
    HallRow(
        "two deques allowed, in a hall",
        LARGE,
        16,
        1,
        ARENA,
        2,
        "0 steal 0/0 act/0 act/0 steal 0/0 act/0 steal 0/0 act/0 act/0 steal 0/0 close",
        "stole 0 period 1/did Fork(1)/gave up 0/stole 1 period 2/did Dummy/stole 0 period 3/did Fork(1)/did Dummy/\
         stopped deques full/closed deques full periods 3 ahead 1",
    ),
    HallRow(
        "three tries, and ten more",
        THREE_LINES,
        16,
        1,
        ARENA,
        64,
        "0 some 3/0 some 10/0 close",
        "spent 3/over finished/closed finished periods 1 ahead 0 root",
    ),
    HallRow(
        "two tries, of which one finds a stop, and one that keeps it",
        LARGE,
        64,
        1,
        32,
        64,
        "0 some 2/0 some 1/0 close",
        "spent 1/over arena full live 0 asked 48/closed arena full live 0 asked 48 periods 1 ahead 0",
    ),
    HallRow(
        "five tries of an idle seat",
        THREE_LINES,
        16,
        2,
        ARENA,
        64,
        "0 steal 0/0 enter/1 some 5",
        "stole 0 period 1/entered 1/refused 0 nothing",
    ),
    HallRow(
        "a full arena in a hall",
        LARGE,
        64,
        1,
        32,
        64,
        "0 steal 0/0 act/0 halt/0 close",
        "stole 0 period 1/stopped arena full live 0 asked 48/halted arena full live 0 asked 48/\
         closed arena full live 0 asked 48 periods 1 ahead 0",
    ),
    HallRow(
        "two stops, of which the first is kept",
        TWO_SIZES,
        64,
        2,
        16,
        64,
        "0 steal 0/0 act/0 enter/1 steal 0/0 act/1 act/0 halt/1 halt/1 leave 0/0 close",
        "stole 0 period 1/did Fork(1)/entered 1/stole 1 period 2/stopped arena full live 16 asked 16/\
         stopped arena full live 16 asked 32/halted arena full live 16 asked 16/halted arena full live 16 asked 16/left/\
         closed arena full live 16 asked 16 periods 2 ahead 1",
    ),
    HallRow(
        "a seat that leaves with a stop",
        TWO_SIZES,
        64,
        2,
        16,
        64,
        "0 steal 0/0 act/0 enter/0 act/0 leave 1/1 steal 0/1 close",
        "stole 0 period 1/did Fork(1)/entered 1/stopped arena full live 16 asked 16/left/over arena full live 16 asked 16/\
         closed arena full live 16 asked 16 periods 1 ahead 0",
    ),
    HallRow(
        "a child with a fault, at whose Join its parent gives its blocks back",
        FAULTED_CHILD,
        1024,
        1,
        ARENA,
        64,
        "0 steal 0/0 act/0 act/0 act/0 act/0 act/0 act/0 act/0 act/0 steal 0/0 close",
        "stole 0 period 1/did Alloc/did Alloc/did Alloc/did Fork(1)/did Fault(Index)/did End/did Join(1)/did End/over finished/\
         closed finished periods 1 ahead 0 root",
    ),
    HallRow(
        "a root with a fault, which takes the result of its child from the list",
        FAULTED_ROOT,
        1024,
        2,
        ARENA,
        64,
        "0 steal 0/0 act/0 act/0 enter/1 steal 0/0 act/1 act/1 act/1 act/0 steal 0/1 leave 0/0 close",
        "stole 0 period 1/did Alloc/did Fork(1)/entered 1/stole 1 period 2/did End/did Fault(Divide)/did Join(1)/did End/over finished/left/\
         closed finished periods 2 ahead 1 root",
    ),
];

/// What the calls of a row answer, or the first clause that did not hold.
pub fn scripted(row: &HallRow) -> String {
    let HallRow(_, source, quota, workers, arena, deques, script, _) = *row;
    let Ok(program) = accepted(source.as_bytes()) else { return "refused".to_string() };
    let code = resolve(&program);
    let rules = Rules { quota, workers, arena, steps: 1_000, deques };
    let Some(setting) = Setting::new(&code, rules) else { return "too long".to_string() };
    let mut scene = Scene { hall: Hall::new(&code, rules), law: Law::new(&setting) };
    let answers: Result<Vec<String>, String> = script.split('/').map(|line| scene.call(line)).collect();
    answers.map_or_else(|clause| clause, |answers| answers.join("/"))
}

struct Scene<'a> {
    hall: Hall<'a>,
    law: Law<'a>,
}

impl Scene<'_> {
    fn call(&mut self, line: &str) -> Result<String, String> {
        let words: Vec<&str> = line.split(' ').collect();
        let number = |at: usize| words.get(at).and_then(|word| word.parse::<u64>().ok()).unwrap_or(0);
        let seat = number(0) as usize;
        let call = match words[1] {
            "enter" => Call::Enter,
            "steal" | "hold" => Call::Steal(number(2)),
            "act" => Call::Act,
            "give-up" => Call::GiveUp,
            "halt" => Call::Halt,
            "leave" => Call::Leave { into: number(2) as usize },
            "some" => return self.some(seat, number(2)),
            "go" => {
                let answer = self.go_on(seat)?;
                return Ok(self.shown(answer));
            }
            _ => Call::Close,
        };
        if words[1] == "hold" {
            self.hall.begin(seat, call, false);
            self.step(seat)?;
            self.step(seat)?;
            return Ok("holds".to_string());
        }
        let answer = self.whole(seat, call)?;
        Ok(self.shown(answer))
    }

    fn step(&mut self, seat: usize) -> Result<Option<Answer>, String> {
        let (single, answer) = self.hall.step(seat);
        self.law.after(&self.hall, single)?;
        seats_stand(&self.hall, &self.law)?;
        Ok(answer)
    }

    fn whole(&mut self, seat: usize, call: Call) -> Result<Answer, String> {
        match self.hall.begin(seat, call, false) {
            Some(answer) => self.received(seat, answer).map(|()| answer),
            None => self.go_on(seat),
        }
    }

    fn go_on(&mut self, seat: usize) -> Result<Answer, String> {
        loop {
            if let Some(answer) = self.step(seat)? {
                return self.received(seat, answer).map(|()| answer);
            }
        }
    }

    fn received(&self, seat: usize, answer: Answer) -> Checked {
        receipt(&self.hall, seat, answer)?;
        if answer == Answer::Closed {
            closed(&self.hall, &self.law, &self.hall.seats[seat].view)?;
        }
        Ok(())
    }

    /// So many tries of a seat, each with a word of 0, up to a refusal or an end. A try that finds a stop does no event, and the next keeps it.
    fn some(&mut self, seat: usize, tries: u64) -> Result<String, String> {
        let mut done = 0;
        for _ in 0..tries {
            let view = &self.hall.seats[seat].view;
            let call = match (view.found, view.deque) {
                (Some(_), _) => Call::Halt,
                (None, Some(_)) => Call::Act,
                (None, None) => Call::Steal(0),
            };
            let answer = self.whole(seat, call)?;
            match answer {
                Answer::Done(Told::Halted(end)) | Answer::Refused(Refusal::Over(end)) => {
                    return Ok(format!("over {}", end_text(end)))
                }
                Answer::Refused(Refusal::Stopped(_)) => {}
                Answer::Refused(_) => return Ok(format!("refused {done} {}", self.shown(answer))),
                _ => done += 1,
            }
        }
        Ok(format!("spent {done}"))
    }

    fn shown(&self, answer: Answer) -> String {
        match answer {
            Answer::Done(Told::Stole { deque, period }) => format!("stole {deque} period {period}"),
            Answer::Done(Told::Did(_)) => self.law.last_deed(),
            Answer::Done(Told::Suspended((period, birth))) => format!("suspended {period} {birth}"),
            Answer::Done(Told::GaveUp(deque)) => format!("gave up {deque}"),
            Answer::Done(Told::Halted(end)) => format!("halted {}", end_text(end)),
            Answer::Entered(seat) => format!("entered {seat}"),
            Answer::Left => "left".to_string(),
            Answer::Closed => self.closing(),
            Answer::Refused(Refusal::Busy { slot, seen }) => format!("busy slot {slot} seen {seen}"),
            Answer::Refused(Refusal::Nothing) => "nothing".to_string(),
            Answer::Refused(Refusal::Over(end)) => format!("over {}", end_text(end)),
            Answer::Refused(Refusal::Stopped(stop)) => format!("stopped {}", end_text(End::Stopped(stop))),
            Answer::Refused(Refusal::Crowded) => "crowded".to_string(),
            Answer::Refused(Refusal::NoMemory) => "out of memory".to_string(),
            Answer::Refused(Refusal::StillIn { places }) => format!("still in {places}"),
            Answer::Refused(Refusal::NotOver) => "not over".to_string(),
        }
    }

    fn closing(&self) -> String {
        let list = self.hall.shown(LIST).list();
        let marked = list.closed.iter().filter(|period| period.marked).count();
        let root = if list.results.iter().any(|result| result.id == (0, 0)) { " root" } else { "" };
        let end = list.kept.map_or("not over".to_string(), end_text);
        format!("closed {end} periods {} ahead {marked}{root}", list.closed.len())
    }
}

fn end_text(end: End) -> String {
    match end {
        End::Finished => "finished".to_string(),
        End::Stopped(Stop::NoMemory) => "out of memory".to_string(),
        End::Stopped(Stop::ByRule(RuleStop::ArenaFull { live, asked })) => format!("arena full live {live} asked {asked}"),
        End::Stopped(Stop::ByRule(RuleStop::DequesFull)) => "deques full".to_string(),
        End::Stopped(Stop::ByRule(RuleStop::StepsSpent)) => "steps spent".to_string(),
    }
}
