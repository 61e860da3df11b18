//! Worked rows: what a command of the reference alone has to answer to a source, and what runs by given words of choice give. The answers
//! were worked out by hand from the rules, and not by this program. What the program answers too is in the rows of `tools/check_rows`.

use crate::choices::{Listed, Pcg};
use crate::command::{accepted, answer_to, play_answer, Answer};
use crate::hall_rows::{scripted, HALL_ROWS};
use crate::machine::{play, Rules, Stop};
use crate::order_rows::ORDERED;
use crate::resolve::resolve;
use crate::thread::Code;
use crate::trace::{async_moment, moment};
use crate::trail_rows::{Trailed, RECORDED, TRAILED};

/// A row: its name, the words, the source, the status, and the text, in which a slash marks the end of a line.
struct Row(&'static str, &'static str, &'static str, i32, &'static str);

const SMALL: &str = "fn main() { alloc b = 20; b[3] = 7; print b[3]; free b; }";
const TWO_BLOCKS: &str = "fn main() { par { alloc a = 16; free a; } and { alloc b = 16; free b; } }";
const LARGE: &str = "fn main() { alloc b = 40; free b; }";
const THREE_LINES: &str = "fn main() { par { print 1; } and { print 2; } print 3; }";
const ONE_PIECE: &str = "fn main() { alloc b = 16; free b; }";
const EMPTY_BLOCK: &str = "fn main() { alloc z = 0; print len(z); print z[0]; free z; }";
const TWO_FAULTS: &str = "fn main() {\n  par { print 1 / 0; }\n  and { print 2 % 0; }\n}\n";
const CUT: &str = "fn main() { alloc b = 40; split b at 24 into l, r { print len(l); print len(r); } free b; }";
const HALVES: &str = include_str!("../../examples/halves.dfd");
const USAGE: &str = "usage: dfd play|run|peak|check|make|async|trail|verify|loops|expand [options]/";
/// Each event of the run of `LARGE` by one worker with a quota of 16: worker, period, deque, thread, action, words, prefix, periods ahead,
/// deques.
const LARGE_EVENTS: &str =
    "event worker period deque thread action words prefix ahead-now | deque:owner:threads from the top ../\
    1 0 1 0 [] steal:0 0 0 0 | 0:0:[]/\
    2 0 1 0 [] fork:[1] 16 1 0 | 0:0:[1][]/\
    3 0 1 0 [1] give-up 16 1 0 | 0:-:[1][]/\
    4 0 2 2 [] steal:0 16 1 0 | 0:-:[1] 2:0:[]/\
    5 0 2 2 [] dummy 16 1 1 | 0:-:[1] 2:-:[]/\
    6 0 3 0 [1] steal:0 16 1 1 | 0:0:[1] 2:-:[]/\
    7 0 3 0 [1] fork:[1,1] 32 2 1 | 0:0:[1,1][1] 2:-:[]/\
    8 0 3 0 [1,1] dummy 32 3 1 | 0:-:[1,1][1] 2:-:[]/\
    9 0 4 4 [1] steal:0 32 3 1 | 0:-:[1,1] 4:0:[1] 2:-:[]/\
    10 0 4 4 [1] dummy 32 3 2 | 0:-:[1,1] 4:-:[1] 2:-:[]/\
    11 0 5 0 [1,1] steal:0 32 3 2 | 0:0:[1,1] 4:-:[1] 2:-:[]/\
    12 0 5 0 [1,1] end 16 5 1 | 4:-:[1] 2:-:[]/\
    13 0 6 4 [1] steal:4 16 5 1 | 4:0:[1] 2:-:[]/\
    14 0 6 4 [1] join:[1,1] 16 6 1 | 4:0:[1] 2:-:[]/\
    15 0 6 4 [1] end 0 8 0 | 2:-:[]/\
    16 0 7 2 [] steal:2 0 8 0 | 2:0:[]/\
    17 0 7 2 [] join:[1] 0 9 0 | 2:0:[]/\
    18 0 7 2 [] alloc:48 48 10 0 | 2:0:[]/\
    19 0 7 2 [] release 0 11 0 | 2:0:[]/\
    20 0 7 2 [] end 0 12 0 |/\
    --/end done/periods 7/ahead 2/high 48/";
/// The same by three workers and seed 8.
const LARGE_BY_THREE: &str =
    "event worker period deque thread action words prefix ahead-now | deque:owner:threads from the top ../\
    1 1 1 0 [] steal:0 0 0 0 | 0:1:[]/\
    2 1 1 0 [] fork:[1] 16 1 0 | 0:1:[1][]/\
    3 0 2 2 [] steal:0 16 1 0 | 0:1:[1] 2:0:[]/\
    4 1 1 0 [1] give-up 16 1 0 | 0:-:[1] 2:0:[]/\
    5 2 3 0 [1] steal:0 16 1 0 | 0:2:[1] 2:0:[]/\
    6 2 3 0 [1] fork:[1,1] 32 2 0 | 0:2:[1,1][1] 2:0:[]/\
    7 0 2 2 [] dummy 32 2 1 | 0:2:[1,1][1] 2:-:[]/\
    8 0 4 4 [1] steal:0 32 2 1 | 0:2:[1,1] 4:0:[1] 2:-:[]/\
    9 0 4 4 [1] dummy 32 2 2 | 0:2:[1,1] 4:-:[1] 2:-:[]/\
    10 1 5 2 [] steal:2 32 2 2 | 0:2:[1,1] 4:-:[1] 2:1:[]/\
    11 2 3 0 [1,1] dummy 32 3 2 | 0:-:[1,1] 4:-:[1] 2:1:[]/\
    12 1 5 2 [] suspend 32 3 2 | 0:-:[1,1] 4:-:[1]/\
    13 0 6 0 [1,1] steal:0 32 3 2 | 0:0:[1,1] 4:-:[1]/\
    14 2 7 4 [1] steal:4 32 3 2 | 0:0:[1,1] 4:2:[1]/\
    15 0 6 0 [1,1] end 16 5 1 | 4:2:[1]/\
    16 2 7 4 [1] join:[1,1] 16 6 1 | 4:2:[1]/\
    17 2 7 4 [1] end 0 8 0 | 4:2:[]/\
    18 2 7 4 [] join:[1] 0 9 0 | 4:2:[]/\
    19 2 7 4 [] alloc:48 48 10 0 | 4:2:[]/\
    20 2 7 4 [] release 0 11 0 | 4:2:[]/\
    21 2 7 4 [] end 0 12 0 |/\
    --/end done/periods 7/ahead 4/high 48/";
/// A block in two parts beside another one, and a fault of each kind that has a cause.
const IN_PARTS: &str =
    "fn main() {\n  alloc b = 40;\n  split b at 32 into l, r {\n    par { l[0] = 1; alloc c = 20; free c; } and { r[0] = 2; }\n  }\n  free b;\n}\n";
const IN_PARTS_HELD: &str = "action 3/alloc line 2 function main name b blocks 1 words 48/\
     alloc line 4 function main name c blocks 1 words 32/records threads 1 words 16/peak 96/";
const NO_SIZE: &str = "fn f(n) { alloc b = n - 2; free b; } fn main() { call f(1); }";
const NO_END: &str = "fn f() { call f(); } fn main() { call f(); }";
const ONE_PIECE_BOUND: &str = "event words prefix ahead-now bound/1 0 0 0 16/2 16 1 0 16/3 0 2 0 16/4 0 3 0 16/\
    --/end done/periods 1/ahead 0/high 16/";
const WRITTEN_OUT: &str = "call x = __sum0((1), (2) - (1));// y/fn __sum0(lo, n) { let s = 0; if n == 1 { call s = f(lo); } \
     else { if n > 1 { let h = n / 2; let t = 0; par { call s = __sum0(lo, h); } and { call t = __sum0(lo + h, n - h); } \
     s = s + t; } } return s; }/";

const ROWS: &[Row] = &[
    Row("each event of a tree of three dummies", "trace --k 16 --p 1", LARGE, 0, LARGE_EVENTS),
    Row("each event by three workers", "trace --k 16 --p 3 --seed 8", LARGE, 0, LARGE_BY_THREE),
    Row("work and span", "span", THREE_LINES, 0, "work 8/span 7/parallelism 1.1/"),
    Row("the bound at each moment", "bound --k 16 --p 1", ONE_PIECE, 0, ONE_PIECE_BOUND),
    Row("a loop that is written out", "expand", "par\ncall x = f(1 into\n2); y", 0, WRITTEN_OUT),
    Row(
        "no loop to write out",
        "expand",
        "par { call x = f(1 into 2); } # par call",
        0,
        "par { call x = f(1 into 2); } # par call",
    ),
    Row(
        "held at the peak",
        "where peak",
        TWO_BLOCKS,
        0,
        "action 2/alloc line 1 function main name a blocks 1 words 16/records threads 1 words 16/peak 32/",
    ),
    Row(
        "held after dummies",
        "where play --k 16 --p 1",
        LARGE,
        0,
        "action 10/alloc line 1 function main name b blocks 1 words 48/records threads 0 words 0/high 48/",
    ),
    Row("held by records alone", "where async --k 16 --p 1", THREE_LINES, 0, "action 1/records threads 1 words 16/high 16/"),
    Row("held in parts", "where peak", IN_PARTS, 0, IN_PARTS_HELD),
    Row("nothing held", "where peak", "fn main() { }", 0, "action 0/records threads 0 words 0/peak 0/"),
    Row("held in a small arena", "where play --k 16 --p 1 --arena 32", LARGE, 8, "stop ArenaFull live 0 asked 48/"),
    Row("held of a refused source", "where peak", "fn main() {", 4, "syntax Expected at 11/"),
    Row("held in threads", "where run", LARGE, 1, USAGE),
    Row("held of nothing", "where", LARGE, 1, USAGE),
    Row("held twice", "where where peak", LARGE, 1, USAGE),
    Row("the place of an Index", "fault", EMPTY_BLOCK, 0, "fault Index line 1 function main name z place 0 length 0/"),
    Row("the place of a Split", "fault", CUT, 0, "fault Split line 1 function main name b place 24 length 40/"),
    Row("the sides of a Divide", "fault", TWO_FAULTS, 0, "fault Divide line 2 function main left 1 right 0/"),
    Row("the length of a Size", "fault", NO_SIZE, 0, "fault Size line 1 function f name b size -1/"),
    Row("a fault without a cause", "fault", NO_END, 0, "fault Depth line 1 function f/"),
    Row("no fault", "fault", SMALL, 0, "end done/"),
    Row("a fault after too many steps", "fault --steps 2", TWO_FAULTS, 0, "fault Divide line 2 function main left 1 right 0/"),
    Row("no step for a fault", "fault --steps 2", THREE_LINES, 7, "stop StepsSpent limit 2/"),
];

/// A row of the machine: its name, the source, the quota, the workers, the arena, the words of choice, and the text.
struct Drawn(&'static str, &'static str, u64, usize, u64, &'static [u64], &'static str);

const ARENA: u64 = 1_048_576;

const DRAWN: &[Drawn] = &[
    Drawn(
        "a root that is stolen and waits",
        THREE_LINES,
        16,
        2,
        ARENA,
        &[0, 0, 0, 1, 0, 1, 0, 0, 0],
        "1/2/3/--/end done/periods 2/ahead 1/high 16/",
    ),
    Drawn(
        "two blocks at once",
        TWO_BLOCKS,
        32,
        2,
        ARENA,
        &[0, 0, 0, 1, 0, 0, 1, 1, 1, 0, 0, 0, 0],
        "--/end done/periods 2/ahead 1/high 48/",
    ),
    Drawn(
        "two blocks at once in a small arena",
        TWO_BLOCKS,
        32,
        2,
        32,
        &[0, 0, 0, 1, 0, 0, 1, 1, 1, 0, 0, 0, 0],
        "stop ArenaFull live 32 asked 16/",
    ),
    Drawn(
        "a fault that is first in time only",
        TWO_FAULTS,
        4_096,
        2,
        ARENA,
        &[0, 0, 0, 1, 0, 1, 1, 0, 0, 0, 0],
        "--/end fault Divide line 2/periods 2/ahead 1/high 16/",
    ),
];

const PARS: &str =
    "fn main() { par { par { alloc a = 16; free a; } and { print 1; } } and { par { alloc b = 40; free b; } and { print 2; } } }";
const CALLS: &str =
    "fn f(n) { if n > 0 { alloc b = 20; par { call f(n - 1); } and { call f(n - 1); } free b; } } fn main() { call f(3); }";
const BLOCKS: &str =
    "fn main() { alloc a = 100; free a; par { alloc b = 33; b[40] = 1; free b; } and { alloc c = 20; free c; } }";
/// A row of moments: the quota, the workers, those that move, one a digit, the source, and what there is then.
struct Moved(u64, usize, &'static str, &'static str, &'static str);

/// The answers are those of `prefix_laws`, whose numbers are proved, as the tests of the crates (`play_tests`) have them.
const MOVED: &[Moved] = &[
    Moved(16, 1, "0000000000", LARGE, "[1, 1] [1] [] prefix 3, ahead 2, live 32, margin 80"),
    Moved(16, 1, "", LARGE, "[] prefix 0, ahead 0, live 0, margin 48"),
    Moved(32, 2, "00101", TWO_BLOCKS, "[1] [] prefix 2, ahead 1, live 48, margin 48"),
    Moved(16, 3, "1012002012020001100021020", PARS, "[1, 1] [1] [2, 1, 1] [2, 1] [2] prefix 2, ahead 5, live 80, margin 144"),
    Moved(32, 4, "1030101231021012000133233221110232320031", PARS, "[] prefix 16, ahead 0, live 0, margin 64"),
    Moved(16, 2, "101100111110011001111101100100100", PARS, "[2, 1, 1] [2] prefix 11, ahead 2, live 48, margin 80"),
    Moved(16, 3, "1110011210121211210000002", CALLS, "[2] [] prefix 7, ahead 0, live 48, margin 96"),
    Moved(
        32,
        4,
        "1031220132210333330330101310200010200131",
        CALLS,
        "[1, 1] [1] [2] [] prefix 5, ahead 5, live 272, margin 192",
    ),
    Moved(16, 2, "111100111110001110001001011010100", CALLS, "[2, 2] [2] [] prefix 14, ahead 3, live 96, margin 144"),
    Moved(16, 3, "0120021120011102211211000", BLOCKS, "[1, 1] [1, 2] [1] [2] [] prefix 6, ahead 3, live 64, margin 144"),
    Moved(32, 4, "1312130320031313203330111013132110001311", BLOCKS, "[] prefix 15, ahead 0, live 0, margin 112"),
    Moved(16, 2, "010101110011100010000010011000010", BLOCKS, "[1] [2] [] prefix 14, ahead 2, live 32, margin 144"),
];

/// The same of ready lists.
const LISTED: &[Moved] = &[
    Moved(16, 2, "01", THREE_LINES, "[] prefix 0, ahead 0, live 0, margin 16"),
    Moved(16, 2, "010", THREE_LINES, "[1] [] prefix 1, ahead 0, live 16, margin 0"),
    Moved(16, 2, "0101", THREE_LINES, "[1] [] prefix 1, ahead 0, live 16, margin 0"),
    Moved(16, 2, "01011", THREE_LINES, "[1] prefix 1, ahead 0, live 16, margin 0"),
    Moved(16, 2, "010110", THREE_LINES, "[] prefix 2, ahead 0, live 0, margin 16"),
    Moved(32, 2, "00101", TWO_BLOCKS, "[1] [] prefix 2, ahead 1, live 48, margin 48"),
    Moved(16, 1, "000000000", LARGE, "[1] [] prefix 4, ahead 0, live 16, margin 32"),
];

/// The first outputs of the generator of state 42 and stream 54, as they are published with it.
const PUBLISHED: [u32; 6] = [0xa15c_02b7, 0x7b47_f409, 0xba1d_3330, 0x83d2_f293, 0xbfa4_784b, 0xcbed_606e];

/// The first 64 bits of the generator of seed 0, as the tests of rand_pcg state them.
const OF_SEED_0: u64 = 18_195_738_587_432_868_099;

/// Prints each row with `right` or `WRONG`. The answer is the exit status: 0 where all are right.
pub fn rows() -> u8 {
    let mut tally = Tally { right: 0, wrong: 0 };
    for Row(name, words, source, status, text) in ROWS {
        let got = answered(words, source.as_bytes());
        tally.tell(name, &format!("{status} {text}"), &format!("{} {}", got.status, slashed(&got.text)));
    }
    for row in DRAWN {
        tally.tell(row.0, row.6, &drawn(row));
    }
    for row in TRAILED {
        let Trailed(name, _, _, _, status, text) = row;
        let got = answered("verify", row.text().as_bytes());
        tally.tell(name, &format!("{status} {text}"), &format!("{} {}", got.status, slashed(&got.text)));
    }
    tally.tell("the trail of a play", &RECORDED.text(), &answered("trail --k 16 --p 1", THREE_LINES.as_bytes()).text);
    tally.tell("no trail", "trail NotTrail at 0\n", &answered("verify", b"").text);
    for Moved(quota, workers, digits, source, due) in MOVED {
        tally.tell(&format!("a moment after the moves {digits:?}"), due, &moved(moment, source, *quota, *workers, digits));
    }
    for Moved(quota, workers, digits, source, due) in LISTED {
        let got = moved(async_moment, source, *quota, *workers, digits);
        tally.tell(&format!("a ready list after the moves {digits:?}"), due, &got);
    }
    for row in HALL_ROWS {
        tally.tell(row.0, row.7, &scripted(row));
    }
    for row in ORDERED {
        tally.tell(row.0, row.3, &row.answer());
    }
    let too_long = answered("check", &[b' '; 1_048_577]);
    tally.tell("a source that is too long", "syntax TooLong at 1048576\n", &too_long.text);
    tally.tell("a thousand groups", "lines 2000 total 999000 actions 7001", &thousand_groups());
    tally.tell("a sum by halves, in threads", "2147450880, within the bound", &halves_in_threads());
    let mut pcg = Pcg::new(42, 54);
    tally.tell("the published outputs", &format!("{PUBLISHED:?}"), &format!("{:?}", [(); 6].map(|()| pcg.next_u32())));
    let mut seeded = Pcg::from_seed(0);
    let first = u64::from(seeded.next_u32()) | u64::from(seeded.next_u32()) << 32;
    tally.tell("the published output of seed 0", &OF_SEED_0.to_string(), &first.to_string());
    println!("rows: {} right, {} wrong", tally.right, tally.wrong);
    u8::from(tally.wrong > 0)
}

/// A text with a slash at the end of each line.
pub fn slashed(text: &str) -> String {
    text.replace('\n', "/")
}

fn answered(words: &str, source: &[u8]) -> Answer {
    let words: Vec<String> = words.split_whitespace().map(String::from).collect();
    answer_to(&words, source)
}

/// The second, third and fourth line of the summary.
fn thousand_groups() -> String {
    let text = answered("make 1000", b"").text;
    text.lines().skip(1).take(3).collect::<Vec<_>>().join(" ")
}

/// The first line, and whether the block and a record block were live at once, within the peak and 2K for each period ahead.
fn halves_in_threads() -> String {
    let text = answered("run --p 8", HALVES.as_bytes()).text;
    let number = |name: &str| text.lines().find_map(|line| line.strip_prefix(name)?.parse::<u64>().ok()).unwrap_or(0);
    let is_within = (65_552..=65_632 + 8_192 * number("ahead ")).contains(&number("high "));
    format!("{}, {} the bound", text.lines().next().unwrap_or(""), if is_within { "within" } else { "beyond" })
}

/// What shows the moment after some moves.
type Shows = fn(&Code, Rules, &[usize]) -> Result<String, Stop>;

fn moved(shows: Shows, source: &str, quota: u64, workers: usize, digits: &str) -> String {
    let rules = Rules { quota, workers, arena: 1_024, steps: 1_000, deques: 64 };
    let moves: Vec<usize> = digits.bytes().map(|digit| usize::from(digit - b'0')).collect();
    match accepted(source.as_bytes()) {
        Err(refusal) => refusal.text,
        Ok(program) => shows(&resolve(&program), rules, &moves).unwrap_or_else(|stop| format!("{stop:?}")),
    }
}

fn drawn(row: &Drawn) -> String {
    let Drawn(_, source, quota, workers, arena, words, _) = *row;
    let rules = Rules { quota, workers, arena, steps: 4_000_000, deques: 4_096 };
    match accepted(source.as_bytes()) {
        Err(refusal) => refusal.text,
        Ok(program) => slashed(&play_answer(play(&resolve(&program), rules, &mut Listed(words)), rules).text),
    }
}

struct Tally {
    right: u32,
    wrong: u32,
}

impl Tally {
    fn tell(&mut self, name: &str, due: &str, got: &str) {
        if due == got {
            self.right += 1;
            println!("right: {name}");
        } else {
            self.wrong += 1;
            println!("WRONG: {name}: due is {due}; it is {got}");
        }
    }
}
