//! Worked rows of trails, whose answers were worked out by hand: what `verify` says of them, and one trail that `trail` writes.

/// A row: its name, the numbers of the first line, the source, the other lines, the status, and the text. A slash marks the end of a line
/// in the lines and in the text.
pub struct Trailed(pub &'static str, pub &'static str, pub &'static str, pub &'static str, pub i32, pub &'static str);

impl Trailed {
    /// The text of the trail.
    pub fn text(&self) -> String {
        let Trailed(_, numbers, source, lines, ..) = self;
        format!("trail {numbers}\nsource {}\n{source}\n{}", source.len(), lines.replace('/', "\n"))
    }
}

/// Its list: a Fork, the End of the child, the Join, the End of the root.
const THREE_LINES: &str = "fn main() { par { print 1; } and { print 2; } print 3; }";
/// Its list with a quota of 16: an Alloc and a Release of 16 words, the same again, and the End.
const TWICE: &str = "fn main() { alloc b = 16; free b; alloc c = 16; free c; }";
/// Its list with a quota of 32: an Alloc and a Release of 32 words, and the End.
const SEVENTEEN: &str = "fn main() { alloc b = 17; free b; }";
const ALONE: &str = "k 16 p 1 arena 1048576 steps 400000 deques 4096";
const PAIR: &str = "k 16 p 2 arena 1048576 steps 400000 deques 4096";

/// The trail of `trail --k 16 --p 1` over three lines, and what `verify` says of it.
pub const RECORDED: Trailed = Trailed(
    "a trail",
    ALONE,
    THREE_LINES,
    "0 steal 0/0 act/0 act/0 act/0 act/end periods 1 ahead 0 high 16/",
    0,
    "trail ok/periods 1/ahead 0/high 16/actions 4/",
);

pub const TRAILED: &[Trailed] = &[
    RECORDED,
    Trailed(
        "a wrong high-water mark",
        ALONE,
        THREE_LINES,
        "0 steal 0/0 act/0 act/0 act/0 act/end periods 1 ahead 0 high 32/",
        11,
        "trail WrongNumbers periods 1 ahead 0 high 16/",
    ),
    Trailed(
        "a steal beyond the list",
        ALONE,
        THREE_LINES,
        "0 steal 1/0 act/0 act/0 act/0 act/end periods 1 ahead 0 high 16/",
        11,
        "trail BadEvent event 1/",
    ),
    Trailed(
        "a trail without its end",
        ALONE,
        THREE_LINES,
        "0 steal 0/0 act/0 act/0 act/end periods 1 ahead 0 high 16/",
        11,
        "trail NotEnded events 4/",
    ),
    Trailed(
        "a list that is too long",
        "k 16 p 1 arena 1048576 steps 3 deques 4096",
        THREE_LINES,
        "0 steal 0/0 act/0 act/0 act/0 act/end periods 1 ahead 0 high 16/",
        11,
        "trail LongRun limit 3/",
    ),
    Trailed("no event", ALONE, THREE_LINES, "end periods 0 ahead 0 high 0/", 11, "trail NotEnded events 0/"),
    Trailed(
        "a deque that is given up and taken over",
        ALONE,
        THREE_LINES,
        "0 steal 0/0 giveup/0 steal 0/0 act/0 act/0 act/0 act/end periods 2 ahead 0 high 16/",
        0,
        "trail ok/periods 2/ahead 0/high 16/actions 4/",
    ),
    Trailed(
        "a root that is stolen and waits",
        PAIR,
        THREE_LINES,
        "0 steal 0/0 act/1 steal 0/1 suspend/0 act/0 act/0 act/end periods 2 ahead 1 high 16/",
        0,
        "trail ok/periods 2/ahead 1/high 16/actions 4/",
    ),
    Trailed(
        "a period that is not counted as marked",
        PAIR,
        THREE_LINES,
        "0 steal 0/0 act/1 steal 0/1 suspend/0 act/0 act/0 act/end periods 2 ahead 0 high 16/",
        11,
        "trail WrongNumbers periods 2 ahead 1 high 16/",
    ),
    Trailed(
        "a child that ends alone, and then its parent",
        PAIR,
        THREE_LINES,
        "0 steal 0/0 act/1 steal 0/0 act/1 act/1 act/end periods 2 ahead 1 high 16/",
        0,
        "trail ok/periods 2/ahead 1/high 16/actions 4/",
    ),
    Trailed(
        "a Join before the End of the child",
        PAIR,
        THREE_LINES,
        "0 steal 0/0 act/1 steal 0/1 act/0 act/0 act/end periods 2 ahead 1 high 16/",
        11,
        "trail BadEvent event 4/",
    ),
    Trailed(
        "a wait after the End of the child",
        PAIR,
        THREE_LINES,
        "0 steal 0/0 act/1 steal 0/0 act/1 suspend/end periods 2 ahead 1 high 16/",
        11,
        "trail BadEvent event 5/",
    ),
    Trailed(
        "an action of an idle worker",
        ALONE,
        THREE_LINES,
        "0 act/end periods 0 ahead 0 high 0/",
        11,
        "trail BadEvent event 1/",
    ),
    Trailed(
        "a steal by an owner",
        ALONE,
        THREE_LINES,
        "0 steal 0/0 act/0 steal 0/end periods 2 ahead 0 high 16/",
        11,
        "trail BadEvent event 3/",
    ),
    Trailed(
        "a steal of the only thread of a deque with an owner",
        PAIR,
        THREE_LINES,
        "0 steal 0/1 steal 0/end periods 2 ahead 0 high 0/",
        11,
        "trail BadEvent event 2/",
    ),
    Trailed(
        "a wait at a Fork",
        ALONE,
        THREE_LINES,
        "0 steal 0/0 suspend/end periods 1 ahead 0 high 0/",
        11,
        "trail BadEvent event 2/",
    ),
    Trailed(
        "a give up of an idle worker",
        ALONE,
        THREE_LINES,
        "0 steal 0/0 giveup/0 giveup/end periods 1 ahead 0 high 0/",
        11,
        "trail BadEvent event 3/",
    ),
    Trailed(
        "an event after the End of the root",
        ALONE,
        THREE_LINES,
        "0 steal 0/0 act/0 act/0 act/0 act/0 giveup/end periods 1 ahead 0 high 16/",
        11,
        "trail BadEvent event 6/",
    ),
    Trailed(
        "a deque too many",
        "k 16 p 2 arena 1048576 steps 400000 deques 1",
        THREE_LINES,
        "0 steal 0/0 act/1 steal 0/end periods 2 ahead 1 high 16/",
        11,
        "trail BadEvent event 3/",
    ),
    Trailed(
        "an Alloc beyond the quota of its period",
        ALONE,
        TWICE,
        "0 steal 0/0 act/0 act/0 act/end periods 1 ahead 0 high 16/",
        11,
        "trail BadEvent event 4/",
    ),
    Trailed(
        "two periods for two quotas",
        ALONE,
        TWICE,
        "0 steal 0/0 act/0 act/0 giveup/0 steal 0/0 act/0 act/0 act/end periods 2 ahead 0 high 16/",
        0,
        "trail ok/periods 2/ahead 0/high 16/actions 5/",
    ),
    Trailed(
        "an Alloc beyond the arena",
        "k 32 p 1 arena 16 steps 400000 deques 4096",
        SEVENTEEN,
        "0 steal 0/0 act/end periods 1 ahead 0 high 32/",
        11,
        "trail BadEvent event 2/",
    ),
    Trailed("a source that is no text", ALONE, "fn main() {", "end periods 0 ahead 0 high 0/", 4, "syntax Expected at 11/"),
    Trailed(
        "a source that breaks a rule",
        ALONE,
        "fn main() {\n  free b;\n}",
        "end periods 0 ahead 0 high 0/",
        5,
        "check UnknownName line 2 name b/",
    ),
    Trailed("a missing last line", ALONE, "x", "0 act/", 11, "trail NotTrail at 71/"),
    Trailed("a worker that there is not", ALONE, "x", "0 act/1 act/end periods 0 ahead 0 high 0/", 11, "trail NotTrail at 71/"),
    Trailed("a line after the last", ALONE, "x", "end periods 0 ahead 0 high 0/0 act/", 11, "trail NotTrail at 94/"),
    Trailed(
        "a number with a leading zero",
        ALONE,
        "x",
        "0 steal 00/end periods 0 ahead 0 high 0/",
        11,
        "trail NotTrail at 65/",
    ),
    Trailed("a number of 65 bits", ALONE, "x", "end periods 18446744073709551616 ahead 0 high 0/", 11, "trail NotTrail at 65/"),
];
