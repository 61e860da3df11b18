//! Worked rows of what seats were told, whose orders were found by hand.

use crate::order::order;
use crate::rows::slashed;

/// A row: its name, what two seats were told over [`SOURCE`], the books and the moves of the hall, and the events of the order, or why there
/// is none. A slash marks the end of a line.
pub struct Ordered(pub &'static str, &'static str, &'static str, pub &'static str);

/// Its list: a Fork, the End of the child, the Join, the End of the root.
const SOURCE: &str = "fn main() { par { print 1; } and { print 2; } print 3; }";
const RULES: &str = "trail k 16 p 2 arena 1048576 steps 400000 deques 4096";
/// The first period forks the child and ends it, the second joins it and ends the root.
const BOOKS: &str = "book 2 marked/ran 0 0 1/ran 0 0 2/book 1 unmarked/ran 0 0 0/ran 1 0 0/took 0 0 0 16/gave 1 0 0 16/";
/// The same, and the second period did not have a deque to its left: the first one's had gone.
const UNMARKED: &str = "book 1 unmarked/ran 0 0 0/ran 1 0 0/book 2 unmarked/ran 0 0 1/ran 0 0 2/took 0 0 0 16/gave 1 0 0 16/";
const NONE: &str = "no order of these is a run of the machine";

impl Ordered {
    /// What `order` answers to the row: the events and the last line of the trail.
    pub fn answer(&self) -> String {
        let Ordered(_, told, books, _) = self;
        let lines = format!("{books}{told}").replace('/', "\n");
        match order(format!("{RULES}\nsource {}\n{SOURCE}\n{lines}", SOURCE.len()).as_bytes()) {
            Ok(trail) => slashed(&String::from_utf8_lossy(&trail[RULES.len() + SOURCE.len() + 12..])),
            Err(why) => why,
        }
    }
}

pub const ORDERED: &[Ordered] = &[
    Ordered(
        "the steal comes before the End, whose call ended first: the child's deque had no other thread left",
        "seat 0/0 1 stole 1 0/2 3 did 0 0 0/5 6 did 1 0 0/seat 1/4 7 stole 2 1/8 9 did 0 0 1/10 11 did 0 0 2/",
        BOOKS,
        "0 steal 0/0 act/1 steal 0/0 act/1 act/1 act/end periods 2 ahead 1 high 16/",
    ),
    Ordered(
        "an End whose call had ended before the steal began",
        "seat 0/0 1 stole 1 0/2 3 did 0 0 0/4 5 did 1 0 0/seat 1/6 7 stole 2 1/8 9 did 0 0 1/10 11 did 0 0 2/",
        BOOKS,
        NONE,
    ),
    Ordered(
        "a deque with an id that is not the smallest free one",
        "seat 0/0 1 stole 1 0/2 3 did 0 0 0/5 6 did 1 0 0/seat 1/4 7 stole 2 2/8 9 did 0 0 1/10 11 did 0 0 2/",
        BOOKS,
        NONE,
    ),
    Ordered(
        "a steal from a deque of two threads, whose period is not marked",
        "seat 0/0 1 stole 1 0/2 3 did 0 0 0/5 6 did 1 0 0/seat 1/4 7 stole 2 1/8 9 did 0 0 1/10 11 did 0 0 2/",
        UNMARKED,
        NONE,
    ),
    Ordered(
        "a deque that was given up is taken over, unmarked",
        "seat 0/0 1 stole 1 0/2 3 did 0 0 0/4 5 did 1 0 0/6 7 gaveup 0/seat 1/8 9 stole 2 0/10 11 did 0 0 1/12 13 did 0 0 2/",
        UNMARKED,
        "0 steal 0/0 act/0 act/0 giveup/1 steal 0/1 act/1 act/end periods 2 ahead 0 high 16/",
    ),
];
