//! Tiny programs over a few names, each of which meets the rules of ownership closely: about as many break one as break none.

use crate::random::Random;

const BLOCKS: [&str; 4] = ["a", "b", "c", "l"];
const INTEGERS: [&str; 3] = ["x", "y", "z"];
const HELPERS: &str = "fn lend(use p) { p[0] = 1; }\nfn give(own p) { free p; }\nfn make() { alloc p = 16; return own p; }\n\
    fn both(use p, own q, n) { free q; return n; }\n";

/// `a` is owned, `b` is given, `c` is lent; `x` and `y` are integers.
pub fn tiny(random: &mut Random) -> String {
    let mut text = String::from(HELPERS);
    text.push_str("fn work(own b, use c, x) {\nalloc a = 16;\nlet y = 0;\n");
    list(random, &mut text, 2, 2);
    for name in ["a", "b"] {
        if !random.once_in(6) {
            text.push_str(&format!("free {name};\n"));
        }
    }
    text.push_str(*random.pick(&["", "", "return x;\n", "return own c;\n", "return y + len(c);\n"]));
    text.push_str("}\nfn main() {\nalloc s = 16;\nalloc t = 16;\ncall work(own s, use t, 3);\nfree t;\n}\n");
    text
}

fn block(random: &mut Random) -> &'static str {
    if random.once_in(20) {
        "x"
    } else {
        *random.pick(&BLOCKS)
    }
}

fn integer(random: &mut Random) -> &'static str {
    if random.once_in(20) {
        "a"
    } else {
        *random.pick(&INTEGERS[..2])
    }
}

fn list(random: &mut Random, text: &mut String, most: u64, level: u64) {
    for _ in 0..random.between(1, most) {
        if level > 0 && random.once_in(2) {
            construct(random, text, level - 1);
        } else {
            let statement = simple(random);
            text.push_str(&statement);
            text.push('\n');
        }
    }
}

fn construct(random: &mut Random, text: &mut String, level: u64) {
    let (head, middle) = match random.below(5) {
        0 | 1 => ("par {\n".to_string(), "} and {\n"),
        2 => (format!("if {} {{\n", value(random)), "} else {\n"),
        3 => (format!("while {} - {} {{\n", integer(random), integer(random)), ""),
        _ => (format!("split {} at 0 into l, {} {{\n", block(random), if random.once_in(8) { "l" } else { "r" }), ""),
    };
    text.push_str(&head);
    list(random, text, 2, level);
    if !middle.is_empty() {
        text.push_str(middle);
        list(random, text, 2, level);
    }
    text.push_str("}\n");
}

fn value(random: &mut Random) -> String {
    match random.below(5) {
        0 => format!("len({})", block(random)),
        1 => format!("{}[0]", block(random)),
        2 => "1".to_string(),
        _ => integer(random).to_string(),
    }
}

fn simple(random: &mut Random) -> String {
    match random.below(12) {
        0 | 1 => format!("free {};", block(random)),
        2 | 3 => format!("{} = {};", integer(random), value(random)),
        4 => format!("{}[0] = {};", block(random), value(random)),
        5 => format!("let {} = {};", random.pick(&INTEGERS), value(random)),
        6 => format!("call lend(use {});", block(random)),
        7 => format!("call give(own {});", block(random)),
        8 => {
            format!("call own {} = make();", random.pick(&["e", "e", "e", "a", "l"]))
                + *random.pick(&["", "\nfree e;", "\nfree e;"])
        }
        9 => format!("call {} = both(use {}, own {}, {});", integer(random), block(random), block(random), value(random)),
        10 => format!("alloc e = 1;{}", random.pick(&["", "\nfree e;", "\nfree e;"])),
        _ => format!("print {};", value(random)),
    }
}
