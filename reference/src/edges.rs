//! Sources at the edges of the limits: what is nested, open, declared, called, forked and turned as often as it may be, one
//! time less or one time more.

use crate::random::Random;

pub fn edge(random: &mut Random) -> String {
    match random.below(14) {
        0 => open_constructs(random),
        1 => calls(random),
        2 => calls_with_blocks(random),
        3 => forks(random),
        4 => declared_names(random),
        5 => functions(random),
        6 => dummies(random),
        7 => long_chain(random),
        8 => long_tokens(random),
        9 => calls_below_forks(random),
        10 => nested_bodies(random),
        11 if random.once_in(8) => turns(random),
        12 => faults_below_forks(random),
        13 if random.once_in(6) => long_source(random),
        _ => signs(random),
    }
}

/// As many bytes as a source may have, or one or two less or more.
fn long_source(random: &mut Random) -> String {
    let text = "fn main() { print 1; }";
    let behind = *random.pick(&["", "$", "}"]);
    let length = near(random, 1_048_576) as usize - text.len() - behind.len();
    format!("{text}{}{behind}", " ".repeat(length))
}

fn near(random: &mut Random, limit: u64) -> u64 {
    limit - 2 + random.below(5)
}

fn open_constructs(random: &mut Random) -> String {
    let (open, close) = *random.pick(&[("(", ")"), ("-(", ")"), ("b[", "]"), ("-", ""), ("(-", ")")]);
    let marks = if open.len() == 2 && open != "b[" { 2 } else { 1 };
    let count = near(random, 63 / marks) as usize;
    format!("fn main() {{ alloc b = 4; print {}0{}; free b; }}", open.repeat(count), close.repeat(count))
}

fn signs(random: &mut Random) -> String {
    let count = near(random, 31) as usize;
    let (opened, closed, signs) = ("-(".repeat(count), ")".repeat(count), "-".repeat(count));
    format!("fn main() {{ let x = 5; print {opened}x{closed} - {signs}(x); }}")
}

fn nested_bodies(random: &mut Random) -> String {
    let head = *random.pick(&["if 1 {", "par {", "par { } and {", "while 0 {"]);
    let tail = if head == "par {" { "} and { print 2; }" } else { "}" };
    let count = near(random, 63) as usize;
    format!("fn main() {{ {} print 1; {} }}", head.repeat(count), tail.repeat(count))
}

fn calls(random: &mut Random) -> String {
    let depth = near(random, 9_999);
    format!("fn f(n) {{ if n > 1 {{ call f(n - 1); }} else {{ print n; }} }} fn main() {{ call f({depth}); print 7; }}")
}

fn calls_with_blocks(random: &mut Random) -> String {
    let depth = near(random, 9_999);
    let by = random.between(1, 40);
    format!(
        "fn f(n) {{ alloc b = n % {by}; if n > 1 {{ call f(n - 1); }} free b; return n; }} \
         fn main() {{ alloc c = 17; let x = 0; par {{ call x = f({depth}); print x; }} \
         and {{ alloc d = 40; free d; }} free c; }}"
    )
}

fn forks(random: &mut Random) -> String {
    let depth = near(random, 256);
    let (left, right) = if random.once_in(3) {
        ("print n;".to_string(), "call f(n - 1);".to_string())
    } else {
        ("call f(n - 1);".to_string(), format!("print n / {};", random.below(2)))
    };
    format!("fn f(n) {{ if n > 0 {{ par {{ {left} }} and {{ {right} }} }} }} fn main() {{ call f({depth}); }}")
}

fn calls_below_forks(random: &mut Random) -> String {
    let forks = random.between(1, 200);
    let calls = near(random, 9_998 - forks);
    format!(
        "fn g(n) {{ if n > 1 {{ call g(n - 1); }} print 1; }} \
         fn f(n) {{ if n > 0 {{ par {{ call f(n - 1); }} and {{ }} }} else {{ call g({calls}); }} }} \
         fn main() {{ call f({forks}); }}"
    )
}

fn faults_below_forks(random: &mut Random) -> String {
    let depth = random.between(1, 60);
    let at = random.below(depth + 1);
    format!(
        "fn f(n, own b) {{ alloc c = n; par {{ par {{ if n > 0 {{ call f(n - 1, own b); }} else {{ free b; }} }} \
         and {{ print 8 / (n - {at}); }} }} and {{ alloc d = 2 * n; print 9; c[0] = d[{}]; free d; }} free c; }} \
         fn main() {{ alloc b = 33; call f({depth}, own b); print 1; }}",
        random.below(3)
    )
}

fn declared_names(random: &mut Random) -> String {
    let count = near(random, 256);
    let mut text = String::from("fn main() {\n");
    for number in 0..count {
        match random.below(12) {
            0 => text.push_str(&format!("alloc b{number} = 1; free b{number};\n")),
            1 => text.push_str(&format!("if 1 {{ let x{number} = 2; }}\n")),
            _ => text.push_str(&format!("let x{number} = {number};\n")),
        }
    }
    text + "print 1; }\n"
}

fn functions(random: &mut Random) -> String {
    let count = near(random, 1_023);
    let mut text: String = (0..count).map(|number| format!("fn f{number}() {{ print {number}; }}\n")).collect();
    text.push_str("fn main() { call f7(); }\n");
    if random.once_in(4) {
        text.replacen("f9()", "f8()", 1)
    } else {
        text
    }
}

fn dummies(random: &mut Random) -> String {
    let length = match random.below(4) {
        0 => random.between(1, 70_000),
        1 => 16 * random.between(1, 1_000),
        _ => random.between(1, 600),
    };
    format!(
        "fn main() {{ par {{ alloc b = {length}; b[{last}] = 1; print b[{last}]; free b; }} \
         and {{ alloc c = {length}; print len(c); free c; }} }}",
        last = length - 1
    )
}

fn long_chain(random: &mut Random) -> String {
    let count = random.between(2, 3_000) as usize;
    let link = *random.pick(&[" + 1", " - x", " * 3", " / -1", " % 7", " - (1 - x)", " * -x", " + x * x"]);
    format!("fn main() {{ let x = 3; print x{}; print 1; }}", link.repeat(count))
}

fn long_tokens(random: &mut Random) -> String {
    let name = "n".repeat(near(random, 32) as usize);
    let number =
        random.pick(&["9223372036854775807", "9223372036854775808", "00009223372036854775807", "99999999999999999999"]);
    let behind = *random.pick(&["", "", "", "x", "_", " "]);
    format!("fn main() {{ let {name} = {number}{behind}; print -{name} - 1; print (-{name} - 1) / -1; }}")
}

fn turns(random: &mut Random) -> String {
    let rounds = near(random, 999_999);
    format!(
        "fn g() {{ }} fn main() {{ let i = 0; while i < {rounds} {{ i = i + 1; }} call g(); print i; \
         par {{ call g(); print 2; }} and {{ call g(); }} }}"
    )
}
