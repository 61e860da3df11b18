//! Random texts with parallel loops: most keep all rules, some make a mistake that a program may make.

use crate::random::Random;

/// How likely a mistake is: once in so many places, or never if it is 0.
#[derive(Clone, Copy)]
pub struct Care {
    pub mistake_one_in: u64,
}

/// A function that loops call: its name, and how many further numbers it takes.
struct Callee {
    name: String,
    further: u64,
}

struct Writer<'a> {
    random: &'a mut Random,
    care: Care,
    text: String,
    of_numbers: Vec<Callee>,
    of_parts: Vec<Callee>,
}

/// A text with some functions, and loops in `main` and in functions that it calls.
pub fn looped(random: &mut Random, care: Care) -> String {
    let mut writer = Writer { random, care, text: String::new(), of_numbers: Vec::new(), of_parts: Vec::new() };
    for number in 0..writer.random.between(1, 3) {
        writer.function_of_numbers(number);
    }
    for number in 0..writer.random.between(1, 2) {
        writer.function_of_parts(number);
    }
    let has_nested = writer.random.once_in(2);
    if has_nested {
        writer.function_with_loops();
    }
    writer.main(has_nested);
    writer.text
}

impl Writer<'_> {
    fn put(&mut self, words: &str) {
        self.text.push_str(words);
        self.text.push('\n');
    }

    fn errs(&mut self) -> bool {
        self.care.mistake_one_in > 0 && self.random.once_in(self.care.mistake_one_in)
    }

    /// An expression of numbers, and of names among these.
    fn expression(&mut self, names: &[&str], depth: u64) -> String {
        match self.random.below(if depth == 0 { 2 } else { 7 }) {
            0 => self.random.between(0, 12).to_string(),
            1 => match self.random.pick_some(names) {
                Some(name) => (*name).to_string(),
                None => "2".to_string(),
            },
            2 => format!("-{}", self.expression(names, depth - 1)),
            3 => format!("({})", self.expression(names, depth - 1)),
            _ => {
                let (left, right) = (self.expression(names, depth - 1), self.expression(names, depth - 1));
                let operator = *self.random.pick(&["+", "+", "-", "*", "*", "<", "==", "%", "/"]);
                match operator {
                    "<" | "==" => format!("({left} {operator} {right})"),
                    "/" | "%" => format!("{left} {operator} ({right} * 2 + 1)"),
                    _ => format!("{left} {operator} {right}"),
                }
            }
        }
    }

    fn further_names(count: u64) -> Vec<String> {
        (0..count).map(|number| format!("k{number}")).collect()
    }

    fn function_of_numbers(&mut self, number: u64) {
        let further = self.random.below(3);
        let names = Self::further_names(further);
        let head: String = names.iter().map(|it| format!(", {it}")).collect();
        let visible: Vec<&str> = names.iter().map(String::as_str).chain(["i"]).collect();
        self.put(&format!("fn f{number}(i{head}) {{"));
        if self.random.once_in(2) {
            self.put("print i;");
        }
        if self.random.once_in(3) {
            let size = self.random.between(0, 90);
            self.put(&format!("alloc w = {size};\nfree w;"));
        }
        if self.random.once_in(12) {
            self.put("print 10 / (i - 3);");
        }
        if self.random.once_in(8) {
            self.put("par { print i; } and { print i * 2; }");
        }
        let value = self.expression(&visible, 2);
        self.put(&format!("return {value};\n}}"));
        self.of_numbers.push(Callee { name: format!("f{number}"), further });
    }

    fn function_of_parts(&mut self, number: u64) {
        let further = self.random.below(2);
        let names = Self::further_names(further);
        let head: String = names.iter().map(|it| format!(", {it}")).collect();
        let visible: Vec<&str> = names.iter().map(String::as_str).chain(["n"]).collect();
        self.put(&format!("fn g{number}(use v{head}) {{\nlet n = len(v);"));
        if self.random.once_in(2) {
            self.put("print n;");
        }
        if self.random.once_in(2) {
            let value = self.expression(&visible, 1);
            self.put(&format!("if n > 0 {{ v[0] = v[n - 1] + {value}; }}"));
        }
        let value = self.expression(&visible, 2);
        self.put(&format!("return {value};\n}}"));
        self.of_parts.push(Callee { name: format!("g{number}"), further });
    }

    fn function_with_loops(&mut self) {
        self.put("fn h(m, use v) {\nlet y = 0;");
        for _ in 0..self.random.between(1, 2) {
            self.one_loop("y", &["m", "y"], "v");
        }
        self.put("return y;\n}");
    }

    fn main(&mut self, has_nested: bool) {
        let size = *self.random.pick(&[0, 1, 16, 17, 33, 40, 64, 100, 200]);
        self.put(&format!("fn main() {{\nlet x = 0;\nlet y = 3;\nalloc b = {size};"));
        for _ in 0..self.random.between(1, 4) {
            match self.random.below(5) {
                0 => self.put("print x + y;"),
                1 if has_nested => self.put("call y = h(y % 7, use b);"),
                2 => {
                    self.put("par {");
                    self.one_loop("x", &["x"], "b");
                    self.put("} and {");
                    self.one_loop_of_numbers("y", &["y"]);
                    self.put("}");
                }
                _ => {
                    self.one_loop("x", &["x", "y"], "b");
                    self.put("print x;");
                }
            }
        }
        self.put("free b;\n}");
    }

    fn one_loop(&mut self, target: &str, names: &[&str], block: &str) {
        if self.random.once_in(2) {
            self.one_loop_of_numbers(target, names);
        } else {
            self.one_loop_of_parts(target, names, block);
        }
    }

    fn one_loop_of_numbers(&mut self, target: &str, names: &[&str]) {
        let place = self.random.below(self.of_numbers.len() as u64) as usize;
        let (mut name, further) = (self.of_numbers[place].name.clone(), self.of_numbers[place].further);
        let low = self.expression(names, 1);
        let most = *self.random.pick(&[1, 5, 20, 20, 90]);
        let high = if self.random.once_in(3) { self.expression(names, 2) } else { self.random.below(most).to_string() };
        let mut into = *self.random.pick(&["into", "into", "into", " into\n"]);
        if self.errs() {
            into = *self.random.pick(&[",", "at", "into into", ""]);
        }
        if self.errs() {
            name = self.random.pick(&["g0", "f9", "__sum0", "__sum1", "main", "len"]).to_string();
        }
        let range = format!("{low} {into} {high}");
        self.finish_loop(target, &name, &range, further, names);
    }

    fn one_loop_of_parts(&mut self, target: &str, names: &[&str], block: &str) {
        let place = self.random.below(self.of_parts.len() as u64) as usize;
        let (name, further) = (self.of_parts[place].name.clone(), self.of_parts[place].further);
        let mut size = self.random.pick(&["16", "16", "32", "48", "0064", "1048576"]).to_string();
        if self.errs() {
            size = self.random.pick(&["0", "17", "1048592", "x", "-16", "8"]).to_string();
        }
        let range = format!("use {block} at {size}");
        self.finish_loop(target, &name, &range, further, names);
    }

    fn finish_loop(&mut self, target: &str, name: &str, range: &str, further: u64, names: &[&str]) {
        let count = if self.errs() { self.random.below(4) } else { further };
        let mut more = String::new();
        for _ in 0..count {
            let value = self.expression(names, 2);
            more.push_str(&format!(", {value}"));
        }
        let end = if self.errs() { *self.random.pick(&["", ",", " ;;", ")"]) } else { ";" };
        let target = if self.errs() { *self.random.pick(&["b", "z", "own x", "call", "__sum0"]) } else { target };
        self.put(&format!("par call {target} = {name}({range}{more}){end}"));
    }
}

const F: &str = "fn f(i) { print i; return i; }\n";

/// A text with loops at the edge of a limit: of its bytes, its functions, its open constructs, its numbers, or the names of helpers.
pub fn looped_at_limits(random: &mut Random) -> String {
    match random.below(6) {
        0 => near_the_most_bytes(random),
        1 => near_the_most_functions(random),
        2 => near_the_deepest(random),
        3 => around_the_numbers(random),
        4 => many_loops(random),
        _ => {
            let size = random.between(1, 2_000);
            format!("fn g(use v) {{ return len(v); }}\nfn main() {{ let x = 0; alloc b = {size}; par call x = g(use b at 16); print x; free b; }}")
        }
    }
}

/// The text is short enough, and its expansion is or is not.
fn near_the_most_bytes(random: &mut Random) -> String {
    let text = format!("{F}fn main() {{ let x = 0; par call x = f(1 into 3); print x; }}\n#");
    let length = 1_048_576 - text.len() - random.below(500) as usize;
    text + &" ".repeat(length)
}

fn near_the_most_functions(random: &mut Random) -> String {
    let count = 1_018 + random.below(6);
    let others: String = (0..count).map(|number| format!("fn u{number}() {{ }}\n")).collect();
    let loops = "par call x = f(1 into 3); ".repeat(random.between(1, 3) as usize);
    format!("{F}{others}fn main() {{ let x = 0; {loops}print x; }}")
}

fn near_the_deepest(random: &mut Random) -> String {
    let depth = random.between(58, 66) as usize;
    let (open, close) = ("(".repeat(depth), ")".repeat(depth));
    format!("{F}fn main() {{ let x = 0; par call x = f({open}1{close} into 3); print x; }}")
}

/// Numbers on both sides of where they wrap. Most loops have few rounds, whichever side they begin on.
fn around_the_numbers(random: &mut Random) -> String {
    let mut near = |is_high: bool| {
        let less = random.below(9);
        if is_high {
            format!("9223372036854775807 - {less}")
        } else {
            format!("-9223372036854775807 - 1 + {less}")
        }
    };
    let pairs = [(near(true), near(true)), (near(false), near(false)), (near(true), near(false)), (near(false), near(true))];
    let (low, high) = random.pick(&pairs);
    format!("{F}fn main() {{ let x = 0; par call x = f({low} into {high}); print x; }}")
}

fn many_loops(random: &mut Random) -> String {
    let count = random.between(9, 13) as usize;
    let loops = "par call x = f(x into x + 1);\n".repeat(count);
    let name = *random.pick(&["__sum9", "__sum10", "__sum12", "__sum13", "__sum010", "__sum", "__sum_1"]);
    format!("{F}fn main() {{ let {name} = 0; let x = 0; {loops} print x + {name}; }}")
}
