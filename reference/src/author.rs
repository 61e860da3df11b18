//! Writes random programs that keep the rules of ownership, unless they are written carelessly. A program of the faulty kind
//! has divisors, places, lengths and cuts that may be wrong as it runs; the others have none.

use crate::random::Random;
use crate::tree::Passing;

#[derive(Clone, Copy)]
pub struct Style {
    pub has_blocks: bool,
    pub is_faulty: bool,
    /// Once in so many choices a name is taken that may break a rule of ownership; never if it is 0.
    pub careless: u64,
    pub statements: u64,
}

#[derive(Clone)]
struct Signature {
    name: String,
    passings: Vec<Passing>,
    gives_block: bool,
    /// About how many statements a call of it runs.
    cost: u64,
}

#[derive(Clone, Copy, PartialEq)]
enum Sort {
    Integer,
    Owned,
    Lent,
}

#[derive(Clone)]
struct Name {
    text: String,
    sort: Sort,
    is_held: bool,
    /// Whether the branch that is being written may name it at all.
    is_usable: bool,
    /// Whether an integer may be assigned, or a block be freed or given away, at this place.
    is_free: bool,
    /// A block has at least so many numbers.
    least: u64,
}

pub struct Author<'a> {
    random: &'a mut Random,
    style: Style,
    text: String,
    signatures: Vec<Signature>,
    names: Vec<Name>,
    declared: u64,
    /// How many more statements the program may have.
    left: u64,
    /// How often the place that is being written runs, about, in one call.
    times: u64,
    cost: u64,
}

const MOST_TIMES: u64 = 64;
const MOST_COST: u64 = 3_000;
const MOST_DECLARED: u64 = 200;
const MOST_LEVEL: u64 = 7;

/// A program with up to so many functions besides `main`.
pub fn program(random: &mut Random, style: Style) -> String {
    let mut author = Author {
        random,
        style,
        text: String::new(),
        signatures: Vec::new(),
        names: Vec::new(),
        declared: 0,
        left: style.statements,
        times: 1,
        cost: 0,
    };
    let mut functions = Vec::new();
    for number in 0..author.random.below(4) {
        functions.push(author.function(number));
    }
    functions.push(author.main());
    author.shuffled(functions)
}

impl Author<'_> {
    fn shuffled(&mut self, mut functions: Vec<String>) -> String {
        let mut text = String::new();
        while !functions.is_empty() {
            let place = self.random.below(functions.len() as u64) as usize;
            text.push_str(&functions.remove(place));
        }
        text
    }

    fn line(&mut self, words: &str) {
        self.text.push_str(words);
        self.text.push('\n');
    }

    fn begin_function(&mut self) {
        self.names.clear();
        self.declared = 0;
        self.times = 1;
        self.cost = 1;
    }

    fn main(&mut self) -> String {
        self.begin_function();
        self.line("fn main() {");
        let count = self.left;
        self.statements(count, 1);
        self.free_from(0);
        if self.random.once_in(6) {
            let value = self.expression(2);
            self.line(&format!("return {value};"));
        }
        self.line("}");
        std::mem::take(&mut self.text)
    }

    fn function(&mut self, number: u64) -> String {
        self.begin_function();
        let name = format!("f{number}");
        let passings: Vec<Passing> = (0..self.random.below(4)).map(|_| self.passing()).collect();
        let parameters: Vec<String> = passings.iter().map(|passing| self.parameter(*passing)).collect();
        self.line(&format!("fn {name}({}) {{", parameters.join(", ")));
        let count = self.random.between(0, self.left / 3);
        self.statements(count, 1);
        let gives_block = self.end_function();
        self.line("}");
        self.signatures.push(Signature { name, passings, gives_block, cost: self.cost });
        std::mem::take(&mut self.text)
    }

    fn passing(&mut self) -> Passing {
        if !self.style.has_blocks || self.random.once_in(2) {
            Passing::Value
        } else if self.random.once_in(2) {
            Passing::Lent
        } else {
            Passing::Given
        }
    }

    fn parameter(&mut self, passing: Passing) -> String {
        let (sort, word) = match passing {
            Passing::Value => (Sort::Integer, ""),
            Passing::Lent => (Sort::Lent, "use "),
            Passing::Given => (Sort::Owned, "own "),
        };
        format!("{word}{}", self.declare(sort, 1))
    }

    /// Frees what is owned, and hands a block or a number back. Answers whether it is a block.
    fn end_function(&mut self) -> bool {
        let owned = self.places(|name| name.sort == Sort::Owned && name.is_held && name.least > 0);
        let handed = if self.random.once_in(2) { self.random.pick_some(&owned).copied() } else { None };
        if let Some(place) = handed {
            let name = self.names[place].text.clone();
            self.names[place].is_held = false;
            self.free_from(0);
            self.line(&format!("return own {name};"));
            return true;
        }
        if self.random.once_in(2) {
            let value = self.expression(2);
            self.free_from(0);
            let value = if self.names.iter().any(|name| name.sort == Sort::Owned) { "7".to_string() } else { value };
            self.line(&format!("return {value};"));
        } else {
            self.free_from(0);
        }
        false
    }

    /// A new name, or one that is out of sight.
    fn declare(&mut self, sort: Sort, least: u64) -> String {
        let mut text = format!("n{}", self.declared);
        let old = format!("n{}", self.random.below(self.declared + 1));
        if self.random.once_in(3) && self.names.iter().all(|name| name.text != old) {
            text = old;
        }
        self.declared += 1;
        self.names.push(Name { text: text.clone(), sort, is_held: true, is_usable: true, is_free: true, least });
        text
    }

    fn is_careless_now(&mut self) -> bool {
        self.style.careless > 0 && self.random.once_in(self.style.careless)
    }

    fn forgets(&mut self) -> bool {
        self.is_careless_now() && self.random.once_in(5)
    }

    fn places(&mut self, is_wanted: impl Fn(&Name) -> bool) -> Vec<usize> {
        let is_careless = self.is_careless_now();
        let is_any_sort = is_careless && self.random.once_in(4);
        let is_fit = |name: &Name| {
            if !is_careless {
                return name.is_usable && is_wanted(name);
            }
            let sorts = if is_any_sort { &[Sort::Integer, Sort::Owned, Sort::Lent][..] } else { &[name.sort][..] };
            sorts.iter().any(|sort| is_wanted(&Name { sort: *sort, is_held: true, is_free: true, least: 1, ..name.clone() }))
        };
        (0..self.names.len()).filter(|place| is_fit(&self.names[*place])).collect()
    }

    fn some_place(&mut self, is_wanted: impl Fn(&Name) -> bool) -> Option<usize> {
        let places = self.places(is_wanted);
        self.random.pick_some(&places).copied()
    }

    fn some_name(&mut self, is_wanted: impl Fn(&Name) -> bool) -> Option<String> {
        self.some_place(is_wanted).map(|place| self.names[place].text.clone())
    }

    fn free_from(&mut self, from: usize) {
        for place in from..self.names.len() {
            if self.names[place].sort == Sort::Owned && self.names[place].is_held && !self.forgets() {
                self.names[place].is_held = false;
                let text = format!("free {};", self.names[place].text);
                self.line(&text);
            }
        }
    }

    fn list(&mut self, count: u64, level: u64) {
        let from = self.names.len();
        self.statements(count, level);
        self.free_from(from);
        self.names.truncate(from);
    }

    fn statements(&mut self, count: u64, level: u64) {
        for _ in 0..count {
            if self.left == 0 || self.declared > MOST_DECLARED {
                return;
            }
            self.left -= 1;
            self.cost += self.times;
            self.statement(level);
        }
    }

    fn statement(&mut self, level: u64) {
        let is_shallow = level < MOST_LEVEL;
        match self.random.below(16) {
            0 | 1 => self.let_statement(),
            2 => self.assign_statement(),
            3 | 4 if self.style.has_blocks => self.alloc_statement(),
            5 | 6 if self.style.has_blocks => self.put_statement(),
            7 if self.style.has_blocks => self.free_statement(),
            8 | 9 => self.call_statement(),
            10 if is_shallow => self.if_statement(level),
            11 if is_shallow => self.while_statement(level),
            12 | 13 if is_shallow => self.par_statement(level),
            14 if is_shallow && self.style.has_blocks => self.split_statement(level),
            _ => self.print_statement(),
        }
    }

    fn print_statement(&mut self) {
        let value = self.expression(3);
        self.line(&format!("print {value};"));
    }

    fn let_statement(&mut self) {
        let value = self.expression(3);
        let name = self.declare(Sort::Integer, 0);
        self.line(&format!("let {name} = {value};"));
    }

    fn assignable(&mut self) -> Option<String> {
        self.some_name(|name| name.sort == Sort::Integer && name.is_free)
    }

    fn assign_statement(&mut self) {
        if let Some(name) = self.assignable() {
            let value = self.expression(3);
            self.line(&format!("{name} = {value};"));
        }
    }

    fn length(&mut self) -> u64 {
        match self.random.below(8) {
            0 => 0,
            1 | 2 => self.random.between(1, 15),
            3 => 16 * self.random.between(1, 4),
            4 => 16 * self.random.between(1, 4) + 1,
            5 => self.random.between(16, 400),
            _ => self.random.between(1, 64),
        }
    }

    fn alloc_statement(&mut self) {
        let length = self.length();
        let text = if self.style.is_faulty && self.random.once_in(12) {
            self.random.pick(&["-1", "1048577", "1 - 2", "-9223372036854775807 - 1", "1 / 0"]).to_string()
        } else if self.random.once_in(4) {
            format!("{} + {}", length / 2, length - length / 2)
        } else {
            length.to_string()
        };
        let name = self.declare(Sort::Owned, length);
        self.line(&format!("alloc {name} = {text};"));
    }

    fn put_statement(&mut self) {
        if let Some(place) = self.indexable() {
            let index = self.index(place, 2);
            let value = self.expression(3);
            let name = self.names[place].text.clone();
            self.line(&format!("{name}[{index}] = {value};"));
        }
    }

    fn free_statement(&mut self) {
        if let Some(place) = self.some_place(|name| name.sort == Sort::Owned && name.is_held && name.is_free) {
            self.names[place].is_held = false;
            let text = format!("free {};", self.names[place].text);
            self.line(&text);
        }
    }

    fn call_statement(&mut self) {
        let cost = MOST_COST / self.times;
        let known: Vec<Signature> = self.signatures.iter().filter(|it| it.cost <= cost).cloned().collect();
        let Some(signature) = self.random.pick_some(&known).cloned() else { return };
        let Some(arguments) = self.arguments(&signature) else { return };
        self.cost += self.times * signature.cost;
        let target = if signature.gives_block {
            format!("own {} = ", self.declare(Sort::Owned, 1))
        } else {
            match self.assignable() {
                Some(name) if self.random.once_in(2) => format!("{name} = "),
                _ => String::new(),
            }
        };
        self.line(&format!("call {target}{}({});", signature.name, arguments.join(", ")));
    }

    fn arguments(&mut self, signature: &Signature) -> Option<Vec<String>> {
        let mut passed: Vec<usize> = Vec::new();
        let mut given = Vec::new();
        let mut texts = Vec::new();
        for passing in &signature.passings {
            if *passing == Passing::Value {
                texts.push(self.expression(2));
                continue;
            }
            let is_given = *passing == Passing::Given;
            let places = self.places(|name| {
                let is_free = name.sort == Sort::Owned && name.is_free;
                name.sort != Sort::Integer && name.is_held && name.least > 0 && (is_free || !is_given)
            });
            let places: Vec<usize> = places.into_iter().filter(|place| !passed.contains(place)).collect();
            let place = *self.random.pick_some(&places)?;
            passed.push(place);
            if is_given {
                given.push(place);
            }
            texts.push(format!("{} {}", if is_given { "own" } else { "use" }, self.names[place].text));
        }
        for place in given {
            self.names[place].is_held = false;
        }
        Some(texts)
    }

    /// Runs a writer at a place where no name from outside may be freed or given away.
    fn with_blocks_kept(&mut self, write: impl FnOnce(&mut Self)) {
        let before: Vec<bool> = self.names.iter().map(|name| name.is_free).collect();
        for name in self.names.iter_mut().filter(|name| name.sort == Sort::Owned) {
            name.is_free = false;
        }
        write(self);
        for (name, is_free) in self.names.iter_mut().zip(before) {
            name.is_free = is_free;
        }
    }

    fn if_statement(&mut self, level: u64) {
        let condition = self.expression(3);
        let freed = self.some_place(|name| name.sort == Sort::Owned && name.is_held && name.is_free);
        let freed = freed.filter(|_| self.random.once_in(4));
        self.line(&format!("if {condition} {{"));
        self.arm(level, freed);
        if freed.is_some() || self.random.once_in(2) {
            if let Some(place) = freed {
                self.names[place].is_held = true;
            }
            self.line("} else {");
            self.arm(level, freed);
        }
        self.line("}");
    }

    fn arm(&mut self, level: u64, freed: Option<usize>) {
        let count = self.random.below(4);
        self.with_blocks_kept(|author| {
            let from = author.names.len();
            author.statements(count, level + 1);
            if let Some(place) = freed {
                author.names[place].is_held = false;
                let text = format!("free {};", author.names[place].text);
                author.line(&text);
            }
            author.free_from(from);
            author.names.truncate(from);
        });
    }

    fn while_statement(&mut self, level: u64) {
        let rounds = self.random.below(5);
        if self.times * (rounds + 1) > MOST_TIMES {
            return;
        }
        let name = self.declare(Sort::Integer, 0);
        self.line(&format!("let {name} = 0;"));
        self.line(&format!("while {name} < {rounds} {{"));
        let place = self.names.len() - 1;
        self.names[place].is_free = false;
        let before = self.times;
        self.times *= rounds + 1;
        let count = self.random.below(4);
        self.with_blocks_kept(|author| author.list(count, level + 1));
        self.times = before;
        self.line(&format!("{name} = {name} + 1;"));
        self.line("}");
        self.names[place].is_free = true;
    }

    fn par_statement(&mut self, level: u64) {
        let before = self.names.clone();
        let shares: Vec<u64> = before.iter().map(|_| self.random.below(3)).collect();
        self.line("par {");
        self.branch(&before, &shares, 0, level);
        let after_left: Vec<bool> = self.names.iter().map(|name| name.is_held).collect();
        self.line("} and {");
        self.branch(&before, &shares, 1, level);
        self.line("}");
        let after_right: Vec<bool> = self.names.iter().map(|name| name.is_held).collect();
        self.names = before;
        for (place, name) in self.names.iter_mut().enumerate() {
            name.is_held = after_left[place] && after_right[place];
        }
    }

    /// A name of share 0 is of the first branch, one of share 1 of the second, and an integer of share 2 is read by both.
    fn branch(&mut self, before: &[Name], shares: &[u64], share: u64, level: u64) {
        self.names = before.to_vec();
        for (name, own) in self.names.iter_mut().zip(shares) {
            let is_shared = name.sort == Sort::Integer && *own == 2;
            name.is_usable &= *own == share || is_shared;
            name.is_free &= !is_shared;
        }
        let count = self.random.below(5);
        self.list(count, level + 1);
    }

    fn split_statement(&mut self, level: u64) {
        let Some(place) = self.some_place(|name| name.sort != Sort::Integer && name.is_held) else { return };
        let length = self.names[place].least;
        let at = 16 * self.random.below(length / 16 + 1);
        let text = if self.style.is_faulty && self.random.once_in(6) {
            self.random.pick(&["8", "-16", "1024 * 1024", "1 / 0", "17", "-1"]).to_string()
        } else {
            at.to_string()
        };
        let name = self.names[place].text.clone();
        self.names[place].is_held = false;
        let from = self.names.len();
        let left = self.declare(Sort::Lent, at);
        let right = self.declare(Sort::Lent, length - at);
        self.line(&format!("split {name} at {text} into {left}, {right} {{"));
        let count = self.random.below(5);
        self.list(count, level + 1);
        self.line("}");
        self.names.truncate(from);
        self.names[place].is_held = true;
    }

    /// A block that has a place, or in faulty programs any block.
    fn indexable(&mut self) -> Option<usize> {
        let is_faulty = self.style.is_faulty;
        self.some_place(|name| name.sort != Sort::Integer && name.is_held && (is_faulty || name.least > 0))
    }

    fn index(&mut self, place: usize, depth: u64) -> String {
        let least = self.names[place].least;
        if self.style.is_faulty && self.random.once_in(8) {
            return self.expression(depth);
        }
        let index = self.random.below(least.max(1));
        if index > 0 && self.random.once_in(3) {
            format!("{} + 1", index - 1)
        } else {
            index.to_string()
        }
    }

    fn number(&mut self) -> String {
        match self.random.below(12) {
            0 => "9223372036854775807".to_string(),
            1 => (self.random.word() >> 1).to_string(),
            2 => format!("00{}", self.random.below(100)),
            3 => "0".to_string(),
            _ => self.random.below(20).to_string(),
        }
    }

    fn divisor(&mut self, depth: u64) -> String {
        if self.style.is_faulty && self.random.once_in(5) {
            return self.operand(depth);
        }
        if self.random.once_in(5) {
            "-1".to_string()
        } else {
            self.random.between(1, 9).to_string()
        }
    }

    fn operand(&mut self, depth: u64) -> String {
        format!("({})", self.expression(depth))
    }

    fn expression(&mut self, depth: u64) -> String {
        if depth == 0 {
            return self.number();
        }
        match self.random.below(14) {
            0..=2 => self.number(),
            3..=5 => self.some_name(|name| name.sort == Sort::Integer).unwrap_or_else(|| "3".to_string()),
            6 => self
                .some_name(|name| name.sort != Sort::Integer && name.is_held)
                .map_or_else(|| "len".len().to_string(), |name| format!("len({name})")),
            7 | 8 => self.item(depth),
            9 => format!("-{}", self.factor(depth - 1)),
            10 => {
                let by = *self.random.pick(&["==", "!=", "<", "<=", ">", ">="]);
                format!("{} {by} {}", self.operand(depth - 1), self.operand(depth - 1))
            }
            _ => self.chain(depth),
        }
    }

    fn factor(&mut self, depth: u64) -> String {
        if self.random.once_in(2) {
            self.operand(depth)
        } else {
            self.number()
        }
    }

    fn item(&mut self, depth: u64) -> String {
        match self.indexable() {
            Some(place) => {
                let index = self.index(place, depth - 1);
                format!("{}[{index}]", self.names[place].text)
            }
            None => self.number(),
        }
    }

    fn chain(&mut self, depth: u64) -> String {
        let mut text = self.operand(depth - 1);
        for _ in 0..self.random.between(1, 3) {
            let link = match self.random.below(5) {
                0 => format!(" + {}", self.factor(depth - 1)),
                1 => format!("-{}", self.factor(depth - 1)),
                2 => format!(" * {}", self.factor(depth - 1)),
                3 => format!(" / {}", self.divisor(depth - 1)),
                _ => format!("%{}", self.divisor(depth - 1)),
            };
            text.push_str(&link);
        }
        text
    }
}
