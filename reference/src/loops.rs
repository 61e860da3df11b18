//! Parallel loops written out: each becomes a call, and the functions that are called follow the text.

use crate::tokens::{refuse, tokens, SyntaxRefusal, Token, Word};

/// What a loop goes over.
enum Range {
    /// From the value of one argument up to before that of another.
    Numbers(String, String),
    /// The parts of a block, with its name and the most numbers of a part as they are in the text.
    Parts(String, String),
}

struct Loop {
    /// Its first byte, and the byte after it.
    at: usize,
    end: usize,
    target: String,
    function: String,
    range: Range,
    further: Vec<String>,
}

const LEAST_PART: i64 = 16;
const GREATEST_PART: i64 = 1_048_576;
/// The marks that an argument may have outside of its brackets.
const PLAIN: [&str; 13] = ["len", "=", "+", "-", "*", "/", "%", "<", "<=", ">", ">=", "==", "!="];

/// The text with its loops written out, or why it has no such text.
pub fn expand(source: &[u8]) -> Result<Vec<u8>, SyntaxRefusal> {
    let found = tokens(source)?;
    let loops = loops_in(source, &found)?;
    if let Some(token) = found.iter().find(|token| is_name_of_helper(&token.word, loops.len())) {
        return refuse("NameTaken", token.at);
    }
    let (mut text, mut from) = (Vec::new(), 0);
    for (number, it) in loops.iter().enumerate() {
        text.extend_from_slice(&source[from..it.at]);
        text.extend_from_slice(it.call(number).as_bytes());
        text.extend(source[it.at..it.end].iter().filter(|byte| **byte == b'\n'));
        from = it.end;
    }
    text.extend_from_slice(&source[from..]);
    if !loops.is_empty() {
        text.push(b'\n');
    }
    for (number, it) in loops.iter().enumerate() {
        text.extend_from_slice(it.helper(number).as_bytes());
        text.push(b'\n');
    }
    Ok(text)
}

/// Each `par call` has to begin a loop.
fn loops_in(source: &[u8], found: &[Token]) -> Result<Vec<Loop>, SyntaxRefusal> {
    let mut loops = Vec::new();
    for (place, pair) in found.windows(2).enumerate() {
        if pair[0].word == Word::Mark("par") && pair[1].word == Word::Mark("call") {
            match (Reader { source, rest: &found[place..] }).read_loop() {
                Some(it) => loops.push(it),
                None => return refuse("BadLoop", pair[0].at),
            }
        }
    }
    Ok(loops)
}

fn name_of_helper(number: usize) -> String {
    format!("__sum{number}")
}

fn is_name_of_helper(word: &Word, count: usize) -> bool {
    let Word::Name(name) = word else { return false };
    let number = name.strip_prefix("__sum").and_then(|digits| digits.parse::<usize>().ok());
    number.is_some_and(|number| number < count && *name == name_of_helper(number))
}

/// Reads the tokens of a loop one after another. Each part is none if the tokens do not begin with it.
struct Reader<'a> {
    source: &'a [u8],
    rest: &'a [Token],
}

impl<'a> Reader<'a> {
    fn token(&mut self) -> Option<&'a Token> {
        let (first, rest) = self.rest.split_first()?;
        self.rest = rest;
        Some(first)
    }

    fn is_next(&self, mark: &'static str) -> bool {
        self.rest.first().is_some_and(|token| token.word == Word::Mark(mark))
    }

    fn mark(&mut self, mark: &'static str) -> Option<&'a Token> {
        self.token().filter(|token| token.word == Word::Mark(mark))
    }

    fn bytes(&self, token: &Token) -> String {
        String::from_utf8_lossy(&self.source[token.at..token.end]).into_owned()
    }

    fn name(&mut self) -> Option<String> {
        let token = self.token().filter(|token| matches!(token.word, Word::Name(_)))?;
        Some(self.bytes(token))
    }

    fn read_loop(mut self) -> Option<Loop> {
        let at = self.mark("par")?.at;
        self.mark("call")?;
        let target = self.name()?;
        self.mark("=")?;
        let function = self.name()?;
        self.mark("(")?;
        let range = if self.is_next("use") { self.parts()? } else { self.numbers()? };
        let mut further = Vec::new();
        while self.is_next(",") {
            self.token();
            further.push(self.argument()?);
        }
        self.mark(")")?;
        let end = self.mark(";")?.end;
        Some(Loop { at, end, target, function, range, further })
    }

    fn numbers(&mut self) -> Option<Range> {
        let low = self.argument()?;
        self.mark("into")?;
        Some(Range::Numbers(low, self.argument()?))
    }

    fn parts(&mut self) -> Option<Range> {
        self.mark("use")?;
        let block = self.name()?;
        self.mark("at")?;
        let token = self.token()?;
        match token.word {
            Word::Number(size) if (LEAST_PART..=GREATEST_PART).contains(&size) && size % LEAST_PART == 0 => {
                Some(Range::Parts(block, self.bytes(token)))
            }
            _ => None,
        }
    }

    /// One token or more, joined by spaces: those up to the first that no argument has. Inside of brackets it may have commas.
    fn argument(&mut self) -> Option<String> {
        let (mut words, mut open) = (Vec::new(), Vec::new());
        while let Some(token) = self.rest.first() {
            match &token.word {
                Word::Name(_) | Word::Number(_) => {}
                Word::Mark("(") => open.push(")"),
                Word::Mark("[") => open.push("]"),
                Word::Mark(",") if !open.is_empty() => {}
                Word::Mark(mark) if PLAIN.contains(mark) => {}
                Word::Mark(mark) if open.last() == Some(mark) => drop(open.pop()),
                Word::Mark(_) => break,
            }
            words.push(self.bytes(token));
            self.token();
        }
        (open.is_empty() && !words.is_empty()).then(|| words.join(" "))
    }
}

impl Loop {
    /// The call that takes the place of the loop.
    fn call(&self, number: usize) -> String {
        let range = match &self.range {
            Range::Numbers(low, high) => format!("({low}), ({high}) - ({low})"),
            Range::Parts(block, _) => format!("use {block}"),
        };
        let further: String = self.further.iter().map(|it| format!(", {it}")).collect();
        format!("call {} = {}({range}{further});", self.target, name_of_helper(number))
    }

    /// The function that does the rounds, by halves.
    fn helper(&self, number: usize) -> String {
        let (sum, f) = (name_of_helper(number), &self.function);
        let more: String = (1..=self.further.len()).map(|it| format!(", c{it}")).collect();
        match &self.range {
            Range::Numbers(..) => format!(
                "fn {sum}(lo, n{more}) {{ let s = 0; \
                 if n == 1 {{ call s = {f}(lo{more}); }} else {{ if n > 1 {{ let h = n / 2; let t = 0; \
                 par {{ call s = {sum}(lo, h{more}); }} and {{ call t = {sum}(lo + h, n - h{more}); }} s = s + t; }} }} return s; }}"
            ),
            Range::Parts(_, size) => format!(
                "fn {sum}(use b{more}) {{ let n = len(b); let s = 0; \
                 if n <= {size} {{ call s = {f}(use b{more}); }} else {{ let h = (n / 2 + 15) / 16 * 16; let t = 0; \
                 split b at h into l, r {{ par {{ call s = {sum}(use l{more}); }} and {{ call t = {sum}(use r{more}); }} }} s = s + t; }} \
                 return s; }}"
            ),
        }
    }
}
