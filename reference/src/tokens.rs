//! From bytes to tokens.

pub const MOST_BYTES: usize = 1_048_576;
const MOST_NAME_BYTES: usize = 32;
const KEYWORDS: [&str; 18] = [
    "fn", "let", "alloc", "free", "if", "else", "while", "call", "print", "par", "and", "split", "at", "into", "return", "use",
    "own", "len",
];
/// The longer ones first, so that the longest token is taken.
const SYMBOLS: [&str; 20] =
    ["<=", ">=", "==", "!=", "(", ")", "{", "}", "[", "]", ",", ";", "=", "+", "-", "*", "/", "%", "<", ">"];

#[derive(Clone, Debug, PartialEq, Eq)]
pub enum Word {
    Name(String),
    Number(i64),
    /// A symbol or a keyword.
    Mark(&'static str),
}

#[derive(Clone, Debug)]
pub struct Token {
    pub word: Word,
    pub at: usize,
    /// The byte after it.
    pub end: usize,
    pub line: u32,
}

/// Why bytes are no text, and the byte where it shows.
#[derive(Clone, Debug, PartialEq, Eq)]
pub struct SyntaxRefusal {
    pub reason: &'static str,
    pub at: usize,
}

pub fn refuse<T>(reason: &'static str, at: usize) -> Result<T, SyntaxRefusal> {
    Err(SyntaxRefusal { reason, at })
}

/// All tokens of a source, or the first refusal: its length, then its bytes, then its tokens.
pub fn tokens(source: &[u8]) -> Result<Vec<Token>, SyntaxRefusal> {
    if source.len() > MOST_BYTES {
        return refuse("TooLong", MOST_BYTES);
    }
    if let Some(at) = source.iter().position(|byte| !is_allowed(*byte)) {
        return refuse("BadByte", at);
    }
    let mut reader = Reader { source, at: 0, line: 1 };
    let mut found = Vec::new();
    while let Some(token) = reader.token()? {
        found.push(token);
    }
    Ok(found)
}

fn is_allowed(byte: u8) -> bool {
    matches!(byte, b' '..=b'~' | b'\t' | b'\n' | b'\r')
}

fn begins_name(byte: u8) -> bool {
    byte.is_ascii_alphabetic() || byte == b'_'
}

fn goes_on_name(byte: u8) -> bool {
    begins_name(byte) || byte.is_ascii_digit()
}

struct Reader<'a> {
    source: &'a [u8],
    at: usize,
    line: u32,
}

impl Reader<'_> {
    fn peek(&self) -> Option<u8> {
        self.source.get(self.at).copied()
    }

    fn skip_blanks(&mut self) {
        let mut in_comment = false;
        while let Some(byte) = self.peek() {
            match byte {
                b'\n' => {
                    in_comment = false;
                    self.line += 1;
                }
                b'#' => in_comment = true,
                b' ' | b'\t' | b'\r' => {}
                _ if in_comment => {}
                _ => return,
            }
            self.at += 1;
        }
    }

    fn while_it(&mut self, goes_on: fn(u8) -> bool) -> &str {
        let from = self.at;
        while self.peek().is_some_and(goes_on) {
            self.at += 1;
        }
        std::str::from_utf8(&self.source[from..self.at]).unwrap_or("")
    }

    fn token(&mut self) -> Result<Option<Token>, SyntaxRefusal> {
        self.skip_blanks();
        let (at, line) = (self.at, self.line);
        let word = match self.peek() {
            None => return Ok(None),
            Some(byte) if begins_name(byte) => self.name(at)?,
            Some(byte) if byte.is_ascii_digit() => self.number(at)?,
            Some(_) => self.symbol(at)?,
        };
        Ok(Some(Token { word, at, end: self.at, line }))
    }

    fn name(&mut self, at: usize) -> Result<Word, SyntaxRefusal> {
        let text = self.while_it(goes_on_name);
        if text.len() > MOST_NAME_BYTES {
            return refuse("BadToken", at);
        }
        let keyword = KEYWORDS.iter().find(|it| **it == text);
        Ok(keyword.map_or_else(|| Word::Name(text.to_string()), |it| Word::Mark(it)))
    }

    fn number(&mut self, at: usize) -> Result<Word, SyntaxRefusal> {
        let value = self.while_it(|byte| byte.is_ascii_digit()).parse::<i64>();
        if self.peek().is_some_and(begins_name) {
            return refuse("BadToken", at);
        }
        value.map(Word::Number).or_else(|_| refuse("NumberTooLarge", at))
    }

    fn symbol(&mut self, at: usize) -> Result<Word, SyntaxRefusal> {
        let rest = &self.source[at..];
        match SYMBOLS.iter().find(|it| rest.starts_with(it.as_bytes())) {
            Some(symbol) => {
                self.at += symbol.len();
                Ok(Word::Mark(symbol))
            }
            None => refuse("BadToken", at),
        }
    }
}
