//! Makes a source smaller, part by part, as long as it still shows something.

const MOST_TRIES: u32 = 6_000;

struct Search<F> {
    small: Vec<u8>,
    shows: F,
    tries: u32,
}

/// The smallest source found that still shows it.
pub fn smallest(source: &[u8], shows: impl FnMut(&[u8]) -> bool) -> Vec<u8> {
    let mut search = Search { small: source.to_vec(), shows, tries: 0 };
    loop {
        let before = search.small.len();
        search.without_chunks();
        search.without_pairs();
        if search.small.len() == before || search.tries >= MOST_TRIES {
            return search.small;
        }
    }
}

impl<F: FnMut(&[u8]) -> bool> Search<F> {
    /// Takes the shorter source where it still shows it.
    fn accept(&mut self, shorter: Vec<u8>) -> bool {
        self.tries += 1;
        let is_taken = self.tries < MOST_TRIES && (self.shows)(&shorter);
        if is_taken {
            self.small = shorter;
        }
        is_taken
    }

    /// Leaves out pieces of the source, large ones first.
    fn without_chunks(&mut self) {
        let mut size = self.small.len().div_ceil(2);
        while size > 0 {
            let mut at = 0;
            while at < self.small.len() && self.tries < MOST_TRIES {
                let end = (at + size).min(self.small.len());
                let shorter = [&self.small[..at], &self.small[end..]].concat();
                if !self.accept(shorter) {
                    at = end;
                }
            }
            size /= 2;
        }
    }

    /// Leaves out what is between two braces or parentheses, with or without the statement before it, or only these two.
    fn without_pairs(&mut self) {
        let mut at = 0;
        while at < self.small.len() && self.tries < MOST_TRIES {
            let is_taken = self.end_of_pair(at).is_some_and(|end| self.without_pair(at, end));
            at += usize::from(!is_taken);
        }
    }

    fn without_pair(&mut self, at: usize, end: usize) -> bool {
        let small = self.small.clone();
        let head = small[..at].iter().rposition(|byte| b";{}".contains(byte)).map_or(0, |place| place + 1);
        self.accept([&small[..head], &small[end + 1..]].concat())
            || end > at + 1 && self.accept([&small[..at + 1], &small[end..]].concat())
            || self.accept([&small[..head], &small[at + 1..end], &small[end + 1..]].concat())
            || self.accept([&small[..at], &small[at + 1..end], &small[end + 1..]].concat())
    }

    fn end_of_pair(&self, at: usize) -> Option<usize> {
        let mut open = 0_i32;
        for (place, byte) in self.small.iter().enumerate().skip(at) {
            match byte {
                b'(' | b'{' | b'[' => open += 1,
                b')' | b'}' | b']' => open -= 1,
                _ => {}
            }
            if open <= 0 {
                return (place > at).then_some(place);
            }
        }
        None
    }
}
