//! From tokens to the tree, by one function for each rule of the grammar.

use crate::tokens::{refuse, tokens, SyntaxRefusal, Token, Word};
use crate::tree::*;

const MOST_FUNCTIONS: usize = 1_024;
const MOST_NAMES: usize = 256;
const MOST_OPEN: usize = 64;

type Parsed<T> = Result<T, SyntaxRefusal>;

/// The tree of a source, or the first refusal.
pub fn parse(source: &[u8]) -> Parsed<Program<String>> {
    let tokens = tokens(source)?;
    let mut parser = Parser { tokens: &tokens, place: 0, end: source.len(), open: 0, declared: 0 };
    parser.program()
}

struct Parser<'a> {
    tokens: &'a [Token],
    place: usize,
    /// The length of the source.
    end: usize,
    /// How many braces, parentheses, brackets and signs are open.
    open: usize,
    /// How many names the function declared so far.
    declared: usize,
}

impl Parser<'_> {
    fn at(&self) -> usize {
        self.tokens.get(self.place).map_or(self.end, |token| token.at)
    }

    fn line(&self) -> u32 {
        self.tokens.get(self.place).map_or(0, |token| token.line)
    }

    fn expected<T>(&self) -> Parsed<T> {
        refuse("Expected", self.at())
    }

    fn sees(&self, mark: &str) -> bool {
        matches!(self.tokens.get(self.place), Some(Token { word: Word::Mark(it), .. }) if *it == mark)
    }

    fn accept(&mut self, mark: &str) -> bool {
        let is_there = self.sees(mark);
        self.place += usize::from(is_there);
        is_there
    }

    fn want(&mut self, mark: &str) -> Parsed<()> {
        if self.accept(mark) {
            Ok(())
        } else {
            self.expected()
        }
    }

    /// Takes a mark that opens something.
    fn want_open(&mut self, mark: &str) -> Parsed<()> {
        if !self.sees(mark) {
            return self.expected();
        }
        if self.open == MOST_OPEN {
            return refuse("TooDeep", self.at());
        }
        self.open += 1;
        self.place += 1;
        Ok(())
    }

    fn want_close(&mut self, mark: &str) -> Parsed<()> {
        self.want(mark)?;
        self.open -= 1;
        Ok(())
    }

    fn name(&mut self) -> Parsed<String> {
        match self.tokens.get(self.place) {
            Some(Token { word: Word::Name(name), .. }) => {
                self.place += 1;
                Ok(name.clone())
            }
            _ => self.expected(),
        }
    }

    fn declared_name(&mut self) -> Parsed<String> {
        let at = self.at();
        let name = self.name()?;
        self.declared += 1;
        if self.declared > MOST_NAMES {
            refuse("TooMany", at)
        } else {
            Ok(name)
        }
    }

    fn program(&mut self) -> Parsed<Program<String>> {
        let mut functions = vec![self.function()?];
        while self.place < self.tokens.len() {
            if functions.len() == MOST_FUNCTIONS && self.sees("fn") {
                return refuse("TooMany", self.at());
            }
            functions.push(self.function()?);
        }
        Ok(Program { functions })
    }

    fn function(&mut self) -> Parsed<Function<String>> {
        let line = self.line();
        self.want("fn")?;
        self.declared = 0;
        let name = self.name()?;
        let parameters = self.in_parentheses(Self::parameter)?;
        self.want_open("{")?;
        let body = self.statements()?;
        let answer = if self.sees("return") { Some(self.answer()?) } else { None };
        self.want_close("}")?;
        Ok(Function { name, line, parameters, body, answer, names: Vec::new() })
    }

    fn in_parentheses<T>(&mut self, one: fn(&mut Self) -> Parsed<T>) -> Parsed<Vec<T>> {
        let mut all = Vec::new();
        self.want_open("(")?;
        if !self.sees(")") {
            all.push(one(self)?);
            while self.accept(",") {
                all.push(one(self)?);
            }
        }
        self.want_close(")")?;
        Ok(all)
    }

    fn passing(&mut self) -> Passing {
        if self.accept("use") {
            Passing::Lent
        } else if self.accept("own") {
            Passing::Given
        } else {
            Passing::Value
        }
    }

    fn parameter(&mut self) -> Parsed<Parameter<String>> {
        let passing = self.passing();
        Ok(Parameter { passing, name: self.declared_name()? })
    }

    fn argument(&mut self) -> Parsed<Argument<String>> {
        Ok(match self.passing() {
            Passing::Value => Argument::Value(self.expression()?),
            Passing::Lent => Argument::Lent(self.name()?),
            Passing::Given => Argument::Given(self.name()?),
        })
    }

    fn answer(&mut self) -> Parsed<Answer<String>> {
        let line = self.line();
        self.want("return")?;
        let value = if self.accept("own") { AnswerValue::Block(self.name()?) } else { AnswerValue::Number(self.expression()?) };
        self.want(";")?;
        Ok(Answer { line, value })
    }

    fn body(&mut self) -> Parsed<List<String>> {
        self.want_open("{")?;
        let list = self.statements()?;
        self.want_close("}")?;
        Ok(list)
    }

    fn statements(&mut self) -> Parsed<List<String>> {
        let mut list = Vec::new();
        while let Some(statement) = self.statement()? {
            list.push(statement);
        }
        Ok(list)
    }

    /// The statement that begins here, or none where the token begins no statement.
    fn statement(&mut self) -> Parsed<Option<Statement<String>>> {
        let line = self.line();
        let kind = match self.tokens.get(self.place).map(|token| &token.word) {
            Some(Word::Name(_)) => self.change()?,
            Some(Word::Mark(mark)) => match self.marked(mark)? {
                Some(kind) => kind,
                None => return Ok(None),
            },
            _ => return Ok(None),
        };
        Ok(Some(Statement { line, kind }))
    }

    fn marked(&mut self, mark: &str) -> Parsed<Option<Kind<String>>> {
        let rule = match mark {
            "let" => Self::let_statement,
            "alloc" => Self::alloc_statement,
            "free" => Self::free_statement,
            "if" => Self::if_statement,
            "while" => Self::while_statement,
            "call" => Self::call_statement,
            "print" => Self::print_statement,
            "par" => Self::par_statement,
            "split" => Self::split_statement,
            _ => return Ok(None),
        };
        self.place += 1;
        rule(self).map(Some)
    }

    fn then<T>(&mut self, mark: &str, value: T) -> Parsed<T> {
        self.want(mark)?;
        Ok(value)
    }

    fn change(&mut self) -> Parsed<Kind<String>> {
        let name = self.name()?;
        let index = if self.sees("[") { Some(self.index()?) } else { None };
        self.want("=")?;
        let value = self.expression()?;
        let kind = match index {
            Some(index) => Kind::Put(name, index, value),
            None => Kind::Assign(name, value),
        };
        self.then(";", kind)
    }

    fn index(&mut self) -> Parsed<Expression<String>> {
        self.want_open("[")?;
        let index = self.expression()?;
        self.want_close("]")?;
        Ok(index)
    }

    fn declaration(&mut self) -> Parsed<(String, Expression<String>)> {
        let name = self.declared_name()?;
        self.want("=")?;
        let value = self.expression()?;
        self.then(";", (name, value))
    }

    fn let_statement(&mut self) -> Parsed<Kind<String>> {
        self.declaration().map(|(name, value)| Kind::Let(name, value))
    }

    fn alloc_statement(&mut self) -> Parsed<Kind<String>> {
        self.declaration().map(|(name, size)| Kind::Alloc(name, size))
    }

    fn free_statement(&mut self) -> Parsed<Kind<String>> {
        let name = self.name()?;
        self.then(";", Kind::Free(name))
    }

    fn if_statement(&mut self) -> Parsed<Kind<String>> {
        let condition = self.expression()?;
        let first = self.body()?;
        let second = if self.accept("else") { self.body()? } else { Vec::new() };
        Ok(Kind::If(condition, first, second))
    }

    fn while_statement(&mut self) -> Parsed<Kind<String>> {
        let condition = self.expression()?;
        Ok(Kind::While(condition, self.body()?))
    }

    fn call_statement(&mut self) -> Parsed<Kind<String>> {
        let (target, function) = if self.accept("own") {
            let name = self.declared_name()?;
            self.want("=")?;
            (Target::Block(name), self.name()?)
        } else {
            let name = self.name()?;
            if self.accept("=") {
                (Target::Number(name), self.name()?)
            } else {
                (Target::Unused, name)
            }
        };
        let arguments = self.in_parentheses(Self::argument)?;
        self.then(";", Kind::Call(Call { target, function, arguments }))
    }

    fn print_statement(&mut self) -> Parsed<Kind<String>> {
        let value = self.expression()?;
        self.then(";", Kind::Print(value))
    }

    fn par_statement(&mut self) -> Parsed<Kind<String>> {
        let left = self.body()?;
        self.want("and")?;
        let right = self.body()?;
        Ok(Kind::Par(Par { left, right, carried: Vec::new(), assigned: Vec::new() }))
    }

    fn split_statement(&mut self) -> Parsed<Kind<String>> {
        let block = self.name()?;
        self.want("at")?;
        let at = self.expression()?;
        self.want("into")?;
        let left = self.declared_name()?;
        self.want(",")?;
        let right = self.declared_name()?;
        let body = self.body()?;
        Ok(Kind::Split(Split { block, at, left, right, body }))
    }

    /// The operator of this list that comes next.
    fn one_of<T: Copy>(&mut self, all: &[(&'static str, T)]) -> Option<T> {
        let found = all.iter().find(|(sign, _)| self.sees(sign)).map(|(_, it)| *it);
        self.place += usize::from(found.is_some());
        found
    }

    fn expression(&mut self) -> Parsed<Expression<String>> {
        let left = self.sum()?;
        match self.one_of(&Comparison::ALL) {
            None => Ok(left),
            Some(by) => Ok(Expression::Compared(by, Box::new(left), Box::new(self.sum()?))),
        }
    }

    fn sum(&mut self) -> Parsed<Expression<String>> {
        self.chain(Self::term, &Operator::ALL[..2])
    }

    fn term(&mut self) -> Parsed<Expression<String>> {
        self.chain(Self::factor, &Operator::ALL[2..])
    }

    fn chain(
        &mut self,
        operand: fn(&mut Self) -> Parsed<Expression<String>>,
        operators: &[(&'static str, Operator)],
    ) -> Parsed<Expression<String>> {
        let first = operand(self)?;
        let mut links = Vec::new();
        while let Some(operator) = self.one_of(operators) {
            links.push((operator, operand(self)?));
        }
        Ok(if links.is_empty() { first } else { Expression::Chain(Box::new(first), links) })
    }

    fn factor(&mut self) -> Parsed<Expression<String>> {
        match self.tokens.get(self.place).map(|token| &token.word) {
            Some(Word::Number(number)) => {
                self.place += 1;
                Ok(Expression::Number(*number))
            }
            Some(Word::Name(_)) => self.name_or_item(),
            Some(Word::Mark("len")) => self.length(),
            Some(Word::Mark("(")) => self.parentheses(),
            Some(Word::Mark("-")) => self.signed(),
            _ => self.expected(),
        }
    }

    fn name_or_item(&mut self) -> Parsed<Expression<String>> {
        let name = self.name()?;
        Ok(if self.sees("[") { Expression::Item(name, Box::new(self.index()?)) } else { Expression::Name(name) })
    }

    fn length(&mut self) -> Parsed<Expression<String>> {
        self.want("len")?;
        self.want_open("(")?;
        let name = self.name()?;
        self.want_close(")")?;
        Ok(Expression::Length(name))
    }

    fn parentheses(&mut self) -> Parsed<Expression<String>> {
        self.want_open("(")?;
        let inner = self.expression()?;
        self.want_close(")")?;
        Ok(inner)
    }

    /// A sign is open until its factor ends.
    fn signed(&mut self) -> Parsed<Expression<String>> {
        self.want_open("-")?;
        let inner = self.factor()?;
        self.open -= 1;
        Ok(Expression::Negated(Box::new(inner)))
    }
}
