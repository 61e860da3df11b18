//! The rules of ownership: a walk through the program that answers the first refusal.

use crate::mentions::Mentions;
use crate::tree::*;
use std::collections::HashMap;

/// Which rule is broken, where, and by which name.
#[derive(Clone, Debug, PartialEq, Eq)]
pub struct RuleRefusal {
    pub rule: &'static str,
    pub line: u32,
    pub name: String,
}

type Walked = Result<(), RuleRefusal>;
type Functions<'a> = HashMap<&'a str, &'a Function<String>>;

fn refuse<T>(rule: &'static str, line: u32, name: &str) -> Result<T, RuleRefusal> {
    Err(RuleRefusal { rule, line, name: name.to_string() })
}

pub fn check(program: &Program<String>) -> Walked {
    let mut functions = HashMap::new();
    for function in &program.functions {
        if functions.insert(function.name.as_str(), function).is_some() {
            return refuse("Redefined", function.line, &function.name);
        }
    }
    if !functions.get("main").is_some_and(|main| main.parameters.is_empty() && !gives_block(main)) {
        return refuse("NoMain", 1, "main");
    }
    program.functions.iter().try_for_each(|function| check_function(&functions, function))
}

fn gives_block(function: &Function<String>) -> bool {
    matches!(function.answer, Some(Answer { value: AnswerValue::Block(_), .. }))
}

fn check_function(functions: &Functions, function: &Function<String>) -> Walked {
    let mut walk = Walk { functions, visible: Vec::new() };
    for parameter in &function.parameters {
        walk.fresh(&parameter.name, function.line)?;
        let sort = match parameter.passing {
            Passing::Value => Sort::Integer,
            Passing::Lent => Sort::Lent,
            Passing::Given => Sort::Owned,
        };
        walk.declare(&parameter.name, sort, function.line);
    }
    walk.statements(&function.body)?;
    if let Some(answer) = &function.answer {
        walk.answer(answer)?;
    }
    walk.end_of_list(0)
}

#[derive(Clone, Copy, PartialEq, Eq)]
enum Sort {
    Integer,
    Owned,
    Lent,
}

struct Entry<'a> {
    name: &'a str,
    sort: Sort,
    is_held: bool,
    line: u32,
}

struct Walk<'a> {
    functions: &'a Functions<'a>,
    /// The visible names in order of declaration.
    visible: Vec<Entry<'a>>,
}

impl<'a> Walk<'a> {
    fn place(&self, name: &str) -> Option<usize> {
        self.visible.iter().position(|entry| entry.name == name)
    }

    fn fresh(&self, name: &str, line: u32) -> Walked {
        if self.place(name).is_some() {
            refuse("Redefined", line, name)
        } else {
            Ok(())
        }
    }

    fn declare(&mut self, name: &'a str, sort: Sort, line: u32) {
        self.visible.push(Entry { name, sort, is_held: true, line });
    }

    fn seen(&self, name: &str, line: u32) -> Result<usize, RuleRefusal> {
        self.place(name).map_or_else(|| refuse("UnknownName", line, name), Ok)
    }

    fn integer(&self, name: &str, line: u32) -> Walked {
        let place = self.seen(name, line)?;
        if self.visible[place].sort == Sort::Integer {
            Ok(())
        } else {
            refuse("WrongKind", line, name)
        }
    }

    fn block(&self, name: &str, line: u32) -> Result<usize, RuleRefusal> {
        let place = self.seen(name, line)?;
        if self.visible[place].sort == Sort::Integer {
            return refuse("WrongKind", line, name);
        }
        if self.visible[place].is_held {
            Ok(place)
        } else {
            refuse("Gone", line, name)
        }
    }

    fn owned_block(&self, name: &str, line: u32) -> Result<usize, RuleRefusal> {
        let place = self.block(name, line)?;
        if self.visible[place].sort == Sort::Lent {
            refuse("FreesLent", line, name)
        } else {
            Ok(place)
        }
    }

    fn held(&self) -> Vec<bool> {
        self.visible.iter().map(|entry| entry.is_held).collect()
    }

    fn set_held(&mut self, held: &[bool]) {
        for (entry, is_held) in self.visible.iter_mut().zip(held) {
            entry.is_held = *is_held;
        }
    }

    fn end_of_list(&mut self, from: usize) -> Walked {
        let kept = self.visible[from..].iter().find(|entry| entry.sort == Sort::Owned && entry.is_held);
        match kept {
            Some(entry) => refuse("NotFreed", entry.line, entry.name),
            None => {
                self.visible.truncate(from);
                Ok(())
            }
        }
    }

    fn list(&mut self, list: &'a List<String>) -> Walked {
        let from = self.visible.len();
        self.statements(list)?;
        self.end_of_list(from)
    }

    fn statements(&mut self, list: &'a List<String>) -> Walked {
        list.iter().try_for_each(|statement| self.statement(statement))
    }

    fn answer(&mut self, answer: &'a Answer<String>) -> Walked {
        match &answer.value {
            AnswerValue::Number(value) => self.expression(value, answer.line),
            AnswerValue::Block(name) => self.give_away(name, answer.line),
        }
    }

    fn give_away(&mut self, name: &str, line: u32) -> Walked {
        let place = self.owned_block(name, line)?;
        self.visible[place].is_held = false;
        Ok(())
    }

    fn statement(&mut self, statement: &'a Statement<String>) -> Walked {
        let line = statement.line;
        match &statement.kind {
            Kind::Let(name, value) => self.declaration(name, value, Sort::Integer, line),
            Kind::Alloc(name, size) => self.declaration(name, size, Sort::Owned, line),
            Kind::Assign(name, value) => {
                self.integer(name, line)?;
                self.expression(value, line)
            }
            Kind::Put(name, index, value) => {
                self.block(name, line)?;
                self.expression(index, line)?;
                self.expression(value, line)
            }
            Kind::Free(name) => self.give_away(name, line),
            Kind::Print(value) => self.expression(value, line),
            Kind::Call(call) => self.call(call, line),
            Kind::If(condition, first, second) => {
                self.expression(condition, line)?;
                self.arms(first, second, line)
            }
            Kind::While(condition, body) => {
                self.expression(condition, line)?;
                self.rounds(body, line)
            }
            Kind::Par(par) => self.par(par, line),
            Kind::Split(split) => self.split(split, line),
        }
    }

    fn declaration(&mut self, name: &'a str, value: &'a Expression<String>, sort: Sort, line: u32) -> Walked {
        self.fresh(name, line)?;
        self.expression(value, line)?;
        self.declare(name, sort, line);
        Ok(())
    }

    fn differ(&self, one: &[bool], other: &[bool], line: u32) -> Walked {
        match (0..one.len()).find(|place| one[*place] != other[*place]) {
            Some(place) => refuse("ArmsDiffer", line, self.visible[place].name),
            None => Ok(()),
        }
    }

    fn arms(&mut self, first: &'a List<String>, second: &'a List<String>, line: u32) -> Walked {
        let before = self.held();
        self.list(first)?;
        let after_first = self.held();
        self.set_held(&before);
        self.list(second)?;
        self.differ(&after_first, &self.held(), line)
    }

    fn rounds(&mut self, body: &'a List<String>, line: u32) -> Walked {
        let before = self.held();
        self.list(body)?;
        self.differ(&before, &self.held(), line)
    }

    fn par(&mut self, par: &'a Par<String>, line: u32) -> Walked {
        self.nothing_shared(&Mentions::of(&par.left), &Mentions::of(&par.right), line)?;
        let before = self.held();
        self.list(&par.left)?;
        let after_left = self.held();
        self.set_held(&before);
        self.list(&par.right)?;
        let after: Vec<bool> = self.held().iter().zip(&after_left).map(|(one, other)| *one && *other).collect();
        self.set_held(&after);
        Ok(())
    }

    fn nothing_shared(&self, left: &Mentions, right: &Mentions, line: u32) -> Walked {
        for Entry { name, sort, .. } in &self.visible {
            let is_in_both = left.named.contains(name) && right.named.contains(name);
            let is_assigned = left.assigned.contains(name) || right.assigned.contains(name);
            match sort {
                Sort::Integer if is_in_both && is_assigned => return refuse("SharedInt", line, name),
                Sort::Owned | Sort::Lent if is_in_both => return refuse("SharedBlock", line, name),
                _ => {}
            }
        }
        Ok(())
    }

    fn split(&mut self, split: &'a Split<String>, line: u32) -> Walked {
        let place = self.block(&split.block, line)?;
        self.expression(&split.at, line)?;
        let from = self.visible.len();
        for part in [&split.left, &split.right] {
            self.fresh(part, line)?;
            self.declare(part, Sort::Lent, line);
        }
        self.visible[place].is_held = false;
        self.list(&split.body)?;
        self.visible[place].is_held = true;
        self.visible.truncate(from);
        Ok(())
    }

    fn call(&mut self, call: &'a Call<String>, line: u32) -> Walked {
        let name = &call.function;
        match &call.target {
            Target::Unused => {}
            Target::Number(target) => self.integer(target, line)?,
            Target::Block(target) => self.fresh(target, line)?,
        }
        let Some(function) = self.functions.get(name.as_str()).copied() else {
            return refuse("UnknownName", line, name);
        };
        if function.parameters.len() != call.arguments.len() {
            return refuse("WrongCount", line, name);
        }
        if gives_block(function) != matches!(call.target, Target::Block(_)) {
            return refuse("WrongKind", line, name);
        }
        self.arguments(function, call, line)?;
        if let Target::Block(target) = &call.target {
            self.declare(target, Sort::Owned, line);
        }
        Ok(())
    }

    /// All arguments see the blocks as they are before the call.
    fn arguments(&mut self, function: &Function<String>, call: &'a Call<String>, line: u32) -> Walked {
        let mut passed = Vec::new();
        let mut given = Vec::new();
        for (parameter, argument) in function.parameters.iter().zip(&call.arguments) {
            match (parameter.passing, argument) {
                (Passing::Value, Argument::Value(value)) => self.expression(value, line)?,
                (Passing::Lent, Argument::Lent(name)) => self.pass(name, &mut passed, line)?,
                (Passing::Given, Argument::Given(name)) => {
                    self.pass(name, &mut passed, line)?;
                    given.push(self.owned_block(name, line)?);
                }
                _ => return refuse("WrongKind", line, &parameter.name),
            }
        }
        for place in given {
            self.visible[place].is_held = false;
        }
        Ok(())
    }

    fn pass(&self, name: &str, passed: &mut Vec<usize>, line: u32) -> Walked {
        let place = self.block(name, line)?;
        if passed.contains(&place) {
            return refuse("SharedBlock", line, name);
        }
        passed.push(place);
        Ok(())
    }

    fn expression(&self, expression: &Expression<String>, line: u32) -> Walked {
        match expression {
            Expression::Number(_) => Ok(()),
            Expression::Name(name) => self.integer(name, line),
            Expression::Length(name) => self.block(name, line).map(drop),
            Expression::Item(name, index) => {
                self.block(name, line)?;
                self.expression(index, line)
            }
            Expression::Negated(inner) => self.expression(inner, line),
            Expression::Chain(first, links) => {
                self.expression(first, line)?;
                links.iter().try_for_each(|(_, value)| self.expression(value, line))
            }
            Expression::Compared(_, left, right) => {
                self.expression(left, line)?;
                self.expression(right, line)
            }
        }
    }
}
