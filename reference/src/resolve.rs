//! From names to numbers: each declaration of a function gets a slot of its own, and each function its place in the text.

use crate::mentions::Mentions;
use crate::tree::*;
use std::collections::HashMap;

/// The same program with numbers for names. The program keeps the rules of ownership.
pub fn resolve(program: &Program<String>) -> Program<usize> {
    let places: HashMap<&str, usize> =
        program.functions.iter().enumerate().map(|(place, function)| (function.name.as_str(), place)).collect();
    let functions = program.functions.iter().map(|function| resolve_function(&places, function)).collect();
    Program { functions }
}

fn resolve_function(places: &HashMap<&str, usize>, function: &Function<String>) -> Function<usize> {
    let mut scope = Scope { places, visible: Vec::new(), names: Vec::new() };
    let parameters = function
        .parameters
        .iter()
        .map(|it| Parameter { passing: it.passing, name: scope.declare(&it.name, it.passing != Passing::Value) })
        .collect();
    let body = scope.statements(&function.body);
    let answer = function.answer.as_ref().map(|answer| scope.answer(answer));
    Function { name: function.name.clone(), line: function.line, parameters, body, answer, names: scope.names }
}

struct Visible<'a> {
    name: &'a str,
    slot: usize,
    is_block: bool,
}

struct Scope<'a> {
    places: &'a HashMap<&'a str, usize>,
    visible: Vec<Visible<'a>>,
    /// All names that the function has declared so far: each has the slot of its place.
    names: Vec<String>,
}

impl<'a> Scope<'a> {
    fn declare(&mut self, name: &'a str, is_block: bool) -> usize {
        let slot = self.names.len();
        self.visible.push(Visible { name, slot, is_block });
        self.names.push(name.to_string());
        slot
    }

    fn slot(&self, name: &str) -> usize {
        self.visible.iter().find(|it| it.name == name).map_or(usize::MAX, |it| it.slot)
    }

    fn list(&mut self, list: &'a List<String>) -> List<usize> {
        let from = self.visible.len();
        let resolved = self.statements(list);
        self.visible.truncate(from);
        resolved
    }

    fn statements(&mut self, list: &'a List<String>) -> List<usize> {
        list.iter().map(|it| Statement { line: it.line, kind: self.kind(&it.kind) }).collect()
    }

    fn answer(&self, answer: &Answer<String>) -> Answer<usize> {
        let value = match &answer.value {
            AnswerValue::Number(value) => AnswerValue::Number(self.expression(value)),
            AnswerValue::Block(name) => AnswerValue::Block(self.slot(name)),
        };
        Answer { line: answer.line, value }
    }

    fn kind(&mut self, kind: &'a Kind<String>) -> Kind<usize> {
        match kind {
            Kind::Let(name, value) => {
                let value = self.expression(value);
                Kind::Let(self.declare(name, false), value)
            }
            Kind::Alloc(name, size) => {
                let size = self.expression(size);
                Kind::Alloc(self.declare(name, true), size)
            }
            Kind::Assign(name, value) => Kind::Assign(self.slot(name), self.expression(value)),
            Kind::Put(name, index, value) => Kind::Put(self.slot(name), self.expression(index), self.expression(value)),
            Kind::Free(name) => Kind::Free(self.slot(name)),
            Kind::If(condition, first, second) => Kind::If(self.expression(condition), self.list(first), self.list(second)),
            Kind::While(condition, body) => Kind::While(self.expression(condition), self.list(body)),
            Kind::Call(call) => Kind::Call(self.call(call)),
            Kind::Print(value) => Kind::Print(self.expression(value)),
            Kind::Par(par) => Kind::Par(self.par(par)),
            Kind::Split(split) => Kind::Split(self.split(split)),
        }
    }

    fn call(&mut self, call: &'a Call<String>) -> Call<usize> {
        let arguments = call.arguments.iter().map(|it| self.argument(it)).collect();
        let target = match &call.target {
            Target::Unused => Target::Unused,
            Target::Number(name) => Target::Number(self.slot(name)),
            Target::Block(name) => Target::Block(self.declare(name, true)),
        };
        Call { target, function: self.places[call.function.as_str()], arguments }
    }

    fn argument(&self, argument: &Argument<String>) -> Argument<usize> {
        match argument {
            Argument::Value(value) => Argument::Value(self.expression(value)),
            Argument::Lent(name) => Argument::Lent(self.slot(name)),
            Argument::Given(name) => Argument::Given(self.slot(name)),
        }
    }

    fn par(&mut self, par: &'a Par<String>) -> Par<usize> {
        let mentions = Mentions::of(&par.left);
        let carried = self.outside(|it| it.is_block && mentions.named.contains(it.name));
        let assigned = self.outside(|it| !it.is_block && mentions.assigned.contains(it.name));
        Par { left: self.list(&par.left), right: self.list(&par.right), carried, assigned }
    }

    fn outside(&self, is_wanted: impl Fn(&Visible<'a>) -> bool) -> Vec<usize> {
        self.visible.iter().filter(|it| is_wanted(it)).map(|it| it.slot).collect()
    }

    fn split(&mut self, split: &'a Split<String>) -> Split<usize> {
        let block = self.slot(&split.block);
        let at = self.expression(&split.at);
        let from = self.visible.len();
        let left = self.declare(&split.left, true);
        let right = self.declare(&split.right, true);
        let body = self.list(&split.body);
        self.visible.truncate(from);
        Split { block, at, left, right, body }
    }

    fn boxed(&self, expression: &Expression<String>) -> Box<Expression<usize>> {
        Box::new(self.expression(expression))
    }

    fn expression(&self, expression: &Expression<String>) -> Expression<usize> {
        match expression {
            Expression::Number(number) => Expression::Number(*number),
            Expression::Name(name) => Expression::Name(self.slot(name)),
            Expression::Item(name, index) => Expression::Item(self.slot(name), self.boxed(index)),
            Expression::Length(name) => Expression::Length(self.slot(name)),
            Expression::Negated(inner) => Expression::Negated(self.boxed(inner)),
            Expression::Chain(first, links) => {
                let links = links.iter().map(|(operator, value)| (*operator, self.expression(value))).collect();
                Expression::Chain(self.boxed(first), links)
            }
            Expression::Compared(by, left, right) => Expression::Compared(*by, self.boxed(left), self.boxed(right)),
        }
    }
}
