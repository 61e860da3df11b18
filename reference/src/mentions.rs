//! Which names a list of statements names, and which integers it assigns. Names of functions never count.

use crate::tree::*;
use std::collections::HashSet;

#[derive(Default)]
pub struct Mentions<'a> {
    pub named: HashSet<&'a str>,
    pub assigned: HashSet<&'a str>,
}

impl<'a> Mentions<'a> {
    pub fn of(list: &'a List<String>) -> Self {
        let mut mentions = Self::default();
        mentions.list(list);
        mentions
    }

    fn list(&mut self, list: &'a List<String>) {
        for statement in list {
            self.statement(&statement.kind);
        }
    }

    fn name(&mut self, name: &'a str) {
        self.named.insert(name);
    }

    fn assign(&mut self, name: &'a str) {
        self.name(name);
        self.assigned.insert(name);
    }

    fn statement(&mut self, kind: &'a Kind<String>) {
        match kind {
            Kind::Let(name, value) | Kind::Alloc(name, value) => {
                self.name(name);
                self.expression(value);
            }
            Kind::Assign(name, value) => {
                self.assign(name);
                self.expression(value);
            }
            Kind::Put(name, index, value) => {
                self.name(name);
                self.expression(index);
                self.expression(value);
            }
            Kind::Free(name) => self.name(name),
            Kind::Print(value) => self.expression(value),
            Kind::Call(call) => self.call(call),
            Kind::If(condition, first, second) => {
                self.expression(condition);
                self.list(first);
                self.list(second);
            }
            Kind::While(condition, body) => {
                self.expression(condition);
                self.list(body);
            }
            Kind::Par(par) => {
                self.list(&par.left);
                self.list(&par.right);
            }
            Kind::Split(split) => {
                self.expression(&split.at);
                for name in [&split.block, &split.left, &split.right] {
                    self.name(name);
                }
                self.list(&split.body);
            }
        }
    }

    fn call(&mut self, call: &'a Call<String>) {
        match &call.target {
            Target::Unused => {}
            Target::Number(name) => self.assign(name),
            Target::Block(name) => self.name(name),
        }
        for argument in &call.arguments {
            match argument {
                Argument::Value(value) => self.expression(value),
                Argument::Lent(name) | Argument::Given(name) => self.name(name),
            }
        }
    }

    fn expression(&mut self, expression: &'a Expression<String>) {
        match expression {
            Expression::Number(_) => {}
            Expression::Name(name) | Expression::Length(name) => self.name(name),
            Expression::Item(name, index) => {
                self.name(name);
                self.expression(index);
            }
            Expression::Negated(inner) => self.expression(inner),
            Expression::Chain(first, links) => {
                self.expression(first);
                for (_, value) in links {
                    self.expression(value);
                }
            }
            Expression::Compared(_, left, right) => {
                self.expression(left);
                self.expression(right);
            }
        }
    }
}
