//! The canonical text of a program.

use crate::tree::*;

/// What may be written at a place without parentheses: each place takes its own rule and those that bind tighter.
#[derive(Clone, Copy, PartialEq, PartialOrd)]
enum Place {
    Whole,
    Sum,
    Term,
    Factor,
}

pub fn canonical_text(program: &Program<String>) -> String {
    let mut writer = Writer { text: String::new(), level: 0 };
    for function in &program.functions {
        writer.function(function);
    }
    writer.text
}

struct Writer {
    text: String,
    level: usize,
}

impl Writer {
    fn line(&mut self, words: &str) {
        self.text.push_str(&"  ".repeat(self.level));
        self.text.push_str(words);
        self.text.push('\n');
    }

    fn function(&mut self, function: &Function<String>) {
        let parameters: Vec<String> =
            function.parameters.iter().map(|it| format!("{}{}", passing_word(it.passing), it.name)).collect();
        self.line(&format!("fn {}({}) {{", function.name, parameters.join(", ")));
        self.list(&function.body);
        self.level = 1;
        match &function.answer {
            Some(Answer { value: AnswerValue::Number(value), .. }) => self.line(&format!("return {};", whole(value))),
            Some(Answer { value: AnswerValue::Block(name), .. }) => self.line(&format!("return own {name};")),
            None => {}
        }
        self.level = 0;
        self.line("}");
    }

    fn list(&mut self, list: &List<String>) {
        self.level += 1;
        for statement in list {
            self.statement(&statement.kind);
        }
        self.level -= 1;
    }

    fn statement(&mut self, kind: &Kind<String>) {
        match kind {
            Kind::Let(name, value) => self.line(&format!("let {name} = {};", whole(value))),
            Kind::Assign(name, value) => self.line(&format!("{name} = {};", whole(value))),
            Kind::Put(name, index, value) => self.line(&format!("{name}[{}] = {};", whole(index), whole(value))),
            Kind::Alloc(name, size) => self.line(&format!("alloc {name} = {};", whole(size))),
            Kind::Free(name) => self.line(&format!("free {name};")),
            Kind::Print(value) => self.line(&format!("print {};", whole(value))),
            Kind::Call(call) => self.line(&call_text(call)),
            Kind::While(condition, body) => self.block(&format!("while {} {{", whole(condition)), body),
            Kind::If(condition, first, second) => self.if_statement(condition, first, second),
            Kind::Par(par) => {
                self.open("par {", &par.left);
                self.block("} and {", &par.right);
            }
            Kind::Split(split) => {
                let at = whole(&split.at);
                self.block(&format!("split {} at {at} into {}, {} {{", split.block, split.left, split.right), &split.body);
            }
        }
    }

    fn if_statement(&mut self, condition: &Expression<String>, first: &List<String>, second: &List<String>) {
        self.open(&format!("if {} {{", whole(condition)), first);
        if second.is_empty() {
            self.line("}");
        } else {
            self.block("} else {", second);
        }
    }

    fn open(&mut self, head: &str, list: &List<String>) {
        self.line(head);
        self.list(list);
    }

    fn block(&mut self, head: &str, list: &List<String>) {
        self.open(head, list);
        self.line("}");
    }
}

fn passing_word(passing: Passing) -> &'static str {
    match passing {
        Passing::Value => "",
        Passing::Lent => "use ",
        Passing::Given => "own ",
    }
}

fn call_text(call: &Call<String>) -> String {
    let target = match &call.target {
        Target::Unused => String::new(),
        Target::Number(name) => format!("{name} = "),
        Target::Block(name) => format!("own {name} = "),
    };
    let arguments: Vec<String> = call.arguments.iter().map(argument_text).collect();
    format!("call {target}{}({});", call.function, arguments.join(", "))
}

fn argument_text(argument: &Argument<String>) -> String {
    match argument {
        Argument::Value(value) => whole(value),
        Argument::Lent(name) => format!("use {name}"),
        Argument::Given(name) => format!("own {name}"),
    }
}

fn whole(expression: &Expression<String>) -> String {
    text_at(expression, Place::Whole)
}

fn own_place(expression: &Expression<String>) -> Place {
    match expression {
        Expression::Compared(..) => Place::Whole,
        Expression::Chain(_, links) if links.iter().all(|(operator, _)| operator.is_sum()) => Place::Sum,
        Expression::Chain(..) => Place::Term,
        _ => Place::Factor,
    }
}

fn text_at(expression: &Expression<String>, place: Place) -> String {
    let bare = bare_text(expression);
    if own_place(expression) < place {
        format!("({bare})")
    } else {
        bare
    }
}

fn bare_text(expression: &Expression<String>) -> String {
    match expression {
        Expression::Number(number) => number.to_string(),
        Expression::Name(name) => name.clone(),
        Expression::Item(name, index) => format!("{name}[{}]", whole(index)),
        Expression::Length(name) => format!("len({name})"),
        Expression::Negated(inner) => format!("-{}", text_at(inner, Place::Factor)),
        Expression::Compared(by, left, right) => {
            format!("{} {} {}", text_at(left, Place::Sum), by.sign(), text_at(right, Place::Sum))
        }
        Expression::Chain(first, links) => chain_text(first, links, own_place(expression)),
    }
}

fn chain_text(first: &Expression<String>, links: &[(Operator, Expression<String>)], own: Place) -> String {
    let operand = if own == Place::Sum { Place::Term } else { Place::Factor };
    let mut text = text_at(first, operand);
    for (operator, value) in links {
        text.push_str(&format!(" {} {}", operator.sign(), text_at(value, operand)));
    }
    text
}
