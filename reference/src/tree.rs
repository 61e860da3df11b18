//! The tree of a program. `N` is what a name is: the text that was written, or, once names are resolved, a number.

pub struct Program<N> {
    pub functions: Vec<Function<N>>,
}

pub struct Function<N> {
    pub name: String,
    pub line: u32,
    pub parameters: Vec<Parameter<N>>,
    pub body: List<N>,
    pub answer: Option<Answer<N>>,
    /// The names that the function declares, in their order. Filled where names are resolved.
    pub names: Vec<String>,
}

#[derive(Clone, Copy, PartialEq, Eq)]
pub enum Passing {
    Value,
    Lent,
    Given,
}

pub struct Parameter<N> {
    pub passing: Passing,
    pub name: N,
}

pub struct Answer<N> {
    pub line: u32,
    pub value: AnswerValue<N>,
}

pub enum AnswerValue<N> {
    Number(Expression<N>),
    Block(N),
}

pub type List<N> = Vec<Statement<N>>;

pub struct Statement<N> {
    pub line: u32,
    pub kind: Kind<N>,
}

pub enum Kind<N> {
    Let(N, Expression<N>),
    Assign(N, Expression<N>),
    Put(N, Expression<N>, Expression<N>),
    Alloc(N, Expression<N>),
    Free(N),
    If(Expression<N>, List<N>, List<N>),
    While(Expression<N>, List<N>),
    Call(Call<N>),
    Print(Expression<N>),
    Par(Par<N>),
    Split(Split<N>),
}

pub struct Call<N> {
    pub target: Target<N>,
    pub function: N,
    pub arguments: Vec<Argument<N>>,
}

pub enum Target<N> {
    Unused,
    Number(N),
    Block(N),
}

pub enum Argument<N> {
    Value(Expression<N>),
    Lent(N),
    Given(N),
}

pub struct Par<N> {
    pub left: List<N>,
    pub right: List<N>,
    /// The blocks from outside that the left branch names, and the integers from outside that it assigns. Filled where
    /// names are resolved.
    pub carried: Vec<N>,
    pub assigned: Vec<N>,
}

pub struct Split<N> {
    pub block: N,
    pub at: Expression<N>,
    pub left: N,
    pub right: N,
    pub body: List<N>,
}

pub enum Expression<N> {
    Number(i64),
    Name(N),
    Item(N, Box<Expression<N>>),
    Length(N),
    Negated(Box<Expression<N>>),
    Chain(Box<Expression<N>>, Vec<(Operator, Expression<N>)>),
    Compared(Comparison, Box<Expression<N>>, Box<Expression<N>>),
}

#[derive(Clone, Copy, PartialEq, Eq)]
pub enum Operator {
    Add,
    Subtract,
    Multiply,
    Divide,
    Remainder,
}

impl Operator {
    pub const ALL: [(&'static str, Operator); 5] = [
        ("+", Operator::Add),
        ("-", Operator::Subtract),
        ("*", Operator::Multiply),
        ("/", Operator::Divide),
        ("%", Operator::Remainder),
    ];

    pub fn is_sum(self) -> bool {
        matches!(self, Operator::Add | Operator::Subtract)
    }

    pub fn sign(self) -> &'static str {
        sign_of(&Self::ALL, self)
    }
}

#[derive(Clone, Copy, PartialEq, Eq)]
pub enum Comparison {
    Equal,
    Different,
    Less,
    AtMost,
    Greater,
    AtLeast,
}

impl Comparison {
    pub const ALL: [(&'static str, Comparison); 6] = [
        ("==", Comparison::Equal),
        ("!=", Comparison::Different),
        ("<", Comparison::Less),
        ("<=", Comparison::AtMost),
        (">", Comparison::Greater),
        (">=", Comparison::AtLeast),
    ];

    pub fn sign(self) -> &'static str {
        sign_of(&Self::ALL, self)
    }
}

fn sign_of<T: PartialEq>(all: &[(&'static str, T)], wanted: T) -> &'static str {
    all.iter().find(|(_, it)| *it == wanted).map_or("", |(sign, _)| sign)
}
