//! The value of an expression over the slots of a function.

use crate::tree::*;

#[derive(Clone, Copy, Debug, PartialEq, Eq)]
pub enum Fault {
    Index,
    Divide,
    Size,
    Split,
    Depth,
    Turns,
}

/// Where a block was made: the line of the `alloc`, the function, and the slot of the name that it declares.
#[derive(Clone, Copy, Debug, PartialEq, Eq, PartialOrd, Ord)]
pub struct Site {
    pub line: u32,
    pub function: usize,
    pub slot: usize,
}

/// A block, or a part of one that is split.
#[derive(Clone, Debug)]
pub struct Block {
    pub numbers: Vec<i64>,
    pub site: Site,
    /// Of the parts of a block, one is its front.
    pub is_front: bool,
}

impl Block {
    pub fn new(numbers: u64, site: Site) -> Self {
        Block { numbers: vec![0; numbers as usize], site, is_front: true }
    }

    /// Cuts the numbers from a place on off, as a part of its own.
    pub fn split_off(&mut self, at: usize) -> Block {
        Block { numbers: self.numbers.split_off(at), site: self.site, is_front: false }
    }
}

/// What a fault was met with: the slot of the block, if it is of one, and two numbers: for Index and Split the place and the length of the
/// block, for Divide the left and the right side.
#[derive(Clone, Copy, Debug, PartialEq, Eq)]
pub struct Cause {
    pub slot: Option<usize>,
    pub numbers: (i64, i64),
}

/// A fault with its cause.
pub type Failure = (Fault, Cause);

#[derive(Clone, Debug)]
pub enum Value {
    Number(i64),
    Block(Block),
    Gone,
}

impl Value {
    pub fn words(&self) -> u64 {
        match self {
            Value::Block(block) => words_of(block.numbers.len() as u64),
            _ => 0,
        }
    }

    pub fn take(&mut self) -> Value {
        std::mem::replace(self, Value::Gone)
    }
}

/// The words that a block of so many numbers takes: whole pieces of 16.
pub fn words_of(numbers: u64) -> u64 {
    numbers.div_ceil(16) * 16
}

pub fn block_of(value: &Value) -> &Block {
    match value {
        Value::Block(block) => block,
        _ => unreachable!("an accepted program reads no block that is not there"),
    }
}

/// The place that a number names in the block of a slot.
pub fn place_in(slots: &[Value], slot: usize, index: i64) -> Result<usize, Failure> {
    let length = block_of(&slots[slot]).numbers.len();
    let cause = Cause { slot: Some(slot), numbers: (index, length as i64) };
    usize::try_from(index).ok().filter(|place| *place < length).ok_or((Fault::Index, cause))
}

pub fn evaluate(expression: &Expression<usize>, slots: &[Value]) -> Result<i64, Failure> {
    Ok(match expression {
        Expression::Number(number) => *number,
        Expression::Name(slot) => match &slots[*slot] {
            Value::Number(number) => *number,
            _ => unreachable!("an accepted program reads no integer that is not there"),
        },
        Expression::Length(slot) => block_of(&slots[*slot]).numbers.len() as i64,
        Expression::Item(slot, index) => {
            let index = evaluate(index, slots)?;
            block_of(&slots[*slot]).numbers[place_in(slots, *slot, index)?]
        }
        Expression::Negated(inner) => evaluate(inner, slots)?.wrapping_neg(),
        Expression::Chain(first, links) => {
            let mut value = evaluate(first, slots)?;
            for (operator, operand) in links {
                value = operate(*operator, value, evaluate(operand, slots)?)?;
            }
            value
        }
        Expression::Compared(by, left, right) => {
            let left = evaluate(left, slots)?;
            i64::from(compare(*by, left, evaluate(right, slots)?))
        }
    })
}

fn operate(operator: Operator, left: i64, right: i64) -> Result<i64, Failure> {
    let divides = matches!(operator, Operator::Divide | Operator::Remainder);
    if divides && right == 0 {
        return Err((Fault::Divide, Cause { slot: None, numbers: (left, right) }));
    }
    Ok(match operator {
        Operator::Add => left.wrapping_add(right),
        Operator::Subtract => left.wrapping_sub(right),
        Operator::Multiply => left.wrapping_mul(right),
        Operator::Divide => left.wrapping_div(right),
        Operator::Remainder => left.wrapping_rem(right),
    })
}

fn compare(by: Comparison, left: i64, right: i64) -> bool {
    match by {
        Comparison::Equal => left == right,
        Comparison::Different => left != right,
        Comparison::Less => left < right,
        Comparison::AtMost => left <= right,
        Comparison::Greater => left > right,
        Comparison::AtLeast => left >= right,
    }
}
