//! A thread: what it has, what is left for it to do, and its next action.

use crate::evaluate::{block_of, evaluate, place_in, words_of, Block, Cause, Failure, Fault, Site, Value};
use crate::tree::*;

const MOST_NUMBERS: i64 = 1_048_576;
const MOST_TURNS: u32 = 1_000_000;
const MOST_CALLS: u32 = 10_000;
const MOST_FORKS_ABOVE: u32 = 256;
const PIECE: i64 = 16;

pub type Code = Program<usize>;
type Slots = Vec<Value>;

/// The next action of a thread.
#[derive(Clone, Copy)]
pub enum Next<'a> {
    Fork(Branch<'a>),
    Join(usize),
    Alloc { slot: usize, numbers: u64, site: Site },
    Release(usize),
    Dummy,
    Fault(Fault, u32),
    End,
}

/// What a child runs: the left branch of a `par`, or a tree of so many dummies.
#[derive(Clone, Copy)]
pub enum Branch<'a> {
    Par(&'a Par<usize>),
    Dummies(u64),
}

/// What is left to do, the innermost last.
#[derive(Clone)]
enum Task<'a> {
    List(&'a [Statement<usize>]),
    Round(&'a Statement<usize>),
    Rejoin(&'a Split<usize>),
    Return(&'a Call<usize>),
    ReturnOfMain,
    Join,
    Dummies(u64),
    Alloc { slot: usize, numbers: u64, site: Site },
}

#[derive(Clone)]
struct Open<'a> {
    child: usize,
    branch: Branch<'a>,
}

#[derive(Clone)]
pub struct Thread<'a> {
    code: &'a Code,
    forks_above: u32,
    /// How many calls are open, with those at the forks above.
    calls: u32,
    turns: u32,
    /// The slots of the function that runs, last, and of its callers.
    frames: Vec<Slots>,
    /// The functions of the frames, and what the last fault of this thread was met with.
    functions: Vec<usize>,
    pub cause: Option<Cause>,
    tasks: Vec<Task<'a>>,
    open: Vec<Open<'a>>,
    is_faulted: bool,
    next: Option<Next<'a>>,
    /// How many statements it has begun.
    pub statements: u64,
}

/// What an item of a thread's output is, in depth-first order.
#[derive(Clone)]
pub enum Item {
    Printed(i64),
    Faulted(Fault, u32),
    Child(usize),
}

/// A fault with its line.
type Met = (Fault, u32);

impl<'a> Thread<'a> {
    pub fn root(code: &'a Code) -> Self {
        let place = place_of_main(code);
        let main = &code.functions[place];
        Thread {
            code,
            forks_above: 0,
            calls: 1,
            turns: 0,
            frames: vec![vec![Value::Gone; main.names.len()]],
            functions: vec![place],
            cause: None,
            tasks: vec![Task::ReturnOfMain, Task::List(&main.body)],
            open: Vec::new(),
            is_faulted: false,
            next: None,
            statements: 0,
        }
    }

    /// Runs what is no action, up to the next action, which it returns. Printed values go to the items.
    pub fn next(&mut self, quota: u64, items: &mut Vec<Item>) -> Next<'a> {
        if let Some(next) = self.next {
            return next;
        }
        let next = self.find_next(quota, items).unwrap_or_else(|(fault, line)| Next::Fault(fault, line));
        self.next = Some(next);
        next
    }

    fn find_next(&mut self, quota: u64, items: &mut Vec<Item>) -> Result<Next<'a>, Met> {
        loop {
            let Some(task) = self.tasks.pop() else {
                return Ok(self.open.last().map_or(Next::End, |open| Next::Join(open.child)));
            };
            if let Some(next) = self.task(task, quota, items)? {
                return Ok(next);
            }
        }
    }

    fn task(&mut self, task: Task<'a>, quota: u64, items: &mut Vec<Item>) -> Result<Option<Next<'a>>, Met> {
        match task {
            Task::List(list) => {
                if let Some((first, rest)) = list.split_first() {
                    self.tasks.push(Task::List(rest));
                    return self.statement(first, quota, items);
                }
            }
            Task::Round(statement) => self.round(statement)?,
            Task::Rejoin(split) => self.rejoin(split),
            Task::Return(call) => self.return_from(call)?,
            Task::ReturnOfMain => self.return_of_main()?,
            Task::Join => return Ok(self.open.last().map(|open| Next::Join(open.child))),
            Task::Dummies(leaves) => return Ok(Some(self.dummies(leaves))),
            Task::Alloc { slot, numbers, site } => return Ok(Some(Next::Alloc { slot, numbers, site })),
        }
        Ok(None)
    }

    /// The tree of dummies: the child runs the greater half, then the thread itself the other one.
    fn dummies(&mut self, leaves: u64) -> Next<'a> {
        if leaves == 1 {
            return Next::Dummy;
        }
        self.tasks.push(Task::Join);
        self.tasks.push(Task::Dummies(leaves / 2));
        Next::Fork(Branch::Dummies(leaves - leaves / 2))
    }

    fn frame(&mut self) -> &mut Slots {
        self.frames.last_mut().expect("a thread that runs has a frame")
    }

    fn value(&mut self, expression: &Expression<usize>, line: u32) -> Result<i64, Met> {
        evaluate(expression, self.frame()).map_err(|failure| self.met(failure, line))
    }

    /// Notes the cause of a fault.
    fn met(&mut self, (fault, cause): Failure, line: u32) -> Met {
        self.cause = Some(cause);
        (fault, line)
    }

    /// The function that runs.
    pub fn function(&self) -> usize {
        self.functions.last().copied().unwrap_or_default()
    }

    fn statement(
        &mut self,
        statement: &'a Statement<usize>,
        quota: u64,
        items: &mut Vec<Item>,
    ) -> Result<Option<Next<'a>>, Met> {
        let line = statement.line;
        self.statements += 1;
        match &statement.kind {
            Kind::Let(slot, value) | Kind::Assign(slot, value) => {
                let number = self.value(value, line)?;
                self.frame()[*slot] = Value::Number(number);
            }
            Kind::Put(slot, index, value) => self.put(*slot, index, value, line)?,
            Kind::Alloc(slot, size) => self.alloc(*slot, size, quota, line)?,
            Kind::Free(slot) => return Ok(Some(Next::Release(*slot))),
            Kind::If(condition, first, second) => {
                let list = if self.value(condition, line)? != 0 { first } else { second };
                self.tasks.push(Task::List(list));
            }
            Kind::While(..) => self.tasks.push(Task::Round(statement)),
            Kind::Call(call) => self.call(call, line)?,
            Kind::Print(value) => items.push(Item::Printed(self.value(value, line)?)),
            Kind::Par(par) => return self.par(par, line).map(Some),
            Kind::Split(split) => self.split(split, line)?,
        }
        Ok(None)
    }

    fn put(&mut self, slot: usize, index: &Expression<usize>, value: &Expression<usize>, line: u32) -> Result<(), Met> {
        let index = self.value(index, line)?;
        let value = self.value(value, line)?;
        let place = place_in(self.frame(), slot, index).map_err(|failure| self.met(failure, line))?;
        if let Value::Block(block) = &mut self.frame()[slot] {
            block.numbers[place] = value;
        }
        Ok(())
    }

    fn alloc(&mut self, slot: usize, size: &Expression<usize>, quota: u64, line: u32) -> Result<(), Met> {
        let size = self.value(size, line)?;
        if !(0..=MOST_NUMBERS).contains(&size) {
            return Err(self.met((Fault::Size, Cause { slot: Some(slot), numbers: (size, MOST_NUMBERS) }), line));
        }
        let numbers = size as u64;
        let site = Site { line, function: self.function(), slot };
        self.tasks.push(Task::Alloc { slot, numbers, site });
        if words_of(numbers) > quota {
            self.tasks.push(Task::Dummies(words_of(numbers).div_ceil(quota)));
        }
        Ok(())
    }

    fn turn(&mut self, line: u32) -> Result<(), Met> {
        if self.turns == MOST_TURNS {
            return Err((Fault::Turns, line));
        }
        self.turns += 1;
        Ok(())
    }

    fn round(&mut self, statement: &'a Statement<usize>) -> Result<(), Met> {
        let Kind::While(condition, body) = &statement.kind else { return Ok(()) };
        if self.value(condition, statement.line)? != 0 {
            self.turn(statement.line)?;
            self.tasks.push(Task::Round(statement));
            self.tasks.push(Task::List(body));
        }
        Ok(())
    }

    fn par(&mut self, par: &'a Par<usize>, line: u32) -> Result<Next<'a>, Met> {
        if self.forks_above == MOST_FORKS_ABOVE {
            return Err((Fault::Depth, line));
        }
        self.tasks.push(Task::Join);
        self.tasks.push(Task::List(&par.right));
        Ok(Next::Fork(Branch::Par(par)))
    }

    fn split(&mut self, split: &'a Split<usize>, line: u32) -> Result<(), Met> {
        let at = self.value(&split.at, line)?;
        let length = block_of(&self.frame()[split.block]).numbers.len();
        let is_cut = (0..=length as i64).contains(&at) && at % PIECE == 0;
        if !is_cut {
            let cause = Cause { slot: Some(split.block), numbers: (at, length as i64) };
            return Err(self.met((Fault::Split, cause), line));
        }
        if let Value::Block(mut left) = self.frame()[split.block].take() {
            let right = left.split_off(at as usize);
            self.frame()[split.left] = Value::Block(left);
            self.frame()[split.right] = Value::Block(right);
        }
        self.tasks.push(Task::Rejoin(split));
        self.tasks.push(Task::List(&split.body));
        Ok(())
    }

    fn rejoin(&mut self, split: &Split<usize>) {
        let left = self.frame()[split.left].take();
        let right = self.frame()[split.right].take();
        if let (Value::Block(mut whole), Value::Block(mut rest)) = (left, right) {
            whole.numbers.append(&mut rest.numbers);
            self.frame()[split.block] = Value::Block(whole);
        }
    }

    fn call(&mut self, call: &'a Call<usize>, line: u32) -> Result<(), Met> {
        let code = self.code;
        let function = &code.functions[call.function];
        let mut slots = vec![Value::Gone; function.names.len()];
        for (parameter, argument) in function.parameters.iter().zip(&call.arguments) {
            if let Argument::Value(value) = argument {
                slots[parameter.name] = Value::Number(self.value(value, line)?);
            }
        }
        if self.calls == MOST_CALLS {
            return Err((Fault::Depth, line));
        }
        self.turn(line)?;
        for (parameter, argument) in function.parameters.iter().zip(&call.arguments) {
            if let Argument::Lent(slot) | Argument::Given(slot) = argument {
                slots[parameter.name] = self.frame()[*slot].take();
            }
        }
        self.calls += 1;
        self.frames.push(slots);
        self.functions.push(call.function);
        self.tasks.push(Task::Return(call));
        self.tasks.push(Task::List(&function.body));
        Ok(())
    }

    fn answer_of(&mut self, function: &Function<usize>) -> Result<Value, Met> {
        Ok(match &function.answer {
            None => Value::Number(0),
            Some(Answer { line, value: AnswerValue::Number(value) }) => Value::Number(self.value(value, *line)?),
            Some(Answer { value: AnswerValue::Block(slot), .. }) => self.frame()[*slot].take(),
        })
    }

    fn return_from(&mut self, call: &Call<usize>) -> Result<(), Met> {
        let code = self.code;
        let function = &code.functions[call.function];
        let answer = self.answer_of(function)?;
        let mut slots = self.frames.pop().unwrap_or_default();
        self.functions.pop();
        self.calls -= 1;
        for (parameter, argument) in function.parameters.iter().zip(&call.arguments) {
            if let Argument::Lent(slot) = argument {
                self.frame()[*slot] = slots[parameter.name].take();
            }
        }
        if let Target::Number(slot) | Target::Block(slot) = call.target {
            self.frame()[slot] = answer;
        }
        Ok(())
    }

    fn return_of_main(&mut self) -> Result<(), Met> {
        let code = self.code;
        self.answer_of(&code.functions[place_of_main(code)]).map(drop)
    }

    /// All blocks that the thread has, and parts of blocks.
    pub fn blocks(&self) -> impl Iterator<Item = &Block> {
        self.frames.iter().flatten().filter_map(|value| if let Value::Block(block) = value { Some(block) } else { None })
    }

    /// The words of all blocks that the thread has.
    fn held_words(&self) -> u64 {
        self.frames.iter().flatten().map(Value::words).sum()
    }

    /// Drops all that the thread has and all that it was to do. Answers the words of its blocks.
    fn give_all_back(&mut self) -> u64 {
        let words = self.held_words();
        self.is_faulted = true;
        self.frames.clear();
        self.tasks.clear();
        words
    }

    pub fn do_alloc(&mut self, slot: usize, numbers: u64, site: Site) {
        self.next = None;
        self.frame()[slot] = Value::Block(Block::new(numbers, site));
    }

    /// Answers the words that are given back.
    pub fn do_release(&mut self, slot: usize) -> u64 {
        self.next = None;
        self.frame()[slot].take().words()
    }

    pub fn do_dummy(&mut self) {
        self.next = None;
    }

    /// Answers the words that are given back.
    pub fn do_fault(&mut self) -> u64 {
        self.next = None;
        self.give_all_back()
    }

    /// The child, which will have this number.
    pub fn do_fork(&mut self, branch: Branch<'a>, child: usize) -> Thread<'a> {
        self.next = None;
        self.open.push(Open { child, branch });
        let (frame, task) = match branch {
            Branch::Par(par) => (self.frame_of_child(par), Task::List(&par.left)),
            Branch::Dummies(leaves) => (Vec::new(), Task::Dummies(leaves)),
        };
        Thread {
            code: self.code,
            forks_above: self.forks_above + 1,
            calls: self.calls,
            turns: 0,
            frames: vec![frame],
            functions: vec![self.function()],
            cause: None,
            tasks: vec![task],
            open: Vec::new(),
            is_faulted: false,
            next: None,
            statements: 0,
        }
    }

    /// Copies of the integers, and the blocks that the branch names.
    fn frame_of_child(&mut self, par: &Par<usize>) -> Slots {
        let own = self.frame();
        let mut slots: Slots = own.iter().map(copy_of_number).collect();
        for slot in &par.carried {
            slots[*slot] = own[*slot].take();
        }
        slots
    }

    /// Takes in what the child, which ended, brings. Answers the words that are given back.
    pub fn do_join(&mut self, mut child: Thread<'a>) -> u64 {
        self.next = None;
        let branch = self.open.pop().map(|open| open.branch);
        if self.is_faulted {
            return child.held_words();
        }
        if child.is_faulted {
            return self.give_all_back();
        }
        if let (Some(Branch::Par(par)), Some(slots)) = (branch, child.frames.pop()) {
            self.take_in(par, slots);
        }
        0
    }

    fn take_in(&mut self, par: &Par<usize>, mut slots: Slots) {
        for slot in par.carried.iter().chain(&par.assigned) {
            self.frame()[*slot] = slots[*slot].take();
        }
    }
}

fn copy_of_number(value: &Value) -> Value {
    match value {
        Value::Number(number) => Value::Number(*number),
        _ => Value::Gone,
    }
}

fn place_of_main(code: &Code) -> usize {
    code.functions.iter().position(|function| function.name == "main").expect("an accepted program has a main")
}
