//! One process: its stack, its words, and the instructions that reach no further than these and the monitors' words.

use crate::image::{Code, Instruction, Process, Routine};

const OVERFLOW: u16 = 1;
const ZERO_DIVISOR: u16 = 2;
const OUT_OF_RANGE: u16 = 3;

/// Why a process does not compute on.
pub enum Stop {
    /// Its time is up.
    Time,
    Raise(u16),
    /// It has passed an instruction whose effect reaches further. The address is behind it.
    Effect(Instruction),
}

/// Where a process is in its code. The stack holds, of each call in progress, the locals and then the operands.
pub struct Core {
    pc: usize,
    base: usize,
    top: usize,
    stack: Box<[i32]>,
    data: Box<[i32]>,
    /// The return address and the base of the caller, of each call in progress.
    calls: Vec<(usize, usize)>,
    in_handler: bool,
    pub inside: bool,
    /// Ticks that its instruction has had.
    done: u64,
}

impl Core {
    pub fn new(process: &Process) -> Self {
        Core {
            pc: process.start,
            base: 0,
            top: process.locals,
            stack: vec![0; process.stack].into(),
            data: vec![0; process.data].into(),
            calls: Vec::new(),
            in_handler: false,
            inside: false,
            done: 0,
        }
    }

    pub fn release(&mut self, process: &Process) {
        self.pc = process.start;
        self.top = process.locals;
        self.stack[..process.locals].fill(0);
        self.in_handler = false;
    }

    /// Goes to the handler, or to the end of the part that it is in, for an exception.
    pub fn divert(&mut self, process: &Process, number: u16) {
        self.calls.clear();
        self.base = 0;
        self.top = process.locals;
        self.pc = match &process.handler {
            Some(handler) if self.in_handler => handler.end,
            Some(handler) if handler.numbers.contains(&number) => {
                self.in_handler = true;
                handler.start
            }
            _ => process.end,
        };
    }

    pub fn push(&mut self, value: i32) {
        self.stack[self.top] = value;
        self.top += 1;
    }

    pub fn pop(&mut self) -> i32 {
        self.top -= 1;
        self.stack[self.top]
    }

    /// Computes for so many ticks, or until it has to stop. What is left of them is told.
    pub fn compute(&mut self, code: &[Instruction], routines: &[Routine], words: &mut [i32], ticks: u64) -> (Stop, u64) {
        let stack = &mut *self.stack;
        let data = &mut *self.data;
        let (mut pc, mut base, mut top) = (self.pc, self.base, self.top);
        // What is left, with what the present instruction has had already.
        let mut left = ticks + self.done;
        self.done = 0;

        macro_rules! push {
            ($value:expr) => {{
                let value = $value;
                stack[top] = value;
                top += 1;
            }};
        }
        macro_rules! pop {
            () => {{
                top -= 1;
                stack[top]
            }};
        }
        macro_rules! raise {
            ($number:expr) => {
                break Stop::Raise($number)
            };
        }
        macro_rules! unary {
            ($operation:expr) => {{
                let value = stack[top - 1];
                match $operation(value) {
                    Some(value) => stack[top - 1] = value,
                    None => raise!(OVERFLOW),
                }
            }};
        }
        macro_rules! exact {
            ($operation:expr) => {{
                let right = pop!();
                match $operation(stack[top - 1], right) {
                    Some(value) => stack[top - 1] = value,
                    None => raise!(OVERFLOW),
                }
            }};
        }
        macro_rules! holds {
            ($operation:expr) => {{
                let right = pop!();
                stack[top - 1] = i32::from($operation(&stack[top - 1], &right));
            }};
        }
        macro_rules! load_at {
            ($words:expr, $first:expr, $one:expr) => {{
                match place($one.a, $one.b, $one.c, stack[top - 1]) {
                    Some(place) => stack[top - 1] = $words[$first + place],
                    None => raise!(OUT_OF_RANGE),
                }
            }};
        }
        macro_rules! store_at {
            ($words:expr, $first:expr, $one:expr) => {{
                let value = pop!();
                let index = pop!();
                match place($one.a, $one.b, $one.c, index) {
                    Some(place) => $words[$first + place] = value,
                    None => raise!(OUT_OF_RANGE),
                }
            }};
        }

        let stop = loop {
            let one = &code[pc];
            let Some(then) = left.checked_sub(one.ticks.into()) else {
                self.done = left;
                left = 0;
                break Stop::Time;
            };
            left = then;
            pc += 1;
            let operand = one.a as usize;
            match one.code {
                Code::Push => push!(one.a),
                Code::LoadLocal => push!(stack[base + operand]),
                Code::StoreLocal => stack[base + operand] = pop!(),
                Code::LoadData => push!(data[operand]),
                Code::StoreData => data[operand] = pop!(),
                Code::LoadMonitor => push!(words[operand]),
                Code::StoreMonitor => words[operand] = pop!(),
                Code::LoadLocalAt => load_at!(stack, base, one),
                Code::StoreLocalAt => store_at!(stack, base, one),
                Code::LoadDataAt => load_at!(data, 0, one),
                Code::StoreDataAt => store_at!(data, 0, one),
                Code::LoadMonitorAt => load_at!(words, 0, one),
                Code::StoreMonitorAt => store_at!(words, 0, one),
                Code::Neg => unary!(i32::checked_neg),
                Code::Not => stack[top - 1] = i32::from(stack[top - 1] == 0),
                Code::And => holds!(|left: &i32, right: &i32| *left != 0 && *right != 0),
                Code::Or => holds!(|left: &i32, right: &i32| *left != 0 || *right != 0),
                Code::Add => exact!(i32::checked_add),
                Code::Sub => exact!(i32::checked_sub),
                Code::Mul => exact!(i32::checked_mul),
                Code::Equal => holds!(i32::eq),
                Code::Unequal => holds!(i32::ne),
                Code::Less => holds!(i32::lt),
                Code::AtMost => holds!(i32::le),
                Code::Greater => holds!(i32::gt),
                Code::AtLeast => holds!(i32::ge),
                Code::Div | Code::Mod => {
                    let right = pop!();
                    let left = stack[top - 1];
                    if right == 0 {
                        raise!(ZERO_DIVISOR);
                    }
                    stack[top - 1] = if one.code == Code::Mod {
                        left.wrapping_rem(right)
                    } else {
                        match left.checked_div(right) {
                            Some(value) => value,
                            None => raise!(OVERFLOW),
                        }
                    };
                }
                Code::Range => {
                    if !(one.a..=one.b).contains(&stack[top - 1]) {
                        raise!(OUT_OF_RANGE);
                    }
                }
                Code::JumpIfZero => {
                    if pop!() == 0 {
                        pc = operand;
                    }
                }
                Code::Jump => pc = operand,
                Code::Repeat => push!(one.a),
                Code::Again => {
                    stack[top - 1] -= 1;
                    if stack[top - 1] > 0 {
                        pc = operand;
                    } else {
                        top -= 1;
                    }
                }
                Code::Exit => {
                    if pop!() != 0 {
                        top -= 1;
                        pc = operand;
                    }
                }
                Code::Call => {
                    let routine = &routines[operand];
                    self.calls.push((pc, base));
                    base = top - routine.parameters;
                    stack[top..base + routine.locals].fill(0);
                    top = base + routine.locals;
                    pc = routine.start;
                }
                Code::Return => {
                    top = base;
                    (pc, base) = self.calls.pop().expect("a routine has a caller");
                }
                Code::ReturnValue => {
                    stack[base] = pop!();
                    top = base + 1;
                    (pc, base) = self.calls.pop().expect("a routine has a caller");
                }
                Code::Raise => raise!(one.a as u16),
                Code::Enter
                | Code::Leave
                | Code::Wait
                | Code::Reenter
                | Code::Signal
                | Code::Broadcast
                | Code::Empty
                | Code::In
                | Code::Out
                | Code::End => break Stop::Effect(*one),
            }
        };
        (self.pc, self.base, self.top) = (pc, base, top);
        (stop, left)
    }
}

/// The word of an element: its first word and its index, counted from the lower bound.
fn place(first: i32, low: i32, length: i32, index: i32) -> Option<usize> {
    let offset = i64::from(index) - i64::from(low);
    (0..i64::from(length)).contains(&offset).then(|| first as usize + offset as usize)
}
