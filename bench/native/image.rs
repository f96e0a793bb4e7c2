//! Stored images, version 2, decoded for the machine. Costs, bounds and segment trees are passed over.

use std::fmt;

/// What an instruction does. The names are in the order of the numbers that a file has, from 1 on.
#[derive(Clone, Copy, Debug, PartialEq, Eq)]
#[repr(u8)]
pub enum Code {
    Push,
    LoadLocal,
    StoreLocal,
    LoadData,
    StoreData,
    LoadMonitor,
    StoreMonitor,
    LoadLocalAt,
    StoreLocalAt,
    LoadDataAt,
    StoreDataAt,
    LoadMonitorAt,
    StoreMonitorAt,
    Neg,
    Not,
    And,
    Or,
    Add,
    Sub,
    Equal,
    Unequal,
    Less,
    AtMost,
    Greater,
    AtLeast,
    Mul,
    Div,
    Mod,
    Range,
    JumpIfZero,
    Jump,
    Repeat,
    Again,
    Exit,
    Call,
    Return,
    ReturnValue,
    Enter,
    Leave,
    Wait,
    Reenter,
    Signal,
    Broadcast,
    Empty,
    In,
    Out,
    Raise,
    End,
}

use Code::*;

/// Each code with its ticks, by number.
#[rustfmt::skip]
const CODES: [(Code, u8); 48] = [
    (Push, 1), (LoadLocal, 2), (StoreLocal, 2), (LoadData, 2), (StoreData, 2), (LoadMonitor, 3), (StoreMonitor, 3),
    (LoadLocalAt, 4), (StoreLocalAt, 4), (LoadDataAt, 4), (StoreDataAt, 4), (LoadMonitorAt, 5), (StoreMonitorAt, 5),
    (Neg, 2), (Not, 1), (And, 1), (Or, 1), (Add, 2), (Sub, 2),
    (Equal, 2), (Unequal, 2), (Less, 2), (AtMost, 2), (Greater, 2), (AtLeast, 2), (Mul, 4), (Div, 12), (Mod, 12), (Range, 3),
    (JumpIfZero, 2), (Jump, 1), (Repeat, 2), (Again, 3), (Exit, 3), (Call, 6), (Return, 4), (ReturnValue, 4),
    (Enter, 5), (Leave, 3), (Wait, 6), (Reenter, 4), (Signal, 5), (Broadcast, 5), (Empty, 3), (In, 10), (Out, 10),
    (Raise, 4), (End, 4),
];

#[derive(Clone, Copy, Debug)]
pub struct Instruction {
    pub code: Code,
    pub ticks: u8,
    pub a: i32,
    pub b: i32,
    pub c: i32,
}

pub struct Device {
    pub name: String,
    pub out: bool,
}

pub struct Monitor {
    pub name: String,
    /// The first word behind its own, in the one area of all monitors.
    pub words_end: usize,
    /// The ceiling, counted from 0 as ranks are.
    pub ceiling: usize,
}

pub struct Condition {
    pub name: String,
    pub monitor: usize,
}

pub struct Routine {
    pub parameters: usize,
    pub locals: usize,
    pub start: usize,
}

pub enum Activation {
    Periodic { first: u64 },
    Event { event: usize },
}

pub struct Handler {
    pub start: usize,
    pub end: usize,
    pub numbers: Vec<u16>,
}

pub struct Process {
    pub name: String,
    pub activation: Activation,
    pub frame: u64,
    pub deadline: u64,
    /// The rank, counted from 0: the least goes first.
    pub rank: usize,
    pub data: usize,
    pub stack: usize,
    pub locals: usize,
    pub start: usize,
    /// The address of the END of its body.
    pub end: usize,
    pub handler: Option<Handler>,
}

pub struct Image {
    pub overhead: u16,
    pub devices: Vec<Device>,
    pub events: Vec<String>,
    pub monitors: Vec<Monitor>,
    pub conditions: Vec<Condition>,
    pub routines: Vec<Routine>,
    pub processes: Vec<Process>,
    pub code: Vec<Instruction>,
}

/// The bytes are no image.
#[derive(Debug)]
pub struct NoImage {
    at: usize,
}

impl fmt::Display for NoImage {
    fn fmt(&self, f: &mut fmt::Formatter<'_>) -> fmt::Result {
        write!(f, "no image of version 2, at byte {}", self.at)
    }
}

type Read<T> = Result<T, NoImage>;

struct Bytes<'a> {
    all: &'a [u8],
    at: usize,
}

impl<'a> Bytes<'a> {
    fn take(&mut self, count: usize) -> Read<&'a [u8]> {
        let taken = self.all[self.at..].get(..count).ok_or(NoImage { at: self.at })?;
        self.at += count;
        Ok(taken)
    }

    fn array<const N: usize>(&mut self) -> Read<[u8; N]> {
        Ok(self.take(N)?.try_into().expect("it has this length"))
    }

    fn byte(&mut self) -> Read<u8> {
        Ok(self.array::<1>()?[0])
    }

    fn short(&mut self) -> Read<u16> {
        Ok(u16::from_be_bytes(self.array()?))
    }

    fn number(&mut self) -> Read<u32> {
        Ok(u32::from_be_bytes(self.array()?))
    }

    fn word(&mut self) -> Read<i32> {
        Ok(i32::from_be_bytes(self.array()?))
    }

    fn name(&mut self) -> Read<String> {
        let length = self.byte()?;
        Ok(String::from_utf8_lossy(self.take(length.into())?).into_owned())
    }

    /// Passes over a segment tree.
    fn tree(&mut self) -> Read<()> {
        for _ in 0..self.number()? {
            let at = self.at;
            match self.byte()? {
                1 => drop(self.number()?),
                2 => {
                    self.tree()?;
                    self.tree()?;
                }
                3 => {
                    self.number()?;
                    self.tree()?;
                }
                4 => drop(self.short()?),
                5 => {
                    self.short()?;
                    self.tree()?;
                }
                6 | 7 => {}
                _ => return Err(NoImage { at }),
            }
        }
        Ok(())
    }

    fn device(&mut self) -> Read<Device> {
        Ok(Device { name: self.name()?, out: self.byte()? == 1 })
    }

    fn monitor(&mut self) -> Read<Monitor> {
        let (name, base, words) = (self.name()?, self.number()?, self.number()?);
        let ceiling = usize::from(self.short()?).wrapping_sub(1);
        Ok(Monitor { name, words_end: base as usize + words as usize, ceiling })
    }

    fn condition(&mut self) -> Read<Condition> {
        Ok(Condition { name: self.name()?, monitor: self.short()?.into() })
    }

    fn routine(&mut self) -> Read<Routine> {
        self.take(3)?; // the owner
        let parameters = self.short()?.into();
        let locals = self.number()? as usize;
        self.byte()?; // whether it has a result
        let start = self.number()? as usize;
        self.take(16)?; // costs
        self.tree()?;
        Ok(Routine { parameters, locals, start })
    }

    /// Reads a process. The ends of its parts are found when all starts are known.
    fn process(&mut self) -> Read<Process> {
        let name = self.name()?;
        let kind = self.byte()?;
        let frame = self.number()?.into();
        let deadline = self.number()?.into();
        let first = self.number()?.into();
        let event = self.short()?.into();
        let activation = if kind == 0 { Activation::Periodic { first } } else { Activation::Event { event } };
        let rank = usize::from(self.short()?).wrapping_sub(1);
        self.take(20)?; // costs, block, bound
        let (data, stack) = (self.number()? as usize, self.number()? as usize);
        let (locals, start, handler) = (self.number()? as usize, self.number()? as usize, self.number()? as usize);
        let count = self.short()?;
        let numbers = (0..count).map(|_| self.short()).collect::<Read<Vec<u16>>>()?;
        self.tree()?;
        let handler = if count == 0 {
            None
        } else {
            self.tree()?;
            Some(Handler { start: handler, end: 0, numbers })
        };
        Ok(Process { name, activation, frame, deadline, rank, data, stack, locals, start, end: 0, handler })
    }

    fn instruction(&mut self) -> Read<Instruction> {
        let at = self.at;
        let (code, ticks) = *CODES.get(usize::from(self.byte()?).wrapping_sub(1)).ok_or(NoImage { at })?;
        Ok(Instruction { code, ticks, a: self.word()?, b: self.word()?, c: self.word()? })
    }

    fn list<T>(&mut self, count: usize, one: fn(&mut Self) -> Read<T>) -> Read<Vec<T>> {
        (0..count).map(|_| one(self)).collect()
    }
}

impl Image {
    pub fn read(all: &[u8]) -> Read<Image> {
        let mut bytes = Bytes { all, at: 0 };
        if bytes.take(6)? != b"RTEU\0\x02" {
            return Err(NoImage { at: 0 });
        }
        let overhead = bytes.short()?;
        let [processes, monitors, conditions, devices, events, routines] = {
            let mut counts = [0; 6];
            for count in &mut counts {
                *count = bytes.short()?.into();
            }
            counts
        };
        let length = bytes.number()? as usize;
        bytes.name()?;
        let mut image = Image {
            overhead,
            devices: bytes.list(devices, Bytes::device)?,
            events: bytes.list(events, Bytes::name)?,
            monitors: bytes.list(monitors, Bytes::monitor)?,
            conditions: bytes.list(conditions, Bytes::condition)?,
            routines: bytes.list(routines, Bytes::routine)?,
            processes: bytes.list(processes, Bytes::process)?,
            code: bytes.list(length, Bytes::instruction)?,
        };
        image.find_ends();
        Ok(image)
    }

    /// The parts of the processes follow one another to the end of the code, and each ends with its END.
    fn find_ends(&mut self) {
        let mut behind = self.code.len();
        for process in self.processes.iter_mut().rev() {
            let last = behind.saturating_sub(1);
            process.end = last;
            if let Some(handler) = &mut process.handler {
                handler.end = last;
                process.end = handler.start.saturating_sub(1);
            }
            behind = process.start;
        }
    }

    pub fn waits(&self) -> bool {
        self.code.iter().any(|it| it.code == Wait)
    }

    /// The process that each event releases.
    pub fn owners(&self) -> Vec<usize> {
        let mut owners = vec![0; self.events.len()];
        for (at, process) in self.processes.iter().enumerate() {
            if let Activation::Event { event } = process.activation {
                owners[event] = at;
            }
        }
        owners
    }
}
