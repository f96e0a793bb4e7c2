//! The machine. A process that is picked runs until its next instruction would pass the next tick at which something
//! is due, or until an instruction's effect may change who is to run.

use std::collections::VecDeque;
use std::io::{self, Write};

use crate::compute::{Core, Stop};
use crate::image::{Activation, Code, Image, Instruction};
use crate::log::Log;
use crate::script::{Line, Script, What};

/// No tick: where nothing is due.
const NEVER: u64 = u64::MAX;

/// By what the next process is chosen.
#[derive(Clone, Copy, PartialEq, Eq)]
pub enum Choice {
    /// The ready process of least active rank.
    Ranks,
    /// The ready process whose deadline comes first, under ceilings.
    Deadlines,
}

/// What dispatch has to know of a process beside its rank.
#[derive(Clone)]
struct Task {
    /// Ticks of overhead that are still to be burnt.
    burn: u64,
    /// The tick by which its activation has to end.
    deadline: u64,
    /// Its activation has had a tick.
    begun: bool,
    next_release: u64,
    time_out: u64,
    /// What it waits for, and the number that a time-out raises.
    condition: usize,
    number: u16,
}

/// A process inside a monitor.
#[derive(Clone, Copy)]
struct Occupant {
    process: usize,
    ceiling: usize,
}

pub struct Machine<'a, W> {
    image: &'a Image,
    script: &'a [Line],
    end: u64,
    choice: Choice,
    log: Log<W>,
    tick: u64,
    cores: Vec<Core>,
    tasks: Vec<Task>,
    /// The processes by rank, the process that each event releases, and the ready ones as a set of ranks.
    by_rank: Vec<usize>,
    owners: Vec<usize>,
    ready: u64,
    /// The processes that are inside monitors, the latest to enter last. Under ranks its ceiling is the least: who enters
    /// was picked before all the others.
    occupants: Vec<Occupant>,
    queues: Vec<VecDeque<usize>>,
    words: Box<[i32]>,
    devices: Box<[i32]>,
    /// The next line of the script, and the ticks at which lines, releases and time-outs are due next.
    at: usize,
    next_line: u64,
    next_release: u64,
    next_time_out: u64,
}

impl<'a, W: Write> Machine<'a, W> {
    pub fn new(image: &'a Image, script: &'a Script, choice: Choice, out: W) -> Self {
        let tasks: Vec<Task> = image
            .processes
            .iter()
            .map(|process| Task {
                burn: 0,
                deadline: 0,
                begun: false,
                next_release: match process.activation {
                    Activation::Periodic { first } => first,
                    Activation::Event { .. } => NEVER,
                },
                time_out: NEVER,
                condition: 0,
                number: 0,
            })
            .collect();
        let mut by_rank: Vec<usize> = (0..image.processes.len()).collect();
        by_rank.sort_by_key(|it| image.processes[*it].rank);
        Machine {
            image,
            script: &script.lines,
            end: script.end.into(),
            choice,
            log: Log::new(image, out),
            tick: 0,
            cores: image.processes.iter().map(Core::new).collect(),
            by_rank,
            owners: image.owners(),
            ready: 0,
            occupants: Vec::new(),
            queues: image.conditions.iter().map(|_| VecDeque::new()).collect(),
            words: vec![0; image.monitors.iter().map(|it| it.words_end).max().unwrap_or(0)].into(),
            devices: vec![0; image.devices.len()].into(),
            at: 0,
            next_line: script.lines.first().map_or(NEVER, |it| it.tick.into()),
            next_release: tasks.iter().map(|it| it.next_release).min().unwrap_or(NEVER),
            next_time_out: NEVER,
            tasks,
        }
    }

    /// Runs to the end of the script, and writes the log.
    pub fn run(mut self) -> io::Result<()> {
        while self.tick < self.end {
            if self.tick == self.next_due() {
                self.start_events()?;
            }
            let until = self.next_due().min(self.end);
            match self.pick() {
                Some(process) => self.run_process(process, until)?,
                None => self.tick = until,
            }
        }
        self.log.flush()
    }

    fn next_due(&self) -> u64 {
        self.next_line.min(self.next_release).min(self.next_time_out)
    }

    /// Does what is due at this tick: lines of the script, periodic releases, and time-outs.
    fn start_events(&mut self) -> io::Result<()> {
        let tick = self.tick;
        while self.next_line == tick {
            match self.script[self.at].what {
                What::Set { device, value } => self.devices[usize::from(device)] = value,
                What::Event { event } => self.release(self.owners[usize::from(event)])?,
            }
            self.at += 1;
            self.next_line = self.script.get(self.at).map_or(NEVER, |it| it.tick.into());
        }
        if self.next_release == tick {
            self.next_release = NEVER;
            for process in 0..self.tasks.len() {
                if self.tasks[process].next_release == tick {
                    self.release(process)?;
                    self.tasks[process].next_release += self.image.processes[process].frame;
                }
                self.next_release = self.next_release.min(self.tasks[process].next_release);
            }
        }
        if self.next_time_out == tick {
            self.next_time_out = NEVER;
            for rank in 0..self.by_rank.len() {
                let process = self.by_rank[rank];
                if self.tasks[process].time_out == tick {
                    self.time_out(process)?;
                }
                self.next_time_out = self.next_time_out.min(self.tasks[process].time_out);
            }
        }
        Ok(())
    }

    fn burn(&self) -> u64 {
        2 * u64::from(self.image.overhead)
    }

    fn release(&mut self, process: usize) -> io::Result<()> {
        let declared = &self.image.processes[process];
        let burn = self.burn();
        let task = &mut self.tasks[process];
        task.burn = burn;
        task.deadline = self.tick + declared.deadline;
        task.begun = false;
        self.cores[process].release(declared);
        self.ready |= 1 << declared.rank;
        self.log.release(self.tick, process)
    }

    fn time_out(&mut self, process: usize) -> io::Result<()> {
        let burn = self.burn();
        let task = &mut self.tasks[process];
        task.burn = burn;
        task.time_out = NEVER;
        let (condition, number) = (task.condition, task.number);
        self.queues[condition].retain(|it| *it != process);
        self.ready |= 1 << self.image.processes[process].rank;
        self.log.time_out(self.tick, process, condition, number)?;
        self.divert(process, number);
        Ok(())
    }

    /// Has a process go on behind an exception, outside of the monitor that it may be in.
    fn divert(&mut self, process: usize, number: u16) {
        self.cores[process].divert(&self.image.processes[process], number);
        if self.cores[process].inside {
            self.vacate(process);
        }
    }

    fn vacate(&mut self, process: usize) {
        self.cores[process].inside = false;
        if let Some(at) = self.occupants.iter().rposition(|it| it.process == process) {
            self.occupants.remove(at);
        }
    }

    /// Makes a process that was signalled ready.
    fn wake(&mut self, process: usize) {
        self.tasks[process].burn = self.burn();
        self.tasks[process].time_out = NEVER;
        self.ready |= 1 << self.image.processes[process].rank;
    }

    fn pick(&self) -> Option<usize> {
        match self.choice {
            Choice::Ranks => self.pick_by_rank(),
            Choice::Deadlines => self.pick_by_deadline(),
        }
    }

    /// A ready process of less rank than the least ceiling is outside of all monitors, for its own is no less.
    fn pick_by_rank(&self) -> Option<usize> {
        let rank = self.ready.trailing_zeros() as usize;
        match self.occupants.last() {
            Some(occupant) if occupant.ceiling <= rank => Some(occupant.process),
            _ => self.by_rank.get(rank).copied(),
        }
    }

    /// The first by deadline and then by rank, unless it would begin under a ceiling; else the first of those begun.
    fn pick_by_deadline(&self) -> Option<usize> {
        let mut first: Option<usize> = None;
        let mut first_begun: Option<usize> = None;
        let mut ready = self.ready;
        while ready != 0 {
            let process = self.by_rank[ready.trailing_zeros() as usize];
            ready &= ready - 1;
            let task = &self.tasks[process];
            if first.is_none_or(|it| task.deadline < self.tasks[it].deadline) {
                first = Some(process);
            }
            if task.begun && first_begun.is_none_or(|it| task.deadline < self.tasks[it].deadline) {
                first_begun = Some(process);
            }
        }
        let ceiling = self.occupants.iter().map(|it| it.ceiling).min();
        let may_run = |it: usize| self.tasks[it].begun || ceiling.is_none_or(|ceiling| self.image.processes[it].rank < ceiling);
        first.filter(|it| may_run(*it)).or(first_begun)
    }

    /// Runs a process up to a tick, or until another may have to run.
    fn run_process(&mut self, process: usize, until: u64) -> io::Result<()> {
        let task = &mut self.tasks[process];
        task.begun = true;
        if task.burn > 0 {
            let burnt = task.burn.min(until - self.tick);
            task.burn -= burnt;
            self.tick += burnt;
            if self.tick == until {
                return Ok(());
            }
        }
        loop {
            let core = &mut self.cores[process];
            let (stop, left) = core.compute(&self.image.code, &self.image.routines, &mut self.words, until - self.tick);
            self.tick = until - left;
            match stop {
                Stop::Time => return Ok(()),
                Stop::Raise(number) => {
                    self.log.raise(self.tick - 1, process, number)?;
                    self.divert(process, number);
                    return Ok(());
                }
                Stop::Effect(one) => {
                    if self.effect(process, one)? {
                        return Ok(());
                    }
                }
            }
        }
    }

    /// Does what an instruction does beyond its process, and tells whether another process may have to run now.
    fn effect(&mut self, process: usize, one: Instruction) -> io::Result<bool> {
        let tick = self.tick - 1;
        let operand = one.a as usize;
        match one.code {
            Code::In => {
                let value = self.devices[operand];
                self.log.get(tick, process, operand, value)?;
                self.cores[process].push(value);
                Ok(false)
            }
            Code::Out => {
                let value = self.cores[process].pop();
                self.log.put(tick, process, operand, value)?;
                Ok(false)
            }
            Code::Empty => {
                let empty = self.queues[operand].is_empty();
                self.log.empty(tick, process, operand, empty)?;
                self.cores[process].push(empty.into());
                Ok(false)
            }
            Code::Enter | Code::Reenter => {
                self.occupants.push(Occupant { process, ceiling: self.image.monitors[operand].ceiling });
                self.cores[process].inside = true;
                self.log.enter(tick, process, operand)?;
                Ok(false)
            }
            Code::Leave => {
                self.vacate(process);
                self.log.leave(tick, process, operand)?;
                Ok(true)
            }
            Code::Wait => {
                self.vacate(process);
                self.ready &= !(1 << self.image.processes[process].rank);
                self.queues[operand].push_back(process);
                let task = &mut self.tasks[process];
                task.time_out = tick + one.b as u64 + 1;
                task.condition = operand;
                task.number = one.c as u16;
                self.next_time_out = self.next_time_out.min(task.time_out);
                self.log.wait(tick, process, operand)?;
                Ok(true)
            }
            Code::Signal => {
                let woken = self.queues[operand].pop_front();
                if let Some(woken) = woken {
                    self.wake(woken);
                }
                self.log.signal(tick, process, operand, woken)?;
                Ok(woken.is_some())
            }
            Code::Broadcast => {
                let count = self.queues[operand].len();
                while let Some(woken) = self.queues[operand].pop_front() {
                    self.wake(woken);
                }
                self.log.broadcast(tick, process, operand, count)?;
                Ok(count > 0)
            }
            Code::End => {
                self.ready &= !(1 << self.image.processes[process].rank);
                self.log.end(tick, process)?;
                Ok(true)
            }
            code => unreachable!("{code:?} is computed"),
        }
    }
}
