//! The log: lines are put together from pieces that are made once, and written many at a time.

use std::io::{self, Write};

use crate::image::Image;

/// How many bytes are kept before they are written.
const FULL: usize = 1 << 16;

/// More than the longest line.
const LINE: usize = 512;

/// The two digits of each number below 100.
const PAIRS: [[u8; 2]; 100] = {
    let mut pairs = [[0; 2]; 100];
    let mut at = 0;
    while at < 100 {
        pairs[at] = [b'0' + at as u8 / 10, b'0' + at as u8 % 10];
        at += 1;
    }
    pairs
};

type Piece = Box<[u8]>;

fn pieces<'a, T: 'a>(all: &'a [T], text: impl Fn(&'a T) -> String) -> Vec<Piece> {
    all.iter().map(|it| text(it).into_bytes().into_boxed_slice()).collect()
}

pub struct Log<W> {
    out: W,
    kept: Vec<u8>,
    processes: Vec<Piece>,
    gets: Vec<Piece>,
    puts: Vec<Piece>,
    monitors: Vec<Piece>,
    /// Each condition, behind its monitor.
    conditions: Vec<Piece>,
}

impl<W: Write> Log<W> {
    pub fn new(image: &Image, out: W) -> Self {
        Log {
            out,
            kept: Vec::with_capacity(FULL + LINE),
            processes: pieces(&image.processes, |it| format!(" {} ", it.name)),
            gets: pieces(&image.devices, |it| format!("get {} ", it.name)),
            puts: pieces(&image.devices, |it| format!("put {} ", it.name)),
            monitors: pieces(&image.monitors, |it| it.name.clone()),
            conditions: pieces(&image.conditions, |it| format!("{} {}", image.monitors[it.monitor].name, it.name)),
        }
    }

    /// Writes what is kept.
    pub fn flush(&mut self) -> io::Result<()> {
        self.out.write_all(&self.kept)?;
        self.out.flush()?;
        self.kept.clear();
        Ok(())
    }

    fn text(&mut self, text: &[u8]) {
        self.kept.extend_from_slice(text);
    }

    fn unsigned(&mut self, mut number: u32) {
        let mut digits = [0; 10];
        let mut at = digits.len();
        while number >= 10 {
            at -= 2;
            digits[at..at + 2].copy_from_slice(&PAIRS[(number % 100) as usize]);
            number /= 100;
        }
        if number > 0 || at == digits.len() {
            at -= 1;
            digits[at] = b'0' + number as u8;
        }
        self.kept.extend_from_slice(&digits[at..]);
    }

    fn signed(&mut self, number: i32) {
        if number < 0 {
            self.kept.push(b'-');
        }
        self.unsigned(number.unsigned_abs());
    }

    fn end_line(&mut self) {
        self.kept.push(b'\n');
    }

    /// Begins the line of an event: the tick, and who acts. Each call below makes one line.
    fn begin(&mut self, tick: u64, process: usize) -> io::Result<()> {
        if self.kept.len() >= FULL {
            self.flush()?;
        }
        self.unsigned(tick as u32);
        self.kept.extend_from_slice(&self.processes[process]);
        Ok(())
    }

    pub fn release(&mut self, tick: u64, process: usize) -> io::Result<()> {
        self.begin(tick, process)?;
        self.text(b"release\n");
        Ok(())
    }

    pub fn end(&mut self, tick: u64, process: usize) -> io::Result<()> {
        self.begin(tick, process)?;
        self.text(b"end\n");
        Ok(())
    }

    pub fn get(&mut self, tick: u64, process: usize, device: usize, value: i32) -> io::Result<()> {
        self.begin(tick, process)?;
        self.kept.extend_from_slice(&self.gets[device]);
        self.signed(value);
        self.end_line();
        Ok(())
    }

    pub fn put(&mut self, tick: u64, process: usize, device: usize, value: i32) -> io::Result<()> {
        self.begin(tick, process)?;
        self.kept.extend_from_slice(&self.puts[device]);
        self.signed(value);
        self.end_line();
        Ok(())
    }

    pub fn raise(&mut self, tick: u64, process: usize, number: u16) -> io::Result<()> {
        self.begin(tick, process)?;
        self.text(b"raise ");
        self.unsigned(number.into());
        self.end_line();
        Ok(())
    }

    pub fn enter(&mut self, tick: u64, process: usize, monitor: usize) -> io::Result<()> {
        self.of_monitor(tick, process, b"enter ", monitor)
    }

    pub fn leave(&mut self, tick: u64, process: usize, monitor: usize) -> io::Result<()> {
        self.of_monitor(tick, process, b"leave ", monitor)
    }

    fn of_monitor(&mut self, tick: u64, process: usize, act: &[u8], monitor: usize) -> io::Result<()> {
        self.begin(tick, process)?;
        self.text(act);
        self.kept.extend_from_slice(&self.monitors[monitor]);
        self.end_line();
        Ok(())
    }

    fn of_condition(&mut self, tick: u64, process: usize, act: &[u8], condition: usize) -> io::Result<()> {
        self.begin(tick, process)?;
        self.text(act);
        self.kept.extend_from_slice(&self.conditions[condition]);
        Ok(())
    }

    pub fn wait(&mut self, tick: u64, process: usize, condition: usize) -> io::Result<()> {
        self.of_condition(tick, process, b"wait ", condition)?;
        self.end_line();
        Ok(())
    }

    pub fn time_out(&mut self, tick: u64, process: usize, condition: usize, number: u16) -> io::Result<()> {
        self.of_condition(tick, process, b"timeout ", condition)?;
        self.text(b" ");
        self.unsigned(number.into());
        self.end_line();
        Ok(())
    }

    pub fn signal(&mut self, tick: u64, process: usize, condition: usize, woken: Option<usize>) -> io::Result<()> {
        self.of_condition(tick, process, b"signal ", condition)?;
        match woken {
            Some(woken) => {
                let name = &self.processes[woken];
                self.kept.extend_from_slice(&name[..name.len() - 1]);
            }
            None => self.text(b" -"),
        }
        self.end_line();
        Ok(())
    }

    pub fn broadcast(&mut self, tick: u64, process: usize, condition: usize, count: usize) -> io::Result<()> {
        self.of_condition(tick, process, b"broadcast ", condition)?;
        self.text(b" ");
        self.unsigned(count as u32);
        self.end_line();
        Ok(())
    }

    pub fn empty(&mut self, tick: u64, process: usize, condition: usize, answer: bool) -> io::Result<()> {
        self.of_condition(tick, process, b"empty ", condition)?;
        self.text(if answer { b" 1" } else { b" 0" });
        self.end_line();
        Ok(())
    }
}
