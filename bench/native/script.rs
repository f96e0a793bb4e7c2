//! Scripts: what happens outside of the machine, and how long it runs.

use std::fmt;

use crate::image::Image;

#[derive(Clone, Copy)]
pub enum What {
    Set { device: u16, value: i32 },
    Event { event: u16 },
}

#[derive(Clone, Copy)]
pub struct Line {
    pub tick: u32,
    pub what: What,
}

pub struct Script {
    pub lines: Vec<Line>,
    pub end: u32,
}

pub struct Fault {
    number: u8,
    line: usize,
    ticks: Option<(u32, u32)>,
}

impl fmt::Display for Fault {
    fn fmt(&self, f: &mut fmt::Formatter<'_>) -> fmt::Result {
        write!(f, "S{} {}", self.number, self.line)?;
        self.ticks.map_or(Ok(()), |(last, now)| write!(f, " {last} {now}"))
    }
}

const MOST_BYTES: usize = 16_777_216;
const MOST_LINES: usize = 1_000_000;

/// A line as it is written, its names not looked up.
enum Form<'a> {
    Set { tick: u32, device: &'a [u8], value: i32 },
    Event { tick: u32, event: &'a [u8] },
    End { tick: u32 },
}

/// Names in order, each with its number.
struct Names<'a>(Vec<(&'a [u8], u16)>);

impl<'a> Names<'a> {
    fn new(names: impl Iterator<Item = (usize, &'a String)>) -> Self {
        let mut all: Vec<_> = names.map(|(at, name)| (name.as_bytes(), at as u16)).collect();
        all.sort_unstable();
        Names(all)
    }

    fn find(&self, name: &[u8]) -> Option<u16> {
        let at = self.0.binary_search_by_key(&name, |it| it.0).ok()?;
        Some(self.0[at].1)
    }
}

/// Decimal digits without leading zeros, up to a number.
fn decimal(digits: &[u8], most: u32) -> Option<u32> {
    if digits.is_empty() || digits.len() > 10 || (digits[0] == b'0' && digits.len() > 1) {
        return None;
    }
    let mut sum = 0;
    for digit in digits {
        if !digit.is_ascii_digit() {
            return None;
        }
        sum = sum * 10 + u64::from(digit - b'0');
    }
    (sum <= most.into()).then_some(sum as u32)
}

fn word(text: &[u8]) -> Option<i32> {
    match text.strip_prefix(b"-") {
        Some(digits) => match decimal(digits, 1 << 31)? {
            0 => None,
            size => Some((size as i32).wrapping_neg()),
        },
        None => decimal(text, i32::MAX as u32).map(|size| size as i32),
    }
}

impl Form<'_> {
    fn of(line: &[u8]) -> Option<Form<'_>> {
        let mut words = line.split(|byte| *byte == b' ');
        let first = words.next()?;
        let form = if first == b"end" {
            Form::End { tick: decimal(words.next()?, 1_000_000_000)? }
        } else {
            let tick = decimal(first, 999_999_999)?;
            match words.next()? {
                b"set" => Form::Set { tick, device: words.next()?, value: word(words.next()?)? },
                b"event" => Form::Event { tick, event: words.next()? },
                _ => return None,
            }
        };
        words.next().is_none().then_some(form)
    }
}

impl Script {
    /// Reads a script for the names and frames of an image.
    pub fn read(text: &[u8], image: &Image) -> Result<Script, Fault> {
        if text.len() > MOST_BYTES {
            return Err(Fault { number: 6, line: 0, ticks: None });
        }
        let devices = Names::new(image.devices.iter().enumerate().filter(|it| !it.1.out).map(|(at, it)| (at, &it.name)));
        let events = Names::new(image.events.iter().enumerate());
        let frames: Vec<u64> = image.owners().iter().map(|owner| image.processes[*owner].frame).collect();
        let mut last_of = vec![None; frames.len()];
        let mut lines = Vec::new();
        let mut last = None; // the tick of the line before
        let mut end = None;
        let mut rest = text;
        let mut count = 0;
        while !rest.is_empty() {
            count += 1;
            let fault = |number, ticks| Fault { number, line: count, ticks };
            let Some(length) = rest.iter().position(|byte| *byte == b'\n') else {
                return Err(fault(1, None));
            };
            let form = Form::of(&rest[..length]).ok_or_else(|| fault(1, None))?;
            rest = &rest[length + 1..];
            match form {
                Form::Set { tick, device, value } => {
                    let device = devices.find(device).ok_or_else(|| fault(2, None))?;
                    if last > Some(tick) {
                        return Err(fault(3, None));
                    }
                    last = Some(tick);
                    lines.push(Line { tick, what: What::Set { device, value } });
                }
                Form::Event { tick, event } => {
                    let event = events.find(event).ok_or_else(|| fault(2, None))?;
                    if last > Some(tick) {
                        return Err(fault(3, None));
                    }
                    last = Some(tick);
                    let before = last_of[usize::from(event)].replace(tick);
                    if let Some(before) = before.filter(|it| u64::from(tick - it) < frames[usize::from(event)]) {
                        return Err(fault(4, Some((before, tick))));
                    }
                    lines.push(Line { tick, what: What::Event { event } });
                }
                Form::End { tick } => {
                    if last >= Some(tick) {
                        return Err(fault(3, None));
                    }
                    if end.is_none() && count <= MOST_LINES {
                        end = Some(tick);
                        continue;
                    }
                }
            }
            if end.is_some() {
                return Err(fault(5, None));
            }
            if count > MOST_LINES {
                return Err(fault(6, None));
            }
        }
        let end = end.ok_or(Fault { number: 5, line: count + 1, ticks: None })?;
        Ok(Script { lines, end })
    }
}
