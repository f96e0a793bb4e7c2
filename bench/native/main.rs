//! A yardstick: what `rte run I S` does, and the run of `rte edf P S`, as a plain native program that nobody proved.
//!
//!     rustc --edition 2021 -C opt-level=3 -C codegen-units=1 -C panic=abort -o /tmp/native bench/native/main.rs
//!     /tmp/native run I S       puts the log of the run of the image I over the script S, as `rte run I S`
//!     /tmp/native edf I S       the same under earliest deadline first: the log that `rte edf P S` puts behind its report,
//!                               where I is what `rte compile P I` stored
//!
//! It is written from the rules of the machine and of its files alone, for every valid image and every script, as a
//! program for daily use would be: the image is decoded once, each process runs until something may take its place, and
//! idle ticks are skipped. It trusts that the image is valid; the script it tests. `bench/against.sh` measures `rte`
//! against it, and compares what both put.

mod compute;
mod image;
mod log;
mod machine;
mod script;

use std::fs;
use std::io::{self, Write};
use std::process::ExitCode;

use image::Image;
use machine::{Choice, Machine};
use script::Script;

/// Why nothing, or not all, was put: the status, the line for standard output, and the message.
struct Stop {
    status: u8,
    line: String,
    message: String,
}

fn stop(status: u8, line: impl Into<String>, message: impl Into<String>) -> Stop {
    Stop { status, line: line.into(), message: message.into() }
}

fn read(name: &str) -> Result<Vec<u8>, Stop> {
    fs::read(name).map_err(|error| stop(6, "", format!("{name}: {error}")))
}

fn perform(words: &[String]) -> Result<(), Stop> {
    let [command, image_name, script_name] = words else {
        return Err(stop(1, "usage\n", "usage: native run|edf IMAGE SCRIPT"));
    };
    let choice = match command.as_str() {
        "run" => Choice::Ranks,
        "edf" => Choice::Deadlines,
        _ => return Err(stop(1, "usage\n", "usage: native run|edf IMAGE SCRIPT")),
    };
    let bytes = read(image_name)?;
    let image = Image::read(&bytes).map_err(|error| stop(4, "", format!("{image_name}: {error}")))?;
    if choice == Choice::Deadlines && (image.waits() || image.overhead > 0) {
        return Err(stop(4, "", format!("{image_name}: earliest deadline first has neither waits nor overhead")));
    }
    let text = read(script_name)?;
    let script = Script::read(&text, &image).map_err(|fault| stop(5, format!("{fault}\n"), format!("{script_name}: {fault}")))?;
    drop(text);
    let machine = Machine::new(&image, &script, choice, io::stdout());
    machine.run().map_err(|error| stop(7, "", format!("the log: {error}")))
}

fn main() -> ExitCode {
    let words: Vec<String> = std::env::args().skip(1).collect();
    match perform(&words) {
        Ok(()) => ExitCode::SUCCESS,
        Err(stop) => {
            eprintln!("native: {}", stop.message);
            let put = io::stdout().write_all(stop.line.as_bytes());
            ExitCode::from(if put.is_ok() { stop.status } else { 7 })
        }
    }
}
