//! Runs a list on the Rust: one line a call.

use crate::call::{Call, DIGEST};
use crate::device::Device;
use crate::digest::digest;
use crate::progress::Progress;
use crate::refusals::{refusal, refused_value};
use std::io::Write;
use std::panic::{catch_unwind, AssertUnwindSafe};

/// What becomes of a call that document 01 refuses with another number than 2.
pub enum Refused<'a> {
    /// It is given to the Rust like every other.
    Given,
    /// It is answered with its refusal, as ours would.
    Answered,
    /// It is skipped where ours refused it so; these are ours' lines.
    Skipped(Vec<&'a str>),
}

pub fn run(calls: &[Call], refused: &Refused, out: &mut dyn Write) -> std::io::Result<()> {
    let mut device = Device::new();
    let mut progress = Progress::new("the Rust", calls.len());
    for (place, call) in calls.iter().enumerate() {
        let answer = line(&mut device, call, place, refused);
        writeln!(out, "{} {} {answer}", place + 1, call.operation)?;
        progress.step();
    }
    Ok(())
}

/// A call's line after its number and operation.
fn line(device: &mut Device, call: &Call, place: usize, refused: &Refused) -> String {
    if call.operation == DIGEST {
        return format!("0 {}", digest(device));
    }
    let number = refusal(device, call);
    match refused {
        Refused::Answered if number != 0 => format!("{number} {}", refused_value(call)),
        Refused::Skipped(ours) if number != 0 => {
            let expected = format!("{} {} {number} {}", place + 1, call.operation, refused_value(call));
            match ours.get(place) {
                Some(line) if *line == expected => "skipped".to_string(),
                _ => format!("{number} {}", refused_value(call)),
            }
        }
        _ => performed(device, call),
    }
}

/// The Rust's answer, a panic included.
fn performed(device: &mut Device, call: &Call) -> String {
    match catch_unwind(AssertUnwindSafe(|| device.perform(call))) {
        Ok((number, value)) => format!("{number} {value}"),
        Err(_) => "panic".to_string(),
    }
}
