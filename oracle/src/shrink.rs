//! Makes a list that shows a difference as small as it can: drops parts of it as long as a difference is left.

use crate::call::{Call, DIGEST};
use crate::compare::compare;
use crate::list::to_text;
use crate::run::{run, Refused};
use std::fs::File;
use std::process::{Command, Stdio};
use std::time::{Duration, Instant};

/// Both sides' lines on a list.
pub struct Lines {
    pub ours: String,
    pub theirs: String,
}

/// A command that takes a list on standard input, and a file for the list.
pub struct Ours {
    pub command: Vec<String>,
    pub file: String,
}

impl Ours {
    /// Runs both sides on a list.
    pub fn both(&self, calls: &[Call]) -> Result<Lines, String> {
        std::fs::write(&self.file, to_text(calls)).map_err(|error| error.to_string())?;
        let input = File::open(&self.file).map_err(|error| error.to_string())?;
        let mut command = Command::new(&self.command[0]);
        command.args(&self.command[1..]).stdin(Stdio::from(input)).stderr(Stdio::null());
        let output = command.output().map_err(|error| format!("{}: {error}", self.command[0]))?;
        let ours = String::from_utf8_lossy(&output.stdout).into_owned();
        let mut theirs = Vec::new();
        let refused = Refused::Skipped(ours.lines().collect());
        run(calls, &refused, &mut theirs).map_err(|error| error.to_string())?;
        let theirs = String::from_utf8_lossy(&theirs).into_owned();
        Ok(Lines { ours, theirs })
    }

    /// The place of the first difference.
    fn first(&self, calls: &[Call]) -> Result<Option<usize>, String> {
        let lines = self.both(calls)?;
        let (ours, theirs): (Vec<&str>, Vec<&str>) = (lines.ours.lines().collect(), lines.theirs.lines().collect());
        Ok(compare(calls, &ours, &theirs).difference)
    }
}

/// The smallest list found before the time is over, and whether it is the smallest by dropping single calls.
pub fn shrink(calls: Vec<Call>, ours: &Ours, time: Duration) -> Result<(Vec<Call>, bool), String> {
    let end = Instant::now() + time;
    let mut calls = calls;
    let place = ours.first(&calls)?.ok_or("the list shows no difference")?;
    calls.truncate(place + 1);
    pin(&mut calls, ours)?;
    let mut part = calls.len().div_ceil(2);
    loop {
        let before = calls.len();
        if !drop_parts(&mut calls, part, ours, end)? {
            return Ok((calls, false));
        }
        eprintln!("shrink: {} calls, parts of {part}", calls.len());
        if part == 1 && calls.len() == before {
            return Ok((calls, true));
        }
        part = if calls.len() == before { part.div_ceil(2) } else { part.min(calls.len().div_ceil(2)) };
    }
}

/// A difference that only a digest shows: a digest after each of the calls before it finds the call that makes it.
fn pin(calls: &mut Vec<Call>, ours: &Ours) -> Result<(), String> {
    if calls.last().is_none_or(|call| call.operation != DIGEST) {
        return Ok(());
    }
    let last = calls.len() - 1;
    let from = calls[..last].iter().rposition(|call| call.operation == DIGEST).map_or(0, |place| place + 1);
    let digest = Call::new(DIGEST, &[]);
    let pinned: Vec<Call> = calls[from..last].iter().flat_map(|call| [*call, digest]).collect();
    calls.truncate(from);
    calls.extend(pinned);
    if let Some(place) = ours.first(calls)? {
        calls.truncate(place + 1);
    }
    let last = calls.len() - 1;
    let mut place = 0;
    calls.retain(|call| {
        place += 1;
        call.operation != DIGEST || place > last
    });
    Ok(())
}

/// Tries the list without each of its parts in turn, from the end. False when the time is over.
fn drop_parts(calls: &mut Vec<Call>, part: usize, ours: &Ours, end: Instant) -> Result<bool, String> {
    let mut to = calls.len();
    while to > 0 {
        if Instant::now() > end {
            return Ok(false);
        }
        let from = to.saturating_sub(part);
        let mut fewer = calls[..from].to_vec();
        fewer.extend_from_slice(&calls[to..]);
        if let Some(place) = ours.first(&fewer)? {
            fewer.truncate(place + 1);
            *calls = fewer;
        }
        to = from.min(calls.len());
    }
    Ok(true)
}
