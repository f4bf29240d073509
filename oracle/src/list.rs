//! Lists of calls as text: one call a line, `#` starts a comment.

use crate::call::{self, Argument, Call};
use std::io::Read;

/// Reads a list from a file, or from standard input where the name is `-`.
pub fn read(name: &str) -> Result<Vec<Call>, String> {
    parse(&text(name)?)
}

pub fn text(name: &str) -> Result<String, String> {
    let mut text = String::new();
    let read = match name {
        "-" => std::io::stdin().read_to_string(&mut text).map(|_| text),
        _ => std::fs::read_to_string(name),
    };
    read.map_err(|error| format!("{name}: {error}"))
}

pub fn parse(text: &str) -> Result<Vec<Call>, String> {
    let mut calls = Vec::new();
    for (place, line) in text.lines().enumerate() {
        let line = line.split('#').next().unwrap_or("");
        let call = call(line).map_err(|error| format!("line {}: {error}: {line}", place + 1))?;
        calls.extend(call);
    }
    Ok(calls)
}

/// One line without its comment; a blank line is no call.
fn call(line: &str) -> Result<Option<Call>, String> {
    let mut numbers = Vec::new();
    for word in line.split_ascii_whitespace() {
        numbers.push(word.parse::<usize>().map_err(|error| error.to_string())?);
    }
    let Some((&operation, arguments)) = numbers.split_first() else {
        return Ok(None);
    };
    let (name, kinds) = call::operation(operation).ok_or("no such operation")?;
    if arguments.len() != kinds.len() {
        return Err(format!("{name} has {} arguments", kinds.len()));
    }
    match arguments.iter().zip(kinds).find(|(value, kind)| !fits(**value, **kind)) {
        Some((value, _)) => Err(format!("{value} is out of range")),
        None => Ok(Some(Call::new(operation, arguments))),
    }
}

/// A byte is below 256 and a page below 2. In the Rust a0 is any number, as are planes, offsets and addresses.
fn fits(value: usize, kind: Argument) -> bool {
    match kind {
        Argument::Byte => value < 256,
        Argument::Page => value < 2,
        _ => true,
    }
}

pub fn to_text(calls: &[Call]) -> String {
    calls.iter().map(|call| format!("{call}\n")).collect()
}
