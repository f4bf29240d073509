//! Ours and the Rust's lines beside each other: the first that differ, or how many were compared.

use crate::call::{Call, DIGEST};
use crate::digest::FIELDS;

#[derive(Default)]
pub struct Compared {
    /// Calls given to both sides, digests included.
    pub calls: usize,
    /// Whole states among them.
    pub states: usize,
    /// Calls that ours refused with another number than 2, as document 01 says.
    pub skipped: usize,
    /// The place in the list of the first call whose lines differ.
    pub difference: Option<usize>,
}

pub fn compare(calls: &[Call], ours: &[&str], theirs: &[&str]) -> Compared {
    let mut compared = Compared::default();
    for (place, call) in calls.iter().enumerate() {
        let skipped = format!("{} {} skipped", place + 1, call.operation);
        let (our, their) = (ours.get(place), theirs.get(place));
        if their.is_some_and(|line| *line == skipped) && our.is_some() {
            compared.skipped += 1;
        } else if our.is_some() && our == their {
            compared.calls += 1;
            compared.states += usize::from(call.operation == DIGEST);
        } else {
            compared.difference = Some(place);
            break;
        }
    }
    if compared.difference.is_none() && (ours.len() != calls.len() || theirs.len() != calls.len()) {
        compared.difference = Some(calls.len());
    }
    compared
}

impl Compared {
    pub fn told(&self) -> String {
        format!(
            "{} calls compared, {} of them whole states; {} refused by ours and not the Rust's",
            self.calls, self.states, self.skipped
        )
    }
}

/// The call at a place with both lines; for a digest the numbers that differ.
pub fn difference(calls: &[Call], place: usize, ours: &[&str], theirs: &[&str]) -> String {
    let Some(call) = calls.get(place) else {
        return format!("the list has {} calls, ours {} lines, the Rust {}", calls.len(), ours.len(), theirs.len());
    };
    let line = |lines: &[&str]| lines.get(place).copied().unwrap_or("(no line)").to_string();
    let (our, their) = (line(ours), line(theirs));
    let side = if refused(&their) { "due " } else { "Rust" };
    let mut text = format!("call {}: {call} ({})\n  ours: {our}\n  {side}: {their}\n", place + 1, call.name());
    if call.operation == DIGEST {
        text += &fields(&our, &their);
    }
    text
}

/// Whether the line is document 01's refusal, in place of a call that is not the Rust's.
fn refused(line: &str) -> bool {
    line.split(' ').nth(2).is_some_and(|answer| !matches!(answer, "0" | "2" | "panic"))
}

/// The numbers of two digests that differ, by name.
fn fields(our: &str, their: &str) -> String {
    let (ours, theirs) = (our.split(' ').skip(3), their.split(' ').skip(3));
    let pairs = FIELDS.iter().zip(ours.zip(theirs));
    pairs.filter(|(_, (a, b))| a != b).map(|(name, (a, b))| format!("  {name}: ours {a}, Rust {b}\n")).collect()
}
