//! The oracle: the Rust, run on lists of calls. `oracle/README.md` has the format of lists and lines.

mod call;
mod changed;
mod compare;
mod device;
mod digest;
mod generate;
mod list;
mod mode_3;
mod progress;
mod random;
mod refusals;
mod run;
mod shown;
mod shrink;

use std::io::{BufWriter, Write};
use std::process::ExitCode;
use std::time::Duration;

const USAGE: &str =
    "oracle run LIST [OURS | --refusing]    the Rust's lines; without ours' lines every call is given to it
oracle generate SEED COUNT [PART PARTS] a list; of several from one seed, PART (from 0) of PARTS
oracle compare LIST OURS THEIRS        the first difference of two files of lines
oracle shrink SECONDS FILE COMMAND..   a smaller list than FILE's on which COMMAND and the Rust differ
LIST - is standard input.";

fn main() -> ExitCode {
    std::panic::set_hook(Box::new(|panic| eprintln!("{panic}")));
    let arguments: Vec<String> = std::env::args().skip(1).collect();
    let words: Vec<&str> = arguments.iter().map(String::as_str).collect();
    let done = match words.as_slice() {
        ["run", list] => run_list(list, &run::Refused::Given),
        ["run", list, "--refusing"] => run_list(list, &run::Refused::Answered),
        ["run", list, ours] => run_beside(list, ours),
        ["generate", seed, count] => make_list(seed, count, "0", "1"),
        ["generate", seed, count, part, parts] => make_list(seed, count, part, parts),
        ["compare", list, ours, theirs] => compare_files(list, ours, theirs),
        ["shrink", seconds, file, command @ ..] if !command.is_empty() => shrink_list(seconds, file, command),
        _ => Err(USAGE.to_string()),
    };
    match done {
        Ok(true) => ExitCode::SUCCESS,
        Ok(false) => ExitCode::from(1),
        Err(error) => {
            eprintln!("{error}");
            ExitCode::from(2)
        }
    }
}

/// Whether both sides agree, or what went wrong.
type Done = Result<bool, String>;

fn run_list(list: &str, refused: &run::Refused) -> Done {
    let calls = list::read(list)?;
    let mut out = BufWriter::new(std::io::stdout().lock());
    run::run(&calls, refused, &mut out).and_then(|()| out.flush()).map_err(|error| error.to_string())?;
    Ok(true)
}

fn run_beside(list: &str, ours: &str) -> Done {
    let ours = list::text(ours)?;
    run_list(list, &run::Refused::Skipped(ours.lines().collect()))
}

fn make_list(seed: &str, count: &str, part: &str, parts: &str) -> Done {
    let calls = generate::generate(number(seed)?, number(count)?, number(part)?, number(parts)?);
    print!("# seed {seed}, part {part} of {parts}, {count} calls\n{}", list::to_text(&calls));
    Ok(true)
}

fn number<N: std::str::FromStr>(word: &str) -> Result<N, String> {
    word.parse().map_err(|_| format!("{word} is no number"))
}

fn compare_files(list: &str, ours: &str, theirs: &str) -> Done {
    let calls = list::read(list)?;
    let (ours, theirs) = (list::text(ours)?, list::text(theirs)?);
    let (ours, theirs): (Vec<&str>, Vec<&str>) = (ours.lines().collect(), theirs.lines().collect());
    let compared = compare::compare(&calls, &ours, &theirs);
    println!("{}", compared.told());
    if let Some(place) = compared.difference {
        print!("first difference, {}", compare::difference(&calls, place, &ours, &theirs));
    }
    Ok(compared.difference.is_none())
}

fn shrink_list(seconds: &str, file: &str, command: &[&str]) -> Done {
    let (seconds, calls) = (number(seconds)?, list::read(file)?);
    let command = command.iter().map(|word| word.to_string()).collect();
    let ours = shrink::Ours { command, file: format!("{file}.shrunk") };
    let (calls, smallest) = shrink::shrink(calls, &ours, Duration::from_secs(seconds))?;
    let lines = ours.both(&calls)?;
    let (our, their): (Vec<&str>, Vec<&str>) = (lines.ours.lines().collect(), lines.theirs.lines().collect());
    println!("# {} calls{}", calls.len(), if smallest { "" } else { "; time ran out, there may be fewer" });
    for (place, call) in calls.iter().enumerate() {
        println!("{:<24} # {}", call.to_string(), call.name());
        if place + 1 == calls.len() {
            let told = compare::difference(&calls, place, &our, &their);
            told.lines().for_each(|line| println!("# {line}"));
        }
    }
    Ok(true)
}
