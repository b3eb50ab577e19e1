//! The program: it runs the command of its words over the standard streams.

#![forbid(unsafe_code)]
// Contracts, which are left out, use some of them.
#![allow(dead_code, unused_imports, unused_variables)]

mod command_line;
#[allow(clippy::style, clippy::complexity)]
mod program;

use fmtcanon::Counted;
use program::outcome::{Outcome, report};
use program::run::run;
use std::fs::File;
use std::io::{BufReader, BufWriter};
#[cfg(not(windows))]
use std::os::fd::AsFd as Stream;
#[cfg(windows)]
use std::os::windows::io::AsHandle as Stream;
use std::process::ExitCode;
use std::{env, io};

fn main() -> ExitCode {
    let outcome = run_words();
    report(&outcome, &mut Counted::new(io::stderr()));
    ExitCode::from(outcome.status())
}

fn run_words() -> Outcome {
    let words: Result<Vec<String>, _> = env::args_os().skip(1).map(|word| word.into_string()).collect();
    let Ok(words) = words else {
        return Outcome::Usage("error: a word is not UTF-8\n".to_owned());
    };
    let texts: Vec<&str> = words.iter().map(String::as_str).collect();
    let (Ok(output), Ok(input)) = (file_of(io::stdout()), file_of(io::stdin())) else {
        return Outcome::Write(0);
    };
    let mut reader = Counted::new(BufReader::new(input));
    let mut writer = Counted::new(BufWriter::new(output));
    run(&texts, &mut reader, &mut writer)
}

// A standard stream as a file: `io::stdout` and `io::stdin` hide that the system refuses a call.
fn file_of(stream: impl Stream) -> io::Result<File> {
    #[cfg(not(windows))]
    let copy = stream.as_fd().try_clone_to_owned()?;
    #[cfg(windows)]
    let copy = stream.as_handle().try_clone_to_owned()?;
    Ok(File::from(copy))
}
