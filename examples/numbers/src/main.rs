//! Files of numbers as id sets and columns. `../README.md` describes the verbs.
//!
//! `arguments.rs` has the command line and its help, and `verbs.rs` what each verb does. `opened.rs` is an opened set or column,
//! `numbers.rs` reads and writes numbers, `files.rs` files, and `progress.rs` shows on a terminal how much is done.

mod arguments;
mod files;
mod numbers;
mod opened;
mod progress;
mod verbs;

use std::process::ExitCode;

/// An error is a message for the user. If it is empty, nothing is left to tell.
type Result<T> = std::result::Result<T, String>;

fn tell(message: &str) {
    if !message.is_empty() {
        eprintln!("numbers: {message}");
    }
}

fn main() -> ExitCode {
    let found = arguments::run(std::env::args_os().skip(1)).inspect_err(|message| tell(message));
    ExitCode::from(found.map_or(2, |found| u8::from(!found)))
}
