//! What `rubis site`, `world`, `audit` and `widen` do, as a program without proofs: one thread, the standard library alone.
//!
//! It is a yardstick. Its answers have to be those of rubis, byte for byte, and its costs are what those of rubis are compared
//! with. The released messages of a site have the numbers 1, 2, 3 .. without a gap, so what is found by an id stands in vectors,
//! and only nicknames are hashed. Want of memory aborts it.

mod answers;
mod audit;
mod command_line;
mod grammar;
mod listing;
mod log;
mod model;
mod output;
mod records;
mod site;
mod tables;
mod widen;
mod world;

use command_line::{Command, Line, Stop};
use grammar::Grammar;
use output::Output;
use records::Reader;
use std::fs::File;
use std::io;
use std::os::fd::AsFd;
use std::process::ExitCode;

/// Why a run ended early.
#[derive(Debug)]
pub enum Fault {
    Read,
    Write,
    TooLong,
}

impl Fault {
    fn text(&self) -> &'static str {
        match self {
            Fault::Read => "run fault: read",
            Fault::Write => "run fault: write",
            Fault::TooLong => "run fault: too long",
        }
    }
}

fn main() -> ExitCode {
    let words: Vec<_> = std::env::args_os().skip(1).map(|word| word.into_string()).collect();
    let Ok(words) = words.into_iter().collect::<Result<Vec<String>, _>>() else {
        eprintln!("fault: the command line isn't text");
        return ExitCode::from(2);
    };
    match command_line::parse(&words) {
        Ok(line) => match run(&line) {
            Ok(()) => ExitCode::SUCCESS,
            Err(fault) => {
                eprintln!("{}", fault.text());
                ExitCode::from(1)
            }
        },
        Err(Stop::Help(text)) => {
            println!("{text}");
            ExitCode::SUCCESS
        }
        Err(Stop::Fault(text)) => {
            eprintln!("{text}");
            ExitCode::from(2)
        }
    }
}

fn run(line: &Line) -> Result<(), Fault> {
    // As plain files, without the buffers of the standard streams.
    let input = io::stdin().as_fd().try_clone_to_owned().map_err(|_| Fault::Read)?;
    let output = io::stdout().as_fd().try_clone_to_owned().map_err(|_| Fault::Write)?;
    let records = Reader::new(File::from(input));
    let mut out = Output::new(File::from(output));
    let grammar = Grammar { sites: line.sites };
    match line.command {
        Command::Site => answers::run_site(records, &mut out, line),
        Command::World => world::run_world(records, &mut out, line),
        Command::Audit => audit::run_audit(records, &mut out, grammar),
        Command::Widen => widen::run_widen(records, &mut out, grammar, line.to),
    }
}
