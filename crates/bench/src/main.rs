//! Replays questions over the library, compares the results with the recorded ones, and prints how
//! many there are and how many differ.
#![tactic(auto)]

mod calls;
mod case;
mod common;
mod common_urls;
mod compiled;
mod components;
mod constructors;
mod contending;
mod diagnoses;
mod differences;
mod engines;
mod generated;
mod given;
mod inputs;
mod links;
mod matchers;
mod patterns;
mod plain;
mod policies;
mod policy_json;
mod policy_texts;
mod recorded;
mod replay;
mod report;
mod route_analysis;
mod routes;
mod rules;
mod texts;
mod tokens;
mod trees;
mod values;

pub(crate) use case::{Case, prints, succeeded};
use std::io::Write;
use std::process::ExitCode;
use std::{env, io};

/// The exit status of a run in which each result is the recorded one.
const SAME: u8 = 0;

/// The exit status of a run in which a result differs or a line has no case.
const DIFFERENT: u8 = 1;

/// The exit status of a run that could not read or write, or ran out of memory.
const FAILED: u8 = 2;

fn main(rt: HostRuntime) -> ExitCode {
    ExitCode::from(match run(&rt) {
        Ok(true) => SAME,
        Ok(false) => DIFFERENT,
        Err(error) => {
            let _ = writeln!(rt.stderr(), "{error}");
            FAILED
        }
    })
}

/// Replays the files that the arguments name. Returns whether each result is the recorded one.
fn run(rt: &HostRuntime) -> io::Result<bool> {
    let mut words = env::args(rt)?;
    // The first word is the program's own name.
    let _ = words.next();
    let paths = words.collect::<Vec<String>>(rt.alloc())?;
    report::run(rt, &paths, &mut rt.stdout())
}
