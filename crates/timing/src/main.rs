//! Times the library's calls (`time FILE ..`), links (`link-times FILE ..`) and lookups among
//! routes (`routes FILE`), and draws the times in standard input (`chart`). Asks random questions
//! on which calls have to agree (`questions SEED COUNT`, `lists SEED COUNT` for those on lists,
//! `routers SEED COUNT` for those on routers, `pairs SEED COUNT` for those on pairs of patterns,
//! `texts SEED COUNT` for those on patterns as texts, and `policies SEED COUNT` for those on
//! policies), or links captures (`links SEED COUNT`).
//! `rules FILE` times comparisons of all routes with each other. `repeat FILE NAME CALL COUNT`
//! repeats a call, for a tool that counts instructions, `repeat-paths FILE LOOKUP hits COUNT`
//! (or `misses`) a lookup of each path among the routes of a file, and
//! `decisions FILE RULES CALL COUNT` a decision of a policy, or what it is compared with.
#![tactic(auto)]

mod calls;
mod chart;
mod questions;
mod timing;

use questions::Alone;
use std::process::ExitCode;
use std::{env, io};

/// The command that prints times.
const TIME: &str = "time";

/// The command that prints times of lookups among routes.
const ROUTES: &str = "routes";

/// The command that draws times.
const CHART: &str = "chart";

/// The command that asks questions.
const QUESTIONS: &str = "questions";

/// The command that asks questions on lists alone.
const LISTS: &str = "lists";

/// The command that asks questions on routers alone.
const ROUTERS: &str = "routers";

/// The command that asks questions on pairs of patterns alone.
const PAIRS: &str = "pairs";

/// The command that asks questions on patterns as texts alone.
const TEXTS: &str = "texts";

/// The command that asks questions on policies alone.
const POLICIES: &str = "policies";

/// The command that prints times of comparisons of routes.
const RULES: &str = "rules";

/// The command that links captures.
const LINKS: &str = "links";

/// The command that prints times of links.
const LINK_TIMES: &str = "link-times";

/// The command that repeats a call without timing it.
const REPEAT: &str = "repeat";

/// The command that repeats lookups of paths without timing them.
const REPEAT_PATHS: &str = "repeat-paths";

/// The command that repeats decisions without timing them.
const DECISIONS: &str = "decisions";

/// The exit status of a run in which nothing differs.
const SAME: u8 = 0;

/// The exit status of a run in which calls do not agree.
const DIFFERENT: u8 = 1;

/// The exit status of a run that could not read or write, or had invalid arguments or figures.
const FAILED: u8 = 2;

fn main(rt: HostRuntime) -> ExitCode {
    ExitCode::from(match run(&rt) {
        Ok(true) => SAME,
        Ok(false) => DIFFERENT,
        Err(_) => FAILED,
    })
}

/// Runs the command of the arguments. Returns whether nothing differs.
fn run(rt: &HostRuntime) -> io::Result<bool> {
    let mut words = env::args(rt)?;
    // The first word is the program's own name.
    let _ = words.next();
    let words = words.collect::<Vec<String>>(rt.alloc())?;
    match words.as_slice() {
        [command, paths @ ..] if command.as_str() == TIME => {
            timing::run(rt, paths, &mut rt.stdout())?;
            Ok(true)
        }
        [command, paths @ ..] if command.as_str() == LINK_TIMES => {
            timing::run_links(rt, paths, &mut rt.stdout())?;
            Ok(true)
        }
        [command, path, name, call, count] if command.as_str() == REPEAT => {
            timing::repeat(rt, path, name, call, number(count)?)
        }
        [command, path, rules, call, count] if command.as_str() == DECISIONS => {
            timing::repeat_decisions(rt, path, number(rules)?, call, number(count)?)
        }
        [command, path, lookup, paths, count] if command.as_str() == REPEAT_PATHS => {
            let is_missing = paths.as_str() == "misses";
            timing::repeat_paths(rt, path, lookup, is_missing, number(count)?)
        }
        [command, path] if command.as_str() == ROUTES => {
            timing::run_routes(rt, path, &mut rt.stdout())?;
            Ok(true)
        }
        [command] if command.as_str() == CHART => {
            chart::run(rt, &mut rt.stdout())?;
            Ok(true)
        }
        [command, seed, count] if command.as_str() == QUESTIONS => {
            let (seed, count) = (number(seed)?, number(count)?);
            questions::run(rt.alloc(), seed, count, &mut rt.stdout())
        }
        [command, seed, count] if command.as_str() == LISTS => {
            let (seed, count) = (number(seed)?, number(count)?);
            questions::run_alone(rt.alloc(), Alone::Lists, seed, count, &mut rt.stdout())
        }
        [command, seed, count] if command.as_str() == ROUTERS => {
            let (seed, count) = (number(seed)?, number(count)?);
            questions::run_alone(rt.alloc(), Alone::Routers, seed, count, &mut rt.stdout())
        }
        [command, seed, count] if command.as_str() == PAIRS => {
            let (seed, count) = (number(seed)?, number(count)?);
            questions::run_alone(rt.alloc(), Alone::Rules, seed, count, &mut rt.stdout())
        }
        [command, seed, count] if command.as_str() == TEXTS => {
            let (seed, count) = (number(seed)?, number(count)?);
            questions::run_alone(rt.alloc(), Alone::Texts, seed, count, &mut rt.stdout())
        }
        [command, seed, count] if command.as_str() == POLICIES => {
            let (seed, count) = (number(seed)?, number(count)?);
            questions::run_alone(rt.alloc(), Alone::Policies, seed, count, &mut rt.stdout())
        }
        [command, path] if command.as_str() == RULES => {
            timing::run_rules(rt, path, &mut rt.stdout())?;
            Ok(true)
        }
        [command, seed, count] if command.as_str() == LINKS => {
            let (seed, count) = (number(seed)?, number(count)?);
            questions::links::run(rt.alloc(), seed, count, &mut rt.stdout())
        }
        _ => Err(io::Error::from(io::ErrorKind::InvalidInput)),
    }
}

/// The number in an argument.
fn number(word: &str) -> io::Result<u64> {
    match word.parse::<u64>() {
        Ok(number) => Ok(number),
        Err(_) => Err(io::Error::from(io::ErrorKind::InvalidInput)),
    }
}
