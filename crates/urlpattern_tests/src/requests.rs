//! Calls that promise an upper bound on their requests for memory.
//!
//! For each pattern one test makes the parts alone, and each other test makes the parts and then
//! one call. The difference of the two numbers of requests is that of the call; `.ci/refuse` counts
//! it and has the bounds.

use crate::given::{expect_same, parts_of};
use std::alloc::Global;
use std::process::Abort;
use std::test::Fail;
use urlpattern_matcher::component::{
    generate_pattern_string, generate_regular_expression_and_name_list,
};
use urlpattern_parser::parser::{Options, Part};
use urlpattern_syntax::Error;

/// A pathname pattern, its regular expression, and the length of that in bytes.
type Case = (&'static str, &'static str, usize);

const REPEATED: Case = ("{a/:x/b}+", "^(?:a/((?:[^/]+?)(?:/ba/(?:[^/]+?))*)/b)$", 41);

const THREE_NAMES: Case = ("/:a/:b/:c", "^(?:/([^/]+?))(?:/([^/]+?))(?:/([^/]+?))$", 41);

const EMPTY: Case = ("", "^$", 2);

/// The options of a pathname, and the parts of a pattern.
fn made(alloc: Global, (pattern, _, _): Case) -> Result<(Options, Vec<Part>), Error> {
    let options = Options::pathname(alloc)?;
    let parts = parts_of(alloc, pattern, &options)?;
    Ok((options, parts))
}

/// Makes the parts of a pattern alone.
fn make(alloc: Global, case: Case) -> Result<(), Fail> {
    drop(made(alloc, case)?);
    Ok(())
}

/// Makes the parts of a pattern, and their regular expression with its names.
fn express(rt: &impl Abort, alloc: Global, case: Case) -> Result<(), Fail> {
    let (options, parts) = made(alloc, case)?;
    let (text, _) = generate_regular_expression_and_name_list(alloc, &parts, &options)?;
    expect_same(rt, (text.as_str(), text.len()), (case.1, case.2), case.0);
    Ok(())
}

/// Makes the parts of a pattern, and prints them.
fn print(rt: &impl Abort, alloc: Global, case: Case) -> Result<(), Fail> {
    let (options, parts) = made(alloc, case)?;
    let text = generate_pattern_string(alloc, &parts, &options)?;
    expect_same(rt, text.as_str(), case.0, case.0);
    Ok(())
}

#[test]
fn the_parts_of_a_repeated_name(rt: HostRuntime) -> Result<(), Fail> {
    make(rt.alloc(), REPEATED)
}

#[test]
fn the_expression_of_a_repeated_name(rt: HostRuntime) -> Result<(), Fail> {
    express(&rt, rt.alloc(), REPEATED)
}

#[test]
fn the_printed_repeated_name(rt: HostRuntime) -> Result<(), Fail> {
    print(&rt, rt.alloc(), REPEATED)
}

#[test]
fn the_parts_of_three_names(rt: HostRuntime) -> Result<(), Fail> {
    make(rt.alloc(), THREE_NAMES)
}

#[test]
fn the_expression_of_three_names(rt: HostRuntime) -> Result<(), Fail> {
    express(&rt, rt.alloc(), THREE_NAMES)
}

#[test]
fn the_printed_three_names(rt: HostRuntime) -> Result<(), Fail> {
    print(&rt, rt.alloc(), THREE_NAMES)
}

#[test]
fn the_parts_of_the_empty_pattern(rt: HostRuntime) -> Result<(), Fail> {
    make(rt.alloc(), EMPTY)
}

#[test]
fn the_expression_of_the_empty_pattern(rt: HostRuntime) -> Result<(), Fail> {
    express(&rt, rt.alloc(), EMPTY)
}

#[test]
fn the_printed_empty_pattern(rt: HostRuntime) -> Result<(), Fail> {
    print(&rt, rt.alloc(), EMPTY)
}
