//! Compiles patterns to plain data.

use crate::recorded::{Fault, optional_text};
use crate::{Case, given};
use serde_json::Value;
use std::alloc::Global;
use urlpattern_inputs::{StringOrInit, UrlPatternOptions};
use urlpattern_matcher::regexp::RegExp;
use urlpattern_quirks::{parse_pattern, process_construct_pattern_input};
use urlpattern_syntax::Error;

/// Whether the JSON of a pattern over this engine is the recorded one.
pub fn is_same<R: RegExp>(case: &Case<'_>) -> Result<bool, Fault> {
    let options = given::options(case.alloc, case.question)?;
    let input = given::input(case.alloc, case.question)?;
    let base = optional_text(case.question, "base");
    let found = pattern::<R>(case.alloc, input, base, options);
    case.is_answer(found, |pattern, recorded| Ok(pattern == recorded))
}

/// The JSON of the pattern over an engine.
fn pattern<R: RegExp>(
    alloc: Global,
    input: StringOrInit<'_>,
    base: Option<&str>,
    options: UrlPatternOptions,
) -> Result<Value, Error> {
    let init = process_construct_pattern_input(alloc, input, base)?;
    let pattern = parse_pattern::<R>(alloc, init, options)?;
    let tree = pattern.to_json_value(alloc);
    drop(pattern);
    tree
}
