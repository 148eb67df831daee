//! Parses constructor strings, and inits of strings and of a browser's inits.

use crate::recorded::{Fault, optional_text, text};
use crate::{Case, given};
use regex::Regex;
use serde_json::Value;
use std::alloc::Global;
use urlpattern_components::ComponentName;
use urlpattern_init::UrlPatternInit;
use urlpattern_quirks::process_construct_pattern_input;
use urlpattern_syntax::Error;

/// The result for a constructor string: its components, and the number of turns, each at a token.
type Counted = (UrlPatternInit, usize);

/// Whether the components of a constructor string are the recorded ones, and the number of turns
/// is.
pub fn is_same(case: &Case<'_>) -> Result<bool, Fault> {
    let base = optional_text(case.question, "base");
    let found = constructor(case.alloc, text(case.question, "pattern")?, base);
    case.is_answer(found, |(init, turns), recorded| {
        Ok(
            are_texts(init, recorded)
                && recorded.get("turns").and_then(Value::as_u64) == Some(*turns as u64),
        )
    })
}

/// The result for a constructor string, with or without a base.
fn constructor(alloc: Global, pattern: &str, base: Option<&str>) -> Result<Counted, Error> {
    let base = match base {
        Some(base) => Some(given::url(alloc, base)?),
        None => None,
    };
    UrlPatternInit::parse_constructor_string_counted::<Regex>(alloc, pattern, base)
}

/// Whether the init of a question is the recorded one, with its base URL.
pub fn is_same_init(case: &Case<'_>) -> Result<bool, Fault> {
    let input = given::input(case.alloc, case.question)?;
    let base = optional_text(case.question, "base");
    let found = process_construct_pattern_input(case.alloc, input, base);
    case.is_answer(
        found,
        |init, recorded| Ok(are_texts(init, recorded) && is_base(init, recorded)),
    )
}

/// Whether the components of an init are the recorded ones. A component that is not there is
/// recorded as null or missing.
fn are_texts(init: &UrlPatternInit, recorded: &Value) -> bool {
    ComponentName::all().iter().all(|&name| init.get(name)
        == optional_text(recorded, name.as_str()))
}

/// Whether the base URL of an init is the recorded one.
fn is_base(init: &UrlPatternInit, recorded: &Value) -> bool {
    match (&init.base_url, optional_text(recorded, "baseURL")) {
        (Some(url), Some(text)) => url.as_str() == text,
        (None, None) => true,
        _ => false,
    }
}
