//! Replays questions on match inputs.

use crate::recorded::{Fault, optional_text};
use crate::{Case, given};
use serde_json::Value;
use std::alloc::Global;
use urlpattern_inputs::{MatchInput, StringOrInit};
use urlpattern_matches::parse_match_input;
use urlpattern_quirks::process_match_input;
use urlpattern_syntax::Error;

/// Whether the texts of a match input are the recorded ones: null if there are none.
pub fn is_same(case: &Case<'_>) -> Result<bool, Fault> {
    let base = optional_text(case.question, "base");
    let input = given::input(case.alloc, case.question)?;
    let given = given::input(case.alloc, case.question)?;
    let found = match_input(case.alloc, input, base, &given);
    drop(given);
    case.is_answer(found, |input, recorded| match input {
        Some(input) => is_match_input(case.alloc, input, recorded),
        None => Ok(recorded.is_null()),
    })
}

/// The texts of a match input. `None`: there are none, or the input that is returned is not the one
/// that was passed.
fn match_input(
    alloc: Global,
    input: StringOrInit<'_>,
    base: Option<&str>,
    given: &StringOrInit<'_>,
) -> Result<Option<MatchInput>, Error> {
    match process_match_input(alloc, input, base)? {
        Some((input, (kept, kept_base))) => {
            let is_kept = kept == *given && kept_base.as_deref() == base;
            drop(kept);
            if !is_kept {
                drop(input);
                return Ok(None);
            }
            parse_match_input(alloc, input)
        }
        None => Ok(None),
    }
}

/// Whether the eight texts are the recorded ones. They differ from a recorded null.
fn is_match_input(alloc: Global, input: &MatchInput, recorded: &Value) -> Result<bool, Fault> {
    match MatchInput::from_json_value(alloc, recorded) {
        Ok(Some(expected)) => Ok(*input == expected),
        Ok(None) => Ok(false),
        Err(_) => Err(Fault::OutOfMemory),
    }
}
