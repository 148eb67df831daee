//! Calls an engine as in a recorded case.

use crate::case::Case;
use crate::recorded::{Answer, Fault, has_text, is_set, list, text};
use serde_json::Value;
use std::alloc::Global;
use urlpattern_matcher::regexp::RegExp;
use urlpattern_syntax::error::{OutOfMemory, RegExpError};

/// Whether the results of this engine are the recorded ones, also those of a value that is compiled
/// to be kept.
pub fn is_same<R: RegExp>(case: &Case<'_>) -> Result<bool, Fault> {
    let pattern = text(case.question, "pattern")?;
    let force_eval = is_set(case.question, "force_eval");
    let asked = R::parse(case.alloc, pattern, "u", force_eval);
    let own = String::from_str(case.alloc, pattern)?;
    let kept = R::parse_to_keep(case.alloc, own, "u", force_eval, false);
    Ok(is_same_value(case, asked)? && is_same_value(case, kept)?)
}

/// Whether the recorded result is that of compiling the text.
fn is_same_value<R: RegExp>(case: &Case<'_>, found: Result<R, RegExpError>) -> Result<bool, Fault> {
    let is_same = match (&found, case.answer) {
        (Err(RegExpError::OutOfMemory), _) => Err(Fault::OutOfMemory),
        (Ok(engine), Answer::Ok(recorded)) => is_engine(case, engine, recorded),
        (Err(RegExpError::Pattern), Answer::Err(text)) => Ok(text == "pattern"),
        _ => Ok(false),
    };
    drop(found);
    is_same
}

/// Whether an engine has the recorded text, and returns the recorded results for the texts of a
/// question.
fn is_engine<R: RegExp>(case: &Case<'_>, engine: &R, recorded: &Value) -> Result<bool, Fault> {
    let inputs = list(case.question, "inputs")?;
    let Ok(matches) = list(recorded, "matches") else {
        return Ok(false);
    };
    Ok(
        has_text(recorded, "pattern_string", engine.pattern_string())
            && are_answers(case.alloc, engine, inputs, matches)?,
    )
}

/// Whether an engine returns the recorded result for each text.
fn are_answers<R: RegExp>(
    alloc: Global,
    engine: &R,
    inputs: &[Value],
    recorded: &[Value],
) -> Result<bool, Fault> {
    for (input, expected) in inputs.iter().zip(recorded) {
        let input = input.as_str().ok_or(Fault::NoCase)?;
        if !answers(alloc, engine, input, expected)? {
            return Ok(false);
        }
    }
    Ok(inputs.len() == recorded.len())
}

/// Whether an engine returns the recorded result for a text.
fn answers<R: RegExp>(
    alloc: Global,
    engine: &R,
    input: &str,
    expected: &Value,
) -> Result<bool, OutOfMemory> {
    let found = engine.matches(alloc, input)?;
    let is_same = are_captures(&found, expected);
    drop(found);
    Ok(is_same)
}

/// Whether captures are the recorded ones: null if the text does not match, and for a group that
/// took no part.
pub fn are_captures(found: &Option<Vec<Option<&str>>>, recorded: &Value) -> bool {
    match (found, recorded) {
        (Some(found), Value::Array(recorded)) => {
            for (text, expected) in found.iter().zip(recorded) {
                if *text != expected.as_str() {
                    return false;
                }
            }
            found.len() == recorded.len()
        }
        (None, Value::Null) => true,
        _ => false,
    }
}
