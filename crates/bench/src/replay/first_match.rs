//! Builds lists of patterns as in a recorded case, and finds the first match of the same inputs.

use crate::calls::{found_for, found_of_texts, found_of_url};
use crate::patterns::{are_same_components, built, is_same_error};
use crate::Case;
use crate::recorded::{Fault, list, named, optional_text};
use serde_json::Value;
use std::alloc::Global;
use urlpattern::regexp::RegExp;
use urlpattern::{
    Error, UrlPattern, UrlPatternCaptures, UrlPatternList, UrlPatternMatchInput, UrlPatternResult,
};

/// The first match of an input: an index and its match. `None`: there is no match.
type First = Option<(usize, UrlPatternResult)>;

/// A call that finds the first match. The call for URLs finds none for an init.
#[derive(Clone, Copy)]
enum Call {
    /// `first_match`.
    FirstMatch,
    /// `first_captures`, and an owned copy of its result.
    FirstCaptures,
    /// `first_captures_of_input`, and an owned copy of its result.
    FirstCapturesOfInput,
}

/// The calls by name.
const CALLS: &[(&str, Call)] = &[
    ("first_match", Call::FirstMatch),
    ("first_captures", Call::FirstCaptures),
    ("first_captures_of_input", Call::FirstCapturesOfInput),
];

/// Whether the first matches of the inputs in a list over this engine are the recorded ones.
pub fn is_same<R: RegExp>(case: &Case<'_>) -> Result<bool, Fault> {
    let found = built_list::<R>(case.alloc, case.question)?;
    case.is_answer(
        found,
        |patterns, recorded| has_same_results(case, patterns, recorded),
    )
}

/// The list of the patterns of a question, or the error of the first pattern that is rejected.
fn built_list<R: RegExp>(
    alloc: Global,
    question: &Value,
) -> Result<Result<UrlPatternList<R>, Error>, Fault> {
    let fields = list(question, "patterns")?;
    let mut patterns = UrlPatternList::new(alloc);
    match add_patterns(alloc, &mut patterns, fields)? {
        Ok(()) => Ok(Ok(patterns)),
        Err(error) => Ok(Err(error)),
    }
}

/// Appends patterns, up to the first that is rejected.
fn add_patterns<R: RegExp>(
    alloc: Global,
    patterns: &mut UrlPatternList<R>,
    fields: &[Value],
) -> Result<Result<(), Error>, Fault> {
    for fields in fields {
        match built(alloc, fields)? {
            Ok(pattern) => {
                if patterns.push(pattern).is_err() {
                    return Err(Fault::OutOfMemory);
                }
            }
            Err(error) => return Ok(Err(error)),
        }
    }
    Ok(Ok(()))
}

/// Whether the outcome for each input of a question is the recorded one, by the call that the
/// question names.
fn has_same_results<R: RegExp>(
    case: &Case<'_>,
    patterns: &UrlPatternList<R>,
    recorded: &Value,
) -> Result<bool, Fault> {
    let call = named(
        CALLS,
        optional_text(case.question, "by").unwrap_or("first_match"),
    )?;
    case.are_results(recorded, |input, expected| {
        let found = first_match(case.alloc, patterns, call, input)?;
        let is_same = is_same_result(case.alloc, &found, expected);
        drop(found);
        is_same
    })
}

/// The first match of an input of a question.
fn first_match<R: RegExp>(
    alloc: Global,
    patterns: &UrlPatternList<R>,
    call: Call,
    input: &Value,
) -> Result<Result<First, Error>, Fault> {
    let found = found_for(
        alloc,
        input,
        None,
        |input| found_by(alloc, patterns, call, input),
    )?;
    // In the recorded cases each pattern parsed the input anew, and an empty list did not.
    if patterns.is_empty() && !matches!(found, Err(Error::OutOfMemory)) {
        drop(found);
        return Ok(Ok(None));
    }
    Ok(found)
}

/// The first match of an input by a call.
fn found_by<R: RegExp>(
    alloc: Global,
    patterns: &UrlPatternList<R>,
    call: Call,
    input: UrlPatternMatchInput,
) -> Result<First, Error> {
    match call {
        Call::FirstMatch => patterns.first_match(alloc, input),
        Call::FirstCaptures => found_of_url(
            input,
            None,
            |url| copied(alloc, patterns.first_captures(alloc, url)),
        ),
        Call::FirstCapturesOfInput => found_of_texts(
            alloc,
            input,
            |texts| copied(alloc, patterns.first_captures_of_input(alloc, texts)),
        ),
    }
}

/// An owned copy of a borrowed first match.
fn copied(
    alloc: Global,
    found: Result<Option<(usize, UrlPatternCaptures<'_, '_>)>, Error>,
) -> Result<First, Error> {
    let copy = match &found {
        Ok(Some((index, found))) => match found.to_result(alloc) {
            Ok(result) => Ok(Some((*index, result))),
            Err(error) => Err(error),
        },
        Ok(None) => Ok(None),
        Err(_) => Err(Error::OutOfMemory),
    };
    drop(found);
    copy
}

/// Whether the first match is the recorded one: null if there is none.
fn is_same_result(
    alloc: Global,
    found: &Result<First, Error>,
    recorded: &Value,
) -> Result<bool, Fault> {
    match found {
        Ok(Some((index, found))) => Ok(
            is_index(*index, recorded)
                && match recorded.get("result") {
                    Some(result) => are_same_components(found, result),
                    None => false,
                },
        ),
        Ok(None) => Ok(recorded.is_null()),
        Err(error) => is_same_error(alloc, error, recorded),
    }
}

/// Whether the recorded index is this one.
fn is_index(index: usize, recorded: &Value) -> bool {
    recorded.get("index").and_then(Value::as_u64) == Some(index as u64)
}
