//! Compiles and matches patterns as in a recorded case.

use crate::calls::{self, Call};
use crate::recorded::{Fault, has_text, is_set, list, optional_text, text};
use crate::{Case, given, prints};
use serde_json::Value;
use std::alloc::Global;
use urlpattern_components::ComponentName;
use urlpattern_init::UrlPatternInit;
use urlpattern_inputs::UrlPatternOptions;
use urlpattern_matcher::regexp::RegExp;
use urlpattern_matches::{UrlPatternComponentResult, UrlPatternResult};
use urlpattern_pattern::UrlPattern;
use urlpattern_quirks::{parse_pattern_as_lib, process_construct_pattern_input};
use urlpattern_syntax::Error;

/// Whether a pattern over this engine, and its results for the inputs, are the recorded ones.
pub fn is_same<R: RegExp>(case: &Case<'_>) -> Result<bool, Fault> {
    let found = built_through::<R>(case)?;
    case.is_answer(found, |pattern, recorded| {
        Ok(has_same_texts(pattern, recorded)
            && has_same_meanings(case.alloc, pattern, recorded)?
            && has_same_results(case, pattern, recorded)?)
    })
}

/// The pattern of a question, by the call that it names.
fn built_through<R: RegExp>(case: &Case<'_>) -> Result<Result<UrlPattern<R>, Error>, Fault> {
    let (alloc, question) = (case.alloc, case.question);
    match optional_text(question, "through") {
        Some("from_constructor_string") => {
            let options = given::options(alloc, question)?;
            let base = optional_text(question, "base");
            let pattern = text(question, "string")?;
            Ok(UrlPattern::from_constructor_string(alloc, pattern, base, options))
        }
        Some("parse_pattern_as_lib") => Ok(match init_of(alloc, question)? {
            Ok((init, options)) => parse_pattern_as_lib(alloc, init, options),
            Err(error) => Err(error),
        }),
        Some(_) => Err(Fault::NoCase),
        None => built(alloc, question),
    }
}

/// The pattern of a text or an init.
pub fn built<R: RegExp>(
    alloc: Global,
    fields: &Value,
) -> Result<Result<UrlPattern<R>, Error>, Fault> {
    Ok(match init_of(alloc, fields)? {
        Ok((init, options)) => UrlPattern::parse(alloc, init, options),
        Err(error) => Err(error),
    })
}

/// The init of a text or an init with its base, and the options.
fn init_of(
    alloc: Global,
    fields: &Value,
) -> Result<Result<(UrlPatternInit, UrlPatternOptions), Error>, Fault> {
    let options = given::options(alloc, fields)?;
    let input = given::input(alloc, fields)?;
    let init = process_construct_pattern_input(alloc, input, optional_text(fields, "base"));
    Ok(match init {
        Ok(init) => Ok((init, options)),
        Err(error) => Err(error),
    })
}

/// Whether the texts of a pattern are the recorded ones.
fn has_same_texts<R: RegExp>(pattern: &UrlPattern<R>, recorded: &Value) -> bool {
    ComponentName::all().iter().all(|&name| has_text(
        recorded,
        name.as_str(),
        text_of(pattern, name),
    )) && is_set(recorded, "has_regexp_groups") == pattern.has_regexp_groups()
}

/// The pattern text of a component, generated anew.
fn text_of<R: RegExp>(pattern: &UrlPattern<R>, name: ComponentName) -> &str {
    &pattern.get(name).pattern_string
}

/// Whether the components without a meaning are the recorded ones, if the case has them.
fn has_same_meanings<R: RegExp>(
    alloc: Global,
    pattern: &UrlPattern<R>,
    recorded: &Value,
) -> Result<bool, Fault> {
    match list(recorded, "lacking") {
        Ok(lacking) => are_lacking(alloc, pattern, lacking),
        Err(_) => Ok(true),
    }
}

/// Whether the components without a meaning are the recorded ones.
pub fn are_lacking<R: RegExp>(
    alloc: Global,
    pattern: &UrlPattern<R>,
    lacking: &[Value],
) -> Result<bool, Fault> {
    let mut is_same = pattern.has_meaning(alloc)? == lacking.is_empty();
    for name in ComponentName::all() {
        if pattern.component_has_meaning(alloc, name)? == is_named(lacking, name) {
            is_same = false;
        }
    }
    Ok(is_same)
}

/// Whether the components without a meaning over `PatternRegexp` are the recorded ones.
pub fn are_lacking_by_case<R: RegExp>(
    alloc: Global,
    pattern: &UrlPattern<R>,
    lacking: &[Value],
) -> Result<bool, Fault> {
    let mut is_same = pattern.has_meaning_by_case(alloc)? == lacking.is_empty();
    for name in ComponentName::all() {
        if pattern.component_has_meaning_by_case(alloc, name)? == is_named(lacking, name) {
            is_same = false;
        }
    }
    Ok(is_same)
}

/// Whether the component is among the named ones.
fn is_named(names: &[Value], name: ComponentName) -> bool {
    names.iter().any(|value| value.as_str() == Some(name.as_str()))
}

/// Whether the outcome for each input of a question is the recorded one, by the call that the
/// question names.
fn has_same_results<R: RegExp>(
    case: &Case<'_>,
    pattern: &UrlPattern<R>,
    recorded: &Value,
) -> Result<bool, Fault> {
    if case.question.get("inputs").is_none() {
        return Ok(true);
    }
    let (alloc, call) = (case.alloc, calls::call_of(case.question)?);
    case.are_results(recorded, |input, expected| match call {
        Call::Once => {
            let found = calls::matched_once::<R>(case, input)?;
            is_same_result(alloc, found, expected)
        }
        Call::Test | Call::TestUrl => {
            let is_matched = |input| calls::is_matched(alloc, pattern, call, input);
            let found = calls::found_for(alloc, input, false, is_matched)?;
            is_same_test(alloc, found, expected)
        }
        _ => {
            let matched = |input| calls::matched(alloc, pattern, call, input);
            let found = calls::found_for(alloc, input, None, matched)?;
            is_same_result(alloc, found, expected)
        }
    })
}

/// Whether the outcome of a match is the recorded one: null if there is no match.
fn is_same_result(
    alloc: Global,
    found: Result<Option<UrlPatternResult>, Error>,
    recorded: &Value,
) -> Result<bool, Fault> {
    let is_same = match &found {
        Ok(Some(found)) => Ok(are_same_components(found, recorded)),
        Ok(None) => Ok(recorded.is_null()),
        Err(error) => is_same_error(alloc, error, recorded),
    };
    drop(found);
    is_same
}

/// Whether the outcome of a test is the recorded one: true or false.
fn is_same_test(
    alloc: Global,
    found: Result<bool, Error>,
    recorded: &Value,
) -> Result<bool, Fault> {
    match found {
        Ok(found) => Ok(recorded.as_bool() == Some(found)),
        Err(error) => is_same_error(alloc, &error, recorded),
    }
}

/// Whether an error is the recorded one. Only memory that ran out is a fault.
pub fn is_same_error(alloc: Global, error: &Error, recorded: &Value) -> Result<bool, Fault> {
    if matches!(error, Error::OutOfMemory) {
        return Err(Fault::OutOfMemory);
    }
    match optional_text(recorded, "err") {
        Some(text) => Ok(prints(alloc, error, text)?),
        None => Ok(false),
    }
}

/// Whether the results of all components are the recorded ones.
pub fn are_same_components(found: &UrlPatternResult, recorded: &Value) -> bool {
    ComponentName::all().iter().all(|&name| is_same_component(
        found.component(name),
        recorded,
        name.as_str(),
    ))
}

/// Whether the result of a component is the recorded one.
fn is_same_component(found: &UrlPatternComponentResult, recorded: &Value, name: &str) -> bool {
    let Some(recorded) = recorded.get(name) else {
        return false;
    };
    let Some(groups) = recorded.get("groups").and_then(Value::as_object) else {
        return false;
    };
    for (group, captured) in &found.groups {
        let is_same = match (groups.get(group.as_str()), captured) {
            (Some(expected), Some(text)) => expected.as_str() == Some(text.as_str()),
            (Some(expected), None) => expected.is_null(),
            (None, _) => false,
        };
        if !is_same {
            return false;
        }
    }
    has_text(recorded, "input", &found.input) && groups.len() == found.groups.len()
}
