//! Calls matchers as in a recorded case.

use crate::case::{Case, succeeded};
use crate::components::{Callback, parts_of};
use crate::engines::are_captures;
use crate::recorded::{
    Answer, Fault, character, field, has_text, is_set, list, optional_text, options_of, text,
};
use serde_json::Value;
use std::alloc::{AllocError, Global};
use urlpattern_engine::EcmaRegexp;
use urlpattern_matcher::component::generate_matcher;
use urlpattern_matcher::matcher::{InnerMatcher, Matcher};
use urlpattern_matcher::regexp::RegExp;
use urlpattern_parser::parser::Options;
use urlpattern_syntax::{Error, RegexSyntax};

/// Whether the matcher of a pattern over an engine returns the recorded results.
pub fn is_same<R: RegExp>(case: &Case<'_>) -> Result<bool, Fault> {
    let pattern = text(case.question, "pattern")?;
    let options = options_of(case.alloc, case.question)?;
    let found: Result<Matcher<R>, Error> = matcher_of(case.alloc, pattern, &options);
    drop(options);
    case.is_answer(
        found,
        |matcher, recorded| is_matcher_of(case, matcher, recorded),
    )
}

/// Whether a matcher returns the recorded results for the texts of a question, and keeps an error
/// if one was kept.
fn is_matcher_of<R: RegExp>(
    case: &Case<'_>,
    matcher: &Matcher<R>,
    recorded: &Value,
) -> Result<bool, Fault> {
    let inputs = list(case.question, "inputs")?;
    let Ok(matches) = list(recorded, "matches") else {
        return Ok(false);
    };
    let is_refused = is_set(recorded, "refused") && refuses_unasked::<R>();
    Ok(are_answers(case.alloc, matcher, inputs, matches)? && keeps_error(matcher) == is_refused)
}

/// The matcher of a pattern.
fn matcher_of<R: RegExp>(
    alloc: Global,
    pattern: &str,
    options: &Options,
) -> Result<Matcher<R>, Error> {
    let parts = parts_of(alloc, pattern, options, Callback::Keep)?;
    let flags = if options.ignore_case { "ui" } else { "u" };
    let matcher = generate_matcher(alloc, &parts, options, flags);
    drop(parts);
    matcher
}

/// Whether a matcher keeps an error in place of a regular expression.
fn keeps_error<R>(matcher: &Matcher<R>) -> bool {
    matches!(matcher.inner, InnerMatcher::RegExp { regexp: Err(_) })
}

/// Whether an engine rejects the expressions that the engine of the recorded results rejects,
/// without being called with a text.
fn refuses_unasked<R: RegExp>() -> bool {
    matches!(R::syntax(), RegexSyntax::Rust)
}

/// Whether a matcher built by hand returns the recorded results.
pub fn is_same_by_hand(case: &Case<'_>) -> Result<bool, Fault> {
    let inputs = list(case.question, "inputs")?;
    let Answer::Ok(Value::Array(recorded)) = case.answer else {
        return Ok(false);
    };
    let matcher = hand_matcher(case.alloc, case.question)?;
    let is_same = are_answers(case.alloc, &matcher, inputs, recorded);
    drop(matcher);
    is_same
}

/// The matcher of the fields of a question.
fn hand_matcher(alloc: Global, question: &Value) -> Result<Matcher<EcmaRegexp>, Fault> {
    let prefix = String::from_str(alloc, text(question, "prefix")?)?;
    let suffix = String::from_str(alloc, text(question, "suffix")?)?;
    Ok(Matcher {
        prefix,
        suffix,
        inner: hand_inner(alloc, question)?,
        ignore_case: is_set(question, "ignore_case"),
    })
}

/// The part of a hand-built matcher between prefix and suffix.
fn hand_inner(alloc: Global, question: &Value) -> Result<InnerMatcher<EcmaRegexp>, AllocError> {
    match optional_text(question, "literal") {
        Some(literal) => Ok(InnerMatcher::Literal {
            literal: String::from_str(alloc, literal)?,
        }),
        None => Ok(InnerMatcher::SingleCapture {
            filter: character(question, "filter"),
            allow_empty: is_set(question, "allow_empty"),
        }),
    }
}

/// Whether a matcher returns the recorded result for each text.
fn are_answers<R: RegExp>(
    alloc: Global,
    matcher: &Matcher<R>,
    inputs: &[Value],
    recorded: &[Value],
) -> Result<bool, Fault> {
    for (input, expected) in inputs.iter().zip(recorded) {
        let input = input.as_str().ok_or(Fault::NoCase)?;
        if !succeeded(answers(alloc, matcher, input, expected))? {
            return Ok(false);
        }
    }
    Ok(inputs.len() == recorded.len())
}

/// Whether a matcher returns the recorded result for a text.
fn answers<R: RegExp>(
    alloc: Global,
    matcher: &Matcher<R>,
    input: &str,
    expected: &Value,
) -> Result<bool, Error> {
    let is_accepted = matcher.accepts(alloc, input)?;
    let found = matcher.matches(alloc, input)?;
    let is_same = are_captures(&found, expected);
    drop(found);
    Ok(is_same && is_accepted == !expected.is_null())
}

/// Whether a matcher is that of a recorded component.
pub fn is_matcher(matcher: &Matcher<EcmaRegexp>, component: &Value) -> bool {
    let Ok(recorded) = field(component, "matcher") else {
        return false;
    };
    has_text(recorded, "prefix", &matcher.prefix)
        && has_text(recorded, "suffix", &matcher.suffix)
        && is_inner(&matcher.inner, recorded)
}

/// Whether the part between prefix and suffix is that of a recorded matcher.
fn is_inner(inner: &InnerMatcher<EcmaRegexp>, recorded: &Value) -> bool {
    match inner {
        InnerMatcher::Literal { literal } => {
            has_text(recorded, "kind", "literal") && has_text(recorded, "literal", literal)
        }
        InnerMatcher::SingleCapture {
            filter,
            allow_empty,
        } => {
            has_text(recorded, "kind", "singleCapture")
                && character(recorded, "filter") == *filter
                && is_set(recorded, "allowEmpty") == *allow_empty
        }
        InnerMatcher::RegExp { regexp: Ok(engine) } => {
            has_text(recorded, "kind", "regExp")
                && has_text(recorded, "regexp", engine.pattern_string())
        }
        InnerMatcher::RegExp { regexp: Err(_) } => false,
    }
}
