//! Writes patterns as constructor strings and as inits.

use crate::recorded::{Answer, Fault, is_set};
use crate::{Case, patterns};
use serde_json::Value;
use std::alloc::Global;
use urlpattern_init::UrlPatternInit;
use urlpattern_inputs::UrlPatternOptions;
use urlpattern_matcher::regexp::RegExp;
use urlpattern_pattern::UrlPattern;
use urlpattern_syntax::Error;

/// Whether the constructor string of a pattern is the recorded one and reads back, and whether it
/// has an init that does.
pub fn is_same<R: RegExp>(case: &Case<'_>) -> Result<bool, Fault> {
    let Answer::Ok(recorded) = case.answer else {
        return Ok(false);
    };
    let pattern: UrlPattern<R> = known(patterns::built(case.alloc, case.question)?)?;
    let Some(options) = pattern.options() else {
        return Err(Fault::NoCase);
    };
    let text = known(pattern.to_constructor_string(case.alloc))?;
    let init = known(pattern.to_init(case.alloc))?;
    let is_same = is_text(&text, recorded) && init.is_some() == is_set(recorded, "init");
    let reads_back = text_reads_back(case.alloc, &pattern, text, options.clone()?)?
        && init_reads_back(case.alloc, &pattern, init, options)?;
    drop(pattern);
    Ok(is_same && reads_back)
}

/// Whether the constructor string is the recorded one: null if there is none.
fn is_text(text: &Option<String>, recorded: &Value) -> bool {
    match (text, recorded.get("text")) {
        (Some(text), Some(recorded)) => recorded.as_str() == Some(text.as_str()),
        (None, Some(recorded)) => recorded.is_null(),
        (_, None) => false,
    }
}

/// Whether a constructor string is compiled to the same parts as the pattern, if there is one.
fn text_reads_back<R: RegExp>(
    alloc: Global,
    pattern: &UrlPattern<R>,
    text: Option<String>,
    options: UrlPatternOptions,
) -> Result<bool, Fault> {
    let Some(text) = text else {
        return Ok(true);
    };
    let again: UrlPattern<R> =
        known(UrlPattern::from_constructor_string(alloc, &text, None, options))?;
    Ok(again.is_same(pattern)?)
}

/// Whether an init is compiled to the same parts as the pattern, if there is one.
fn init_reads_back<R: RegExp>(
    alloc: Global,
    pattern: &UrlPattern<R>,
    init: Option<UrlPatternInit>,
    options: UrlPatternOptions,
) -> Result<bool, Fault> {
    let Some(init) = init else {
        return Ok(true);
    };
    let again: UrlPattern<R> = known(UrlPattern::parse(alloc, init, options))?;
    Ok(again.is_same(pattern)?)
}

/// The value of a call that is not rejected.
fn known<T>(found: Result<T, Error>) -> Result<T, Fault> {
    match found {
        Ok(value) => Ok(value),
        Err(Error::OutOfMemory) => Err(Fault::OutOfMemory),
        Err(_) => Err(Fault::NoCase),
    }
}
