//! Matches an input by the call that a question names.

use crate::recorded::{Fault, named, optional_text};
use crate::{Case, given};
use serde_json::Value;
use std::alloc::Global;
use url::Url;
use urlpattern_init::{UrlPatternInit, UrlPatternMatchInput};
use urlpattern_inputs::{MatchInput, StringOrInit, UrlPatternOptions};
use urlpattern_matcher::regexp::RegExp;
use urlpattern_matches::{UrlPatternCaptures, UrlPatternResult, parse_match_input};
use urlpattern_pattern::UrlPattern;
use urlpattern_quirks::{process_construct_pattern_input, process_match_input};
use urlpattern_syntax::Error;

/// A call that matches an input. Calls for URLs find no match for an init.
#[derive(Clone, Copy)]
pub enum Call {
    /// `exec`.
    Exec,
    /// `exec_url`.
    ExecUrl,
    /// `captures`, and an owned copy of its result.
    Captures,
    /// `captures_of_input`, and an owned copy of its result.
    CapturesOfInput,
    /// `exec_once`.
    Once,
    /// `test`.
    Test,
    /// `test_url`.
    TestUrl,
}

/// The calls by name.
const CALLS: &[(&str, Call)] = &[
    ("exec", Call::Exec),
    ("exec_url", Call::ExecUrl),
    ("captures", Call::Captures),
    ("captures_of_input", Call::CapturesOfInput),
    ("exec_once", Call::Once),
    ("test", Call::Test),
    ("test_url", Call::TestUrl),
];

/// The call that a question names, or `exec`.
pub fn call_of(question: &Value) -> Result<Call, Fault> {
    named(CALLS, optional_text(question, "by").unwrap_or("exec"))
}

/// The result of a call for the input of a question, or `nothing` if the input has no texts.
pub fn found_for<T: Drop, F: Fn(UrlPatternMatchInput) -> Result<T, Error>>(
    alloc: Global,
    input: &Value,
    nothing: T,
    found: F,
) -> Result<Result<T, Error>, Fault>
    requires { F.IsAlwaysCallable found }
{
    let given = match given_with_base(alloc, input) {
        Ok((given, base)) => process_match_input(alloc, given, base),
        Err(fault) => {
            drop(nothing);
            return Err(fault);
        }
    };
    Ok(match given {
        Ok(Some((input, kept))) => {
            drop(kept);
            drop(nothing);
            found(input)
        }
        Ok(None) => Ok(nothing),
        Err(error) => {
            drop(nothing);
            Err(error)
        }
    })
}

/// The result of a call for an input that is a URL, or `nothing` for an init.
pub fn found_of_url<T: Drop, F: Fn(&Url) -> Result<T, Error>>(
    input: UrlPatternMatchInput,
    nothing: T,
    found: F,
) -> Result<T, Error>
    requires { F.IsAlwaysCallable found }
{
    let answer = match &input {
        UrlPatternMatchInput::Url(url) => {
            drop(nothing);
            found(url)
        }
        UrlPatternMatchInput::Init(_) => Ok(nothing),
    };
    drop(input);
    answer
}

/// The result of a call for the texts of an input. `None`: the input has no texts.
pub fn found_of_texts<T: Drop, F: Fn(&MatchInput) -> Result<Option<T>, Error>>(
    alloc: Global,
    input: UrlPatternMatchInput,
    found: F,
) -> Result<Option<T>, Error>
    requires { F.IsAlwaysCallable found }
{
    let texts = parse_match_input(alloc, input);
    let answer = match &texts {
        Ok(Some(texts)) => found(texts),
        Ok(None) => Ok(None),
        Err(_) => Err(Error::OutOfMemory),
    };
    drop(texts);
    answer
}

/// The match of an input by a call. `None`: there is none.
pub fn matched<R: RegExp>(
    alloc: Global,
    pattern: &UrlPattern<R>,
    call: Call,
    input: UrlPatternMatchInput,
) -> Result<Option<UrlPatternResult>, Error> {
    match call {
        Call::ExecUrl => found_of_url(input, None, |url| pattern.exec_url(alloc, url)),
        Call::Captures => found_of_url(
            input,
            None,
            |url| copied(alloc, pattern.captures(alloc, url)),
        ),
        Call::CapturesOfInput => found_of_texts(
            alloc,
            input,
            |texts| copied(alloc, pattern.captures_of_input(alloc, texts)),
        ),
        _ => pattern.exec(alloc, input),
    }
}

/// An owned copy of a borrowed match.
fn copied(
    alloc: Global,
    found: Result<Option<UrlPatternCaptures<'_, '_>>, Error>,
) -> Result<Option<UrlPatternResult>, Error> {
    let copy = match &found {
        Ok(Some(found)) => match found.to_result(alloc) {
            Ok(result) => Ok(Some(result)),
            Err(error) => Err(error),
        },
        Ok(None) => Ok(None),
        Err(_) => Err(Error::OutOfMemory),
    };
    drop(found);
    copy
}

/// Whether a pattern matches an input, by a call that returns a bool.
pub fn is_matched<R: RegExp>(
    alloc: Global,
    pattern: &UrlPattern<R>,
    call: Call,
    input: UrlPatternMatchInput,
) -> Result<bool, Error> {
    match call {
        Call::TestUrl => found_of_url(input, false, |url| pattern.test_url(alloc, url)),
        _ => pattern.test(alloc, input),
    }
}

/// The text or init of a pattern or an input, with its base.
type Given<'a> = (StringOrInit<'a>, Option<&'a str>);

/// The text or init of a question or an input, with its base.
fn given_with_base<'a>(alloc: Global, fields: &'a Value) -> Result<Given<'a>, Fault> {
    Ok((given::input(alloc, fields)?, optional_text(fields, "base")))
}

/// The match of an input by a pattern that is compiled for this input alone.
pub fn matched_once<R: RegExp>(
    case: &Case<'_>,
    input: &Value,
) -> Result<Result<Option<UrlPatternResult>, Error>, Fault> {
    let options = given::options(case.alloc, case.question)?;
    let (pattern, base) = given_with_base(case.alloc, case.question)?;
    match process_construct_pattern_input(case.alloc, pattern, base) {
        Ok(init) => found_once::<R>(case.alloc, init, options, input),
        Err(error) => Ok(Err(error)),
    }
}

/// The match of an input by the pattern of an init.
fn found_once<R: RegExp>(
    alloc: Global,
    init: UrlPatternInit,
    options: UrlPatternOptions,
    input: &Value,
) -> Result<Result<Option<UrlPatternResult>, Error>, Fault> {
    let (given, base) = match given_with_base(alloc, input) {
        Ok(given) => given,
        Err(fault) => {
            drop(init);
            return Err(fault);
        }
    };
    Ok(match process_match_input(alloc, given, base) {
        Ok(Some((input, kept))) => {
            drop(kept);
            UrlPattern::<R>::exec_once(alloc, init, options, input)
        }
        Ok(None) => {
            drop(init);
            Ok(None)
        }
        Err(error) => {
            drop(init);
            Err(error)
        }
    })
}
