//! Whether values that are written as JSON are parsed as the same values.

use super::making::RandomSource;
use super::{Outcome, given, same};
use regex::Regex;
use serde_json::Value;
use std::alloc::Global;
use urlpattern::quirks::{
    MatchInput, StringOrInit, UrlPattern, UrlPatternInit, parse_match_input, parse_pattern,
    process_construct_pattern_input, process_match_input,
};
use urlpattern::{Error, UrlPatternOptions};

/// Writes a plain value of one of the types, and parses it again.
pub fn ask(maker: &mut RandomSource) -> Result<Outcome, Error> {
    match maker.below(5) {
        0 => ask_init(maker),
        1 => ask_input(maker),
        2 => ask_options(maker),
        3 => ask_texts(maker),
        _ => ask_pattern(maker),
    }
}

/// An init.
fn ask_init(maker: &mut RandomSource) -> Result<Outcome, Error> {
    let init = given::init(maker, true)?;
    let written = init.to_json_value(maker.alloc);
    is_read_again(maker.alloc, init, written, UrlPatternInit::from_json_value)
}

/// A constructor string or an init.
fn ask_input(maker: &mut RandomSource) -> Result<Outcome, Error> {
    let (input, _) = given::pattern(maker)?;
    let is_same = match read_again(maker.alloc, input.to_json_value(maker.alloc)) {
        Ok(tree) => is_read(StringOrInit::from_json_value(maker.alloc, &tree), &input),
        Err(error) => Err(error),
    };
    drop(input);
    Ok(same(is_same?))
}

/// Options.
fn ask_options(maker: &mut RandomSource) -> Result<Outcome, Error> {
    let options = UrlPatternOptions {
        regex_syntax: given::syntax(maker),
        ignore_case: maker.is_one_in(2),
    };
    let written = options.to_json_value(maker.alloc);
    is_read_again(
        maker.alloc,
        options,
        written,
        UrlPatternOptions::from_json_value,
    )
}

/// The eight texts of an input.
fn ask_texts(maker: &mut RandomSource) -> Result<Outcome, Error> {
    let input = StringOrInit::Init(given::init(maker, false)?);
    let Some((input, given)) = process_match_input(maker.alloc, input, None)? else {
        return Ok(Outcome::Refused);
    };
    drop(given);
    let Some(texts) = parse_match_input(maker.alloc, input)? else {
        return Ok(Outcome::Refused);
    };
    let written = texts.to_json_value(maker.alloc);
    is_read_again(maker.alloc, texts, written, MatchInput::from_json_value)
}

/// A pattern as plain data.
fn ask_pattern(maker: &mut RandomSource) -> Result<Outcome, Error> {
    let (pattern, _) = given::pattern(maker)?;
    match plain_pattern(maker.alloc, pattern) {
        Ok(pattern) => {
            let written = pattern.to_json_value(maker.alloc);
            is_read_again(maker.alloc, pattern, written, UrlPattern::from_json_value)
        }
        Err(error) => Outcome::of_error(&error),
    }
}

/// The plain data of a pattern.
fn plain_pattern(alloc: Global, pattern: StringOrInit<'_>) -> Result<UrlPattern, Error> {
    let base = match &pattern {
        StringOrInit::String(_) => Some(given::BASE),
        StringOrInit::Init(_) => None,
    };
    let init = process_construct_pattern_input(alloc, pattern, base)?;
    parse_pattern::<Regex>(alloc, init, UrlPatternOptions::default())
}

/// Whether a value is parsed again from the text of the tree to which it is written.
fn is_read_again<T: PartialEq + Drop, F: FnOnce(Global, &Value) -> Result<Option<T>, Error>>(
    alloc: Global,
    value: T,
    written: Result<Value, Error>,
    read: F,
) -> Result<Outcome, Error>
    requires { F.IsAlwaysCallable read }
{
    let is_same = match read_again(alloc, written) {
        Ok(tree) => is_read(read(alloc, &tree), &value),
        Err(error) => Err(error),
    };
    drop(value);
    Ok(same(is_same?))
}

/// The tree parsed from the text of a tree. Null if it is not JSON, which no value is parsed from.
fn read_again(alloc: Global, written: Result<Value, Error>) -> Result<Value, Error> {
    let text = written?.to_string(alloc)?;
    match Value::from_str(alloc, &text) {
        Ok(tree) => Ok(tree),
        Err(error) if error.is_memory() => Err(Error::OutOfMemory),
        Err(_) => Ok(Value::Null),
    }
}

/// Whether this value was parsed.
fn is_read<T: PartialEq + Drop>(found: Result<Option<T>, Error>, value: &T) -> Result<bool, Error> {
    match found? {
        Some(found) => Ok(found == *value),
        None => Ok(false),
    }
}
