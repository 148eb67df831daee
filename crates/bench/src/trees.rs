//! Parses plain values from JSON, writes them, and compares them with each other.

use crate::recorded::{Answer, Fault, field, is_set, list, optional_text, text};
use crate::{Case, given};
use serde::Serialize;
use serde::de::DeserializeOwned;
use serde_json::Value;
use std::alloc::{AllocError, Global};
use urlpattern_init::UrlPatternInit;
use urlpattern_inputs as plain;
use urlpattern_inputs::{MatchInput, StringOrInit, UrlPatternOptions};
use urlpattern_matches::{UrlPatternComponentResult, UrlPatternResult};
use urlpattern_plain::{InnerMatcher, Matcher, UrlPattern, UrlPatternComponent};
use urlpattern_quirks::process_construct_pattern_input;
use urlpattern_syntax::Error;

/// The error for a text that is not JSON.
const NO_JSON: &str = "no JSON";

/// A value that is parsed from JSON. `None`: the JSON is not that of a value.
trait Read: Sized + Drop {
    fn read(alloc: Global, tree: &Value) -> Result<Option<Self>, Error>;
}

/// A value that is written as JSON.
trait Write: Read {
    fn write(&self, alloc: Global) -> Result<Value, Error>;
}

impl Read for UrlPatternOptions {
    fn read(alloc: Global, tree: &Value) -> Result<Option<Self>, Error> {
        UrlPatternOptions::from_json_value(alloc, tree)
    }
}

impl Write for UrlPatternOptions {
    fn write(&self, alloc: Global) -> Result<Value, Error> {
        self.to_json_value(alloc)
    }
}

impl Read for UrlPatternInit {
    fn read(alloc: Global, tree: &Value) -> Result<Option<Self>, Error> {
        match plain::UrlPatternInit::from_json_value(alloc, tree)? {
            Some(init) => {
                let init = StringOrInit::Init(init);
                Ok(Some(process_construct_pattern_input(alloc, init, None)?))
            }
            None => Ok(None),
        }
    }
}

impl Read for plain::UrlPatternInit {
    fn read(alloc: Global, tree: &Value) -> Result<Option<Self>, Error> {
        plain::UrlPatternInit::from_json_value(alloc, tree)
    }
}

impl Write for plain::UrlPatternInit {
    fn write(&self, alloc: Global) -> Result<Value, Error> {
        self.to_json_value(alloc)
    }
}

impl Read for StringOrInit<'_> {
    fn read(alloc: Global, tree: &Value) -> Result<Option<Self>, Error> {
        StringOrInit::from_json_value(alloc, tree)
    }
}

impl Write for StringOrInit<'_> {
    fn write(&self, alloc: Global) -> Result<Value, Error> {
        self.to_json_value(alloc)
    }
}

impl Read for MatchInput {
    fn read(alloc: Global, tree: &Value) -> Result<Option<Self>, Error> {
        MatchInput::from_json_value(alloc, tree)
    }
}

impl Write for MatchInput {
    fn write(&self, alloc: Global) -> Result<Value, Error> {
        self.to_json_value(alloc)
    }
}

impl Read for Matcher {
    fn read(alloc: Global, tree: &Value) -> Result<Option<Self>, Error> {
        Matcher::from_json_value(alloc, tree)
    }
}

impl Write for Matcher {
    fn write(&self, alloc: Global) -> Result<Value, Error> {
        self.to_json_value(alloc)
    }
}

impl Read for InnerMatcher {
    fn read(alloc: Global, tree: &Value) -> Result<Option<Self>, Error> {
        InnerMatcher::from_json_value(alloc, tree)
    }
}

impl Write for InnerMatcher {
    fn write(&self, alloc: Global) -> Result<Value, Error> {
        self.to_json_value(alloc)
    }
}

impl Read for UrlPatternComponent {
    fn read(alloc: Global, tree: &Value) -> Result<Option<Self>, Error> {
        UrlPatternComponent::from_json_value(alloc, tree)
    }
}

impl Write for UrlPatternComponent {
    fn write(&self, alloc: Global) -> Result<Value, Error> {
        self.to_json_value(alloc)
    }
}

impl Read for UrlPattern {
    fn read(alloc: Global, tree: &Value) -> Result<Option<Self>, Error> {
        UrlPattern::from_json_value(alloc, tree)
    }
}

impl Write for UrlPattern {
    fn write(&self, alloc: Global) -> Result<Value, Error> {
        self.to_json_value(alloc)
    }
}

impl Read for UrlPatternComponentResult {
    fn read(alloc: Global, tree: &Value) -> Result<Option<Self>, Error> {
        UrlPatternComponentResult::from_json_value(alloc, tree)
    }
}

impl Write for UrlPatternComponentResult {
    fn write(&self, alloc: Global) -> Result<Value, Error> {
        self.to_json_value(alloc)
    }
}

impl Read for UrlPatternResult {
    fn read(alloc: Global, tree: &Value) -> Result<Option<Self>, Error> {
        UrlPatternResult::from_json_value(alloc, tree)
    }
}

impl Write for UrlPatternResult {
    fn write(&self, alloc: Global) -> Result<Value, Error> {
        self.to_json_value(alloc)
    }
}

/// Whether the JSON of a plain value that is parsed from JSON is the recorded one: null if none is
/// parsed. The source is a tree or a text.
pub fn is_same(case: &Case<'_>) -> Result<bool, Fault> {
    match optional_text(case.question, "text") {
        Some(text) => match Value::from_str(case.alloc, text) {
            Ok(tree) => is_same_of(case, &tree),
            Err(error) if error.is_memory() => Err(Fault::OutOfMemory),
            Err(_) => Ok(matches!(case.answer, Answer::Err(text) if text == NO_JSON)),
        },
        None => is_same_of(case, field(case.question, "value")?),
    }
}

/// Whether the value of a tree is written as recorded.
fn is_same_of(case: &Case<'_>, tree: &Value) -> Result<bool, Fault> {
    match text(case.question, "type")? {
        "UrlPatternOptions" => is_written::<UrlPatternOptions>(case, tree),
        "UrlPatternInit" => is_written::<plain::UrlPatternInit>(case, tree),
        "StringOrInit" => is_same_tree::<StringOrInit<'_>>(case, tree),
        "MatchInput" => is_written::<MatchInput>(case, tree),
        "Matcher" => is_written::<Matcher>(case, tree),
        "InnerMatcher" => is_written::<InnerMatcher>(case, tree),
        "UrlPatternComponent" => is_written::<UrlPatternComponent>(case, tree),
        "UrlPattern" => is_written::<UrlPattern>(case, tree),
        "UrlPatternComponentResult" => is_same_tree::<UrlPatternComponentResult>(case, tree),
        "UrlPatternResult" => is_same_tree::<UrlPatternResult>(case, tree),
        _ => Err(Fault::NoCase),
    }
}

/// Whether the value of a tree is written as recorded. If the question names serde, also by its
/// derives.
fn is_written<T: Write + Serialize + DeserializeOwned>(
    case: &Case<'_>,
    tree: &Value,
) -> Result<bool, Fault> {
    Ok(
        is_same_tree::<T>(case, tree)?
            && (!is_set(case.question, "serde") || is_derived_alike::<T>(case, tree)?),
    )
}

/// Whether the value of a tree is written as recorded, by calls of the library.
fn is_same_tree<T: Write>(case: &Case<'_>, tree: &Value) -> Result<bool, Fault> {
    case.is_answer(rewritten::<T>(case.alloc, tree), |written, recorded| {
        Ok(match written {
            Some(written) => written == recorded,
            None => recorded.is_null(),
        })
    })
}

/// The JSON of the value of a tree.
fn rewritten<T: Write>(alloc: Global, tree: &Value) -> Result<Option<Value>, Error> {
    match T::read(alloc, tree)? {
        Some(value) => {
            let written = value.write(alloc);
            drop(value);
            Ok(Some(written?))
        }
        None => Ok(None),
    }
}

/// Whether the value that serde's derives parse from a tree is written as recorded, by the derives.
fn is_derived_alike<T: Serialize + DeserializeOwned + Drop>(
    case: &Case<'_>,
    tree: &Value,
) -> Result<bool, Fault> {
    match serde_json::from_value::<T>(case.alloc, tree.clone()?) {
        Ok(value) => {
            let written = serde_json::to_value(case.alloc, &value);
            drop(value);
            let written = written?;
            Ok(matches!(case.answer, Answer::Ok(recorded) if written == *recorded))
        }
        Err(error) if error.is_memory() => Err(Fault::OutOfMemory),
        Err(_) => Ok(matches!(case.answer, Answer::Ok(recorded) if recorded.is_null())),
    }
}

/// Whether values of a type equal the recorded ones: for each the index of the first value that it
/// equals.
pub fn is_same_equality(case: &Case<'_>) -> Result<bool, Fault> {
    match text(case.question, "type")? {
        "UrlPatternOptions" => are_equal_as_recorded::<UrlPatternOptions>(case),
        "lib::UrlPatternInit" => are_equal_as_recorded::<UrlPatternInit>(case),
        "UrlPatternInit" => are_equal_as_recorded::<plain::UrlPatternInit>(case),
        "StringOrInit" => are_equal_as_recorded::<StringOrInit<'_>>(case),
        "MatchInput" => are_equal_as_recorded::<MatchInput>(case),
        "Matcher" => are_equal_as_recorded::<Matcher>(case),
        "InnerMatcher" => are_equal_as_recorded::<InnerMatcher>(case),
        "UrlPatternComponent" => are_equal_as_recorded::<UrlPatternComponent>(case),
        "UrlPattern" => are_equal_as_recorded::<UrlPattern>(case),
        "UrlPatternComponentResult" => are_equal_as_recorded::<UrlPatternComponentResult>(case),
        "UrlPatternResult" => are_equal_as_recorded::<UrlPatternResult>(case),
        _ => Err(Fault::NoCase),
    }
}

/// Whether the values of a question equal the recorded ones, and each its copy.
fn are_equal_as_recorded<T: Read + Clone + PartialEq>(case: &Case<'_>) -> Result<bool, Fault> {
    let values = values_of::<T>(case.alloc, list(case.question, "values")?)?;
    let are_equal = are_equal_as(&values, case.answer);
    drop(values);
    are_equal
}

/// The values of some trees.
fn values_of<T: Read>(alloc: Global, trees: &[Value]) -> Result<Vec<T>, Fault> {
    let mut values = Vec::new(alloc);
    for tree in trees {
        let value = given::read(T::read(alloc, tree))?;
        if values.push(value).is_err() {
            return Err(Fault::OutOfMemory);
        }
    }
    Ok(values)
}

/// Whether values equal the recorded ones, and each its copy.
fn are_equal_as<T: Clone + PartialEq + Drop>(
    values: &[T],
    answer: Answer<'_>,
) -> Result<bool, Fault> {
    let Answer::Ok(Value::Array(recorded)) = answer else {
        return Ok(false);
    };
    for (value, expected) in values.iter().zip(recorded) {
        if first_equal(values, value) != expected.as_u64() || !is_copied(value)? {
            return Ok(false);
        }
    }
    Ok(values.len() == recorded.len())
}

/// Whether a value equals its copy.
fn is_copied<T: Clone + PartialEq + Drop>(value: &T) -> Result<bool, AllocError> {
    let copy = value.clone()?;
    let is_copied = copy == *value;
    drop(copy);
    Ok(is_copied)
}

/// The index of the first of some values that a value equals.
fn first_equal<T: PartialEq>(values: &[T], value: &T) -> Option<u64> {
    for (other, place) in values.iter().zip(0u64..) {
        if value == other {
            return Some(place);
        }
    }
    None
}
