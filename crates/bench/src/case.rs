//! A question with its recorded result.

use crate::recorded::{Answer, Fault, list};
use serde_json::Value;
use std::alloc::{AllocError, Global};
use urlpattern_syntax::Error;

/// A question, and the result that was recorded.
#[derive(Drop)]
pub struct Case<'a> {
    pub alloc: Global,
    pub question: &'a Value,
    pub answer: Answer<'a>,
    /// The result over `PatternRegexp`.
    pub over_pattern_regexp: Answer<'a>,
}

impl Case<'_> {
    /// Whether the outcome is the recorded one: a value that a predicate accepts, or an error with
    /// the recorded text.
    pub fn is_answer<T: Drop, F: FnOnce(&T, &Value) -> Result<bool, Fault>>(
        &self,
        found: Result<T, Error>,
        is_recorded: F,
    ) -> Result<bool, Fault>
        requires { F.IsAlwaysCallable is_recorded }
    {
        let is_answer = match (&found, self.answer) {
            (Err(Error::OutOfMemory), _) => Err(Fault::OutOfMemory),
            (Ok(found), Answer::Ok(recorded)) => is_recorded(found, recorded),
            (Err(error), Answer::Err(text)) => prints(self.alloc, error, text).map_err(Fault::from),
            _ => Ok(false),
        };
        drop(found);
        is_answer
    }

    /// Whether each input of the question has the recorded result at its index.
    pub fn are_results<F: Fn(&Value, &Value) -> Result<bool, Fault>>(
        &self,
        recorded: &Value,
        is_result: F,
    ) -> Result<bool, Fault>
        requires { F.IsAlwaysCallable is_result }
    {
        let inputs = list(self.question, "inputs")?;
        let Ok(results) = list(recorded, "results") else {
            return Ok(false);
        };
        for (input, expected) in inputs.iter().zip(results) {
            if !is_result(input, expected)? {
                return Ok(false);
            }
        }
        Ok(inputs.len() == results.len())
    }
}

/// Whether the error is printed as the text. An asterisk matches any error of a URL.
pub fn prints(alloc: Global, error: &Error, text: &str) -> Result<bool, AllocError> {
    if text == "*" {
        return Ok(matches!(error, Error::Url(_)));
    }
    Ok(format!(in alloc; "{error}")?.as_str() == text)
}

/// Whether calls succeeded and returned true. Only memory that ran out is a fault.
pub fn succeeded(found: Result<bool, Error>) -> Result<bool, Fault> {
    match found {
        Ok(is_same) => Ok(is_same),
        Err(Error::OutOfMemory) => Err(Fault::OutOfMemory),
        Err(_) => Ok(false),
    }
}
