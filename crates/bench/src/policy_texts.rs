//! Reads policies from texts, and writes them.

use crate::policies::are_decided;
use crate::recorded::{Answer, Fault, list, optional_text, text};
use crate::Case;
use serde_json::Value;
use std::alloc::Global;
use urlpattern_engine::PatternRegexp;
use urlpattern_policy::UrlPolicy;
use urlpattern_policy_text::{
    FaultReason, PolicyFault, PolicyTextError, WordFault, policy_of_text, text_of_policy,
};

/// Whether a text is read as a policy that decides as recorded and is written as recorded, or has
/// the recorded faults.
pub fn is_same(case: &Case<'_>) -> Result<bool, Fault> {
    let Answer::Ok(recorded) = case.answer else {
        return Ok(false);
    };
    match policy_of_text::<PatternRegexp>(case.alloc, text(case.question, "text")?) {
        Ok(policy) => Ok(recorded.get("faults").is_none()
            && are_decided(case.alloc, &policy, None, recorded)?
            && is_written(case.alloc, &policy, recorded)?),
        Err(PolicyTextError::Faults(faults)) => are_recorded(case.alloc, &faults, recorded),
        Err(PolicyTextError::OutOfMemory) => Err(Fault::OutOfMemory),
    }
}

/// Whether a policy is written as recorded, and what is written is read as a policy that decides
/// alike.
fn is_written(
    alloc: Global,
    policy: &UrlPolicy<PatternRegexp>,
    recorded: &Value,
) -> Result<bool, Fault> {
    let Ok(written) = text_of_policy(alloc, policy) else {
        return Err(Fault::OutOfMemory);
    };
    let Some(written) = written else {
        return Ok(optional_text(recorded, "written").is_none());
    };
    if optional_text(recorded, "written") != Some(written.as_str()) {
        return Ok(false);
    }
    match policy_of_text::<PatternRegexp>(alloc, &written) {
        Ok(again) => Ok(again.options == policy.options
            && again.rules.len() == policy.rules.len()
            && are_decided(alloc, &again, None, recorded)?),
        Err(PolicyTextError::Faults(_)) => Ok(false),
        Err(PolicyTextError::OutOfMemory) => Err(Fault::OutOfMemory),
    }
}

/// Whether faults are the recorded ones: each is recorded as its line, its column and its reason.
fn are_recorded(alloc: Global, faults: &[PolicyFault], recorded: &Value) -> Result<bool, Fault> {
    let expected = list(recorded, "faults")?;
    if expected.len() != faults.len() {
        return Ok(false);
    }
    for (fault, expected) in faults.iter().zip(expected) {
        let reason = match &fault.reason {
            FaultReason::Word(WordFault::UnknownWord) => "unknown word",
            FaultReason::Word(WordFault::MissingValue) => "missing value",
            FaultReason::Word(WordFault::UnknownValue) => "unknown value",
            FaultReason::Word(WordFault::UnclearValue) => "unclear value",
            FaultReason::Repeated => "repeated",
            FaultReason::Rejected(_) => "rejected",
        };
        let (line, column) = (fault.line, fault.column);
        let written = format!(in alloc; "{line}:{column} {reason}")?;
        if expected.as_str() != Some(written.as_str()) {
            return Ok(false);
        }
        // What is printed begins with the place.
        let printed = format!(in alloc; "{fault}")?;
        let place = format!(in alloc; "line {line}, column {column}: ")?;
        if !printed.as_str().starts_with(place.as_str()) {
            return Ok(false);
        }
    }
    Ok(true)
}
