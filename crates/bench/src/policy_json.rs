//! Reads policies from JSON, and writes them.

use crate::policies::are_decided;
use crate::recorded::{Answer, Fault, field, list};
use crate::Case;
use serde_json::Value;
use std::alloc::Global;
use urlpattern_engine::PatternRegexp;
use urlpattern_policy::UrlPolicy;
use urlpattern_policy_text::{
    JsonFault, JsonPlace, JsonReason, PolicyJsonError, ShapeFault, json_of_policy, policy_of_json,
};

/// Whether JSON is read as a policy that decides as recorded and is written as recorded, or has the
/// recorded faults.
pub fn is_same(case: &Case<'_>) -> Result<bool, Fault> {
    let Answer::Ok(recorded) = case.answer else {
        return Ok(false);
    };
    match policy_of_json::<PatternRegexp>(case.alloc, field(case.question, "json")?) {
        Ok(policy) => Ok(recorded.get("faults").is_none()
            && are_decided(case.alloc, &policy, None, recorded)?
            && is_written(case.alloc, &policy, recorded)?),
        Err(PolicyJsonError::Faults(faults)) => are_recorded(case.alloc, &faults, recorded),
        Err(PolicyJsonError::OutOfMemory) => Err(Fault::OutOfMemory),
    }
}

/// Whether a policy is written as recorded, and what is written is read as a policy that decides
/// alike and is written alike.
fn is_written(
    alloc: Global,
    policy: &UrlPolicy<PatternRegexp>,
    recorded: &Value,
) -> Result<bool, Fault> {
    let Some(written) = written(alloc, policy)? else {
        return Ok(recorded.get("written").is_none());
    };
    if recorded.get("written") != Some(&written) {
        return Ok(false);
    }
    match policy_of_json::<PatternRegexp>(alloc, &written) {
        Ok(again) => Ok(again.options == policy.options
            && again.rules.len() == policy.rules.len()
            && are_decided(alloc, &again, None, recorded)?
            && self::written(alloc, &again)? == Some(written)),
        Err(PolicyJsonError::Faults(_)) => Ok(false),
        Err(PolicyJsonError::OutOfMemory) => Err(Fault::OutOfMemory),
    }
}

/// The JSON of a policy.
fn written(alloc: Global, policy: &UrlPolicy<PatternRegexp>) -> Result<Option<Value>, Fault> {
    json_of_policy(alloc, policy).map_err(|_| Fault::OutOfMemory)
}

/// Whether faults are the recorded ones: each is recorded as its place and its reason.
fn are_recorded(alloc: Global, faults: &[JsonFault], recorded: &Value) -> Result<bool, Fault> {
    let expected = list(recorded, "faults")?;
    if expected.len() != faults.len() {
        return Ok(false);
    }
    for (fault, expected) in faults.iter().zip(expected) {
        let place = match &fault.place {
            JsonPlace::Whole => format!(in alloc; "policy")?,
            JsonPlace::Member(name) => format!(in alloc; "{name}")?,
            JsonPlace::Rule(index) => format!(in alloc; "rules[{index}]")?,
        };
        let reason = words(&fault.reason);
        let written = format!(in alloc; "{place} {reason}")?;
        if expected.as_str() != Some(written.as_str()) {
            return Ok(false);
        }
        // What is printed begins with the place.
        let printed = format!(in alloc; "{fault}")?;
        let front = format!(in alloc; "{place}: ")?;
        if !printed.as_str().starts_with(front.as_str()) {
            return Ok(false);
        }
    }
    Ok(true)
}

/// A reason as it is recorded.
fn words(reason: &JsonReason) -> &'static str {
    match reason {
        JsonReason::Shape(ShapeFault::NotAnObject) => "not an object",
        JsonReason::Shape(ShapeFault::UnknownMember) => "unknown member",
        JsonReason::Shape(ShapeFault::NotAText) => "not a text",
        JsonReason::Shape(ShapeFault::UnknownValue) => "unknown value",
        JsonReason::Shape(ShapeFault::NotAnArray) => "not an array",
        JsonReason::Shape(ShapeFault::NotARule) => "not a rule",
        JsonReason::Shape(ShapeFault::NotAPattern) => "not a pattern",
        JsonReason::Rejected(_) => "rejected",
    }
}
