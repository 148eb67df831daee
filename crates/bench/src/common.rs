//! Finds texts that some patterns match, and others do not.

use crate::common_urls::{is_same_reach, is_same_url};
use crate::patterns::built;
use crate::recorded::{Answer, Fault, field, has_text, list, named, optional_text};
use crate::rules::REASONS;
use crate::Case;
use regex::Regex;
use serde_json::Value;
use std::alloc::Global;
use urlpattern_compare::{
    Common, Doubt, Lack, Limits, PatternAutomata, Reach, find_common, reach_of,
};
use urlpattern_components::{ComponentName, Eight};
use urlpattern_engine::PatternRegexp;
use urlpattern_matcher::regexp::RegExp;
use urlpattern_pattern::UrlPattern;
use urlpattern_syntax::Error;

/// Limits that no question of the rows reaches.
pub const LIMITS: Limits = Limits {
    sets: 10_000,
    texts: 1_000,
};

/// Whether the texts that each pattern of one list matches, and no pattern of another, are as many
/// characters as recorded, and the patterns do match them so; or whether there are none, or it is
/// not known for the recorded reason.
pub fn is_same_common(case: &Case<'_>) -> Result<bool, Fault> {
    let Answer::Ok(recorded) = case.answer else {
        return Ok(false);
    };
    let all_of = asked_automata(case, "all_of")?;
    let none_of = asked_automata(case, "none_of")?;
    let all: Vec<&PatternAutomata> = all_of.iter().collect(case.alloc)?;
    let none: Vec<&PatternAutomata> = none_of.iter().collect(case.alloc)?;
    if case.question.get("real").is_some() {
        return is_same_url(case, &all, &none, recorded);
    }
    let found = find_common(case.alloc, &all, &none, LIMITS)?;
    drop(all);
    drop(none);
    drop(all_of);
    drop(none_of);
    match found {
        Common::Texts(texts) => Ok(is_length(&texts, recorded) && are_matched(case, &texts)?),
        Common::Nothing => Ok(recorded.as_str() == Some("nothing")),
        Common::Unknown(Doubt::AllOf(lack)) => is_lack(lack, "all_of", recorded),
        Common::Unknown(Doubt::NoneOf(lack)) => is_lack(lack, "none_of", recorded),
        Common::Unknown(_) => Ok(false),
    }
}

/// Whether the patterns of a list that cover another together, and none of which can be left out,
/// are those at the recorded indices; or whether none do, or none are known to, as recorded.
pub fn is_same_together(case: &Case<'_>) -> Result<bool, Fault> {
    let Answer::Ok(recorded) = case.answer else {
        return Ok(false);
    };
    let patterns = automata(case.alloc, list(case.question, "patterns")?)?;
    let Some(parts) = pattern(case.alloc, field(case.question, "asked")?)?.into_parts() else {
        return Err(Fault::NoCase);
    };
    let asked = PatternAutomata::new(case.alloc, parts)?;
    let all: Vec<&PatternAutomata> = patterns.iter().collect(case.alloc)?;
    if case.question.get("real").is_some() {
        return is_same_reach(case, &all, &asked, field(recorded, "by")?);
    }
    let found = reach_of(case.alloc, &all, &asked, LIMITS);
    drop(all);
    drop(asked);
    drop(patterns);
    is_reach(&found?, field(recorded, "by")?)
}

/// Whether a pattern is reached as recorded: `"reached"`, `"unknown"`, or the indices of the
/// patterns that cover it together.
pub fn is_reach(found: &Reach, recorded: &Value) -> Result<bool, Fault> {
    match found {
        Reach::First(_) => Ok(recorded.as_str() == Some("reached")),
        Reach::Unknown(_) => Ok(recorded.as_str() == Some("unknown")),
        Reach::Never(by) => {
            Ok(are_indices(by, recorded))
        }
    }
}

/// Whether the indices are the recorded ones.
pub fn are_indices(by: &[usize], recorded: &Value) -> bool {
    let Some(expected) = recorded.as_array() else {
        return false;
    };
    by.len() == expected.len()
        && by
            .iter()
            .zip(expected)
            .all(|(index, expected)| expected.as_u64() == Some(*index as u64))
}

/// The automata of the patterns of a list, over the engine that the question names, or
/// `PatternRegexp`.
fn asked_automata(case: &Case<'_>, name: &str) -> Result<Vec<PatternAutomata>, Fault> {
    let given = list(case.question, name)?;
    match optional_text(case.question, "engine") {
        Some("regex") => automata_over::<Regex>(case.alloc, given),
        _ => automata(case.alloc, given),
    }
}

/// The automata of patterns.
fn automata(alloc: Global, given: &[Value]) -> Result<Vec<PatternAutomata>, Fault> {
    automata_over::<PatternRegexp>(alloc, given)
}

/// The automata of patterns over this engine.
fn automata_over<R: RegExp>(
    alloc: Global,
    given: &[Value],
) -> Result<Vec<PatternAutomata>, Fault> {
    let mut found = Vec::new(alloc);
    for fields in given {
        let Some(parts) = pattern_over::<R>(alloc, fields)?.into_parts() else {
            return Err(Fault::NoCase);
        };
        if found.push(PatternAutomata::new(alloc, parts)?).is_err() {
            return Err(Fault::OutOfMemory);
        }
    }
    Ok(found)
}

/// The pattern of a text or an init, which is valid.
pub fn pattern(alloc: Global, fields: &Value) -> Result<UrlPattern<PatternRegexp>, Fault> {
    pattern_over(alloc, fields)
}

/// The pattern of a text or an init, which is valid, over this engine.
fn pattern_over<R: RegExp>(alloc: Global, fields: &Value) -> Result<UrlPattern<R>, Fault> {
    match built::<R>(alloc, fields)? {
        Ok(pattern) => Ok(pattern),
        Err(Error::OutOfMemory) => Err(Fault::OutOfMemory),
        Err(_) => Err(Fault::NoCase),
    }
}

/// Whether the eight texts have as many characters together as recorded.
fn is_length(texts: &Eight<String>, recorded: &Value) -> bool {
    let mut length = 0;
    for name in ComponentName::all() {
        length += texts.get(name).chars().count();
    }
    recorded.get("length").and_then(Value::as_u64) == Some(length as u64)
}

/// Whether each pattern of `all_of` matches the texts, and no pattern of `none_of` does.
fn are_matched(case: &Case<'_>, texts: &Eight<String>) -> Result<bool, Fault> {
    are_all_matched(case, &Eight::from_fn(|name: ComponentName| -> &str {
        texts.get(name).as_str()
    }))
}

/// Whether each pattern of `all_of` matches the texts, and no pattern of `none_of` does.
pub fn are_all_matched(case: &Case<'_>, texts: &Eight<&str>) -> Result<bool, Fault> {
    for fields in list(case.question, "all_of")? {
        if !is_matched(case.alloc, fields, texts)? {
            return Ok(false);
        }
    }
    for fields in list(case.question, "none_of")? {
        if is_matched(case.alloc, fields, texts)? {
            return Ok(false);
        }
    }
    Ok(true)
}

/// Whether a pattern matches the texts.
fn is_matched(alloc: Global, fields: &Value, texts: &Eight<&str>) -> Result<bool, Fault> {
    let pattern = pattern(alloc, fields)?;
    let found = pattern.test_texts(alloc, texts);
    drop(pattern);
    match found {
        Ok(is_match) => Ok(is_match),
        Err(_) => Err(Fault::OutOfMemory),
    }
}

/// Whether the component without automaton is the recorded one.
fn is_lack(lack: Lack, list: &str, recorded: &Value) -> Result<bool, Fault> {
    if recorded.get("unknown").is_none() {
        return Ok(false);
    }
    let reason = field(recorded, "reason")?.as_str().ok_or(Fault::NoCase)?;
    Ok(has_text(recorded, "unknown", lack.component.as_str())
        && has_text(recorded, "in", list)
        && recorded.get("pattern").and_then(Value::as_u64) == Some(lack.pattern as u64)
        && named(REASONS, reason)? == lack.reason)
}
