//! Compares patterns, and lists and maps of them.

use crate::common::is_reach;
use crate::patterns::{are_lacking, are_lacking_by_case};
use crate::recorded::{Answer, Fault, field, has_text, list, named, optional_text, text};
use crate::{Case, given};
use regex::Regex;
use serde_json::Value;
use std::alloc::Global;
use std::cmp::Ordering;
use urlpattern::{UrlPatternList, UrlPatternMap};
use urlpattern_compare::{
    PatternCovering, PatternOverlap, PatternParts, Reach, Reason, USUAL_LIMITS, first_covering,
};
use urlpattern_components::{ComponentName, Eight};
use urlpattern_engine::PatternRegexp;
use urlpattern_init::UrlPatternInit;
use urlpattern_inputs::UrlPatternOptions;
use urlpattern_matcher::regexp::RegExp;
use urlpattern_pattern::UrlPattern;
use urlpattern_quirks::process_construct_pattern_input;
use urlpattern_syntax::Error;

/// The names of the reasons.
pub const REASONS: &[(&str, Reason)] = &[
    ("custom expression", Reason::CustomExpression),
    ("ignored case", Reason::IgnoredCase),
    ("too many", Reason::TooMany),
];

/// Whether the order of two patterns is the recorded one: -1, 0 or 1.
pub fn is_same_order(case: &Case<'_>) -> Result<bool, Fault> {
    let Answer::Ok(recorded) = case.answer else {
        return Ok(false);
    };
    let left = pattern(case.alloc, field(case.question, "left")?)?;
    let right = pattern(case.alloc, field(case.question, "right")?)?;
    let name = component(case.question)?;
    let order = UrlPattern::compare_component(name, &left, &right);
    drop(left);
    drop(right);
    Ok(recorded.as_i64() == Some(number(order?)))
}

/// Whether the results for covering and overlap are the recorded ones, over the engine that the
/// question names, or `PatternRegexp`.
pub fn is_same_covering(case: &Case<'_>) -> Result<bool, Fault> {
    match optional_text(case.question, "engine") {
        Some("regex") => is_same_covering_over::<Regex>(case),
        _ => is_same_covering_over::<PatternRegexp>(case),
    }
}

/// Whether the results for covering and overlap are the recorded ones over this engine.
fn is_same_covering_over<R: RegExp>(case: &Case<'_>) -> Result<bool, Fault> {
    let Answer::Ok(recorded) = case.answer else {
        return Ok(false);
    };
    let covers = pattern_over::<R>(case.alloc, field(case.question, "pattern")?)?;
    let asked = pattern_over::<R>(case.alloc, field(case.question, "asked")?)?;
    let covering = covers.covers(case.alloc, &asked)?;
    let overlap = covers.overlaps(case.alloc, &asked)?;
    drop(covers);
    drop(asked);
    Ok(
        is_covering(covering, field(recorded, "covers")?)?
            && is_overlap(overlap, field(recorded, "overlaps")?)?,
    )
}

/// Whether each pattern of a list, and of a map, is reached as recorded: the first match of some
/// texts, or covered by those at the recorded indices, or it is not known.
pub fn is_same_reach(case: &Case<'_>) -> Result<bool, Fault> {
    let Answer::Ok(recorded) = case.answer else {
        return Ok(false);
    };
    let expected = list(recorded, "found")?;
    let given = list(case.question, "patterns")?;
    let patterns = listed(case.alloc, given)?;
    let found = patterns.reach_of_each(case.alloc, USUAL_LIMITS)?;
    let is_same = are_recorded(&found, expected)? && are_first(case.alloc, &patterns, &found)?;
    drop(patterns);
    drop(found);
    let map = mapped(case.alloc, given)?;
    let of_map = map.reach_of_each(case.alloc, USUAL_LIMITS);
    drop(map);
    Ok(is_same && are_recorded(&of_map?, expected)?)
}

/// Whether the components without a meaning are the recorded ones.
pub fn is_same_meaning(case: &Case<'_>) -> Result<bool, Fault> {
    let Answer::Ok(recorded) = case.answer else {
        return Ok(false);
    };
    let lacking = list(recorded, "lacking")?;
    let by_case = match list(recorded, "lackingByCase") {
        Ok(by_case) => by_case,
        Err(_) => lacking,
    };
    let pattern = pattern(case.alloc, field(case.question, "pattern")?)?;
    let is_same = are_lacking(case.alloc, &pattern, lacking);
    let is_same_by_case = are_lacking_by_case(case.alloc, &pattern, by_case);
    drop(pattern);
    Ok(is_same? && is_same_by_case?)
}

/// The list of patterns.
pub fn listed(alloc: Global, given: &[Value]) -> Result<UrlPatternList<PatternRegexp>, Fault> {
    let mut patterns = UrlPatternList::new(alloc);
    for fields in given {
        made(patterns.try_push(pattern(alloc, fields)?))?;
    }
    Ok(patterns)
}

/// The map of patterns, each with its index.
pub fn mapped(alloc: Global, given: &[Value]) -> Result<UrlPatternMap<usize, PatternRegexp>, Fault> {
    let mut patterns = UrlPatternMap::new(alloc);
    for (index, fields) in given.iter().enumerate() {
        made(patterns.try_insert(pattern(alloc, fields)?, index))?;
    }
    Ok(patterns)
}

/// Whether each pattern is reached as recorded.
fn are_recorded(found: &[Reach], expected: &[Value]) -> Result<bool, Fault> {
    if found.len() != expected.len() {
        return Ok(false);
    }
    for (found, expected) in found.iter().zip(expected) {
        if !is_reach(found, expected)? {
            return Ok(false);
        }
    }
    Ok(true)
}

/// Whether the texts of each pattern that is reached are first matched by it, and `first_covering`
/// finds the single pattern that covers another.
fn are_first(
    alloc: Global,
    patterns: &UrlPatternList<PatternRegexp>,
    found: &[Reach],
) -> Result<bool, Fault> {
    let parts: Vec<&PatternParts> = patterns.iter().flat_map(UrlPattern::parts).collect(alloc)?;
    for (index, found) in found.iter().enumerate() {
        let Some(asked) = parts.get(index) else {
            return Ok(false);
        };
        let is_as_found = match found {
            Reach::First(texts) => is_first(alloc, patterns, index, texts)?,
            Reach::Never(by) => {
                by.len() != 1 || first_covering(alloc, &parts, asked)? == by.first().copied()
            }
            Reach::Unknown(_) => true,
        };
        if !is_as_found {
            return Ok(false);
        }
    }
    Ok(true)
}

/// Whether the first pattern that matches these texts is the one at the index.
fn is_first(
    alloc: Global,
    patterns: &UrlPatternList<PatternRegexp>,
    index: usize,
    texts: &Eight<String>,
) -> Result<bool, Fault> {
    let texts = Eight::from_fn(|name: ComponentName| -> &str { texts.get(name).as_str() });
    for (earlier, pattern) in patterns.iter().enumerate() {
        match pattern.test_texts(alloc, &texts) {
            Ok(true) => return Ok(earlier == index),
            Ok(false) => {}
            Err(_) => return Err(Fault::OutOfMemory),
        }
    }
    Ok(false)
}

/// Whether the covering is the recorded one: `covered`, the component in which the patterns differ
/// with the length of its text, or the component that is not known with the reason.
fn is_covering(covering: PatternCovering, recorded: &Value) -> Result<bool, Fault> {
    match covering {
        PatternCovering::Covered => Ok(recorded.as_str() == Some("covered")),
        PatternCovering::NotCovered(parting) => {
            let name = parting.component;
            let Some(text) = parting.texts.get(name) else {
                return Ok(false);
            };
            let length = text.chars().count();
            Ok(
                has_text(recorded, "component", name.as_str())
                    && recorded.get("length").and_then(Value::as_u64) == Some(length as u64),
            )
        }
        PatternCovering::Unknown(name, reason) => is_unknown(name, reason, recorded),
    }
}

/// Whether the overlap is the recorded one: `apart`, the length of a pathname that both match, or
/// `same` if none is known and both have the same parts, or the component that is not known with
/// the reason.
fn is_overlap(overlap: PatternOverlap, recorded: &Value) -> Result<bool, Fault> {
    match overlap {
        PatternOverlap::Apart => Ok(recorded.as_str() == Some("apart")),
        PatternOverlap::Common(texts) => match texts.get(ComponentName::Pathname) {
            Some(text) => Ok(recorded.as_u64() == Some(text.chars().count() as u64)),
            None => Ok(recorded.as_str() == Some("same")),
        },
        PatternOverlap::Unknown(name, reason) => is_unknown(name, reason, recorded),
    }
}

/// Whether a component and a reason are recorded.
fn is_unknown(name: ComponentName, reason: Reason, recorded: &Value) -> Result<bool, Fault> {
    let Some(expected) = optional_text(recorded, "reason") else {
        return Ok(false);
    };
    Ok(named(REASONS, expected)? == reason && has_text(recorded, "unknown", name.as_str()))
}

/// The pattern of a question.
fn pattern(alloc: Global, fields: &Value) -> Result<UrlPattern<PatternRegexp>, Fault> {
    pattern_over(alloc, fields)
}

/// The pattern of a question, over this engine.
fn pattern_over<R: RegExp>(alloc: Global, fields: &Value) -> Result<UrlPattern<R>, Fault> {
    let options = given::options(alloc, fields)?;
    let init = init(alloc, fields)?;
    made(UrlPattern::parse(alloc, init, options))
}

/// The init of a pattern.
fn init(alloc: Global, fields: &Value) -> Result<UrlPatternInit, Fault> {
    let input = given::input(alloc, fields)?;
    made(process_construct_pattern_input(alloc, input, None))
}

/// The value that was parsed. The patterns of a question are valid.
fn made<T: Drop>(found: Result<T, Error>) -> Result<T, Fault> {
    match found {
        Ok(value) => Ok(value),
        Err(Error::OutOfMemory) => Err(Fault::OutOfMemory),
        Err(_) => Err(Fault::NoCase),
    }
}

/// The component of a question.
fn component(question: &Value) -> Result<ComponentName, Fault> {
    ComponentName::from_name(text(question, "component")?).ok_or(Fault::NoCase)
}

/// The number of an order.
fn number(order: Ordering) -> i64 {
    match order {
        Ordering::Less => -1,
        Ordering::Equal => 0,
        Ordering::Greater => 1,
    }
}
