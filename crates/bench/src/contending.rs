//! Finds the patterns of lists and maps that contend for the same texts.

use crate::Case;
use crate::recorded::{Answer, Fault, list};
use crate::rules::{listed, mapped};
use serde_json::Value;
use std::alloc::Global;
use urlpattern::UrlPatternList;
use urlpattern::rules::{Contended, Contention};
use urlpattern_compare::USUAL_LIMITS;
use urlpattern_components::{ComponentName, Eight};
use urlpattern_engine::PatternRegexp;

/// Whether the pairs of patterns of a list, and of a map, that contend are those at the recorded
/// indices, with texts that both match, or not known, as recorded.
pub fn is_same(case: &Case<'_>) -> Result<bool, Fault> {
    let Answer::Ok(recorded) = case.answer else {
        return Ok(false);
    };
    let expected = list(recorded, "pairs")?;
    let given = list(case.question, "patterns")?;
    let patterns = listed(case.alloc, given)?;
    let found = patterns.contending(case.alloc, USUAL_LIMITS)?;
    let is_same = are_recorded(&found, expected) && are_matched(case.alloc, &patterns, &found)?;
    drop(patterns);
    drop(found);
    let map = mapped(case.alloc, given)?;
    let of_map = map.contending(case.alloc, USUAL_LIMITS);
    drop(map);
    Ok(is_same && are_recorded(&of_map?, expected))
}

/// Whether the pairs are the recorded ones.
fn are_recorded(found: &[Contention], expected: &[Value]) -> bool {
    if found.len() != expected.len() {
        return false;
    }
    for (found, expected) in found.iter().zip(expected) {
        let name = match found.found {
            Contended::Texts(_) => "texts",
            Contended::Unknown(_) => "unknown",
        };
        let is_same = is_number(expected, 0, found.first)
            && is_number(expected, 1, found.second)
            && expected.get(2).and_then(Value::as_str) == Some(name);
        if !is_same {
            return false;
        }
    }
    true
}

/// Whether the value at an index of an array is the number.
fn is_number(array: &Value, index: usize, number: usize) -> bool {
    array.get(index).and_then(Value::as_u64) == Some(number as u64)
}

/// Whether both patterns of each pair match the texts for which they contend.
fn are_matched(
    alloc: Global,
    patterns: &UrlPatternList<PatternRegexp>,
    found: &[Contention],
) -> Result<bool, Fault> {
    for pair in found {
        if let Contended::Texts(texts) = &pair.found {
            let is_matched = is_matched(alloc, patterns, pair.first, texts)?
                && is_matched(alloc, patterns, pair.second, texts)?;
            if !is_matched {
                return Ok(false);
            }
        }
    }
    Ok(true)
}

/// Whether the pattern at an index matches the texts.
fn is_matched(
    alloc: Global,
    patterns: &UrlPatternList<PatternRegexp>,
    index: usize,
    texts: &Eight<String>,
) -> Result<bool, Fault> {
    let texts = Eight::from_fn(|name: ComponentName| -> &str { texts.get(name).as_str() });
    match patterns.get(index) {
        Some(pattern) => match pattern.test_texts(alloc, &texts) {
            Ok(is_matched) => Ok(is_matched),
            Err(_) => Err(Fault::OutOfMemory),
        },
        None => Ok(false),
    }
}
