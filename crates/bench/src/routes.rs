//! Adds the static routes of a service worker, and decides about requests.

use crate::recorded::{Answer, Fault, is_set, list, optional_text, text};
use crate::{Case, given};
use serde_json::Value;
use std::alloc::Global;
use url::Url;
use urlpattern_engine::PatternRegexp;
use urlpattern_route_rules::{PatternFault, RouteFault, RouterFetch, RouterRules, RoutesError};
use urlpattern_routes::{RouterLimits, RouterSource};
use urlpattern_syntax::Error;

/// Whether each call is accepted or rejected as recorded, as many rules are kept, and each request
/// has the recorded rule and source.
pub fn is_same(case: &Case<'_>) -> Result<bool, Fault> {
    let Answer::Ok(recorded) = case.answer else {
        return Ok(false);
    };
    let (alloc, question) = (case.alloc, case.question);
    let script = url(alloc, text(question, "script")?)?;
    let mut rules = RouterRules::<PatternRegexp>::new(alloc, script);
    let mut limits = RouterLimits::new();
    limits.has_handler = !is_set(question, "no_handler");
    for (call, answer) in list(question, "calls")?.iter().zip(list(recorded, "answers")?) {
        let added = rules.add(alloc, call, &limits);
        if !is_answer(alloc, added, answer)? {
            return Ok(false);
        }
    }
    let kept = recorded.get("kept").and_then(Value::as_u64);
    if kept != Some(rules.table.rules.len() as u64) {
        return Ok(false);
    }
    for request in list(recorded, "decisions")? {
        if !is_decided(alloc, &rules, request)? {
            return Ok(false);
        }
    }
    Ok(true)
}

/// The URL of a text.
pub fn url(alloc: Global, text: &str) -> Result<Url, Fault> {
    match given::url(alloc, text) {
        Ok(url) => Ok(url),
        Err(Error::OutOfMemory) => Err(Fault::OutOfMemory),
        Err(_) => Err(Fault::NoCase),
    }
}

/// Whether a call has the recorded answer: null if it is accepted, or one of its faults.
fn is_answer(
    alloc: Global,
    added: Result<(), RoutesError>,
    answer: &Value,
) -> Result<bool, Fault> {
    let faults = match added {
        Ok(()) => return Ok(answer.is_null()),
        Err(RoutesError::OutOfMemory) => return Err(Fault::OutOfMemory),
        Err(RoutesError::Rejected(faults)) => faults,
    };
    for fault in &faults {
        if answer.as_str() == Some(written(alloc, fault)?.as_str()) {
            return Ok(true);
        }
    }
    Ok(false)
}

/// A fault in words: the index of the rule, the member or component, and the kind.
fn written(alloc: Global, fault: &RouteFault) -> Result<String, Fault> {
    Ok(match fault {
        RouteFault::TooManyRules => String::from_str(alloc, "TooManyRules")?,
        RouteFault::Member(rule, fault) => {
            format!(in alloc; "{rule} {:?} {:?}", fault.member, fault.reason)?
        }
        RouteFault::Pattern(rule, PatternFault::Rejected(_)) => format!(in alloc; "{rule} Rejected")?,
        RouteFault::Pattern(rule, PatternFault::CustomExpression(name)) => {
            format!(in alloc; "{rule} CustomExpression {name:?}")?
        }
        RouteFault::Pattern(rule, PatternFault::Name(name)) => {
            format!(in alloc; "{rule} Name {name:?}")?
        }
    })
}

/// Whether a request has the recorded rule and source.
fn is_decided(
    alloc: Global,
    rules: &RouterRules<PatternRegexp>,
    request: &Value,
) -> Result<bool, Fault> {
    let fetch = RouterFetch {
        url: &url(alloc, text(request, "url")?)?,
        method: text(request, "method")?,
        mode: text(request, "mode")?,
        destination: text(request, "destination")?,
        is_running: !is_set(request, "stopped"),
    };
    let Ok(found) = rules.decide(alloc, &fetch) else {
        return Err(Fault::OutOfMemory);
    };
    let recorded = request.get("rule").and_then(Value::as_u64);
    Ok(match found {
        None => recorded.is_none(),
        Some((index, rule)) => {
            recorded == Some(index as u64)
                && match &rule.source {
                    RouterSource::NamedCache(name) => {
                        optional_text(request, "cache") == Some(name.as_str())
                    }
                    source => optional_text(request, "source") == Some(source.as_str()),
                }
        }
    })
}
