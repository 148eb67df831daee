//! Asks what static routes decide.

use crate::recorded::{Answer, Fault, list, optional_text, text};
use crate::{Case, routes};
use serde_json::Value;
use std::alloc::Global;
use urlpattern_compare::USUAL_LIMITS;
use urlpattern_engine::PatternRegexp;
use urlpattern_pattern::CompareError;
use urlpattern_route_analysis::{
    Analysis, CaseLimits, Decisions, Formula, JointDecision, route_attributes,
};
use urlpattern_route_rules::{RouterFetch, RouterRules, RoutesError};
use urlpattern_routes::RouterLimits;
use urlpattern_urls::CommonUrl;

/// More cases than any row has.
const LIMITS: CaseLimits = CaseLimits {
    cases: 10_000,
    question: USUAL_LIMITS,
};

type Rules = RouterRules<PatternRegexp>;

/// Whether two lists of rules decide about the same request by the recorded rules, and about each
/// request that is found.
pub fn is_same(case: &Case<'_>) -> Result<bool, Fault> {
    let Answer::Ok(recorded) = case.answer else {
        return Ok(false);
    };
    let old = rules_of(case, list(case.question, "old")?)?;
    let new = rules_of(case, list(case.question, "new")?)?;
    let attributes = route_attributes();
    let mut analysis = Analysis::new(case.alloc, &attributes, LIMITS)?;
    let ones = formulas(&mut analysis, &old)?;
    let others = formulas(&mut analysis, &new)?;
    let decisions = analysis.decisions(&ones, &others)?;
    let pairs = list(recorded, "pairs")?;
    if !decisions.is_complete || decisions.found.len() != pairs.len() {
        return Ok(false);
    }
    for found in &decisions.found {
        let is_pair = |pair: &Value| is_index(pair, 0, found.one) && is_index(pair, 1, found.other);
        if !pairs.iter().any(is_pair)
            || decided(case.alloc, &old, found)? != Some(found.one)
            || decided(case.alloc, &new, found)? != Some(found.other)
        {
            return Ok(false);
        }
    }
    Ok(true)
}

/// Whether the recorded rules never decide, with the recorded ones that take all, and the recorded
/// ones are met outside of the scope only.
pub fn is_same_reach(case: &Case<'_>) -> Result<bool, Fault> {
    let Answer::Ok(recorded) = case.answer else {
        return Ok(false);
    };
    let rules = rules_of(case, list(case.question, "rules")?)?;
    let attributes = route_attributes();
    let mut analysis = Analysis::new(case.alloc, &attributes, LIMITS)?;
    let formulas = formulas(&mut analysis, &rules)?;
    for (index, takers) in list(recorded, "takers")?.iter().enumerate() {
        let (all, one) = (&formulas[..=index], &formulas[index..=index]);
        let decisions = analysis.decisions(all, one)?;
        if !has_takers(case.alloc, &rules, &decisions, index, takers)? {
            return Ok(false);
        }
    }
    let Some(scope) = optional_text(case.question, "scope") else {
        return Ok(true);
    };
    let outside = [analysis.outside(&routes::url(case.alloc, scope)?)?];
    let decisions = analysis.decisions(&formulas, &outside)?;
    let recorded = list(recorded, "outside")?;
    for index in 0..formulas.len() {
        let is_recorded = recorded.iter().any(|each| each.as_u64() == Some(index as u64));
        let (inside, outside) = (has(&decisions, index, None), has(&decisions, index, Some(0)));
        if is_recorded != (outside && !inside) {
            return Ok(false);
        }
    }
    Ok(decisions.is_complete)
}

/// Whether the rule at the index decides about a request if `takers` is null, or else these rules
/// before it about each request of which its condition holds.
fn has_takers(
    alloc: Global,
    rules: &Rules,
    decisions: &Decisions,
    index: usize,
    takers: &Value,
) -> Result<bool, Fault> {
    let mut count = 0;
    for found in &decisions.found {
        if found.other.is_none() {
            continue;
        }
        if decided(alloc, rules, found)? != Some(found.one) {
            return Ok(false);
        }
        if found.one != Some(index) {
            count += 1;
            let is_taker = |taker: &Value| taker.as_u64() == found.one.map(|one| one as u64);
            if !takers.is_null() && !takers.as_array().is_some_and(|all| all.iter().any(is_taker)) {
                return Ok(false);
            }
        }
    }
    let is_reached = has(decisions, index, Some(0));
    Ok(decisions.is_complete
        && is_reached == takers.is_null()
        && (is_reached || takers.as_array().map(|all| all.len()) == Some(count)))
}

/// Whether these two rules decide about a request that is found.
fn has(decisions: &Decisions, one: usize, other: Option<usize>) -> bool {
    decisions.found.iter().any(|found| found.one == Some(one) && found.other == other)
}

/// The rule that decides about the request that is found. `None`: no URL is known.
fn decided(
    alloc: Global,
    rules: &Rules,
    found: &JointDecision,
) -> Result<Option<Option<usize>>, Fault> {
    let CommonUrl::Url(url) = &found.url else {
        return Ok(None);
    };
    let fetch = RouterFetch {
        url,
        method: &found.names[0],
        mode: &found.names[1],
        destination: &found.names[2],
        is_running: found.names[3].as_str() == "running",
    };
    match rules.decide(alloc, &fetch) {
        Ok(decided) => Ok(Some(decided.map(|(index, _)| index))),
        Err(_) => Err(Fault::OutOfMemory),
    }
}

/// Whether the member of a pair is this index, or null.
fn is_index(pair: &Value, member: usize, index: Option<usize>) -> bool {
    let value = pair.as_array().and_then(|pair| pair.get(member));
    value.is_some_and(|value| value.as_u64() == index.map(|index| index as u64))
}

/// The rules, each added by itself.
fn rules_of(case: &Case<'_>, given: &[Value]) -> Result<Rules, Fault> {
    let script = routes::url(case.alloc, text(case.question, "script")?)?;
    let mut rules = Rules::new(case.alloc, script);
    for rule in given {
        match rules.add(case.alloc, rule, &RouterLimits::new()) {
            Ok(()) => {}
            Err(RoutesError::OutOfMemory) => return Err(Fault::OutOfMemory),
            Err(RoutesError::Rejected(_)) => return Err(Fault::NoCase),
        }
    }
    Ok(rules)
}

/// The formulas of the rules.
fn formulas(analysis: &mut Analysis<'_>, rules: &Rules) -> Result<Vec<Formula>, Fault> {
    match analysis.formulas(&rules.table) {
        Ok(formulas) => Ok(formulas),
        Err(CompareError::NoParts) => Err(Fault::NoCase),
        Err(CompareError::OutOfMemory) => Err(Fault::OutOfMemory),
    }
}
