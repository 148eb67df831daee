//! Compares policies.

use crate::common::pattern;
use crate::policies::policy_of;
use crate::recorded::{Answer, Fault, field, is_set, text};
use crate::Case;
use std::alloc::Global;
use urlpattern_compare::USUAL_LIMITS;
use urlpattern_components::{ComponentName, Eight};
use urlpattern_engine::PatternRegexp;
use urlpattern_pattern::CompareError;
use urlpattern_policy::{DenyReason, Effect, UrlPolicy};
use urlpattern_policy_differences::{
    DifferentTexts, PolicyExcess, dead_rules, difference, is_within,
};

type Policy = UrlPolicy<PatternRegexp>;

/// Whether the difference of two policies is the recorded one, in each direction. The texts that
/// are found are decided by each policy as the difference says.
pub fn is_same(case: &Case<'_>) -> Result<bool, Fault> {
    let Answer::Ok(recorded) = case.answer else {
        return Ok(false);
    };
    let old = policy_of(case.alloc, field(case.question, "old")?)?;
    let new = policy_of(case.alloc, field(case.question, "new")?)?;
    let found = compared(difference(case.alloc, &old, &new, USUAL_LIMITS))?;
    Ok(found.same_spelling != is_set(recorded, "other_spelling")
        && is_recorded(case.alloc, &found.gained, text(recorded, "gained")?)?
        && is_recorded(case.alloc, &found.lost, text(recorded, "lost")?)?
        && are_decided(case.alloc, &found.gained, &new, &old)?
        && are_decided(case.alloc, &found.lost, &old, &new)?)
}

/// Whether what a policy allows and a pattern does not match is as recorded.
pub fn is_same_within(case: &Case<'_>) -> Result<bool, Fault> {
    let Answer::Ok(recorded) = case.answer else {
        return Ok(false);
    };
    let policy = policy_of(case.alloc, field(case.question, "policy")?)?;
    let pattern = pattern(case.alloc, field(case.question, "pattern")?)?;
    let found = compared(is_within(case.alloc, &policy, &pattern, USUAL_LIMITS))?;
    is_recorded(case.alloc, &found, text(recorded, "beyond")?)
}

/// Whether the rules of a policy that never decide are the recorded ones.
pub fn are_same_dead(case: &Case<'_>) -> Result<bool, Fault> {
    let Answer::Ok(recorded) = case.answer else {
        return Ok(false);
    };
    let policy = policy_of(case.alloc, field(case.question, "policy")?)?;
    let found = compared(dead_rules(case.alloc, &policy, USUAL_LIMITS))?;
    let Some(expected) = field(recorded, "dead")?.as_array() else {
        return Err(Fault::NoCase);
    };
    Ok(found.len() == expected.len()
        && found
            .iter()
            .zip(expected)
            .all(|(index, expected)| expected.as_u64() == Some(*index as u64)))
}

/// What was found. That memory ran out is a fault.
fn compared<T>(found: Result<T, CompareError>) -> Result<T, Fault> {
    match found {
        Ok(found) => Ok(found),
        Err(CompareError::OutOfMemory) => Err(Fault::OutOfMemory),
        Err(CompareError::NoParts) => Err(Fault::NoCase),
    }
}

/// Whether what was found is recorded: `nothing`, `unknown`, `texts`, or the rule that allows with
/// the reason to deny.
fn is_recorded(alloc: Global, found: &PolicyExcess, recorded: &str) -> Result<bool, Fault> {
    match found {
        PolicyExcess::Nothing => Ok(recorded == "nothing"),
        PolicyExcess::Unknown(_) => Ok(recorded == "unknown"),
        PolicyExcess::Texts(found) => {
            Ok(recorded == "texts" || by_rules(alloc, found)?.as_str() == recorded)
        }
    }
}

/// The rule that allows, and the reason to deny.
fn by_rules(alloc: Global, found: &DifferentTexts) -> Result<String, Fault> {
    let mut words = match found.allowing {
        Some(rule) => format!(in alloc; "allow {rule}, ")?,
        None => String::from_str(alloc, "allow, ")?,
    };
    match found.denying {
        DenyReason::Rule(rule) => words.push_str(format!(in alloc; "deny {rule}")?.as_str())?,
        DenyReason::NoRule => words.push_str("deny")?,
        DenyReason::Credentials => words.push_str("credentials")?,
        _ => return Err(Fault::NoCase),
    }
    Ok(words)
}

/// Whether the texts that were found are decided as the difference says.
fn are_decided(
    alloc: Global,
    found: &PolicyExcess,
    allowing: &Policy,
    denying: &Policy,
) -> Result<bool, Fault> {
    let PolicyExcess::Texts(found) = found else {
        return Ok(true);
    };
    let texts = Eight::from_fn(|name: ComponentName| -> &str { found.texts.get(name).as_str() });
    let allowed = decided(alloc, allowing, &texts)?;
    let denied = decided(alloc, denying, &texts)?;
    let is_denied = match found.denying {
        DenyReason::Credentials => has_credentials(&texts) && denying.options.denies_credentials,
        DenyReason::Rule(rule) => denied == (Some(rule), Effect::Deny),
        _ => denied == (None, Effect::Deny),
    };
    Ok(allowed == (found.allowing, Effect::Allow)
        && !(allowing.options.denies_credentials && has_credentials(&texts))
        && is_denied)
}

/// Whether the texts have a user name or a password.
fn has_credentials(texts: &Eight<&str>) -> bool {
    !texts.username.is_empty() || !texts.password.is_empty()
}

/// The rule that decides about eight texts, and what it decides.
fn decided(
    alloc: Global,
    policy: &Policy,
    texts: &Eight<&str>,
) -> Result<(Option<usize>, Effect), Fault> {
    match policy.rules.first_captures_of_texts(alloc, texts) {
        Ok(Some((index, effect, captures))) => {
            drop(captures);
            Ok((Some(index), *effect))
        }
        Ok(None) => Ok((None, policy.options.default)),
        Err(_) => Err(Fault::OutOfMemory),
    }
}
