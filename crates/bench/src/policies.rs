//! Decides about texts by a policy.

use crate::patterns::built;
use crate::recorded::{Answer, Fault, field, has_text, is_set, list, optional_text, text};
use crate::{Case, given};
use serde_json::Value;
use std::alloc::Global;
use url::Url;
use urlpattern_engine::PatternRegexp;
use urlpattern_pattern::UrlPattern;
use urlpattern_policy::{Decision, DenyReason, Effect, UrlPolicy, is_plain_pattern};
use urlpattern_syntax::Error;

/// Whether a policy decides about each text of the question as recorded. A decision is recorded as
/// the index of the rule with its effect, or the reason in words.
pub fn is_same(case: &Case<'_>) -> Result<bool, Fault> {
    let Answer::Ok(recorded) = case.answer else {
        return Ok(false);
    };
    let policy = policy_of(case.alloc, case.question)?;
    let base = base(case.alloc, case.question)?;
    are_decided(case.alloc, &policy, base.as_ref(), recorded)
}

/// Whether a policy decides about texts as recorded, and alike about their URLs.
pub fn are_decided(
    alloc: Global,
    policy: &UrlPolicy<PatternRegexp>,
    base: Option<&Url>,
    recorded: &Value,
) -> Result<bool, Fault> {
    for pair in list(recorded, "decisions")? {
        let decision = policy.decide(alloc, text(pair, "of")?, base);
        if !is_recorded(alloc, decision, text(pair, "is")?)? {
            return Ok(false);
        }
        if !agrees(alloc, policy, base, text(pair, "of")?, decision)? {
            return Ok(false);
        }
    }
    Ok(true)
}

/// The policy that an object describes.
pub fn policy_of(alloc: Global, question: &Value) -> Result<UrlPolicy<PatternRegexp>, Fault> {
    let mut policy = UrlPolicy::new(alloc);
    policy.options.plain_spelling = !is_set(question, "as_spelled");
    policy.options.denies_credentials = is_set(question, "denies_credentials");
    if has_text(question, "default", "allow") {
        policy.options.default = Effect::Allow;
    }
    for rule in list(question, "rules")? {
        let added = match optional_text(rule, "allow") {
            Some(_) => policy.allow(pattern(alloc, rule, "allow")?),
            None => policy.deny(pattern(alloc, rule, "deny")?),
        };
        if added.is_err() {
            return Err(Fault::OutOfMemory);
        }
    }
    Ok(policy)
}

/// The pattern of a rule, a constructor string in plain spelling, unless the rule says otherwise.
fn pattern(
    alloc: Global,
    rule: &Value,
    effect: &str,
) -> Result<UrlPattern<PatternRegexp>, Fault> {
    let options = given::options(alloc, rule)?;
    match UrlPattern::from_constructor_string(alloc, text(rule, effect)?, None, options) {
        Ok(pattern) if is_plain_pattern(&pattern) != is_set(rule, "not_plain") => Ok(pattern),
        Ok(_) => Err(Fault::NoCase),
        Err(Error::OutOfMemory) => Err(Fault::OutOfMemory),
        Err(_) => Err(Fault::NoCase),
    }
}

/// The base URL of a question, if it has one.
fn base(alloc: Global, question: &Value) -> Result<Option<Url>, Fault> {
    let Some(text) = optional_text(question, "base") else {
        return Ok(None);
    };
    match given::url(alloc, text) {
        Ok(url) => Ok(Some(url)),
        Err(Error::OutOfMemory) => Err(Fault::OutOfMemory),
        Err(_) => Err(Fault::NoCase),
    }
}

/// Whether a decision is the recorded one. That memory ran out is a fault.
fn is_recorded(alloc: Global, decision: Decision, recorded: &str) -> Result<bool, Fault> {
    let written = match decision {
        Decision::Allow(Some(rule)) => format!(in alloc; "allow {rule}")?,
        Decision::Allow(None) => String::from_str(alloc, "allow")?,
        Decision::Deny(DenyReason::Rule(rule)) => format!(in alloc; "deny {rule}")?,
        Decision::Deny(DenyReason::NoRule) => String::from_str(alloc, "deny")?,
        Decision::Deny(DenyReason::NotAUrl(error)) => format!(in alloc; "no URL: {error}")?,
        Decision::Deny(DenyReason::TooLong) => String::from_str(alloc, "too long")?,
        Decision::Deny(DenyReason::Credentials) => String::from_str(alloc, "credentials")?,
        Decision::Deny(DenyReason::OutOfMemory) => return Err(Fault::OutOfMemory),
    };
    Ok(written.as_str() == recorded)
}

/// Whether the URL of the text, if it is one, is decided alike.
fn agrees(
    alloc: Global,
    policy: &UrlPolicy<PatternRegexp>,
    base: Option<&Url>,
    text: &str,
    decision: Decision,
) -> Result<bool, Fault> {
    let url = match base {
        Some(base) => base.join(text),
        None => Url::parse(alloc, text),
    };
    match url {
        Ok(url) => match policy.decide_url(alloc, &url) {
            Decision::Deny(DenyReason::OutOfMemory) => Err(Fault::OutOfMemory),
            again => Ok(again == decision),
        },
        Err(url::ParseError::OutOfMemory) => Err(Fault::OutOfMemory),
        Err(_) => Ok(!decision.is_allowed()),
    }
}
