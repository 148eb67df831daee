//! A policy: which URLs a program may fetch.

use crate::given::expect_same;
use crate::guide::{expect_line, pattern, text};
use std::alloc::Global;
use std::process::Abort;
use std::test::Fail;
use url::Url;
use urlpattern::Error;
// docs: policy_imports
use urlpattern::regexp::PatternRegexp;
use urlpattern_policy::{Decision, DenyReason, UrlPolicy};

/// A policy over the library's own engine.
type Policy = UrlPolicy<PatternRegexp>;
// docs: end

/// A URL that is spelled otherwise than the rule that denies it.
const INTERNAL: &str = "https://api.example.com/%69nternal/keys";

/// A policy that allows an API but not its internal part, and denies all else.
fn policy(alloc: Global) -> Result<Policy, Error> {
    // docs: policy
    let mut policy = UrlPolicy::new(alloc);
    policy.options.denies_credentials = true;
    policy.deny(pattern(alloc, "https://api.example.com/internal/*")?)?;
    policy.allow(pattern(alloc, "https://api.example.com/*")?)?;
    // docs: end
    Ok(policy)
}

// docs: may_fetch
/// The URL that a program may fetch for this text, if there is one.
fn may_fetch(alloc: Global, policy: &Policy, asked: &str) -> Option<Url> {
    let url = Url::parse(alloc, asked).ok()?;
    if policy.decide_url(alloc, &url).is_allowed() {
        Some(url)
    } else {
        None
    }
}
// docs: end

/// Compares the URLs that a program may fetch for texts. Without memory it may fetch none, which is
/// reported.
fn expect_fetched(rt: &impl Abort, alloc: Global, policy: &Policy) -> Result<(), Error> {
    let Some(url) = may_fetch(alloc, policy, "https://api.example.com/users") else {
        return Err(Error::OutOfMemory);
    };
    expect_same(rt, url.path(), "/users", "an allowed URL");
    for asked in [
        INTERNAL,
        "https://user@api.example.com/",
        "//api.example.com/",
    ] {
        let url = may_fetch(alloc, policy, asked);
        expect_same(rt, url.is_none(), true, asked);
    }
    Ok(())
}

#[test]
fn what_a_program_may_fetch(rt: HostRuntime) -> Result<(), Fail> {
    let policy = policy(rt.alloc())?;
    expect_fetched(&rt, rt.alloc(), &policy)?;
    Ok(())
}

/// What is decided about a text, and why, in words.
fn reason(alloc: Global, policy: &Policy, asked: &str) -> Result<String, Error> {
    // docs: decision
    match policy.decide(alloc, asked, None) {
        Decision::Allow(Some(rule)) => Ok(format!(in alloc; "allowed by rule {rule}")?),
        Decision::Allow(None) => text(alloc, "allowed by default"),
        Decision::Deny(DenyReason::Rule(rule)) => Ok(format!(in alloc; "denied by rule {rule}")?),
        Decision::Deny(DenyReason::NotAUrl(error)) => Ok(format!(in alloc; "no URL: {error}")?),
        Decision::Deny(DenyReason::OutOfMemory) => Err(Error::OutOfMemory),
        Decision::Deny(_) => text(alloc, "denied"),
    }
    // docs: end
}

/// What a policy decides about a text, and why, in words.
fn reason_line(alloc: Global, asked: &str) -> Result<String, Error> {
    let policy = policy(alloc)?;
    reason(alloc, &policy, asked)
}

#[test]
fn what_a_policy_decides(rt: HostRuntime) -> Result<(), Fail> {
    let users = reason_line(rt.alloc(), "https://api.example.com/users");
    expect_line(&rt, users, "allowed by rule 1")?;
    expect_line(&rt, reason_line(rt.alloc(), INTERNAL), "denied by rule 0")?;
    let with_user = reason_line(rt.alloc(), "https://user@api.example.com/");
    expect_line(&rt, with_user, "denied")?;
    let relative = reason_line(rt.alloc(), "//api.example.com/");
    expect_line(&rt, relative, "no URL: relative URL without a base")?;
    Ok(())
}
