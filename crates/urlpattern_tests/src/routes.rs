//! Static routes as they are given: read from JSON with all of their faults, and written again.

use crate::given::expect_same;
use serde_json::Value;
use std::alloc::Global;
use std::process::Abort;
use std::test::Fail;
use urlpattern_routes::{
    RouterLimits, RouterRule, normalized_method, read_rule, rules_in, rules_to_json,
};

/// Calls, each with its rules as they are written again.
const RULES: [(&str, &str); 5] = [
    ("[]", "[]"),
    (
        r#"{"source":"network","condition":{"requestMethod":"get","other":1}}"#,
        r#"[{"condition":{"requestMethod":"GET"},"source":"network"}]"#,
    ),
    (
        r#"[{"condition":{"urlPattern":null,"requestDestination":""},"source":{"cacheName":5}}]"#,
        r#"[{"condition":{"requestDestination":"","urlPattern":{}},"source":{"cacheName":"5"}}]"#,
    ),
    (
        r#"[{"condition":{"or":[{"urlPattern":"/a"},{"not":{"runningStatus":"running"}}]},"source":"cache"}]"#,
        r#"[{"condition":{"or":[{"urlPattern":"/a"},{"not":{"runningStatus":"running"}}]},"source":"cache"}]"#,
    ),
    (
        r#"[{"condition":{"or":[]},"source":"fetch-event"},{"condition":{"requestMode":"cors"},"source":"race-network-and-fetch-handler"}]"#,
        r#"[{"condition":{"or":[]},"source":"fetch-event"},{"condition":{"requestMode":"cors"},"source":"race-network-and-fetch-handler"}]"#,
    ),
];

/// Calls, each with its faults.
const FAULTS: [(&str, &str); 6] = [
    ("null", "0 Condition Missing, 0 Source Missing, "),
    (
        r#"[{"condition":{},"source":"Network"},{"condition":{"requestMethod":"Trace","requestMode":"x"},"source":"cache"}]"#,
        "0 Condition Empty, 0 Source UnknownName, 1 Attribute(Method) ForbiddenMethod, 1 Attribute(Mode) UnknownName, ",
    ),
    (
        r#"{"condition":{"or":{},"not":{"urlPattern":[]}},"source":"network"}"#,
        "0 Or NotAlone, 0 Or NotAnArray, ",
    ),
    (
        r#"{"condition":{"not":{"requestMethod":"a/b"},"requestMethod":"GET"},"source":{"cacheName":[]}}"#,
        "0 Not NotAlone, 0 Attribute(Method) NotAMethod, 0 Source NotAText, ",
    ),
    (
        r#"{"condition":{"not":{"not":{"not":{"requestMode":"cors"}}}},"source":"network"}"#,
        "0 Not TooDeep, ",
    ),
    (
        r#"{"condition":{"urlPattern":[]},"source":"fetch-event"}"#,
        "0 UrlPattern NotAPattern, 0 Source NoHandler, ",
    ),
];

/// The rules of a call that have no fault, and the faults of the others in words.
fn read(
    alloc: Global,
    json: &str,
    limits: &RouterLimits,
) -> Result<(Vec<RouterRule>, String), Fail> {
    let tree: Value = serde_json::from_str(alloc, json)?;
    let mut rules = Vec::new(alloc);
    let mut faults = String::new(alloc);
    for (index, item) in rules_in(&tree).iter().enumerate() {
        match read_rule(alloc, item, limits)? {
            Ok(rule) => {
                rules.push(rule)?;
            }
            Err(found) => {
                for fault in &found {
                    let (member, reason) = (fault.member, fault.reason);
                    let words = format!(in alloc; "{index} {member:?} {reason:?}, ")?;
                    faults.push_str(&words)?;
                }
            }
        }
    }
    Ok((rules, faults))
}

#[test]
fn rules_are_written_as_they_were_read(rt: HostRuntime) -> Result<(), Fail> {
    let alloc = rt.alloc();
    for (given, expected) in RULES {
        let (rules, faults) = read(alloc, given, &RouterLimits::new())?;
        expect_same(&rt, faults.as_str(), "", given);
        let written = rules_to_json(alloc, &rules)?.to_string(alloc)?;
        expect_same(&rt, written.as_str(), expected, given);
        let (again, _) = read(alloc, &written, &RouterLimits::new())?;
        let twice = rules_to_json(alloc, &again)?.to_string(alloc)?;
        expect_same(&rt, twice.as_str(), expected, given);
    }
    Ok(())
}

#[test]
fn all_faults_are_found(rt: HostRuntime) -> Result<(), Fail> {
    let alloc = rt.alloc();
    let mut limits = RouterLimits::new();
    limits.depth = 3;
    limits.has_handler = false;
    for (given, expected) in FAULTS {
        let (_, faults) = read(alloc, given, &limits)?;
        expect_same(&rt, faults.as_str(), expected, given);
    }
    Ok(())
}

#[test]
fn methods_are_normalized(rt: HostRuntime) -> Result<(), Fail> {
    let alloc = rt.alloc();
    for (given, expected) in [("dElEtE", "DELETE"), ("patch", "patch"), ("put", "PUT")] {
        let method = normalized_method(alloc, given)?;
        expect_same(&rt, method.as_str(), expected, given);
    }
    Ok(())
}
