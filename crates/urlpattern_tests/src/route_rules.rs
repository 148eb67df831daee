//! The rules of a service worker: calls that are accepted or rejected, and what the rules decide.

use crate::given::{expect_same, url_of};
use serde_json::Value;
use std::alloc::Global;
use std::process::Abort;
use std::slice;
use std::test::Fail;
use urlpattern::Error;
use urlpattern_route_rules::{PatternFault, RouteFault, RouterFetch, RouterRules, RoutesError};
use urlpattern_routes::{RouterLimits, rules_to_json};

/// The URL of the worker's script.
const SCRIPT: &str = "http://app.example/js/sw.js";

/// Calls, each with its faults in words. A call without faults is accepted.
const CALLS: [(&str, &str); 7] = [
    (
        r#"[{"condition":{"urlPattern":"x/:id","requestMethod":"get"},"source":"cache"},{"condition":{"not":{"requestMode":"navigate"}},"source":{"cacheName":"v1"}}]"#,
        "",
    ),
    (
        r#"[{"condition":{"requestMode":"navigate"},"source":"network"},{"condition":{"urlPattern":"/(a)","requestMethod":"TRACE"},"source":"network"}]"#,
        "1 Attribute(Method) ForbiddenMethod, 1 CustomExpression pathname, ",
    ),
    (
        r#"{"condition":{"or":[{"urlPattern":{"search":":x"}},{"urlPattern":{"hash":"(.*)"}}]},"source":"network"}"#,
        "0 Name search, ",
    ),
    (
        r#"{"condition":{"urlPattern":{"pathname":"/x","baseURL":"x"}},"source":"network"}"#,
        "0 Rejected base URL, ",
    ),
    (
        r#"{"condition":{"not":{"urlPattern":{"pathname":"/{x"}}},"source":"network"}"#,
        "0 Rejected pathname, ",
    ),
    (
        r#"[{"condition":{"or":[]},"source":"cache"},{"condition":{"or":[]},"source":"cache"},{"condition":{},"source":"cache"}]"#,
        "TooManyRules, 2 Condition Empty, ",
    ),
    (
        r#"{"condition":{"runningStatus":"not-running"},"source":"network"}"#,
        "",
    ),
];

/// Indices, each with its rule as it is written.
const WRITTEN: [(usize, &str); 2] = [
    (
        1,
        r#"[{"condition":{"not":{"requestMode":"navigate"}},"source":{"cacheName":"v1"}}]"#,
    ),
    (3, "none"),
];

/// Requests by method, mode and URL, each with the rule that decides and its source.
const REQUESTS: [(&str, &str, &str, &str); 6] = [
    ("Get", "navigate", "http://app.example/js/x/1", "0 cache"),
    ("POST", "navigate", "http://app.example/js/x/1", "2 network"),
    ("POST", "cors", "http://app.example/js/x/1", "1 v1"),
    ("GET", "navigate", "http://app.example/js/x/1#a", "0 cache"),
    ("GET", "navigate", "http://app.example/js/x/1/2", "2 network"),
    ("GET", "navigate", "http://cdn.example/js/x/1", "2 network"),
];

/// A fault in words.
fn words(alloc: Global, fault: &RouteFault) -> Result<String, Error> {
    Ok(match fault {
        RouteFault::TooManyRules => String::from_str(alloc, "TooManyRules, ")?,
        RouteFault::Member(rule, fault) => {
            format!(in alloc; "{rule} {:?} {:?}, ", fault.member, fault.reason)?
        }
        RouteFault::Pattern(rule, PatternFault::Rejected(diagnosis)) => {
            format!(in alloc; "{rule} Rejected {}, ", diagnosis.subject.name())?
        }
        RouteFault::Pattern(rule, PatternFault::CustomExpression(name)) => {
            format!(in alloc; "{rule} CustomExpression {name}, ")?
        }
        RouteFault::Pattern(rule, PatternFault::Name(name)) => {
            format!(in alloc; "{rule} Name {name}, ")?
        }
    })
}

/// Adds the rules of a call, and returns its faults in words.
fn add(alloc: Global, rules: &mut RouterRules, call: &str) -> Result<String, Error> {
    let mut found = String::new(alloc);
    let Ok(tree) = Value::from_str(alloc, call) else {
        return Err(Error::OutOfMemory);
    };
    let mut limits = RouterLimits::new();
    limits.rules = 2;
    match rules.add(alloc, &tree, &limits) {
        Ok(()) => {}
        Err(RoutesError::OutOfMemory) => return Err(Error::OutOfMemory),
        Err(RoutesError::Rejected(faults)) => {
            for fault in &faults {
                found.push_str(&words(alloc, fault)?)?;
            }
        }
    }
    Ok(found)
}

/// The rules of a worker after the calls.
fn rules(rt: &(impl Abort + AllocGlobal)) -> Result<RouterRules, Error> {
    let alloc = rt.alloc();
    let mut rules = RouterRules::new(alloc, url_of(alloc, SCRIPT)?);
    for (call, expected) in CALLS {
        let before = rules.table.rules.len();
        let found = add(alloc, &mut rules, call)?;
        expect_same(rt, found.as_str(), expected, call);
        expect_same(rt, rules.table.rules.len() == before, !expected.is_empty(), call);
    }
    Ok(rules)
}

#[test]
fn a_rejected_call_adds_no_rule(rt: HostRuntime) -> Result<(), Fail> {
    let added = rules(&rt)?;
    expect_same(&rt, added.table.rules.len(), 3, "calls");
    Ok(())
}

#[test]
fn a_rule_is_written_as_it_was_given(rt: HostRuntime) -> Result<(), Fail> {
    let alloc = rt.alloc();
    let added = rules(&rt)?;
    for (index, expected) in WRITTEN {
        let written = match added.table.rules.get(index) {
            Some(rule) => rules_to_json(alloc, slice::from_ref(&rule.value))?.to_string(alloc)?,
            None => String::from_str(alloc, "none")?,
        };
        expect_same(&rt, written.as_str(), expected, "calls");
    }
    Ok(())
}

#[test]
fn the_first_rule_that_holds_decides(rt: HostRuntime) -> Result<(), Fail> {
    let alloc = rt.alloc();
    let added = rules(&rt)?;
    for (method, mode, text, expected) in REQUESTS {
        let fetch = RouterFetch {
            url: &url_of(alloc, text)?,
            method,
            mode,
            destination: "",
            is_running: false,
        };
        let found = match added.decide(alloc, &fetch)? {
            Some((index, rule)) => format!(in alloc; "{index} {}", rule.source.as_str())?,
            None => String::from_str(alloc, "none")?,
        };
        expect_same(&rt, found.as_str(), expected, text);
    }
    Ok(())
}
