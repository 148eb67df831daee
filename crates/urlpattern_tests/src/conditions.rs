//! Tables of rules with conditions: which rule decides about a request to a proxy.

use crate::given::{expect_same, pattern_of, url_of};
use regex::Regex;
use std::alloc::Global;
use std::process::Abort;
use std::test::Fail;
use urlpattern::{Error, url_texts};
use urlpattern_conditions::{Condition, ConditionTable, Request, Rule};

/// The attributes of a request, in the order of its names.
const METHOD: usize = 0;
const SCHEME: usize = 1;

/// Requests, each with the rule that decides about it and its value.
const REQUESTS: [(&str, &str, &str); 9] = [
    ("GET", "https://example.com/users/me", "0 read"),
    ("HEAD", "https://example.com/users/me", "0 read"),
    ("POST", "https://example.com/users/me", "1 write"),
    ("get", "https://example.com/users/me", "1 write"),
    ("GET", "https://example.com/static/a.js", "2 static"),
    ("POST", "https://example.com/static/a.js", "none"),
    ("GET", "https://example.com/", "4 other"),
    ("PUT", "https://example.com/users", "none"),
    ("PUT", "https://example.com/users/me/files", "none"),
];

/// The condition that a URL has this path.
fn path(alloc: Global, pathname: &str) -> Result<Condition, Error> {
    let pattern = pattern_of(alloc, &[("pathname", pathname)])?;
    Ok(Condition::Url(Box::new(alloc, pattern)?))
}

/// The condition that an attribute has a name.
fn name(alloc: Global, attribute: usize, name: &str) -> Result<Condition, Error> {
    Ok(Condition::Name(attribute, String::from_str(alloc, name)?))
}

/// The opposite of a condition.
fn not(alloc: Global, condition: Condition) -> Result<Condition, Error> {
    Ok(Condition::Not(Box::new(alloc, condition)?))
}

/// The condition that the method is `GET` or `HEAD`.
fn reads(alloc: Global) -> Result<Condition, Error> {
    let methods = vec![in alloc; name(alloc, METHOD, "GET")?, name(alloc, METHOD, "HEAD")?]?;
    Ok(Condition::Any(methods))
}

/// The rules of a proxy.
fn table(alloc: Global) -> Result<ConditionTable<&'static str>, Error> {
    let mut table = ConditionTable::new(alloc);
    let users = vec![in alloc; path(alloc, "/users/:id")?, reads(alloc)?]?;
    let files = vec![in alloc; path(alloc, "/static/*")?, name(alloc, METHOD, "GET")?]?;
    let rules = vec![
        in alloc;
        (Condition::All(users), "read"),
        (path(alloc, "/users/:id")?, "write"),
        (Condition::All(files), "static"),
        (Condition::Any(Vec::new(alloc)), "never"),
        (not(alloc, not(alloc, path(alloc, "/")?)?)?, "other"),
        (name(alloc, SCHEME, "ws")?, "socket"),
    ]?;
    for (condition, value) in rules {
        table.rules.push(Rule { condition, value })?;
    }
    Ok(table)
}

/// What the table decides about a request, in words.
fn decided(
    alloc: Global,
    table: &ConditionTable<&'static str>,
    method: &str,
    url: &str,
) -> Result<String, Error> {
    let url = url_of(alloc, url)?;
    let request = Request {
        texts: &url_texts(&url),
        names: &[method, "https"],
    };
    Ok(match table.decide(alloc, &request)? {
        Some((index, value)) => format!(in alloc; "{index} {value}")?,
        None => String::from_str(alloc, "none")?,
    })
}

#[test]
fn the_first_condition_that_holds_decides(rt: HostRuntime) -> Result<(), Fail> {
    let alloc = rt.alloc();
    let table = table(alloc)?;
    for (method, url, expected) in REQUESTS {
        let found = decided(alloc, &table, method, url)?;
        expect_same(&rt, found.as_str(), expected, url);
    }
    Ok(())
}
