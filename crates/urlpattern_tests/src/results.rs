//! Owned results: names in order, copies and comparisons.

use crate::given::{Fields, pattern_of, url_input, url_of};
use serde_json::Value;
use std::alloc::Global;
use std::process::Abort;
use std::test::Fail;
use urlpattern::{ComponentName, Error, UrlPattern, UrlPatternComponentResult, UrlPatternResult};

/// The match of a URL by a pattern with these texts.
fn found_by(alloc: Global, fields: Fields<'_>, url: &str) -> Result<UrlPatternResult, Fail> {
    let input = url_input(alloc, url)?;
    let pattern: UrlPattern = pattern_of(alloc, fields)?;
    let found = pattern.exec(alloc, input);
    drop(pattern);
    match found? {
        Some(found) => Ok(found),
        None => Err(Fail::from("no match")),
    }
}

/// Compares the names of a component's groups, in order, and their captures.
fn expect_named(
    rt: &impl Abort,
    alloc: Global,
    found: &UrlPatternComponentResult,
    groups: &[(&str, Option<&str>)],
) -> Result<(), Error> {
    let names = found.sorted_names(alloc)?;
    assert_eq!(rt; names.len(), groups.len());
    for (name, (expected, captured)) in names.iter().zip(groups) {
        assert_eq!(rt; name, expected);
        assert_eq!(rt; found.get(name), *captured);
    }
    Ok(())
}

#[test]
fn names_are_sorted(rt: HostRuntime) -> Result<(), Fail> {
    let alloc = rt.alloc();
    let found = found_by(
        alloc,
        &[("pathname", "/:b/:a{/:c}?")],
        "https://example.com/1/2",
    )?;
    let groups = [("a", Some("2")), ("b", Some("1")), ("c", None)];
    let outcome = expect_named(&rt, alloc, &found.pathname, &groups);
    assert_eq!(rt; found.get(ComponentName::Pathname, "a"), Some("2"));
    assert_eq!(rt; found.get(ComponentName::Search, "a"), None);
    drop(found);
    outcome?;
    Ok(())
}

/// The JSON of a borrowed match of a URL.
fn borrowed_tree(alloc: Global, fields: Fields<'_>, url: &str) -> Result<Option<Value>, Error> {
    let url = url_of(alloc, url)?;
    let pattern: UrlPattern = pattern_of(alloc, fields)?;
    let found = pattern.captures(alloc, &url);
    let tree = match &found {
        Ok(Some(found)) => match found.to_json_value(alloc) {
            Ok(tree) => Ok(Some(tree)),
            Err(error) => Err(error),
        },
        Ok(None) => Ok(None),
        Err(_) => Err(Error::OutOfMemory),
    };
    drop(found);
    drop(pattern);
    drop(url);
    tree
}

#[test]
fn a_borrowed_match_has_the_json_of_its_result(rt: HostRuntime) -> Result<(), Fail> {
    let alloc = rt.alloc();
    let fields = [("pathname", "/:x{/:y}?")];
    let found = found_by(alloc, &fields, "https://example.com/1")?;
    let tree = found.to_json_value(alloc);
    drop(found);
    let expected = tree?;
    let borrowed = borrowed_tree(alloc, &fields, "https://example.com/1")?;
    assert!(rt; borrowed.as_ref() == Some(&expected));
    Ok(())
}
