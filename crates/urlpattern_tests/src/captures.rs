//! Borrowed matches: their texts and groups. Without an engine they do not allocate.

use crate::given::{expect_same, pattern_of, url_of};
use std::alloc::Global;
use std::process::Abort;
use std::test::Fail;
use url::Url;
use urlpattern::{ComponentName, Error, UrlPattern, UrlPatternCaptures};

/// The groups of all components. A component that is left out has a wildcard, whose name is a
/// number.
const EACH: &[(ComponentName, &str, Option<&str>)] = &[
    (ComponentName::Protocol, "0", Some("https")),
    (ComponentName::Username, "0", Some("")),
    (ComponentName::Password, "0", Some("")),
    (ComponentName::Hostname, "host", Some("example")),
    (ComponentName::Port, "0", Some("")),
    (ComponentName::Pathname, "x", Some("b")),
    (ComponentName::Pathname, "y", None),
    (ComponentName::Search, "0", Some("")),
    (ComponentName::Hash, "0", Some("")),
];

/// Compares the borrowed path of a match, and its groups.
fn expect_borrowed(rt: &impl Abort, found: &UrlPatternCaptures<'_, '_>) {
    expect_same(rt, found.input(ComponentName::Pathname), "/a/b", "the path");
    let groups = [
        ("x", Some("b"), Some(true)),
        ("y", None, Some(false)),
        ("z", None, None),
    ];
    for (name, capture, took_part) in groups {
        let group = found.get(ComponentName::Pathname, name);
        expect_same(rt, group, capture, name);
        expect_same(
            rt,
            found.took_part(ComponentName::Pathname, name),
            took_part,
            name,
        );
    }
}

/// Compares the groups of a component, and those of all components, in order.
fn expect_groups(rt: &impl Abort, found: &UrlPatternCaptures<'_, '_>) {
    let mut groups = found.groups(ComponentName::Pathname);
    assert_eq!(rt; groups.next(), Some(("x", Some("b"))));
    assert_eq!(rt; groups.next(), Some(("y", None)));
    assert_eq!(rt; groups.next(), None);
    let mut groups = found.iter();
    for group in EACH {
        assert_eq!(rt; groups.next(), Some(*group));
    }
    assert_eq!(rt; groups.next(), None);
}

/// Compares a match and its copy.
fn expect_copied(
    rt: &impl Abort,
    alloc: Global,
    found: &UrlPatternCaptures<'_, '_>,
) -> Result<(), Error> {
    expect_borrowed(rt, found);
    expect_groups(rt, found);
    let written = format!(in alloc; "{found:?}")?;
    assert!(rt; !written.is_empty());
    let copy = found.clone()?;
    expect_groups(rt, &copy);
    drop(copy);
    let groups = found.to_groups(alloc)?;
    assert!(rt; groups.len() < EACH.len());
    Ok(())
}

/// Compares the match of a URL by a pattern.
fn expect_match(
    rt: &impl Abort,
    alloc: Global,
    pattern: &UrlPattern,
    url: &Url,
) -> Result<(), Error> {
    let found = pattern.captures(alloc, url)?;
    let outcome = match &found {
        Some(found) => expect_copied(rt, alloc, found),
        None => panic!(rt; "no match"),
    };
    drop(found);
    outcome
}

#[test]
fn a_match_is_borrowed(rt: HostRuntime) -> Result<(), Fail> {
    let alloc = rt.alloc();
    let url = url_of(alloc, "https://example.com/a/b")?;
    let pattern = pattern_of(
        alloc,
        &[("hostname", ":host.com"), ("pathname", "/a/:x{/:y}?")],
    )?;
    let outcome = expect_match(&rt, alloc, &pattern, &url);
    drop(pattern);
    drop(url);
    outcome?;
    Ok(())
}
